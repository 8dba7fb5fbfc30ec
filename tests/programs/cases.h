/* cases.h - what the files of cases share: see cases.c. */
#ifndef CASES_H
#define CASES_H

#include "gen.h"

#include <stdio.h>

struct script {
    struct gen g;
    struct gen_event event;
    uint8_t rack[GEN_RACK_ROOM];     /* as the tags would be: frames are made for it */
    size_t rack_len;
    uint8_t draws[GEN_DRAWS_ROOM];   /* those in force */
    const char *end;                 /* of each line */
    FILE *out;
};

/* cases_text.c: pieces of text, spelled in every way that is read */
void put(struct script *s, const char *text);
void put_many(struct script *s, int c, size_t n);
void end_line(struct script *s);
/* Blanks, at least so many. */
void blanks(struct script *s, uint32_t least);
/* Blanks and a comment behind what a line says, or neither; and its end. */
void tail(struct script *s);
/* A word, in either case. */
void word(struct script *s, const char *text);
/* Bytes in hex, with what may stand between and before them. */
void hex(struct script *s, const uint8_t *bytes, size_t len);
/* The same, or between quotes where they can stand there. */
void data(struct script *s, const uint8_t *bytes, size_t len);
/* A number as hex digits that all stand together, high byte first. */
void digits(struct script *s, uint64_t number, unsigned bytes);
void mask(struct script *s, unsigned bits, uint64_t mask);
/* The three bytes of a UTF-8 mark, or none. */
void mark(struct script *s);

/* cases_lines.c: lines for play */
/* An event on the rack as it is, written, and played so that the next fits. */
void play_one(struct script *s);
/* A command in words, on the rack as it is, and played too. */
void say_one(struct script *s);
void bad_line(struct script *s);
/* Every bad line of the list. */
void bad_lines(struct script *s);
/* Every line whose reading is a matter of taste. */
void odd_lines(struct script *s);

/* cases_rack.c: racks, and racks as text */
/* Blocks that have nothing, or something to be read, here and there. */
void soften(struct gen *g, uint8_t *rack);
/* The rack as text that make reads. */
void rack_text(struct script *s, uint8_t *rack);
/* Fields that text can say and that a rack cannot have, maybe. */
void break_fields(struct gen *g, uint8_t *rack);

#endif
