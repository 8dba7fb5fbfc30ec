/* says.h - what the files of says share: see says.c. */
#ifndef SAYS_H
#define SAYS_H

#include "reference.h"

#include <stddef.h>
#include <stdint.h>

struct bytes {
    uint8_t *at;
    size_t len;
};

/* ------------------------------------------------------- says.c: the files */

void *must(void *memory);
/* All of a file, or of standard input where the path is null; where it cannot
 * be read, at is null and the cause has been told. */
struct bytes read_file(const char *path);
/* All of standard input; a line that a read which failed cut short is left
 * out, and the cause has been told. */
struct bytes read_events(void);
/* What cannot be written is told. */
void write_rack(const char *path, struct bytes rack);
/* Whether all that was printed could be; if not, that has been told. */
int printed(void);

/* -------------------------------------------------------- says_text.c: text */

/* What a line must have where it cannot be read. The words stand in one table
 * in says_text.c. */
enum what {
    AN_EVENT, THE_END, A_HEX_DIGIT, A_SECOND_DIGIT, A_TARGET, A_NUMBER, A_BYTE, A_BYTE_OR_LOCK, A_MASK,
    A_QUOTE, THE_EDITION, A_TAG, A_FIELD, A_STATE, YES_OR_NO, A_UID, THE_WORD_OF, A_BLOCK, NO_MORE_BYTES,
    BLOCKS_FIRST, TO_LOCK_OR_END, LOCK_OR_END, TO_OR_END, A_LAST_BLOCK
};

/* A line that is read from left to right. The first offence stays. */
struct line {
    const uint8_t *at;
    size_t len;
    size_t pos;
    int bad;
    size_t column;
    enum what what;
};

/* The next line of the input from *from on, which then stands behind it. 0
 * where there is none, -1 where it is too long. */
int next_line(struct bytes input, size_t *from, struct line *line);
/* Without the three bytes of a UTF-8 mark at the front. */
struct bytes without_mark(struct bytes input);

void offend(struct line *line, size_t place, enum what what);
const char *expected(const struct line *line);

/* Passes blanks; whether nothing more is said. */
int at_end(struct line *line);
/* One that must be. */
void take_end(struct line *line);
/* A word, which stands there, in either case. */
int take_word(struct line *line, const char *word);
/* Which of these words, null behind the last; or -1 and an offence. */
int take_one_of(struct line *line, const char *const *words, enum what what);
/* A decimal number in these bounds; else an offence, and 0. */
unsigned take_number(struct line *line, unsigned least, unsigned most, enum what what);
/* Two hex digits, or all sixteen of a UID: high byte first. */
uint8_t take_byte(struct line *line, enum what what);
uint64_t take_uid(struct line *line, enum what what);
/* Whether the next word is so many hex digits and no more. */
int hex_word(struct line *line, size_t digits);
/* BITS/HEX, at most 64 bits; HEX has as many bytes as hold them. */
unsigned take_mask(struct line *line, uint64_t *mask);
/* Bytes in hex. Where `stops`, a word that opens with no hex digit ends them;
 * else only the line's end does. No more than `most`; gives how many. */
size_t take_hex(struct line *line, int stops, uint8_t *out, size_t most);
/* Bytes in hex, or between quotes. */
size_t take_data(struct line *line, int stops, uint8_t *out, size_t most);

/* ---------------------------------------------- says_rack.c: parts of a rack */

extern const char *const LABEL_STATES[];     /* null behind the last */
extern const char *const CHIP_STATES[];

size_t body_length(const uint8_t *rack, size_t entry);
uint64_t uid_at(const uint8_t *rack, size_t entry);

/* Blocks of a tag by their number, in order: next_block from -1 on, -1 behind
 * the last. */
struct block {
    int number;
    uint8_t *at;
    size_t len;
    int locked;
};
int next_block(uint8_t kind, const uint8_t *body, int number);
struct block block_at(uint8_t kind, uint8_t *body, int number);

int printable(const uint8_t *bytes, size_t len);
/* A mask as BITS/HEX, into room for 32. */
void mask_text(char *out, unsigned bits, uint64_t mask);

/* Why a rack is not well-formed, as one line without its end, into room for
 * 160; whether it is. */
int refused(const uint8_t *rack, size_t len, char *out);

/* ------------------------------------------- says_frame.c: what frames ask */

enum call { NOBODY, IGNORED, FAULT, INVENTORY, TASK, CHIP_TASK };

struct asked {
    enum call call;
    const char *why;             /* of nobody and ignored; null: by the check sum */
    struct ref_command command;  /* of a fault its target alone */
    uint64_t uid;
};

struct asked ask_label(const uint8_t *frame, size_t len);
struct asked ask_chip(const uint8_t *frame, size_t len);
/* The name of what is asked, into room for 120. */
void name_of(const struct asked *asked, char *out);
/* Room for what 256 blocks of 32 bytes mean: their text, and the numbers of all
 * of them. */
enum { MEANING_ROOM = 10000 };
/* What an answer means to who asked, into so much room. */
void meaning_of(const struct asked *asked, const uint8_t *answer, size_t len, char *out);

/* ----------------------------------------------- says_why.c: why nobody answered */

/* Of the rack as the event left it, into room for 120. */
void why_silent(const uint8_t *rack, uint8_t event, const struct asked *asked, const uint8_t *frame, size_t len,
                char *out);

/* ------------------------------------------------------------ the programs */

int play(int quiet, const char *path, const char *next);
int show(const char *path);
int make(const char *text, const char *path);
int walk(int has_afi, uint8_t afi, const char *path);

#endif
