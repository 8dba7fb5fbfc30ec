/* gen.h - a seeded generator of racks, frames, events, commands and answers
 * for differential tests. The same seed gives the same cases everywhere. */
#ifndef GEN_H
#define GEN_H

#include "reference.h"

enum {
    GEN_RACK_ROOM = 66000,     /* room a rack buffer must have */
    GEN_FRAME_ROOM = 70100,    /* room a frame buffer must have */
    GEN_DRAWS_ROOM = 80,
    GEN_ANSWER_ROOM = 8800,    /* no event asks for a longer answer buffer */
    GEN_DATA_ROOM = 64
};

struct gen {
    uint64_t state;
    unsigned ends_to_come;     /* ends of frame still to be sent in a row */
};

void gen_seed(struct gen *g, uint64_t seed);
uint64_t gen_u64(struct gen *g);
uint8_t gen_byte(struct gen *g);
uint32_t gen_below(struct gen *g, uint32_t n);         /* 0 to n - 1; n not 0 */
int gen_chance(struct gen *g, uint32_t percent);
/* An AFI to mark a label with or to ask for, that often meets this one: it
 * shares its high half, is X0 or 0Y of it, or 00. */
uint8_t gen_afi(struct gen *g, uint8_t near);

/* Bytes of any kind, none, few or many; gives how many. */
size_t gen_bytes(struct gen *g, uint8_t *bytes);

/* A random well-formed rack; gives its length. */
size_t gen_rack(struct gen *g, uint8_t *rack);
/* Is this tag a chip whose bytes would all pass for a label's in state 1 or
 * 3? Racks are made with some, and some of those have a label's UID. */
int gen_like_label(const uint8_t *rack, size_t entry);
/* One or two labels of 256 blocks of 32 bytes, whose answers are the longest. */
size_t gen_long_rack(struct gen *g, uint8_t *rack);
/* A well-formed rack of exactly 65,536 bytes. */
size_t gen_full_rack(struct gen *g, uint8_t *rack);
/* All in order but the size: longer than 65,536 bytes, or more than 64 tags
 * (up to 70). Not well-formed, yet good enough to be handed to gen_event. */
size_t gen_over_rack(struct gen *g, uint8_t *rack);
/* Spoils a well-formed rack: a byte changed, a field broken, cut or made
 * longer. It can by chance still be well-formed. Gives the new length. */
size_t gen_damage(struct gen *g, uint8_t *rack, size_t len);

/* The rack handed to these must be well-formed. */
size_t gen_label_frame(struct gen *g, const uint8_t *rack, uint8_t *frame);
size_t gen_chip_frame(struct gen *g, const uint8_t *rack, uint8_t *frame);
void gen_draws(struct gen *g, uint8_t *draws, size_t len);

struct gen_event {
    uint8_t number;
    size_t frame_len;
    size_t draws_len;
    size_t answer_len;
    uint8_t draws[GEN_DRAWS_ROOM];
    uint8_t frame[GEN_FRAME_ROOM];
};

/* An event for this rack. With `good` set its number, draws and buffer are
 * never the cause of a refusal. */
void gen_event(struct gen *g, const uint8_t *rack, int good, struct gen_event *event);

struct gen_command {
    struct ref_command command;
    uint8_t uid[REF_UID];
    uint8_t data[GEN_DATA_ROOM];
    size_t data_len;
    size_t out_len;             /* of the writer's buffer: 64, 63, others */
};

/* A command for the reader's side, near valid or far from it. */
void gen_command(struct gen *g, struct gen_command *c);
/* An answer to it, near valid or far from it; gives its length. */
size_t gen_answer(struct gen *g, const struct gen_command *c, uint8_t *frame);

#endif
