/* reference.h - an independent reading, in plain C, of the rules of the rack.
 *
 * "The paper" is document 01, as document 02 changes it. It decides. Frame
 * bytes and codes are written in hex in the comments, as the paper writes them. Bits count from 0.
 * All numbers of several bytes go least significant byte first.
 */
#ifndef REFERENCE_H
#define REFERENCE_H

#include <stddef.h>
#include <stdint.h>

/* ---------------------------------------------------------------- limits */

enum {
    REF_RACK_MOST = 65536,   /* bytes in a rack */
    REF_TAGS_MOST = 64,      /* tags in a rack */
    REF_HEAD = 2,            /* edition and number of tags */
    REF_ENTRY = 8,           /* bytes of one entry of the contents */
    REF_UID = 8,
    REF_OUTPUT = 64,         /* the request writer's buffer must have as many bytes */
    REF_ANSWER = 8451,       /* and an event's: 00, 256 blocks of 32 bytes with their
                                lock bytes, CRC */
    REF_KIND_LABEL = 1,
    REF_KIND_CHIP = 2
};

/* ------------------------------------------------------- the public calls */

/* Event numbers. */
enum { REF_OFF = 1, REF_ON = 2, REF_LABEL_FRAME = 3, REF_END_OF_FRAME = 4, REF_CHIP_FRAME = 5 };

/* In every result `number` is 0 for a success and else the refusal's number
 * from the paper's table; in a refusal all the rest of the result is 0.
 * Every call also returns that number. */
struct ref_report {
    uint32_t number;
    uint32_t answered;   /* how many tags answered */
    uint32_t length;     /* of the one answer; 0 with none or several */
};

struct ref_walked {
    uint32_t number;
    uint32_t labels;     /* the list holds 8 bytes for each */
    uint32_t rounds;
};

struct ref_written {
    uint32_t number;
    uint32_t length;
};

/* 1 if these bytes are a well-formed rack file, else 0. */
int ref_well_formed(const uint8_t *rack, size_t rack_len);

/* One event sent to the rack. Refusals 1, 2, 3, 4. */
int ref_event(uint8_t *rack, size_t rack_len, uint8_t number,
              const uint8_t *frame, size_t frame_len,
              const uint8_t *draws, size_t draws_len,
              uint8_t *answer, size_t answer_len, struct ref_report *out);

/* The inventory walk. Refusals 1, 5, 6. `afi` counts only if `has_afi`. */
int ref_walk(uint8_t *rack, size_t rack_len, int has_afi, uint8_t afi,
             uint8_t *list, size_t list_len, struct ref_walked *out);

/* Who a command is for. */
enum { REF_EVERYONE = 0, REF_SELECTED = 1, REF_ONE_UID = 2 };

/* Codes of chip commands. The two that begin with 06 carry both their bytes,
 * the slot marker s6 has code 06 and s in `byte`; the others are one byte. */
enum {
    REF_INITIATE = 0x0600,
    REF_PCALL16 = 0x0604,
    REF_SLOT_MARKER = 0x0006,
    REF_READ_BLOCK = 0x0008,
    REF_WRITE_BLOCK = 0x0009,
    REF_GET_UID = 0x000B,
    REF_RESET_TO_INVENTORY = 0x000C,
    REF_SELECT = 0x000E,
    REF_COMPLETION = 0x000F
};

/* A command of the reader's side. Fields that a command does not have are
 * ignored. UID and data are handed over beside it. */
struct ref_command {
    uint8_t kind;         /* 1 label, 2 chip */
    uint16_t code;        /* label: the command byte; chip: see above */
    uint8_t target;       /* 0 everyone, 1 the selected tag, 2 one UID */
    uint8_t option;       /* not 0: Option set */
    uint8_t afi_present;  /* Inventory: not 0: an AFI is sent */
    uint8_t afi;
    uint8_t sixteen;      /* Inventory: not 0: sixteen slots, 0: one */
    uint8_t mask_bits;    /* Inventory: length of the mask */
    uint64_t mask;        /* Inventory: the mask as a number */
    uint8_t byte;         /* block number, AFI or DSFID to write, chip
                             address, slot s or Chip_ID */
    uint8_t more;         /* 23, 2C: number of blocks less 1, `byte` is the first */
};

/* What an answer means. */
enum {
    REF_MEANS_NOTHING = 0,    /* refused */
    REF_MEANS_ERROR = 1,      /* error */
    REF_MEANS_DONE = 2,       /* 00 alone */
    REF_MEANS_INVENTORY = 3,  /* dsfid, uid */
    REF_MEANS_BLOCK = 4,      /* lock (0 without Option), place, length */
    REF_MEANS_SYSTEM = 5,     /* uid, dsfid, afi, blocks, size, ic */
    REF_MEANS_CHIP_ID = 6,    /* chip_id */
    REF_MEANS_WORD = 7,       /* word, and place and length of its 4 bytes */
    REF_MEANS_CHIP_UID = 8,   /* uid */
    REF_MEANS_BLOCKS = 9,     /* place, length of one block, count; with Option a
                                 lock byte stands before each block, the first at
                                 place */
    REF_MEANS_LOCKS = 10      /* place, length 1, count: lock bytes */
};

struct ref_reading {
    uint32_t number;
    uint8_t meaning;
    uint8_t error;
    uint8_t dsfid;
    uint8_t afi;
    uint8_t blocks;       /* as sent: number of blocks less 1 */
    uint8_t size;         /* as sent: block length less 1 */
    uint8_t ic;
    uint8_t lock;
    uint32_t place;       /* where the data begins in the frame */
    uint32_t length;      /* how many data bytes */
    uint32_t count;       /* how many blocks */
    uint8_t chip_id;
    uint32_t word;
    uint8_t uid[REF_UID];
};

/* Writes the request frame. Refusals 3, 7. `uid` is read only when the
 * command is for one UID, `data` only by label 21 and chip 09. */
int ref_write_request(const struct ref_command *command, const uint8_t *uid,
                      const uint8_t *data, size_t data_len,
                      uint8_t *out, size_t out_len, struct ref_written *result);

/* Reads the answer to a command sent. Refusals 7, 8, 9. */
int ref_read_answer(const struct ref_command *command, const uint8_t *uid, size_t data_len,
                    const uint8_t *frame, size_t frame_len, struct ref_reading *out);

/* ------------------------------------- shared among the reference's files */

/* check_sum.c */
uint16_t ref_check_run(const uint8_t *bytes, size_t len);   /* the register, not inverted */
uint16_t ref_check_sum(const uint8_t *bytes, size_t len);   /* inverted: what is sent */
int ref_check_right(const uint8_t *frame, size_t len);      /* do its last two bytes fit? */

/* One tag's answer. Length 0 is silence. */
struct ref_answer {
    uint8_t bytes[REF_ANSWER];
    size_t length;
};

void ref_answer_byte(struct ref_answer *answer, uint8_t byte);
void ref_answer_bytes(struct ref_answer *answer, const uint8_t *bytes, size_t len);
void ref_answer_close(struct ref_answer *answer);           /* adds the CRC */

uint64_t ref_number(const uint8_t *bytes, size_t len);      /* low byte first, at most 8 */
uint64_t ref_low_bits(unsigned bits);                       /* that many ones, 0 to 64 */

/* label.c */
enum {
    LABEL_UID = 0, LABEL_DSFID = 8, LABEL_AFI = 9, LABEL_LOCKS = 10,
    LABEL_BLOCKS = 11, LABEL_SIZE = 12, LABEL_IC = 13, LABEL_STATE = 14,
    LABEL_SLOT = 15, LABEL_MASK_BITS = 16, LABEL_MASK = 17, LABEL_ZEROS = 25,
    LABEL_HEAD = 32
};
enum { LABEL_OFF = 0, LABEL_READY = 1, LABEL_QUIET = 2, LABEL_SELECTED = 3, LABEL_NO_SLOT = 255 };

int ref_label_well_formed(const uint8_t *body, size_t len);
void ref_label_off(uint8_t *body);
void ref_label_on(uint8_t *body);
void ref_label_frame(uint8_t *body, const uint8_t *frame, size_t len, struct ref_answer *answer);
void ref_label_end_of_frame(uint8_t *body, struct ref_answer *answer);

/* chip.c */
enum {
    CHIP_SYSTEM = 64, CHIP_UID = 68, CHIP_STATE = 76, CHIP_ID = 77,
    CHIP_RELOAD = 78, CHIP_OPTION = 79, CHIP_LENGTH = 80
};
enum {
    CHIP_OFF = 0, CHIP_READY = 1, CHIP_INVENTORY = 2, CHIP_SELECTED = 3,
    CHIP_DESELECTED = 4, CHIP_DEACTIVATED = 5
};

int ref_chip_well_formed(const uint8_t *body, size_t len);
void ref_chip_off(uint8_t *body);
void ref_chip_on(uint8_t *body, uint8_t draw);
void ref_chip_frame(uint8_t *body, const uint8_t *frame, size_t len, uint8_t draw,
                    struct ref_answer *answer);

/* rack.c: for a rack already known to be well-formed */
size_t ref_rack_tags(const uint8_t *rack);
uint8_t ref_rack_kind(const uint8_t *rack, size_t entry);
size_t ref_rack_offset(const uint8_t *rack, size_t entry);

#endif
