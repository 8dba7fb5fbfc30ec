/* sackbutflare.h - a rack of RFID tags to try a station on, for C and C++.
 *
 * Link with crates/station/out/libstation.a, which `rt lib` in crates/station writes for x86-64.
 * Bytes go as a pointer and a length; a null pointer with length 0 is fine. In every result `number` is 0 for a success, and else the
 * number of the refusal: then all the rest of the result is 0 and no byte handed over has changed.
 * No two of the buffers handed to one call may overlap, and no other thread may change one meanwhile.
 */
#ifndef SACKBUTFLARE_H
#define SACKBUTFLARE_H

#include <stdbool.h>
#include <stddef.h>
#include <stdint.h>

/* 100 times the edition of these declarations, and how often something was added to it: 300 is 3.0. A program written for an edition compiles and
 * means the same with all that was added; another edition may ask a change of it. Of a program written for 2.0 edition 3 asks an answer buffer of 8,451
 * bytes in sackbutflare_event, where it was 64, and to be compiled anew: sackbutflare_command and sackbutflare_told have a field more, at their end.
 * Of one written for 1.0 edition 2 asked the length of each UID behind its pointer, in sackbutflare_write_request and sackbutflare_read_answer. */
#define SACKBUTFLARE_VERSION 300

#ifdef __cplusplus
extern "C" {
#endif

/* The SACKBUTFLARE_VERSION that the archive was built for. */
uint32_t sackbutflare_version(void);

/* ---- the rack */

/* How many tags answered, and the length of an answer that was alone: its frame then opens the answer buffer. */
struct sackbutflare_report {
    uint8_t number;
    uint8_t answered;
    size_t length;
};

/* Plays an event on a rack: 1 field off, 2 field on, 3 label frame, 4 bare end of frame, 5 chip frame. A draw, one random byte, for each
 * tag; an answer buffer of 8,451 bytes or more, room for the longest answer: 256 blocks of 32 bytes with their lock bytes. Refusals: 1 rack not
 * well-formed, 2 number of draws is not the number of tags, 3 answer buffer under 8,451 bytes, 4 event number not 1 to 5. */
struct sackbutflare_report sackbutflare_event(uint8_t *rack, size_t rack_length, uint8_t number, const uint8_t *frame, size_t frame_length,
                                              const uint8_t *draws, size_t draws_length, uint8_t *answer, size_t answer_length);

/* How many labels the list holds, 8 bytes each, least significant byte first, and how many rounds the walk took. */
struct sackbutflare_walked {
    uint8_t number;
    size_t labels;
    size_t rounds;
};

/* Walks a rack, with an AFI where one is given: 00 asks for all labels, one with low half 0 for every AFI of that high half, any other for that one only.
 * Refusals: 1 rack not well-formed, 5 list under 8 bytes a tag, 6 two labels in state 1 or 3 have one UID. */
struct sackbutflare_walked sackbutflare_walk(uint8_t *rack, size_t rack_length, bool afi_given, uint8_t afi, uint8_t *list, size_t list_length);

/* ---- the reader's side */

enum { SACKBUTFLARE_LABEL = 1, SACKBUTFLARE_CHIP = 2 };

enum { SACKBUTFLARE_EVERYONE = 0, SACKBUTFLARE_SELECTED = 1, SACKBUTFLARE_ONE_UID = 2 };

/* A command. A label's code is its command byte. A chip's is its first byte, but Initiate is 0600 and Pcall16 0604; a slot marker is 06, with
 * the slot in `byte`. Fields that a command does not have are not looked at. */
struct sackbutflare_command {
    uint8_t kind;
    uint8_t target;
    bool option;
    bool sixteen;      /* Inventory: sixteen slots, else one */
    bool afi_given;    /* Inventory: an AFI is sent */
    uint8_t afi;
    uint8_t mask_bits; /* Inventory: the length of the mask */
    uint8_t byte;      /* block, first block, address, slot, Chip_ID, or AFI or DSFID to write */
    uint16_t code;
    uint64_t mask;     /* Inventory: the mask as a number */
    uint8_t more;      /* 23, 2C: how many blocks behind the first, which is the count less 1 */
};

struct sackbutflare_written {
    uint8_t number;
    size_t length;
};

/* Writes the request of a command, with its check sum, to the front of out, which has 64 bytes or more. uid is eight bytes, least significant
 * first, where the target is one UID, and is not looked at where it is not. data is what label 21 and chip 09 write.
 * Refusals: 3 out under 64 bytes, 7 no request has these fields, or not eight bytes of the one UID. */
struct sackbutflare_written sackbutflare_write_request(struct sackbutflare_command command, const uint8_t *uid, size_t uid_length,
                                                       const uint8_t *data, size_t data_length, uint8_t *out, size_t out_length);

/* What an answer means, and what is told with it. */
enum {
    SACKBUTFLARE_REFUSED = 0,
    SACKBUTFLARE_ERROR = 1,          /* error: the label's own code */
    SACKBUTFLARE_DONE = 2,
    SACKBUTFLARE_FOUND = 3,          /* dsfid, uid: to an Inventory */
    SACKBUTFLARE_BLOCK = 4,          /* place and length of its bytes in the frame */
    SACKBUTFLARE_LOCKED_BLOCK = 5,   /* lock, place, length: to a read with Option */
    SACKBUTFLARE_SYSTEM = 6,         /* dsfid, afi, blocks, size, ic, uid; blocks and size as sent, less 1 */
    SACKBUTFLARE_CHIP_ID = 7,        /* id */
    SACKBUTFLARE_WORD = 8,           /* word: a chip's block */
    SACKBUTFLARE_CHIP_UID = 9,       /* uid */
    SACKBUTFLARE_BLOCKS = 10,        /* place, length, count: block i has its bytes at place + i * length */
    SACKBUTFLARE_LOCKED_BLOCKS = 11, /* place, length, count: block i has its lock byte at place + i * (1 + length), its bytes behind it */
    SACKBUTFLARE_LOCKS = 12          /* place, length 1, count: block i has its lock byte at place + i */
};

/* Numbers that do not go with the meaning are 0. */
struct sackbutflare_told {
    uint8_t number;
    uint8_t meaning;
    uint8_t error;
    uint8_t dsfid;
    uint8_t afi;
    uint8_t blocks;
    uint8_t size;
    uint8_t ic;
    uint8_t lock;
    uint8_t id;
    uint32_t word;
    size_t place;
    size_t length;
    uint64_t uid;
    size_t count;
};

/* Reads the answer to a command that was sent for uid, as above, with so many bytes of data. Refusals: 7 as above, 8 under 3 bytes or a wrong
 * check sum, 9 not an answer to this command. */
struct sackbutflare_told sackbutflare_read_answer(struct sackbutflare_command command, const uint8_t *uid, size_t uid_length, size_t data_length,
                                                  const uint8_t *frame, size_t frame_length);

/* ---- frames */

/* The check sum of a frame's bytes, which follows them low byte first. */
uint16_t sackbutflare_check_sum(const uint8_t *bytes, size_t length);

#ifdef __cplusplus
}
#endif

#endif
