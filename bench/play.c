/* play.c - for bench/play: one list of events, as lines of words for the program play and as frames for the C call.
 * play lines RACK LINES: writes a rack of 64 labels and the lines. play call RACK: plays the frames on that rack and prints the seconds of processor
 * time that the calls took. */
#include "sackbutflare.h"

#include <stdio.h>
#include <stdlib.h>
#include <string.h>
#include <time.h>

enum { EVENTS = 1000000, TAGS = 64, BLOCKS = 28, SIZE = 4, BODY = 32 + BLOCKS * (1 + SIZE), HEAD = 2 + 8 * TAGS, RACK = HEAD + TAGS * BODY, FRAME = 32 };

static uint8_t rack[RACK];

/* What event i asks: of sixteen in turn six reads, four writes, two questions for the system information, two Inventories for one label, then one of
 * sixteen slots and an end of frame; label by label, block by block. */
enum { READ, WRITE, INFO, FIND, SLOTS, END };
static const int turns[16] = { READ, WRITE, READ, FIND, WRITE, READ, INFO, READ, WRITE, FIND, READ, WRITE, INFO, READ, SLOTS, END };

static uint64_t uid_of(long tag) { return 0xE004010000000000u | (uint64_t)tag * 0x9E3779u; }

static void make(void)
{
    rack[0] = 1;
    rack[1] = TAGS;
    for (long i = 0; i < TAGS; i++) {
        size_t place = HEAD + (size_t)i * BODY;
        uint8_t *entry = rack + 2 + 8 * i, *body = rack + place;
        entry[0] = 1;
        for (int k = 0; k < 2; k++)
            entry[2 + k] = (uint8_t)(BODY >> 8 * k);
        for (int k = 0; k < 4; k++)
            entry[4 + k] = (uint8_t)(place >> 8 * k);
        for (int k = 0; k < 8; k++)
            body[k] = (uint8_t)(uid_of(i) >> 8 * k);
        body[11] = BLOCKS - 1;
        body[12] = SIZE - 1;
        body[14] = 1;
        body[15] = 255;
    }
}

static long tag_of(long i) { return i / 16 % TAGS; }
static int block_of(long i) { return (int)(i / 3 % BLOCKS); }

static void put_line(FILE *out, long i)
{
    unsigned long long uid = uid_of(tag_of(i));
    switch (turns[i % 16]) {
    case READ: fprintf(out, "read %016llX %d\n", uid, block_of(i)); break;
    case WRITE: fprintf(out, "write %016llX %d %08lX\n", uid, block_of(i), i); break;
    case INFO: fprintf(out, "info %016llX\n", uid); break;
    case FIND: fprintf(out, "inventory mask 64/%016llX\n", uid); break;
    case SLOTS: fprintf(out, "inventory 16\n"); break;
    default: fprintf(out, "eof\n");
    }
}

static size_t put_frame(uint8_t *out, long i)
{
    static const uint16_t codes[] = { 0x20, 0x21, 0x2B, 0x01, 0x01 };
    int what = turns[i % 16];
    uint8_t uid[8], data[SIZE], frame[64];
    struct sackbutflare_command c = { .kind = SACKBUTFLARE_LABEL };
    if (what == END)
        return 0;
    for (int k = 0; k < 8; k++)
        uid[k] = (uint8_t)(uid_of(tag_of(i)) >> 8 * k);
    for (int k = 0; k < SIZE; k++)
        data[k] = (uint8_t)(i >> 8 * (SIZE - 1 - k));
    c.code = codes[what];
    c.target = what < FIND ? SACKBUTFLARE_ONE_UID : SACKBUTFLARE_EVERYONE;
    c.byte = (uint8_t)block_of(i);
    c.sixteen = what == SLOTS;
    c.mask_bits = what == FIND ? 64 : 0;
    c.mask = what == FIND ? uid_of(tag_of(i)) : 0;
    struct sackbutflare_written w = sackbutflare_write_request(c, uid, sizeof uid, data, sizeof data, frame, sizeof frame);
    if (w.number != 0 || w.length > FRAME)
        exit(1);
    memcpy(out, frame, w.length);
    return w.length;
}

static double seconds(void)
{
    struct timespec t;
    clock_gettime(CLOCK_PROCESS_CPUTIME_ID, &t);
    return (double)t.tv_sec + 1e-9 * (double)t.tv_nsec;
}

static int call(const char *path)
{
    static uint8_t frames[EVENTS][FRAME], lengths[EVENTS], answer[8451];
    static const uint8_t draws[TAGS];
    long refused = 0;
    FILE *in = fopen(path, "rb");
    if (!in || fread(rack, 1, RACK, in) != RACK)
        return 1;
    for (long i = 0; i < EVENTS; i++)
        lengths[i] = (uint8_t)put_frame(frames[i], i);
    double start = seconds();
    for (long i = 0; i < EVENTS; i++)
        refused += sackbutflare_event(rack, RACK, turns[i % 16] == END ? 4 : 3, frames[i], lengths[i], draws, TAGS, answer, sizeof answer).number;
    printf("%.3f\n", seconds() - start);
    return refused != 0;
}

int main(int words, char **word)
{
    if (words == 3 && strcmp(word[1], "call") == 0)
        return call(word[2]);
    if (words != 4)
        return 2;
    make();
    FILE *out = fopen(word[2], "wb"), *lines = fopen(word[3], "w");
    if (!out || !lines || fwrite(rack, 1, RACK, out) != RACK)
        return 1;
    for (long i = 0; i < EVENTS; i++)
        put_line(lines, i);
    return fclose(out) != 0 || fclose(lines) != 0;
}
