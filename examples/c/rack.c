/* rack.c - a station's test in small: a rack of two labels and a chip, made here, is played through a few events. A label is found, selected,
 * written "cleaned" and read back, alone and with all its blocks; then all labels are found by a walk. */
#include "sackbutflare.h"

#include <stdio.h>
#include <string.h>

enum { TAGS = 3, BLOCKS = 2, SIZE = 8, LABEL = 32 + BLOCKS * (1 + SIZE), CHIP = 80, RACK = 2 + 8 * TAGS + 2 * LABEL + CHIP };

enum { OFF = 1, ON = 2, LABEL_FRAME = 3 };

static uint8_t rack[RACK];
static uint8_t answer[8451];

static void put(uint8_t *to, uint64_t number, int bytes)
{
    for (int i = 0; i < bytes; i++)
        to[i] = (uint8_t)(number >> (8 * i));
}

/* A line of the contents; gives the place of the body. */
static uint8_t *enter(int tag, uint8_t kind, int length, int place)
{
    uint8_t *entry = rack + 2 + 8 * tag;
    entry[0] = kind;
    put(entry + 2, (uint64_t)length, 2);
    put(entry + 4, (uint64_t)place, 4);
    return rack + place;
}

/* A label that is off; its slot number 255 says that no slots run. */
static void label(int tag, int place, uint64_t uid, uint8_t afi)
{
    uint8_t *body = enter(tag, SACKBUTFLARE_LABEL, LABEL, place);
    put(body, uid, 8);
    body[9] = afi;
    body[11] = BLOCKS - 1;
    body[12] = SIZE - 1;
    body[15] = 255;
}

/* A chip that is off, with every bit of its memory 1. */
static void chip(int tag, int place)
{
    uint8_t *body = enter(tag, SACKBUTFLARE_CHIP, CHIP, place);
    memset(body, 0xFF, 68);
    put(body + 68, 0xD002000000000001u, 8);
}

static void make(void)
{
    int first = 2 + 8 * TAGS;
    rack[0] = 1;
    rack[1] = TAGS;
    label(0, first, 0xE004010000000011u, 0x30);
    label(1, first + LABEL, 0xE004010000000023u, 0x40);
    chip(2, first + 2 * LABEL);
}

static struct sackbutflare_report event(uint8_t number, const uint8_t *frame, size_t length)
{
    static const uint8_t draws[TAGS] = { 3, 5, 7 };
    return sackbutflare_event(rack, sizeof rack, number, frame, length, draws, TAGS, answer, sizeof answer);
}

static void bytes(const char *what, const uint8_t *from, size_t length)
{
    printf("%s", what);
    for (size_t i = 0; i < length; i++)
        printf(" %02X", from[i]);
    printf("\n");
}

/* Sends a command to the rack and reads what comes back. */
static struct sackbutflare_told ask(const char *what, struct sackbutflare_command c, uint64_t number, const char *data)
{
    uint8_t uid[8], frame[64];
    size_t length = strlen(data);
    struct sackbutflare_told nothing = { 0 };
    put(uid, number, 8);
    struct sackbutflare_written w = sackbutflare_write_request(c, uid, sizeof uid, (const uint8_t *)data, length, frame, sizeof frame);
    printf("%s\n", what);
    bytes("  sent", frame, w.length);
    struct sackbutflare_report r = event(LABEL_FRAME, frame, w.length);
    printf("  answered %u\n", r.answered);
    if (r.answered != 1)
        return nothing;
    bytes("  heard", answer, r.length);
    return sackbutflare_read_answer(c, uid, sizeof uid, length, answer, r.length);
}

static struct sackbutflare_command to_label(uint16_t code, uint8_t target)
{
    struct sackbutflare_command c = { .kind = SACKBUTFLARE_LABEL, .code = code, .target = target };
    return c;
}

static void find_and_write(void)
{
    struct sackbutflare_command inventory = to_label(0x01, SACKBUTFLARE_EVERYONE);
    ask("inventory of all, one slot: two labels at once", inventory, 0, "");
    inventory.afi_given = true;
    inventory.afi = 0x40;
    struct sackbutflare_told found = ask("inventory of AFI 40", inventory, 0, "");
    printf("  UID %016llX\n", (unsigned long long)found.uid);
    struct sackbutflare_told told = ask("select it", to_label(0x25, SACKBUTFLARE_ONE_UID), found.uid, "");
    printf("  meaning %u\n", told.meaning);
    struct sackbutflare_command block = to_label(0x21, SACKBUTFLARE_SELECTED);
    block.byte = 1;
    told = ask("write block 1 of the selected label", block, 0, "cleaned\n");
    printf("  meaning %u\n", told.meaning);
    block.code = 0x20;
    told = ask("read it back", block, 0, "");
    printf("  %u bytes: %.*s", (unsigned)told.length, (int)told.length, (const char *)answer + told.place);
    struct sackbutflare_command all = to_label(0x23, SACKBUTFLARE_SELECTED);
    all.more = BLOCKS - 1;
    all.option = true;
    told = ask("read all blocks in one go, with their lock bytes", all, 0, "");
    for (size_t i = 0; i < told.count; i++) {
        const uint8_t *lock = answer + told.place + i * (1 + told.length);
        bytes(*lock ? "  locked" : "  not locked", lock + 1, told.length);
    }
    block.byte = BLOCKS;
    told = ask("read a block that is not there", block, 0, "");
    printf("  meaning %u, error %02X\n", told.meaning, told.error);
}

static void walk(void)
{
    uint8_t list[8 * TAGS];
    struct sackbutflare_walked w = sackbutflare_walk(rack, sizeof rack, false, 0, list, sizeof list);
    printf("walk: refusal %u, labels %zu, rounds %zu\n", w.number, w.labels, w.rounds);
    for (size_t i = 0; i < w.labels; i++)
        bytes(" ", list + 8 * i, 8);
}

int main(void)
{
    make();
    printf("field on: refusal %u\n", event(ON, NULL, 0).number);
    find_and_write();
    walk();
    printf("field off: refusal %u\n", event(OFF, NULL, 0).number);
    rack[0] = 9;
    printf("a rack of another edition: refusal %u\n", event(ON, NULL, 0).number);
    return 0;
}
