/* says_frame.c - what a frame asks, its name, and what an answer to it
 * means. */
#include "says.h"

#include <stdio.h>
#include <string.h>

/* ------------------------------------------------------------ label frames */

static struct asked nobody(const char *why)
{
    struct asked asked = { NOBODY, why, { 0 }, 0 };
    return asked;
}

static struct asked ask_inventory(const uint8_t *frame, size_t len)
{
    struct asked asked = { INVENTORY, NULL, { 0 }, 0 };
    struct ref_command *c = &asked.command;
    size_t at = frame[0] & 0x10 ? 3 : 2;             /* where the mask's length stands */
    if (frame[1] != 0x01)
        return nobody("Inventory flag with another command");
    if (frame[0] & 0x40)
        return nobody("Inventory with Option");
    c->kind = REF_KIND_LABEL;
    c->code = 0x01;
    c->afi_present = (frame[0] & 0x10) != 0;
    c->afi = c->afi_present ? frame[2] : 0;
    c->sixteen = (frame[0] & 0x20) == 0;
    c->mask_bits = frame[at];
    if (c->mask_bits > (c->sixteen ? 60 : 64))
        return nobody("mask too long");
    size_t held = (c->mask_bits + 7u) / 8;
    if (len != at + 3 + held)
        return nobody("another length");
    c->mask = ref_number(frame + at + 1, held) & ref_low_bits(c->mask_bits);
    return asked;
}

/* Bytes between command, with its UID, and check sum; 21 has as many as its
 * label's blocks say, and -1 is no command. */
enum { ANY_LENGTH = 100 };

static int parameters(uint8_t code)
{
    switch (code) {
    case 0x02: case 0x25: case 0x26: case 0x28: case 0x2A: case 0x2B: return 0;
    case 0x20: case 0x22: case 0x27: case 0x29: return 1;
    case 0x21: return ANY_LENGTH;
    case 0x23: case 0x2C: return 2;
    default: return -1;
    }
}

static int takes_option(uint8_t code)
{
    return code == 0x20 || code == 0x23;
}

static struct asked ask_task(const uint8_t *frame, size_t len)
{
    struct asked asked = { TASK, NULL, { 0 }, 0 };
    struct ref_command *c = &asked.command;
    int select = (frame[0] & 0x10) != 0, address = (frame[0] & 0x20) != 0, option = (frame[0] & 0x40) != 0;
    size_t first = address ? 10 : 2;
    int wanted = parameters(frame[1]);
    if (select && address)
        return nobody("Select and Address both set");
    if (address && len < 12)
        return nobody("too short for a UID");
    if (frame[1] == 0x01)
        return nobody("Inventory without its flag");
    if ((frame[1] == 0x02 || frame[1] == 0x25) && !address)
        return nobody("wants a UID");
    int fault = wanted < 0 || (wanted != ANY_LENGTH && (len - 2 - first != (size_t)wanted || (option && !takes_option(frame[1]))));
    if (fault && frame[1] == 0x02)
        return nobody("stay quiet: not well formed");
    asked.call = fault ? FAULT : TASK;
    asked.uid = address ? ref_number(frame + 2, REF_UID) : 0;
    c->kind = REF_KIND_LABEL;
    c->code = frame[1];
    c->target = address ? REF_ONE_UID : select ? REF_SELECTED : REF_EVERYONE;
    c->option = (uint8_t)(option && takes_option(frame[1]));
    c->byte = len - 2 > first ? frame[first] : 0;
    c->more = !fault && wanted == 2 ? frame[first + 1] : 0;
    return asked;
}

struct asked ask_label(const uint8_t *frame, size_t len)
{
    if (len < 4)
        return nobody("under 4 bytes");
    if (frame[0] & 0x08)
        return nobody("flag bit 3 is set");
    if (frame[0] & 0x80)
        return nobody("flag bit 7 is set");
    if (!ref_check_right(frame, len))
        return nobody(NULL);
    return frame[0] & 0x04 ? ask_inventory(frame, len) : ask_task(frame, len);
}

/* ------------------------------------------------------------- chip frames */

/* The code of the bytes before the check sum, 0 for none. */
static uint16_t chip_code(const uint8_t *frame, size_t n)
{
    int address = n > 1 && (frame[1] <= 15 || frame[1] == 255);
    if (n == 1 && (frame[0] == 0x0B || frame[0] == 0x0C || frame[0] == 0x0F))
        return frame[0];
    if (n == 1 && (frame[0] & 0x0F) == 0x06 && frame[0] != 0x06)
        return REF_SLOT_MARKER;
    if (n == 2 && frame[0] == 0x06 && (frame[1] == 0x00 || frame[1] == 0x04))
        return (uint16_t)(0x0600 + frame[1]);
    if (n == 2 && (frame[0] == 0x0E || (frame[0] == 0x08 && address)))
        return frame[0];
    return n == 6 && frame[0] == 0x09 && address ? REF_WRITE_BLOCK : 0;
}

struct asked ask_chip(const uint8_t *frame, size_t len)
{
    struct asked asked = { IGNORED, NULL, { 0 }, 0 };
    if (len < 3) {
        asked.why = "under 3 bytes";
    } else if (ref_check_right(frame, len)) {
        uint16_t code = chip_code(frame, len - 2);
        asked.why = "no such chip command";
        asked.call = code ? CHIP_TASK : IGNORED;
        asked.command.kind = REF_KIND_CHIP;
        asked.command.code = code;
        asked.command.byte = code == REF_SLOT_MARKER ? frame[0] >> 4 : frame[1];
    }
    return asked;
}

/* ------------------------------------------------------------------- names */

static void target_text(const struct asked *asked, char *out)
{
    if (asked->command.target == REF_ONE_UID)
        sprintf(out, "%016llX", (unsigned long long)asked->uid);
    else
        strcpy(out, asked->command.target == REF_SELECTED ? "selected" : "all");
}

static void task_name(const struct asked *asked, char *out)
{
    char to[32];
    unsigned byte = asked->command.byte, last = byte + asked->command.more;
    target_text(asked, to);
    switch (asked->command.code) {
    case 0x02: sprintf(out, "quiet %s", to); break;
    case 0x20: sprintf(out, "read block %u%s of %s", byte, asked->command.option ? " with lock" : "", to); break;
    case 0x21: sprintf(out, "write block %u of %s", byte, to); break;
    case 0x22: sprintf(out, "lock block %u of %s", byte, to); break;
    case 0x23: sprintf(out, "read blocks %u to %u%s of %s", byte, last, asked->command.option ? " with locks" : "", to); break;
    case 0x25: sprintf(out, "select %s", to); break;
    case 0x26: sprintf(out, "ready %s", to); break;
    case 0x27: sprintf(out, "write AFI %02X of %s", byte, to); break;
    case 0x28: sprintf(out, "lock AFI of %s", to); break;
    case 0x29: sprintf(out, "write DSFID %02X of %s", byte, to); break;
    case 0x2A: sprintf(out, "lock DSFID of %s", to); break;
    case 0x2C: sprintf(out, "status of blocks %u to %u of %s", byte, last, to); break;
    default: sprintf(out, "info of %s", to); break;
    }
}

static void inventory_name(const struct ref_command *c, char *out)
{
    out += sprintf(out, "inventory%s", c->sixteen ? " 16" : "");
    if (c->afi_present)
        out += sprintf(out, " afi %02X", c->afi);
    if (c->mask_bits != 0) {
        out += sprintf(out, " mask ");
        mask_text(out, c->mask_bits, c->mask);
    }
}

static void chip_name(const struct ref_command *c, char *out)
{
    switch (c->code) {
    case REF_INITIATE: strcpy(out, "initiate"); break;
    case REF_PCALL16: strcpy(out, "pcall"); break;
    case REF_SLOT_MARKER: sprintf(out, "slot %u", c->byte); break;
    case REF_SELECT: sprintf(out, "select %02X", c->byte); break;
    case REF_COMPLETION: strcpy(out, "completion"); break;
    case REF_RESET_TO_INVENTORY: strcpy(out, "reset"); break;
    case REF_READ_BLOCK: sprintf(out, "get %u", c->byte); break;
    case REF_GET_UID: strcpy(out, "uid"); break;
    default: sprintf(out, "put %u", c->byte); break;
    }
}

void name_of(const struct asked *asked, char *out)
{
    switch (asked->call) {
    case NOBODY: case FAULT: strcpy(out, "label"); break;
    case IGNORED: strcpy(out, "chip"); break;
    case INVENTORY: inventory_name(&asked->command, out); break;
    case TASK: task_name(asked, out); break;
    case CHIP_TASK: chip_name(&asked->command, out); break;
    }
}

/* ---------------------------------------------------------------- meanings */

static const char *error_words(uint8_t error, uint16_t code)
{
    switch (error) {
    case 0x01: return "no such command";
    case 0x02: return "wrong length";
    case 0x03: return "Option not allowed";
    case 0x10: return "no such block";
    case 0x11: return "already locked";
    default: return code == 0x21 ? "block is locked" : "locked";
    }
}

/* Bytes that can all be printed, behind what stands before them. */
static void add_text(char *out, const char *before, const uint8_t *bytes, size_t len)
{
    if (printable(bytes, len))
        sprintf(out, "%s\"%.*s\"", before, (int)len, (const char *)bytes);
}

/* The numbers of the blocks whose lock bytes, so far apart, are 1. */
static char *add_locked(char *out, const struct ref_reading *r, unsigned first, const uint8_t *locks, size_t apart)
{
    int found = 0;
    for (unsigned i = 0; i < r->count; i++)
        if (locks[i * apart] == 1)
            out += sprintf(out, "%s %u", found++ ? "" : ", locked", first + i);
    return found ? out : out + sprintf(out, ", none locked");
}

/* Several blocks, one behind the other. */
static void blocks_text(const struct ref_command *c, const struct ref_reading *r, const uint8_t *answer, char *out)
{
    uint8_t text[256 * 32];
    size_t head = c->option ? 1 : 0;
    out += sprintf(out, "%u blocks of %u", (unsigned)r->count, (unsigned)r->length);
    if (c->option)
        out = add_locked(out, r, c->byte, answer + r->place, 1 + r->length);
    for (size_t i = 0; i < r->count; i++)
        memcpy(text + i * r->length, answer + r->place + i * (head + r->length) + head, r->length);
    add_text(out, ", ", text, (size_t)r->count * r->length);
}

/* The reading of what must be an answer. The command of a fault is any, and so
 * is one for blocks over 255, which is no request but has an answer: error 10. */
static struct ref_reading read_answer(const struct asked *asked, const uint8_t *answer, size_t len)
{
    struct ref_reading reading;
    struct ref_command command = asked->command;
    uint8_t uid[REF_UID];
    for (int i = 0; i < REF_UID; i++)
        uid[i] = (uint8_t)(asked->uid >> (8 * i));
    if (asked->call == FAULT || command.byte + command.more > 255) {
        command.code = 0x26;
        command.option = 0;
    }
    ref_read_answer(&command, uid, command.kind == REF_KIND_CHIP ? 4 : 1, answer, len, &reading);
    return reading;
}

void meaning_of(const struct asked *asked, const uint8_t *answer, size_t len, char *out)
{
    struct ref_reading r = read_answer(asked, answer, len);
    unsigned long long uid = ref_number(r.uid, REF_UID);
    *out = 0;
    switch (r.meaning) {
    case REF_MEANS_ERROR: sprintf(out, "error %02X: %s", r.error, error_words(r.error, asked->command.code)); break;
    case REF_MEANS_DONE: strcpy(out, "done"); break;
    case REF_MEANS_INVENTORY: sprintf(out, "%016llX, DSFID %02X", uid, r.dsfid); break;
    case REF_MEANS_BLOCK:
        if (asked->command.option)
            out += sprintf(out, "%s", r.lock ? "locked" : "not locked");
        add_text(out, asked->command.option ? ", " : "", answer + r.place, r.length);
        break;
    case REF_MEANS_BLOCKS: blocks_text(&asked->command, &r, answer, out); break;
    case REF_MEANS_LOCKS:
        out += sprintf(out, "%u blocks", (unsigned)r.count);
        add_locked(out, &r, asked->command.byte, answer + r.place, 1);
        break;
    case REF_MEANS_SYSTEM:
        sprintf(out, "%016llX, DSFID %02X, AFI %02X, %u blocks of %u, IC %02X", uid, r.dsfid, r.afi, r.blocks + 1u,
                r.size + 1u, r.ic);
        break;
    case REF_MEANS_CHIP_ID: sprintf(out, "Chip_ID %02X", r.chip_id); break;
    case REF_MEANS_WORD:
        out += sprintf(out, "%lu", (unsigned long)r.word);
        add_text(out, ", ", answer + r.place, 4);
        break;
    case REF_MEANS_CHIP_UID: sprintf(out, "%016llX", uid); break;
    default: strcpy(out, "not an answer to this"); break;
    }
}
