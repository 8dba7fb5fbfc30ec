/* cases_lines.c - lines for play. See cases.h. */
#include "cases.h"

#include <string.h>

/* ------------------------------------------------------------------ frames */

static int is_sealed(const uint8_t *frame, size_t len)
{
    return len >= 2 && ref_check_right(frame, len);
}

/* The event as a line; a frame with its check sum, or for it to be added. */
static void event_line(struct script *s)
{
    static const char *const words[] = { "", "off", "on", "label", "eof", "chip" };
    size_t len = s->event.frame_len;
    int frame = s->event.number == REF_LABEL_FRAME || s->event.number == REF_CHIP_FRAME;
    int add = frame && is_sealed(s->event.frame, len) && gen_chance(&s->g, 70);
    blanks(s, 0);
    word(s, words[s->event.number]);
    put(s, add ? "+" : "");
    if (frame) {
        blanks(s, 1);
        hex(s, s->event.frame, add ? len - 2 : len);
    }
    tail(s);
}

static void draws_line(struct script *s)
{
    size_t len = gen_chance(&s->g, 60) ? s->event.draws_len : gen_below(&s->g, GEN_DRAWS_ROOM);
    gen_draws(&s->g, s->event.draws, len);
    memset(s->draws, 0, sizeof s->draws);
    memcpy(s->draws, s->event.draws, len);
    word(s, "draws");
    blanks(s, 1);
    hex(s, s->event.draws, len);
    tail(s);
}

/* The event of this number and frame, on the rack as it is. */
static void step(struct script *s, uint8_t number, const uint8_t *frame, size_t len)
{
    uint8_t answer[REF_ANSWER];
    struct ref_report report;
    size_t tags = ref_rack_tags(s->rack);
    ref_event(s->rack, s->rack_len, number, frame, len, s->draws, tags > REF_TAGS_MOST ? REF_TAGS_MOST : tags, answer,
              sizeof answer, &report);
}

void play_one(struct script *s)
{
    gen_event(&s->g, s->rack, 1, &s->event);
    if (gen_chance(&s->g, 30))
        draws_line(s);
    event_line(s);
    step(s, s->event.number, s->event.frame, s->event.frame_len);
}

/* ---------------------------------------------------------------- commands */

/* The body of a tag of that kind, or null. */
static const uint8_t *pick_body(struct script *s, uint8_t kind)
{
    size_t n = ref_rack_tags(s->rack);
    size_t first = n ? gen_below(&s->g, (uint32_t)n) : 0;
    for (size_t i = 0; i < n; i++)
        if (ref_rack_kind(s->rack, (first + i) % n) == kind)
            return s->rack + ref_rack_offset(s->rack, (first + i) % n);
    return NULL;
}

/* A command, with UID and data; and what it is written with. */
struct saying {
    struct ref_command c;
    uint64_t uid;
    uint8_t data[64];
    size_t data_len;
};

static void finish_command(struct script *s, struct saying *say)
{
    uint8_t request[REF_OUTPUT], uid[REF_UID];
    struct ref_written written;
    for (int i = 0; i < REF_UID; i++)
        uid[i] = (uint8_t)(say->uid >> (8 * i));
    tail(s);
    ref_write_request(&say->c, uid, say->data, say->data_len, request, sizeof request, &written);
    if (written.number == 0)
        step(s, say->c.kind == REF_KIND_LABEL ? REF_LABEL_FRAME : REF_CHIP_FRAME, request, written.length);
}

static void say_target(struct script *s, struct saying *say)
{
    uint32_t how = gen_below(&s->g, 10);
    blanks(s, 1);
    say->c.target = how < 2 ? REF_EVERYONE : how < 5 ? REF_SELECTED : REF_ONE_UID;
    if (say->c.target == REF_ONE_UID)
        digits(s, say->uid, 8);
    else
        word(s, how < 2 ? "all" : "selected");
}

static void say_number(struct script *s, struct saying *say, unsigned number)
{
    blanks(s, 1);
    say->c.byte = (uint8_t)number;
    fprintf(s->out, gen_chance(&s->g, 95) ? "%u" : "%03u", number);
}

static void say_byte(struct script *s, struct saying *say, uint8_t byte)
{
    blanks(s, 1);
    say->c.byte = byte;
    digits(s, byte, 1);
}

/* So many bytes, in hex or as text. */
static void say_data(struct script *s, struct saying *say, size_t len)
{
    static const char text[] = "cleaned, used # done: pump 17 of 20?";
    blanks(s, 1);
    say->data_len = len;
    for (size_t i = 0; i < len; i++)
        say->data[i] = gen_byte(&s->g);
    if (gen_chance(&s->g, 60))
        memcpy(say->data, text + gen_below(&s->g, 4), len > 32 ? 32 : len);
    data(s, say->data, len);
}

/* An Inventory whose mask is often the end of a label's UID. */
static void say_inventory(struct script *s, struct saying *say)
{
    const uint8_t *label = pick_body(s, REF_KIND_LABEL);
    uint64_t uid = label ? ref_number(label, REF_UID) : gen_u64(&s->g);
    word(s, "inventory");
    if ((say->c.sixteen = (uint8_t)gen_chance(&s->g, 60)) != 0)
        put(s, " 16");
    if ((say->c.afi_present = (uint8_t)gen_chance(&s->g, 30)) != 0) {
        say->c.afi = gen_afi(&s->g, label ? label[LABEL_AFI] : gen_byte(&s->g));
        put(s, gen_chance(&s->g, 90) ? " afi " : " AFI\t");
        digits(s, say->c.afi, 1);
    }
    if (gen_chance(&s->g, 60)) {
        unsigned bits = gen_chance(&s->g, 60) ? 1 + gen_below(&s->g, 12) : 1 + gen_below(&s->g, 64);
        uid = gen_chance(&s->g, 90) ? uid : gen_u64(&s->g);
        say->c.mask_bits = (uint8_t)bits;
        say->c.mask = uid & ref_low_bits(gen_chance(&s->g, 97) ? bits : (bits + 7) / 8 * 8);
        put(s, gen_chance(&s->g, 90) ? " mask " : " Mask  ");
        mask(s, bits, say->c.mask);
    }
}

/* `to` and a last block: of the label, past its end, or any. */
static void say_last(struct script *s, struct saying *say, unsigned blocks)
{
    unsigned first = say->c.byte, last = blocks - 1;
    uint32_t how = gen_below(&s->g, 10);
    if (how == 0)
        last = blocks;
    else if (how < 4)
        last = first + gen_below(&s->g, 256 - first);
    last = last < first ? first : last > 255 ? 255 : last;
    blanks(s, 1);
    word(s, "to");
    blanks(s, 1);
    fprintf(s->out, gen_chance(&s->g, 95) ? "%u" : "%03u", last);
    say->c.more = (uint8_t)(last - first);
}

/* One block read, or several, with lock bytes or not; or lock bytes alone. */
static void say_read(struct script *s, struct saying *say, unsigned block, unsigned blocks)
{
    int status = gen_chance(&s->g, 30), many = gen_chance(&s->g, 60);
    say->c.code = status ? 0x2C : many ? 0x23 : 0x20;
    word(s, status ? "status" : "read");
    say_target(s, say);
    say_number(s, say, many && gen_chance(&s->g, 40) ? 0 : block);
    if (many)
        say_last(s, say, blocks);
    if ((say->c.option = (uint8_t)(!status && gen_chance(&s->g, 40))) != 0)
        blanks(s, 1), word(s, "lock");
}

static void say_label(struct script *s, struct saying *say)
{
    const uint8_t *label = pick_body(s, REF_KIND_LABEL);
    unsigned blocks = label ? label[LABEL_BLOCKS] + 1u : 4, size = label ? label[LABEL_SIZE] + 1u : 4;
    unsigned block = gen_chance(&s->g, 85) ? gen_below(&s->g, blocks) : gen_below(&s->g, 256);
    say->uid = label && gen_chance(&s->g, 90) ? ref_number(label, REF_UID) : gen_u64(&s->g);
    switch (gen_below(&s->g, 13)) {
    case 0: say->c.code = 0x02; word(s, "quiet"); say_target(s, say); break;
    case 1: say->c.code = 0x26; word(s, "ready"); say_target(s, say); break;
    case 2: say->c.code = 0x25; word(s, "select"); say_target(s, say); break;
    case 3: say->c.code = 0x2B; word(s, "info"); say_target(s, say); break;
    case 4: say->c.code = 0x22; word(s, "lock"); say_target(s, say); say_number(s, say, block); break;
    case 5:
    case 6:
    case 7:
    case 8: say_read(s, say, block, blocks); break;
    case 9:
    case 10:
        say->c.code = 0x21;
        word(s, "write"); say_target(s, say); say_number(s, say, block);
        say_data(s, say, gen_chance(&s->g, 90) ? size : 1 + gen_below(&s->g, 32));
        break;
    default:
        say->c.code = gen_chance(&s->g, 50) ? 0x27 : 0x29;
        word(s, say->c.code == 0x27 ? "afi" : "dsfid"); say_target(s, say);
        if (gen_chance(&s->g, 25))
            say->c.code++, blanks(s, 1), word(s, "lock");
        else
            say_byte(s, say, gen_byte(&s->g));
        break;
    }
}

static void say_chip(struct script *s, struct saying *say)
{
    static const unsigned odd[] = { 255, 255, 16, 254, 15 };
    const uint8_t *chip = pick_body(s, REF_KIND_CHIP);
    unsigned address = gen_chance(&s->g, 75) ? gen_below(&s->g, 16) : odd[gen_below(&s->g, 5)];
    say->c.kind = REF_KIND_CHIP;
    switch (gen_below(&s->g, 12)) {
    case 0: say->c.code = REF_INITIATE; word(s, "initiate"); break;
    case 1: say->c.code = REF_PCALL16; word(s, "pcall"); break;
    case 2:
        say->c.code = REF_SLOT_MARKER;
        word(s, "slot");
        say_number(s, say, chip && gen_chance(&s->g, 50) ? chip[CHIP_ID] & 15u : gen_below(&s->g, 18));
        break;
    case 3: say->c.code = REF_GET_UID; word(s, "uid"); break;
    case 4: say->c.code = gen_chance(&s->g, 50) ? REF_COMPLETION : REF_RESET_TO_INVENTORY;
        word(s, say->c.code == REF_COMPLETION ? "completion" : "reset"); break;
    case 5:
    case 6:
    case 7:
        say->c.code = REF_SELECT;
        word(s, "select");
        say_byte(s, say, chip && gen_chance(&s->g, 85) ? chip[CHIP_ID] : gen_byte(&s->g));
        break;
    case 8: say->c.code = REF_READ_BLOCK; word(s, "get"); say_number(s, say, address); break;
    default:
        say->c.code = REF_WRITE_BLOCK;
        word(s, "put"); say_number(s, say, address);
        say_data(s, say, gen_chance(&s->g, 95) ? 4 : 1 + gen_below(&s->g, 8));
        break;
    }
}

void say_one(struct script *s)
{
    struct saying say;
    int chip = gen_chance(&s->g, pick_body(s, REF_KIND_LABEL) == NULL ? 90 : pick_body(s, REF_KIND_CHIP) == NULL ? 10 : 40);
    memset(&say, 0, sizeof say);
    say.c.kind = REF_KIND_LABEL;
    blanks(s, 0);
    if (chip)
        say_chip(s, &say);
    else if (gen_chance(&s->g, 20))
        say.c.code = 0x01, say_inventory(s, &say);
    else
        say_label(s, &say);
    finish_command(s, &say);
}

/* ------------------------------------------------------- lines that are bad */

static const char *const BAD[] = {
    "hello", "OFFF", "label+26 01 00", "label++ 26", "chip-", "on#", "eof# x", "+", "1", "on now", "off 00", "eof \t .",
    "ON on", "label 2G", "label 26 01 0", "label 26 0 100", "label+ 26 01 00#", "chip+ 06 0\xC2\xB2", "draws 7", "draws zz",
    "draws 00 1", "label 26\v01", "label\f26", "label 26,01", "label 26 01\r00", "off\r", "\r", "label 26 01 00 \r \r",
    "chip+ 0#", "chip+ # 0", "label # 1 #", "label \t@", "label `A", "label A/", "label G0", "label g0", "draws", "label",
    "chip+", "labe", "labels 00", "on \x7F", "label+\t2\t6", "eof#", "# \x01\x02", "o n", "offf", "draw 00",
    "label 00 # \xFF", "  read", "read all", "read everyone 1", "read all x", "read all 1 locks", "read all 1 lock 2",
    "read E00000000000001 1", "read E0000000000000111 1", "read E00000000000001G 1", "lock selected", "lock all 1 2",
    "write", "write all", "write all one 00", "write all 1 0G", "write all 1 00 0", "write all 1 00 zz", "quiet", "quiet me",
    "select", "select 1", "select G1", "select 123", "ready all all", "info all 1", "afi", "afi all", "afi all 3", "afi all 311",
    "afi all locked", "afi all 31 lock", "dsfid 31", "dsfid all G0", "dsfid selected lock lock", "inventory 15",
    "inventory 16 16", "inventory afi", "inventory afi 3", "inventory mask", "inventory mask 4", "inventory mask x/00",
    "inventory mask 4/G0", "inventory mask 4/0", "inventory 16 mask 8/FF mask 8/FF", "initiate 0", "pcall16", "pcall #", "slot",
    "slot x", "slot F", "slot 1 2", "get", "get x", "get 5 6", "put", "put x 00000000", "put 5 0000000G", "uid 1", "resets",
    "completion now", "reset # fine", "write all 1 \"ab\" \"cd\"", "put 7 \"abcd\" x", "select all", "quiet selected",
    "quiet all", "slot 0", "slot 16", "get 16", "get 254", "put 16 00000000", "put 7 000000", "put 7 0000000000",
    "put 7 \"abc\"", "inventory 16 mask 61/0000000000000000", "inventory mask 4/FF", "read all 1 to", "read all 1 to # 2",
    "read all 1 to x", "read all 5 to 4", "read all 1 to 256", "read all 1 to -2", "read all 1 too 2", "read all 1 2",
    "read all 1 to 2 3", "read all 1 to 2 locks", "read all 1 to 2 lock 3", "read all 1 to 2 to 3", "read all 1 lock to 2",
    "read all to 2", "read to 2", "status", "status me 1", "status all", "status all x", "status all 256", "status all 1 lock",
    "status all 1 2", "status all 1 to", "status all 4 to 3", "status all 1 to 300", "status all 1 to 2 lock", "status all 1 to 2 3",
    "status all 255 to 254", "get 1 to 2", "write all 1 to 2 00", "lock all 1 to 2"
};

/* What is not settled by the words of docs/FORMAT.md alone. */
static const char *const ODD[] = {
    "label 0:", "label 0-1", "label :26", "label 26:", "label 26::01", "label 26 : 01", "label 0x", "label 0x2", "label 0xG0",
    "label 0x 26", "label 0x2601", "label 00x26", "label 26:#", "label \"ab\"", "write all 1", "write all 1 # none",
    "write all 1 \"\"", "write all 1 \"ab", "write all 1 \"ab\"cd", "write all 1 \"a\" # b", "write all 1 \"#\"",
    "write all 1 000102030405060708090A0B0C0D0E0F101112131415161718191A1B1C1D1E1F20", "put 7", "put 7 \"", "read all 256",
    "read all 0255", "read all 00000000000000000000000000001", "read all 99999999999999999999", "read all -1", "read all +1",
    "read all 0x1", "get 256", "get 0x5", "slot 256", "slot 0xF", "afi all 0x31", "dsfid all 0x31", "select 0x3C",
    "inventory afi 0x31", "inventory mask 0", "read 0xE000000000000011 1", "read E0:00:00:00:00:00:00:11 1", "draws 00:01-02", "draws 0x00 01",
    "read all 1 To 2 LOCK", "read all 0 to 255", "read all 255 to 255", "read all 1 to 0002", "read all 1 to 01", "read all 1to 2",
    "read all 1 to2", "read all 1 to 2#", "read all 1 to 2 # x", "read all 1 to 2 lock# x", "STATUS all 0", "status selected 0 TO 255",
    "status all 1 to 0x2", "status all 1 to 2# x", "status all 0 # all", "read all 0 to 255 lock",
    "on\t#", "\ton", " # on", "off# off", "label+ ", "\xEF\xBB\xBFon", "read all 1 lock# x"
};

/* A line from the list, one with NUL bytes, or one spoiled in a place. */
void bad_line(struct script *s)
{
    static const char nuls[] = "label 26 01\0 00\0";
    uint32_t how = gen_below(&s->g, 12);
    if (how == 0) {
        size_t from = gen_below(&s->g, 12), len = 1 + gen_below(&s->g, (uint32_t)(sizeof nuls - from));
        fwrite(nuls + from, 1, len, s->out);
    } else if (how == 1) {
        put(s, gen_chance(&s->g, 50) ? "label " : "chip+ ");
        hex(s, s->event.frame, s->event.frame_len > 30 ? 30 : s->event.frame_len);
        uint8_t c = gen_byte(&s->g);
        putc(c == '\n' || c == ':' || c == '-' ? 'n' : c, s->out);
    } else {
        put(s, BAD[gen_below(&s->g, sizeof BAD / sizeof BAD[0])]);
    }
    end_line(s);
}

void bad_lines(struct script *s)
{
    for (size_t i = 0; i < sizeof BAD / sizeof BAD[0]; i++) {
        put(s, BAD[i]);
        end_line(s);
    }
}

void odd_lines(struct script *s)
{
    for (size_t i = 0; i < sizeof ODD / sizeof ODD[0]; i++) {
        put(s, ODD[i]);
        end_line(s);
    }
}
