/* says_rack.c - parts of a rack, and where one that is not well-formed first
 * offends. */
#include "says.h"

#include <stdio.h>
#include <string.h>

const char *const LABEL_STATES[] = { "off", "ready", "quiet", "selected", NULL };
const char *const CHIP_STATES[] = { "off", "ready", "inventory", "selected", "deselected", "deactivated", NULL };

static const uint8_t *entry_at(const uint8_t *rack, size_t entry)
{
    return rack + REF_HEAD + REF_ENTRY * entry;
}

size_t body_length(const uint8_t *rack, size_t entry)
{
    return (size_t)ref_number(entry_at(rack, entry) + 2, 2);
}

uint64_t uid_at(const uint8_t *rack, size_t entry)
{
    size_t place = ref_rack_kind(rack, entry) == REF_KIND_LABEL ? LABEL_UID : CHIP_UID;
    return ref_number(rack + ref_rack_offset(rack, entry) + place, REF_UID);
}

/* ------------------------------------------------------------------ blocks */

int next_block(uint8_t kind, const uint8_t *body, int number)
{
    if (kind == REF_KIND_LABEL)
        return number < body[LABEL_BLOCKS] ? number + 1 : -1;
    return number < 15 ? number + 1 : number == 15 ? 255 : -1;
}

static struct block label_block(uint8_t *body, int number)
{
    size_t blocks = body[LABEL_BLOCKS] + 1u, size = body[LABEL_SIZE] + 1u;
    struct block block = { number, body + LABEL_HEAD + blocks + (size_t)number * size, size,
                           body[LABEL_HEAD + number] };
    return block;
}

static struct block chip_block(uint8_t *body, int number)
{
    uint64_t free_bits = ref_number(body + CHIP_SYSTEM, 4) >> 16;
    struct block block = { number, body + (number == 255 ? CHIP_SYSTEM : 4 * number), 4,
                           number != 255 && !(free_bits >> number & 1) };
    return block;
}

struct block block_at(uint8_t kind, uint8_t *body, int number)
{
    return kind == REF_KIND_LABEL ? label_block(body, number) : chip_block(body, number);
}

int printable(const uint8_t *bytes, size_t len)
{
    for (size_t i = 0; i < len; i++)
        if (bytes[i] < 0x20 || bytes[i] > 0x7E)
            return 0;
    return 1;
}

void mask_text(char *out, unsigned bits, uint64_t mask)
{
    out += sprintf(out, "%u/", bits);
    for (unsigned i = (bits + 7) / 8; i-- > 0;)
        out += sprintf(out, "%02X", (unsigned)(mask >> (8 * i) & 0xFFu));
}

/* ----------------------------------------------------------------- verdict */

/* What is wrong, and where. Number 0 is nothing. */
struct verdict {
    unsigned number;
    size_t place;
    size_t entry;
};

static const struct verdict FINE = { 0, 0, 0 };

/* A body's rules in the order of their places; the first place that offends,
 * or -1. A rule that joins fields stands at the later one. */
static int label_mask_offence(const uint8_t *body)
{
    uint64_t above = ref_number(body + LABEL_MASK, 8) & ~ref_low_bits(body[LABEL_MASK_BITS]);
    for (int i = 0; i < 8; i++)
        if (above >> (8 * i) & 0xFFu)
            return LABEL_MASK + i;
    for (int i = LABEL_ZEROS; i < LABEL_HEAD; i++)
        if (body[i] != 0)
            return i;
    return -1;
}

static int label_offence(const uint8_t *body, size_t len)
{
    size_t blocks = body[LABEL_BLOCKS] + 1u, size = body[LABEL_SIZE] + 1u;
    uint8_t slot = body[LABEL_SLOT], state = body[LABEL_STATE], bits = body[LABEL_MASK_BITS];
    if (body[LABEL_LOCKS] > 3)
        return LABEL_LOCKS;
    if (len != LABEL_HEAD + blocks + blocks * size)
        return LABEL_BLOCKS;
    if (size > 32)
        return LABEL_SIZE;
    if (state > LABEL_SELECTED)
        return LABEL_STATE;
    if (slot != LABEL_NO_SLOT && (slot > 15 || (state != LABEL_READY && state != LABEL_SELECTED)))
        return LABEL_SLOT;
    if (bits > 60 || (slot == LABEL_NO_SLOT && bits != 0))
        return LABEL_MASK_BITS;
    int place = label_mask_offence(body);
    for (int i = 0; place < 0 && i < (int)blocks; i++)
        if (body[LABEL_HEAD + i] > 1)
            place = LABEL_HEAD + i;
    return place;
}

static int chip_offence(const uint8_t *body)
{
    uint8_t state = body[CHIP_STATE];
    if (state > CHIP_DEACTIVATED)
        return CHIP_STATE;
    if (state == CHIP_OFF && body[CHIP_ID] != 0)
        return CHIP_ID;
    if (body[CHIP_RELOAD] > (state == CHIP_SELECTED ? 1 : 0))
        return CHIP_RELOAD;
    if (body[CHIP_OPTION] > 1)
        return CHIP_OPTION;
    if (body[CHIP_OPTION] == 1 && state != CHIP_OFF && body[CHIP_ID] != body[CHIP_SYSTEM])
        return CHIP_OPTION;
    return -1;
}

/* Entry i, whose body must begin at `start`: kind, zero, length, place. */
static struct verdict judge_entry(const uint8_t *rack, size_t len, size_t i, size_t start)
{
    size_t at = REF_HEAD + REF_ENTRY * i;
    if (at + REF_ENTRY > len)
        return (struct verdict){ 10, len, i };
    uint8_t kind = rack[at];
    if (kind != REF_KIND_LABEL && kind != REF_KIND_CHIP)
        return (struct verdict){ 12, at, i };
    if (rack[at + 1] != 0)
        return (struct verdict){ 12, at + 1, i };
    size_t body = body_length(rack, i);
    int fits = kind == REF_KIND_CHIP ? body == CHIP_LENGTH : body >= 34 && body <= 8480;
    if (!fits || start + body > REF_RACK_MOST)
        return (struct verdict){ 12, at + 2, i };
    if (ref_rack_offset(rack, i) != start)
        return (struct verdict){ 12, at + 4, i };
    return FINE;
}

static struct verdict judge_body(const uint8_t *rack, size_t len, size_t i)
{
    size_t start = ref_rack_offset(rack, i), body = body_length(rack, i);
    if (start + body > len)
        return (struct verdict){ 10, len, i };
    int place = ref_rack_kind(rack, i) == REF_KIND_LABEL ? label_offence(rack + start, body) : chip_offence(rack + start);
    if (place >= 0)
        return (struct verdict){ 13, start + (size_t)place, i };
    return FINE;
}

/* In the order of the file: two bytes, all entries, all bodies, the end. */
static struct verdict judge(const uint8_t *rack, size_t len)
{
    struct verdict v = FINE;
    if (len < REF_HEAD)
        return (struct verdict){ 10, len, 0 };
    if (rack[0] != 1)
        return (struct verdict){ 11, 0, 0 };
    if (rack[1] > REF_TAGS_MOST)
        return (struct verdict){ 11, 1, 0 };
    size_t tags = ref_rack_tags(rack), end = REF_HEAD + REF_ENTRY * tags;
    for (size_t i = 0; v.number == 0 && i < tags; i++) {
        v = judge_entry(rack, len, i, end);
        end += v.number == 0 ? body_length(rack, i) : 0;
    }
    for (size_t i = 0; v.number == 0 && i < tags; i++)
        v = judge_body(rack, len, i);
    if (v.number == 0 && len > end)
        return (struct verdict){ 14, end, 0 };
    return v;
}

/* ------------------------------------------------------------------- words */

static const char *entry_words(size_t place)
{
    return place == 0 ? "kind is neither 1 nor 2" : place == 1 ? "not 0"
         : place < 4 ? "length of the body" : "place of the body";
}

static const char *label_words(size_t place)
{
    switch (place) {
    case LABEL_LOCKS: return "locks";
    case LABEL_BLOCKS: return "blocks do not fit the length";
    case LABEL_SIZE: return "block length";
    case LABEL_STATE: return "state";
    case LABEL_SLOT: return "slot";
    case LABEL_MASK_BITS: return "mask length";
    default: return place < LABEL_ZEROS ? "mask" : "not 0";
    }
}

static const char *chip_words(size_t place)
{
    return place == CHIP_STATE ? "state" : place == CHIP_ID ? "Chip_ID"
         : place == CHIP_RELOAD ? "reload" : "fixed-ID option";
}

static void body_words(const uint8_t *rack, const struct verdict *v, char *out)
{
    size_t place = v->place - ref_rack_offset(rack, v->entry);
    if (ref_rack_kind(rack, v->entry) == REF_KIND_CHIP)
        strcpy(out, chip_words(place));
    else if (place < LABEL_HEAD)
        strcpy(out, label_words(place));
    else
        sprintf(out, "lock of block %zu", place - LABEL_HEAD);
}

int refused(const uint8_t *rack, size_t len, char *out)
{
    struct verdict v = judge(rack, len);
    if ((v.number == 0) != ref_well_formed(rack, len)) {
        strcpy(out, "the two judges of says do not agree");
        return 1;
    }
    out += sprintf(out, "refused 1: byte %zu: ", v.place);
    if (v.number == 12 || v.number == 13)
        out += sprintf(out, "tag %zu: ", v.entry);
    if (v.number == 10)
        strcpy(out, "the file ends here, in the middle of a rack");
    else if (v.number == 11)
        strcpy(out, v.place == 0 ? "edition is not 1" : "more than 64 tags");
    else if (v.number == 12)
        strcpy(out, entry_words(v.place - REF_HEAD - REF_ENTRY * v.entry));
    else if (v.number == 13)
        body_words(rack, &v, out);
    else
        strcpy(out, "bytes behind the last tag");
    return v.number != 0;
}
