/* gen.c - the seeded generator. See gen.h. */
#include "gen.h"

#include <string.h>

/* ------------------------------------------------------------ random numbers */

void gen_seed(struct gen *g, uint64_t seed)
{
    uint64_t z = seed + 0x9E3779B97F4A7C15u;
    z = (z ^ (z >> 30)) * 0xBF58476D1CE4E5B9u;
    z = (z ^ (z >> 27)) * 0x94D049BB133111EBu;
    z ^= z >> 31;
    g->state = z ? z : 1;
    g->ends_to_come = 0;
}

uint64_t gen_u64(struct gen *g)
{
    uint64_t x = g->state;
    x ^= x >> 12;
    x ^= x << 25;
    x ^= x >> 27;
    g->state = x;
    return x * 0x2545F4914F6CDD1Du;
}

uint8_t gen_byte(struct gen *g)
{
    return (uint8_t)(gen_u64(g) >> 40);
}

uint32_t gen_below(struct gen *g, uint32_t n)
{
    return (uint32_t)((gen_u64(g) >> 33) % n);
}

int gen_chance(struct gen *g, uint32_t percent)
{
    return gen_below(g, 100) < percent;
}

static void fill(struct gen *g, uint8_t *bytes, size_t len)
{
    for (size_t i = 0; i < len; i++)
        bytes[i] = gen_byte(g);
}

static uint8_t one_of(struct gen *g, const uint8_t *bytes, size_t count)
{
    return bytes[gen_below(g, (uint32_t)count)];
}

static void put_number(uint8_t *bytes, uint64_t number, size_t len)
{
    for (size_t i = 0; i < len; i++)
        bytes[i] = (uint8_t)(number >> (8 * i));
}

/* ------------------------------------------------------------------- labels */

/* What labels of one rack have in common, so that they meet. */
struct family {
    uint64_t uids[REF_TAGS_MOST];
    size_t count;
    int twins;             /* may two have one UID? */
    unsigned slot;
    unsigned bits;
    uint64_t mask;
    uint8_t afi;
};

static int known(const struct family *f, uint64_t uid)
{
    for (size_t i = 0; i < f->count; i++)
        if (f->uids[i] == uid)
            return 1;
    return 0;
}

/* A new UID: fresh, one that shares a long ending with another, or, where the rack may have them, a twin. */
static uint64_t new_uid(struct gen *g, struct family *f)
{
    uint64_t uid = gen_u64(g);
    if (gen_chance(g, 50))
        uid = (uid & 0x00FFFFFFFFFFFFFFu) | 0xE000000000000000u;
    if (gen_chance(g, 15))
        uid &= 0xE0000000000000FFu;
    if (f->count > 0 && gen_chance(g, 65)) {
        uint64_t other = f->uids[gen_below(g, (uint32_t)f->count)];
        uint32_t how = gen_below(g, 10);
        unsigned keep = gen_below(g, 64);
        if (how == 0)
            uid = other;
        else if (how < 4)
            uid = other ^ ((uint64_t)(1 + gen_below(g, 15)) << (4 * gen_below(g, 16)));
        else if (how < 6)
            uid = other ^ ((uint64_t)(1 + gen_below(g, 15)) << 60);
        else if (how < 8)
            uid = other ^ ((uint64_t)1 << keep);
        else
            uid = (other & ref_low_bits(keep)) | (uid & ~ref_low_bits(keep));
    }
    while (!f->twins && known(f, uid))
        uid = gen_u64(g);
    if (f->count < REF_TAGS_MOST)
        f->uids[f->count++] = uid;
    return uid;
}

uint8_t gen_afi(struct gen *g, uint8_t near)
{
    uint32_t how = gen_below(g, 20);
    if (how < 7)
        return near;
    if (how < 11)
        return (uint8_t)((near & 0xF0) | gen_below(g, 16));
    if (how < 14)
        return near & 0xF0;
    if (how < 16)
        return near & 0x0F;
    return how < 18 ? 0 : gen_byte(g);
}

static void new_family(struct gen *g, struct family *f)
{
    memset(f, 0, sizeof *f);
    f->twins = gen_chance(g, 40);
    f->slot = gen_below(g, 16);
    f->bits = gen_chance(g, 40) ? 0 : gen_below(g, 61);
    f->mask = gen_u64(g) & ref_low_bits(f->bits);
    f->afi = gen_byte(g);
}

/* A running slot: the common one, one that waits for this UID, or any. */
static void run_slot(struct gen *g, const struct family *f, uint64_t uid, uint8_t *body)
{
    unsigned slot = gen_below(g, 16), bits = gen_below(g, 61);
    uint64_t mask = gen_u64(g);
    uint32_t how = gen_below(g, 4);
    if (how == 0) {
        slot = f->slot;
        bits = f->bits;
        mask = f->mask;
    } else if (how == 1) {
        mask = uid;
        slot = (unsigned)((uid >> bits) & 15u);
        slot = gen_chance(g, 60) ? (slot + 15) % 16 : slot;
    } else if (how == 2) {
        mask = uid;
    }
    body[LABEL_SLOT] = (uint8_t)slot;
    body[LABEL_MASK_BITS] = (uint8_t)bits;
    put_number(body + LABEL_MASK, mask & ref_low_bits(bits), 8);
}

static void label_size(struct gen *g, unsigned *blocks, unsigned *size)
{
    uint32_t how = gen_below(g, 20);
    *blocks = 1 + gen_below(g, 6);
    *size = gen_chance(g, 50) ? 4 : 1 + gen_below(g, 8);
    if (how == 0)
        *blocks = 256;
    if (how == 1)
        *size = 32;
    if (how == 2) {
        *blocks = 1 + gen_below(g, 256);
        *size = 1 + gen_below(g, 32);
    }
    if (how == 3 && gen_chance(g, 40)) {
        *blocks = 256;
        *size = 32;
    }
}

static void label_memory(struct gen *g, uint8_t *body, unsigned blocks, unsigned size)
{
    uint32_t locked = gen_chance(g, 50) ? 0 : gen_below(g, 60);
    for (unsigned i = 0; i < blocks; i++)
        body[LABEL_HEAD + i] = (uint8_t)gen_chance(g, locked);
    fill(g, body + LABEL_HEAD + blocks, (size_t)blocks * size);
}

/* Writes a label of that many blocks; gives the body's length. */
static size_t sized_label(struct gen *g, struct family *f, uint8_t *body, unsigned blocks,
                          unsigned size)
{
    uint64_t uid = new_uid(g, f);
    memset(body, 0, LABEL_HEAD);
    put_number(body, uid, 8);
    body[LABEL_DSFID] = gen_byte(g);
    body[LABEL_AFI] = gen_afi(g, f->afi);
    body[LABEL_LOCKS] = (uint8_t)(gen_chance(g, 60) ? 0 : gen_below(g, 4));
    body[LABEL_BLOCKS] = (uint8_t)(blocks - 1);
    body[LABEL_SIZE] = (uint8_t)(size - 1);
    body[LABEL_IC] = gen_byte(g);
    body[LABEL_STATE] = (uint8_t)(gen_chance(g, 50) ? 1 : gen_below(g, 4));
    body[LABEL_SLOT] = LABEL_NO_SLOT;
    if ((body[LABEL_STATE] & 1) && gen_chance(g, 50))
        run_slot(g, f, uid, body);
    label_memory(g, body, blocks, size);
    return LABEL_HEAD + (size_t)blocks * (1 + size);
}

/* -------------------------------------------------------------------- chips */

static uint32_t counter_value(struct gen *g)
{
    switch (gen_below(g, 5)) {
    case 0: return gen_below(g, 4);
    case 1: return 0x00200000u * (1 + gen_below(g, 2047)) + gen_below(g, 3) - 1;
    case 2: return 0xFFFFFFFFu - gen_below(g, 3);
    default: return (uint32_t)gen_u64(g);
    }
}

static uint32_t lock_word(struct gen *g)
{
    uint32_t low = (uint32_t)gen_u64(g) & 0xFFFFu;
    uint32_t high = 0xFFFFu;
    uint32_t how = gen_below(g, 4);
    if (how == 1)
        high &= ~(1u << gen_below(g, 16));
    if (how == 2)
        high &= (uint32_t)gen_u64(g) | (uint32_t)gen_u64(g);
    if (how == 3 && gen_chance(g, 30))
        high = 0;
    return (high & 0xFFFFu) << 16 | low;
}

static const uint8_t SOME_IDS[] = { 0x00, 0x10, 0x11, 0x20, 0x2F, 0x35, 0xFF };

static void chip_state(struct gen *g, uint8_t *body)
{
    uint8_t state = (uint8_t)(gen_chance(g, 60) ? 1 + gen_below(g, 3) : gen_below(g, 6));
    body[CHIP_STATE] = state;
    body[CHIP_OPTION] = (uint8_t)gen_chance(g, 25);
    body[CHIP_RELOAD] = (uint8_t)(state == CHIP_SELECTED && gen_chance(g, 40));
    body[CHIP_ID] = gen_chance(g, 60) ? one_of(g, SOME_IDS, sizeof SOME_IDS) : gen_byte(g);
    if (body[CHIP_OPTION])
        body[CHIP_ID] = body[CHIP_SYSTEM];
    if (state == CHIP_OFF)
        body[CHIP_ID] = 0;
}

static size_t new_chip(struct gen *g, uint8_t *body)
{
    fill(g, body, CHIP_LENGTH);
    put_number(body + 20, counter_value(g), 4);
    put_number(body + 24, counter_value(g), 4);
    put_number(body + CHIP_SYSTEM, lock_word(g), 4);
    if (gen_chance(g, 50))
        body[CHIP_SYSTEM] = one_of(g, SOME_IDS, sizeof SOME_IDS);
    chip_state(g, body);
    return CHIP_LENGTH;
}

/* -------------------------------------------------------------------- racks */

static void write_entry(uint8_t *rack, size_t entry, uint8_t kind, size_t len, size_t offset)
{
    uint8_t *at = rack + REF_HEAD + REF_ENTRY * entry;
    at[0] = kind;
    at[1] = 0;
    put_number(at + 2, len, 2);
    put_number(at + 4, offset, 4);
}

/* Entry of a random tag of that kind; -1 if there is none. */
static int pick_tag(struct gen *g, const uint8_t *rack, uint8_t kind)
{
    size_t n = ref_rack_tags(rack);
    if (n == 0)
        return -1;
    size_t first = gen_below(g, (uint32_t)n);
    for (size_t i = 0; i < n; i++)
        if (ref_rack_kind(rack, (first + i) % n) == kind)
            return (int)((first + i) % n);
    return -1;
}

int gen_like_label(const uint8_t *rack, size_t entry)
{
    const uint8_t *body = rack + ref_rack_offset(rack, entry);
    return ref_rack_kind(rack, entry) == REF_KIND_CHIP && ref_label_well_formed(body, CHIP_LENGTH) && (body[LABEL_STATE] & 1);
}

/* Writes the chip's blocks so that all its bytes pass for a label's in state 1 or 3, often for one of this rack. */
static void disguise(struct gen *g, const struct family *f, const uint8_t *rack, uint8_t *chip)
{
    static const uint8_t sizes[] = { 1, 2, 3, 5, 7, 11, 15, 23 };
    struct family own = *f;                    /* a chip's UID makes no twin */
    uint8_t label[CHIP_LENGTH];
    unsigned size = one_of(g, sizes, sizeof sizes);
    int other = pick_tag(g, rack, REF_KIND_LABEL);
    sized_label(g, &own, label, (CHIP_LENGTH - LABEL_HEAD) / (1 + size), size);
    if (other >= 0 && gen_chance(g, 60)) {
        uint8_t blocks = label[LABEL_BLOCKS];
        memcpy(label, rack + ref_rack_offset(rack, (size_t)other), LABEL_HEAD);
        label[LABEL_BLOCKS] = blocks;
        label[LABEL_SIZE] = (uint8_t)(size - 1);
    }
    label[LABEL_STATE] |= 1;
    memcpy(chip, label, CHIP_SYSTEM);
}

static void disguise_some(struct gen *g, const struct family *f, uint8_t *rack)
{
    for (size_t i = 0; i < ref_rack_tags(rack); i++)
        if (ref_rack_kind(rack, i) == REF_KIND_CHIP && gen_chance(g, 25))
            disguise(g, f, rack, rack + ref_rack_offset(rack, i));
}

static size_t tag_count(struct gen *g)
{
    uint32_t how = gen_below(g, 20);
    if (how == 0)
        return 0;
    if (how < 4)
        return 1;
    if (how < 15)
        return 2 + gen_below(g, 6);
    if (how < 19)
        return 8 + gen_below(g, 20);
    return gen_chance(g, 50) ? 64 : 40 + gen_below(g, 25);
}

/* A label that fits into `room` bytes; the smallest has 34. */
static size_t fitting_label(struct gen *g, struct family *f, uint8_t *body, size_t room)
{
    unsigned blocks, size;
    label_size(g, &blocks, &size);
    if (LABEL_HEAD + (size_t)blocks * (1 + size) > room)
        blocks = size = 1;
    return sized_label(g, f, body, blocks, size);
}

size_t gen_rack(struct gen *g, uint8_t *rack)
{
    struct family f;
    size_t n = tag_count(g);
    uint32_t labels = gen_below(g, 5) * 25;        /* share of labels, percent */
    size_t end = REF_HEAD + REF_ENTRY * n;
    new_family(g, &f);
    g->ends_to_come = 0;
    rack[0] = 1;
    rack[1] = (uint8_t)n;
    for (size_t i = 0; i < n; i++) {
        size_t room = REF_RACK_MOST - end - CHIP_LENGTH * (n - 1 - i);
        int label = gen_chance(g, labels);
        size_t len = label ? fitting_label(g, &f, rack + end, room) : new_chip(g, rack + end);
        write_entry(rack, i, label ? REF_KIND_LABEL : REF_KIND_CHIP, len, end);
        end += len;
    }
    disguise_some(g, &f, rack);
    return end;
}

size_t gen_long_rack(struct gen *g, uint8_t *rack)
{
    struct family f;
    size_t n = 1 + gen_below(g, 2), end = REF_HEAD + REF_ENTRY * n;
    new_family(g, &f);
    g->ends_to_come = 0;
    rack[0] = 1;
    rack[1] = (uint8_t)n;
    for (size_t i = 0; i < n; i++) {
        size_t len = sized_label(g, &f, rack + end, 256, 32);
        write_entry(rack, i, REF_KIND_LABEL, len, end);
        end += len;
    }
    return end;
}

/* Blocks and length of a block so that the label's body has this length. */
static int solve_label(struct gen *g, size_t len, unsigned *blocks, unsigned *size)
{
    unsigned first = gen_below(g, 32);
    for (unsigned i = 0; len > LABEL_HEAD && i < 32; i++) {
        *size = 1 + (first + i) % 32;
        size_t rest = len - LABEL_HEAD;
        if (rest % (1 + *size) == 0 && rest / (1 + *size) <= 256) {
            *blocks = (unsigned)(rest / (1 + *size));
            return 1;
        }
    }
    return 0;
}

/* A rack of exactly `wanted` bytes, or 0 if this try found none. */
static size_t try_full_rack(struct gen *g, uint8_t *rack, size_t wanted)
{
    struct family f;
    size_t n = 9 + gen_below(g, 56);
    size_t end = REF_HEAD + REF_ENTRY * n;
    unsigned blocks, size;
    new_family(g, &f);
    rack[0] = 1;
    rack[1] = (uint8_t)n;
    for (size_t i = 0; i + 1 < n; i++) {
        size_t left = wanted - end, share = left / (n - i);
        size_t len = CHIP_LENGTH;
        size = 1 + gen_below(g, 32);
        blocks = share > 100 ? (unsigned)((share - LABEL_HEAD) / (1 + size)) : 1;
        blocks = blocks > 256 ? 256 : blocks;
        int label = gen_chance(g, 90) && blocks > 0;
        len = label ? sized_label(g, &f, rack + end, blocks, size) : new_chip(g, rack + end);
        write_entry(rack, i, label ? REF_KIND_LABEL : REF_KIND_CHIP, len, end);
        end += len;
    }
    if (!solve_label(g, wanted - end, &blocks, &size))
        return 0;
    size_t len = sized_label(g, &f, rack + end, blocks, size);
    write_entry(rack, n - 1, REF_KIND_LABEL, len, end);
    disguise_some(g, &f, rack);
    return end + len;
}

size_t gen_full_rack(struct gen *g, uint8_t *rack)
{
    size_t len;
    do {
        len = try_full_rack(g, rack, REF_RACK_MOST);
    } while (len == 0);
    g->ends_to_come = 0;
    return len;
}

/* In order, but with 65 to 70 tags. */
static size_t too_many_tags(struct gen *g, uint8_t *rack)
{
    size_t n = 65 + (gen_chance(g, 50) ? 0 : gen_below(g, 6));
    size_t end = REF_HEAD + REF_ENTRY * n;
    rack[0] = 1;
    rack[1] = (uint8_t)n;
    for (size_t i = 0; i < n; i++) {
        new_chip(g, rack + end);
        write_entry(rack, i, REF_KIND_CHIP, CHIP_LENGTH, end);
        end += CHIP_LENGTH;
    }
    return end;
}

size_t gen_over_rack(struct gen *g, uint8_t *rack)
{
    size_t len;
    g->ends_to_come = 0;
    if (gen_chance(g, 40))
        return too_many_tags(g, rack);
    do {
        len = try_full_rack(g, rack, REF_RACK_MOST + 1 + (gen_chance(g, 50) ? 0 : gen_below(g, 400)));
    } while (len == 0);
    return len;
}

/* ------------------------------------------------------------------- damage */

static void spoil_label(struct gen *g, uint8_t *body)
{
    switch (gen_below(g, 12)) {
    case 0: body[LABEL_LOCKS] = (uint8_t)(4u << gen_below(g, 6)); break;
    case 1: body[LABEL_BLOCKS]++; break;
    case 2: body[LABEL_SIZE] = (uint8_t)(gen_chance(g, 50) ? 32 : body[LABEL_SIZE] + 1); break;
    case 3: body[LABEL_STATE] = (uint8_t)gen_below(g, 6); break;
    case 4: body[LABEL_SLOT] = (uint8_t)(gen_chance(g, 50) ? 16 : 254); break;
    case 5: body[LABEL_SLOT] = (uint8_t)gen_below(g, 16); break;
    case 6: body[LABEL_SLOT] = LABEL_NO_SLOT; break;
    case 7: body[LABEL_MASK_BITS] = (uint8_t)(gen_chance(g, 50) ? 61 : gen_below(g, 64)); break;
    case 8: body[LABEL_MASK + gen_below(g, 8)] ^= (uint8_t)(1u << gen_below(g, 8)); break;
    case 9: body[LABEL_ZEROS + gen_below(g, 7)] = (uint8_t)(1u << gen_below(g, 8)); break;
    case 10: body[LABEL_HEAD + gen_below(g, body[LABEL_BLOCKS] + 1u)] = (uint8_t)gen_below(g, 4); break;
    default: body[gen_below(g, LABEL_HEAD)] = gen_byte(g); break;
    }
}

static void spoil_chip(struct gen *g, uint8_t *body)
{
    switch (gen_below(g, 7)) {
    case 0: body[CHIP_STATE] = (uint8_t)gen_below(g, 8); break;
    case 1: body[CHIP_ID] = (uint8_t)(body[CHIP_ID] + 1); break;
    case 2: body[CHIP_RELOAD] = (uint8_t)(1 + gen_below(g, 2)); break;
    case 3: body[CHIP_OPTION] = (uint8_t)(1 + gen_below(g, 2)); break;
    case 4: body[CHIP_SYSTEM] = (uint8_t)(body[CHIP_SYSTEM] + 1); break;
    case 5: body[CHIP_ID] = 0; break;
    default: body[gen_below(g, CHIP_LENGTH)] = gen_byte(g); break;
    }
}

static void spoil_body(struct gen *g, uint8_t *rack)
{
    size_t entry = gen_below(g, (uint32_t)ref_rack_tags(rack));
    uint8_t *body = rack + ref_rack_offset(rack, entry);
    if (ref_rack_kind(rack, entry) == REF_KIND_LABEL)
        spoil_label(g, body);
    else
        spoil_chip(g, body);
}

static void spoil_entry(struct gen *g, uint8_t *rack)
{
    uint8_t *entry = rack + REF_HEAD + REF_ENTRY * gen_below(g, (uint32_t)ref_rack_tags(rack));
    uint32_t at = gen_below(g, 8);
    uint32_t how = gen_below(g, 4);
    if (how == 0)
        entry[0] = (uint8_t)gen_below(g, 4);
    else if (how == 1)
        entry[at]++;
    else if (how == 2)
        entry[at]--;
    else
        entry[at] = gen_byte(g);
}

/* The last body made longer or shorter, its entry and the file with it. */
static size_t change_last_body(struct gen *g, uint8_t *rack, size_t len)
{
    size_t last = ref_rack_tags(rack) - 1;
    uint8_t *entry = rack + REF_HEAD + REF_ENTRY * last;
    size_t offset = ref_rack_offset(rack, last), now = len - offset;
    if (gen_chance(g, 50))
        now = gen_below(g, 90);
    else
        now = gen_chance(g, 50) ? now + 1 : now - 1;
    if (offset + now > len)
        memset(rack + len, 0, offset + now - len);
    put_number(entry + 2, now, 2);
    return offset + now;
}

static size_t change_length(struct gen *g, uint8_t *rack, size_t len)
{
    if (ref_rack_tags(rack) > 0 && gen_chance(g, 25))
        return change_last_body(g, rack, len);
    size_t by = gen_chance(g, 50) ? 1 : 1 + gen_below(g, 100);
    if (gen_chance(g, 50)) {
        memset(rack + len, gen_chance(g, 50) ? 0 : gen_byte(g), by);
        return len + by;
    }
    if (gen_chance(g, 30))
        return gen_below(g, (uint32_t)len + 1);
    return by > len ? 0 : len - by;
}

size_t gen_damage(struct gen *g, uint8_t *rack, size_t len)
{
    uint32_t how = gen_below(g, 10);
    size_t n = ref_rack_tags(rack);
    if (how == 0)
        rack[0] = (uint8_t)(gen_chance(g, 50) ? 2 : gen_byte(g));
    else if (how == 1)
        rack[1] = (uint8_t)(gen_chance(g, 50) ? n + 1 : gen_chance(g, 50) ? n - 1 : 65);
    else if (how <= 3)
        return change_length(g, rack, len);
    else if (how == 4)
        rack[gen_below(g, (uint32_t)len)] ^= (uint8_t)(1u << gen_below(g, 8));
    else if (how <= 6 && n > 0)
        spoil_entry(g, rack);
    else if (n > 0)
        spoil_body(g, rack);
    else
        rack[gen_below(g, 2)]++;
    return len;
}

/* ----------------------------------------------------------- frames at large */

static size_t add_sum(uint8_t *frame, size_t len)
{
    uint16_t sum = ref_check_sum(frame, len);
    frame[len] = (uint8_t)(sum & 0xFFu);
    frame[len + 1] = (uint8_t)(sum >> 8);
    return len + 2;
}

/* Ends a frame: mostly with its sum, sometimes with a wrong one. */
static size_t close_frame(struct gen *g, uint8_t *frame, size_t len, uint32_t right)
{
    size_t all = add_sum(frame, len);
    if (gen_chance(g, right))
        return all;
    uint8_t low = frame[len];
    switch (gen_below(g, 5)) {
    case 0: frame[len] = frame[len + 1]; frame[len + 1] = low; break;      /* swapped */
    case 1: frame[len] ^= 0xFF; frame[len + 1] ^= 0xFF; break;             /* not inverted */
    case 2: frame[gen_below(g, (uint32_t)all)] ^= (uint8_t)(1u << gen_below(g, 8)); break;
    case 3: frame[len] = gen_byte(g); frame[len + 1] = gen_byte(g); break;
    default: return len;                                                   /* left out */
    }
    return all;
}

/* Changes the length of what stands before the sum. */
static size_t stretch(struct gen *g, uint8_t *frame, size_t len)
{
    static const uint8_t steps[] = { 1, 1, 1, 2, 4, 8, 9 };
    size_t by = one_of(g, steps, sizeof steps);
    if (gen_chance(g, 55)) {
        fill(g, frame + len, by);
        return len + by;
    }
    return by > len ? 0 : len - by;
}

static size_t far_length(struct gen *g)
{
    uint32_t how = gen_below(g, 200);
    if (how == 0)
        return 69990 + gen_below(g, 20);
    if (how < 20)
        return gen_below(g, 299);
    return gen_below(g, 16);
}

size_t gen_bytes(struct gen *g, uint8_t *bytes)
{
    uint32_t how = gen_below(g, 200);
    size_t len = gen_below(g, 20);
    if (how == 0)
        len = gen_below(g, GEN_FRAME_ROOM);
    else if (how < 50)
        len = gen_below(g, 300);
    if (gen_chance(g, 90))
        fill(g, bytes, len);
    else
        memset(bytes, gen_chance(g, 50) ? 0x00 : 0xFF, len);
    return len;
}

static size_t far_frame(struct gen *g, uint8_t *frame)
{
    size_t len = far_length(g);
    fill(g, frame, len);
    return gen_chance(g, 50) ? add_sum(frame, len) : len;
}

/* ------------------------------------------------------------- label frames */

/* A label to talk to, or a chip that looks like one; if the rack has none, one that stands nowhere. */
static const uint8_t *pick_label(struct gen *g, const uint8_t *rack)
{
    static const uint8_t nobody[LABEL_HEAD] = { 1, 2, 3, 4, 5, 6, 7, 0xE0, [LABEL_SIZE] = 3 };
    const uint8_t *body = nobody;
    int chip = gen_chance(g, 10) ? pick_tag(g, rack, REF_KIND_CHIP) : -1;
    if (chip >= 0 && gen_like_label(rack, (size_t)chip))
        return rack + ref_rack_offset(rack, (size_t)chip);
    for (int tries = 0; tries < 3; tries++) {
        int entry = pick_tag(g, rack, REF_KIND_LABEL);
        if (entry < 0)
            return nobody;
        body = rack + ref_rack_offset(rack, (size_t)entry);
        if (body[LABEL_STATE] != LABEL_OFF)
            return body;
    }
    return body;
}

static void pick_uid(struct gen *g, const uint8_t *body, uint8_t *uid)
{
    uint32_t how = gen_below(g, 100);
    memcpy(uid, body, REF_UID);
    if (how < 8)
        uid[gen_below(g, REF_UID)] ^= (uint8_t)(1u << gen_below(g, 8));
    else if (how < 11)
        for (int i = 0; i < REF_UID; i++)
            uid[i] = body[REF_UID - 1 - i];
    else if (how < 14)
        fill(g, uid, REF_UID);
}

static uint8_t mask_length(struct gen *g)
{
    static const uint8_t edges[] = { 0, 1, 4, 7, 8, 9, 56, 57, 59, 60, 61, 63, 64, 65, 68, 128, 255 };
    uint32_t how = gen_below(g, 10);
    if (how < 2)
        return (uint8_t)(4 * gen_below(g, 3));       /* short ones, that many labels pass */
    if (how < 5)
        return (uint8_t)(4 * gen_below(g, 16));
    if (how < 8)
        return (uint8_t)gen_below(g, 65);
    return one_of(g, edges, sizeof edges);
}

/* A mask that this UID ends in, or nearly; spare bits zero or not. */
static size_t put_mask(struct gen *g, uint64_t uid, unsigned bits, uint8_t *at)
{
    size_t bytes = (bits + 7) / 8;
    uint64_t mask = uid;
    fill(g, at, bytes);
    if (bits > 0 && bits <= 64 && gen_chance(g, 15))
        mask ^= (uint64_t)1 << gen_below(g, bits);
    if (gen_chance(g, 50))
        mask &= ref_low_bits(bits);
    else if (gen_chance(g, 50))
        mask = (mask & ref_low_bits(bits)) | (gen_u64(g) & ~ref_low_bits(bits));
    if (bits <= 64)
        put_number(at, mask, bytes);
    else if (gen_chance(g, 70)) {
        memset(at, 0, bytes);                /* too long, but the UID does stand in it */
        put_number(at, uid, 8);
    }
    return bytes;
}

static uint8_t odd_flags(struct gen *g, uint8_t flags)
{
    flags |= (uint8_t)gen_below(g, 4);
    if (gen_chance(g, 2))
        flags ^= 0x08;
    if (gen_chance(g, 2))
        flags ^= 0x80;
    return flags;
}

static size_t inventory_frame(struct gen *g, const uint8_t *rack, uint8_t *frame)
{
    const uint8_t *body = pick_label(g, rack);
    uint8_t flags = 0x04;
    size_t len = 0;
    flags |= (uint8_t)(gen_chance(g, 40) ? 0x10 : 0);
    flags |= (uint8_t)(gen_chance(g, 40) ? 0x20 : 0);
    flags |= (uint8_t)(gen_chance(g, 4) ? 0x40 : 0);
    frame[len++] = odd_flags(g, flags);
    frame[len++] = gen_chance(g, 96) ? 0x01 : gen_chance(g, 50) ? 0x20 : gen_byte(g);
    if (flags & 0x10)
        frame[len++] = gen_afi(g, body[LABEL_AFI]);
    uint8_t bits = mask_length(g);
    frame[len++] = bits;
    len += put_mask(g, ref_number(body, 8), bits, frame + len);
    if (!(flags & 0x60) && frame[1] == 0x01 && bits <= 60 && gen_chance(g, 45))
        g->ends_to_come = 1 + gen_below(g, 18);
    return len;
}

static const uint8_t LABEL_CODES[] = {
    0x02, 0x20, 0x21, 0x22, 0x25, 0x26, 0x27, 0x28, 0x29, 0x2A, 0x2B,
    0x20, 0x21, 0x25, 0x25, 0x02, 0x26, 0x21, 0x23, 0x23, 0x23, 0x2C, 0x2C
};
static const uint8_t OTHER_CODES[] = {
    0x00, 0x01, 0x01, 0x03, 0x1F, 0x24, 0x2D, 0x9F, 0xA0, 0xDF, 0xE0, 0xFF
};

static uint8_t pick_block(struct gen *g, const uint8_t *body)
{
    uint32_t blocks = body[LABEL_BLOCKS] + 1u;
    uint32_t how = gen_below(g, 10);
    if (how == 0)
        return (uint8_t)blocks;              /* one past the end, or 0 */
    if (how == 1)
        return 255;
    if (how == 2)
        return (uint8_t)(blocks - 1);
    if (how == 3)
        return gen_byte(g);
    return (uint8_t)gen_below(g, blocks);
}

/* First block and number of blocks less 1: the whole label, rather where that
 * is 256 blocks, to its end, past it by one, or with a number at an edge. */
static void put_blocks(struct gen *g, const uint8_t *body, uint8_t *at)
{
    static const uint8_t edges[] = { 0, 0, 1, 254, 255 };
    uint32_t blocks = body[LABEL_BLOCKS] + 1u;
    uint32_t how = blocks == 256 && gen_chance(g, 60) ? 0 : gen_below(g, 12);
    at[0] = how < 4 ? 0 : pick_block(g, body);
    uint32_t left = at[0] < blocks ? blocks - at[0] : 1;
    if (how < 3 || how == 4)
        at[1] = (uint8_t)(left - 1);
    else if (how == 3 || how == 5)
        at[1] = (uint8_t)left;
    else if (how < 8)
        at[1] = one_of(g, edges, sizeof edges);
    else
        at[1] = (uint8_t)(how == 8 ? gen_byte(g) : gen_below(g, left));
}

/* The parameters behind the UID, for this code and this label. */
static size_t put_parameters(struct gen *g, const uint8_t *body, uint8_t code, uint8_t *at)
{
    size_t len = 0;
    if (code == 0x20 || code == 0x21 || code == 0x22)
        at[len++] = pick_block(g, body);
    if (code == 0x23 || code == 0x2C) {
        put_blocks(g, body, at);
        len = 2;
    }
    if (code == 0x27 || code == 0x29)
        at[len++] = gen_byte(g);
    if (code == 0x21) {
        size_t size = body[LABEL_SIZE] + 1u;
        if (gen_chance(g, 6))
            size = 1 + gen_below(g, 33);
        fill(g, at + len, size);
        len += size;
    }
    return len;
}

static size_t command_frame(struct gen *g, const uint8_t *rack, uint8_t *frame)
{
    const uint8_t *body = pick_label(g, rack);
    uint32_t who = gen_below(g, 20);
    uint8_t flags = 0;
    size_t len = 0;
    flags |= (uint8_t)(who < 4 || who == 19 ? 0x10 : 0);
    flags |= (uint8_t)(who >= 9 ? 0x20 : 0);
    flags |= (uint8_t)(gen_chance(g, 12) ? 0x40 : 0);
    frame[len++] = odd_flags(g, flags);
    frame[len++] = gen_chance(g, 93) ? one_of(g, LABEL_CODES, sizeof LABEL_CODES)
                                     : one_of(g, OTHER_CODES, sizeof OTHER_CODES);
    if (frame[1] == 0x23 && gen_chance(g, 50))
        frame[0] |= 0x40;
    if (frame[1] == 0x25 && gen_chance(g, 80)) {
        flags = (uint8_t)((flags & 0x40) | 0x20);
        frame[0] = (uint8_t)((frame[0] & 0x8F) | flags);
    }
    if ((flags & 0x20) ? gen_chance(g, 98) : gen_chance(g, 3)) {
        pick_uid(g, body, frame + len);
        len += REF_UID;
    }
    return len + put_parameters(g, body, frame[1], frame + len);
}

/* A right head with a very long tail. */
static size_t long_tail(struct gen *g, uint8_t *frame, size_t len)
{
    size_t more = gen_chance(g, 10) ? 69900 : gen_below(g, 250);
    fill(g, frame + len, more);
    return len + more;
}

size_t gen_label_frame(struct gen *g, const uint8_t *rack, uint8_t *frame)
{
    if (gen_chance(g, 5))
        return far_frame(g, frame);
    size_t len = gen_chance(g, 35) ? inventory_frame(g, rack, frame) : command_frame(g, rack, frame);
    if (gen_chance(g, 8))
        len = stretch(g, frame, len);
    if (gen_below(g, 300) == 0)
        len = long_tail(g, frame, len);
    return close_frame(g, frame, len, 94);
}

/* -------------------------------------------------------------- chip frames */

/* A chip to talk to, rather one that is selected, rather none that is dead. */
static const uint8_t *pick_chip(struct gen *g, const uint8_t *rack)
{
    static const uint8_t nobody[CHIP_LENGTH] = { 0xFF };
    const uint8_t *body = nobody;
    for (int tries = 0; tries < 4; tries++) {
        int entry = pick_tag(g, rack, REF_KIND_CHIP);
        if (entry < 0)
            return nobody;
        body = rack + ref_rack_offset(rack, (size_t)entry);
        uint8_t state = body[CHIP_STATE];
        if (state == CHIP_SELECTED || (tries > 0 && state != CHIP_OFF && state != CHIP_DEACTIVATED))
            return body;
    }
    return body;
}

static uint8_t pick_address(struct gen *g)
{
    static const uint8_t edges[] = { 15, 16, 17, 254, 255, 255, 255, 128 };
    if (gen_chance(g, 20))
        return one_of(g, edges, sizeof edges);
    return (uint8_t)(gen_chance(g, 30) ? 6 : gen_below(g, 16));
}

/* A word to write over the old one. */
static uint32_t pick_word(struct gen *g, const uint8_t *body, uint8_t address)
{
    uint32_t old = 0;
    if (address <= 15)
        old = (uint32_t)ref_number(body + 4 * address, 4);
    if (address == 255)
        old = (uint32_t)ref_number(body + CHIP_SYSTEM, 4);
    switch (gen_below(g, 12)) {
    case 0: return old;
    case 1: return old - 1;
    case 2: return old + 1;
    case 3: return 0;
    case 4: return 0xFFFFFFFFu;
    case 5: return old & (uint32_t)gen_u64(g);
    case 6: return old & ~(1u << gen_below(g, 32));
    case 7: return (old & 0xFFE00000u) - 1;
    case 8: return (old & 0xFFE00000u);
    case 9: return old - 0x00200000u;
    case 10: return 0xFFFFFFFFu & ~(0x10000u << gen_below(g, 16));
    default: return (uint32_t)gen_u64(g);
    }
}

/* 00, 04 and 06 stand for the three commands of 06. */
static const uint8_t CHIP_CODES[] = { 0x00, 0x04, 0x06, 0x08, 0x09, 0x0B, 0x0C, 0x0E, 0x0F };
static const uint8_t CODES_WHEN_READY[] = { 0x00, 0x00, 0x00, 0x0E };
static const uint8_t CODES_IN_INVENTORY[] = { 0x00, 0x04, 0x04, 0x06, 0x06, 0x0E, 0x0E };
static const uint8_t CODES_WHEN_SELECTED[] = {
    0x08, 0x08, 0x09, 0x09, 0x09, 0x09, 0x09, 0x09, 0x0B, 0x0E, 0x0C, 0x0F
};

/* A command, mostly one that the chip listens to in its state. */
static uint8_t pick_chip_code(struct gen *g, const uint8_t *body)
{
    uint8_t state = body[CHIP_STATE];
    if (gen_chance(g, 25))
        return one_of(g, CHIP_CODES, sizeof CHIP_CODES);
    if (state == CHIP_READY)
        return one_of(g, CODES_WHEN_READY, sizeof CODES_WHEN_READY);
    if (state == CHIP_INVENTORY)
        return one_of(g, CODES_IN_INVENTORY, sizeof CODES_IN_INVENTORY);
    if (state == CHIP_SELECTED)
        return one_of(g, CODES_WHEN_SELECTED, sizeof CODES_WHEN_SELECTED);
    return state == CHIP_DESELECTED ? 0x0E : one_of(g, CHIP_CODES, sizeof CHIP_CODES);
}

static size_t near_chip_frame(struct gen *g, const uint8_t *rack, uint8_t *frame)
{
    const uint8_t *body = pick_chip(g, rack);
    uint8_t code = pick_chip_code(g, body);
    size_t len = 0;
    if (code == 0x00 || code == 0x04) {
        frame[len++] = 0x06;
        frame[len++] = code;
        return len;
    }
    if (code == 0x06) {
        uint8_t slot = (uint8_t)(gen_chance(g, 60) ? body[CHIP_ID] & 15u : gen_below(g, 16));
        frame[len++] = (uint8_t)(slot << 4 | 6u);
        return len;
    }
    frame[len++] = code;
    if (code == 0x08 || code == 0x09)
        frame[len++] = pick_address(g);
    if (code == 0x09) {
        put_number(frame + len, pick_word(g, body, frame[1]), 4);
        len += 4;
    }
    if (code == 0x0E)
        frame[len++] = (uint8_t)(gen_chance(g, 75) ? body[CHIP_ID] : gen_chance(g, 50)
                                 ? body[CHIP_ID] ^ 1u : gen_byte(g));
    return len;
}

size_t gen_chip_frame(struct gen *g, const uint8_t *rack, uint8_t *frame)
{
    if (gen_chance(g, 5))
        return far_frame(g, frame);
    size_t len = near_chip_frame(g, rack, frame);
    if (gen_chance(g, 6))
        len = stretch(g, frame, len);
    if (len > 0 && gen_chance(g, 2))
        frame[gen_below(g, (uint32_t)len)] = gen_byte(g);
    if (len > 0 && gen_chance(g, 4))
        frame[0] ^= (uint8_t)(1u << gen_below(g, 8));
    return close_frame(g, frame, len, 95);
}

/* ------------------------------------------------------------------- events */

void gen_draws(struct gen *g, uint8_t *draws, size_t len)
{
    uint8_t common = gen_byte(g);
    for (size_t i = 0; i < len; i++) {
        draws[i] = gen_chance(g, 25) ? common : gen_byte(g);
        if (gen_chance(g, 30))
            draws[i] &= 0xF0;
    }
}

/* How many tags of the rack are off, or past all commands? */
static size_t dead_tags(const uint8_t *rack)
{
    size_t dead = 0;
    for (size_t i = 0; i < ref_rack_tags(rack); i++) {
        const uint8_t *body = rack + ref_rack_offset(rack, i);
        if (ref_rack_kind(rack, i) == REF_KIND_LABEL)
            dead += body[LABEL_STATE] == LABEL_OFF;
        else
            dead += body[CHIP_STATE] == CHIP_OFF || body[CHIP_STATE] == CHIP_DEACTIVATED;
    }
    return dead;
}

/* Off and on again when few are left to talk to. */
static uint8_t field_event(struct gen *g, const uint8_t *rack)
{
    size_t n = ref_rack_tags(rack);
    int few = n > 0 && 10 * dead_tags(rack) > 6 * n;
    if (gen_chance(g, few ? 12 : 2))
        return REF_OFF;
    if (gen_chance(g, few ? 40 : 4))
        return REF_ON;
    return 0;
}

/* A label or a chip frame, as there are labels and chips. */
static uint8_t frame_event(struct gen *g, const uint8_t *rack)
{
    size_t n = ref_rack_tags(rack);
    if (n == 0 || gen_chance(g, 10))
        return gen_chance(g, 50) ? REF_LABEL_FRAME : REF_CHIP_FRAME;
    return ref_rack_kind(rack, gen_below(g, (uint32_t)n)) == REF_KIND_LABEL ? REF_LABEL_FRAME
                                                                           : REF_CHIP_FRAME;
}

static uint8_t event_number(struct gen *g, const uint8_t *rack, int good)
{
    static const uint8_t bad[] = { 0, 6, 7, 255 };
    if (g->ends_to_come > 0) {
        g->ends_to_come--;
        if (gen_chance(g, 95))
            return REF_END_OF_FRAME;
    }
    if (!good && gen_chance(g, 4))
        return one_of(g, bad, sizeof bad);
    uint8_t field = field_event(g, rack);
    if (field)
        return field;
    if (gen_chance(g, 6))
        return REF_END_OF_FRAME;
    return frame_event(g, rack);
}

static size_t draws_length(struct gen *g, size_t n, int good)
{
    if (good || gen_chance(g, 96))
        return n;
    if (gen_chance(g, 50))
        return n + 1;
    return gen_chance(g, 50) && n > 0 ? n - 1 : gen_below(g, 66);
}

static size_t answer_length(struct gen *g, int good)
{
    static const uint16_t under[] = { 0, 1, 63, 64, 8195, REF_ANSWER - 1, REF_ANSWER - 1, REF_ANSWER - 1 };
    if (!good && gen_chance(g, 4))
        return under[gen_below(g, 8)];
    return gen_chance(g, 80) ? REF_ANSWER : REF_ANSWER + gen_below(g, GEN_ANSWER_ROOM - REF_ANSWER + 1);
}

void gen_event(struct gen *g, const uint8_t *rack, int good, struct gen_event *event)
{
    event->number = event_number(g, rack, good);
    if (event->number == REF_LABEL_FRAME)
        event->frame_len = gen_label_frame(g, rack, event->frame);
    else if (event->number == REF_CHIP_FRAME || gen_chance(g, 30))
        event->frame_len = gen_chip_frame(g, rack, event->frame);
    else
        event->frame_len = 0;
    event->draws_len = draws_length(g, ref_rack_tags(rack), good);
    gen_draws(g, event->draws, event->draws_len);
    event->answer_len = answer_length(g, good);
}

/* ------------------------------------------------------------ reader's side */

static const uint16_t READER_CHIP_CODES[] = {
    REF_INITIATE, REF_PCALL16, REF_SLOT_MARKER, REF_READ_BLOCK, REF_WRITE_BLOCK,
    REF_GET_UID, REF_RESET_TO_INVENTORY, REF_SELECT, REF_COMPLETION
};
static const uint8_t READER_LABEL_CODES[] = {
    0x01, 0x01, 0x01, 0x02, 0x20, 0x20, 0x20, 0x21, 0x22, 0x25, 0x26, 0x27, 0x28, 0x29, 0x2A,
    0x2B, 0x2B, 0x23, 0x23, 0x23, 0x2C, 0x2C
};

static int names_many(uint16_t code)
{
    return code == 0x23 || code == 0x2C;
}

/* How many blocks behind the first, so that none is over 255: few, or all. */
static uint8_t blocks_behind(struct gen *g, uint8_t first)
{
    uint32_t most = 255u - first, how = gen_below(g, 10);
    if (how == 0)
        return (uint8_t)most;
    return (uint8_t)gen_below(g, how < 3 || most < 6 ? most + 1 : 6);
}

static void valid_label_command(struct gen *g, struct ref_command *c)
{
    c->kind = REF_KIND_LABEL;
    c->code = one_of(g, READER_LABEL_CODES, sizeof READER_LABEL_CODES);
    c->target = (uint8_t)gen_below(g, 3);
    if (c->code == 0x01)
        c->target = REF_EVERYONE;
    if (c->code == 0x02 || c->code == 0x25)
        c->target = REF_ONE_UID;
    c->option = (uint8_t)((c->code == 0x20 || c->code == 0x23) && gen_chance(g, 50));
    c->afi_present = (uint8_t)gen_below(g, 2);
    c->afi = (uint8_t)(gen_chance(g, 30) ? 0 : gen_byte(g));
    c->sixteen = (uint8_t)gen_below(g, 2);
    c->mask_bits = (uint8_t)gen_below(g, c->sixteen ? 61 : 65);
    c->mask = gen_u64(g) & ref_low_bits(c->mask_bits);
    c->byte = gen_byte(g);
    c->more = gen_byte(g);
    if (names_many(c->code)) {
        c->byte = (uint8_t)(gen_chance(g, 30) ? 0 : c->byte);
        c->more = blocks_behind(g, c->byte);
    }
}

static void valid_chip_command(struct gen *g, struct ref_command *c)
{
    memset(c, 0, sizeof *c);
    c->kind = REF_KIND_CHIP;
    c->code = READER_CHIP_CODES[gen_below(g, 9)];
    c->byte = gen_byte(g);
    c->more = gen_byte(g);
    if (c->code == REF_READ_BLOCK || c->code == REF_WRITE_BLOCK)
        c->byte = (uint8_t)(gen_chance(g, 10) ? 255 : gen_below(g, 16));
    if (c->code == REF_SLOT_MARKER)
        c->byte = (uint8_t)(1 + gen_below(g, 15));
}

/* One field turned, often into something not allowed. */
static void turn_field(struct gen *g, struct gen_command *c)
{
    struct ref_command *k = &c->command;
    switch (gen_below(g, 11)) {
    case 0: k->kind = (uint8_t)gen_below(g, 4); break;
    case 1: k->code = (uint16_t)(gen_chance(g, 50) ? gen_below(g, 0x30) : gen_below(g, 0x700)); break;
    case 2: k->target = (uint8_t)gen_below(g, 4); break;
    case 3: k->option = 1; break;
    case 4: k->mask_bits = mask_length(g); break;
    case 5: k->mask = gen_u64(g); break;
    case 6: k->mask |= (uint64_t)1 << (k->mask_bits % 64); break;
    case 7: c->data_len = gen_below(g, 40); break;
    case 8: k->byte = (uint8_t)(gen_chance(g, 50) ? gen_below(g, 20) : 240 + gen_below(g, 16)); break;
    case 9: k->more = (uint8_t)(gen_chance(g, 50) ? 255u - k->byte + gen_below(g, 2) : gen_byte(g)); break;
    default: k->sixteen ^= 1; break;
    }
}

void gen_command(struct gen *g, struct gen_command *c)
{
    static const uint8_t rooms[] = { 0, 12, 45, 63, 63, 65, 100, 200 };
    memset(c, 0, sizeof *c);
    fill(g, c->uid, sizeof c->uid);
    fill(g, c->data, sizeof c->data);
    if (gen_chance(g, 60))
        valid_label_command(g, &c->command);
    else
        valid_chip_command(g, &c->command);
    c->data_len = c->command.kind == REF_KIND_CHIP ? 4 : 1 + gen_below(g, 32);
    if (gen_chance(g, 30))
        turn_field(g, c);
    if (gen_chance(g, 5))
        turn_field(g, c);
    c->out_len = gen_chance(g, 85) ? 64 : one_of(g, rooms, sizeof rooms);
}

/* So many lock bytes, that far apart, one of them maybe of another value. */
static void put_locks(struct gen *g, uint8_t *at, size_t count, size_t apart)
{
    for (size_t i = 0; i < count; i++)
        at[i * apart] = (uint8_t)gen_below(g, 2);
    if (gen_chance(g, 15))
        at[gen_below(g, (uint32_t)count) * apart] = (uint8_t)(gen_chance(g, 80) ? 2 : gen_byte(g));
}

/* Behind the 00 of an answer to 23 or 2C: as many parts as were asked for, or
 * nearly; a block of 0 and one of 33 bytes among them. Gives how many bytes. */
static size_t put_parts(struct gen *g, const struct ref_command *c, uint16_t code, uint8_t *at)
{
    static const uint8_t edges[] = { 0, 31, 32, 32, 32, 33 };
    size_t count = c->more + 1u, head = code == 0x2C || c->option ? 1 : 0;
    size_t size = code == 0x2C ? 0 : gen_chance(g, 60) ? 1 + gen_below(g, 4) : one_of(g, edges, sizeof edges);
    if (gen_chance(g, 8))
        count = gen_chance(g, 50) ? count + 1 : gen_chance(g, 50) ? count - 1 : 1 + gen_below(g, 256);
    fill(g, at, count * (head + size));
    if (head == 1 && count > 0)
        put_locks(g, at, count, head + size);
    return count * (head + size);
}

static size_t label_answer_content(struct gen *g, const struct gen_command *c, uint8_t *at)
{
    static const uint8_t errors[] = { 0x01, 0x02, 0x03, 0x10, 0x11, 0x12, 0x00, 0x0F, 0x13, 0x14, 0xA0 };
    const struct ref_command *k = &c->command;
    uint16_t code = gen_chance(g, 92) ? k->code : one_of(g, READER_LABEL_CODES, sizeof READER_LABEL_CODES);
    fill(g, at, 40);
    at[0] = 0x00;
    if (gen_chance(g, 20)) {
        at[0] = 0x01;
        at[1] = one_of(g, errors, sizeof errors);
        return 2;
    }
    if (code == 0x01) {
        uint64_t keep = ref_low_bits(k->mask_bits);
        put_number(at + 2, (k->mask & keep) | (gen_u64(g) & ~keep), 8);
        if (gen_chance(g, 20))
            at[2 + gen_below(g, 8)] ^= (uint8_t)(1u << gen_below(g, 8));
        return 10;
    }
    if (code == 0x20) {
        at[1] = (uint8_t)(k->option ? gen_below(g, gen_chance(g, 80) ? 2 : 4) : at[1]);
        return 1 + (k->option ? 1u : 0u) + gen_below(g, 34);
    }
    if (names_many(code))
        return 1 + put_parts(g, k, code, at + 1);
    if (code == 0x2B) {
        at[1] = 0x0F;
        memcpy(at + 2, c->uid, REF_UID);
        if (gen_chance(g, 15))
            at[2 + gen_below(g, 8)] ^= (uint8_t)(1u << gen_below(g, 8));
        at[13] = (uint8_t)(gen_chance(g, 75) ? gen_below(g, 32) : gen_chance(g, 70)
                           ? 30 + gen_below(g, 4) : gen_byte(g));
        return 15;
    }
    return 1;
}

static size_t chip_answer_content(struct gen *g, const struct gen_command *c, uint8_t *at)
{
    const struct ref_command *k = &c->command;
    fill(g, at, 8);
    if (k->code == REF_READ_BLOCK)
        return 4;
    if (k->code == REF_GET_UID)
        return 8;
    if (k->code == REF_PCALL16 && gen_chance(g, 75))
        at[0] &= 0xF0;
    if (k->code == REF_SLOT_MARKER && gen_chance(g, 75))
        at[0] = (uint8_t)((at[0] & 0xF0) | (k->byte & 0x0F));
    if (k->code == REF_SELECT && gen_chance(g, 75))
        at[0] = k->byte;
    return 1;
}

size_t gen_answer(struct gen *g, const struct gen_command *c, uint8_t *frame)
{
    if (gen_chance(g, 6))
        return far_frame(g, frame);
    size_t len = c->command.kind == REF_KIND_CHIP ? chip_answer_content(g, c, frame)
                                                  : label_answer_content(g, c, frame);
    if (gen_chance(g, 8))
        len = stretch(g, frame, len);
    if (len > 0 && gen_chance(g, 5))
        frame[gen_below(g, (uint32_t)len)] ^= (uint8_t)(1u << gen_below(g, 8));
    return close_frame(g, frame, len, 93);
}
