/* cases_rack.c - racks, and racks as text. See cases.h. */
#include "cases.h"
#include "says.h"

#include <string.h>

/* ------------------------------------------------------------------- racks */

/* A block that is new, or holds text; with `told` nothing but text. */
static void soften_block(struct gen *g, uint8_t kind, struct block *block, int told)
{
    static const char text[] = "cleaned, used. PUMP 17 \"#\"";
    uint32_t how = gen_below(g, 10);
    if (block->number == 255 && kind == REF_KIND_CHIP)
        return;
    if (told)
        for (size_t i = 0; i < block->len; i++)
            block->at[i] = (uint8_t)text[(how + i) % (sizeof text - 1)];
    else if (how < 4)
        memset(block->at, kind == REF_KIND_CHIP && block->number < 7 ? 0xFF : 0, block->len);
    else if (how < 6)
        memcpy(block->at, text + gen_below(g, 20), block->len > 6 ? 6 : block->len);
    else if (how < 7)
        memset(block->at + block->len / 2, 0, block->len - block->len / 2);
}

void soften(struct gen *g, uint8_t *rack)
{
    for (size_t i = 0; i < ref_rack_tags(rack); i++) {
        uint8_t kind = ref_rack_kind(rack, i), *body = rack + ref_rack_offset(rack, i);
        int told = kind == REF_KIND_LABEL && gen_chance(g, 20), all = told || gen_chance(g, 30);
        for (int n = next_block(kind, body, -1); n >= 0; n = next_block(kind, body, n)) {
            struct block block = block_at(kind, body, n);
            if (all || gen_chance(g, 40))
                soften_block(g, kind, &block, told);
        }
    }
}

static void break_label(struct gen *g, uint8_t *body)
{
    switch (gen_below(g, 4)) {
    case 0: body[LABEL_STATE] = (uint8_t)gen_below(g, 4); break;
    case 1: body[LABEL_SLOT] = (uint8_t)(gen_chance(g, 50) ? gen_below(g, 16) : gen_below(g, 256)); break;
    case 2: body[LABEL_MASK_BITS] = (uint8_t)(1 + gen_below(g, 64)); break;
    default: body[LABEL_MASK + body[LABEL_MASK_BITS] / 8] ^= 0x80; break;
    }
}

static void break_chip(struct gen *g, uint8_t *body)
{
    switch (gen_below(g, 4)) {
    case 0: body[CHIP_STATE] = (uint8_t)gen_below(g, 6); break;
    case 1: body[CHIP_ID] = gen_byte(g); break;
    case 2: body[CHIP_RELOAD] ^= 1; break;
    default: body[CHIP_OPTION] ^= 1; break;
    }
}

void break_fields(struct gen *g, uint8_t *rack)
{
    size_t n = ref_rack_tags(rack);
    for (uint32_t i = n ? 1 + gen_below(g, 2) : 0; i > 0; i--) {
        size_t entry = gen_below(g, (uint32_t)n);
        uint8_t *body = rack + ref_rack_offset(rack, entry);
        if (ref_rack_kind(rack, entry) == REF_KIND_LABEL)
            break_label(g, body);
        else
            break_chip(g, body);
    }
}

/* -------------------------------------------------------------------- text */

/* Whether what a field has when it is left out may be left out. */
static int left_out(struct script *s, int is_new)
{
    return is_new && gen_chance(&s->g, 50);
}

static void field(struct script *s, const char *name)
{
    blanks(s, 1);
    word(s, name);
    blanks(s, 1);
}

static void say_locked(struct script *s, int locked)
{
    if (locked) {
        blanks(s, 1);
        word(s, "locked");
    }
}

static void label_field(struct script *s, const uint8_t *body, uint32_t which)
{
    uint8_t locks = body[LABEL_LOCKS];
    switch (which) {
    case 0:
        if (!left_out(s, body[LABEL_STATE] == 0))
            field(s, "state"), word(s, LABEL_STATES[body[LABEL_STATE]]);
        break;
    case 1:
        if (!left_out(s, body[LABEL_AFI] == 0 && !(locks & 1)))
            field(s, "afi"), digits(s, body[LABEL_AFI], 1), say_locked(s, locks & 1);
        break;
    case 2:
        if (!left_out(s, body[LABEL_DSFID] == 0 && !(locks & 2)))
            field(s, "dsfid"), digits(s, body[LABEL_DSFID], 1), say_locked(s, locks & 2);
        break;
    case 3:
        if (!left_out(s, body[LABEL_IC] == 0))
            field(s, "ic"), digits(s, body[LABEL_IC], 1);
        break;
    case 4:
        if (body[LABEL_SLOT] != LABEL_NO_SLOT)
            field(s, "slot"), fprintf(s->out, "%u", body[LABEL_SLOT]);
        break;
    case 5:
        if (body[LABEL_MASK_BITS] != 0)
            field(s, "mask"), mask(s, body[LABEL_MASK_BITS], ref_number(body + LABEL_MASK, 8));
        break;
    default:
        if (!left_out(s, body[LABEL_BLOCKS] == 27 && body[LABEL_SIZE] == 3)) {
            field(s, "blocks");
            fprintf(s->out, "%u", body[LABEL_BLOCKS] + 1u);
            field(s, "of");
            fprintf(s->out, "%u", body[LABEL_SIZE] + 1u);
        }
        break;
    }
}

static void chip_field(struct script *s, const uint8_t *body, uint32_t which)
{
    switch (which) {
    case 0:
        if (!left_out(s, body[CHIP_STATE] == 0))
            field(s, "state"), word(s, CHIP_STATES[body[CHIP_STATE]]);
        break;
    case 1:
        if (!left_out(s, body[CHIP_ID] == 0))
            field(s, "id"), digits(s, body[CHIP_ID], 1);
        break;
    case 2:
        if (!left_out(s, body[CHIP_OPTION] == 0))
            field(s, "fixed"), word(s, body[CHIP_OPTION] ? "yes" : "no");
        break;
    default:
        if (!left_out(s, body[CHIP_RELOAD] == 0))
            field(s, "reload"), word(s, body[CHIP_RELOAD] ? "yes" : "no");
        break;
    }
}

/* All fields, from any on round to the one before it, on one line or more. */
static void fields(struct script *s, uint8_t kind, const uint8_t *body)
{
    uint32_t count = kind == REF_KIND_LABEL ? 7 : 4, first = gen_below(&s->g, count);
    for (uint32_t i = 0; i < count; i++) {
        if (kind == REF_KIND_LABEL)
            label_field(s, body, (first + i) % count);
        else
            chip_field(s, body, (first + i) % count);
        if (gen_chance(&s->g, 30))
            tail(s);
    }
    tail(s);
}

/* A block, maybe without the zeros at its end, or not at all where it is what
 * a new tag has. */
static void block_line(struct script *s, uint8_t kind, const struct block *block)
{
    uint8_t is = kind == REF_KIND_CHIP && (block->number < 7 || block->number == 255) ? 0xFF : 0;
    int is_new = kind == REF_KIND_CHIP || !block->locked;
    size_t len = block->len;
    for (size_t i = 0; i < len; i++)
        is_new = is_new && block->at[i] == is;
    if (is_new && gen_chance(&s->g, 90))
        return;
    while (len > 1 && block->at[len - 1] == 0 && gen_chance(&s->g, 40))
        len--;
    blanks(s, 0);
    fprintf(s->out, "%d", block->number);
    blanks(s, 1);
    data(s, block->at, len);
    say_locked(s, kind == REF_KIND_LABEL ? block->locked : gen_chance(&s->g, 20));
    tail(s);
}

static void tag_text(struct script *s, uint8_t *rack, size_t entry)
{
    uint8_t kind = ref_rack_kind(rack, entry), *body = rack + ref_rack_offset(rack, entry);
    blanks(s, 0);
    word(s, kind == REF_KIND_LABEL ? "label" : "chip");
    blanks(s, 1);
    digits(s, uid_at(rack, entry), 8);
    tail(s);
    fields(s, kind, body);
    for (int n = next_block(kind, body, -1); n >= 0; n = next_block(kind, body, n)) {
        struct block block = block_at(kind, body, n);
        block_line(s, kind, &block);
    }
}

void rack_text(struct script *s, uint8_t *rack)
{
    mark(s);
    if (gen_chance(&s->g, 20))
        put(s, "# a rack"), end_line(s);
    blanks(s, 0);
    word(s, "rack");
    blanks(s, 1);
    word(s, "edition");
    blanks(s, 1);
    put(s, "1");
    tail(s);
    for (size_t i = 0; i < ref_rack_tags(rack); i++)
        tag_text(s, rack, i);
}
