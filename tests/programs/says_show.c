/* says_show.c - a rack as text. */
#include "says.h"

#include <stdio.h>
#include <stdlib.h>
#include <string.h>

static const char *if_locked(int locked)
{
    return locked ? " locked" : "";
}

static void label_head(const uint8_t *body)
{
    unsigned bits = body[LABEL_MASK_BITS];
    printf("  state %s  afi %02X%s  dsfid %02X%s  ic %02X", LABEL_STATES[body[LABEL_STATE]], body[LABEL_AFI],
           if_locked(body[LABEL_LOCKS] & 1), body[LABEL_DSFID], if_locked(body[LABEL_LOCKS] & 2), body[LABEL_IC]);
    if (body[LABEL_SLOT] != LABEL_NO_SLOT)
        printf("  slot %u", body[LABEL_SLOT]);
    if (bits != 0) {
        char mask[32];
        mask_text(mask, bits, ref_number(body + LABEL_MASK, 8));
        printf("  mask %s", mask);
    }
    printf("\n  blocks %u of %u\n", body[LABEL_BLOCKS] + 1u, body[LABEL_SIZE] + 1u);
}

static void chip_head(const uint8_t *body)
{
    printf("  state %s  id %02X  fixed %s  reload %s\n", CHIP_STATES[body[CHIP_STATE]], body[CHIP_ID],
           body[CHIP_OPTION] ? "yes" : "no", body[CHIP_RELOAD] ? "yes" : "no");
}

static int all_are(const struct block *block, uint8_t byte)
{
    for (size_t i = 0; i < block->len; i++)
        if (block->at[i] != byte)
            return 0;
    return 1;
}

static int is_counter(uint8_t kind, int number)
{
    return kind == REF_KIND_CHIP && (number == 5 || number == 6);
}

/* What a tag has that is told nothing of. */
static int left_out(uint8_t kind, const struct block *block)
{
    if (block->locked)
        return 0;
    if (kind == REF_KIND_LABEL)
        return all_are(block, 0);
    return block->number <= 4 ? all_are(block, 0xFF) : block->number >= 7 && block->number <= 15 && all_are(block, 0);
}

static void show_block(uint8_t kind, const struct block *block)
{
    printf("  %-4d", block->number);
    for (size_t i = 0; i < block->len; i++)
        printf("%s%02X", i ? " " : "", block->at[i]);
    printf("%s  # ", block->locked ? "  locked" : "        ");
    if (is_counter(kind, block->number))
        printf("counter %llu", (unsigned long long)ref_number(block->at, 4));
    else
        for (size_t i = 0; i < block->len; i++)
            putchar(printable(block->at + i, 1) ? block->at[i] : '.');
    printf("\n");
}

static void show_tag(uint8_t *rack, size_t entry)
{
    uint8_t kind = ref_rack_kind(rack, entry);
    uint8_t *body = rack + ref_rack_offset(rack, entry);
    printf("%s %016llX  # tag %zu\n", kind == REF_KIND_LABEL ? "label" : "chip",
           (unsigned long long)uid_at(rack, entry), entry);
    if (kind == REF_KIND_LABEL)
        label_head(body);
    else
        chip_head(body);
    for (int n = next_block(kind, body, -1); n >= 0; n = next_block(kind, body, n)) {
        struct block block = block_at(kind, body, n);
        if (!left_out(kind, &block))
            show_block(kind, &block);
    }
}

int show(const char *path)
{
    char why[160];
    struct bytes rack = read_file(path);
    if (rack.at == NULL)
        return 0;
    if (refused(rack.at, rack.len, why)) {
        printf("%s\n", why);
    } else {
        size_t tags = ref_rack_tags(rack.at);
        printf("rack edition 1  # %zu tag%s, %zu bytes\n", tags, tags == 1 ? "" : "s", rack.len);
        for (size_t i = 0; i < tags; i++)
            show_tag(rack.at, i);
    }
    printed();
    free(rack.at);
    return 0;
}
