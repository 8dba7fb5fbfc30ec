/* says_make.c - a rack from its text. */
#include "says.h"

#include <stdio.h>
#include <stdlib.h>
#include <string.h>

enum { BODY_MOST = LABEL_HEAD + 256 + 256 * 32 };

struct tag {
    uint8_t kind;
    uint8_t body[BODY_MOST];
    size_t len;
    unsigned long line;      /* that gave it its length */
    int sized;               /* `blocks` has been said */
    int has_blocks;          /* a block has been said */
};

struct maker {
    struct tag tags[REF_TAGS_MOST];
    size_t count;
    size_t size;             /* of the rack with all tags but the last */
    int begun;               /* the edition has been said */
    unsigned long line;
    int stopped;             /* something was told */
};

/* ------------------------------------------------------------------ a tag */

static void put_number(uint8_t *bytes, uint64_t number, size_t len)
{
    for (size_t i = 0; i < len; i++)
        bytes[i] = (uint8_t)(number >> (8 * i));
}

static void size_label(struct tag *tag, unsigned blocks, unsigned size, unsigned long line)
{
    tag->body[LABEL_BLOCKS] = (uint8_t)(blocks - 1);
    tag->body[LABEL_SIZE] = (uint8_t)(size - 1);
    tag->len = LABEL_HEAD + blocks + (size_t)blocks * size;
    tag->line = line;
}

static void new_tag(struct tag *tag, uint8_t kind, uint64_t uid, unsigned long line)
{
    memset(tag, 0, sizeof *tag);
    tag->kind = kind;
    if (kind == REF_KIND_LABEL) {
        put_number(tag->body + LABEL_UID, uid, REF_UID);
        tag->body[LABEL_SLOT] = LABEL_NO_SLOT;
        size_label(tag, 28, 4, line);
    } else {
        memset(tag->body, 0xFF, 4 * 7);
        memset(tag->body + CHIP_SYSTEM, 0xFF, 4);
        put_number(tag->body + CHIP_UID, uid, REF_UID);
        tag->len = CHIP_LENGTH;
        tag->line = line;
    }
}

/* ----------------------------------------------------------------- fields */

/* The lock bit of a field behind whose byte `locked` stands. */
static void take_locked(struct line *line, uint8_t *locks, uint8_t bit)
{
    *locks = (uint8_t)(take_word(line, "locked") ? *locks | bit : *locks & ~bit);
}

static void take_blocks(struct line *line, size_t place, struct tag *tag, unsigned long number)
{
    if (tag->has_blocks)
        offend(line, place, BLOCKS_FIRST);
    unsigned blocks = take_number(line, 1, 256, A_NUMBER);
    if (!line->bad && !take_word(line, "of"))
        offend(line, line->pos, THE_WORD_OF);
    unsigned size = line->bad ? 0 : take_number(line, 1, 32, A_NUMBER);
    if (!line->bad) {
        size_label(tag, blocks, size, number);
        tag->sized = 1;
    }
}

static void take_label_field(struct line *line, struct tag *tag, unsigned long number)
{
    static const char *const fields[] = { "state", "afi", "dsfid", "ic", "slot", "mask", "blocks", NULL };
    uint8_t *body = tag->body;
    uint64_t mask = 0;
    size_t place = line->pos;
    switch (take_one_of(line, fields, A_FIELD)) {
    case 0: body[LABEL_STATE] = (uint8_t)take_one_of(line, LABEL_STATES, A_STATE); break;
    case 1: body[LABEL_AFI] = take_byte(line, A_BYTE); take_locked(line, &body[LABEL_LOCKS], 1); break;
    case 2: body[LABEL_DSFID] = take_byte(line, A_BYTE); take_locked(line, &body[LABEL_LOCKS], 2); break;
    case 3: body[LABEL_IC] = take_byte(line, A_BYTE); break;
    case 4: body[LABEL_SLOT] = (uint8_t)take_number(line, 0, 255, A_NUMBER); break;
    case 5:
        body[LABEL_MASK_BITS] = (uint8_t)take_mask(line, &mask);
        put_number(body + LABEL_MASK, mask, 8);
        break;
    case 6: take_blocks(line, place, tag, number); break;
    default: break;
    }
}

static void take_chip_field(struct line *line, struct tag *tag)
{
    static const char *const fields[] = { "state", "id", "fixed", "reload", NULL };
    static const char *const answers[] = { "no", "yes", NULL };
    uint8_t *body = tag->body;
    switch (take_one_of(line, fields, A_FIELD)) {
    case 0: body[CHIP_STATE] = (uint8_t)take_one_of(line, CHIP_STATES, A_STATE); break;
    case 1: body[CHIP_ID] = take_byte(line, A_BYTE); break;
    case 2: body[CHIP_OPTION] = (uint8_t)take_one_of(line, answers, YES_OR_NO); break;
    case 3: body[CHIP_RELOAD] = (uint8_t)take_one_of(line, answers, YES_OR_NO); break;
    default: break;
    }
}

/* Whether the tag has a block of this number. */
static int has_block(const struct tag *tag, unsigned number)
{
    return tag->kind == REF_KIND_LABEL ? number <= tag->body[LABEL_BLOCKS] : number <= 15 || number == 255;
}

static void take_block(struct line *line, struct tag *tag)
{
    uint8_t bytes[32] = { 0 };
    size_t place = line->pos;
    unsigned number = take_number(line, 0, 255, A_BLOCK);
    if (!line->bad && !has_block(tag, number))
        offend(line, place, A_BLOCK);
    if (line->bad)
        return;
    struct block block = block_at(tag->kind, tag->body, (int)number);
    take_data(line, 1, bytes, block.len);
    int locked = !line->bad && take_word(line, "locked");
    take_end(line);
    if (line->bad)
        return;
    memcpy(block.at, bytes, block.len);
    if (tag->kind == REF_KIND_LABEL)
        tag->body[LABEL_HEAD + number] = (uint8_t)locked;
    tag->has_blocks = 1;
}

/* ------------------------------------------------------------------ lines */

/* The last tag's length is what it stays: told where it makes the rack too
 * large. */
static void settle(struct maker *m)
{
    if (m->count == 0 || m->stopped)
        return;
    const struct tag *tag = &m->tags[m->count - 1];
    if (m->size + REF_ENTRY + tag->len > REF_RACK_MOST) {
        fprintf(stderr, "line %lu: the rack has over 65536 bytes here\n", tag->line);
        m->stopped = 1;
    }
}

/* A label's length can still change, till `blocks` is said. */
static void settle_line(struct maker *m)
{
    const struct tag *tag = m->count ? &m->tags[m->count - 1] : NULL;
    if (tag && (tag->kind == REF_KIND_CHIP || tag->sized) && tag->line == m->line)
        settle(m);
}

static void open_tag(struct maker *m, struct line *line, uint8_t kind)
{
    uint64_t uid = take_uid(line, A_UID);
    take_end(line);
    settle(m);
    if (line->bad || m->stopped)
        return;
    if (m->count == REF_TAGS_MOST) {
        fprintf(stderr, "line %lu: the rack has over 64 tags here\n", m->line);
        m->stopped = 1;
        return;
    }
    if (m->count > 0)
        m->size += REF_ENTRY + m->tags[m->count - 1].len;
    new_tag(&m->tags[m->count++], kind, uid, m->line);
}

static void take_edition(struct maker *m, struct line *line)
{
    m->begun = take_word(line, "rack") && take_word(line, "edition") && take_word(line, "1");
    if (!m->begun)
        offend(line, line->pos, THE_EDITION);
    take_end(line);
}

static void take_fields(struct maker *m, struct line *line)
{
    struct tag *tag = m->count ? &m->tags[m->count - 1] : NULL;
    uint8_t first = line->at[line->pos];
    if (tag == NULL) {
        offend(line, line->pos, A_TAG);
    } else if (first >= '0' && first <= '9') {
        take_block(line, tag);
    } else {
        while (!line->bad && !at_end(line)) {
            if (tag->kind == REF_KIND_LABEL)
                take_label_field(line, tag, m->line);
            else
                take_chip_field(line, tag);
        }
    }
}

static void told(struct maker *m, const struct line *line)
{
    fprintf(stderr, "line %lu: column %zu: expected %s\n", m->line, line->column, expected(line));
    m->stopped = 1;
}

static void take_line(struct maker *m, struct line *line)
{
    if (at_end(line))
        return;
    if (!m->begun)
        take_edition(m, line);
    else if (take_word(line, "label"))
        open_tag(m, line, REF_KIND_LABEL);
    else if (take_word(line, "chip"))
        open_tag(m, line, REF_KIND_CHIP);
    else
        take_fields(m, line);
    if (line->bad && !m->stopped)
        told(m, line);
    settle_line(m);
}

static void take_lines(struct maker *m, struct bytes text)
{
    struct line line;
    size_t from = 0;
    int found;
    while (!m->stopped && (found = next_line(text, &from, &line)) != 0) {
        m->line++;
        if (found > 0) {
            take_line(m, &line);
        } else {
            fprintf(stderr, "line %lu: too long\n", m->line);
            m->stopped = 1;
        }
    }
    settle(m);
    if (!m->begun && !m->stopped) {
        line = (struct line){ NULL, 0, 0, 0, 0, THE_EDITION };
        offend(&line, 0, THE_EDITION);
        m->line++;
        told(m, &line);
    }
}

/* ------------------------------------------------------------------- rack */

static struct bytes lay_rack(const struct maker *m)
{
    struct bytes rack = { must(calloc(1, REF_RACK_MOST)), REF_HEAD + REF_ENTRY * m->count };
    rack.at[0] = 1;
    rack.at[1] = (uint8_t)m->count;
    for (size_t i = 0; i < m->count; i++) {
        const struct tag *tag = &m->tags[i];
        uint8_t *entry = rack.at + REF_HEAD + REF_ENTRY * i;
        entry[0] = tag->kind;
        put_number(entry + 2, tag->len, 2);
        put_number(entry + 4, rack.len, 4);
        memcpy(rack.at + rack.len, tag->body, tag->len);
        rack.len += tag->len;
    }
    return rack;
}

int make(const char *path, const char *rack_path)
{
    char why[160];
    struct bytes text = read_file(path);
    if (text.at == NULL)
        return 0;
    struct maker *m = must(calloc(1, sizeof *m));
    m->size = REF_HEAD;
    take_lines(m, without_mark(text));
    if (!m->stopped) {
        struct bytes rack = lay_rack(m);
        if (refused(rack.at, rack.len, why))
            fprintf(stderr, "not written: %s\n", why);
        else
            write_rack(rack_path, rack);
        free(rack.at);
    }
    free(m);
    free(text.at);
    return 0;
}
