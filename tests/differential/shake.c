/* shake.c - shake [SEED [RACKS]]: random cases through the reference, with
 * laws that must hold whatever the case. Buffers have their exact size on the
 * heap, so that a sanitizer sees every byte read or written too far. Prints
 * `N passed, M failed` last, counting single laws. */
#include "gen.h"

#include <stdio.h>
#include <stdlib.h>
#include <string.h>

static struct gen g;
static unsigned long passed, failed;
static uint64_t seed_now;
static unsigned long seen[8];          /* what kinds of outcome came up */
static uint32_t longest;               /* answer */

static void law_at(int line, int holds, const char *what)
{
    passed += holds != 0;
    failed += holds == 0;
    if (!holds && failed < 20)
        printf("shake.c:%d seed %llu: %s\n", line, (unsigned long long)seed_now, what);
}
#define LAW(x) law_at(__LINE__, (x) != 0, #x)

static uint8_t *copy(const uint8_t *bytes, size_t len)
{
    uint8_t *own = malloc(len ? len : 1);
    if (!own)
        exit(2);
    memcpy(own, bytes, len);
    return own;
}

static uint8_t *room(size_t len)
{
    uint8_t *own = malloc(len ? len : 1);
    if (!own)
        exit(2);
    memset(own, 0xA5, len);
    return own;
}

static int all_a5(const uint8_t *bytes, size_t from, size_t len)
{
    for (size_t i = from; i < len; i++)
        if (bytes[i] != 0xA5)
            return 0;
    return 1;
}

/* ---------------------------------------------------- one tag on its own rack */

static size_t alone(const uint8_t *rack, size_t entry, uint8_t *single)
{
    const uint8_t *at = rack + 2 + 8 * entry;
    size_t len = at[2] | (size_t)at[3] << 8;
    memset(single, 0, 10);
    single[0] = single[1] = 1;
    memcpy(single + 2, at, 4);
    single[6] = 10;
    memcpy(single + 10, rack + ref_rack_offset(rack, entry), len);
    return 10 + len;
}

/* Each tag's next body follows from its own body, the event and its draw. */
static void law_of_parts(const uint8_t *before, const uint8_t *after, const struct gen_event *e,
                         const struct ref_report *whole, const uint8_t *answer)
{
    static uint8_t single[9000];
    uint32_t answered = 0;
    for (size_t i = 0; i < before[1]; i++) {
        struct ref_report part;
        uint8_t said[REF_ANSWER];
        size_t len = alone(before, i, single);
        LAW(ref_event(single, len, e->number, e->frame, e->frame_len, e->draws + i, 1, said, sizeof said, &part) == 0);
        LAW(memcmp(single + 10, after + ref_rack_offset(after, i), len - 10) == 0);
        answered += part.answered;
        if (part.answered && whole->answered == 1)
            LAW(part.length == whole->length && !memcmp(said, answer, part.length));
    }
    LAW(answered == whole->answered);
}

static int expected_refusal(const struct gen_event *e, size_t n)
{
    return e->draws_len != n ? 2 : e->answer_len < 8451 ? 3 : e->number < 1 || e->number > 5 ? 4 : 0;
}

/* Whether several blocks were asked for: no other answer is over 36 bytes. */
static int asks_for_many(const struct gen_event *e)
{
    return e->number == REF_LABEL_FRAME && e->frame_len >= 6 && (e->frame[1] == 0x23 || e->frame[1] == 0x2C);
}

static void laws_of_success(const uint8_t *before, const uint8_t *after, size_t len,
                            const struct gen_event *e, const struct ref_report *r, const uint8_t *answer)
{
    LAW(ref_well_formed(after, len));
    LAW(memcmp(before, after, 2 + 8 * (size_t)before[1]) == 0);
    LAW((r->answered == 1) == (r->length > 0) && r->length <= (asks_for_many(e) ? 8451 : 36));
    longest = r->length > longest ? r->length : longest;
    LAW(all_a5(answer, r->length, e->answer_len));
    LAW(r->length == 0 || ref_check_right(answer, r->length));
    seen[r->answered > 1 ? 2 : r->answered]++;
    law_of_parts(before, after, e, r, answer);
}

/* Plays the event on `rack`, which is changed. */
static void event_laws(uint8_t *rack, size_t len, const struct gen_event *e)
{
    uint8_t *before = copy(rack, len), *own = copy(rack, len);
    uint8_t *frame = copy(e->frame, e->frame_len), *draws = copy(e->draws, e->draws_len);
    uint8_t *answer = room(e->answer_len);
    struct ref_report r;
    int back = ref_event(own, len, e->number, frame, e->frame_len, draws, e->draws_len, answer,
                         e->answer_len, &r);
    LAW(back == (int)r.number && back == expected_refusal(e, rack[1]));
    LAW(memcmp(frame, e->frame, e->frame_len) == 0 && memcmp(draws, e->draws, e->draws_len) == 0);
    if (back) {
        LAW(r.answered == 0 && r.length == 0 && all_a5(answer, 0, e->answer_len));
        LAW(memcmp(before, own, len) == 0);
        seen[3]++;
    } else {
        laws_of_success(before, own, len, e, &r, answer);
    }
    memcpy(rack, own, len);
    free(before); free(own); free(frame); free(draws); free(answer);
}

static void damage_laws(const uint8_t *rack, size_t len, const struct gen_event *e)
{
    static uint8_t bad[GEN_RACK_ROOM];
    struct ref_report r;
    struct ref_walked w;
    memcpy(bad, rack, len);
    size_t bad_len = gen_damage(&g, bad, len);
    uint8_t *own = copy(bad, bad_len), *answer = room(8451), *list = room(512);
    int well = ref_well_formed(own, bad_len);
    seen[well ? 4 : 5]++;
    int back = ref_event(own, bad_len, e->number, e->frame, e->frame_len, e->draws, e->draws_len,
                         answer, 8451, &r);
    LAW(well ? back != 1 : back == 1);
    if (back)
        LAW(memcmp(own, bad, bad_len) == 0 && all_a5(answer, 0, 8451) && !r.answered && !r.length);
    memcpy(own, bad, bad_len);
    back = ref_walk(own, bad_len, 0, 0, list, 512, &w);
    LAW(well ? back == 0 || back == 6 : back == 1);
    if (back)
        LAW(memcmp(own, bad, bad_len) == 0 && all_a5(list, 0, 512) && !w.labels && !w.rounds);
    free(own); free(answer); free(list);
}

/* ------------------------------------------------------------------- the walk */

struct expected { uint64_t uids[64]; size_t count; uint64_t order[64]; size_t listed; uint32_t rounds; };

/* The walk as the UIDs alone tell it. */
static void expect_round(struct expected *x, unsigned bits, uint64_t ending)
{
    size_t in_slot[16] = { 0 };
    uint64_t last[16] = { 0 };
    x->rounds++;
    for (size_t i = 0; i < x->count; i++)
        if (((x->uids[i] ^ ending) & ref_low_bits(bits)) == 0) {
            unsigned slot = (unsigned)(x->uids[i] >> bits & 15);
            in_slot[slot]++;
            last[slot] = x->uids[i];
        }
    for (unsigned s = 0; s < 16; s++)
        if (in_slot[s] == 1)
            x->order[x->listed++] = last[s];
    for (unsigned s = 0; s < 16; s++)
        if (in_slot[s] > 1)
            expect_round(x, bits + 4, ending | (uint64_t)s << bits);
}

/* 1 + the number of different endings of 4, 8, .. 60 bits shared by two. */
static uint32_t count_endings(const struct expected *x)
{
    uint32_t rounds = 1;
    for (unsigned bits = 4; bits <= 60; bits += 4)
        for (size_t i = 0; i < x->count; i++) {
            int earlier = 0, later = 0;
            for (size_t k = 0; k < x->count; k++)
                if (k != i && ((x->uids[i] ^ x->uids[k]) & ref_low_bits(bits)) == 0)
                    *(k < i ? &earlier : &later) = 1;
            rounds += (uint32_t)(!earlier && later);
        }
    return rounds;
}

static int has_twins(const uint8_t *rack)
{
    for (size_t i = 0; i < rack[1]; i++)
        for (size_t k = 0; k < i; k++) {
            const uint8_t *a = rack + ref_rack_offset(rack, i), *b = rack + ref_rack_offset(rack, k);
            if (ref_rack_kind(rack, i) == 1 && ref_rack_kind(rack, k) == 1 && (a[14] & 1) && (b[14] & 1)
                && memcmp(a, b, 8) == 0)
                return 1;
        }
    return 0;
}

/* The bits in which a label's AFI must be the one asked for. */
static uint8_t bits_asked(int has_afi, uint8_t afi)
{
    return !has_afi || afi == 0 ? 0x00 : (afi & 0x0F) == 0 ? 0xF0 : 0xFF;
}

static void gather(const uint8_t *rack, int has_afi, uint8_t afi, struct expected *x)
{
    memset(x, 0, sizeof *x);
    for (size_t i = 0; i < rack[1]; i++) {
        const uint8_t *b = rack + ref_rack_offset(rack, i);
        if (ref_rack_kind(rack, i) == 1 && (b[14] & 1) && ((b[9] ^ afi) & bits_asked(has_afi, afi)) == 0)
            x->uids[x->count++] = ref_number(b, 8);
    }
}

static void clear_slots(uint8_t *rack)
{
    for (size_t i = 0; i < rack[1]; i++)
        if (ref_rack_kind(rack, i) == 1) {
            uint8_t *b = rack + ref_rack_offset(rack, i);
            b[15] = 255;
            memset(b + 16, 0, 9);
        }
}

static void walk_laws(const uint8_t *rack, size_t len)
{
    static struct expected x;
    int has_afi = gen_chance(&g, 50), tight = gen_chance(&g, 80);
    uint8_t afi = rack[1] ? gen_afi(&g, rack[ref_rack_offset(rack, gen_below(&g, rack[1])) + 9]) : 0;
    size_t list_len = 8 * (size_t)rack[1] + (tight ? 0 : gen_below(&g, 20));
    if (rack[1] && gen_chance(&g, 5))
        list_len = 8 * (size_t)rack[1] - 1;
    uint8_t *own = copy(rack, len), *list = room(list_len), *left = copy(rack, len);
    struct ref_walked w;
    int back = ref_walk(own, len, has_afi, afi, list, list_len, &w);
    LAW(back == (list_len < 8 * (size_t)rack[1] ? 5 : has_twins(rack) ? 6 : 0) && back == (int)w.number);
    if (back) {
        LAW(memcmp(own, rack, len) == 0 && all_a5(list, 0, list_len) && !w.labels && !w.rounds);
    } else {
        gather(rack, has_afi, afi, &x);
        expect_round(&x, 0, 0);
        clear_slots(left);
        LAW(w.rounds == x.rounds && w.rounds == count_endings(&x) && w.labels == x.count);
        for (size_t i = 0; i < w.labels; i++)
            LAW(ref_number(list + 8 * i, 8) == x.order[i]);
        LAW(all_a5(list, 8 * (size_t)w.labels, list_len) && memcmp(own, left, len) == 0);
        seen[6]++;
    }
    free(own); free(list); free(left);
}

/* -------------------------------------------------------------- reader's side */

/* The memory of a label of 256 blocks, as the frame tells of it. */
static void witness_blocks(const struct gen_command *c, const struct ref_reading *r, const uint8_t *frame, uint8_t *b)
{
    size_t head = r->meaning == REF_MEANS_BLOCKS && c->command.option ? 1 : 0;
    for (size_t i = 0; i < r->count; i++) {
        const uint8_t *part = frame + r->place + i * (head + r->length);
        size_t block = c->command.byte + i;
        if (head == 1 || r->meaning == REF_MEANS_LOCKS)
            b[32 + block] = part[0];
        if (r->meaning == REF_MEANS_BLOCKS)
            memcpy(b + 32 + 256 + block * r->length, part + head, r->length);
    }
}

/* A well-formed rack of one tag that should give this answer: the reader said
 * that there is one. */
static size_t witness_label(const struct gen_command *c, const struct ref_reading *r,
                            const uint8_t *frame, uint8_t *rack)
{
    unsigned blocks = 256, size = r->length ? r->length : c->command.code == 0x21 ? (unsigned)c->data_len : 4;
    uint8_t *b = rack + 10;
    memset(rack, 0, 9000);
    if (r->meaning == REF_MEANS_SYSTEM) {
        blocks = r->blocks + 1u;
        size = r->size + 1u;
    }
    size_t len = 32 + (size_t)blocks * (1 + size);
    rack[0] = rack[1] = rack[2] = 1;
    rack[4] = (uint8_t)len;
    rack[5] = (uint8_t)(len >> 8);
    rack[6] = 10;
    int has_uid = r->meaning == REF_MEANS_SYSTEM || r->meaning == REF_MEANS_INVENTORY;
    memcpy(b, has_uid ? r->uid : c->uid, 8);
    b[8] = r->dsfid;
    b[9] = r->meaning == REF_MEANS_INVENTORY ? c->command.afi : r->afi;
    b[11] = (uint8_t)(blocks - 1);
    b[12] = (uint8_t)(size - 1);
    b[13] = r->ic;
    b[14] = c->command.target == REF_SELECTED ? 3 : 1;
    b[15] = 255;
    if (r->meaning == REF_MEANS_BLOCK) {
        b[32 + c->command.byte] = r->lock;
        memcpy(b + 32 + 256 + (size_t)c->command.byte * size, frame + r->place, size);
    }
    witness_blocks(c, r, frame, b);
    return 10 + len;
}

static size_t witness_chip(const struct gen_command *c, const struct ref_reading *r, uint8_t *rack)
{
    uint8_t *b = rack + 10;
    uint8_t byte = c->command.byte;
    memset(rack, 0, 90);
    rack[0] = rack[1] = 1;
    rack[2] = 2;
    rack[4] = 80;
    rack[6] = 10;
    b[76] = r->meaning == REF_MEANS_CHIP_ID ? 2 : 3;
    b[77] = r->chip_id;
    for (int i = 0; i < 4; i++)
        b[(byte == 255 ? 64 : 4 * (byte & 15)) + i] = (uint8_t)(r->word >> (8 * i));
    memcpy(b + 68, r->uid, 8);
    return 90;
}

/* Sends the request to the witness and looks for the very frame. */
static void law_of_witness(const struct gen_command *c, const struct ref_reading *r,
                           const uint8_t *request, size_t request_len, const uint8_t *frame, size_t len)
{
    static uint8_t rack[9000];
    uint8_t answer[8451];
    struct ref_report e;
    int label = c->command.kind == REF_KIND_LABEL, found = 0;
    size_t rack_len = label ? witness_label(c, r, frame, rack) : witness_chip(c, r, rack);
    LAW(ref_well_formed(rack, rack_len));
    ref_event(rack, rack_len, label ? 3 : 5, request, request_len, &r->chip_id, 1, answer, sizeof answer, &e);
    for (int slot = 0; slot < 16 && !found; slot++) {
        found = e.number == 0 && e.answered == 1 && e.length == len && !memcmp(answer, frame, len);
        ref_event(rack, rack_len, 4, NULL, 0, &r->chip_id, 1, answer, sizeof answer, &e);
    }
    LAW(found);
}

static void reader_laws(void)
{
    static struct gen_command c;
    static uint8_t frame[GEN_FRAME_ROOM];
    struct ref_written w;
    struct ref_reading r;
    gen_command(&g, &c);
    size_t len = gen_answer(&g, &c, frame);
    uint8_t *own = copy(frame, len), *data = copy(c.data, c.data_len), *out = room(c.out_len);
    int back = ref_write_request(&c.command, c.uid, data, c.data_len, out, c.out_len, &w);
    LAW(back == (int)w.number && (back == 0 || back == 3 || back == 7));
    LAW((back == 3) == (c.out_len < 64));
    LAW(all_a5(out, w.length, c.out_len) && (back == 0) == (w.length > 0));
    int said = ref_read_answer(&c.command, c.uid, c.data_len, own, len, &r);
    LAW(said == (int)r.number && (said == 0 || (said >= 7 && said <= 9)));
    if (back != 3)
        LAW((back == 7) == (said == 7));
    if (said == 8)
        LAW(len < 3 || !ref_check_right(own, len));
    if (said == 0 && back == 0 && r.meaning != REF_MEANS_ERROR)
        law_of_witness(&c, &r, out, w.length, own, len);
    seen[7] += said == 0;
    free(own); free(data); free(out);
}

/* Whatever a tag of a random rack answers alone to a written request, the
 * reader takes. */
static void law_of_reading(const uint8_t *rack, size_t len)
{
    static struct gen_command c;
    struct ref_written w;
    struct ref_reading r;
    struct ref_report e;
    uint8_t out[64], answer[8451], draws[64];
    gen_command(&g, &c);
    if (rack[1] && gen_chance(&g, 70))
        memcpy(c.uid, rack + ref_rack_offset(rack, gen_below(&g, rack[1])), 8);
    if (ref_write_request(&c.command, c.uid, c.data, c.data_len, out, 64, &w))
        return;
    uint8_t *own = copy(rack, len);
    gen_draws(&g, draws, rack[1]);
    int inventory = c.command.kind == 1 && c.command.code == 1 && c.command.sixteen;
    ref_event(own, len, c.command.kind == 1 ? 3 : 5, out, w.length, draws, rack[1], answer, sizeof answer, &e);
    for (int slot = 0; slot < (inventory ? 16 : 1); slot++) {
        if (e.answered == 1)
            LAW(ref_read_answer(&c.command, c.uid, c.data_len, answer, e.length, &r) == 0);
        ref_event(own, len, 4, NULL, 0, draws, rack[1], answer, sizeof answer, &e);
    }
    free(own);
}

/* ------------------------------------------------------------- several blocks */

/* What the label alone on this rack answers to a command for it; gives the
 * length. */
static uint32_t ask(uint8_t *single, size_t len, struct ref_command c, uint8_t *answer)
{
    static const uint8_t draw[1];
    uint8_t out[64];
    struct ref_written w;
    struct ref_report e;
    LAW(ref_write_request(&c, single + 10, NULL, 0, out, 64, &w) == 0);
    LAW(ref_event(single, len, 3, out, w.length, draw, 1, answer, 8451, &e) == 0 && e.answered == 1);
    return e.length;
}

/* A read of several blocks gives what reads of each in turn give, and 2C the
 * lock bytes that these tell. The reader finds each where it says. */
static void law_of_each(uint8_t *single, size_t len, uint8_t first, uint8_t more)
{
    static uint8_t blocks[8451], locked[8451], locks[8451], one[8451];
    struct ref_command c = { .kind = 1, .code = 0x23, .target = REF_ONE_UID, .byte = first, .more = more };
    struct ref_reading r;
    uint32_t length = ask(single, len, c, blocks), size = single[10 + 12] + 1u;
    LAW(ref_read_answer(&c, single + 10, 0, blocks, length, &r) == 0 && r.place == 1 && r.length == size && r.count == more + 1u);
    c.option = 1;
    length = ask(single, len, c, locked);
    LAW(length == 3 + r.count * (1 + size));
    longest = length > longest ? length : longest;
    c.code = 0x2C;
    c.option = 0;
    LAW(ask(single, len, c, locks) == 3 + r.count);
    c.code = 0x20;
    c.option = 1;
    for (uint32_t i = 0; i < r.count; i++, c.byte++) {
        LAW(ask(single, len, c, one) == 4 + size && one[1] == locks[1 + i]);
        LAW(!memcmp(one + 2, blocks + 1 + i * size, size) && !memcmp(one + 1, locked + 1 + i * (1 + size), 1 + size));
    }
}

/* A label of the rack, if one comes up that is not off, and blocks that it has. */
static void several_laws(const uint8_t *rack)
{
    static uint8_t single[9000];
    size_t entry = gen_below(&g, rack[1]), len = alone(rack, entry, single);
    if (ref_rack_kind(rack, entry) != REF_KIND_LABEL || single[10 + 14] == 0)
        return;
    uint32_t blocks = single[10 + 11] + 1u, first = gen_chance(&g, 50) ? 0 : gen_below(&g, blocks);
    uint32_t last = gen_chance(&g, 50) ? blocks - 1 : first + gen_below(&g, blocks - first);
    law_of_each(single, len, (uint8_t)first, (uint8_t)(last - first));
}

/* ----------------------------------------------------------------------- main */

static void one_rack(uint64_t seed)
{
    static uint8_t rack[GEN_RACK_ROOM];
    static struct gen_event e;
    seed_now = seed;
    gen_seed(&g, seed);
    size_t len = seed % 100 == 99 ? gen_full_rack(&g, rack) : seed % 20 == 13 ? gen_long_rack(&g, rack) : gen_rack(&g, rack);
    LAW(ref_well_formed(rack, len) && len <= 65536 && (seed % 100 != 99 || len == 65536));
    if (seed % 20 == 8) {
        static uint8_t over[GEN_RACK_ROOM];
        size_t over_len = gen_over_rack(&g, over);
        LAW((over_len > 65536 || over[1] > 64) && !ref_well_formed(over, over_len));
    }
    for (int i = 0; i < 40; i++) {
        gen_event(&g, rack, gen_chance(&g, 80), &e);
        if (gen_chance(&g, 20))
            damage_laws(rack, len, &e);
        event_laws(rack, len, &e);
        if (gen_chance(&g, 5))
            walk_laws(rack, len);
        if (gen_chance(&g, 30))
            law_of_reading(rack, len);
        if (rack[1] && gen_chance(&g, 10))
            several_laws(rack);
        reader_laws();
    }
}

int main(int argc, char **argv)
{
    uint64_t first = argc > 1 ? strtoull(argv[1], NULL, 10) : 1;
    uint64_t racks = argc > 2 ? strtoull(argv[2], NULL, 10) : 300;
    for (uint64_t i = 0; i < racks; i++)
        one_rack(first + i);
    printf("silent %lu, one answer %lu, collisions %lu, refused %lu; damaged: still well-formed %lu, "
           "not %lu; walks %lu; answers read %lu, the longest given of %u bytes\n", seen[0], seen[1], seen[2], seen[3], seen[4],
           seen[5], seen[6], seen[7], (unsigned)longest);
    printf("%lu passed, %lu failed\n", passed, failed);
    return failed != 0;
}
