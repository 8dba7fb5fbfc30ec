/* diff.c - diff [SEED [RACKS]]: random cases through the reference and through
 * another implementation, whose calls are named other_event, other_walk,
 * other_write_request, other_read_answer, other_check_sum and
 * other_well_formed, with the parameters of the reference's. Compares every
 * result and every lent byte; stops at the first difference. Fails too where no
 * rack had a chip that looks like a label and has the UID of one, or no answer
 * was of 8,451 bytes. Build:
 *   cc -std=c11 -O2 -I../reference diff.c gen.c ../reference/[a-z]*.c OTHER -o diff
 */
#include "gen.h"

#include <stdio.h>
#include <stdlib.h>
#include <string.h>

int other_well_formed(const uint8_t *rack, size_t rack_len);
int other_event(uint8_t *rack, size_t rack_len, uint8_t number, const uint8_t *frame, size_t frame_len,
                const uint8_t *draws, size_t draws_len, uint8_t *answer, size_t answer_len,
                struct ref_report *out);
int other_walk(uint8_t *rack, size_t rack_len, int has_afi, uint8_t afi, uint8_t *list, size_t list_len,
               struct ref_walked *out);
int other_write_request(const struct ref_command *command, const uint8_t *uid, const uint8_t *data,
                        size_t data_len, uint8_t *out, size_t out_len, struct ref_written *result);
int other_read_answer(const struct ref_command *command, const uint8_t *uid, size_t data_len,
                      const uint8_t *frame, size_t frame_len, struct ref_reading *out);
uint16_t other_check_sum(const uint8_t *bytes, size_t len);

static struct gen g;
static struct gen_event e;
static uint8_t ours[GEN_RACK_ROOM], theirs[GEN_RACK_ROOM];
enum { MARGIN = 64 };                          /* bytes behind an output that are looked at too */
static uint8_t out_1[GEN_ANSWER_ROOM + MARGIN], out_2[GEN_ANSWER_ROOM + MARGIN];
static uint64_t seed_now;
static unsigned long cases, events, walks, carried, commands, sums;
static unsigned long likes, like_uids;         /* chips that look like labels, and those with the UID of one */
static unsigned long biggest;                  /* answers of 8,451 bytes */
static uint32_t longest;

static void print_bytes(const char *name, const uint8_t *bytes, size_t len)
{
    printf("  %s (%zu):", name, len);
    for (size_t i = 0; i < len && i < 400; i++)
        printf(" %02X", bytes[i]);
    printf("\n");
}

static void apart(const char *where)
{
    printf("DIFFERENT: %s, seed %llu, case %lu\n", where, (unsigned long long)seed_now, cases);
    printf("  event %u\n", e.number);
    print_bytes("frame", e.frame, e.frame_len);
    exit(1);
}

static void paint_outputs(size_t len)
{
    memset(out_1, 0xA5, len);
    memset(out_2, 0xA5, len);
}

/* Of two outputs that were lent so long; what was written is painted over for the next case. */
static int outputs_equal(size_t lent, size_t written)
{
    int equal = memcmp(out_1, out_2, lent + MARGIN) == 0;
    paint_outputs(written);
    return equal;
}

static void compare_event(const uint8_t *rack, size_t len)
{
    struct ref_report a = { 9, 9, 9 }, b = { 8, 8, 8 };
    memcpy(ours, rack, len);
    memcpy(theirs, rack, len);
    cases++;
    events++;
    ref_event(ours, len, e.number, e.frame, e.frame_len, e.draws, e.draws_len, out_1, e.answer_len, &a);
    other_event(theirs, len, e.number, e.frame, e.frame_len, e.draws, e.draws_len, out_2, e.answer_len, &b);
    if (a.number != b.number || a.answered != b.answered || a.length != b.length)
        apart("report of an event");
    biggest += a.length == REF_ANSWER;
    if (!outputs_equal(e.answer_len, a.length))
        apart("answer of an event");
    if (memcmp(ours, theirs, len) != 0)
        apart("rack after an event");
}

static void compare_walk(const uint8_t *rack, size_t len)
{
    struct ref_walked a = { 9, 9, 9 }, b = { 8, 8, 8 };
    int has_afi = gen_chance(&g, 50);
    size_t entry = len > 100 && rack[1] ? gen_below(&g, rack[1]) : 0;
    uint8_t afi = gen_afi(&g, len > 100 ? rack[ref_rack_offset(rack, entry) % len + LABEL_AFI] : gen_byte(&g));
    size_t list_len = 8 * (size_t)(len > 1 ? rack[1] : 0);
    if (gen_chance(&g, 10))
        list_len += list_len && gen_chance(&g, 50) ? (size_t)-1 : 1;
    memcpy(ours, rack, len);
    memcpy(theirs, rack, len);
    cases++;
    walks++;
    ref_walk(ours, len, has_afi, afi, out_1, list_len, &a);
    other_walk(theirs, len, has_afi, afi, out_2, list_len, &b);
    if (a.number != b.number || a.labels != b.labels || a.rounds != b.rounds)
        apart("result of a walk");
    carried += a.rounds > 1;
    longest = a.rounds > longest ? a.rounds : longest;
    if (!outputs_equal(list_len, 8 * (size_t)a.labels))
        apart("list of a walk");
    if (memcmp(ours, theirs, len) != 0)
        apart("rack after a walk");
}

static void compare_damaged(const uint8_t *rack, size_t len)
{
    static uint8_t bad[GEN_RACK_ROOM];
    memcpy(bad, rack, len);
    size_t bad_len = gen_damage(&g, bad, len);
    if (ref_well_formed(bad, bad_len) != other_well_formed(bad, bad_len))
        apart("well-formed");
    compare_event(bad, bad_len);
    if (gen_chance(&g, 30))
        compare_walk(bad, bad_len);
}

static void compare_over_rack(void)
{
    static uint8_t over[GEN_RACK_ROOM];
    size_t len = gen_over_rack(&g, over);
    if (ref_well_formed(over, len) != other_well_formed(over, len))
        apart("well-formed, too long");
    gen_event(&g, over, 1, &e);
    compare_event(over, len);
    compare_walk(over, len);
}

static int readings_equal(const struct ref_reading *a, const struct ref_reading *b)
{
    return a->number == b->number && a->meaning == b->meaning && a->error == b->error
        && a->dsfid == b->dsfid && a->afi == b->afi && a->blocks == b->blocks && a->size == b->size
        && a->ic == b->ic && a->lock == b->lock && a->place == b->place && a->length == b->length && a->count == b->count
        && a->chip_id == b->chip_id && a->word == b->word && memcmp(a->uid, b->uid, REF_UID) == 0;
}

static void compare_reader(void)
{
    static struct gen_command c;
    static uint8_t frame[GEN_FRAME_ROOM];
    struct ref_written a = { 9, 9 }, b = { 8, 8 };
    struct ref_reading x, y;
    gen_command(&g, &c);
    size_t len = gen_answer(&g, &c, frame);
    cases++;
    commands++;
    memset(&x, 0x11, sizeof x);
    memset(&y, 0x22, sizeof y);
    ref_write_request(&c.command, c.uid, c.data, c.data_len, out_1, c.out_len, &a);
    other_write_request(&c.command, c.uid, c.data, c.data_len, out_2, c.out_len, &b);
    if (a.number != b.number || a.length != b.length || !outputs_equal(c.out_len, a.length))
        apart("request writer");
    ref_read_answer(&c.command, c.uid, c.data_len, frame, len, &x);
    other_read_answer(&c.command, c.uid, c.data_len, frame, len, &y);
    if (!readings_equal(&x, &y)) {
        printf("  kind %u code %X target %u option %u byte %u more %u\n", c.command.kind, c.command.code,
               c.command.target, c.command.option, c.command.byte, c.command.more);
        print_bytes("answer", frame, len);
        apart("answer reader");
    }
}

/* From any place in memory, even or not. */
static void compare_sum(void)
{
    static uint8_t bytes[GEN_FRAME_ROOM + 8];
    uint8_t *from = bytes + gen_below(&g, 8);
    size_t len = gen_bytes(&g, from);
    cases++;
    sums++;
    if (ref_check_sum(from, len) != other_check_sum(from, len)) {
        print_bytes("bytes", from, len);
        apart("check sum");
    }
}

static int has_label(const uint8_t *rack, const uint8_t *uid)
{
    for (size_t i = 0; i < ref_rack_tags(rack); i++)
        if (ref_rack_kind(rack, i) == REF_KIND_LABEL && memcmp(rack + ref_rack_offset(rack, i), uid, REF_UID) == 0)
            return 1;
    return 0;
}

static void count_likes(const uint8_t *rack)
{
    for (size_t i = 0; i < ref_rack_tags(rack); i++)
        if (gen_like_label(rack, i)) {
            likes++;
            like_uids += has_label(rack, rack + ref_rack_offset(rack, i));
        }
}

static void one_rack(uint64_t seed)
{
    static uint8_t rack[GEN_RACK_ROOM];
    seed_now = seed;
    gen_seed(&g, seed);
    size_t len = seed % 100 == 99 ? gen_full_rack(&g, rack) : seed % 20 == 13 ? gen_long_rack(&g, rack) : gen_rack(&g, rack);
    if (!other_well_formed(rack, len))
        apart("well-formed");
    count_likes(rack);
    for (int i = 0; i < 10; i++)
        compare_sum();
    if (seed % 20 == 8)
        compare_over_rack();
    for (int left = seed % 200 == 50 ? 2000 : 60; left > 0; left--) {
        gen_event(&g, rack, gen_chance(&g, 80), &e);
        compare_event(rack, len);
        memcpy(rack, ours, len);
        if (gen_chance(&g, 15))
            compare_damaged(rack, len);
        if (gen_chance(&g, 8))
            compare_walk(rack, len);
        compare_reader();
        compare_reader();
    }
}

int main(int argc, char **argv)
{
    uint64_t first = argc > 1 ? strtoull(argv[1], NULL, 10) : 1;
    uint64_t racks = argc > 2 ? strtoull(argv[2], NULL, 10) : 300;
    paint_outputs(sizeof out_1);
    for (uint64_t i = 0; i < racks; i++)
        one_rack(first + i);
    printf("%lu events, %lu walks (%lu of more than one round, the longest of %u), %lu commands and answers, %lu check sums: no difference\n", events,
           walks, carried, (unsigned)longest, commands, sums);
    printf("chips that look like labels: %lu, with the UID of one on their rack: %lu; answers of 8,451 bytes: %lu\n", likes, like_uids, biggest);
    return like_uids == 0 || biggest == 0;
}
