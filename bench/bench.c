/* bench.c - times the proved library against the reference in plain C, in one run, and prints a table: nanoseconds a call and their ratio.
 * Compiled with BEFORE it times it against another archive of the same calls, whose names begin with before_.
 * Before a row is timed both sides play it and must leave the same reply and the same bytes, else it ends with status 1. Rows that read several blocks
 * are left out where an archive of another revision, or the one to be counted, has no such read.
 * Each number is the best of several tries, taken in turn. The clock is the process's own, and a try lasts equally long for both: on a busy
 * machine a short try would else slip in between two interruptions and a long one never could, in favour of the quicker call.
 * bench count is for bench/count: it calls ours alone, twice a row, the second time between two marks. */
#include "reference.h"
#include "sackbutflare.h"

#include <stdio.h>
#include <stdlib.h>
#include <string.h>
#include <time.h>

enum { TRIES = 15, MOST = 65536 };

static const double TRY = 0.004;       /* seconds */

static uint8_t rack[MOST], work[MOST], answer[8451], list[512];
static const uint8_t draws[64];
static size_t rack_len;

/* What the last call gave: refusal, then how many answered or were found or the check sum, then length or rounds. Volatile, lest the compiler leave a
 * call out. */
struct reply {
    size_t number;
    size_t count;
    size_t more;
};
static volatile struct reply said;

/* What one case is played with. */
struct play {
    uint8_t tags;
    uint8_t number;
    const uint8_t *frame;
    size_t frame_len;
};
static struct play now;

static double seconds(void)
{
    struct timespec t;
    clock_gettime(CLOCK_PROCESS_CPUTIME_ID, &t);
    return (double)t.tv_sec + 1e-9 * (double)t.tv_nsec;
}

/* ------------------------------------------------------------------ the calls */

static size_t sum_len;

/* The reference goes bit by bit, to be read easily; this is what C for speed would do. */
static uint16_t table[256];

static void make_table(void)
{
    for (unsigned i = 0; i < 256; i++) {
        unsigned r = i;
        for (int k = 0; k < 8; k++)
            r = r & 1 ? r >> 1 ^ 0x8408 : r >> 1;
        table[i] = (uint16_t)r;
    }
}

static uint16_t quick_sum(const uint8_t *bytes, size_t len)
{
    uint16_t r = 0xFFFF;
    for (size_t i = 0; i < len; i++)
        r = (uint16_t)(r >> 8 ^ table[(r ^ bytes[i]) & 0xFF]);
    return (uint16_t)~r;
}

static void table_sum(void) { said.count = quick_sum(rack, sum_len); }

static void give(size_t number, size_t count, size_t more)
{
    said.number = number;
    said.count = count;
    said.more = more;
}

/* A label of 256 blocks of 32 bytes, alone on its rack, read in C: each block copied, with Option behind its lock byte, and the check sum by our call. */
enum { BLOCKS = 256, SIZE = 32, LOCKS = 10 + 32 };

static void close_copy(size_t at)
{
    uint16_t sum = sackbutflare_check_sum(answer, at);
    answer[at] = (uint8_t)sum;
    answer[at + 1] = (uint8_t)(sum >> 8);
    give(0, 1, at + 2);
}

static void copy_blocks(void)
{
    answer[0] = 0;
    for (size_t i = 0; i < BLOCKS; i++)
        memcpy(answer + 1 + i * SIZE, work + LOCKS + BLOCKS + i * SIZE, SIZE);
    close_copy(1 + BLOCKS * SIZE);
}

static void copy_locked_blocks(void)
{
    answer[0] = 0;
    for (size_t i = 0; i < BLOCKS; i++) {
        answer[1 + i * (1 + SIZE)] = work[LOCKS + i];
        memcpy(answer + 2 + i * (1 + SIZE), work + LOCKS + BLOCKS + i * SIZE, SIZE);
    }
    close_copy(1 + BLOCKS * (1 + SIZE));
}

/* The calls of an archive, its names beginning with name. */
#define CALLS(whose, name)                                                                                                      \
    static void whose##_sum(void) { said.count = name##_check_sum(rack, sum_len); }                                             \
    static void whose##_event(void)                                                                                             \
    {                                                                                                                           \
        struct sackbutflare_report r =                                                                                          \
            name##_event(work, rack_len, now.number, now.frame, now.frame_len, draws, now.tags, answer, sizeof answer);         \
        give(r.number, r.answered, r.length);                                                                                   \
    }                                                                                                                           \
    static void whose##_walk(void)                                                                                              \
    {                                                                                                                           \
        struct sackbutflare_walked w = name##_walk(work, rack_len, false, 0, list, sizeof list);                                \
        give(w.number, w.labels, w.rounds);                                                                                     \
    }

CALLS(our, sackbutflare)

#ifdef BEFORE
static const bool both_proved = true;
static const char sides[] = "ns after | ns before";

extern __typeof__(sackbutflare_check_sum) before_check_sum;
extern __typeof__(sackbutflare_event) before_event;
extern __typeof__(sackbutflare_walk) before_walk;

CALLS(the, before)
#else
static const bool both_proved = false;
static const char sides[] = "ns ours | ns C";

static void the_sum(void) { said.count = ref_check_sum(rack, sum_len); }

static void the_event(void)
{
    struct ref_report r;
    ref_event(work, rack_len, now.number, now.frame, now.frame_len, draws, now.tags, answer, sizeof answer, &r);
    give(r.number, r.answered, r.length);
}

static void the_walk(void)
{
    struct ref_walked w;
    ref_walk(work, rack_len, 0, 0, list, sizeof list, &w);
    give(w.number, w.labels, w.rounds);
}
#endif

/* ------------------------------------------------------------------- the racks */

static uint8_t *enter(int tag, size_t length, size_t place)
{
    uint8_t *entry = rack + 2 + 8 * tag;
    entry[0] = 1;
    entry[2] = (uint8_t)length;
    entry[3] = (uint8_t)(length >> 8);
    entry[4] = (uint8_t)place;
    entry[5] = (uint8_t)(place >> 8);
    return rack + place;
}

/* The UID of label i for the fewest rounds that a walk can take: fifteen labels are alone in their slots, the others stand in the sixteenth, and so on
 * in the next round. */
static uint64_t best(int i)
{
    int level = i / 15;
    return (uint64_t)(i % 15) << 4 * level | (((uint64_t)1 << 4 * level) - 1);
}

/* For the most: the two of a pair differ in the four highest bits alone and collide all the way up. */
static uint64_t worst(int i)
{
    return (uint64_t)(i / 2) | (uint64_t)(i % 2 ? 0xD : 0xE) << 60;
}

/* UIDs in no order, no number twice. */
static uint64_t drawn(int i)
{
    uint64_t z = (uint64_t)(i + 1) * 0x9E3779B97F4A7C15u;
    z = (z ^ z >> 30) * 0xBF58476D1CE4E5B9u;
    return z ^ z >> 27;
}

/* n ready labels. */
static void make(int n, unsigned blocks, unsigned size, uint64_t (*uid)(int))
{
    size_t length = 32 + blocks * (1 + size), place = 2 + 8 * (size_t)n;
    memset(rack, 0, sizeof rack);
    rack[0] = 1;
    rack[1] = (uint8_t)n;
    for (int i = 0; i < n; i++) {
        uint8_t *body = enter(i, length, place);
        for (int k = 0; k < 8; k++)
            body[k] = (uint8_t)(uid(i) >> 8 * k);
        body[11] = (uint8_t)(blocks - 1);
        body[12] = (uint8_t)(size - 1);
        body[14] = 1;
        body[15] = 255;
        place += length;
    }
    rack_len = place;
}

/* ------------------------------------------------------------------- the table */

static double once(void (*call)(void), long times)
{
    memcpy(work, rack, sizeof work);
    double start = seconds();
    for (long i = 0; i < times; i++)
        call();
    return (seconds() - start) / (double)times;
}

/* How many calls a try takes. */
static long fill(void (*call)(void))
{
    long times = 1;
    while (once(call, times) * (double)times < TRY)
        times *= 2;
    return times;
}

/* All that so many calls in turn leave behind. */
struct left {
    struct reply said;
    uint8_t work[MOST], answer[sizeof answer], list[sizeof list];
};

static void play(void (*call)(void), int times, struct left *left)
{
    memset(answer, 0xA5, sizeof answer);
    memset(list, 0xA5, sizeof list);
    once(call, times);
    left->said = (struct reply) { said.number, said.count, said.more };
    memcpy(left->work, work, sizeof work);
    memcpy(left->answer, answer, sizeof answer);
    memcpy(left->list, list, sizeof list);
}

/* The first call of a row and those after it, which find the rack as it was left. */
static void hold(const char *what, int n, void (*ours)(void), void (*theirs)(void))
{
    static struct left a, b;
    for (int times = 1; times <= 3; times++) {
        play(ours, times, &a);
        play(theirs, times, &b);
        if (memcmp(&a, &b, sizeof a) != 0) {
            fflush(stdout);
            fprintf(stderr, "bench: the two sides disagree: %s, tags %d, call %d\n", what, n, times);
            exit(1);
        }
    }
}

static bool counting;

/* What bench/count looks for in the emulator's trace: it counts what runs between two marks and is not of this file. */
static __attribute__((noinline)) void mark(void)
{
    __asm__ volatile("");
}

static __attribute__((noinline)) void counted(void (*call)(void))
{
    mark();
    call();
    mark();
}

static void row(const char *what, int n, void (*ours)(void), void (*theirs)(void))
{
    double a = 1e9, b = 1e9;
    if (counting) {
        once(ours, 1);
        counted(ours);
        printf("| %s | %d |\n", what, n);
        return;
    }
    hold(what, n, ours, theirs);
    long our_times = fill(ours), their_times = fill(theirs);
    for (int i = 0; i < TRIES; i++) {
        double x = once(ours, our_times), y = once(theirs, their_times);
        a = x < a ? x : a;
        b = y < b ? y : b;
    }
    printf("| %s | %d | %.0f | %.0f | %.*f |\n", what, n, a * 1e9, b * 1e9, a / b < 0.1 ? 4 : 2, a / b);
}

static void sums(size_t len)
{
    char what[80];
    sum_len = len;
    snprintf(what, sizeof what, "check sum of %zu bytes", len);
    row(what, 0, our_sum, the_sum);
    if (!counting && !both_proved)
        row("the same against C with a table", 0, our_sum, table_sum);
}

static void events(int n, unsigned blocks, unsigned size)
{
    static const uint8_t inventory[] = { 0x06, 0x01, 0x00, 0xCD, 0x09 }, info[] = { 0x02, 0x2B, 0x26, 0xA3 };
    char what[80];
    make(n, blocks, size, best);
    now = (struct play) { (uint8_t)n, 4, NULL, 0 };
    snprintf(what, sizeof what, "event: end of frame, rack of %zu bytes", rack_len);
    row(what, n, our_event, the_event);
    now = (struct play) { (uint8_t)n, 3, inventory, sizeof inventory };
    row("event: inventory, sixteen slots", n, our_event, the_event);
    now = (struct play) { (uint8_t)n, 3, info, sizeof info };
    row("event: system information", n, our_event, the_event);
}

/* An Inventory over 64 labels with UIDs in no order, for those that end as one of them does in so many bits. */
static void mask_row(bool sixteen, unsigned bits)
{
    uint8_t frame[13] = { sixteen ? 0x06 : 0x26, 0x01, (uint8_t)bits };
    size_t len = 3;
    char what[80];
    for (unsigned k = 0; k < bits; k += 8)
        frame[len++] = (uint8_t)(drawn(32) >> k);
    uint16_t sum = quick_sum(frame, len);
    frame[len++] = (uint8_t)sum;
    frame[len++] = (uint8_t)(sum >> 8);
    now = (struct play) { 64, 3, frame, len };
    snprintf(what, sizeof what, "event: inventory, %s, mask of %u bits", sixteen ? "sixteen slots" : "one slot", bits);
    row(what, 64, our_event, the_event);
}

static void masks(void)
{
    static const unsigned sixteen[] = { 0, 4, 12, 30, 60 }, one[] = { 0, 4, 12, 30, 60, 61, 64 };
    make(64, 4, 4, drawn);
    for (size_t i = 0; i < sizeof sixteen / sizeof *sixteen; i++)
        mask_row(true, sixteen[i]);
    for (size_t i = 0; i < sizeof one / sizeof *one; i++)
        mask_row(false, one[i]);
}

static bool reads_blocks(void (*event)(void))
{
    once(event, 1);
    return said.number == 0 && said.more > BLOCKS;
}

static void read_row(const char *what, const uint8_t *frame, void (*copy)(void))
{
    now = (struct play) { 1, 3, frame, 6 };
    if ((both_proved || counting) && !(reads_blocks(our_event) && reads_blocks(the_event)))
        return;
    row(what, 1, our_event, the_event);
    if (!counting && !both_proved)
        row("the same against a loop of memcpy and the same check sum", 1, our_event, copy);
}

static void reads(void)
{
    static const uint8_t plain[] = { 0x02, 0x23, 0x00, 0xFF, 0x8F, 0x26 }, locked[] = { 0x42, 0x23, 0x00, 0xFF, 0x38, 0x30 };
    make(1, BLOCKS, SIZE, best);
    for (size_t i = 0; i < BLOCKS; i++)
        rack[LOCKS + i] = i % 3 == 0;
    for (size_t i = LOCKS + BLOCKS; i < rack_len; i++)
        rack[i] = (uint8_t)(i * 37 + i / 256);
    read_row("event: read of 256 blocks of 32 bytes", plain, copy_blocks);
    read_row("event: read of 256 blocks of 32 bytes with their locks", locked, copy_locked_blocks);
}

/* Walks one rack over and over. */
static void walks(const char *what, uint64_t (*uid)(int))
{
    for (int n = 1; n <= 64; n *= n < 16 ? 4 : 2) {
        char name[80];
        make(n, 1, 1, uid);
        once(our_walk, 1);
        snprintf(name, sizeof name, "walk, %s: rounds %zu", what, said.more);
        row(name, n, our_walk, the_walk);
    }
}

int main(int argc, char **argv)
{
    counting = argc == 2 && strcmp(argv[1], "count") == 0;
    if (!counting)
        printf("| call | tags | %s | ratio |\n|---|---|---|---|---|\n", sides);
    make(1, 4, 4, best);
    make_table();
    sums(5);
    sums(14);
    sums(44);
    sums(MOST);
    for (int n = 1; n <= 64; n *= 8)
        events(n, 4, 4);
    events(64, 28, 32);
    masks();
    reads();
    walks("best", best);
    walks("worst", worst);
    walks("drawn", drawn);
    return 0;
}
