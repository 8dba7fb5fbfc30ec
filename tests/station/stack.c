/* stack.c - the stack that each call of the C face takes at most, on hard cases: a walk of 64 labels in pairs that differ in the top four bits alone,
 * and each command written, played on 64 tags and its answer read. Each call runs on a painted stack of its own. Prints a line for each
 * call; fails where one takes more than LIMIT bytes, counted from its caller's frame. */
#define _GNU_SOURCE
#include "sackbutflare.h"

#include <stdio.h>
#include <string.h>
#include <ucontext.h>

enum { LIMIT = 4096, PAINT = 0xA5, TAGS = 64, ASKED = 5 };
enum { EVENT, WALK, WRITE_REQUEST, READ_ANSWER, CHECK_SUM, CALLS };

static const char *const names[CALLS] = { "event", "walk", "write_request", "read_answer", "check_sum" };
static size_t worst[CALLS];
static int wrong;

static void expect_at(int line, int right, const char *what)
{
    wrong += !right;
    if (!right)
        printf("stack.c:%d: %s\n", line, what);
}
#define EXPECT(x) expect_at(__LINE__, (x) != 0, #x)

/* ---- a call on a painted stack */

static _Alignas(16) uint8_t stack[1 << 16];
static uint8_t *frame_of_caller;
static ucontext_t here, there;

/* What the calls take, and what they give back: a context's function has no arguments. */
static uint8_t rack[16384], draws[TAGS], answer[8451], request[64], list[8 * TAGS];
static size_t rack_length, request_length, data_length;
static uint8_t number, uid[8], data[32];
static struct sackbutflare_command command;
static struct sackbutflare_report report;
static struct sackbutflare_walked walked;
static struct sackbutflare_written written;
static struct sackbutflare_told told;
static uint16_t sum;

#define FROM_HERE() (frame_of_caller = __builtin_frame_address(0))

static void event(void)
{
    FROM_HERE();
    report = sackbutflare_event(rack, rack_length, number, request, request_length, draws, sizeof draws, answer, sizeof answer);
}

static void walk(void)
{
    FROM_HERE();
    walked = sackbutflare_walk(rack, rack_length, false, 0, list, sizeof list);
}

static void write_request(void)
{
    FROM_HERE();
    written = sackbutflare_write_request(command, uid, sizeof uid, data, data_length, request, sizeof request);
}

static void read_answer(void)
{
    FROM_HERE();
    told = sackbutflare_read_answer(command, uid, sizeof uid, data_length, answer, report.length);
}

static void check_sum(void)
{
    FROM_HERE();
    sum = sackbutflare_check_sum(rack, rack_length);
}

static void run(int call)
{
    static void (*const calls[CALLS])(void) = { event, walk, write_request, read_answer, check_sum };
    uint8_t *low = stack;
    memset(stack, PAINT, sizeof stack);
    getcontext(&there);
    there.uc_stack.ss_sp = stack;
    there.uc_stack.ss_size = sizeof stack;
    there.uc_link = &here;
    makecontext(&there, calls[call], 0);
    swapcontext(&here, &there);
    while (*low == PAINT)
        low++;
    if (worst[call] < (size_t)(frame_of_caller - low))
        worst[call] = (size_t)(frame_of_caller - low);
}

/* ---- the racks */

/* The UID of label i: those of a pair, 2 p and 2 p + 1, differ in the top four bits alone. */
static void uid_of(int i, uint8_t u[8])
{
    for (int k = 0; k < 8; k++)
        u[k] = (uint8_t)(i / 2 * (2 * k + 1));
    u[7] = (uint8_t)(u[7] % 16 + (i % 2 ? 0xE0 : 0x10));
}

/* The label that is asked has 256 blocks, for the longest answer. */
static void lay_rack(int labels)
{
    size_t at = 2 + 8 * TAGS;
    memset(rack, 0, sizeof rack);
    rack[0] = 1;
    rack[1] = TAGS;
    for (int i = 0; i < TAGS; i++) {
        uint8_t *entry = rack + 2 + 8 * i, *body = rack + at;
        int label = i < labels;
        int blocks = i == ASKED ? 256 : 1;
        size_t length = label ? 32 + (size_t)blocks * 33 : 80;
        entry[0] = label ? 1 : 2;
        entry[2] = (uint8_t)length;
        entry[3] = (uint8_t)(length >> 8);
        entry[4] = (uint8_t)at;
        entry[5] = (uint8_t)(at >> 8);
        if (label) {
            uid_of(i, body);
            body[11] = (uint8_t)(blocks - 1);
            body[12] = 31;
            body[14] = 1;
            body[15] = 255;
        } else {
            memset(body, 0xFF, 68);
            body[68] = (uint8_t)i;
            body[76] = 1;
        }
        at += length;
        draws[i] = (uint8_t)i;
    }
    rack_length = at;
}

/* ---- the cases */

static void play(int what, size_t length, int answers)
{
    number = (uint8_t)what;
    request_length = length;
    run(EVENT);
    EXPECT(report.number == 0 && report.answered == answers);
}

/* A command is written and played. Where one tag answers, the answer is read. */
static void say(int answers)
{
    run(WRITE_REQUEST);
    EXPECT(written.number == 0);
    play(command.kind == SACKBUTFLARE_LABEL ? 3 : 5, written.length, answers);
    if (answers == 1) {
        run(READ_ANSWER);
        EXPECT(told.number == 0 && told.meaning != SACKBUTFLARE_REFUSED);
    }
}

static void say_label(int code, int answers)
{
    command = (struct sackbutflare_command){ .kind = SACKBUTFLARE_LABEL, .code = (uint16_t)code, .target = SACKBUTFLARE_ONE_UID };
    command.option = code == 0x20 || code == 0x23;
    command.more = 255;
    data_length = code == 0x21 ? 32 : 0;
    uid_of(ASKED, uid);
    say(answers);
}

static void say_chip(int code, int byte, int answers)
{
    command = (struct sackbutflare_command){ .kind = SACKBUTFLARE_CHIP, .code = (uint16_t)code, .byte = (uint8_t)byte };
    data_length = code == 0x09 ? 4 : 0;
    say(answers);
}

/* A mask of 60 bits: the two labels of a pair answer, in slots 1 and 14. */
static void inventory(void)
{
    command = (struct sackbutflare_command){ .kind = SACKBUTFLARE_LABEL, .code = 0x01, .sixteen = true, .afi_given = true, .mask_bits = 60 };
    data_length = 0;
    uid_of(ASKED, uid);
    for (int k = 0; k < 60; k++)
        command.mask |= (uint64_t)(uid[k / 8] >> k % 8 & 1) << k;
    say(0);
    for (int slot = 1; slot <= 16; slot++)
        play(4, 0, slot == 1 || slot == 14);
}

static void cases(void)
{
    lay_rack(32);
    for (int code = 0x20; code <= 0x2C; code++)
        if (code != 0x24)
            say_label(code, 1);
    say_label(0x21, 1);
    say_label(0x23, 1);
    EXPECT(report.length == sizeof answer && told.count == 256);
    inventory();
    say_label(0x02, 0);
    say_chip(0x0600, 0, 32);
    say_chip(0x0604, 0, 2);
    say_chip(0x06, 5, 2);
    say_chip(0x0E, 0x25, 1);
    say_chip(0x09, 255, 0);
    say_chip(0x08, 255, 1);
    say_chip(0x0B, 0, 1);
    play(2, 0, 0);
    play(1, 0, 0);
    run(CHECK_SUM);

    lay_rack(TAGS);
    run(WALK);
    EXPECT(walked.number == 0 && walked.labels == TAGS && walked.rounds == 1 + 16 + 14 * 32);
}

int main(void)
{
    cases(); /* the first time round the loader looks functions up on the stack of their first caller */
    memset(worst, 0, sizeof worst);
    cases();
    for (int call = 0; call < CALLS; call++) {
        printf("sackbutflare_%s: %zu bytes of stack\n", names[call], worst[call]);
        EXPECT(worst[call] <= LIMIT);
    }
    return wrong != 0;
}
