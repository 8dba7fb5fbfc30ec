/* null.c - each call of the C face with null pointers and length 0, UIDs of every length, and what its structs must look like from C. Prints a line for
 * each check that fails, and `N passed, M failed` last. */
#include "sackbutflare.h"

#include <stdio.h>
#include <string.h>

static int passed, failed;

static void check_at(int line, int right, const char *what)
{
    passed += right;
    failed += !right;
    if (!right)
        printf("null.c:%d: %s\n", line, what);
}
#define CHECK(x) check_at(__LINE__, (x) != 0, #x)

static void events(void)
{
    uint8_t empty[2] = { 1, 0 }, answer[8451];
    struct sackbutflare_report r = sackbutflare_event(NULL, 0, 2, NULL, 0, NULL, 0, NULL, 0);
    CHECK(r.number == 1 && r.answered == 0 && r.length == 0);
    r = sackbutflare_event(empty, sizeof empty, 2, NULL, 0, NULL, 0, NULL, 0);
    CHECK(r.number == 3 && r.answered == 0 && r.length == 0);
    r = sackbutflare_event(empty, sizeof empty, 1, NULL, 0, NULL, 0, answer, sizeof answer - 1);
    CHECK(r.number == 3 && r.answered == 0 && r.length == 0);
    r = sackbutflare_event(empty, sizeof empty, 3, NULL, 0, NULL, 0, answer, sizeof answer);
    CHECK(r.number == 0 && r.answered == 0 && r.length == 0);
}

static void walks(void)
{
    uint8_t empty[2] = { 1, 0 };
    struct sackbutflare_walked w = sackbutflare_walk(NULL, 0, true, 7, NULL, 0);
    CHECK(w.number == 1 && w.labels == 0 && w.rounds == 0);
    w = sackbutflare_walk(empty, sizeof empty, false, 0, NULL, 0);
    CHECK(w.number == 0 && w.labels == 0 && w.rounds == 1);
}

static void reader(void)
{
    struct sackbutflare_command none, info = { .kind = SACKBUTFLARE_LABEL, .code = 0x2B };
    uint8_t out[64];
    memset(&none, 0, sizeof none);
    CHECK(sackbutflare_write_request(none, NULL, 0, NULL, 0, NULL, 0).number == 3);
    CHECK(sackbutflare_write_request(none, NULL, 0, NULL, 0, out, sizeof out).number == 7);
    struct sackbutflare_written w = sackbutflare_write_request(info, NULL, 0, NULL, 0, out, sizeof out);
    CHECK(w.number == 0 && w.length == 4 && memcmp(out, "\x02\x2B\x26\xA3", 4) == 0);
    CHECK(sackbutflare_read_answer(none, NULL, 0, 0, NULL, 0).number == 7);
    struct sackbutflare_told t = sackbutflare_read_answer(info, NULL, 0, 0, NULL, 0);
    CHECK(t.number == 8 && t.meaning == SACKBUTFLARE_REFUSED && t.uid == 0);
    info.target = 3;
    CHECK(sackbutflare_write_request(info, NULL, 0, NULL, 0, out, sizeof out).number == 7);
}

/* One UID is eight bytes; another target looks at none, however many there are. */
static void uids(void)
{
    static const uint8_t uid[16] = { 1, 2, 3, 4, 5, 6, 7, 0xE0 };
    struct sackbutflare_command info = { .kind = SACKBUTFLARE_LABEL, .code = 0x2B };
    uint8_t out[64], other[64];
    for (size_t n = 0; n <= sizeof uid; n++) {
        struct sackbutflare_written w = sackbutflare_write_request(info, uid, n, NULL, 0, out, sizeof out);
        CHECK(w.number == 0 && w.length == 4 && memcmp(out, "\x02\x2B\x26\xA3", 4) == 0);
    }
    info.target = SACKBUTFLARE_ONE_UID;
    for (size_t n = 0; n <= sizeof uid; n++) {
        memset(out, 0x5A, sizeof out);
        memset(other, 0x5A, sizeof other);
        struct sackbutflare_written w = sackbutflare_write_request(info, uid, n, NULL, 0, out, sizeof out);
        struct sackbutflare_told t = sackbutflare_read_answer(info, uid, n, 0, NULL, 0);
        if (n == 8)
            CHECK(w.number == 0 && w.length == 12 && out[0] == 0x22 && memcmp(out + 2, uid, 8) == 0 && t.number == 8);
        else
            CHECK(w.number == 7 && w.length == 0 && memcmp(out, other, sizeof out) == 0 && t.number == 7);
    }
}

int main(void)
{
    events();
    walks();
    reader();
    uids();
    CHECK(sackbutflare_check_sum(NULL, 0) == 0);
    CHECK(sackbutflare_version() == SACKBUTFLARE_VERSION);
    CHECK(sizeof(struct sackbutflare_command) == 32);
    CHECK(sizeof(struct sackbutflare_told) == 48);
    printf("%d passed, %d failed\n", passed, failed);
    return failed != 0;
}
