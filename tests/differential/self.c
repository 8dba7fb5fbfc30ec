/* self.c - tests of the reference, with expectations written by hand from the
 * paper (document 01, and P1 and P2 of document 02), the published vectors, and
 * the list of traps Q1 to Q69.
 * Check sums in what is expected are either literal or made by the program of
 * appendix A of source 001, never by the reference. */
#include "reference.h"

#include <stdio.h>
#include <stdlib.h>
#include <string.h>

/* ================================================================= the bench */

static int good;                       /* does the running test still pass? */

static void check_at(int line, int right, const char *what)
{
    if (!right) {
        good = 0;
        printf("  line %d: %s\n", line, what);
    }
}
#define CHECK(x) check_at(__LINE__, (x) != 0, #x)

/* Appendix A of 001, as printed there. */
static void update_crc(uint8_t ch, uint16_t *crc)
{
    ch = (uint8_t)(ch ^ (uint8_t)(*crc & 0x00FF));
    ch = (uint8_t)(ch ^ (ch << 4));
    *crc = (uint16_t)((*crc >> 8) ^ ((uint16_t)ch << 8) ^ ((uint16_t)ch << 3) ^ ((uint16_t)ch >> 4));
}

static size_t add_appendix_a(uint8_t *bytes, size_t len)
{
    uint16_t crc = 0xFFFF;
    for (size_t i = 0; i < len; i++)
        update_crc(bytes[i], &crc);
    crc = (uint16_t)~crc;
    bytes[len] = (uint8_t)(crc & 0xFF);
    bytes[len + 1] = (uint8_t)(crc >> 8);
    return len + 2;
}

/* Hex text to bytes; blanks are free. */
static size_t hex(const char *text, uint8_t *bytes)
{
    size_t len = 0;
    for (; *text; text++) {
        if (*text == ' ')
            continue;
        char pair[3] = { text[0], text[1], 0 };
        bytes[len++] = (uint8_t)strtoul(pair, NULL, 16);
        text++;
    }
    return len;
}

/* ---------------------------------------------------------------- a rack */

static uint8_t bodies[64][8480];
static size_t lengths[64];
static uint8_t kinds[64];
static size_t count;

static uint8_t rack[70000];
static uint8_t kept[70000];
static size_t rack_len;

static void begin(void)
{
    count = 0;
}

/* A ready label, DSFID 5D, AFI 30, IC 1C. Block b is 10*b, 10*b+1, ... */
static uint8_t *label(uint64_t uid, unsigned blocks, unsigned size)
{
    uint8_t *body = bodies[count];
    memset(body, 0, sizeof bodies[0]);
    for (int i = 0; i < 8; i++)
        body[i] = (uint8_t)(uid >> (8 * i));
    body[8] = 0x5D;
    body[9] = 0x30;
    body[11] = (uint8_t)(blocks - 1);
    body[12] = (uint8_t)(size - 1);
    body[13] = 0x1C;
    body[14] = 1;
    body[15] = 255;
    for (unsigned b = 0; b < blocks; b++)
        for (unsigned k = 0; k < size; k++)
            body[32 + blocks + b * size + k] = (uint8_t)(16 * b + k);
    lengths[count] = 32 + (size_t)blocks * (1 + size);
    kinds[count++] = 1;
    return body;
}

/* A chip with all bits of all blocks 1, UID D002... */
static uint8_t *chip(uint8_t state, uint8_t id)
{
    uint8_t *body = bodies[count];
    memset(body, 0xFF, 68);
    memcpy(body + 68, "\x11\x22\x33\x44\x55\x06\x02\xD0", 8);
    body[76] = state;
    body[77] = id;
    body[78] = 0;
    body[79] = 0;
    lengths[count] = 80;
    kinds[count++] = 2;
    return body;
}

static void word(uint8_t *at, uint32_t value)
{
    for (int i = 0; i < 4; i++)
        at[i] = (uint8_t)(value >> (8 * i));
}

static uint32_t word_in(const uint8_t *at)
{
    return at[0] | (uint32_t)at[1] << 8 | (uint32_t)at[2] << 16 | (uint32_t)at[3] << 24;
}

static void finish(void)
{
    size_t end = 2 + 8 * count;
    memset(rack, 0, sizeof rack);
    rack[0] = 1;
    rack[1] = (uint8_t)count;
    for (size_t i = 0; i < count; i++) {
        rack[2 + 8 * i] = kinds[i];
        rack[2 + 8 * i + 2] = (uint8_t)lengths[i];
        rack[2 + 8 * i + 3] = (uint8_t)(lengths[i] >> 8);
        word(rack + 2 + 8 * i + 4, (uint32_t)end);
        memcpy(rack + end, bodies[i], lengths[i]);
        end += lengths[i];
    }
    rack_len = end;
    memcpy(kept, rack, sizeof rack);
}

static uint8_t *tag(size_t i)
{
    return rack + word_in(rack + 2 + 8 * i + 4);
}

static void keep(void)
{
    memcpy(kept, rack, sizeof rack);
}

static int unchanged(void)
{
    return memcmp(kept, rack, sizeof rack) == 0;
}

/* How many bytes of the rack differ from the ones kept. */
static size_t changes(void)
{
    size_t n = 0;
    for (size_t i = 0; i < sizeof rack; i++)
        n += kept[i] != rack[i];
    return n;
}

static int well(void)
{
    finish();
    return ref_well_formed(rack, rack_len);
}

/* --------------------------------------------------------------- events */

enum { ANSWER = 8451 };                /* the least that an answer buffer may have */

static uint8_t draws[80];
static uint8_t answer[ANSWER + 50];
static struct ref_report report;

static void event(uint8_t number, const uint8_t *frame, size_t len)
{
    memset(answer, 0xA5, sizeof answer);
    memset(&report, 0xEE, sizeof report);
    int back = ref_event(rack, rack_len, number, frame, len, draws, rack[1], answer, ANSWER, &report);
    CHECK(back == (int)report.number);
}

static void raw(uint8_t number, const char *text)
{
    uint8_t frame[400];
    event(number, frame, hex(text, frame));
}

static void plus(uint8_t number, const char *text)
{
    uint8_t frame[400];
    event(number, frame, add_appendix_a(frame, hex(text, frame)));
}

static void off(void) { event(1, NULL, 0); }
static void on(void) { event(2, NULL, 0); }
static void lab(const char *text) { plus(3, text); }
static void eof(void) { event(4, NULL, 0); }
static void chp(const char *text) { plus(5, text); }

/* Are these bytes of the answer buffer still the ones put there? */
static int untouched_from(size_t from)
{
    for (size_t i = from; i < sizeof answer; i++)
        if (answer[i] != 0xA5)
            return 0;
    return 1;
}

static int heard(uint32_t tags)
{
    return report.number == 0 && report.answered == tags && report.length == 0 && untouched_from(0);
}

#define SILENCE() CHECK(heard(0))
#define COLLISION(n) CHECK(heard(n))

static int answered_bytes(const uint8_t *bytes, size_t len)
{
    return report.number == 0 && report.answered == 1 && report.length == len
        && memcmp(answer, bytes, len) == 0 && untouched_from(len);
}

static int said(const char *text)
{
    uint8_t bytes[100];
    return answered_bytes(bytes, hex(text, bytes));
}

static int said_plus(const char *text)
{
    uint8_t bytes[100];
    return answered_bytes(bytes, add_appendix_a(bytes, hex(text, bytes)));
}

#define SAYS(text) CHECK(said(text))               /* with its check sum written out */
#define SAYS_PLUS(text) CHECK(said_plus(text))     /* check sum by appendix A */
#define DONE() SAYS("00 78 F0")
#define ERROR_01() SAYS("01 01 16 07")
#define ERROR_02() SAYS("01 02 8D 35")
#define ERROR(code) SAYS_PLUS("01 " code)

static int refused(uint32_t number)
{
    return report.number == number && report.answered == 0 && report.length == 0
        && untouched_from(0) && unchanged();
}
#define REFUSED(n) CHECK(refused(n))

/* One label E004010203040506 of 4 blocks of 4 bytes. Its UID as sent is
 * 06 05 04 03 02 01 04 E0. */
#define U "06 05 04 03 02 01 04 E0"
#define OTHER "07 05 04 03 02 01 04 E0"

static uint8_t *one_label(void)
{
    begin();
    return label(0xE004010203040506u, 4, 4);
}

static int state(size_t i) { return tag(i)[14]; }

/* Gives tag i a running slot before finish(). */
static void running(uint8_t *body, uint8_t slot, uint8_t bits, uint64_t mask)
{
    body[15] = slot;
    body[16] = bits;
    for (int i = 0; i < 8; i++)
        body[17 + i] = (uint8_t)(mask >> (8 * i));
}

static int has_slot(size_t i, uint8_t slot, uint8_t bits, uint64_t mask)
{
    const uint8_t *b = tag(i);
    for (int k = 0; k < 8; k++)
        if (b[17 + k] != (uint8_t)(mask >> (8 * k)))
            return 0;
    return b[15] == slot && b[16] == bits;
}

static int no_slot(size_t i) { return has_slot(i, 255, 0, 0); }

/* ----------------------------------------------------------------- walks */

static uint8_t list[600];
static struct ref_walked walked;

static void walk_with(int has_afi, uint8_t afi, size_t list_len)
{
    memset(list, 0xA5, sizeof list);
    memset(&walked, 0xEE, sizeof walked);
    int back = ref_walk(rack, rack_len, has_afi, afi, list, list_len, &walked);
    CHECK(back == (int)walked.number);
}

static void walk(void) { walk_with(0, 0, 8 * (size_t)rack[1]); }

static int list_kept_from(size_t from)
{
    for (size_t i = from; i < sizeof list; i++)
        if (list[i] != 0xA5)
            return 0;
    return 1;
}

static int walk_refused(uint32_t number)
{
    return walked.number == number && walked.labels == 0 && walked.rounds == 0
        && list_kept_from(0) && unchanged();
}

static int walk_gave(uint32_t rounds, uint32_t labels)
{
    return walked.number == 0 && walked.rounds == rounds && walked.labels == labels
        && list_kept_from(8 * (size_t)labels);
}

static int listed(size_t place, uint64_t uid)
{
    for (int i = 0; i < 8; i++)
        if (list[8 * place + (size_t)i] != (uint8_t)(uid >> (8 * i)))
            return 0;
    return 1;
}

/* ---------------------------------------------------------- reader's side */

static uint8_t out[100];
static struct ref_written written;
static struct ref_reading reading;
static const uint8_t uid_sent[8] = { 0x06, 0x05, 0x04, 0x03, 0x02, 0x01, 0x04, 0xE0 };

static struct ref_command label_command(uint16_t code, uint8_t target, uint8_t byte)
{
    struct ref_command c;
    memset(&c, 0, sizeof c);
    c.kind = 1;
    c.code = code;
    c.target = target;
    c.byte = byte;
    return c;
}

/* 23 or 2C: so many blocks behind the first. */
static struct ref_command many(uint16_t code, uint8_t target, uint8_t first, uint8_t more)
{
    struct ref_command c = label_command(code, target, first);
    c.more = more;
    return c;
}

static struct ref_command inventory(uint8_t sixteen, uint8_t bits, uint64_t mask)
{
    struct ref_command c = label_command(0x01, 0, 0);
    c.sixteen = sixteen;
    c.mask_bits = bits;
    c.mask = mask;
    return c;
}

static struct ref_command chip_command(uint16_t code, uint8_t byte)
{
    struct ref_command c = label_command(code, 0, byte);
    c.kind = 2;
    return c;
}

static struct ref_command with_option(struct ref_command c)
{
    c.option = 1;
    return c;
}

static struct ref_command with_afi(struct ref_command c, uint8_t afi)
{
    c.afi_present = 1;
    c.afi = afi;
    return c;
}

static int out_kept_from(size_t from)
{
    for (size_t i = from; i < sizeof out; i++)
        if (out[i] != 0xA5)
            return 0;
    return 1;
}

static uint32_t write_with(struct ref_command c, const char *data, size_t out_len)
{
    uint8_t bytes[100];
    size_t len = hex(data, bytes);
    memset(out, 0xA5, sizeof out);
    memset(&written, 0xEE, sizeof written);
    int back = ref_write_request(&c, uid_sent, bytes, len, out, out_len, &written);
    CHECK(back == (int)written.number);
    CHECK(back == 0 || (written.length == 0 && out_kept_from(0)));
    return written.number;
}

static int wrote_bytes(const uint8_t *bytes, size_t len)
{
    return written.number == 0 && written.length == len && memcmp(out, bytes, len) == 0
        && out_kept_from(len);
}

static int writes(struct ref_command c, const char *data, const char *text)
{
    uint8_t bytes[100];
    write_with(c, data, 64);
    return wrote_bytes(bytes, hex(text, bytes));
}

static int writes_plus(struct ref_command c, const char *data, const char *text)
{
    uint8_t bytes[100];
    write_with(c, data, 64);
    return wrote_bytes(bytes, add_appendix_a(bytes, hex(text, bytes)));
}

static int not_a_request(struct ref_command c, const char *data)
{
    return write_with(c, data, 64) == 7;
}

static int all_zero_but_number(void)
{
    static const uint8_t zeros[8];
    return reading.meaning == 0 && reading.error == 0 && reading.dsfid == 0 && reading.afi == 0
        && reading.blocks == 0 && reading.size == 0 && reading.ic == 0 && reading.lock == 0
        && reading.place == 0 && reading.length == 0 && reading.count == 0
        && reading.chip_id == 0 && reading.word == 0 && memcmp(reading.uid, zeros, 8) == 0;
}

static uint32_t read_frame(struct ref_command c, size_t data_len, const uint8_t *frame, size_t len)
{
    memset(&reading, 0xEE, sizeof reading);
    int back = ref_read_answer(&c, uid_sent, data_len, frame, len, &reading);
    CHECK(back == (int)reading.number);
    CHECK(back == 0 || all_zero_but_number());
    return reading.number;
}

/* Reads these bytes with a right check sum; 21 was sent with 4 bytes of data. */
static uint32_t reads(struct ref_command c, const char *text)
{
    uint8_t bytes[400];
    return read_frame(c, 4, bytes, add_appendix_a(bytes, hex(text, bytes)));
}

static uint32_t reads_raw(struct ref_command c, const char *text)
{
    uint8_t bytes[400];
    return read_frame(c, 4, bytes, hex(text, bytes));
}

/* ================================================= check sum, C2, C3 and C4 */

static int sum_is(const char *text, uint16_t sum)
{
    uint8_t bytes[100];
    size_t len = hex(text, bytes);
    return ref_check_sum(bytes, len) == sum;
}

static void a_sum_of_no_bytes(void)
{
    CHECK(ref_check_sum(NULL, 0) == 0x0000);
}

static void c2_published_sums(void)
{
    CHECK(sum_is("", 0x0000));
    CHECK(sum_is("01 02 03 04", 0x3991));
    CHECK(sum_is("22 20 01 23 45 67 89 AB 04 E0 0B", 0xBAE3));
    CHECK(sum_is("0A 12 34 56", 0xF62C));
    CHECK(sum_is("00 00 00", 0xC6CC));
    CHECK(sum_is("0F AA FF", 0xD1FC));
    CHECK(sum_is("31 32 33 34 35 36 37 38 39", 0x906E));
}

static void c2_residue_f0b8(void)
{
    static const char *whole[] = { "00 00", "01 02 03 04 91 39", "0A 12 34 56 2C F6",
        "22 20 01 23 45 67 89 AB 04 E0 0B E3 BA", "00 00 00 CC C6", "0F AA FF FC D1", "00 78 F0" };
    for (size_t i = 0; i < sizeof whole / sizeof whole[0]; i++) {
        uint8_t bytes[100];
        size_t len = hex(whole[i], bytes);
        CHECK(ref_check_run(bytes, len) == 0xF0B8);
        CHECK(ref_check_right(bytes, len));
        bytes[0] ^= 1;
        CHECK(!ref_check_right(bytes, len));
    }
}

static void c4_handy_frames(void)
{
    static const char *whole[] = { "26 01 00 F6 0A", "06 01 00 CD 09", "00 78 F0", "01 01 16 07",
        "01 02 8D 35", "02 2B 26 A3", "06 00 97 5B", "06 04 B3 1D", "0B AB 4E", "0C 14 3A",
        "0F 8F 08" };
    for (size_t i = 0; i < sizeof whole / sizeof whole[0]; i++) {
        uint8_t bytes[100];
        size_t len = hex(whole[i], bytes);
        CHECK(ref_check_right(bytes, len));
    }
}

static void appendix_a_agrees_on_many_bytes(void)
{
    uint8_t bytes[302];
    for (size_t len = 0; len <= 300; len++) {
        for (size_t i = 0; i < len; i++)
            bytes[i] = (uint8_t)(i * 37 + len * 11);
        add_appendix_a(bytes, len);
        CHECK(ref_check_right(bytes, len + 2));
    }
}

static void sum_low_byte_first(void)
{
    uint8_t right[] = { 0x0F, 0x8F, 0x08 }, swapped[] = { 0x0F, 0x08, 0x8F };
    CHECK(ref_check_right(right, 3) && !ref_check_right(swapped, 3));
    CHECK(!ref_check_right(NULL, 0) && !ref_check_right(right, 1));
}

/* ======================================================= marked examples b-l */

static void b_slot_2_answers_slot_1_not(void)
{
    begin();
    label(0xE00000000000002Au, 1, 1);
    finish();
    lab("06 01 04 0A");
    SILENCE();                                           /* slot 0 */
    eof();
    SILENCE();                                           /* slot 1 */
    eof();
    SAYS_PLUS("00 5D 2A 00 00 00 00 00 00 E0");          /* slot 2 */
    eof();
    SILENCE();
}

/* Writes w over o in block a of a selected chip; gives the block after. */
static uint32_t over(uint8_t a, uint32_t o, uint32_t w, int reload)
{
    char text[40];
    begin();
    uint8_t *body = chip(3, 0x40);
    word(a == 255 ? body + 64 : body + 4 * a, o);
    body[78] = (uint8_t)reload;
    finish();
    snprintf(text, sizeof text, "09 %02X %02X %02X %02X %02X", (unsigned)a, (unsigned)(w & 255),
             (unsigned)(w >> 8 & 255), (unsigned)(w >> 16 & 255), (unsigned)(w >> 24));
    chp(text);
    SILENCE();
    return word_in(a == 255 ? tag(0) + 64 : tag(0) + 4 * a);
}

static void c_without_reload_bits_only_fall(void)
{
    for (uint8_t a = 0; a <= 4; a++)
        CHECK(over(a, 0xFFFF00FF, 0xF0F0F0F0, 0) == 0xF0F000F0);
}

static void d_with_reload_the_word_is_written(void)
{
    for (uint8_t a = 0; a <= 4; a++)
        CHECK(over(a, 0xFFFF00FF, 0xF0F0F0F0, 1) == 0xF0F0F0F0);
}

static void e_counter_equal(void) { CHECK(over(5, 5, 5, 0) == 5 && over(6, 5, 5, 0) == 5); }
static void f_counter_lower(void) { CHECK(over(5, 5, 4, 0) == 4 && over(6, 5, 4, 0) == 4); }
static void g_counter_higher(void) { CHECK(over(5, 5, 6, 0) == 5 && over(6, 5, 6, 0) == 5); }

static void h_reload_set_by_block_6(void)
{
    CHECK(over(6, 0x00200000, 0x001FFFFF, 0) == 0x001FFFFF);
    CHECK(tag(0)[78] == 1);
}

static void i_reload_stays_off(void)
{
    CHECK(over(6, 0x001FFFFF, 0x001FFFFE, 0) == 0x001FFFFE);
    CHECK(tag(0)[78] == 0);
}

static void j_block_255(void)
{
    CHECK(over(255, 0xFFFF0000, 0xFF7FFFFF, 0) == 0xFF7F0000);
    chp("09 07 00 00 00 00");                            /* block 7 is locked */
    CHECK(word_in(tag(0) + 28) == 0xFFFFFFFF);
    chp("09 08 00 00 00 00");                            /* block 8 is not */
    CHECK(word_in(tag(0) + 32) == 0);
}

static void k_apart_in_the_top_four_bits(void)
{
    begin();
    label(0xE123456789ABCDEFu, 1, 1);
    label(0xD123456789ABCDEFu, 1, 1);
    finish();
    walk();
    CHECK(walk_gave(16, 2));
    CHECK(listed(0, 0xD123456789ABCDEFu) && listed(1, 0xE123456789ABCDEFu));
    CHECK(unchanged());
}

static void l_no_label(void)
{
    begin();
    finish();
    CHECK(rack_len == 2);                                /* 01 00 is the whole empty rack */
    walk();
    CHECK(walk_gave(1, 0));
    begin();
    chip(1, 7);
    finish();
    walk();
    CHECK(walk_gave(1, 0) && unchanged());
}

static void walk_example(void)
{
    char text[200], line[40];
    begin();
    label(0xE000000000000011u, 1, 1);
    label(0xE000000000000012u, 1, 1);
    label(0xE000000000000021u, 1, 1);
    finish();
    walk();
    CHECK(walked.number == 0 && walked.labels == 3);
    snprintf(text, sizeof text, "rounds %u\n", (unsigned)walked.rounds);
    for (size_t i = 0; i < 3; i++) {
        const uint8_t *u = list + 8 * i;
        snprintf(line, sizeof line, "%02X%02X%02X%02X%02X%02X%02X%02X\n", u[7], u[6], u[5], u[4],
                 u[3], u[2], u[1], u[0]);
        strcat(text, line);
    }
    CHECK(strcmp(text, "rounds 2\nE000000000000012\nE000000000000011\nE000000000000021\n") == 0);
    CHECK(unchanged());
}

/* ============================================ rack file and refusals, Q1-Q15 */

static void q1_lowest_number_wins(void)
{
    one_label();
    finish();
    memset(answer, 0xA5, sizeof answer);
    ref_event(rack, rack_len, 9, NULL, 0, draws, 1, answer, ANSWER - 1, &report);
    REFUSED(3);
    ref_event(rack, rack_len, 0, NULL, 0, draws, 1, answer, ANSWER, &report);
    REFUSED(4);
    ref_event(rack, rack_len, 6, NULL, 0, draws, 1, NULL, 0, &report);
    REFUSED(3);
    ref_event(rack, rack_len, 9, NULL, 0, draws, 2, answer, ANSWER - 1, &report);
    REFUSED(2);
    ref_event(rack, rack_len - 1, 9, NULL, 0, draws, 2, answer, ANSWER - 1, &report);
    REFUSED(1);
    CHECK(write_with(label_command(0x24, 0, 0), "", 63) == 3);
    CHECK(write_with(label_command(0x24, 0, 0), "", 64) == 7);
    CHECK(write_with(label_command(0x2B, 0, 0), "", 63) == 3);
}

static void q2_n_counts_all_tags(void)
{
    begin();
    for (int i = 0; i < 64; i++)
        chip(1, 1);
    finish();
    walk_with(0, 0, 511);
    CHECK(walk_refused(5));
    walk_with(0, 0, 512);
    CHECK(walk_gave(1, 0));
    memset(answer, 0xA5, sizeof answer);
    ref_event(rack, rack_len, 2, NULL, 0, NULL, 0, answer, ANSWER, &report);
    REFUSED(2);
}

static void q3_twins_refused_whatever_their_afi(void)
{
    begin();
    label(5, 1, 1)[9] = 0x30;
    label(5, 1, 1)[9] = 0x31;
    finish();
    walk_with(1, 0x77, 16);
    CHECK(walk_refused(6));
    begin();
    label(5, 1, 1)[14] = 3;
    label(5, 1, 1)[14] = 2;
    label(5, 1, 1)[14] = 0;
    finish();
    walk();
    CHECK(walk_gave(1, 1) && listed(0, 5));
    begin();
    label(5, 1, 1)[14] = 3;
    label(5, 1, 1)[14] = 1;
    finish();
    walk();
    CHECK(walk_refused(6));
}

static void q4_5_before_6_and_events_take_twins(void)
{
    begin();
    label(5, 1, 1);
    label(5, 1, 1);
    finish();
    walk_with(0, 0, 15);
    CHECK(walk_refused(5));
    lab("26 01 00");
    COLLISION(2);
}

/* 9 labels, 65,536 bytes: 74 of contents, 7 of 8,480, one of 32 + 180*33 and
 * one of 32 + 49*2. */
static void biggest_rack(void)
{
    begin();
    for (unsigned i = 0; i < 7; i++)
        label(i, 256, 32);
    label(7, 180, 32);
    label(8, 49, 1);
    finish();
}

static void q5_exact_sizes_are_taken(void)
{
    biggest_rack();
    CHECK(rack_len == 65536 && ref_well_formed(rack, rack_len));
    CHECK(!ref_well_formed(rack, 65537));
    on();
    SILENCE();
    CHECK(unchanged());
    walk_with(0, 0, 72);
    CHECK(walk_gave(1, 9));
    walk_with(0, 0, 71);
    CHECK(walk_refused(5));
    rack_len = 65537;
    on();
    REFUSED(1);
}

static void q6_nothing_after_the_last(void)
{
    one_label();
    finish();
    CHECK(ref_well_formed(rack, rack_len) && !ref_well_formed(rack, rack_len + 1));
    uint8_t empty[3] = { 1, 0, 0 };
    CHECK(ref_well_formed(empty, 2) && !ref_well_formed(empty, 3) && !ref_well_formed(empty, 1));
    CHECK(!ref_well_formed(NULL, 0));
}

static void q7_odd_but_legal_slots(void)
{
    begin();
    running(label(0x1234, 1, 1), 3, 8, 0xFF);            /* not the end of its UID */
    running(label(0x5678, 1, 1), 6, 4, 0x8);             /* slot 7 will be its own */
    uint8_t *third = label(0x9ABC, 1, 1);
    running(third, 15, 60, 0x9ABC);
    third[14] = 3;
    CHECK(well());
    eof();
    SAYS_PLUS("00 5D 78 56 00 00 00 00 00 00");
    CHECK(has_slot(0, 4, 8, 0xFF) && has_slot(1, 7, 4, 8) && no_slot(2) && state(2) == 3);
}

static void q8_slots_and_masks(void)
{
    running(one_label(), 255, 1, 0);
    CHECK(!well());
    running(bodies[0], 255, 0, 1);
    CHECK(!well());
    running(bodies[0], 0, 0, 0);
    CHECK(well());
    running(bodies[0], 0, 0, 1);
    CHECK(!well());
    running(bodies[0], 5, 60, 0x0FFFFFFFFFFFFFFFu);
    CHECK(well());
    running(bodies[0], 5, 60, 0x1000000000000000u);
    CHECK(!well());
    running(bodies[0], 5, 61, 0);
    CHECK(!well());
    running(bodies[0], 5, 5, 0x1F);
    CHECK(well());
    running(bodies[0], 5, 5, 0x20);
    CHECK(!well());
    running(bodies[0], 16, 0, 0);
    CHECK(!well());
    running(bodies[0], 15, 0, 0);
    CHECK(well());
    bodies[0][14] = 3;
    CHECK(well());
    bodies[0][14] = 2;
    CHECK(!well());
    bodies[0][14] = 0;
    CHECK(!well());
}

static void q8_other_label_rules(void)
{
    uint8_t *b = one_label();
    CHECK(well());
    for (int locks = 0; locks < 256; locks++) {
        b[10] = (uint8_t)locks;
        CHECK(well() == (locks <= 3));
    }
    b[10] = 0;
    for (int i = 25; i < 32; i++) {
        b[i] = 1;
        CHECK(!well());
        b[i] = 0;
    }
    for (int s = 0; s < 256; s++) {
        b[14] = (uint8_t)s;
        CHECK(well() == (s <= 3));
    }
    b[14] = 1;
    b[35] = 1;
    CHECK(well());
    b[35] = 2;
    CHECK(!well());
    b[35] = 0;
    b[11] = 4;
    CHECK(!well());
    b[11] = 3;
    b[12] = 4;
    CHECK(!well());
    begin();
    label(1, 2, 32);
    CHECK(well());
    begin();
    label(1, 2, 33);
    CHECK(!well());
    begin();
    label(1, 256, 32);
    CHECK(well() && lengths[0] == 8480);
}

static void q8_contents_rules(void)
{
    begin();
    label(1, 1, 1);
    chip(0, 0);
    CHECK(well());
    for (size_t i = 0; i < 18; i++) {                    /* every byte of the contents counts */
        rack[i] ^= 1;
        CHECK(!ref_well_formed(rack, rack_len));
        rack[i] ^= 1;
    }
    for (size_t cut = 0; cut < rack_len; cut++)
        CHECK(!ref_well_formed(rack, cut));
    for (size_t len = 0; len < 200; len++) {             /* bodies of another length */
        lengths[1] = len;
        CHECK(well() == (len == 80));
    }
    lengths[1] = 80;
    for (size_t len = 0; len < 200; len++) {
        lengths[0] = len;
        CHECK(well() == (len == 34));
    }
    lengths[0] = 34;
    finish();
    rack[2] = 3;
    CHECK(!ref_well_formed(rack, rack_len));
    begin();
    for (int i = 0; i < 64; i++)
        chip(0, 0);
    CHECK(well());
    rack[1] = 65;
    CHECK(!ref_well_formed(rack, rack_len));
}

static void q9_chip_rules(void)
{
    begin();
    uint8_t *b = chip(0, 0);
    CHECK(well());
    b[79] = 1;                                           /* option, off: id still 0 */
    CHECK(well());
    b[77] = 0xFF;
    CHECK(!well());                                      /* though byte 64 is FF */
    for (int s = 1; s <= 5; s++) {
        b[76] = (uint8_t)s;
        b[77] = 0xFF;
        CHECK(well());
        b[77] = 0xFE;
        CHECK(!well());
    }
    b[79] = 0;
    CHECK(well());
    b[76] = 6;
    CHECK(!well());
    b[76] = 3;
    b[78] = 1;
    CHECK(well());
    b[78] = 2;
    CHECK(!well());
    b[78] = 1;
    b[76] = 4;
    CHECK(!well());
    b[78] = 0;
    b[79] = 2;
    CHECK(!well());
    b[77] = 0xFF;
    CHECK(!well());
    b[79] = 1;
    CHECK(well());
}

static void q10_no_more_rules(void)
{
    begin();
    label(0, 1, 1)[13] = 0xFF;
    label(0xFFFFFFFFFFFFFFFFu, 1, 1);
    uint8_t *b = chip(1, 0x80);
    memset(b, 0, 76);
    b[65] = 0x80;                                        /* bit 15 of block 255 */
    CHECK(well());
}

static void q11_several_answers_leave_the_buffer(void)
{
    begin();
    label(1, 1, 4);
    label(2, 1, 4);
    finish();
    lab("02 21 00 DE AD BE EF");
    COLLISION(2);                                        /* and yet both are written */
    CHECK(memcmp(tag(0) + 33, "\xDE\xAD\xBE\xEF", 4) == 0);
    CHECK(memcmp(tag(1) + 33, "\xDE\xAD\xBE\xEF", 4) == 0);
    lab("02 20 09");
    COLLISION(2);                                        /* two error frames */
    begin();
    chip(1, 1);
    chip(1, 1);
    finish();
    draws[0] = draws[1] = 0x33;
    chp("06 00");
    COLLISION(2);                                        /* two equal frames */
    CHECK(tag(0)[76] == 2 && tag(1)[76] == 2 && tag(0)[77] == 0x33);
}

static void q12_refusals_change_nothing(void)
{
    begin();
    running(label(5, 1, 1), 2, 0, 0);
    running(label(5, 1, 1), 9, 0, 0);
    finish();
    walk();
    CHECK(walk_refused(6));                              /* slots still run */
    rack_len++;
    walk_with(0, 0, 600);
    CHECK(walk_refused(1));
    walk_with(0, 0, 0);
    CHECK(walk_refused(1));
}

static void q13_draw_of_the_entry(void)
{
    begin();
    label(1, 1, 1);
    chip(0, 0);
    label(2, 1, 1);
    chip(0, 0);
    finish();
    draws[0] = 0x11;
    draws[1] = 0x22;
    draws[2] = 0x33;
    draws[3] = 0x44;
    on();
    SILENCE();
    CHECK(tag(1)[77] == 0x22 && tag(3)[77] == 0x44);
}

static uint8_t huge[70000];

static void q14_frames_of_any_length(void)
{
    one_label();
    finish();
    raw(1, "FF FF FF");
    SILENCE();
    CHECK(state(0) == 0);
    raw(2, "01 02 03 04 05");
    CHECK(state(0) == 1);
    keep();
    raw(4, "26 01 00 F6 0A");
    SILENCE();
    CHECK(unchanged());
    memset(huge, 0, sizeof huge);
    hex("22 20 " U, huge);
    add_appendix_a(huge, sizeof huge - 2);
    event(3, huge, sizeof huge);
    ERROR_02();
    huge[1] = 0x77;
    add_appendix_a(huge, sizeof huge - 2);
    event(3, huge, sizeof huge);
    ERROR_01();
    event(5, huge, sizeof huge);
    SILENCE();
}

static void q15_rounds_counted_from_the_uids(void)
{
    begin();
    label(0x0000000000000111u, 1, 1);
    label(0x0000000000000211u, 1, 1);
    label(0x0000000000001222u, 1, 1);
    label(0x0000000000002222u, 1, 1);
    label(0x0000000000000003u, 1, 1);
    finish();
    walk();
    /* 4 bits: 1, 2; 8 bits: 11, 22; 12 bits: 222; then apart: five endings. */
    CHECK(walk_gave(6, 5));
    CHECK(listed(0, 0x3) && listed(1, 0x111) && listed(2, 0x211));
    CHECK(listed(3, 0x1222) && listed(4, 0x2222));
}

/* ========================================================= field, Q16 to Q18 */

static void q16_off_clears_slot_length_and_mask(void)
{
    running(one_label(), 7, 12, 0x506);
    bodies[0][14] = 3;
    label(9, 1, 1)[14] = 2;
    uint8_t *c = chip(3, 0x40);
    c[78] = 1;
    chip(5, 0x41);
    finish();
    off();
    SILENCE();
    CHECK(state(0) == 0 && no_slot(0) && state(1) == 0 && no_slot(1));
    CHECK(tag(2)[76] == 0 && tag(2)[77] == 0 && tag(2)[78] == 0);
    CHECK(tag(3)[76] == 0 && tag(3)[77] == 0 && tag(3)[78] == 0);
    CHECK(ref_well_formed(rack, rack_len));
}

static void q17_on_leaves_those_that_are_on(void)
{
    running(one_label(), 7, 12, 0x506);
    label(9, 1, 1)[14] = 2;
    chip(4, 0x41);
    chip(1, 0x42);
    finish();
    memset(draws, 0x99, sizeof draws);
    on();
    SILENCE();
    CHECK(unchanged());
}

static void q17_on_wakes_those_that_are_off(void)
{
    one_label()[14] = 0;
    chip(0, 0);
    chip(0, 0)[79] = 1;
    bodies[2][64] = 0x5A;
    finish();
    memset(draws, 0x99, sizeof draws);
    on();
    SILENCE();
    CHECK(state(0) == 1 && tag(1)[76] == 1 && tag(1)[77] == 0x99);
    CHECK(tag(2)[76] == 1 && tag(2)[77] == 0x5A);
}

static void q18_off_tags_ignore_the_rest(void)
{
    one_label()[14] = 0;
    chip(0, 0);
    finish();
    lab("26 01 00");
    SILENCE();
    lab("22 2B " U);
    SILENCE();
    lab("02 26");
    SILENCE();
    eof();
    SILENCE();
    chp("06 00");
    SILENCE();
    chp("0E 00");                                        /* its Chip_ID is 0, but it is off */
    SILENCE();
    CHECK(unchanged());
}

static void labels_ignore_5_chips_ignore_3_and_4(void)
{
    running(one_label(), 7, 0, 0);
    chip(3, 0x40);
    chip(2, 0x20);
    finish();
    plus(5, "26 01 00");
    SILENCE();
    CHECK(unchanged());
    plus(3, "0B");
    SILENCE();
    plus(3, "06 04");
    SILENCE();
    CHECK(tag(1)[76] == 3 && tag(2)[77] == 0x20);
}

/* ================================================= slot sequence, Q19 to Q29 */

static void slot_ended_by(uint8_t number, const char *text)
{
    running(one_label(), 7, 0, 0);
    finish();
    raw(number, text);
    SILENCE();
    CHECK(no_slot(0) && state(0) == 1);
}

static void q19_any_label_frame_ends_the_sequence(void)
{
    slot_ended_by(3, "");
    slot_ended_by(3, "26");
    slot_ended_by(3, "26 01");
    slot_ended_by(3, "00 00");
    slot_ended_by(3, "26 01 00 F6 0B");                  /* wrong check sum */
    running(one_label(), 7, 0, 0);
    finish();
    lab("0A 2B");                                        /* bit 3 */
    SILENCE();
    CHECK(no_slot(0));
    running(one_label(), 7, 0, 0);
    finish();
    lab("82 2B");                                        /* bit 7 */
    SILENCE();
    CHECK(no_slot(0));
    running(one_label(), 7, 0, 0);
    finish();
    lab("22 2B " OTHER);
    SILENCE();
    CHECK(no_slot(0));
    running(one_label(), 7, 0, 0);
    finish();
    chp("0F");                                           /* a chip frame does not */
    CHECK(unchanged());
    eof();
    CHECK(has_slot(0, 8, 0, 0));
}

static void q20_failed_inventory_ends_and_starts_none(void)
{
    static const char *frames[] = {
        "16 01 31 00",                                   /* AFI fails */
        "06 01 08",                                      /* mask byte missing */
        "06 01 00 00",                                   /* one byte too many */
        "46 01 00",                                      /* Option */
        "06 02 00",                                      /* other command */
        "26 01 08 99"                                    /* one slot, does not fit */
    };
    for (size_t i = 0; i < sizeof frames / sizeof frames[0]; i++) {
        running(one_label(), 7, 8, 0x06);
        finish();
        lab(frames[i]);
        SILENCE();
        CHECK(no_slot(0));
    }
    running(one_label(), 7, 8, 0x06);
    finish();
    lab("26 01 00");
    SAYS_PLUS("00 5D " U);
    CHECK(no_slot(0));
}

static void q21_filter_is_the_afi_alone(void)
{
    one_label();
    finish();
    lab("06 01 08 99");                                  /* its UID ends in 06 */
    SILENCE();
    CHECK(has_slot(0, 0, 8, 0x99));
    for (int i = 1; i <= 15; i++) {
        eof();
        SILENCE();
        CHECK(has_slot(0, (uint8_t)i, 8, 0x99));
    }
}

static void q22_spare_bits_not_stored(void)
{
    one_label();
    finish();
    lab("06 01 04 FA");
    SILENCE();
    CHECK(has_slot(0, 0, 4, 0x0A));
    lab("06 01 3C FF FF FF FF FF FF FF FF");
    CHECK(has_slot(0, 0, 60, 0x0FFFFFFFFFFFFFFFu));
    CHECK(ref_well_formed(rack, rack_len));
    lab("26 01 04 F6");                                  /* spare bits ignored */
    SAYS_PLUS("00 5D " U);
}

static void q23_sixteen_chances_and_a_clean_end(void)
{
    for (unsigned mine = 0; mine < 16; mine++) {
        begin();
        label(0xE0000000000000F0u | mine, 1, 1);
        finish();
        lab("06 01 00");
        for (unsigned slot = 0; slot < 16; slot++) {
            CHECK(report.answered == (slot == mine));
            CHECK(has_slot(0, (uint8_t)slot, 0, 0));
            eof();
        }
        SILENCE();                                       /* the sixteenth end of frame */
        CHECK(no_slot(0));
        eof();
        SILENCE();
        CHECK(unchanged());
    }
}

static void q24_end_of_frame_with_nothing_running(void)
{
    one_label();
    label(9, 1, 1)[14] = 2;
    label(8, 1, 1)[14] = 3;
    finish();
    eof();
    SILENCE();
    CHECK(unchanged());
}

static void q25_slot_right_above_the_mask(void)
{
    begin();
    label((uint64_t)0x13 | 9u << 5, 1, 1);               /* mask 10011, then slot 9 */
    finish();
    lab("06 01 05 13");
    for (unsigned slot = 0; slot < 16; slot++) {
        CHECK(report.answered == (slot == 9));
        eof();
    }
    begin();                                             /* straddles a byte: 7 bits, slot 1101 */
    label((uint64_t)0x55 | 13u << 7, 1, 1);
    finish();
    lab("06 01 07 D5");
    for (unsigned slot = 0; slot < 16; slot++) {
        CHECK(report.answered == (slot == 13));
        eof();
    }
}

static void q25_mask_of_60_bits_takes_its_slot(void)
{
    begin();
    label(0xE123456789ABCDEFu, 1, 1);
    label(0x6123456789ABCDEFu, 1, 1);
    finish();
    lab("06 01 3C EF CD AB 89 67 45 23 F1");
    for (unsigned slot = 0; slot < 16; slot++) {
        CHECK(report.answered == (slot == 0xE || slot == 6));
        eof();
    }
}

static void q26_mask_lengths(void)
{
    one_label();
    finish();
    raw(3, "26 01 00 F6 0A");
    SAYS_PLUS("00 5D " U);
    raw(3, "06 01 00 CD 09");
    CHECK(has_slot(0, 0, 0, 0));
    lab("36 01 30 00");
    SAYS_PLUS("00 5D " U);
    lab("26 01 40 " U);                                  /* 64 bits */
    SAYS_PLUS("00 5D " U);
    lab("26 01 40 " OTHER);
    SILENCE();
    lab("26 01 3F 06 05 04 03 02 01 04 60");             /* 63 bits, top one spare */
    SAYS_PLUS("00 5D " U);
    lab("26 01 3D 06 05 04 03 02 01 04 E0");             /* 61 bits */
    SAYS_PLUS("00 5D " U);
    lab("06 01 3C 06 05 04 03 02 01 04 F0");             /* sixteen, 60 bits */
    CHECK(has_slot(0, 0, 60, 0x0004010203040506u));
    lab("06 01 3D 06 05 04 03 02 01 04 E0");             /* sixteen, 61 */
    SILENCE();
    CHECK(no_slot(0));
    lab("06 01 40 " U);
    SILENCE();
    CHECK(no_slot(0));
    lab("26 01 41 " U " 00");                            /* one slot, 65 */
    SILENCE();
    lab("26 01 FF " U U U U);                            /* 255 bits in 32 bytes */
    SILENCE();
}

static void q27_too_few_bytes(void)
{
    one_label();
    finish();
    lab("16 01 30");
    SILENCE();
    lab("36 01 00");
    SILENCE();
    lab("06 01");
    SILENCE();
    lab("26 01");
    SILENCE();
    lab("26 01 09 06");
    SILENCE();
    lab("26 01 08 06 05");
    SILENCE();
    CHECK(unchanged());
}

static void q28_selected_takes_part_quiet_not(void)
{
    one_label()[14] = 3;
    finish();
    lab("06 01 04 06");
    SAYS_PLUS("00 5D " U);                               /* slot 0: the next half is 0 */
    CHECK(state(0) == 3 && has_slot(0, 0, 4, 6));
    one_label()[14] = 2;
    finish();
    lab("06 01 04 06");
    SILENCE();
    lab("26 01 00");
    SILENCE();
    eof();
    SILENCE();
    CHECK(unchanged());
}

static void q29_inventory_flag_with_other_commands(void)
{
    one_label();
    finish();
    lab("06 2B");
    SILENCE();
    lab("26 20 00");
    SILENCE();
    lab("26 25 " U);
    SILENCE();
    lab("26 02 " U);
    SILENCE();
    lab("06 99");
    SILENCE();
    CHECK(unchanged());
}

static void inventory_afi_filter(void)
{
    one_label();
    finish();
    lab("36 01 30 00");
    SAYS_PLUS("00 5D " U);
    lab("36 01 00 00");
    SAYS_PLUS("00 5D " U);
    lab("36 01 31 00");
    SILENCE();
    lab("36 01 3F 00");
    SILENCE();
}

/* Asked on the left, marked on the right: table 1, row by row. */
static void p1_table_1(void)
{
    static const struct {
        uint8_t asked, marked;
        int answers;
    } rows[] = {
        { 0x00, 0x00, 1 }, { 0x00, 0x30, 1 }, { 0x00, 0x05, 1 }, { 0x00, 0xFF, 1 },   /* 00: all */
        { 0x30, 0x30, 1 }, { 0x30, 0x31, 1 }, { 0x30, 0x3F, 1 },                      /* X0: all of X */
        { 0x30, 0x00, 0 }, { 0x30, 0x03, 0 }, { 0x30, 0x40, 0 }, { 0x30, 0x20, 0 },
        { 0xF0, 0xFF, 1 }, { 0xF0, 0x0F, 0 }, { 0x10, 0x01, 0 }, { 0x10, 0x1A, 1 },
        { 0x31, 0x31, 1 }, { 0x31, 0x30, 0 }, { 0x31, 0x32, 0 }, { 0x31, 0x01, 0 },   /* XY: that one only */
        { 0x31, 0x00, 0 }, { 0x31, 0x41, 0 },
        { 0x05, 0x05, 1 }, { 0x05, 0x00, 0 }, { 0x05, 0x35, 0 }, { 0x05, 0x50, 0 },   /* 0Y: that one only */
        { 0x05, 0x0F, 0 }
    };
    for (size_t i = 0; i < sizeof rows / sizeof rows[0]; i++) {
        char frame[12];
        one_label()[9] = rows[i].marked;
        finish();
        sprintf(frame, "36 01 %02X 00", rows[i].asked);
        lab(frame);
        if (rows[i].answers)
            SAYS_PLUS("00 5D " U);
        else
            SILENCE();
        uint8_t *body = one_label();
        body[9] = rows[i].marked;
        running(body, 7, 8, 0x06);
        finish();
        sprintf(frame, "16 01 %02X 00", rows[i].asked);
        lab(frame);                                      /* a label shut out loses its slot */
        CHECK(rows[i].answers ? has_slot(0, 0, 0, 0) : no_slot(0));
    }
}

static void p1_walk_of_a_family(void)
{
    static const uint8_t marks[] = { 0x30, 0x31, 0x3F, 0x00, 0x40, 0x03 };
    begin();
    for (unsigned i = 0; i < 6; i++)
        label(0x11 + 0x10 * i, 1, 1)[9] = marks[i];
    finish();
    walk_with(1, 0x30, 48);
    CHECK(walk_gave(2, 3) && listed(0, 0x11) && listed(1, 0x21) && listed(2, 0x31));
    walk_with(1, 0x31, 48);
    CHECK(walk_gave(1, 1) && listed(0, 0x21));
    walk_with(1, 0x03, 48);
    CHECK(walk_gave(1, 1) && listed(0, 0x61));
    walk_with(1, 0x50, 48);
    CHECK(walk_gave(1, 0));
    walk_with(1, 0x00, 48);
    CHECK(walk_gave(2, 6));
}

static void flag_bits_0_and_1_are_ignored(void)
{
    one_label();
    finish();
    lab("24 01 00");
    SAYS_PLUS("00 5D " U);
    lab("25 01 00");
    SAYS_PLUS("00 5D " U);
    lab("27 01 00");
    SAYS_PLUS("00 5D " U);
    lab("01 26");
    DONE();
    lab("00 26");
    DONE();
    lab("03 26");
    DONE();
}

/* ====================================================== who acts, Q30 to Q40 */

static void q30_select_and_address_both(void)
{
    one_label()[14] = 3;
    finish();
    lab("32 2B " U);
    SILENCE();
    lab("32 02 " U);
    SILENCE();
    lab("32 25 " OTHER);
    SILENCE();
    lab("32 25 " U);
    SILENCE();
    lab("32 77 " U);
    SILENCE();
    CHECK(unchanged());
}

static void q31_address_under_12_bytes(void)
{
    one_label()[14] = 3;
    finish();
    lab("22 2B");
    SILENCE();
    lab("22 2B 06 05 04 03 02 01 04");                   /* 11 bytes */
    SILENCE();
    lab("22 25 07 05 04 03 02 01 04");
    SILENCE();
    lab("22 77 06 05 04 03 02 01 04");
    SILENCE();
    CHECK(unchanged());
    lab("22 20 " U);                                     /* 12 bytes, no block number */
    ERROR_02();
}

static void q32_quiet_acts_only_when_addressed(void)
{
    one_label()[14] = 2;
    finish();
    lab("22 20 " U " 01");
    SAYS_PLUS("00 10 11 12 13");
    lab("22 20 " U " 09");
    ERROR("10");
    lab("22 77 " U);
    ERROR_01();
    lab("02 26");
    SILENCE();
    lab("12 26");
    SILENCE();
    lab("02 20 00");
    SILENCE();
    lab("02 77");
    SILENCE();
    CHECK(unchanged());
    lab("22 26 " U);
    DONE();
    CHECK(state(0) == 1);
}

static void q33_twins_are_both_owners(void)
{
    one_label();
    label(0xE004010203040506u, 4, 4);
    finish();
    lab("22 27 " U " 44");
    COLLISION(2);
    CHECK(tag(0)[9] == 0x44 && tag(1)[9] == 0x44);
    lab("22 25 " U);
    COLLISION(2);
    CHECK(state(0) == 3 && state(1) == 3);
    lab("22 02 " U);
    SILENCE();
    CHECK(state(0) == 2 && state(1) == 2);
}

static void q34_unknown_codes(void)
{
    static const char *codes[] = { "00", "03", "1F", "24", "2D", "9F", "A0", "DF", "E0", "FF" };
    for (size_t i = 0; i < sizeof codes / sizeof codes[0]; i++) {
        char text[60];
        one_label();
        finish();
        snprintf(text, sizeof text, "02 %s", codes[i]);
        lab(text);
        ERROR_01();
        snprintf(text, sizeof text, "22 %s " U " 00 11 22", codes[i]);
        lab(text);
        ERROR_01();
        snprintf(text, sizeof text, "42 %s", codes[i]);  /* code comes before Option */
        lab(text);
        ERROR_01();
        snprintf(text, sizeof text, "12 %s", codes[i]);  /* nobody selected */
        lab(text);
        SILENCE();
        CHECK(unchanged());
    }
    one_label()[14] = 3;
    label(9, 1, 1);
    finish();
    lab("12 24");
    ERROR_01();
    lab("02 24");
    COLLISION(2);
}

static void command_01_without_inventory_flag(void)
{
    one_label()[14] = 3;
    finish();
    lab("02 01");
    SILENCE();
    lab("02 01 00");
    SILENCE();
    lab("12 01");
    SILENCE();
    lab("22 01 " U);
    SILENCE();
    CHECK(unchanged());
}

static void q35_stay_quiet(void)
{
    for (uint8_t s = 1; s <= 3; s++) {
        one_label()[14] = s;
        finish();
        lab("02 02");
        SILENCE();
        lab("12 02");
        SILENCE();
        lab("62 02 " U);                                 /* Option */
        SILENCE();
        lab("22 02 " U " 00");                           /* 13 bytes */
        SILENCE();
        lab("22 02 " OTHER);
        SILENCE();
        CHECK(unchanged());
        lab("22 02 " U);
        SILENCE();
        CHECK(state(0) == 2);
    }
}

static void q36_select_without_address(void)
{
    one_label()[14] = 3;
    label(9, 1, 1);
    finish();
    lab("02 25");
    SILENCE();
    lab("12 25");
    SILENCE();
    lab("02 25 " U);
    SILENCE();
    lab("12 25 " OTHER);
    SILENCE();
    CHECK(unchanged());
}

static void q37_select_for_another(void)
{
    one_label()[14] = 3;
    label(2, 1, 1)[14] = 2;
    label(3, 1, 1)[14] = 1;
    label(4, 1, 1)[14] = 0;
    finish();
    lab("22 25 " OTHER);
    SILENCE();
    CHECK(state(0) == 1 && state(1) == 2 && state(2) == 1 && state(3) == 0);
    CHECK(changes() == 1);
    lab("22 25 03 00 00 00 00 00 00 00");
    DONE();
    CHECK(state(2) == 3);
    lab("22 25 02 00 00 00 00 00 00 00");                /* from quiet; the other goes back */
    DONE();
    CHECK(state(1) == 3 && state(2) == 1);
}

static void q38_ill_formed_select_for_another(void)
{
    one_label()[14] = 3;
    finish();
    lab("22 25 " OTHER " 00");
    SILENCE();
    lab("62 25 " OTHER);
    SILENCE();
    CHECK(unchanged());
}

static void q39_select_for_the_owner(void)
{
    for (uint8_t s = 1; s <= 3; s++) {
        one_label()[14] = s;
        finish();
        lab("22 25 " U " 00");
        ERROR_02();
        lab("62 25 " U);
        ERROR("03");
        lab("62 25 " U " 00");
        ERROR_02();
        CHECK(unchanged());
        lab("22 25 " U);
        DONE();
        CHECK(state(0) == 3);
    }
}

static void q40_select_is_12_bytes_in_all(void)
{
    one_label();
    finish();
    lab("22 25 " U U);                                   /* 20 bytes */
    ERROR_02();
    CHECK(state(0) == 1);
}

/* ================================================ checks and work, Q41 to Q45 */

static void q41_order_of_checks(void)
{
    one_label()[32] = 1;                                 /* block 0 locked */
    finish();
    lab("42 21 09 00 00 00");                            /* Option and length */
    ERROR_02();
    lab("42 21 09 00 00 00 00");                         /* Option and block */
    ERROR("03");
    lab("02 21 09 00 00 00 00");
    ERROR("10");
    lab("02 21 04 00 00 00 00");                         /* one past the end */
    ERROR("10");
    lab("02 21 00 00 00 00 00");
    ERROR("12");
    lab("42 21 00 00 00 00 00");
    ERROR("03");
    lab("02 22 00");
    ERROR("11");
    lab("02 22 04");
    ERROR("10");
    lab("42 22 00");
    ERROR("03");
    lab("02 20");
    ERROR_02();
    lab("02 20 00 00");
    ERROR_02();
    CHECK(unchanged());
    lab("02 21 03 A0 A1 A2 A3");
    DONE();
    CHECK(memcmp(tag(0) + 36 + 12, "\xA0\xA1\xA2\xA3", 4) == 0 && changes() == 4);
}

static void q42_length_of_a_write_is_the_labels_own(void)
{
    begin();
    label(1, 1, 4);
    label(2, 1, 8);
    finish();
    lab("02 21 00 AA BB CC DD");
    COLLISION(2);
    CHECK(tag(0)[33] == 0xAA && changes() == 4);
}

static void q43_select_flag_carries_no_uid(void)
{
    one_label()[14] = 3;
    finish();
    lab("12 20 02");
    SAYS_PLUS("00 20 21 22 23");
    lab("12 20 " U " 02");
    ERROR_02();
    lab("12 2B " U);
    ERROR_02();
    lab("12 26");
    DONE();
    CHECK(state(0) == 1);
    lab("12 20 02");
    SILENCE();
}

static void q44_only_20_and_23_take_option(void)
{
    one_label()[14] = 3;
    bodies[0][33] = 1;                                   /* block 1 locked */
    finish();
    lab("42 2B");
    ERROR("03");
    lab("42 26");
    ERROR("03");
    lab("62 25 " U);
    ERROR("03");
    lab("42 27 00");
    ERROR("03");
    lab("42 28");
    ERROR("03");
    lab("42 29 00");
    ERROR("03");
    lab("42 2A");
    ERROR("03");
    lab("42 22 00");
    ERROR("03");
    lab("42 2C 00 00");
    ERROR("03");
    lab("42 20 00");
    SAYS_PLUS("00 00 00 01 02 03");
    lab("42 20 01");
    SAYS_PLUS("00 01 10 11 12 13");
    lab("52 20 01");
    SAYS_PLUS("00 01 10 11 12 13");
    lab("62 20 " U " 01");
    SAYS_PLUS("00 01 10 11 12 13");
    lab("42 23 01 00");
    SAYS_PLUS("00 01 10 11 12 13");
    lab("42 20 04");
    ERROR("10");
    CHECK(unchanged());
}

static void q45_afi_and_dsfid_run_crosswise(void)
{
    one_label();
    finish();
    lab("02 27 A1");
    DONE();
    CHECK(tag(0)[9] == 0xA1 && tag(0)[8] == 0x5D);
    lab("02 29 D1");
    DONE();
    CHECK(tag(0)[8] == 0xD1 && tag(0)[9] == 0xA1 && tag(0)[10] == 0);
    lab("02 28");
    DONE();
    CHECK(tag(0)[10] == 1);
    lab("02 28");
    ERROR("11");
    lab("02 27 00");
    ERROR("12");
    lab("02 29 D2");
    DONE();
    lab("02 2A");
    DONE();
    CHECK(tag(0)[10] == 3);
    lab("02 2A");
    ERROR("11");
    lab("02 29 00");
    ERROR("12");
    CHECK(tag(0)[8] == 0xD2 && tag(0)[9] == 0xA1);
    lab("22 2B " U);
    SAYS_PLUS("00 0F " U " D2 A1 03 03 1C");
    lab("02 2B");
    SAYS_PLUS("00 0F " U " D2 A1 03 03 1C");
}

static void q45_dsfid_lock_alone(void)
{
    one_label()[10] = 2;
    finish();
    lab("02 29 00");
    ERROR("12");
    lab("02 2A");
    ERROR("11");
    lab("02 27 11");
    DONE();
    lab("02 28");
    DONE();
    CHECK(tag(0)[10] == 3 && tag(0)[9] == 0x11);
}

static void read_write_lock_a_block(void)
{
    one_label();
    finish();
    lab("22 21 " U " 02 DE AD BE EF");
    DONE();
    lab("02 20 02");
    SAYS_PLUS("00 DE AD BE EF");
    lab("22 22 " U " 02");
    DONE();
    CHECK(tag(0)[34] == 1);
    lab("22 22 " U " 02");
    ERROR("11");
    lab("22 21 " U " 02 00 00 00 00");
    ERROR("12");
    lab("02 20 02");                                     /* locked blocks can be read */
    SAYS_PLUS("00 DE AD BE EF");
    CHECK(changes() == 5);
}

static void last_block_of_256(void)
{
    begin();
    label(1, 256, 32);
    finish();
    memset(tag(0) + 8480 - 32, 0x77, 32);
    lab("02 20 FF");
    CHECK(report.answered == 1 && report.length == 35 && answer[1] == 0x77 && answer[32] == 0x77);
    lab("42 20 FF");
    CHECK(report.length == 36 && answer[1] == 0 && answer[2] == 0x77);
    lab("02 2B");
    SAYS_PLUS("00 0F 01 00 00 00 00 00 00 00 5D 30 FF 1F 1C");
    lab("02 22 FF");
    DONE();
    CHECK(tag(0)[32 + 255] == 1);
}

static void annex_c_frame(void)
{
    begin();
    label(0xE004AB8967452301u, 12, 4);
    finish();
    raw(3, "22 20 01 23 45 67 89 AB 04 E0 0B E3 BA");
    SAYS_PLUS("00 B0 B1 B2 B3");
    raw(3, "22 20 01 23 45 67 89 AB 04 E0 0B BA E3");
    SILENCE();
}

/* ================================================= several blocks, P2 of 02 */

static void p2_23_reads_blocks(void)
{
    one_label()[33] = 1;                                 /* block 1 locked */
    finish();
    lab("02 23 00 00");
    SAYS_PLUS("00 00 01 02 03");
    lab("02 23 03 00");
    SAYS_PLUS("00 30 31 32 33");
    lab("02 23 01 01");                                  /* locked blocks can be read */
    SAYS_PLUS("00 10 11 12 13 20 21 22 23");
    lab("02 23 00 03");
    SAYS_PLUS("00 00 01 02 03 10 11 12 13 20 21 22 23 30 31 32 33");
    lab("42 23 00 00");
    SAYS_PLUS("00 00 00 01 02 03");
    lab("42 23 01 02");
    SAYS_PLUS("00 01 10 11 12 13 00 20 21 22 23 00 30 31 32 33");
    lab("42 23 00 03");
    SAYS_PLUS("00 00 00 01 02 03 01 10 11 12 13 00 20 21 22 23 00 30 31 32 33");
    CHECK(unchanged());
}

static void p2_2c_tells_lock_bytes(void)
{
    uint8_t *b = one_label();
    b[33] = b[35] = 1;                                   /* blocks 1 and 3 locked */
    finish();
    lab("02 2C 00 00");
    SAYS_PLUS("00 00");
    lab("02 2C 03 00");
    SAYS_PLUS("00 01");
    lab("02 2C 01 02");
    SAYS_PLUS("00 01 00 01");
    lab("02 2C 00 03");
    SAYS_PLUS("00 00 01 00 01");
    CHECK(unchanged());
}

static void p2_a_block_past_the_end(void)
{
    static const char *past[] = { "00 04", "01 03", "03 01", "04 00", "05 00", "FF 00", "00 FF", "01 FF", "02 FF", "FF 01",
        "FF FF", "80 80" };
    static const char *frames[] = { "02 23 %s", "42 23 %s", "02 2C %s", "22 23 " U " %s", "62 23 " U " %s", "22 2C " U " %s" };
    one_label();
    finish();
    for (size_t i = 0; i < sizeof past / sizeof past[0]; i++)
        for (size_t k = 0; k < sizeof frames / sizeof frames[0]; k++) {
            char text[60];
            snprintf(text, sizeof text, frames[k], past[i]);
            lab(text);
            ERROR("10");
        }
    CHECK(unchanged());
}

/* All 256 numbers are there: only a sum over 255 is past the end. */
static void p2_past_the_end_of_256(void)
{
    begin();
    label(1, 256, 1);
    finish();
    lab("02 2C FF 00");
    SAYS_PLUS("00 00");
    lab("02 23 FE 01");
    SAYS_PLUS("00 E0 F0");
    lab("02 23 FF 01");
    ERROR("10");
    lab("02 2C 01 FF");
    ERROR("10");
    lab("02 23 FF FF");
    ERROR("10");
    lab("02 2C FF FF");
    ERROR("10");
    lab("02 23 00 FF");
    CHECK(report.length == 259 && answer[1] == 0x00 && answer[2] == 0x10 && answer[256] == 0xF0);
}

static void p2_order_of_checks(void)
{
    one_label();
    finish();
    lab("42 2C 00 04 00");                               /* length, Option and block */
    ERROR_02();
    lab("42 2C 00 04");
    ERROR("03");
    lab("02 2C 00 04");
    ERROR("10");
    lab("62 2C " U " 00 00");
    ERROR("03");
    lab("42 23 00 04 00");
    ERROR_02();
    lab("42 23 00 04");                                  /* here Option is no fault */
    ERROR("10");
    CHECK(unchanged());
}

static void p2_lengths_are_6_and_14(void)
{
    static const char *wrong[] = { "02 %s", "02 %s 00", "02 %s 00 00 00", "22 %s " U, "22 %s " U " 00", "22 %s " U " 00 00 00" };
    one_label();
    finish();
    for (size_t i = 0; i < sizeof wrong / sizeof wrong[0]; i++) {
        char text[60];
        snprintf(text, sizeof text, wrong[i], "23");
        lab(text);
        ERROR_02();
        snprintf(text, sizeof text, wrong[i], "2C");
        lab(text);
        ERROR_02();
    }
    lab("22 23 " U " 02 00");
    SAYS_PLUS("00 20 21 22 23");
    lab("62 23 " U " 02 01");
    SAYS_PLUS("00 00 20 21 22 23 00 30 31 32 33");
    lab("22 2C " U " 02 01");
    SAYS_PLUS("00 00 00");
    CHECK(unchanged());
}

static void p2_who_acts(void)
{
    one_label()[14] = 2;
    running(label(2, 1, 1), 3, 0, 0);
    label(3, 1, 2)[14] = 3;
    label(4, 1, 1)[14] = 0;
    finish();
    lab("02 23 00 00");
    COLLISION(2);                                        /* ready and selected */
    CHECK(no_slot(1));
    keep();
    lab("02 2C 00 00");
    COLLISION(2);
    lab("12 23 00 00");
    SAYS_PLUS("00 00 01");
    lab("12 2C 00 00");
    SAYS_PLUS("00 00");
    lab("22 23 " U " 00 01");                            /* quiet, and addressed */
    SAYS_PLUS("00 00 01 02 03 10 11 12 13");
    lab("22 2C " U " 00 01");
    SAYS_PLUS("00 00 00");
    lab("22 23 04 00 00 00 00 00 00 00 00 00");          /* off */
    SILENCE();
    lab("22 2C " OTHER " 00 00");
    SILENCE();
    lab("32 23 " U " 00 00");                            /* Select and Address */
    SILENCE();
    lab("06 23 00 00");                                  /* Inventory flag */
    SILENCE();
    raw(3, "02 23 00 00 00 00");                         /* check sum */
    SILENCE();
    CHECK(unchanged());
}

/* A label of 256 blocks of 32 bytes, every third block locked. */
static void biggest_label(uint64_t uid)
{
    uint8_t *b = label(uid, 256, 32);
    for (unsigned i = 0; i < 256; i += 3)
        b[32 + i] = 1;
}

static void p2_the_longest_answer(void)
{
    static uint8_t wanted[ANSWER];
    size_t at = 1;
    begin();
    biggest_label(1);
    finish();
    for (unsigned b = 0; b < 256; b++) {
        wanted[at++] = b % 3 == 0;
        for (unsigned k = 0; k < 32; k++)
            wanted[at++] = (uint8_t)(16 * b + k);
    }
    lab("42 23 00 FF");
    CHECK(add_appendix_a(wanted, at) == ANSWER && answered_bytes(wanted, ANSWER));
    CHECK(answer[1] == 1 && answer[34] == 0 && answer[35] == 0x10 && answer[8416] == 1 && answer[8448] == 0x0F);
    lab("02 23 00 FF");
    CHECK(report.answered == 1 && report.length == 8195 && answer[1] == 0 && answer[33] == 0x10 && answer[8192] == 0x0F);
    lab("02 2C 00 FF");
    CHECK(report.answered == 1 && report.length == 259 && answer[1] == 1 && answer[2] == 0 && answer[4] == 1 && answer[256] == 1);
    CHECK(unchanged());
}

static void p2_two_of_the_longest_collide(void)
{
    begin();
    biggest_label(1);
    biggest_label(2);
    finish();
    lab("42 23 00 FF");
    COLLISION(2);
    lab("02 2C 00 FF");
    COLLISION(2);
    lab("62 23 02 00 00 00 00 00 00 00 00 FF");
    CHECK(report.answered == 1 && report.length == ANSWER);
    CHECK(unchanged());
}

/* Whatever is asked: the buffer must hold the longest answer of all. */
static void p2_refusal_3_of_every_event(void)
{
    static const size_t under[] = { 0, 1, 63, 64, 8195, ANSWER - 1 };
    one_label();
    finish();
    for (uint8_t number = 0; number <= 6; number++)
        for (size_t i = 0; i < sizeof under / sizeof under[0]; i++) {
            memset(answer, 0xA5, sizeof answer);
            ref_event(rack, rack_len, number, NULL, 0, draws, 1, answer, under[i], &report);
            REFUSED(3);
        }
    for (uint8_t number = 1; number <= 5; number++) {
        event(number, NULL, 0);
        SILENCE();
    }
    ref_event(rack, rack_len, 3, (const uint8_t *)"\x02\x2B\x26\xA3", 4, draws, 1, answer, sizeof answer, &report);
    CHECK(report.number == 0 && report.answered == 1 && report.length == 17 && untouched_from(17));
}

/* ======================================================== chips, Q46 to Q56 */

static void q46_low_half_of_255_stays(void)
{
    CHECK(over(255, 0xFFFFFFFF, 0x00000000, 0) == 0x0000FFFF);
    CHECK(over(255, 0xFFFF1234, 0xFFFF0000, 0) == 0xFFFF1234);
    CHECK(over(255, 0x0000ABCD, 0xFFFFFFFF, 0) == 0x0000ABCD);
    CHECK(over(255, 0x00000000, 0xFFFFFFFF, 1) == 0x00000000);   /* no reload there */
    CHECK(over(255, 0x0FFF00FF, 0xF0F0FFFF, 1) == 0x00F000FF);
}

static void q47_lock_at_once(void)
{
    begin();
    chip(3, 0x40);
    finish();
    chp("09 FF FF FF FE FF");                            /* bit 16 to 0: block 0 */
    chp("09 00 00 00 00 00");
    CHECK(word_in(tag(0)) == 0xFFFFFFFF);
    chp("09 01 00 00 00 00");
    CHECK(word_in(tag(0) + 4) == 0);
    chp("09 FF FF FF FF 7F");                            /* bit 31: block 15 */
    chp("09 0F 00 00 00 00");
    CHECK(word_in(tag(0) + 60) == 0xFFFFFFFF);
    CHECK(word_in(tag(0) + 64) == 0x7FFEFFFF);
}

static void every_lock_bit_locks_its_block(void)
{
    for (unsigned a = 0; a < 16; a++) {
        begin();
        uint8_t *b = chip(3, 0x40);
        word(b + 64, ~(0x10000u << a));
        finish();
        for (unsigned k = 0; k < 16; k++) {
            char text[40];
            snprintf(text, sizeof text, "09 %02X 00 00 00 00", k);
            chp(text);
            CHECK(word_in(tag(0) + 4 * k) == (k == a ? 0xFFFFFFFFu : 0u));
        }
    }
}

static void q48_reload_only_by_a_real_change(void)
{
    begin();
    uint8_t *b = chip(3, 0x40);
    word(b + 64, ~(0x10000u << 6));
    word(b + 24, 0x00200000);
    finish();
    chp("09 06 FF FF 1F 00");                            /* block 6 locked */
    CHECK(unchanged());
    CHECK(over(6, 0x00200000, 0x00400000, 0) == 0x00200000 && tag(0)[78] == 0);
    CHECK(over(6, 0x00200000, 0x00200000, 0) == 0x00200000 && tag(0)[78] == 0);
    CHECK(over(6, 0xFFFFFFFF, 0xFFE00000, 0) == 0xFFE00000 && tag(0)[78] == 0);
    CHECK(over(6, 0xFFE00000, 0xFFDFFFFF, 0) == 0xFFDFFFFF && tag(0)[78] == 1);
    CHECK(over(5, 0xFFE00000, 0x00000000, 0) == 0 && tag(0)[78] == 0);
    CHECK(over(6, 5, 4, 1) == 4 && tag(0)[78] == 1);     /* later writes leave it on */
    CHECK(over(0, 0, 0x1234, 1) == 0x1234 && tag(0)[78] == 1);
    CHECK(over(255, 0xFFFFFFFF, 0, 1) == 0xFFFF && tag(0)[78] == 1);
}

static void q49_reload_is_for_the_addressed_block_alone(void)
{
    begin();
    uint8_t *b = chip(3, 0x40);
    memset(b, 0, 20);
    b[78] = 1;
    word(b + 64, 0xFFFDFFFF);                            /* block 1 locked */
    finish();
    chp("09 02 FF FF FF FF");
    CHECK(word_in(tag(0) + 8) == 0xFFFFFFFF && changes() == 4);
    chp("09 01 FF FF FF FF");                            /* locks come first */
    CHECK(word_in(tag(0) + 4) == 0);
    CHECK(over(5, 3, 9, 1) == 3);                        /* counters never rise */
}

static void q50_select_own_id(void)
{
    for (uint8_t s = 0; s <= 5; s++) {
        begin();
        uint8_t *b = chip(s, s == 0 ? 0 : 0x40);
        b[78] = s == 3;
        finish();
        chp("0E 40");
        if (s == 2 || s == 3 || s == 4) {
            SAYS_PLUS("40");
            CHECK(tag(0)[76] == 3 && tag(0)[78] == 0);
        } else {
            SILENCE();
            CHECK(unchanged());
        }
    }
    begin();
    chip(2, 0x40);
    chip(2, 0x40);
    finish();
    chp("0E 40");
    COLLISION(2);
    CHECK(tag(0)[76] == 3 && tag(1)[76] == 3);
}

static void q51_select_other_id(void)
{
    for (uint8_t s = 0; s <= 5; s++) {
        begin();
        uint8_t *b = chip(s, s == 0 ? 0 : 0x40);
        b[78] = s == 3;
        finish();
        chp("0E 41");
        SILENCE();
        if (s == 3)
            CHECK(tag(0)[76] == 4 && tag(0)[78] == 0 && tag(0)[77] == 0x40);
        else
            CHECK(unchanged());
    }
}

static void q52_pcall16(void)
{
    begin();
    chip(2, 0x45);
    finish();
    draws[0] = 0x97;
    chp("06 04");
    SILENCE();
    CHECK(tag(0)[77] == 0x47 && tag(0)[76] == 2);
    draws[0] = 0x90;
    chp("06 04");
    SAYS_PLUS("40");
    begin();                                             /* fixed: not touched, yet answers */
    uint8_t *b = chip(2, 0x50);
    b[79] = 1;
    b[64] = 0x50;
    b = chip(2, 0x51);
    b[79] = 1;
    b[64] = 0x51;
    finish();
    draws[0] = draws[1] = 0x97;
    chp("06 04");
    SAYS_PLUS("50");
    CHECK(unchanged());
}

static void q53_initiate_and_states(void)
{
    for (uint8_t s = 0; s <= 5; s++) {
        begin();
        chip(s, s == 0 ? 0 : 0x40);
        finish();
        draws[0] = 0x5C;
        chp("06 00");
        if (s == 1 || s == 2) {
            SAYS_PLUS("5C");
            CHECK(tag(0)[76] == 2 && tag(0)[77] == 0x5C);
        } else {
            SILENCE();
            CHECK(unchanged());
        }
        begin();
        chip(s, s == 0 ? 0 : 0x41);
        finish();
        draws[0] = 0x00;
        chp("16");
        CHECK(report.answered == (s == 2) && unchanged());
        chp("06 04");
        CHECK(report.answered == (s == 2) && unchanged() == (s != 2));
    }
    begin();
    uint8_t *b = chip(1, 0x77);
    b[79] = 1;
    b[64] = 0x77;
    finish();
    draws[0] = 0x5C;
    chp("06 00");
    SAYS_PLUS("77");
    CHECK(tag(0)[76] == 2 && tag(0)[77] == 0x77);
}

static void q54_other_lengths_and_addresses(void)
{
    static const char *silent[] = {
        "", "06", "16 00", "06 01", "06 05", "06 00 00", "0B 00", "0C 00", "0F 00", "08", "08 00 00",
        "09 00", "09 00 00 00 00", "09 00 00 00 00 00 00", "0E", "0E 40 00", "0A", "0D", "07", "00",
        "08 10", "08 FE", "09 10 00 00 00 00", "09 FE 00 00 00 00", "09 80 00 00 00 00"
    };
    for (size_t i = 0; i < sizeof silent / sizeof silent[0]; i++) {
        begin();
        chip(3, 0x40);
        chip(2, 0x40);                                   /* low half 0: would hear s = 0 */
        finish();
        draws[0] = draws[1] = 0x11;
        chp(silent[i]);
        SILENCE();
        CHECK(unchanged());
    }
    begin();
    chip(3, 0x40);
    finish();
    raw(5, "0B AB 4F");                                  /* wrong check sums */
    SILENCE();
    raw(5, "0F 08 8F");
    SILENCE();
    raw(5, "");
    SILENCE();
    raw(5, "00 00");
    SILENCE();
    CHECK(unchanged());
}

static void slot_markers(void)
{
    for (unsigned id = 0; id < 16; id++)
        for (unsigned s = 1; s < 16; s++) {
            char text[10];
            begin();
            chip(2, (uint8_t)(0xA0 | id));
            finish();
            snprintf(text, sizeof text, "%X6", s);
            chp(text);
            CHECK(report.answered == (s == id) && unchanged());
            if (s == id)
                CHECK(answer[0] == (0xA0 | id) && report.length == 3);
        }
}

static void q55_low_byte_first(void)
{
    begin();
    uint8_t *b = chip(3, 0x40);
    word(b + 28, 0x04030201);
    finish();
    chp("08 07");
    SAYS_PLUS("01 02 03 04");
    chp("09 07 0A 0B 0C 0D");
    SILENCE();
    CHECK(word_in(tag(0) + 28) == 0x0D0C0B0A && tag(0)[28] == 0x0A);
    tag(0)[66] &= 0x7F;                                  /* bit 7 of byte 66 locks block 7 */
    keep();
    chp("09 07 00 00 00 00");
    CHECK(unchanged());
    raw(5, "0B AB 4E");
    SAYS_PLUS("11 22 33 44 55 06 02 D0");
    chp("08 FF");
    SAYS_PLUS("FF FF 7F FF");
    chp("08 0F");
    SAYS_PLUS("FF FF FF FF");
}

static void q55_counters_compared_as_numbers(void)
{
    CHECK(over(5, 0x01000000, 0x00FFFFFF, 0) == 0x00FFFFFF);
    CHECK(over(5, 0x00FFFFFF, 0x01000000, 0) == 0x00FFFFFF);
    CHECK(over(5, 0x80000000, 0x7FFFFFFF, 0) == 0x7FFFFFFF);
    CHECK(over(5, 0, 0, 0) == 0);
    CHECK(over(5, 100, 30, 0) == 30);                    /* set to w, not lowered by w */
}

static void q56_0c_and_0f(void)
{
    for (uint8_t s = 0; s <= 5; s++) {
        begin();
        uint8_t *b = chip(s, s == 0 ? 0 : 0x43);
        b[78] = s == 3;
        finish();
        raw(5, "0C 14 3A");
        SILENCE();
        if (s == 3)
            CHECK(tag(0)[76] == 2 && tag(0)[77] == 0x43 && tag(0)[78] == 0);
        else
            CHECK(unchanged());
        finish();
        raw(5, "0F 8F 08");
        SILENCE();
        if (s == 3)
            CHECK(tag(0)[76] == 5 && tag(0)[77] == 0x43 && tag(0)[78] == 0);
        else
            CHECK(unchanged());
    }
    begin();
    chip(5, 0x43);
    finish();
    chp("06 00");
    chp("0E 43");
    chp("0C");
    on();
    CHECK(unchanged());
    off();
    draws[0] = 0x21;
    on();
    CHECK(tag(0)[76] == 1 && tag(0)[77] == 0x21);
}

static void state_3_only(void)
{
    for (uint8_t s = 0; s <= 5; s++) {
        if (s == 3)
            continue;
        begin();
        chip(s, s == 0 ? 0 : 0x43);
        finish();
        chp("08 00");
        SILENCE();
        chp("0B");
        SILENCE();
        chp("09 07 00 00 00 00");
        SILENCE();
        CHECK(unchanged());
    }
}

static void blocks_7_to_15_become_w(void)
{
    for (uint8_t a = 7; a <= 15; a++)
        CHECK(over(a, 0x0F0F0F0F, 0xF0F0FFFF, 0) == 0xF0F0FFFF && tag(0)[78] == 0);
}

/* Sets draws for the chips and sends 06 04 or 06 00. */
static void with_draws(const char *text, const char *frame)
{
    hex(text, draws);
    chp(frame);
}

/* Figure 22 of 001, its shifted rows put right (POINTS C1). */
static void figure_22(void)
{
    begin();
    for (int i = 0; i < 8; i++)
        chip(0, 0);
    finish();
    hex("28 75 40 01 02 FE A9 7C", draws);
    on();
    CHECK(tag(0)[77] == 0x28 && tag(7)[77] == 0x7C);
    with_draws("40 13 3F 4A 50 48 52 7C", "06 00");
    COLLISION(8);
    with_draws("45 12 30 43 55 43 53 73", "06 04");
    SAYS_PLUS("30");
    CHECK(tag(0)[77] == 0x45 && tag(1)[77] == 0x12 && tag(3)[77] == 0x43 && tag(4)[77] == 0x55);
    chp("0E 30"); SAYS_PLUS("30");
    chp("16"); SILENCE();
    chp("26"); SAYS_PLUS("12");
    chp("0E 12"); SAYS_PLUS("12");
    CHECK(tag(2)[76] == 4 && tag(1)[76] == 3);
    chp("36"); COLLISION(4);
    chp("46"); SILENCE();
    chp("56"); COLLISION(2);
    chp("66"); SILENCE();
    chp("F6"); SILENCE();
    with_draws("40 00 00 41 53 42 50 74", "06 04");
    COLLISION(2);
    chp("16"); SAYS_PLUS("41");
    chp("0E 41"); SAYS_PLUS("41");
    chp("26"); SAYS_PLUS("42");
    chp("0E 42"); SAYS_PLUS("42");
    chp("36"); SAYS_PLUS("53");
    chp("0E 53"); SAYS_PLUS("53");
    chp("46"); SAYS_PLUS("74");
    chp("0E 74"); SAYS_PLUS("74");
    with_draws("41 00 00 00 00 00 50 00", "06 04");
    SAYS_PLUS("50");
    chp("0E 50"); SAYS_PLUS("50");
    chp("16"); SAYS_PLUS("41");
    with_draws("43 00 00 00 00 00 00 00", "06 04");
    SILENCE();
    chp("36"); SAYS_PLUS("43");
    chp("0E 43"); SAYS_PLUS("43");
    CHECK(tag(0)[76] == 3 && tag(6)[76] == 4);
}

/* ========================================================= walk, Q57 to Q61 */

static void q57_alone_first_then_depth_first(void)
{
    begin();
    label(0x0A1, 1, 1);                                  /* slot 1: A1, 1B1, 2B1, and C1 */
    label(0x2B1, 1, 1);
    label(0x1B1, 1, 1);
    label(0x0C1, 1, 1);
    label(0x025, 1, 1);                                  /* slot 5: 25 and 15 */
    label(0x015, 1, 1);
    label(0x00F, 1, 1);                                  /* alone */
    label(0x003, 1, 1);                                  /* alone */
    finish();
    walk();
    /* Rounds: all; ending 1; ending B1; ending 5. */
    CHECK(walk_gave(4, 8));
    CHECK(listed(0, 0x003) && listed(1, 0x00F));
    CHECK(listed(2, 0x0A1) && listed(3, 0x0C1));         /* alone in the round of 1 */
    CHECK(listed(4, 0x1B1) && listed(5, 0x2B1));         /* then B1 carried through */
    CHECK(listed(6, 0x015) && listed(7, 0x025));
}

static void q58_slots_cleared_states_stay(void)
{
    begin();
    running(label(1, 1, 1), 7, 12, 0x506);
    uint8_t *b = label(2, 1, 1);
    running(b, 3, 0, 0);
    b[9] = 0x99;                                         /* shut out by the AFI */
    b[14] = 3;
    b = label(3, 1, 1);
    b[14] = 3;
    label(4, 1, 1)[14] = 2;
    label(5, 1, 1)[14] = 0;
    b = chip(3, 0x40);
    b[78] = 1;
    finish();
    walk_with(1, 0x30, 48);
    CHECK(walk_gave(1, 2) && listed(0, 1) && listed(1, 3));
    CHECK(no_slot(0) && no_slot(1) && no_slot(2));
    CHECK(state(0) == 1 && state(1) == 3 && state(2) == 3 && state(3) == 2 && state(4) == 0);
    tag(0)[15] = 7;
    tag(0)[16] = 12;
    tag(0)[17] = 0x06;
    tag(0)[18] = 0x05;
    tag(1)[15] = 3;
    CHECK(unchanged());                                  /* nothing else has changed */
}

static void q59_rounds(void)
{
    begin();
    label(0x11, 1, 1);
    label(0x21, 1, 1);
    label(0x31, 1, 1)[14] = 2;                           /* quiet and off do not count */
    label(0x1021, 1, 1)[14] = 0;
    label(0x41, 1, 1)[9] = 0x77;
    finish();
    walk_with(1, 0x30, 40);
    CHECK(walk_gave(2, 2) && listed(0, 0x11) && listed(1, 0x21));
    walk_with(1, 0x77, 40);
    CHECK(walk_gave(1, 1) && listed(0, 0x41));
    walk_with(1, 0x55, 40);
    CHECK(walk_gave(1, 0));
    walk();
    CHECK(walk_gave(2, 3));
    CHECK(unchanged());
}

static void q59_sixty_four_labels(void)
{
    begin();
    for (unsigned i = 0; i < 64; i++)
        label(0xE000000000000000u | i << 4 | 5u, 1, 1);
    finish();
    walk();
    /* all end in 5: one; 05 .. F5: 16 endings shared by four each. */
    CHECK(walk_gave(18, 64));
    CHECK(listed(0, 0xE000000000000005u) && listed(1, 0xE000000000000105u));
    CHECK(listed(63, 0xE0000000000003F5u));
}

static void q60_afi_00_and_no_afi(void)
{
    uint8_t first[600];
    begin();
    label(0x11, 1, 1)[9] = 0x01;
    label(0x21, 1, 1)[9] = 0x02;
    label(0x31, 1, 1)[9] = 0x00;
    finish();
    walk();
    CHECK(walk_gave(2, 3));
    memcpy(first, list, sizeof list);
    walk_with(1, 0x00, 24);
    CHECK(walk_gave(2, 3) && memcmp(first, list, sizeof list) == 0);
}

static void q61_list_is_low_byte_first(void)
{
    begin();
    label(0xE004010203040506u, 1, 1);
    chip(1, 1);
    finish();
    walk_with(0, 0, 100);
    CHECK(walk_gave(1, 1));                              /* bytes behind the list stay */
    CHECK(memcmp(list, uid_sent, 8) == 0);
}

/* =================================================== reader's side, Q63-Q69 */

static void writer_frames(void)
{
    CHECK(writes(inventory(0, 0, 0), "", "26 01 00 F6 0A"));
    CHECK(writes(inventory(1, 0, 0), "", "06 01 00 CD 09"));
    CHECK(writes(label_command(0x2B, 0, 0), "", "02 2B 26 A3"));
    CHECK(writes(chip_command(REF_INITIATE, 0), "", "06 00 97 5B"));
    CHECK(writes(chip_command(REF_PCALL16, 0), "", "06 04 B3 1D"));
    CHECK(writes(chip_command(REF_GET_UID, 0), "", "0B AB 4E"));
    CHECK(writes(chip_command(REF_RESET_TO_INVENTORY, 0), "", "0C 14 3A"));
    CHECK(writes(chip_command(REF_COMPLETION, 0), "", "0F 8F 08"));
    CHECK(writes_plus(chip_command(REF_SLOT_MARKER, 1), "", "16"));
    CHECK(writes_plus(chip_command(REF_SLOT_MARKER, 15), "", "F6"));
    CHECK(writes_plus(chip_command(REF_SELECT, 0xAB), "", "0E AB"));
    CHECK(writes_plus(chip_command(REF_READ_BLOCK, 255), "", "08 FF"));
    CHECK(writes_plus(chip_command(REF_WRITE_BLOCK, 15), "01 02 03 04", "09 0F 01 02 03 04"));
    CHECK(writes_plus(label_command(0x02, 2, 0), "", "22 02 " U));
    CHECK(writes_plus(label_command(0x25, 2, 0), "", "22 25 " U));
    CHECK(writes_plus(label_command(0x20, 0, 7), "", "02 20 07"));
    CHECK(writes_plus(label_command(0x20, 1, 7), "", "12 20 07"));
    CHECK(writes_plus(label_command(0x20, 2, 7), "", "22 20 " U " 07"));
    CHECK(writes_plus(with_option(label_command(0x20, 2, 7)), "", "62 20 " U " 07"));
    CHECK(writes_plus(label_command(0x21, 1, 9), "AA", "12 21 09 AA"));
    CHECK(writes_plus(label_command(0x22, 0, 255), "", "02 22 FF"));
    CHECK(writes_plus(label_command(0x26, 2, 99), "", "22 26 " U));
    CHECK(writes_plus(label_command(0x27, 0, 0x30), "", "02 27 30"));
    CHECK(writes_plus(label_command(0x28, 1, 99), "", "12 28"));
    CHECK(writes_plus(label_command(0x29, 2, 0x31), "", "22 29 " U " 31"));
    CHECK(writes_plus(label_command(0x2A, 0, 99), "", "02 2A"));
}

static void writer_annex_c_2(void)
{
    static const uint8_t uid[8] = { 0x01, 0x23, 0x45, 0x67, 0x89, 0xAB, 0x04, 0xE0 };
    struct ref_command c = label_command(0x20, 2, 0x0B);
    uint8_t wanted[13];
    memset(out, 0xA5, sizeof out);
    ref_write_request(&c, uid, NULL, 0, out, 64, &written);
    CHECK(wrote_bytes(wanted, hex("22 20 01 23 45 67 89 AB 04 E0 0B E3 BA", wanted)));
}

static void q63_what_is_no_request(void)
{
    struct ref_command c;
    for (unsigned code = 0; code <= 0x700; code++) {     /* label codes */
        int known = code == 0x01 || code == 0x02 || (code >= 0x20 && code <= 0x23)
            || (code >= 0x25 && code <= 0x2C);
        uint8_t target = code == 0x02 || code == 0x25 ? 2 : 0;
        CHECK((write_with(label_command((uint16_t)code, target, 1), "00", 64) == 0) == known);
    }
    for (unsigned code = 0; code <= 0x700; code++) {     /* chip codes */
        int known = code == 0x600 || code == 0x604 || code == 6 || code == 8 || code == 9
            || code == 0xB || code == 0xC || code == 0xE || code == 0xF;
        CHECK((write_with(chip_command((uint16_t)code, 1), "00 00 00 00", 64) == 0) == known);
    }
    for (unsigned kind = 0; kind < 256; kind++) {
        c = label_command(0x2B, 0, 0);
        c.kind = (uint8_t)kind;
        CHECK(not_a_request(c, "") == (kind != 1));
    }
    for (uint8_t target = 0; target < 4; target++) {
        CHECK(not_a_request(label_command(0x02, target, 0), "") == (target != 2));
        CHECK(not_a_request(label_command(0x25, target, 0), "") == (target != 2));
        CHECK(not_a_request(label_command(0x01, target, 0), "") == (target != 0));
        CHECK(not_a_request(label_command(0x26, target, 0), "") == (target > 2));
        c = chip_command(REF_INITIATE, 0);
        c.target = target;
        CHECK(not_a_request(c, "") == (target != 0));
    }
}

static void q63_option_data_slot_and_address(void)
{
    CHECK(!not_a_request(with_option(label_command(0x20, 0, 0)), ""));
    for (unsigned code = 1; code <= 0x2C; code++)
        if (code != 0x20 && code != 0x23) {
            uint8_t target = code == 0x02 || code == 0x25 ? 2 : 0;
            CHECK(not_a_request(with_option(label_command((uint16_t)code, target, 0)), "00"));
        }
    CHECK(not_a_request(with_option(chip_command(REF_READ_BLOCK, 0)), ""));
    CHECK(not_a_request(label_command(0x21, 0, 0), ""));
    CHECK(!not_a_request(label_command(0x21, 0, 0), U U U U));                 /* 32 bytes */
    CHECK(written.length == 37);
    CHECK(not_a_request(label_command(0x21, 0, 0), U U U U " 00"));            /* 33 bytes */
    CHECK(!not_a_request(label_command(0x21, 2, 0), U U U U) && written.length == 45);
    CHECK(not_a_request(chip_command(REF_WRITE_BLOCK, 0), "00 00 00"));
    CHECK(not_a_request(chip_command(REF_WRITE_BLOCK, 0), "00 00 00 00 00"));
    CHECK(!not_a_request(chip_command(REF_READ_BLOCK, 0), U U U U U));         /* has no data */
    CHECK(!not_a_request(label_command(0x20, 0, 0), U U U U U));
    for (unsigned b = 0; b < 256; b++) {
        int listed_address = b <= 15 || b == 255;
        CHECK(not_a_request(chip_command(REF_READ_BLOCK, (uint8_t)b), "") == !listed_address);
        CHECK(not_a_request(chip_command(REF_WRITE_BLOCK, (uint8_t)b), "00 00 00 00") == !listed_address);
        CHECK(not_a_request(chip_command(REF_SLOT_MARKER, (uint8_t)b), "") == (b < 1 || b > 15));
        CHECK(!not_a_request(chip_command(REF_SELECT, (uint8_t)b), ""));
    }
}

static void q64_flags_of_inventory(void)
{
    CHECK(writes_plus(with_afi(inventory(1, 0, 0), 0x00), "", "16 01 00 00"));
    CHECK(writes_plus(with_afi(inventory(0, 0, 0), 0x30), "", "36 01 30 00"));
    struct ref_command c = inventory(0, 0, 0);
    c.afi = 0x55;                                        /* not present, so not sent */
    CHECK(writes(c, "", "26 01 00 F6 0A"));
}

static void q64_mask_of_figure_8(void)
{
    CHECK(writes_plus(inventory(1, 12, 0x4CF), "", "06 01 0C CF 04"));
    CHECK(writes_plus(inventory(0, 1, 1), "", "26 01 01 01"));
    CHECK(writes_plus(inventory(0, 8, 0xA5), "", "26 01 08 A5"));
    CHECK(writes_plus(inventory(0, 9, 0x1A5), "", "26 01 09 A5 01"));
}

static void q65_mask_rules(void)
{
    CHECK(not_a_request(inventory(1, 0, 1), ""));
    CHECK(not_a_request(inventory(0, 0, 1), ""));
    CHECK(!not_a_request(inventory(0, 64, UINT64_MAX), ""));
    CHECK(written.length == 13);
    CHECK(!not_a_request(inventory(1, 60, 0x0FFFFFFFFFFFFFFFu), ""));
    CHECK(not_a_request(inventory(1, 60, 0x1FFFFFFFFFFFFFFFu), ""));
    for (uint8_t bits = 61; bits <= 64; bits++) {
        CHECK(not_a_request(inventory(1, bits, 0), ""));
        CHECK(!not_a_request(inventory(0, bits, 0), ""));
    }
    CHECK(not_a_request(inventory(0, 65, 0), ""));
    CHECK(not_a_request(inventory(0, 255, 0), ""));
    CHECK(not_a_request(inventory(0, 63, 0x8000000000000000u), ""));
    CHECK(not_a_request(inventory(0, 4, 0x1A), ""));
    CHECK(!not_a_request(inventory(0, 4, 0x0A), ""));
}

static void q66_inventory_answers(void)
{
    CHECK(reads(inventory(0, 0, 0), "00 5D " U) == 0);
    CHECK(reading.meaning == REF_MEANS_INVENTORY && reading.dsfid == 0x5D);
    CHECK(memcmp(reading.uid, uid_sent, 8) == 0 && reading.length == 0);
    CHECK(reads(inventory(1, 4, 0x6), "00 00 " U) == 0);
    CHECK(reads(inventory(1, 4, 0x5), "00 00 " U) == 9);
    CHECK(reads(inventory(1, 60, 0x0004010203040506u), "00 00 " U) == 0);      /* any slot */
    CHECK(reads(inventory(0, 64, 0xE004010203040506u), "00 00 " U) == 0);
    CHECK(reads(inventory(0, 64, 0xF004010203040506u), "00 00 " U) == 9);
    CHECK(reads(with_afi(inventory(0, 0, 0), 0x99), "00 00 " U) == 0);         /* AFI free */
    CHECK(reads(inventory(0, 0, 0), "01 00 " U) == 9);
    CHECK(reads(inventory(0, 0, 0), "00 00 " U " 00") == 9);
    CHECK(reads(inventory(0, 0, 0), "00 06 05 04 03 02 01 04 E0") == 9);
    CHECK(reads(inventory(0, 0, 0), "01 01") == 9);                            /* never an error */
    CHECK(reads(inventory(0, 0, 0), "00") == 9);
}

static void q66_commands_without_answer(void)
{
    static const struct { uint8_t kind; uint16_t code; } mute[] = {
        { 1, 0x02 }, { 2, REF_WRITE_BLOCK }, { 2, REF_RESET_TO_INVENTORY }, { 2, REF_COMPLETION } };
    static const char *answers[] = { "00", "01 01", "40", "00 00 00 00", U, ("00 5D " U) };
    for (size_t i = 0; i < 4; i++)
        for (size_t k = 0; k < sizeof answers / sizeof answers[0]; k++) {
            struct ref_command c = label_command(mute[i].code, mute[i].kind == 1 ? 2 : 0, 0);
            c.kind = mute[i].kind;
            CHECK(reads(c, answers[k]) == 9);
        }
}

static void q66_block_answers(void)
{
    struct ref_command plain = label_command(0x20, 0, 255), option = with_option(plain);
    CHECK(reads(plain, "00 AA") == 0);
    CHECK(reading.meaning == REF_MEANS_BLOCK && reading.place == 1 && reading.length == 1);
    CHECK(reading.lock == 0 && reading.count == 0);
    CHECK(reads(plain, "00 " U U U U) == 0 && reading.length == 32 && reading.place == 1);
    CHECK(reads(plain, "00 " U U U U " 00") == 9);
    CHECK(reads(plain, "00") == 9);
    CHECK(reads(plain, "02 AA") == 9);
    CHECK(reads(option, "00 01 AA") == 0);
    CHECK(reading.lock == 1 && reading.place == 2 && reading.length == 1);
    CHECK(reads(option, "00 00 " U U U U) == 0 && reading.lock == 0 && reading.length == 32);
    CHECK(reads(option, "00 00 " U U U U " 00") == 9);
    CHECK(reads(option, "00 01") == 9);
    CHECK(reads(option, "00 02 AA") == 9);
    CHECK(reads(option, "00") == 9);
}

static void q66_plain_answers(void)
{
    static const uint8_t codes[] = { 0x21, 0x22, 0x25, 0x26, 0x27, 0x28, 0x29, 0x2A };
    for (size_t i = 0; i < sizeof codes; i++) {
        struct ref_command c = label_command(codes[i], 2, 0);
        CHECK(reads_raw(c, "00 78 F0") == 0);
        CHECK(reading.meaning == REF_MEANS_DONE);
        CHECK(reads(c, "00 00") == 9);
        CHECK(reads(c, "01") == 9);
        CHECK(reads(c, "02") == 9);
    }
}

static void q66_system_answers(void)
{
    struct ref_command one = label_command(0x2B, 2, 0), all = label_command(0x2B, 0, 0);
    CHECK(reads(one, "00 0F " U " 5D 30 FF 1F 1C") == 0);
    CHECK(reading.meaning == REF_MEANS_SYSTEM && reading.dsfid == 0x5D && reading.afi == 0x30);
    CHECK(reading.blocks == 0xFF && reading.size == 0x1F && reading.ic == 0x1C);
    CHECK(memcmp(reading.uid, uid_sent, 8) == 0);
    CHECK(reads(one, "00 0F " OTHER " 5D 30 FF 1F 1C") == 9);
    CHECK(reads(all, "00 0F " OTHER " 5D 30 FF 1F 1C") == 0);
    CHECK(reads(label_command(0x2B, 1, 0), "00 0F " OTHER " 5D 30 FF 1F 1C") == 0);
    CHECK(reads(all, "00 0F " U " 5D 30 00 20 1C") == 9);                      /* length 33 */
    CHECK(reads(all, "00 07 " U " 5D 30 00 03 1C") == 9);
    CHECK(reads(all, "00 0F " U " 5D 30 00 03") == 9);
    CHECK(reads(all, "00 0F " U " 5D 30 00 03 1C 00") == 9);
    CHECK(reads(all, "00") == 9);
}

static void q66_chip_answers(void)
{
    for (unsigned id = 0; id < 256; id++) {
        char text[4];
        snprintf(text, sizeof text, "%02X", id);
        CHECK(reads(chip_command(REF_INITIATE, 0), text) == 0 && reading.chip_id == id);
        CHECK(reading.meaning == REF_MEANS_CHIP_ID);
        CHECK(reads(chip_command(REF_PCALL16, 0), text) == ((id & 15) == 0 ? 0u : 9u));
        CHECK(reads(chip_command(REF_SLOT_MARKER, 7), text) == ((id & 15) == 7 ? 0u : 9u));
        CHECK(reads(chip_command(REF_SELECT, 0x42), text) == (id == 0x42 ? 0u : 9u));
    }
    CHECK(reads(chip_command(REF_READ_BLOCK, 255), "01 02 03 04") == 0);
    CHECK(reading.meaning == REF_MEANS_WORD && reading.word == 0x04030201);
    CHECK(reads(chip_command(REF_READ_BLOCK, 0), "01 02 03") == 9);
    CHECK(reads(chip_command(REF_READ_BLOCK, 0), "01 02 03 04 05") == 9);
    CHECK(reads(chip_command(REF_READ_BLOCK, 0), "01") == 9);
    CHECK(reads(chip_command(REF_GET_UID, 0), U) == 0);
    CHECK(reading.meaning == REF_MEANS_CHIP_UID && memcmp(reading.uid, uid_sent, 8) == 0);
    CHECK(reads(chip_command(REF_GET_UID, 0), U " 00") == 9);
    CHECK(reads(chip_command(REF_GET_UID, 0), "06 05 04 03 02 01 04") == 9);
    CHECK(reads(chip_command(REF_INITIATE, 0), "06 05") == 9);
}

static void q67_error_frames(void)
{
    static const uint8_t codes[] = { 0x20, 0x21, 0x22, 0x23, 0x25, 0x26, 0x27, 0x28, 0x29, 0x2A, 0x2B, 0x2C };
    for (size_t i = 0; i < sizeof codes; i++)
        for (unsigned e = 0; e < 256; e++) {
            char text[8];
            int fits = e == 1 || e == 2 || e == 3 || e == 0x10 || e == 0x11 || e == 0x12;
            snprintf(text, sizeof text, "01 %02X", e);
            CHECK(reads(label_command(codes[i], 2, 0), text) == (fits ? 0u : 9u));
            CHECK(!fits || (reading.meaning == REF_MEANS_ERROR && reading.error == e));
        }
    CHECK(reads(with_option(label_command(0x20, 0, 0)), "01 12") == 0);
    CHECK(reads(label_command(0x26, 0, 0), "01 12 00") == 9);                  /* five bytes */
    CHECK(reads(label_command(0x02, 2, 0), "01 01") == 9);
    CHECK(reads(chip_command(REF_SELECT, 1), "01 01") == 9);
    CHECK(reads(chip_command(REF_READ_BLOCK, 1), "01 01") == 9);
}

static void q68_order_7_8_9(void)
{
    CHECK(reads_raw(label_command(0x24, 0, 0), "00 00") == 7);
    CHECK(reads_raw(label_command(0x2B, 0, 0), "00 00") == 8);
    CHECK(reads_raw(label_command(0x2B, 0, 0), "") == 8);
    CHECK(reads_raw(label_command(0x26, 0, 0), "00 78 F1") == 8);
    CHECK(reads_raw(label_command(0x26, 0, 0), "00 F0 78") == 8);
    CHECK(reads_raw(label_command(0x02, 2, 0), "00 78 F1") == 8);
    CHECK(reads_raw(label_command(0x02, 2, 0), "00 78 F0") == 9);
    CHECK(read_frame(label_command(0x2B, 0, 0), 0, NULL, 0) == 8);
    CHECK(read_frame(label_command(0x21, 0, 0), 0, NULL, 0) == 7);             /* no data sent */
    CHECK(read_frame(label_command(0x21, 0, 0), 33, NULL, 0) == 7);
    CHECK(read_frame(chip_command(REF_WRITE_BLOCK, 0), 5, NULL, 0) == 7);
    CHECK(reads(with_option(label_command(0x26, 0, 0)), "00") == 7);
    CHECK(reads(inventory(1, 61, 0), "00 5D " U) == 7);
}

static void q69_refusals_are_zero_beside_the_number(void)
{
    /* read_frame() itself checks this for each refusal; here with rich frames. */
    CHECK(reads(label_command(0x2B, 2, 0), "00 0F " OTHER " 5D 30 FF 1F 1C") == 9);
    CHECK(all_zero_but_number());
    CHECK(reads(inventory(1, 4, 0x5), "00 77 " U) == 9 && all_zero_but_number());
    CHECK(reads(with_option(label_command(0x20, 0, 0)), "00 02 AA BB") == 9 && all_zero_but_number());
    CHECK(reads(chip_command(REF_SELECT, 2), "03") == 9 && all_zero_but_number());
}

static void p2_requests(void)
{
    struct ref_command c;
    CHECK(writes_plus(many(0x23, 0, 0, 0xFF), "", "02 23 00 FF"));
    CHECK(writes_plus(many(0x23, 1, 7, 2), "", "12 23 07 02"));
    CHECK(writes_plus(many(0x23, 2, 7, 2), "", "22 23 " U " 07 02"));
    CHECK(writes_plus(with_option(many(0x23, 0, 1, 0)), "", "42 23 01 00"));
    CHECK(writes_plus(with_option(many(0x23, 2, 1, 0)), "", "62 23 " U " 01 00"));
    CHECK(writes_plus(many(0x2C, 0, 0xFF, 0), "", "02 2C FF 00"));
    CHECK(writes_plus(many(0x2C, 1, 0x80, 0x7F), "", "12 2C 80 7F"));
    CHECK(writes_plus(many(0x2C, 2, 3, 4), "", "22 2C " U " 03 04"));
    for (unsigned first = 0; first < 256; first++)
        for (unsigned more = 0; more < 256; more++) {
            c = many(first % 2 ? 0x23 : 0x2C, 0, (uint8_t)first, (uint8_t)more);
            CHECK(not_a_request(c, "") == (first + more > 255));
        }
    for (uint8_t target = 0; target < 4; target++) {
        CHECK(not_a_request(many(0x23, target, 0, 0), "") == (target > 2));
        CHECK(not_a_request(many(0x2C, target, 0, 0), "") == (target > 2));
        CHECK(not_a_request(with_option(many(0x2C, target, 0, 0)), ""));
    }
    CHECK(writes_plus(many(0x20, 0, 0xFF, 0xFF), "", "02 20 FF"));             /* 20 has no count */
    CHECK(writes_plus(many(0x2B, 0, 0xFF, 0xFF), "", "02 2B"));
}

/* A frame of 00 and so many bytes behind it, of which those so far apart are 1. */
static uint32_t reads_long(struct ref_command c, size_t len, size_t apart)
{
    static uint8_t bytes[9000];
    memset(bytes, 0, sizeof bytes);
    for (size_t i = 0; i < len; i += apart)
        bytes[1 + i] = 1;
    return read_frame(c, 0, bytes, add_appendix_a(bytes, 1 + len));
}

static int told_many(uint8_t meaning, uint32_t length, uint32_t number_of_blocks)
{
    return reading.meaning == meaning && reading.place == 1 && reading.length == length && reading.count == number_of_blocks
        && reading.lock == 0 && reading.blocks == 0 && reading.size == 0;
}

static void p2_answers_to_23(void)
{
    struct ref_command one = many(0x23, 2, 9, 0), three = many(0x23, 0, 1, 2), all = many(0x23, 1, 0, 255);
    CHECK(reads(one, "00 AA") == 0 && told_many(REF_MEANS_BLOCKS, 1, 1));
    CHECK(reads(one, "00 " U U U U) == 0 && told_many(REF_MEANS_BLOCKS, 32, 1));
    CHECK(reads(one, "00 " U U U U " 00") == 9);                               /* a block of 33 */
    CHECK(reads(one, "00") == 9);
    CHECK(reads(three, "00 01 02 03") == 0 && told_many(REF_MEANS_BLOCKS, 1, 3));
    CHECK(reads(three, "00 FF FF FF FF FF FF") == 0 && told_many(REF_MEANS_BLOCKS, 2, 3));
    CHECK(reads(three, "00 01 02") == 9);
    CHECK(reads(three, "00 01 02 03 04") == 9);
    CHECK(reads(three, "00") == 9);
    CHECK(reads(three, "01 01 02 03") == 9);
    CHECK(reads(three, "02 01 02 03") == 9);
    CHECK(reads(three, "01 10") == 0 && reading.meaning == REF_MEANS_ERROR && reading.error == 0x10);
    CHECK(reads_long(three, 96, 1) == 0 && told_many(REF_MEANS_BLOCKS, 32, 3));
    CHECK(reads_long(three, 99, 1) == 9);
    CHECK(reads_long(all, 256, 1) == 0 && told_many(REF_MEANS_BLOCKS, 1, 256));
    CHECK(reads_long(all, 8192, 1) == 0 && told_many(REF_MEANS_BLOCKS, 32, 256));
    CHECK(reads_long(all, 8191, 1) == 9);
    CHECK(reads_long(all, 8193, 1) == 9);
    CHECK(reads_long(all, 8448, 1) == 9);
    CHECK(reads_long(many(0x23, 1, 0, 254), 8192, 1) == 9);                    /* one block fewer was asked for */
}

static void p2_answers_to_23_with_option(void)
{
    struct ref_command one = with_option(many(0x23, 2, 9, 0)), two = with_option(many(0x23, 0, 1, 1)), all = with_option(many(0x23, 1, 0, 255));
    CHECK(reads(one, "00 01 AA") == 0 && told_many(REF_MEANS_BLOCKS, 1, 1));
    CHECK(reads(one, "00 00 " U U U U) == 0 && told_many(REF_MEANS_BLOCKS, 32, 1));
    CHECK(reads(one, "00 00 " U U U U " 00") == 9);
    CHECK(reads(one, "00 01") == 9);                                           /* a block of 0 */
    CHECK(reads(one, "00 02 AA") == 9);
    CHECK(reads(two, "00 00 AA 01 BB") == 0 && told_many(REF_MEANS_BLOCKS, 1, 2));
    CHECK(reads(two, "00 01 AA AA 00 BB BB") == 0 && told_many(REF_MEANS_BLOCKS, 2, 2));
    CHECK(reads(two, "00 00 AA 02 BB") == 9);
    CHECK(reads(two, "00 02 AA 00 BB") == 9);
    CHECK(reads(two, "00 00 01") == 9);
    CHECK(reads(two, "00 00 01 00") == 9);
    CHECK(reads(two, "00 00 AA AA 00 BB") == 9);
    CHECK(reads(two, "01 02") == 0 && reading.meaning == REF_MEANS_ERROR);
    CHECK(reads_long(all, 8448, 33) == 0 && told_many(REF_MEANS_BLOCKS, 32, 256));
    CHECK(reads_long(all, 512, 2) == 0 && told_many(REF_MEANS_BLOCKS, 1, 256));
    CHECK(reads_long(all, 256, 1) == 9);
    CHECK(reads_long(all, 8704, 34) == 9);
    CHECK(reads_long(all, 8447, 33) == 9);
}

static void p2_answers_to_2c(void)
{
    struct ref_command one = many(0x2C, 2, 9, 0), three = many(0x2C, 0, 1, 2), all = many(0x2C, 1, 0, 255);
    CHECK(reads(one, "00 00") == 0 && told_many(REF_MEANS_LOCKS, 1, 1));
    CHECK(reads(one, "00 01") == 0 && told_many(REF_MEANS_LOCKS, 1, 1));
    CHECK(reads(one, "00 02") == 9);
    CHECK(reads(one, "00") == 9);
    CHECK(reads(one, "00 00 00") == 9);
    CHECK(reads(one, "01 01") == 0 && reading.meaning == REF_MEANS_ERROR && reading.error == 1 && reading.count == 0);
    CHECK(reads(one, "01 00") == 9);
    CHECK(reads(three, "00 01 00 01") == 0 && told_many(REF_MEANS_LOCKS, 1, 3));
    CHECK(reads(three, "00 01 00 02") == 9);
    CHECK(reads(three, "00 01 00") == 9);
    CHECK(reads(three, "00 01 00 01 00") == 9);
    CHECK(reads(three, "00 01 00 01 00 01 00") == 9);
    CHECK(reads_long(all, 256, 1) == 0 && told_many(REF_MEANS_LOCKS, 1, 256));
    CHECK(reads_long(all, 255, 1) == 9);
    CHECK(reads_long(all, 257, 1) == 9);
}

static void p2_order_7_8_9(void)
{
    CHECK(reads_raw(many(0x23, 0, 255, 1), "00 78 F1") == 7);
    CHECK(reads_raw(with_option(many(0x2C, 0, 0, 0)), "00 00") == 7);
    CHECK(reads_raw(many(0x23, 0, 0, 0), "00 78 F1") == 8);
    CHECK(reads_raw(many(0x2C, 0, 0, 0), "") == 8);
    CHECK(reads_raw(many(0x2C, 0, 0, 0), "00 78 F0") == 9);
}

/* ==================================================================== slips */

static void slips_of_the_bought_rack(void)
{
    CHECK(over(5, 100, 30, 0) == 30);                    /* not 70 */
    q37_select_for_another();
    q28_selected_takes_part_quiet_not();
    q25_mask_of_60_bits_takes_its_slot();
    begin();
    chip(3, 0x40)[78] = 1;
    finish();
    chp("0E 40");
    CHECK(tag(0)[78] == 0 && tag(0)[76] == 3);
}

/* ===================================================================== list */

#define TEST(name) { #name, name }
static const struct { const char *name; void (*run)(void); } TESTS[] = {
    TEST(a_sum_of_no_bytes), TEST(c2_published_sums), TEST(c2_residue_f0b8), TEST(c4_handy_frames),
    TEST(appendix_a_agrees_on_many_bytes), TEST(sum_low_byte_first),
    TEST(b_slot_2_answers_slot_1_not), TEST(c_without_reload_bits_only_fall),
    TEST(d_with_reload_the_word_is_written), TEST(e_counter_equal), TEST(f_counter_lower),
    TEST(g_counter_higher), TEST(h_reload_set_by_block_6), TEST(i_reload_stays_off),
    TEST(j_block_255), TEST(k_apart_in_the_top_four_bits), TEST(l_no_label), TEST(walk_example),
    TEST(q1_lowest_number_wins), TEST(q2_n_counts_all_tags),
    TEST(q3_twins_refused_whatever_their_afi), TEST(q4_5_before_6_and_events_take_twins),
    TEST(q5_exact_sizes_are_taken), TEST(q6_nothing_after_the_last), TEST(q7_odd_but_legal_slots),
    TEST(q8_slots_and_masks), TEST(q8_other_label_rules), TEST(q8_contents_rules),
    TEST(q9_chip_rules), TEST(q10_no_more_rules), TEST(q11_several_answers_leave_the_buffer),
    TEST(q12_refusals_change_nothing), TEST(q13_draw_of_the_entry), TEST(q14_frames_of_any_length),
    TEST(q15_rounds_counted_from_the_uids),
    TEST(q16_off_clears_slot_length_and_mask), TEST(q17_on_leaves_those_that_are_on),
    TEST(q17_on_wakes_those_that_are_off), TEST(q18_off_tags_ignore_the_rest),
    TEST(labels_ignore_5_chips_ignore_3_and_4),
    TEST(q19_any_label_frame_ends_the_sequence), TEST(q20_failed_inventory_ends_and_starts_none),
    TEST(q21_filter_is_the_afi_alone), TEST(q22_spare_bits_not_stored),
    TEST(q23_sixteen_chances_and_a_clean_end), TEST(q24_end_of_frame_with_nothing_running),
    TEST(q25_slot_right_above_the_mask), TEST(q25_mask_of_60_bits_takes_its_slot),
    TEST(q26_mask_lengths), TEST(q27_too_few_bytes), TEST(q28_selected_takes_part_quiet_not),
    TEST(q29_inventory_flag_with_other_commands), TEST(inventory_afi_filter),
    TEST(p1_table_1), TEST(p1_walk_of_a_family), TEST(flag_bits_0_and_1_are_ignored),
    TEST(q30_select_and_address_both), TEST(q31_address_under_12_bytes),
    TEST(q32_quiet_acts_only_when_addressed), TEST(q33_twins_are_both_owners),
    TEST(q34_unknown_codes), TEST(command_01_without_inventory_flag), TEST(q35_stay_quiet),
    TEST(q36_select_without_address), TEST(q37_select_for_another),
    TEST(q38_ill_formed_select_for_another), TEST(q39_select_for_the_owner),
    TEST(q40_select_is_12_bytes_in_all),
    TEST(q41_order_of_checks), TEST(q42_length_of_a_write_is_the_labels_own),
    TEST(q43_select_flag_carries_no_uid), TEST(q44_only_20_and_23_take_option),
    TEST(q45_afi_and_dsfid_run_crosswise), TEST(q45_dsfid_lock_alone), TEST(read_write_lock_a_block),
    TEST(last_block_of_256), TEST(annex_c_frame),
    TEST(p2_23_reads_blocks), TEST(p2_2c_tells_lock_bytes), TEST(p2_a_block_past_the_end),
    TEST(p2_past_the_end_of_256), TEST(p2_order_of_checks), TEST(p2_lengths_are_6_and_14),
    TEST(p2_who_acts), TEST(p2_the_longest_answer), TEST(p2_two_of_the_longest_collide),
    TEST(p2_refusal_3_of_every_event),
    TEST(q46_low_half_of_255_stays), TEST(q47_lock_at_once), TEST(every_lock_bit_locks_its_block),
    TEST(q48_reload_only_by_a_real_change), TEST(q49_reload_is_for_the_addressed_block_alone),
    TEST(q50_select_own_id), TEST(q51_select_other_id), TEST(q52_pcall16),
    TEST(q53_initiate_and_states), TEST(q54_other_lengths_and_addresses), TEST(slot_markers),
    TEST(q55_low_byte_first), TEST(q55_counters_compared_as_numbers), TEST(q56_0c_and_0f),
    TEST(state_3_only), TEST(blocks_7_to_15_become_w), TEST(figure_22),
    TEST(q57_alone_first_then_depth_first), TEST(q58_slots_cleared_states_stay), TEST(q59_rounds),
    TEST(q59_sixty_four_labels), TEST(q60_afi_00_and_no_afi), TEST(q61_list_is_low_byte_first),
    TEST(writer_frames), TEST(writer_annex_c_2), TEST(q63_what_is_no_request),
    TEST(q63_option_data_slot_and_address), TEST(q64_flags_of_inventory), TEST(q64_mask_of_figure_8),
    TEST(q65_mask_rules), TEST(q66_inventory_answers), TEST(q66_commands_without_answer),
    TEST(q66_block_answers), TEST(q66_plain_answers), TEST(q66_system_answers),
    TEST(q66_chip_answers), TEST(q67_error_frames), TEST(q68_order_7_8_9),
    TEST(q69_refusals_are_zero_beside_the_number), TEST(p2_requests), TEST(p2_answers_to_23),
    TEST(p2_answers_to_23_with_option), TEST(p2_answers_to_2c), TEST(p2_order_7_8_9), TEST(slips_of_the_bought_rack)
};

int main(void)
{
    int passed = 0, failed = 0;
    for (size_t i = 0; i < sizeof TESTS / sizeof TESTS[0]; i++) {
        good = 1;
        memset(draws, 0, sizeof draws);
        TESTS[i].run();
        passed += good;
        failed += !good;
        if (!good)
            printf("FAILED %s\n", TESTS[i].name);
    }
    printf("%d passed, %d failed\n", passed, failed);
    return failed != 0;
}
