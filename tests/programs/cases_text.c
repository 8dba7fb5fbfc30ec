/* cases_text.c - pieces of text. See cases.h. */
#include "cases.h"

#include <ctype.h>

void put(struct script *s, const char *text)
{
    fputs(text, s->out);
}

void put_many(struct script *s, int c, size_t n)
{
    while (n-- > 0)
        putc(c, s->out);
}

void end_line(struct script *s)
{
    put(s, s->end);
}

void blanks(struct script *s, uint32_t least)
{
    uint32_t n = least + (gen_chance(&s->g, 15) ? gen_below(&s->g, 4) : 0);
    while (n-- > 0)
        putc(gen_chance(&s->g, 80) ? ' ' : '\t', s->out);
}

void tail(struct script *s)
{
    blanks(s, 0);
    if (gen_chance(&s->g, 10)) {
        blanks(s, 1);
        put(s, gen_chance(&s->g, 50) ? "# 2G on label+ 26" : "#");
    }
    end_line(s);
}

void word(struct script *s, const char *text)
{
    uint32_t how = gen_below(&s->g, 10);
    for (; *text; text++)
        putc(how == 0 || (how == 1 && gen_chance(&s->g, 50)) ? toupper(*text) : *text, s->out);
}

/* What stands between two bytes. */
static void gap(struct script *s, uint32_t style)
{
    if (style == 0)
        blanks(s, gen_chance(&s->g, 97));
    else if (style == 1)
        putc(':', s->out);
    else if (style == 2)
        putc('-', s->out);
}

/* Letters of both cases; blanks, colons, strokes or nothing between bytes. */
void hex(struct script *s, const uint8_t *bytes, size_t len)
{
    uint32_t style = gen_chance(&s->g, 70) ? 0 : 1 + gen_below(&s->g, 3);
    int small = gen_chance(&s->g, 25), mixed = gen_chance(&s->g, 10), marked = gen_chance(&s->g, 10);
    if (len >= 1000)
        style = 3;
    for (size_t i = 0; i < len; i++) {
        if (i > 0)
            gap(s, style);
        if (marked && len < 1000 && gen_chance(&s->g, 70))
            put(s, gen_chance(&s->g, 80) ? "0x" : "0X");
        int low = mixed ? gen_chance(&s->g, 50) : small;
        fprintf(s->out, low ? "%02x" : "%02X", bytes[i]);
    }
}

void data(struct script *s, const uint8_t *bytes, size_t len)
{
    int quoted = len > 0 && gen_chance(&s->g, 70);
    for (size_t i = 0; i < len; i++)
        quoted = quoted && bytes[i] >= 0x20 && bytes[i] <= 0x7E && bytes[i] != '"';
    if (!quoted) {
        hex(s, bytes, len);
        return;
    }
    putc('"', s->out);
    fwrite(bytes, 1, len, s->out);
    putc('"', s->out);
}

void digits(struct script *s, uint64_t number, unsigned bytes)
{
    int small = gen_chance(&s->g, 20);
    for (unsigned i = bytes; i-- > 0;)
        fprintf(s->out, small ? "%02x" : "%02X", (unsigned)(number >> (8 * i) & 0xFFu));
}

void mask(struct script *s, unsigned bits, uint64_t mask)
{
    fprintf(s->out, "%u/", bits);
    digits(s, mask, (bits + 7) / 8);
}

void mark(struct script *s)
{
    if (gen_chance(&s->g, 10))
        put(s, "\xEF\xBB\xBF");
}
