/* says_text.c - lines, words, numbers and bytes as text. */
#include "says.h"

#include <string.h>

enum {
    LINE_MOST = 262143       /* bytes before a newline, a carriage return among them */
};

/* What stands behind "expected": the words of the programs. */
static const char *const EXPECTED[] = {
    [AN_EVENT] = "an event or a command",
    [THE_END] = "the end of the line",
    [A_HEX_DIGIT] = "a hex digit",
    [A_SECOND_DIGIT] = "a second hex digit",
    [A_TARGET] = "a UID, all or selected",
    [A_NUMBER] = "a number",
    [A_BYTE] = "two hex digits",
    [A_BYTE_OR_LOCK] = "two hex digits or lock",
    [A_MASK] = "a mask as BITS/HEX",
    [A_QUOTE] = "a quote",
    [THE_EDITION] = "rack edition 1",
    [A_TAG] = "label or chip",
    [A_FIELD] = "a field",
    [A_STATE] = "a state",
    [YES_OR_NO] = "yes or no",
    [A_UID] = "a UID",
    [THE_WORD_OF] = "of",
    [A_BLOCK] = "the number of a block",
    [NO_MORE_BYTES] = "no more bytes",
    [BLOCKS_FIRST] = "blocks before the first block",
    [TO_LOCK_OR_END] = "to, lock or the end of the line",
    [LOCK_OR_END] = "lock or the end of the line",
    [TO_OR_END] = "to or the end of the line",
    [A_LAST_BLOCK] = "a last block, no lower than the first"
};

const char *expected(const struct line *line)
{
    return EXPECTED[line->what];
}

void offend(struct line *line, size_t place, enum what what)
{
    if (line->bad)
        return;
    line->bad = 1;
    line->column = place + 1;
    line->what = what;
}

/* ------------------------------------------------------------------- lines */

struct bytes without_mark(struct bytes input)
{
    if (input.len >= 3 && memcmp(input.at, "\xEF\xBB\xBF", 3) == 0) {
        input.at += 3;
        input.len -= 3;
    }
    return input;
}

int next_line(struct bytes input, size_t *from, struct line *line)
{
    if (*from >= input.len)
        return 0;
    const uint8_t *start = input.at + *from;
    const uint8_t *newline = memchr(start, '\n', input.len - *from);
    size_t len = newline ? (size_t)(newline - start) : input.len - *from;
    *from += len + 1;
    if (len > LINE_MOST)
        return -1;
    if (newline && len > 0 && start[len - 1] == '\r')
        len--;
    *line = (struct line){ start, len, 0, 0, 0, AN_EVENT };
    return 1;
}

static int blank(uint8_t c)
{
    return c == ' ' || c == '\t';
}

static int opens_word(const struct line *line, size_t at)
{
    return at == 0 || blank(line->at[at - 1]);
}

int at_end(struct line *line)
{
    while (line->pos < line->len && blank(line->at[line->pos]))
        line->pos++;
    return line->pos == line->len || (line->at[line->pos] == '#' && opens_word(line, line->pos));
}

void take_end(struct line *line)
{
    if (!line->bad && !at_end(line))
        offend(line, line->pos, THE_END);
}

/* ------------------------------------------------------------------- words */

/* How long the word is that stands here, behind blanks; 0 for none. */
static size_t word_length(struct line *line)
{
    size_t len = 0;
    if (at_end(line))
        return 0;
    while (line->pos + len < line->len && !blank(line->at[line->pos + len]))
        len++;
    return len;
}

static uint8_t small(uint8_t c)
{
    return c >= 'A' && c <= 'Z' ? (uint8_t)(c + 'a' - 'A') : c;
}

int take_word(struct line *line, const char *word)
{
    size_t len = word_length(line);
    if (len != strlen(word))
        return 0;
    for (size_t i = 0; i < len; i++)
        if (small(line->at[line->pos + i]) != (uint8_t)word[i])
            return 0;
    line->pos += len;
    return 1;
}

int take_one_of(struct line *line, const char *const *words, enum what what)
{
    for (int i = 0; !line->bad && words[i] != NULL; i++)
        if (take_word(line, words[i]))
            return i;
    at_end(line);
    offend(line, line->pos, what);
    return -1;
}

/* A decimal number of at most this; -1 for anything else. */
static long decimal(const uint8_t *at, size_t len, unsigned most)
{
    unsigned long value = 0;
    for (size_t i = 0; i < len; i++) {
        if (at[i] < '0' || at[i] > '9')
            return -1;
        value = 10 * value + (unsigned long)(at[i] - '0');
        if (value > most)
            return -1;
    }
    return len == 0 ? -1 : (long)value;
}

unsigned take_number(struct line *line, unsigned least, unsigned most, enum what what)
{
    size_t len = word_length(line);
    long value = decimal(line->at + line->pos, len, most);
    if (value < (long)least) {
        offend(line, line->pos, what);
        return 0;
    }
    line->pos += len;
    return (unsigned)value;
}

/* --------------------------------------------------------------------- hex */

static int digit(uint8_t c)
{
    static const char digits[] = "0123456789abcdef";
    const char *found = c ? strchr(digits, small(c)) : NULL;
    return found == NULL ? -1 : (int)(found - digits);
}

static int all_digits(const uint8_t *at, size_t len)
{
    for (size_t i = 0; i < len; i++)
        if (digit(at[i]) < 0)
            return 0;
    return 1;
}

static uint64_t hex_number(const uint8_t *at, size_t len)
{
    uint64_t value = 0;
    for (size_t i = 0; i < len; i++)
        value = value << 4 | (uint64_t)digit(at[i]);
    return value;
}

/* The next word as so many bytes in hex, high byte first, parted as bytes are. */
static int word_bytes(struct line *line, size_t bytes, uint64_t *value)
{
    uint8_t out[8];
    size_t length = word_length(line);
    struct line word = *line;
    word.len = line->pos + length;
    if (take_hex(&word, 0, out, bytes) != bytes || word.bad)
        return 0;
    *value = 0;
    for (size_t i = 0; i < bytes; i++)
        *value = *value << 8 | out[i];
    return 1;
}

int hex_word(struct line *line, size_t digits)
{
    uint64_t value;
    return word_bytes(line, digits / 2, &value);
}

static uint64_t take_digits(struct line *line, size_t digits, enum what what)
{
    uint64_t value = 0;
    if (!word_bytes(line, digits / 2, &value))
        offend(line, line->pos, what);
    else
        line->pos += word_length(line);
    return value;
}

uint8_t take_byte(struct line *line, enum what what)
{
    return (uint8_t)take_digits(line, 2, what);
}

uint64_t take_uid(struct line *line, enum what what)
{
    return take_digits(line, 16, what);
}

unsigned take_mask(struct line *line, uint64_t *mask)
{
    size_t len = word_length(line);
    const uint8_t *word = line->at + line->pos;
    const uint8_t *stroke = len ? memchr(word, '/', len) : NULL;
    size_t front = stroke ? (size_t)(stroke - word) : 0;
    long bits = stroke ? decimal(word, front, 64) : -1;
    size_t digits = stroke ? len - front - 1 : 0;
    if (bits < 0 || digits != 2 * (((size_t)bits + 7) / 8) || !all_digits(stroke + 1, digits)) {
        offend(line, line->pos, A_MASK);
        return 0;
    }
    *mask = hex_number(stroke + 1, digits);
    line->pos += len;
    return (unsigned)bits;
}

/* -------------------------------------------------------------------- data */

/* What may stand between two bytes besides blanks. */
static int parts_bytes(uint8_t c)
{
    return c == ':' || c == '-';
}

/* Passes what may stand before a byte; whether there is none to come. */
static int no_more_hex(struct line *line, int stops)
{
    while (!at_end(line) && parts_bytes(line->at[line->pos]))
        line->pos++;
    return at_end(line) || (stops && opens_word(line, line->pos) && digit(line->at[line->pos]) < 0);
}

/* A pair of digits, 0x before it or not. */
static uint8_t take_pair(struct line *line)
{
    size_t at = line->pos;
    if (at + 3 < line->len && line->at[at] == '0' && small(line->at[at + 1]) == 'x' && digit(line->at[at + 2]) >= 0
        && digit(line->at[at + 3]) >= 0)
        at += 2;
    if (digit(line->at[at]) < 0) {
        offend(line, at, A_HEX_DIGIT);
    } else if (at + 1 == line->len || blank(line->at[at + 1]) || parts_bytes(line->at[at + 1])) {
        offend(line, at, A_SECOND_DIGIT);
    } else if (digit(line->at[at + 1]) < 0) {
        offend(line, at + 1, A_HEX_DIGIT);
    } else {
        line->pos = at + 2;
        return (uint8_t)hex_number(line->at + at, 2);
    }
    return 0;
}

size_t take_hex(struct line *line, int stops, uint8_t *out, size_t most)
{
    size_t n = 0;
    while (!line->bad && !no_more_hex(line, stops)) {
        size_t from = line->pos;
        uint8_t byte = take_pair(line);
        if (line->bad)
            return n;
        if (n == most)
            offend(line, from, NO_MORE_BYTES);
        else
            out[n++] = byte;
    }
    return n;
}

size_t take_data(struct line *line, int stops, uint8_t *out, size_t most)
{
    if (at_end(line) || line->at[line->pos] != '"')
        return take_hex(line, stops, out, most);
    const uint8_t *text = line->at + line->pos + 1;
    const uint8_t *quote = memchr(text, '"', line->len - line->pos - 1);
    if (quote == NULL) {
        offend(line, line->len, A_QUOTE);
        return 0;
    }
    size_t len = (size_t)(quote - text);
    if (len > most) {
        offend(line, line->pos + 1 + most, NO_MORE_BYTES);
        return 0;
    }
    memcpy(out, text, len);
    line->pos += len + 2;
    if (line->pos < line->len && !blank(line->at[line->pos]))
        offend(line, line->pos, THE_END);
    return len;
}
