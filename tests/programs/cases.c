/* cases.c - seeded racks, event scripts for play and texts for make:
 *
 *     cases SEED COUNT ROUNDS FOLDER
 *
 * writes N.rack, N.events, N.text and N.afis (AFIs to walk the rack with) to
 * the folder, N from 0 on, and N.made where the text must give that rack; and ROUNDS racks that are well-formed,
 * round-N.rack, and damaged-N.rack. The first few scripts are at the edges of
 * the text (EDGES), the others random. The same seed gives the same files
 * everywhere. */
#include "cases.h"

#include <stdlib.h>
#include <string.h>

enum {
    LINE_MOST = 262143       /* the longest line that play takes */
};

/* ---------------------------------------------------------- lines at length */

/* A line of so many bytes before its newline: blanks, a comment, an event
 * with blanks behind, a frame or draws of as many bytes as go into it. */
static void long_line(struct script *s, uint32_t how, size_t len)
{
    len -= strlen(s->end) - 1;               /* a carriage return counts */
    if (how == 0) {
        put_many(s, ' ', len);
    } else if (how == 1) {
        put_many(s, '#', len);
    } else if (how == 2) {
        put(s, "on");
        put_many(s, '\t', len - 2);
    } else if (how == 3) {
        put(s, "label+ ");
        put_many(s, '0', len - 7);
    } else if (how == 4) {
        put(s, "label ");
        put_many(s, '0', len - 6);
    } else {
        put(s, "draws ");
        put_many(s, 'a', len - 7);
        put(s, len % 2 ? "#" : "b");
    }
    end_line(s);
}

/* Of the longest length, one less, one longer, and two buffers long. */
static void long_lines(struct script *s)
{
    static const size_t lengths[] = { LINE_MOST - 1, LINE_MOST, LINE_MOST + 1, LINE_MOST + 2, 2 * LINE_MOST + 2, 600001 };
    for (uint32_t how = 0; how < 6; how++)
        for (size_t i = 0; i < sizeof lengths / sizeof lengths[0]; i++) {
            long_line(s, how, lengths[i]);
            put(s, "eof");
            end_line(s);
        }
}

/* ----------------------------------------------------------------- scripts */

static void empty_line(struct script *s)
{
    blanks(s, 0);
    if (gen_chance(&s->g, 50))
        put(s, gen_chance(&s->g, 50) ? "#on" : "# off");
    end_line(s);
}

static void random_lines(struct script *s, uint32_t count)
{
    while (count-- > 0) {
        uint32_t how = gen_below(&s->g, 100);
        if (how < 4)
            empty_line(s);
        else if (how < 12)
            bad_line(s);
        else if (how < 55)
            say_one(s);
        else
            play_one(s);
    }
}

/* Script n of the edges; from 4 on the odd ones end their lines in two bytes. */
static void edge_script(struct script *s, uint32_t n)
{
    s->end = n % 2 ? "\r\n" : "\n";
    switch (n) {
    case 0: break;                                       /* empty */
    case 1: put(s, "on\r\non\r"); break;                 /* no last newline, a carriage return alone */
    case 2: put(s, "on\noff"); break;
    case 3: put(s, "\r\n\n \n\r\r\non\r\r\n"); break;
    case 4:
    case 5: put(s, "on"); end_line(s); bad_lines(s); random_lines(s, 20); break;
    case 6:
    case 7: long_lines(s); break;
    case 8: put(s, "on\n"); put_many(s, '#', LINE_MOST); break;
    case 9: put(s, "on\n"); put_many(s, '#', LINE_MOST + 1); break;
    case 10: put(s, "on\n"); put_many(s, 0, LINE_MOST); put(s, "\n"); break;
    case 11: put_many(s, '\n', 300000); put(s, "on"); break;
    case 12: put(s, "\xEF\xBB\xBF"); put(s, "on now\nOFF"); break;
    case 13: put(s, "\xEF\xBB\xBF"); break;
    default: put(s, "on"); end_line(s); odd_lines(s); break;
    }
}

enum { EDGES = 15 };

static void random_script(struct script *s)
{
    s->end = gen_chance(&s->g, 80) ? "\n" : "\r\n";
    mark(s);
    random_lines(s, gen_chance(&s->g, 80) ? 20 + gen_below(&s->g, 80) : 250);
    if (gen_chance(&s->g, 30))
        put(s, gen_chance(&s->g, 50) ? "off" : "label+ 26 01 0");
}

/* ------------------------------------------------------------------- files */

static FILE *create(const char *folder, const char *front, uint32_t n, const char *kind)
{
    char path[4096];
    snprintf(path, sizeof path, "%s/%s%u.%s", folder, front, (unsigned)n, kind);
    FILE *out = fopen(path, "wb");
    if (out == NULL) {
        perror(path);
        exit(2);
    }
    return out;
}

static void finish(FILE *out)
{
    if (fclose(out) != 0) {
        perror("cases");
        exit(2);
    }
}

static void write_file(const char *folder, const char *front, uint32_t n, const char *kind, const uint8_t *bytes, size_t len)
{
    FILE *out = create(folder, front, n, kind);
    fwrite(bytes, 1, len, out);
    finish(out);
}

/* The rack that events are made for, and a file of it, damaged or not; the
 * edges have tags and are sound. */
static void make_rack(struct script *s, const char *folder, uint32_t n)
{
    static uint8_t file[GEN_RACK_ROOM];
    uint32_t how = n < EDGES ? 99 : gen_below(&s->g, 100);
    do {
        s->rack_len = how < 2 ? gen_over_rack(&s->g, s->rack)
                    : how < 4 ? gen_full_rack(&s->g, s->rack) : gen_rack(&s->g, s->rack);
    } while (n < EDGES && ref_rack_tags(s->rack) == 0);
    if (how >= 4)
        soften(&s->g, s->rack);
    size_t len = s->rack_len;
    memcpy(file, s->rack, len);
    if (how >= 4 && how < 19)
        len = gen_damage(&s->g, file, len);
    write_file(folder, "", n, "rack", file, len);
}

/* Lines that cannot be read, wherever they stand. */
static const char *const BAD_TEXT[] = {
    "hello", "state", "state sleeping", "state 1", "afi 3", "afi 311", "afi GG", "afi", "dsfid 0D lock", "dsfid", "ic", "ic 1 2",
    "slot x", "slot", "mask 5", "mask x/00", "mask 5/0G", "mask", "blocks", "blocks 4", "blocks 4 off 4", "blocks 0 of 4",
    "blocks 257 of 4", "blocks 4 of 0", "blocks 4 of x", "blocks x of 4", "300 00", "0 0G", "0 00 lock", "0 00 locked 1", "0 63 6",
    "0 00 zz", "fixed maybe", "fixed", "reload", "reload 1", "id 1", "id", "label E00", "label", "chip", "chip E0000000000000123",
    "label E00000000000001G", "rack edition 1", "rack", "state off ready", "1x 00", "x1 00", "-1 00", "labels", "# fine",
    "afi 31 locked locked", "state# off", "16 00"
};

static void bad_text_line(struct script *s)
{
    blanks(s, 0);
    put(s, BAD_TEXT[gen_below(&s->g, sizeof BAD_TEXT / sizeof BAD_TEXT[0])]);
    tail(s);
}

/* The rack's text; of odd cases spoiled: fields that no rack has, or a line
 * that cannot be read behind any line. */
static void make_text(struct script *s, const char *folder, uint32_t n)
{
    static uint8_t rack[GEN_RACK_ROOM];
    static char text[1 << 20];
    int spoiled = n % 2, by_field = gen_chance(&s->g, 50);
    memcpy(rack, s->rack, s->rack_len);
    if (spoiled && by_field)
        break_fields(&s->g, rack);
    s->out = tmpfile();
    s->end = gen_chance(&s->g, 80) ? "\n" : "\r\n";
    rack_text(s, rack);
    rewind(s->out);
    size_t len = fread(text, 1, sizeof text, s->out), cut = gen_below(&s->g, (uint32_t)len + 1);
    fclose(s->out);
    while (cut > 0 && text[cut - 1] != '\n')
        cut--;
    s->out = create(folder, "", n, "text");
    fwrite(text, 1, cut, s->out);
    if (spoiled && !by_field)
        bad_text_line(s);
    fwrite(text + cut, 1, len - cut, s->out);
    finish(s->out);
    if (!spoiled && ref_well_formed(rack, s->rack_len))
        write_file(folder, "", n, "made", rack, s->rack_len);
}

/* AFIs that meet those of the rack's labels, two digits each, in either case. */
static void make_afis(struct script *s, const char *folder, uint32_t n)
{
    size_t tags = ref_well_formed(s->rack, s->rack_len) ? ref_rack_tags(s->rack) : 0;
    s->out = create(folder, "", n, "afis");
    for (int i = 0; i < 4; i++) {
        size_t entry = tags ? gen_below(&s->g, (uint32_t)tags) : 0;
        uint8_t near = tags ? s->rack[ref_rack_offset(s->rack, entry) + LABEL_AFI] : gen_byte(&s->g);
        fprintf(s->out, gen_chance(&s->g, 50) ? "%02X\n" : "%02x\n", gen_afi(&s->g, near));
    }
    finish(s->out);
}

static void make_case(struct script *s, uint64_t seed, const char *folder, uint32_t n)
{
    gen_seed(&s->g, seed * 1000003u + n);
    memset(s->draws, 0, sizeof s->draws);
    make_rack(s, folder, n);
    make_afis(s, folder, n);
    make_text(s, folder, n);
    s->out = create(folder, "", n, "events");
    if (n < EDGES)
        edge_script(s, n);
    else
        random_script(s);
    finish(s->out);
}

static void make_round(struct script *s, uint64_t seed, const char *folder, uint32_t n)
{
    gen_seed(&s->g, seed * 1000003u + 500000u + n);
    s->rack_len = gen_chance(&s->g, 5) ? gen_full_rack(&s->g, s->rack) : gen_rack(&s->g, s->rack);
    if (gen_chance(&s->g, 80))
        soften(&s->g, s->rack);
    write_file(folder, "round-", n, "rack", s->rack, s->rack_len);
    s->rack_len = gen_damage(&s->g, s->rack, s->rack_len);
    write_file(folder, "damaged-", n, "rack", s->rack, s->rack_len);
}

int main(int argc, char **argv)
{
    static struct script s;
    if (argc != 5) {
        fputs("usage: cases SEED COUNT ROUNDS FOLDER\n", stderr);
        return 2;
    }
    uint64_t seed = strtoull(argv[1], NULL, 10);
    for (uint32_t n = 0; n < strtoul(argv[2], NULL, 10); n++)
        make_case(&s, seed, argv[4], n);
    for (uint32_t n = 0; n < strtoul(argv[3], NULL, 10); n++)
        make_round(&s, seed, argv[4], n);
    return 0;
}
