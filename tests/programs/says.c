/* says.c - what the programs play, show, make and walk must print and write,
 * by the rules of reference/ and by what docs/FORMAT.md says of the text.
 *
 *     says play [-q] RACK [NEXT]     events on standard input
 *     says show RACK
 *     says make TEXT RACK
 *     says walk [--afi HH] [RACK]    else the rack on standard input
 *
 * It reads its input whole and then goes through it, and shares nothing with
 * the programs. */
#include "says.h"

#include <errno.h>
#include <stdio.h>
#include <stdlib.h>
#include <string.h>
#include <strings.h>

/* ------------------------------------------------------------------- files */

void *must(void *memory)
{
    if (memory == NULL) {
        fputs("says: no memory\n", stderr);
        exit(2);
    }
    return memory;
}

/* What cannot be opened, read or written, with the system's words for it. */
static void fail(const char *what)
{
    fprintf(stderr, "%s: %s\n", what, strerror(errno));
}

static struct bytes read_whole(FILE *in)
{
    struct bytes all = { must(malloc(1 << 16)), 0 };
    size_t room = 1 << 16, got;
    while ((got = fread(all.at + all.len, 1, room - all.len, in)) > 0) {
        all.len += got;
        if (all.len == room)
            all.at = must(realloc(all.at, room *= 2));
    }
    return all;
}

struct bytes read_file(const char *path)
{
    struct bytes none = { NULL, 0 };
    const char *name = path ? path : "input";
    errno = 0;
    FILE *in = path ? fopen(path, "rb") : stdin;
    if (in == NULL) {
        fail(name);
        return none;
    }
    struct bytes all = read_whole(in);
    if (ferror(in)) {
        fail(name);
        free(all.at);
        all = none;
    }
    if (path)
        fclose(in);
    return all;
}

struct bytes read_events(void)
{
    errno = 0;
    struct bytes all = read_whole(stdin);
    if (ferror(stdin)) {
        fail("input");
        while (all.len > 0 && all.at[all.len - 1] != '\n')
            all.len--;
    }
    return all;
}

void write_rack(const char *path, struct bytes rack)
{
    FILE *out = fopen(path, "wb");
    if (out == NULL) {
        fail(path);
        return;
    }
    if (fwrite(rack.at, 1, rack.len, out) != rack.len || fflush(out) != 0)
        fail(path);
    fclose(out);
}

int printed(void)
{
    errno = 0;
    if (fflush(stdout) == 0 && !ferror(stdout))
        return 1;
    fail("output");
    return 0;
}

/* -------------------------------------------------------------------- walk */

int walk(int has_afi, uint8_t afi, const char *path)
{
    uint8_t list[REF_UID * REF_TAGS_MOST];
    struct ref_walked walked;
    struct bytes rack = read_file(path);
    if (rack.at == NULL)
        return 0;
    ref_walk(rack.at, rack.len, has_afi, afi, list, sizeof list, &walked);
    if (walked.number != 0)
        printf("refused %u\n", (unsigned)walked.number);
    else
        printf("rounds %u\n", (unsigned)walked.rounds);
    for (size_t i = 0; i < walked.labels; i++)
        printf("%016llX\n", (unsigned long long)ref_number(list + REF_UID * i, REF_UID));
    printed();
    free(rack.at);
    return 0;
}

/* Walk's arguments: the first is `--afi`, or all that there is names a rack. */
static int walk_words(int count, char **words)
{
    if (count == 0 || strcasecmp(words[0], "--afi") != 0) {
        if (count > 1)
            fputs("usage: walk [--afi HH] [RACK]\n", stderr);
        return count > 1 ? 2 : walk(0, 0, count == 1 ? words[0] : NULL);
    }
    const char *word = count > 1 ? words[1] : "";
    static const char hex[] = "0123456789abcdefABCDEF";
    if (strlen(word) != 2 || strspn(word, hex) != 2) {
        fputs("walk: --afi takes two hex digits\n", stderr);
        return 2;
    }
    if (count > 3) {
        fputs("usage: walk [--afi HH] [RACK]\n", stderr);
        return 2;
    }
    return walk(1, (uint8_t)strtoul(word, NULL, 16), count == 3 ? words[2] : NULL);
}

int main(int argc, char **argv)
{
    const char *what = argc > 1 ? argv[1] : "";
    int quiet = argc > 2 && strcmp(what, "play") == 0 && strcmp(argv[2], "-q") == 0;
    int named = argc - 2 - quiet;
    char **names = argv + 2 + quiet;
    if (strcmp(what, "play") == 0 && (named == 1 || named == 2))
        return play(quiet, names[0], named == 2 ? names[1] : NULL);
    if (strcmp(what, "show") == 0 && named == 1)
        return show(names[0]);
    if (strcmp(what, "make") == 0 && named == 2)
        return make(names[0], names[1]);
    if (strcmp(what, "walk") == 0)
        return walk_words(named, names);
    fputs("usage: says play [-q] RACK [NEXT] | show RACK | make TEXT RACK | walk [--afi HH] [RACK]\n", stderr);
    return 2;
}
