/* says_play.c - the lines of events, and what becomes of them. */
#include "says.h"

#include <stdio.h>
#include <stdlib.h>
#include <string.h>

enum {
    DRAWS = REF_TAGS_MOST,
    MEANING = 60             /* a meaning stands behind so many bytes, or two blanks */
};

struct player {
    struct bytes rack;
    uint8_t *before;         /* the rack, as the event found it */
    uint8_t draws[DRAWS];
    unsigned long line;
    int quiet;
    uint8_t *frame;          /* room for what a line can say, and two more */
    size_t room;
};

/* ----------------------------------------------------------------- changes */

/* Parts of a line: what stands before the first and between two. */
static void part(int *parts, const char *head)
{
    printf("%s", (*parts)++ ? ", " : head);
}

static void tell_content(uint8_t kind, const struct block *block)
{
    if (kind == REF_KIND_CHIP && (block->number == 5 || block->number == 6)) {
        printf("counter %d is %llu", block->number, (unsigned long long)ref_number(block->at, 4));
        return;
    }
    printf("block %d", block->number);
    if (printable(block->at, block->len))
        printf(" \"%.*s\"", (int)block->len, (const char *)block->at);
    else
        for (size_t i = 0; i < block->len; i++)
            printf(" %02X", block->at[i]);
}

static void tell_blocks(uint8_t kind, uint8_t *old, uint8_t *now, int *parts, const char *head)
{
    for (int n = next_block(kind, now, -1); n >= 0; n = next_block(kind, now, n)) {
        struct block was = block_at(kind, old, n), is = block_at(kind, now, n);
        if (memcmp(was.at, is.at, is.len) != 0) {
            part(parts, head);
            tell_content(kind, &is);
        }
        if (is.locked && !was.locked) {
            part(parts, head);
            printf("block %d locked", n);
        }
    }
}

static void tell_label(uint8_t *old, uint8_t *now, int *parts, const char *head)
{
    uint8_t locks = (uint8_t)(now[LABEL_LOCKS] & ~old[LABEL_LOCKS]);
    if (old[LABEL_STATE] != now[LABEL_STATE])
        part(parts, head), printf("%s", LABEL_STATES[now[LABEL_STATE]]);
    if (old[LABEL_AFI] != now[LABEL_AFI])
        part(parts, head), printf("AFI %02X", now[LABEL_AFI]);
    if (old[LABEL_DSFID] != now[LABEL_DSFID])
        part(parts, head), printf("DSFID %02X", now[LABEL_DSFID]);
    if (locks & 1)
        part(parts, head), printf("AFI locked");
    if (locks & 2)
        part(parts, head), printf("DSFID locked");
}

static void tell_chip(uint8_t *old, uint8_t *now, int *parts, const char *head)
{
    if (old[CHIP_STATE] != now[CHIP_STATE])
        part(parts, head), printf("%s", CHIP_STATES[now[CHIP_STATE]]);
    if (old[CHIP_ID] != now[CHIP_ID])
        part(parts, head), printf("Chip_ID %02X", now[CHIP_ID]);
    if (old[CHIP_RELOAD] != now[CHIP_RELOAD])
        part(parts, head), printf("reload %s", now[CHIP_RELOAD] ? "on" : "off");
}

/* A line for each tag that the frame changed. */
static void tell_changes(struct player *p)
{
    for (size_t i = 0; i < ref_rack_tags(p->rack.at); i++) {
        uint8_t kind = ref_rack_kind(p->rack.at, i);
        uint8_t *old = p->before + ref_rack_offset(p->rack.at, i), *now = p->rack.at + ref_rack_offset(p->rack.at, i);
        char head[40];
        int parts = 0;
        sprintf(head, "  %s %016llX: ", kind == REF_KIND_LABEL ? "label" : "chip",
                (unsigned long long)uid_at(p->rack.at, i));
        if (kind == REF_KIND_LABEL)
            tell_label(old, now, &parts, head);
        else
            tell_chip(old, now, &parts, head);
        tell_blocks(kind, old, now, &parts, head);
        if (parts)
            printf("\n");
    }
}

/* ----------------------------------------------------------------- replies */

static int reply_text(const struct ref_report *report, const uint8_t *answer, char *out)
{
    char *from = out;
    if (report->number != 0)
        return sprintf(out, "refused %u", (unsigned)report->number);
    if (report->answered == 0)
        return sprintf(out, "silence");
    if (report->answered > 1)
        return sprintf(out, "collision of %u", (unsigned)report->answered);
    for (size_t i = 0; i < report->length; i++)
        out += sprintf(out, "%s%02X", i ? " " : "", answer[i]);
    return (int)(out - from);
}

static struct asked what_is_asked(uint8_t event, struct bytes frame)
{
    struct asked end = { INVENTORY, NULL, { 0 }, 0 };
    if (event == REF_LABEL_FRAME)
        return ask_label(frame.at, frame.len);
    if (event == REF_CHIP_FRAME)
        return ask_chip(frame.at, frame.len);
    end.command.kind = REF_KIND_LABEL;
    end.command.code = 0x01;
    end.command.sixteen = 1;
    return end;
}

/* Whether a tag answers: played as the rack found it, alone on a rack of one. */
static int answers(const struct player *p, size_t i, uint8_t event, struct bytes frame)
{
    static uint8_t rack[REF_RACK_MOST];
    uint8_t answer[REF_ANSWER];
    struct ref_report report;
    const uint8_t *entry = p->before + REF_HEAD + REF_ENTRY * i;
    size_t len = (size_t)ref_number(entry + 2, 2), head = REF_HEAD + REF_ENTRY;
    rack[0] = 1;
    rack[1] = 1;
    memcpy(rack + REF_HEAD, entry, REF_ENTRY);
    for (int k = 0; k < 4; k++)
        rack[REF_HEAD + 4 + k] = (uint8_t)(k == 0 ? head : 0);
    memcpy(rack + head, p->before + ref_rack_offset(p->before, i), len);
    ref_event(rack, head + len, event, frame.at, frame.len, p->draws + i, 1, answer, sizeof answer, &report);
    return report.answered == 1;
}

static void tell_owners(const struct player *p, uint8_t event, struct bytes frame, char *out)
{
    int parts = 0;
    for (size_t i = 0; i < ref_rack_tags(p->before); i++)
        if (answers(p, i, event, frame))
            out += sprintf(out, "%s%016llX", parts++ ? ", " : "", (unsigned long long)uid_at(p->before, i));
}

static void tell_meaning(const struct player *p, uint8_t event, struct bytes frame, const struct asked *asked,
                         const struct ref_report *report, const uint8_t *answer, int width)
{
    char meaning[MEANING_ROOM] = "";
    if (report->number != 0)
        return;
    if (report->answered == 1)
        meaning_of(asked, answer, report->length, meaning);
    else if (report->answered == 0)
        why_silent(p->rack.at, event, asked, frame.at, frame.len, meaning);
    else
        tell_owners(p, event, frame, meaning);
    if (*meaning)
        printf("%*s%s", width + 2 > MEANING ? 2 : MEANING - width, "", meaning);
}

static void play_event(struct player *p, uint8_t event, struct bytes frame)
{
    static const char *const words[] = { "", "off", "on", "label", "eof", "chip" };
    uint8_t answer[REF_ANSWER];
    char name[120], reply[3 * REF_ANSWER + 1];
    struct ref_report report;
    struct asked asked = what_is_asked(event, frame);
    memcpy(p->before, p->rack.at, p->rack.len);
    ref_event(p->rack.at, p->rack.len, event, frame.at, frame.len, p->draws, ref_rack_tags(p->rack.at), answer,
              sizeof answer, &report);
    strcpy(name, words[event]);
    if (!p->quiet && (event == REF_LABEL_FRAME || event == REF_CHIP_FRAME))
        name_of(&asked, name);
    reply_text(&report, answer, reply);
    int width = printf("%lu %s: %s", p->line, name, reply);
    if (!p->quiet)
        tell_meaning(p, event, frame, &asked, &report, answer, width);
    printf("\n");
    if (!p->quiet && (event == REF_LABEL_FRAME || event == REF_CHIP_FRAME))
        tell_changes(p);
}

/* -------------------------------------------------------- words for commands */

/* A command as it is said, UID and data beside it. */
struct said {
    struct ref_command command;
    uint64_t uid;
    size_t data;             /* bytes of it, in the player's frame */
};

static void take_target(struct line *line, struct said *said)
{
    if (take_word(line, "all")) {
        said->command.target = REF_EVERYONE;
    } else if (take_word(line, "selected")) {
        said->command.target = REF_SELECTED;
    } else {
        said->command.target = REF_ONE_UID;
        said->uid = take_uid(line, A_TARGET);
    }
}

static void take_inventory(struct line *line, struct ref_command *c)
{
    c->sixteen = (uint8_t)take_word(line, "16");
    c->afi_present = (uint8_t)take_word(line, "afi");
    if (c->afi_present)
        c->afi = take_byte(line, A_BYTE);
    if (!line->bad && take_word(line, "mask"))
        c->mask_bits = (uint8_t)take_mask(line, &c->mask);
}

/* afi and dsfid: to write, or the next code, to lock. */
static void take_field(struct line *line, struct ref_command *c)
{
    if (line->bad)
        return;
    if (take_word(line, "lock"))
        c->code++;
    else
        c->byte = take_byte(line, A_BYTE_OR_LOCK);
}

/* What stands behind a word: N a number, T a target, D data, H a byte, and
 * others that one word alone has. */
static const struct word {
    const char *text;
    uint8_t kind;
    uint16_t code;
    const char *takes;
} WORDS[] = {
    { "inventory", REF_KIND_LABEL, 0x01, "I" },
    { "quiet", REF_KIND_LABEL, 0x02, "T" },
    { "read", REF_KIND_LABEL, 0x20, "TNR" },
    { "write", REF_KIND_LABEL, 0x21, "TND" },
    { "lock", REF_KIND_LABEL, 0x22, "TN" },
    { "select", REF_KIND_LABEL, 0x25, "S" },
    { "ready", REF_KIND_LABEL, 0x26, "T" },
    { "afi", REF_KIND_LABEL, 0x27, "TF" },
    { "dsfid", REF_KIND_LABEL, 0x29, "TF" },
    { "info", REF_KIND_LABEL, 0x2B, "T" },
    { "status", REF_KIND_LABEL, 0x2C, "TNL" },
    { "initiate", REF_KIND_CHIP, REF_INITIATE, "" },
    { "pcall", REF_KIND_CHIP, REF_PCALL16, "" },
    { "slot", REF_KIND_CHIP, REF_SLOT_MARKER, "N" },
    { "get", REF_KIND_CHIP, REF_READ_BLOCK, "N" },
    { "put", REF_KIND_CHIP, REF_WRITE_BLOCK, "ND" },
    { "uid", REF_KIND_CHIP, REF_GET_UID, "" },
    { "reset", REF_KIND_CHIP, REF_RESET_TO_INVENTORY, "" },
    { "completion", REF_KIND_CHIP, REF_COMPLETION, "" }
};

/* select: two hex digits are a chip's, else a label's. */
static void take_select(struct line *line, struct said *said)
{
    if (hex_word(line, 2)) {
        said->command.kind = REF_KIND_CHIP;
        said->command.code = REF_SELECT;
        said->command.byte = take_byte(line, A_BYTE);
    } else {
        take_target(line, said);
    }
}

/* `to` and the last block, which may be the first. */
static int take_last(struct line *line, struct ref_command *c)
{
    if (!take_word(line, "to"))
        return 0;
    c->more = (uint8_t)(take_number(line, c->byte, 255, A_LAST_BLOCK) - c->byte);
    return 1;
}

/* read: one block, or several; with lock bytes or not. */
static void take_read(struct line *line, struct ref_command *c)
{
    int many = take_last(line, c);
    c->code = many ? 0x23 : 0x20;
    c->option = (uint8_t)(!line->bad && take_word(line, "lock"));
    if (!c->option && !at_end(line))
        offend(line, line->pos, many ? LOCK_OR_END : TO_LOCK_OR_END);
}

static void take_status(struct line *line, struct ref_command *c)
{
    if (!take_last(line, c) && !at_end(line))
        offend(line, line->pos, TO_OR_END);
}

static struct said take_command(struct player *p, struct line *line, const struct word *word)
{
    struct said said = { { 0 }, 0, 0 };
    said.command.kind = word->kind;
    said.command.code = word->code;
    for (const char *next = word->takes; *next && !line->bad; next++)
        switch (*next) {
        case 'T': take_target(line, &said); break;
        case 'N': said.command.byte = (uint8_t)take_number(line, 0, 255, A_NUMBER); break;
        case 'D':
            if (at_end(line))
                offend(line, line->pos, A_HEX_DIGIT);
            said.data = take_data(line, 0, p->frame, p->room);
            break;
        case 'I': take_inventory(line, &said.command); break;
        case 'F': take_field(line, &said.command); break;
        case 'R': take_read(line, &said.command); break;
        case 'L': take_status(line, &said.command); break;
        default: take_select(line, &said); break;
        }
    take_end(line);
    return said;
}

static void play_command(struct player *p, struct line *line, const struct word *word)
{
    uint8_t request[REF_OUTPUT], uid[REF_UID];
    struct ref_written written;
    struct said said = take_command(p, line, word);
    if (line->bad)
        return;
    for (int i = 0; i < REF_UID; i++)
        uid[i] = (uint8_t)(said.uid >> (8 * i));
    ref_write_request(&said.command, uid, p->frame, said.data, request, sizeof request, &written);
    if (written.number != 0) {
        printf("line %lu: no request has these fields\n", p->line);
        return;
    }
    play_event(p, said.command.kind == REF_KIND_LABEL ? REF_LABEL_FRAME : REF_CHIP_FRAME,
               (struct bytes){ request, written.length });
}

/* ------------------------------------------------------------------- lines */

/* off, on and eof take nothing. */
static void play_bare(struct player *p, struct line *line, uint8_t event)
{
    take_end(line);
    if (!line->bad)
        play_event(p, event, (struct bytes){ NULL, 0 });
}

static void play_frame(struct player *p, struct line *line, uint8_t event, int add_sum)
{
    struct bytes frame = { p->frame, take_hex(line, 0, p->frame, p->room) };
    if (line->bad)
        return;
    if (add_sum) {
        uint16_t sum = ref_check_sum(frame.at, frame.len);
        frame.at[frame.len++] = (uint8_t)(sum & 0xFFu);
        frame.at[frame.len++] = (uint8_t)(sum >> 8);
    }
    play_event(p, event, frame);
}

static void take_draws(struct player *p, struct line *line)
{
    size_t n = take_hex(line, 0, p->frame, p->room);
    if (line->bad)
        return;
    memset(p->draws, 0, DRAWS);
    memcpy(p->draws, p->frame, n > DRAWS ? DRAWS : n);
}

static const struct word *command_word(struct line *line)
{
    for (size_t i = 0; i < sizeof WORDS / sizeof WORDS[0]; i++)
        if (take_word(line, WORDS[i].text))
            return &WORDS[i];
    return NULL;
}

static void play_line(struct player *p, struct line *line)
{
    static const char *const words[] = { "off", "on", "eof", "label", "label+", "chip", "chip+", "draws", NULL };
    const struct word *command;
    if (at_end(line))
        return;
    if ((command = command_word(line)) != NULL) {
        play_command(p, line, command);
    } else {
        int which = take_one_of(line, words, AN_EVENT);
        switch (which) {
        case 0: play_bare(p, line, REF_OFF); break;
        case 1: play_bare(p, line, REF_ON); break;
        case 2: play_bare(p, line, REF_END_OF_FRAME); break;
        case 3: case 4: play_frame(p, line, REF_LABEL_FRAME, which == 4); break;
        case 5: case 6: play_frame(p, line, REF_CHIP_FRAME, which == 6); break;
        case 7: take_draws(p, line); break;
        default: break;
        }
    }
    if (line->bad)
        printf("line %lu: column %zu: expected %s\n", p->line, line->column, expected(line));
}

static void play_lines(struct player *p, struct bytes input)
{
    struct line line;
    size_t from = 0;
    int found;
    while (!ferror(stdout) && (found = next_line(input, &from, &line)) != 0) {
        p->line++;
        if (found > 0)
            play_line(p, &line);
        else
            printf("line %lu: too long\n", p->line);
    }
}

int play(int quiet, const char *path, const char *next)
{
    char why[160];
    struct player p = { read_file(path), NULL, { 0 }, 0, quiet, NULL, 0 };
    if (p.rack.at == NULL)
        return 0;
    if (refused(p.rack.at, p.rack.len, why)) {
        printf("%s\n", why);
        printed();
        free(p.rack.at);
        return 0;
    }
    struct bytes input = read_events();
    p.before = must(malloc(p.rack.len));
    p.room = input.len;
    p.frame = must(malloc(p.room + 2));
    play_lines(&p, without_mark(input));
    if (printed() && next != NULL)
        write_rack(next, p.rack);
    free(input.at);
    free(p.before);
    free(p.frame);
    free(p.rack.at);
    return 0;
}
