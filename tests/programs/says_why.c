/* says_why.c - why nobody answered. */
#include "says.h"

#include <stdio.h>
#include <string.h>

/* -------------------------------------------------------- tags of one kind */

/* The next tag of a kind from this entry on; the number of tags for none. */
static size_t next_tag(const uint8_t *rack, uint8_t kind, size_t entry)
{
    while (entry < ref_rack_tags(rack) && ref_rack_kind(rack, entry) != kind)
        entry++;
    return entry;
}

static uint8_t state_of(const uint8_t *rack, size_t entry)
{
    uint8_t kind = ref_rack_kind(rack, entry);
    return rack[ref_rack_offset(rack, entry) + (kind == REF_KIND_LABEL ? LABEL_STATE : CHIP_STATE)];
}

static int bit(uint8_t state)
{
    return 1 << state;
}

/* The states that tags of a kind are in, a bit for each. */
static int states_of(const uint8_t *rack, uint8_t kind)
{
    int states = 0;
    for (size_t i = next_tag(rack, kind, 0); i < ref_rack_tags(rack); i = next_tag(rack, kind, i + 1))
        states |= bit(state_of(rack, i));
    return states;
}

/* ------------------------------------------------------------------ labels */

/* Whether a label that is ready or selected is of the family: X0 is all of X,
 * any other AFI itself alone. */
static int family_is_here(const uint8_t *rack, uint8_t afi)
{
    for (size_t i = next_tag(rack, REF_KIND_LABEL, 0); i < ref_rack_tags(rack); i = next_tag(rack, REF_KIND_LABEL, i + 1)) {
        uint8_t mark = rack[ref_rack_offset(rack, i) + LABEL_AFI];
        if ((state_of(rack, i) & 1) && (afi % 16 == 0 ? mark / 16 == afi / 16 : mark == afi))
            return 1;
    }
    return 0;
}

static const char *no_inventory(const uint8_t *rack, const struct ref_command *c)
{
    if (!(states_of(rack, REF_KIND_LABEL) & (bit(LABEL_READY) | bit(LABEL_SELECTED))))
        return "no label is ready or selected";
    if (c->afi_present && c->afi != 0 && !family_is_here(rack, c->afi))
        return "no label of this family";
    return c->sixteen ? "nobody in slot 0" : "no UID ends in this mask";
}

static const char *no_owner(const uint8_t *rack, uint64_t uid)
{
    int states = 0;
    for (size_t i = next_tag(rack, REF_KIND_LABEL, 0); i < ref_rack_tags(rack); i = next_tag(rack, REF_KIND_LABEL, i + 1))
        if (uid_at(rack, i) == uid)
            states |= bit(state_of(rack, i));
    if (states == 0)
        return "no label by that UID here";
    return states == bit(LABEL_OFF) ? "that label is off" : "quiet has no answer";
}

static const char *no_task(const uint8_t *rack, const struct asked *asked)
{
    if (asked->command.target == REF_ONE_UID)
        return no_owner(rack, asked->uid);
    return asked->command.target == REF_SELECTED ? "no label is selected" : "no label is ready or selected";
}

static const char *why_label(const uint8_t *rack, const struct asked *asked)
{
    int states = states_of(rack, REF_KIND_LABEL);
    if (states == 0)
        return "no label here";
    if (states == bit(LABEL_OFF))
        return "field is off";
    if (asked->call == NOBODY)
        return asked->why;
    return asked->call == INVENTORY ? no_inventory(rack, &asked->command) : no_task(rack, asked);
}

static void why_end(const uint8_t *rack, char *out)
{
    unsigned lowest = LABEL_NO_SLOT;
    for (size_t i = next_tag(rack, REF_KIND_LABEL, 0); i < ref_rack_tags(rack); i = next_tag(rack, REF_KIND_LABEL, i + 1)) {
        unsigned slot = rack[ref_rack_offset(rack, i) + LABEL_SLOT];
        lowest = slot < lowest ? slot : lowest;
    }
    if (lowest == LABEL_NO_SLOT)
        strcpy(out, "no inventory is running");
    else
        sprintf(out, "nobody in slot %u", lowest);
}

/* ------------------------------------------------------------------- chips */

static void no_chip(int states, const struct ref_command *c, char *out)
{
    int inventory = (states & bit(CHIP_INVENTORY)) != 0;
    switch (c->code) {
    case REF_INITIATE: strcpy(out, "no chip is ready or in inventory"); break;
    case REF_PCALL16: strcpy(out, inventory ? "no chip drew slot 0" : "no chip is in inventory"); break;
    case REF_SLOT_MARKER:
        if (inventory)
            sprintf(out, "no chip in slot %u", c->byte);
        else
            strcpy(out, "no chip is in inventory");
        break;
    case REF_SELECT: strcpy(out, "no chip by that Chip_ID can be selected"); break;
    case REF_READ_BLOCK: case REF_GET_UID: strcpy(out, "no chip is selected"); break;
    default: strcpy(out, "has no answer"); break;
    }
}

/* Null is to be told by the check sum. */
static const char *why_chip(const uint8_t *rack, const struct asked *asked, char *out)
{
    int states = states_of(rack, REF_KIND_CHIP);
    if (states == 0)
        return "no chip here";
    if (states == bit(CHIP_OFF))
        return "field is off";
    if (asked->call == IGNORED)
        return asked->why;
    no_chip(states, &asked->command, out);
    return out;
}

/* --------------------------------------------------------------------- all */

static void check_sum_wrong(const uint8_t *frame, size_t len, char *out)
{
    unsigned sum = ref_check_sum(frame, len - 2);
    sprintf(out, "check sum wrong: %02X %02X for %02X %02X", frame[len - 2], frame[len - 1], sum & 0xFFu, sum >> 8);
}

void why_silent(const uint8_t *rack, uint8_t event, const struct asked *asked, const uint8_t *frame, size_t len,
                char *out)
{
    const char *why = "";
    char chip[80];
    switch (event) {
    case REF_OFF: why = "every tag is off"; break;
    case REF_ON: why = "tags are on"; break;
    case REF_END_OF_FRAME: why_end(rack, out); return;
    case REF_LABEL_FRAME: why = why_label(rack, asked); break;
    default: why = why_chip(rack, asked, chip); break;
    }
    if (why == NULL)
        check_sum_wrong(frame, len, out);
    else
        strcpy(out, why);
}
