/* walk.c - the inventory walk: rounds of events sent to the rack in turn. */
#include "reference.h"

#include <string.h>

struct walk {
    uint8_t *rack;
    size_t rack_len;
    int has_afi;
    uint8_t afi;
    uint8_t *list;
    uint32_t labels;
    uint32_t rounds;
};

/* -------------------------------------------------------------- refusals */

static int can_be_heard(const uint8_t *rack, size_t entry)
{
    if (ref_rack_kind(rack, entry) != REF_KIND_LABEL)
        return 0;
    uint8_t state = rack[ref_rack_offset(rack, entry) + LABEL_STATE];
    return state == LABEL_READY || state == LABEL_SELECTED;
}

static int same_uid(const uint8_t *rack, size_t one, size_t other)
{
    return memcmp(rack + ref_rack_offset(rack, one), rack + ref_rack_offset(rack, other),
                  REF_UID) == 0;
}

/* Two labels in state 1 or 3 with one UID, whatever their AFI? */
static int has_twins(const uint8_t *rack)
{
    for (size_t i = 0; i < ref_rack_tags(rack); i++)
        for (size_t j = 0; j < i; j++)
            if (can_be_heard(rack, i) && can_be_heard(rack, j) && same_uid(rack, i, j))
                return 1;
    return 0;
}

static int walk_refusal(const uint8_t *rack, size_t rack_len, size_t list_len)
{
    if (!ref_well_formed(rack, rack_len))
        return 1;
    if (list_len < 8 * ref_rack_tags(rack))
        return 5;
    if (has_twins(rack))
        return 6;
    return 0;
}

/* ---------------------------------------------------------------- rounds */

/* Sends one event; the draws do not matter to labels. */
static struct ref_report send_event(struct walk *walk, uint8_t number, const uint8_t *frame,
                                    size_t len, uint8_t *answer)
{
    static const uint8_t draws[REF_TAGS_MOST];
    struct ref_report report;
    ref_event(walk->rack, walk->rack_len, number, frame, len, draws,
              ref_rack_tags(walk->rack), answer, REF_ANSWER, &report);
    return report;
}

/* The sixteen-slot Inventory with this mask. Gives its length. */
static size_t inventory_frame(const struct walk *walk, unsigned bits, uint64_t mask,
                              uint8_t *frame)
{
    size_t at = 0;
    frame[at++] = walk->has_afi ? 0x16 : 0x06;
    frame[at++] = 0x01;
    if (walk->has_afi)
        frame[at++] = walk->afi;
    frame[at++] = (uint8_t)bits;
    for (unsigned i = 0; i < (bits + 7) / 8; i++)
        frame[at++] = (uint8_t)(mask >> (8 * i));
    uint16_t sum = ref_check_sum(frame, at);
    frame[at++] = (uint8_t)(sum & 0xFFu);
    frame[at++] = (uint8_t)(sum >> 8);
    return at;
}

/* What was heard in one slot: a label alone goes on the list. */
static int hear_slot(struct walk *walk, const struct ref_report *report, const uint8_t *answer)
{
    if (report->answered == 1) {
        memcpy(walk->list + 8 * (size_t)walk->labels, answer + 2, REF_UID);
        walk->labels++;
    }
    return report->answered > 1;
}

/* One Inventory and sixteen ends of frame. Gives the collided slots, a bit
 * for each. */
static unsigned one_round(struct walk *walk, unsigned bits, uint64_t mask)
{
    uint8_t frame[16];
    uint8_t answer[REF_ANSWER];
    unsigned collided = 0;
    size_t len = inventory_frame(walk, bits, mask, frame);
    struct ref_report report = send_event(walk, REF_LABEL_FRAME, frame, len, answer);
    walk->rounds++;
    for (unsigned slot = 0; slot < 16; slot++) {
        if (hear_slot(walk, &report, answer))
            collided |= 1u << slot;
        report = send_event(walk, REF_END_OF_FRAME, NULL, 0, answer);
    }
    return collided;
}

/* A round, then for each collided slot its own, carried through before the
 * next. A mask of 60 bits and a slot make a whole UID, so no round with 60
 * bits can collide once twins are refused; the test on bits is a guard. */
static void carry_through(struct walk *walk, unsigned bits, uint64_t mask)
{
    unsigned collided = one_round(walk, bits, mask);
    for (uint64_t slot = 0; slot < 16; slot++)
        if ((collided >> slot & 1u) && bits + 4 <= 60)
            carry_through(walk, bits + 4, mask | slot << bits);
}

int ref_walk(uint8_t *rack, size_t rack_len, int has_afi, uint8_t afi,
             uint8_t *list, size_t list_len, struct ref_walked *out)
{
    struct walk walk = { rack, rack_len, has_afi, afi, list, 0, 0 };
    int refusal = walk_refusal(rack, rack_len, list_len);
    if (refusal == 0)
        carry_through(&walk, 0, 0);
    out->number = (uint32_t)refusal;
    out->labels = walk.labels;
    out->rounds = walk.rounds;
    return refusal;
}
