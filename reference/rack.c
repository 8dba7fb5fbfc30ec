/* rack.c - the rack file, and one event sent to all its tags. */
#include "reference.h"

#include <string.h>

/* ---------------------------------------------------------------- contents */

size_t ref_rack_tags(const uint8_t *rack)
{
    return rack[1];
}

static const uint8_t *entry_at(const uint8_t *rack, size_t entry)
{
    return rack + REF_HEAD + REF_ENTRY * entry;
}

uint8_t ref_rack_kind(const uint8_t *rack, size_t entry)
{
    return entry_at(rack, entry)[0];
}

static size_t body_length(const uint8_t *rack, size_t entry)
{
    return (size_t)ref_number(entry_at(rack, entry) + 2, 2);
}

size_t ref_rack_offset(const uint8_t *rack, size_t entry)
{
    return (size_t)ref_number(entry_at(rack, entry) + 4, 4);
}

/* ------------------------------------------------------------- well-formed */

static int body_well_formed(uint8_t kind, const uint8_t *body, size_t len)
{
    if (kind == REF_KIND_LABEL)
        return ref_label_well_formed(body, len);
    if (kind == REF_KIND_CHIP)
        return ref_chip_well_formed(body, len);
    return 0;
}

/* Entry and body of one tag, whose body must begin at `from`. Gives where it
 * ends, or 0 if something is wrong. */
static size_t tag_well_formed(const uint8_t *rack, size_t rack_len, size_t entry, size_t from)
{
    size_t len = body_length(rack, entry);
    if (entry_at(rack, entry)[1] != 0 || ref_rack_offset(rack, entry) != from)
        return 0;
    if (len > rack_len - from)
        return 0;
    if (!body_well_formed(ref_rack_kind(rack, entry), rack + from, len))
        return 0;
    return from + len;
}

int ref_well_formed(const uint8_t *rack, size_t rack_len)
{
    if (rack_len < REF_HEAD || rack_len > REF_RACK_MOST)
        return 0;
    if (rack[0] != 1 || rack[1] > REF_TAGS_MOST)
        return 0;
    size_t end = REF_HEAD + REF_ENTRY * ref_rack_tags(rack);
    if (rack_len < end)
        return 0;
    for (size_t i = 0; i < ref_rack_tags(rack); i++) {
        end = tag_well_formed(rack, rack_len, i, end);
        if (end == 0)
            return 0;
    }
    return end == rack_len;
}

/* ------------------------------------------------------------------ events */

struct event {
    uint8_t number;
    const uint8_t *frame;
    size_t length;
};

static void label_step(uint8_t *body, const struct event *event, struct ref_answer *answer)
{
    switch (event->number) {
    case REF_OFF: ref_label_off(body); break;
    case REF_ON: ref_label_on(body); break;
    case REF_LABEL_FRAME: ref_label_frame(body, event->frame, event->length, answer); break;
    case REF_END_OF_FRAME: ref_label_end_of_frame(body, answer); break;
    default: break;
    }
}

static void chip_step(uint8_t *body, const struct event *event, uint8_t draw,
                      struct ref_answer *answer)
{
    switch (event->number) {
    case REF_OFF: ref_chip_off(body); break;
    case REF_ON: ref_chip_on(body, draw); break;
    case REF_CHIP_FRAME: ref_chip_frame(body, event->frame, event->length, draw, answer); break;
    default: break;
    }
}

static int event_refusal(const uint8_t *rack, size_t rack_len, uint8_t number,
                         size_t draws_len, size_t answer_len)
{
    if (!ref_well_formed(rack, rack_len))
        return 1;
    if (draws_len != ref_rack_tags(rack))
        return 2;
    if (answer_len < REF_ANSWER)
        return 3;
    if (number < REF_OFF || number > REF_CHIP_FRAME)
        return 4;
    return 0;
}

/* Sends the event to every tag. Gives how many answered; `heard` is the
 * answer of the last of them. */
static uint32_t all_steps(uint8_t *rack, const struct event *event, const uint8_t *draws,
                          struct ref_answer *heard)
{
    uint32_t answered = 0;
    for (size_t i = 0; i < ref_rack_tags(rack); i++) {
        uint8_t *body = rack + ref_rack_offset(rack, i);
        struct ref_answer answer;
        answer.length = 0;
        if (ref_rack_kind(rack, i) == REF_KIND_LABEL)
            label_step(body, event, &answer);
        else
            chip_step(body, event, draws[i], &answer);
        if (answer.length > 0) {
            answered++;
            heard->length = answer.length;
            memcpy(heard->bytes, answer.bytes, answer.length);
        }
    }
    return answered;
}

int ref_event(uint8_t *rack, size_t rack_len, uint8_t number,
              const uint8_t *frame, size_t frame_len,
              const uint8_t *draws, size_t draws_len,
              uint8_t *answer, size_t answer_len, struct ref_report *out)
{
    struct ref_report report = { 0, 0, 0 };
    int refusal = event_refusal(rack, rack_len, number, draws_len, answer_len);
    if (refusal) {
        report.number = (uint32_t)refusal;
    } else {
        struct event event = { number, frame, frame_len };
        struct ref_answer heard;
        report.answered = all_steps(rack, &event, draws, &heard);
        if (report.answered == 1) {
            memcpy(answer, heard.bytes, heard.length);
            report.length = (uint32_t)heard.length;
        }
    }
    *out = report;
    return refusal;
}
