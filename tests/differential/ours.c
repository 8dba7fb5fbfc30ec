/* ours.c - the proved library behind the names and results of the reference, so
 * that diff.c can hold one against the other. */
#include "reference.h"
#include "sackbutflare.h"

#include <stdlib.h>
#include <string.h>

uint16_t other_check_sum(const uint8_t *bytes, size_t len)
{
    return sackbutflare_check_sum(bytes, len);
}

int other_event(uint8_t *rack, size_t rack_len, uint8_t number, const uint8_t *frame, size_t frame_len,
                const uint8_t *draws, size_t draws_len, uint8_t *answer, size_t answer_len,
                struct ref_report *out)
{
    struct sackbutflare_report r = sackbutflare_event(rack, rack_len, number, frame, frame_len, draws, draws_len,
                                                      answer, answer_len);
    out->number = r.number;
    out->answered = r.answered;
    out->length = (uint32_t)r.length;
    return r.number;
}

/* The face has no call that only judges a rack. Event number 9 is refused on
 * every rack, but as 1 where the rack is not well-formed; a copy, lest the judge
 * change what it judges. */
int other_well_formed(const uint8_t *rack, size_t rack_len)
{
    static const uint8_t draws[255];
    uint8_t answer[REF_ANSWER];
    uint8_t *copy = malloc(rack_len ? rack_len : 1);
    if (!copy)
        exit(2);
    memcpy(copy, rack, rack_len);
    size_t tags = rack_len > 1 ? rack[1] : 0;
    struct sackbutflare_report r = sackbutflare_event(copy, rack_len, 9, NULL, 0, draws, tags, answer, sizeof answer);
    if (memcmp(copy, rack, rack_len) != 0)
        exit(3);
    free(copy);
    return r.number != 1;
}

int other_walk(uint8_t *rack, size_t rack_len, int has_afi, uint8_t afi, uint8_t *list, size_t list_len,
               struct ref_walked *out)
{
    struct sackbutflare_walked w = sackbutflare_walk(rack, rack_len, has_afi != 0, afi, list, list_len);
    out->number = w.number;
    out->labels = (uint32_t)w.labels;
    out->rounds = (uint32_t)w.rounds;
    return w.number;
}

static struct sackbutflare_command command_of(const struct ref_command *c)
{
    struct sackbutflare_command own = {
        .kind = c->kind, .target = c->target, .option = c->option != 0, .sixteen = c->sixteen != 0,
        .afi_given = c->afi_present != 0, .afi = c->afi, .mask_bits = c->mask_bits, .byte = c->byte,
        .code = c->code, .mask = c->mask, .more = c->more
    };
    return own;
}

/* A UID goes along where the command is for one. */
static size_t uid_length(const struct ref_command *c)
{
    return c->target == SACKBUTFLARE_ONE_UID ? REF_UID : 0;
}

int other_write_request(const struct ref_command *command, const uint8_t *uid, const uint8_t *data,
                        size_t data_len, uint8_t *out, size_t out_len, struct ref_written *result)
{
    struct sackbutflare_written w =
        sackbutflare_write_request(command_of(command), uid, uid_length(command), data, data_len, out, out_len);
    result->number = w.number;
    result->length = (uint32_t)w.length;
    return w.number;
}

/* The reference has one meaning for blocks with and without their lock bytes. */
static uint8_t meaning_of(uint8_t meaning)
{
    static const uint8_t means[] = {
        REF_MEANS_NOTHING, REF_MEANS_ERROR, REF_MEANS_DONE, REF_MEANS_INVENTORY, REF_MEANS_BLOCK,
        REF_MEANS_BLOCK, REF_MEANS_SYSTEM, REF_MEANS_CHIP_ID, REF_MEANS_WORD, REF_MEANS_CHIP_UID,
        REF_MEANS_BLOCKS, REF_MEANS_BLOCKS, REF_MEANS_LOCKS
    };
    return meaning < sizeof means ? means[meaning] : 255;
}

int other_read_answer(const struct ref_command *command, const uint8_t *uid, size_t data_len,
                      const uint8_t *frame, size_t frame_len, struct ref_reading *out)
{
    struct sackbutflare_told t =
        sackbutflare_read_answer(command_of(command), uid, uid_length(command), data_len, frame, frame_len);
    /* The reference also says where a chip's block stands, always the first four
     * bytes. The face must leave 0 there, which would else go unseen. */
    int word = t.meaning == SACKBUTFLARE_WORD && t.place == 0 && t.length == 0;
    /* And the two meanings must follow Option. */
    int plain = t.meaning == SACKBUTFLARE_BLOCK || t.meaning == SACKBUTFLARE_BLOCKS;
    int locked = t.meaning == SACKBUTFLARE_LOCKED_BLOCK || t.meaning == SACKBUTFLARE_LOCKED_BLOCKS;
    int kept = command->option ? !plain : !locked;
    memset(out, 0, sizeof *out);
    out->number = t.number;
    out->meaning = kept ? meaning_of(t.meaning) : 255;
    out->error = t.error;
    out->dsfid = t.dsfid;
    out->afi = t.afi;
    out->blocks = t.blocks;
    out->size = t.size;
    out->ic = t.ic;
    out->lock = t.lock;
    out->place = (uint32_t)t.place;
    out->length = word ? 4 : (uint32_t)t.length;
    out->count = (uint32_t)t.count;
    out->chip_id = t.id;
    out->word = t.word;
    for (int i = 0; i < REF_UID; i++)
        out->uid[i] = (uint8_t)(t.uid >> (8 * i));
    return t.number;
}
