/* chip.c - one SRI512 chip: its body's rules and its steps. */
#include "reference.h"

/* ------------------------------------------------------------ well-formed */

int ref_chip_well_formed(const uint8_t *body, size_t len)
{
    if (len != CHIP_LENGTH)
        return 0;
    uint8_t state = body[CHIP_STATE];
    if (state > CHIP_DEACTIVATED || body[CHIP_RELOAD] > 1 || body[CHIP_OPTION] > 1)
        return 0;
    if (body[CHIP_RELOAD] == 1 && state != CHIP_SELECTED)
        return 0;
    if (state == CHIP_OFF)
        return body[CHIP_ID] == 0;
    return body[CHIP_OPTION] == 0 || body[CHIP_ID] == body[CHIP_SYSTEM];
}

/* ------------------------------------------------------------------ field */

void ref_chip_off(uint8_t *body)
{
    body[CHIP_STATE] = CHIP_OFF;
    body[CHIP_ID] = 0;
    body[CHIP_RELOAD] = 0;
}

void ref_chip_on(uint8_t *body, uint8_t draw)
{
    if (body[CHIP_STATE] != CHIP_OFF)
        return;
    body[CHIP_STATE] = CHIP_READY;
    body[CHIP_ID] = body[CHIP_OPTION] ? body[CHIP_SYSTEM] : draw;
}

/* ---------------------------------------------------------------- helpers */

static void answer_with_id(const uint8_t *body, struct ref_answer *answer)
{
    ref_answer_byte(answer, body[CHIP_ID]);
    ref_answer_close(answer);
}

static int address_listed(uint8_t address)
{
    return address <= 15 || address == 255;
}

/* Where a listed block stands in the body. */
static uint8_t *block_at(uint8_t *body, uint8_t address)
{
    return address == 255 ? body + CHIP_SYSTEM : body + 4 * (size_t)address;
}

static uint32_t word_at(const uint8_t *bytes)
{
    return (uint32_t)ref_number(bytes, 4);
}

static void put_word(uint8_t *bytes, uint32_t word)
{
    for (int i = 0; i < 4; i++)
        bytes[i] = (uint8_t)(word >> (8 * i));
}

/* State 3 is left for another: reload goes with it. */
static void leave_selected(uint8_t *body, uint8_t state)
{
    if (body[CHIP_STATE] != CHIP_SELECTED)
        return;
    body[CHIP_STATE] = state;
    body[CHIP_RELOAD] = 0;
}

/* ----------------------------------------------------------- anticollision */

static void initiate(uint8_t *body, uint8_t draw, struct ref_answer *answer)
{
    if (body[CHIP_STATE] != CHIP_READY && body[CHIP_STATE] != CHIP_INVENTORY)
        return;
    if (!body[CHIP_OPTION])
        body[CHIP_ID] = draw;
    body[CHIP_STATE] = CHIP_INVENTORY;
    answer_with_id(body, answer);
}

static void slot_marker(const uint8_t *body, uint8_t slot, struct ref_answer *answer)
{
    if (body[CHIP_STATE] == CHIP_INVENTORY && (body[CHIP_ID] & 0x0F) == slot)
        answer_with_id(body, answer);
}

static void pcall16(uint8_t *body, uint8_t draw, struct ref_answer *answer)
{
    if (body[CHIP_STATE] != CHIP_INVENTORY)
        return;
    if (!body[CHIP_OPTION])
        body[CHIP_ID] = (uint8_t)((body[CHIP_ID] & 0xF0) | (draw & 0x0F));
    slot_marker(body, 0, answer);
}

static void select_id(uint8_t *body, uint8_t id, struct ref_answer *answer)
{
    uint8_t state = body[CHIP_STATE];
    if (id != body[CHIP_ID]) {
        leave_selected(body, CHIP_DESELECTED);
        return;
    }
    if (state == CHIP_INVENTORY || state == CHIP_SELECTED || state == CHIP_DESELECTED) {
        body[CHIP_STATE] = CHIP_SELECTED;
        body[CHIP_RELOAD] = 0;
        answer_with_id(body, answer);
    }
}

/* ------------------------------------------------------------------ memory */

static void read_block(uint8_t *body, uint8_t address, struct ref_answer *answer)
{
    if (body[CHIP_STATE] != CHIP_SELECTED || !address_listed(address))
        return;
    ref_answer_bytes(answer, block_at(body, address), 4);
    ref_answer_close(answer);
}

static void get_uid(const uint8_t *body, struct ref_answer *answer)
{
    if (body[CHIP_STATE] != CHIP_SELECTED)
        return;
    ref_answer_bytes(answer, body + CHIP_UID, REF_UID);
    ref_answer_close(answer);
}

/* Bit 16 + a of block 255 at 0 locks block a. Block 255 has no such bit. */
static int is_locked(const uint8_t *body, uint8_t address)
{
    if (address == 255)
        return 0;
    return ((word_at(body + CHIP_SYSTEM) >> (16 + address)) & 1u) == 0;
}

/* What a block that is not locked becomes: written w over old o. */
static uint32_t becomes(const uint8_t *body, uint8_t address, uint32_t o, uint32_t w)
{
    if (address <= 4)
        return body[CHIP_RELOAD] ? w : (o & w);
    if (address <= 6)
        return w < o ? w : o;
    if (address <= 15)
        return w;
    return o & (w | 0x0000FFFFu);        /* block 255: the low half stays */
}

static void write_block(uint8_t *body, uint8_t address, uint32_t w)
{
    if (body[CHIP_STATE] != CHIP_SELECTED || !address_listed(address))
        return;
    if (is_locked(body, address))
        return;
    uint32_t o = word_at(block_at(body, address));
    uint32_t now = becomes(body, address, o, w);
    put_word(block_at(body, address), now);
    if (address == 6 && (o >> 21) != (now >> 21))
        body[CHIP_RELOAD] = 1;
}

/* ------------------------------------------------------------------ frames */

static void three_bytes(uint8_t *body, uint8_t code, struct ref_answer *answer)
{
    if (code == 0x0B)
        get_uid(body, answer);
    else if (code == 0x0C)
        leave_selected(body, CHIP_INVENTORY);
    else if (code == 0x0F)
        leave_selected(body, CHIP_DEACTIVATED);
    else if ((code & 0x0F) == 0x06 && code != 0x06)
        slot_marker(body, (uint8_t)(code >> 4), answer);
}

static void four_bytes(uint8_t *body, uint8_t code, uint8_t second, uint8_t draw,
                       struct ref_answer *answer)
{
    if (code == 0x06 && second == 0x00)
        initiate(body, draw, answer);
    else if (code == 0x06 && second == 0x04)
        pcall16(body, draw, answer);
    else if (code == 0x0E)
        select_id(body, second, answer);
    else if (code == 0x08)
        read_block(body, second, answer);
}

void ref_chip_frame(uint8_t *body, const uint8_t *frame, size_t len, uint8_t draw,
                    struct ref_answer *answer)
{
    if (body[CHIP_STATE] == CHIP_OFF || len < 3 || len > 8 || !ref_check_right(frame, len))
        return;
    if (len == 3)
        three_bytes(body, frame[0], answer);
    else if (len == 4)
        four_bytes(body, frame[0], frame[1], draw, answer);
    else if (len == 8 && frame[0] == 0x09)
        write_block(body, frame[1], word_at(frame + 2));
}
