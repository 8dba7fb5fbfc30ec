/* reader.c - the reader's side: requests written, answers read. */
#include "reference.h"

#include <string.h>

/* ------------------------------------------------- which commands there are */

static int is_label_code(uint16_t code)
{
    return code == 0x01 || code == 0x02 || (code >= 0x20 && code <= 0x23)
        || (code >= 0x25 && code <= 0x2C);
}

static int takes_option(uint16_t code)
{
    return code == 0x20 || code == 0x23;
}

/* 23 and 2C have a first block and a number of blocks less 1. */
static int names_many(uint16_t code)
{
    return code == 0x23 || code == 0x2C;
}

static int is_chip_code(uint16_t code)
{
    switch (code) {
    case REF_INITIATE: case REF_PCALL16: case REF_SLOT_MARKER: case REF_READ_BLOCK:
    case REF_WRITE_BLOCK: case REF_GET_UID: case REF_RESET_TO_INVENTORY:
    case REF_SELECT: case REF_COMPLETION:
        return 1;
    default:
        return 0;
    }
}

static int mask_allowed(const struct ref_command *command)
{
    unsigned most = command->sixteen ? 60 : 64;
    return command->mask_bits <= most
        && (command->mask & ~ref_low_bits(command->mask_bits)) == 0;
}

static int label_target_allowed(const struct ref_command *command)
{
    if (command->code == 0x01)
        return command->target == REF_EVERYONE;
    if (command->code == 0x02 || command->code == 0x25)
        return command->target == REF_ONE_UID;
    return command->target <= REF_ONE_UID;
}

static int label_command_allowed(const struct ref_command *command, size_t data_len)
{
    if (!is_label_code(command->code) || !label_target_allowed(command))
        return 0;
    if (command->option && !takes_option(command->code))
        return 0;
    if (command->code == 0x01 && !mask_allowed(command))
        return 0;
    if (command->code == 0x21 && (data_len < 1 || data_len > 32))
        return 0;
    if (names_many(command->code) && (unsigned)command->byte + command->more > 255)
        return 0;
    return 1;
}

static int chip_command_allowed(const struct ref_command *command, size_t data_len)
{
    uint8_t byte = command->byte;
    int takes_address = command->code == REF_READ_BLOCK || command->code == REF_WRITE_BLOCK;
    if (!is_chip_code(command->code) || command->target != REF_EVERYONE || command->option)
        return 0;
    if (takes_address && byte > 15 && byte != 255)
        return 0;
    if (command->code == REF_WRITE_BLOCK && data_len != 4)
        return 0;
    if (command->code == REF_SLOT_MARKER && (byte < 1 || byte > 15))
        return 0;
    return 1;
}

static int command_allowed(const struct ref_command *command, size_t data_len)
{
    if (command->kind == REF_KIND_LABEL)
        return label_command_allowed(command, data_len);
    if (command->kind == REF_KIND_CHIP)
        return chip_command_allowed(command, data_len);
    return 0;
}

/* ---------------------------------------------------------------- requests */

static void write_inventory(const struct ref_command *command, struct ref_answer *frame)
{
    uint8_t flags = 0x06;
    if (command->afi_present)
        flags |= 0x10;
    if (!command->sixteen)
        flags |= 0x20;
    ref_answer_byte(frame, flags);
    ref_answer_byte(frame, 0x01);
    if (command->afi_present)
        ref_answer_byte(frame, command->afi);
    ref_answer_byte(frame, command->mask_bits);
    for (unsigned i = 0; i < (command->mask_bits + 7u) / 8; i++)
        ref_answer_byte(frame, (uint8_t)(command->mask >> (8 * i)));
}

static void write_label_head(const struct ref_command *command, const uint8_t *uid,
                             struct ref_answer *frame)
{
    uint8_t flags = 0x02;
    if (command->target == REF_SELECTED)
        flags |= 0x10;
    if (command->target == REF_ONE_UID)
        flags |= 0x20;
    if (command->option)
        flags |= 0x40;
    ref_answer_byte(frame, flags);
    ref_answer_byte(frame, (uint8_t)command->code);
    if (command->target == REF_ONE_UID)
        ref_answer_bytes(frame, uid, REF_UID);
}

/* Block number, AFI or DSFID: 20, 21, 22, 27 and 29 have one such byte, and
 * 23 and 2C the first block. */
static int label_has_byte(uint16_t code)
{
    return (code >= 0x20 && code <= 0x23) || code == 0x27 || code == 0x29 || code == 0x2C;
}

static void write_label(const struct ref_command *command, const uint8_t *uid,
                        const uint8_t *data, size_t data_len, struct ref_answer *frame)
{
    if (command->code == 0x01) {
        write_inventory(command, frame);
        return;
    }
    write_label_head(command, uid, frame);
    if (label_has_byte(command->code))
        ref_answer_byte(frame, command->byte);
    if (names_many(command->code))
        ref_answer_byte(frame, command->more);
    if (command->code == 0x21)
        ref_answer_bytes(frame, data, data_len);
}

static void write_chip(const struct ref_command *command, const uint8_t *data,
                       struct ref_answer *frame)
{
    uint16_t code = command->code;
    if (code == REF_INITIATE || code == REF_PCALL16) {
        ref_answer_byte(frame, (uint8_t)(code >> 8));
        ref_answer_byte(frame, (uint8_t)(code & 0xFFu));
        return;
    }
    if (code == REF_SLOT_MARKER) {
        ref_answer_byte(frame, (uint8_t)(command->byte << 4 | 0x06));
        return;
    }
    ref_answer_byte(frame, (uint8_t)code);
    if (code == REF_READ_BLOCK || code == REF_WRITE_BLOCK || code == REF_SELECT)
        ref_answer_byte(frame, command->byte);
    if (code == REF_WRITE_BLOCK)
        ref_answer_bytes(frame, data, 4);
}

static int writer_refusal(const struct ref_command *command, size_t data_len, size_t out_len)
{
    if (out_len < REF_OUTPUT)
        return 3;
    if (!command_allowed(command, data_len))
        return 7;
    return 0;
}

int ref_write_request(const struct ref_command *command, const uint8_t *uid,
                      const uint8_t *data, size_t data_len,
                      uint8_t *out, size_t out_len, struct ref_written *result)
{
    struct ref_answer frame;
    frame.length = 0;
    int refusal = writer_refusal(command, data_len, out_len);
    if (refusal == 0) {
        if (command->kind == REF_KIND_LABEL)
            write_label(command, uid, data, data_len, &frame);
        else
            write_chip(command, data, &frame);
        ref_answer_close(&frame);
        memcpy(out, frame.bytes, frame.length);
    }
    result->number = (uint32_t)refusal;
    result->length = (uint32_t)frame.length;
    return refusal;
}

/* ----------------------------------------------------------------- answers */
/* Each reader below takes the bytes before the CRC and fills the meaning in.
 * It gives 1 if the bytes fit and 0 if not. */

static int is_error_code(uint8_t code)
{
    return code == 0x01 || code == 0x02 || code == 0x03
        || code == 0x10 || code == 0x11 || code == 0x12;
}

static int read_error(const uint8_t *bytes, size_t len, struct ref_reading *out)
{
    if (len != 2 || bytes[0] != 0x01 || !is_error_code(bytes[1]))
        return 0;
    out->meaning = REF_MEANS_ERROR;
    out->error = bytes[1];
    return 1;
}

/* 00, DSFID, UID; the UID ends in the mask, in whatever slot. */
static int read_inventory(const struct ref_command *command, const uint8_t *bytes, size_t len,
                          struct ref_reading *out)
{
    if (len != 10 || bytes[0] != 0x00)
        return 0;
    uint64_t apart = ref_number(bytes + 2, REF_UID) ^ command->mask;
    if ((apart & ref_low_bits(command->mask_bits)) != 0)
        return 0;
    out->meaning = REF_MEANS_INVENTORY;
    out->dsfid = bytes[1];
    memcpy(out->uid, bytes + 2, REF_UID);
    return 1;
}

static int read_block_answer(const struct ref_command *command, const uint8_t *bytes, size_t len,
                             struct ref_reading *out)
{
    size_t place = command->option ? 2 : 1;
    if (len < place + 1 || len > place + 32 || bytes[0] != 0x00)
        return 0;
    if (command->option && bytes[1] > 1)
        return 0;
    out->meaning = REF_MEANS_BLOCK;
    out->lock = command->option ? bytes[1] : 0;
    out->place = (uint32_t)place;
    out->length = (uint32_t)(len - place);
    return 1;
}

/* Is each of these bytes, so many apart, 0 or 1? */
static int lock_bytes(const uint8_t *bytes, size_t count, size_t apart)
{
    for (size_t i = 0; i < count; i++)
        if (bytes[i * apart] > 1)
            return 0;
    return 1;
}

/* 00, then as many equal parts as blocks were asked for: a block each, with
 * Option its lock byte first. */
static int read_blocks(const struct ref_command *command, const uint8_t *bytes, size_t len,
                       struct ref_reading *out)
{
    size_t count = command->more + 1u, head = command->option ? 1 : 0;
    if (bytes[0] != 0x00 || (len - 1) % count != 0)
        return 0;
    size_t part = (len - 1) / count;
    if (part < head + 1 || part > head + 32)
        return 0;
    if (command->option && !lock_bytes(bytes + 1, count, part))
        return 0;
    out->meaning = REF_MEANS_BLOCKS;
    out->place = 1;
    out->length = (uint32_t)(part - head);
    out->count = (uint32_t)count;
    return 1;
}

/* 00, then a lock byte for each block. */
static int read_locks(const struct ref_command *command, const uint8_t *bytes, size_t len,
                      struct ref_reading *out)
{
    size_t count = command->more + 1u;
    if (len != 1 + count || bytes[0] != 0x00 || !lock_bytes(bytes + 1, count, 1))
        return 0;
    out->meaning = REF_MEANS_LOCKS;
    out->place = 1;
    out->length = 1;
    out->count = (uint32_t)count;
    return 1;
}

/* 00, 0F, UID, DSFID, AFI, blocks less 1, length less 1, IC reference. */
static int read_system(const struct ref_command *command, const uint8_t *uid,
                       const uint8_t *bytes, size_t len, struct ref_reading *out)
{
    if (len != 15 || bytes[0] != 0x00 || bytes[1] != 0x0F || bytes[13] > 31)
        return 0;
    if (command->target == REF_ONE_UID && memcmp(bytes + 2, uid, REF_UID) != 0)
        return 0;
    out->meaning = REF_MEANS_SYSTEM;
    memcpy(out->uid, bytes + 2, REF_UID);
    out->dsfid = bytes[10];
    out->afi = bytes[11];
    out->blocks = bytes[12];
    out->size = bytes[13];
    out->ic = bytes[14];
    return 1;
}

static int read_done(const uint8_t *bytes, size_t len, struct ref_reading *out)
{
    if (len != 1 || bytes[0] != 0x00)
        return 0;
    out->meaning = REF_MEANS_DONE;
    return 1;
}

static int read_label(const struct ref_command *command, const uint8_t *uid,
                      const uint8_t *bytes, size_t len, struct ref_reading *out)
{
    if (command->code == 0x02)
        return 0;
    if (command->code == 0x01)
        return read_inventory(command, bytes, len, out);
    if (read_error(bytes, len, out))
        return 1;
    if (command->code == 0x20)
        return read_block_answer(command, bytes, len, out);
    if (command->code == 0x23)
        return read_blocks(command, bytes, len, out);
    if (command->code == 0x2C)
        return read_locks(command, bytes, len, out);
    if (command->code == 0x2B)
        return read_system(command, uid, bytes, len, out);
    return read_done(bytes, len, out);
}

/* May this Chip_ID answer this command? */
static int chip_id_fits(const struct ref_command *command, uint8_t id)
{
    switch (command->code) {
    case REF_INITIATE: return 1;
    case REF_PCALL16: return (id & 0x0F) == 0;
    case REF_SLOT_MARKER: return (id & 0x0F) == command->byte;
    case REF_SELECT: return id == command->byte;
    default: return 0;
    }
}

static int read_chip_id(const struct ref_command *command, const uint8_t *bytes, size_t len,
                        struct ref_reading *out)
{
    if (len != 1 || !chip_id_fits(command, bytes[0]))
        return 0;
    out->meaning = REF_MEANS_CHIP_ID;
    out->chip_id = bytes[0];
    return 1;
}

static int read_word(const uint8_t *bytes, size_t len, struct ref_reading *out)
{
    if (len != 4)
        return 0;
    out->meaning = REF_MEANS_WORD;
    out->word = (uint32_t)ref_number(bytes, 4);
    out->place = 0;
    out->length = 4;
    return 1;
}

static int read_chip_uid(const uint8_t *bytes, size_t len, struct ref_reading *out)
{
    if (len != REF_UID)
        return 0;
    out->meaning = REF_MEANS_CHIP_UID;
    memcpy(out->uid, bytes, REF_UID);
    return 1;
}

static int read_chip(const struct ref_command *command, const uint8_t *bytes, size_t len,
                     struct ref_reading *out)
{
    if (command->code == REF_READ_BLOCK)
        return read_word(bytes, len, out);
    if (command->code == REF_GET_UID)
        return read_chip_uid(bytes, len, out);
    return read_chip_id(command, bytes, len, out);
}

/* Tries to read; the frame's CRC is right and the command allowed. */
static int answer_fits(const struct ref_command *command, const uint8_t *uid,
                       const uint8_t *frame, size_t frame_len, struct ref_reading *out)
{
    size_t len = frame_len - 2;
    if (command->kind == REF_KIND_LABEL)
        return read_label(command, uid, frame, len, out);
    return read_chip(command, frame, len, out);
}

int ref_read_answer(const struct ref_command *command, const uint8_t *uid, size_t data_len,
                    const uint8_t *frame, size_t frame_len, struct ref_reading *out)
{
    int refusal = 0;
    memset(out, 0, sizeof *out);
    if (!command_allowed(command, data_len))
        refusal = 7;
    else if (frame_len < 3 || !ref_check_right(frame, frame_len))
        refusal = 8;
    else if (!answer_fits(command, uid, frame, frame_len, out))
        refusal = 9;
    out->number = (uint32_t)refusal;
    return refusal;
}
