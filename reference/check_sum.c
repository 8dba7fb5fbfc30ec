/* check_sum.c - the CRC of ISO/IEC 13239, and small helpers on bytes. */
#include "reference.h"

/* One byte goes in, low bit first, polynomial 8408. */
static uint16_t take_byte(uint16_t reg, uint8_t byte)
{
    uint16_t now = (uint16_t)(reg ^ byte);
    for (int bit = 0; bit < 8; bit++) {
        uint16_t falls_out = now & 1u;
        now = (uint16_t)(now >> 1);
        if (falls_out)
            now = (uint16_t)(now ^ 0x8408u);
    }
    return now;
}

uint16_t ref_check_run(const uint8_t *bytes, size_t len)
{
    uint16_t reg = 0xFFFF;
    for (size_t i = 0; i < len; i++)
        reg = take_byte(reg, bytes[i]);
    return reg;
}

uint16_t ref_check_sum(const uint8_t *bytes, size_t len)
{
    return (uint16_t)(ref_check_run(bytes, len) ^ 0xFFFFu);
}

/* A frame is right when its last two bytes are the sum of all before. */
int ref_check_right(const uint8_t *frame, size_t len)
{
    if (len < 2)
        return 0;
    uint16_t sum = ref_check_sum(frame, len - 2);
    return frame[len - 2] == (sum & 0xFFu) && frame[len - 1] == (sum >> 8);
}

void ref_answer_byte(struct ref_answer *answer, uint8_t byte)
{
    answer->bytes[answer->length] = byte;
    answer->length++;
}

void ref_answer_bytes(struct ref_answer *answer, const uint8_t *bytes, size_t len)
{
    for (size_t i = 0; i < len; i++)
        ref_answer_byte(answer, bytes[i]);
}

void ref_answer_close(struct ref_answer *answer)
{
    uint16_t sum = ref_check_sum(answer->bytes, answer->length);
    ref_answer_byte(answer, (uint8_t)(sum & 0xFFu));
    ref_answer_byte(answer, (uint8_t)(sum >> 8));
}

uint64_t ref_number(const uint8_t *bytes, size_t len)
{
    uint64_t number = 0;
    for (size_t i = 0; i < len; i++)
        number |= (uint64_t)bytes[i] << (8 * i);
    return number;
}

uint64_t ref_low_bits(unsigned bits)
{
    if (bits >= 64)
        return UINT64_MAX;
    return ((uint64_t)1 << bits) - 1;
}
