/* label.c - one label: its body's rules and its steps. */
#include "reference.h"

#include <string.h>

/* Flag bits of a request. Bits 0 and 1 are ignored. */
enum {
    FLAG_INVENTORY = 0x04,
    FLAGS_NEVER = 0x88,        /* bits 3 and 7: a frame with one gets silence */
    FLAG_AFI = 0x10,           /* with Inventory set */
    FLAG_ONE_SLOT = 0x20,      /* with Inventory set */
    FLAG_SELECT = 0x10,        /* with Inventory clear */
    FLAG_ADDRESS = 0x20,       /* with Inventory clear */
    FLAG_OPTION = 0x40
};

enum {
    CMD_INVENTORY = 0x01, CMD_STAY_QUIET = 0x02, CMD_READ = 0x20, CMD_WRITE = 0x21,
    CMD_LOCK = 0x22, CMD_READ_MANY = 0x23, CMD_SELECT = 0x25, CMD_READY = 0x26,
    CMD_WRITE_AFI = 0x27, CMD_LOCK_AFI = 0x28, CMD_WRITE_DSFID = 0x29, CMD_LOCK_DSFID = 0x2A,
    CMD_SYSTEM = 0x2B, CMD_SECURITY_MANY = 0x2C
};

enum {
    ERROR_CODE = 0x01, ERROR_LENGTH = 0x02, ERROR_OPTION = 0x03,
    ERROR_NO_BLOCK = 0x10, ERROR_LOCKED_ALREADY = 0x11, ERROR_LOCKED = 0x12
};

enum { LOCK_AFI = 0x01, LOCK_DSFID = 0x02 };

/* A request with Inventory clear, taken apart. */
struct request {
    const uint8_t *frame;
    size_t length;
    uint8_t code;
    int select;
    int address;
    int option;
    int owner;         /* addressed, and to this label */
    size_t first;      /* where the first parameter stands */
};

/* ------------------------------------------------------- parts of a body */

static unsigned block_count(const uint8_t *body) { return body[LABEL_BLOCKS] + 1u; }
static unsigned block_size(const uint8_t *body) { return body[LABEL_SIZE] + 1u; }
static uint64_t uid_of(const uint8_t *body) { return ref_number(body + LABEL_UID, REF_UID); }

static uint8_t *lock_of(uint8_t *body, uint8_t block)
{
    return body + LABEL_HEAD + block;
}

static uint8_t *block_of(uint8_t *body, uint8_t block)
{
    return body + LABEL_HEAD + block_count(body) + (size_t)block * block_size(body);
}

static int ready_or_selected(const uint8_t *body)
{
    return body[LABEL_STATE] == LABEL_READY || body[LABEL_STATE] == LABEL_SELECTED;
}

/* ------------------------------------------------------------ well-formed */

static int slot_well_formed(const uint8_t *body)
{
    uint8_t slot = body[LABEL_SLOT];
    uint8_t bits = body[LABEL_MASK_BITS];
    uint64_t mask = ref_number(body + LABEL_MASK, 8);
    if (bits > 60 || (mask & ~ref_low_bits(bits)) != 0)
        return 0;
    if (slot == LABEL_NO_SLOT)
        return bits == 0 && mask == 0;
    return slot <= 15 && ready_or_selected(body);
}

static int all_at_most(const uint8_t *bytes, size_t len, uint8_t most)
{
    for (size_t i = 0; i < len; i++)
        if (bytes[i] > most)
            return 0;
    return 1;
}

int ref_label_well_formed(const uint8_t *body, size_t len)
{
    if (len < LABEL_HEAD)
        return 0;
    if (body[LABEL_LOCKS] > 3 || body[LABEL_SIZE] > 31 || body[LABEL_STATE] > LABEL_SELECTED)
        return 0;
    if (!slot_well_formed(body))
        return 0;
    if (!all_at_most(body + LABEL_ZEROS, LABEL_HEAD - LABEL_ZEROS, 0))
        return 0;
    if (len != LABEL_HEAD + (size_t)block_count(body) * (1 + block_size(body)))
        return 0;
    return all_at_most(body + LABEL_HEAD, block_count(body), 1);
}

/* ------------------------------------------------------------------ field */

static void end_sequence(uint8_t *body)
{
    body[LABEL_SLOT] = LABEL_NO_SLOT;
    body[LABEL_MASK_BITS] = 0;
    memset(body + LABEL_MASK, 0, 8);
}

void ref_label_off(uint8_t *body)
{
    body[LABEL_STATE] = LABEL_OFF;
    end_sequence(body);
}

void ref_label_on(uint8_t *body)
{
    if (body[LABEL_STATE] == LABEL_OFF)
        body[LABEL_STATE] = LABEL_READY;
}

/* ---------------------------------------------------------------- answers */

static void answer_error(struct ref_answer *answer, uint8_t error)
{
    ref_answer_byte(answer, 0x01);
    ref_answer_byte(answer, error);
    ref_answer_close(answer);
}

static void answer_done(struct ref_answer *answer)
{
    ref_answer_byte(answer, 0x00);
    ref_answer_close(answer);
}

static void answer_inventory(const uint8_t *body, struct ref_answer *answer)
{
    ref_answer_byte(answer, 0x00);
    ref_answer_byte(answer, body[LABEL_DSFID]);
    ref_answer_bytes(answer, body + LABEL_UID, REF_UID);
    ref_answer_close(answer);
}

/* -------------------------------------------------------------- inventory */

/* Does the UID end in these bits of this value? */
static int ends_in(const uint8_t *body, uint64_t value, unsigned bits)
{
    return ((uid_of(body) ^ value) & ref_low_bits(bits)) == 0;
}

/* Is it this label's turn in its running slot? The four bits of the slot
 * stand right above the mask; the mask has at most 60 bits. */
static int slot_is_mine(const uint8_t *body)
{
    unsigned bits = body[LABEL_MASK_BITS];
    uint64_t mask = ref_number(body + LABEL_MASK, 8);
    uint64_t slot = body[LABEL_SLOT];
    return ends_in(body, mask | (slot << bits), bits + 4);
}

static void start_sequence(uint8_t *body, unsigned bits, uint64_t mask)
{
    body[LABEL_SLOT] = 0;
    body[LABEL_MASK_BITS] = (uint8_t)bits;
    for (int i = 0; i < 8; i++)
        body[LABEL_MASK + i] = (uint8_t)(mask >> (8 * i));
}

/* ISO/IEC 15693-3, table 1, by the high half X and the low half Y of what is
 * asked. Document 02, P1. */
static int afi_passes(const uint8_t *body, int has_afi, uint8_t afi)
{
    int x = afi >> 4, y = afi & 0x0F;
    if (!has_afi)
        return 1;
    if (x == 0 && y == 0)
        return 1;                                /* all families and subfamilies */
    if (y == 0)
        return body[LABEL_AFI] >> 4 == x;        /* all subfamilies of family X */
    return body[LABEL_AFI] == afi;               /* subfamily Y of family X, or 0Y, only */
}

/* The filter is passed: run the one slot, or begin the sixteen. */
static void inventory_passed(uint8_t *body, int one_slot, unsigned bits, uint64_t mask,
                             struct ref_answer *answer)
{
    int mine;
    if (one_slot) {
        mine = ends_in(body, mask, bits);
    } else {
        start_sequence(body, bits, mask);
        mine = slot_is_mine(body);
    }
    if (mine)
        answer_inventory(body, answer);
}

static void inventory(uint8_t *body, const uint8_t *frame, size_t len, struct ref_answer *answer)
{
    int has_afi = (frame[0] & FLAG_AFI) != 0;
    int one_slot = (frame[0] & FLAG_ONE_SLOT) != 0;
    size_t at = has_afi ? 3 : 2;                 /* where the mask length stands */

    if (frame[1] != CMD_INVENTORY || (frame[0] & FLAG_OPTION) || !ready_or_selected(body))
        return;
    if (len < at + 1 + 2)
        return;
    unsigned bits = frame[at];
    if (bits > (one_slot ? 64u : 60u))
        return;
    size_t mask_bytes = (bits + 7) / 8;
    if (len != at + 1 + mask_bytes + 2)
        return;
    if (!afi_passes(body, has_afi, frame[2]))
        return;
    uint64_t mask = ref_number(frame + at + 1, mask_bytes) & ref_low_bits(bits);
    inventory_passed(body, one_slot, bits, mask, answer);
}

void ref_label_end_of_frame(uint8_t *body, struct ref_answer *answer)
{
    if (body[LABEL_STATE] == LABEL_OFF || body[LABEL_SLOT] == LABEL_NO_SLOT)
        return;
    if (body[LABEL_SLOT] == 15) {
        end_sequence(body);
        return;
    }
    body[LABEL_SLOT]++;
    if (slot_is_mine(body))
        answer_inventory(body, answer);
}

/* ------------------------------------------------- commands of one label */

/* The fixed lengths, CRC included, without UID. 21 has a block more. 25
 * stands with its UID already in. */
static const struct { uint8_t code, length; } LENGTHS[] = {
    { CMD_READ, 5 }, { CMD_LOCK, 5 }, { CMD_WRITE_AFI, 5 }, { CMD_WRITE_DSFID, 5 },
    { CMD_READY, 4 }, { CMD_LOCK_AFI, 4 }, { CMD_LOCK_DSFID, 4 }, { CMD_SYSTEM, 4 },
    { CMD_WRITE, 5 }, { CMD_SELECT, 12 }, { CMD_READ_MANY, 6 }, { CMD_SECURITY_MANY, 6 }
};

/* The length this label wants, or 0 for an unknown code. */
static size_t wanted_length(const uint8_t *body, const struct request *request)
{
    size_t length = 0;
    for (size_t i = 0; i < sizeof LENGTHS / sizeof LENGTHS[0]; i++)
        if (LENGTHS[i].code == request->code)
            length = LENGTHS[i].length;
    if (length == 0)
        return 0;
    if (request->code == CMD_WRITE)
        length += block_size(body);
    if (request->address && request->code != CMD_SELECT)
        length += REF_UID;
    return length;
}

static int names_many(uint8_t code)
{
    return code == CMD_READ_MANY || code == CMD_SECURITY_MANY;
}

static int names_a_block(uint8_t code)
{
    return code == CMD_READ || code == CMD_WRITE || code == CMD_LOCK || names_many(code);
}

static int takes_option(uint8_t code)
{
    return code == CMD_READ || code == CMD_READ_MANY;
}

/* The last block asked for; the second parameter is a number of blocks less
 * 1. A sum up to 510 must not wrap. */
static unsigned last_block(const struct request *request)
{
    unsigned last = request->frame[request->first];
    if (names_many(request->code))
        last += request->frame[request->first + 1];
    return last;
}

/* The checks in the paper's order, up to the block number; 0 if all is well. */
static uint8_t first_error(const uint8_t *body, const struct request *request)
{
    size_t wanted = wanted_length(body, request);
    if (wanted == 0)
        return ERROR_CODE;
    if (request->length != wanted)
        return ERROR_LENGTH;
    if (request->option && !takes_option(request->code))
        return ERROR_OPTION;
    if (names_a_block(request->code) && last_block(request) >= block_count(body))
        return ERROR_NO_BLOCK;
    return 0;
}

static void do_read(uint8_t *body, const struct request *request, struct ref_answer *answer)
{
    uint8_t block = request->frame[request->first];
    ref_answer_byte(answer, 0x00);
    if (request->option)
        ref_answer_byte(answer, *lock_of(body, block));
    ref_answer_bytes(answer, block_of(body, block), block_size(body));
    ref_answer_close(answer);
}

/* 23: each block, its lock byte first if Option. */
static void do_read_many(uint8_t *body, const struct request *request, struct ref_answer *answer)
{
    ref_answer_byte(answer, 0x00);
    for (unsigned block = request->frame[request->first]; block <= last_block(request); block++) {
        if (request->option)
            ref_answer_byte(answer, *lock_of(body, (uint8_t)block));
        ref_answer_bytes(answer, block_of(body, (uint8_t)block), block_size(body));
    }
    ref_answer_close(answer);
}

/* 2C: the lock bytes alone. */
static void do_security_many(uint8_t *body, const struct request *request,
                             struct ref_answer *answer)
{
    ref_answer_byte(answer, 0x00);
    for (unsigned block = request->frame[request->first]; block <= last_block(request); block++)
        ref_answer_byte(answer, *lock_of(body, (uint8_t)block));
    ref_answer_close(answer);
}

static void do_write(uint8_t *body, const struct request *request, struct ref_answer *answer)
{
    uint8_t block = request->frame[request->first];
    if (*lock_of(body, block)) {
        answer_error(answer, ERROR_LOCKED);
        return;
    }
    memcpy(block_of(body, block), request->frame + request->first + 1, block_size(body));
    answer_done(answer);
}

static void do_lock(uint8_t *body, const struct request *request, struct ref_answer *answer)
{
    uint8_t block = request->frame[request->first];
    if (*lock_of(body, block)) {
        answer_error(answer, ERROR_LOCKED_ALREADY);
        return;
    }
    *lock_of(body, block) = 1;
    answer_done(answer);
}

static void do_state(uint8_t *body, uint8_t state, struct ref_answer *answer)
{
    body[LABEL_STATE] = state;
    answer_done(answer);
}

/* 27 and 29: write AFI or DSFID. */
static void do_write_field(uint8_t *body, unsigned field, uint8_t lock,
                           const struct request *request, struct ref_answer *answer)
{
    if (body[LABEL_LOCKS] & lock) {
        answer_error(answer, ERROR_LOCKED);
        return;
    }
    body[field] = request->frame[request->first];
    answer_done(answer);
}

/* 28 and 2A: lock AFI or DSFID. */
static void do_lock_field(uint8_t *body, uint8_t lock, struct ref_answer *answer)
{
    if (body[LABEL_LOCKS] & lock) {
        answer_error(answer, ERROR_LOCKED_ALREADY);
        return;
    }
    body[LABEL_LOCKS] = (uint8_t)(body[LABEL_LOCKS] | lock);
    answer_done(answer);
}

static void do_system(const uint8_t *body, struct ref_answer *answer)
{
    ref_answer_byte(answer, 0x00);
    ref_answer_byte(answer, 0x0F);
    ref_answer_bytes(answer, body + LABEL_UID, REF_UID);
    ref_answer_byte(answer, body[LABEL_DSFID]);
    ref_answer_byte(answer, body[LABEL_AFI]);
    ref_answer_byte(answer, body[LABEL_BLOCKS]);
    ref_answer_byte(answer, body[LABEL_SIZE]);
    ref_answer_byte(answer, body[LABEL_IC]);
    ref_answer_close(answer);
}

/* The label acts: checks, then the work. */
static void act(uint8_t *body, const struct request *request, struct ref_answer *answer)
{
    uint8_t error = first_error(body, request);
    if (error) {
        answer_error(answer, error);
        return;
    }
    switch (request->code) {
    case CMD_READ: do_read(body, request, answer); break;
    case CMD_WRITE: do_write(body, request, answer); break;
    case CMD_LOCK: do_lock(body, request, answer); break;
    case CMD_READ_MANY: do_read_many(body, request, answer); break;
    case CMD_SELECT: do_state(body, LABEL_SELECTED, answer); break;
    case CMD_READY: do_state(body, LABEL_READY, answer); break;
    case CMD_WRITE_AFI: do_write_field(body, LABEL_AFI, LOCK_AFI, request, answer); break;
    case CMD_LOCK_AFI: do_lock_field(body, LOCK_AFI, answer); break;
    case CMD_WRITE_DSFID: do_write_field(body, LABEL_DSFID, LOCK_DSFID, request, answer); break;
    case CMD_LOCK_DSFID: do_lock_field(body, LOCK_DSFID, answer); break;
    case CMD_SYSTEM: do_system(body, answer); break;
    case CMD_SECURITY_MANY: do_security_many(body, request, answer); break;
    default: break;
    }
}

/* 02 is always silent and acts in one form only. */
static void stay_quiet(uint8_t *body, const struct request *request)
{
    if (request->owner && !request->option && request->length == 12)
        body[LABEL_STATE] = LABEL_QUIET;
}

/* 25, well formed, for another UID: a selected label goes back to ready. */
static void select_of_another(uint8_t *body, const struct request *request)
{
    int well_formed = request->length == 12 && !request->option;
    if (well_formed && body[LABEL_STATE] == LABEL_SELECTED)
        body[LABEL_STATE] = LABEL_READY;
}

static int label_acts(const uint8_t *body, const struct request *request)
{
    if (request->address)
        return request->owner;
    if (request->select)
        return body[LABEL_STATE] == LABEL_SELECTED;
    return ready_or_selected(body);
}

static struct request take_apart(const uint8_t *body, const uint8_t *frame, size_t len)
{
    struct request request;
    request.frame = frame;
    request.length = len;
    request.code = frame[1];
    request.select = (frame[0] & FLAG_SELECT) != 0;
    request.address = (frame[0] & FLAG_ADDRESS) != 0;
    request.option = (frame[0] & FLAG_OPTION) != 0;
    request.owner = request.address && len >= 12
        && ref_number(frame + 2, REF_UID) == uid_of(body);
    request.first = request.address ? 10 : 2;
    return request;
}

/* A frame with Inventory clear, CRC right. */
static void command(uint8_t *body, const uint8_t *frame, size_t len, struct ref_answer *answer)
{
    struct request request = take_apart(body, frame, len);
    if (request.select && request.address)
        return;
    if (request.address && len < 12)
        return;
    if (request.code == CMD_INVENTORY)
        return;
    if (request.code == CMD_STAY_QUIET) {
        stay_quiet(body, &request);
        return;
    }
    if (request.code == CMD_SELECT && !request.address)
        return;
    if (request.code == CMD_SELECT && !request.owner) {
        select_of_another(body, &request);
        return;
    }
    if (label_acts(body, &request))
        act(body, &request, answer);
}

void ref_label_frame(uint8_t *body, const uint8_t *frame, size_t len, struct ref_answer *answer)
{
    if (body[LABEL_STATE] == LABEL_OFF)
        return;
    end_sequence(body);                 /* good or bad, the frame does this first */
    if (len < 4 || !ref_check_right(frame, len) || (frame[0] & FLAGS_NEVER))
        return;
    if (frame[0] & FLAG_INVENTORY)
        inventory(body, frame, len, answer);
    else
        command(body, frame, len, answer);
}
