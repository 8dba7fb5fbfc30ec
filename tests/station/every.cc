// every.cc - every call of the C face from C++: a rack of one label is switched on, walked, asked for its system information and for its blocks, and
// the answers read.
// Ends with the line of the first check that fails, or 0.
#include "sackbutflare.h"

#include <cstddef>
#include <cstring>
#include <initializer_list>

#if SACKBUTFLARE_VERSION < 300
#error "SACKBUTFLARE_VERSION is no number, or one of no edition"
#endif

#define CHECK(x)             \
    do {                     \
        if (!(x))            \
            return __LINE__; \
    } while (false)

// one label, off, of one block of one byte, UID E000000000000011
static uint8_t rack[44] = { 1, 1, 1, 0, 34, 0, 10, 0, 0, 0, 0x11, 0, 0, 0, 0, 0, 0, 0xE0 };
static uint8_t answer[8451], request[64], list[8];
static const uint8_t draws[1] = { 0 };

static sackbutflare_report send(std::size_t length)
{
    return sackbutflare_event(rack, sizeof rack, 3, request, length, draws, sizeof draws, answer, sizeof answer);
}

static int on_and_walk()
{
    rack[10 + 15] = 255;
    const sackbutflare_report on = sackbutflare_event(rack, sizeof rack, 2, nullptr, 0, draws, sizeof draws, answer, sizeof answer);
    CHECK(on.number == 0 && on.answered == 0 && on.length == 0 && rack[10 + 14] == 1);
    const sackbutflare_walked walked = sackbutflare_walk(rack, sizeof rack, false, 0, list, sizeof list);
    CHECK(walked.number == 0 && walked.labels == 1 && walked.rounds == 1 && std::memcmp(list, rack + 10, 8) == 0);
    return 0;
}

static int read_information()
{
    sackbutflare_command information = {};
    information.kind = SACKBUTFLARE_LABEL;
    information.target = SACKBUTFLARE_EVERYONE;
    information.code = 0x2B;
    const sackbutflare_written written = sackbutflare_write_request(information, nullptr, 0, nullptr, 0, request, sizeof request);
    CHECK(written.number == 0 && written.length == 4);
    const unsigned sum = sackbutflare_check_sum(request, written.length - 2);
    CHECK(request[2] == (sum & 0xFF) && request[3] == sum >> 8);
    const sackbutflare_report heard = send(written.length);
    CHECK(heard.number == 0 && heard.answered == 1);
    const sackbutflare_told told = sackbutflare_read_answer(information, nullptr, 0, 0, answer, heard.length);
    CHECK(told.number == 0 && told.meaning == SACKBUTFLARE_SYSTEM && told.uid == 0xE000000000000011u && told.count == 0);
    return 0;
}

static int read_blocks()
{
    sackbutflare_command blocks = {};
    blocks.kind = SACKBUTFLARE_LABEL;
    blocks.target = SACKBUTFLARE_ONE_UID;
    blocks.option = true;
    blocks.code = 0x23;
    blocks.more = 0;
    const sackbutflare_written written = sackbutflare_write_request(blocks, list, sizeof list, nullptr, 0, request, sizeof request);
    CHECK(written.number == 0 && written.length == 14);
    const sackbutflare_report heard = send(written.length);
    CHECK(heard.number == 0 && heard.answered == 1);
    const sackbutflare_told told = sackbutflare_read_answer(blocks, list, sizeof list, 0, answer, heard.length);
    CHECK(told.number == 0 && told.meaning == SACKBUTFLARE_LOCKED_BLOCKS && told.place == 1 && told.length == 1 && told.count == 1);
    return 0;
}

int main()
{
    CHECK(sackbutflare_version() == SACKBUTFLARE_VERSION);
    for (const auto part : { on_and_walk, read_information, read_blocks }) {
        const int line = part();
        if (line != 0)
            return line;
    }
    return 0;
}
