// What the tests from C share beside common.h: frames, memory that a refusal leaves, and the readings that refuse.
#include "common.h"

static bool filled(const void *memory, size_t size)
{
    const uint8_t *bytes = memory;
    for (size_t i = 0; i < size; i++)
        if (bytes[i] != 0xA5) return false;
    return true;
}

#define FILL(thing) memset(&(thing), 0xA5, sizeof(thing))
#define FILLED(thing) filled(&(thing), sizeof(thing))

// The halt of docs/RULES.md, and the specification's fourth example of a quote with the check byte that the rule gives.
static const uint8_t HALT[26] = {0x1B, 0x00, 0x26, 0x01, 0x19, 0x01, 0x00, 0x00, 0x00, 0x01, 0x31, 0x32, 0x33, 0x34,
                                 0x20, 0x20, 0x10, 0x05, 0x00, 0x99, 0x99, 0x99, 0x49, 0xFF, 0x0D, 0x0A};
static const uint8_t QUOTE[41] = {0x1B, 0x00, 0x41, 0x01, 0x06, 0x04, 0x00, 0x00, 0x83, 0x25, 0x31, 0x33, 0x30, 0x31,
                                  0x20, 0x20, 0x09, 0x45, 0x19, 0x03, 0x30, 0x17, 0x80, 0x81, 0x00, 0x00, 0x00, 0x15,
                                  0x58, 0x00, 0x00, 0x33, 0x50, 0x00, 0x00, 0x00, 0x00, 0x00, 0xB9, 0x0D, 0x0A};

// All five readings answer the same, and leave their structs as they were.
static void refused(const uint8_t *line, size_t length, size_t at, uint64_t expected)
{
    trivsome_notice notice;
    trivsome_quote quote;
    trivsome_prices prices;
    trivsome_halt halt;
    FILL(notice), FILL(quote), FILL(prices), FILL(halt);
    HOLDS(trivsome_read(line, length, at) == expected);
    HOLDS(trivsome_read_notice(line, length, at, &notice) == expected && FILLED(notice));
    HOLDS(trivsome_read_quote(line, length, at, &quote) == expected && FILLED(quote));
    HOLDS(trivsome_read_prices(line, length, at, &prices) == expected && FILLED(prices));
    HOLDS(trivsome_read_halt(line, length, at, &halt) == expected && FILLED(halt));
}
