// What the tests from C and from C++ share.
#include <stdio.h>
#include "trivsome.h"

// A line that does not hold is printed, and main returns this.
static int wrong;

#define HOLDS(test) ((test) ? (void)0 : (void)(printf("%s:%d: does not hold: %s\n", __FILE__, __LINE__, #test), wrong = 1))

// The outcome of a reading or a move, put together the other way round.
static uint64_t outcome(unsigned answer, unsigned format, unsigned length, uint32_t seq)
{
    return (uint64_t)seq << 32 | (uint64_t)length << 16 | (uint64_t)format << 8 | answer;
}

// The same of a refusal that tells the place of a bad half byte.
static inline uint64_t refusal(unsigned answer, unsigned length, size_t half)
{
    return outcome(answer, 0, length, (uint32_t)half + 1);
}

// The notice of docs/RULES.md.
static const uint8_t NOTICE[14] = {0x1B, 0x00, 0x14, 0x01, 0x05, 0x01, 0x00, 0x00, 0x00, 0x01, 0x09, 0x19, 0x0D, 0x0A};
