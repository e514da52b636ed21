// Tries where readings and moves say that a bad digit is, at every half byte of a frame of each format. Which halves hold digits
// is written by hand from docs/RULES.md. Prints each line that does not hold, and ends with status 1 if there was one.
#include "frames.h"

// What an outcome tells, over memory that held something else.
static bool tells(uint64_t x, size_t place)
{
    size_t told = 99;
    return trivsome_bad_half(x, &told) && told == place;
}
static bool tells_none(uint64_t x)
{
    size_t told = 99;
    return !trivsome_bad_half(x, &told) && told == 0;
}

// The figures of outcomes that are put together here.
static void figures(void)
{
    static const uint32_t numbers[6] = {0, 1, 3, 21, 42, 99999999};
    for (int i = 0; i < 6; i++) {
        uint64_t x = outcome(0, TRIVSOME_QUOTE, 41, numbers[i]);
        HOLDS(tells_none(x) && trivsome_seq(x) == numbers[i] && trivsome_length(x) == 41 && trivsome_is_quote(x));
    }
    for (unsigned answer = 1; answer <= 13; answer++) HOLDS(tells_none(outcome(answer, 0, 14, 0)) && trivsome_seq(outcome(answer, 0, 14, 0)) == 0);
    static const size_t places[6] = {2, 5, 6, 19, 20, 741};
    for (int i = 0; i < 6; i++) {
        uint64_t x = refusal(i < 2 ? 3 : i < 4 ? 6 : 11, i < 2 ? 0 : 374, places[i]);
        HOLDS(tells(x, places[i]) && trivsome_seq(x) == 0 && trivsome_format(x) == 0 && !trivsome_is_quote(x));
        HOLDS(trivsome_answer(x) == (i < 2 ? 3U : i < 4 ? 6U : 11U) && trivsome_length(x) == (i < 2 ? 0U : 374U));
    }
}

// A frame, and what of a half of its body is a digit, or the first half of a price, which has to be 0.
typedef enum { OTHER, DIGIT, PRICE } half_kind;
typedef struct {
    const uint8_t *frame;
    size_t length;
    half_kind (*kind)(size_t half);
} sample;

// The category.
static half_kind of_notice(size_t half) { return half < 22 ? DIGIT : OTHER; }
// Behind the code two times of three bytes.
static half_kind of_halt(size_t half) { return half >= 32 && half < 44 ? DIGIT : OTHER; }
// Behind the code the time; behind three bytes the total, and from half 58 on pairs of nine bytes.
static half_kind of_quote(size_t half)
{
    if (half < 58) return (half >= 32 && half < 44) || half >= 50 ? DIGIT : OTHER;
    return (half - 58) % 18 == 0 ? PRICE : DIGIT;
}
// The count; then slots of 36 bytes: behind the code four prices of five bytes, the total and the time.
static half_kind of_prices(size_t half)
{
    if (half < 22) return DIGIT;
    size_t in_slot = (half - 22) % 72;
    if (in_slot < 12) return OTHER;
    return in_slot < 52 && (in_slot - 12) % 10 == 0 ? PRICE : DIGIT;
}

// A half made another, and the check byte that goes with it.
static void put_half(uint8_t *frame, size_t length, size_t half, unsigned value)
{
    uint8_t before = frame[half / 2];
    frame[half / 2] = (uint8_t)(half % 2 == 0 ? (before & 0x0F) | value << 4 : (before & 0xF0) | value);
    frame[length - 3] ^= before ^ frame[half / 2];
}

// All readings tell the place, and the moves, open and closed.
static void told(const uint8_t *frame, size_t length, unsigned answer, size_t half)
{
    unsigned whole = answer == 3 ? 0 : (unsigned)length, past = answer == 3 ? 1 : whole;
    HOLDS(tells(trivsome_read(frame, length, 0), half));
    refused(frame, length, 0, refusal(answer, whole, half));
    HOLDS(trivsome_move(frame, length, 0, false) == refusal(answer, past, half));
    HOLDS(trivsome_move(frame, length, 0, true) == refusal(answer, past, half));
}

// No reading tells a place, nor do the moves.
static void not_told(const uint8_t *frame, size_t length, unsigned answer)
{
    unsigned whole = answer < 6 ? 0 : (unsigned)length, past = answer < 6 ? 1 : whole;
    refused(frame, length, 0, outcome(answer, 0, whole, 0));
    HOLDS(trivsome_move(frame, length, 0, true) == outcome(answer, 0, past, 0));
}

// Every half of a frame, whatever it holds.
static void every_half(sample s)
{
    uint8_t line[TRIVSOME_LONGEST];
    HOLDS(tells_none(trivsome_read(s.frame, s.length, 0)) && trivsome_answer(trivsome_read(s.frame, s.length, 0)) == 0);
    for (size_t half = 2; half < 2 * (s.length - 3); half++) {
        half_kind kind = half < 20 ? DIGIT : s.kind(half);
        for (unsigned value = 0; value < 16; value++) {
            memcpy(line, s.frame, s.length);
            put_half(line, s.length, half, value);
            if (kind != OTHER && (value > 9 || (kind == PRICE && value != 0))) told(line, s.length, half < 6 ? 3 : half < 20 ? 6 : 11, half);
            else HOLDS(tells_none(trivsome_read(line, s.length, 0)) && tells_none(trivsome_move(line, s.length, 0, true)));
        }
    }
}

// Two bad halves: the lower is told.
static void two_bad_halves(sample s)
{
    uint8_t line[TRIVSOME_LONGEST];
    size_t last = 0;
    for (size_t half = 6; half < 2 * (s.length - 3); half++) {
        if (half >= 20 && s.kind(half) == OTHER) continue;
        memcpy(line, s.frame, s.length);
        put_half(line, s.length, half, 10);
        if (last != 0) put_half(line, s.length, last, 15), told(line, s.length, last < 20 ? 6 : 11, last);
        last = half;
    }
}

static void lengths(void)
{
    static const uint8_t bad[4][3] = {{0x1B, 0xA0, 0x14}, {0x1B, 0x0F, 0xFF}, {0x1B, 0x00, 0xAA}, {0x1B, 0x99, 0x9A}};
    static const uint8_t outside[4][3] = {{0x1B, 0x00, 0x00}, {0x1B, 0x00, 0x13}, {0x1B, 0x10, 0x25}, {0x1B, 0x99, 0x99}};
    for (size_t i = 0; i < 4; i++) told(bad[i], 3, 3, 2 + i), not_told(outside[i], 3, 3);
    // with fewer bytes it is not looked at
    refused(bad[0], 2, 0, 2);
    // a place counts from the frame's own first byte
    uint8_t line[5] = {0x41, 0x42, 0x1B, 0x0A, 0x14};
    refused(line, 5, 2, refusal(3, 0, 3));
    HOLDS(trivsome_move(line, 5, 2, false) == refusal(3, 1, 3));
}

// Answers that go before a bad digit's, and those of other fields.
static void other_answers(void)
{
    static const struct {
        size_t half;
        unsigned value, answer;
    } other[4] = {{7, 2, 7}, {9, 7, 7}, {11, 2, 8}, {44, 6, 10}};
    uint8_t line[41];
    for (int i = 0; i < 4; i++) {
        memcpy(line, QUOTE, 41);
        put_half(line, 41, 32, 10), put_half(line, 41, other[i].half, other[i].value);
        not_told(line, 41, other[i].answer);
    }
    memcpy(line, QUOTE, 41), put_half(line, 41, 32, 10), put_half(line, 41, 45, 2);
    not_told(line, 41, 9);
    memcpy(line, QUOTE, 41), put_half(line, 41, 32, 2), put_half(line, 41, 20, 0);
    not_told(line, 41, 12);
    memcpy(line, QUOTE, 41), put_half(line, 41, 20, 0);
    not_told(line, 41, 13);
    memcpy(line, QUOTE, 41), put_half(line, 41, 32, 10), line[38] ^= 1;
    not_told(line, 41, 5);
    line[40] ^= 1;
    not_told(line, 41, 4);
    refused(line, 40, 0, 2);
    refused(line, 41, 1, 1);
}

// Accepted frames of any number.
static void accepted(void)
{
    static const uint32_t numbers[6] = {0, 1, 3, 21, 42, 99999999};
    uint8_t buf[14];
    for (int i = 0; i < 6; i++) {
        trivsome_notice n = {numbers[i], 9, 0, {0}};
        HOLDS(trivsome_answer(trivsome_write_notice(&n, buf, sizeof buf)) == 0);
        uint64_t x = trivsome_read_notice(buf, sizeof buf, 0, &n), move = trivsome_move(buf, sizeof buf, 0, false);
        HOLDS(x == outcome(0, 5, 14, numbers[i]) && tells_none(x) && trivsome_seq(x) == numbers[i] && n.seq == numbers[i]);
        HOLDS(move == x && tells_none(move) && trivsome_seq(move) == numbers[i]);
    }
}

int main(void)
{
    // a trade, five bids and five asks, and prices of one stock
    uint8_t quote[131], prices[TRIVSOME_LONGEST];
    trivsome_quote q = {7, {'2', '3', '3', '0', ' ', ' '}, 0xDA, 0, 0, TRIVSOME_LEVELS_SHOWN, 90415061278, 12345, {1, 10}, {{0, 0}}, {{0, 0}}};
    trivsome_prices p = TRIVSOME_NO_PRICES;
    p.count = 1, memcpy(p.slots[0].code, "2330  ", 6), p.slots[0].time = TRIVSOME_NINES;
    HOLDS(trivsome_write_quote(&q, quote, sizeof quote) == outcome(0, 0, 131, 0));
    HOLDS(trivsome_write_prices(&p, prices, sizeof prices) == outcome(0, 0, 374, 0));
    const sample samples[5] = {{NOTICE, 14, of_notice}, {HALT, 26, of_halt}, {QUOTE, 41, of_quote}, {quote, 131, of_quote}, {prices, 374, of_prices}};

    figures();
    for (int i = 0; i < 5; i++) every_half(samples[i]), two_bad_halves(samples[i]);
    lengths();
    other_answers();
    accepted();
    return wrong;
}
