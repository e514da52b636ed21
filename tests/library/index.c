// Tries the calls of include/trivsome.h on lines of the derivatives exchange. The frames and the places of bad digits are written
// by hand from docs/RULES.md. Prints each line that does not hold, and ends with status 1 if there was one.
#include "frames.h"

// I060: futures, the contract TXF at 17345.678. I064: options, the contract 2330 at 1045.000, with all three status bits.
static const uint8_t SHORT_FRAME[29] = {0x1B, 0x31, 0x35, 0x09, 0x00, 0x15, 0x12, 0x00, 0x00, 0x00, 0x01, 0x02, 0x00, 0x12, 0x54,
                                        0x58, 0x46, 0x09, 0x00, 0x15, 0x00, 0x17, 0x34, 0x56, 0x78, 0x00, 0x40, 0x0D, 0x0A};
static const uint8_t LONG_FRAME[34] = {0x1B, 0x34, 0x38, 0x08, 0x59, 0x59, 0x99, 0x00, 0x00, 0x00, 0x83, 0x01, 0x00, 0x17, 0x32, 0x33, 0x33,
                                       0x30, 0x20, 0x20, 0x20, 0x20, 0x08, 0x59, 0x59, 0x00, 0x01, 0x04, 0x50, 0x00, 0x07, 0x50, 0x0D, 0x0A};

// The readings and the moves answer the same, and leave their struct and their numbers as they were.
static void not_read(const uint8_t *line, size_t length, uint64_t expected)
{
    trivsome_index index;
    uint8_t contract[8], bytes[4];
    uint32_t numbers[3];
    FILL(index), FILL(contract), FILL(bytes), FILL(numbers);
    HOLDS(trivsome_derivatives_read(line, length, 0) == expected);
    HOLDS(trivsome_read_index(line, length, 0, &index) == expected && FILLED(index) && !trivsome_is_index(expected));
    HOLDS(trivsome_read_index_numbers(line, length, 0, contract, bytes, numbers) == expected);
    HOLDS(FILLED(contract) && FILLED(bytes) && FILLED(numbers));
    bool no_frame = trivsome_answer(expected) <= 5, waits = trivsome_answer(expected) == 2;
    uint64_t moved = no_frame ? expected | 1 << 16 : expected;
    HOLDS(trivsome_derivatives_move(line, length, 0, true) == (length == 0 ? 2 : moved));
    HOLDS(trivsome_derivatives_move(line, length, 0, false) == (waits ? 2 : moved));
}

// A frame with another byte at a place, and the check byte that goes with it.
static const uint8_t *with(const uint8_t *frame, size_t length, size_t at, uint8_t byte)
{
    static uint8_t other[34];
    memcpy(other, frame, length);
    other[at] = byte, other[length - 3] ^= frame[at] ^ byte;
    return other;
}

static void reading(void)
{
    trivsome_index i;
    FILL(i);
    HOLDS(trivsome_derivatives_read(SHORT_FRAME, 29, 0) == outcome(0, TRIVSOME_I060, 29, 1));
    HOLDS(trivsome_read_index(SHORT_FRAME, 29, 0, &i) == outcome(0, 60, 29, 1) && trivsome_is_index(outcome(0, 60, 29, 1)));
    HOLDS(i.seq == 1 && i.market == '1' && i.kind == '5' && i.length == 3 && i.status == 0 && memcmp(i.contract, "TXF\0\0\0\0", 8) == 0);
    HOLDS(i.sent == 9001512 && i.time == 9001500 && i.value == 17345678);
    HOLDS(trivsome_read_index(LONG_FRAME, 34, 0, &i) == outcome(0, TRIVSOME_I064, 34, 83) && trivsome_is_index(outcome(0, 64, 34, 83)));
    HOLDS(i.seq == 83 && i.market == '4' && i.kind == '8' && i.length == 8 && i.status == 7 && memcmp(i.contract, "2330    ", 8) == 0);
    HOLDS(i.sent == 8595999 && i.time == 8595900 && i.value == 1045000);
    HOLDS(trivsome_derivatives_move(LONG_FRAME, 34, 0, false) == outcome(0, 64, 34, 83));
    // neither exchange takes the other's frames: market and kind are a length of over 1,024, and 0D 0A is none
    refused(SHORT_FRAME, 29, 0, 3), refused(LONG_FRAME, 34, 0, 3);
    not_read(NOTICE, 14, refusal(3, 0, 25));
    HOLDS(!trivsome_is_index(outcome(0, TRIVSOME_QUOTE, 41, 1)));

    not_read(NULL, 0, 2);
    for (size_t cut = 1; cut < 29; cut++) not_read(SHORT_FRAME, cut, 2);
    not_read(SHORT_FRAME + 1, 28, 1);
    HOLDS(trivsome_derivatives_read(SHORT_FRAME, 29, 29) == 2 && trivsome_derivatives_read(SHORT_FRAME, 29, SIZE_MAX) == 2);
    not_read(with(SHORT_FRAME, 29, 12, 0x20), 29, 3);
    not_read(with(SHORT_FRAME, 29, 27, 0x0C), 29, 4);
    uint8_t line[29];
    memcpy(line, SHORT_FRAME, 29), line[26] ^= 1;
    not_read(line, 29, 5);
    not_read(with(SHORT_FRAME, 29, 1, '2'), 29, outcome(7, 0, 29, 0));
    not_read(with(LONG_FRAME, 34, 2, '3'), 34, outcome(7, 0, 34, 0));
    not_read(with(SHORT_FRAME, 29, 11, 0x03), 29, outcome(8, 0, 29, 0));
    not_read(with(LONG_FRAME, 34, 11, 0x02), 34, outcome(8, 0, 34, 0));
    not_read(with(SHORT_FRAME, 29, 3, 0x24), 29, outcome(12, 0, 29, 0));
    not_read(with(LONG_FRAME, 34, 24, 0x60), 34, outcome(12, 0, 34, 0));
    not_read(with(SHORT_FRAME, 29, 14, 0x1F), 29, outcome(13, 0, 29, 0));
    not_read(with(LONG_FRAME, 34, 21, 0x7F), 34, outcome(13, 0, 34, 0));
    not_read(with(SHORT_FRAME, 29, 25, 0x02), 29, outcome(13, 0, 29, 0));
    not_read(with(LONG_FRAME, 34, 30, 0x08), 34, outcome(13, 0, 34, 0));
    // a body of no bytes
    uint8_t none[17] = {0x1B, 0x31, 0x35, 0x09, 0x00, 0x15, 0x12, 0x00, 0x00, 0x00, 0x01, 0x02, 0x00, 0x00, 0x09, 0x0D, 0x0A};
    not_read(none, 17, outcome(9, 0, 17, 0));
}

// Each half of the header, the length, the time and the value made bad: 3, 6 and 11 with its place.
static void bad_halves(void)
{
    for (int form = 0; form < 2; form++) {
        const uint8_t *frame = form == 0 ? SHORT_FRAME : LONG_FRAME;
        size_t length = form == 0 ? 29 : 34, time = form == 0 ? 34 : 44;
        for (size_t half = 6; half < time + 16; half++) {
            if (half >= 28 && half < time) continue;
            uint8_t byte = frame[half / 2];
            byte = (uint8_t)(half % 2 == 0 ? (byte & 0x0F) | 0xF0 : (byte & 0xF0) | 0x0A);
            uint64_t expected = half < 24 ? refusal(6, (unsigned)length, half) : half < 28 ? refusal(3, 0, half) : refusal(11, (unsigned)length, half);
            not_read(with(frame, length, half / 2, byte), length, expected);
            size_t place = 0;
            HOLDS(trivsome_bad_half(expected, &place) && place == half);
        }
    }
}

// 14 whatever the room, and nothing changes.
static void not_written(const trivsome_index *index)
{
    uint8_t buf[40];
    FILL(buf);
    HOLDS(trivsome_write_index(index, buf, sizeof buf) == 14 && trivsome_write_index(index, buf, 28) == 14 && FILLED(buf));
    HOLDS(trivsome_write_index(index, NULL, 0) == 14);
}

static void writing(void)
{
    uint8_t buf[40];
    trivsome_index i, s;
    HOLDS(trivsome_is_index(trivsome_read_index(LONG_FRAME, 34, 0, &i)) && trivsome_is_index(trivsome_read_index(SHORT_FRAME, 29, 0, &s)));
    FILL(buf);
    HOLDS(trivsome_write_index(&s, buf, sizeof buf) == outcome(0, 0, 29, 0) && memcmp(buf, SHORT_FRAME, 29) == 0 && filled(buf + 29, 11));
    FILL(buf);
    HOLDS(trivsome_write_index(&i, buf, 34) == outcome(0, 0, 34, 0) && memcmp(buf, LONG_FRAME, 34) == 0 && filled(buf + 34, 6));
    FILL(buf);
    for (size_t room = 0; room < 34; room++) HOLDS(trivsome_write_index(&i, room == 0 ? NULL : buf, room) == 15 && FILLED(buf));
    trivsome_index none = {0};
    not_written(&none);
    trivsome_index w = s;
    w.seq = 100000000, not_written(&w);
    w = s, w.market = '2', not_written(&w);
    w = s, w.kind = '6', not_written(&w);
    w = s, w.length = 8, not_written(&w);
    w = s, w.length = 4, not_written(&w);
    w = s, w.contract[7] = ' ', not_written(&w);
    w = s, w.contract[2] = 0x1B, not_written(&w);
    w = s, w.sent = 24000000, not_written(&w);
    w = s, w.time = 9006000, not_written(&w);
    w = s, w.value = 100000000, not_written(&w);
    w = s, w.status = 2, not_written(&w);
    w = i, w.status = 8, not_written(&w);
    w = i, w.length = 3, not_written(&w);
}

static void walking(void)
{
    uint8_t line[2 + 29 + 34 + 20] = {'A', 'B'};
    memcpy(line + 2, SHORT_FRAME, 29), memcpy(line + 31, with(LONG_FRAME, 34, 1, '0'), 34), memcpy(line + 65, LONG_FRAME, 20);
    size_t at = 0, bytes, moves = 0;
    for (; (bytes = trivsome_length(trivsome_derivatives_move(line, sizeof line, at, false))) != 0; moves++) at += bytes;
    HOLDS(moves == 4 && at == 65 && trivsome_derivatives_move(line, sizeof line, 85, true) == 2);
    trivsome_tally t = {0, 0, 0, 0};
    HOLDS(trivsome_derivatives_walk_line(&t, line, sizeof line, false) == 0);
    HOLDS(t.accepted == 29 && t.refused == 34 && t.skipped == 2 && t.waiting == 20);
    HOLDS(trivsome_derivatives_walk_line(&t, line, sizeof line, true) == 0);
    HOLDS(t.accepted == 58 && t.refused == 68 && t.skipped == 24 && t.waiting == 0);
    trivsome_tally full = {UINT64_MAX - 84, 1, 2, 3};
    HOLDS(trivsome_derivatives_walk_line(&full, line, sizeof line, true) == 16);
    HOLDS(full.accepted == UINT64_MAX - 84 && full.refused == 1 && full.skipped == 2 && full.waiting == 3);
    HOLDS(trivsome_derivatives_walk_line(&t, NULL, 0, true) == 0 && t.accepted == 58);
}

int main(void)
{
    reading();
    bad_halves();
    writing();
    walking();
    return wrong;
}
