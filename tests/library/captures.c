// Tries the calls on a capture at their edges, with the power cut after every store. What is expected is written by hand from
// docs/RULES.md. Prints each line that does not hold, and ends with status 1 if there was one.
#include "common.h"

enum { SIZE = 65536, BLOCK = 512, MOST = 504 };

// A capture with a byte on either side that no call may change, another one to compare it with, and a payload of any bytes.
static uint8_t memory[SIZE + 2], *const capture = memory + 1, before[SIZE], expected[SIZE], payload[SIZE];

// The outcomes, put together the other way round.
static uint64_t at(size_t place) { return outcome(0, (unsigned)place, 0, 0); }
static uint64_t bad(size_t place) { return outcome(33, (unsigned)place, 0, 0); }
static uint64_t bytes(size_t start, size_t length) { return outcome(0, 0, (unsigned)length, (uint32_t)start); }

static uint64_t append(size_t length) { return trivsome_capture_append(capture, SIZE, payload, length); }
static uint64_t finished(void) { return trivsome_capture_finished(capture, SIZE); }

// The length of the payload at a place: the least and the greatest, and others.
static size_t length_of(size_t place)
{
    static const size_t lengths[7] = {1, 504, 2, 503, 255, 256, 300};
    return lengths[place % 7];
}

// Fills the payload with bytes of the place's own.
static void fill(size_t place)
{
    for (size_t i = 0; i < SIZE; i++) payload[i] = (uint8_t)(place * 31 + i * 7 + i / 256);
}

// Puts the check of a block right: both sums reduced after each byte.
static void seal(uint8_t *block)
{
    unsigned first = 0, second = 0;
    for (int i = 0; i < 510; i++) first = (first + block[i]) % 255, second = (second + first) % 255;
    block[510] = (uint8_t)first, block[511] = (uint8_t)second;
}

// The block that an append of the payload leaves at a place.
static void block_at(uint8_t *whole, size_t place, size_t length)
{
    uint8_t *block = whole + BLOCK * (place - 1);
    memset(block, 0, BLOCK);
    block[3] = (uint8_t)place, block[4] = (uint8_t)(length >> 8), block[5] = (uint8_t)length;
    memcpy(block + 6, payload, length);
    seal(block);
}

// A capture in which so many blocks are finished, and every block behind has such a byte everywhere but in its number.
static void filled(size_t places, uint8_t behind)
{
    memset(capture, 0, SIZE);
    for (size_t place = 1; place <= 128; place++) {
        if (place > places) memset(capture + BLOCK * (place - 1) + 4, behind, BLOCK - 4);
        else fill(place), block_at(capture, place, length_of(place));
    }
}

// The place's payload is so long, and is what fill and length_of say.
static bool holds(size_t place)
{
    const uint8_t *found = NULL;
    size_t start = BLOCK * (place - 1) + 6, length = length_of(place);
    fill(place);
    return trivsome_capture_payload(capture, SIZE, place) == bytes(start, length)
        && trivsome_capture_payload_at(capture, SIZE, place, &found) == bytes(start, length)
        && found == capture + start && memcmp(found, payload, length) == 0;
}

// There is no payload at the place.
static bool holds_none(size_t place)
{
    const uint8_t *found = NULL;
    return trivsome_capture_payload(capture, SIZE, place) == 0
        && trivsome_capture_payload_at(capture, SIZE, place, &found) == 0 && found == capture;
}

// So many blocks are finished, and the payloads are theirs.
static void holds_all(size_t places)
{
    HOLDS(finished() == at(places) && trivsome_figure(finished()) == places);
    for (size_t place = 1; place <= places; place++) HOLDS(holds(place));
    HOLDS(holds_none(0) && holds_none(places + 1) && holds_none(128 + 1) && holds_none(256 + 1) && holds_none(SIZE_MAX));
}

// Every call but the clearing answers so, and changes nothing.
static void refused(uint64_t x, const uint8_t *data, size_t length)
{
    const uint8_t *found = payload;
    memcpy(before, capture, SIZE);
    HOLDS(trivsome_capture_append(capture, SIZE, data, length) == x);
    for (size_t stores = 0; stores <= 1024; stores += 256) HOLDS(trivsome_capture_append_cut(capture, SIZE, data, length, stores) == x);
    if (trivsome_answer(x) == 33) {
        HOLDS(finished() == x && trivsome_block(finished()) == trivsome_block(x));
        HOLDS(trivsome_capture_payload(capture, SIZE, 0) == x && trivsome_capture_payload(capture, SIZE, 1) == x);
        HOLDS(trivsome_capture_payload(capture, SIZE, 129) == x && trivsome_capture_payload(capture, SIZE, SIZE_MAX) == x);
        HOLDS(trivsome_capture_payload_at(capture, SIZE, 1, &found) == x && found == payload);
    }
    HOLDS(memcmp(before, capture, SIZE) == 0);
}

// The figures of outcomes that are put together here.
static void figures(void)
{
    static const size_t places[4] = {1, 2, 127, 128};
    for (int i = 0; i < 4; i++) {
        HOLDS(trivsome_answer(at(places[i])) == 0 && trivsome_block(at(places[i])) == places[i]);
        HOLDS(trivsome_figure(at(places[i])) == places[i] && trivsome_length(at(places[i])) == 0);
        HOLDS(trivsome_answer(bad(places[i])) == 33 && trivsome_block(bad(places[i])) == places[i] && trivsome_length(bad(places[i])) == 0);
    }
    HOLDS(trivsome_start(bytes(65030, 504)) == 65030 && trivsome_length(bytes(65030, 504)) == 504);
    HOLDS(trivsome_answer(bytes(65030, 504)) == 0 && trivsome_block(bytes(65030, 504)) == 0);
    HOLDS(TRIVSOME_CAPTURE_SIZE == SIZE && TRIVSOME_CAPTURE_BLOCKS == 128 && TRIVSOME_PAYLOAD_MOST == MOST);
}

// Memory of another size: 34 goes before all, and nothing changes.
static void other_sizes(void)
{
    static const size_t sizes[7] = {0, 1, 511, 512, 65024, 65535, 65537};
    static uint8_t lent[SIZE + 1], same[SIZE + 1];
    const uint8_t *found = payload;
    for (unsigned byte = 0; byte < 2; byte++) {
        memset(lent, (int)byte, sizeof lent), memset(same, (int)byte, sizeof same);
        for (int i = 0; i < 7; i++) {
            HOLDS(trivsome_capture_clear(lent, sizes[i]) == 34 && trivsome_capture_finished(lent, sizes[i]) == 34);
            HOLDS(trivsome_capture_payload(lent, sizes[i], 1) == 34 && trivsome_capture_payload_at(lent, sizes[i], 1, &found) == 34);
            for (size_t length = 0; length <= 505; length += 101) {
                HOLDS(trivsome_capture_append(lent, sizes[i], payload, length) == 34);
                HOLDS(trivsome_capture_append_cut(lent, sizes[i], payload, length, 512) == 34);
            }
        }
        HOLDS(memcmp(lent, same, sizeof lent) == 0 && found == payload);
    }
    HOLDS(trivsome_capture_clear(NULL, 0) == 34 && trivsome_capture_finished(NULL, 0) == 34);
    HOLDS(trivsome_capture_append(NULL, 0, payload, 1) == 34 && trivsome_capture_append(NULL, 0, NULL, 0) == 34);
    HOLDS(trivsome_capture_append_cut(NULL, 0, NULL, 0, 512) == 34 && trivsome_capture_payload(NULL, 0, 1) == 34);
    HOLDS(trivsome_capture_payload_at(NULL, 0, 1, &found) == 34 && found == payload);
}

static void clearing(void)
{
    filled(128, 0);
    HOLDS(trivsome_capture_clear(capture, SIZE) == 0);
    for (size_t i = 0; i < SIZE; i++) HOLDS(capture[i] == 0);
    holds_all(0);
    memset(capture, 0xFF, SIZE); // no capture
    HOLDS(finished() == bad(1) && trivsome_capture_clear(capture, SIZE) == 0);
    holds_all(0);
}

// Appends until all is full: the answers, every payload, and every byte.
static void filling(void)
{
    HOLDS(trivsome_capture_clear(capture, SIZE) == 0);
    memset(expected, 0, SIZE);
    for (size_t place = 1; place <= 128; place++) {
        fill(place);
        block_at(expected, place, length_of(place));
        uint64_t x = append(length_of(place));
        HOLDS(x == at(place) && trivsome_answer(x) == 0 && trivsome_block(x) == place);
        HOLDS(memcmp(capture, expected, SIZE) == 0 && finished() == at(place) && holds(place));
        if (place % 16 == 0) holds_all(place);
    }
    holds_all(128);
    refused(32, payload, 1);
    refused(32, payload, 504);

    // the notice of docs/RULES.md, and two bytes with which both sums are 0
    static const uint8_t notice[8] = {0, 0, 0, 1, 0, 14, 0x1B, 0x00}, zeros[2] = {247, 5};
    HOLDS(trivsome_capture_clear(capture, SIZE) == 0);
    HOLDS(trivsome_capture_append(capture, SIZE, NOTICE, sizeof NOTICE) == at(1));
    HOLDS(memcmp(capture, notice, sizeof notice) == 0 && memcmp(capture + 6, NOTICE, sizeof NOTICE) == 0 && capture[20] == 0);
    HOLDS(capture[510] == 0x7F && capture[511] == 0x39);
    HOLDS(trivsome_capture_clear(capture, SIZE) == 0 && trivsome_capture_append(capture, SIZE, zeros, 2) == at(1));
    HOLDS(capture[510] == 0 && capture[511] == 0 && finished() == at(1));
}

// Payloads of every length, and of none.
static void lengths(void)
{
    filled(1, 0xA5);
    refused(31, payload, 0);
    refused(31, NULL, 0);
    refused(31, payload, 505);
    refused(31, payload, 512);
    refused(31, payload, SIZE);
    fill(2);
    for (size_t length = 1; length <= 504; length++) {
        filled(1, 0xA5);
        memcpy(expected, capture, SIZE);
        fill(2), block_at(expected, 2, length);
        HOLDS(append(length) == at(2) && memcmp(capture, expected, SIZE) == 0);
    }
    // a payload of zeros is one too
    memset(payload, 0, SIZE);
    HOLDS(append(1) == at(3) && trivsome_capture_payload(capture, SIZE, 3) == bytes(1030, 1));
}

// Of so many finished blocks one is changed: the answer is then 33 with a place.
static void changed(size_t places, size_t place, size_t offset, uint8_t byte, bool sealed, size_t told)
{
    uint8_t *block = capture + BLOCK * (place - 1);
    filled(places, 0);
    HOLDS(block[offset] != byte);
    block[offset] = byte;
    if (sealed) seal(block);
    refused(bad(told), payload, 1);
    refused(bad(told), payload, 504);
    refused(31, payload, 0);
    refused(31, payload, 505);
}

static void bad_blocks(void)
{
    // another number, in each of its bytes
    changed(128, 7, 3, 8, true, 7);
    changed(7, 7, 3, 129, true, 7);
    changed(7, 7, 0, 1, true, 7);
    changed(7, 7, 1, 1, true, 7);
    changed(7, 7, 2, 1, true, 7);
    for (size_t byte = 0; byte < 3; byte++) changed(7, 8, byte, 1, true, 8); // and 0 for its last byte
    changed(0, 1, 3, 1, true, 1); // the first block's, and nothing used
    changed(0, 2, 3, 2, true, 2); // behind an unfinished one
    // an unfinished block before others
    changed(2, 1, 3, 0, false, 2);
    changed(128, 127, 3, 0, false, 128);
    // used bytes: none, 505, and more than there are
    filled(2, 0), memset(capture + BLOCK + 4, 0, 506), seal(capture + BLOCK);
    refused(bad(2), payload, 1);
    changed(1, 1, 5, 0xF9, true, 1);
    changed(1, 1, 4, 0xFF, true, 1);
    // a byte behind the used ones: the first, the last
    changed(2, 2, 8, 1, true, 2);
    changed(2, 2, 509, 1, true, 2);
    // another check
    for (int bit = 0; bit < 8; bit++) {
        filled(2, 0);
        uint8_t first = capture[BLOCK + 510], second = capture[BLOCK + 511];
        changed(2, 2, 510, (uint8_t)(first ^ 1U << bit), false, 2);
        changed(2, 2, 511, (uint8_t)(second ^ 1U << bit), false, 2);
    }
    // 255 where a sum is 0
    static const uint8_t zeros[2] = {247, 5};
    for (int which = 1; which < 4; which++) {
        memset(capture, 0, SIZE);
        HOLDS(trivsome_capture_append(capture, SIZE, zeros, 2) == at(1));
        if ((which & 1) != 0) capture[510] = 255;
        if ((which & 2) != 0) capture[511] = 255;
        refused(bad(1), payload, 1);
    }
    // the first of several is told; it goes before 32, and behind 31
    filled(128, 0);
    capture[BLOCK * 89 + 511] ^= 1;
    refused(bad(90), payload, 1);
    capture[BLOCK * 19 + 3] = 0;
    refused(bad(21), payload, 1);
    capture[BLOCK * 18 + 5] ^= 1;
    refused(bad(19), payload, 1);
    refused(31, payload, 0);
    // any byte of a block
    for (size_t offset = 0; offset < BLOCK; offset++) {
        filled(2, 0);
        capture[BLOCK + offset] ^= 0x10;
        HOLDS(finished() == bad(2));
    }
}

// An append whose power is cut after so many stores, over blocks that hold such a byte: what is found, and what comes next.
static void cut(size_t places, uint8_t behind, size_t stores)
{
    size_t place = places + 1, start = BLOCK * places, done = stores < 512 ? 0 : 1;
    filled(places, behind);
    memcpy(before, capture, SIZE), memcpy(expected, capture, SIZE);
    fill(place), block_at(expected, place, length_of(place));
    HOLDS(trivsome_capture_append_cut(capture, SIZE, payload, length_of(place), stores) == at(place));
    for (size_t i = 0; i < SIZE; i++) {
        if (i < start || i >= start + BLOCK) HOLDS(capture[i] == before[i]);
        else HOLDS(capture[i] == before[i] || (stores > 0 && capture[i] == expected[i]));
    }
    HOLDS(capture[start + 3] == (done == 1 ? place : 0));
    HOLDS(finished() == at(places + done));
    for (size_t p = 1; p <= places + done; p++) HOLDS(holds(p));
    HOLDS(holds_none(places + done + 1));
    if (done == 1) {
        HOLDS(memcmp(capture, expected, SIZE) == 0);
        return;
    }
    // the next append leaves what it would have left
    fill(place);
    HOLDS(append(length_of(place)) == at(place) && memcmp(capture, expected, SIZE) == 0);
}

static void cuts(void)
{
    static const uint8_t behind[3] = {0x00, 0xFF, 0xA5};
    for (size_t stores = 0; stores <= 513; stores++) {
        cut(0, 0, stores);
        cut(2, behind[stores % 3], stores);
        if (stores % 8 == 0 || stores > 500) cut(127, behind[stores % 3], stores);
    }
    cut(1, 0xA5, 1024);
    cut(1, 0xA5, SIZE_MAX);
    // one cut behind the other at the same place
    filled(1, 0);
    for (size_t stores = 0; stores < 512; stores++) {
        fill(stores);
        HOLDS(trivsome_capture_append_cut(capture, SIZE, payload, 1 + stores % 504, stores) == at(2) && finished() == at(1) && holds(1));
    }
    fill(2);
    HOLDS(append(length_of(2)) == at(2));
    holds_all(2);
}

int main(void)
{
    memory[0] = memory[SIZE + 1] = 0xA5;
    figures();
    other_sizes();
    clearing();
    filling();
    lengths();
    bad_blocks();
    cuts();
    HOLDS(memory[0] == 0xA5 && memory[SIZE + 1] == 0xA5);
    return wrong;
}
