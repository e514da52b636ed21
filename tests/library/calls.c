// Tries the calls of include/trivsome.h at their edges. What is expected is written by hand from docs/RULES.md. Prints each line
// that does not hold, and ends with status 1 if there was one.
#include "frames.h"

// What the two calls say of a quote's sides, with counts that held something else before.
static bool lists(const trivsome_quote *quote, bool shown, unsigned bids, unsigned asks)
{
    unsigned b = 99, a = 99;
    return trivsome_bids(quote, &b) == shown && trivsome_asks(quote, &a) == shown && b == bids && a == asks;
}

// The quote of frames.h with only the trade sent, and with not even that.
static const uint8_t TRADE_ONLY[41] = {0x1B, 0x00, 0x41, 0x01, 0x06, 0x04, 0x00, 0x00, 0x83, 0x25, 0x31, 0x33, 0x30, 0x31,
                                       0x20, 0x20, 0x09, 0x45, 0x19, 0x03, 0x30, 0x17, 0x81, 0x81, 0x00, 0x00, 0x00, 0x15,
                                       0x58, 0x00, 0x00, 0x33, 0x50, 0x00, 0x00, 0x00, 0x00, 0x00, 0xB8, 0x0D, 0x0A};
static const uint8_t NO_PAIR[32] = {0x1B, 0x00, 0x32, 0x01, 0x06, 0x04, 0x00, 0x00, 0x83, 0x25, 0x31, 0x33, 0x30, 0x31, 0x20, 0x20,
                                    0x09, 0x45, 0x19, 0x03, 0x30, 0x17, 0x01, 0x81, 0x00, 0x00, 0x00, 0x15, 0x58, 0x28, 0x0D, 0x0A};

static void reading(void)
{
    uint8_t line[14] = {0};
    refused(line, 0, 0, 2);
    refused(NULL, 0, 0, 2);
    refused(NULL, 0, SIZE_MAX, 2);
    refused((const uint8_t *)"\x1B\x0A", 2, 0, 2);
    refused((const uint8_t *)"\x1B\x0A\x14", 3, 0, refusal(3, 0, 3));
    refused((const uint8_t *)"\x1B\x00\x13", 3, 0, 3);
    refused((const uint8_t *)"\x41", 1, 0, 1);
    refused(NOTICE, 13, 0, 2);
    refused(NOTICE, 14, 1, 1);
    refused(NOTICE, 14, 14, 2);
    refused(NOTICE, 14, SIZE_MAX, 2);
    memcpy(line, NOTICE, 14), line[11] = 0x18;
    refused(line, 14, 0, 5);
    memcpy(line, NOTICE, 14), line[13] = 0x0B;
    refused(line, 14, 0, 4);
    // category 01: a frame that is whole, and refused with its length
    memcpy(line, NOTICE, 14), line[10] = 0x01, line[11] = 0x11;
    refused(line, 14, 0, outcome(13, 0, 14, 0));
    // a refusal leaves the memory of the calls below, too
    uint8_t bytes[9];
    uint64_t time;
    uint32_t amounts[23];
    FILL(bytes), FILL(time), FILL(amounts);
    HOLDS(trivsome_read_quote_numbers(line, 14, 0, bytes, &time, amounts) == outcome(13, 0, 14, 0));
    HOLDS(FILLED(bytes) && FILLED(time) && FILLED(amounts));

    trivsome_notice n;
    FILL(n);
    uint64_t x = trivsome_read_notice(NOTICE, 14, 0, &n);
    HOLDS(trivsome_answer(x) == 0 && trivsome_format(x) == 5 && trivsome_length(x) == 14 && trivsome_seq(x) == 1);
    HOLDS(n.seq == 1 && n.category == 9 && n.length == 0 && n.text[0] == 0 && n.text[59] == 0);

    trivsome_halt h;
    HOLDS(trivsome_read_halt(HALT, 26, 0, &h) == outcome(0, 19, 26, 1));
    HOLDS(h.seq == 1 && memcmp(h.code, "1234  ", 6) == 0 && h.event == TRIVSOME_HALTED && h.state == 'I');
    HOLDS(h.records == 0 && h.halted == 100500 && h.resume == TRIVSOME_OPEN);

    trivsome_quote q;
    HOLDS(trivsome_read_quote(QUOTE, 41, 0, &q) == outcome(0, 6, 41, 8325));
    HOLDS(q.seq == 8325 && memcmp(q.code, "1301  ", 6) == 0 && q.time == 94519033017 && q.total == 1558);
    HOLDS(q.reveal == 0x80 && q.limit == 0x81 && q.status == 0 && q.trade.price == 335000 && q.trade.quantity == 0);
    HOLDS(trivsome_has_trade(&q) && lists(&q, true, 0, 0) && q.bids[0].price == 0 && q.asks[4].price == 0);

    // a frame of another format: accepted with its own format, and the struct stays
    FILL(n), FILL(h), FILL(q);
    HOLDS(trivsome_read_quote(NOTICE, 14, 0, &q) == outcome(0, 5, 14, 1) && FILLED(q));
    HOLDS(trivsome_read_halt(QUOTE, 41, 0, &h) == outcome(0, 6, 41, 8325) && FILLED(h));
    HOLDS(trivsome_read_notice(HALT, 26, 0, &n) == outcome(0, 19, 26, 1) && FILLED(n));
}

// Whether the struct of an outcome is filled: format by format.
static void kinds(void)
{
    static const unsigned formats[4] = {TRIVSOME_NOTICE, TRIVSOME_QUOTE, TRIVSOME_PRICES, TRIVSOME_HALT};
    for (int i = 0; i < 4; i++) {
        uint64_t x = outcome(0, formats[i], 14, 1);
        HOLDS(trivsome_is_notice(x) == (i == 0) && trivsome_is_quote(x) == (i == 1));
        HOLDS(trivsome_is_prices(x) == (i == 2) && trivsome_is_halt(x) == (i == 3));
    }
    // a refusal with a length, and a writing that is done, fill none
    for (unsigned answer = 0; answer <= 13; answer++) {
        uint64_t x = outcome(answer, 0, 14, 0);
        HOLDS(!trivsome_is_notice(x) && !trivsome_is_quote(x) && !trivsome_is_prices(x) && !trivsome_is_halt(x));
    }
    trivsome_quote q;
    HOLDS(trivsome_is_quote(trivsome_read_quote(QUOTE, 41, 0, &q)) && !trivsome_is_quote(trivsome_read_quote(HALT, 26, 0, &q)));
}

// What {0} is of each message, and where a buffer of no bytes may be null.
static void zeros(void)
{
    uint8_t buf[TRIVSOME_LONGEST];
    trivsome_notice n = {0};
    trivsome_quote q = {0};
    trivsome_prices p = {0};
    trivsome_halt h = {0};
    HOLDS(trivsome_write_notice(&n, buf, sizeof buf) == outcome(0, 0, 14, 0));
    FILL(buf);
    HOLDS(trivsome_write_quote(&q, buf, sizeof buf) == 14 && FILLED(buf));
    HOLDS(trivsome_write_prices(&p, buf, sizeof buf) == 14 && FILLED(buf));
    HOLDS(trivsome_write_halt(&h, buf, sizeof buf) == 14 && FILLED(buf));
    HOLDS(trivsome_write_quote(&q, NULL, 0) == 14 && trivsome_write_prices(&p, NULL, 0) == 14 && trivsome_write_halt(&h, NULL, 0) == 14);
    // with a code the quote can be written, and with a state the halt, a round's end of no records
    memcpy(q.code, "2330  ", 6), memcpy(h.code, "000000", 6), h.state = 'C';
    HOLDS(trivsome_write_quote(&q, buf, sizeof buf) == outcome(0, 0, 32, 0));
    HOLDS(trivsome_write_halt(&h, buf, sizeof buf) == outcome(0, 0, 26, 0));
    HOLDS(trivsome_write_notice(&n, NULL, 0) == 15 && trivsome_write_quote(&q, NULL, 0) == 15 && trivsome_write_halt(&h, NULL, 0) == 15);
    // a text of no bytes
    HOLDS(trivsome_write_notice_numbers(1, 9, NULL, 0, buf, sizeof buf) == outcome(0, 0, 14, 0) && memcmp(buf, NOTICE, 14) == 0);
    HOLDS(trivsome_write_notice_numbers(1, 9, NULL, 0, NULL, 0) == 15 && trivsome_write_notice_numbers(1, 8, NULL, 0, NULL, 0) == 14);
}

static bool same_pair(trivsome_pair a, trivsome_pair b) { return a.price == b.price && a.quantity == b.quantity; }

static void writing_notices(void)
{
    uint8_t buf[80];
    trivsome_notice n = {1, 9, 0, {0}}, again;
    FILL(buf);
    HOLDS(trivsome_write_notice(&n, buf, sizeof buf) == outcome(0, 0, 14, 0));
    HOLDS(memcmp(buf, NOTICE, 14) == 0 && filled(buf + 14, sizeof buf - 14));
    FILL(buf);
    HOLDS(trivsome_write_notice(&n, buf, 13) == 15 && FILLED(buf));
    HOLDS(trivsome_write_notice(&n, buf, 0) == 15 && FILLED(buf));
    n.category = 1;
    HOLDS(trivsome_write_notice(&n, buf, sizeof buf) == 14 && FILLED(buf));
    HOLDS(trivsome_write_notice(&n, buf, 0) == 14); // 14 before 15
    n.category = 9, n.seq = 100000000;
    HOLDS(trivsome_write_notice(&n, buf, sizeof buf) == 14 && FILLED(buf));
    n.seq = 99999999, n.length = 61;
    HOLDS(trivsome_write_notice(&n, buf, sizeof buf) == 14 && FILLED(buf));
    n.length = 3, n.text[3] = 1;
    HOLDS(trivsome_write_notice(&n, buf, sizeof buf) == 14 && FILLED(buf));
    uint8_t long_text[61] = {0};
    HOLDS(trivsome_write_notice_numbers(1, 9, long_text, 61, buf, sizeof buf) == 14 && FILLED(buf));

    for (uint8_t i = 0; i < 60; i++) n.text[i] = 255 - i;
    n.length = 60;
    HOLDS(trivsome_write_notice(&n, buf, 74) == outcome(0, 0, 74, 0));
    HOLDS(trivsome_read_notice(buf, 74, 0, &again) == outcome(0, 5, 74, 99999999));
    HOLDS(again.seq == n.seq && again.category == n.category && again.length == 60 && memcmp(again.text, n.text, 60) == 0);
}

static void writing_quotes(void)
{
    uint8_t buf[140];
    trivsome_quote q = {8325, {'1', '3', '0', '1', ' ', ' '}, 0x80, 0x81, 0, TRIVSOME_LEVELS_SHOWN, 94519033017, 1558, {335000, 0}, {{0, 0}}, {{0, 0}}};
    trivsome_quote again;
    FILL(buf);
    HOLDS(trivsome_write_quote(&q, buf, 41) == outcome(0, 0, 41, 0));
    HOLDS(memcmp(buf, QUOTE, 41) == 0 && filled(buf + 41, sizeof buf - 41));
    FILL(buf);
    HOLDS(trivsome_write_quote(&q, buf, 40) == 15 && FILLED(buf));
    q.asks[4].quantity = 1; // a pair that the reveal byte does not show
    HOLDS(trivsome_write_quote(&q, buf, sizeof buf) == 14 && FILLED(buf));
    q.asks[4].quantity = 0, q.reveal = 0x60;
    HOLDS(trivsome_write_quote(&q, buf, sizeof buf) == 14 && FILLED(buf));
    q.reveal = 0x80, q.trade.price = 1000000000;
    HOLDS(trivsome_write_quote(&q, buf, sizeof buf) == 14 && FILLED(buf));

    // all eleven pairs, each another
    q.reveal = 0xDA, q.trade.price = 999999999, q.trade.quantity = 99999999;
    for (uint32_t i = 0; i < 5; i++) {
        q.bids[i].price = 1000 + i, q.bids[i].quantity = 2000 + i;
        q.asks[i].price = 3000 + i, q.asks[i].quantity = 4000 + i;
    }
    HOLDS(trivsome_write_quote(&q, buf, sizeof buf) == outcome(0, 0, 131, 0));
    HOLDS(filled(buf + 131, sizeof buf - 131));
    // the second bid stands behind 29 bytes, the trade and the first bid; its price and quantity are 1001 and 2001
    HOLDS(memcmp(buf + 29 + 18, "\x00\x00\x00\x10\x01\x00\x00\x20\x01", 9) == 0);
    HOLDS(trivsome_read_quote(buf, 131, 0, &again) == outcome(0, 6, 131, 8325));
    HOLDS(again.seq == q.seq && memcmp(again.code, q.code, 6) == 0 && again.time == q.time && again.total == q.total);
    HOLDS(again.reveal == q.reveal && again.limit == q.limit && again.status == q.status && same_pair(again.trade, q.trade));
    for (int i = 0; i < 5; i++) HOLDS(same_pair(again.bids[i], q.bids[i]) && same_pair(again.asks[i], q.asks[i]));
}

// The frame QUOTE with another byte at a place, and the check byte that goes with it.
static void quote_with(uint8_t line[41], size_t at, uint8_t byte)
{
    memcpy(line, QUOTE, 41);
    line[at] = byte, line[38] ^= QUOTE[at] ^ byte;
}

// Bit 0 of the reveal byte: only the trade is sent. Levels that are not shown are no empty sides, and none stand beside it.
static void reading_levels(void)
{
    uint8_t line[41];
    trivsome_quote q;
    HOLDS(offsetof(trivsome_quote, levels) == 13 && offsetof(trivsome_quote, time) == 16); // in what was padding
    FILL(q);
    HOLDS(trivsome_read_quote(QUOTE, 41, 0, &q) == outcome(0, 6, 41, 8325) && q.levels == TRIVSOME_LEVELS_SHOWN);
    FILL(q);
    HOLDS(trivsome_read_quote(TRADE_ONLY, 41, 0, &q) == outcome(0, 6, 41, 8325) && q.levels == TRIVSOME_LEVELS_NOT_SHOWN);
    HOLDS(q.reveal == 0x81 && q.limit == 0x81 && q.status == 0 && q.total == 1558 && q.time == 94519033017);
    HOLDS(trivsome_has_trade(&q) && q.trade.price == 335000 && lists(&q, false, 0, 0));
    for (int i = 0; i < 5; i++) HOLDS(q.bids[i].price == 0 && q.bids[i].quantity == 0 && q.asks[i].price == 0 && q.asks[i].quantity == 0);
    FILL(q);
    HOLDS(trivsome_read_quote(NO_PAIR, 32, 0, &q) == outcome(0, 6, 32, 8325) && q.levels == TRIVSOME_LEVELS_NOT_SHOWN);
    HOLDS(q.reveal == 0x01 && !trivsome_has_trade(&q) && lists(&q, false, 0, 0) && q.trade.price == 0);

    // every reveal byte over one pair
    for (unsigned reveal = 0; reveal < 256; reveal++) {
        unsigned trade = reveal >> 7, bids = reveal >> 4 & 7, asks = reveal >> 1 & 7;
        bool only_trade = reveal % 2 == 1, ten = bids > 5 || asks > 5 || (only_trade && bids + asks > 0);
        unsigned answer = ten ? 10 : trade + bids + asks != 1 ? 9 : 0;
        uint8_t levels = only_trade ? TRIVSOME_LEVELS_NOT_SHOWN : TRIVSOME_LEVELS_SHOWN;
        quote_with(line, 22, (uint8_t)reveal);
        if (answer != 0) refused(line, 41, 0, outcome(answer, 0, 41, 0));
        else {
            HOLDS(trivsome_read_quote(line, 41, 0, &q) == outcome(0, 6, 41, 8325) && q.reveal == reveal && q.levels == levels);
            HOLDS(lists(&q, !only_trade, bids, asks));
        }
    }
    // 10 before 11 and 12: a level beside bit 0, and a bad digit in the total, or an hour of 24
    quote_with(line, 22, 0x11), line[27] ^= 0x0F, line[38] ^= 0x0F;
    refused(line, 41, 0, outcome(10, 0, 41, 0));
    quote_with(line, 22, 0x03), line[16] ^= 0x2D, line[38] ^= 0x2D;
    refused(line, 41, 0, outcome(10, 0, 41, 0));
    // and behind the first 9: a frame longer than any quote
    uint8_t long_line[132] = {0};
    memcpy(long_line, TRADE_ONLY, 38);
    long_line[1] = 0x01, long_line[2] = 0x32, long_line[22] = 0x11, long_line[130] = 0x0D, long_line[131] = 0x0A;
    for (int i = 1; i < 129; i++) long_line[129] ^= long_line[i];
    refused(long_line, 132, 0, outcome(9, 0, 132, 0));
}

static void writing_levels(void)
{
    uint8_t buf[140], bytes[9] = {'1', '3', '0', '1', ' ', ' ', 0x11, 0, 0};
    uint32_t amounts[23] = {0};
    trivsome_quote q, again;
    FILL(buf);
    HOLDS(trivsome_is_quote(trivsome_read_quote(TRADE_ONLY, 41, 0, &q)) && trivsome_write_quote(&q, buf, sizeof buf) == outcome(0, 0, 41, 0));
    HOLDS(memcmp(buf, TRADE_ONLY, 41) == 0 && filled(buf + 41, sizeof buf - 41));
    FILL(again);
    HOLDS(trivsome_is_quote(trivsome_read_quote(buf, 41, 0, &again)) && again.levels == TRIVSOME_LEVELS_NOT_SHOWN && again.reveal == 0x81);
    FILL(buf);
    HOLDS(trivsome_write_quote(&q, buf, 40) == 15 && FILLED(buf));
    // of its levels it says what its reveal byte does not, either way, or what nobody says; 14 before 15
    q.levels = TRIVSOME_LEVELS_SHOWN;
    HOLDS(trivsome_write_quote(&q, buf, sizeof buf) == 14 && FILLED(buf) && trivsome_write_quote(&q, NULL, 0) == 14);
    q.levels = TRIVSOME_LEVELS_NOT_SHOWN, q.reveal = 0x80;
    HOLDS(trivsome_write_quote(&q, buf, sizeof buf) == 14 && FILLED(buf) && trivsome_write_quote(&q, NULL, 0) == 14);
    for (unsigned other = 2; other < 256; other++) {
        q.levels = (uint8_t)other, q.reveal = (uint8_t)(0x80 + other % 2);
        HOLDS(trivsome_write_quote(&q, buf, sizeof buf) == 14 && FILLED(buf));
    }
    // levels where none are shown: a bid, an ask, and one that the reveal byte does not count
    q.levels = TRIVSOME_LEVELS_NOT_SHOWN, q.reveal = 0x91;
    HOLDS(trivsome_write_quote(&q, buf, sizeof buf) == 14 && FILLED(buf));
    q.reveal = 0x83;
    HOLDS(trivsome_write_quote(&q, buf, sizeof buf) == 14 && FILLED(buf));
    q.reveal = 0x81, q.bids[0].quantity = 1;
    HOLDS(trivsome_write_quote(&q, buf, sizeof buf) == 14 && FILLED(buf));
    HOLDS(trivsome_write_quote_numbers(1, bytes, 0, amounts, buf, sizeof buf) == 14 && FILLED(buf));
    // no pair at all: not shown, and none
    bytes[6] = 0x01;
    HOLDS(trivsome_write_quote_numbers(1, bytes, 0, amounts, buf, sizeof buf) == outcome(0, 0, 32, 0));
    HOLDS(trivsome_is_quote(trivsome_read_quote(buf, 32, 0, &again)) && again.levels == TRIVSOME_LEVELS_NOT_SHOWN);
    bytes[6] = 0x00;
    HOLDS(trivsome_write_quote_numbers(1, bytes, 0, amounts, buf, sizeof buf) == outcome(0, 0, 32, 0));
    HOLDS(trivsome_is_quote(trivsome_read_quote(buf, 32, 0, &again)) && again.levels == TRIVSOME_LEVELS_SHOWN);
}

static void writing_prices(void)
{
    uint8_t buf[TRIVSOME_LONGEST];
    trivsome_prices p = TRIVSOME_NO_PRICES, again;
    for (int i = 0; i < 10; i++) {
        trivsome_slot s = p.slots[i];
        HOLDS(memcmp(s.code, "      ", 6) == 0 && s.opening == 0 && s.highest == 0 && s.lowest == 0 && s.last == 0 && s.total == 0 && s.time == 0);
    }
    FILL(buf);
    HOLDS(p.seq == 0 && p.count == 0 && trivsome_write_prices(&p, buf, sizeof buf) == 14 && FILLED(buf));
    p.seq = 7, p.count = 2;
    for (uint32_t i = 0; i < p.count; i++) {
        p.slots[i].code[0] = (uint8_t)('1' + i);
        p.slots[i].opening = 100 + i, p.slots[i].highest = 200 + i, p.slots[i].lowest = 300 + i;
        p.slots[i].last = 400 + i, p.slots[i].total = 500 + i;
        p.slots[i].time = i == 0 ? 91003554189 : TRIVSOME_NINES;
    }
    HOLDS(trivsome_write_prices(&p, buf, sizeof buf) == outcome(0, 0, 374, 0));
    // the second slot: behind the header, the count and the first one
    HOLDS(memcmp(buf + 11 + 36, "2     \x00\x00\x00\x01\x01\x00\x00\x00\x02\x01\x00\x00\x00\x03\x01\x00\x00\x00\x04\x01\x00\x00\x05\x01\x99\x99\x99\x99\x99\x99", 36) == 0);
    HOLDS(trivsome_read_prices(buf, sizeof buf, 0, &again) == outcome(0, 12, 374, 7));
    HOLDS(again.seq == 7 && again.count == 2);
    for (int i = 0; i < 10; i++) {
        trivsome_slot a = again.slots[i], b = p.slots[i];
        HOLDS(memcmp(a.code, b.code, 6) == 0 && a.opening == b.opening && a.highest == b.highest && a.lowest == b.lowest);
        HOLDS(a.last == b.last && a.total == b.total && a.time == b.time);
    }
    FILL(buf);
    HOLDS(trivsome_write_prices(&p, buf, 373) == 15 && trivsome_write_prices(&p, NULL, 0) == 15 && FILLED(buf));
    p.count = 1; // the second slot is not counted, and not unused
    HOLDS(trivsome_write_prices(&p, buf, sizeof buf) == 14 && FILLED(buf));
    p.count = 11;
    HOLDS(trivsome_write_prices(&p, buf, sizeof buf) == 14 && FILLED(buf));
}

static void writing_halts(void)
{
    uint8_t buf[40];
    trivsome_halt h = {1, {'1', '2', '3', '4', ' ', ' '}, TRIVSOME_HALTED, 'I', 0, 100500, TRIVSOME_OPEN}, again;
    FILL(buf);
    HOLDS(trivsome_write_halt(&h, buf, 26) == outcome(0, 0, 26, 0));
    HOLDS(memcmp(buf, HALT, 26) == 0 && filled(buf + 26, sizeof buf - 26));
    FILL(buf);
    HOLDS(trivsome_write_halt(&h, buf, 25) == 15 && FILLED(buf));
    h.records = 1;
    HOLDS(trivsome_write_halt(&h, buf, sizeof buf) == 14 && FILLED(buf));
    h.records = 0, h.state = 'X';
    HOLDS(trivsome_write_halt(&h, buf, sizeof buf) == 14 && FILLED(buf));
    h.state = 'C', h.event = 2;
    HOLDS(trivsome_write_halt(&h, buf, sizeof buf) == 14 && FILLED(buf));
    h.event = TRIVSOME_HALTED, h.resume = 115700;
    HOLDS(trivsome_write_halt(&h, buf, sizeof buf) == outcome(0, 0, 26, 0));
    HOLDS(trivsome_read_halt(buf, 26, 0, &again) == outcome(0, 19, 26, 1));
    HOLDS(again.seq == 1 && memcmp(again.code, h.code, 6) == 0 && again.event == TRIVSOME_HALTED && again.state == 'C');
    HOLDS(again.records == 0 && again.halted == 100500 && again.resume == 115700);

    // the end of a round of 42 records, whose code says the same
    trivsome_halt end = {9, {'0', '0', '0', '0', '4', '2'}, TRIVSOME_ROUND_END, 'C', 42, 0, 0};
    HOLDS(trivsome_write_halt(&end, buf, sizeof buf) == outcome(0, 0, 26, 0));
    HOLDS(trivsome_read_halt(buf, 26, 0, &again) == outcome(0, 19, 26, 9));
    HOLDS(again.seq == 9 && memcmp(again.code, "000042", 6) == 0 && again.event == TRIVSOME_ROUND_END && again.state == 'C');
    HOLDS(again.records == 42 && again.halted == 0 && again.resume == 0);
    FILL(buf);
    end.records = 43;
    HOLDS(trivsome_write_halt(&end, buf, sizeof buf) == 14 && FILLED(buf));
    end.records = 42, end.halted = 1;
    HOLDS(trivsome_write_halt(&end, buf, sizeof buf) == 14 && FILLED(buf));
    end.halted = 0, end.resume = TRIVSOME_OPEN;
    HOLDS(trivsome_write_halt(&end, buf, sizeof buf) == 14 && FILLED(buf));
}

static bool tally_is(trivsome_tally t, uint64_t accepted, uint64_t refused, uint64_t skipped, uint64_t waiting)
{
    return t.accepted == accepted && t.refused == refused && t.skipped == skipped && t.waiting == waiting;
}

static void walking(void)
{
    // the line of 16 bytes in docs/RULES.md, move by move, open and closed, and its tally
    uint8_t line[16] = {0x41, 0x42};
    memcpy(line + 2, NOTICE, 14);
    HOLDS(trivsome_move(line, 16, 0, false) == outcome(1, 0, 1, 0));
    HOLDS(trivsome_move(line, 16, 1, true) == outcome(1, 0, 1, 0));
    HOLDS(trivsome_move(line, 16, 2, false) == outcome(0, 5, 14, 1));
    HOLDS(trivsome_move(line, 16, 16, false) == outcome(2, 0, 0, 0));
    HOLDS(trivsome_move(line, 16, 16, true) == outcome(2, 0, 0, 0));
    HOLDS(trivsome_move(line, 15, 2, false) == outcome(2, 0, 0, 0));
    HOLDS(trivsome_move(line, 15, 2, true) == outcome(2, 0, 1, 0));
    HOLDS(trivsome_move(NULL, 0, 0, false) == outcome(2, 0, 0, 0) && trivsome_move(NULL, 0, 0, true) == outcome(2, 0, 0, 0));
    trivsome_tally t = {0};
    HOLDS(trivsome_walk_line(&t, NULL, 0, false) == 0 && trivsome_walk_line(&t, NULL, 0, true) == 0 && tally_is(t, 0, 0, 0, 0));
    HOLDS(trivsome_walk_line(&t, line, 16, true) == 0 && tally_is(t, 14, 0, 2, 0));
    HOLDS(trivsome_walk_line(&t, line, 15, false) == 0 && tally_is(t, 14, 0, 4, 13));
    HOLDS(trivsome_walk_line(&t, line, 15, true) == 0 && tally_is(t, 14, 0, 19, 0));
    line[12] = 0x01, line[13] = 0x11; // category 01
    HOLDS(trivsome_move(line, 16, 2, false) == outcome(13, 0, 14, 0));
    HOLDS(trivsome_walk_line(&t, line, 16, false) == 0 && tally_is(t, 14, 14, 21, 0));

    // 16 exactly where one of the first three and the length would pass the largest number, and the tally stays
    t = (trivsome_tally){UINT64_MAX - 16, 1, 2, UINT64_MAX};
    HOLDS(trivsome_walk_line(&t, line, 16, true) == 0 && tally_is(t, UINT64_MAX - 16, 15, 4, 0));
    t = (trivsome_tally){UINT64_MAX - 15, 1, 2, 3};
    HOLDS(trivsome_walk_line(&t, line, 16, true) == 16 && tally_is(t, UINT64_MAX - 15, 1, 2, 3));
    t = (trivsome_tally){0, UINT64_MAX - 15, 2, 3};
    HOLDS(trivsome_walk_line(&t, line, 16, true) == 16 && tally_is(t, 0, UINT64_MAX - 15, 2, 3));
    t = (trivsome_tally){0, 1, UINT64_MAX - 15, 3};
    HOLDS(trivsome_walk_line(&t, line, 16, true) == 16 && tally_is(t, 0, 1, UINT64_MAX - 15, 3));
    t = (trivsome_tally){UINT64_MAX, UINT64_MAX, UINT64_MAX, 3};
    HOLDS(trivsome_walk_line(&t, line, 0, true) == 0 && tally_is(t, UINT64_MAX, UINT64_MAX, UINT64_MAX, 0));
}

static bool figures_are(const trivsome_ledger *l, uint32_t highest, uint32_t heard, uint32_t missing, uint32_t runs)
{
    uint64_t h = trivsome_ledger_highest(l), n = trivsome_ledger_heard(l), m = trivsome_ledger_missing(l), r = trivsome_ledger_runs(l);
    return trivsome_answer(h) == 0 && trivsome_answer(n) == 0 && trivsome_answer(m) == 0 && trivsome_answer(r) == 0 &&
           trivsome_figure(h) == highest && trivsome_figure(n) == heard && trivsome_figure(m) == missing && trivsome_figure(r) == runs;
}

static bool floor_is(const trivsome_ledger *l, uint32_t floor, uint32_t given_up)
{
    uint64_t f = trivsome_ledger_floor(l), g = trivsome_ledger_given_up(l);
    return trivsome_answer(f) == 0 && trivsome_answer(g) == 0 && trivsome_figure(f) == floor && trivsome_figure(g) == given_up;
}

static bool is_run(uint64_t x, uint32_t first, uint32_t last)
{
    return trivsome_answer(x) == 0 && trivsome_first(x) == first && trivsome_last(x) == last;
}

static bool run_is(const trivsome_ledger *l, uint32_t place, uint32_t first, uint32_t last)
{
    return is_run(trivsome_ledger_run(l, place), first, last);
}

static void damaged(const trivsome_ledger *l)
{
    trivsome_ledger copy = *l;
    HOLDS(trivsome_ledger_arrive(&copy, 3) == 20 && trivsome_ledger_arrive(&copy, 0) == 20); // 20 before 21
    HOLDS(trivsome_ledger_give_up(&copy) == 20);
    HOLDS(memcmp(&copy, l, sizeof copy) == 0);
    HOLDS(trivsome_ledger_highest(l) == 20 && trivsome_ledger_heard(l) == 20 && trivsome_ledger_missing(l) == 20);
    HOLDS(trivsome_ledger_runs(l) == 20 && trivsome_ledger_run(l, 0) == 20 && trivsome_ledger_run(l, 64) == 20);
    HOLDS(trivsome_ledger_floor(l) == 20 && trivsome_ledger_given_up(l) == 20);
}

static void ledger(void)
{
    trivsome_ledger l, fresh = {0};
    HOLDS(figures_are(&fresh, 0, 0, 0, 0) && floor_is(&fresh, 0, 0) && trivsome_ledger_run(&fresh, 0) == 23);
    FILL(l);
    damaged(&l);
    trivsome_ledger_clear(&l);
    HOLDS(memcmp(&l, &fresh, sizeof l) == 0);
    HOLDS(figures_are(&l, 0, 0, 0, 0) && trivsome_ledger_run(&l, 0) == 23);
    HOLDS(trivsome_ledger_arrive(&l, 0) == 21 && trivsome_ledger_arrive(&l, 100000000) == 21 && figures_are(&l, 0, 0, 0, 0));

    HOLDS(trivsome_is_new(trivsome_ledger_arrive(&l, 5)) && trivsome_is_new(trivsome_ledger_arrive(&l, 2)));
    uint64_t repeat = trivsome_ledger_arrive(&l, 5);
    HOLDS(trivsome_answer(repeat) == 0 && !trivsome_is_new(repeat));
    HOLDS(figures_are(&l, 5, 2, 3, 2) && run_is(&l, 0, 1, 1) && run_is(&l, 1, 3, 4));
    HOLDS(trivsome_ledger_run(&l, 2) == 23 && trivsome_ledger_run(&l, UINT32_MAX) == 23);

    trivsome_ledger_clear(&l);
    for (uint32_t n = 2; n <= 128; n += 2) HOLDS(trivsome_is_new(trivsome_ledger_arrive(&l, n)));
    HOLDS(figures_are(&l, 128, 64, 64, 64));
    trivsome_ledger full = l;
    HOLDS(trivsome_ledger_arrive(&l, 130) == 22 && memcmp(&full, &l, sizeof l) == 0);
    HOLDS(trivsome_is_new(trivsome_ledger_arrive(&l, 129)) && trivsome_is_new(trivsome_ledger_arrive(&l, 1)));
    HOLDS(trivsome_is_new(trivsome_ledger_arrive(&l, 131)));
    HOLDS(figures_are(&l, 131, 67, 64, 64) && run_is(&l, 0, 3, 3) && run_is(&l, 63, 130, 130) && trivsome_ledger_run(&l, 64) == 23);

    // the longest run that there can be
    trivsome_ledger_clear(&l);
    HOLDS(trivsome_is_new(trivsome_ledger_arrive(&l, 99999999)));
    HOLDS(figures_are(&l, 99999999, 1, 99999998, 1) && run_is(&l, 0, 1, 99999998));

    // records that no arrivals leave: a highest number that is none, a run up to the highest, a place behind the unused ones
    l = (trivsome_ledger){{100000000}, 0, 0}, damaged(&l);
    l = (trivsome_ledger){{5, 5}, 0, 0}, damaged(&l);
    l = (trivsome_ledger){{5, 0, 1}, 0, 0}, damaged(&l);
}

// 5, 2 and 9 are heard; 1, 3 to 4 and 6 to 8 are missing.
static trivsome_ledger with_three_runs(void)
{
    trivsome_ledger l = {0};
    HOLDS(trivsome_is_new(trivsome_ledger_arrive(&l, 5)) && trivsome_is_new(trivsome_ledger_arrive(&l, 2)));
    HOLDS(trivsome_is_new(trivsome_ledger_arrive(&l, 9)) && figures_are(&l, 9, 3, 6, 3) && floor_is(&l, 0, 0));
    return l;
}

// The lowest run is given up, run by run: 24 where there is none, and 25 for the numbers up to the floor.
static void giving_up(void)
{
    trivsome_ledger l = {0}, kept = {0};
    HOLDS(trivsome_ledger_give_up(&l) == 24 && memcmp(&l, &kept, sizeof l) == 0);
    HOLDS(trivsome_is_new(trivsome_ledger_arrive(&l, 1)));
    kept = l;
    HOLDS(trivsome_ledger_give_up(&l) == 24 && memcmp(&l, &kept, sizeof l) == 0);

    l = with_three_runs();
    HOLDS(is_run(trivsome_ledger_give_up(&l), 1, 1) && floor_is(&l, 1, 1) && figures_are(&l, 9, 3, 5, 2) && run_is(&l, 0, 3, 4));
    HOLDS(trivsome_ledger_arrive(&l, 1) == 25 && trivsome_ledger_arrive(&l, 2) == 0);
    HOLDS(is_run(trivsome_ledger_give_up(&l), 3, 4) && floor_is(&l, 4, 3) && figures_are(&l, 9, 3, 3, 1) && run_is(&l, 0, 6, 8));
    kept = l;
    // 2 is heard, and below the floor now; 21 before 25
    HOLDS(trivsome_ledger_arrive(&l, 1) == 25 && trivsome_ledger_arrive(&l, 2) == 25 && trivsome_ledger_arrive(&l, 4) == 25);
    HOLDS(trivsome_ledger_arrive(&l, 0) == 21 && trivsome_ledger_arrive(&l, 100000000) == 21 && trivsome_ledger_arrive(&l, 5) == 0);
    HOLDS(trivsome_ledger_run(&l, 1) == 23 && memcmp(&l, &kept, sizeof l) == 0);
    HOLDS(trivsome_is_new(trivsome_ledger_arrive(&l, 7)) && is_run(trivsome_ledger_give_up(&l), 6, 6));
    HOLDS(is_run(trivsome_ledger_give_up(&l), 8, 8) && trivsome_ledger_give_up(&l) == 24);
    HOLDS(floor_is(&l, 8, 5) && figures_are(&l, 9, 4, 0, 0) && trivsome_ledger_run(&l, 0) == 23);
    trivsome_ledger_clear(&l);
    HOLDS(floor_is(&l, 0, 0) && figures_are(&l, 0, 0, 0, 0) && trivsome_is_new(trivsome_ledger_arrive(&l, 1)));

    // a full ledger: room for a number that found none, and again
    trivsome_ledger_clear(&l);
    for (uint32_t n = 2; n <= 128; n += 2) HOLDS(trivsome_is_new(trivsome_ledger_arrive(&l, n)));
    HOLDS(trivsome_ledger_arrive(&l, 130) == 22 && is_run(trivsome_ledger_give_up(&l), 1, 1));
    HOLDS(trivsome_is_new(trivsome_ledger_arrive(&l, 130)) && figures_are(&l, 130, 65, 64, 64) && floor_is(&l, 1, 1));
    HOLDS(run_is(&l, 0, 3, 3) && run_is(&l, 63, 129, 129) && trivsome_ledger_run(&l, 64) == 23 && trivsome_ledger_arrive(&l, 132) == 22);
    HOLDS(is_run(trivsome_ledger_give_up(&l), 3, 3) && trivsome_is_new(trivsome_ledger_arrive(&l, 132)) && floor_is(&l, 3, 2));

    // the longest run that there can be
    trivsome_ledger_clear(&l);
    HOLDS(trivsome_is_new(trivsome_ledger_arrive(&l, 99999999)) && is_run(trivsome_ledger_give_up(&l), 1, 99999998));
    HOLDS(floor_is(&l, 99999998, 99999998) && figures_are(&l, 99999999, 1, 0, 0));
    HOLDS(trivsome_ledger_arrive(&l, 99999998) == 25 && trivsome_ledger_arrive(&l, 99999999) == 0);
}

// Floors and counts that no arrivals and give-ups leave.
static void wrong_floors(void)
{
    static const uint32_t floors[][2] = {
        {1, 0}, {0, 1}, {1, 2}, // one without the other, and more than there are up to the floor
        {2, 1}, {3, 1}, {4, 3}, {8, 6}, {5, 3}, // the next number is missing, the floor itself is, a run lies below it
        {9, 6}, {10, 6}, {99999999, 1}, {100000000, 1}, {UINT32_MAX, 1}, {UINT32_MAX, UINT32_MAX}, // at the highest, or above
    };
    // the record of 9, 5 and 2 with 1 given up: all up to 2 is settled
    trivsome_ledger l = with_three_runs(), right = {{9, 8, 5, 4, 2}, 1, 1};
    HOLDS(is_run(trivsome_ledger_give_up(&l), 1, 1) && memcmp(&l, &right, sizeof l) == 0);
    for (size_t i = 0; i < sizeof floors / sizeof floors[0]; i++) {
        l.floor = floors[i][0], l.given_up = floors[i][1];
        damaged(&l);
    }
    // with 1 missing, with 1 and 2 missing, and with nothing heard
    l = (trivsome_ledger){{9, 8, 5, 4, 2, 1}, 1, 1}, damaged(&l);
    l = (trivsome_ledger){{9, 8, 5, 4, 3, 2}, 1, 1}, damaged(&l);
    l = (trivsome_ledger){{0}, 1, 1}, damaged(&l);
    trivsome_ledger_clear(&l);
    HOLDS(floor_is(&l, 0, 0) && figures_are(&l, 0, 0, 0, 0));
}

// A ledger kept in a file: it goes on where it was; a number changed in the file is answered 20.
static void storing(void)
{
    trivsome_ledger l = {0}, again;
    HOLDS(sizeof l == 131 * 4 && offsetof(trivsome_ledger, floor) == 129 * 4 && offsetof(trivsome_ledger, given_up) == 130 * 4);
    HOLDS(trivsome_is_new(trivsome_ledger_arrive(&l, 5)) && trivsome_is_new(trivsome_ledger_arrive(&l, 2)));
    FILE *file = tmpfile();
    if (file == NULL) {
        HOLDS(!"there is a file to store a ledger in");
        return;
    }
    HOLDS(fwrite(&l, sizeof l, 1, file) == 1);
    rewind(file);
    HOLDS(fread(&again, sizeof again, 1, file) == 1 && figures_are(&again, 5, 2, 3, 2));
    HOLDS(trivsome_ledger_arrive(&again, 2) == 0 && trivsome_is_new(trivsome_ledger_arrive(&again, 4)));
    HOLDS(figures_are(&again, 5, 3, 2, 2) && run_is(&again, 0, 1, 1) && run_is(&again, 1, 3, 3));

    // the record holds 5, 4, 2, 1: the highest, and the ends of the stretches below it; 6 in place of the 4 is no such end
    uint32_t six = 6;
    HOLDS(fseek(file, 4, SEEK_SET) == 0 && fwrite(&six, 4, 1, file) == 1);
    rewind(file);
    HOLDS(fread(&again, sizeof again, 1, file) == 1);
    damaged(&again);
    fclose(file);
}

// A ledger of the version before, kept as its 129 ends: read into zeros it goes on where it was.
static void storing_before(void)
{
    static const uint32_t kept[129] = {5, 4, 2, 1};
    trivsome_ledger l = {0};
    memcpy(&l, kept, sizeof kept);
    HOLDS(figures_are(&l, 5, 2, 3, 2) && floor_is(&l, 0, 0) && run_is(&l, 1, 3, 4));
    HOLDS(trivsome_is_new(trivsome_ledger_arrive(&l, 3)) && is_run(trivsome_ledger_give_up(&l), 1, 1));
}

// The board: zeros to begin with, and another to compare with.
static trivsome_board board, other;

static bool board_kept(void) { return memcmp(&board, &other, sizeof board) == 0; }

// Every call on lists of these lengths answers 50, first of all, and leaves what it was lent.
static void other_lengths(size_t head_count, size_t cell_count)
{
    static uint64_t heads[TRIVSOME_BOARD_ROWS + 1];
    static uint32_t cells[TRIVSOME_BOARD_CELLS + 1];
    uint64_t *h = head_count == 0 ? NULL : heads;
    uint32_t *c = cell_count == 0 ? NULL : cells;
    uint8_t stock[9] = {'1', '3', '0', '1', ' ', ' '}, none[9] = {0}, bytes[9];
    uint64_t time;
    uint32_t zeros[23] = {0}, amounts[23];
    FILL(heads), FILL(cells), FILL(bytes), FILL(time), FILL(amounts);
    HOLDS(trivsome_board_clear(h, head_count, c, cell_count) == 50);
    HOLDS(trivsome_board_take_numbers(h, head_count, c, cell_count, 1, stock, 0, zeros) == 50);
    HOLDS(trivsome_board_take_numbers(h, head_count, c, cell_count, 1, none, 0, zeros) == 50); // 50 before 14
    HOLDS(trivsome_board_ask_numbers(h, head_count, c, cell_count, stock, bytes, &time, amounts) == 50);
    HOLDS(trivsome_board_ask_numbers(h, head_count, c, cell_count, none, bytes, &time, amounts) == 50); // and before 51
    HOLDS(trivsome_board_row_numbers(h, head_count, c, cell_count, 0, bytes, &time, amounts) == 50);
    HOLDS(trivsome_board_row_numbers(h, head_count, c, cell_count, SIZE_MAX, bytes, &time, amounts) == 50);
    HOLDS(trivsome_board_rows(h, head_count, c, cell_count) == 50);
    HOLDS(FILLED(heads) && FILLED(cells) && FILLED(bytes) && FILLED(time) && FILLED(amounts));
}

static void all_lengths(void)
{
    for (size_t heads = 255; heads <= 257; heads++)
        for (size_t cells = 6655; cells <= 6657; cells++)
            if (heads != 256 || cells != 6656) other_lengths(heads, cells);
    other_lengths(0, 0), other_lengths(0, 6656), other_lengths(256, 0);
}

// There is no row at a place, or none of a code, and the struct stays.
static bool no_row(size_t place)
{
    trivsome_row row;
    FILL(row);
    return trivsome_board_row(&board, place, &row) == 51 && FILLED(row);
}

static bool not_asked(const char *code)
{
    trivsome_row row;
    FILL(row);
    return trivsome_board_ask(&board, (const uint8_t *)code, &row) == 51 && FILLED(row);
}

static void clear_board(void)
{
    HOLDS(sizeof board == 256 * 8 + 6656 * 4);
    HOLDS(trivsome_board_in_use(&board) == 0 && no_row(0) && no_row(255) && no_row(256) && no_row(SIZE_MAX));
    HOLDS(not_asked("2330  ") && not_asked("000000") && not_asked("\0\0\0\0\0") && not_asked("2330 \x1F") && not_asked("2330 \x7F"));
    HOLDS(trivsome_board_clear(board.heads, 256, board.cells, 6656) == 0 && board_kept());
    FILL(board);
    trivsome_board_clear_all(&board);
    HOLDS(board_kept());
}

// A stock's quotes, one behind the other: what stays and what goes.
static void taking(void)
{
    trivsome_quote q = {0};
    trivsome_row r, same;
    HOLDS(trivsome_board_take(&board, &q) == 14 && board_kept());
    HOLDS(trivsome_is_quote(trivsome_read_quote(QUOTE, 41, 0, &q)));
    q.asks[0].price = 1; // a pair that the reveal byte does not show
    HOLDS(trivsome_board_take(&board, &q) == 14 && board_kept());
    q.asks[0].price = 0, q.seq = 100000000;
    HOLDS(trivsome_board_take(&board, &q) == 14 && board_kept());
    q.seq = 8325;
    HOLDS(trivsome_board_take(&board, &q) == 0 && trivsome_board_in_use(&board) == 256 && no_row(1));
    HOLDS(trivsome_board_row(&board, 0, &r) == 0 && memcmp(r.code, "1301  ", 6) == 0 && r.time == 94519033017 && r.total == 1558);
    HOLDS(r.has_trade && r.bid_count == 0 && r.ask_count == 0 && r.limit == 0x81 && r.status == 0);
    HOLDS(r.trade.price == 335000 && r.trade.quantity == 0 && r.bids[0].price == 0 && r.asks[4].quantity == 0);

    // no trade, at an earlier time: the trade stays, all else is this quote's; a level of zeros is a level
    q.reveal = 0x16, q.limit = 1, q.status = 2, q.time = 94519033016, q.total = 7, q.trade.price = 0;
    for (uint32_t i = 0; i < 3; i++) q.asks[i].price = 3000 + i, q.asks[i].quantity = 4000 + i;
    HOLDS(trivsome_board_take(&board, &q) == 0 && trivsome_figure(trivsome_board_in_use(&board)) == 1);
    HOLDS(trivsome_board_ask(&board, q.code, &r) == 0 && r.has_trade && r.trade.price == 335000 && r.trade.quantity == 0);
    HOLDS(r.bid_count == 1 && r.ask_count == 3 && r.limit == 1 && r.status == 2 && r.time == 94519033016 && r.total == 7);
    for (int i = 0; i < 5; i++) HOLDS(same_pair(r.bids[i], q.bids[i]) && same_pair(r.asks[i], q.asks[i]));
    HOLDS(trivsome_board_row(&board, 0, &same) == 0 && same.time == r.time && same_pair(same.asks[2], r.asks[2]));

    // all eleven pairs; the row of another stock stays, and has no trade yet
    trivsome_quote second = {1, {'2', '3', '3', '0', ' ', ' '}, 0, 0, 0, TRIVSOME_LEVELS_SHOWN, 1, 0, {0, 0}, {{0, 0}}, {{0, 0}}};
    HOLDS(trivsome_board_take(&board, &second) == 0 && trivsome_figure(trivsome_board_in_use(&board)) == 2);
    q.reveal = 0xDA, q.trade.price = 999999999, q.trade.quantity = 99999999;
    for (uint32_t i = 0; i < 5; i++) {
        q.bids[i].price = 1000 + i, q.bids[i].quantity = 2000 + i;
        q.asks[i].price = 5000 + i, q.asks[i].quantity = 6000 + i;
    }
    HOLDS(trivsome_board_take(&board, &q) == 0 && trivsome_board_row(&board, 0, &r) == 0);
    HOLDS(r.has_trade && r.bid_count == 5 && r.ask_count == 5 && same_pair(r.trade, q.trade));
    for (int i = 0; i < 5; i++) HOLDS(same_pair(r.bids[i], q.bids[i]) && same_pair(r.asks[i], q.asks[i]));
    HOLDS(trivsome_board_row(&board, 1, &r) == 0 && memcmp(r.code, "2330  ", 6) == 0 && r.time == 1 && r.total == 0);
    HOLDS(!r.has_trade && r.bid_count == 0 && r.ask_count == 0 && r.trade.price == 0 && no_row(2));
    trivsome_board_clear_all(&board);
    HOLDS(board_kept());
}

// The row's sides are those of the quote.
static bool sides_of(const trivsome_row *row, const trivsome_quote *quote)
{
    bool same = lists(quote, true, row->bid_count, row->ask_count);
    for (int i = 0; i < 5; i++) same = same && same_pair(row->bids[i], quote->bids[i]) && same_pair(row->asks[i], quote->asks[i]);
    return same;
}

// Levels that are not shown leave both sides of the row as they were; all else is the quote's.
static void keeping_sides(void)
{
    trivsome_quote q = {1, {'1', '3', '0', '1', ' ', ' '}, 0xD2, 3, 4, TRIVSOME_LEVELS_SHOWN, 5, 6, {7, 8}, {{0, 0}}, {{9, 10}}};
    const trivsome_quote empty = {0};
    trivsome_quote trade_only, last;
    trivsome_row r;
    for (uint32_t i = 0; i < 5; i++) q.bids[i].price = 1000 + i, q.bids[i].quantity = 2000 + i;
    HOLDS(trivsome_board_take(&board, &q) == 0);
    HOLDS(trivsome_is_quote(trivsome_read_quote(TRADE_ONLY, 41, 0, &trade_only)) && trivsome_board_take(&board, &trade_only) == 0);
    HOLDS(trivsome_board_ask(&board, q.code, &r) == 0 && sides_of(&r, &q) && trivsome_figure(trivsome_board_in_use(&board)) == 1);
    HOLDS(r.time == 94519033017 && r.limit == 0x81 && r.status == 0 && r.total == 1558 && r.has_trade && same_pair(r.trade, trade_only.trade));
    // the row's own reveal byte has bit 0 clear
    uint8_t bytes[9];
    uint64_t time;
    uint32_t amounts[23];
    HOLDS(trivsome_board_row_numbers(board.heads, 256, board.cells, 6656, 0, bytes, &time, amounts) == 0 && bytes[6] == 0xD2);

    // neither a trade nor levels: both stay
    trade_only.reveal = 0x01, trade_only.trade.price = 0, trade_only.time = 11, trade_only.total = 12;
    HOLDS(trivsome_board_take(&board, &trade_only) == 0 && trivsome_board_row(&board, 0, &r) == 0 && sides_of(&r, &q));
    HOLDS(r.time == 11 && r.total == 12 && r.has_trade && r.trade.price == 335000);

    // what could not be written: of its levels it says what its reveal byte does not, or it has some
    other = board;
    trade_only.levels = TRIVSOME_LEVELS_SHOWN, trade_only.time = 13;
    HOLDS(trivsome_board_take(&board, &trade_only) == 14 && board_kept());
    trade_only.levels = TRIVSOME_LEVELS_NOT_SHOWN, trade_only.reveal = 0x00;
    HOLDS(trivsome_board_take(&board, &trade_only) == 14 && board_kept());
    trade_only.levels = 2;
    HOLDS(trivsome_board_take(&board, &trade_only) == 14 && board_kept());
    trade_only.levels = TRIVSOME_LEVELS_NOT_SHOWN, trade_only.reveal = 0x11;
    HOLDS(trivsome_board_take(&board, &trade_only) == 14 && board_kept());
    trade_only.reveal = 0x03;
    HOLDS(trivsome_board_take(&board, &trade_only) == 14 && board_kept());
    // the day's last frame changes nothing with bit 0 set either
    trade_only.reveal = 0x01, last = trade_only, last.time = TRIVSOME_NINES, memcpy(last.code, "000000", 6);
    HOLDS(trivsome_board_take(&board, &last) == 0 && board_kept());

    // a row never shown levels has empty sides, and takes those that come
    memcpy(trade_only.code, "2330  ", 6);
    HOLDS(trivsome_board_take(&board, &trade_only) == 0 && trivsome_board_row(&board, 1, &r) == 0 && memcmp(r.code, "2330  ", 6) == 0);
    HOLDS(sides_of(&r, &empty) && !r.has_trade && r.trade.price == 0 && r.time == 13);
    memcpy(q.code, "2330  ", 6), q.reveal = 0x52, q.trade = empty.trade;
    HOLDS(trivsome_board_take(&board, &q) == 0 && trivsome_board_row(&board, 1, &r) == 0 && sides_of(&r, &q) && !r.has_trade);
    // levels that are shown, and none: empty sides, which the next trade keeps
    q = empty, q.time = 14, memcpy(q.code, "2330  ", 6);
    HOLDS(trivsome_board_take(&board, &q) == 0 && trivsome_board_row(&board, 1, &r) == 0 && sides_of(&r, &empty));
    HOLDS(trivsome_board_take(&board, &trade_only) == 0 && trivsome_board_row(&board, 1, &r) == 0 && sides_of(&r, &empty));
    HOLDS(trivsome_board_row(&board, 0, &r) == 0 && r.bid_count == 5 && r.ask_count == 1 && r.asks[0].price == 9);

    // nothing is left of what a free row held
    memset(&board, 0xFF, sizeof board), board.heads[9] = 0;
    HOLDS(trivsome_board_take(&board, &trade_only) == 0 && trivsome_board_row(&board, 9, &r) == 0 && sides_of(&r, &empty) && !r.has_trade);
    trivsome_board_clear_all(&board), trivsome_board_clear_all(&other);
}

// 256 stocks, and what a full board still takes.
static void full_board(void)
{
    trivsome_quote q = {1, {'0', '0', '0', '0', ' ', ' '}, 0, 0, 0, TRIVSOME_LEVELS_SHOWN, 0, 0, {0, 0}, {{0, 0}}, {{0, 0}}};
    trivsome_row r;
    for (uint32_t i = 0; i < 256; i++) {
        q.code[0] = (uint8_t)('A' + i / 16), q.code[3] = (uint8_t)('a' + i % 16), q.time = i;
        HOLDS(trivsome_figure(trivsome_board_in_use(&board)) == i && trivsome_board_take(&board, &q) == 0);
    }
    HOLDS(trivsome_board_in_use(&board) == 65536 && no_row(256) && not_asked("A00q  "));
    for (size_t i = 0; i < 256; i++) {
        HOLDS(trivsome_board_row(&board, i, &r) == 0 && r.time == i && r.code[0] == 'A' + i / 16 && r.code[3] == 'a' + i % 16);
        HOLDS(trivsome_board_ask(&board, r.code, &r) == 0 && r.time == i);
    }
    other = board;
    q.code[0] = 'Z';
    HOLDS(trivsome_board_take(&board, &q) == 52 && board_kept());
    q.reveal = 0x60;
    HOLDS(trivsome_board_take(&board, &q) == 14 && board_kept()); // 14 before 52
    trivsome_quote last = {2, {'0', '0', '0', '0', '0', '0'}, 0, 0, 0, TRIVSOME_LEVELS_SHOWN, TRIVSOME_NINES, 0, {0, 0}, {{0, 0}}, {{0, 0}}};
    HOLDS(trivsome_board_take(&board, &last) == 0 && board_kept() && not_asked("000000"));
    q.reveal = 0, q.code[0] = 'P', q.code[3] = 'p', q.total = 9;
    HOLDS(trivsome_board_take(&board, &q) == 0 && !board_kept() && trivsome_board_row(&board, 255, &r) == 0 && r.total == 9);
    HOLDS(board.heads[0] == other.heads[0] && memcmp(board.cells, other.cells, 255 * 26 * 4) == 0);

    // the first row that has a code counts
    board.heads[7] = board.heads[255];
    HOLDS(trivsome_board_ask(&board, q.code, &r) == 0 && r.time == 7);
    // numbers that no quotes leave: rows of bytes that no code has, which asking does not find, and sides of seven levels
    memset(&board, 0xFF, sizeof board);
    other = board;
    HOLDS(trivsome_board_in_use(&board) == 65536 && trivsome_board_take(&board, &q) == 52 && trivsome_board_take(&board, &last) == 0 && board_kept());
    HOLDS(trivsome_board_row(&board, 255, &r) == 0 && r.has_trade && r.bid_count == 5 && r.ask_count == 5 && not_asked((const char *)r.code));
    HOLDS(r.limit == 255 && r.status == 255 && r.time == UINT64_MAX && r.total == UINT32_MAX && r.asks[4].quantity == UINT32_MAX);
    // a free row between others: the next stock's, and nothing is left of what it held
    board.heads[9] = 0;
    HOLDS(no_row(9) && trivsome_figure(trivsome_board_in_use(&board)) == 255 && trivsome_board_take(&board, &q) == 0);
    HOLDS(trivsome_board_row(&board, 9, &r) == 0 && !r.has_trade && r.trade.price == 0 && r.total == 9);
    memset(&board, 0, sizeof board), memset(&other, 0, sizeof other);
}

// A packed byte by the call, at the edges of both halves.
static void digits(void)
{
    static const uint8_t good[8][2] = {{0x00, 0}, {0x01, 1}, {0x09, 9}, {0x10, 10}, {0x19, 19}, {0x42, 42}, {0x90, 90}, {0x99, 99}};
    static const uint8_t bad[10] = {0x0A, 0x0F, 0x1A, 0x9A, 0x9F, 0xA0, 0xA9, 0xAA, 0xF0, 0xFF};
    for (int i = 0; i < 8; i++) HOLDS(trivsome_two_digits(good[i][0]) == good[i][1]);
    for (int i = 0; i < 10; i++) HOLDS(trivsome_two_digits(bad[i]) == 255);
    HOLDS(TRIVSOME_BAD_DIGIT == 255);
}

// The table, filled over memory that holds another byte, with such a byte on either side.
static void digit_table(uint8_t before)
{
    uint8_t memory[258], *table = memory + 1;
    memset(memory, before, sizeof memory);
    trivsome_digit_table(table);
    HOLDS(memory[0] == before && memory[257] == before);
    HOLDS(table[0x00] == 0 && table[0x09] == 9 && table[0x0A] == 255 && table[0x10] == 10);
    HOLDS(table[0x99] == 99 && table[0x9A] == 255 && table[0xA0] == 255 && table[0xFF] == 255);
    for (unsigned high = 0; high < 16; high++)
        for (unsigned low = 0; low < 16; low++) {
            unsigned byte = 16 * high + low, expected = high > 9 || low > 9 ? 255 : 10 * high + low;
            HOLDS(table[byte] == expected && trivsome_two_digits((uint8_t)byte) == expected);
        }
}

int main(void)
{
    reading();
    kinds();
    zeros();
    writing_notices();
    writing_quotes();
    reading_levels();
    writing_levels();
    writing_prices();
    writing_halts();
    walking();
    ledger();
    giving_up();
    wrong_floors();
    storing();
    storing_before();
    all_lengths();
    clear_board();
    taking();
    keeping_sides();
    full_board();
    digits();
    digit_table(0xA5);
    digit_table(0x00);
    return wrong;
}
