// Tries the calls of include/trivsome.h from C++, with vectors, an empty one among them, whose pointer may be null. Prints each
// line that does not hold, and ends with status 1 if there was one.
#include <memory>
#include <vector>
#include "common.h"

using Bytes = std::vector<uint8_t>;

// Nothing to read, and no room to write in: the pointer of an empty vector, and null.
static void nothing(uint8_t *pointer)
{
    trivsome_notice notice = {};
    trivsome_quote quote = {};
    trivsome_prices prices = TRIVSOME_NO_PRICES;
    trivsome_halt halt = {};
    trivsome_tally tally = {};
    HOLDS(trivsome_read(pointer, 0, 0) == 2);
    HOLDS(trivsome_read_notice(pointer, 0, 0, &notice) == 2 && trivsome_read_quote(pointer, 0, 0, &quote) == 2);
    HOLDS(trivsome_read_prices(pointer, 0, 0, &prices) == 2 && trivsome_read_halt(pointer, 0, 0, &halt) == 2);
    HOLDS(trivsome_move(pointer, 0, 0, true) == 2 && trivsome_move(pointer, 0, 0, false) == 2);
    HOLDS(trivsome_walk_line(&tally, pointer, 0, true) == 0 && tally.accepted == 0 && tally.waiting == 0);
    HOLDS(trivsome_write_notice(&notice, pointer, 0) == 15 && trivsome_write_quote(&quote, pointer, 0) == 14);
    HOLDS(trivsome_write_prices(&prices, pointer, 0) == 14 && trivsome_write_halt(&halt, pointer, 0) == 14);
    memcpy(prices.slots[0].code, "2330  ", 6), prices.count = 1;
    HOLDS(trivsome_write_prices(&prices, pointer, 0) == 15);
    trivsome_index index = {};
    HOLDS(trivsome_derivatives_read(pointer, 0, 0) == 2 && trivsome_read_index(pointer, 0, 0, &index) == 2);
    HOLDS(trivsome_derivatives_move(pointer, 0, 0, true) == 2 && trivsome_derivatives_move(pointer, 0, 0, false) == 2);
    HOLDS(trivsome_derivatives_walk_line(&tally, pointer, 0, true) == 0 && tally.skipped == 0);
    HOLDS(trivsome_write_index(&index, pointer, 0) == 14);
    Bytes frame(14);
    HOLDS(trivsome_write_notice_numbers(1, 9, pointer, 0, frame.data(), frame.size()) == outcome(0, 0, 14, 0));
    HOLDS(frame == Bytes(NOTICE, NOTICE + 14));
}

// A message written into a vector, and read from it.
static void there_and_back()
{
    Bytes frame(TRIVSOME_LONGEST);
    trivsome_prices prices = TRIVSOME_NO_PRICES, again = TRIVSOME_NO_PRICES;
    prices.seq = 7, prices.count = 1;
    memcpy(prices.slots[0].code, "2330  ", 6);
    prices.slots[0].time = TRIVSOME_NINES;
    HOLDS(trivsome_write_prices(&prices, frame.data(), frame.size()) == outcome(0, 0, 374, 0));
    uint64_t read = trivsome_read_prices(frame.data(), frame.size(), 0, &again);
    HOLDS(trivsome_is_prices(read) && !trivsome_is_quote(read) && again.seq == 7 && again.count == 1);
    HOLDS(memcmp(again.slots[0].code, "2330  ", 6) == 0 && memcmp(again.slots[9].code, "      ", 6) == 0);
    trivsome_quote quote = {}, same = {};
    memcpy(quote.code, "2330  ", 6), quote.reveal = 0x01, quote.levels = TRIVSOME_LEVELS_NOT_SHOWN;
    HOLDS(trivsome_write_quote(&quote, frame.data(), frame.size()) == outcome(0, 0, 32, 0));
    HOLDS(trivsome_is_quote(trivsome_read_quote(frame.data(), frame.size(), 0, &same)) && same.levels == TRIVSOME_LEVELS_NOT_SHOWN);
}

// A bad digit in a vector: its place, and the frame's number is none.
static void bad_digits()
{
    Bytes frame(NOTICE, NOTICE + 14);
    size_t place = 99;
    HOLDS(!trivsome_bad_half(trivsome_read(frame.data(), frame.size(), 0), &place) && place == 0);
    frame[10] = 0xA9, frame[11] ^= 0xA0;
    uint64_t read = trivsome_read(frame.data(), frame.size(), 0);
    HOLDS(read == refusal(11, 14, 20) && trivsome_bad_half(read, &place) && place == 20);
    HOLDS(trivsome_length(read) == 14 && trivsome_seq(read) == 0 && frame[place / 2] >> 4 == 0xA);
}

static void ledger()
{
    trivsome_ledger ledger = {};
    HOLDS(trivsome_is_new(trivsome_ledger_arrive(&ledger, 2)) && !trivsome_is_new(trivsome_ledger_arrive(&ledger, 2)));
    HOLDS(trivsome_figure(trivsome_ledger_missing(&ledger)) == 1 && trivsome_last(trivsome_ledger_run(&ledger, 0)) == 1);
    HOLDS(trivsome_last(trivsome_ledger_give_up(&ledger)) == 1 && trivsome_ledger_give_up(&ledger) == 24);
    HOLDS(trivsome_figure(trivsome_ledger_floor(&ledger)) == 1 && trivsome_figure(trivsome_ledger_given_up(&ledger)) == 1);
    HOLDS(trivsome_ledger_arrive(&ledger, 1) == 25 && trivsome_ledger_missing(&ledger) == 0);
    trivsome_ledger_clear(&ledger);
    HOLDS(trivsome_ledger_heard(&ledger) == 0 && trivsome_ledger_floor(&ledger) == 0);
}

// A board on the heap, and one of two vectors; empty ones are refused.
static void boards()
{
    std::unique_ptr<trivsome_board> board(new trivsome_board());
    trivsome_quote quote = {};
    trivsome_row row = {};
    memcpy(quote.code, "2330  ", 6), quote.reveal = 0x80, quote.trade.price = 5;
    HOLDS(trivsome_board_take(board.get(), &quote) == 0 && trivsome_figure(trivsome_board_in_use(board.get())) == 1);
    HOLDS(trivsome_board_ask(board.get(), quote.code, &row) == 0 && row.has_trade && row.trade.price == 5);
    HOLDS(trivsome_board_row(board.get(), 0, &row) == 0 && trivsome_board_row(board.get(), 1, &row) == 51);
    // a bid, and then a trade alone, which keeps it; a quote that contradicts itself is not taken
    quote.reveal = 0x10, quote.trade.price = 0, quote.bids[0].price = 6;
    HOLDS(trivsome_board_take(board.get(), &quote) == 0);
    quote.reveal = 0x81, quote.levels = TRIVSOME_LEVELS_NOT_SHOWN, quote.trade.price = 7, quote.bids[0].price = 0;
    HOLDS(trivsome_board_take(board.get(), &quote) == 0 && trivsome_board_row(board.get(), 0, &row) == 0);
    HOLDS(row.trade.price == 7 && row.bid_count == 1 && row.bids[0].price == 6 && row.ask_count == 0);
    quote.levels = TRIVSOME_LEVELS_SHOWN;
    HOLDS(trivsome_board_take(board.get(), &quote) == 14);
    std::vector<uint64_t> heads(board->heads, board->heads + TRIVSOME_BOARD_ROWS), no_heads;
    std::vector<uint32_t> cells(board->cells, board->cells + TRIVSOME_BOARD_CELLS), no_cells;
    HOLDS(trivsome_board_rows(heads.data(), heads.size(), cells.data(), cells.size()) == 256);
    HOLDS(trivsome_board_rows(no_heads.data(), 0, no_cells.data(), 0) == 50 && trivsome_board_clear(nullptr, 0, nullptr, 0) == 50);
    trivsome_board_clear_all(board.get());
    HOLDS(trivsome_board_in_use(board.get()) == 0);
}

// A table in a vector, in which bytes are looked up.
static void digits()
{
    Bytes table(256), field = {0x09, 0x30, 0x5A};
    trivsome_digit_table(table.data());
    HOLDS(table[field[0]] == 9 && table[field[1]] == 30 && table[field[2]] == TRIVSOME_BAD_DIGIT);
    HOLDS(trivsome_two_digits(field[1]) == 30 && trivsome_two_digits(field[2]) == TRIVSOME_BAD_DIGIT);
}

int main()
{
    Bytes empty;
    nothing(empty.data());
    nothing(nullptr);
    there_and_back();
    bad_digits();
    ledger();
    boards();
    digits();
    return wrong;
}
