/* trivsome.h: the calls of the library for programs in C and C++. ./trivsome library makes the archive to link.
 *
 * No call needs a check before it: every place, length, number and byte is allowed, and what is wrong is answered. No call
 * keeps anything, allocates, blocks or prints; all are safe from several threads as long as they share no memory that one
 * of them changes. A pointer must lead to as much memory as the call takes; with a length or size of 0 any pointer is good, a
 * null one too, as an empty std::vector lends it. Memory that a call changes must not overlap its other memory. A call that
 * refuses leaves all memory as it came.
 *
 * Every call answers with a number, 0 or the reason for a refusal, and carries figures above it, for which there are
 * functions below. Only trivsome_clear, trivsome_ledger_clear, trivsome_board_clear_all and the two calls on packed digits,
 * which refuse nothing, have no such number. A reading has beside 6 to 13 the frame's length, and beside a bad digit its
 * place: beside 6 and 11 always, beside 3 where a digit of the length is the cause (trivsome_bad_half). The numbers are:
 *
 *   reading and moving        0  accepted
 *                             1  no frame begins here: the first byte is not 27
 *                             2  the bytes end before the frame does
 *                             3  the length has a bad digit, with its place, or is outside 14 to 1,024, without one
 *                             4  the frame does not end in 0D 0A
 *                             5  the check byte is another
 *                             6  a bad digit in bytes 4 to 10, with its place
 *                             7  business not 01, or none of the four formats
 *                             8  another version of the format
 *                             9  a length that the format, or the reveal byte, does not allow
 *                            10  a quote with 6 or 7 levels on a side, or with levels where its reveal byte says that only the
 *                                trade is sent
 *                            11  a bad digit in the body, with its place
 *                            12  a time that breaks its rule
 *                            13  any other field that does
 *                            On a line of the derivatives exchange 3 speaks of the body's length, and of a frame that would
 *                            have over 1,024 bytes; 6 of bytes 4 to 12, 7 of market and kind, 9 of a body of other than 12 or
 *                            17 bytes, 13 of the contract and the reserved bits of the status; 10 is not answered
 *   writing                   0  written
 *                            14  the message breaks a rule, what it leaves unused is not zero, or a quote says of its levels
 *                                what its reveal byte does not
 *                            15  the buffer is too short
 *   walking a tally           0  done
 *                            16  a figure would pass the largest number
 *   the ledger                0  done
 *                            20  the record is damaged: no arrivals and give-ups leave it so
 *                            21  the number is 0 or above 99,999,999
 *                            22  there would be more than 64 missing runs
 *                            23  there is no run at this place
 *                            24  there is no missing run to give up
 *                            25  the number is at or below the floor
 *   the board                 0  done
 *                            50  heads or cells of another number were lent
 *                            51  no row has this code, or there is none at this place
 *                            14  the quote could not be written
 *                            52  all rows are those of other stocks
 *   the capture               0  done
 *                            34  other than 65,536 bytes were lent
 *                            31  the payload is empty or has more than 504 bytes
 *                            33  a block is bad, with the place of the first one (trivsome_block)
 *                            32  all 128 blocks are finished
 *
 * docs/RULES.md has the rules. Prices are in ten-thousandths, quantities in the stock's trading units, index values in
 * thousandths; times of day are numbers of the digits HHMMSSffffff or HHMMSS, on the derivatives exchange HHMMSScc; codes are six
 * characters, filled up with spaces, with no zero behind them. A line is one of the stock exchange, unless a call says that it is
 * one of the derivatives exchange, which is meant in its edition of 2015.
 */
#ifndef TRIVSOME_H
#define TRIVSOME_H

#include <stdbool.h>
#include <stddef.h>
#include <stdint.h>
#include <string.h>

#ifdef __cplusplus
extern "C" {
#endif

/* The formats of frames; of the derivatives exchange I060, an index value, and I064, its trial match and state. */
enum { TRIVSOME_NOTICE = 5, TRIVSOME_QUOTE = 6, TRIVSOME_PRICES = 12, TRIVSOME_HALT = 19, TRIVSOME_I060 = 60, TRIVSOME_I064 = 64 };

/* The longest frame of all formats, so the size of a buffer that every message finds room in. */
#define TRIVSOME_LONGEST 374
/* A time in place of a time of day: of a quote, the day's last frame; of a slot, the last price is the closing price. */
#define TRIVSOME_NINES UINT64_C(999999999999)
/* A halt's resume time while the halt is open. */
#define TRIVSOME_OPEN UINT32_C(999999)
/* The rows of a board, and with them the heads and the cells that it is kept in. */
#define TRIVSOME_BOARD_ROWS 256
#define TRIVSOME_BOARD_CELLS (26 * TRIVSOME_BOARD_ROWS)
/* The bytes of a capture, its blocks, and the most bytes of a payload. */
#define TRIVSOME_CAPTURE_SIZE 65536
#define TRIVSOME_CAPTURE_BLOCKS 128
#define TRIVSOME_PAYLOAD_MOST 504

/* ------------------------------------------------------------------------------------------------------------------------
 * What a call answers.
 */

/* The answer's number, of every call that has one. */
static inline unsigned trivsome_answer(uint64_t outcome) { return (unsigned)(outcome & 255); }

/* Of a reading or a move: the format of an accepted frame, else 0. */
static inline unsigned trivsome_format(uint64_t outcome) { return (unsigned)(outcome >> 8 & 255); }

/* Of a reading or a move: a frame of this format is accepted. The struct of such a frame, if one was read into, is filled. */
static inline bool trivsome_is_notice(uint64_t outcome) { return trivsome_format(outcome) == TRIVSOME_NOTICE; }
static inline bool trivsome_is_quote(uint64_t outcome) { return trivsome_format(outcome) == TRIVSOME_QUOTE; }
static inline bool trivsome_is_prices(uint64_t outcome) { return trivsome_format(outcome) == TRIVSOME_PRICES; }
static inline bool trivsome_is_halt(uint64_t outcome) { return trivsome_format(outcome) == TRIVSOME_HALT; }
static inline bool trivsome_is_index(uint64_t outcome) { return trivsome_format(outcome) == TRIVSOME_I060 || trivsome_format(outcome) == TRIVSOME_I064; }

/* Of a reading: the frame's length for 0 and 6 to 13, else 0. Of a writing: the bytes written. Of a move: the bytes that it
 * goes past; 0 where the walk stops. Of trivsome_capture_payload: the bytes of the payload, 0 where there is none. */
static inline size_t trivsome_length(uint64_t outcome) { return (size_t)(outcome >> 16 & 65535); }

/* Of a reading or a move: the number of an accepted frame, else 0. */
static inline uint32_t trivsome_seq(uint64_t outcome) { return trivsome_answer(outcome) == 0 ? (uint32_t)(outcome >> 32) : 0; }

/* Of a reading or a move: whether it tells the place of a bad digit, which 6 and 11 do, and 3 where a digit of the length is the
 * cause; and which place, 0 where it tells none. The place is that of the first bad half byte, counted in halves from 0 at the
 * frame's first byte, the 27: it is in frame[place / 2], which is byte place / 2 + 1 as bytes are counted above, from 1, in the
 * high half if place is even and in the low half if it is odd. Beside 3 it is 2 to 5, beside 6 it is 6 to 19, beside 11 it is 20
 * or more; on a line of the derivatives exchange 24 to 27, 6 to 23, and 34 to 59. A price's first half of 1 to 9 is a bad digit
 * too. */
static inline bool trivsome_bad_half(uint64_t outcome, size_t *place)
{
    uint32_t above = trivsome_answer(outcome) != 0 ? (uint32_t)(outcome >> 32) : 0; /* a place and one, or 0 for none */
    *place = above != 0 ? above - 1 : 0;
    return above != 0;
}

/* Of an arrival: the number is new. An answer of 0 that is not new is a repeat. */
static inline bool trivsome_is_new(uint64_t outcome) { return outcome == 256; }

/* Of trivsome_ledger_highest, _heard, _missing, _runs, _floor and _given_up, of trivsome_board_in_use and of
 * trivsome_capture_finished: the figure, where the answer is 0. */
static inline uint32_t trivsome_figure(uint64_t outcome) { return (uint32_t)(outcome >> 8); }

/* Of trivsome_ledger_run and trivsome_ledger_give_up: the run's first and last number, where the answer is 0. */
static inline uint32_t trivsome_first(uint64_t outcome) { return (uint32_t)(outcome >> 8 & 0xFFFFFFF); }
static inline uint32_t trivsome_last(uint64_t outcome) { return (uint32_t)(outcome >> 36); }

/* Of an append to a capture: the place of the new block, from 1, where the answer is 0. Of every call on a capture: the place of
 * the first bad block beside 33. */
static inline unsigned trivsome_block(uint64_t outcome) { return (unsigned)(outcome >> 8 & 255); }

/* Of trivsome_capture_payload: where in the capture the payload begins, from 0, where the answer is 0. */
static inline size_t trivsome_start(uint64_t outcome) { return (size_t)(outcome >> 32); }

/* ------------------------------------------------------------------------------------------------------------------------
 * Messages. What a struct of zeros is, made by {0} or in C++ by {}: a notice of category 0 without text, which can be written;
 * a quote, prices or a halt that cannot, and answers 14, since six zeros are no code; nor can an index value, of no market. Prices
 * start from TRIVSOME_NO_PRICES instead. A tally, a ledger and a capture of zeros, further below, are fresh ones, and a board of
 * zeros is clear.
 */

typedef struct {
    uint32_t seq;
    uint8_t category; /* 0, 9, 90 or 99 */
    uint8_t length;   /* of the text, 0 to 60 */
    uint8_t text[60]; /* any bytes; zeros behind its length */
} trivsome_notice;

typedef struct {
    uint32_t price;
    uint32_t quantity;
} trivsome_pair;

/* Whether a quote shows its levels. With TRIVSOME_LEVELS_SHOWN a side of no levels is empty. With TRIVSOME_LEVELS_NOT_SHOWN only
 * the trade is sent, and nothing is said of either side: it need not be empty. */
enum { TRIVSOME_LEVELS_SHOWN = 0, TRIVSOME_LEVELS_NOT_SHOWN = 1 };

typedef struct {
    uint32_t seq;
    uint8_t code[6];
    uint8_t reveal; /* which pairs there are, and in bit 0 that only the trade is sent: see the functions below */
    uint8_t limit;
    uint8_t status;
    uint8_t levels; /* TRIVSOME_LEVELS_SHOWN or _NOT_SHOWN, as bit 0 of the reveal byte says */
    uint64_t time; /* HHMMSSffffff, or TRIVSOME_NINES with the code 000000: the day's last frame */
    uint32_t total;
    trivsome_pair trade; /* pairs that there are not are zeros */
    trivsome_pair bids[5];
    trivsome_pair asks[5]; /* the best of each side first */
} trivsome_quote;

static inline bool trivsome_has_trade(const trivsome_quote *quote) { return quote->reveal >> 7 != 0; }

/* Whether the levels of a side are shown, and how many it then lists: 0 where the side is empty. Where they are not shown nothing
 * is said of the side, and the count is 0 too: only the answer tells the one from the other. */
static inline bool trivsome_bids(const trivsome_quote *quote, unsigned *count)
{
    bool shown = quote->levels == TRIVSOME_LEVELS_SHOWN;
    *count = shown ? quote->reveal >> 4 & 7U : 0;
    return shown;
}
static inline bool trivsome_asks(const trivsome_quote *quote, unsigned *count)
{
    bool shown = quote->levels == TRIVSOME_LEVELS_SHOWN;
    *count = shown ? quote->reveal >> 1 & 7U : 0;
    return shown;
}

typedef struct {
    uint8_t code[6];
    uint32_t opening;
    uint32_t highest;
    uint32_t lowest;
    uint32_t last;
    uint32_t total;
    uint64_t time; /* HHMMSSffffff, or TRIVSOME_NINES: last is the closing price */
} trivsome_slot;

typedef struct {
    uint32_t seq;
    uint8_t count; /* of the slots in use, 1 to 10 */
    trivsome_slot slots[10]; /* behind the count: six spaces for the code, and zeros */
} trivsome_prices;

/* Prices with no slot in use, to start from: trivsome_prices prices = TRIVSOME_NO_PRICES. As they are they cannot be written,
 * and answer 14. */
#define TRIVSOME_NO_PRICES \
    {0, 0, {TRIVSOME_NO_SLOT, TRIVSOME_NO_SLOT, TRIVSOME_NO_SLOT, TRIVSOME_NO_SLOT, TRIVSOME_NO_SLOT, \
            TRIVSOME_NO_SLOT, TRIVSOME_NO_SLOT, TRIVSOME_NO_SLOT, TRIVSOME_NO_SLOT, TRIVSOME_NO_SLOT}}
#define TRIVSOME_NO_SLOT {{' ', ' ', ' ', ' ', ' ', ' '}, 0, 0, 0, 0, 0, 0}

enum { TRIVSOME_ROUND_END = 0, TRIVSOME_HALTED = 1 };

typedef struct {
    uint32_t seq;
    uint8_t code[6];  /* 000000 in a halt is the whole market; of a round's end, the records as six digits */
    uint8_t event;    /* TRIVSOME_ROUND_END or TRIVSOME_HALTED */
    uint8_t state;    /* 'C' sent in the cycle, 'I' sent at once */
    uint32_t records; /* of a round's end, else 0 */
    uint32_t halted;  /* of a halt: HHMMSS, else 0 */
    uint32_t resume;  /* of a halt: HHMMSS, or TRIVSOME_OPEN while it is open, else 0 */
} trivsome_halt;

/* An index value of the derivatives exchange: what the underlying of a contract stood at, and when. */
typedef struct {
    uint32_t seq;
    uint8_t market;      /* '1' futures, '4' options */
    uint8_t kind;        /* '5' in I060, '8' in I064 */
    uint8_t length;      /* of the contract, 3 or 8 */
    uint8_t status;      /* bit 0 in I060, bits 0 to 2 in I064; the others are reserved, and clear */
    uint8_t contract[8]; /* bytes of 32 to 126; zeros behind its length */
    uint32_t sent;       /* HHMMSScc: when the frame was sent */
    uint32_t time;       /* HHMMSScc: of the value */
    uint32_t value;      /* in thousandths, up to 99,999,999 */
} trivsome_index;

/* ------------------------------------------------------------------------------------------------------------------------
 * The calls of the archive: bytes and numbers. Those on messages, tallies, ledgers and boards have an easier form below.
 */

/* What the bytes of a line from a place on are: 0 to 13. A place at or behind the line's end answers 2. */
uint64_t trivsome_read(const uint8_t *line, size_t length, size_t at);

/* The same answer, and the message. An accepted frame of another format is answered 0 with that format, and leaves the memory
 * for the message as it came. A notice's text has the frame's length less 14 bytes. The numbers of a quote: code, reveal,
 * limit, status; total, trade, bids, asks, each pair as price and quantity. Bit 0 of the reveal byte alone says that the levels
 * are not shown. Of prices: for each slot the code; opening, highest, lowest, last, total; the time. Of a halt: event, records
 * or halted, resume, state. */
uint64_t trivsome_read_notice_numbers(const uint8_t *line, size_t length, size_t at, uint8_t *category, uint8_t text[60]);
uint64_t trivsome_read_quote_numbers(const uint8_t *line, size_t length, size_t at, uint8_t bytes[9], uint64_t *time, uint32_t amounts[23]);
uint64_t trivsome_read_prices_numbers(const uint8_t *line, size_t length, size_t at, uint8_t *count, uint8_t codes[60], uint32_t amounts[50], uint64_t times[10]);
uint64_t trivsome_read_halt_numbers(const uint8_t *line, size_t length, size_t at, uint8_t code[6], uint32_t event[4]);

/* The same on a line of the derivatives exchange. The bytes of an index value: market, kind, length of the contract, status; the
 * numbers: sent, time, value. Each of its accepted frames is one. */
uint64_t trivsome_derivatives_read(const uint8_t *line, size_t length, size_t at);
uint64_t trivsome_read_index_numbers(const uint8_t *line, size_t length, size_t at, uint8_t contract[8], uint8_t bytes[4], uint32_t numbers[3]);

/* Writes a message as a frame at the start of a buffer: 0, 14 or 15, and the bytes written. No byte behind them changes. */
uint64_t trivsome_write_notice_numbers(uint32_t seq, uint8_t category, const uint8_t *text, size_t length, uint8_t *buf, size_t size);
uint64_t trivsome_write_quote_numbers(uint32_t seq, const uint8_t bytes[9], uint64_t time, const uint32_t amounts[23], uint8_t *buf, size_t size);
uint64_t trivsome_write_prices_numbers(uint32_t seq, uint8_t count, const uint8_t codes[60], const uint32_t amounts[50], const uint64_t times[10], uint8_t *buf, size_t size);
uint64_t trivsome_write_halt_numbers(uint32_t seq, const uint8_t code[6], const uint32_t event[4], uint8_t *buf, size_t size);
uint64_t trivsome_write_index_numbers(uint32_t seq, const uint8_t contract[8], const uint8_t bytes[4], const uint32_t numbers[3], uint8_t *buf, size_t size);

/* The move of a walk at a place of a line: the answer there, 0 to 13, and as its length the bytes to go past: a whole frame
 * for 0 and 6 to 13, else one. It is 0, and the answer 2, where the walk stops: at the line's end, and on a line that is not
 * closed where a frame may still be coming. Closed means that no more bytes will come. The second is for a line of the
 * derivatives exchange. */
uint64_t trivsome_move(const uint8_t *line, size_t length, size_t at, bool closed);
uint64_t trivsome_derivatives_move(const uint8_t *line, size_t length, size_t at, bool closed);

/* Walks a whole line, and moves a tally on: accepted, refused and skipped bytes grow by the walk's, waiting bytes become the
 * walk's. 0 or 16. The second is for a line of the derivatives exchange. See trivsome_walk_line and
 * trivsome_derivatives_walk_line below. */
uint64_t trivsome_walk(uint64_t tally[4], const uint8_t *line, size_t length, bool closed);
uint64_t trivsome_derivatives_walk(uint64_t tally[4], const uint8_t *line, size_t length, bool closed);

/* The ledger, by the ends in its record, its floor, and how many numbers were given up. See trivsome_ledger below, and the calls
 * that take one. */
void trivsome_clear(uint32_t ends[129], uint32_t *floor, uint32_t *given_up);
uint64_t trivsome_arrive(uint32_t ends[129], uint32_t floor, uint32_t given_up, uint32_t n);
uint64_t trivsome_give_up(uint32_t ends[129], uint32_t *floor, uint32_t *given_up);
uint64_t trivsome_highest(const uint32_t ends[129], uint32_t floor, uint32_t given_up);
uint64_t trivsome_heard(const uint32_t ends[129], uint32_t floor, uint32_t given_up);
uint64_t trivsome_missing(const uint32_t ends[129], uint32_t floor, uint32_t given_up);
uint64_t trivsome_runs(const uint32_t ends[129], uint32_t floor, uint32_t given_up);
uint64_t trivsome_floor(const uint32_t ends[129], uint32_t floor, uint32_t given_up);
uint64_t trivsome_given_up(const uint32_t ends[129], uint32_t floor, uint32_t given_up);
uint64_t trivsome_run(const uint32_t ends[129], uint32_t floor, uint32_t given_up, uint32_t place);

/* The board, by its heads and its cells: each call answers 50 unless there are TRIVSOME_BOARD_ROWS heads and
 * TRIVSOME_BOARD_CELLS cells. See trivsome_board below, and the calls that take one. The numbers of a row are those of a quote;
 * its reveal byte says in bit 7 that there is a last trade, in bits 4 to 6 how many bids and in bits 1 to 3 how many asks; bit 0
 * is clear. */
uint64_t trivsome_board_clear(uint64_t *heads, size_t head_count, uint32_t *cells, size_t cell_count);
uint64_t trivsome_board_take_numbers(uint64_t *heads, size_t head_count, uint32_t *cells, size_t cell_count, uint32_t seq, const uint8_t bytes[9], uint64_t time, const uint32_t amounts[23]);
uint64_t trivsome_board_ask_numbers(const uint64_t *heads, size_t head_count, const uint32_t *cells, size_t cell_count, const uint8_t code[6], uint8_t bytes[9], uint64_t *time, uint32_t amounts[23]);
uint64_t trivsome_board_row_numbers(const uint64_t *heads, size_t head_count, const uint32_t *cells, size_t cell_count, size_t place, uint8_t bytes[9], uint64_t *time, uint32_t amounts[23]);
uint64_t trivsome_board_rows(const uint64_t *heads, size_t head_count, const uint32_t *cells, size_t cell_count);

/* A capture: a line kept in 128 blocks of 512 bytes, next to each other, so that a power loss harms none that was finished. A
 * block has its number, from 1 (4 bytes), how many bytes of its payload are used, 1 to 504 (2 bytes), the payload with zeros
 * behind the used bytes (504), and a check, Fletcher-16 of all before it (2); numbers stand high byte first. While its number is
 * 0 a block is unfinished, whatever else stands there. All zeros are a fresh capture: static uint8_t
 * capture[TRIVSOME_CAPTURE_SIZE]. Each call answers 34 unless it is lent so many bytes.
 *
 * An append stores all other bytes of its block first, and then the last byte of the number, in a store of its own: that store
 * finishes the block. A power loss before it leaves the capture with the blocks that it had, and their payloads; the place of the
 * append is unfinished, so the next one takes it again and stores over all that the cut left there.
 *
 * So much is promised of the lent memory alone, in the order in which it is stored to. What becomes of it in a file or in any
 * other place that outlives the power is the caller's to see to: that all other bytes of the block are there for good (fsync)
 * before the last byte of the number goes there, and that one before the next append. The program capture does so with a file.
 *
 * The bytes may be any, as those of a file are. Every call but the clearing looks at all blocks first, and answers 33 if one is
 * bad: one whose number is neither 0 nor its place, that follows an unfinished block, that has less than 1 or more than 504 used
 * bytes, other bytes than zeros behind them, or another check. */

/* Makes a fresh capture of any bytes: 0 or 34. It goes from the first byte on. If power goes meanwhile and two or more blocks were
 * finished, one may be left behind a block whose number is gone: then the other calls answer 33 (an append after its 31) until this one is done
 * again. */
uint64_t trivsome_capture_clear(uint8_t *capture, size_t size);

/* Appends a payload of 1 to 504 bytes at the first unfinished place: 0 with the place (trivsome_block), 34, 31, 33 or 32. */
uint64_t trivsome_capture_append(uint8_t *capture, size_t size, const uint8_t *payload, size_t length);

/* The same, and the same answer, with the power cut after so many of its 512 bytes are stored, one after the other: the capture is
 * left as such a cut leaves it, to try what is found then. With 512 or more the append is finished. */
uint64_t trivsome_capture_append_cut(uint8_t *capture, size_t size, const uint8_t *payload, size_t length, size_t stores);

/* How many blocks are finished: 0 and the figure (trivsome_figure), 34 or 33. */
uint64_t trivsome_capture_finished(const uint8_t *capture, size_t size);

/* The payload at a place, from 1: 0 with where it begins (trivsome_start) and its length, 34 or 33. It is empty, and begins at 0,
 * where the block is unfinished or there is no such place. */
uint64_t trivsome_capture_payload(const uint8_t *capture, size_t size, size_t place);

/* ------------------------------------------------------------------------------------------------------------------------
 * The same with structs. A reading changes the struct only if it accepts a frame of that format:
 *
 *   if (trivsome_is_quote(trivsome_read_quote(line, length, at, &quote))) ..
 */

/* Reads a notice: 0 to 13. */
static inline uint64_t trivsome_read_notice(const uint8_t *line, size_t length, size_t at, trivsome_notice *notice)
{
    uint8_t category = 0, text[60] = {0};
    uint64_t outcome = trivsome_read_notice_numbers(line, length, at, &category, text);
    if (trivsome_is_notice(outcome)) {
        notice->seq = trivsome_seq(outcome);
        notice->category = category;
        notice->length = (uint8_t)(trivsome_length(outcome) - 14);
        memcpy(notice->text, text, sizeof text);
    }
    return outcome;
}

/* The pairs of a quote or a row out of its amounts. */
static inline void trivsome_pairs(const uint32_t amounts[23], trivsome_pair *trade, trivsome_pair bids[5], trivsome_pair asks[5])
{
    trade->price = amounts[1];
    trade->quantity = amounts[2];
    for (int i = 0; i < 5; i++) {
        bids[i].price = amounts[3 + 2 * i];
        bids[i].quantity = amounts[4 + 2 * i];
        asks[i].price = amounts[13 + 2 * i];
        asks[i].quantity = amounts[14 + 2 * i];
    }
}

/* What a reveal byte says of the levels. */
static inline uint8_t trivsome_levels_of(uint8_t reveal)
{
    return (reveal & 1) != 0 ? TRIVSOME_LEVELS_NOT_SHOWN : TRIVSOME_LEVELS_SHOWN;
}

/* A quote's nine bytes and its amounts. */
static inline void trivsome_numbers(const trivsome_quote *quote, uint8_t bytes[9], uint32_t amounts[23])
{
    memcpy(bytes, quote->code, 6);
    bytes[6] = quote->reveal;
    bytes[7] = quote->limit;
    bytes[8] = quote->status;
    amounts[0] = quote->total;
    amounts[1] = quote->trade.price;
    amounts[2] = quote->trade.quantity;
    for (int i = 0; i < 5; i++) {
        amounts[3 + 2 * i] = quote->bids[i].price;
        amounts[4 + 2 * i] = quote->bids[i].quantity;
        amounts[13 + 2 * i] = quote->asks[i].price;
        amounts[14 + 2 * i] = quote->asks[i].quantity;
    }
}

/* Reads a quote: 0 to 13. */
static inline uint64_t trivsome_read_quote(const uint8_t *line, size_t length, size_t at, trivsome_quote *quote)
{
    uint8_t bytes[9] = {0};
    uint64_t time = 0;
    uint32_t amounts[23] = {0};
    uint64_t outcome = trivsome_read_quote_numbers(line, length, at, bytes, &time, amounts);
    if (trivsome_is_quote(outcome)) {
        quote->seq = trivsome_seq(outcome);
        memcpy(quote->code, bytes, 6);
        quote->reveal = bytes[6];
        quote->limit = bytes[7];
        quote->status = bytes[8];
        quote->levels = trivsome_levels_of(bytes[6]);
        quote->time = time;
        quote->total = amounts[0];
        trivsome_pairs(amounts, &quote->trade, quote->bids, quote->asks);
    }
    return outcome;
}

/* Reads opening or closing prices: 0 to 13. */
static inline uint64_t trivsome_read_prices(const uint8_t *line, size_t length, size_t at, trivsome_prices *prices)
{
    uint8_t count = 0, codes[60] = {0};
    uint32_t amounts[50] = {0};
    uint64_t times[10] = {0};
    uint64_t outcome = trivsome_read_prices_numbers(line, length, at, &count, codes, amounts, times);
    if (trivsome_is_prices(outcome)) {
        prices->seq = trivsome_seq(outcome);
        prices->count = count;
        for (int i = 0; i < 10; i++) {
            trivsome_slot *slot = &prices->slots[i];
            memcpy(slot->code, codes + 6 * i, 6);
            slot->opening = amounts[5 * i];
            slot->highest = amounts[5 * i + 1];
            slot->lowest = amounts[5 * i + 2];
            slot->last = amounts[5 * i + 3];
            slot->total = amounts[5 * i + 4];
            slot->time = times[i];
        }
    }
    return outcome;
}

/* Reads a halt, or the end of a round of halts: 0 to 13. */
static inline uint64_t trivsome_read_halt(const uint8_t *line, size_t length, size_t at, trivsome_halt *halt)
{
    uint8_t code[6] = {0};
    uint32_t event[4] = {0};
    uint64_t outcome = trivsome_read_halt_numbers(line, length, at, code, event);
    if (trivsome_is_halt(outcome)) {
        halt->seq = trivsome_seq(outcome);
        memcpy(halt->code, code, 6);
        halt->event = (uint8_t)event[0];
        halt->state = (uint8_t)event[3];
        halt->records = event[0] == TRIVSOME_ROUND_END ? event[1] : 0;
        halt->halted = event[0] == TRIVSOME_ROUND_END ? 0 : event[1];
        halt->resume = event[2];
    }
    return outcome;
}

/* Reads an index value on a line of the derivatives exchange: 0 to 13. */
static inline uint64_t trivsome_read_index(const uint8_t *line, size_t length, size_t at, trivsome_index *index)
{
    uint8_t contract[8] = {0}, bytes[4] = {0};
    uint32_t numbers[3] = {0};
    uint64_t outcome = trivsome_read_index_numbers(line, length, at, contract, bytes, numbers);
    if (trivsome_is_index(outcome)) {
        index->seq = trivsome_seq(outcome);
        index->market = bytes[0];
        index->kind = bytes[1];
        index->length = bytes[2];
        index->status = bytes[3];
        memcpy(index->contract, contract, sizeof contract);
        index->sent = numbers[0];
        index->time = numbers[1];
        index->value = numbers[2];
    }
    return outcome;
}

/* Writes a notice: 0, 14 or 15. */
static inline uint64_t trivsome_write_notice(const trivsome_notice *notice, uint8_t *buf, size_t size)
{
    if (notice->length > 60)
        return 14;
    for (int i = notice->length; i < 60; i++)
        if (notice->text[i] != 0)
            return 14;
    return trivsome_write_notice_numbers(notice->seq, notice->category, notice->text, notice->length, buf, size);
}

/* Writes a quote: 0, 14 or 15. */
static inline uint64_t trivsome_write_quote(const trivsome_quote *quote, uint8_t *buf, size_t size)
{
    uint8_t bytes[9];
    uint32_t amounts[23];
    if (quote->levels != trivsome_levels_of(quote->reveal))
        return 14;
    trivsome_numbers(quote, bytes, amounts);
    return trivsome_write_quote_numbers(quote->seq, bytes, quote->time, amounts, buf, size);
}

/* Writes opening or closing prices: 0, 14 or 15. */
static inline uint64_t trivsome_write_prices(const trivsome_prices *prices, uint8_t *buf, size_t size)
{
    uint8_t codes[60];
    uint32_t amounts[50];
    uint64_t times[10];
    for (int i = 0; i < 10; i++) {
        const trivsome_slot *slot = &prices->slots[i];
        memcpy(codes + 6 * i, slot->code, 6);
        amounts[5 * i] = slot->opening;
        amounts[5 * i + 1] = slot->highest;
        amounts[5 * i + 2] = slot->lowest;
        amounts[5 * i + 3] = slot->last;
        amounts[5 * i + 4] = slot->total;
        times[i] = slot->time;
    }
    return trivsome_write_prices_numbers(prices->seq, prices->count, codes, amounts, times, buf, size);
}

/* Writes a halt, or the end of a round of halts: 0, 14 or 15. */
static inline uint64_t trivsome_write_halt(const trivsome_halt *halt, uint8_t *buf, size_t size)
{
    bool round_end = halt->event == TRIVSOME_ROUND_END;
    uint32_t event[4] = {halt->event, round_end ? halt->records : halt->halted, halt->resume, halt->state};
    if ((round_end ? halt->halted : halt->records) != 0)
        return 14;
    return trivsome_write_halt_numbers(halt->seq, halt->code, event, buf, size);
}

/* Writes an index value: 0, 14 or 15. */
static inline uint64_t trivsome_write_index(const trivsome_index *index, uint8_t *buf, size_t size)
{
    uint8_t bytes[4] = {index->market, index->kind, index->length, index->status};
    uint32_t numbers[3] = {index->sent, index->time, index->value};
    return trivsome_write_index_numbers(index->seq, index->contract, bytes, numbers, buf, size);
}

/* Bytes of a line, or of all lines of a day, by what became of them. All zeros are a fresh tally. */
typedef struct {
    uint64_t accepted;
    uint64_t refused;
    uint64_t skipped;
    uint64_t waiting;
} trivsome_tally;

/* A tally of its four figures. */
static inline void trivsome_tally_of(const uint64_t figures[4], trivsome_tally *tally)
{
    tally->accepted = figures[0];
    tally->refused = figures[1];
    tally->skipped = figures[2];
    tally->waiting = figures[3];
}

/* Walks a whole line, and moves a tally on, as trivsome_walk does: 0 or 16. */
static inline uint64_t trivsome_walk_line(trivsome_tally *tally, const uint8_t *line, size_t length, bool closed)
{
    uint64_t figures[4] = {tally->accepted, tally->refused, tally->skipped, tally->waiting};
    uint64_t outcome = trivsome_walk(figures, line, length, closed);
    trivsome_tally_of(figures, tally);
    return outcome;
}

/* The same of a line of the derivatives exchange. */
static inline uint64_t trivsome_derivatives_walk_line(trivsome_tally *tally, const uint8_t *line, size_t length, bool closed)
{
    uint64_t figures[4] = {tally->accepted, tally->refused, tally->skipped, tally->waiting};
    uint64_t outcome = trivsome_derivatives_walk(figures, line, length, closed);
    trivsome_tally_of(figures, tally);
    return outcome;
}

/* A ledger of the numbers that arrived today in one format. All zeros are a fresh one: trivsome_ledger ledger = {0}.
 *
 * It is 131 numbers of 32 bits and nothing else, so one machine keeps it in a file by fwrite and fread of the whole struct;
 * between machines write each number in an order of bytes that is the same on both. A record that the version before has kept,
 * of 129 numbers, is the same ledger with two zeros behind it: read it into a ledger of zeros. What is read back may be any
 * numbers: where no arrivals and give-ups leave such a record every call but the clearing answers 20, and changes nothing. Damage
 * that makes it the record of other arrivals and give-ups is not seen. */
typedef struct {
    uint32_t ends[129];
    uint32_t floor;    /* up to here the missing numbers were given up; 0 where none were */
    uint32_t given_up; /* how many they are */
} trivsome_ledger;

/* Makes any ledger a fresh one; nothing is heard, and nothing given up. */
static inline void trivsome_ledger_clear(trivsome_ledger *ledger)
{
    trivsome_clear(ledger->ends, &ledger->floor, &ledger->given_up);
}

/* Records a number: 0 (new, or a repeat: trivsome_is_new), 20, 21, 25 or 22. */
static inline uint64_t trivsome_ledger_arrive(trivsome_ledger *ledger, uint32_t n)
{
    return trivsome_arrive(ledger->ends, ledger->floor, ledger->given_up, n);
}

/* Gives the lowest missing run up, and tells which it was: 0, 20 or 24. Its last number becomes the floor: numbers up to there
 * are answered 25 from now on, heard ones too, and are missing no longer. There is room for another run then, so that with this
 * no number finds the ledger full:
 *
 *   while (trivsome_answer(outcome = trivsome_ledger_arrive(&ledger, n)) == 22)
 *       trivsome_ledger_give_up(&ledger); */
static inline uint64_t trivsome_ledger_give_up(trivsome_ledger *ledger)
{
    return trivsome_give_up(ledger->ends, &ledger->floor, &ledger->given_up);
}

/* The highest number heard, how many are heard, how many between the floor and the highest are missing, in how many runs, the
 * floor, and how many numbers were given up: 0 or 20. Heard, missing and given up make the highest. */
static inline uint64_t trivsome_ledger_highest(const trivsome_ledger *ledger)
{
    return trivsome_highest(ledger->ends, ledger->floor, ledger->given_up);
}
static inline uint64_t trivsome_ledger_heard(const trivsome_ledger *ledger)
{
    return trivsome_heard(ledger->ends, ledger->floor, ledger->given_up);
}
static inline uint64_t trivsome_ledger_missing(const trivsome_ledger *ledger)
{
    return trivsome_missing(ledger->ends, ledger->floor, ledger->given_up);
}
static inline uint64_t trivsome_ledger_runs(const trivsome_ledger *ledger)
{
    return trivsome_runs(ledger->ends, ledger->floor, ledger->given_up);
}
static inline uint64_t trivsome_ledger_floor(const trivsome_ledger *ledger)
{
    return trivsome_floor(ledger->ends, ledger->floor, ledger->given_up);
}
static inline uint64_t trivsome_ledger_given_up(const trivsome_ledger *ledger)
{
    return trivsome_given_up(ledger->ends, ledger->floor, ledger->given_up);
}

/* The missing run at a place, from 0 for the lowest above the floor: 0, 20 or 23. */
static inline uint64_t trivsome_ledger_run(const trivsome_ledger *ledger, uint32_t place)
{
    return trivsome_run(ledger->ends, ledger->floor, ledger->given_up, place);
}

/* A board of last quotes: a row to a stock, for up to 256 stocks, in the order in which their codes first came. All zeros are a
 * clear one: static trivsome_board board. It has 28,672 bytes, which no call copies.
 *
 * It is numbers and nothing else, so it is kept in a file as a ledger is. What is read back may be any numbers: the calls take
 * the rows that stand there for what they are, and damage is not seen. */
typedef struct {
    uint64_t heads[TRIVSOME_BOARD_ROWS];
    uint32_t cells[TRIVSOME_BOARD_CELLS];
} trivsome_board;

typedef struct {
    uint8_t code[6];
    bool has_trade; /* some quote of the stock had one */
    uint8_t bid_count; /* how many levels the last quote that showed its levels had, 0 to 5; 0 if none did */
    uint8_t ask_count;
    uint8_t limit;
    uint8_t status;
    uint64_t time; /* HHMMSSffffff */
    uint32_t total;
    trivsome_pair trade; /* the last one; pairs that there are not are zeros */
    trivsome_pair bids[5];
    trivsome_pair asks[5]; /* the best of each side first */
} trivsome_row;

/* A row of its numbers. A side of more than 5 levels, which no quote leaves, has 5. */
static inline void trivsome_row_of(const uint8_t bytes[9], uint64_t time, const uint32_t amounts[23], trivsome_row *row)
{
    uint8_t bids = bytes[6] >> 4 & 7, asks = bytes[6] >> 1 & 7;
    memcpy(row->code, bytes, 6);
    row->has_trade = bytes[6] >> 7 != 0;
    row->bid_count = bids < 5 ? bids : 5;
    row->ask_count = asks < 5 ? asks : 5;
    row->limit = bytes[7];
    row->status = bytes[8];
    row->time = time;
    row->total = amounts[0];
    trivsome_pairs(amounts, &row->trade, row->bids, row->asks);
}

/* Makes every row of any board free. */
static inline void trivsome_board_clear_all(trivsome_board *board)
{
    trivsome_board_clear(board->heads, TRIVSOME_BOARD_ROWS, board->cells, TRIVSOME_BOARD_CELLS);
}

/* Takes a quote into the row of its code, or else into the first free one: 0, 14 or 52. The row becomes the quote's; but a quote
 * without a trade leaves the last trade as it was, and one whose levels are not shown leaves both sides as they were. The day's
 * last frame answers 0, and changes no row. What counts is the order of the calls, not the times. */
static inline uint64_t trivsome_board_take(trivsome_board *board, const trivsome_quote *quote)
{
    uint8_t bytes[9];
    uint32_t amounts[23];
    if (quote->levels != trivsome_levels_of(quote->reveal))
        return 14;
    trivsome_numbers(quote, bytes, amounts);
    return trivsome_board_take_numbers(board->heads, TRIVSOME_BOARD_ROWS, board->cells, TRIVSOME_BOARD_CELLS, quote->seq, bytes, quote->time, amounts);
}

/* The row of a code: 0 or 51. Only 0 changes the row that is lent. */
static inline uint64_t trivsome_board_ask(const trivsome_board *board, const uint8_t code[6], trivsome_row *row)
{
    uint8_t bytes[9] = {0};
    uint64_t time = 0;
    uint32_t amounts[23] = {0};
    uint64_t outcome = trivsome_board_ask_numbers(board->heads, TRIVSOME_BOARD_ROWS, board->cells, TRIVSOME_BOARD_CELLS, code, bytes, &time, amounts);
    if (outcome == 0)
        trivsome_row_of(bytes, time, amounts, row);
    return outcome;
}

/* The row at a place, from 0 for the stock that came first: 0 or 51. Quotes leave no free row before one in use, so this goes
 * over all of them:
 *
 *   for (size_t place = 0; trivsome_board_row(&board, place, &row) == 0; place++) .. */
static inline uint64_t trivsome_board_row(const trivsome_board *board, size_t place, trivsome_row *row)
{
    uint8_t bytes[9] = {0};
    uint64_t time = 0;
    uint32_t amounts[23] = {0};
    uint64_t outcome = trivsome_board_row_numbers(board->heads, TRIVSOME_BOARD_ROWS, board->cells, TRIVSOME_BOARD_CELLS, place, bytes, &time, amounts);
    if (outcome == 0)
        trivsome_row_of(bytes, time, amounts, row);
    return outcome;
}

/* How many rows are in use: 0, and the figure. */
static inline uint64_t trivsome_board_in_use(const trivsome_board *board)
{
    return trivsome_board_rows(board->heads, TRIVSOME_BOARD_ROWS, board->cells, TRIVSOME_BOARD_CELLS);
}

/* The payload at a place of a capture, from 1, where it stands: 0, 34 or 33. Only 0 changes the pointer that is lent; it then leads
 * to the payload, which has trivsome_length bytes, 0 where the block is unfinished or there is no such place. So this goes over
 * all payloads:
 *
 *   for (size_t place = 1; trivsome_length(trivsome_capture_payload_at(capture, size, place, &bytes)) != 0; place++) .. */
static inline uint64_t trivsome_capture_payload_at(const uint8_t *capture, size_t size, size_t place, const uint8_t **bytes)
{
    uint64_t outcome = trivsome_capture_payload(capture, size, place);
    if (trivsome_answer(outcome) == 0)
        *bytes = capture + trivsome_start(outcome);
    return outcome;
}

/* ------------------------------------------------------------------------------------------------------------------------
 * Packed digits: a byte holds two, the high half first; a half above 9 is a bad digit. Whoever reads many bytes fills a table
 * once and looks them up in it, table[byte], which is one load; trivsome_two_digits brings the table along at every call (about
 * 16 ns on an Arm Neoverse V1). That the first half of a price is 0 is a rule of that field, and not of the table.
 */

/* What stands for a byte with a bad digit. */
#define TRIVSOME_BAD_DIGIT 255

/* The number of a byte's two digits, 0 to 99, or TRIVSOME_BAD_DIGIT. */
uint8_t trivsome_two_digits(uint8_t byte);

/* Fills a table: at the place of every byte is then what trivsome_two_digits answers of it. */
void trivsome_digit_table(uint8_t table[256]);

#ifdef __cplusplus
}
#endif

#endif
