use trivsome::*;

use crate::frames::{around, no_frame, not_read, prices, quote, refused, HALT, NOTICE};

fn number(line: &[u8]) -> u8 {
    read(line, 0).number()
}

#[test]
fn there_are_too_few_bytes_or_none() {
    assert_eq!(read(&[], 0).answer(), no_frame(2));
    assert_eq!(number(&[0x1B, 0x0A]), 2);
    assert_eq!(number(&NOTICE[..13]), 2);
    assert_eq!(read(&NOTICE, 14).answer(), no_frame(2));
    assert_eq!(read(&NOTICE, usize::MAX).answer(), no_frame(2));
}

#[test]
fn a_bad_start_and_a_bad_length() {
    assert_eq!(number(&[0x41]), 1);
    assert_eq!(number(&[0x1B, 0x0A, 0x14]), 3);
    assert_eq!(number(&[0x1B, 0x00, 0x13]), 3);
    assert_eq!(number(&[0x1B, 0x10, 0x25]), 3);
    assert_eq!(number(&[0x1B, 0x10, 0x24]), 2);
}

#[test]
fn the_smallest_notice() {
    let (frame, notice) = read_notice(&NOTICE, 0).expect("accepted");
    assert_eq!(frame, Frame { format: 5, seq: 1, length: 14 });
    assert_eq!((notice.seq, notice.category, notice.text()), (1, 9, &[][..]));
    assert_eq!(Notice::new(1, 9, b""), Some(notice));
}

#[test]
fn its_end_and_its_check_byte() {
    let mut other = NOTICE;
    other[11] = 0x18;
    assert_eq!(read(&other, 0).answer(), no_frame(5));
    other = NOTICE;
    other[13] = 0x0B;
    assert_eq!(read(&other, 0).answer(), no_frame(4));
}

#[test]
fn refusals_tell_the_length() {
    let answer = |format, version, body: &[u8]| read(&around(format, version, body), 0).answer();
    assert_eq!(answer(0x0A, 1, &[0x09]), Answer::Refused { number: 6, length: 14, bad_half: Some(9) });
    assert_eq!(answer(0x07, 1, &[0x09]), refused(7, 14));
    assert_eq!(answer(0x05, 2, &[0x09]), refused(8, 14));
    assert_eq!(answer(0x19, 1, &[0x09]), refused(9, 14));
    assert_eq!(answer(0x05, 1, &[0x0A]), Answer::Refused { number: 11, length: 14, bad_half: Some(21) });
    assert_eq!(answer(0x05, 1, &[0x08, 0x41]), refused(13, 15));
    let mut halt = HALT[10..23].to_vec();
    halt[6] = 0x24;
    assert_eq!(answer(0x19, 1, &halt), refused(12, 26));
}

#[test]
fn a_halt_that_is_still_open() {
    let (frame, halt) = read_halt(&HALT, 0).expect("accepted");
    assert_eq!(frame, Frame { format: 19, seq: 1, length: 26 });
    let event = Event::Halted(100_500, Resume::Open);
    assert_eq!(halt, Halt { seq: 1, code: Code(*b"1234  "), event, state: Sending::Instant });
    assert!(!halt.is_whole_market());
}

#[test]
fn a_round_end_says_how_many_records_it_had() {
    let mut body = b"000123".to_vec();
    body.extend([0x99, 0x99, 0x99, 0x99, 0x99, 0x99, b'C']);
    let (_, halt) = read_halt(&around(0x19, 1, &body), 0).expect("accepted");
    assert_eq!(halt, Halt { seq: 7, code: Code(*b"000123"), event: Event::RoundEnd(123), state: Sending::Cycle });
}

#[test]
fn the_reveal_byte_gives_the_pairs_and_the_length() {
    let (frame, read) = read_quote(&quote(0xA2, 4), 0).expect("accepted");
    let pair = |k: u32| Pair { price: Price(k), quantity: Quantity(10 * k) };
    assert_eq!(frame, Frame { format: 6, seq: 7, length: 68 });
    assert_eq!((read.code, read.time, read.total), (Code(*b"2330  "), 90_415_061_278, Quantity(12_345)));
    assert_eq!((read.reveal, read.limit, read.status), (0xA2, 1, 2));
    assert_eq!(read.trade(), Some(pair(1)));
    assert_eq!(read.bids(), Some(&[pair(2), pair(3)][..]));
    assert_eq!(read.asks(), Some(&[pair(4)][..]));
    assert!(read.bids[2..].iter().chain(&read.asks[1..]).all(|&pair| pair == Pair::default()));
}

#[test]
fn all_pairs_none_and_too_many() {
    let (frame, all) = read_quote(&quote(0xDA, 11), 0).expect("accepted");
    assert_eq!((frame.length, all.asks[4].price), (131, Price(11)));
    let (frame, none) = read_quote(&quote(0x00, 0), 0).expect("accepted");
    assert_eq!((frame.length, none.trade(), none.bids(), none.asks()), (32, None, Some(&[][..]), Some(&[][..])));
    assert_eq!(read_quote(&quote(0x60, 6), 0), Err(not_read(10, 86)));
    assert_eq!(read_quote(&quote(0xA2, 3), 0), Err(not_read(9, 59)));
}

#[test]
fn levels_that_are_not_shown_are_not_none() {
    // only the trade is sent
    let (frame, read) = read_quote(&quote(0x81, 1), 0).expect("accepted");
    assert_eq!((frame.length, read.reveal, read.limit, read.status, read.total), (41, 0x81, 1, 2, Quantity(12_345)));
    assert_eq!(read.trade(), Some(Pair { price: Price(1), quantity: Quantity(10) }));
    assert_eq!((read.shows_levels(), read.bids(), read.asks()), (false, None, None));
    assert_eq!((read.bids, read.asks), ([Pair::default(); 5], [Pair::default(); 5]));
    // and not even that
    let (frame, read) = read_quote(&quote(0x01, 0), 0).expect("accepted");
    assert_eq!((frame.length, read.trade(), read.bids(), read.asks()), (32, None, None, None));
    // a trade and two sides that are empty
    let (_, none) = read_quote(&quote(0x80, 1), 0).expect("accepted");
    assert_eq!((none.shows_levels(), none.bids(), none.asks()), (true, Some(&[][..]), Some(&[][..])));
}

#[test]
fn levels_where_none_are_shown_answer_10() {
    let why = |reveal, pairs| read_quote(&quote(reveal, pairs), 0).expect_err("refused");
    // an ask, a bid, both, all; with a trade and without; with as many pairs as the counts say
    for (reveal, pairs) in [(0x03, 1), (0x11, 1), (0x13, 2), (0x83, 2), (0x91, 2), (0xA3, 4), (0x5B, 10), (0xDB, 11)] {
        assert_eq!(why(reveal, pairs), not_read(10, 32 + 9 * usize::from(pairs)));
    }
    // before the length that the reveal byte gives, and behind the lengths of the format
    assert_eq!(why(0xA3, 0), not_read(10, 32));
    assert_eq!(why(0xA3, 12), not_read(9, 140));
    assert_eq!(why(0x81, 0), not_read(9, 32));
    assert_eq!(why(0x01, 1), not_read(9, 41));
    // before a bad digit and a wrong time, which with the levels shown answer
    for (at, byte, number, bad_half) in [(15, 0x0A, 11, Some(51)), (6, 0x24, 12, None)] {
        let mut body = quote(0x11, 1)[10..38].to_vec();
        body[at] = byte;
        assert_eq!(read(&around(6, 4, &body), 0).answer(), refused(10, 41));
        body[12] = 0x10;
        assert_eq!(read(&around(6, 4, &body), 0).answer(), Answer::Refused { number, length: 41, bad_half });
    }
}

#[test]
fn prices_of_one_stock() {
    let frame = prices([1, 3, 0, 2]);
    let (_, prices) = read_prices(&frame, 0).expect("accepted");
    let [opening, highest, lowest, last] = [1, 3, 0, 2].map(|last| Price(900_000_000 + last));
    let amounts = Amounts { opening, highest, lowest, last, total: Quantity(99_999_999) };
    let slot = Slot { code: Code(*b"2330  "), amounts, time: LONG_NINES };
    assert_eq!(prices, Prices::new(7, &[slot]));
    assert!(prices.slots().eq([slot]) && slot.is_closing());
    let mut buffer = [0; 374];
    assert_eq!(write_prices(&prices, &mut buffer), Ok(374));
    assert_eq!(buffer[..], frame);
}

fn word<M>(told: Result<(Frame, M), impl std::error::Error>) -> String {
    told.map_or_else(|why| why.to_string(), |_| "read".into())
}

/// What each of the four readers says of a line, in words.
fn words(line: &[u8]) -> [String; 4] {
    [word(read_notice(line, 0)), word(read_quote(line, 0)), word(read_prices(line, 0)), word(read_halt(line, 0))]
}

#[test]
fn a_frame_of_another_format_is_said_to_be_one() {
    let (five, six, nineteen) = ("another format: 5", "another format: 6", "another format: 19");
    assert_eq!(words(&NOTICE), ["read", five, five, five]);
    assert_eq!(words(&quote(0xA2, 4)), [six, "read", six, six]);
    assert_eq!(words(&HALT), [nineteen, nineteen, nineteen, "read"]);
    assert_eq!(words(&NOTICE[..13]), ["2: there are too few bytes"; 4]);
    assert_eq!(words(&quote(0x60, 6)), ["10: a level count of 6 or 7, or levels where only the trade is sent"; 4]);
}

#[test]
fn a_frame_of_another_format_is_told_and_leaves_what_was_lent() {
    let frame = Frame { format: 19, seq: 1, length: 26 };
    let other = NotRead::OtherFormat(frame);
    assert_eq!(read_quote(&HALT, 0), Err(other));
    assert_eq!(other.answer(), read(&HALT, 0).answer());
    assert!(matches!(read_message(&HALT, 0), Ok((told, Message::Halt(_))) if told == frame));
    let mut notice = Notice::new(5, 6, b"lent").expect("short");
    let mut quote = Quote { seq: 5, reveal: 1, ..Quote::default() };
    let mut prices = Prices { seq: 5, count: 1, ..Prices::default() };
    let before = (notice, quote, prices);
    assert_eq!(read_notice_into(&HALT, 0, &mut notice), Err(other));
    assert_eq!(read_quote_into(&HALT, 0, &mut quote), Err(other));
    assert_eq!(read_prices_into(&HALT, 0, &mut prices), Err(other));
    assert_eq!((notice, quote, prices), before);
    let lent = Halt { seq: 5, ..Halt::default() };
    let mut halt = lent;
    let other = NotRead::OtherFormat(Frame { format: 5, seq: 1, length: 14 });
    assert_eq!(read_halt_into(&NOTICE, 0, &mut halt), Err(other));
    assert_eq!(halt, lent);
    assert_eq!(read_halt_into(&HALT, 0, &mut halt), Ok(frame));
}

#[test]
fn a_refusal_leaves_what_was_lent() {
    let lent = Quote { seq: 5, time: 6, code: Code(*b"ABCDEF"), reveal: 7, total: Quantity(8), ..Quote::default() };
    let mut quote = lent;
    assert_eq!(read_quote_into(&NOTICE[..13], 0, &mut quote), Err(NotRead::NoFrame { number: 2, bad_half: None }));
    assert_eq!(quote, lent);
}
