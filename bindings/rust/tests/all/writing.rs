use trivsome::*;

use crate::frames::{quote, HALT, NOTICE};

#[test]
fn a_message_that_was_read_is_written_as_its_frame() {
    for frame in [NOTICE.to_vec(), HALT.to_vec(), quote(0xA2, 4), quote(0xDA, 11), quote(0x81, 1), quote(0x01, 0)] {
        let (_, message) = read_message(&frame, 0).expect("accepted");
        let mut buffer = vec![0xEE; frame.len() + 1];
        assert_eq!(write(&message, &mut buffer), Ok(frame.len()));
        assert_eq!(buffer[..frame.len()], frame);
        assert_eq!(buffer[frame.len()], 0xEE);
    }
}

#[test]
fn a_short_buffer_stays_as_it_came() {
    let (_, halt) = read_halt(&HALT, 0).expect("accepted");
    let mut buffer = [0xEE; 25];
    assert_eq!(write_halt(&halt, &mut buffer), Err(NotWritten::Buffer));
    assert_eq!(buffer, [0xEE; 25]);
    assert_eq!(write_text(1, 9, b"", &mut []).map_err(NotWritten::number), Err(15));
}

#[test]
fn a_message_that_breaks_a_rule_answers_14_first() {
    let mut buffer = [0xEE; 80];
    let mut number = |seq, category, text: &[u8], room| {
        let answer = write_text(seq, category, text, &mut buffer[..room]);
        assert!(answer.is_ok() || buffer == [0xEE; 80]);
        answer.map_err(NotWritten::number)
    };
    assert_eq!(number(1, 9, &[b'x'; 61], 80), Err(14));
    assert_eq!(number(1, 9, &[b'x'; 61], 0), Err(14));
    assert_eq!(number(1, 8, b"", 80), Err(14));
    assert_eq!(number(100_000_000, 9, b"", 80), Err(14));
    assert_eq!(number(99_999_999, 99, &[b'x'; 60], 73), Err(15));
    assert_eq!(number(99_999_999, 99, &[b'x'; 60], 74), Ok(74));
    assert_eq!(Notice::new(1, 9, &[b'x'; 61]), None);
}

#[test]
fn a_resume_at_nines_is_not_one_that_is_open() {
    let mut buffer = [0; 26];
    let mut halt = Halt { seq: 1, code: Code(*b"1234  "), event: Event::RoundEnd(1234), state: Sending::Instant };
    assert_eq!(write_halt(&halt, &mut buffer), Err(NotWritten::Message));
    halt.event = Event::Halted(100_500, Resume::At(SHORT_NINES));
    assert_eq!(write_halt(&halt, &mut buffer), Err(NotWritten::Message));
    halt.event = Event::Halted(100_500, Resume::Open);
    assert_eq!(write_halt(&halt, &mut buffer), Ok(26));
    assert_eq!(buffer, HALT);
}

#[test]
fn an_unused_level_is_zero() {
    let (_, mut read) = read_quote(&quote(0xA2, 4), 0).expect("accepted");
    read.asks[1].quantity = Quantity(1);
    assert_eq!(write_quote(&read, &mut [0; 131]), Err(NotWritten::Message));
}

#[test]
fn levels_are_not_written_where_none_are_shown() {
    let (_, read) = read_quote(&quote(0xA2, 4), 0).expect("accepted");
    let none = [Pair::default(); 5];
    let wrong = [
        Quote { reveal: 0xA3, ..read },
        Quote { reveal: 0xA1, asks: none, ..read },
        Quote { reveal: 0x83, bids: none, ..read },
        Quote { reveal: 0x11, trade: none[0], bids: none, asks: none, ..read },
        // levels that the counts leave unused
        Quote { reveal: 0x81, asks: none, ..read },
        Quote { reveal: 0x81, bids: none, ..read },
    ];
    for message in wrong {
        let mut buffer = [0xEE; 131];
        assert_eq!(write_quote(&message, &mut buffer), Err(NotWritten::Message));
        assert_eq!(write_quote(&message, &mut []), Err(NotWritten::Message));
        assert_eq!(buffer, [0xEE; 131]);
    }
}

#[test]
fn levels_not_shown_are_never_read_back_as_none() {
    let (_, read) = read_quote(&quote(0x80, 1), 0).expect("accepted");
    for (reveal, trade) in [(0x80, read.trade), (0x00, Pair::default())] {
        let empty = Quote { reveal, trade, ..read };
        let not_shown = Quote { reveal: reveal | 1, ..empty };
        let [empty, not_shown] = [empty, not_shown].map(|message| {
            let mut buffer = [0; 131];
            let length = write_quote(&message, &mut buffer).expect("written");
            let (frame, again) = read_quote(&buffer, 0).expect("accepted");
            assert_eq!((frame.length, again), (length, message));
            again
        });
        assert_eq!((empty.bids(), empty.asks()), (Some(&[][..]), Some(&[][..])));
        assert_eq!((not_shown.bids(), not_shown.asks()), (None, None));
        assert_eq!(empty.trade(), not_shown.trade());
        assert_ne!(empty, not_shown);
    }
}

#[test]
fn eleven_slots_are_too_many() {
    let slot = Slot { code: Code(*b"2330  "), amounts: Amounts::default(), time: 0 };
    assert_eq!(write_prices(&Prices::new(1, &[slot; 11]), &mut [0; 374]), Err(NotWritten::Message));
    assert_eq!(write_prices(&Prices::new(1, &[]), &mut [0; 374]), Err(NotWritten::Message));
    assert_eq!(write_prices(&Prices::new(1, &[slot; 10]), &mut [0; 374]), Ok(374));
}
