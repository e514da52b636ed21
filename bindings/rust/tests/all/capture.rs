use trivsome::*;

const BLOCK: usize = 512;

/// A payload of its own for each place, the shortest and the longest among them.
fn payload_of(place: usize) -> Vec<u8> {
    let length = [1, 504, 2, 503, 255, 256, 300][place % 7];
    (0..length).map(|at| (place * 31 + at * 7) as u8).collect()
}

/// A capture in which the blocks up to a place are finished.
fn filled(places: usize) -> Capture {
    let mut capture = Capture::new();
    for place in 1..=places {
        assert_eq!(capture.append(&payload_of(place)), Ok(place));
    }
    capture
}

/// So many blocks are finished, and the payloads are theirs.
fn holds(capture: &Capture, places: usize) {
    assert_eq!(capture.finished(), Ok(places));
    let payloads = capture.payloads().expect("none is bad");
    assert_eq!(payloads.len(), places);
    assert!(payloads.eq((1..=places).map(payload_of)));
    for none in [0, places + 1, 129, 257, usize::MAX] {
        assert_eq!(capture.payload(none), Ok(&[][..]), "{none}");
    }
}

/// Changed so, a capture has its first bad block at a place: every call says so, and leaves it.
fn bad(places: usize, change: impl FnOnce(&mut [u8]), place: usize) {
    let mut bytes = *filled(places).bytes();
    change(&mut bytes);
    let (mut capture, why) = (Capture::from_bytes(&bytes), BadBlock { place });
    assert_eq!(capture.finished(), Err(why));
    assert_eq!(capture.payloads().err(), Some(why));
    for any in [0, 1, 128, 129, usize::MAX] {
        assert_eq!(capture.payload(any), Err(why), "{any}");
    }
    assert_eq!(capture.append(b"any"), Err(NotAppended::Bad(why)));
    assert_eq!(capture.append_cut(b"any", 300), Err(NotAppended::Bad(why)));
    assert_eq!(capture.append(b""), Err(NotAppended::Payload));
    assert!(*capture.bytes() == bytes, "a byte changed");
    capture.clear();
    assert_eq!(capture, Capture::new());
}

/// Puts the check of a block right: both sums reduced after each byte.
fn seal(block: &mut [u8]) {
    let (mut first, mut second) = (0, 0);
    for &byte in &block[..510] {
        first = (first + u32::from(byte)) % 255;
        second = (second + first) % 255;
    }
    block[510..].copy_from_slice(&[first as u8, second as u8]);
}

#[test]
fn zeros_are_a_fresh_capture() {
    let capture = Capture::new();
    assert!(capture.bytes().iter().all(|&byte| byte == 0));
    assert_eq!(capture, Capture::from_bytes(&[0; 65_536]));
    assert_eq!((Capture::SIZE, Capture::BLOCKS, Capture::MOST), (65_536, 128, 504));
    holds(&capture, 0);
}

#[test]
fn a_block_as_it_stands() {
    let mut capture = filled(6);
    assert_eq!(capture.append(b"\x1B\x00\x14"), Ok(7));
    let block = &capture.bytes()[6 * BLOCK..][..BLOCK];
    assert_eq!(block[..10], [0, 0, 0, 7, 0, 3, 0x1B, 0x00, 0x14, 0]);
    let mut expected = block.to_vec();
    seal(&mut expected);
    assert_eq!(block, expected);
    assert_eq!(capture.payload(7), Ok(&b"\x1B\x00\x14"[..]));
}

#[test]
fn until_it_is_full() {
    let mut capture = filled(128);
    holds(&capture, 128);
    let before = capture.clone();
    assert_eq!(capture.append(b"one more"), Err(NotAppended::Full));
    assert_eq!(capture.append_cut(b"one more", 1), Err(NotAppended::Full));
    assert_eq!(capture.append(&[]), Err(NotAppended::Payload));
    assert!(capture == before);
    let kept = Capture::from_bytes(capture.bytes());
    assert_eq!(kept, capture);
    holds(&kept, 128);
    capture.clear();
    holds(&capture, 0);
}

#[test]
fn payloads_that_are_too_short_or_too_long() {
    let mut capture = filled(1);
    for wrong in [0, 505, 512, 65_536] {
        assert_eq!(capture.append(&vec![1; wrong]), Err(NotAppended::Payload), "{wrong}");
    }
    assert_eq!(capture, filled(1));
    for (length, place) in [(1, 2), (503, 3), (504, 4)] {
        assert_eq!(capture.append(&vec![0; length]), Ok(place));
        assert_eq!(capture.payload(place), Ok(&vec![0; length][..]));
    }
}

#[test]
fn a_cut_after_every_store() {
    for places in [0, 3, 127] {
        let (before, after) = (filled(places), filled(places + 1));
        let mut torn = before.clone();
        for stores in 0..512 {
            let mut capture = before.clone();
            for capture in [&mut capture, &mut torn] {
                assert_eq!(capture.append_cut(&payload_of(places + 1), stores), Ok(places + 1));
                assert_eq!(capture.finished(), Ok(places), "{stores}");
                assert_eq!(capture.payload(places + 1), Ok(&[][..]));
            }
            assert_eq!(capture.append(&payload_of(places + 1)), Ok(places + 1));
            assert!(capture == after, "after {stores} stores");
        }
        holds(&torn, places);
        for all in [512, 513, usize::MAX] {
            let mut capture = before.clone();
            assert_eq!(capture.append_cut(&payload_of(places + 1), all), Ok(places + 1));
            assert!(capture == after, "after {all} stores");
        }
        assert_eq!(torn.append(&payload_of(places + 1)), Ok(places + 1));
        assert!(torn == after);
    }
}

#[test]
fn bad_blocks() {
    bad(7, |bytes| bytes[6 * BLOCK] = 1, 7);
    bad(7, |bytes| bytes[7 * BLOCK] = 1, 8);
    bad(128, |bytes| bytes[6 * BLOCK + 3] = 0, 8);
    bad(3, |bytes| bytes.copy_within(BLOCK..2 * BLOCK, 3 * BLOCK), 4);
    bad(2, |bytes| bytes[BLOCK + 511] ^= 1, 2);
    bad(2, |bytes| bytes[BLOCK + 6] ^= 1, 2);
    let sealed = |at: usize, value: u8| {
        move |bytes: &mut [u8]| {
            let block = &mut bytes[BLOCK..2 * BLOCK];
            block[at] = value;
            seal(block);
        }
    };
    bad(2, sealed(3, 3), 2);
    bad(2, sealed(5, 0), 2);
    bad(2, sealed(4, 2), 2);
    bad(2, sealed(509, 1), 2);
}

#[test]
fn refusals_in_words() {
    let all = [NotAppended::Payload, NotAppended::Bad(BadBlock { place: 7 }), NotAppended::Full];
    assert_eq!(all.map(NotAppended::number), [31, 33, 32]);
    let words = all.map(|why| why.to_string());
    assert_eq!(words[0], "31: the payload is empty or has more than 504 bytes");
    assert_eq!(words[1], "33: block 7 is bad");
    assert_eq!(words[2], "32: all blocks are finished");
    assert_eq!((BadBlock { place: 7 }).number(), 33);
    assert_eq!(NotAppended::from(BadBlock { place: 7 }), all[1]);
    assert_eq!(format!("{:?}", filled(2)), "Capture { finished: Ok(2), .. }");
}
