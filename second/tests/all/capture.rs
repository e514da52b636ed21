//! The capture: known sums, each kind of bad block, the order of refusals, and every append cut after each of its stores.

use second::capture::{append, clear, finished, fletcher, payload, stores, Refusal, BLOCK, BYTES, MOST, PLACES};
use second::random::Random;

fn fresh() -> Vec<u8> {
    vec![0; BYTES]
}

/// A payload of its own for each place: of any length, the least and the greatest among them, and of any bytes.
fn payload_of(place: usize) -> Vec<u8> {
    let length = [1, MOST, 2, 503, 255, 256, place * 4 - 3][place % 7].min(MOST);
    let mut random = Random::new(place as u64);
    (0..length).map(|_| random.byte()).collect()
}

/// A capture in which the blocks up to a place are finished.
fn filled(places: usize) -> Vec<u8> {
    let mut memory = fresh();
    for place in 1..=places {
        assert_eq!(append(&mut memory, &payload_of(place)), Ok(place));
    }
    memory
}

/// The same, and every block behind has any bytes and the number 0.
fn torn(places: usize, random: &mut Random) -> Vec<u8> {
    let mut memory = filled(places);
    for block in memory.chunks_exact_mut(BLOCK).skip(places) {
        block[4..].fill_with(|| random.byte());
    }
    memory
}

/// A place's block.
fn block(memory: &mut [u8], place: usize) -> &mut [u8] {
    memory.chunks_exact_mut(BLOCK).nth(place - 1).unwrap()
}

/// Puts the check bytes of a block right, so that it has only the fault that was put in.
fn seal(block: &mut [u8]) {
    let check = plain_sums(&block[..510]);
    block[510..].copy_from_slice(&check);
}

/// The sums, reduced after each byte.
fn plain_sums(bytes: &[u8]) -> [u8; 2] {
    let (mut first, mut second) = (0_u16, 0_u16);
    for &byte in bytes {
        first = (first + u16::from(byte)) % 255;
        second = (second + first) % 255;
    }
    [first as u8, second as u8]
}

/// Every call answers this refusal and changes nothing.
fn refused(memory: &[u8], why: Refusal) {
    assert_eq!(finished(memory), Err(why));
    for place in [0, 1, 2, 128, 129, usize::MAX] {
        assert_eq!(payload(memory, place), Err(why), "{place}");
    }
    not_appended(memory, b"any", why);
}

fn not_appended(memory: &[u8], payload: &[u8], why: Refusal) {
    let mut after = memory.to_vec();
    assert_eq!(append(&mut after, payload), Err(why));
    assert!(after == memory, "a byte changed");
    assert_eq!(stores(memory, payload), Err(why));
}

/// A capture with these finished blocks and a fault put into one answers 33 with a place.
fn bad(places: usize, faulty: usize, fault: impl Fn(&mut [u8]), answer: usize) {
    let mut memory = filled(places);
    fault(block(&mut memory, faulty));
    refused(&memory, Refusal::Bad(answer));
}

#[test]
fn known_sums() {
    assert_eq!(fletcher(b""), [0, 0]);
    assert_eq!(fletcher(b"\x01\x02"), [3, 4]);
    assert_eq!(fletcher(b"abcde"), [0xF0, 0xC8]);
    assert_eq!(fletcher(b"abcdef"), [0x57, 0x20]);
    assert_eq!(fletcher(b"abcdefgh"), [0x27, 0x06]);
}

#[test]
fn sums_are_below_255() {
    assert_eq!(fletcher(&[254]), [254, 254]);
    assert_eq!(fletcher(&[255]), [0, 0]);
    assert_eq!(fletcher(&[254, 1]), [0, 254]);
    assert_eq!(fletcher(&[1, 253]), [254, 0]);
    assert_eq!(fletcher(&[255; 510]), [0, 0]);
}

#[test]
fn sums_of_any_length() {
    let mut random = Random::new(6);
    let bytes: Vec<u8> = (0..100_000).map(|_| random.byte()).collect();
    for length in [1, 509, 510, 511, 512, 513, 1_024, 5_803, 65_536, 100_000] {
        assert_eq!(fletcher(&bytes[..length]), plain_sums(&bytes[..length]), "{length}");
        assert_eq!(fletcher(&vec![255; length]), [0, 0], "{length}");
        assert_eq!(fletcher(&vec![254; length]), plain_sums(&vec![254; length]), "{length}");
    }
}

#[test]
fn blocks_by_hand() {
    let mut memory = fresh();
    assert_eq!(append(&mut memory, &[253]), Ok(1));
    assert_eq!(append(&mut memory, &[7; 504]), Ok(2));
    // The first sum is 1 + 1 + 253 = 255, so 0. The byte at i adds 510 - i times to the second: 507 + 505 + 504 * 253.
    let mut first = [0; BLOCK];
    (first[3], first[5], first[6], first[510], first[511]) = (1, 1, 253, 0, 4);
    // 2 + 1 + 248 + 504 * 7 = 3,779; 507 * 2 + 506 + 505 * 248 + 7 * (504 * 505 / 2) = 1,017,580
    let mut second = [7; BLOCK];
    second[..6].copy_from_slice(&[0, 0, 0, 2, 1, 0xF8]);
    (second[510], second[511]) = (209, 130);
    assert_eq!(memory[..512], first);
    assert_eq!(memory[512..1_024], second);
    assert!(memory[1_024..].iter().all(|&byte| byte == 0));
}

#[test]
fn a_fresh_capture() {
    let mut memory = vec![0xA5; BYTES];
    refused(&memory, Refusal::Bad(1));
    assert_eq!(clear(&mut memory), Ok(()));
    assert!(memory == fresh());
    assert_eq!(finished(&memory), Ok(0));
    for place in 0..=130 {
        assert_eq!(payload(&memory, place), Ok(&[][..]));
    }
}

#[test]
fn one_after_another() {
    let mut memory = fresh();
    for place in 1..=PLACES {
        let before = memory.clone();
        assert_eq!(append(&mut memory, &payload_of(place)), Ok(place));
        assert_eq!(finished(&memory), Ok(place));
        let (start, end) = ((place - 1) * BLOCK, place * BLOCK);
        assert!(memory[..start] == before[..start] && memory[end..] == before[end..], "{place}");
    }
    for place in 1..=PLACES {
        assert_eq!(payload(&memory, place), Ok(&payload_of(place)[..]));
    }
    for place in [0, 129, 130, 256, 1 << 32, usize::MAX] {
        assert_eq!(payload(&memory, place), Ok(&[][..]));
    }
    not_appended(&memory, b"any", Refusal::Full);
}

#[test]
fn appending_does_its_stores() {
    let mut random = Random::new(1);
    for places in [0, 1, 2, 77, 127] {
        let before = torn(places, &mut random);
        let new = payload_of(places + 1);
        let list = stores(&before, &new).unwrap();
        let start = places * BLOCK;
        assert_eq!(list[BLOCK - 1], (start + 3, places as u8 + 1));
        let mut offsets: Vec<usize> = list.iter().map(|store| store.0).collect();
        offsets.sort();
        assert!(offsets.into_iter().eq(start..start + BLOCK));
        let (mut stored, mut appended) = (before.clone(), before);
        for (offset, byte) in list {
            stored[offset] = byte;
        }
        assert_eq!(append(&mut appended, &new), Ok(places + 1));
        assert!(stored == appended, "{places}");
    }
}

/// Power goes after each store: the next append is as if the cut one had not been.
fn cut(before: &[u8], places: usize) {
    let new = payload_of(places + 1);
    let mut appended = before.to_vec();
    assert_eq!(append(&mut appended, b"after the cut"), Ok(places + 1));
    let mut memory = before.to_vec();
    for (offset, byte) in stores(before, &new).unwrap() {
        assert_eq!(finished(&memory), Ok(places));
        assert_eq!(payload(&memory, places + 1), Ok(&[][..]));
        assert_eq!(payload(&memory, places).unwrap().is_empty(), places == 0);
        assert!(memory[..places * BLOCK] == before[..places * BLOCK]);
        let mut again = memory.clone();
        assert_eq!(append(&mut again, b"after the cut"), Ok(places + 1));
        assert!(again == appended, "before the store at {offset}");
        memory[offset] = byte;
    }
    assert_eq!(finished(&memory), Ok(places + 1));
    assert_eq!(payload(&memory, places + 1), Ok(&new[..]));
}

#[test]
fn a_cut_after_every_store() {
    let mut random = Random::new(2);
    for places in [0, 1, 6, 127] {
        cut(&filled(places), places);
        cut(&torn(places, &mut random), places);
    }
}

#[test]
fn cuts_one_after_another() {
    for seed in 0..4 {
        let mut random = Random::new(seed);
        let (mut memory, mut kept) = (fresh(), Vec::new());
        while kept.len() < PLACES {
            let length = random.within(1..=MOST);
            let new: Vec<u8> = (0..length).map(|_| random.byte()).collect();
            let list = stores(&memory, &new).unwrap();
            let done = if random.one_in(2) { BLOCK } else { random.within(0..=BLOCK) };
            for &(offset, byte) in &list[..done] {
                memory[offset] = byte;
            }
            if done == BLOCK {
                kept.push(new);
            }
            assert_eq!(finished(&memory), Ok(kept.len()));
        }
        for (place, kept) in (1..).zip(&kept) {
            assert_eq!(payload(&memory, place), Ok(&kept[..]));
        }
        not_appended(&memory, b"any", Refusal::Full);
    }
}

#[test]
fn unfinished_blocks_of_any_bytes() {
    let mut random = Random::new(3);
    for places in [0, 1, 64, 127, 128] {
        let mut memory = torn(places, &mut random);
        assert_eq!(finished(&memory), Ok(places));
        for place in 1..=130 {
            let expected = if place <= places { payload_of(place) } else { Vec::new() };
            assert_eq!(payload(&memory, place), Ok(&expected[..]));
        }
        if places < PLACES {
            let before = memory.clone();
            assert_eq!(append(&mut memory, &payload_of(places + 1)), Ok(places + 1));
            let end = (places + 1) * BLOCK;
            assert!(memory[..end] == filled(places + 1)[..end] && memory[end..] == before[end..], "{places}");
        }
    }
    // all of a block but its number
    let mut memory = filled(1);
    block(&mut memory, 1)[3] = 0;
    assert_eq!((finished(&memory), payload(&memory, 1)), (Ok(0), Ok(&[][..])));
}

#[test]
fn numbers_of_another_place() {
    for place in [1, 2, 100, 128] {
        let shifted = [place << 8, place << 16, place << 24];
        let numbers = [1, 2, 127, 128, 129, 255, 256, 256 + place, 1 << 24 | place].into_iter().chain(shifted);
        for number in numbers.filter(|&number| number != place) {
            let renumber = |block: &mut [u8]| {
                block[..4].copy_from_slice(&(number as u32).to_be_bytes());
                seal(block);
            };
            bad(place, place, renumber, place);
            bad(128, place, renumber, place);
        }
    }
    // a whole block at another place
    let mut memory = filled(3);
    memory.copy_within(BLOCK..2 * BLOCK, 3 * BLOCK);
    refused(&memory, Refusal::Bad(4));
}

#[test]
fn behind_an_unfinished_block() {
    bad(2, 1, |block| block[..4].fill(0), 2);
    bad(2, 1, |block| block.fill(0), 2);
    bad(128, 60, |block| block[..4].fill(0), 61);
    bad(128, 127, |block| block[..4].fill(0), 128);
    let mut memory = filled(5);
    block(&mut memory, 2).fill(0);
    block(&mut memory, 3).fill(0);
    refused(&memory, Refusal::Bad(4));
}

#[test]
fn used_bytes_out_of_range() {
    for (place, used) in [(1, 0_u16), (1, 505), (3, 0), (3, 505), (3, 511), (3, 512), (128, 0x8001), (3, 65_535)] {
        let fault = |block: &mut [u8]| {
            block[4..6].copy_from_slice(&used.to_be_bytes());
            block[6..510].fill(0);
            seal(block);
        };
        bad(place, place, fault, place);
    }
}

#[test]
fn bytes_behind_the_used_ones() {
    for (used, at, byte) in [(1, 7, 1), (1, 509, 1), (1, 300, 255), (503, 509, 128), (255, 261, 1), (256, 262, 1)] {
        let mut memory = filled(4);
        assert_eq!(append(&mut memory, &vec![9; used]), Ok(5));
        block(&mut memory, 5)[at] = byte;
        seal(block(&mut memory, 5));
        refused(&memory, Refusal::Bad(5));
    }
}

#[test]
fn wrong_check_bytes() {
    for at in [510, 511] {
        for bit in 0..8 {
            bad(2, 2, |block| block[at] ^= 1 << bit, 2);
        }
    }
    bad(2, 2, |block| block[510..].reverse(), 2);
    bad(2, 2, |block| block[510..].fill(0), 2);
}

#[test]
fn any_byte_changed() {
    for at in 0..BLOCK {
        bad(3, 2, |block| block[at] ^= 0x10, 2);
    }
}

#[test]
fn a_255_for_a_sum_of_0() {
    // 1 + 2 + 247 + 5 = 255, and 3 * 1 + 5 * 2 + 6 * 247 + 7 * 5 = 6 * 255: both sums are 0
    let mut memory = fresh();
    assert_eq!(append(&mut memory, &[247, 5]), Ok(1));
    assert_eq!(memory[510..512], [0, 0]);
    assert_eq!(finished(&memory), Ok(1));
    for check in [[255, 0], [0, 255], [255, 255]] {
        memory[510..512].copy_from_slice(&check);
        refused(&memory, Refusal::Bad(1));
    }
}

#[test]
fn the_first_bad_block() {
    let mut memory = filled(128);
    block(&mut memory, 90)[511] ^= 1;
    refused(&memory, Refusal::Bad(90));
    block(&mut memory, 20)[3] = 0; // unfinished, so that the next one is bad
    refused(&memory, Refusal::Bad(21));
    block(&mut memory, 19)[5] ^= 1;
    refused(&memory, Refusal::Bad(19));
}

#[test]
fn order_of_refusals() {
    let (mut spoilt, full) = (filled(128), filled(128));
    block(&mut spoilt, 128)[511] ^= 1;
    for wrong in [&[][..], &[1; 505], &[0; 65_536]] {
        for length in [0, 1, 512, 65_024, 65_535, 65_537, 131_072] {
            not_appended(&vec![1; length], wrong, Refusal::Memory);
        }
        not_appended(&fresh(), wrong, Refusal::Payload);
        not_appended(&full, wrong, Refusal::Payload);
        not_appended(&spoilt, wrong, Refusal::Payload);
    }
    for right in [&[0][..], &[1; 504]] {
        not_appended(&spoilt, right, Refusal::Bad(128));
        not_appended(&full, right, Refusal::Full);
        assert_eq!(append(&mut filled(127), right), Ok(128));
    }
}

#[test]
fn memory_of_another_length() {
    for length in [0, 1, 512, 65_024, 65_535, 65_537, 131_072] {
        for byte in [0, 1] {
            let mut memory = vec![byte; length];
            refused(&memory, Refusal::Memory);
            assert_eq!(clear(&mut memory), Err(Refusal::Memory));
            assert!(memory.iter().all(|&after| after == byte));
        }
    }
}

#[test]
fn payloads_of_zeros() {
    let mut memory = fresh();
    for (place, length) in [(1, 1), (2, 504), (3, 255)] {
        assert_eq!(append(&mut memory, &vec![0; length]), Ok(place));
        assert_eq!(payload(&memory, place), Ok(&vec![0; length][..]));
    }
}

#[test]
fn refusals_in_words() {
    let all = [Refusal::Memory, Refusal::Payload, Refusal::Bad(7), Refusal::Full];
    assert_eq!(all.map(Refusal::number), [34, 31, 33, 32]);
    assert_eq!(all.map(Refusal::place), [None, None, Some(7), None]);
    assert_eq!(Refusal::Memory.to_string(), "the capture is not 65,536 bytes long");
    assert_eq!(Refusal::Payload.to_string(), "the payload is empty or has more than 504 bytes");
    assert_eq!(Refusal::Bad(7).to_string(), "block 7 is bad");
    assert_eq!(Refusal::Full.to_string(), "all 128 blocks are used");
}
