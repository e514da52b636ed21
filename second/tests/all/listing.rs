//! The listing: the example of docs/RULES.md, and lines that come in pieces of any size.

use std::io::{self, Read};

use crate::build::*;
use second::listing::list;
use second::walk::{walk, Kind, Line};

/// Gives its bytes in pieces of a given size.
pub struct Pieces<'a>(pub &'a [u8], pub usize);

impl Read for Pieces<'_> {
    fn read(&mut self, buffer: &mut [u8]) -> io::Result<usize> {
        let size = self.1.min(self.0.len()).min(buffer.len());
        let (now, later) = self.0.split_at(size);
        buffer[..size].copy_from_slice(now);
        self.0 = later;
        Ok(size)
    }
}

fn listed(bytes: &[u8], piece: usize) -> String {
    let mut output = Vec::new();
    list(Pieces(bytes, piece), &mut output).unwrap();
    String::from_utf8(output).unwrap()
}

/// The listing made from the walk over the whole line.
fn expected(bytes: &[u8]) -> String {
    let mut rows: Vec<(usize, u8, usize, String)> = Vec::new();
    let mut totals = [0; 3];
    let mut skipping = false;
    for step in walk(bytes, Line::Closed) {
        let skipped = step.kind == Kind::Skipped;
        totals[step.kind as usize] += step.bytes;
        if skipped && skipping {
            rows.last_mut().unwrap().2 += step.bytes;
        } else {
            let named = step.answer.message().map(|message| format!("{},{}", message.format(), message.number()));
            rows.push((step.place, step.answer.number(), step.bytes, named.unwrap_or("-,-".into())));
        }
        skipping = skipped;
    }
    let mut text = String::from("at,answer,bytes,format,seq\n");
    for (at, answer, bytes, named) in rows {
        text += &format!("{at},{answer},{bytes},{named}\n");
    }
    text + &format!("total,{},{},{}\n", totals[0], totals[1], totals[2])
}

#[test]
fn the_papers_listing() {
    let line = hex("41 42 1B 00 14 01 05 01 00 00 00 01 09 19 0D 0A");
    let text = "at,answer,bytes,format,seq\n0,1,2,-,-\n2,0,14,5,1\ntotal,14,0,2\n";
    for piece in 1..=16 {
        assert_eq!(listed(&line, piece), text);
    }
}

#[test]
fn small_lines() {
    assert_eq!(listed(&[], 1), "at,answer,bytes,format,seq\ntotal,0,0,0\n");
    assert_eq!(listed(&hex("1B"), 1), "at,answer,bytes,format,seq\n0,2,1,-,-\ntotal,0,0,1\n");
    assert_eq!(listed(&hex("1B 00 14 1B"), 1), "at,answer,bytes,format,seq\n0,2,4,-,-\ntotal,0,0,4\n");
    let refused = frame("01 05 01 00000002", &[0x01]);
    assert_eq!(listed(&refused, 5), "at,answer,bytes,format,seq\n0,13,14,-,-\ntotal,0,14,0\n");
    let trades = [frame(SIX, &quote(0x81, 1)), frame(SIX, &quote(0x01, 0)), frame(SIX, &quote(0xA3, 4))].concat();
    let text = "at,answer,bytes,format,seq\n0,0,41,6,1\n41,0,32,6,1\n73,10,68,-,-\ntotal,73,68,0\n";
    assert_eq!(listed(&trades, 7), text);
}

#[test]
fn pieces_make_no_difference() {
    // Frames of all lengths, outlines of 1,024, noise with and without 27, far more than one buffer in all.
    let mut line = Vec::new();
    for round in 0..400u32 {
        line.extend(frame(&format!("010501{round:08}"), &[0x09]));
        line.extend(frame(SIX, &quote(0xDA, 11)));
        line.extend(vec![b'.'; round as usize]);
        line.extend(hex(["1B", "1B0014", "1B1024", "1B00", "411B1B1B"][round as usize % 5]));
        line.extend(frame(TWELVE, &table("01", &[slot("1101  ", NINES)])));
        line.extend(hex(HALT));
        if round % 7 == 0 {
            line.extend(frame(FIVE, &[0x41; 1011]));
            line.extend(frame(FIVE, &[0x41; 1012]));
        }
        line.extend(frame(FIVE, &[0x01]));
    }
    line.extend(&frame(TWELVE, &table("01", &[]))[..373]);
    assert!(line.len() > 300_000);
    let text = expected(&line);
    for piece in [1, 2, 3, 1000, 1023, 1024, 1025, 4096, 65535, 65536, usize::MAX] {
        assert!(listed(&line, piece) == text, "in pieces of {piece}");
    }
}
