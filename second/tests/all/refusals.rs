//! The refusals of small lines, with the objects written by hand, and of lines that come in pieces.

use crate::build::*;
use crate::listing::Pieces;
use second::refusals::tell;

fn in_pieces(bytes: &[u8], piece: usize) -> String {
    let mut output = Vec::new();
    tell(Pieces(bytes, piece), &mut output).unwrap();
    String::from_utf8(output).unwrap()
}

fn told(bytes: &[u8]) -> String {
    in_pieces(bytes, usize::MAX)
}

#[test]
fn nothing_of_accepted_frames() {
    assert_eq!(told(&[]), "");
    assert_eq!(told(&hex(NOTICE)), "");
    let good =
        [hex(NOTICE), hex(HALT), frame(SIX, &quote(0xDA, 11)), frame(TWELVE, &table("01", &[slot("1101  ", DAY)]))];
    assert_eq!(told(&good.concat()), "");
}

#[test]
fn the_form() {
    let text = r#"{"at":0,"answer":1,"bytes":2,"place":null,"hex":"4142","why":"no frame begins here: the first byte is not 1B"}"#;
    assert_eq!(told(b"AB"), format!("{text}\n"));
    assert_eq!(told(&[hex("41 42"), hex(NOTICE)].concat()), format!("{text}\n"));
}

/// Each answer, with a good notice behind what is skipped.
const LINE: [&str; 21] = [
    "41 42",
    NOTICE,
    "1B 0A", // and 1B behind it
    NOTICE,
    "1B 00 13",
    NOTICE,
    "1B 00 17", // ends where the notice does
    NOTICE,
    "1B 00 14 01 05 01 00 00 00 01 09 18 0D 0A",
    NOTICE,
    "1B 00 14 01 05 01 00 00 00 01 09 19 0D 0B",
    "1B 00 14 01 05 01 00 00 A0 01 09 B9 0D 0A",
    "1B 00 14 01 07 01 00 00 00 01 09 1B 0D 0A",
    "1B 00 26 01 19 02 00 00 00 01 32 33 33 30 20 20 09 12 00 99 99 99 49 F4 0D 0A",
    "1B 00 32 01 06 04 00 00 00 01 32 33 33 30 20 20 09 04 15 06 12 78 80 00 10 00 01 64 23 90 0D 0A",
    "1B 00 32 01 06 04 00 00 00 01 32 33 33 30 20 20 09 04 15 06 12 78 A3 00 10 00 01 64 23 B3 0D 0A",
    "1B 00 41 01 06 04 00 00 00 01 32 33 33 30 20 20 09 04 15 06 12 78 81 00 10 00 01 64 23 10 00 99 50 00 \
     00 00 02 50 69 0D 0A",
    "1B 00 26 01 19 01 00 00 00 01 32 33 33 30 20 20 24 00 00 99 99 99 49 C8 0D 0A",
    NOTICE,
    "1B 00 14 01 05 01 00 00 00 01 01 11 0D 0A",
    "1B 00 14",
];

const TOLD: &str = r#"{"at":0,"answer":1,"bytes":2,"place":null,"hex":"4142","why":"no frame begins here: the first byte is not 1B"}
{"at":16,"answer":3,"bytes":2,"place":3,"hex":"1b0a","why":"the length has a bad digit"}
{"at":32,"answer":3,"bytes":3,"place":null,"hex":"1b0013","why":"the length is below 14 or above 1024"}
{"at":49,"answer":5,"bytes":3,"place":null,"hex":"1b0017","why":"the check byte is not the exclusive-or of the bytes that it covers"}
{"at":66,"answer":5,"bytes":14,"place":null,"hex":"1b00140105010000000109180d0a","why":"the check byte is not the exclusive-or of the bytes that it covers"}
{"at":94,"answer":4,"bytes":14,"place":null,"hex":"1b00140105010000000109190d0b","why":"the frame does not end in 0D 0A where its length says"}
{"at":108,"answer":6,"bytes":14,"place":16,"hex":"1b00140105010000a00109b90d0a","why":"the header, bytes 4 to 10, has a bad digit"}
{"at":122,"answer":7,"bytes":14,"place":null,"hex":"1b001401070100000001091b0d0a","why":"the business is not 01, or the format is not 05, 06, 12 or 19"}
{"at":136,"answer":8,"bytes":26,"place":null,"hex":"1b00260119020000000132333330202009120099999949f40d0a","why":"the version is not that of the format"}
{"at":162,"answer":9,"bytes":32,"place":null,"hex":"1b00320106040000000132333330202009041506127880001000016423900d0a","why":"the length is not one that the format, or the reveal byte, allows"}
{"at":194,"answer":10,"bytes":32,"place":null,"hex":"1b003201060400000001323333302020090415061278a3001000016423b30d0a","why":"the reveal byte has more than 5 levels on a side, or levels with bit 0 set"}
{"at":226,"answer":11,"bytes":41,"place":58,"hex":"1b00410106040000000132333330202009041506127881001000016423100099500000000250690d0a","why":"a packed field of the body has a bad digit"}
{"at":267,"answer":12,"bytes":26,"place":null,"hex":"1b00260119010000000132333330202024000099999949c80d0a","why":"the halt time is no time of day, or the resume time is neither a time of day nor 999999"}
{"at":307,"answer":13,"bytes":14,"place":null,"hex":"1b00140105010000000101110d0a","why":"the category is not 00, 09, 90 or 99"}
{"at":321,"answer":2,"bytes":3,"place":null,"hex":"1b0014","why":"the line ends before this frame does"}
"#;

#[test]
fn each_answer() {
    let line = hex(&LINE.concat());
    assert_eq!(told(&line), TOLD);
    for piece in 1..50 {
        assert_eq!(in_pieces(&line, piece), TOLD, "in pieces of {piece}");
    }
}

#[test]
fn sixty_four_bytes_at_most() {
    for bytes in [1, 63, 64, 65, 5000, 200_000] {
        let text = format!(
            "{{\"at\":0,\"answer\":1,\"bytes\":{bytes},\"place\":null,\"hex\":\"{}\",\"why\":\"no frame begins here: the first \
             byte is not 1B\"}}\n",
            "2e".repeat(bytes.min(64))
        );
        let line = vec![b'.'; bytes];
        assert!([1, 7, 64, 65_536].iter().all(|&piece| in_pieces(&line, piece) == text), "{bytes}");
        assert_eq!(told(&[line, hex(NOTICE)].concat()), text);
    }
    // A frame of 374 bytes, whose last half is bad.
    let mut prices = table("01", &[slot("1101  ", DAY)]);
    prices[360] = 0x0A;
    let text = r#"{"at":14,"answer":11,"bytes":374,"place":741,"hex":"1b037401120300000001013131303120200000125000000012800000001240000000125000000000080910035541892020202020200000000000000000000000","why":"a packed field of the body has a bad digit"}"#;
    assert_eq!(told(&[hex(NOTICE), frame(TWELVE, &prices)].concat()), format!("{text}\n"));
}

#[test]
fn runs_are_joined_as_in_the_listing() {
    // The first byte says the answer and the place, whatever the others answer.
    let refused = frame(FIVE, &[0x01]);
    let line = [hex("1B F0 00 1B 00 13 41"), refused, hex("41 1B A0"), hex(NOTICE), hex("1B 1B 1B")].concat();
    let text = r#"{"at":0,"answer":3,"bytes":7,"place":2,"hex":"1bf0001b001341","why":"the length has a bad digit"}
{"at":7,"answer":13,"bytes":14,"place":null,"hex":"1b00140105010000000101110d0a","why":"the category is not 00, 09, 90 or 99"}
{"at":21,"answer":1,"bytes":3,"place":null,"hex":"411ba0","why":"no frame begins here: the first byte is not 1B"}
{"at":38,"answer":3,"bytes":3,"place":3,"hex":"1b1b1b","why":"the length has a bad digit"}
"#;
    assert_eq!(told(&line), text);
    let mut listed = Vec::new();
    second::listing::list(&line[..], &mut listed).unwrap();
    let listed = String::from_utf8(listed).unwrap();
    let rows = text.lines().map(|row| row.replace(|c: char| !c.is_ascii_digit() && c != ',', ""));
    let rows: Vec<String> = rows.map(|row| row.split(',').take(3).collect::<Vec<_>>().join(",")).collect();
    let skipped_or_refused = listed.lines().filter_map(|row| row.strip_suffix(",-,-"));
    assert!(skipped_or_refused.eq(rows.iter()), "{listed}");
}

#[test]
fn what_can_be_the_matter_with_times_and_other_fields() {
    has_words(12, SIX, &body("2330  ", "240000000000 00 00 10 00016423"), SIX_TIME);
    has_words(12, SIX, &body("000000", "090415061278 00 00 10 00016423"), SIX_TIME);
    has_words(12, TWELVE, &table("01", &[slot("1101  ", DAY), slot("      ", NINES)]), TWELVE_TIME);
    has_words(12, NINETEEN, &body("2330  ", "999999 091200 49"), NINETEEN_TIMES);
    has_words(13, FIVE, &hex("91"), "the category is not 00, 09, 90 or 99");
    has_words(13, SIX, &body("2330\t ", "090415061278 00 00 10 00016423"), "a code byte is not 32 to 126");
    has_words(13, TWELVE, &table("00", &[]), TWELVE_FIELDS);
    has_words(13, NINETEEN, &body("2     ", "999999 999999 49"), NINETEEN_FIELDS);
}

const SIX_TIME: &str =
    "the time is no time of day, or twelve nines stand without the code 000000, or that code without them";
const TWELVE_TIME: &str = "the time of a slot is no time of day, or twelve nines stand in a slot behind the count";
const NINETEEN_TIMES: &str = "the halt time is no time of day, or the resume time is neither a time of day nor 999999";
const TWELVE_FIELDS: &str = "the count is not 1 to 10, a code byte is not 32 to 126, or a slot behind the count is \
                             not six spaces and zeros";
const NINETEEN_FIELDS: &str =
    "the state is not C or I, a code byte is not 32 to 126, or the code of a round's end is not six digits";

/// The one object of a frame ends in these words.
fn has_words(answer: u8, header: &str, body: &[u8], words: &str) {
    let text = told(&frame(header, body));
    assert!(text.starts_with(&format!("{{\"at\":0,\"answer\":{answer},")), "{text}");
    assert!(text.ends_with(&format!(",\"why\":\"{words}\"}}\n")), "{text}");
}
