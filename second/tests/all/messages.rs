//! The messages of small lines, with the objects written by hand.

use crate::build::*;
use second::messages::tell;

fn told(bytes: &[u8]) -> String {
    let mut output = Vec::new();
    tell(bytes, &mut output).unwrap();
    String::from_utf8(output).unwrap()
}

/// A frame of format six with the number 7: limit 1, status 16, and the rest as given.
fn six(code: &str, time: &str, reveal: &str, rest: &str) -> Vec<u8> {
    frame("01 06 04 00000007", &body(code, &format!("{time} {reveal} 01 10 {rest}")))
}

#[test]
fn nothing_but_accepted_frames() {
    assert_eq!(told(&[]), "");
    assert_eq!(told(b"AB\x1b"), "");
    assert_eq!(told(&frame(FIVE, &[0x01])), "");
    let line = [hex("41 42"), hex(NOTICE), frame(FIVE, &[0x01]), hex(HALT), hex("1B 00 14")].concat();
    let text = r#"{"at":2,"format":5,"seq":1,"category":"09","text":""}
{"at":30,"format":19,"seq":1,"code":"1234  ","event":"halt","halted":"10:05:00","resume":null,"state":"I"}
"#;
    assert_eq!(told(&line), text);
}

#[test]
fn notices() {
    let text = r#"{"at":0,"format":5,"seq":99999999,"category":"90","text":"1b000d0aff41"}"#;
    assert_eq!(told(&frame("01 05 01 99999999", &hex("90 1B 00 0D 0A FF 41"))), format!("{text}\n"));
    let text = r#"{"at":0,"format":5,"seq":0,"category":"00","text":"20"}"#;
    assert_eq!(told(&frame("01 05 01 00000000", &hex("00 20"))), format!("{text}\n"));
}

#[test]
fn quotes() {
    // A trade, two bids and an ask.
    let pairs = "0000995000 00001234 0000994900 00000001 0000000001 00000000 0999999999 99999999";
    let text = concat!(
        r#"{"at":0,"format":6,"seq":7,"code":"2330  ","time":"09:04:15.061278","reveal":162,"limit":1,"status":16,"#,
        r#""total":16423,"trade":{"price":"99.5000","quantity":1234},"#,
        r#""bids":[{"price":"99.4900","quantity":1},{"price":"0.0001","quantity":0}],"#,
        r#""asks":[{"price":"99999.9999","quantity":99999999}]}"#,
        "\n"
    );
    assert_eq!(told(&six("2330  ", "090415061278", "A2", &format!("00016423 {pairs}"))), text);
    // Bids alone, and no pair at all; the code's quotation mark and backslash are escaped.
    let text = concat!(
        r#"{"at":0,"format":6,"seq":7,"code":"\"\\~/a ","time":"00:00:00.000000","reveal":16,"limit":1,"status":16,"#,
        r#""total":0,"trade":null,"bids":[{"price":"0.0000","quantity":5}],"asks":[]}"#,
        "\n"
    );
    assert_eq!(told(&six("\"\\~/a ", "000000000000", "10", "00000000 0000000000 00000005")), text);
    let text = concat!(
        r#"{"at":0,"format":6,"seq":7,"code":"000000","time":null,"last":true,"reveal":1,"limit":1,"status":16,"#,
        r#""total":99999999,"trade":null,"bids":null,"asks":null}"#,
        "\n"
    );
    assert_eq!(told(&six("000000", NINES, "01", "99999999")), text);
}

#[test]
fn levels_that_are_not_shown() {
    // Nothing sent, and sides that are empty: reveal 00 and 80. The trade alone: 01 and 81.
    let pair = "0000995000 00001234";
    let text = |reveal: u8, trade: &str, side: &str| {
        format!(
            "{{\"at\":0,\"format\":6,\"seq\":7,\"code\":\"2330  \",\"time\":\"09:04:15.061278\",\"reveal\":{reveal},\
             \"limit\":1,\"status\":16,\"total\":16423,\"trade\":{trade},\"bids\":{side},\"asks\":{side}}}\n"
        )
    };
    let trade = r#"{"price":"99.5000","quantity":1234}"#;
    let one = |reveal: &str, pairs: &str| told(&six("2330  ", "090415061278", reveal, &format!("00016423 {pairs}")));
    assert_eq!(one("00", ""), text(0, "null", "[]"));
    assert_eq!(one("80", pair), text(128, trade, "[]"));
    assert_eq!(one("01", ""), text(1, "null", "null"));
    assert_eq!(one("81", pair), text(129, trade, "null"));
    // With levels it is refused, and nothing is told.
    for reveal in ["A3", "91", "83"] {
        assert_eq!(one(reveal, &pair.repeat(4)), "");
        assert_eq!(one(reveal, &pair.repeat(2)), "");
    }
}

#[test]
fn tables() {
    let ends = body("000000", &"00".repeat(30));
    let line = frame("01 12 03 00000012", &table("03", &[slot("1101  ", DAY), slot("9958\\\"", NINES), ends]));
    let text = concat!(
        r#"{"at":0,"format":12,"seq":12,"count":3,"slots":["#,
        r#"{"code":"1101  ","open":"12.5000","high":"12.8000","low":"12.4000","last":"12.5000","total":8,"#,
        r#""time":"09:10:03.554189"},"#,
        r#"{"code":"9958\\\"","open":"12.5000","high":"12.8000","low":"12.4000","last":"12.5000","total":8,"time":null,"#,
        r#""closing":true},"#,
        r#"{"code":"000000","open":"0.0000","high":"0.0000","low":"0.0000","last":"0.0000","total":0,"#,
        r#""time":"00:00:00.000000"}]}"#,
        "\n"
    );
    assert_eq!(told(&line), text);
}

#[test]
fn halts() {
    let halt = |code: &str, rest: &str| told(&frame("01 19 01 00000003", &body(code, rest)));
    let text = r#"{"at":0,"format":19,"seq":3,"code":"000042","event":"round-end","records":42,"state":"C"}"#;
    assert_eq!(halt("000042", "999999 999999 43"), format!("{text}\n"));
    let text = r#"{"at":0,"format":19,"seq":3,"code":"000000","event":"round-end","records":0,"state":"I"}"#;
    assert_eq!(halt("000000", "999999 999999 49"), format!("{text}\n"));
    let text = concat!(
        r#"{"at":0,"format":19,"seq":3,"code":"000000","event":"halt","halted":"09:12:00","resume":"23:59:59","#,
        r#""state":"C"}"#,
        "\n"
    );
    assert_eq!(halt("000000", "091200 235959 43"), text);
    let text = concat!(
        r#"{"at":0,"format":19,"seq":3,"code":" 2\"30 ","event":"halt","halted":"00:00:00","resume":null,"state":"C"}"#,
        "\n"
    );
    assert_eq!(halt(" 2\"30 ", "000000 999999 43"), text);
}
