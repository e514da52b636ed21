//! Messages of format six for a board, some of which could not be written.

use std::collections::BTreeSet;

use second::faults;
use second::generate::Generator;
use second::random::Random;
use second::six::Quote;
use second::units::{Code, CODE_ZERO};
use second::Message;

/// A message, and the kind of the fault in it; a second fault has no name.
pub struct Sent {
    pub quote: Quote,
    pub fault: Option<&'static str>,
    pub alone: bool,
}

/// A message in few words.
pub fn told(quote: &Quote) -> String {
    format!("{} with reveal {:02X} at {}", shown(&quote.code), quote.reveal, quote.time)
}

/// A code with its spaces, and with any bytes that no code has.
pub fn shown(code: &Code) -> String {
    format!("'{}'", code.escape_ascii())
}

/// Different codes of stocks. Many are as another one but for one byte or two; those of a series may all begin or end alike.
pub fn codes(many: usize, random: &mut Random) -> Vec<Code> {
    let mut codes = BTreeSet::new();
    let mut code = *b"1101  ";
    let alike = random.below(8);
    while codes.len() < many {
        match random.below(4) {
            _ if alike == 0 => code[4..].fill_with(|| 32 + random.below(95) as u8),
            _ if alike == 1 => code[..2].fill_with(|| 32 + random.below(95) as u8),
            0 => code[..4].fill_with(|| random.pick(b"0123456789")),
            1 => code.fill_with(|| 32 + random.below(95) as u8),
            2 => (code, code[random.within(0..=5)]) = (CODE_ZERO, random.pick(b"1 :")),
            _ => code[random.within(0..=5)] = 32 + random.below(95) as u8,
        }
        if code != CODE_ZERO {
            codes.insert(code);
        }
    }
    codes.into_iter().collect()
}

/// A generated quote with one of the codes, or the day's last frame; now and then with a fault or two.
pub fn sent(generator: &mut Generator, codes: &[Code], random: &mut Random) -> Sent {
    let mut quote = loop {
        if let Some(Message::Six(quote)) = second::read(&generator.whole()).message() {
            break *quote;
        }
    };
    if !quote.ends_the_day() {
        quote.code = random.pick(codes);
    }
    if random.below(8) > 0 {
        return Sent { quote, fault: None, alone: false };
    }
    let mut message = Message::Six(quote);
    let name = faults::spoil(&mut message, random);
    let alone = random.below(4) > 0;
    if !alone {
        faults::spoil(&mut message, random);
    }
    let quote = if let Message::Six(wrong) = message { wrong } else { quote };
    Sent { quote, fault: Some(name), alone }
}
