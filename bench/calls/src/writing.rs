//! Messages written in turn into a buffer that is used again.

use std::hint::black_box;

use compare::same;
use second::Message;
use trivsome::NotWritten;

use crate::kinds::Kind;
use crate::timing::{both, Effort, Row};

const PART: &str = "writing";
const ROOM: usize = 400;

/// The writing of one kind's messages.
pub fn writing(effort: Effort, kind: &Kind) -> Result<Row, String> {
    let own = |message: &Message| match message {
        Message::Five(notice) => same::notice(notice).map(trivsome::Message::Notice).ok_or("a text is too long"),
        Message::Six(quote) => Ok(trivsome::Message::Quote(same::quote(quote))),
        Message::Twelve(prices) => Ok(trivsome::Message::Prices(same::prices(prices))),
        Message::Nineteen(halt) => Ok(trivsome::Message::Halt(same::halt(halt))),
    };
    let ours: Vec<trivsome::Message> = kind.messages.iter().map(own).collect::<Result<_, _>>()?;
    for (own, other) in ours.iter().zip(&kind.messages) {
        agree(own, other).map_err(|what| format!("writing {}: {what}", kind.name))?;
    }
    let proved = all(&ours, |message, buffer| trivsome::write(message, buffer).map_err(NotWritten::number));
    let second =
        all(&kind.messages, |message, buffer| second::write(message, buffer).map_err(second::NotWritten::number));
    let (proved, second) = both(effort, ours.len(), proved, second)?;
    Ok(Row { part: PART, name: kind.name.into(), bytes: kind.bytes(), proved, second })
}

/// Writes all messages, and sums up their lengths and check bytes.
fn all<'a, M>(messages: &'a [M], write: impl Fn(&M, &mut [u8]) -> Result<usize, u8> + 'a) -> impl FnMut() -> u64 + 'a {
    let mut buffer = [0; ROOM];
    move || {
        let mut sum = 0;
        for message in black_box(messages) {
            let length = write(message, &mut buffer).unwrap_or(3);
            black_box(&mut buffer);
            sum += length as u64 + 256 * u64::from(buffer[length - 3]);
        }
        sum
    }
}

/// Both write the same bytes, and change none behind them.
fn agree(own: &trivsome::Message, other: &Message) -> Result<(), String> {
    let (mut ours, mut theirs) = ([0xEE; ROOM], [0xEE; ROOM]);
    let proved = trivsome::write(own, &mut ours).map_err(NotWritten::number);
    let second = second::write(other, &mut theirs).map_err(second::NotWritten::number);
    if proved == second && proved.is_ok() && ours == theirs {
        Ok(())
    } else {
        Err(format!("{proved:?} {}\nagainst {second:?} {}", same::hex(&ours), same::hex(&theirs)))
    }
}
