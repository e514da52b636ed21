//! What the programs print of this exchange's frames.

use std::fmt::{self, Display};

use crate::derivatives::{self, Derivatives2015, Message};
use crate::exchange::{Exchange, Shown};
use crate::messages::Text;
use crate::outline::GREATEST_LENGTH;
use crate::reading::{Answer, Refusal};
use crate::refusals;
use crate::units::Thousandths;

impl Exchange for Derivatives2015 {
    type Message = Message;

    const GREATEST_LENGTH: usize = GREATEST_LENGTH;

    const WHY_LENGTH: &'static str = "the frame would be longer than 1024 bytes";

    fn read(bytes: &[u8]) -> Answer<Message> {
        derivatives::read(bytes)
    }

    fn why_refused(why: Refusal, _: &[u8]) -> &'static str {
        match why {
            Refusal::HeaderDigit => "the header, bytes 4 to 12, has a bad digit",
            Refusal::Format => "the transmission code is not 1 or 4, or the kind is not 5 or 8",
            Refusal::Version => "the version is not the one of this kind",
            Refusal::Length => "the body is not 12 or 17 bytes long",
            Refusal::Time => "a time is no time of day",
            Refusal::Field => "a contract byte is not 32 to 126, or a reserved status bit is set",
            // The same words as at the stock exchange.
            Refusal::Digit => refusals::WHY_DIGIT,
            // No frame here has levels.
            Refusal::Levels => "",
        }
    }
}

impl Shown for Message {
    fn listed(&self) -> (impl Display, u32) {
        (self.kind.name(), self.seq)
    }

    fn object(&self, at: u64, f: &mut fmt::Formatter) -> fmt::Result {
        let Message { market, sent, seq, time, value, status, .. } = *self;
        write!(
            f,
            "{{\"at\":{at},\"kind\":\"{}\",\"seq\":{seq},\"market\":\"{}\",",
            self.kind.name(),
            char::from(market)
        )?;
        write!(f, "\"sent\":{},\"contract\":{},", Hundredths(sent), Text(self.contract()))?;
        write!(f, "\"time\":{},\"value\":{},\"status\":{status}}}", Hundredths(time), Decimals(value))
    }
}

/// HHMMSScc as a string.
struct Hundredths(u32);

impl Display for Hundredths {
    fn fmt(&self, f: &mut fmt::Formatter) -> fmt::Result {
        let (clock, hundredths) = (self.0 / 100, self.0 % 100);
        write!(f, "\"{:02}:{:02}:{:02}.{hundredths:02}\"", clock / 10_000, clock / 100 % 100, clock % 100)
    }
}

/// A value as a string with three decimals.
struct Decimals(Thousandths);

impl Display for Decimals {
    fn fmt(&self, f: &mut fmt::Formatter) -> fmt::Result {
        let thousandths = self.0 .0;
        write!(f, "\"{}.{:03}\"", thousandths / 1000, thousandths % 1000)
    }
}
