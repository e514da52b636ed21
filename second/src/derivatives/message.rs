//! The message of both kinds: what an index or an underlying stood at, and when.

use crate::derivatives::outline::{Header, HEAD};
use crate::digits;
use crate::outline::{GREATEST_NUMBER, TAIL};
use crate::reading::Refusal;
use crate::times;
use crate::units::{is_printed, Thousandths};

/// Bytes of a contract in the short and in the long form.
pub const SHORT: usize = 3;
pub const LONG: usize = 8;

/// Bytes of a body behind the contract: time, value, status.
const REST: usize = 4 + Thousandths::SIZE + 1;

#[derive(Clone, Copy, Debug, PartialEq, Eq)]
pub enum Kind {
    /// An index or a price.
    I060,
    /// A trial match, and the states of an underlying.
    I064,
}

impl Kind {
    /// The kind that the header's byte says.
    pub fn of(byte: u8) -> Option<Kind> {
        match byte {
            b'5' => Some(Kind::I060),
            b'8' => Some(Kind::I064),
            _ => None,
        }
    }

    pub fn byte(self) -> u8 {
        match self {
            Kind::I060 => b'5',
            Kind::I064 => b'8',
        }
    }

    pub fn version(self) -> u8 {
        match self {
            Kind::I060 => 2,
            Kind::I064 => 1,
        }
    }

    /// The number in the kind's name.
    pub fn format(self) -> u8 {
        match self {
            Kind::I060 => 60,
            Kind::I064 => 64,
        }
    }

    pub fn name(self) -> &'static str {
        match self {
            Kind::I060 => "I060",
            Kind::I064 => "I064",
        }
    }

    /// The status bits that have to be 0.
    pub fn reserved(self) -> u8 {
        match self {
            Kind::I060 => 0b1111_1110,
            Kind::I064 => 0b1111_1000,
        }
    }
}

#[derive(Clone, Copy, Debug, PartialEq, Eq)]
pub struct Message {
    /// The transmission code: `1` futures, `4` options.
    pub market: u8,
    pub kind: Kind,
    /// When the frame was sent, HHMMSScc.
    pub sent: u32,
    /// The frame's number.
    pub seq: u32,
    /// 3 or 8.
    pub contract_length: usize,
    /// Zero behind the contract's length.
    pub contract: [u8; LONG],
    /// The time of the value, HHMMSScc.
    pub time: u32,
    pub value: Thousandths,
    pub status: u8,
}

/// Whether a byte is a transmission code.
pub fn is_market(byte: u8) -> bool {
    matches!(byte, b'1' | b'4')
}

impl Message {
    /// The message of a body, by a header whose transmission code and version are those of a kind.
    pub fn read(header: &Header, kind: Kind, body: &[u8]) -> Result<Message, Refusal> {
        let contract_length = match body.len().checked_sub(REST) {
            Some(length @ (SHORT | LONG)) => length,
            _ => return Err(Refusal::Length),
        };
        let (used, rest) = body.split_at(contract_length);
        let time = digits::number(&rest[..4]).ok_or(Refusal::Digit)? as u32;
        let value = Thousandths::unpack(&rest[4..8]).ok_or(Refusal::Digit)?;
        let status = rest[8];
        if !times::is_hundredths(header.sent) || !times::is_hundredths(time) {
            return Err(Refusal::Time);
        }
        if !is_printed(used) || status & kind.reserved() != 0 {
            return Err(Refusal::Field);
        }
        let mut contract = [0; LONG];
        contract[..contract_length].copy_from_slice(used);
        let Header { market, sent, seq, .. } = *header;
        Ok(Message { market, kind, sent, seq, contract_length, contract, time, value, status })
    }

    /// The contract without the unused places.
    pub fn contract(&self) -> &[u8] {
        &self.contract[..self.contract_length]
    }

    /// 60 or 64.
    pub fn format(&self) -> u8 {
        self.kind.format()
    }

    /// The frame's number.
    pub fn number(&self) -> u32 {
        self.seq
    }

    /// Whether every field keeps its rule and range.
    pub fn keeps_rules(&self) -> bool {
        is_market(self.market)
            && times::is_hundredths(self.sent)
            && self.seq <= GREATEST_NUMBER
            && matches!(self.contract_length, SHORT | LONG)
            && is_printed(self.contract())
            && self.contract[self.contract_length..].iter().all(|&byte| byte == 0)
            && times::is_hundredths(self.time)
            && self.value <= Thousandths::MAX
            && self.status & self.kind.reserved() == 0
    }

    /// The frame's header.
    pub fn header(&self) -> Header {
        let Message { market, kind, sent, seq, .. } = *self;
        Header { market, kind: kind.byte(), sent, seq, version: kind.version() }
    }

    /// The frame's length, for a message that keeps the rules.
    pub fn length(&self) -> usize {
        HEAD + self.contract_length + REST + TAIL
    }

    /// Writes the body, for a message that keeps the rules.
    pub fn write(&self, body: &mut [u8]) {
        let (contract, rest) = body.split_at_mut(self.contract_length);
        contract.copy_from_slice(self.contract());
        digits::pack(u64::from(self.time), &mut rest[..4]);
        self.value.pack(&mut rest[4..8]);
        rest[8] = self.status;
    }
}
