//! The board: messages taken in many series with all memory and every question after each, boards that no calls left, and lent
//! lists of other lengths.

use std::collections::BTreeMap;
use std::fmt;

use second::board::{self, Refusal, NO_CODE, ROWS};
use second::faults;
use second::generate::Generator;
use second::random::Random;
use second::six::Quote;
use second::units::{Code, CODE_ZERO};
use second::Message;
use trivsome::raw;

use crate::board_calls::{Calls, Sides, LENT};
use crate::disorder::{self, disorder};
use crate::quotes::{codes, sent, told, Sent};
use crate::reading::Accepted;
use crate::rows::{Lent, Numbers, CELLS};
use crate::same;

/// How many different codes the messages of a series have.
const CODES: [usize; 8] = [1, 3, 20, 100, 256, 257, 300, 400];

/// Heads and cells that are no board's.
const OTHERS: [(usize, usize); 13] = [
    (255, CELLS),
    (257, CELLS),
    (0, CELLS),
    (ROWS, CELLS - 1),
    (ROWS, CELLS + 1),
    (ROWS, 0),
    (ROWS, ROWS),
    (255, CELLS - 26),
    (257, CELLS + 26),
    (512, 2 * CELLS),
    (1, 26),
    (0, 0),
    (CELLS, ROWS),
];

/// Codes that are asked for beside those of messages.
const ODD_CODES: [Code; 6] = [NO_CODE, CODE_ZERO, *b"1101 \x1F", *b"1101 \x7F", [255; 6], *b"      "];

/// What occurred.
#[derive(Default)]
pub struct Boards {
    series: u64,
    messages: u64,
    calls: Calls,
    /// How often each kind of fault, alone in a message, answered 14.
    faults: BTreeMap<&'static str, u64>,
    /// 50 where the message could not be written too.
    wrong: u64,
    /// Boards that no calls left, by the last fault put into each.
    disorders: BTreeMap<&'static str, u64>,
    /// Lists of other lengths, by the lengths.
    lengths: BTreeMap<(usize, usize), u64>,
}

impl Boards {
    /// Compares a series of a line's accepted quotes.
    pub fn line(&mut self, accepted: &[Accepted], random: &mut Random) -> Result<(), String> {
        let quotes = accepted.iter().filter_map(|accepted| match accepted.message {
            Message::Six(quote) => Some(Sent { quote, fault: None, alone: false }),
            _ => None,
        });
        self.one(&quotes.collect::<Vec<_>>(), random).map_err(|what| format!("its quotes on a board: {what}"))
    }

    /// Compares series of so many messages in all.
    pub fn series(&mut self, random: &mut Random, many: usize) -> Result<(), String> {
        let mut generator = Generator::new(random.any());
        let mut left = many;
        while left > 0 {
            let codes = codes(random.pick(&CODES), random);
            let length = match random.below(4) {
                0 => random.within(1..=10),
                1 => random.within(1..=300),
                _ => random.within(300..=1500),
            };
            let sent: Vec<Sent> = (0..length.min(left)).map(|_| sent(&mut generator, &codes, random)).collect();
            left -= sent.len();
            self.one(&sent, random).map_err(|what| format!("series {} of messages: {what}", self.series))?;
        }
        Ok(())
    }

    /// One series from the clear board, which is cleared at its end.
    fn one(&mut self, sent: &[Sent], random: &mut Random) -> Result<(), String> {
        self.series += 1;
        let mut sides = Sides::clear();
        let codes: Vec<Code> = sent.iter().map(|sent| sent.quote.code).chain(ODD_CODES).collect();
        for (place, message) in sent.iter().enumerate() {
            self.message(&mut sides, message, &codes, random).map_err(|what| {
                let before = sent[place.saturating_sub(5)..place].iter().map(|sent| told(&sent.quote));
                let before = before.collect::<Vec<_>>().join(", ");
                format!("message {}, {}: {what}\nthe ones before it: {before}", place + 1, told(&message.quote))
            })?;
            let behind = |what: String| format!("behind message {}, {what}", place + 1);
            if random.one_in(20) {
                self.other_lengths(&sides, &message.quote, random).map_err(behind)?;
            }
            if random.one_in(20) {
                self.disorder(&sides, sent, &codes, random).map_err(behind)?;
            }
        }
        self.calls.every(&sides, &codes)?;
        self.calls.clear(&mut sides)
    }

    /// One message, and what can be asked after it.
    fn message(&mut self, sides: &mut Sides, sent: &Sent, codes: &[Code], random: &mut Random) -> Result<(), String> {
        self.messages += 1;
        let answer = self.calls.take(sides, &sent.quote)?;
        if let Some(name) = sent.fault {
            if answer != 14 {
                return Err(format!("{name}: it answers {answer}"));
            }
            *self.faults.entry(name).or_default() += u64::from(sent.alone);
        }
        self.calls.in_use(sides)?;
        self.calls.ask(sides, &sent.quote.code)?;
        self.calls.ask(sides, &random.pick(codes))?;
        self.calls.ask(sides, &random.pick(&ODD_CODES))?;
        let own = sides.second.iter().position(|row| row.code == sent.quote.code).unwrap_or(0);
        let beyond = [ROWS, ROWS + 1, 1 << 32, 1 << 56, usize::MAX, random.any() as usize];
        for place in [own, random.within(0..=ROWS - 1), random.pick(&beyond)] {
            self.calls.row(sides, place)?;
        }
        if random.one_in(100) {
            self.calls.every(sides, codes)?;
        }
        Ok(())
    }

    /// The board with faults in it, a few messages taken on it, and cleared.
    fn disorder(&mut self, sides: &Sides, sent: &[Sent], codes: &[Code], random: &mut Random) -> Result<(), String> {
        let mut numbers = Numbers::of(&sides.proved);
        let names: Vec<_> = (0..random.within(1..=3)).map(|_| disorder(&mut numbers, codes, random)).collect();
        let within = |what: String| format!("on a board with {}: {what}", names.join(" and "));
        let mut sides = Sides::of(&numbers).ok_or("a board of another length")?;
        names.last().into_iter().for_each(|name| *self.disorders.entry(name).or_default() += 1);
        self.calls.every(&sides, codes).map_err(within)?;
        for _ in 0..random.within(1..=4) {
            let mut quote = sent[random.within(0..=sent.len() - 1)].quote;
            if !quote.ends_the_day() && random.one_in(2) {
                // a row that is there, whatever its code
                quote.code = sides.second[random.within(0..=ROWS - 1)].code;
            }
            let of = |what: String| format!("{}: {what}", told(&quote));
            self.calls
                .take(&mut sides, &quote)
                .and_then(|_| self.calls.ask(&sides, &quote.code))
                .map_err(of)
                .map_err(within)?;
        }
        self.calls.every(&sides, codes).map_err(within)?;
        self.calls.clear(&mut sides).map_err(within)
    }

    /// 50 of every call on lists of other lengths, which stay as they came.
    fn other_lengths(&mut self, sides: &Sides, quote: &Quote, random: &mut Random) -> Result<(), String> {
        let (heads, cells) = random.pick(&OTHERS);
        *self.lengths.entry((heads, cells)).or_default() += 1;
        self.wrong += u64::from(!quote.keeps_rules());
        let mut lent = Lent::new(&Numbers::of(&sides.proved), heads, cells);
        let before = lent.numbers();
        // the second program's rows are as many as the heads; with 256 of them one is short or too many, as the cells are
        let count = match heads {
            ROWS if cells < CELLS => ROWS - 1,
            ROWS => ROWS + 1,
            other => other,
        };
        let mut rows = before.rows(count);
        let (mut asked, mut at) = (LENT, LENT);
        let place = random.within(0..=ROWS);
        let (lent_heads, lent_cells) = lent.lists();
        let outcomes = [
            ("take", raw::board_take(lent_heads, lent_cells, &same::quote(quote)), board::take(&mut rows, quote).err()),
            ("clear", raw::board_clear(lent_heads, lent_cells), board::clear(&mut rows).err()),
            (
                "ask",
                raw::board_ask(lent_heads, lent_cells, &quote.code, &mut asked),
                board::ask(&rows, &quote.code).err(),
            ),
            ("row", raw::board_row(lent_heads, lent_cells, place, &mut at), board::row_at(&rows, place).err()),
            ("rows", raw::board_rows(lent_heads, lent_cells), board::in_use(&rows).err()),
        ];
        let within = |what: String| format!("on {heads} heads and {cells} cells, with {}: {what}", told(quote));
        for (call, outcome, refusal) in outcomes {
            let answer = refusal.map_or(0, Refusal::number);
            if answer != 50 {
                return Err(within(format!("the second program's {call} of {count} rows answers {answer}")));
            }
            self.calls.answered(call, outcome, answer).map_err(within)?;
        }
        lent.expect("lent memory", &before).map_err(within)?;
        if rows != before.rows(count) || asked != LENT || at != LENT {
            return Err(within("the second program's rows or a lent row changed".into()));
        }
        Ok(())
    }

    /// What did not occur.
    pub fn missed(&self) -> Option<String> {
        let none = |found: Option<&u64>| found.is_none_or(|&times| times == 0);
        let fault = faults::names().into_iter().find(|name| name.starts_with("six") && none(self.faults.get(name)));
        let disorder = disorder::names().find(|name| none(self.disorders.get(name)));
        let named = fault.or(disorder).map(|name| format!("on a board, {name}"));
        let lengths = OTHERS.iter().find(|lengths| none(self.lengths.get(lengths)));
        let lengths = lengths.map(|(heads, cells)| format!("a board of {heads} heads and {cells} cells"));
        let wrong = || (self.wrong == 0).then(|| "on a board, 50 where it is 14 too".into());
        self.calls.missed().or(named).or(lengths).or_else(wrong)
    }
}

impl fmt::Display for Boards {
    fn fmt(&self, f: &mut fmt::Formatter) -> fmt::Result {
        write!(f, "{} messages in {} series; {}, ", self.messages, self.series, self.calls)?;
        write!(f, "50 where it is 14 too:{}; {} kinds of fault; ", self.wrong, self.faults.len())?;
        let (boards, kinds) = (self.disorders.values().sum::<u64>(), self.disorders.len());
        write!(f, "boards that no calls left:{boards} of {kinds} kinds; other lengths:{}", self.lengths.len())
    }
}
