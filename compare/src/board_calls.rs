//! Each call on a board, on both sides: the answer, the row, and all memory afterwards.

use std::collections::{BTreeMap, BTreeSet};
use std::fmt;

use second::board::{self, Refusal, CLEAR, ROWS};
use second::six::Quote;
use second::units::Code;
use trivsome::{raw, NotTaken};

use crate::quotes::shown;
use crate::rows::{Lent, Numbers, CELLS};
use crate::same::{self, differ};

/// What each call can answer.
const ANSWERS: [(&str, &[u8]); 5] =
    [("take", &[0, 50, 14, 52]), ("ask", &[0, 50, 51]), ("row", &[0, 50, 51]), ("rows", &[0, 50]), ("clear", &[0, 50])];

/// The row that is lent to a question.
pub const LENT: trivsome::Row = {
    let (number, byte) = (0xA5A5_A5A5, 0xA5);
    let pair = trivsome::Pair { price: trivsome::Price(number), quantity: trivsome::Quantity(number) };
    trivsome::Row {
        time: 0xA5A5_A5A5_A5A5_A5A5,
        total: trivsome::Quantity(number),
        trade: pair,
        bids: [pair; 5],
        asks: [pair; 5],
        code: trivsome::Code([byte; 6]),
        reveal: byte,
        limit: byte,
        status: byte,
    }
};

/// A board on both sides.
pub struct Sides {
    pub proved: trivsome::Board,
    pub second: Vec<board::Row>,
}

impl Sides {
    pub fn clear() -> Sides {
        Sides { proved: trivsome::Board::new(), second: CLEAR.to_vec() }
    }

    /// The same numbers on both.
    pub fn of(numbers: &Numbers) -> Option<Sides> {
        Some(Sides { proved: numbers.board()?, second: numbers.rows(ROWS) })
    }

    /// The library's numbers are those that were expected, and they are the second program's rows.
    fn expect(&self, what: &str, expected: &Numbers) -> Result<(), String> {
        let numbers = Numbers::of(&self.proved);
        numbers.expect(what, expected)?;
        let rows = numbers.rows(ROWS);
        match rows.iter().zip(&self.second).position(|(one, other)| one != other) {
            None => Ok(()),
            Some(place) => Err(differ(&format!("{what}: row {place}"), &rows[place], &self.second[place])),
        }
    }
}

/// What occurred.
#[derive(Default)]
pub struct Calls {
    /// By the call and its answer.
    answers: BTreeMap<(&'static str, u8), u64>,
    /// By what a message that is answered 0 does to its row, and to the row's sides.
    taken: BTreeMap<&'static str, u64>,
    /// 14 where the board is full of other stocks too.
    full: u64,
}

/// What such a message can do.
const TAKEN: [&str; 9] = [
    "days' ends",
    "new rows",
    "trades changed",
    "trades kept",
    "no trades yet",
    "sides changed",
    "sides kept",
    "empty sides kept",
    "new rows without levels shown",
];

/// What a message does to its row, and to the row's sides.
fn changes(quote: &Quote, before: &board::Row, after: &board::Row) -> [&'static str; 2] {
    let row = match (quote.trade(), after.trade) {
        _ if before.is_free() => "new rows",
        (Some(_), _) => "trades changed",
        (None, Some(_)) => "trades kept",
        (None, None) => "no trades yet",
    };
    let sides = match quote.bids() {
        Some(_) => "sides changed",
        None if before.is_free() => "new rows without levels shown",
        None if before.bids.count + before.asks.count > 0 => "sides kept",
        None => "empty sides kept",
    };
    [row, sides]
}

impl Calls {
    /// A message on any board: the answer, and all memory afterwards.
    pub fn take(&mut self, sides: &mut Sides, quote: &Quote) -> Result<u8, String> {
        let own = same::quote(quote);
        let mut expected = Numbers::of(&sides.proved);
        let mut lent = Lent::new(&expected, ROWS, CELLS);
        let (heads, cells) = lent.lists();
        let outcome = raw::board_take(heads, cells, &own);
        let named = sides.proved.take(&own).map_or_else(NotTaken::number, |()| 0);
        let before = sides.second.clone();
        let answer = board::take(&mut sides.second, quote).map_or_else(Refusal::number, |()| 0);
        self.answered("take", outcome, answer)?;
        if named != answer {
            return Err(format!("take answers {named} by its names, and {answer} as it is"));
        }
        let is_full = |row: &board::Row| !row.is_free() && row.code != quote.code;
        self.full += u64::from(answer == 14 && before.iter().all(is_full));
        if answer == 0 {
            let mut done = vec!["days' ends"];
            if !quote.ends_the_day() {
                let place = sides.second.iter().position(|row| row.code == quote.code);
                let place = place.ok_or("the second program has taken it and has no row of it")?;
                expected.put(place, &sides.second[place]);
                done = changes(quote, &before[place], &sides.second[place]).to_vec();
            }
            done.into_iter().for_each(|name| *self.taken.entry(name).or_default() += 1);
        } else if sides.second != before {
            return Err(format!("refused with {answer}, and the second program's rows change"));
        }
        let what = format!("library's memory after an answer {answer}");
        sides.expect(&format!("the {what}"), &expected)?;
        lent.expect(&format!("the lent {what}"), &expected).map(|()| answer)
    }

    pub fn ask(&mut self, sides: &Sides, code: &Code) -> Result<(), String> {
        let mut lent = LENT;
        let (heads, cells) = (sides.proved.heads(), sides.proved.cells());
        let outcome = raw::board_ask(heads, cells, code, &mut lent);
        let named = sides.proved.ask(trivsome::Code(*code));
        self.told("ask", outcome, &lent, named, board::ask(&sides.second, code))
            .map_err(|what| format!("asked for the code {}: {what}", shown(code)))
    }

    pub fn row(&mut self, sides: &Sides, place: usize) -> Result<(), String> {
        let mut lent = LENT;
        let (heads, cells) = (sides.proved.heads(), sides.proved.cells());
        let outcome = raw::board_row(heads, cells, place, &mut lent);
        let named = sides.proved.row(place);
        self.told("row", outcome, &lent, named, board::row_at(&sides.second, place))
            .map_err(|what| format!("asked for row {place}: {what}"))
    }

    pub fn in_use(&mut self, sides: &Sides) -> Result<(), String> {
        let outcome = raw::board_rows(sides.proved.heads(), sides.proved.cells());
        let (answer, rows) = board::in_use(&sides.second).map_or_else(|why| (why.number(), 0), |rows| (0, rows));
        if outcome >> 8 != rows as u64 || sides.proved.rows() != rows {
            return Err(differ("how many rows are in use", &(outcome >> 8, sides.proved.rows()), &rows));
        }
        self.answered("rows", outcome & 255, answer)
    }

    /// Every row, by its place, by its code and in turn.
    pub fn every(&mut self, sides: &Sides, codes: &[Code]) -> Result<(), String> {
        self.in_use(sides)?;
        (0..=ROWS).try_for_each(|place| self.row(sides, place))?;
        let in_use: Vec<_> = sides.second.iter().filter(|row| !row.is_free()).collect();
        let asked: BTreeSet<&Code> = in_use.iter().map(|row| &row.code).chain(codes).collect();
        asked.into_iter().try_for_each(|code| self.ask(sides, code))?;
        let (proved, second): (Vec<_>, Vec<_>) =
            (sides.proved.iter().collect(), in_use.into_iter().map(same::row).collect());
        if proved != second {
            return Err(differ("the rows in turn", &proved, &second));
        }
        Ok(())
    }

    pub fn clear(&mut self, sides: &mut Sides) -> Result<(), String> {
        let expected = Numbers::of(&trivsome::Board::new());
        let mut lent = Lent::new(&Numbers::of(&sides.proved), ROWS, CELLS);
        let (heads, cells) = lent.lists();
        let outcome = raw::board_clear(heads, cells);
        sides.proved.clear();
        let answer = board::clear(&mut sides.second).map_or_else(Refusal::number, |()| 0);
        self.answered("clear", outcome, answer)?;
        lent.expect("lent memory after clearing", &expected)?;
        sides.expect("the library's memory after clearing", &expected)?;
        self.in_use(sides)
    }

    /// A row that was asked for: the answer, the row, and that a refusal leaves the lent one.
    fn told(
        &mut self,
        call: &'static str,
        outcome: u64,
        lent: &trivsome::Row,
        named: Option<trivsome::Row>,
        second: Result<&board::Row, Refusal>,
    ) -> Result<(), String> {
        let answer = second.err().map_or(0, Refusal::number);
        self.answered(call, outcome, answer)?;
        let second = second.ok().map(same::row);
        if named != second {
            return Err(differ("the row", &named, &second));
        }
        let expected = second.unwrap_or(LENT);
        if *lent != expected {
            return Err(differ(&format!("the lent row after an answer {answer}"), lent, &expected));
        }
        Ok(())
    }

    /// Both answer the same.
    pub fn answered(&mut self, call: &'static str, outcome: u64, second: u8) -> Result<(), String> {
        if outcome != u64::from(second) {
            return Err(format!("{call} answers {outcome}, and the second program {second}"));
        }
        *self.answers.entry((call, second)).or_default() += 1;
        Ok(())
    }

    /// What did not occur.
    pub fn missed(&self) -> Option<String> {
        let all = ANSWERS.iter().flat_map(|(call, answers)| answers.iter().map(move |answer| (*call, *answer)));
        let answer = all.into_iter().find(|key| !self.answers.contains_key(key));
        let taken = TAKEN.iter().find(|name| !self.taken.contains_key(*name)).map(|name| format!("on a board, {name}"));
        let full = || (self.full == 0).then(|| "on a board, 14 where it is 52 too".into());
        answer.map(|(call, answer)| format!("answer {answer} of the board's {call}")).or(taken).or_else(full)
    }
}

impl fmt::Display for Calls {
    fn fmt(&self, f: &mut fmt::Formatter) -> fmt::Result {
        for (call, answers) in ANSWERS {
            f.write_str(call)?;
            for answer in answers {
                write!(f, " {answer}:{}", self.answers.get(&(call, *answer)).unwrap_or(&0))?;
            }
            f.write_str("; ")?;
        }
        f.write_str("taken as")?;
        for name in TAKEN {
            write!(f, " {name}:{}", self.taken.get(name).unwrap_or(&0))?;
        }
        write!(f, "; 14 where it is 52 too:{}", self.full)
    }
}
