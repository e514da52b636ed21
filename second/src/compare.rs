//! The comparison: generated lines and series, what the proved programs print of them, and what this package does, row by
//! row.

use std::fmt;
use std::fs::{self, File};
use std::io;
use std::path::{Path, PathBuf};
use std::process::{Command, Stdio};

use crate::derivatives::{self, Derivatives2015};
use crate::exchange::{Exchange, Stock};
use crate::gaps::WhenFull;
use crate::generate::Generator;
use crate::seen::{around_of, Seen};
use crate::series::texts;
use crate::{board, gaps, listing, messages, numbers, refusals, table};

/// The most frames of one line, which are enough to fill a board, and the frames of the shorter lines behind each.
const LINE: usize = 25_000;
const SHORTER: [usize; 13] = [1, 2, 3, 4, 5, 6, 7, 8, 9, 10, 100, 300, 1000];

/// From so many frames on every program has to be there, and every answer to occur.
const ENOUGH: usize = 100_000;

/// What a program is given.
#[derive(Clone, Copy, PartialEq, Eq)]
enum Given {
    /// A line of the stock exchange.
    Line,
    /// A line of the derivatives exchange, in the edition of 2015.
    Derivatives,
    Series,
    /// It reads nothing, and always prints the same.
    Nothing,
}

/// A program by its name and the words behind it, and what this package does for the same.
struct Program {
    call: &'static [&'static str],
    given: Given,
    own: fn(&[u8], &mut Vec<u8>) -> io::Result<()>,
}

const PROGRAMS: [Program; 11] = [
    Program { call: &["listing"], given: Given::Line, own: |input, output| listing::list(input, output) },
    Program { call: &["messages"], given: Given::Line, own: |input, output| messages::tell(input, output) },
    Program { call: &["refusals"], given: Given::Line, own: |input, output| refusals::tell(input, output) },
    Program { call: &["gaps"], given: Given::Line, own: |input, output| gaps::tell(input, output, WhenFull::Refuse) },
    Program {
        call: &["gaps", "give-up"],
        given: Given::Line,
        own: |input, output| gaps::tell(input, output, WhenFull::GiveUp),
    },
    Program { call: &["board"], given: Given::Line, own: |input, output| board::tell(input, output) },
    Program {
        call: &["listing", "derivatives-2015"],
        given: Given::Derivatives,
        own: |input, output| listing::list_of::<Derivatives2015, _, _>(input, output),
    },
    Program {
        call: &["messages", "derivatives-2015"],
        given: Given::Derivatives,
        own: |input, output| messages::tell_of::<Derivatives2015, _, _>(input, output),
    },
    Program {
        call: &["refusals", "derivatives-2015"],
        given: Given::Derivatives,
        own: |input, output| refusals::tell_of::<Derivatives2015, _, _>(input, output),
    },
    Program { call: &["numbers"], given: Given::Series, own: |input, output| numbers::tell(input, output) },
    Program { call: &["table"], given: Given::Nothing, own: |_, output| table::tell(output) },
];

impl Program {
    fn name(&self) -> &'static str {
        self.call[0]
    }
}

impl fmt::Display for Program {
    fn fmt(&self, f: &mut fmt::Formatter) -> fmt::Result {
        f.write_str(&self.call.join(" "))
    }
}

/// A comparison with the programs of one repository.
pub struct Comparison {
    trivsome: PathBuf,
    names: Vec<String>,
    folder: PathBuf,
}

impl Comparison {
    /// Asks which programs there are, and makes a folder for what they read and print.
    pub fn new(trivsome: &Path) -> Result<Comparison, String> {
        let trivsome = trivsome.canonicalize().map_err(|why| format!("{}: {why}", trivsome.display()))?;
        let names = names(&trivsome)?;
        if !PROGRAMS.iter().any(|program| names.iter().any(|name| name == program.name())) {
            return Err(format!("{} has no program to compare", trivsome.display()));
        }
        let folder = std::env::temp_dir().join(format!("compare-{}", std::process::id()));
        fs::create_dir_all(&folder).map_err(|why| format!("{}: {why}", folder.display()))?;
        Ok(Comparison { trivsome, names, folder })
    }

    /// Compares all programs over so many frames of their exchange, some shorter lines, and as many arrivals, and those that read
    /// nothing once. Prints a line for each program, or gives the first difference.
    pub fn run(&self, seed: u64, frames: usize) -> Result<(), String> {
        if let Some(program) = PROGRAMS.iter().find(|program| frames >= ENOUGH && !self.has(program)) {
            return Err(format!("{} --help lists no program {}", self.trivsome.display(), program.name()));
        }
        let (mut generator, mut derivatives) = (Generator::new(seed), derivatives::generate::Generator::new(seed));
        let (mut seen, mut seen_derivatives) = (Seen::default(), derivatives::seen::Seen::default());
        let mut rows = [0; PROGRAMS.len()];
        let (mut lines, mut bytes, mut derivatives_bytes) = (0, 0, 0);
        for start in (0..frames).step_by(LINE) {
            for frames in std::iter::once(LINE.min(frames - start)).chain(SHORTER) {
                let line = generator.line(frames);
                lines += 1;
                bytes += line.len();
                let within = |what: String| format!("seed {seed}, line {lines}: {what}");
                seen.line(&line).map_err(within)?;
                self.compare_all(Given::Line, &line, &mut rows).map_err(within)?;
                let line = derivatives.line(frames);
                derivatives_bytes += line.len();
                let within = |what: String| format!("seed {seed}, line {lines} of the derivatives exchange: {what}");
                seen_derivatives.line(&line).map_err(within)?;
                self.compare_all(Given::Derivatives, &line, &mut rows).map_err(within)?;
            }
        }
        for (text, place) in texts(seed, frames).iter().zip(1..) {
            let within = |what: String| format!("seed {seed}, text {place}: {what}");
            self.compare_all(Given::Series, text.as_bytes(), &mut rows).map_err(within)?;
        }
        self.compare_all(Given::Nothing, &[], &mut rows)?;
        println!("{frames} frames and {lines} lines, {bytes} bytes\n{seen}");
        println!("as many of the derivatives exchange, {derivatives_bytes} bytes\n{seen_derivatives}");
        for (program, rows) in PROGRAMS.iter().zip(rows) {
            if self.has(program) {
                println!("{program}: {rows} rows, all the same");
            } else {
                println!("{program}: not there to be compared");
            }
        }
        if frames >= ENOUGH && !(seen.is_all() && seen_derivatives.is_all()) {
            return Err(format!("seed {seed}: one of the answers or places did not occur"));
        }
        Ok(())
    }

    /// Removes the folder.
    pub fn end(&self) {
        let _ = fs::remove_dir_all(&self.folder);
    }

    fn has(&self, program: &Program) -> bool {
        self.names.iter().any(|name| name == program.name())
    }

    /// Compares the programs that are there and take such an input, and counts their rows.
    fn compare_all(&self, given: Given, input: &[u8], rows: &mut [usize]) -> Result<(), String> {
        for (program, rows) in PROGRAMS.iter().zip(rows) {
            if program.given == given && self.has(program) {
                *rows += self.compare(program, input).map_err(|what| format!("{program}: {what}"))?;
            }
        }
        Ok(())
    }

    /// How many rows both print of an input, if they are the same.
    fn compare(&self, program: &Program, input: &[u8]) -> Result<usize, String> {
        let mut own = Vec::new();
        (program.own)(input, &mut own).map_err(|why| why.to_string())?;
        let proved = self.proved(program, input)?;
        if own == proved {
            return Ok(rows(&own).len());
        }
        let mut text = difference(program.given, input, &own, &proved);
        let kept = self.folder.with_extension(program.name());
        if program.given != Given::Nothing && fs::write(&kept, input).is_ok() {
            text += &format!("\nthe input is kept as {}", kept.display());
        }
        Err(text)
    }

    /// What the proved program prints.
    fn proved(&self, program: &Program, input: &[u8]) -> Result<Vec<u8>, String> {
        let (from, to) = (self.folder.join("input"), self.folder.join("output"));
        let run = || -> io::Result<_> {
            fs::write(&from, input)?;
            let mut command = Command::new(&self.trivsome);
            let status = command.args(program.call).stdin(File::open(&from)?).stdout(File::create(&to)?).status()?;
            Ok((status, fs::read(&to)?))
        };
        match run() {
            Ok((status, output)) if status.success() => Ok(output),
            Ok((status, _)) => Err(format!("{} {program}: {status}", self.trivsome.display())),
            Err(why) => Err(format!("{} {program}: {why}", self.trivsome.display())),
        }
    }
}

/// The names that `trivsome --help` lists: the first words of its indented lines.
fn names(trivsome: &Path) -> Result<Vec<String>, String> {
    let asked = Command::new(trivsome).arg("--help").stderr(Stdio::inherit()).output();
    let output = asked.map_err(|why| format!("{}: {why}", trivsome.display()))?;
    if !output.status.success() {
        return Err(format!("{} --help: {}", trivsome.display(), output.status));
    }
    let text = String::from_utf8_lossy(&output.stdout);
    let indented = text.lines().filter(|line| line.starts_with("  "));
    Ok(indented.filter_map(|line| line.split_whitespace().next()).map(str::to_string).collect())
}

fn rows(output: &[u8]) -> Vec<&[u8]> {
    output.split_inclusive(|&byte| byte == b'\n').collect()
}

/// The first rows that differ in outputs that are not the same, and for a line the bytes at their place.
fn difference(given: Given, input: &[u8], own: &[u8], proved: &[u8]) -> String {
    let (own, proved) = (rows(own), rows(proved));
    let same = own.iter().zip(&proved).take_while(|(own, proved)| own == proved).count();
    let differing = [proved.get(same), own.get(same)];
    let [proved, own] = differing.map(|row| match row {
        Some(row) => String::from_utf8_lossy(row).trim_end_matches('\n').to_string(),
        None => "no such row".into(),
    });
    let mut text = format!("row {} differs\n  proved: {proved}\n  second: {own}", same + 1);
    if let Some(place) = place_of(&proved, &own) {
        match given {
            Given::Line => text += &answered::<Stock>(input, place),
            Given::Derivatives => text += &answered::<Derivatives2015>(input, place),
            Given::Series | Given::Nothing => {}
        }
    }
    text
}

/// What is answered at a place of a line, and the bytes there.
fn answered<E: Exchange>(line: &[u8], place: usize) -> String {
    let answer = E::read(line.get(place..).unwrap_or(&[])).number();
    format!("\nat {place} second answers {answer}\n{}", around_of::<E>(line, place))
}

/// The place at which two rows part. They begin with `12,` or `{"at":12,`; two rows of skipped bytes that begin alike part
/// where the shorter ends.
fn place_of(one: &str, other: &str) -> Option<usize> {
    let figures = |row: &str| -> Vec<usize> {
        let row = row.strip_prefix("{\"at\":").unwrap_or(row);
        row.split(',').map_while(|figure| figure.parse().ok()).collect()
    };
    match (&figures(one)[..], &figures(other)[..]) {
        (&[at, answer, bytes], &[same_at, same_answer, other])
            if at == same_at && answer == same_answer && bytes != other =>
        {
            Some(at + bytes.min(other))
        }
        (one, other) => one.first().into_iter().chain(other.first()).min().copied(),
    }
}
