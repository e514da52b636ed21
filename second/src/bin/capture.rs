//! Keeps standard input in a capture, or tells what a capture holds.

use std::ffi::OsString;
use std::fs::File;
use std::io::{self, ErrorKind, Read, Write};
use std::os::unix::fs::FileExt;
use std::path::Path;
use std::process::ExitCode;

use second::capture::{append, finished, payload, Refusal, BLOCK, BYTES, MOST};

const USAGE: &str = "usage: capture append FILE | show FILE | verify FILE
append: standard input goes behind the finished blocks of the file, which is made if it is not there
show: the bytes of all finished blocks
verify: how many blocks are finished, and how many bytes they have";

/// Where in a block the number's last byte is.
const LAST: usize = 3;

/// What is done with a file, or what is said where it cannot be done.
type Run = fn(&Path) -> Result<(), String>;

/// Appends standard input, 504 bytes a block.
fn append_all(path: &Path) -> Result<(), String> {
    let of_file = |why| said_of(path, why);
    let file = opened(path).map_err(of_file)?;
    let mut memory = held(&file).map_err(of_file)?;
    finished(&memory).map_err(|why| refused(path, why))?;
    let mut input = io::stdin().lock();
    let mut taken = 0;
    loop {
        let mut part = Vec::with_capacity(MOST);
        input.by_ref().take(MOST as u64).read_to_end(&mut part).map_err(|why| format!("standard input: {why}"))?;
        if part.is_empty() {
            return Ok(());
        }
        match append(&mut memory, &part) {
            Ok(place) => keep(&file, &memory, place).map_err(of_file)?,
            Err(Refusal::Full) => return Err(format!("{} is full: {taken} bytes were taken", path.display())),
            Err(why) => return Err(refused(path, why)),
        }
        taken += part.len();
    }
}

/// Puts a block into the file: on the disk too, its number's last byte comes after everything else.
fn keep(file: &File, memory: &[u8], place: usize) -> io::Result<()> {
    let start = (place - 1) * BLOCK;
    let mut block = memory[start..][..BLOCK].to_vec();
    block[LAST] = 0;
    file.write_all_at(&block, start as u64)?;
    file.sync_data()?;
    let last = start + LAST;
    file.write_all_at(&memory[last..=last], last as u64)?;
    file.sync_data()
}

/// The file, made as a fresh capture if it is not there.
fn opened(path: &Path) -> io::Result<File> {
    match File::options().read(true).write(true).open(path) {
        Err(why) if why.kind() == ErrorKind::NotFound => fresh(path),
        result => result,
    }
}

/// A new file with a fresh capture. Its name, too, is on the disk before anything is kept in it.
fn fresh(path: &Path) -> io::Result<File> {
    let file = File::options().read(true).write(true).create_new(true).open(path)?;
    file.write_all_at(&[0; BYTES], 0)?;
    file.sync_all()?;
    let folder = path.parent().filter(|folder| !folder.as_os_str().is_empty()).unwrap_or(Path::new("."));
    File::open(folder)?.sync_all()?;
    Ok(file)
}

/// What a file holds, but no more than shows that it is too long.
fn held(file: &File) -> io::Result<Vec<u8>> {
    let mut memory = Vec::with_capacity(BYTES + 1);
    file.take(BYTES as u64 + 1).read_to_end(&mut memory)?;
    Ok(memory)
}

fn show(path: &Path) -> Result<(), String> {
    let memory = read(path)?;
    let payloads = payloads(&memory).map_err(|why| refused(path, why))?;
    print(&payloads.concat())
}

fn verify(path: &Path) -> Result<(), String> {
    let memory = read(path)?;
    match payloads(&memory) {
        Ok(payloads) => {
            let bytes: usize = payloads.iter().map(|payload| payload.len()).sum();
            print(format!("{{\"finished\":{},\"bytes\":{bytes}}}\n", payloads.len()).as_bytes())
        }
        Err(why) => {
            let place = why.place().map_or(String::new(), |place| format!(",\"place\":{place}"));
            print(format!("{{\"answer\":{}{place}}}\n", why.number()).as_bytes())?;
            Err(refused(path, why))
        }
    }
}

fn read(path: &Path) -> Result<Vec<u8>, String> {
    File::open(path).and_then(|file| held(&file)).map_err(|why| said_of(path, why))
}

/// The payloads of the finished blocks, in order.
fn payloads(memory: &[u8]) -> Result<Vec<&[u8]>, Refusal> {
    (1..=finished(memory)?).map(|place| payload(memory, place)).collect()
}

fn print(bytes: &[u8]) -> Result<(), String> {
    let mut output = io::stdout().lock();
    output.write_all(bytes).and_then(|()| output.flush()).map_err(|why| format!("standard output: {why}"))
}

fn said_of(path: &Path, why: io::Error) -> String {
    format!("{}: {why}", path.display())
}

/// What is said of a file that is no capture.
fn refused(path: &Path, why: Refusal) -> String {
    let file = path.display();
    match why {
        Refusal::Memory => format!("{file} is not 65,536 bytes long"),
        Refusal::Bad(place) => format!("block {place} of {file} is bad"),
        Refusal::Payload | Refusal::Full => format!("{file}: {why}"),
    }
}

/// What the words behind the program's name ask for, and the file.
fn wanted(words: &[OsString]) -> Option<(Run, &Path)> {
    let [word, path] = words else { return None };
    let run: Run = match word.to_str()? {
        "append" => append_all,
        "show" => show,
        "verify" => verify,
        _ => return None,
    };
    Some((run, Path::new(path)))
}

fn main() -> ExitCode {
    let words: Vec<OsString> = std::env::args_os().skip(1).collect();
    let Some((run, path)) = wanted(&words) else {
        eprintln!("{USAGE}");
        return ExitCode::from(2);
    };
    match run(path) {
        Ok(()) => ExitCode::SUCCESS,
        Err(what) => {
            eprintln!("capture: {what}");
            ExitCode::FAILURE
        }
    }
}
