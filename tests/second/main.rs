//! A second reader, written from the papers 01 and 02 alone, to compare the proved reader with.
//!
//!     second strict [--elements] [--element-rows N] [--tree-rows N] [FILE]
//!     second survey [--records] [--element-rows N] [--item-rows N] [FILE]
//!     second store [--room N] [--element-rows N] [--item-rows N] [FILE]
//!     second unstore [--again] [--room N] [--item-rows N] [FILE]
//!     second batch < cases > outputs
//!     second generate STYLE SEED COUNT > cases
//!
//! The first four print what the programs of these names print. `batch` does so for a stream of
//! cases, a line with a single `.` after each; `generate` writes such a stream, the style being
//! `elements`, `strict`, `survey`, `store` or `unstore`. A case is a head of ten bytes and a text:
//! the mode (`e` strict --elements, `s` strict, `l` survey, `r` survey --records, `t` store, `u`
//! unstore, `a` unstore --again), then element rows, tree or item rows and length of the text, three
//! bytes each, high byte first. In `t` and `a` the first three bytes of the text are the room, and
//! what is written comes as one line of hexadecimal digits, upper case, or as the refusal's line.
//!
//! Built by `rustc -O --edition 2021 -o target/second tests/second/main.rs`.

mod elements;
mod folding;
mod forms;
mod generate;
mod print;
mod stored;
mod strict;
mod survey;
mod verdict;

use elements::Refusal;
use forms::Forms;
use std::io::{self, BufWriter, Read, Write};

fn main() {
    // Folding and flattening follow the depth of an expression, so they get a roomy stack.
    let worker = std::thread::Builder::new()
        .stack_size(256 << 20)
        .spawn(run)
        .unwrap();
    let status = match worker.join() {
        Ok(Ok(())) => 0,
        Ok(Err(complaint)) => {
            eprintln!("{complaint}");
            1
        }
        Err(_) => 101,
    };
    std::process::exit(status);
}

fn run() -> Result<(), String> {
    let arguments: Vec<String> = std::env::args().skip(1).collect();
    let rest = arguments.get(1..).unwrap_or(&[]);
    match arguments.first().map(String::as_str) {
        Some("strict") => single(rest, Program::Strict),
        Some("survey") => single(rest, Program::Survey),
        Some("store") => single(rest, Program::Store),
        Some("unstore") => single(rest, Program::Unstore),
        Some("batch") => batch(),
        Some("generate") => generate(rest),
        _ => Err("second: strict, survey, store, unstore, batch or generate?".to_string()),
    }
}

#[derive(Clone, Copy, PartialEq)]
enum Program {
    Strict,
    Survey,
    Store,
    Unstore,
}

/// What one run prints.
#[derive(Clone, Copy)]
enum Mode {
    Elements,
    Strict,
    Listing,
    Records,
    Store,
    Unstore,
    Again,
}

/// The rows of the tables and the room that a run is lent.
struct Lent {
    element_rows: usize,
    other_rows: usize,
    room: usize,
}

/// What comes of one run: lines, a refusal among them, or bytes, whose refusal stands apart.
enum Answer {
    Lines(Vec<u8>),
    Bytes(Result<Vec<u8>, Refusal>),
}

/// The answer to one text; rows and room above the most count as the most.
fn answer(forms: &Forms, mode: Mode, text: &[u8], lent: Lent) -> Answer {
    let element_rows = lent.element_rows.min(elements::MOST_ELEMENTS);
    let tree_rows = lent.other_rows.min(elements::MOST_ELEMENTS);
    let item_rows = lent.other_rows.min(survey::MOST_PIECES);
    let room = lent.room.min(stored::MOST_ROOM);
    let mut out = Vec::new();
    match mode {
        Mode::Elements => print::elements(&mut out, text, element_rows),
        Mode::Strict => print::strict(&mut out, forms, text, element_rows, tree_rows),
        Mode::Listing => print::listing(&mut out, forms, text, element_rows, item_rows),
        Mode::Records => print::records(&mut out, forms, text, element_rows, item_rows),
        Mode::Unstore => print::stored(&mut out, text, item_rows),
        Mode::Store => {
            return Answer::Bytes(stored::store(forms, text, element_rows, item_rows, room))
        }
        Mode::Again => return Answer::Bytes(stored::again(text, item_rows, room)),
    }
    Answer::Lines(out)
}

/// One text through one program, with the options of that program.
fn single(arguments: &[String], program: Program) -> Result<(), String> {
    let mut mode = match program {
        Program::Strict => Mode::Strict,
        Program::Survey => Mode::Listing,
        Program::Store => Mode::Store,
        Program::Unstore => Mode::Unstore,
    };
    let mut lent = Lent {
        element_rows: usize::MAX,
        other_rows: usize::MAX,
        room: usize::MAX,
    };
    let mut file = None;
    let mut arguments = arguments.iter();
    while let Some(argument) = arguments.next() {
        use Program::{Store, Strict, Survey, Unstore};
        match (argument.as_str(), program) {
            ("--elements", Strict) => mode = Mode::Elements,
            ("--records", Survey) => mode = Mode::Records,
            ("--again", Unstore) => mode = Mode::Again,
            ("--element-rows", Strict | Survey | Store) => {
                lent.element_rows = value(argument, arguments.next())?
            }
            ("--tree-rows", Strict) | ("--item-rows", Survey | Store | Unstore) => {
                lent.other_rows = value(argument, arguments.next())?
            }
            ("--room", Store | Unstore) => lent.room = value(argument, arguments.next())?,
            (word, _) if word.starts_with("--") => return Err(format!("unknown option {word}")),
            (name, _) => file = Some(name.to_string()),
        }
    }
    let source = file.as_deref().unwrap_or("standard input");
    let mut text = Vec::new();
    match &file {
        Some(name) => text = std::fs::read(name).map_err(|error| format!("{name}: {error}"))?,
        None => {
            io::stdin()
                .read_to_end(&mut text)
                .map_err(|error| format!("{source}: {error}"))?;
        }
    }
    // The program's own limit; what reads the table knows none.
    if program == Program::Unstore && text.len() > stored::MOST_ROOM {
        let most = stored::MOST_ROOM;
        return Err(format!(
            "{source}: a stored table of more than {most} bytes"
        ));
    }
    match answer(&Forms::new(), mode, &text, lent) {
        Answer::Lines(out) | Answer::Bytes(Ok(out)) => io::stdout().write_all(&out),
        Answer::Bytes(Err(refusal)) => {
            let mut line = Vec::new();
            print::refused(&mut line, refusal);
            io::stderr().write_all(&line)
        }
    }
    .map_err(|error| error.to_string())
}

/// The value of an option: digits alone, however many.
fn value(option: &str, word: Option<&String>) -> Result<usize, String> {
    let word = word.ok_or(format!("{option} has no value"))?;
    if word.is_empty() || !word.bytes().all(|byte| byte.is_ascii_digit()) {
        return Err(format!("{option} {word}: not a number"));
    }
    Ok(word.parse().unwrap_or(usize::MAX))
}

/// Every case of a stream, one after the other.
fn batch() -> Result<(), String> {
    let mut cases = Vec::new();
    io::stdin()
        .read_to_end(&mut cases)
        .map_err(|error| error.to_string())?;
    let mut stdout = BufWriter::new(io::stdout().lock());
    let forms = Forms::new();
    let mut rest = &cases[..];
    while !rest.is_empty() {
        if rest.len() < 10 {
            return Err("a case ends within its head".to_string());
        }
        let mode = match rest[0] {
            b'e' => Mode::Elements,
            b's' => Mode::Strict,
            b'l' => Mode::Listing,
            b'r' => Mode::Records,
            b't' => Mode::Store,
            b'u' => Mode::Unstore,
            b'a' => Mode::Again,
            other => return Err(format!("unknown mode {other}")),
        };
        let (element_rows, other_rows) = (number(&rest[1..4]), number(&rest[4..7]));
        let (mut text, behind) = rest[10..]
            .split_at_checked(number(&rest[7..10]))
            .ok_or("a case ends within its text")?;
        let mut room = 0;
        if matches!(mode, Mode::Store | Mode::Again) {
            let (first, others) = text.split_at_checked(3).ok_or("a case without its room")?;
            (room, text) = (number(first), others);
        }
        let lent = Lent {
            element_rows,
            other_rows,
            room,
        };
        let mut out = Vec::new();
        match answer(&forms, mode, text, lent) {
            Answer::Lines(lines) => out = lines,
            Answer::Bytes(Ok(bytes)) => print::hexadecimal(&mut out, &bytes),
            Answer::Bytes(Err(refusal)) => print::refused(&mut out, refusal),
        }
        out.extend_from_slice(b".\n");
        stdout.write_all(&out).map_err(|error| error.to_string())?;
        rest = behind;
    }
    stdout.flush().map_err(|error| error.to_string())
}

/// A number of some bytes, high byte first.
fn number(bytes: &[u8]) -> usize {
    bytes.iter().fold(0, |sum, &byte| sum << 8 | byte as usize)
}

fn generate(arguments: &[String]) -> Result<(), String> {
    let (style, seed, count) = match arguments {
        [style, seed, count] => (style, seed, count),
        _ => return Err("generate STYLE SEED COUNT".to_string()),
    };
    let seed = value("SEED", Some(seed))? as u64;
    let count = value("COUNT", Some(count))?;
    let mut stdout = BufWriter::new(io::stdout().lock());
    generate::cases(&mut stdout, style, seed, count)?;
    stdout.flush().map_err(|error| error.to_string())
}
