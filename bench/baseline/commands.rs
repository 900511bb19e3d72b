//! The program's commands over the baseline's parts: a second reading of the same files, which answers in the same
//! words with the same status, output, line and stored file.
//!
//! They take what docs/FORMATS.md says of these commands; `view`, `stats` and `drill` are none of them. No store is made
//! whole or not at all, and neither a number of workers nor one of the samples of an epoch is used.

use std::ffi::{OsStr, OsString};
use std::io::Read as _;
use std::os::unix::ffi::OsStrExt;

use crate::columns::Column;
use crate::events::{self, EventPeriod};
use crate::frames::Rows;
use crate::machine::Machine;
use crate::measurements::{self, Head, head_of};
use crate::runs::Runs;
use crate::schedule::{self, number};
use crate::scopes::Scopes;
use crate::traces::{self, Traced};
use crate::tree::Tree;
use crate::unwind::{Paths, Unwinder};
use crate::{database, elf, listing, table, written};

/// The line of a refusal without what begins it, and its status.
pub struct Refused(String, i32);

impl Refused {
    pub fn status(&self) -> i32 {
        self.1
    }

    /// The line as the program puts it.
    pub fn line(&self) -> String {
        format!("{}{}\n", if self.1 == 2 { "" } else { "hpc: " }, self.0)
    }
}

impl From<String> for Refused {
    fn from(line: String) -> Refused {
        Refused(line, 3)
    }
}

/// What a command makes: the text that it puts, and the file that it stores.
pub struct Made {
    text: Vec<u8>,
    stored: Option<(OsString, Vec<u8>)>,
}

type Answer = Result<Made, Refused>;

const USAGE: &str = "usage: hpc profile ELF INPUT SCHEDULE PERIOD WORKERS DB | run ELF INPUT SCHEDULE PERIOD MEASURE | \
prof ELF MEASURE WORKERS DB | struct ELF | view DB top|callers|flat [EVENT] | drill NUMBER WORKERS | \
merge ELF WORKERS DB MEASURE .. | live ELF INPUT SCHEDULE PERIOD WORKERS EPOCH DB | \
trace ELF INPUT SCHEDULE PERIOD TRACE | timeline ELF TRACE DEPTH CELLS | \
stats DB exclusive|frame|inclusive [EVENT]";

const PROGRAM: (&str, u64) = ("program", 1 << 26);
const INPUT: (&str, u64) = ("input", 1 << 20);
const SCHEDULE: (&str, u64) = ("schedule", 1 << 22);
const MEASUREMENT: (&str, u64) = ("measurement", 1 << 25);
const TRACE: (&str, u64) = ("trace", 1 << 26);

fn usage() -> Refused {
    Refused(USAGE.to_string(), 2)
}

pub fn device(place: &str) -> Refused {
    Refused(format!("device {place}"), 4)
}

/// A file of at most so many bytes. Names are UTF-8.
fn fetch(name: &OsStr, (kind, limit): (&str, u64)) -> Result<Vec<u8>, Refused> {
    let mut bytes = Vec::new();
    let file = name.to_str().and_then(|name| std::fs::File::open(name).ok()).ok_or_else(|| device("read"))?;
    file.take(limit + 1).read_to_end(&mut bytes).map_err(|_| device("read"))?;
    if bytes.len() as u64 > limit { Err(format!("{kind} longer than {limit} bytes").into()) } else { Ok(bytes) }
}

fn number_of(word: &OsStr, least: u32, most: u32) -> Result<u32, Refused> {
    number(word.as_bytes(), least, most).ok_or_else(usage)
}

fn named(words: &[&OsString]) -> Result<(), Refused> {
    if words.iter().all(|word| !word.is_empty()) { Ok(()) } else { Err(usage()) }
}

/// The database and the tables of paths, which follow another text.
fn merged(
    scopes: &Scopes,
    paths: Paths,
    events: &[EventPeriod],
    runs: &[u32],
    (front, name): (Vec<u8>, &OsStr),
) -> Answer {
    let tree = Tree::of(scopes, paths, runs.iter().sum::<u32>() as usize * events.len(), 1)?;
    let columns = Column::all(&tree, 1);
    let mut text = Vec::new();
    table::report(front, &tree, &columns, events, &mut text).map_err(|_| device("print"))?;
    Ok(Made { text, stored: Some((name.to_os_string(), database::bytes(&tree, &columns, events, runs))) })
}

/// The samples of each column.
fn samples_of(paths: &Paths, columns: usize) -> Vec<u64> {
    let mut samples = vec![0; columns];
    paths.list.iter().for_each(|path| samples[path.column as usize] += u64::from(path.count));
    samples
}

/// `profile`, `live`, `run` and `trace`. What they store is the last of the words.
fn run(words: &[OsString]) -> Answer {
    let [command, elf, input, text, period, rest @ ..] = words else { return Err(usage()) };
    let (workers, stored) = match (command.as_bytes(), rest) {
        (b"profile", [workers, stored]) => (Some(workers), stored),
        (b"live", [workers, epoch, stored]) => {
            number_of(epoch, 1 << 10, 1 << 20)?;
            (Some(workers), stored)
        }
        (b"run" | b"trace", [stored]) => (None, stored),
        _ => return Err(usage()),
    };
    named(&[elf, input, text, stored])?;
    let events = events::events_of(period.as_bytes()).ok_or_else(usage)?;
    if command == "trace" {
        number_of(period, 1, u32::MAX)?;
    }
    workers.map_or(Ok(1), |workers| number_of(workers, 1, 16))?;
    let (file, input, text) = (fetch(elf, PROGRAM)?, fetch(input, INPUT)?, fetch(text, SCHEDULE)?);
    let (harts, slices) = schedule::read(&text)?;
    let program = elf::Program::read(&file)?;
    let mut unwinder = Unwinder::of(Rows::read(&program)?);
    let scopes = if workers.is_some() { Some(Scopes::read(&program)?) } else { None };
    let mut machine = Machine::start(&program, harts, &input);
    if command == "trace" {
        let period = events[0].period;
        let traced = Traced::of(&mut machine, &mut unwinder, &slices, period)?;
        let text = table::summary(&machine, &traced.samples(), &events);
        return Ok(Made { text, stored: Some((stored.clone(), traced.bytes(&program, &machine, period))) });
    }
    let paths = events::counted(&mut machine, &mut unwinder, &slices, &events)?;
    let samples = samples_of(&paths, harts as usize * events.len());
    let mut text = table::summary(&machine, &samples, &events);
    if let Some(scopes) = &scopes {
        return merged(scopes, paths, &events, &[harts], (text, stored));
    }
    for place in 0..events.len() {
        text.extend_from_slice(table::event_line(&samples, &events, place).as_bytes());
    }
    let kept = written::bytes(&Head { program: head_of(&program), events, harts }, &paths);
    Ok(Made { text, stored: Some((stored.clone(), kept)) })
}

fn prof(words: &[OsString]) -> Answer {
    let [_, elf, measured, workers, stored] = words else { return Err(usage()) };
    named(&[elf, measured, stored])?;
    number_of(workers, 1, 16)?;
    let (file, measured) = (fetch(elf, PROGRAM)?, fetch(measured, MEASUREMENT)?);
    let mut paths = Paths::new();
    let head = measurements::read(&measured, &mut paths, 0).map_err(|at| format!("measurement at {at}"))?;
    let program = elf::Program::read(&file)?;
    measurements::is_of(head.program, &program)?;
    merged(&Scopes::read(&program)?, paths, &head.events, &[head.harts], (Vec::new(), stored))
}

fn merge(words: &[OsString]) -> Answer {
    let [_, elf, workers, stored, names @ ..] = words else { return Err(usage()) };
    named(&[elf, stored])?;
    number_of(workers, 1, 16)?;
    if !(1..=16).contains(&names.len()) || names.iter().any(|name| name.is_empty()) {
        return Err(usage());
    }
    let file = fetch(elf, PROGRAM)?;
    let files = names.iter().map(|name| fetch(name, MEASUREMENT)).collect::<Result<Vec<_>, _>>()?;
    let Runs { heads, paths } = Runs::read(&files)?;
    let program = elf::Program::read(&file)?;
    Runs::judge(&heads, &paths, &program)?;
    let runs: Vec<u32> = heads.iter().map(|head| head.harts).collect();
    merged(&Scopes::read(&program)?, paths, &heads[0].events, &runs, (Vec::new(), stored))
}

fn structure(words: &[OsString]) -> Answer {
    let [_, elf] = words else { return Err(usage()) };
    named(&[elf])?;
    let file = fetch(elf, PROGRAM)?;
    let program = elf::Program::read(&file)?;
    Ok(Made { text: listing::of(&program, &Scopes::read(&program)?), stored: None })
}

fn timeline(words: &[OsString]) -> Answer {
    let [_, elf, kept, depth, cells] = words else { return Err(usage()) };
    named(&[elf, kept])?;
    let (depth, cells) = (number_of(depth, 1, 64)?, number_of(cells, 1, 512)?);
    let (file, kept) = (fetch(elf, PROGRAM)?, fetch(kept, TRACE)?);
    Ok(Made { text: traces::timeline(&file, &kept, depth as usize, u64::from(cells))?, stored: None })
}

pub fn answer(words: &[OsString]) -> Answer {
    match words.first().map_or(&[][..], |command| command.as_bytes()) {
        b"profile" | b"live" | b"run" | b"trace" => run(words),
        b"prof" => prof(words),
        b"merge" => merge(words),
        b"struct" => structure(words),
        b"timeline" => timeline(words),
        _ => Err(usage()),
    }
}

/// Stores the file of a command, if any, and gives the text that the command puts.
pub fn stored(made: Made) -> Result<Vec<u8>, Refused> {
    if let Some((name, bytes)) = made.stored {
        name.to_str().and_then(|name| std::fs::write(name, bytes).ok()).ok_or_else(|| device("store"))?;
    }
    Ok(made.text)
}
