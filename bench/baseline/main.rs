//! A plain call-path profiler for RV32IM: what the proved program does, written for speed alone, as its measure.
//!
//! `baseline [--workers N] [--phases] [--until PHASE] ELF INPUT SCHEDULE PERIOD DB` runs a static ELF32 program, stores
//! the database, and prints the report. PERIOD is that of retired instructions, or a list of events with theirs. Files
//! that the program refuses it refuses alike; `hpc.rs` has the program's own commands, over the same parts.
//! `baseline merge [--workers N] [--phases] ELF DB MEASURE ..` makes the database and the tables of measurements.
//! `baseline trace [--phases] ELF INPUT SCHEDULE PERIOD TRACE` stores the trace of a run, and `baseline timeline ELF
//! TRACE DEPTH CELLS` puts its timeline.
//! `--phases` writes to standard error what each phase took; `--until` ends after one.

mod abbrevs;
mod bytes;
mod cfi;
mod columns;
mod database;
mod decode;
mod dwarf;
mod eh_frame;
mod elf;
mod events;
mod forms;
mod frames;
mod lines;
mod machine;
mod measurements;
mod memory;
mod ordered;
mod ranges;
mod runs;
mod schedule;
mod scopes;
mod table;
mod traces;
mod tree;
mod unwind;

use std::io::Write;
use std::process::exit;
use std::time::Instant;

use bytes::Read;
use columns::Column;
use frames::Rows;
use machine::Machine;
use runs::Runs;
use schedule::number;
use scopes::Scopes;
use traces::Traced;
use tree::Tree;
use unwind::Unwinder;

const PHASES: [&str; 8] = ["start", "read", "run", "tree", "values", "database", "store", "report"];

fn usage() -> ! {
    eprintln!("usage: baseline [--workers N] [--phases] [--until PHASE] ELF INPUT SCHEDULE PERIOD DB");
    eprintln!("       baseline merge [--workers N] [--phases] [--until PHASE] ELF DB MEASURE ..");
    eprintln!("       baseline trace [--phases] [--until PHASE] ELF INPUT SCHEDULE PERIOD TRACE");
    eprintln!("       baseline timeline ELF TRACE DEPTH CELLS");
    exit(2)
}

struct Words {
    workers: usize,
    shows_phases: bool,
    last_phase: String,
    files: Vec<String>,
}

impl Words {
    fn read() -> Words {
        let mut given = std::env::args().skip(1);
        let mut words = Words { workers: 1, shows_phases: false, last_phase: String::new(), files: Vec::new() };
        while let Some(word) = given.next() {
            match word.as_str() {
                "--workers" => {
                    let number = given.next().and_then(|number| number.parse().ok());
                    words.workers = number.filter(|number| *number > 0).unwrap_or_else(|| usage());
                }
                "--phases" => words.shows_phases = true,
                "--until" => words.last_phase = given.next().unwrap_or_else(|| usage()),
                _ => words.files.push(word),
            }
        }
        let is_phase = words.last_phase.is_empty() || PHASES.contains(&words.last_phase.as_str());
        let is_trace = words.is_called("trace") && words.files.len() == 6;
        let is_whole = words.is_called("merge") && words.files.len() > 3 || words.files.len() == 5 || is_trace;
        if is_whole && is_phase { words } else { usage() }
    }
}

impl Words {
    fn is_called(&self, command: &str) -> bool {
        self.files.first().is_some_and(|word| word == command)
    }
}

/// Tells what the phases take.
struct Clock<'w> {
    words: &'w Words,
    since: Instant,
}

impl Clock<'_> {
    /// Ends a phase: its seconds by the clock, and the most memory that the process has held so far.
    fn done(&mut self, phase: &str) {
        if self.words.shows_phases {
            let status = std::fs::read_to_string("/proc/self/status").unwrap_or_default();
            let peak = status.lines().find_map(|line| line.strip_prefix("VmHWM:"));
            let peak = peak.and_then(|rest| rest.trim().strip_suffix(" kB")).unwrap_or("0");
            eprintln!("phase {phase} seconds {:.6} peak {peak} KiB", self.since.elapsed().as_secs_f64());
        }
        if self.words.last_phase == phase {
            exit(0);
        }
        self.since = Instant::now();
    }
}

/// A refusal as the program puts it.
fn accepted<T>(read: Read<T>) -> T {
    read.unwrap_or_else(|line| {
        eprintln!("hpc: {line}");
        exit(3)
    })
}

/// Makes the database and the tables of measurements of one program.
fn merge(words: &Words, mut clock: Clock) -> std::io::Result<()> {
    let [_, elf, database, names @ ..] = words.files.as_slice() else { usage() };
    let file = std::fs::read(elf)?;
    let program = accepted(elf::Program::read(&file));
    let scopes = accepted(Scopes::read(&program));
    clock.done("start");
    let files = names.iter().map(std::fs::read).collect::<std::io::Result<Vec<_>>>()?;
    let Runs { heads, paths } = accepted(Runs::read(&files));
    accepted(Runs::judge(&heads, &paths, &program));
    let (events, runs): (_, Vec<u32>) = (&heads[0].events, heads.iter().map(|head| head.harts).collect());
    clock.done("read");
    let columns = runs.iter().sum::<u32>() as usize * events.len();
    let tree = accepted(Tree::of(&scopes, paths, columns, words.workers));
    clock.done("tree");
    let columns = Column::all(&tree, words.workers);
    clock.done("values");
    let bytes = database::bytes(&tree, &columns, events, &runs);
    clock.done("database");
    std::fs::write(database, &bytes)?;
    clock.done("store");
    drop(bytes);
    table::report(Vec::new(), &tree, &columns, events, std::io::stdout().lock())?;
    clock.done("report");
    Ok(())
}

/// Stores the trace of a run, and puts the report without its table.
fn trace(words: &Words, mut clock: Clock) -> std::io::Result<()> {
    let [_, elf, input, text, period, trace] = words.files.as_slice() else { usage() };
    let (file, input) = (std::fs::read(elf)?, std::fs::read(input)?);
    let (harts, slices) = accepted(schedule::read(&std::fs::read(text)?));
    let period = number(period.as_bytes(), 1, u32::MAX).unwrap_or_else(|| usage());
    let program = accepted(elf::Program::read(&file));
    let mut unwinder = Unwinder::of(accepted(Rows::read(&program)));
    let mut machine = Machine::start(&program, harts, &input);
    clock.done("start");
    let traced = accepted(Traced::of(&mut machine, &mut unwinder, &slices, period));
    clock.done("run");
    let bytes = traced.bytes(&program, &machine, period);
    clock.done("database");
    std::fs::write(trace, &bytes)?;
    clock.done("store");
    let text = table::summary(&machine, &traced.samples(), &[events::retired(period)]);
    std::io::stdout().write_all(&text)?;
    clock.done("report");
    Ok(())
}

fn timeline(words: &Words) -> std::io::Result<()> {
    let [_, elf, kept, depth, cells] = words.files.as_slice() else { usage() };
    let number = |word: &String, most| number(word.as_bytes(), 1, most).unwrap_or_else(|| usage());
    let (depth, cells) = (number(depth, 64), number(cells, 512));
    let (file, kept) = (std::fs::read(elf)?, std::fs::read(kept)?);
    let text = accepted(traces::timeline(&file, &kept, depth as usize, u64::from(cells)));
    std::io::stdout().write_all(&text)
}

fn main() -> std::io::Result<()> {
    let words = Words::read();
    let mut clock = Clock { words: &words, since: Instant::now() };
    match words.files[0].as_str() {
        "merge" => return merge(&words, clock),
        "trace" => return trace(&words, clock),
        "timeline" => return timeline(&words),
        _ => {}
    }
    let [elf, input, text, period, database] = words.files.as_slice() else { usage() };
    let (file, input) = (std::fs::read(elf)?, std::fs::read(input)?);
    let (harts, slices) = accepted(schedule::read(&std::fs::read(text)?));
    let events = events::events_of(period.as_bytes()).unwrap_or_else(|| usage());
    let program = accepted(elf::Program::read(&file));
    let mut unwinder = Unwinder::of(accepted(Rows::read(&program)));
    let scopes = accepted(Scopes::read(&program));
    let mut machine = Machine::start(&program, harts, &input);
    clock.done("start");
    let paths = accepted(events::counted(&mut machine, &mut unwinder, &slices, &events));
    clock.done("run");
    let tree = accepted(Tree::of(&scopes, paths, harts as usize * events.len(), words.workers));
    clock.done("tree");
    let columns = Column::all(&tree, words.workers);
    clock.done("values");
    let bytes = database::bytes(&tree, &columns, &events, &[harts]);
    clock.done("database");
    std::fs::write(database, &bytes)?;
    clock.done("store");
    drop(bytes);
    let text = table::summary(&machine, &tree.samples(), &events);
    table::report(text, &tree, &columns, &events, std::io::stdout().lock())?;
    clock.done("report");
    Ok(())
}
