//! The commands prof and merge in plain Rust, in the program's own design: measurements are expanded chunk by chunk,
//! merged into tries, joined, summed, laid out in planes, and written as database and table. One trie a worker, or
//! sixteen by the paths' keys that all workers share, as the program's stripes, and a join behind them. For programs
//! without debug information: a procedure is the first function symbol that holds an address, a line is the address.
//!
//!     rustc -O --edition 2024 -o prof bench/trees/prof/main.rs
//!     prof ELF WORKERS DB MEASURE .. [--stripes] [--walk] [--whole] >table
//!
//! Each measurement is a run. The tries are entered anew into the first, or with --walk one walk goes over all. The
//! table is written in pieces of 64 KiB, or with --whole it is made as one text before the database is stored, as the
//! program does. It takes well-formed files alone, of one program and of the same events. What each phase took, and the
//! most memory by its end, goes to standard error.
mod files;
mod tree;
mod tries;
mod values;
mod written;

use std::io::Write;
use std::time::Instant;

pub use files::{Event, word};
pub use tree::Tree;
pub use tries::{End, Line, Map, NO_PARENT, Node, Proc, Scope};
pub use values::{Plane, by_column, by_node, sums};
pub use written::put_entries;

use files::{Head, Path, Symbol};
use tries::{Finder, Trie};
use written::Content;

struct Clock(Instant);

impl Clock {
    fn phase(&mut self, name: &str) {
        let status = std::fs::read_to_string("/proc/self/status").unwrap();
        let peak: u64 = status
            .lines()
            .find_map(|l| l.strip_prefix("VmHWM:"))
            .unwrap()
            .trim_end_matches("kB")
            .trim()
            .parse()
            .unwrap();
        eprintln!("{name:8} {:7.0} ms, peak {:6} MiB", self.0.elapsed().as_secs_f64() * 1000.0, peak / 1024);
        self.0 = Instant::now();
    }
}

/// How a call merges, joins and puts the table.
struct How {
    workers: usize,
    is_shared: bool,
    is_walked: bool,
    is_whole: bool,
}

/// The paths of all measurements in tries, and for each event its samples.
struct Merged {
    events: Vec<Event>,
    runs: Vec<u32>,
    samples: Vec<u64>,
    tries: Vec<Trie>,
}

fn merge(measures: &[String], symbols: &[Symbol], how: &How, clock: &mut Clock) -> std::io::Result<Merged> {
    let files = measures.iter().map(std::fs::read).collect::<std::io::Result<Vec<_>>>()?;
    let (mut paths, mut heads): (Vec<Path>, Vec<Head>) = (Vec::new(), Vec::new());
    let mut column = 0;
    for bytes in &files {
        heads.push(files::measurement(bytes, column, &mut paths));
        column += heads[heads.len() - 1].harts * heads[0].events.len() as u32;
    }
    let events = heads[0].events.clone();
    assert!(heads.iter().all(|head| head.events == events));
    let mut samples = vec![0; events.len()];
    paths.iter().for_each(|path| samples[path.column as usize % events.len()] += u64::from(path.count));
    clock.phase("read");
    let tries = tries::merged(&paths, &Finder::of(symbols), how.workers, how.is_shared);
    clock.phase("merge");
    Ok(Merged { events, runs: heads.iter().map(|head| head.harts).collect(), samples, tries })
}

fn tree_of(mut tries: Vec<Trie>, is_walked: bool) -> Tree {
    if is_walked {
        let trees: Vec<Tree> = tries.into_iter().map(tree::preorder).collect();
        return tree::joined(&trees);
    }
    let mut all = tries.remove(0);
    tries.drain(..).for_each(|trie| all.absorb(&trie));
    tree::preorder(all)
}

fn content(merged: Merged, symbols: &[Symbol], is_walked: bool, clock: &mut Clock) -> Content {
    let Merged { events, runs, samples, tries } = merged;
    let tree = tree_of(tries, is_walked);
    clock.phase("join");
    let columns = runs.iter().sum::<u32>() as usize * events.len();
    let values = sums(&tree, columns, &events);
    let nodes = tree.nodes;
    drop(tree.counts);
    clock.phase("sums");
    let (profiles, contexts) = (by_column(&values, columns), by_node(&values, nodes.len()));
    drop(values);
    clock.phase("planes");
    let names = written::names(&nodes, symbols);
    Content { events, runs, names, nodes, profiles, contexts, samples }
}

#[allow(dead_code)]
fn main() -> std::io::Result<()> {
    let (options, words): (Vec<String>, Vec<String>) =
        std::env::args().skip(1).partition(|word| word.starts_with("--"));
    let [elf, workers, db, measures @ ..] = &words[..] else {
        panic!("prof ELF WORKERS DB MEASURE .. [--stripes] [--walk] [--whole]")
    };
    let has = |name: &str| options.iter().any(|word| word == name);
    let how = How {
        workers: workers.parse().unwrap(),
        is_shared: has("--stripes"),
        is_walked: has("--walk"),
        is_whole: has("--whole"),
    };
    let mut clock = Clock(Instant::now());
    let symbols = files::symbols(&std::fs::read(elf)?);
    let merged = merge(measures, &symbols, &how, &mut clock)?;
    let content = content(merged, &symbols, how.is_walked, &mut clock);
    let bytes = written::database(&content);
    clock.phase("database");
    let mut out = std::io::stdout().lock();
    if how.is_whole {
        let text = written::whole_table(&content)?;
        clock.phase("table");
        std::fs::write(db, &bytes)?;
        out.write_all(&text)?;
        clock.phase("store");
    } else {
        std::fs::write(db, &bytes)?;
        drop(bytes);
        clock.phase("store");
        written::table(&mut out, &content)?;
        clock.phase("table");
    }
    Ok(())
}
