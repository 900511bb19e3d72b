//! A second reading of the program's files: `hpc profile|run|prof|struct|merge|live|trace|timeline WORDS..`, one command.

mod abbrevs;
mod bytes;
mod cfi;
mod columns;
mod commands;
mod database;
mod decode;
mod dwarf;
mod eh_frame;
mod elf;
mod events;
mod forms;
mod frames;
mod lines;
mod listing;
mod machine;
mod measurements;
mod memory;
mod ordered;
mod ranges;
mod runs;
mod schedule;
mod scopes;
mod table;
mod traces;
mod tree;
mod unwind;
mod written;

use std::ffi::OsString;
use std::io::Write;
use std::process::exit;

fn main() {
    let words: Vec<OsString> = std::env::args_os().skip(1).collect();
    let put = |text: Vec<u8>| std::io::stdout().write_all(&text).map_err(|_| commands::device("print"));
    if let Err(refused) = commands::answer(&words).and_then(commands::stored).and_then(put) {
        eprint!("{}", refused.line());
        exit(refused.status());
    }
}
