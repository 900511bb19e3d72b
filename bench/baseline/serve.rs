//! The second reading as a server: it reads requests on its standard input, and answers each as hpc.rs would with the
//! same words, over the files of the folder that it was started in. It keeps nothing between them.
//!
//! A request is its words, each behind its length, and 0xFFFFFFFF. An answer is the status, the lengths of the output
//! and of the line, and these two. Numbers have four bytes, the lowest first. The end of the input ends the server.

mod abbrevs;
mod bytes;
mod cfi;
mod columns;
mod commands;
mod database;
mod decode;
mod dwarf;
mod eh_frame;
mod elf;
mod events;
mod forms;
mod frames;
mod lines;
mod listing;
mod machine;
mod measurements;
mod memory;
mod ordered;
mod ranges;
mod runs;
mod schedule;
mod scopes;
mod table;
mod traces;
mod tree;
mod unwind;
mod written;

use std::ffi::OsString;
use std::io::{Read, Result, Write};
use std::os::unix::ffi::OsStringExt;

const END: u32 = u32::MAX;

fn number(input: &mut impl Read) -> Result<u32> {
    let mut bytes = [0; 4];
    input.read_exact(&mut bytes)?;
    Ok(u32::from_le_bytes(bytes))
}

fn words(input: &mut impl Read) -> Result<Vec<OsString>> {
    let mut words = Vec::new();
    loop {
        let length = number(input)?;
        if length == END {
            return Ok(words);
        }
        let mut word = vec![0; length as usize];
        input.read_exact(&mut word)?;
        words.push(OsString::from_vec(word));
    }
}

fn main() -> Result<()> {
    let (mut input, mut output) = (std::io::stdin().lock(), std::io::stdout().lock());
    while let Ok(words) = words(&mut input) {
        let (status, text, line) = match commands::answer(&words).and_then(commands::stored) {
            Ok(text) => (0, text, String::new()),
            Err(refused) => (refused.status(), Vec::new(), refused.line()),
        };
        let numbers = [status as u32, text.len() as u32, line.len() as u32].map(u32::to_le_bytes);
        output.write_all(&[&numbers.concat(), text.as_slice(), line.as_bytes()].concat())?;
        output.flush()?;
    }
    Ok(())
}
