//! A plain reader of `.eh_frame`: `frames FILE` carries out the instructions of each CIE and FDE once, finds which FDE is
//! the first at each address, and says how many FDEs have a range that counts. Of a program that `frames.py` writes: CIEs
//! without augmentation, addresses of four bytes.
#[path = "../baseline/bytes.rs"]
#[allow(dead_code)]
mod bytes;
#[path = "../baseline/cfi.rs"]
#[allow(dead_code)]
mod cfi;
#[path = "../baseline/ranges.rs"]
#[allow(dead_code)]
mod ranges;

use bytes::Cursor;
use cfi::Cie;
use ranges::FirstRange;

fn word(bytes: &[u8], at: usize) -> u32 {
    u32::from_le_bytes(bytes[at..at + 4].try_into().expect("four bytes"))
}

fn half(bytes: &[u8], at: usize) -> usize {
    usize::from(u16::from_le_bytes([bytes[at], bytes[at + 1]]))
}

/// The bytes of `.eh_frame`, and the first segment's addresses.
fn section(file: &[u8]) -> (&[u8], u32, u32) {
    let (segments, sections) = (word(file, 28) as usize, word(file, 32) as usize);
    let header = |number: usize| sections + 40 * number;
    let names = word(file, header(half(file, 50)) + 16) as usize;
    for number in 0..half(file, 48) {
        let at = header(number);
        if file[names + word(file, at) as usize..].starts_with(b".eh_frame\0") {
            let offset = word(file, at + 16) as usize;
            let bytes = &file[offset..offset + word(file, at + 20) as usize];
            let start = word(file, segments + 8);
            return (bytes, start, start + word(file, segments + 20));
        }
    }
    panic!("no .eh_frame");
}

/// Each entry's offset and end, up to a length of 0.
fn entries(bytes: &[u8]) -> Vec<(u32, u32)> {
    let (mut at, mut found) = (0, Vec::new());
    while at + 4 <= bytes.len() {
        let length = word(bytes, at);
        if length == 0 {
            break;
        }
        let end = at + 4 + length as usize;
        found.push((at as u32, end as u32));
        at = end;
    }
    found
}

/// The range of an FDE, when its instructions are carried out.
fn fde(cie: &Cie, mut c: Cursor) -> (u32, u32) {
    let (start, size) = (c.word().expect("a start"), c.word().expect("a size"));
    let mut state = cie.begin().ok().expect("instructions");
    while c.left() > 0 {
        state.step(&mut c).expect("an instruction");
    }
    (start, start + size)
}

fn main() {
    let name = std::env::args().nth(1).expect("a file");
    let file = std::fs::read(name).expect("the file");
    let (bytes, low, high) = section(&file);
    let (mut cies, mut ranges) = (Vec::new(), Vec::new());
    let cursor = |at: u32, end: u32| Cursor { bytes: &bytes[..end as usize], at: at as usize + 8 };
    for (at, end) in entries(bytes) {
        let distance = word(bytes, at as usize + 4);
        if distance == 0 {
            let cie = Cie::read(cursor(at, end)).expect("a CIE").expect("a version");
            cie.begin().ok().expect("instructions");
            cies.push((at, cie));
        } else {
            let place = cies.binary_search_by_key(&(at + 4 - distance), |cie| cie.0).expect("the CIE");
            let range = fde(&cies[place].1, cursor(at, end));
            if low <= range.0 && range.0 < range.1 && range.1 <= high {
                ranges.push(range);
            }
        }
    }
    let count = ranges.len();
    let index = FirstRange::of(ranges.into_iter());
    assert!(count == 0 || !index.steps.is_empty());
    println!("{count} frame descriptions");
}
