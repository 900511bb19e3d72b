//! The files that are read: a program's function symbols, and measurements of both versions.
use super::tries::Map;

pub fn word(bytes: &[u8], at: usize) -> u32 {
    u32::from_le_bytes(bytes[at..at + 4].try_into().unwrap())
}

pub struct Symbol {
    pub start: u32,
    pub size: u32,
    pub name: Vec<u8>,
}

/// The function symbols in file order.
pub fn symbols(elf: &[u8]) -> Vec<Symbol> {
    let half = |at: usize| u16::from_le_bytes([elf[at], elf[at + 1]]) as usize;
    let (offset, size, count) = (word(elf, 32) as usize, half(46), half(48));
    let mut found = Vec::new();
    for header in (0..count).map(|i| offset + i * size) {
        if word(elf, header + 4) != 2 {
            continue;
        }
        let (start, length) = (word(elf, header + 16) as usize, word(elf, header + 20) as usize);
        let strings = word(elf, offset + word(elf, header + 24) as usize * size + 16) as usize;
        for at in (start..start + length).step_by(16) {
            if elf[at + 12] & 15 == 2 && half(at + 14) != 0 && word(elf, at + 8) > 0 {
                let name = &elf[strings + word(elf, at) as usize..];
                let end = name.iter().position(|b| *b == 0).unwrap();
                found.push(Symbol { start: word(elf, at + 4), size: word(elf, at + 8), name: name[..end].to_vec() });
            }
        }
    }
    found
}

/// A counted path of a column, which is a hart's and an event's; its pcs are in the file's bytes, the innermost first.
pub struct Path<'a> {
    pub column: u32,
    pub count: u32,
    pub is_partial: bool,
    pub pcs: &'a [u8],
}

/// An event's number (0 retired, 1 loads, 2 stores, 3 taken) and its period.
#[derive(Clone, Copy, PartialEq, Eq)]
pub struct Event {
    pub number: u32,
    pub period: u32,
}

/// The head of a measurement.
pub struct Head {
    pub events: Vec<Event>,
    pub harts: u32,
}

/// The head, and where the paths begin.
fn head(bytes: &[u8]) -> (Head, usize) {
    if &bytes[..8] == b"HPCRUNM1" {
        let events = vec![Event { number: 0, period: word(bytes, 16) }];
        return (Head { events, harts: word(bytes, 20) }, 24);
    }
    assert_eq!(&bytes[..8], b"HPCRUNM2");
    let end = 20 + 8 * word(bytes, 16) as usize;
    let event = |at| Event { number: word(bytes, at), period: word(bytes, at + 4) };
    (Head { events: (20..end).step_by(8).map(event).collect(), harts: word(bytes, end) }, end + 4)
}

/// Reads a measurement: its paths come after others, in columns from one on. Each is looked for among those of its
/// column, since they must be distinct.
pub fn measurement<'a>(bytes: &'a [u8], first_column: u32, paths: &mut Vec<Path<'a>>) -> Head {
    let (head, mut at) = head(bytes);
    let columns = head.harts * head.events.len() as u32;
    for column in first_column..first_column + columns {
        let count = word(bytes, at) as usize;
        at += 4;
        let mut known: Map<(u32, &[u8]), ()> = Map::with_capacity_and_hasher(count, Default::default());
        paths.reserve(count);
        for _ in 0..count {
            let (end, frames) = (word(bytes, at + 4), word(bytes, at + 8) as usize);
            let pcs = &bytes[at + 12..at + 12 + 4 * frames];
            assert!(known.insert((end, pcs), ()).is_none());
            paths.push(Path { column, count: word(bytes, at), is_partial: end != 0, pcs });
            at += 12 + 4 * frames;
        }
    }
    assert_eq!(at, bytes.len());
    head
}
