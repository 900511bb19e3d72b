//! A static ELF32 program for RISC-V (System V ABI, chapters 4 and 5): what of it the run and the report need.

use std::collections::BTreeMap;

use crate::bytes::{Read, half, text_at, word};
use crate::ranges::FirstRange;

pub const EXECUTE: u32 = 1;
pub const WRITE: u32 = 2;
pub const READ: u32 = 4;
const SYMTAB: u32 = 2;
const STRTAB: u32 = 3;
const NOBITS: u32 = 8;
const COMPRESSED: u32 = 0x800;
const STACKS_BEGIN: u64 = 0xf000_0000;
/// The sections that may not be compressed.
const DEBUG_SECTIONS: [&[u8]; 9] = [
    b".debug_info",
    b".debug_abbrev",
    b".debug_line",
    b".debug_str",
    b".debug_line_str",
    b".debug_str_offsets",
    b".debug_addr",
    b".debug_rnglists",
    b".debug_frame",
];

/// A loaded segment: addresses `start..end`, of which the first `filled` bytes are the file's from `offset` on.
#[derive(Clone, Copy)]
pub struct Segment {
    pub start: u32,
    pub end: u32,
    pub flags: u32,
    pub offset: u32,
    pub filled: u32,
}

/// A function symbol whose range counts.
#[derive(Clone, Copy)]
pub struct Function<'a> {
    pub start: u32,
    pub end: u32,
    pub name: &'a [u8],
}

/// The sections of debug information; empty where they are absent.
#[derive(Clone, Copy)]
pub struct Debug<'a> {
    pub info: &'a [u8],
    pub abbrev: &'a [u8],
    pub line: &'a [u8],
    pub str_bytes: &'a [u8],
    pub line_str: &'a [u8],
    pub str_offsets: &'a [u8],
    pub addr: &'a [u8],
    pub rnglists: &'a [u8],
}

pub struct Program<'a> {
    pub file: &'a [u8],
    pub entry: u32,
    pub segments: Vec<Segment>,
    /// The executable segments, by their starts.
    code: BTreeMap<u32, u32>,
    pub functions: Vec<Function<'a>>,
    pub debug_frame: &'a [u8],
    /// `.eh_frame` and its address.
    pub eh_frame: (&'a [u8], u32),
    pub debug: Debug<'a>,
}

#[derive(Clone, Copy)]
struct Section<'a> {
    header: usize,
    offset: u32,
    name: Option<&'a [u8]>,
    kind: u32,
    flags: u32,
    address: u32,
    link: usize,
    entry_size: u32,
    bytes: &'a [u8],
}

fn refused<T>(rule: &str, at: usize) -> Read<T> {
    Err(format!("program {rule} at {at}"))
}

/// Whether bytes lie within the file; none do so wherever they begin.
fn lies_within(file: &[u8], offset: u32, size: u64) -> bool {
    size == 0 || u64::from(offset) + size <= file.len() as u64
}

impl<'a> Program<'a> {
    /// Reads a program, or gives the first of the eight refusals, in their order.
    pub fn read(file: &'a [u8]) -> Read<Program<'a>> {
        check_header(file)?;
        let headers: Vec<usize> = headers(file, 28, 44, 32).filter(|at| is_loaded(file, *at)).collect();
        check_segments(file, &headers)?;
        let segments: Vec<Segment> = headers.iter().map(|at| segment(file, *at)).collect();
        let code = segments.iter().filter(|it| it.flags & EXECUTE != 0).map(|it| (it.start, it.end)).collect();
        let sections = sections(file)?;
        let named = |name: &[u8]| sections.iter().find(|it| it.kind != 0 && it.name == Some(name));
        let bytes = |name: &[u8]| named(name).map_or(&[][..], |section| section.bytes);
        let functions = functions(&code, &sections)?;
        let debug_frame = bytes(b".debug_frame");
        let eh_frame = (bytes(b".eh_frame"), named(b".eh_frame").map_or(0, |section| section.address));
        let debug = Debug {
            info: bytes(b".debug_info"),
            abbrev: bytes(b".debug_abbrev"),
            line: bytes(b".debug_line"),
            str_bytes: bytes(b".debug_str"),
            line_str: bytes(b".debug_line_str"),
            str_offsets: bytes(b".debug_str_offsets"),
            addr: bytes(b".debug_addr"),
            rnglists: bytes(b".debug_rnglists"),
        };
        Ok(Program { file, entry: word(file, 24), segments, code, functions, debug_frame, eh_frame, debug })
    }

    /// Whether a range is not empty and lies within one segment that may be executed.
    pub fn counts(&self, start: u32, size: u32) -> bool {
        counts(&self.code, start, size)
    }

    /// The index of the first function symbol that holds an address.
    pub fn function_index(&self) -> FirstRange {
        FirstRange::of(self.functions.iter().map(|function| (function.start, function.end)))
    }
}

fn counts(code: &BTreeMap<u32, u32>, start: u32, size: u32) -> bool {
    let end = u64::from(start) + u64::from(size);
    let below = code.range(..=start).next_back();
    size > 0 && below.is_some_and(|(_, last)| end <= u64::from(*last))
}

/// The offsets of headers, by the places of their table's offset and of their number, and by their size.
fn headers(file: &[u8], offset: usize, number: usize, size: usize) -> impl Iterator<Item = usize> {
    let (start, count) = (word(file, offset) as usize, half(file, number) as usize);
    (0..count).map(move |i| start + size * i)
}

fn check_header(file: &[u8]) -> Read<()> {
    let wrong = |at: &usize| file.get(*at).copied().unwrap_or(0) != b"\x7fELF"[*at];
    if let Some(at) = (0..4).find(wrong) {
        return refused("NotElf", at);
    }
    if file.len() < 52 {
        return refused("NotElf", file.len());
    }
    let fixed = [
        (4, u32::from(file[4]), 1),
        (5, u32::from(file[5]), 1),
        (6, u32::from(file[6]), 1),
        (16, half(file, 16), 2),
        (18, half(file, 18), 243),
        (20, word(file, 20), 1),
    ];
    if let Some((at, ..)) = fixed.iter().find(|(_, found, wanted)| found != wanted) {
        return refused("NotRiscv32Exec", *at);
    }
    if word(file, 36) & 1 != 0 {
        return refused("CompressedCode", 36);
    }
    let (programs, sections) = (half(file, 44), half(file, 48));
    let places = [
        (42, programs == 0 || half(file, 42) == 32),
        (28, lies_within(file, word(file, 28), 32 * u64::from(programs))),
        (46, sections == 0 || half(file, 46) == 40),
        (32, lies_within(file, word(file, 32), 40 * u64::from(sections))),
        (50, sections == 0 || half(file, 50) < sections),
    ];
    places.iter().find(|(_, is_right)| !is_right).map_or(Ok(()), |(at, _)| refused("HeaderPlace", *at))
}

/// A header of PT_LOAD with bytes in memory.
fn is_loaded(file: &[u8], at: usize) -> bool {
    word(file, at) == 1 && word(file, at + 20) > 0
}

fn check_segments(file: &[u8], headers: &[usize]) -> Read<()> {
    let span =
        |at: usize| (u64::from(word(file, at + 8)), u64::from(word(file, at + 8)) + u64::from(word(file, at + 20)));
    let overfilled = |at: &&usize| word(file, **at + 16) > word(file, **at + 20);
    let unfilled = |at: &&usize| !lies_within(file, word(file, **at + 4), u64::from(word(file, **at + 16)));
    let too_high = |at: &&usize| span(**at).1 > STACKS_BEGIN;
    let first = headers.iter().find(overfilled).or_else(|| headers.iter().find(unfilled));
    if let Some(at) = first.or_else(|| headers.iter().find(too_high)) {
        return refused("SegmentPlace", *at);
    }
    let mut taken: BTreeMap<u64, u64> = BTreeMap::new();
    for at in headers {
        let (start, end) = span(*at);
        if taken.range(..end).next_back().is_some_and(|(_, last)| *last > start) {
            return refused("SegmentPlace", *at);
        }
        taken.insert(start, end);
    }
    Ok(())
}

fn segment(file: &[u8], at: usize) -> Segment {
    let (start, size) = (word(file, at + 8), word(file, at + 20));
    Segment {
        start,
        end: start + size,
        flags: word(file, at + 24),
        offset: word(file, at + 4),
        filled: word(file, at + 16),
    }
}

/// The sections with their names, or the first that is not in its place or is compressed.
fn sections(file: &[u8]) -> Read<Vec<Section<'_>>> {
    let names = half(file, 50) as usize;
    let all: Vec<usize> = headers(file, 32, 48, 40).collect();
    let has_bytes = |at: usize| !matches!(word(file, at + 4), 0 | NOBITS);
    let extent = |at: usize| (word(file, at + 16), word(file, at + 20));
    let outside = |at: &&usize| has_bytes(**at) && !lies_within(file, extent(**at).0, u64::from(extent(**at).1));
    if let Some(at) = all.iter().find(outside) {
        return refused("SectionPlace", *at);
    }
    let bytes = |at: usize| match extent(at) {
        (_, 0) => &[][..],
        (offset, size) if has_bytes(at) => &file[offset as usize..][..size as usize],
        _ => &[][..],
    };
    let name = |at: usize| match names {
        0 => Some(&[][..]),
        names => text_at(bytes(all[names]), word(file, at) as usize),
    };
    let found: Vec<Section> = all.iter().map(|at| section(file, *at, name(*at), bytes(*at))).collect();
    if let Some(section) = found.iter().find(|section| section.kind != 0 && section.name.is_none()) {
        return refused("SectionPlace", section.header);
    }
    let is_debug = |section: &Section| section.name.is_some_and(|name| DEBUG_SECTIONS.contains(&name));
    let compressed = |section: &&Section| section.kind != 0 && section.flags & COMPRESSED != 0 && is_debug(section);
    match found.iter().find(compressed) {
        Some(section) => refused("CompressedSection", section.header),
        None => Ok(found),
    }
}

fn section<'a>(file: &[u8], at: usize, name: Option<&'a [u8]>, bytes: &'a [u8]) -> Section<'a> {
    Section {
        header: at,
        offset: word(file, at + 16),
        name,
        kind: word(file, at + 4),
        flags: word(file, at + 8),
        address: word(file, at + 12),
        link: word(file, at + 24) as usize,
        entry_size: word(file, at + 36),
        bytes,
    }
}

fn functions<'a>(code: &BTreeMap<u32, u32>, sections: &[Section<'a>]) -> Read<Vec<Function<'a>>> {
    let Some(table) = sections.iter().find(|section| section.kind == SYMTAB) else { return Ok(Vec::new()) };
    let names = sections.get(table.link).filter(|section| section.kind == STRTAB);
    let is_right = table.entry_size == 16 && table.bytes.len() % 16 == 0;
    let Some(names) = names.filter(|_| is_right) else { return refused("SymbolPlace", table.header) };
    let mut found = Vec::new();
    for (place, symbol) in table.bytes.chunks_exact(16).enumerate() {
        let (start, size) = (word(symbol, 4), word(symbol, 8));
        if symbol[12] & 15 == 2 && half(symbol, 14) != 0 && counts(code, start, size) {
            let Some(name) = text_at(names.bytes, word(symbol, 0) as usize) else {
                return refused("SymbolPlace", table.offset as usize + 16 * place);
            };
            found.push(Function { start, end: start + size, name });
        }
    }
    Ok(found)
}
