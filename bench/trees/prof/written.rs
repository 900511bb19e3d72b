//! What is written: the database and the table.
use super::files::{Event, Symbol};
use super::tries::{Line, NO_PARENT, Node, Proc, Scope};
use super::values::Plane;
use std::io::{Result, Write};

pub const EVENTS: [&str; 4] = ["retired", "loads", "stores", "taken"];

/// All that a database and a table show.
pub struct Content {
    pub events: Vec<Event>,
    /// The harts of each run.
    pub runs: Vec<u32>,
    /// The procedures of the nodes and their names, ascending.
    pub names: Vec<(Proc, Vec<u8>)>,
    pub nodes: Vec<Node>,
    pub profiles: Plane,
    pub contexts: Plane,
    /// How many samples each event has.
    pub samples: Vec<u64>,
}

fn name_of(procedure: Proc, symbols: &[Symbol]) -> Vec<u8> {
    match procedure {
        Proc::Sym(start) => symbols.iter().find(|s| s.start == start).unwrap().name.clone(),
        Proc::Nameless => b"<unknown procedure>".to_vec(),
        Proc::Die(_) => unreachable!(),
    }
}

/// The procedures that the nodes use, with their names.
pub fn names(nodes: &[Node], symbols: &[Symbol]) -> Vec<(Proc, Vec<u8>)> {
    let used = nodes.iter().filter_map(|node| if let Scope::Proc(p) = node.scope { Some(p) } else { None });
    let mut procs: Vec<Proc> = used.collect();
    procs.sort_unstable();
    procs.dedup();
    procs.into_iter().map(|p| (p, name_of(p, symbols))).collect()
}

impl Content {
    fn is_retired_alone(&self) -> bool {
        self.events.len() == 1 && self.events[0].number == 0
    }

    fn procedure(&self, procedure: Proc) -> usize {
        self.names.binary_search_by(|name| name.0.cmp(&procedure)).unwrap()
    }
}

// ---- the database

fn put_words(out: &mut Vec<u8>, words: impl IntoIterator<Item = u32>) {
    words.into_iter().for_each(|word| out.extend(word.to_le_bytes()));
}

pub fn put_entries(out: &mut Vec<u8>, plane: &Plane) {
    for part in plane.starts.windows(2) {
        put_words(out, [(part[1] - part[0]) as u32]);
        for entry in &plane.entries[part[0]..part[1]] {
            out.extend(entry.first.to_le_bytes());
            out.extend(entry.second.to_le_bytes());
            out.extend(entry.value.to_le_bytes());
        }
    }
}

/// Version 3 of several runs; else version 1 of retired alone, and version 2 of other events.
fn put_head(out: &mut Vec<u8>, content: &Content) {
    let harts = content.runs[0];
    let events = content.events.iter().flat_map(|event| [event.number, event.period]);
    if content.runs.len() > 1 {
        out.extend(b"HPCPROF3");
        put_words(out, [content.events.len() as u32]);
        put_words(out, events);
        put_words(out, [content.runs.len() as u32]);
        put_words(out, content.runs.iter().copied());
    } else if content.is_retired_alone() {
        out.extend(b"HPCPROF1");
        put_words(out, [content.events[0].period, harts]);
    } else {
        out.extend(b"HPCPROF2");
        put_words(out, [content.events.len() as u32]);
        put_words(out, events);
        put_words(out, [harts]);
    }
    put_words(out, [content.names.len() as u32, 0, content.nodes.len() as u32]);
}

fn put_node(out: &mut Vec<u8>, content: &Content, node: &Node) {
    put_words(out, [node.parent]);
    match node.scope {
        Scope::Root(partial) => put_words(out, [0, partial as u32]),
        Scope::Proc(p) => put_words(out, [1, content.procedure(p) as u32]),
        Scope::Call(Line::Address(pc)) => put_words(out, [3, 1, pc]),
        Scope::Stmt(Line::Address(pc)) => put_words(out, [4, 1, pc]),
        _ => unreachable!(),
    }
}

pub fn database(content: &Content) -> Vec<u8> {
    let Content { names, nodes, profiles, contexts, .. } = content;
    let mut out = Vec::new();
    put_head(&mut out, content);
    for (procedure, name) in names {
        let (kind, number) = if let Proc::Sym(start) = procedure { (1, *start) } else { (2, 0) };
        put_words(&mut out, [kind, number, name.len() as u32]);
        out.extend(name);
    }
    let lists = 4 * (profiles.starts.len() + contexts.starts.len());
    out.reserve(20 * nodes.len() + lists + 16 * (profiles.entries.len() + contexts.entries.len()));
    nodes.iter().for_each(|node| put_node(&mut out, content, node));
    put_entries(&mut out, profiles);
    put_entries(&mut out, contexts);
    out
}

// ---- the table

/// So many blanks.
fn put_blanks(row: &mut Vec<u8>, count: usize) {
    row.resize(row.len() + count, b' ');
}

/// The digits of a number, at the right of so many places.
fn put_number(row: &mut Vec<u8>, mut number: u64, width: usize) {
    let mut digits = [b' '; 20];
    let mut at = digits.len();
    loop {
        at -= 1;
        digits[at] = b'0' + (number % 10) as u8;
        number /= 10;
        if number == 0 {
            break;
        }
    }
    row.extend(&digits[at.min(digits.len() - width.min(digits.len()))..]);
}

fn put_address(row: &mut Vec<u8>, pc: u32) {
    row.extend(b"0x");
    for place in (0..8).rev() {
        row.push(b"0123456789abcdef"[(pc >> (4 * place)) as usize & 15]);
    }
}

/// A column's number for tenths of a per cent, at the right of six places.
fn put_share(row: &mut Vec<u8>, tenths: u64) {
    put_number(row, tenths / 10, 4);
    row.push(b'.');
    row.push(b'0' + (tenths % 10) as u8);
}

fn put_label(row: &mut Vec<u8>, scope: Scope, content: &Content) {
    match scope {
        Scope::Root(false) => row.extend(b"<thread root>"),
        Scope::Root(true) => row.extend(b"<partial call paths>"),
        Scope::Proc(p) => row.extend(&content.names[content.procedure(p)].1),
        Scope::Call(Line::Address(pc)) => {
            row.extend(b"call at ");
            put_address(row, pc);
        }
        Scope::Stmt(Line::Address(pc)) => put_address(row, pc),
        _ => unreachable!(),
    }
}

/// The inclusive and the frame value of a node, of all columns of an event.
fn values_of(content: &Content, number: usize, event: usize) -> (u64, u64) {
    let Plane { starts, entries } = &content.contexts;
    let mut sums = [0; 3];
    for entry in &entries[starts[number]..starts[number + 1]] {
        if entry.second as usize % content.events.len() == event {
            sums[entry.first as usize] += entry.value;
        }
    }
    (sums[2], sums[1])
}

/// The tables of all events, in pieces of 64 KiB or of a row.
pub fn table(out: &mut impl Write, content: &Content) -> Result<()> {
    let mut rows = Vec::new();
    for (place, event) in content.events.iter().enumerate() {
        let (samples, name) = (content.samples[place], EVENTS[event.number as usize]);
        let total = samples * u64::from(event.period);
        if !content.is_retired_alone() {
            writeln!(rows, "event {name} period {} samples {samples} total {total}", event.period)?;
        }
        rows.extend(b"       inclusive      %            frame  scope\n");
        put_rows(out, &mut rows, content, place, total)?;
    }
    out.write_all(&rows)
}

/// The rows of the nodes that an event has samples of. What is left of the last piece stays in `rows`.
fn put_rows(out: &mut impl Write, rows: &mut Vec<u8>, content: &Content, event: usize, total: u64) -> Result<()> {
    let mut depths: Vec<u32> = Vec::with_capacity(content.nodes.len());
    for (number, node) in content.nodes.iter().enumerate() {
        let depth = if node.parent == NO_PARENT { 0 } else { depths[node.parent as usize] + 1 };
        depths.push(depth);
        let (inclusive, frame) = values_of(content, number, event);
        if inclusive == 0 {
            continue;
        }
        put_number(rows, inclusive, 16);
        rows.push(b' ');
        put_share(rows, inclusive * 1000 / total);
        rows.push(b' ');
        put_number(rows, frame, 16);
        put_blanks(rows, 2 + 2 * depth as usize);
        put_label(rows, node.scope, content);
        rows.push(b'\n');
        if rows.len() >= 1 << 16 {
            out.write_all(rows)?;
            rows.clear();
        }
    }
    Ok(())
}

/// The tables as one text, whose length is found first.
pub fn whole_table(content: &Content) -> Result<Vec<u8>> {
    let mut length = Length(0);
    table(&mut length, content)?;
    let mut text = Vec::with_capacity(length.0);
    table(&mut text, content)?;
    Ok(text)
}

struct Length(usize);

impl Write for Length {
    fn write(&mut self, bytes: &[u8]) -> Result<usize> {
        self.0 += bytes.len();
        Ok(bytes.len())
    }

    fn flush(&mut self) -> Result<()> {
        Ok(())
    }
}
