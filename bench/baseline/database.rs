//! The database's bytes: docs/FORMATS.md has the format.

use crate::columns::Column;
use crate::dwarf::Line;
use crate::events::{EventPeriod, is_retired_alone};
use crate::scopes::ProcId;
use crate::tree::{INLINE, NO_PARENT, PROC, ROOT, STMT, Tree};

const EXCLUSIVE: u32 = 0;
const FRAME: u32 = 1;
const INCLUSIVE: u32 = 2;

/// A column's place and the values that stand there, by kind.
fn samples(tree: &Tree, column: &Column, slot: usize) -> [u32; 3] {
    let is_innermost = tree.scopes[column.nodes[slot] as usize].kind() == STMT;
    let inclusive = column.inclusive[slot];
    [if is_innermost { inclusive } else { 0 }, column.frame[slot], inclusive]
}

fn entries(tree: &Tree, column: &Column) -> usize {
    let counted = |slot| samples(tree, column, slot).iter().filter(|count| **count > 0).count();
    (0..column.nodes.len()).map(counted).sum()
}

fn put(bytes: &mut Vec<u8>, word: u32) {
    bytes.extend_from_slice(&word.to_le_bytes());
}

/// Appends an entry: two words and a value of 8 bytes.
#[inline(always)]
fn put_entry(bytes: &mut Vec<u8>, first: u32, second: u32, value: u64) {
    let words = u128::from(first) | u128::from(second) << 32 | u128::from(value) << 64;
    bytes.extend_from_slice(&words.to_le_bytes());
}

/// The head up to the harts of the runs.
fn head(events: &[EventPeriod], runs: &[u32]) -> Vec<u8> {
    let is_alone = runs.len() == 1;
    if is_alone && is_retired_alone(events) {
        return [b"HPCPROF1".as_slice(), &events[0].period.to_le_bytes(), &runs[0].to_le_bytes()].concat();
    }
    let mut bytes = if is_alone { b"HPCPROF2".to_vec() } else { b"HPCPROF3".to_vec() };
    put(&mut bytes, events.len() as u32);
    for it in events {
        put(&mut bytes, it.event as u32);
        put(&mut bytes, it.period);
    }
    if !is_alone {
        put(&mut bytes, runs.len() as u32);
    }
    runs.iter().for_each(|harts| put(&mut bytes, *harts));
    bytes
}

/// Runs have the number of harts of each.
pub fn bytes(tree: &Tree, columns: &[Column], events: &[EventPeriod], runs: &[u32]) -> Vec<u8> {
    let counts: Vec<usize> = columns.iter().map(|column| entries(tree, column)).collect();
    let nodes = tree.scopes.len();
    let names = tree.procs.iter().map(|proc| proc.1.len()).chain(tree.files.iter().map(|file| file.2.len()));
    let listed: usize = names.map(|length| 12 + length).sum();
    let head = head(events, runs);
    let fixed = head.len() + 12 + listed + 24 * nodes + 4 * columns.len() + 4 * nodes;
    let mut bytes = Vec::with_capacity(fixed + 32 * counts.iter().sum::<usize>());
    bytes.extend_from_slice(&head);
    for number in [tree.procs.len(), tree.files.len(), nodes] {
        put(&mut bytes, number as u32);
    }
    for (procedure, name) in &tree.procs {
        let (kind, number) = match procedure {
            ProcId::Die(offset) => (0, *offset),
            ProcId::Symbol(start) => (1, *start),
            ProcId::Nameless => (2, 0),
        };
        put_name(&mut bytes, kind, number, name);
    }
    for (table, file, name) in &tree.files {
        put_name(&mut bytes, *table, *file, name);
    }
    put_nodes(&mut bytes, tree);
    let periods: Vec<u64> = events.iter().map(|it| u64::from(it.period)).collect();
    for (number, (column, count)) in columns.iter().zip(&counts).enumerate() {
        put(&mut bytes, *count as u32);
        put_profile(&mut bytes, tree, column, periods[number % periods.len()]);
    }
    put_contexts(&mut bytes, tree, columns, &periods);
    bytes
}

fn put_name(bytes: &mut Vec<u8>, first: u32, second: u32, name: &[u8]) {
    for word in [first, second, name.len() as u32] {
        put(bytes, word);
    }
    bytes.extend_from_slice(name);
}

fn put_nodes(bytes: &mut Vec<u8>, tree: &Tree) {
    for (parent, scope) in tree.parents.iter().zip(&tree.scopes) {
        put(bytes, *parent);
        put(bytes, scope.kind());
        match scope.kind() {
            ROOT | PROC => put(bytes, scope.number()),
            INLINE => {
                let (callee, call) = tree.inlines[scope.number() as usize];
                put(bytes, callee);
                put_line(bytes, tree, call);
            }
            _ => put_line(bytes, tree, scope.number()),
        }
    }
}

fn put_line(bytes: &mut Vec<u8>, tree: &Tree, place: u32) {
    match tree.lines[place as usize] {
        Line::Address(address) => {
            put(bytes, 1);
            put(bytes, address);
        }
        Line::Row { table, file, line } => {
            let order = |other: &(u32, u32, Vec<u8>)| (other.0, other.1).cmp(&(table, file));
            put(bytes, 0);
            put(bytes, tree.files.binary_search_by(order).expect("a file of the list") as u32);
            put(bytes, line);
        }
    }
}

fn put_profile(bytes: &mut Vec<u8>, tree: &Tree, column: &Column, period: u64) {
    for slot in 0..column.nodes.len() {
        for (kind, count) in (0..).zip(samples(tree, column, slot)) {
            if count > 0 {
                put_entry(bytes, column.nodes[slot], kind, u64::from(count) * period);
            }
        }
    }
}

/// For each node its values, by kind and then by column: each column is read along once.
fn put_contexts(bytes: &mut Vec<u8>, tree: &Tree, columns: &[Column], periods: &[u64]) {
    let mut cursors = vec![0; columns.len()];
    let mut here = Vec::with_capacity(columns.len());
    for node in 0..tree.scopes.len() as u32 {
        here.clear();
        for (number, (column, cursor)) in columns.iter().zip(&mut cursors).enumerate() {
            if column.nodes.get(*cursor) == Some(&node) {
                here.push((number, samples(tree, column, *cursor)));
                *cursor += 1;
            }
        }
        let count: usize = here.iter().map(|(_, counts)| counts.iter().filter(|count| **count > 0).count()).sum();
        put(bytes, count as u32);
        for kind in [EXCLUSIVE, FRAME, INCLUSIVE] {
            for (number, counts) in &here {
                if counts[kind as usize] > 0 {
                    let value = u64::from(counts[kind as usize]) * periods[number % periods.len()];
                    put_entry(bytes, kind, *number as u32, value);
                }
            }
        }
    }
    debug_assert!(tree.parents.first().is_none_or(|parent| *parent == NO_PARENT));
}
