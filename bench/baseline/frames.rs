//! `.debug_frame` and `.eh_frame`: what the rules of call frames come to at each address, made ready in one pass over
//! each FDE.

use std::collections::HashMap;

use crate::bytes::{Cursor, Read};
use crate::cfi::{Cfa, Cie, Fault, Rule, Rules};
use crate::eh_frame;
use crate::elf::{EXECUTE, Program, Segment};
use crate::ranges::{FirstRange, NONE};

/// How a path ends.
#[derive(Clone, Copy, PartialEq, Eq, Debug)]
#[repr(u8)]
pub enum End {
    Whole,
    NoFde,
    NoCfa,
    Expression,
    Unmapped,
    Depth,
}

/// What the rules at an address come to.
#[derive(Clone, Copy, PartialEq, Eq)]
pub enum Step {
    Ends(End),
    /// The return address is saved, and every other register kept.
    One {
        cfa_register: u8,
        return_register: u8,
        cfa_offset: u32,
        saved: u32,
    },
    /// Each rule but those of kept registers stands in the list of changes.
    Many {
        cfa_register: u8,
        return_register: u8,
        count: u16,
        cfa_offset: u32,
        first: u32,
    },
}

/// The steps of all addresses: `steps[i]` holds from `starts[i]` up to the next start.
#[derive(Default)]
pub struct Rows {
    pub starts: Vec<u32>,
    pub steps: Vec<Step>,
    pub changes: Vec<(u8, Rule)>,
}

impl Rows {
    /// Reads the sections of a program, and lays the entry region over what they say.
    pub fn read(program: &Program) -> Read<Rows> {
        let (mut rows, mut fdes) = (Rows::default(), Vec::new());
        let in_section = |name: &'static str| move |fault: Fault| format!("{name} at {}", fault.0);
        rows.read_debug_frame(program, &mut fdes).map_err(in_section("frames"))?;
        eh_frame::read(&mut rows, program, &mut fdes).map_err(in_section("eh frames"))?;
        Ok(rows.joined(program, &fdes))
    }

    /// The entries of `.debug_frame` in their order, up to the first that is at fault. A CIE may come after its FDEs.
    fn read_debug_frame(&mut self, program: &Program, fdes: &mut Vec<Fde>) -> Result<(), Fault> {
        let (entries, last) = entries(program.debug_frame, false);
        let mut cies = HashMap::new();
        for (at, body) in &entries {
            let mut c = *body;
            if c.word() == Some(u32::MAX) {
                cies.insert(*at, Cie::read(c));
            }
        }
        for (at, body) in &entries {
            let (fault, mut c) = (|| Fault(*at), *body);
            let id = c.word().ok_or_else(fault)?;
            let named = cies.get(if id == u32::MAX { at } else { &id });
            let cie = named.ok_or_else(fault)?;
            match (cie, id) {
                (None, u32::MAX) => return Err(fault()),
                (Some(None), _) => {}
                (Some(Some(cie)), u32::MAX) => drop(cie.begin()?),
                (None, _) => drop((c.word().ok_or_else(fault)?, c.word().ok_or_else(fault)?)),
                (Some(Some(cie)), _) => {
                    let (start, size) = (c.word().ok_or_else(fault)?, c.word().ok_or_else(fault)?);
                    self.fde(program, cie, c, (start, size), fdes)?;
                }
            }
        }
        last.map_or(Ok(()), Err)
    }

    /// Runs the instructions of an FDE once, and writes down its rows. Where its CIE's are at fault nothing is.
    pub fn fde(
        &mut self,
        program: &Program,
        cie: &Cie,
        mut c: Cursor,
        (start, size): (u32, u32),
        fdes: &mut Vec<Fde>,
    ) -> Result<(), Fault> {
        let Ok(mut state) = cie.begin() else { return Ok(()) };
        let is_counted = program.counts(start, size);
        let (end, first) = (if is_counted { start + size } else { start }, self.starts.len());
        state.location = start;
        let mut done = start;
        while c.left() > 0 {
            let at = c.at as u32;
            state.step(&mut c).ok_or(Fault(at))?;
            if state.location > done && done < end {
                // What raises the location leaves the rules.
                self.row(done, &state.rules, cie.return_register);
                done = state.location.min(end);
            }
        }
        if done < end {
            self.row(done, &state.rules, cie.return_register);
        }
        if is_counted {
            fdes.push(Fde { start, end, rows: first..self.starts.len() });
        }
        Ok(())
    }

    fn row(&mut self, start: u32, rules: &Rules, return_register: u8) {
        let step = self.step(rules, return_register);
        self.starts.push(start);
        self.steps.push(step);
    }

    fn step(&mut self, rules: &Rules, return_register: u8) -> Step {
        if rules.registers[return_register as usize] == Rule::Undefined {
            return Step::Ends(End::Whole);
        }
        let (first, mut left, mut has_expression) = (self.changes.len(), rules.changed, rules.cfa == Cfa::Expression);
        while left != 0 {
            let register = left.trailing_zeros() as u8;
            left &= left - 1;
            let rule = rules.registers[register as usize];
            has_expression |= rule == Rule::Expression;
            if rule != Rule::Kept {
                self.changes.push((register, rule));
            }
        }
        match rules.cfa {
            Cfa::Register(register, offset) if !has_expression => self.found(register, offset, return_register, first),
            _ => {
                self.changes.truncate(first);
                Step::Ends(if has_expression { End::Expression } else { End::NoCfa })
            }
        }
    }

    /// The step of the changes from `first` on.
    fn found(&mut self, cfa_register: u8, cfa_offset: u32, return_register: u8, first: usize) -> Step {
        match self.changes[first..] {
            [(register, Rule::Saved(saved))] if register == return_register && !matches!(register, 0 | 2) => {
                self.changes.truncate(first);
                Step::One { cfa_register, return_register, cfa_offset, saved }
            }
            ref all => {
                let (count, first) = (all.len() as u16, first as u32);
                Step::Many { cfa_register, return_register, count, cfa_offset, first }
            }
        }
    }

    /// Puts the rows of all FDEs in the order of addresses: the first FDE that holds an address counts there.
    fn joined(self, program: &Program, fdes: &[Fde]) -> Rows {
        let owners = FirstRange::of(fdes.iter().map(|fde| (fde.start, fde.end)));
        let fde_starts: Vec<u32> = fdes.iter().map(|fde| fde.start).collect();
        let mut list = vec![(0, Step::Ends(End::NoFde))];
        for (i, (from, owner)) in owners.steps.iter().enumerate() {
            let to = owners.steps.get(i + 1).map_or(u32::MAX, |(to, _)| *to);
            if *owner == NONE {
                list.push((*from, Step::Ends(End::NoFde)));
                continue;
            }
            let rows = fdes[*owner as usize].rows.clone();
            let begun = rows.start + self.starts[rows.clone()].partition_point(|start| *start <= *from);
            list.push((*from, self.steps[begun - 1]));
            let later = (begun..rows.end).take_while(|row| self.starts[*row] < to);
            list.extend(later.map(|row| (self.starts[row], self.steps[row])));
        }
        overlay(&mut list, entry_region(program, &fde_starts));
        list.dedup_by(|next, last| next.1 == last.1);
        let (starts, steps) = list.into_iter().unzip();
        Rows { starts, steps, changes: self.changes }
    }
}

/// A counted FDE, and which rows are its.
pub struct Fde {
    start: u32,
    end: u32,
    rows: std::ops::Range<usize>,
}

/// The entries of a section, each with its offset and what is behind its length, and the fault of the length that ends
/// the list. A length of 0 is passed over, or ends the list too.
pub fn entries(bytes: &[u8], zero_ends: bool) -> (Vec<(u32, Cursor<'_>)>, Option<Fault>) {
    let (mut found, mut c) = (Vec::new(), Cursor { bytes, at: 0 });
    while c.left() > 0 {
        let at = c.at as u32;
        match c.part() {
            None => return (found, Some(Fault(at))),
            Some(body) if body.left() > 0 => found.push((at, body)),
            Some(_) if zero_ends => break,
            Some(_) => {}
        }
    }
    (found, None)
}

/// The extent of the first function symbol that holds the entry; else from the entry to the least of what ends it.
fn entry_region(program: &Program, fde_starts: &[u32]) -> (u32, u32) {
    let entry = program.entry;
    let holds = |start: u32, end: u32| start <= entry && entry < end;
    if let Some(function) = program.functions.iter().find(|function| holds(function.start, function.end)) {
        return (function.start, function.end);
    }
    let executable = |segment: &&Segment| segment.flags & EXECUTE != 0;
    let Some(segment) = program.segments.iter().filter(executable).find(|segment| holds(segment.start, segment.end))
    else {
        return (entry, entry);
    };
    let starts = fde_starts.iter().copied().chain(program.functions.iter().map(|function| function.start));
    (entry, starts.filter(|start| *start > entry).fold(segment.end, u32::min))
}

/// Has a path end whole in a region.
fn overlay(list: &mut Vec<(u32, Step)>, (start, end): (u32, u32)) {
    if start == end {
        return;
    }
    let from = list.partition_point(|row| row.0 < start);
    let to = list.partition_point(|row| row.0 <= end);
    let behind = list[to - 1].1;
    list.splice(from..to, [(start, Step::Ends(End::Whole)), (end, behind)]);
}
