//! The scopes at an address: its procedure, the calls that are inlined there, and its line.

use std::collections::BTreeSet;

use crate::bytes::Read;
use crate::dwarf::{Info, Line};
use crate::elf::Program;
use crate::lines::Lines;
use crate::ranges::{FirstRange, NONE};

/// The offset of an entry, a function symbol's address, or none: in the order of scopes.
#[derive(Clone, Copy, PartialEq, Eq, PartialOrd, Ord)]
pub enum ProcId {
    Die(u32),
    Symbol(u32),
    Nameless,
}

/// Addresses from a cut up to the next: the number of their subprogram plus 1, or 0, and where the items that are
/// inlined there stand.
struct Part {
    start: u32,
    subprogram: u32,
    first: u32,
    count: u32,
}

pub struct Scopes<'a> {
    program: &'a Program<'a>,
    pub info: Info<'a>,
    pub lines: Lines<'a>,
    functions: FirstRange,
    parts: Vec<Part>,
    /// Numbers of items, the outermost first.
    chains: Vec<u32>,
}

impl<'a> Scopes<'a> {
    /// Reads the debug information, or gives its first fault: of entries, line tables, or the structure.
    pub fn read(program: &'a Program<'a>) -> Read<Scopes<'a>> {
        let info = Info::read(program)?;
        let lines = Lines::read(program, &info.tables())?;
        let info = info.joined(&lines)?;
        let functions = program.function_index();
        let mut scopes = Scopes { program, info, lines, functions, parts: Vec::new(), chains: Vec::new() };
        scopes.cut();
        Ok(scopes)
    }

    /// Cuts the addresses at the starts and ends of all ranges. The open ranges are known by their places, which ascend
    /// with the numbers of their items.
    fn cut(&mut self) {
        let owners = owners(&self.info);
        let mut events: Vec<(u32, u32, bool)> = Vec::new();
        for (place, (start, end)) in self.info.ranges.iter().enumerate() {
            events.extend([(*start, place as u32, true), (*end, place as u32, false)]);
        }
        events.sort_unstable();
        let mut open = [BTreeSet::new(), BTreeSet::new()];
        let mut chain = Vec::new();
        for now in events.chunk_by(|one, other| one.0 == other.0) {
            for (_, place, is_start) in now {
                let of_kind = &mut open[usize::from(self.info.items[owners[*place as usize] as usize].is_inlined)];
                if *is_start {
                    of_kind.insert(*place);
                } else {
                    of_kind.remove(place);
                }
            }
            let subprogram = open[0].first().map_or(0, |place| owners[*place as usize] + 1);
            chain.clear();
            self.follow(subprogram, &open[1], &owners, &mut chain);
            self.add(now[0].0, subprogram, &chain);
        }
    }

    /// The items that are inlined into a subprogram.
    fn follow(&self, subprogram: u32, open: &BTreeSet<u32>, owners: &[u32], chain: &mut Vec<u32>) {
        let first_of = |item: u32| self.info.items.get(item as usize).map_or(owners.len() as u32, |item| item.first);
        let mut item = subprogram;
        while item > 0 {
            let after = self.info.items[item as usize - 1].after;
            let found = open.range(first_of(item)..first_of(after)).next();
            item = found.map_or(0, |place| owners[*place as usize] + 1);
            chain.extend(item.checked_sub(1));
        }
    }

    fn add(&mut self, start: u32, subprogram: u32, chain: &[u32]) {
        let is_as = |part: &Part| part.subprogram == subprogram && self.items_of(part) == chain;
        if !self.parts.last().is_some_and(is_as) {
            let (first, count) = (self.chains.len() as u32, chain.len() as u32);
            self.parts.push(Part { start, subprogram, first, count });
            self.chains.extend_from_slice(chain);
        }
    }

    fn items_of(&self, part: &Part) -> &[u32] {
        &self.chains[part.first as usize..][..part.count as usize]
    }

    /// The procedure at an address, the calls inlined there, and the line.
    pub fn at(&self, address: u32) -> (ProcId, Vec<(ProcId, Line)>, Line) {
        let place = self.parts.partition_point(|part| part.start <= address);
        let part = place.checked_sub(1).map(|place| &self.parts[place]).filter(|part| part.subprogram > 0);
        let row = self.lines.row_at(address);
        let line = row.map_or(Line::Address(address), |(table, file, line)| Line::Row { table, file, line });
        let Some(part) = part else { return (self.symbol_at(address), Vec::new(), line) };
        let item = |number: u32| &self.info.items[number as usize];
        let inlined = |number: &u32| (ProcId::Die(item(*number).identity), item(*number).call);
        let inlines = self.items_of(part).iter().map(inlined).collect();
        (ProcId::Die(item(part.subprogram - 1).identity), inlines, line)
    }

    fn symbol_at(&self, address: u32) -> ProcId {
        match self.functions.at(address) {
            NONE => ProcId::Nameless,
            function => ProcId::Symbol(self.program.functions[function as usize].start),
        }
    }

    /// The name of a procedure, cut at 4,096 bytes.
    pub fn name(&self, procedure: ProcId) -> &'a [u8] {
        match procedure {
            ProcId::Die(identity) => self.info.name(identity),
            ProcId::Nameless => b"<unknown procedure>",
            ProcId::Symbol(start) => {
                let function = self.program.functions.iter().find(|function| function.start == start);
                let name = function.expect("a symbol of a procedure").name;
                &name[..name.len().min(4096)]
            }
        }
    }
}

/// The item of each range.
fn owners(info: &Info) -> Vec<u32> {
    let mut owners = Vec::with_capacity(info.ranges.len());
    for (number, item) in info.items.iter().enumerate() {
        owners.resize(item.first as usize, number.saturating_sub(1) as u32);
    }
    owners.resize(info.ranges.len(), info.items.len().saturating_sub(1) as u32);
    owners
}
