//! Debug information of DWARF 5: the subprograms and inlined subroutines, their ranges, names and calls.

use std::collections::HashMap;
use std::rc::Rc;

use crate::abbrevs::*;
use crate::bytes::{Cursor, Read, text_at, word_at};
use crate::elf::{Debug, Program};
use crate::forms::{NoValue, Value, Value::*};
use crate::lines::Lines;

const SUBPROGRAM: u64 = 0x2e;
const INLINED: u64 = 0x1d;
const MOST_LINKS: usize = 8;
const MOST_LEVELS: usize = 62;
const MOST_NAME_BYTES: usize = 4096;

#[derive(Clone, Default)]
struct Unit {
    offset: u32,
    end: u32,
    abbrev: u32,
    stmt_list: Option<u32>,
    str_offsets: Option<u32>,
    addr: Option<u32>,
    rnglists: Option<u32>,
    low_pc: u32,
}

/// A line of a table, or an address: in the order of scopes.
#[derive(Clone, Copy, PartialEq, Eq, PartialOrd, Ord)]
pub enum Line {
    Row { table: u32, file: u32, line: u32 },
    Address(u32),
}

/// A subprogram or an inlined subroutine.
pub struct Item {
    pub is_inlined: bool,
    /// The inlined subroutines among it and those that it lies in.
    pub levels: usize,
    /// The number of the first later item that is no descendant.
    pub after: u32,
    /// The offset of its entry.
    pub offset: u32,
    /// The offset of the entry to which its links lead.
    pub identity: u32,
    pub call: Line,
    /// Where its ranges stand.
    pub first: u32,
    unit: u32,
    call_line: Option<u32>,
    call_file: Option<u32>,
}

pub struct Info<'a> {
    debug: Debug<'a>,
    units: Vec<Unit>,
    tables: HashMap<u32, Option<Rc<Declarations>>>,
    /// A flag for each byte of the section: an entry begins there.
    begins: Vec<bool>,
    pub items: Vec<Item>,
    /// The ranges that count, item by item.
    pub ranges: Vec<(u32, u32)>,
}

fn refused<T>(rule: &str, at: usize) -> Read<T> {
    Err(format!("entries {rule} at {at}"))
}

impl<'a> Info<'a> {
    /// Reads the units and their entries, or gives the first fault in section order.
    pub fn read(program: &Program<'a>) -> Read<Info<'a>> {
        let debug = program.debug;
        let begins = vec![false; debug.info.len()];
        let (units, tables, items, ranges) = (Vec::new(), HashMap::new(), Vec::new(), Vec::new());
        let mut info = Info { debug, units, tables, begins, items, ranges };
        let mut cursor = Cursor { bytes: debug.info, at: 0 };
        while cursor.left() > 0 {
            let at = cursor.at;
            let part = cursor.part().map_or_else(|| refused("BadUnit", at), Ok)?;
            info.read_unit(program, at, part)?;
        }
        Ok(info)
    }

    /// Follows the links, and finds the lines of calls; or gives the first item that is at fault.
    pub fn joined(mut self, lines: &Lines) -> Read<Info<'a>> {
        for number in 0..self.items.len() {
            let item = &self.items[number];
            let mut identity = item.offset;
            for _ in 0..MOST_LINKS {
                let Some(next) = self.linked(identity) else { break };
                identity = next;
            }
            if self.linked(identity).is_some() {
                return Err(format!("structure LinkCycle at {}", item.offset));
            }
            if item.is_inlined && item.levels > MOST_LEVELS {
                return Err(format!("structure TooDeep at {}", item.offset));
            }
            let table = self.units[item.unit as usize].stmt_list.filter(|table| lines.has_table(*table));
            let call = match (table, item.call_line) {
                (Some(table), Some(line)) => Line::Row { table, file: item.call_file.unwrap_or(0), line },
                _ => Line::Address(self.ranges.get(item.first as usize).map_or(0, |range| range.0)),
            };
            (self.items[number].identity, self.items[number].call) = (identity, call);
        }
        Ok(self)
    }

    /// The offsets of the line tables that units name, ascending.
    pub fn tables(&self) -> Vec<u32> {
        let mut tables: Vec<u32> = self.units.iter().filter_map(|unit| unit.stmt_list).collect();
        tables.sort_unstable();
        tables.dedup();
        tables
    }

    fn read_unit(&mut self, program: &Program<'a>, at: usize, mut cursor: Cursor<'a>) -> Read<()> {
        let bad = || refused("BadUnit", at);
        match cursor.number(2) {
            Some(5) => {}
            Some(2..=4) => return Ok(()),
            _ => return bad(),
        }
        let Some(kind) = cursor.byte() else { return bad() };
        if kind == 2 {
            return Ok(());
        }
        let (Some(address_size), Some(abbrev)) = (cursor.byte(), cursor.word()) else { return bad() };
        match kind {
            4..=6 => return refused("SplitUnit", at),
            1 | 3 if address_size == 4 => {}
            _ => return bad(),
        }
        let read = || declarations(self.debug.abbrev, abbrev).map(Rc::new);
        let Some(table) = self.tables.entry(abbrev).or_insert_with(read).clone() else {
            return refused("BadAbbrev", at);
        };
        let end = cursor.bytes.len() as u32;
        self.units.push(Unit { offset: at as u32, end, abbrev, ..Unit::default() });
        self.read_entries(program, cursor, &table)
    }

    fn read_entries(&mut self, program: &Program<'a>, mut cursor: Cursor<'a>, table: &Declarations) -> Read<()> {
        // Whether the entry of each open level is an item, and which.
        let (mut open, mut is_first): (Vec<Option<usize>>, bool) = (Vec::new(), true);
        let (mut unit, mut levels) = (self.units.last().expect("a unit").clone(), 0);
        while cursor.left() > 0 {
            let offset = cursor.at;
            let Some(code) = cursor.uleb() else { return refused("BadUnit", offset) };
            if code == 0 {
                levels -= self.close(open.pop().flatten());
                continue;
            }
            let Some(declaration) = table.get(&code) else { return refused("BadAbbrev", offset) };
            self.begins[offset] = true;
            let failed = |fault: NoValue| {
                format!("entries {} at {offset}", if fault == NoValue::Short { "BadUnit" } else { "UnknownForm" })
            };
            let (is_item, mut item) = (matches!(declaration.tag, SUBPROGRAM | INLINED), None);
            if is_item || is_first {
                let values = declaration.values(&mut cursor).map_err(failed)?;
                if is_first {
                    unit = self.with_bases(unit, &values);
                    *self.units.last_mut().expect("a unit") = unit.clone();
                    is_first = false;
                }
                if is_item {
                    item = Some(self.items.len());
                    levels += usize::from(declaration.tag == INLINED);
                    self.read_item(program, &unit, declaration.tag, (offset as u32, levels), &values);
                }
            } else {
                declaration.skip(&mut cursor).map_err(failed)?;
            }
            if declaration.has_children {
                open.push(item);
            } else {
                levels -= self.close(item);
            }
        }
        while let Some(item) = open.pop() {
            self.close(item);
        }
        Ok(())
    }

    /// Ends an item; answers how many levels of inlined subroutines end.
    fn close(&mut self, item: Option<usize>) -> usize {
        let Some(item) = item else { return 0 };
        self.items[item].after = self.items.len() as u32;
        usize::from(self.items[item].is_inlined)
    }

    fn with_bases(&self, unit: Unit, values: &Values) -> Unit {
        let section = |place: usize| match values[place] {
            Some(Section(offset)) => Some(offset),
            _ => None,
        };
        let unit = Unit {
            stmt_list: section(STMT_LIST),
            str_offsets: section(STR_OFFSETS_BASE),
            addr: section(ADDR_BASE),
            rnglists: section(RNGLISTS_BASE),
            ..unit
        };
        let low_pc = self.address(&unit, values[LOW_PC]).unwrap_or(0);
        Unit { low_pc, ..unit }
    }

    fn read_item(&mut self, program: &Program, unit: &Unit, tag: u64, place: (u32, usize), values: &Values<'a>) {
        let first = self.ranges.len() as u32;
        for (low, high) in self.ranges_of(unit, values) {
            if low < high && program.counts(low, high - low) {
                self.ranges.push((low, high));
            }
        }
        let number = |place: usize| match values[place]? {
            Number(number) => u32::try_from(number).ok(),
            Signed(number) => u32::try_from(number).ok(),
            _ => None,
        };
        self.items.push(Item {
            is_inlined: tag == INLINED,
            levels: place.1,
            after: 0,
            offset: place.0,
            identity: place.0,
            call: Line::Address(0),
            first,
            unit: self.units.len() as u32 - 1,
            call_line: number(CALL_LINE),
            call_file: number(CALL_FILE),
        });
    }

    fn address(&self, unit: &Unit, value: Option<Value>) -> Option<u32> {
        match value? {
            Address(address) => Some(address),
            AddressIndex(index) => element(self.debug.addr, unit.addr, index),
            _ => None,
        }
    }

    fn ranges_of(&self, unit: &Unit, values: &Values) -> Vec<(u32, u32)> {
        let listed = match values[RANGES] {
            Some(Section(offset)) => Some(u64::from(offset)),
            Some(ListIndex(index)) => unit.rnglists.and_then(|base| {
                let offset = element(self.debug.rnglists, unit.rnglists, index)?;
                Some(u64::from(base) + u64::from(offset))
            }),
            _ => None,
        };
        if let Some(ranges) = listed.and_then(|offset| self.listed_ranges(unit, offset as usize)) {
            return ranges;
        }
        let Some(low) = self.address(unit, values[LOW_PC]) else { return Vec::new() };
        let high = match values[HIGH_PC] {
            Some(Number(size)) => Some(low.wrapping_add(size as u32)),
            Some(Signed(size)) => Some(low.wrapping_add(size as u32)),
            other => self.address(unit, other),
        };
        high.map(|high| vec![(low, high)]).unwrap_or_default()
    }

    /// The ranges of a list, if it is whole.
    fn listed_ranges(&self, unit: &Unit, offset: usize) -> Option<Vec<(u32, u32)>> {
        let mut cursor = Cursor::new(self.debug.rnglists, offset)?;
        let (mut found, mut base) = (Vec::new(), unit.low_pc);
        let indexed = |cursor: &mut Cursor| element(self.debug.addr, unit.addr, cursor.uleb()?);
        loop {
            match cursor.byte()? {
                0 => return Some(found),
                1 => base = indexed(&mut cursor)?,
                2 => found.push((indexed(&mut cursor)?, indexed(&mut cursor)?)),
                3 => {
                    let start = indexed(&mut cursor)?;
                    found.push((start, start.wrapping_add(cursor.uleb()? as u32)));
                }
                4 => {
                    let (start, end) = (cursor.uleb()? as u32, cursor.uleb()? as u32);
                    found.push((base.wrapping_add(start), base.wrapping_add(end)));
                }
                5 => base = cursor.word()?,
                6 => found.push((cursor.word()?, cursor.word()?)),
                7 => {
                    let start = cursor.word()?;
                    found.push((start, start.wrapping_add(cursor.uleb()? as u32)));
                }
                _ => return None,
            }
        }
    }

    /// The entry to which the first link of an entry leads that is one.
    fn linked(&self, offset: u32) -> Option<u32> {
        let (unit, values) = self.entry(offset)?;
        [ABSTRACT_ORIGIN, SPECIFICATION].iter().find_map(|place| {
            let to = match values[*place]? {
                UnitRef(offset) => u64::from(unit.offset).checked_add(offset)?,
                InfoRef(offset) => u64::from(offset),
                _ => return None,
            };
            let is_entry = usize::try_from(to).ok().and_then(|to| self.begins.get(to)).copied().unwrap_or(false);
            is_entry.then_some(to as u32)
        })
    }

    /// An entry by its offset.
    fn entry(&self, offset: u32) -> Option<(&Unit, Values<'a>)> {
        let unit = &self.units[self.units.partition_point(|unit| unit.offset <= offset).checked_sub(1)?];
        let mut cursor = Cursor { bytes: &self.debug.info[..unit.end as usize], at: offset as usize };
        let code = cursor.uleb()?;
        let table = self.tables.get(&unit.abbrev)?.as_ref()?;
        Some((unit, table.get(&code)?.values(&mut cursor).ok()?))
    }

    /// The name of a procedure by the offset of its entry, cut at 4,096 bytes.
    pub fn name(&self, identity: u32) -> &'a [u8] {
        let named = self
            .entry(identity)
            .and_then(|(unit, values)| self.text(unit, values[NAME]).or_else(|| self.text(unit, values[LINKAGE_NAME])));
        let name = named.unwrap_or(b"<unnamed>");
        &name[..name.len().min(MOST_NAME_BYTES)]
    }

    fn text(&self, unit: &Unit, value: Option<Value<'a>>) -> Option<&'a [u8]> {
        let text_of = |offset: u32| text_at(self.debug.str_bytes, offset as usize);
        match value? {
            Text(name) => Some(name),
            Str(offset) => text_of(offset),
            LineStr(offset) => text_at(self.debug.line_str, offset as usize),
            StrIndex(index) => text_of(element(self.debug.str_offsets, unit.str_offsets, index)?),
            _ => None,
        }
    }
}

/// The word with an index in the table that begins at a base of a section.
fn element(section: &[u8], base: Option<u32>, index: u64) -> Option<u32> {
    word_at(section, u128::from(base?) + 4 * u128::from(index))
}
