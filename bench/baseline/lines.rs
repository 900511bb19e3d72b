//! The line tables of DWARF 5: files, and sequences of rows.

use crate::bytes::{Cursor, Read, text_at};
use crate::elf::{Debug, Program};
use crate::forms::{Value, is_direct, value};
use crate::ranges::{FirstRange, NONE};

const MOST_NAME_BYTES: usize = 4096;

#[derive(Clone, Copy)]
struct Row {
    address: u32,
    file: u32,
    line: u32,
}

struct Sequence {
    table: u32,
    /// The address of its first row, which need not be the least.
    start: u32,
    rows: Vec<Row>,
    end: u32,
}

/// A path, and the index of its directory.
type Named<'a> = (&'a [u8], Option<u64>);

struct Table<'a> {
    offset: u32,
    directories: Vec<Named<'a>>,
    files: Vec<Named<'a>>,
}

pub struct Lines<'a> {
    tables: Vec<Table<'a>>,
    sequences: Vec<Sequence>,
    index: FirstRange,
}

struct Encoding {
    step: u32,
    base: i32,
    range: u32,
    opcode_base: u32,
    lengths: Vec<u32>,
}

impl<'a> Lines<'a> {
    /// The tables at offsets, which ascend, or the first fault; those of other versions have no rows and no files.
    pub fn read(program: &Program<'a>, offsets: &[u32]) -> Read<Lines<'a>> {
        let (mut tables, mut sequences) = (Vec::new(), Vec::new());
        for offset in offsets {
            let fault = |at: u32| format!("lines at {at}");
            let header = || header(program, *offset).ok_or_else(|| fault(*offset));
            if let Some((encoding, table, cursor)) = header()? {
                let ended = |rows: &mut Vec<Row>, end| sequences.extend(sequence(program, *offset, rows, end));
                rows(&encoding, cursor, ended).map_err(|at| fault(at as u32))?;
                tables.push(table);
            }
        }
        let index = FirstRange::of(sequences.iter().map(|sequence: &Sequence| (sequence.start, sequence.end)));
        Ok(Lines { tables, sequences, index })
    }

    /// Whether a table of version 5 begins at an offset.
    pub fn has_table(&self, offset: u32) -> bool {
        self.tables.binary_search_by_key(&offset, |table| table.offset).is_ok()
    }

    /// Table, file and line of the row in force at an address.
    pub fn row_at(&self, address: u32) -> Option<(u32, u32, u32)> {
        let place = self.index.at(address);
        if place == NONE {
            return None;
        }
        let Sequence { table, rows, .. } = &self.sequences[place as usize];
        let row = rows[rows.partition_point(|row| row.address <= address) - 1];
        Some((*table, row.file, row.line))
    }

    /// The name of a file, cut at 4,096 bytes.
    pub fn file_name(&self, table: u32, file: u32) -> Vec<u8> {
        let place = self.tables.binary_search_by_key(&table, |table| table.offset);
        let named =
            place.ok().and_then(|place| Some((&self.tables[place], self.tables[place].files.get(file as usize)?)));
        let Some((table, (path, index))) = named else { return b"<unknown file>".to_vec() };
        let directory = index
            .and_then(|index| table.directories.get(usize::try_from(index).ok()?))
            .map_or(&[][..], |named| named.0);
        let mut name = Vec::new();
        if !directory.is_empty() && !path.starts_with(b"/") {
            name.extend_from_slice(directory);
            name.push(b'/');
        }
        name.extend_from_slice(path);
        name.truncate(MOST_NAME_BYTES);
        name
    }
}

/// The sequence of rows up to an end, if it counts.
fn sequence(program: &Program, table: u32, rows: &mut Vec<Row>, end: u32) -> Option<Sequence> {
    let mut rows = std::mem::take(rows);
    let start = rows.first()?.address;
    if start >= end || !program.counts(start, end - start) {
        return None;
    }
    // The last of the rows of one address counts.
    rows.sort_by_key(|row| row.address);
    Some(Sequence { table, start, rows, end })
}

/// The header of a table: how its program is encoded, its names, and where its program lies. `Some(None)` where it is
/// of an earlier version, `None` where it is at fault.
fn header<'a>(program: &Program<'a>, offset: u32) -> Option<Option<(Encoding, Table<'a>, Cursor<'a>)>> {
    let mut cursor = Cursor::new(program.debug.line, offset as usize)?.part()?;
    match cursor.number(2)? {
        5 => {}
        2..=4 => return Some(None),
        _ => return None,
    }
    let (address_size, segment_size, header_length) = (cursor.byte()?, cursor.byte()?, cursor.word()?);
    let mut behind = cursor;
    behind.take(u64::from(header_length))?;
    let (step, operations, _) = (cursor.byte()?, cursor.byte()?, cursor.byte()?);
    let (base, range, opcode_base) = (i32::from(cursor.byte()? as u8 as i8), cursor.byte()?, cursor.byte()?);
    if address_size != 4 || segment_size != 0 || operations != 1 || range == 0 || opcode_base == 0 {
        return None;
    }
    let lengths = cursor.take(u64::from(opcode_base) - 1)?.iter().map(|length| u32::from(*length)).collect();
    let encoding = Encoding { step, base, range, opcode_base, lengths };
    let (directories, files) = (names(&program.debug, &mut cursor)?, names(&program.debug, &mut cursor)?);
    Some(Some((encoding, Table { offset, directories, files }, behind)))
}

fn names<'a>(debug: &Debug<'a>, cursor: &mut Cursor<'a>) -> Option<Vec<Named<'a>>> {
    let mut formats = Vec::new();
    for _ in 0..cursor.byte()? {
        let (content, form) = (cursor.uleb()?, cursor.uleb()?);
        formats.push((content, Some(form).filter(|form| is_direct(*form))?));
    }
    let count = cursor.uleb().filter(|count| *count <= cursor.left() as u64)?;
    (0..count).map(|_| name(debug, cursor, &formats)).collect()
}

/// A path and the index of its directory; of two of one content the first counts.
fn name<'a>(debug: &Debug<'a>, cursor: &mut Cursor<'a>, formats: &[(u64, u64)]) -> Option<Named<'a>> {
    let (mut path, mut directory) = (None, None);
    for (content, form) in formats {
        let value = value(cursor, *form, 0).ok()?;
        match content {
            1 => path = path.or(Some(value)),
            2 => directory = directory.or(Some(value)),
            _ => {}
        }
    }
    let path = match path {
        None => &[][..],
        Some(Value::Text(name)) => name,
        Some(Value::Str(offset)) => text_at(debug.str_bytes, offset as usize)?,
        Some(Value::LineStr(offset)) => text_at(debug.line_str, offset as usize)?,
        Some(_) => return None,
    };
    match directory {
        None => Some((path, None)),
        Some(Value::Number(index)) => Some((path, Some(index))),
        Some(_) => None,
    }
}

/// Runs a line number program, and hands each sequence's rows and end on; or gives the offset of the opcode that is at
/// fault.
fn rows(encoding: &Encoding, mut cursor: Cursor, mut ended: impl FnMut(&mut Vec<Row>, u32)) -> Result<(), usize> {
    let mut found = Vec::new();
    let mut now = START;
    while cursor.left() > 0 {
        let at = cursor.at;
        match encoding.step(&mut cursor, &mut now).ok_or(at)? {
            Effect::Nothing => {}
            Effect::Row => found.push(now),
            Effect::End => {
                ended(&mut found, now.address);
                found.clear();
                now = START;
            }
        }
    }
    Ok(())
}

/// What an opcode does beside changing the registers.
enum Effect {
    Nothing,
    Row,
    End,
}

const START: Row = Row { address: 0, file: 1, line: 1 };

impl Encoding {
    fn advanced(&self, opcode: u32) -> u32 {
        (opcode - self.opcode_base) / self.range * self.step
    }

    /// An opcode; `None` where it is at fault.
    #[inline(always)]
    fn step(&self, cursor: &mut Cursor, now: &mut Row) -> Option<Effect> {
        let opcode = cursor.byte()?;
        if opcode >= self.opcode_base {
            now.address = now.address.wrapping_add(self.advanced(opcode));
            let line = self.base + ((opcode - self.opcode_base) % self.range) as i32;
            now.line = now.line.wrapping_add_signed(line);
            return Some(Effect::Row);
        }
        match opcode {
            0 => return extended(cursor, now),
            1 => return Some(Effect::Row),
            2 => now.address = now.address.wrapping_add((cursor.uleb()? as u32).wrapping_mul(self.step)),
            3 => now.line = now.line.wrapping_add(cursor.sleb()? as u32),
            4 => now.file = u32::try_from(cursor.uleb()?).ok()?,
            5 | 12 => drop(cursor.uleb()?),
            6 | 7 | 10 | 11 => {}
            8 => now.address = now.address.wrapping_add(self.advanced(255)),
            9 => now.address = now.address.wrapping_add(cursor.number(2)? as u32),
            opcode => {
                for _ in 0..self.lengths[opcode as usize - 1] {
                    cursor.uleb()?;
                }
            }
        }
        Some(Effect::Nothing)
    }
}

fn extended(cursor: &mut Cursor, now: &mut Row) -> Option<Effect> {
    let size = cursor.uleb().filter(|size| *size > 0)?;
    let body = cursor.take(size)?;
    match (body[0], &body[1..]) {
        (1, _) => return Some(Effect::End),
        (2, address) => now.address = u32::from_le_bytes(address.try_into().ok()?),
        _ => {}
    }
    Some(Effect::Nothing)
}
