//! Measurements as they are read, by docs/FORMATS.md.

use crate::bytes::Read;
use crate::elf::Program;
use crate::events::{EventPeriod, MOST_FRAMES, MOST_SAMPLES, NAMED, retired};
use crate::frames::End;
use crate::schedule::MOST_HARTS;
use crate::unwind::{MOST_FRAMES as MOST_DEPTH, Paths, Trail};

const ENDS: [End; 6] = [End::Whole, End::NoFde, End::NoCfa, End::Expression, End::Unmapped, End::Depth];

/// The head of a measurement: the length and the entry of the program, and the number of harts.
pub struct Head {
    pub program: [u32; 2],
    pub events: Vec<EventPeriod>,
    pub harts: u32,
}

/// What measurements and traces keep of their program: the length of its file, and its entry.
pub fn head_of(program: &Program) -> [u32; 2] {
    [program.file.len() as u32, program.entry]
}

/// Whether a measurement or a trace that keeps this is of a program.
pub fn is_of(kept: [u32; 2], program: &Program) -> Read<()> {
    let found = head_of(program);
    let line = || {
        let [[length, entry], [own_length, own_entry]] = [kept, found];
        format!("measurement of another program: kept {length} {entry} found {own_length} {own_entry}")
    };
    if kept == found { Ok(()) } else { Err(line()) }
}

/// Fields of a file; one that isn't whole, or out of its range, is a fault at its start.
pub struct Fields<'b> {
    pub bytes: &'b [u8],
    pub at: usize,
}

/// The offset of the first fault.
pub type Whole<T> = Result<T, usize>;

impl<'b> Fields<'b> {
    /// So many fields of a size each.
    pub fn take(&mut self, size: usize, count: usize) -> Whole<&'b [u8]> {
        let whole = (self.bytes.len() - self.at) / size;
        if whole < count {
            return Err(self.at + size * whole);
        }
        self.at += size * count;
        Ok(&self.bytes[self.at - size * count..self.at])
    }

    pub fn word(&mut self, least: u32, most: u32) -> Whole<u32> {
        let word = u32::from_le_bytes(self.take(4, 1)?.try_into().expect("four bytes"));
        if least <= word && word <= most { Ok(word) } else { Err(self.at - 4) }
    }

    pub fn any_word(&mut self) -> Whole<u32> {
        self.word(0, u32::MAX)
    }

    /// An end and the frames of a path, of which so many more may come; and where its frames begin.
    pub fn path(&mut self, trail: &mut Trail, frames_left: usize) -> Whole<usize> {
        let end = self.word(0, 5)?;
        let depth = self.word(1, frames_left.min(MOST_DEPTH) as u32)?;
        let start = self.at;
        trail.set(ENDS[end as usize], self.take(4, depth as usize)?);
        Ok(start)
    }

    pub fn ended(&self) -> Whole<()> {
        if self.at == self.bytes.len() { Ok(()) } else { Err(self.at) }
    }

    /// The number of events, and their numbers and periods.
    fn events(&mut self) -> Whole<Vec<EventPeriod>> {
        let (start, mut found) = (self.at, Vec::<EventPeriod>::new());
        let count = self.word(1, NAMED.len() as u32)?;
        for _ in 0..count {
            let (offset, number) = (self.at, self.any_word()?);
            if count == 1 && number == 0 {
                return Err(start);
            }
            let last = found.last().map(|it| it.event);
            let event = NAMED.get(number as usize).map(|named| named.1).filter(|event| Some(*event) > last);
            found.push(EventPeriod { event: event.ok_or(offset)?, period: self.word(1, u32::MAX)? });
        }
        Ok(found)
    }
}

/// Reads a measurement, and adds its paths to those of a run's columns from one on; or gives the offset of its fault.
pub fn read(bytes: &[u8], paths: &mut Paths, first_column: usize) -> Whole<Head> {
    let mut fields = Fields { bytes, at: 0 };
    let is_first = match fields.take(8, 1)? {
        b"HPCRUNM1" => true,
        b"HPCRUNM2" => false,
        _ => return Err(0),
    };
    let program = [fields.any_word()?, fields.any_word()?];
    let events = if is_first { vec![retired(fields.word(1, u32::MAX)?)] } else { fields.events()? };
    let harts = fields.word(1, MOST_HARTS)?;
    let (mut trail, mut samples, mut frames) = (Trail::new(), MOST_SAMPLES as u32, MOST_FRAMES);
    for column in first_column..first_column + harts as usize * events.len() {
        for _ in 0..fields.any_word()? {
            let count = fields.word(1, samples)?;
            let start = fields.path(&mut trail, frames)?;
            if !paths.add(column, &trail, count) {
                return Err(start);
            }
            (samples, frames) = (samples - count, frames - trail.count);
        }
    }
    fields.ended()?;
    Ok(Head { program, events, harts })
}
