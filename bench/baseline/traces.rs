//! Traces and timelines: docs/FORMATS.md has the file and the text. A trace that is read is tested by each rule.

use std::collections::HashMap;

use crate::bytes::{Read, put_words};
use crate::elf::Program;
use crate::events::{Limit, MOST_FRAMES, MOST_SAMPLES, Sampled, retired, run};
use crate::machine::Machine;
use crate::measurements::{Fields, Whole, head_of, is_of};
use crate::schedule::MOST_HARTS;
use crate::scopes::{ProcId, Scopes};
use crate::table::printed;
use crate::unwind::{Paths, Trail, Unwinder};

const MAGIC: &[u8; 8] = b"HPCTRAC1";
const LETTERS: &[u8; 62] = b"ABCDEFGHIJKLMNOPQRSTUVWXYZabcdefghijklmnopqrstuvwxyz0123456789";

/// The paths of all harts in the order of their first samples, for each hart its paths by their places among these, and
/// for each of its samples the place of its path among the hart's.
pub struct Traced {
    paths: Paths,
    /// For each path its place among its hart's.
    places: Vec<u32>,
    own: Vec<Vec<u32>>,
    samples: Vec<Vec<u32>>,
    /// How many samples all harts have.
    count: u64,
}

impl Sampled for Traced {
    #[inline(always)]
    fn sampled(&mut self, hart: usize, trail: &Trail) -> Result<(), Limit> {
        let path = self.paths.place(hart, trail);
        self.count += 1;
        if self.count > MOST_SAMPLES {
            return Err(Limit::Samples);
        }
        if path == self.places.len() {
            self.places.push(self.own[hart].len() as u32);
            self.own[hart].push(path as u32);
            if self.paths.words.len() > MOST_FRAMES {
                return Err(Limit::Frames);
            }
        }
        self.samples[hart].push(self.places[path]);
        Ok(())
    }
}

impl Traced {
    /// Runs the slices, and keeps each sample of retired.
    pub fn of(machine: &mut Machine, unwinder: &mut Unwinder, slices: &[(usize, u64)], period: u32) -> Read<Traced> {
        let none = vec![Vec::new(); machine.harts.len()];
        let mut traced = Traced { paths: Paths::new(), places: Vec::new(), own: none.clone(), samples: none, count: 0 };
        run(machine, unwinder, slices, &[retired(period)], &mut traced)?;
        Ok(traced)
    }

    /// How many samples each hart has.
    pub fn samples(&self) -> Vec<u64> {
        self.samples.iter().map(|samples| samples.len() as u64).collect()
    }

    /// The file's bytes.
    pub fn bytes(&self, program: &Program, machine: &Machine, period: u32) -> Vec<u8> {
        let samples: usize = self.samples.iter().map(Vec::len).sum();
        let words = 4 + 4 * self.own.len() + 2 * self.paths.list.len() + self.paths.words.len() + samples;
        let mut bytes = Vec::with_capacity(8 + 4 * words);
        bytes.extend_from_slice(MAGIC);
        put_words(&mut bytes, &head_of(program));
        put_words(&mut bytes, &[period, self.own.len() as u32]);
        for (hart, own) in self.own.iter().enumerate() {
            bytes.extend_from_slice(&machine.harts[hart].done[0].to_le_bytes());
            put_words(&mut bytes, &[own.len() as u32]);
            for path in own.iter().map(|path| &self.paths.list[*path as usize]) {
                put_words(&mut bytes, &[path.end as u32, u32::from(path.frames)]);
                put_words(&mut bytes, &self.paths.words[path.first as usize..][..path.frames as usize]);
            }
            put_words(&mut bytes, &[self.samples[hart].len() as u32]);
            put_words(&mut bytes, &self.samples[hart]);
        }
        bytes
    }
}

// ---- reading

/// A hart of a trace that was read: its instructions, its paths, the innermost pc of each first, and its samples.
struct Hart<'b> {
    retired: u64,
    paths: Vec<&'b [u8]>,
    samples: Vec<u32>,
}

struct Trace<'b> {
    program: [u32; 2],
    period: u32,
    harts: Vec<Hart<'b>>,
}

/// Reads a trace, or gives the offset of its first fault.
fn read(bytes: &[u8]) -> Whole<Trace<'_>> {
    let mut fields = Fields { bytes, at: 0 };
    if fields.take(8, 1)? != MAGIC {
        return Err(0);
    }
    let program = [fields.any_word()?, fields.any_word()?];
    let (period, count) = (fields.word(1, u32::MAX)?, fields.word(1, MOST_HARTS)?);
    let (mut harts, mut frames, mut samples) = (Vec::new(), MOST_FRAMES, MOST_SAMPLES as u32);
    for hart in 0..count as usize {
        let retired = u64::from_le_bytes(fields.take(8, 1)?.try_into().expect("eight bytes"));
        let paths = read_paths(&mut fields, hart, &mut frames)?;
        let samples = read_samples(&mut fields, paths.len(), retired / u64::from(period), &mut samples)?;
        harts.push(Hart { retired, paths, samples });
    }
    fields.ended()?;
    Ok(Trace { program, period, harts })
}

/// The distinct paths of a hart, of which so many frames more may come.
fn read_paths<'b>(fields: &mut Fields<'b>, hart: usize, frames: &mut usize) -> Whole<Vec<&'b [u8]>> {
    let (mut known, mut trail, mut paths) = (Paths::new(), Trail::new(), Vec::new());
    for _ in 0..fields.any_word()? {
        let first = fields.path(&mut trail, *frames)?;
        if !known.add(hart, &trail, 1) {
            return Err(first);
        }
        *frames -= trail.count;
        paths.push(&fields.bytes[first..fields.at]);
    }
    Ok(paths)
}

/// The places of as many samples as there must be, where so many more may come; each path is there before the next is.
fn read_samples(fields: &mut Fields, paths: usize, wanted: u64, left: &mut u32) -> Whole<Vec<u32>> {
    let start = fields.at;
    let count = fields.word(0, *left)?;
    if u64::from(count) != wanted {
        return Err(start);
    }
    *left -= count;
    let (mut places, mut used) = (Vec::with_capacity(count as usize), 0);
    for _ in 0..count {
        let place = fields.word(0, used)?;
        if place as usize >= paths {
            return Err(fields.at - 4);
        }
        used += u32::from(place == used);
        places.push(place);
    }
    if used as usize == paths { Ok(places) } else { Err(fields.at) }
}

// ---- the timeline

#[derive(Clone, Copy)]
enum Cell {
    Past,
    Early,
    Shown(ProcId),
}

/// The procedure at a depth of a path, from the root, or the last where there are fewer.
fn shown(scopes: &Scopes, path: &[u8], depth: usize) -> ProcId {
    let frame = (path.len() / 4).saturating_sub(depth);
    scopes.at(u32::from_le_bytes(path[4 * frame..][..4].try_into().expect("four bytes"))).0
}

fn cells(scopes: &Scopes, trace: &Trace, hart: &Hart, depth: usize, count: u64) -> Vec<Cell> {
    let (span, period) = (span_of(trace), u128::from(trace.period));
    let mut known: HashMap<u32, ProcId> = HashMap::new();
    let mut cell = |j: u64| {
        let moment = u128::from(j + 1) * u128::from(span) / u128::from(count);
        if moment > u128::from(hart.retired) {
            return Cell::Past;
        }
        let sample = (moment / period) as usize;
        if sample == 0 {
            return Cell::Early;
        }
        let path = hart.samples[sample - 1];
        Cell::Shown(*known.entry(path).or_insert_with(|| shown(scopes, hart.paths[path as usize], depth)))
    };
    (0..count).map(&mut cell).collect()
}

fn span_of(trace: &Trace) -> u64 {
    trace.harts.iter().map(|hart| hart.retired).max().unwrap_or(0)
}

/// The text of the timeline of a trace, at a depth, with so many cells for each hart.
fn text_of(trace: &Trace, scopes: &Scopes, depth: usize, count: u64) -> Vec<u8> {
    let rows: Vec<Vec<Cell>> = trace.harts.iter().map(|hart| cells(scopes, trace, hart, depth, count)).collect();
    let of = |cell: &Cell| if let Cell::Shown(procedure) = cell { Some(*procedure) } else { None };
    let mut key: Vec<ProcId> = rows.iter().flatten().filter_map(of).collect();
    key.sort_unstable();
    key.dedup();
    let letter = |place: usize| LETTERS.get(place).copied().unwrap_or(b'+');
    let (harts, period, span) = (rows.len(), trace.period, span_of(trace));
    let mut text =
        format!("timeline harts {harts} period {period} depth {depth} cells {count} span {span}\n").into_bytes();
    for (hart, row) in rows.iter().enumerate() {
        text.extend_from_slice(format!("hart {hart} ").as_bytes());
        text.extend(row.iter().map(|cell| match cell {
            Cell::Past => b'-',
            Cell::Early => b'.',
            Cell::Shown(procedure) => letter(key.binary_search(procedure).expect("a procedure that is shown")),
        }));
        text.push(b'\n');
    }
    for (place, procedure) in key.iter().enumerate() {
        text.extend_from_slice(&[letter(place), b' ']);
        text.extend(printed(scopes.name(*procedure)));
        text.push(b'\n');
    }
    text
}

/// The timeline of a trace's bytes, for the file of its program.
pub fn timeline(file: &[u8], kept: &[u8], depth: usize, cells: u64) -> Read<Vec<u8>> {
    let trace = read(kept).map_err(|at| format!("trace at {at}"))?;
    let program = Program::read(file)?;
    is_of(trace.program, &program)?;
    Ok(text_of(&trace, &Scopes::read(&program)?, depth, cells))
}
