//! Call paths: the frames of a sample, innermost first, and the list of distinct paths with their counts.

use crate::cfi::Rule;
use crate::frames::{End, Rows, Step};
use crate::memory::Memory;

pub const MOST_FRAMES: usize = 512;
/// Places of the cache from an address to its step, a power of 2.
const CACHED: usize = 1 << 12;
/// Frames that are compared one by one.
const FEW: usize = 4;

/// Finds callers. A step is looked up by binary search, and kept by its address.
pub struct Unwinder {
    rows: Rows,
    cache: Vec<(u32, Step)>,
}

/// The frames of one path, and a hash of them.
pub struct Trail {
    pub frames: [u32; MOST_FRAMES],
    pub count: usize,
    pub end: End,
    pub hash: u64,
}

impl Trail {
    pub fn new() -> Trail {
        Trail { frames: [0; MOST_FRAMES], count: 0, end: End::Whole, hash: 0 }
    }

    /// Takes a path that was measured before.
    pub fn set(&mut self, end: End, pcs: &[u8]) {
        (self.end, self.count, self.hash) = (end, pcs.len() / 4, 0);
        for (frame, bytes) in self.frames.iter_mut().zip(pcs.chunks_exact(4)) {
            *frame = u32::from_le_bytes(bytes.try_into().expect("four bytes"));
            self.hash = (self.hash ^ u64::from(*frame)).wrapping_mul(FACTOR).rotate_left(29);
        }
    }
}

/// Multiplies all bits of a hash into its upper half.
const FACTOR: u64 = 0x9e37_79b9_7f4a_7c15;

impl Unwinder {
    pub fn of(rows: Rows) -> Unwinder {
        // Address 0 has the first row and the first place; no other address is 0.
        let cache = vec![(0, rows.steps[rows.starts.partition_point(|start| *start == 0) - 1]); CACHED];
        Unwinder { rows, cache }
    }

    fn found(&self, pc: u32) -> Step {
        self.rows.steps[self.rows.starts.partition_point(|start| *start <= pc) - 1]
    }

    #[inline(always)]
    fn step(&mut self, pc: u32) -> Step {
        let place = (pc / 4) as usize % CACHED;
        let (kept, step) = self.cache[place];
        if kept == pc { step } else { self.step_anew(pc, place) }
    }

    #[cold]
    fn step_anew(&mut self, pc: u32, place: usize) -> Step {
        let step = self.found(pc);
        self.cache[place] = (pc, step);
        step
    }

    /// Walks from a hart's pc and registers to the root of its thread.
    #[inline(always)]
    pub fn walk(&mut self, pc: u32, regs: &[u32; 33], memory: &mut Memory, trail: &mut Trail) {
        match self.step(pc) {
            Step::Ends(end) => {
                trail.frames[0] = pc;
                (trail.count, trail.end, trail.hash) = (1, end, u64::from(pc).wrapping_mul(FACTOR));
            }
            step => self.walk_on(pc, step, regs, memory, trail),
        }
    }

    #[inline(never)]
    fn walk_on(&mut self, pc: u32, step: Step, regs: &[u32; 33], memory: &mut Memory, trail: &mut Trail) {
        let mut registers = [0u32; 32];
        registers.copy_from_slice(&regs[..32]);
        let (mut here, mut last, mut hash) = (pc, pc, 0u64);
        let mut step = step;
        trail.count = MOST_FRAMES;
        trail.end = End::Depth;
        for count in 0..MOST_FRAMES {
            trail.frames[count] = here;
            hash = (hash ^ u64::from(here)).wrapping_mul(FACTOR);
            if here != last {
                step = self.step(here);
                last = here;
            }
            let caller = match step {
                Step::Ends(end) => Err(end),
                Step::One { cfa_register, return_register, cfa_offset, saved } => {
                    let cfa = registers[cfa_register as usize & 31].wrapping_add(cfa_offset);
                    match memory.load::<4>(cfa.wrapping_add(saved)) {
                        Some(address) => {
                            registers[return_register as usize & 31] = address;
                            registers[2] = cfa;
                            Ok(address)
                        }
                        None => Err(End::Unmapped),
                    }
                }
                Step::Many { cfa_register, return_register, count, cfa_offset, first } => {
                    let changes = &self.rows.changes[first as usize..][..count as usize];
                    let cfa = registers[cfa_register as usize & 31].wrapping_add(cfa_offset);
                    changed(&mut registers, changes, cfa, memory).map(|()| registers[return_register as usize & 31])
                }
            };
            here = match caller {
                Ok(0) => {
                    (trail.count, trail.end) = (count + 1, End::Whole);
                    break;
                }
                Ok(address) => address.wrapping_sub(4),
                Err(end) => {
                    (trail.count, trail.end) = (count + 1, end);
                    break;
                }
            };
        }
        trail.hash = hash;
    }
}

/// Makes the caller's registers of the callee's.
#[inline(always)]
fn changed(registers: &mut [u32; 32], changes: &[(u8, Rule)], cfa: u32, memory: &mut Memory) -> Result<(), End> {
    // Registers that are saved in memory are changed in place; what reads another register needs the callee's.
    let reads_others = changes.iter().any(|(_, rule)| matches!(rule, Rule::Copy(_)));
    if reads_others {
        return changed_apart(registers, changes, cfa, memory);
    }
    for (register, rule) in changes {
        registers[*register as usize & 31] = match *rule {
            Rule::Saved(offset) => memory.load::<4>(cfa.wrapping_add(offset)).ok_or(End::Unmapped)?,
            Rule::Sum(offset) => cfa.wrapping_add(offset),
            _ => 0,
        };
    }
    (registers[0], registers[2]) = (0, cfa);
    Ok(())
}

#[cold]
fn changed_apart(registers: &mut [u32; 32], changes: &[(u8, Rule)], cfa: u32, memory: &mut Memory) -> Result<(), End> {
    let callee = *registers;
    for (register, rule) in changes {
        registers[*register as usize] = match *rule {
            Rule::Saved(offset) => memory.load::<4>(cfa.wrapping_add(offset)).ok_or(End::Unmapped)?,
            Rule::Sum(offset) => cfa.wrapping_add(offset),
            Rule::Copy(source) => callee[source as usize],
            _ => 0,
        };
    }
    (registers[0], registers[2]) = (0, cfa);
    Ok(())
}

/// A distinct path of a column, that of a hart and an event, and how often it was seen.
#[derive(Clone, Copy)]
pub struct Path {
    pub first: u32,
    pub count: u32,
    pub frames: u16,
    pub column: u16,
    pub is_whole: bool,
    pub end: End,
}

/// The distinct paths of all columns, in the order of their first samples.
pub struct Paths {
    pub list: Vec<Path>,
    /// The frames of all paths, each path's innermost first.
    pub words: Vec<u32>,
    /// Open addressing: a path's hash in the upper half, its place in the list and 1 in the lower; 0 where free. Its
    /// length is a power of 2.
    slots: Vec<u64>,
}

/// Whether two paths have the same frames. Few are compared one by one, which is shorter than a call.
#[inline(always)]
fn is_equal(one: &[u32], other: &[u32]) -> bool {
    if one.len() > FEW {
        return one == other;
    }
    one.len() == other.len() && one.iter().zip(other).all(|(one, other)| one == other)
}

impl Paths {
    pub fn new() -> Paths {
        Paths { list: Vec::new(), words: Vec::new(), slots: vec![0; 1 << 10] }
    }

    /// Counts so many samples of a path; answers whether it is new.
    #[inline(always)]
    pub fn add(&mut self, column: usize, trail: &Trail, count: u32) -> bool {
        let found = self.found(column, trail);
        match found {
            Ok(place) => self.list[place].count += count,
            Err((hash, slot)) => self.insert(column, trail, count, hash, slot),
        }
        found.is_err()
    }

    /// Counts a sample of a path; answers its place in the list.
    #[inline(always)]
    pub fn place(&mut self, column: usize, trail: &Trail) -> usize {
        match self.found(column, trail) {
            Ok(place) => {
                self.list[place].count += 1;
                place
            }
            Err((hash, slot)) => {
                self.insert(column, trail, 1, hash, slot);
                self.list.len() - 1
            }
        }
    }

    /// A path's place in the list; or of a new one the hash, and the slot where it is put.
    #[inline(always)]
    fn found(&self, column: usize, trail: &Trail) -> Result<usize, (u32, usize)> {
        let frames = &trail.frames[..trail.count];
        let hash = ((trail.hash ^ (column as u64) << 8 ^ trail.end as u64).wrapping_mul(FACTOR) >> 32) as u32;
        let mask = self.slots.len() - 1;
        let mut slot = hash as usize & mask;
        while self.slots[slot] != 0 {
            let entry = self.slots[slot];
            if (entry >> 32) as u32 == hash {
                let place = entry as u32 as usize - 1;
                let path = &self.list[place];
                let is_same = path.column as usize == column && path.end == trail.end;
                if is_same && is_equal(&self.words[path.first as usize..][..path.frames as usize], frames) {
                    return Ok(place);
                }
            }
            slot = (slot + 1) & mask;
        }
        Err((hash, slot))
    }

    #[cold]
    fn insert(&mut self, column: usize, trail: &Trail, count: u32, hash: u32, slot: usize) {
        let path = Path {
            first: self.words.len() as u32,
            count,
            frames: trail.count as u16,
            column: column as u16,
            is_whole: trail.end == End::Whole,
            end: trail.end,
        };
        self.list.push(path);
        self.words.extend_from_slice(&trail.frames[..trail.count]);
        self.slots[slot] = u64::from(hash) << 32 | self.list.len() as u64;
        if 2 * self.list.len() > self.slots.len() {
            self.grow();
        }
    }

    fn grow(&mut self) {
        let mask = 2 * self.slots.len() - 1;
        let mut slots = vec![0; mask + 1];
        for entry in self.slots.iter().filter(|entry| **entry != 0) {
            let mut slot = (entry >> 32) as usize & mask;
            while slots[slot] != 0 {
                slot = (slot + 1) & mask;
            }
            slots[slot] = *entry;
        }
        self.slots = slots;
    }
}
