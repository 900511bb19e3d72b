//! The memory of a program: its segments and the harts' stacks.
//!
//! Regions that share a page lie in one block of zeroed memory, of which the system hands out pages as they are
//! touched. A table has an entry of 16 bytes for each page of the address space: one look finds the page's bytes
//! and the addresses in it that may be read and written. It is filled page by page, on the slow path.

use crate::elf::{EXECUTE, Program, READ, WRITE};

const PAGE: u32 = 4096;

/// Addresses `start..end` with the same rights.
#[derive(Clone, Copy)]
struct Region {
    start: u32,
    end: u32,
    flags: u32,
}

/// Whole pages from `start` on, and their bytes.
struct Block {
    start: u32,
    bytes: Vec<u8>,
}

/// What is known of a page. An access of up to 4 bytes, the first at offset `low + d`, is granted where `d` is
/// below `readable` or `writable`; those that begin in a part's last three bytes go the slow path.
#[derive(Clone, Copy)]
#[repr(C)]
struct Entry {
    bytes: *mut u8,
    low: u16,
    readable: u16,
    writable: u16,
}

pub struct Memory {
    /// Ascending, and apart.
    regions: Vec<Region>,
    blocks: Vec<Block>,
    entries: *mut Entry,
    /// The entries' memory: two words for each, all 0 at first, which grants nothing.
    _table: Vec<u128>,
}

/// The stack of a hart: 512 KiB.
fn stack(hart: u32) -> Region {
    let end = 0xf000_0000 + (hart + 1) * 0x10_0000;
    Region { start: end - 0x8_0000, end, flags: READ | WRITE }
}

fn blocks(regions: &[Region]) -> Vec<Block> {
    let mut spans: Vec<(u32, u32)> = Vec::new();
    for region in regions {
        let (start, end) = (region.start / PAGE, (region.end - 1) / PAGE + 1);
        match spans.last_mut() {
            Some(last) if start < last.1 => last.1 = last.1.max(end),
            _ => spans.push((start, end)),
        }
    }
    let block =
        |(start, end): (u32, u32)| Block { start: start * PAGE, bytes: vec![0; ((end - start) * PAGE) as usize] };
    spans.into_iter().map(block).collect()
}

impl Memory {
    pub fn of(program: &Program, harts: u32) -> Memory {
        let of_segment = |s: &crate::elf::Segment| Region { start: s.start, end: s.end, flags: s.flags };
        let mut regions: Vec<Region> = program.segments.iter().map(of_segment).chain((0..harts).map(stack)).collect();
        regions.sort_unstable_by_key(|region| region.start);
        let mut table = vec![0u128; 1 << 20];
        let entries = table.as_mut_ptr().cast();
        let mut memory = Memory { blocks: blocks(&regions), regions, entries, _table: table };
        for segment in program.segments.iter().filter(|segment| segment.filled > 0) {
            let bytes = &program.file[segment.offset as usize..][..segment.filled as usize];
            memory.bytes_from(segment.start).expect("a segment's block")[..bytes.len()].copy_from_slice(bytes);
        }
        memory
    }

    fn region(&self, at: u32) -> Option<Region> {
        let after = self.regions.partition_point(|region| region.start <= at);
        let region = self.regions[after.checked_sub(1)?];
        (at < region.end).then_some(region)
    }

    /// The bytes of the block that holds an address, from it on.
    fn bytes_from(&mut self, at: u32) -> Option<&mut [u8]> {
        let after = self.blocks.partition_point(|block| block.start <= at);
        let block = &mut self.blocks[after.checked_sub(1)?];
        block.bytes.get_mut((at - block.start) as usize..)
    }

    /// Whether each of `count` addresses is below 2^32 and has a right.
    fn grants(&self, right: u32, at: u32, count: u32) -> bool {
        let (mut at, end) = (u64::from(at), u64::from(at) + u64::from(count));
        while at < end {
            let region = u32::try_from(at).ok().and_then(|at| self.region(at));
            match region {
                Some(region) if region.flags & right != 0 => at = u64::from(region.end),
                _ => return false,
            }
        }
        true
    }

    /// Makes the entry of an address's page for the region that holds the address.
    fn note(&mut self, at: u32) {
        let Some(region) = self.region(at) else { return };
        let page = at & !(PAGE - 1);
        let low = region.start.max(page) - page;
        let high = if region.end - page < PAGE { region.end - page } else { PAGE };
        let firsts = |right: u32| if region.flags & right != 0 { (high - low).saturating_sub(3) as u16 } else { 0 };
        let (readable, writable) = (firsts(READ), firsts(WRITE));
        let bytes = self.bytes_from(page).expect("a region's block").as_mut_ptr();
        // SAFETY: the table has 2^20 entries.
        unsafe { *self.entries.add((page / PAGE) as usize) = Entry { bytes, low: low as u16, readable, writable } };
    }

    /// Where the bytes of an access of at most 4 bytes stand, if its page's entry grants it.
    #[inline(always)]
    fn near(&self, at: u32, firsts: impl Fn(&Entry) -> u16) -> Option<*mut u8> {
        let offset = at % PAGE;
        // SAFETY: the table has 2^20 entries, each all 0 or made by `note`. One that grants an offset has the bytes
        // of a whole page, and `low + firsts + 3` is at most 4,096.
        unsafe {
            let entry = &*self.entries.add((at / PAGE) as usize);
            let granted = offset.wrapping_sub(u32::from(entry.low)) < u32::from(firsts(entry));
            granted.then(|| entry.bytes.add(offset as usize))
        }
    }

    /// Reads `N` bytes, 1, 2 or 4, as a number.
    #[inline(always)]
    pub fn load<const N: usize>(&mut self, at: u32) -> Option<u32> {
        match self.near(at, |entry| entry.readable) {
            // SAFETY: `near` gives a place before at least 4 bytes of a page.
            Some(bytes) => unsafe {
                Some(match N {
                    1 => u32::from(bytes.read()),
                    2 => u32::from(bytes.cast::<u16>().read_unaligned()),
                    _ => bytes.cast::<u32>().read_unaligned(),
                })
            },
            None => self.load_apart(at, N as u32),
        }
    }

    #[cold]
    #[inline(never)]
    fn load_apart(&mut self, at: u32, count: u32) -> Option<u32> {
        if !self.grants(READ, at, count) {
            return None;
        }
        self.note(at);
        let bytes = (0..count).map(|i| u32::from(self.byte(at + i)) << (8 * i));
        Some(bytes.sum())
    }

    /// The byte at an address of some region.
    fn byte(&self, at: u32) -> u8 {
        let after = self.blocks.partition_point(|block| block.start <= at);
        let block = &self.blocks[after - 1];
        block.bytes[(at - block.start) as usize]
    }

    /// Writes the low `N` bytes of a number, 1, 2 or 4; false, and nothing is written, where one may not be.
    #[inline(always)]
    pub fn store<const N: usize>(&mut self, at: u32, value: u32) -> bool {
        match self.near(at, |entry| entry.writable) {
            // SAFETY: as in `load`.
            Some(bytes) => unsafe {
                match N {
                    1 => bytes.write(value as u8),
                    2 => bytes.cast::<u16>().write_unaligned(value as u16),
                    _ => bytes.cast::<u32>().write_unaligned(value),
                }
                true
            },
            None => self.store_apart(at, &value.to_le_bytes()[..N]),
        }
    }

    #[cold]
    #[inline(never)]
    fn store_apart(&mut self, at: u32, bytes: &[u8]) -> bool {
        self.note(at);
        self.write(at, bytes)
    }

    /// Writes bytes of any number; false, and nothing is written, where one may not be.
    pub fn write(&mut self, at: u32, bytes: &[u8]) -> bool {
        if !self.grants(WRITE, at, bytes.len() as u32) {
            return false;
        }
        let (mut at, mut left) = (at, bytes);
        while !left.is_empty() {
            let to = self.bytes_from(at).expect("a region's block");
            let count = to.len().min(left.len());
            to[..count].copy_from_slice(&left[..count]);
            (at, left) = (at.wrapping_add(count as u32), &left[count..]);
        }
        true
    }

    /// Appends the first `most` of `count` bytes to a list, or answers false where one of the `count` may not be read.
    pub fn read(&mut self, at: u32, count: u32, most: usize, into: &mut Vec<u8>) -> bool {
        if !self.grants(READ, at, count) {
            return false;
        }
        let (mut at, mut left) = (at, most.min(count as usize));
        while left > 0 {
            let from = self.bytes_from(at).expect("a region's block");
            let count = from.len().min(left);
            into.extend_from_slice(&from[..count]);
            (at, left) = (at.wrapping_add(count as u32), left - count);
        }
        true
    }

    /// The word at pc, where pc is a multiple of 4 and the word lies in one region that may be executed.
    pub fn fetch(&self, pc: u32) -> Option<u32> {
        let region = self.region(pc)?;
        let is_whole = pc % 4 == 0 && region.end - pc >= 4 && region.flags & EXECUTE != 0;
        let byte = |i: u32| u32::from(self.byte(pc + i)) << (8 * i);
        is_whole.then(|| byte(0) | byte(1) | byte(2) | byte(3))
    }
}
