//! The scopes of frames, numbered in their order.

use crate::dwarf::Line;
use crate::scopes::{ProcId, Scopes};
use crate::tree::{CALL, INLINE, PROC, STMT, Scope};

/// The scopes of all frames. Those at an address have two numbers: as a caller and as the innermost. Frames of the same
/// scopes have the same number, and the numbers ascend as the scopes do.
pub struct Ordered {
    /// Ascending: address, number as a caller, number as the innermost.
    places: Vec<(u32, u32, u32)>,
    /// By number, where its scopes begin; at last where they end.
    starts: Vec<u32>,
    scopes: Vec<Scope>,
    pub procs: Vec<ProcId>,
    pub lines: Vec<Line>,
    pub inlines: Vec<(u32, u32)>,
}

/// Sorts a list, each once.
pub fn ascending<T: Ord>(mut list: Vec<T>) -> Vec<T> {
    list.sort_unstable();
    list.dedup();
    list
}

fn place_of<T: Ord>(list: &[T], item: &T) -> u32 {
    list.binary_search(item).expect("an item of the list") as u32
}

impl Ordered {
    pub fn of(scopes: &Scopes, found: Vec<u32>) -> Ordered {
        let addresses = ascending(found);
        let found: Vec<_> = addresses.iter().map(|address| scopes.at(*address)).collect();
        let callees = found.iter().flat_map(|it| it.1.iter().map(|(callee, _)| *callee));
        let procs = ascending(found.iter().map(|it| it.0).chain(callees).collect());
        let called = found.iter().flat_map(|it| it.1.iter().map(|(_, call)| *call));
        let lines = ascending(found.iter().map(|it| it.2).chain(called).collect());
        let pair = |(callee, call): &(ProcId, Line)| (place_of(&procs, callee), place_of(&lines, call));
        let inlines = ascending(found.iter().flat_map(|it| it.1.iter().map(pair)).collect());

        // The scopes of each frame one after the other, and where each begins.
        let (mut flat, mut begins): (Vec<Scope>, Vec<u32>) = (Vec::new(), vec![0]);
        for (procedure, calls, line) in &found {
            let (procedure, line) = (place_of(&procs, procedure), place_of(&lines, line));
            for kind in [CALL, STMT] {
                flat.push(Scope::new(PROC, procedure));
                flat.extend(calls.iter().map(|call| Scope::new(INLINE, place_of(&inlines, &pair(call)))));
                flat.push(Scope::new(kind, line));
                begins.push(flat.len() as u32);
            }
        }
        let of_frame = |frame: u32| &flat[begins[frame as usize] as usize..begins[frame as usize + 1] as usize];
        // Each beside its first two scopes, by which nearly all are told apart.
        let front = |scopes: &[Scope]| u64::from(scopes[0].word()) << 32 | u64::from(scopes[1].word());
        let mut frames: Vec<(u64, u32)> =
            (0..begins.len() as u32 - 1).map(|frame| (front(of_frame(frame)), frame)).collect();
        frames.sort_unstable_by(|one, other| {
            one.0.cmp(&other.0).then_with(|| of_frame(one.1)[2..].cmp(&of_frame(other.1)[2..]))
        });
        let (mut numbers, mut starts, mut scopes) = (vec![0; frames.len()], vec![0], Vec::new());
        for group in frames.chunk_by(|one, other| of_frame(one.1) == of_frame(other.1)) {
            group.iter().for_each(|(_, frame)| numbers[*frame as usize] = starts.len() as u32 - 1);
            scopes.extend_from_slice(of_frame(group[0].1));
            starts.push(scopes.len() as u32);
        }
        let pairs = addresses.iter().zip(numbers.chunks_exact(2));
        let places = pairs.map(|(address, pair)| (*address, pair[0], pair[1])).collect();
        Ordered { places, starts, scopes, procs, lines, inlines }
    }

    pub fn numbers(&self, address: u32) -> (u32, u32) {
        let place = self.places.binary_search_by_key(&address, |place| place.0).expect("an address of a frame");
        (self.places[place].1, self.places[place].2)
    }

    pub fn scopes_of(&self, frame: u32) -> &[Scope] {
        &self.scopes[self.starts[frame as usize] as usize..self.starts[frame as usize + 1] as usize]
    }
}
