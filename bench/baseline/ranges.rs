//! Which of many ranges that may overlap is the first, in their order, to hold an address.

use std::collections::BTreeSet;

/// The answer at an address that no range holds.
pub const NONE: u32 = u32::MAX;

/// Addresses at which the answer changes, ascending, each with the index of the range from there on.
pub struct FirstRange {
    pub steps: Vec<(u32, u32)>,
}

impl FirstRange {
    pub fn of(ranges: impl Iterator<Item = (u32, u32)>) -> FirstRange {
        let mut events = Vec::new();
        for (index, (start, end)) in ranges.enumerate() {
            events.push((start, true, index as u32));
            events.push((end, false, index as u32));
        }
        events.sort_unstable();
        let (mut open, mut steps) = (BTreeSet::new(), Vec::new());
        let mut left = events.as_slice();
        while let Some((at, ..)) = left.first().copied() {
            let (now, later) = left.split_at(left.partition_point(|event| event.0 == at));
            for (_, is_start, index) in now {
                if *is_start {
                    open.insert(*index)
                } else {
                    open.remove(index)
                };
            }
            let first = open.first().copied().unwrap_or(NONE);
            if steps.last().map_or(NONE, |(_, index)| *index) != first {
                steps.push((at, first));
            }
            left = later;
        }
        FirstRange { steps }
    }

    /// The index of the first range that holds the address, or `NONE`.
    pub fn at(&self, address: u32) -> u32 {
        let after = self.steps.partition_point(|(start, _)| *start <= address);
        after.checked_sub(1).map_or(NONE, |last| self.steps[last].1)
    }
}
