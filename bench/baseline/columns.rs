//! The values of a tree's nodes, column by column, in samples. A column is that of a hart and an event.

use crate::tree::{NO_PARENT, PROC, STMT, Tree, each};

/// The nodes that a column's paths pass through, ascending, with the samples below each (inclusive) and those that
/// pass into no further procedure (frame). What is spent at a node itself is the inclusive count of an innermost one.
#[derive(Default)]
pub struct Column {
    pub nodes: Vec<u32>,
    pub inclusive: Vec<u32>,
    pub frame: Vec<u32>,
}

impl Column {
    fn of(tree: &Tree, ends: &[(u32, u32)]) -> Column {
        let (mut column, mut above) = (Column::default(), Vec::new());
        let (mut line, mut fresh): (Vec<u32>, Vec<u32>) = (Vec::new(), Vec::new());
        for (end, count) in ends {
            let mut node = *end;
            while node != NO_PARENT {
                while line.last().is_some_and(|slot| column.nodes[*slot as usize] > node) {
                    line.pop();
                }
                if line.last().is_some_and(|slot| column.nodes[*slot as usize] == node) {
                    break;
                }
                fresh.push(node);
                node = tree.parents[node as usize];
            }
            if node == NO_PARENT {
                line.clear();
            }
            for node in fresh.drain(..).rev() {
                above.push(line.last().copied().unwrap_or(NO_PARENT));
                line.push(column.nodes.len() as u32);
                column.nodes.push(node);
                column.inclusive.push(0);
            }
            *column.inclusive.last_mut().expect("the end's slot") += *count;
        }
        column.sum(tree, &above);
        column
    }

    /// Adds each count to those above it. An innermost node has no one below, so its count stands.
    fn sum(&mut self, tree: &Tree, above: &[u32]) {
        self.frame = vec![0; self.nodes.len()];
        for slot in (0..self.nodes.len()).rev() {
            let kind = tree.scopes[self.nodes[slot] as usize].kind();
            if kind == STMT {
                self.frame[slot] = self.inclusive[slot];
            }
            if above[slot] != NO_PARENT {
                let up = above[slot] as usize;
                self.inclusive[up] += self.inclusive[slot];
                self.frame[up] += if kind == PROC { 0 } else { self.frame[slot] };
            }
        }
    }

    /// All columns: hart by hart, and of each hart event by event.
    pub fn all(tree: &Tree, workers: usize) -> Vec<Column> {
        let mut columns: Vec<(usize, Column)> =
            (0..tree.ends.len()).map(|number| (number, Column::default())).collect();
        let share = columns.len().div_ceil(workers);
        let mut shares: Vec<&mut [(usize, Column)]> = columns.chunks_mut(share).collect();
        each(&mut shares, |share| {
            for (number, column) in share.iter_mut() {
                *column = Column::of(tree, &tree.ends[*number]);
            }
        });
        columns.into_iter().map(|(_, column)| column).collect()
    }
}
