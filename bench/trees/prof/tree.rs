//! One tree in preorder of one trie or of several.
use super::tries::{End, NO_PARENT, Node, Scope, Trie};
use std::cmp::Reverse;

pub struct Tree {
    pub nodes: Vec<Node>,
    pub counts: Vec<End>,
}

/// The ends by node and column, those of the same of both added up.
fn summed(mut ends: Vec<End>) -> Vec<End> {
    ends.sort_unstable_by_key(|end| (end.node, end.column));
    ends.dedup_by(|later, first| {
        let is_same = (later.node, later.column) == (first.node, first.column);
        if is_same {
            first.count += later.count;
        }
        is_same
    });
    ends
}

/// A trie's nodes in preorder, siblings by scope, and the counts by node and column.
pub fn preorder(trie: Trie) -> Tree {
    let count = trie.nodes.len();
    let mut branches = vec![false; count + 1];
    for (place, node) in trie.nodes.iter().enumerate() {
        let slot = node.parent.wrapping_add(1) as usize;
        branches[slot] |= slot != place;
    }
    let slot = |n: &Node| n.parent.wrapping_add(1);
    let mut siblings: Vec<(u32, Scope, u32)> = trie
        .nodes
        .iter()
        .enumerate()
        .filter(|(_, n)| branches[slot(n) as usize])
        .map(|(place, n)| (slot(n), n.scope, place as u32))
        .collect();
    siblings.sort_unstable();
    let push = |parent: u32, stack: &mut Vec<u32>| {
        let slot = parent.wrapping_add(1);
        if branches[slot as usize] {
            let from = siblings.partition_point(|s| s.0 < slot);
            let until = from + siblings[from..].partition_point(|s| s.0 <= slot);
            stack.extend(siblings[from..until].iter().rev().map(|s| s.2));
        } else if trie.nodes.get(slot as usize).is_some_and(|n| n.parent == parent) {
            stack.push(slot);
        }
    };
    let mut numbers = vec![NO_PARENT; count];
    let mut nodes = Vec::with_capacity(count);
    let mut stack = Vec::new();
    push(NO_PARENT, &mut stack);
    while let Some(place) = stack.pop() {
        let node = trie.nodes[place as usize];
        numbers[place as usize] = nodes.len() as u32;
        let parent = numbers.get(node.parent as usize).copied().unwrap_or(NO_PARENT);
        nodes.push(Node { parent, scope: node.scope });
        push(place, &mut stack);
    }
    let mut ends = trie.ends;
    ends.iter_mut().for_each(|end| end.node = numbers[end.node as usize]);
    Tree { nodes, counts: summed(ends) }
}

/// The order of nodes in a walk over several trees: below one parent the smallest scope comes first, and the node whose
/// parent has the greatest number before all others; a root's parent has number 0, and each other the next one.
type Key = (Reverse<u32>, Scope);

/// A tree, and the numbers that its first nodes have in the joined one.
struct Walked<'t> {
    tree: &'t Tree,
    numbers: Vec<u32>,
}

impl Walked<'_> {
    /// That of the tree's next node.
    fn key(&self) -> Option<Key> {
        let node = self.tree.nodes.get(self.numbers.len())?;
        let parent = self.numbers.get(node.parent as usize).map_or(0, |number| number + 1);
        Some((Reverse(parent), node.scope))
    }
}

/// Several trees as one, by one walk over all. A tree's nodes follow each other as long as they come before what is next
/// in the others.
pub fn joined(trees: &[Tree]) -> Tree {
    let mut walks: Vec<Walked> =
        trees.iter().map(|tree| Walked { tree, numbers: Vec::with_capacity(tree.nodes.len()) }).collect();
    let mut keys: Vec<Option<Key>> = walks.iter().map(Walked::key).collect();
    let mut nodes = Vec::new();
    let node_of = |key: Key| Node { parent: key.0.0.wrapping_sub(1), scope: key.1 };
    while let Some(first) = keys.iter().flatten().min().copied() {
        let second = keys.iter().flatten().filter(|key| **key != first).min().copied();
        let (number, mut same, mut last) = (nodes.len() as u32, 0, 0);
        nodes.push(node_of(first));
        for t in 0..walks.len() {
            if keys[t] == Some(first) {
                walks[t].numbers.push(number);
                keys[t] = walks[t].key();
                (same, last) = (same + 1, t);
            }
        }
        while let Some(next) = keys[last].filter(|next| same == 1 && second.is_none_or(|second| *next < second)) {
            walks[last].numbers.push(nodes.len() as u32);
            nodes.push(node_of(next));
            keys[last] = walks[last].key();
        }
    }
    let mut ends: Vec<End> = Vec::with_capacity(trees.iter().map(|tree| tree.counts.len()).sum());
    for walk in &walks {
        ends.extend(walk.tree.counts.iter().map(|end| End { node: walk.numbers[end.node as usize], ..*end }));
    }
    Tree { nodes, counts: summed(ends) }
}
