//! Paths expanded chunk by chunk and merged into tries by several workers.
use super::files::{Path, Symbol, word};
use std::collections::HashMap;
use std::hash::{BuildHasherDefault, Hasher};
use std::sync::Mutex;
use std::sync::atomic::{AtomicUsize, Ordering::Relaxed};

#[derive(Clone, Copy, PartialEq, Eq, PartialOrd, Ord, Hash)]
pub enum Proc {
    #[allow(dead_code)]
    Die(u32),
    Sym(u32),
    Nameless,
}

#[derive(Clone, Copy, PartialEq, Eq, PartialOrd, Ord, Hash)]
#[allow(dead_code)]
pub enum Line {
    Row { table: u32, file: u32, line: u32 },
    Address(u32),
}

#[derive(Clone, Copy, PartialEq, Eq, PartialOrd, Ord, Hash)]
#[allow(dead_code)]
pub enum Scope {
    Root(bool),
    Proc(Proc),
    Inline { callee: Proc, call: Line },
    Call(Line),
    Stmt(Line),
}

pub const NO_PARENT: u32 = u32::MAX;

#[derive(Clone, Copy)]
pub struct Node {
    pub parent: u32,
    pub scope: Scope,
}

/// So many samples of a column whose path ends at a node.
#[derive(Clone, Copy)]
pub struct End {
    pub node: u32,
    pub column: u32,
    pub count: u32,
}

/// A hasher of a multiplication for each word.
#[derive(Default)]
pub struct Fast(u64);

impl Hasher for Fast {
    fn finish(&self) -> u64 {
        self.0 ^ (self.0 >> 32)
    }
    fn write(&mut self, bytes: &[u8]) {
        let (words, rest) = bytes.as_chunks();
        words.iter().for_each(|word| self.write_u64(u64::from_le_bytes(*word)));
        if !rest.is_empty() {
            let mut last = [0; 8];
            last[..rest.len()].copy_from_slice(rest);
            self.write_u64(u64::from_le_bytes(last));
        }
    }
    fn write_u32(&mut self, n: u32) {
        self.write_u64(n.into());
    }
    fn write_u64(&mut self, n: u64) {
        self.0 = (self.0.rotate_left(5) ^ n).wrapping_mul(0x517c_c1b7_2722_0a95);
    }
    fn write_isize(&mut self, n: isize) {
        self.write_u64(n as u64);
    }
    fn write_usize(&mut self, n: usize) {
        self.write_u64(n as u64);
    }
}

pub type Map<K, V> = HashMap<K, V, BuildHasherDefault<Fast>>;

/// A node is sought right after its parent, and then among those that stand elsewhere.
#[derive(Default)]
pub struct Trie {
    pub nodes: Vec<Node>,
    side: Map<(u32, Scope), u32>,
    pub ends: Vec<End>,
}

impl Trie {
    fn enter(&mut self, parent: u32, scope: Scope) -> u32 {
        let next = parent.wrapping_add(1);
        match self.nodes.get(next as usize) {
            Some(node) if node.parent == parent && node.scope == scope => return next,
            Some(_) => {
                if let Some(place) = self.side.get(&(parent, scope)) {
                    return *place;
                }
            }
            None => {}
        }
        let place = self.nodes.len() as u32;
        if place != next {
            self.side.insert((parent, scope), place);
        }
        self.nodes.push(Node { parent, scope });
        place
    }

    fn put(&mut self, column: u32, count: u32, path: &[Scope]) {
        let mut node = NO_PARENT;
        for scope in path {
            node = self.enter(node, *scope);
        }
        self.ends.push(End { node, column, count });
    }

    fn put_piece(&mut self, piece: &Piece) {
        let mut from = 0;
        for entry in &piece.entries {
            self.put(entry.column, entry.count, &piece.scopes[from..entry.end]);
            from = entry.end;
        }
    }

    pub fn absorb(&mut self, other: &Trie) {
        let mut places = Vec::with_capacity(other.nodes.len());
        for node in &other.nodes {
            let parent = places.get(node.parent as usize).copied().unwrap_or(NO_PARENT);
            places.push(self.enter(parent, node.scope));
        }
        for end in &other.ends {
            self.ends.push(End { node: places[end.node as usize], ..*end });
        }
    }
}

// ---- scopes

pub struct Finder {
    starts: Vec<(u32, u32)>,
}

impl Finder {
    pub fn of(symbols: &[Symbol]) -> Finder {
        let mut starts: Vec<_> = symbols.iter().map(|s| (s.start, s.start + s.size)).collect();
        starts.sort_unstable();
        Finder { starts }
    }

    fn procedure(&self, pc: u32) -> Proc {
        let place = self.starts.partition_point(|s| s.0 <= pc);
        match self.starts[..place].last() {
            Some((start, end)) if pc < *end => Proc::Sym(*start),
            _ => Proc::Nameless,
        }
    }

    fn expand(&self, path: &Path<'_>, scopes: &mut Vec<Scope>) {
        scopes.clear();
        scopes.push(Scope::Root(path.is_partial));
        let frames = path.pcs.len() / 4;
        for i in (0..frames).rev() {
            let pc = word(path.pcs, 4 * i);
            scopes.push(Scope::Proc(self.procedure(pc)));
            scopes.push(if i == 0 { Scope::Stmt(Line::Address(pc)) } else { Scope::Call(Line::Address(pc)) });
        }
    }
}

fn fnv(key: u32, word: u32) -> u32 {
    (key ^ word).wrapping_mul(16_777_619)
}

/// The FNV-1a hash of the scopes before the last.
fn key(path: &[Scope]) -> u32 {
    path[..path.len() - 1].iter().fold(2_166_136_261, |key, scope| match *scope {
        Scope::Root(partial) => fnv(fnv(key, 0), partial as u32),
        Scope::Proc(Proc::Sym(start)) => fnv(fnv(fnv(key, 1), 1), start),
        Scope::Proc(_) => fnv(fnv(fnv(key, 1), 2), 0),
        Scope::Call(Line::Address(pc)) => fnv(fnv(fnv(key, 3), 1), pc),
        _ => unreachable!(),
    })
}

// ---- workers

const CHUNK: usize = 64;
const STRIPES: usize = 16;
/// Pieces that a worker lets wait for their stripes; then it waits for those itself.
const MOST_WAITING: usize = 1024;

/// The next chunk of paths that no worker has.
fn claimed<'p, 'a>(paths: &'p [Path<'a>], next: &AtomicUsize) -> Option<&'p [Path<'a>]> {
    let from = CHUNK * next.fetch_add(1, Relaxed);
    (from < paths.len()).then(|| &paths[from..paths.len().min(from + CHUNK)])
}

/// One worker's own trie.
fn merge_alone(paths: &[Path<'_>], finder: &Finder, next: &AtomicUsize) -> Trie {
    let (mut trie, mut scopes) = (Trie::default(), Vec::new());
    while let Some(chunk) = claimed(paths, next) {
        for path in chunk {
            finder.expand(path, &mut scopes);
            trie.put(path.column, path.count, &scopes);
        }
    }
    trie
}

/// Paths of a chunk that are of one stripe: where the scopes of each end in a list of all.
#[derive(Default)]
struct Piece {
    entries: Vec<PieceEntry>,
    scopes: Vec<Scope>,
}

struct PieceEntry {
    column: u32,
    count: u32,
    end: usize,
}

impl Piece {
    fn put(&mut self, path: &Path<'_>, scopes: &[Scope]) {
        self.scopes.extend_from_slice(scopes);
        self.entries.push(PieceEntry { column: path.column, count: path.count, end: self.scopes.len() });
    }

    fn clear(&mut self) {
        self.entries.clear();
        self.scopes.clear();
    }
}

/// One worker's share of the stripes. A piece whose stripe another worker holds waits, and is tried again after each
/// chunk.
fn merge_shared(paths: &[Path<'_>], finder: &Finder, next: &AtomicUsize, stripes: &[Mutex<Trie>]) {
    let mut pieces: Vec<Piece> = stripes.iter().map(|_| Piece::default()).collect();
    let (mut waiting, mut scopes): (Vec<(usize, Piece)>, Vec<Scope>) = (Vec::new(), Vec::new());
    let put = |stripe: usize, piece: &Piece| match stripes[stripe].try_lock() {
        Ok(mut trie) => {
            trie.put_piece(piece);
            true
        }
        Err(_) => false,
    };
    while let Some(chunk) = claimed(paths, next) {
        for path in chunk {
            finder.expand(path, &mut scopes);
            pieces[key(&scopes) as usize % stripes.len()].put(path, &scopes);
        }
        waiting.retain(|(stripe, piece)| !put(*stripe, piece));
        for (stripe, piece) in pieces.iter_mut().enumerate().filter(|(_, piece)| !piece.entries.is_empty()) {
            if put(stripe, piece) {
                piece.clear();
            } else {
                waiting.push((stripe, std::mem::take(piece)));
            }
        }
        if waiting.len() > MOST_WAITING {
            waiting.drain(..).for_each(|(stripe, piece)| stripes[stripe].lock().unwrap().put_piece(&piece));
        }
    }
    waiting.drain(..).for_each(|(stripe, piece)| stripes[stripe].lock().unwrap().put_piece(&piece));
}

/// The tries of all paths: one of each worker, or sixteen that all share.
pub fn merged(paths: &[Path<'_>], finder: &Finder, workers: usize, is_shared: bool) -> Vec<Trie> {
    let next = AtomicUsize::new(0);
    if !is_shared {
        return std::thread::scope(|threads| {
            let each: Vec<_> = (0..workers).map(|_| threads.spawn(|| merge_alone(paths, finder, &next))).collect();
            each.into_iter().map(|thread| thread.join().unwrap()).collect()
        });
    }
    let stripes: Vec<Mutex<Trie>> = (0..STRIPES).map(|_| Mutex::default()).collect();
    std::thread::scope(|threads| {
        (0..workers).for_each(|_| drop(threads.spawn(|| merge_shared(paths, finder, &next, &stripes))));
    });
    stripes.into_iter().map(|stripe| stripe.into_inner().unwrap()).collect()
}
