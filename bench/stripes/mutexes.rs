//! The same merge in plain Rust: sixteen stripes with a `Mutex` each; and the atomic operations by themselves.
//!
//! `mutexes merge PATHS WORKERS ROUNDS`, `mutexes claim COUNT`, `mutexes take COUNT`.
use std::collections::HashMap;
use std::hash::{BuildHasherDefault, Hasher};
use std::sync::Mutex;
use std::sync::atomic::{AtomicU32, AtomicU64, Ordering};
use std::thread;
use std::time::Instant;

const NO_PARENT: u32 = u32::MAX;
const STRIPES: usize = 16;
const CHUNK_PATHS: usize = 64;

#[allow(dead_code)]
#[derive(Clone, Copy, PartialEq, Eq, Hash)]
enum ProcId {
    Die(u32),
    Sym(u32),
    Nameless,
}

#[allow(dead_code)]
#[derive(Clone, Copy, PartialEq, Eq, Hash)]
enum LineId {
    Row { table: u32, file: u32, line: u32 },
    Address(u32),
}

#[allow(dead_code)]
#[derive(Clone, Copy, PartialEq, Eq, Hash)]
enum Scope {
    Root(u32),
    Proc(ProcId),
    Inline { callee: ProcId, call: LineId },
    Call(LineId),
    Stmt(LineId),
}

struct Entry {
    hart: u32,
    count: u32,
    path: Vec<Scope>,
}

// ---- the trie of a stripe

/// Multiplies and folds each word.
#[derive(Default)]
struct Folded(u64);

impl Hasher for Folded {
    fn finish(&self) -> u64 {
        self.0
    }

    fn write(&mut self, bytes: &[u8]) {
        for byte in bytes {
            self.write_u64(u64::from(*byte));
        }
    }

    fn write_u32(&mut self, word: u32) {
        self.write_u64(u64::from(word));
    }

    fn write_u64(&mut self, word: u64) {
        let product = u128::from(self.0 ^ word ^ 0x2d35_8dcc_aa6c_78a5) * 0x9e37_79b9_7f4a_7c15;
        self.0 = (product >> 64) as u64 ^ product as u64;
    }

    fn write_isize(&mut self, word: isize) {
        self.write_u64(word as u64);
    }
}

struct Node {
    parent: u32,
    scope: Scope,
}

#[allow(dead_code)]
struct End {
    node: u32,
    hart: u32,
    count: u32,
}

/// A node is sought right after its parent first, and else among the branches.
#[derive(Default)]
struct Trie {
    nodes: Vec<Node>,
    branches: HashMap<(u32, Scope), u32, BuildHasherDefault<Folded>>,
    ends: Vec<End>,
}

impl Trie {
    fn enter(&mut self, parent: u32, scope: Scope) -> u32 {
        let next = parent.wrapping_add(1);
        if let Some(node) = self.nodes.get(next as usize) {
            if node.parent == parent && node.scope == scope {
                return next;
            }
        }
        let place = self.nodes.len() as u32;
        if next != place {
            let found = *self.branches.entry((parent, scope)).or_insert(place);
            if found != place {
                return found;
            }
        }
        self.nodes.push(Node { parent, scope });
        place
    }

    fn merge(&mut self, entries: &[Entry]) {
        for entry in entries {
            let node = entry.path.iter().fold(NO_PARENT, |node, scope| self.enter(node, *scope));
            self.ends.push(End { node, hart: entry.hart, count: entry.count });
        }
    }
}

struct Stripe {
    names: Vec<u32>,
    marks: Vec<bool>,
    trie: Trie,
}

// ---- the pieces

fn key(path: &[Scope]) -> u32 {
    let mut key = 2_166_136_261u32;
    let mut add = |word: u32| key = (key ^ word).wrapping_mul(16_777_619);
    for scope in &path[..path.len() - 1] {
        match scope {
            Scope::Root(kind) => [0, *kind].map(&mut add),
            Scope::Proc(ProcId::Sym(address)) => {
                add(1);
                [1, *address].map(&mut add)
            }
            _ => unreachable!("these paths have no other scopes before the last"),
        };
    }
    key
}

/// The pieces of all chunks. Path `number` is of one frame, in a procedure of 256 lines, out of order.
fn cut_all(paths: u32) -> Vec<[Vec<Entry>; STRIPES]> {
    let mut all: Vec<[Vec<Entry>; STRIPES]> = Vec::new();
    for number in 0..paths {
        if number as usize % CHUNK_PATHS == 0 {
            all.push(Default::default());
        }
        let pc = 0x1_0000 + 4 * (number.wrapping_mul(0x9E37_79B1) % 0x10_0000);
        let path = vec![
            Scope::Root(0),
            Scope::Proc(ProcId::Sym(pc / 1024)),
            Scope::Stmt(LineId::Address(pc)),
        ];
        let stripe = key(&path) as usize % STRIPES;
        all.last_mut().unwrap()[stripe].push(Entry { hart: 0, count: 1, path });
    }
    all
}

// ---- the merge

/// Puts a chunk's piece into its stripe, unless it is there.
fn put(stripe: &mut Stripe, chunk: u32, entries: &[Entry]) -> bool {
    if stripe.marks[chunk as usize] {
        return false;
    }
    stripe.trie.merge(entries);
    stripe.names.push(chunk);
    stripe.marks[chunk as usize] = true;
    true
}

fn work(next: &AtomicU32, stripes: &[Mutex<Stripe>], pieces: &[[Vec<Entry>; STRIPES]]) -> u64 {
    let mut merged = 0;
    loop {
        let chunk = next.fetch_add(1, Ordering::Relaxed);
        let Some(hands) = pieces.get(chunk as usize) else {
            return merged;
        };
        let mut later = [false; STRIPES];
        for (s, hand) in hands.iter().enumerate() {
            match stripes[s].try_lock() {
                Ok(mut stripe) => merged += u64::from(put(&mut stripe, chunk, hand)),
                Err(_) => later[s] = true,
            }
        }
        for (s, hand) in hands.iter().enumerate().filter(|(s, _)| later[*s]) {
            merged += u64::from(put(&mut stripes[s].lock().unwrap(), chunk, hand));
        }
    }
}

fn one_round(pieces: &[[Vec<Entry>; STRIPES]], workers: u32) {
    let fresh = || Stripe { names: Vec::new(), marks: vec![false; pieces.len()], trie: Trie::default() };
    let stripes: Vec<Mutex<Stripe>> = (0..STRIPES).map(|_| Mutex::new(fresh())).collect();
    let next = AtomicU32::new(0);
    let start = Instant::now();
    let merged: u64 = thread::scope(|scope| {
        let crew: Vec<_> = (0..workers).map(|_| scope.spawn(|| work(&next, &stripes, pieces))).collect();
        crew.into_iter().map(|worker| worker.join().unwrap()).sum()
    });
    let took = start.elapsed().as_nanos();
    let (mut names, mut nodes) = (0, 0);
    for stripe in stripes {
        let stripe = stripe.into_inner().unwrap();
        names += stripe.names.len();
        nodes += stripe.trie.nodes.len();
    }
    println!("{took} ns, {merged} merged, 0 busy, {names} names, {nodes} nodes");
}

// ---- the atomic operations

fn claim(count: u32) {
    let word = AtomicU64::new(0);
    let mut drawn = 0u64;
    for _ in 0..count {
        if word.fetch_add(1, Ordering::SeqCst) < 1 {
            drawn += 1;
        }
    }
    println!("{drawn} of {count}");
}

/// Takes a word that is even and puts it back as it was.
fn take(word: &AtomicU64) -> bool {
    let looked = word.load(Ordering::SeqCst);
    if looked % 2 == 1 || word.compare_exchange(looked, looked + 1, Ordering::SeqCst, Ordering::SeqCst).is_err() {
        return false;
    }
    word.store(looked, Ordering::SeqCst);
    true
}

fn takes(count: u32) {
    let word = AtomicU64::new(0);
    let held = (0..count).filter(|_| take(&word)).count();
    println!("{held} of {count}");
}

fn main() {
    let words: Vec<String> = std::env::args().skip(1).collect();
    let number = |at: usize| words[at].parse().unwrap();
    match words[0].as_str() {
        "merge" => {
            let pieces = cut_all(number(1));
            for _ in 0..number(3) {
                one_round(&pieces, number(2));
            }
        }
        "claim" => claim(number(1)),
        _ => takes(number(1)),
    }
}
