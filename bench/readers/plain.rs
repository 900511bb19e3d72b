//! A measurement or a database read in plain Rust, with all that docs/FORMATS.md has of their rules, and how much it holds:
//! `plain measurement FILE [OUT]` and `plain database FILE`. With OUT the measurement is written again, and its bytes are
//! stored there. `plain stats FILE KIND` puts the table of `hpc stats`, KIND as it takes it, of a database whose procedures
//! have no names and whose lines are addresses. A broken rule is a panic.
#[path = "../trees/prof/main.rs"]
#[allow(dead_code)]
mod prof;

use prof::{End, Event, Line, Map, NO_PARENT, Node, Plane, Proc, Scope, Tree};
use std::io::Write;

const MOST_SAMPLES: u64 = 1_048_576;
const MOST_FRAMES: u64 = 4_194_304;

struct Cursor<'a> {
    bytes: &'a [u8],
    at: usize,
}

impl<'a> Cursor<'a> {
    fn take(&mut self, count: usize) -> &'a [u8] {
        let bytes = &self.bytes[self.at..self.at + count];
        self.at += count;
        bytes
    }

    fn word(&mut self) -> u32 {
        u32::from_le_bytes(self.take(4).try_into().expect("four bytes"))
    }

    fn long(&mut self) -> u64 {
        u64::from_le_bytes(self.take(8).try_into().expect("eight bytes"))
    }
}

// ---- measurements

struct Path {
    count: u32,
    end: u32,
    pcs: Vec<u32>,
}

struct Measurement {
    head: [u32; 3],
    harts: Vec<Vec<Path>>,
}

/// The paths, each with a list of its own, since so it is handed on.
fn read_measurement(bytes: &[u8]) -> Measurement {
    let mut cursor = Cursor { bytes, at: 0 };
    assert_eq!(cursor.take(8), b"HPCRUNM1");
    let head = [cursor.word(), cursor.word(), cursor.word()];
    let harts = cursor.word();
    assert!(head[2] >= 1 && (1..=16).contains(&harts));
    let (mut samples, mut frames, mut all) = (0, 0, Vec::new());
    for _ in 0..harts {
        let number_of_paths = cursor.word();
        let (mut paths, mut known) = (Vec::with_capacity(number_of_paths as usize), Map::default());
        known.reserve(number_of_paths as usize);
        for number in 0..number_of_paths {
            let (count, end, length) = (cursor.word(), cursor.word(), cursor.word());
            samples += u64::from(count);
            frames += u64::from(length);
            assert!(count >= 1 && end <= 5 && (1..=512).contains(&length));
            assert!(samples <= MOST_SAMPLES && frames <= MOST_FRAMES);
            let text = cursor.take(4 * length as usize);
            assert!(known.insert((end, text), number).is_none());
            let pcs = text.chunks_exact(4).map(|pc| prof::word(pc, 0)).collect();
            paths.push(Path { count, end, pcs });
        }
        all.push(paths);
    }
    assert_eq!(cursor.at, bytes.len());
    Measurement { head, harts: all }
}

fn write_measurement(m: &Measurement) -> Vec<u8> {
    let mut out = b"HPCRUNM1".to_vec();
    let mut put = |n: u32| out.extend(n.to_le_bytes());
    m.head.iter().for_each(|n| put(*n));
    put(m.harts.len() as u32);
    for paths in &m.harts {
        put(paths.len() as u32);
        for path in paths {
            [path.count, path.end, path.pcs.len() as u32].iter().for_each(|n| put(*n));
            path.pcs.iter().for_each(|pc| put(*pc));
        }
    }
    out
}

// ---- databases

/// The names of a list: each with its two numbers and a name of at most 4,096 bytes.
fn read_names<'a>(cursor: &mut Cursor<'a>, count: u32) -> Vec<(u32, u32, &'a [u8])> {
    let names: Vec<_> = (0..count)
        .map(|_| {
            let (first, second, length) = (cursor.word(), cursor.word(), cursor.word() as usize);
            (first, second, cursor.take(length))
        })
        .collect();
    assert!(names.iter().all(|name| name.2.len() <= 4096));
    assert!(names.windows(2).all(|pair| (pair[0].0, pair[0].1) < (pair[1].0, pair[1].1)));
    names
}

fn procedure_of(name: &(u32, u32, &[u8])) -> Proc {
    match name {
        (0, offset, _) => Proc::Die(*offset),
        (1, start, _) => Proc::Sym(*start),
        (2, 0, b"<unknown procedure>") => Proc::Nameless,
        _ => panic!("a procedure"),
    }
}

/// What the scopes of nodes refer to, and which of it has been referred to.
struct Names {
    procedures: Vec<Proc>,
    files: Vec<(u32, u32)>,
    used_procedures: Vec<bool>,
    used_files: Vec<bool>,
}

impl Names {
    fn procedure(&mut self, index: u32) -> Proc {
        self.used_procedures[index as usize] = true;
        self.procedures[index as usize]
    }

    fn line(&mut self, cursor: &mut Cursor<'_>) -> Line {
        match cursor.word() {
            0 => {
                let index = cursor.word() as usize;
                self.used_files[index] = true;
                let (table, file) = self.files[index];
                Line::Row { table, file, line: cursor.word() }
            }
            1 => Line::Address(cursor.word()),
            _ => panic!("a line"),
        }
    }

    fn scope(&mut self, cursor: &mut Cursor<'_>) -> Scope {
        match cursor.word() {
            0 => {
                let kind = cursor.word();
                assert!(kind <= 1);
                Scope::Root(kind == 1)
            }
            1 => Scope::Proc(self.procedure(cursor.word())),
            2 => Scope::Inline { callee: self.procedure(cursor.word()), call: self.line(cursor) },
            3 => Scope::Call(self.line(cursor)),
            4 => Scope::Stmt(self.line(cursor)),
            _ => panic!("a scope"),
        }
    }
}

fn may_stand_under(scope: &Scope, above: &Scope) -> bool {
    match scope {
        Scope::Root(_) => false,
        Scope::Proc(_) => matches!(above, Scope::Root(_) | Scope::Call(_)),
        _ => matches!(above, Scope::Proc(_) | Scope::Inline { .. }),
    }
}

/// Each node is the first child of the node before it, or stands by the order of scopes behind a sibling among that
/// node and its ancestors.
fn judge_nodes(nodes: &[Node]) {
    let mut last = NO_PARENT;
    for (number, node) in nodes.iter().enumerate() {
        let above = nodes.get(node.parent as usize).filter(|_| node.parent != NO_PARENT);
        match above {
            Some(above) => assert!(may_stand_under(&node.scope, &above.scope)),
            None => assert!(node.parent == NO_PARENT && matches!(node.scope, Scope::Root(_))),
        }
        if number > 0 && node.parent != last {
            let mut sibling = last;
            while nodes[sibling as usize].parent != node.parent {
                sibling = nodes[sibling as usize].parent;
            }
            assert!(nodes[sibling as usize].scope < node.scope);
        }
        let has_child = nodes.get(number + 1).is_some_and(|next| next.parent == number as u32);
        assert!(has_child || matches!(node.scope, Scope::Stmt(_)));
        last = number as u32;
    }
}

/// The exclusive values of the plane by hart as counts of samples.
fn read_counts(cursor: &mut Cursor<'_>, nodes: &[Node], harts: u32, period: u64) -> Vec<End> {
    let (mut counts, mut samples) = (Vec::new(), 0);
    for hart in 0..harts {
        let mut before = None;
        for _ in 0..cursor.word() {
            let (node, kind, value) = (cursor.word(), cursor.word(), cursor.long());
            assert!((node as usize) < nodes.len() && kind <= 2 && value > 0 && before < Some((node, kind)));
            before = Some((node, kind));
            if kind == 0 {
                assert!(matches!(nodes[node as usize].scope, Scope::Stmt(_)) && value % period == 0);
                samples += value / period;
                assert!(samples <= MOST_SAMPLES);
                counts.push(End { node, column: hart, count: (value / period) as u32 });
            }
        }
    }
    counts.sort_unstable_by_key(|end| (end.node, end.column));
    counts
}

/// The tree and its values, node by node.
fn read_database(bytes: &[u8]) -> (Tree, Plane) {
    let mut cursor = Cursor { bytes, at: 0 };
    assert_eq!(cursor.take(8), b"HPCPROF1");
    let [period, harts, procedures, files, count] = std::array::from_fn(|_| cursor.word());
    assert!(period >= 1 && (1..=64).contains(&harts));
    let procedures = read_names(&mut cursor, procedures);
    let files = read_names(&mut cursor, files);
    let mut names = Names {
        procedures: procedures.iter().map(procedure_of).collect(),
        files: files.iter().map(|file| (file.0, file.1)).collect(),
        used_procedures: vec![false; procedures.len()],
        used_files: vec![false; files.len()],
    };
    let nodes: Vec<Node> =
        (0..count).map(|_| Node { parent: cursor.word(), scope: names.scope(&mut cursor) }).collect();
    assert!(names.used_procedures.iter().all(|used| *used) && names.used_files.iter().all(|used| *used));
    judge_nodes(&nodes);
    let planes = cursor.at;
    let counts = read_counts(&mut cursor, &nodes, harts, period.into());
    let tree = Tree { nodes, counts };
    let values = prof::sums(&tree, harts as usize, &[Event { number: 0, period }]);
    let mut wanted = Vec::with_capacity(bytes.len() - planes);
    prof::put_entries(&mut wanted, &prof::by_column(&values, harts as usize));
    let mut sampled = vec![false; tree.nodes.len()];
    tree.counts.iter().for_each(|end| sampled[end.node as usize] = true);
    assert!(tree.nodes.iter().zip(&sampled).all(|(node, is)| *is || !matches!(node.scope, Scope::Stmt(_))));
    let contexts = prof::by_node(&values, tree.nodes.len());
    prof::put_entries(&mut wanted, &contexts);
    assert!(bytes[planes..] == wanted[..]);
    (tree, contexts)
}

// ---- how values are spread over harts

/// How many values of a node are not 0, their sum, the least, the greatest, and the sum of their squares.
fn spread_of(values: impl Iterator<Item = u64>) -> (u64, u64, u64, u64, u128) {
    values.fold((0, 0, u64::MAX, 0, 0), |(count, sum, least, greatest, squares), value| {
        let square = u128::from(value) * u128::from(value);
        (count + 1, sum + value, least.min(value), greatest.max(value), squares + square)
    })
}

fn greatest_divisor(a: u64, b: u64) -> u64 {
    if b == 0 { a } else { greatest_divisor(b, a % b) }
}

fn put_label(out: &mut impl Write, scope: &Scope) -> std::io::Result<()> {
    match scope {
        Scope::Root(false) => out.write_all(b"<thread root>"),
        Scope::Root(true) => out.write_all(b"<partial call paths>"),
        Scope::Proc(Proc::Nameless) => out.write_all(b"<unknown procedure>"),
        Scope::Call(Line::Address(pc)) => write!(out, "call at 0x{pc:08x}"),
        Scope::Stmt(Line::Address(pc)) => write!(out, "0x{pc:08x}"),
        _ => panic!("a scope of a program without debug information"),
    }
}

fn put_stats(out: &mut impl Write, nodes: &[Node], contexts: &Plane, kind: u32) -> std::io::Result<()> {
    let (profiles, sum, least, greatest, squares, mean) = ("profiles", "sum", "least", "greatest", "squares", "mean");
    writeln!(out, "{profiles:>8} {sum:>16} {least:>16} {greatest:>16} {squares:>32} {mean:>24}  scope")?;
    let mut depths: Vec<usize> = Vec::with_capacity(nodes.len());
    for (number, node) in nodes.iter().enumerate() {
        let depth = if node.parent == NO_PARENT { 0 } else { depths[node.parent as usize] + 1 };
        depths.push(depth);
        let column = &contexts.entries[contexts.starts[number]..contexts.starts[number + 1]];
        let (profiles, sum, least, greatest, squares) =
            spread_of(column.iter().filter(|entry| entry.first == kind).map(|entry| entry.value));
        if profiles == 0 {
            continue;
        }
        let divisor = greatest_divisor(sum, profiles);
        let mean = format!("{}/{}", sum / divisor, profiles / divisor);
        let blanks = 2 + 2 * depth;
        write!(out, "{profiles:>8} {sum:>16} {least:>16} {greatest:>16} {squares:>32} {mean:>24}{:blanks$}", "")?;
        put_label(out, &node.scope)?;
        out.write_all(b"\n")?;
    }
    Ok(())
}

fn main() -> std::io::Result<()> {
    let words: Vec<String> = std::env::args().collect();
    let bytes = std::fs::read(&words[2])?;
    if words[1] == "database" {
        println!("{} nodes", read_database(&bytes).0.nodes.len());
        return Ok(());
    }
    if words[1] == "stats" {
        let kind = ["exclusive", "frame", "inclusive"].iter().position(|kind| *kind == words[3]).expect("a kind");
        let (tree, contexts) = read_database(&bytes);
        let mut out = std::io::BufWriter::with_capacity(1 << 16, std::io::stdout().lock());
        put_stats(&mut out, &tree.nodes, &contexts, kind as u32)?;
        return out.flush();
    }
    let read = read_measurement(&bytes);
    println!("{} paths", read.harts.iter().map(Vec::len).sum::<usize>());
    if let Some(out) = words.get(3) {
        std::fs::write(out, write_measurement(&read))?;
    }
    Ok(())
}
