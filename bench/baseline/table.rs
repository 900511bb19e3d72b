//! The report: the totals, a line for each hart, and the top-down table of each event, written in pieces of 64 KiB.

use std::io::{Result, Write};

use crate::columns::Column;
use crate::dwarf::Line;
use crate::events::{EventPeriod, is_retired_alone};
use crate::machine::{End, Machine};
use crate::tree::{CALL, INLINE, NO_PARENT, PROC, ROOT, Tree};

const PIECE: usize = 1 << 16;
const SPACES: [u8; 64] = [b' '; 64];

/// Collects text, and writes it on when there is a piece of it.
struct Text<W> {
    to: W,
    bytes: Vec<u8>,
}

impl<W: Write> Text<W> {
    fn flush(&mut self) -> Result<()> {
        self.to.write_all(&self.bytes)?;
        self.bytes.clear();
        Ok(())
    }

    fn spaces(&mut self, count: usize) {
        let mut left = count;
        while left > 0 {
            let some = left.min(SPACES.len());
            self.bytes.extend_from_slice(&SPACES[..some]);
            left -= some;
        }
    }

    /// A number at the right of `width` places, with a point before the last digit of tenths.
    fn number(&mut self, number: u64, width: usize, has_tenths: bool) {
        let (mut digits, mut at, mut left) = ([0; 24], 24, number);
        loop {
            at -= 1;
            digits[at] = b'0' + (left % 10) as u8;
            left /= 10;
            if has_tenths && at == 23 {
                at -= 1;
                digits[at] = b'.';
            } else if left == 0 {
                break;
            }
        }
        self.spaces(width.saturating_sub(24 - at));
        self.bytes.extend_from_slice(&digits[at..]);
    }

    fn address(&mut self, address: u32) {
        self.bytes.extend_from_slice(b"0x");
        for shift in (0..8).rev() {
            self.bytes.push(b"0123456789abcdef"[(address >> (4 * shift)) as usize & 15]);
        }
    }

    fn place(&mut self, tree: &Tree, place: u32) {
        match tree.lines[place as usize] {
            Line::Address(address) => self.address(address),
            Line::Row { table, file, line } => {
                let order = |other: &(u32, u32, Vec<u8>)| (other.0, other.1).cmp(&(table, file));
                self.name(&tree.files[tree.files.binary_search_by(order).expect("a file of the list")].2);
                self.bytes.push(b':');
                self.number(u64::from(line), 0, false);
            }
        }
    }

    fn name(&mut self, name: &[u8]) {
        self.bytes.extend(printed(name));
    }
}

/// A name as it is printed.
pub fn printed(name: &[u8]) -> impl Iterator<Item = u8> {
    name.iter().map(|byte| if *byte < 32 || *byte == 127 { b'?' } else { *byte })
}

fn end_of(end: Option<End>) -> String {
    match end {
        None => "stopped".to_string(),
        Some(End::Exit(status)) => format!("exit {status}"),
        Some(End::Group(status)) => format!("group {status}"),
        Some(End::Trap(cause, pc)) => format!("trap {cause} at 0x{pc:08x}"),
        Some(End::Break(pc)) => format!("break at 0x{pc:08x}"),
    }
}

/// What a run puts before its tables: what the program wrote, the totals, and a line for each hart; `samples` are those
/// of each column.
pub fn summary(machine: &Machine, samples: &[u64], events: &[EventPeriod]) -> Vec<u8> {
    let (harts, all) = (machine.harts.len(), samples.iter().sum::<u64>());
    let mut text = machine.output.clone();
    if machine.output.last().is_some_and(|byte| *byte != b'\n') {
        text.push(b'\n');
    }
    let totals = if is_retired_alone(events) {
        let (period, total) = (events[0].period, all * u64::from(events[0].period));
        format!("harts {harts} period {period} samples {all} total {total}\n")
    } else {
        format!("harts {harts} samples {all}\n")
    };
    text.extend_from_slice(totals.as_bytes());
    for (number, (hart, found)) in machine.harts.iter().zip(samples.chunks(events.len())).enumerate() {
        let (found, end) = (found.iter().sum::<u64>(), end_of(hart.end));
        let line = format!("hart {number} retired {} samples {found} end {end}\n", hart.done[0]);
        text.extend_from_slice(line.as_bytes());
    }
    text
}

/// The line of an event, where retired is not the only one; `samples` are those of each column.
pub fn event_line(samples: &[u64], events: &[EventPeriod], place: usize) -> String {
    if is_retired_alone(events) {
        return String::new();
    }
    let found: u64 = samples.iter().skip(place).step_by(events.len()).sum();
    let EventPeriod { event, period } = events[place];
    format!("event {} period {period} samples {found} total {}\n", event.name(), found * u64::from(period))
}

/// Puts a text, and the table of each event behind it.
pub fn report(text: Vec<u8>, tree: &Tree, columns: &[Column], events: &[EventPeriod], to: impl Write) -> Result<()> {
    tables(Text { to, bytes: text }, tree, columns, events)
}

fn tables<W: Write>(mut text: Text<W>, tree: &Tree, columns: &[Column], events: &[EventPeriod]) -> Result<()> {
    let (samples, count) = (tree.samples(), events.len());
    for (place, it) in events.iter().enumerate() {
        text.bytes.extend_from_slice(event_line(&samples, events, place).as_bytes());
        text.bytes.extend_from_slice(b"       inclusive      %            frame  scope\n");
        let own: Vec<&Column> = columns.iter().skip(place).step_by(count).collect();
        let found = samples.iter().skip(place).step_by(count).sum();
        rows(&mut text, tree, &own, it.period, found)?;
    }
    text.flush()
}

/// The sum of all columns; of one its own values.
fn summed(tree: &Tree, columns: &[&Column], values: impl Fn(&Column) -> &[u32]) -> Vec<u32> {
    let mut sums = vec![0; tree.scopes.len()];
    for column in columns {
        for (node, count) in column.nodes.iter().zip(values(column)) {
            sums[*node as usize] += count;
        }
    }
    sums
}

/// The rows of the nodes with samples in these columns.
fn rows<W: Write>(text: &mut Text<W>, tree: &Tree, columns: &[&Column], period: u32, total: u64) -> Result<()> {
    let inclusive = summed(tree, columns, |column| &column.inclusive);
    let frame = summed(tree, columns, |column| &column.frame);
    let mut line: Vec<u32> = Vec::new();
    let shown = tree.scopes.iter().enumerate().filter(|(node, _)| inclusive[*node] > 0);
    for (node, scope) in shown {
        while line.last().is_some_and(|last| *last != tree.parents[node]) && tree.parents[node] != NO_PARENT {
            line.pop();
        }
        if tree.parents[node] == NO_PARENT {
            line.clear();
        }
        let (passed, spent) = (u64::from(inclusive[node]), u64::from(frame[node]));
        text.number(passed * u64::from(period), 16, false);
        text.bytes.push(b' ');
        text.number(passed * 1000 / total, 6, true);
        text.bytes.push(b' ');
        text.number(spent * u64::from(period), 16, false);
        text.spaces(2 + 2 * line.len());
        match scope.kind() {
            ROOT if scope.number() == 0 => text.bytes.extend_from_slice(b"<thread root>"),
            ROOT => text.bytes.extend_from_slice(b"<partial call paths>"),
            PROC => text.name(tree.procs[scope.number() as usize].1),
            INLINE => {
                let (callee, call) = tree.inlines[scope.number() as usize];
                text.bytes.extend_from_slice(b"[I] ");
                text.name(tree.procs[callee as usize].1);
                text.bytes.extend_from_slice(b" called at ");
                text.place(tree, call);
            }
            kind => {
                text.bytes.extend_from_slice(if kind == CALL { b"call at " } else { b"" });
                text.place(tree, scope.number());
            }
        }
        text.bytes.push(b'\n');
        if text.bytes.len() >= PIECE {
            text.flush()?;
        }
        line.push(node as u32);
    }
    Ok(())
}
