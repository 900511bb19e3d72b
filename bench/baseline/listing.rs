//! The structure of a program as text: its subprograms with the calls inlined into them, and the function symbols.

use crate::dwarf::{Info, Item, Line};
use crate::elf::Program;
use crate::scopes::{ProcId, Scopes};
use crate::table::printed;

/// The ranges of an item that count.
fn ranges_of<'i>(info: &'i Info, number: usize) -> &'i [(u32, u32)] {
    let end = info.items.get(number + 1).map_or(info.ranges.len(), |next| next.first as usize);
    &info.ranges[info.items[number].first as usize..end]
}

fn ranges(list: &[(u32, u32)]) -> String {
    let shown: Vec<String> = list.iter().map(|(low, high)| format!("0x{low:08x}..0x{high:08x}")).collect();
    shown.join(",")
}

fn place(scopes: &Scopes, call: Line) -> Vec<u8> {
    match call {
        Line::Address(address) => format!("0x{address:08x}").into_bytes(),
        Line::Row { table, file, line } => {
            let mut text: Vec<u8> = printed(&scopes.lines.file_name(table, file)).collect();
            text.extend_from_slice(format!(":{line}").as_bytes());
            text
        }
    }
}

/// The lines of a subprogram and of what is inlined into it. The level of a call is how many inlined subroutines below
/// the subprogram are the call or hold it.
fn subprogram(scopes: &Scopes, number: usize, text: &mut Vec<u8>) {
    let info = &scopes.info;
    let put = |text: &mut Vec<u8>, item: &Item, number: usize| {
        text.extend(printed(info.name(item.identity)));
        if item.is_inlined {
            text.extend_from_slice(b" called at ");
            text.extend(place(scopes, item.call));
        }
        text.extend_from_slice(format!(" {}\n", ranges(ranges_of(info, number))).as_bytes());
    };
    text.extend_from_slice(b"proc ");
    put(text, &info.items[number], number);
    let mut open: Vec<u32> = Vec::new();
    for below in number + 1..info.items[number].after as usize {
        let item = &info.items[below];
        if !item.is_inlined {
            continue;
        }
        while open.last().is_some_and(|end| *end as usize <= below) {
            open.pop();
        }
        open.push(item.after);
        if !ranges_of(info, below).is_empty() {
            text.extend(std::iter::repeat_n(b' ', 2 * open.len()));
            text.extend_from_slice(b"inline ");
            put(text, item, below);
        }
    }
}

pub fn of(program: &Program, scopes: &Scopes) -> Vec<u8> {
    let mut text = Vec::new();
    for (number, item) in scopes.info.items.iter().enumerate() {
        if !item.is_inlined && !ranges_of(&scopes.info, number).is_empty() {
            subprogram(scopes, number, &mut text);
        }
    }
    for function in &program.functions {
        if !matches!(scopes.at(function.start).0, ProcId::Die(_)) {
            text.extend_from_slice(b"symbol ");
            text.extend(printed(&function.name[..function.name.len().min(4096)]));
            text.extend_from_slice(format!(" {}\n", ranges(&[(function.start, function.end)])).as_bytes());
        }
    }
    text
}
