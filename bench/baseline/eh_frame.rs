//! `.eh_frame` (LSB, core specification, "Exception Frames").

use std::collections::HashMap;

use crate::bytes::Cursor;
use crate::cfi::{Cie, Fault};
use crate::elf::Program;
use crate::frames::{Fde, Rows, entries};

/// The entries in their order, up to the first that is at fault. A CIE comes before its FDEs.
pub fn read(rows: &mut Rows, program: &Program, fdes: &mut Vec<Fde>) -> Result<(), Fault> {
    let (section, address) = program.eh_frame;
    let (entries, last) = entries(section, true);
    let mut cies = HashMap::new();
    for (at, body) in entries {
        let (fault, mut c) = (|| Fault(at), body);
        let id = c.word().ok_or_else(fault)?;
        if id == 0 {
            let cie = cie(c, address).ok_or_else(fault)?;
            if let Some(cie) = &cie {
                cie.begin()?;
            }
            cies.insert(at, cie);
            continue;
        }
        let place = (at + 4).checked_sub(id).ok_or_else(fault)?;
        if let Some(cie) = cies.get(&place).ok_or_else(fault)? {
            let range = extent(cie, &mut c).ok_or_else(fault)?;
            rows.fde(program, cie, c, range, fdes)?;
        }
    }
    last.map_or(Ok(()), Err)
}

/// The start and the size of an FDE, and moves past the augmentation data.
fn extent(cie: &Cie, c: &mut Cursor) -> Option<(u32, u32)> {
    let range = (cie.address(c)?, c.word()?);
    if cie.has_data {
        let size = c.uleb()?;
        c.take(size)?;
    }
    Some(range)
}

/// A CIE behind its id; `Some(None)` for one that is passed over, `None` for one at fault.
fn cie(mut c: Cursor, address: u32) -> Option<Option<Cie>> {
    let version = c.byte().filter(|version| matches!(version, 1 | 3))?;
    let augmentation = c.text()?;
    let letters = match augmentation {
        [] => &[][..],
        [b'z', letters @ ..] if letters.iter().all(|letter| b"RLPS".contains(letter)) => letters,
        _ => return Some(None),
    };
    let (plain, register) = Cie::factors(&mut c, version)?;
    let return_register = u8::try_from(register).ok().filter(|register| *register < 32)?;
    let has_data = !augmentation.is_empty();
    let mut relative_to = None;
    if has_data {
        let size = c.uleb()?;
        let mut data = c;
        c.take(size)?;
        data.bytes = &c.bytes[..c.at];
        match is_relative(letters, data)? {
            None => return Some(None),
            Some(is_relative) => relative_to = is_relative.then_some(address),
        }
    }
    Some(Some(Cie { return_register, relative_to, has_data, instructions: c, ..plain }))
}

/// Whether addresses count from their own place; `Some(None)` where the CIE is passed over.
fn is_relative(letters: &[u8], mut data: Cursor) -> Option<Option<bool>> {
    let mut is_relative = false;
    for (place, letter) in letters.iter().enumerate() {
        match letter {
            b'R' => {
                let encoding = data.byte()?;
                let is_last = !letters[place + 1..].contains(&b'R');
                match (encoding & 0xf0, encoding & 15) {
                    _ if !is_last => {}
                    (application @ (0 | 0x10), 0 | 3 | 11) => is_relative = application == 0x10,
                    _ => return Some(None),
                }
            }
            b'L' => drop(data.byte()?),
            b'P' => {
                let encoding = data.byte()?;
                match encoding & 15 {
                    0 | 3 | 11 => drop(data.number(4)?),
                    2 | 10 => drop(data.number(2)?),
                    4 | 12 => drop(data.number(8)?),
                    1 => drop(data.uleb()?),
                    9 => drop(data.sleb()?),
                    _ => return Some(None),
                }
            }
            _ => {}
        }
    }
    Some(Some(is_relative))
}
