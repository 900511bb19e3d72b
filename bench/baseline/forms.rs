//! The forms of values (DWARF 5, section 7.5.6).

use crate::bytes::Cursor;

/// What a value of a form is.
#[derive(Clone, Copy)]
pub enum Value<'a> {
    Address(u32),
    AddressIndex(u64),
    Number(u64),
    Signed(i64),
    Text(&'a [u8]),
    Str(u32),
    LineStr(u32),
    StrIndex(u64),
    Section(u32),
    ListIndex(u64),
    UnitRef(u64),
    InfoRef(u32),
    Other,
}

use Value::*;

/// Why there is no value: its form is not one of DWARF 5, or it isn't whole.
#[derive(Clone, Copy, PartialEq, Eq)]
pub enum NoValue {
    Unknown,
    Short,
}

const INDIRECT: u64 = 0x16;
pub const IMPLICIT_CONST: u64 = 0x21;

/// How many bytes a form has, where all its values have as many.
pub fn size_of(form: u64) -> Option<usize> {
    Some(match form {
        0x19 | IMPLICIT_CONST => 0,
        0x0b | 0x0c | 0x11 | 0x25 | 0x29 => 1,
        0x05 | 0x12 | 0x26 | 0x2a => 2,
        0x27 | 0x2b => 3,
        0x01 | 0x06 | 0x0e | 0x1f | 0x1d | 0x17 | 0x10 | 0x1c | 0x13 | 0x28 | 0x2c => 4,
        0x07 | 0x14 | 0x20 | 0x24 => 8,
        0x1e => 16,
        _ => return None,
    })
}

/// A form whose values lie where they are read, and that needs no other one.
pub fn is_direct(form: u64) -> bool {
    form != IMPLICIT_CONST
        && (size_of(form).is_some()
            || matches!(form, 0x03 | 0x04 | 0x08..=0x0a | 0x0d | 0x0f | 0x15 | 0x18 | 0x1a | 0x1b | 0x22 | 0x23))
}

pub fn value<'a>(cursor: &mut Cursor<'a>, form: u64, implicit: i64) -> Result<Value<'a>, NoValue> {
    if form == INDIRECT {
        let named = cursor.uleb().ok_or(NoValue::Short)?;
        if !is_direct(named) {
            return Err(NoValue::Unknown);
        }
        return direct(cursor, named).ok_or(NoValue::Short);
    }
    if form == IMPLICIT_CONST {
        return Ok(Signed(implicit));
    }
    if !is_direct(form) {
        return Err(NoValue::Unknown);
    }
    direct(cursor, form).ok_or(NoValue::Short)
}

fn direct<'a>(cursor: &mut Cursor<'a>, form: u64) -> Option<Value<'a>> {
    let mut sized = || cursor.number(size_of(form).expect("a size"));
    Some(match form {
        0x01 => Address(sized()? as u32),
        0x0b | 0x05 | 0x06 | 0x07 => Number(sized()?),
        0x0d => Signed(cursor.sleb()?),
        0x0f => Number(cursor.uleb()?),
        0x08 => Text(cursor.text()?),
        0x0e => Str(sized()? as u32),
        0x1f => LineStr(sized()? as u32),
        0x1a => StrIndex(cursor.uleb()?),
        0x25..=0x28 => StrIndex(sized()?),
        0x1b => AddressIndex(cursor.uleb()?),
        0x29..=0x2c => AddressIndex(sized()?),
        0x17 => Section(sized()? as u32),
        0x23 => ListIndex(cursor.uleb()?),
        0x10 => InfoRef(sized()? as u32),
        0x11..=0x14 => UnitRef(sized()?),
        0x15 => UnitRef(cursor.uleb()?),
        0x22 => {
            cursor.uleb()?;
            Other
        }
        _ => {
            let size = match form {
                0x0a => cursor.number(1)?,
                0x03 => cursor.number(2)?,
                0x04 => cursor.number(4)?,
                0x09 | 0x18 => cursor.uleb()?,
                form => size_of(form).expect("a size") as u64,
            };
            cursor.take(size)?;
            Other
        }
    })
}
