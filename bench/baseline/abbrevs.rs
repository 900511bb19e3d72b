//! Abbreviation tables (DWARF 5, section 7.5.3), and the values of an entry by its declaration.

use std::collections::HashMap;

use crate::bytes::Cursor;
use crate::forms::{IMPLICIT_CONST, NoValue, Value, size_of, value};

/// Attributes that are read, and their places in the values of an entry.
const WANTED: [u64; 13] = [0x03, 0x6e, 0x11, 0x12, 0x55, 0x31, 0x47, 0x58, 0x59, 0x10, 0x72, 0x73, 0x74];
pub const NAME: usize = 0;
pub const LINKAGE_NAME: usize = 1;
pub const LOW_PC: usize = 2;
pub const HIGH_PC: usize = 3;
pub const RANGES: usize = 4;
pub const ABSTRACT_ORIGIN: usize = 5;
pub const SPECIFICATION: usize = 6;
pub const CALL_FILE: usize = 7;
pub const CALL_LINE: usize = 8;
pub const STMT_LIST: usize = 9;
pub const STR_OFFSETS_BASE: usize = 10;
pub const ADDR_BASE: usize = 11;
pub const RNGLISTS_BASE: usize = 12;
const UNWANTED: u8 = u8::MAX;

struct Attribute {
    /// Its place among the wanted, or `UNWANTED`.
    place: u8,
    form: u64,
    implicit: i64,
}

pub struct Declaration {
    pub tag: u64,
    pub has_children: bool,
    /// The bytes of an entry behind its code, where all entries have as many.
    size: Option<usize>,
    attributes: Vec<Attribute>,
}

pub type Declarations = HashMap<u64, Declaration>;

/// The values of an entry's wanted attributes.
pub type Values<'a> = [Option<Value<'a>>; WANTED.len()];

/// The table at an offset, if it is whole. The first declaration of a code counts.
pub fn declarations(bytes: &[u8], at: u32) -> Option<Declarations> {
    let mut cursor = Cursor::new(bytes, at as usize)?;
    let mut found = Declarations::new();
    loop {
        let code = cursor.uleb()?;
        if code == 0 {
            return Some(found);
        }
        let (tag, has_children) = (cursor.uleb()?, cursor.byte()? != 0);
        let (mut attributes, mut size) = (Vec::new(), Some(0));
        loop {
            let (attribute, form) = (cursor.uleb()?, cursor.uleb()?);
            let implicit = if form == IMPLICIT_CONST { cursor.sleb()? } else { 0 };
            if attribute == 0 && form == 0 {
                break;
            }
            let place = WANTED.iter().position(|wanted| *wanted == attribute).map_or(UNWANTED, |place| place as u8);
            size = size.zip(size_of(form)).map(|(size, more)| size + more);
            attributes.push(Attribute { place, form, implicit });
        }
        found.entry(code).or_insert(Declaration { tag, has_children, size, attributes });
    }
}

impl Declaration {
    /// The values of an entry, of which the first of an attribute counts.
    pub fn values<'a>(&self, cursor: &mut Cursor<'a>) -> Result<Values<'a>, NoValue> {
        let mut found = [None; WANTED.len()];
        for attribute in &self.attributes {
            let value = value(cursor, attribute.form, attribute.implicit)?;
            if attribute.place != UNWANTED && found[attribute.place as usize].is_none() {
                found[attribute.place as usize] = Some(value);
            }
        }
        Ok(found)
    }

    /// Moves past the values of an entry.
    pub fn skip(&self, cursor: &mut Cursor) -> Result<(), NoValue> {
        if let Some(size) = self.size {
            return cursor.take(size as u64).map(drop).ok_or(NoValue::Short);
        }
        for attribute in &self.attributes {
            value(cursor, attribute.form, attribute.implicit)?;
        }
        Ok(())
    }
}
