//! Call frame instructions (DWARF 5 section 6.4.2): the rules that they make.

use crate::bytes::Cursor;

/// How a register of the caller is found; offsets are from the CFA.
#[derive(Clone, Copy, PartialEq, Eq)]
pub enum Rule {
    Kept,
    Undefined,
    Saved(u32),
    Sum(u32),
    Copy(u8),
    Expression,
}

/// The offset in the section of the first entry or instruction that is at fault.
pub struct Fault(pub u32);

#[derive(Clone, Copy, PartialEq, Eq)]
pub enum Cfa {
    Missing,
    Register(u8, u32),
    Expression,
}

#[derive(Clone, Copy, PartialEq, Eq)]
pub struct Rules {
    pub cfa: Cfa,
    pub registers: [Rule; 32],
    /// A bit for each register whose rule may be another than `Kept`.
    pub changed: u32,
}

pub struct Cie<'a> {
    /// Modulo 2^32.
    pub code_factor: u32,
    pub data_factor: u32,
    pub return_register: u8,
    /// The section's address, where addresses count from their own place.
    pub relative_to: Option<u32>,
    /// Whether the FDEs have augmentation data.
    pub has_data: bool,
    pub instructions: Cursor<'a>,
}

/// What runs call frame instructions.
pub struct State<'c, 'a> {
    cie: &'c Cie<'a>,
    first: Rules,
    pub rules: Rules,
    remembered: Vec<Rules>,
    pub location: u32,
}

/// A register's number, if it is below 32.
fn register_of(number: u64) -> Option<u8> {
    u8::try_from(number).ok().filter(|register| *register < 32)
}

impl State<'_, '_> {
    fn set(&mut self, register: u64, rule: Rule) {
        if let Some(register) = register_of(register) {
            self.rules.registers[register as usize] = rule;
            self.rules.changed |= 1 << register;
        }
    }

    fn advance(&mut self, by: u64) {
        self.location = self.location.wrapping_add((by as u32).wrapping_mul(self.cie.code_factor));
    }

    fn cfa(&mut self, register: u64, offset: u32) -> Option<()> {
        self.rules.cfa = Cfa::Register(register_of(register)?, offset);
        Some(())
    }

    /// An offset that is multiplied by the data alignment factor.
    fn factored(&self, c: &mut Cursor, is_signed: bool) -> Option<u32> {
        let number = if is_signed { c.sleb()? as u32 } else { c.uleb()? as u32 };
        Some(number.wrapping_mul(self.cie.data_factor))
    }

    /// Carries out the instruction at the cursor; `None` where it is at fault.
    pub fn step(&mut self, c: &mut Cursor) -> Option<()> {
        let code = c.byte()?;
        match (code & 0xc0, code & 0x3f) {
            (0x40, delta) => self.advance(u64::from(delta)),
            (0x80, register) => {
                let offset = self.factored(c, false)?;
                self.set(u64::from(register), Rule::Saved(offset));
            }
            (0xc0, register) => self.restore(u64::from(register)),
            (_, code) => self.extended(code, c)?,
        }
        Some(())
    }

    fn restore(&mut self, register: u64) {
        if let Some(place) = register_of(register) {
            self.set(register, self.first.registers[place as usize]);
        }
    }

    fn extended(&mut self, code: u32, c: &mut Cursor) -> Option<()> {
        match code {
            0x00 => {}
            0x01 => self.location = self.cie.address(c)?,
            0x02..=0x04 => {
                let delta = c.number(1 << (code - 2))?;
                self.advance(delta);
            }
            0x05 | 0x11 => {
                let register = c.uleb()?;
                let offset = self.factored(c, code == 0x11)?;
                self.set(register, Rule::Saved(offset));
            }
            0x14 | 0x15 => {
                let register = c.uleb()?;
                let offset = self.factored(c, code == 0x15)?;
                self.set(register, Rule::Sum(offset));
            }
            0x06 => {
                let register = c.uleb()?;
                self.restore(register);
            }
            0x07 | 0x08 => {
                let register = c.uleb()?;
                self.set(register, if code == 0x07 { Rule::Undefined } else { Rule::Kept });
            }
            0x09 => {
                let (register, source) = (c.uleb()?, c.uleb()?);
                if register < 32 {
                    self.set(register, Rule::Copy(register_of(source)?));
                }
            }
            0x0a => self.remembered.push(self.rules),
            0x0b => self.rules = self.remembered.pop()?,
            0x10 | 0x16 => {
                let (register, length) = (c.uleb()?, c.uleb()?);
                c.take(length)?;
                self.set(register, Rule::Expression);
            }
            0x2e => {
                c.uleb()?;
            }
            code => self.define_cfa(code, c)?,
        }
        Some(())
    }

    fn define_cfa(&mut self, code: u32, c: &mut Cursor) -> Option<()> {
        match code {
            0x0c | 0x12 => {
                let register = c.uleb()?;
                let offset = if code == 0x0c { c.uleb()? as u32 } else { self.factored(c, true)? };
                self.cfa(register, offset)
            }
            0x0d => {
                let register = c.uleb()?;
                match self.rules.cfa {
                    Cfa::Missing => self.cfa(register, 0),
                    Cfa::Register(_, offset) => self.cfa(register, offset),
                    Cfa::Expression => None,
                }
            }
            0x0e | 0x13 => {
                let offset = if code == 0x0e { c.uleb()? as u32 } else { self.factored(c, true)? };
                let Cfa::Register(register, _) = self.rules.cfa else { return None };
                self.cfa(u64::from(register), offset)
            }
            0x0f => {
                let length = c.uleb()?;
                c.take(length)?;
                self.rules.cfa = Cfa::Expression;
                Some(())
            }
            _ => None,
        }
    }
}

impl<'a> Cie<'a> {
    /// Reads a CIE of `.debug_frame` behind its second word; `Some(None)` for one that is passed over, `None` for one
    /// at fault.
    pub fn read(mut c: Cursor<'a>) -> Option<Option<Cie<'a>>> {
        let version = c.byte()?;
        if !matches!(version, 1 | 3 | 4) {
            return Some(None);
        }
        if !c.text()?.is_empty() || version == 4 && (c.byte()? != 4 || c.byte()? != 0) {
            return Some(None);
        }
        let (cie, return_register) = Cie::factors(&mut c, version)?;
        Some(register_of(return_register).map(|return_register| Cie { return_register, instructions: c, ..cie }))
    }

    /// The fields from the code alignment factor on, and the return register, which needs to be judged.
    pub fn factors(c: &mut Cursor<'a>, version: u32) -> Option<(Cie<'a>, u64)> {
        let (code_factor, data_factor) = (c.uleb()? as u32, c.sleb()? as u32);
        let register = if version == 1 { c.number(1)? } else { c.uleb()? };
        let plain =
            Cie { code_factor, data_factor, return_register: 0, relative_to: None, has_data: false, instructions: *c };
        Some((plain, register))
    }

    /// The state behind the CIE's own instructions.
    pub fn begin(&self) -> Result<State<'_, 'a>, Fault> {
        let rules = Rules { cfa: Cfa::Missing, registers: [Rule::Kept; 32], changed: 0 };
        let mut state = State { cie: self, first: rules, rules, remembered: Vec::new(), location: 0 };
        let mut c = self.instructions;
        while c.left() > 0 {
            let at = c.at as u32;
            state.step(&mut c).ok_or(Fault(at))?;
        }
        state.first = state.rules;
        Ok(state)
    }

    /// An address as the entries of this CIE have it.
    pub fn address(&self, c: &mut Cursor) -> Option<u32> {
        let place = c.at as u32;
        let value = c.word()?;
        Some(self.relative_to.map_or(value, |start| start.wrapping_add(place).wrapping_add(value)))
    }
}
