//! The harts and their instructions (RISC-V unprivileged manual, RV32I and M).
//!
//! Words of a segment that may be executed and not written are decoded once, when they are first reached, and
//! `within` carries them out one after another. All else, also what traps, is done by `step`, one word at a time.

use crate::decode::{Inst, Op, decode};
use crate::elf::{EXECUTE, Program, Segment, WRITE};
use crate::events::Event;
use crate::memory::Memory;

#[derive(Clone, Copy)]
pub enum End {
    Exit(u32),
    Group(u32),
    Trap(&'static str, u32),
    Break(u32),
}

pub struct Hart {
    pub pc: u32,
    /// x0 to x31, of which x0 stays 0, and the sink of what is written to x0.
    pub regs: [u32; 33],
    /// The retired instructions, by the number of an event: all, and where they are counted the loads, the stores and
    /// the taken branches.
    pub done: [u64; 4],
    pub end: Option<End>,
}

impl Hart {
    fn first(entry: u32, hart: u32, harts: u32) -> Hart {
        let mut regs = [0; 33];
        regs[2] = 0xf000_0000 + hart * 0x10_0000 + 0xf_fff0;
        (regs[10], regs[11]) = (hart, harts);
        Hart { pc: entry, regs, done: [0; 4], end: None }
    }
}

/// The decoded words of one segment.
struct Window {
    base: u32,
    count: usize,
    /// `count` instructions and a last one that stays `Raw`; all are fresh zero memory at first, which is `Raw`.
    words: Vec<u64>,
}

impl Window {
    fn of(segment: &Segment) -> Window {
        let base = segment.start.next_multiple_of(4);
        let count = (segment.end.saturating_sub(base) / 4) as usize;
        Window { base, count, words: vec![0; count + 1] }
    }

    fn holds(&self, pc: u32) -> bool {
        pc % 4 == 0 && ((pc.wrapping_sub(self.base) / 4) as usize) < self.count
    }

    /// The instruction at an address of the window, as far as its word is decoded.
    fn decoded(&self, pc: u32) -> Inst {
        // SAFETY: an `Inst` has the size of a u64, and `within` and `ready` alone write these words: each is an `Inst`
        // or 0, which is one whose operation is `Raw`.
        unsafe { *self.words[(pc.wrapping_sub(self.base) / 4) as usize..].as_ptr().cast::<Inst>() }
    }

    /// Decodes the word at a place. `auipc` becomes `lui`, and a branch's or jump's immediate the distance in bytes
    /// of decoded words. `None` at the end of the window.
    #[cold]
    #[inline(never)]
    fn ready(&self, place: usize, memory: &Memory) -> Option<Inst> {
        if place >= self.count {
            return None;
        }
        let pc = self.base + 4 * place as u32;
        let mut inst = decode(memory.fetch(pc).expect("a word of a segment that may be executed"));
        match inst.op {
            Op::Auipc => (inst.op, inst.imm) = (Op::Lui, pc.wrapping_add(inst.imm)),
            Op::Jal | Op::Beq | Op::Bne | Op::Blt | Op::Bge | Op::Bltu | Op::Bgeu => {
                let is_near = self.holds(pc.wrapping_add(inst.imm));
                (inst.op, inst.imm) = if is_near { (inst.op, inst.imm.wrapping_mul(2)) } else { (Op::Far, 0) };
            }
            _ => {}
        }
        Some(inst)
    }
}

/// What an instruction that only computes writes to rd.
#[inline(always)]
fn computed(op: Op, a: u32, b: u32, imm: u32) -> u32 {
    match op {
        Op::Lui => imm,
        Op::Addi => a.wrapping_add(imm),
        Op::Slti => u32::from((a as i32) < imm as i32),
        Op::Sltiu => u32::from(a < imm),
        Op::Xori => a ^ imm,
        Op::Ori => a | imm,
        Op::Andi => a & imm,
        Op::Slli => a.wrapping_shl(imm),
        Op::Srli => a.wrapping_shr(imm),
        Op::Srai => (a as i32).wrapping_shr(imm) as u32,
        Op::Add => a.wrapping_add(b),
        Op::Sub => a.wrapping_sub(b),
        Op::Sll => a.wrapping_shl(b),
        Op::Slt => u32::from((a as i32) < b as i32),
        Op::Sltu => u32::from(a < b),
        Op::Xor => a ^ b,
        Op::Srl => a.wrapping_shr(b),
        Op::Sra => (a as i32).wrapping_shr(b) as u32,
        Op::Or => a | b,
        Op::And => a & b,
        Op::Mul => a.wrapping_mul(b),
        Op::Mulh => ((i64::from(a as i32) * i64::from(b as i32)) >> 32) as u32,
        Op::Mulhsu => ((i64::from(a as i32) * i64::from(b)) >> 32) as u32,
        Op::Mulhu => ((u64::from(a) * u64::from(b)) >> 32) as u32,
        Op::Div if b == 0 => u32::MAX,
        Op::Div => (a as i32).wrapping_div(b as i32) as u32,
        Op::Divu => a.checked_div(b).unwrap_or(u32::MAX),
        Op::Rem if b == 0 => a,
        Op::Rem => (a as i32).wrapping_rem(b as i32) as u32,
        Op::Remu => a.checked_rem(b).unwrap_or(a),
        _ => 0,
    }
}

/// Whether a branch is taken.
#[inline(always)]
pub fn taken(op: Op, a: u32, b: u32) -> bool {
    match op {
        Op::Beq => a == b,
        Op::Bne => a != b,
        Op::Blt => (a as i32) < b as i32,
        Op::Bge => a as i32 >= b as i32,
        Op::Bltu => a < b,
        _ => a >= b,
    }
}

/// Carries out decoded words from the hart's pc on, which lies in the window, until `most` have retired or one is
/// met that is left to `step`. Returns how many of `most` are left. Of what retires it counts the loads, the stores and
/// the taken branches where `COUNTS` says so.
#[inline(never)]
fn within<const COUNTS: bool>(window: &mut Window, memory: &mut Memory, hart: &mut Hart, most: u64) -> u64 {
    let (base, first) = (window.base, window.words.as_mut_ptr().cast::<Inst>());
    let x = hart.regs.as_mut_ptr();
    let mut left = most;
    let [_, mut loads, mut stores, mut takens] = if COUNTS { hart.done } else { [0; 4] };
    // SAFETY: `at` points among the window's `count` words and the last `Raw` one. It starts there; the word after
    // one of the `count` is there, since the last is never passed; `ready` lets through near targets alone, and
    // `jalr` tests its own. The registers that `decode` gives are below 33, the length of `regs`. An `Inst` has the
    // size and alignment of a u64, and no other reference to `words` is made while `first` is used.
    unsafe {
        let mut at = first.add((hart.pc.wrapping_sub(base) / 4) as usize);
        let pc = |at: *mut Inst| base.wrapping_add(4 * at.offset_from(first) as u32);
        macro_rules! x {
            ($number:expr) => {
                *x.add($number as usize)
            };
        }
        macro_rules! compute {
            ($op:ident) => {
                x!((*at).rd) = computed(Op::$op, x!((*at).rs1), x!((*at).rs2), (*at).imm)
            };
        }
        macro_rules! branch {
            ($op:ident) => {{
                let inst = at;
                at = at.add(1);
                if taken(Op::$op, x!((*inst).rs1), x!((*inst).rs2)) {
                    at = inst.byte_offset((*inst).imm as i32 as isize);
                    takens += u64::from(COUNTS);
                }
                left -= 1;
                continue;
            }};
        }
        macro_rules! load {
            ($size:literal, $number:ident => $value:expr) => {
                match memory.load::<$size>(x!((*at).rs1).wrapping_add((*at).imm)) {
                    Some($number) => {
                        x!((*at).rd) = $value;
                        loads += u64::from(COUNTS);
                    }
                    None => break,
                }
            };
        }
        macro_rules! store {
            ($size:literal) => {{
                if !memory.store::<$size>(x!((*at).rs1).wrapping_add((*at).imm), x!((*at).rs2)) {
                    break;
                }
                stores += u64::from(COUNTS);
            }};
        }
        while left > 0 {
            match (*at).op {
                Op::Raw => {
                    let Some(inst) = window.ready(at.offset_from(first) as usize, memory) else { break };
                    at.write(inst);
                    continue;
                }
                Op::Illegal | Op::Auipc | Op::Ecall | Op::Ebreak | Op::Far => break,
                Op::Jal => {
                    x!((*at).rd) = pc(at).wrapping_add(4);
                    at = at.byte_offset((*at).imm as i32 as isize);
                    left -= 1;
                    continue;
                }
                Op::Jalr => {
                    let target = x!((*at).rs1).wrapping_add((*at).imm) & !1;
                    let distance = target.wrapping_sub(base);
                    if distance % 4 != 0 || (distance / 4) as usize >= window.count {
                        break;
                    }
                    x!((*at).rd) = pc(at).wrapping_add(4);
                    at = first.add((distance / 4) as usize);
                    left -= 1;
                    continue;
                }
                Op::Beq => branch!(Beq),
                Op::Bne => branch!(Bne),
                Op::Blt => branch!(Blt),
                Op::Bge => branch!(Bge),
                Op::Bltu => branch!(Bltu),
                Op::Bgeu => branch!(Bgeu),
                Op::Lb => load!(1, number => number as i8 as u32),
                Op::Lh => load!(2, number => number as i16 as u32),
                Op::Lw => load!(4, number => number),
                Op::Lbu => load!(1, number => number),
                Op::Lhu => load!(2, number => number),
                Op::Sb => store!(1),
                Op::Sh => store!(2),
                Op::Sw => store!(4),
                Op::Fence => {}
                Op::Lui => x!((*at).rd) = (*at).imm,
                Op::Addi => compute!(Addi),
                Op::Slti => compute!(Slti),
                Op::Sltiu => compute!(Sltiu),
                Op::Xori => compute!(Xori),
                Op::Ori => compute!(Ori),
                Op::Andi => compute!(Andi),
                Op::Slli => compute!(Slli),
                Op::Srli => compute!(Srli),
                Op::Srai => compute!(Srai),
                Op::Add => compute!(Add),
                Op::Sub => compute!(Sub),
                Op::Sll => compute!(Sll),
                Op::Slt => compute!(Slt),
                Op::Sltu => compute!(Sltu),
                Op::Xor => compute!(Xor),
                Op::Srl => compute!(Srl),
                Op::Sra => compute!(Sra),
                Op::Or => compute!(Or),
                Op::And => compute!(And),
                Op::Mul => compute!(Mul),
                Op::Mulh => compute!(Mulh),
                Op::Mulhsu => compute!(Mulhsu),
                Op::Mulhu => compute!(Mulhu),
                Op::Div => compute!(Div),
                Op::Divu => compute!(Divu),
                Op::Rem => compute!(Rem),
                Op::Remu => compute!(Remu),
            }
            at = at.add(1);
            left -= 1;
        }
        hart.pc = pc(at);
    }
    if COUNTS {
        hart.done[1..].copy_from_slice(&[loads, stores, takens]);
    }
    left
}

pub struct Machine<'a> {
    pub memory: Memory,
    pub harts: Vec<Hart>,
    pub output: Vec<u8>,
    input: &'a [u8],
    windows: Vec<Window>,
}

impl<'a> Machine<'a> {
    pub fn start(program: &Program, harts: u32, input: &'a [u8]) -> Machine<'a> {
        let is_fixed = |segment: &&Segment| segment.flags & (EXECUTE | WRITE) == EXECUTE;
        Machine {
            memory: Memory::of(program, harts),
            harts: (0..harts).map(|hart| Hart::first(program.entry, hart, harts)).collect(),
            output: Vec::new(),
            input,
            windows: program.segments.iter().filter(is_fixed).map(Window::of).collect(),
        }
    }

    /// What the hart's next instruction does, and the registers that it reads, as its word is decoded.
    pub fn next(&self, number: usize) -> Option<(Op, u8, u8)> {
        let pc = self.harts[number].pc;
        let window = self.windows.iter().find(|window| window.holds(pc));
        let known = window.map(|window| window.decoded(pc)).filter(|inst| !matches!(inst.op, Op::Raw | Op::Far));
        let inst = known.or_else(|| self.memory.fetch(pc).map(decode))?;
        Some((inst.op, inst.rs1, inst.rs2))
    }

    /// Has a hart retire up to `most` instructions, and returns how many it did; fewer where it ends. Where `COUNTS`
    /// says so it counts their events.
    #[inline(always)]
    pub fn pass<const COUNTS: bool>(&mut self, number: usize, most: u64) -> u64 {
        let mut left = most;
        while left > 0 && self.harts[number].end.is_none() {
            let hart = &mut self.harts[number];
            if let Some(window) = self.windows.iter_mut().find(|window| window.holds(hart.pc)) {
                left = within::<COUNTS>(window, &mut self.memory, hart, left);
            }
            if left > 0 && self.step(number) {
                left -= 1;
            }
        }
        self.harts[number].done[0] += most - left;
        most - left
    }

    /// Carries out one instruction of whatever kind; false where it did not retire, and the hart has ended.
    #[inline(never)]
    fn step(&mut self, number: usize) -> bool {
        let (hart, memory) = (&mut self.harts[number], &mut self.memory);
        let pc = hart.pc;
        let trap = |hart: &mut Hart, cause| {
            hart.end = Some(End::Trap(cause, pc));
            false
        };
        let Some(word) = memory.fetch(pc) else {
            return trap(hart, "fetch");
        };
        let Inst { op, rd, rs1, rs2, imm } = decode(word);
        let (a, b) = (hart.regs[rs1 as usize], hart.regs[rs2 as usize]);
        let (at, mut next) = (a.wrapping_add(imm), pc.wrapping_add(4));
        let value = match op {
            Op::Illegal | Op::Raw | Op::Far => return trap(hart, "illegal"),
            Op::Ebreak => {
                hart.end = Some(End::Break(pc));
                return false;
            }
            Op::Ecall => {
                let Some(answer) = self.answer(number) else {
                    return false;
                };
                self.harts[number].regs[10] = answer;
                self.harts[number].pc = next;
                return true;
            }
            Op::Auipc => Some(pc.wrapping_add(imm)),
            Op::Jal | Op::Jalr => {
                let link = next;
                next = if op == Op::Jal { pc.wrapping_add(imm) } else { at & !1 };
                Some(link)
            }
            Op::Beq | Op::Bne | Op::Blt | Op::Bge | Op::Bltu | Op::Bgeu => {
                next = if taken(op, a, b) { pc.wrapping_add(imm) } else { next };
                None
            }
            Op::Lb | Op::Lh | Op::Lw | Op::Lbu | Op::Lhu => {
                let number = match op {
                    Op::Lb => memory.load::<1>(at).map(|number| number as i8 as u32),
                    Op::Lbu => memory.load::<1>(at),
                    Op::Lh => memory.load::<2>(at).map(|number| number as i16 as u32),
                    Op::Lhu => memory.load::<2>(at),
                    _ => memory.load::<4>(at),
                };
                if number.is_none() {
                    return trap(hart, "load");
                }
                number
            }
            Op::Sb | Op::Sh | Op::Sw => {
                let is_stored = match op {
                    Op::Sb => memory.store::<1>(at, b),
                    Op::Sh => memory.store::<2>(at, b),
                    _ => memory.store::<4>(at, b),
                };
                if !is_stored {
                    return trap(hart, "store");
                }
                None
            }
            Op::Fence => None,
            op => Some(computed(op, a, b, imm)),
        };
        if next % 4 != 0 {
            return trap(hart, "target");
        }
        if let Some(value) = value {
            hart.regs[rd as usize] = value;
        }
        hart.pc = next;
        if let Some(event) = Event::of(op, taken(op, a, b)) {
            hart.done[event as usize] += 1;
        }
        true
    }

    /// Answers an environment call; `None` where it ends the hart or the group.
    fn answer(&mut self, number: usize) -> Option<u32> {
        let regs = &self.harts[number].regs;
        let [descriptor, at, count] = [regs[10], regs[11], regs[12]];
        match regs[17] {
            63 if descriptor != 0 => Some(0xffff_fff7),
            63 => {
                let (given, later) = self.input.split_at(self.input.len().min(count as usize));
                if !self.memory.write(at, given) {
                    return Some(0xffff_fff2);
                }
                self.input = later;
                Some(given.len() as u32)
            }
            64 if descriptor != 1 && descriptor != 2 => Some(0xffff_fff7),
            64 => {
                let room = (1 << 20) - self.output.len();
                let is_read = self.memory.read(at, count, room, &mut self.output);
                Some(if is_read { room.min(count as usize) as u32 } else { 0xffff_fff2 })
            }
            93 => {
                self.harts[number].end = Some(End::Exit(descriptor));
                None
            }
            94 => {
                for hart in self.harts.iter_mut().filter(|hart| hart.end.is_none()) {
                    hart.end = Some(End::Group(descriptor));
                }
                None
            }
            _ => Some(0xffff_ffda),
        }
    }
}
