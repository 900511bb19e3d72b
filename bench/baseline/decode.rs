//! The instruction table of RV32IM: from a word to what the machine carries out.

/// What an instruction does. `Raw` is a word that is not decoded yet: fresh zero memory is full of them.
#[derive(Clone, Copy, PartialEq, Eq)]
#[repr(u8)]
pub enum Op {
    #[allow(dead_code)]
    Raw,
    Illegal,
    Lui,
    Auipc,
    Jal,
    Jalr,
    Beq,
    Bne,
    Blt,
    Bge,
    Bltu,
    Bgeu,
    Lb,
    Lh,
    Lw,
    Lbu,
    Lhu,
    Sb,
    Sh,
    Sw,
    Addi,
    Slti,
    Sltiu,
    Xori,
    Ori,
    Andi,
    Slli,
    Srli,
    Srai,
    Add,
    Sub,
    Sll,
    Slt,
    Sltu,
    Xor,
    Srl,
    Sra,
    Or,
    And,
    Mul,
    Mulh,
    Mulhsu,
    Mulhu,
    Div,
    Divu,
    Rem,
    Remu,
    Fence,
    Ecall,
    Ebreak,
    /// A branch or jump whose target leaves the window of decoded words, or is misaligned.
    Far,
}

/// The register that takes what is written to x0.
pub const SINK: u8 = 32;

/// An operation and its fields. `rd` is `SINK` in place of x0, so that no write needs a test.
#[derive(Clone, Copy)]
#[repr(C, align(8))]
pub struct Inst {
    pub op: Op,
    pub rd: u8,
    pub rs1: u8,
    pub rs2: u8,
    pub imm: u32,
}

const BRANCHES: [Op; 8] = [Op::Beq, Op::Bne, Op::Illegal, Op::Illegal, Op::Blt, Op::Bge, Op::Bltu, Op::Bgeu];
const LOADS: [Op; 8] = [Op::Lb, Op::Lh, Op::Lw, Op::Illegal, Op::Lbu, Op::Lhu, Op::Illegal, Op::Illegal];
const BASE: [Op; 8] = [Op::Add, Op::Sll, Op::Slt, Op::Sltu, Op::Xor, Op::Srl, Op::Or, Op::And];
const PRODUCTS: [Op; 8] = [Op::Mul, Op::Mulh, Op::Mulhsu, Op::Mulhu, Op::Div, Op::Divu, Op::Rem, Op::Remu];

fn signed(value: u32, bits: u32) -> u32 {
    ((value << (32 - bits)) as i32 >> (32 - bits)) as u32
}

fn store(kind: u32) -> Op {
    match kind {
        0 => Op::Sb,
        1 => Op::Sh,
        2 => Op::Sw,
        _ => Op::Illegal,
    }
}

fn with_immediate(kind: u32, upper: u32) -> Op {
    match (kind, upper) {
        (0, _) => Op::Addi,
        (2, _) => Op::Slti,
        (3, _) => Op::Sltiu,
        (4, _) => Op::Xori,
        (6, _) => Op::Ori,
        (7, _) => Op::Andi,
        (1, 0) => Op::Slli,
        (5, 0) => Op::Srli,
        (5, 0x20) => Op::Srai,
        _ => Op::Illegal,
    }
}

fn with_registers(kind: u32, upper: u32) -> Op {
    match (upper, kind) {
        (0, _) => BASE[kind as usize],
        (1, _) => PRODUCTS[kind as usize],
        (0x20, 0) => Op::Sub,
        (0x20, 5) => Op::Sra,
        _ => Op::Illegal,
    }
}

pub fn decode(word: u32) -> Inst {
    let (kind, upper) = ((word >> 12) & 7, word >> 25);
    let rd = match ((word >> 7) & 31) as u8 {
        0 => SINK,
        rd => rd,
    };
    let rs1 = ((word >> 15) & 31) as u8;
    let rs2 = ((word >> 20) & 31) as u8;
    let i = signed(word >> 20, 12);
    let s = signed((word >> 25) << 5 | (word >> 7) & 31, 12);
    let b = (word >> 31) << 12 | ((word >> 7) & 1) << 11 | ((word >> 25) & 63) << 5 | ((word >> 8) & 15) << 1;
    let j = (word >> 31) << 20 | ((word >> 12) & 255) << 12 | ((word >> 20) & 1) << 11 | ((word >> 21) & 1023) << 1;
    let made = |op, rd, rs1, rs2, imm| Inst { op, rd, rs1, rs2, imm };
    match word & 127 {
        0x37 => made(Op::Lui, rd, 0, 0, word & 0xffff_f000),
        0x17 => made(Op::Auipc, rd, 0, 0, word & 0xffff_f000),
        0x6f => made(Op::Jal, rd, 0, 0, signed(j, 21)),
        0x67 if kind == 0 => made(Op::Jalr, rd, rs1, 0, i),
        0x63 => made(BRANCHES[kind as usize], SINK, rs1, rs2, signed(b, 13)),
        0x03 => made(LOADS[kind as usize], rd, rs1, 0, i),
        0x23 => made(store(kind), SINK, rs1, rs2, s),
        0x13 if kind == 1 || kind == 5 => made(with_immediate(kind, upper), rd, rs1, 0, u32::from(rs2)),
        0x13 => made(with_immediate(kind, upper), rd, rs1, 0, i),
        0x33 => made(with_registers(kind, upper), rd, rs1, rs2, 0),
        0x0f if kind == 0 => made(Op::Fence, SINK, 0, 0, 0),
        _ if word == 0x73 => made(Op::Ecall, SINK, 0, 0, 0),
        _ if word == 0x0010_0073 => made(Op::Ebreak, SINK, 0, 0, 0),
        _ => made(Op::Illegal, SINK, 0, 0, 0),
    }
}
