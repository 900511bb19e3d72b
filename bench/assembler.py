"""A small assembler of RV32IM, and static ELF32 programs with call frame information."""

import re
import struct

# ---- the instruction table of the RISC-V unprivileged manual

REGISTERS = {name: number for number, name in enumerate(
    "zero ra sp gp tp t0 t1 t2 s0 s1 a0 a1 a2 a3 a4 a5 a6 a7 s2 s3 s4 s5 s6 s7 s8 s9 s10 s11 t3 t4 t5 t6"
    .split())}

# name: format, opcode, funct3, funct7
TABLE = {"lui": ("U", 0x37, 0, 0), "auipc": ("U", 0x17, 0, 0), "jal": ("J", 0x6F, 0, 0),
         "jalr": ("L", 0x67, 0, 0), "ecall": ("N", 0x73, 0, 0)}
for kind, names in {"B": (0x63, "beq bne - - blt bge bltu bgeu"), "L": (0x03, "lb lh lw - lbu lhu"),
                    "S": (0x23, "sb sh sw"), "I": (0x13, "addi slli slti sltiu xori srli ori andi"),
                    "R": (0x33, "add sll slt sltu xor srl or and")}.items():
    for funct3, name in enumerate(names[1].split()):
        TABLE[name] = (kind, names[0], funct3, 0)
for funct3, name in enumerate("mul mulh mulhsu mulhu div divu rem remu".split()):
    TABLE[name] = ("R", 0x33, funct3, 1)
TABLE |= {"sub": ("R", 0x33, 0, 0x20), "sra": ("R", 0x33, 5, 0x20), "srai": ("I", 0x13, 5, 0x20)}


def bits(value, high, low):
    return (value >> low) & ((1 << (high - low + 1)) - 1)


def encode(name, operands, at, labels):
    kind, opcode, funct3, funct7 = TABLE[name]

    def register(text):
        return REGISTERS[text]

    def value(text):
        return labels[text] - at if text in labels else int(text, 0)

    word = opcode | funct3 << 12 if kind in "BLSIR" else opcode
    if kind == "U":
        return word | register(operands[0]) << 7 | bits(value(operands[1]), 19, 0) << 12
    if kind == "J":
        to = value(operands[1])
        return (word | register(operands[0]) << 7 | bits(to, 19, 12) << 12 | bits(to, 11, 11) << 20
                | bits(to, 10, 1) << 21 | bits(to, 20, 20) << 31)
    if kind == "B":
        to = value(operands[2])
        return (word | register(operands[0]) << 15 | register(operands[1]) << 20 | bits(to, 11, 11) << 7
                | bits(to, 4, 1) << 8 | bits(to, 10, 5) << 25 | bits(to, 12, 12) << 31)
    if kind in "LS":
        offset, base = re.fullmatch(r"(-?\w+)\((\w+)\)", operands[1]).groups()
        offset, word = value(offset), word | register(base) << 15
        if kind == "L":
            return word | register(operands[0]) << 7 | bits(offset, 11, 0) << 20
        return word | register(operands[0]) << 20 | bits(offset, 4, 0) << 7 | bits(offset, 11, 5) << 25
    if kind == "I":
        word |= register(operands[0]) << 7 | register(operands[1]) << 15 | funct7 << 25
        return word | bits(value(operands[2]), 11, 0) << 20
    if kind == "R":
        return (word | register(operands[0]) << 7 | register(operands[1]) << 15
                | register(operands[2]) << 20 | funct7 << 25)
    return word


def assemble(source, start):
    labels, lines, at = {}, [], start
    for line in source.splitlines():
        line = line.split("#")[0].strip()
        if line.endswith(":"):
            labels[line[:-1]] = at
        elif line:
            lines.append(line)
            at += 4
    words = []
    for place, line in enumerate(lines):
        name, _, rest = line.partition(" ")
        operands = [text.strip() for text in rest.split(",")] if rest else []
        words.append(encode(name, operands, start + 4 * place, labels))
    return struct.pack(f"<{len(words)}I", *words)


# ---- programs

CODE, DATA = 0x10000, 0x20000
# A common information entry: offsets in bytes of instructions, 4 bytes of stack; the CFA is sp, the return register ra.
COMMON = b"\x03\0\x01\x7c\x01" + b"\x0c\x02\0"
# The start has no caller, and a procedure of one call frame keeps its return address at the frame's end.
NO_CALLER = b"\x07\x01"
ONE_FRAME = b"\x44\x0e\x10\x44\x81\x01"


def frames(entries):
    """`.debug_frame` of entries (start, size, instructions)."""
    section = struct.pack("<II", len(COMMON) + 4, 0xFFFFFFFF) + COMMON
    for start, size, instructions in entries:
        entry = struct.pack("<3I", 0, start, size) + instructions
        entry += bytes(-len(entry) % 4)
        section += struct.pack("<I", len(entry)) + entry
    return section


def elf(segments, debug_frame=b"", name=b".debug_frame"):
    """A static ELF32 program of these segments (address, bytes, bytes in memory, flags), and of `.debug_frame` or another
    section in its place."""
    names = b"\0" + name + b"\0.shstrtab\0"
    at = 52 + 32 * len(segments)
    headers, body = b"", b""
    for address, content, size, flags in segments:
        headers += struct.pack("<8I", 1, at + len(body), address, address, len(content), size, flags, 4)
        body += content
    sections = bytes(40)
    if debug_frame:
        sections += struct.pack("<10I", 1, 1, 0, 0, at + len(body), len(debug_frame), 0, 0, 1, 0)
        body += debug_frame
        sections += struct.pack("<10I", 2 + len(name), 3, 0, 0, at + len(body), len(names), 0, 0, 1, 0)
        body += names
    place, count, strings = (at + len(body), 3, 2) if debug_frame else (0, 0, 0)
    ident = b"\x7fELF\x01\x01\x01" + bytes(9)
    fields = (2, 243, 1, CODE, 52, place, 0, 52, 32, len(segments), 40, count, strings)
    head = ident + struct.pack("<HHIIIIIHHHHHH", *fields)
    return head + headers + body + (sections if debug_frame else b"")
