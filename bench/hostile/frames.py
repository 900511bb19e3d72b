#!/usr/bin/env python3
"""Writes a program whose .eh_frame has one shape, of so many bytes: see README.md."""

import argparse
import struct
import sys
from pathlib import Path

sys.dont_write_bytecode = True
sys.path.insert(0, str(Path(__file__).resolve().parent.parent))

from assembler import CODE, COMMON, assemble, elf

READ_EXECUTE = 5
# The code is zeros in memory alone, but for its end of the run.
CODE_BYTES = 0x2000000
EXIT = "addi a7, zero, 93\necall\n"
MOST_BYTES = 64 << 20

DW_CFA_advance_loc, DW_CFA_offset, DW_CFA_restore = 0x40, 0x80, 0xC0
DW_CFA_remember_state, DW_CFA_restore_state, DW_CFA_expression = 0x0A, 0x0B, 0x10


def cie(instructions=b""):
    return struct.pack("<2I", len(COMMON) + 4 + len(instructions), 0) + COMMON + instructions


def fde(at, cie_at, start, size, instructions=b""):
    """An FDE at an offset of the section, of the CIE at another."""
    return struct.pack("<4I", 12 + len(instructions), at + 4 - cie_at, start, size) + instructions


def many(first, room, entry):
    """Entries of one length behind others: the Nth is entry(offset, N)."""
    length = len(entry(0, 0))
    return first + b"".join(entry(len(first) + length * n, n) for n in range((room - len(first)) // length))


def fdes(room):
    """One CIE, and an FDE for each instruction of the code, round and round."""
    return many(cie(), room, lambda at, n: fde(at, 0, CODE + 4 * n % CODE_BYTES, 4))


def nested(room):
    """One CIE, and FDEs each of which begins behind the one before and ends where all end."""
    return many(cie(), room, lambda at, n: fde(at, 0, CODE + n, CODE_BYTES - n))


def rising(room):
    """One CIE, and FDEs each of which holds the one before."""
    end = CODE + CODE_BYTES
    return many(cie(), room, lambda at, n: fde(at, 0, end - 1 - n, n + 1))


def same(room):
    """One CIE, and FDEs of the same range."""
    return many(cie(), room, lambda at, n: fde(at, 0, CODE, CODE_BYTES))


def cies(room):
    """CIEs alone."""
    return cie() * (room // len(cie()))


def pairs(room):
    """CIEs each with an FDE behind it."""
    length = len(cie())
    return many(b"", room, lambda at, n: cie() + fde(at + length, at, CODE + 4 * n % CODE_BYTES, 4))


def farthest(room):
    """CIEs, and behind them as many bytes of FDEs that all refer to the first."""
    return many(cies(room // 2), room, lambda at, n: fde(at, 0, CODE + 4 * n % CODE_BYTES, 4))


def shared(room):
    """A CIE with a third of the bytes as its instructions, and FDEs that refer to it."""
    return many(cie(bytes([DW_CFA_offset | 8, 2]) * (room // 6)), room,
                lambda at, n: fde(at, 0, CODE + 4 * n % CODE_BYTES, 4))


def run(room):
    """One FDE with an instruction for each two bytes, which moves the location, or saves or restores a register."""
    step = bytes([DW_CFA_advance_loc | 1, DW_CFA_offset | 8, 2, DW_CFA_restore | 8])
    return cie() + fde(len(cie()), 0, CODE, CODE_BYTES, step * ((room - len(cie()) - 16) // len(step)))


def remembered(room):
    """One FDE that remembers states without end, and then goes back to all of them."""
    count = (room - len(cie()) - 16) // 2
    states = bytes([DW_CFA_remember_state]) * count + bytes([DW_CFA_restore_state]) * count
    return cie() + fde(len(cie()), 0, CODE, CODE_BYTES, states)


def expressions(room):
    """One FDE whose instructions are empty expressions."""
    count = (room - len(cie()) - 16) // 3
    return cie() + fde(len(cie()), 0, CODE, CODE_BYTES, bytes([DW_CFA_expression, 8, 0]) * count)


def terminators(room):
    """Lengths of 0, of which the first ends the list."""
    return cie() + fde(len(cie()), 0, CODE, 4) + bytes(room - len(cie()) - 16)


KINDS = {function.__name__: function for function in (
    fdes, nested, rising, same, cies, pairs, farthest, shared, run, remembered, expressions, terminators)}


def program(kind, room):
    """The program, with at most so many bytes of .eh_frame, and with less where the file has no room for more."""
    code = (CODE, assemble(EXIT, CODE), CODE_BYTES, READ_EXECUTE)
    around = len(elf([code], b"x", b".eh_frame"))
    return elf([code], KINDS[kind](min(room, MOST_BYTES - around)), b".eh_frame")


def main():
    parser = argparse.ArgumentParser(description=__doc__)
    parser.add_argument("kind", choices=KINDS)
    parser.add_argument("bytes", type=int)
    parser.add_argument("file", type=Path)
    args = parser.parse_args()
    args.file.write_bytes(program(args.kind, args.bytes))


if __name__ == "__main__":
    main()
