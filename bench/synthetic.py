"""Guests of a few lines of assembler, each made to load one part of the profiler."""

import struct

from assembler import CODE, DATA, NO_CALLER, ONE_FRAME, assemble, elf, frames

READ_EXECUTE, READ_WRITE = 5, 6

# Forty instructions of most kinds, which go round for ever: the load of the machine.
MIXED = """
    lui  s0, 0x20             # the data segment
    lui  s1, 0x3
    addi s1, s1, 57
    addi s2, zero, 0
round:
    slli t0, s2, 2
    andi t0, t0, 0x7fc
    add  t0, t0, s0
    lw   t1, 0(t0)            # among the file's bytes
    addi t1, t1, 3
    sw   t1, 0(t0)
    mul  t2, t1, s1
    mulhu t3, t1, s1
    divu t4, t2, s1
    rem  t5, t1, s1
    xor  a0, t2, t3
    sub  a1, t4, t5
    jal  ra, mix
    blt  a0, zero, below
    lui  t6, 0x1
    add  t6, t6, t0
    lbu  t2, 1(t6)            # among the zeros behind them
    add  t2, t2, a0
    sb   t2, 1(t6)
below:
    addi s2, s2, 1
    andi t3, s2, 7
    bne  t3, zero, round
    sh   a0, 2(t0)
    lh   t4, 2(t0)
    sltu s3, t4, a0
    jal  zero, round
mix:
    addi sp, sp, -16
    sw   ra, 12(sp)
    sw   a1, 8(sp)
    srli t2, a0, 7
    xor  a0, a0, t2
    slli t2, a0, 9
    add  a0, a0, t2
    lw   a1, 8(sp)
    or   a1, a1, a0
    bgeu a1, a0, back
    addi a0, a0, 1
back:
    lw   ra, 12(sp)
    addi sp, sp, 16
    jalr zero, 0(ra)
"""

# A procedure that calls itself until its argument is 0, and then goes round for ever below all calls.
DEEP_CALLS = 505
DEEP_FRAMES = DEEP_CALLS + 2
DEEP = f"""
    addi a0, zero, {DEEP_CALLS}
    jal  ra, descend
descend:
    addi sp, sp, -16
    sw   ra, 12(sp)
    beq  a0, zero, spin
    addi a0, a0, -1
    jal  ra, descend
spin:
    addi t0, t0, 1
    jal  zero, spin
"""

# A recursion that calls itself twice, to the depth that a0 has, from two places. It goes round for ever.
TWICE = """
again:
    addi a0, zero, {depth}
    jal  ra, both
    jal  zero, again
both:
    addi sp, sp, -16
    sw   ra, 12(sp)
    beq  a0, zero, back
    addi a0, a0, -1
    sw   a0, 8(sp)
    jal  ra, both
    lw   a0, 8(sp)
    jal  ra, both
back:
    lw   ra, 12(sp)
    addi sp, sp, 16
    jalr zero, 0(ra)
"""
TWICE_START = 12
TWICE_DEPTH, TWICE11_DEPTH = 15, 16
TWICE_PERIOD = 15
TWICE_COUNT = 1_980 * TWICE_PERIOD
TWICE11_COUNT = 11 * 200_000

# One instruction after another: with period 1 each is a path of one frame, as many as there may be samples.
FLAT_PATHS = 1 << 20

# As many calls in the start as paths of 512 frames keep to the limit of 8,388,608 scopes. All rounds have as many
# instructions, and the first comes so late that one in a round is sampled, at the innermost frame.
WIDE_FRAMES = 512
WIDE_SITES = 8_184
WIDE_ROUND = 2 + 5 * (WIDE_FRAMES - 2) + 3 + 3 * (WIDE_FRAMES - 1)
WIDE_COUNT = WIDE_SITES * WIDE_ROUND
WIDE_BODY = """
descend:
    addi sp, sp, -16
    sw   ra, 12(sp)
    beq  a0, zero, back
    addi a0, a0, -1
    jal  ra, descend
back:
    lw   ra, 12(sp)
    addi sp, sp, 16
    jalr zero, 0(ra)
"""


def mixed():
    code = assemble(MIXED, CODE)
    data = struct.pack("<1024I", *((i * 2654435761) % 2**32 for i in range(1024)))
    return elf([(CODE, code, len(code), READ_EXECUTE), (DATA, data, 2 * len(data), READ_WRITE)])


def of_two(source, start_size):
    """A program whose start has no caller, and whose one procedure behind it keeps a call frame."""
    code = assemble(source, CODE)
    entries = [(CODE, start_size, NO_CALLER), (CODE + start_size, len(code) - start_size, ONE_FRAME)]
    return elf([(CODE, code, len(code), READ_EXECUTE)], frames(entries))


def deep():
    return of_two(DEEP, 8)


def twice(depth):
    return of_two(TWICE.format(depth=depth), TWICE_START)


def flat():
    code = assemble("addi a0, a0, 1\n", CODE) * FLAT_PATHS + assemble("loop:\njal zero, loop\n", CODE)
    return elf([(CODE, code, len(code), READ_EXECUTE)])


def wide(sites=WIDE_SITES):
    depth = WIDE_FRAMES - 2
    # In its round a sample stands behind the call's two words, five in `descend` at each depth, and three at depth 0.
    lead = WIDE_ROUND - (2 + 5 * depth + 3)
    head = [f"addi t0, zero, {lead // 2}", "wait:", "addi t0, t0, -1", "bne t0, zero, wait"]
    head += ["addi t1, zero, 0"] * (lead - 1 - 2 * (lead // 2))
    calls = [f"addi a0, zero, {depth}", "jal ra, descend"] * sites
    start = head + calls + ["loop:", "jal zero, loop"]
    words = sum(not line.endswith(":") for line in start)
    return of_two("\n".join(start) + WIDE_BODY, 4 * words)


GUESTS = {"mixed": mixed, "deep": deep, "twice": lambda: twice(TWICE_DEPTH), "twice11": lambda: twice(TWICE11_DEPTH),
          "flat": flat, "wide": wide}
