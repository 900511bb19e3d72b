"""Traces for tests, written from docs/FORMATS.md: whole ones, the limits, and a program with more procedures than a
timeline has letters."""
import struct

from measurement_files import CALLED, DEPTH, EXPRESSION, MOST_DEPTH, MOST_HARTS, MOST_SAMPLES, NO_CFA, NO_FDE, ONE
from measurement_files import UNMAPPED, WHOLE


def written(length, entry, period, harts):
    """The bytes of the trace of a program of that length and entry: for each hart the instructions that it retired, its
    paths, each an end and pcs, and the place of each sample's path."""
    data = b"HPCTRAC1" + struct.pack("<4I", length, entry, period, len(harts))
    for retired, paths, places in harts:
        words = [len(paths)]
        for end, pcs in paths:
            words += [end, len(pcs), *pcs]
        words += [len(places), *places]
        data += struct.pack(f"<Q{len(words)}I", retired, *words)
    return data


# examples/straight with the period 5, and on two harts of which one retires 7 and one 3 instructions
STRAIGHT = bytes.fromhex(
    "4850435452414331 a8000000 00000100 05000000 01000000 1400000000000000"
    "04000000 00000000 01000000 10000100 00000000 01000000 24000100"
    "00000000 01000000 38000100 00000000 01000000 4c000100 04000000 00000000 01000000 02000000 03000000"
)
TWO_HARTS = bytes.fromhex(
    "4850435452414331 a8000000 00000100 05000000 02000000"
    "0700000000000000 01000000 00000000 01000000 10000100 01000000 00000000 0300000000000000 00000000 00000000"
)
FIRST = WHOLE, ONE[2]
# A path on both harts, two that differ in their cause alone, some that another bit makes equal, one without a symbol.
HARTS = [
    (65, [(WHOLE, CALLED), (NO_FDE, CALLED[:2]), (DEPTH, CALLED[:2]), (WHOLE, (0x10004,)), FIRST], [0, 0, 1, 2, 1, 3, 4, 0, 4]),
    (27, [(WHOLE, CALLED), (NO_CFA, (0x10030, 0x10008))], [0, 1, 0]),
]


def deep(number):
    """So many paths of the most frames."""
    return [(WHOLE, (0x10010 + 4 * place, *[0x10020] * (MOST_DEPTH - 1))) for place in range(number)]


def limits(head):
    """Traces at the limits, and past each, with a name each."""
    ends = [(end, CALLED) for end in (DEPTH, UNMAPPED, EXPRESSION, NO_CFA, NO_FDE, WHOLE)]
    one = 7, [FIRST], [0]
    rows = {
        "no sample": (9, [(8, [], [])]),
        "nothing retired": (1, [(0, [], [])]),
        "the longest period": (0xFFFFFFFF, [(0xFFFFFFFF, [FIRST], [0])]),
        "the most retired instructions": (0xFFFFFFFF, [(2**64 - 1, [FIRST], [0])]),
        "no sample of the most": (0xFFFFFFFF, [(0xFFFFFFFE, [], []), (0xFFFFFFFF, [FIRST], [0])]),
        "all samples": (1, [(MOST_SAMPLES - 1, [FIRST], [0] * (MOST_SAMPLES - 1)), (1, [FIRST], [0])]),
        "a sample too many": (1, [(MOST_SAMPLES, [FIRST], [0] * MOST_SAMPLES), (1, [FIRST], [0])]),
        "all harts": (7, [one] * MOST_HARTS),
        "a hart too many": (7, [one] * (MOST_HARTS + 1)),
        "no hart": (7, []),
        "each end": (7, [(42, ends, [*range(6)])]),
        "another end": (7, [(7, [(DEPTH + 1, CALLED)], [0])]),
        "all frames of a path": (7, [(7, deep(1), [0])]),
        "a frame of a path too many": (7, [(7, [(DEPTH, CALLED[:1] * (MOST_DEPTH + 1))], [0])]),
        "all frames": (1, [(4096, deep(4096), [*range(4096)])] * 2),
        "a frame too many": (1, [*[(4096, deep(4096), [*range(4096)])] * 2, (1, [FIRST], [0])]),
        "a path twice": (1, [(2, [FIRST, FIRST], [0, 1])]),
        "the same path of two harts": (1, [(1, [FIRST], [0])] * 2),
        "a path without a sample": (1, [(1, [FIRST, ends[0]], [0])]),
        "a place of no path": (1, [(2, [FIRST, ends[0]], [0, 2])]),
        "a place before its turn": (1, [(3, [FIRST, *ends[:2]], [0, 2, 1])]),
        "the first place is not 0": (1, [(2, [FIRST, ends[0]], [1, 0])]),
        "a sample too few": (2, [(5, [FIRST], [0])]),
        "a sample more than retired": (2, [(5, [FIRST], [0, 0, 0])]),
        "a path without a sample before a byte too few": (1, [(1, [FIRST, ends[0]], [0]), (0, [], [])]),
    }
    for name, (period, harts) in rows.items():
        yield name, written(*head, period, harts)


# ---- more procedures than letters, and all harts

PROCEDURES, SIZE, START = 70, 16, 0x10000


def program(procedures):
    """A static ELF32 program of so many function symbols, each of four words: f0, f1 and so on (System V ABI, chapters
    4 and 5)."""
    code = bytes.fromhex("13000000") * 4 * procedures
    names = [b"f%d" % number for number in range(procedures)]
    strings, symbols = b"\0", bytes(16)
    for number, name in enumerate(names):
        symbols += struct.pack("<IIIBBH", len(strings), START + SIZE * number, SIZE, 0x12, 0, 0xFFF1)
        strings += name + b"\0"
    titles, at, body, headers = b"\0.symtab\0.strtab\0.shstrtab\0", 84 + len(code), b"", bytes(40)
    for name, kind, link, each, part in ((1, 2, 2, 16, symbols), (9, 3, 0, 0, strings), (17, 3, 0, 0, titles)):
        headers += struct.pack("<10I", name, kind, 0, 0, at + len(body), len(part), link, 1 if link else 0, 4, each)
        body += part + bytes(-len(part) % 4)
    ident = b"\x7fELF\x01\x01\x01" + bytes(9)
    head = ident + struct.pack("<HHIIIIIHHHHHH", 2, 243, 1, START, 52, at + len(body), 0, 52, 32, 1, 40, 4, 3)
    return head + struct.pack("<8I", 1, 84, START, START, len(code), len(code), 5, 4) + code + body + headers


def many_procedures():
    """Two harts: on one each procedure in turn, backwards, below the first; on the other some, twice each."""
    below = [(WHOLE, (START + SIZE * number + 4, START)) for number in reversed(range(PROCEDURES))]
    alone = [(NO_FDE, (START + SIZE * number,)) for number in range(0, PROCEDURES, 7)]
    places = [place for place in range(len(alone)) for _ in range(2)]
    return [(3 * PROCEDURES + 2, below, [*range(PROCEDURES)]), (3 * len(places), alone, places)]


def many_harts():
    """All harts, of which each has some of the paths, in turns, for another time; one hart has no sample."""
    paths = [(WHOLE, CALLED), (WHOLE, CALLED[1:]), (NO_FDE, CALLED[:1]), (DEPTH, CALLED[:2]), (WHOLE, (0x10030,))]
    harts = [(5, [], [])]
    for hart in range(1, MOST_HARTS):
        own = paths[: 1 + hart % len(paths)]
        samples = max(3 * hart % 200, len(own))
        harts.append((7 * samples + hart % 7, own, [place % len(own) for place in range(samples)]))
    return harts
