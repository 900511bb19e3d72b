"""Measurements, traces, programs and databases that load one part of the built program each, and what runs on them."""
import array
import struct
import sys
from collections import namedtuple
from pathlib import Path

HERE = Path(__file__).resolve().parent
sys.dont_write_bytecode = True
CHECKS = HERE.parent.parent / "checks"
sys.path[:0] = [str(HERE), str(HERE.parent), str(CHECKS / "hostile")]
import frames
import row_files
from row_files import BASE, READ_EXECUTE, STRAIGHT, words

MIB = 1 << 20
MOST_PROGRAM = 64 * MIB
MOST_SAMPLES = 1 << 20
# The most paths of four frames, by the limit of scopes.
FOUR_FRAMES = 8388608 // 9
# With these two words behind any others the hash of a list becomes the same.
COLLIDING = (0x7F4A7C15, 0x9E3779B9)
# What the words of a command have before the file that it stores.
BEHIND = {"profile": ["2"], "live": ["2", "1024"]}
# The end of a function's symbol.
ABSOLUTE_FUNCTION = struct.pack("<BBH", 0x12, 0, row_files.ABSOLUTE)

# `tables` says that the definition has the same bytes read for many tables or lists, `guests` that what is taken is the guest's.
Load = namedtuple("Load", "words files tables guests", defaults=(False, False))
NAMES = {"info": b".debug_info", "abbrev": b".debug_abbrev", "rnglists": b".debug_rnglists", "line": b".debug_line",
         "text": b".debug_str", "line_text": b".debug_line_str"}


# ---- what is run

def elf(code=STRAIGHT, size=None, **sections):
    """A program of code, which has a size in memory, with these sections."""
    content = words(*code)
    named = [(NAMES[name], data, 0) for name, data in sections.items()]
    return row_files.program([(BASE, content, size or len(content), READ_EXECUTE)], named)


def structure(data, **how):
    return Load(["struct", "program"], {"program": data}, **how)


def running(data, text="harts 1\n0 100\n", command=("run",), period="1", given=b""):
    names = ["program", "input", "schedule", period]
    kept = {"program": data, "input": given, "schedule": text.encode()}
    return Load([*command, *names, *BEHIND.get(command[0], []), "stored"], kept)


# ---- many rows at once

def ascending(first, step, count):
    """The words of so many numbers, each a step above the one before."""
    return array.array("I", range(first, first + step * count, step))


def rows(count, *fields):
    """The bytes of so many rows. A field is the words of all rows, or the bytes that each of them has."""
    each = [isinstance(field, bytes) for field in fields]
    widths = [len(field) if is_each else 4 for field, is_each in zip(fields, each)]
    total, start = sum(widths), 0
    found = bytearray(total * count)
    for field, width, is_each in zip(fields, widths, each):
        whole = field if is_each else field.tobytes()
        for place in range(width):
            found[start + place :: total] = whole[place : place + 1] * count if is_each else whole[place::width]
        start += width
    return bytes(found)


# ---- measurements and traces

def measured(paths, count=1):
    """The measurement of paths of a straight program."""
    data = row_files.ROW_FILES["straight"]
    body = b"".join(struct.pack(f"<{3 + len(path)}I", count, 0, len(path), *path) for path in paths)
    head = b"HPCRUNM1" + words(len(data), BASE, 1, 1, len(paths))
    kept = {"program": data, "measurement": head + body}
    return Load(["prof", "program", "measurement", "2", "stored"], kept)


def collisions(count):
    """Paths of four frames that all have the same hash, where a hash takes two words at a time by a known factor."""
    return measured([(BASE + 4 * n, n, *COLLIDING) for n in range(count)])


def too_many_collisions(count):
    """The most samples, of such paths, which have too many scopes."""
    return measured([(BASE + 4 * n, n, *COLLIDING) for n in range(count)])


def no_collisions(count):
    """As many paths of four frames that have other hashes."""
    return measured([(BASE + 4 * n, n, 0x7F4A7C14, 0x9E3779B8) for n in range(count)])


def short_paths(_):
    """Paths of one frame."""
    return measured([(4 * n,) for n in range(MOST_SAMPLES)])


def long_paths(_):
    """Paths of 512 frames that differ in the last one."""
    return measured([(*[BASE] * 511, 4 * n) for n in range(8184)])


def one_caller(_):
    """Paths of two frames whose nodes are all below one."""
    return measured([(4 * n, BASE + 4) for n in range(MOST_SAMPLES)])


def merged_collisions(_):
    """Sixteen runs, of which each has a sixteenth of the colliding paths."""
    load = collisions(_)
    share = FOUR_FRAMES // 16
    head = load.files["measurement"][:24]
    kept = {}
    for run in range(16):
        paths = [(BASE + 4 * n, n, *COLLIDING) for n in range(share * run, share * (run + 1))]
        body = b"".join(struct.pack("<7I", 1, 0, 4, *path) for path in paths)
        kept[f"measurement{run}"] = head + words(share) + body
    return Load(["merge", "program", "2", "stored", *kept], {"program": load.files["program"], **kept})


def long_trace(_):
    """A trace of all samples a hart may have, each of another path of three frames."""
    return traced([(n, *COLLIDING) for n in range(MOST_SAMPLES)])


def trace_collisions(_):
    """A trace whose samples are each of another path of four frames, which have one hash where the hasher is known."""
    return traced([(BASE + 4 * n, n, *COLLIDING) for n in range(MOST_SAMPLES)])


def traced(paths):
    """The trace of these paths of a straight program, with a sample of each."""
    data, count = row_files.ROW_FILES["straight"], len(paths)
    body = b"".join(struct.pack(f"<{2 + len(path)}I", 0, len(path), *path) for path in paths)
    head = b"HPCTRAC1" + words(len(data), BASE, 1, 1) + struct.pack("<QI", count, count)
    kept = head + body + struct.pack(f"<{count + 1}I", count, *range(count))
    return Load(["timeline", "program", "trace", "64", "512"], {"program": data, "trace": kept})


# ---- programs

def segments(count):
    """Segments of one byte each."""
    held = [(BASE + 8 * n, b"", 4, 4) for n in range(count)]
    code = (0x8000000, words(*STRAIGHT), 84, READ_EXECUTE)
    return running(row_files.program([*held, code], entry=0x8000000))


def symbols(count):
    """Function symbols that all hold the same address, and whose names are one text's ends."""
    table = rows(count, ascending(1, 1, count), words(BASE), words(84), ABSOLUTE_FUNCTION)
    data = row_files.with_symbols([(BASE, words(*STRAIGHT), 84, READ_EXECUTE)], (), table, b"\0" + b"f" * count + b"\0")
    return running(data)


def of_symbols(count, code):
    """A program of code, with a function symbol for each word of code."""
    table = rows(count, words(1), ascending(BASE, 4, count), words(4), ABSOLUTE_FUNCTION)
    segment = (BASE, words(*code), max(4 * count, 4 * len(code)), READ_EXECUTE)
    return row_files.with_symbols([segment], (), table, b"\0f\0")


def symbol_procedures(count):
    """Function symbols of a word each, without debug information."""
    return structure(of_symbols(count, STRAIGHT))


def sampled_symbols(count):
    """The same, and a run that samples each of them."""
    return running(of_symbols(count, [0x00150513] * count), f"harts 1\n0 {count}\n", ("profile",))


def slices(count):
    """A schedule of slices of one instruction each."""
    spin = row_files.ROW_FILES["spinning"]
    return running(spin, "harts 64\n" + "".join(f"{n % 64} 1\n" for n in range(count)), period="4294967295")


def touched_pages(_):
    """A program that writes a word to each page of 3.7 GB in memory."""
    code = [0x000202B7, 0x000016B7, 0x0052A023, 0x00D282B3, 0xFF9FF06F]
    content = words(*code)
    data = row_files.program([(BASE, content, len(content), READ_EXECUTE), (0x20000, b"", 0xEFFE0000, 6)])
    return running(data, "harts 1\n0 4000000\n", period="4294967295")._replace(guests=True)


def written(count, size):
    """A program that asks so many times for so many bytes of its memory, in whole pages, to be written."""
    code = [0x00100513, 0x000205B7, size | 0x637, 0x04000893, 0x00000073, 0xFEDFF06F]
    content = words(*code)
    data = row_files.program([(BASE, content, len(content), READ_EXECUTE), (0x20000, b"", size, 6)])
    return running(data, f"harts 1\n0 {len(code) * count}\n", period="4294967295")


def written_output(count):
    """A program that writes its whole output many times."""
    return written(count, MIB)._replace(guests=True)


def readable_output(count):
    """A program that asks for 4 GB of its memory to be written."""
    return written(count, 0xEFFE0000)


def samples(_):
    """A sample of each of the most instructions, below 500 calls of a procedure that calls itself, and then waits."""
    code = list(row_files.CALLING)
    code[0], code[6] = 0x1F400513, 0x00050063
    data = row_files.of_code(code, [(b".debug_frame", row_files.CALLING_FRAMES)], row_files.CALLING_FUNCTIONS)
    return running(data, f"harts 1\n0 {MOST_SAMPLES}\n", ("profile",))


def call_frames(kind):
    def load(_):
        return running(frames.program(kind, MOST_PROGRAM), "harts 1\n0 10\n")
    return load


# ---- databases

def wide_database(count):
    """A database of statements below one procedure, made by the program itself."""
    code = [0x00150513] * count
    return running(elf(code), f"harts 1\n0 {count}\n", ("profile",))
