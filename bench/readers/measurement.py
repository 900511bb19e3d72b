#!/usr/bin/env python3
"""Writes a measurement of a program with the most samples: 1,048,576 paths, of four frames, which are the most frames.

    bench/readers/measurement.py PROGRAM OUT [--frames 1|2|4]

No two paths are the same. Of four frames each is at one of the first 32 words behind the program's entry.
"""
import argparse
import itertools
import struct
from pathlib import Path

PERIOD = 5
# By the number of frames, at how many words each may be.
CHOICES = {1: 1 << 20, 2: 1 << 10, 4: 1 << 5}


def measurement(program, frames):
    """The bytes of the measurement, by docs/FORMATS.md."""
    (entry,) = struct.unpack_from("<I", program, 24)
    head = b"HPCRUNM1" + struct.pack("<5I", len(program), entry, PERIOD, 1, CHOICES[frames] ** frames)
    words = [entry + 4 * choice for choice in range(CHOICES[frames])]
    path = struct.Struct(f"<3I{frames}I")
    return head + b"".join(path.pack(1, 0, frames, *pcs) for pcs in itertools.product(words, repeat=frames))


def main():
    words = argparse.ArgumentParser(description=__doc__, formatter_class=argparse.RawDescriptionHelpFormatter)
    words.add_argument("program", type=Path)
    words.add_argument("out", type=Path)
    words.add_argument("--frames", type=int, choices=CHOICES, default=4)
    words = words.parse_args()
    words.out.write_bytes(measurement(words.program.read_bytes(), words.frames))


main()
