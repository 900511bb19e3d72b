#!/usr/bin/env python3
"""Makes measurements of another one: its paths dealt to several harts in turn, or its first paths alone.

    bench/trees/measurements.py MEASURE OUT [--harts N] [--paths N]

The measurement is one of a single hart, as `run` stores it.
"""
import argparse
import struct


def paths_of(data):
    """The bytes of each path of the one hart."""
    harts, count = struct.unpack_from("<2I", data, 20)
    if harts != 1:
        raise SystemExit("measurements: the measurement has several harts")
    at, paths = 28, []
    for _ in range(count):
        (frames,) = struct.unpack_from("<I", data, at + 8)
        end = at + 12 + 4 * frames
        paths.append(data[at:end])
        at = end
    return paths


def main():
    words = argparse.ArgumentParser(description=__doc__, formatter_class=argparse.RawDescriptionHelpFormatter)
    words.add_argument("measure")
    words.add_argument("out")
    words.add_argument("--harts", type=int, default=1)
    words.add_argument("--paths", type=int)
    words = words.parse_args()
    with open(words.measure, "rb") as file:
        data = file.read()
    paths = paths_of(data)[:words.paths]
    parts = [data[:20], struct.pack("<I", words.harts)]
    for hart in range(words.harts):
        own = paths[hart::words.harts]
        parts += [struct.pack("<I", len(own)), *own]
    with open(words.out, "wb") as file:
        file.write(b"".join(parts))


main()
