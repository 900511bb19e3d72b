#!/usr/bin/env python3
"""Writes .debug_info, .debug_abbrev and maybe .debug_rnglists that load one part of a reader: see README.md."""

import argparse
import random
from pathlib import Path

DW_UT_compile = 1
DW_TAG_subprogram = 0x2E
DW_AT_name = 0x03
DW_AT_ranges = 0x55
DW_FORM_string = 0x08
DW_FORM_sec_offset = 0x17
DW_FORM_flag_present = 0x19
DW_FORM_implicit_const = 0x21
DW_RLE_offset_pair = 0x04


def uleb(number):
    out = bytearray()
    while number >= 128:
        out.append(number % 128 + 128)
        number //= 128
    out.append(number)
    return bytes(out)


def declaration(code, attributes=(), children=False, tag=DW_TAG_subprogram):
    out = uleb(code) + uleb(tag) + bytes([children])
    for attribute, form, *constant in attributes:
        out += uleb(attribute) + uleb(form)
        if form == DW_FORM_implicit_const:
            out += bytes(constant)
    return out + b"\0\0"


def unit(body, table=0):
    header = (5).to_bytes(2, "little") + bytes([DW_UT_compile, 4]) + table.to_bytes(4, "little")
    return (len(header) + len(body)).to_bytes(4, "little") + header + body


def entries(count):
    """Entries of one byte each."""
    return unit(b"\1" * count), declaration(1) + b"\0"


def codes(count):
    """Declarations whose codes are spread over 64 bits, in no order, and an entry of each."""
    chosen = random.Random(1).sample(range(1, 2**62), count)
    return unit(b"".join(map(uleb, chosen))), b"".join(map(declaration, chosen)) + b"\0"


def empty_values(count, attributes=2000):
    """Entries of one byte, each with many attributes whose values have no bytes."""
    row = [(0x2000 + n, DW_FORM_flag_present) if n % 2 else (0x2000 + n, DW_FORM_implicit_const, 1)
           for n in range(attributes)]
    return unit(b"\1" * count), declaration(1, row) + b"\0"


def names(count):
    """Entries whose names are empty."""
    return unit(b"\1\0" * count), declaration(1, [(DW_AT_name, DW_FORM_string)]) + b"\0"


def suffixes(count, numbers):
    """Units each of which names a suffix of one abbreviation table, from the declaration with a number on."""
    step = len(declaration(128))
    table = b"".join(declaration(code) for code in range(128, 128 + count)) + b"\0"
    return b"".join(unit(uleb(127 + count), n * step) for n in numbers), table


def tables(count):
    """Units each of which names a table a declaration shorter than the one before."""
    return suffixes(count, range(count))


def longer_tables(count):
    """Units each of which names a table a declaration longer than the one before."""
    return suffixes(count, reversed(range(count)))


def long_numbers(count, length=10_000_000):
    """Entries that all name one range list, in which a number doesn't end within its many bytes."""
    lists = bytes([DW_RLE_offset_pair]) + b"\x80" * length
    return unit(b"\1\0\0\0\0" * count), declaration(1, [(DW_AT_ranges, DW_FORM_sec_offset)]) + b"\0", lists


KINDS = {"entries": entries, "codes": codes, "empty_values": empty_values, "names": names, "tables": tables,
         "longer_tables": longer_tables, "long_numbers": long_numbers}


def main():
    parser = argparse.ArgumentParser(description=__doc__)
    parser.add_argument("kind", choices=KINDS)
    parser.add_argument("count", type=int)
    parser.add_argument("folder", type=Path)
    args = parser.parse_args()
    args.folder.mkdir(parents=True, exist_ok=True)
    for name, section in zip(("info", "abbrev", "rnglists"), KINDS[args.kind](args.count)):
        (args.folder / name).write_bytes(section)


if __name__ == "__main__":
    main()
