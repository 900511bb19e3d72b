"""Debug information and line tables that load one part of the built program each."""
import struct

import files
from files import declaration, uleb, unit
from loads import ascending, elf, rows, running, structure
from row_files import BASE, words

DW_TAG_compile_unit, DW_TAG_inlined_subroutine, DW_TAG_subprogram, DW_TAG_variable = 0x11, 0x1D, 0x2E, 0x34
DW_AT_name, DW_AT_stmt_list, DW_AT_low_pc, DW_AT_high_pc = 0x03, 0x10, 0x11, 0x12
DW_AT_abstract_origin, DW_AT_specification, DW_AT_ranges = 0x31, 0x47, 0x55
DW_AT_call_file, DW_AT_call_line, DW_AT_rnglists_base = 0x58, 0x59, 0x74
DW_FORM_addr, DW_FORM_data4, DW_FORM_string = 0x01, 0x06, 0x08
DW_FORM_data1, DW_FORM_strp, DW_FORM_udata, DW_FORM_ref4, DW_FORM_sec_offset = 0x0B, 0x0E, 0x0F, 0x13, 0x17
DW_FORM_flag_present, DW_FORM_line_strp, DW_FORM_rnglistx = 0x19, 0x1F, 0x23
DW_LNCT_path, DW_LNCT_directory_index = 0x01, 0x02
DW_RLE_offset_pair, DW_RLE_start_length = 0x04, 0x07
RANGE = [(DW_AT_low_pc, DW_FORM_addr), (DW_AT_high_pc, DW_FORM_data4)]
WORD_RANGE = [(DW_AT_low_pc, DW_FORM_addr), (DW_AT_high_pc, DW_FORM_data1)]


# ---- debug information

def of_kind(kind, count):
    """The sections of files.py in a program."""
    return structure(elf(**dict(zip(("info", "abbrev", "rnglists"), files.KINDS[kind](count)))))


def entries(count):
    return of_kind("entries", count)


def codes(count):
    return of_kind("codes", count)


def empty_values(count):
    return of_kind("empty_values", count)


def names(count):
    return of_kind("names", count)


def tables(count):
    return of_kind("tables", count)


def long_numbers(count):
    return of_kind("long_numbers", count)


def overlapping_tables(count):
    """Units each of whose abbreviation tables begins a byte after the one before, within declarations of five bytes."""
    table = b"".join(uleb(1) + uleb(1) + b"\1" + b"\0\0" for _ in range(200_000)) + bytes(9)
    return structure(elf(info=b"".join(unit(b"", n) for n in range(count)), abbrev=table))._replace(tables=True)


def repeated_codes(count):
    """Units whose tables are suffixes of one table that declares each code twice."""
    table = b"".join(declaration(1 + n % 100_000) for n in range(200_000)) + b"\0"
    step = len(declaration(1))
    return structure(elf(info=b"".join(unit(b"", step * n) for n in range(count)), abbrev=table))._replace(tables=True)


def deep_entries(count):
    """Entries each below the one before."""
    return structure(elf(info=unit(b"\1" * count), abbrev=declaration(1, children=True) + b"\0"))


def subprograms(count):
    """Subprograms of one address each, that all hold the same word of code, and nothing else does."""
    body = (b"\1" + words(BASE) + b"\4") * count
    return structure(elf(info=unit(body), abbrev=declaration(1, WORD_RANGE) + b"\0"))


def nested_ranges(count):
    """Subprograms whose ranges are each within the one before, so that at most addresses all are open."""
    size = 4 * count
    body = rows(count, b"\1", ascending(BASE, 1, count), ascending(2 * size, -2, count))
    return structure(elf(size=2 * size + 8, info=unit(body), abbrev=declaration(1, RANGE) + b"\0"))


def nested_subprograms(count):
    """Subprograms of which each is a child of the one before, with a part of its range."""
    body = rows(count, b"\1", ascending(BASE, 1, count), ascending(8 * count, -2, count))
    return structure(elf(size=8 * count + 84, info=unit(body), abbrev=declaration(1, RANGE, True) + b"\0"))


def nested_calls(count):
    """Subprograms of which each is a child of the one before, and as many calls that are inlined into the innermost."""
    table = declaration(1, WORD_RANGE, True) + declaration(2, WORD_RANGE, False, DW_TAG_inlined_subroutine) + b"\0"
    body = b"".join((bytes([code]) + words(BASE) + b"\4") * count for code in (1, 2))
    return structure(elf(info=unit(body), abbrev=table))


def nested_inlines(count, depth=60):
    """Calls that are inlined so deep into one subprogram, the innermost of a word each."""
    table = (declaration(1, RANGE, True) + declaration(2, RANGE, True, DW_TAG_inlined_subroutine)
             + declaration(3, WORD_RANGE, False, DW_TAG_inlined_subroutine) + b"\0")
    outer = b"".join(bytes([code]) + words(BASE, 4 * count) for code in [1] + [2] * (depth - 1))
    body = outer + rows(count, b"\3", ascending(BASE, 4, count), b"\4")
    return running(elf(size=max(4 * count, 84), info=unit(body), abbrev=table), command=("profile",))


def long_name(count, length=20_000_000):
    """Subprograms without ranges that all name one long text."""
    table = declaration(1, [(DW_AT_name, DW_FORM_strp)]) + b"\0"
    return structure(elf(info=unit(b"\1\0\0\0\0" * count), abbrev=table, text=b"n" * length + b"\0"))


def shared_text(count, length=20_000_000):
    """Inlined subroutines outside of subprograms whose origin is one subprogram, with a long text in its own entry."""
    table = (declaration(1, [(DW_AT_name, DW_FORM_string)])
             + declaration(2, [(DW_AT_abstract_origin, DW_FORM_ref4)], False, DW_TAG_inlined_subroutine) + b"\0")
    first = len(unit(b""))
    return structure(elf(info=unit(b"\1" + b"n" * length + b"\0" + (b"\2" + words(first)) * count), abbrev=table))


def of_links(calls, length):
    """A subprogram, another that completes it behind a long text in its own entry, and what is made of the offset of
    that entry and the offset behind it: subprograms that complete another (code 3), and inlined subroutines (code 4)."""
    table = (declaration(1) + declaration(2, [(DW_AT_name, DW_FORM_string), (DW_AT_specification, DW_FORM_ref4)])
             + declaration(3, [(DW_AT_specification, DW_FORM_ref4)])
             + declaration(4, [(DW_AT_abstract_origin, DW_FORM_ref4)], False, DW_TAG_inlined_subroutine) + b"\0")
    first = len(unit(b""))
    body = b"\1\2" + b"n" * length + b"\0" + words(first)
    return structure(elf(info=unit(body + calls(first + 1, first + len(body))), abbrev=table))


def shared_entry(count, length=20_000_000):
    """Inlined subroutines whose origin is one subprogram, with its own link behind a long text in its entry."""
    return of_links(lambda long, behind: (b"\4" + words(long)) * count, length)


def shared_second_entry(count, length=20_000_000):
    """The same with a subprogram of its own between each inlined subroutine and that entry."""
    return of_links(lambda long, behind: rows(count, b"\3" + words(long) + b"\4", ascending(behind, 10, count)), length)


def flags(count):
    """So many attributes without bytes."""
    return [(0x2000 + n % 0x1000, DW_FORM_flag_present) for n in range(count)]


def late_attributes(count, attributes=20_000):
    """Subprograms whose names come after many attributes without bytes."""
    table = declaration(1, [*flags(attributes), (DW_AT_name, DW_FORM_string)]) + b"\0"
    return structure(elf(info=unit(b"\1\0" * count), abbrev=table))


def unsized_values(count, attributes=20_000):
    """Variables with many attributes without bytes, and one value whose size its own bytes say."""
    table = declaration(1, [*flags(attributes), (0x2000, DW_FORM_udata)], False, DW_TAG_variable) + b"\0"
    return structure(elf(info=unit(b"\1\0" * count), abbrev=table))


def short_declarations(count):
    """Declarations of one attribute each, with one code, and an entry of the first."""
    table = declaration(1, [(DW_AT_name, DW_FORM_flag_present)]) * count + b"\0"
    return structure(elf(info=unit(b"\1"), abbrev=table))


def long_declarations(count, attributes=33):
    """Declarations of one attribute more than are looked at one by one, with one code, and an entry of the first."""
    table = declaration(1, [(DW_AT_name, DW_FORM_flag_present)] * attributes) * count + b"\0"
    return structure(elf(info=unit(b"\1"), abbrev=table))


def listed(count, ranges):
    """Inlined subroutines outside of subprograms that all name one list of ranges, a word each from the base on."""
    table = declaration(1, [(DW_AT_ranges, DW_FORM_sec_offset)], False, DW_TAG_inlined_subroutine) + b"\0"
    return structure(elf(info=unit(b"\1\0\0\0\0" * count), abbrev=table, rnglists=ranges + b"\0"))


def shared_ranges(count):
    """Items that all name one list of ranges, of which few have an address of code."""
    few = b"".join(bytes([DW_RLE_start_length]) + words(BASE + 8 * place) + b"\4" for place in range(4))
    return listed(count, bytes([DW_RLE_offset_pair, 0, 0]) * 1_000_000 + few)


def kept_ranges(count):
    """Items that all name one list of as many ranges of code."""
    return listed(count, (bytes([DW_RLE_start_length]) + words(BASE) + b"\4") * count)


def overlapping(count, tag, **how):
    """Items that name ends of one list of ranges, a word each, which begin a range later for each item."""
    table = declaration(1, [(DW_AT_ranges, DW_FORM_sec_offset)], False, tag) + b"\0"
    ranges = rows(count, bytes([DW_RLE_start_length]), ascending(BASE, 4, count), b"\4") + b"\0"
    return elf(info=unit(rows(count, b"\1", ascending(0, 6, count))), abbrev=table, rnglists=ranges, **how)


def overlapping_ranges(count):
    """Inlined subroutines outside of subprograms that name ends of one list."""
    return structure(overlapping(count, DW_TAG_inlined_subroutine, size=max(4 * count, 84)))


def live_overlapping_ranges(count):
    """Subprograms that name ends of one list, and a run that samples each word of it."""
    data = overlapping(count, DW_TAG_subprogram, code=[0x00150513] * (count + 1))
    return running(data, f"harts 1\n0 {count + 1}\n", ("live",))._replace(tables=True)


def short_items(count):
    """Inlined subroutines of two bytes each, outside of subprograms, that name one list of four ranges by its index."""
    table = (declaration(1, [(DW_AT_rnglists_base, DW_FORM_sec_offset)], True, DW_TAG_compile_unit)
             + declaration(2, [(DW_AT_ranges, DW_FORM_rnglistx)], False, DW_TAG_inlined_subroutine) + b"\0")
    ranges = (bytes([DW_RLE_start_length]) + words(BASE) + b"\4") * 4 + b"\0"
    info = unit(b"\1" + words(0) + b"\2\0" * count)
    return structure(elf(info=info, abbrev=table, rnglists=words(4) + ranges))


# ---- line tables

NO_NAMES = b"\0" + uleb(0)


def line_header(directories=NO_NAMES, names=NO_NAMES):
    """The fields of a header, with lists of directories and of files."""
    fields = bytes([1, 1, 1, 0xFB, 14, 13]) + bytes([0, 1, 1, 1, 1, 0, 0, 0, 1, 0, 0, 1])
    return fields + directories + names


def one_row(at):
    """The program of a row with an address."""
    return b"\0\5\2" + words(at) + b"\1"


# The end of a sequence, a word behind its last row.
SEQUENCE_END = b"\2\4\0\1\1"


def line_table(body, program, behind=0):
    """A table whose program has so many bytes before it that are not the header's."""
    head = struct.pack("<HBBI", 5, 4, 0, len(body) + behind)
    return struct.pack("<I", len(head) + len(body) + behind + len(program)) + head + body


def lined(body, program, **how):
    """A program with one line table."""
    info, abbrev = lined_units([0])
    return elf(info=info, abbrev=abbrev, line=line_table(body, program) + program, **how)


def lined_units(offsets):
    row = declaration(1, [(DW_AT_stmt_list, DW_FORM_sec_offset)]) + b"\0"
    return b"".join(unit(b"\1" + words(offset)) for offset in offsets), row


def directories(count):
    """A line table of directories of no bytes, as many as its bytes allow."""
    return structure(lined(line_header(b"\0" + uleb(count)), b"\x06" * count))


def files_of_a_byte(count):
    """A line table of files whose names are empty."""
    names = b"\1" + uleb(DW_LNCT_path) + uleb(DW_FORM_string) + uleb(count)
    return structure(lined(line_header(NO_NAMES, names + bytes(count)), b""))


def long_file_names(count, length=20_000_000):
    """A line table of files that all have one long text as their name."""
    names = b"\1" + uleb(DW_LNCT_path) + uleb(DW_FORM_line_strp) + uleb(count) + bytes(4 * count)
    return structure(lined(line_header(NO_NAMES, names), b"", line_text=b"n" * length + b"\0"))


def long_path(count, length=10_000_000):
    """Files in a directory whose name is long, and calls that are inlined in each of them."""
    directories = b"\1" + uleb(DW_LNCT_path) + uleb(DW_FORM_string) + uleb(1) + b"d" * length + b"\0"
    formats = b"\2" + uleb(DW_LNCT_path) + uleb(DW_FORM_string) + uleb(DW_LNCT_directory_index) + uleb(DW_FORM_data1)
    body = line_header(directories, formats + uleb(count) + b"f\0\0" * count)
    call = [*WORD_RANGE, (DW_AT_call_file, DW_FORM_data4), (DW_AT_call_line, DW_FORM_data1)]
    table = (declaration(1, [(DW_AT_stmt_list, DW_FORM_sec_offset), *WORD_RANGE], True)
             + declaration(2, call, False, DW_TAG_inlined_subroutine) + b"\0")
    calls = rows(count, b"\2" + words(BASE) + b"\4", ascending(0, 1, count), b"\1")
    info = unit(b"\1" + words(0, BASE) + b"\4" + calls)
    return structure(elf(info=info, abbrev=table, line=line_table(body, b"")))


def of_shared_program(tables, length=500_000, **how):
    """A program with line tables whose programs are the same bytes, behind the last of them."""
    body = line_header()
    program = one_row(BASE) + b"\1" * (length - 1) + SEQUENCE_END
    step = len(line_table(body, program))
    line = b"".join(line_table(body, program, step * (tables - 1 - n)) for n in range(tables)) + program
    info, abbrev = lined_units([step * n for n in range(tables)])
    return elf(info=info, abbrev=abbrev, line=line, **how)


def shared_program(count):
    """Line tables that share a program."""
    return structure(of_shared_program(count))._replace(tables=True)


def searched(count, command):
    """A hundred line tables that share a program, and a run that samples addresses that no table has."""
    data = of_shared_program(100, code=[0x00150513] * (count + 1))
    return running(data, f"harts 1\n0 {count + 1}\n", command)._replace(tables=True)


def searched_program(count):
    return searched(count, ("profile",))


def live_searched_program(count):
    return searched(count, ("live",))


def sequences(count):
    """Sequences of one row each."""
    return structure(lined(line_header(), (one_row(BASE) + SEQUENCE_END) * count))


def copied_rows(count):
    """A sequence of rows of a byte each."""
    return structure(lined(line_header(), one_row(BASE) + b"\1" * count + SEQUENCE_END))


def units(count):
    """Units of an entry each, that all have one line table."""
    program = one_row(BASE) + SEQUENCE_END
    table = declaration(1, [(DW_AT_stmt_list, DW_FORM_sec_offset)], False, DW_TAG_compile_unit) + b"\0"
    line = line_table(line_header(), program) + program
    return structure(elf(info=unit(b"\1" + words(0)) * count, abbrev=table, line=line))


def falling_rows(count):
    """A sequence whose addresses fall behind its first row, and a run that samples each of them."""
    falling = rows(count, b"\0\5\2", ascending(BASE + 4 * count - 4, -4, count), b"\1")
    program = one_row(BASE) + falling + one_row(BASE + 4 * count - 4) + SEQUENCE_END
    data = lined(line_header(), program, code=[0x00150513] * count)
    return running(data, f"harts 1\n0 {count}\n", ("profile",))
