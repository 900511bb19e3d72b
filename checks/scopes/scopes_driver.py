"""A copy of a program in which each instruction is called once, from an address of its own."""
import struct

from elf_file import HEADER, PF_R, PF_X, PT_LOAD, SECTION, SEGMENT, SHT_PROGBITS, Segment

RETURN = struct.pack("<I", 0x00008067)  # jalr x0, 0(ra)
T0, RA, A0, A7 = 5, 1, 10, 17
EXIT = 93
PAGE = 0x1000


def add_immediate(to, value):
    return (value & 0xFFF) << 20 | to << 7 | 0x13


def code_for(base, addresses):
    """Calls of the addresses from an entry at `base`, then an exit; and which address each call has. A call is
    jalr ra, LOW(t0), behind a lui of t0 where that is another one."""
    words, calls, high_now = [], {}, None
    for address in addresses:
        high = address + 0x800 >> 12 & 0xFFFFF
        if high != high_now:
            words.append(high << 12 | T0 << 7 | 0x37)
            high_now = high
        calls[base + 4 * len(words)] = address
        words.append((address & 0xFFF) << 20 | T0 << 15 | RA << 7 | 0x67)
    words += [add_immediate(A0, 0), add_immediate(A7, EXIT), 0x00000073]
    return struct.pack(f"<{len(words)}I", *words), calls


def frames_over(ranges):
    """A .debug_frame of one CIE, where the CFA is sp and ra is kept, and an FDE for each range."""
    version, code, data, def_cfa, sp = 3, 1, 0x7C, 0x0C, 2
    cie = struct.pack("<I", 0xFFFFFFFF) + bytes([version, 0, code, data, RA, def_cfa, sp, 0])
    entries = [cie] + [struct.pack("<III", 0, start, end - start) for start, end in ranges]
    return b"".join(struct.pack("<I", len(entry)) + entry for entry in entries)


def driven(elf, addresses):
    """The copy's bytes, and which address each call of the driver has. The driver stands in a segment of its own above
    all others, without frame rules, and is where the program enters: so a path below it is whole."""
    data = bytearray(elf.data)
    for section in elf.sections:
        words = elf.words(section)
        at = section.offset + words.start - section.addr
        data[at : at + 4 * len(words)] = RETURN * len(words)
    base = -(-elf.end // PAGE) * PAGE + PAGE
    code, calls = code_for(base, addresses)
    frames = frames_over([(s.vaddr, s.vaddr + s.memsz) for s in elf.segments if s.type == PT_LOAD and s.flags & PF_X])

    code_at = _append(data, code, PAGE)
    frames_at = _append(data, frames)
    driver = Segment(PT_LOAD, code_at, base, base, len(code), len(code), PF_R | PF_X, PAGE)
    segments = [*elf.segments, driver]
    sections = list(elf.sections)
    place = next(i for i, s in enumerate(sections) if elf.name_of(s) == ".debug_frame")
    sections[place] = sections[place]._replace(type=SHT_PROGBITS, flags=0, offset=frames_at, size=len(frames))
    phoff = _append(data, b"".join(SEGMENT.pack(*s) for s in segments))
    shoff = _append(data, b"".join(SECTION.pack(*s) for s in sections))
    head = elf.header._replace(entry=base, phoff=phoff, phnum=len(segments), shoff=shoff)
    data[: HEADER.size] = HEADER.pack(*head)
    return bytes(data), calls


def _append(data, more, align=4):
    data.extend(bytes(-len(data) % align))
    at = len(data)
    data.extend(more)
    return at

