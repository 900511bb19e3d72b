"""Programs for tests: an ELF32 file with one segment of code or several, sections in the order of a list, function
symbols and section names (System V ABI, chapters 4 and 5), and some small ones whose bytes are known."""
import struct

PT_LOAD, SHT_PROGBITS, SHT_SYMTAB, SHT_STRTAB = 1, 1, 2, 3
BASE = 0x10000
READ_EXECUTE = 5
ABSOLUTE = 0xFFF1


def words(*numbers):
    return struct.pack(f"<{len(numbers)}I", *numbers)


def strings(names):
    """The bytes of a string section, and the place of each name."""
    data, places = bytearray(b"\0"), []
    for name in names:
        places.append(len(data))
        data += name + b"\0"
    return bytes(data), places


def symbols_of(functions):
    """The bytes of the symbols of functions (name, address, size), and of their names."""
    texts, places = strings([name for name, _, _ in functions])
    symbols = [words(place, address, size) + struct.pack("<BBH", 0x12, 0, ABSOLUTE)
               for place, (_, address, size) in zip(places, functions)]
    return b"".join(symbols), texts


def program(segments, sections=(), functions=(), entry=BASE):
    """A file of segments (address, bytes, size in memory, flags), sections (name, bytes, address) and functions (name,
    address, size)."""
    if sections or functions:
        return with_symbols(segments, sections, *symbols_of(functions), entry)
    heads, body = loaded(segments)
    return header(entry, len(segments), 0, 0) + heads + body


def loaded(segments):
    """The headers of segments, and the bytes that follow them."""
    at, heads, body = 52 + 32 * len(segments), bytearray(), bytearray()
    for address, content, size, flags in segments:
        heads += words(PT_LOAD, at + len(body), address, address, len(content), size, flags, 4)
        body += content
    return bytes(heads), bytes(body)


def with_symbols(segments, sections, symbols, texts, entry=BASE):
    """A file of segments and sections, as above, with the bytes of symbols and of their names."""
    heads, body = loaded(segments)
    at, body = 52 + len(heads), bytearray(body)
    own = [(name, content, SHT_PROGBITS, where, 0, 0) for name, content, where in sections]
    own.append((b".symtab", bytes(16) + symbols, SHT_SYMTAB, 0, len(own) + 2, 16))
    own.append((b".strtab", texts, SHT_STRTAB, 0, 0, 0))
    names, places = strings([name for name, *_ in own] + [b".shstrtab"])
    own.append((b".shstrtab", names, SHT_STRTAB, 0, 0, 0))
    table = bytes(40)
    for place, (_, content, kind, where, link, size) in zip(places, own):
        table += words(place, kind, 0, where, at + len(body), len(content), link, int(kind == SHT_SYMTAB), 0, size)
        body += content
    return header(entry, len(segments), at + len(body), len(own) + 1) + heads + bytes(body) + table


def header(entry, segments, sections_at, sections):
    ident = b"\x7fELF\x01\x01\x01" + bytes(9)
    fields = (2, 243, 1, entry, 52, sections_at, 0, 52, 32, segments, 40, sections, max(sections - 1, 0))
    return ident + struct.pack("<HHIIIIIHHHHHH", *fields)


def of_code(code, sections=(), functions=()):
    """A program of instruction words from the base on; sections are pairs of a name and bytes."""
    content = words(*code)
    placed = [(name, data, 0x4000000 if name == b".eh_frame" else 0) for name, data in sections]
    return program([(BASE, content, len(content), READ_EXECUTE)], placed, functions)


def hexed(text):
    return bytes.fromhex(text)


# ---- programs whose bytes are known

STRAIGHT = [0x00150513] * 19 + [0x05D00893, 0x00000073]
CALLING = [0x00500513, 0x00C000EF, 0x05D00893, 0x00000073, 0xFF010113, 0x00112623, 0x00050663, 0xFFF50513, 0xFF1FF0EF,
           0x00C12083, 0x01010113, 0x00008067]
LOOPING = [0x00C000EF, 0x05D00893, 0x00000073, 0xFF010113, 0x00112623, 0x004000EF, 0x00150513, 0xFFDFF06F]
COMMON = hexed("0c000000 ffffffff 03 00 01 7c 01 0c0200")
CALLING_FRAMES = COMMON + hexed("18000000 00000000 10000100 20000000 440e10 448101 50c1 440e00 00")
LOOPING_FRAMES = COMMON + hexed(
    "14000000 00000000 0c000100 0c000000 440e10 448101 0000 0c000000 00000000 18000100 08000000")
EH_FRAMES = hexed("10000000 00000000 01 7a5200 01 7c 01 01 1b 0c0200 18000000 18000000 f4ff00fc 20000000 00"
                  "440e10 448101 50c1 440e00 00000000")
CALLING_FUNCTIONS = [(b"_start", BASE, 16), (b"f", BASE + 16, 32)]
LOOPING_FUNCTIONS = [(b"_start", BASE, 12), (b"g", BASE + 12, 12), (b"h", BASE + 24, 8)]
LINED_INFO = hexed("0d000000 0500 01 04 00000000 01 00000000")
LINED_ABBREV = hexed("01 11 00 10 17 00 00 00")
LINES = hexed("45000000 0500 04 00 24000000 01 01 01 fb 0e 0d 000101010100000001000001 01 0108 01 2f7300 02 0108 020b"
              "01 612e6300 00 0400 00050200000100 030201 030401 0208030101 0210 000101")
INLINED_INFO = hexed("48000000 0500 01 04 00000000 01 00000000 02 696e6e657200 01 02 6f7574657200 01"
                     "03 6d61696e00 00000100 54000000 04 19000000 0c000000 00 03 05 11000000 24000100 08000000 00 0b"
                     "00 00 00")
INLINED_ABBREV = hexed("01 11 01 1017 0000 02 2e 00 0308 200b 0000 03 2e 01 0308 1101 1206 0000"
                       "04 1d 01 3113 5517 580b 590b 0000 05 1d 00 3113 1101 1206 580b 590b 0000 00")
INLINED_RANGES = hexed("15000000 0500 04 00 00000000 07 08000100 08 07 20000100 10 00")
EARLIER_UNIT = hexed("07000000 0400 00000000 04")

ROW_FILES = {
    "straight": program([(BASE, words(*STRAIGHT), 84, READ_EXECUTE)]),
    "calling": of_code(CALLING, [(b".debug_frame", CALLING_FRAMES)], CALLING_FUNCTIONS),
    "looping": of_code(LOOPING, [(b".debug_frame", LOOPING_FRAMES)], LOOPING_FUNCTIONS),
    "exceptions": of_code(CALLING, [(b".eh_frame", EH_FRAMES)], CALLING_FUNCTIONS),
    "both frames": of_code(CALLING, [(b".debug_frame", COMMON), (b".eh_frame", EH_FRAMES)], CALLING_FUNCTIONS),
    "trapping": program([(BASE, words(0x00050463, 0, 0x05D00893, 0x73), 16, READ_EXECUTE)]),
    "spinning": program([(BASE, words(0x6F), 4, READ_EXECUTE)]),
    "lined": of_code(STRAIGHT, [(b".debug_info", LINED_INFO), (b".debug_abbrev", LINED_ABBREV),
                                (b".debug_line", LINES)]),
    "inlined": of_code(STRAIGHT, [(b".debug_info", INLINED_INFO), (b".debug_abbrev", INLINED_ABBREV),
                                  (b".debug_line", LINES), (b".debug_rnglists", INLINED_RANGES)]),
    "two units": of_code(CALLING, [(b".debug_frame", CALLING_FRAMES + hexed("0c000000 00000000 00000000 20000000")),
                                   (b".debug_info", EARLIER_UNIT + LINED_INFO), (b".debug_abbrev", LINED_ABBREV),
                                   (b".debug_line", LINES)], CALLING_FUNCTIONS[1:]),
}
