"""Random debug information of DWARF 5, mostly well formed: abbreviation tables, units with entries, range lists, texts,
and line tables. Tables of earlier versions and faults are among them."""
import struct

from made_frames import long_uleb, sleb, uleb
from row_files import BASE, words

NAMES = (b"main", b"f", b"", b"g\n", b"<unnamed>", b"a" * 40, b"\xff\x7f")
SUBPROGRAM, INLINED, COMPILE, BLOCK, TYPE = 0x2E, 0x1D, 0x11, 0x0B, 0x24
NAME, LINKAGE, LOW, HIGH, RANGES, ORIGIN, SPECIFICATION = 3, 0x6E, 0x11, 0x12, 0x55, 0x31, 0x47
CALL_FILE, CALL_LINE = 0x58, 0x59
STMT_LIST, STR_BASE, ADDR_BASE, RNG_BASE = 0x10, 0x72, 0x73, 0x74
TEXT_FORMS = (0x08, 0x0E, 0x1F, 0x1A, 0x25, 0x26)
ADDRESS_FORMS = (0x01, 0x01, 0x1B, 0x29)
NUMBER_FORMS = (0x0B, 0x05, 0x06, 0x07, 0x0D, 0x0F, 0x21)
REFERENCE_FORMS = (0x13, 0x13, 0x11, 0x12, 0x14, 0x15, 0x10)
OTHER_FORMS = (0x0A, 0x03, 0x09, 0x18, 0x0C, 0x19, 0x1E, 0x1D, 0x1C, 0x20, 0x24, 0x22, 0x04, 0x23, 0x17)
SIZES = {0x0B: 1, 0x0C: 1, 0x25: 1, 0x29: 1, 5: 2, 0x26: 2, 6: 4, 7: 8, 0x1E: 16, 0x1D: 4, 0x1C: 4, 0x20: 8, 0x24: 8}
UNITS = ((4, 1, 4), (2, 1, 4), (5, 2, 4), (5, 4, 4), (5, 6, 4), (5, 1, 8), (6, 1, 4))
FORMS_OF = {NAME: TEXT_FORMS, LINKAGE: TEXT_FORMS, LOW: ADDRESS_FORMS, HIGH: ADDRESS_FORMS + NUMBER_FORMS,
            RANGES: (0x17, 0x17, 0x23), ORIGIN: REFERENCE_FORMS, SPECIFICATION: REFERENCE_FORMS,
            CALL_FILE: NUMBER_FORMS, CALL_LINE: NUMBER_FORMS, STMT_LIST: (0x17,),
            STR_BASE: (0x17,), ADDR_BASE: (0x17,), RNG_BASE: (0x17,)}


class Maker:
    def __init__(self, random, procedures):
        self.random, self.procedures = random, procedures
        self.info, self.entries = b"", []
        self.texts = b"\0" + b"".join(name + b"\0" for name in NAMES) + random.choice((b"", b"open"))
        self.line_texts = b"/s\0a.c\0" + random.choice((b"", b"/", b"x\0"))
        self.addresses = words(*[self.address() for _ in range(6)])
        self.offsets = words(*[random.choice((0, 1, 6, 7, 200)) for _ in range(6)])
        self.lists, self.list_places = self.made_lists()

    def address(self):
        start, size = self.random.choice(self.procedures)
        return (start + self.random.choice((0, 0, 0, 4, 8, size, size, size - 4))) % 2**32

    def made_lists(self):
        """`.debug_rnglists`: offsets of lists, and then the lists, with the offset of each."""
        random, count = self.random, 3
        places, lists = [], b""
        for _ in range(count):
            places.append(4 * count + len(lists))
            lists += b"".join(self.range_entry() for _ in range(random.randrange(5)))
            lists += b"\0" if random.random() < 0.95 else random.choice((b"", b"\x08"))
        return words(*places) + lists, places

    def range_entry(self):
        random = self.random
        size = random.choice((4, 8, 16, 0, 100, 1 << 33))
        return random.choice((
            lambda: b"\1" + uleb(random.randrange(7)),
            lambda: b"\2" + uleb(random.randrange(7)) + uleb(random.randrange(7)),
            lambda: b"\3" + uleb(random.randrange(6)) + uleb(size),
            lambda: b"\4" + uleb(random.choice((0, 4, BASE))) + long_uleb(random, random.choice((4, 8, BASE + 16))),
            lambda: b"\4" + uleb(random.choice((0, 4))) + uleb(random.choice((4, 8, 24))),
            lambda: b"\5" + words(self.address()),
            lambda: b"\6" + words(self.address(), self.address()),
            lambda: b"\7" + words(self.address()) + uleb(size),
        ))()

    # ---- abbreviations

    def declaration(self, tag):
        """A tag, whether children follow, and attributes with their forms."""
        random = self.random
        wanted = {
            COMPILE: (STMT_LIST, STR_BASE, ADDR_BASE, RNG_BASE, LOW, NAME),
            SUBPROGRAM: (NAME, LINKAGE, LOW, HIGH, RANGES, ORIGIN, SPECIFICATION),
            INLINED: (ORIGIN, LOW, HIGH, RANGES, CALL_FILE, CALL_LINE),
        }.get(tag, (NAME, LOW))
        chosen = [attribute for attribute in wanted if random.random() < (0.75 if tag != SUBPROGRAM else 0.6)]
        if random.random() < 0.15:
            chosen.append(random.choice((*wanted, 0x1234, 0, 1 << 40)))
        found = []
        for attribute in chosen:
            form = random.choice(FORMS_OF.get(attribute, OTHER_FORMS))
            if random.random() < 0.05:
                form = random.choice(OTHER_FORMS)
            if random.random() < 0.03:
                form = 0x16
            if random.random() < 0.004:
                form = random.choice((0, 2, 0x2D, 0x1F01, 1 << 35))
            found.append((attribute, form, random.choice((0, 4, 16, -1, 1 << 31))))
        return tag, int(random.random() < 0.55) if tag != COMPILE else 1, found

    def table(self, declarations):
        data = b""
        for code, (tag, children, attributes) in declarations.items():
            data += uleb(code) + uleb(tag) + bytes([children])
            for attribute, form, constant in attributes:
                data += uleb(attribute) + uleb(form) + (sleb(constant) if form == 0x21 else b"")
            data += b"\0\0"
        return data + (b"\0" if self.random.random() < 0.99 else b"")

    # ---- values

    def value(self, attribute, form):
        random = self.random
        if form == 0x16:
            named = random.choice((*FORMS_OF.get(attribute, OTHER_FORMS), 0x21, 0x16, 0x0B))
            return uleb(named) + (b"" if named in (0x16, 0x21) else self.value(attribute, named))
        if attribute in (LOW, HIGH) and form == 1:
            return words(self.address())
        if attribute == RANGES and form == 0x17:
            return words(random.choice((*self.list_places, len(self.lists), 1)))
        if form in REFERENCE_FORMS:
            return self.reference(form)
        if form == 0x17:
            return words(random.choice(self.tables if attribute == STMT_LIST else (0, 0, 0, 4, 1 << 31)))
        number = random.choice((0, 1, 2, 3, 4, 8, 16, 28, 32, 40, 255))
        if form == 0x08:
            return random.choice(NAMES) + b"\0"
        if form in (0x0E, 0x1F):
            return words(random.choice((0, 1, 6, 8, 3, 99999)))
        if form in (0x1A, 0x1B, 0x0F, 0x22, 0x23):
            return long_uleb(random, number % 8 if form != 0x0F else number)
        if form == 0x0D:
            return sleb(random.choice((number, -number, 1 << 40)))
        if form in SIZES:
            small = number % 6 if form in (0x25, 0x26, 0x29) else number
            return small.to_bytes(8, "little")[: SIZES[form]].ljust(SIZES[form], b"\0")
        if form in (0x0A, 0x09, 0x18):
            return b"\2ab"
        if form == 3:
            return b"\2\0ab"
        if form == 4:
            return words(random.choice((2, 2, 2, 0xFFFFFFFF))) + b"ab"
        return b""

    def reference(self, form):
        random = self.random
        to = random.choice(self.entries) if self.entries and random.random() < 0.85 else random.randrange(200)
        if random.random() < 0.1:
            to = self.here
        number = to if form == 0x10 else max(to - self.unit_start, 0)
        if form == 0x15:
            return uleb(number)
        size = {0x10: 4, 0x11: 1, 0x12: 2, 0x13: 4, 0x14: 8}[form]
        return (number % 256**size).to_bytes(size, "little")

    # ---- units

    def unit(self, start_of_table, declarations):
        random = self.random
        self.unit_start = len(self.info)
        version, kind, size = 5, random.choice((1, 1, 1, 3)), 4
        if random.random() < 0.06:
            version, kind, size = random.choice(UNITS)
        head = struct.pack("<HBBI", version, kind, size, start_of_table)
        body, depth, codes = b"", 0, list(declarations)
        for number in range(random.choice((1, 3, 8, 20))):
            self.here = self.unit_start + 4 + len(head) + len(body)
            if depth and random.random() < 0.3:
                body, depth = body + b"\0", depth - 1
                continue
            code = codes[0] if number == 0 and random.random() < 0.9 else random.choice(codes)
            tag, children, attributes = declarations[code]
            values = b"".join(self.value(attribute, form) for attribute, form, _ in attributes)
            self.entries.append(self.here)
            body += (long_uleb(random, code) if random.random() < 0.995 else uleb(77)) + values
            depth += children
        if random.random() < 0.9:
            body += bytes(depth)
        length = len(head) + len(body)
        if random.random() < 0.01:
            length = random.choice((length + 1, length - 1, 0xFFFFFFF0, 1, 0))
        self.info += words(length % 2**32) + head + body

    def sections(self):
        random = self.random
        self.lines, self.tables = line_tables(random, self)
        abbrev, places = b"", []
        for _ in range(random.choice((1, 1, 2))):
            below = (SUBPROGRAM, SUBPROGRAM, INLINED, INLINED, BLOCK, TYPE)
            tags = [COMPILE, *random.choices(below, k=random.randint(2, 7))]
            codes = [*range(1, len(tags) + 1)] if random.random() < 0.85 else random.sample(range(1, 300), len(tags))
            declarations = {code: self.declaration(tag) for code, tag in zip(codes, tags)}
            places.append((len(abbrev), declarations))
            abbrev += self.table(declarations)
        for _ in range(random.choice((1, 1, 1, 2, 3))):
            start, declarations = random.choice(places)
            self.unit(start if random.random() < 0.99 else len(abbrev) + 5, declarations)
        named = [(b".debug_info", self.info), (b".debug_abbrev", abbrev), (b".debug_line", self.lines),
                 (b".debug_str", self.texts), (b".debug_line_str", self.line_texts), (b".debug_addr", self.addresses),
                 (b".debug_str_offsets", self.offsets), (b".debug_rnglists", self.lists)]
        return [part for part in named if random.random() < 0.97]


# ---- line tables

def names(random, contents):
    """Formats and names of a list of directories or files."""
    formats = [(1, random.choice((0x08, 0x08, 0x1F, 0x0E)))]
    if contents > 1 or random.random() < 0.1:
        formats.append((2, random.choice((0x0B, 0x0B, 0x0F, 0x05))))
    if random.random() < 0.1:
        formats.append((random.choice((5, 1, 2, 0x2001)), random.choice((0x1E, 0x0B, 0x06, 0x08))))
    if random.random() < 0.01:
        formats[0] = (1, random.choice((0x0B, 0x16, 0x21, 2)))
    data = bytes([len(formats)]) + b"".join(uleb(content) + uleb(form) for content, form in formats)
    count = random.randrange(4)
    data += uleb(count if random.random() < 0.99 else count + 500)
    for _ in range(count):
        for content, form in formats:
            data += {0x08: random.choice((b"a.c\0", b"/x\0", b"\0", b"b\t\0")),
                     0x1F: words(random.choice((0, 3, 3, 900))), 0x0E: words(random.choice((0, 1, 6))),
                     0x0B: b"\1", 0x0F: b"\1", 5: b"\0\0", 6: bytes(4), 0x1E: bytes(16)}.get(form, b"\0")
    return data


def opcodes(random, maker, base, lengths):
    """A line number program."""
    found = b""
    for _ in range(random.choice((1, 2, 3))):
        if random.random() < 0.95:
            found += b"\0\5\2" + words(maker.address() & ~3)
        for _ in range(random.randrange(12)):
            code = random.choice((1, 1, 2, 3, 3, 4, 5, 6, 7, 8, 9, 10, 11, 12))
            code = code if random.random() < 0.6 else random.randrange(256)
            found += bytes([code])
            if code >= base:
                continue
            if code in (2, 4, 5, 12):
                found += long_uleb(random, random.choice((0, 1, 1, 2, 4, 8, 1 << 32)))
            elif code == 3:
                found += sleb(random.choice((0, 1, 5, -1, -30, 1 << 40)))
            elif code == 9:
                found += random.choice((b"\4\0", b"\x10\0", b"\xff\xff"))
            elif code == 0:
                address = b"\5\2" + words(maker.address())
                found += random.choice((b"\1\4", b"\2\4\3", b"\1\x80", b"\0", address, b"\3\2ab", b"\1\1"))
            elif code > 12:
                found += b"\1" * lengths[code - 1]
        if random.random() < 0.9:
            size = random.choice((4, 16, 32, 48))
            found += b"\2" + uleb(size) + b"\0\1\1"
    return found


def line_tables(random, maker):
    """`.debug_line`, and the offsets of its tables."""
    data, places = b"", []
    for _ in range(random.choice((1, 1, 2))):
        places.append(len(data))
        base = random.choice((13, 13, 13, 10, 14, 1, 2, 255))
        lengths = [0, 1, 1, 1, 1, 0, 0, 0, 1, 0, 0, 1, *[random.randrange(3) for _ in range(300)]][: base - 1]
        step, operations, span = random.choice((1, 1, 4, 0)), 1, random.choice((14, 14, 1, 255))
        if random.random() < 0.02:
            operations, span, base = random.choice(((0, 14, base), (1, 0, base), (1, 14, 0), (2, 14, base)))
        fields = bytes([step, operations, 1, random.choice((0xFB, 0xFB, 0, 0x7F, 0x80)), span, base, *lengths])
        fields += names(random, 1) + names(random, 2)
        program = opcodes(random, maker, base, lengths)
        length = len(fields) if random.random() < 0.97 else random.choice((0, len(fields) + 1, 1 << 31))
        body = struct.pack("<HBBI", random.choice((5,) * 30 + (4, 2, 6)), 4, 0, length) + fields + program
        whole = len(body) if random.random() < 0.99 else random.choice((len(body) + 1, 0xFFFFFFF5, 3, len(body) - 1))
        data += words(whole % 2**32) + body
    return data, places + ([len(data), 2] if random.random() < 0.05 else [])


def debug_sections(random, procedures):
    return Maker(random, procedures).sections()
