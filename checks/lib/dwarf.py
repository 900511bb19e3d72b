"""Debug information of DWARF 5 by docs/FORMATS.md and the definitions that docs/DEFINITIONS.md names, in plain Python:
units and entries, ranges and line tables. It takes well-formed sections alone."""
import bisect
from collections import namedtuple

TAG_SUBPROGRAM, TAG_INLINED = 0x2E, 0x1D
AT_NAME, AT_STMT_LIST, AT_LOW_PC, AT_HIGH_PC, AT_ORIGIN, AT_SPECIFICATION = 0x03, 0x10, 0x11, 0x12, 0x31, 0x47
AT_RANGES, AT_CALL_FILE, AT_CALL_LINE, AT_LINKAGE_NAME = 0x55, 0x58, 0x59, 0x6E
AT_STR_OFFSETS_BASE, AT_ADDR_BASE, AT_RNGLISTS_BASE = 0x72, 0x73, 0x74
WANTED = {
    AT_NAME, AT_STMT_LIST, AT_LOW_PC, AT_HIGH_PC, AT_ORIGIN, AT_SPECIFICATION, AT_RANGES, AT_CALL_FILE, AT_CALL_LINE,
    AT_LINKAGE_NAME, AT_STR_OFFSETS_BASE, AT_ADDR_BASE, AT_RNGLISTS_BASE,
}
FULL = 1 << 32

# What a form's value is, and how many bytes it has.
FIXED = {
    0x01: ("address", 4), 0x0B: ("number", 1), 0x05: ("number", 2), 0x06: ("number", 4), 0x07: ("number", 8),
    0x1E: ("other", 16), 0x0C: ("other", 1), 0x19: ("other", 0), 0x0E: ("strp", 4), 0x1F: ("line_strp", 4),
    0x1D: ("other", 4), 0x17: ("section", 4), 0x10: ("info_ref", 4), 0x1C: ("other", 4), 0x11: ("unit_ref", 1),
    0x12: ("unit_ref", 2), 0x13: ("unit_ref", 4), 0x14: ("unit_ref", 8), 0x20: ("other", 8), 0x24: ("other", 8),
    0x25: ("strx", 1), 0x26: ("strx", 2), 0x27: ("strx", 3), 0x28: ("strx", 4), 0x29: ("addrx", 1),
    0x2A: ("addrx", 2), 0x2B: ("addrx", 3), 0x2C: ("addrx", 4),
}
ULEB = {0x0F: "number", 0x15: "unit_ref", 0x1A: "strx", 0x1B: "addrx", 0x22: "other", 0x23: "rnglistx"}
BLOCK_LENGTH = {0x0A: 1, 0x03: 2, 0x04: 4}

Entry = namedtuple("Entry", "offset depth tag unit values")
Row = namedtuple("Row", "address file line")
Sequence = namedtuple("Sequence", "table start end rows")


class Cursor:
    def __init__(self, data, at=0):
        self.data, self.at = data, at

    def take(self, length):
        self.at += length
        return self.data[self.at - length : self.at]

    def number(self, length):
        return int.from_bytes(self.take(length), "little")

    def uleb(self):
        value = shift = 0
        while True:
            byte = self.data[self.at]
            self.at += 1
            value |= (byte & 127) << shift
            shift += 7
            if byte < 128:
                return value

    def sleb(self):
        start = self.at
        value = self.uleb()
        bits = 7 * (self.at - start)
        return value - (1 << bits) if value >> bits - 1 else value

    def text(self):
        end = self.data.index(0, self.at)
        text, self.at = self.data[self.at : end], end + 1
        return text

    def value(self, form, implicit=0):
        """The kind of a form's value, and the value."""
        if form in FIXED:
            kind, length = FIXED[form]
            return kind, self.number(length)
        if form in ULEB:
            return ULEB[form], self.uleb()
        if form == 0x08:
            return "text", self.text()
        if form == 0x0D:
            return "number", self.sleb()
        if form == 0x21:
            return "number", implicit
        if form == 0x16:
            return self.value(self.uleb())
        length = self.number(BLOCK_LENGTH[form]) if form in BLOCK_LENGTH else self.uleb()
        return "other", self.take(length)


def abbreviations(data, at):
    """Tag, children and attributes of each code."""
    cursor, found = Cursor(data, at), {}
    while code := cursor.uleb():
        tag, children, attributes = cursor.uleb(), cursor.number(1), []
        while True:
            attribute, form = cursor.uleb(), cursor.uleb()
            implicit = cursor.sleb() if form == 0x21 else 0
            if (attribute, form) == (0, 0):
                break
            attributes.append((attribute, form, implicit))
        found.setdefault(code, (tag, children, attributes))
    return found


class Unit:
    """A unit's header, and the bases of its first entry."""

    def __init__(self, offset):
        self.offset = offset
        self.stmt_list = self.low_pc = self.str_offsets = self.addr = self.rnglists = None


class Info:
    """The units and entries, and what is asked of an entry."""

    def __init__(self, elf):
        self.sections = {
            name: elf.section(f".debug_{name}")
            for name in ("info", "abbrev", "str", "line_str", "str_offsets", "addr", "rnglists", "line")
        }
        self.units, self.entries = [], []
        tables, at = {}, 0
        while at < len(self.sections["info"]):
            at = self._unit(at, tables)
        self.index = {entry.offset: i for i, entry in enumerate(self.entries)}

    def _unit(self, at, tables):
        cursor = Cursor(self.sections["info"], at)
        end = cursor.number(4) + at + 4
        if cursor.number(2) < 5:
            return end
        kind, _ = cursor.number(1), cursor.number(1)
        if kind == 2:
            return end
        start = cursor.number(4)
        table = tables.setdefault(start, None) or abbreviations(self.sections["abbrev"], start)
        tables[start] = table
        unit, depth, first = Unit(at), 0, True
        self.units.append(unit)
        while cursor.at < end:
            offset, code = cursor.at, cursor.uleb()
            if code == 0:
                depth = max(0, depth - 1)
                continue
            tag, children, attributes = table[code]
            values = {}
            for attribute, form, implicit in attributes:
                value = cursor.value(form, implicit)
                if attribute in WANTED:
                    values.setdefault(attribute, value)
            entry = Entry(offset, depth, tag, unit, values)
            self.entries.append(entry)
            if first:
                self._bases(unit, entry)
                first = False
            depth += children
        return end

    def _bases(self, unit, entry):
        def section(attribute):
            kind, value = entry.values.get(attribute, (None, None))
            return value if kind == "section" else None

        unit.stmt_list, unit.str_offsets = section(AT_STMT_LIST), section(AT_STR_OFFSETS_BASE)
        unit.addr, unit.rnglists = section(AT_ADDR_BASE), section(AT_RNGLISTS_BASE)
        unit.low_pc = self.address(entry, AT_LOW_PC)

    def _element(self, section, base, index):
        data = self.sections[section]
        if base is None or base + 4 * index + 4 > len(data):
            return None
        return int.from_bytes(data[base + 4 * index :][:4], "little")

    def address(self, entry, attribute):
        kind, value = entry.values.get(attribute, (None, None))
        if kind == "addrx":
            return self._element("addr", entry.unit.addr, value)
        return value if kind == "address" else None

    def text(self, entry, attribute):
        kind, value = entry.values.get(attribute, (None, None))
        if kind == "strx":
            kind, value = "strp", self._element("str_offsets", entry.unit.str_offsets, value)
        if kind in ("strp", "line_strp") and value is not None:
            return Cursor(self.sections[kind.replace("strp", "str")], value).text()
        return value if kind == "text" else None

    def number(self, entry, attribute):
        kind, value = entry.values.get(attribute, (None, None))
        return value if kind == "number" and 0 <= value < FULL else None

    def link(self, entry):
        """The abstract origin, else the specification."""
        for attribute in (AT_ORIGIN, AT_SPECIFICATION):
            kind, value = entry.values.get(attribute, (None, None))
            if kind in ("unit_ref", "info_ref"):
                found = self.index.get(value + (entry.unit.offset if kind == "unit_ref" else 0))
                if found is not None:
                    return self.entries[found]
        return None

    def identity(self, entry):
        while (linked := self.link(entry)) is not None:
            entry = linked
        return entry

    def ranges(self, entry):
        """The list of DW_AT_ranges, else the range from DW_AT_low_pc to DW_AT_high_pc."""
        kind, value = entry.values.get(AT_RANGES, (None, None))
        base = entry.unit.rnglists
        if kind == "rnglistx" and base is not None:
            kind, value = "section", base + self._element("rnglists", base, value)
        if kind == "section":
            return list(self._listed(entry.unit, value))
        low, (kind, high) = self.address(entry, AT_LOW_PC), entry.values.get(AT_HIGH_PC, (None, None))
        high = (low or 0) + high if kind == "number" else self.address(entry, AT_HIGH_PC)
        return [] if low is None or high is None else [(low, high % FULL)]

    def _listed(self, unit, offset):
        cursor, base = Cursor(self.sections["rnglists"], offset), unit.low_pc or 0

        def indexed():
            return self._element("addr", unit.addr, cursor.uleb())

        while kind := cursor.number(1):
            if kind == 1:
                base = indexed()
            elif kind == 5:
                base = cursor.number(4)
            elif kind == 2:
                yield indexed(), indexed()
            elif kind == 3:
                start = indexed()
                yield start, (start + cursor.uleb()) % FULL
            elif kind == 4:
                yield (base + cursor.uleb()) % FULL, (base + cursor.uleb()) % FULL
            elif kind == 6:
                yield cursor.number(4), cursor.number(4)
            elif kind == 7:
                start = cursor.number(4)
                yield start, (start + cursor.uleb()) % FULL


class Lines:
    """The line tables at offsets: their files, and the sequences that count."""

    def __init__(self, info, elf, offsets):
        self.sections, self.files, self.sequences = info.sections, {}, []
        for offset in sorted(offsets):
            self._table(elf, offset)

    def _table(self, elf, offset):
        cursor = Cursor(self.sections["line"], offset)
        end = cursor.number(4) + offset + 4
        if cursor.number(2) != 5:
            return
        cursor.take(2)
        program = cursor.number(4) + cursor.at
        step, _, _, base, span, opcodes = (cursor.number(1) for _ in range(6))
        lengths = [cursor.number(1) for _ in range(opcodes - 1)]
        directories = self._names(cursor)
        self.files[offset] = [self._joined(directories, path, index) for path, index in self._names(cursor)]
        line = (step, base - 256 if base > 127 else base, span, lengths)
        before = []
        for row, ends in self._rows(Cursor(self.sections["line"], program), end, line):
            if not ends:
                before.append(row)
                continue
            if before and elf.counts(before[0].address, row.address):
                rows = sorted(before, key=lambda row: row.address)
                self.sequences.append(Sequence(offset, before[0].address, row.address, rows))
            before = []

    def _names(self, cursor):
        """The path and the index of the directory of each."""
        formats = [(cursor.uleb(), cursor.uleb()) for _ in range(cursor.number(1))]
        found = []
        for _ in range(cursor.uleb()):
            path, index = b"", None
            for content, form in formats:
                kind, value = cursor.value(form)
                if content == 1:
                    path = value if kind == "text" else Cursor(self.sections[kind.replace("strp", "str")], value).text()
                elif content == 2:
                    index = value
            found.append((path, index))
        return found

    @staticmethod
    def _joined(directories, path, index):
        directory = directories[index][0] if index is not None and index < len(directories) else b""
        return path if path.startswith(b"/") or not directory else directory + b"/" + path

    @staticmethod
    def _rows(cursor, end, encoding):
        """Each row of the program, and whether it ends a sequence."""
        step, base, span, lengths = encoding
        address, file, line = 0, 1, 1
        while cursor.at < end:
            opcode = cursor.number(1)
            if opcode > len(lengths):
                more = opcode - len(lengths) - 1
                address, line = (address + more // span * step) % FULL, (line + base + more % span) % FULL
                yield Row(address, file, line), False
            elif opcode == 0:
                after, code = cursor.uleb() + cursor.at, cursor.number(1)
                if code == 1:
                    yield Row(address, file, line), True
                    address, file, line = 0, 1, 1
                elif code == 2:
                    address = cursor.number(4)
                cursor.at = after
            elif opcode == 1:
                yield Row(address, file, line), False
            elif opcode == 2:
                address = (address + cursor.uleb() * step) % FULL
            elif opcode == 3:
                line = (line + cursor.sleb()) % FULL
            elif opcode == 4:
                file = cursor.uleb()
            elif opcode == 8:
                address = (address + (255 - len(lengths) - 1) // span * step) % FULL
            elif opcode == 9:
                address = (address + cursor.number(2)) % FULL
            else:
                for _ in range(lengths[opcode - 1]):
                    cursor.uleb()

    def rows_at(self, addresses):
        """The row in force at each of these addresses that has one, beside its table."""
        found = {}
        for sequence in self.sequences:
            starts = [row.address for row in sequence.rows]
            low, high = (bisect.bisect_left(addresses, end) for end in (sequence.start, sequence.end))
            for address in addresses[low:high]:
                if address not in found:
                    row = sequence.rows[bisect.bisect_right(starts, address) - 1]
                    found[address] = (sequence.table, row.file, row.line)
        return found

    def file_name(self, table, file):
        files = self.files.get(table, [])
        return files[file][:4096] if file < len(files) else b"<unknown file>"
