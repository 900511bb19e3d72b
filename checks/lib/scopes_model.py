"""The scopes at addresses of a program by their definitions, in plain Python: an item's ranges are laid out address by
address, in place of the cuts and searches of the program."""
from collections import namedtuple

from dwarf import AT_CALL_FILE, AT_CALL_LINE, AT_LINKAGE_NAME, AT_NAME, TAG_INLINED, TAG_SUBPROGRAM, Info, Lines

# A procedure is (DIE, offset), (SYMBOL, address) or (NAMELESS, 0); a line (ROW, table, file, line) or (ADDRESS, address).
DIE, SYMBOL, NAMELESS = range(3)
ROW, ADDRESS = range(2)
# The calls inlined, outermost first, are pairs of a procedure and a line.
Found = namedtuple("Found", "procedure inlines line")
Item = namedtuple("Item", "entry inlined after identity call")

UNNAMED = b"<unnamed>"


class Model:
    def __init__(self, elf, addresses):
        self.elf, self.addresses = elf, addresses
        self.info = Info(elf)
        tables = {unit.stmt_list for unit in self.info.units if unit.stmt_list is not None}
        self.lines = Lines(self.info, elf, tables)
        self.items, self.holders = [], {address: [] for address in addresses}
        self._make_items()
        self.symbols = self._symbols()
        self.rows = self.lines.rows_at(addresses)

    def _make_items(self):
        chosen = [e for e in self.info.entries if e.tag in (TAG_SUBPROGRAM, TAG_INLINED)]
        afters = _afters(self.info.entries, chosen)
        for entry, after in zip(chosen, afters):
            ranges = [r for r in self.info.ranges(entry) if self.elf.counts(*r)]
            inlined = entry.tag == TAG_INLINED
            call = self._call(entry, ranges) if inlined and ranges else None
            self._hold(len(self.items), ranges)
            self.items.append(Item(entry, inlined, after, self.info.identity(entry).offset, call))

    def _hold(self, item, ranges):
        for start, end in ranges:
            for address in range(start + 3 & ~3, end, 4):
                holders = self.holders.get(address)
                if holders is not None and (not holders or holders[-1] != item):
                    holders.append(item)

    def _call(self, entry, ranges):
        file, line = self.info.number(entry, AT_CALL_FILE), self.info.number(entry, AT_CALL_LINE)
        if line is None or entry.unit.stmt_list not in self.lines.files:
            return ADDRESS, ranges[0][0]
        return ROW, entry.unit.stmt_list, file or 0, line

    def _symbols(self):
        """The first function symbol that holds each address."""
        found = {}
        for function in self.elf.functions:
            for address in range(function.start + 3 & ~3, function.start + function.size, 4):
                found.setdefault(address, function.start)
        return found

    def items_at(self, address):
        """The subprogram at an address and what is inlined into it there, the outermost first."""
        holders = self.holders[address]
        first = next((i for i in holders if not self.items[i].inlined), None)
        if first is None:
            return []
        found, end = [self.items[first]], self.items[first].after
        for i in holders:
            if first < i < end and self.items[i].inlined:
                found.append(self.items[i])
                end = self.items[i].after
        return found

    def subprograms_at(self, address):
        """All subprograms that hold an address, of which the first counts."""
        return [self.items[i] for i in self.holders[address] if not self.items[i].inlined]

    def found_at(self, address):
        items, row = self.items_at(address), self.rows.get(address)
        line = (ROW, *row) if row else (ADDRESS, address)
        if not items:
            symbol = self.symbols.get(address)
            return Found((NAMELESS, 0) if symbol is None else (SYMBOL, symbol), [], line)
        inlines = [((DIE, item.identity), item.call) for item in items[1:]]
        return Found((DIE, items[0].identity), inlines, line)

    def names(self, procedure):
        """What the database calls a procedure, and what symbols call it."""
        kind, number = procedure
        if kind == NAMELESS:
            return b"<unknown procedure>", b""
        if kind == SYMBOL:
            name = next(f.name for f in self.elf.functions if f.start == number)
            return name[:4096], name
        entry = self.info.entries[self.info.index[number]]
        name, linkage = self.info.text(entry, AT_NAME), self.info.text(entry, AT_LINKAGE_NAME)
        name = name if name is not None else linkage if linkage is not None else UNNAMED
        return name[:4096], linkage if linkage is not None else name


def _afters(entries, items):
    """The number of the first later item that is no descendant of each item."""
    number = {entry.offset: i for i, entry in enumerate(items)}
    found, opened, before = [len(items)] * len(items), [], 0
    for entry in entries:
        while opened and opened[-1].depth >= entry.depth:
            found[number[opened.pop().offset]] = before
        if entry.offset in number:
            opened.append(entry)
            before += 1
    return found
