"""The kinds of differences between the profiler and other tools, as docs/DECISIONS.md explains them."""
from dwarf import AT_LINKAGE_NAME, AT_NAME, AT_RANGES
from scopes_model import NAMELESS, ROW, SYMBOL
from scopes_tools import ADDR2LINE

UNKNOWN = "of no known kind"
OTHER_NAME = "another name of the same code"
OVERLAPPING = "another of the subprograms that hold the address"
INSTANCE = "linkage name of an instance"
SYMBOL_NAME = "symbol in place of a name without linkage name"
FIRST_FILE = "file 0 in place of file 1"
UNREAD_RANGES = "ranges by index not read"


def same_file(ours, theirs):
    """A tool puts the directory of the compilation before a relative path."""
    is_relative = ours is not None and theirs is not None and not ours.startswith("/")
    return ours == theirs or is_relative and theirs.endswith("/" + ours)


def text(name):
    return None if name is None else name.decode("latin-1")


class Difference:
    """The frames at an address, and what explains that a tool has others."""

    def __init__(self, tool, model, address, found, ours, theirs):
        self.tool, self.model, self.address, self.found = tool, model, address, found
        self.ours, self.theirs = ours, theirs
        # Innermost first, as the frames; none where the procedure is a symbol's.
        self.items = model.items_at(address)[::-1]
        self.kinds = set()

    def kind(self):
        """None where the tool has the same frames."""
        left = len(self.ours) - len(self.theirs)
        if not self.is_left_out(left):
            return UNKNOWN
        pairs = list(zip(self.ours[left:], self.theirs))
        places = [self.ours[0], *(ours for ours, _ in pairs[1:])]
        for n, ((ours, theirs), place) in enumerate(zip(pairs, places)):
            item = self.items[left + n] if self.items else None
            if not (self.is_named(n, len(pairs), item, ours, theirs) and self.is_placed(n, place, theirs)):
                return UNKNOWN
        return ", ".join(sorted(self.kinds)) or None

    def is_left_out(self, count):
        """So many of the innermost frames are missing."""
        if count == 0:
            return True
        kinds = {item.entry.values.get(AT_RANGES, (None,))[0] for item in self.items[: max(count, 0)]}
        self.kinds.add(UNREAD_RANGES)
        return count > 0 and self.tool == ADDR2LINE and kinds == {"rnglistx"}

    def is_named(self, n, count, item, ours, theirs):
        if ours.name == (theirs.name or ""):
            return True
        reason = None
        if n == count - 1 and theirs.name in self.names_of_same():
            reason = OTHER_NAME
        elif n == count - 1 and theirs.name in self.names_of_overlapping():
            reason = OVERLAPPING
        elif self.tool == ADDR2LINE and item and theirs.name == self.linkage_name(item.entry):
            reason = INSTANCE
        elif self.tool == ADDR2LINE and n == 0 and self.lacks_linkage_name(item) and theirs.name in self.symbols():
            reason = SYMBOL_NAME
        self.kinds.add(reason)
        return reason is not None

    def is_placed(self, n, ours, theirs):
        if ours.line == theirs.line and (ours.line == 0 or same_file(ours.file, theirs.file)):
            return True
        row = self.found.line
        is_first = n == 0 and ours.line == theirs.line and row[0] == ROW and row[2] == 1
        first = text(self.model.lines.file_name(row[1], 0)) if is_first else None
        self.kinds.add(FIRST_FILE)
        return self.tool == ADDR2LINE and is_first and same_file(first, theirs.file)

    def text(self, entry, attribute):
        return text(self.model.info.text(entry, attribute))

    def linkage_name(self, entry):
        """The first on the way from an entry to its identity."""
        while entry is not None and self.text(entry, AT_LINKAGE_NAME) is None:
            entry = self.model.info.link(entry)
        return entry and self.text(entry, AT_LINKAGE_NAME)

    def lacks_linkage_name(self, item):
        identity = item and self.model.info.entries[self.model.info.index[item.identity]]
        return identity and self.model.info.text(identity, AT_LINKAGE_NAME) is None

    def symbols(self):
        """The function symbols that hold the address."""
        holds = (f for f in self.model.elf.functions if f.start <= self.address < f.start + f.size)
        return {text(f.name) for f in holds}

    def names_of_same(self):
        """Of the subprograms with the ranges of the one that is found; or of the symbols where that one starts."""
        kind, number = self.found.procedure
        if kind == SYMBOL:
            return {text(f.name) for f in self.model.elf.functions if f.start == number}
        if kind == NAMELESS:
            return set()
        ranges = self.model.info.ranges
        first, *others = self.model.subprograms_at(self.address)
        return {self.text(o.entry, AT_NAME) for o in others if ranges(o.entry) == ranges(first.entry)}

    def names_of_overlapping(self):
        return {self.text(o.entry, AT_NAME) for o in self.model.subprograms_at(self.address)[1:]}


def kind_of(tool, model, address, found, ours, theirs):
    """What explains that a tool has other frames, or None where it has the same."""
    return Difference(tool, model, address, found, ours, theirs).kind()
