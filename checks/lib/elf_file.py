"""An ELF32 file for RISC-V as docs/FORMATS.md takes it: its segments, sections and function symbols (System V ABI,
chapters 4 and 5)."""
import bisect
import struct
from collections import namedtuple

PT_LOAD, PF_X, PF_R = 1, 1, 4
SHT_NULL, SHT_PROGBITS, SHT_SYMTAB, SHT_NOBITS = 0, 1, 2, 8
SHF_EXECINSTR = 4
STT_FUNC, SHN_UNDEF = 2, 0

Header = namedtuple(
    "Header", "ident type machine version entry phoff shoff flags ehsize phentsize phnum shentsize shnum shstrndx"
)
HEADER = struct.Struct("<16sHHIIIIIHHHHHH")
Segment = namedtuple("Segment", "type offset vaddr paddr filesz memsz flags align")
SEGMENT = struct.Struct("<8I")
Section = namedtuple("Section", "name type flags addr offset size link info addralign entsize")
SECTION = struct.Struct("<10I")
SYMBOL = struct.Struct("<IIIBBH")
Function = namedtuple("Function", "name start size")


def text_at(data, at):
    """The bytes from there up to the first 0, or None where there is none."""
    end = data.find(b"\0", at)
    return None if at > len(data) or end < 0 else data[at:end]


class Elf:
    def __init__(self, data):
        self.data = data
        self.header = head = Header(*HEADER.unpack_from(data))
        self.segments = self._table(Segment, SEGMENT, head.phoff, head.phnum)
        self.sections = self._table(Section, SECTION, head.shoff, head.shnum)
        self.names = self.bytes_of(self.sections[head.shstrndx]) if head.shstrndx else b""
        loaded = [s for s in self.segments if s.type == PT_LOAD and s.memsz > 0]
        code = sorted((s.vaddr, s.vaddr + s.memsz) for s in loaded if s.flags & PF_X)
        self._starts, self._ends = [start for start, _ in code], [end for _, end in code]
        self.end = max(s.vaddr + s.memsz for s in loaded)
        self.functions = list(self._functions())

    def _table(self, kind, form, offset, count):
        return [kind(*form.unpack_from(self.data, offset + form.size * i)) for i in range(count)]

    def bytes_of(self, section):
        if section.type in (SHT_NULL, SHT_NOBITS):
            return b""
        return self.data[section.offset : section.offset + section.size]

    def name_of(self, section):
        return text_at(self.names, section.name).decode("latin-1") if self.names else ""

    def section(self, name):
        """The bytes of the first section of that name."""
        found = (s for s in self.sections if s.type != SHT_NULL and self.name_of(s) == name)
        section = next(found, None)
        return b"" if section is None else self.bytes_of(section)

    def counts(self, low, high):
        """A range counts where it isn't empty and lies within one segment that can be executed."""
        place = bisect.bisect_right(self._starts, low) - 1
        return low < high and place >= 0 and high <= self._ends[place]

    def _functions(self):
        table = next((s for s in self.sections if s.type == SHT_SYMTAB), None)
        if table is None:
            return
        texts = self.bytes_of(self.sections[table.link])
        for name, value, size, info, _, shndx in SYMBOL.iter_unpack(self.bytes_of(table)):
            if info & 15 == STT_FUNC and shndx != SHN_UNDEF and self.counts(value, value + size):
                yield Function(text_at(texts, name), value, size)

    def words(self, section):
        """The addresses of a section's words, where it is code that is loaded."""
        start, end = section.addr, section.addr + section.size
        is_code = section.type == SHT_PROGBITS and section.flags & SHF_EXECINSTR and self.counts(start, end)
        return range(start + 3 & ~3, end & ~3, 4) if is_code else range(0)

    def text(self):
        """The addresses of the words of code, ascending."""
        return sorted({address for section in self.sections for address in self.words(section)})
