"""What the checks of measurements, of traces and of `live` share: the fields of a file, the programs of which they are,
and the built program on files of a folder."""
import shutil
import struct
import subprocess
import tempfile
from pathlib import Path

import databases
from elf_file import Elf
from measurement_files import WHOLE


class Fault(Exception):
    def __init__(self, offset):
        super().__init__(offset)
        self.offset = offset


class Fields:
    """The fields of a file; one that isn't whole, or out of its range, is a fault at its start."""

    def __init__(self, data):
        self.data, self.at = data, 0

    def take(self, size, count=1):
        """So many fields of one size."""
        whole = (len(self.data) - self.at) // size
        if whole < count:
            raise Fault(self.at + size * whole)
        self.at += size * count
        return self.data[self.at - size * count : self.at]

    def words(self, count):
        return struct.unpack(f"<{count}I", self.take(4, count))

    def word(self, least=0, most=0xFFFFFFFF):
        (number,) = self.words(1)
        if not least <= number <= most:
            raise Fault(self.at - 4)
        return number


class Guest:
    """A program without debug information, or one that is refused."""

    def __init__(self, path, refusal=None):
        self.path, self.refusal = path, refusal
        self.elf = None if refusal else Elf(path.read_bytes())
        self.head = None if refusal else (len(self.elf.data), self.elf.header.entry)

    def procedure(self, pc):
        """The first function symbol whose range holds the address."""
        holding = (f for f in self.elf.functions if f.start <= pc < f.start + f.size)
        function = next(holding, None)
        return databases.NAMELESS if function is None else (1, function.start, function.name)

    def expanded(self, end, pcs):
        """A path's scopes: its root, and for each frame, the outermost first, its procedure and its address."""
        scopes = [("root", int(end != WHOLE))]
        for pc in reversed(pcs):
            scopes += [("proc", self.procedure(pc)), ("call", pc)]
        return (*scopes[:-1], ("stmt", pcs[0]))


class Program:
    def __init__(self, path, folder):
        self.path, self.folder = path, folder

    def called(self, words, files):
        """Status, output, standard error, and the files that then stand in a folder that had these."""
        folder = Path(tempfile.mkdtemp(dir=self.folder))
        for name, content in files.items():
            (folder / name).write_bytes(content)
        made = subprocess.run([self.path, *words], cwd=folder, stdin=subprocess.DEVNULL, capture_output=True)
        found = {file.name: file.read_bytes() for file in folder.iterdir()}
        shutil.rmtree(folder)
        return made.returncode, made.stdout.decode(), made.stderr.decode(), found
