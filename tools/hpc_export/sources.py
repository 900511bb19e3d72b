"""Where the texts of source files are found.

A word FROM=TO says that names which begin with FROM begin with TO here. A word FOLDER says that a name is sought below
it: the name as it is, and then without its first folder, its first two, and so on. So `=` means the names as they are.
"""
import os

MOST_BYTES = 4 << 20


class Sources:
    """Finds the lines of a file by the name that the database has for it."""

    def __init__(self, words):
        self.words = [tuple(word.split("=", 1)) if "=" in word else (None, word) for word in words]

    def lines(self, name):
        """The lines, or None where no file is found. Bytes that are no UTF-8 are replaced."""
        for path in self._paths(name):
            if os.path.isfile(path) and os.path.getsize(path) <= MOST_BYTES:
                with open(path, "rb") as file:
                    return file.read().decode("utf-8", "replace").split("\n")
        return None

    def _paths(self, name):
        for start, to in self.words:
            if start is not None:
                if name.startswith(start):
                    yield to + name[len(start) :]
                continue
            parts = [part for part in name.split("/") if part not in ("", ".", "..")]
            yield from (os.path.join(to, *parts[first:]) for first in range(len(parts)))
