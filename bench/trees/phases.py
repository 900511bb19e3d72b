"""The phases of the command prof by the clock, within gdb: it stops where each begins, and says when.

    PROGRAM=crates/hpc_cli/out/hpc_cli WORDS="prof ELF MEASURE WORKERS DB" gdb -nx -batch -x bench/trees/phases.py

The report goes to /dev/null. A phase that runs in several threads begins with the first of them.
"""
import os
import subprocess
import time

import gdb

PROGRAM = os.environ["PROGRAM"]
# What each phase begins with, by a part of its symbol.
PHASES = [
    ("expand and merge", "std::thread::fork::chunks_from"),
    ("join, values", "tree_join::stripes::join_stripes"),
    ("planes", "sparse_planes::both::"),
    ("database and table, store", "run_profile::both::"),
]


class Mark(gdb.Breakpoint):
    """Notes when a place is first reached."""

    def __init__(self, address, title, marks):
        super().__init__(f"*{address}", internal=True)
        self.title, self.marks = title, marks

    def stop(self):
        if self.title not in [title for title, _ in self.marks]:
            self.marks.append((self.title, time.time()))
        self.enabled = False
        return False


def addresses():
    """The offset in the file of each phase's first symbol that has one."""
    lines = subprocess.run(["nm", PROGRAM], capture_output=True, text=True, check=True).stdout.splitlines()
    symbols = [line.split(" ", 2) for line in lines if len(line.split(" ", 2)) == 3]
    for title, part in PHASES:
        found = next((int(symbol[0], 16) for symbol in symbols if part in symbol[2]), None)
        if found is None:
            print(f"phases: no symbol has {part}")
        else:
            yield title, found


def loaded_at():
    """Where the program is loaded."""
    rows = gdb.execute("info proc mappings", to_string=True).splitlines()
    return next(int(row.split()[0], 16) for row in rows if row.rstrip().endswith(os.path.basename(PROGRAM)))


def main():
    for setting in ("pagination off", "confirm off", "print thread-events off"):
        gdb.execute(f"set {setting}")
    gdb.execute(f"file {PROGRAM}", to_string=True)
    gdb.execute(f"starti {os.environ['WORDS']} >/dev/null", to_string=True)
    base, marks = loaded_at(), []
    for title, offset in addresses():
        Mark(base + offset, title, marks)
    marks.append(("read", time.time()))
    gdb.execute("continue", to_string=True)
    ends = [when for _, when in marks[1:]] + [time.time()]
    for (title, begin), end in zip(marks, ends):
        print(f"{title}: {1000 * (end - begin):.0f} ms")


main()
