"""Programs over the profiler's own crates, for what no command of its own prints.

A program's texts stand in a folder NAME/, whose files end in .txt behind Rattle's own endings: the gate takes Rattle's
files in crates/ alone. It is proved and built by `rt` in a copy of the crates that it stands on.
"""
import pathlib
import shutil
import subprocess
import sys

TOP = pathlib.Path(__file__).resolve().parents[2]


def crates_below(names):
    """The lines of crates.txt for these crates and all that they stand on."""
    lines = [line for line in (TOP / "crates.txt").read_text().splitlines() if ":" in line and line[0] != "#"]
    stands_on = {line.split(":")[0].split()[0]: line.split(":")[1].split() for line in lines}
    found, waiting = set(), list(names)
    while waiting:
        name = waiting.pop()
        if name in stands_on and name not in found:
            found.add(name)
            waiting += stands_on[name]
    return [line for line in lines if line.split(":")[0].split()[0] in found]


def copied(folder, texts, names):
    """A copy of the crates in the folder, with the program beside them. What was kept of proofs comes along."""
    lines = crates_below(names)
    for crate in (line.split(":")[0].split()[0] for line in lines):
        for part in ("src", "specs", "proofs", "out"):
            source, copy = TOP / "crates" / crate / part, folder / "crates" / crate / part
            if source.exists() and not copy.exists():
                shutil.copytree(source, copy)
    crate = folder / "crates" / texts.name
    for text in texts.rglob("*.txt"):
        place = crate / text.relative_to(texts).with_suffix("")
        place.parent.mkdir(parents=True, exist_ok=True)
        shutil.copy(text, place)
    shutil.copy(TOP / "HANDLES", folder)
    (folder / "crates.txt").write_text("\n".join([*lines, f"{texts.name}: {' '.join(names)}"]) + "\n")
    (folder / ".git").mkdir(exist_ok=True)
    return crate


def built(folder, texts, names):
    """The program whose texts stand in that folder, over the crates of these names, once it is proved. Without words it
    only ends."""
    crate = copied(folder, texts, names)
    made = subprocess.run(["rt", "run"], cwd=crate, text=True, capture_output=True, stdin=subprocess.DEVNULL)
    program = crate / "out" / texts.name
    if not program.exists():
        sys.exit(f"{texts.name} is not built:\n{made.stdout}{made.stderr}")
    return program
