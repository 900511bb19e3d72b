"""Each command on small files of a folder, with the answer that it gives with ample memory and sound devices."""
import pathlib
import subprocess
from collections import namedtuple

from row_files import ROW_FILES

TOP = pathlib.Path(__file__).resolve().parents[2]
CALLS = TOP / "examples" / "calls"
STORED = "stored"
KEPT = b"kept before"
SECONDS = 120

# What is stored is told by its name. Files are those before the command.
Command = namedtuple("Command", "name words files")
Found = namedtuple("Found", "status output error files")


def _kept(program, folder, words, files):
    """The file that a command stores."""
    write(folder, files)
    subprocess.run([program, *words], cwd=folder, stdin=subprocess.DEVNULL, capture_output=True, check=True)
    return (folder / STORED).read_bytes()


def write(folder, files):
    """Makes these files the only ones of a folder."""
    for entry in folder.iterdir():
        entry.unlink()
    for name, content in files.items():
        (folder / name).write_bytes(content)


def found(folder, done):
    """A run's answer, and the files that are there."""
    files = {entry.name: entry.read_bytes() for entry in folder.iterdir()}
    return Found(done.returncode, done.stdout, done.stderr, files)


def run(program, command, folder, before=(), **how):
    """The answer of a command in a folder; `before` are words before the program's, as of strace."""
    write(folder, command.files)
    words = [*before, program, *command.words]
    done = subprocess.run(words, cwd=folder, stdin=subprocess.DEVNULL, capture_output=True, timeout=SECONDS, **how)
    return found(folder, done)


def made(program, folder, events="retired:3,loads:2"):
    """All commands, on the program with inlined calls and on examples/calls."""
    inlined = {"program": ROW_FILES["inlined"], "input": b"", "schedule": b"harts 2\n0 500\n1 500\n"}
    real = {name: (CALLS / name).read_bytes() for name in ("program", "input", "schedule")}
    names = ["program", "input", "schedule"]
    for title, files, period in (("inlined", inlined, "1"), ("calls", real, "5003")):
        measurement = _kept(program, folder, ["run", *names, period, STORED], files)
        trace = _kept(program, folder, ["trace", *names, period, STORED], files)
        database = _kept(program, folder, ["profile", *names, events, "2", STORED], files)
        elf, kept = {"program": files["program"]}, {STORED: KEPT}
        measured = elf | {"measurement": measurement}
        yield Command(f"profile {title}", ["profile", *names, period, "2", STORED], files | kept)
        yield Command(f"profile {title}, two events", ["profile", *names, events, "2", STORED], files)
        yield Command(f"live {title}", ["live", *names, events, "2", "1024", STORED], files | kept)
        yield Command(f"run {title}", ["run", *names, period, STORED], files | kept)
        yield Command(f"prof {title}", ["prof", "program", "measurement", "2", STORED], measured | kept)
        yield Command(f"merge {title}", ["merge", "program", "2", STORED, "measurement", "measurement"], measured)
        yield Command(f"trace {title}", ["trace", *names, period, STORED], files | kept)
        yield Command(f"timeline {title}", ["timeline", "program", "trace", "2", "40"], elf | {"trace": trace})
        yield Command(f"struct {title}", ["struct", "program"], elf)
        for table in ("top", "callers", "flat"):
            yield Command(f"view {table} {title}", ["view", "database", table, "loads"], {"database": database})
        yield Command(f"stats {title}", ["stats", "database", "frame"], {"database": database})
    yield Command("drill", ["drill", "7", "2"], {})
