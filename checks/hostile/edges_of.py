"""Stores that are killed, files that are none, and reads and writes that move few bytes."""
import os
import random
import signal
import subprocess
import threading
import time

import commands
from made_code import i_type
from row_files import BASE, READ_EXECUTE, program as program_file, words

# Statements of a program whose database has some 60 MB: each instruction is one.
WIDE = 520_000


# ---- kills

def wide_store(folder):
    """A command whose database is large, on files of the folder."""
    code = words(i_type(0x13, 0, 10, 10, 1)) * WIDE
    elf = program_file([(BASE, code, len(code), READ_EXECUTE)])
    files = {"program": elf, "input": b"", "schedule": b"harts 1\n0 %d\n" % WIDE}
    words_of = ["profile", "program", "input", "schedule", "1", "2", commands.STORED]
    return commands.Command("profile wide", words_of, files)


def killed(program, command, folder, count, seed=1):
    """Kills a store at moments that are spread over its time: the old file stands whole, or the new one."""
    commands.write(folder, command.files)
    start, quiet = time.monotonic(), {"stdin": subprocess.DEVNULL, "stdout": subprocess.DEVNULL}
    subprocess.run([program, *command.words], cwd=folder, check=True, **quiet)
    span, whole = time.monotonic() - start, (folder / commands.STORED).read_bytes()
    draw, kept, new, strays = random.Random(seed), 0, 0, 0
    for number in range(count):
        (folder / commands.STORED).write_bytes(commands.KEPT)
        process = subprocess.Popen([program, *command.words], cwd=folder, **quiet)
        time.sleep(span * draw.random() * 1.05)
        process.send_signal(signal.SIGKILL)
        process.wait()
        stands = (folder / commands.STORED).read_bytes()
        kept, new = kept + (stands == commands.KEPT), new + (stands == whole)
        if stands not in (commands.KEPT, whole):
            yield f"{command.name}: kill {number}: the stored file is neither the old one nor the new one"
        for entry in folder.iterdir():
            if entry.name.startswith(".hpc-store-"):
                strays += 1
                entry.unlink()
            elif entry.name not in {*command.files, commands.STORED}:
                yield f"{command.name}: kill {number}: there is {entry.name}"
    yield len(whole), kept, new, strays


# ---- files that are none

def fed(path, content):
    """Writes into a FIFO once, a few bytes at a time, in a thread."""
    def feed():
        try:
            with open(path, "wb", buffering=0) as file:
                for start in range(0, len(content), 1000):
                    file.write(content[start : start + 1000])
        except BrokenPipeError:
            pass

    thread = threading.Thread(target=feed, daemon=True)
    thread.start()
    return thread


def answered(program, words, folder, stdout=subprocess.PIPE):
    done = subprocess.run([program, *words], cwd=folder, stdin=subprocess.DEVNULL, stdout=stdout,
                          stderr=subprocess.PIPE, timeout=commands.SECONDS)
    return done.returncode, done.stdout, done.stderr


def through_fifos(program, command, folder):
    """Each file that a command reads is a FIFO in turn: the answer is the same."""
    ample = commands.run(program, command, folder)
    for name, content in command.files.items():
        if name == commands.STORED or command.words.count(name) != 1:
            continue
        commands.write(folder, command.files)
        (folder / name).unlink()
        os.mkfifo(folder / name)
        thread = fed(folder / name, content)
        answer = answered(program, command.words, folder)
        thread.join(timeout=10)
        (folder / name).unlink()
        if answer != ample[:3]:
            yield f"{command.name}: {name} as a FIFO: {answer[0]} {answer[2]!r}"


def read_instead(program, command, folder):
    """Each file that a command reads is a folder in turn, a name that is too long, one that no file has, a file that
    ends never: what is said, and that no file changes."""
    limits = {"program": 67108864, "input": 1048576, "schedule": 4194304, "measurement": 33554432, "trace": 67108864,
              "database": 2147483648}
    failed = 4, b"", b"hpc: device read\n"
    for name in command.files:
        if name == commands.STORED:
            continue
        too_long = 3, b"", f"hpc: {name} longer than {limits[name]} bytes\n".encode()
        others = {".": failed, "n" * 4096: failed, "n" * 255: failed, "missing": failed, "program/below": failed,
                  "no/folder": failed, "/dev/null/below": failed}
        if limits[name] <= 67108864:
            others["/dev/zero"] = too_long
        for other, wanted in others.items():
            commands.write(folder, command.files)
            words = [other if word == name else word for word in command.words]
            answer = answered(program, words, folder)
            found = {entry.name: entry.read_bytes() for entry in folder.iterdir()}
            if answer != wanted or found != command.files:
                said = f"{answer[0]} {answer[2]!r}, files {sorted(found)}"
                yield f"{command.name}: {other[:20]} in the place of {name}: {said}"


def stored_instead(program, command, folder):
    """What is stored goes to a folder, a name that is too long, a full device: what is said, and no file changes."""
    if commands.STORED not in command.words:
        return
    failed = 4, b"", b"hpc: device store\n"
    for other in (".", "n" * 4096, "n" * 256, "no/folder", "program/below", "/dev/full", "/proc/version"):
        commands.write(folder, command.files)
        words = [other if word == commands.STORED else word for word in command.words]
        answer = answered(program, words, folder)
        found = {entry.name: entry.read_bytes() for entry in folder.iterdir()}
        if answer != failed or found != command.files:
            yield f"{command.name}: stored to {other[:20]}: {answer[0]} {answer[2]!r}, files {sorted(found)}"


def full_output(program, command, folder):
    """An output that is full: the file is stored all the same."""
    ample = commands.run(program, command, folder)
    commands.write(folder, command.files)
    with open("/dev/full", "wb") as full:
        answer = answered(program, command.words, folder, full)
    found = {entry.name: entry.read_bytes() for entry in folder.iterdir()}
    if (answer[0], answer[2]) != (4, b"hpc: device print\n") or found != ample.files:
        yield f"{command.name}: a full output: {answer[0]} {answer[2]!r}, files {sorted(found)}"


def growing(program, command, folder):
    """A file that grows while it is read: it is taken as it was at some time, or is too long, and soon."""
    for name in command.files:
        if name == commands.STORED:
            continue
        commands.write(folder, command.files)
        stopped = threading.Event()

        def grow(path=folder / name):
            with open(path, "ab", buffering=0) as file:
                while not stopped.is_set() and file.tell() < 1 << 28:
                    file.write(b"\n" * 65536)

        thread = threading.Thread(target=grow)
        thread.start()
        answer = answered(program, command.words, folder)
        stopped.set()
        thread.join()
        if answer[0] not in (0, 3):
            yield f"{command.name}: {name} grows: {answer[0]} {answer[2]!r}"


def with_short_counts(program, command, folder, library):
    """Reads and writes that move at most so many bytes: the answer is the same."""
    ample = commands.run(program, command, folder)
    for most in (1, 7, 4095):
        if most == 1 and len(b"".join(ample.files.values())) > 1 << 20:
            continue
        places = os.environ | {"LD_PRELOAD": str(library), "SHORT": str(most)}
        found = commands.run(program, command, folder, env=places)
        if found != ample:
            yield f"{command.name}: reads and writes of {most} bytes: {found.status} {found.error!r}"
