"""The system's calls of a command, each of which fails once (strace, `-e inject`)."""
import re
from collections import namedtuple

import commands

TRACED = ("openat", "open", "read", "write", "fsync", "rename", "renameat", "statx", "newfstatat", "fchmod", "unlink",
          "close")
ERRORS = ("EIO", "ENOSPC", "EINTR")
LINE = re.compile(r"^(?:\[pid +\d+\] )?(?:\d+ +)?(\w+)\((.*)")

# Of the calls of one name this is the Nth; what it is done to is the name of a file, or the number of a stream.
Call = namedtuple("Call", "name number target")


def _targets(text, names):
    """The calls of a log, in their order, each with what it is done to."""
    open_files, counts = {}, {}
    for line in text.splitlines():
        match = LINE.match(line)
        if not match or match[1] not in TRACED:
            continue
        name, rest = match.groups()
        counts[name] = counts.get(name, 0) + 1
        quoted = re.search(r'"((?:[^"\\]|\\.)*)"', rest)
        number = re.match(r"(\d+)", rest)
        result = re.search(r"= (\d+)\s*(?:<.*>)?$", line)
        if name in ("openat", "open") and quoted:
            target = quoted[1]
            if result:
                open_files[int(result[1])] = target
        elif name in ("rename", "renameat", "unlink", "statx", "newfstatat") and quoted and quoted[1]:
            target = quoted[1]
        else:
            target = open_files.get(int(number[1]), f"stream {number[1]}") if number else ""
        if name == "close" and number:
            open_files.pop(int(number[1]), None)
        yield Call(name, counts[name], target)


def calls(program, command, folder, log):
    """The calls that a command makes to its own files and streams."""
    before = ["strace", "-f", "-q", "-s", "4200", "-e", f"trace={','.join(TRACED)}", "-o", str(log)]
    commands.run(program, command, folder, before)
    named = set(command.files) | {commands.STORED}
    for call in _targets(log.read_text(errors="replace"), named):
        if call.target in named or call.target.startswith((".hpc-store-", "stream ")):
            yield call


def phase(call, command):
    """Which part of the work a call belongs to: what the device is then said to have failed at."""
    if call.target in ("stream 1", "stream 2"):
        return "print" if call.target == "stream 1" else "line"
    is_stored = call.target == commands.STORED or call.target.startswith(".hpc-store-")
    return "store" if is_stored and commands.STORED in command.words else "read"


def allowed(call, error, command, ample):
    """The answers that may come where this call fails so: as if it was tried again, and the device's failure."""
    place = phase(call, command)
    if place == "line":
        return [ample]
    fails = commands.Found(4, b"", f"hpc: device {place}\n".encode(), command.files)
    if place == "print":
        fails = fails._replace(files=ample.files)
    is_tried_again = error == "EINTR" and call.name in ("read", "write")
    # What a file is like, and that it was closed, need not be known for a store.
    is_needless = call.name in ("close", "statx", "newfstatat", "fchmod", "unlink")
    if is_tried_again:
        return [ample]
    return [ample, fails] if is_needless or error == "EINTR" else [fails]


def complaints(program, command, folder, log):
    """Each call with each error, whose answer is none that may come; and how many there were."""
    ample = commands.run(program, command, folder)
    count = 0
    for call in list(calls(program, command, folder, log)):
        for error in ERRORS:
            count += 1
            inject = f"inject={call.name}:error={error}:when={call.number}"
            before = ["strace", "-f", "-qq", "-e", f"trace={call.name}", "-e", inject, "-o", str(log)]
            found = commands.run(program, command, folder, before)
            may = allowed(call, error, command, ample)
            # A failed put may have put a front of the text, or of the line.
            if call.target == "stream 1" and found.status and ample.output.startswith(found.output):
                found = found._replace(output=b"")
            if call.target == "stream 2" and ample.error.startswith(found.error):
                found = found._replace(error=ample.error)
            if found not in may:
                said = f"{found.status} {found.error!r}, files {sorted(found.files)}"
                yield f"{command.name}: {call.name} {call.number} of {call.target} with {error}: {said}"
    yield count
