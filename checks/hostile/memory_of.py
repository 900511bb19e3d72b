"""Memory that is refused to a command: each allocation once, and addresses beyond a limit of the system (ulimit -v)."""
import ctypes
import os
import re
import resource
import shutil
import signal
import subprocess

import commands

MEMORY = 5, b"", b"hpc: memory\n"
STEPS = 200
# Addresses that suffice for any of the commands here.
AMPLE = 4 << 30
PAGE = 4096
SEGMENT_FAULT = re.compile(r"SIGSEGV \{.*si_addr=(0x[0-9a-f]+)")
# Where addresses aren't left to chance (personality(2)), the stack of the first thread is above this (x86-64).
ADDR_NO_RANDOMIZE, LEAST_OF_STACK = 0x0040000, 0x7FFF_F800_0000


def is_one(found, command, ample):
    """Out of memory with nothing changed, or where the file is stored already; or the answer with ample memory."""
    if found == ample:
        return True
    return found[:3] == MEMORY and found.files in (command.files, ample.files)


def refused_in_turn(program, command, folder, library, most):
    """Each allocation is refused once, or so many that are spread over them: what answers otherwise, and the counts."""
    ample = commands.run(program, command, folder)

    def with_refused(number):
        places = os.environ | {"LD_PRELOAD": str(library), "REFUSED": str(number)}
        found = commands.run(program, command, folder, env=places)
        was_refused = b"refused\n" in found.error
        return found._replace(error=found.error.replace(b"refused\n", b"", 1)), was_refused

    count = allocations(with_refused)
    step = max(count // most, 1)
    memory = others = 0
    for number in range(1, count + 1, step):
        found, _ = with_refused(number)
        memory, others = memory + (found[:3] == MEMORY), others + (found == ample)
        if not is_one(found, command, ample):
            said = f"{found.status} {found.error!r}, files {sorted(found.files)}"
            yield f"{command.name}: allocation {number} refused: {said}"
    yield count, memory, others


def allocations(with_refused):
    """How many allocations there are: the greatest number that is refused, by halves."""
    low, high = 0, 1
    while with_refused(high)[1]:
        low, high = high, 2 * high
    while high - low > 1:
        middle = (low + high) // 2
        low, high = (middle, high) if with_refused(middle)[1] else (low, middle)
    return low


def same_places():
    """Has the system put the stack of the program to be started at a place that isn't left to chance."""
    ctypes.CDLL(None).personality(ADDR_NO_RANDOMIZE)


def limited(addresses):
    def before():
        same_places()
        resource.setrlimit(resource.RLIMIT_AS, (addresses, addresses))

    return before


def under_limit(program, command, folder, addresses):
    return commands.run(program, command, folder, preexec_fn=limited(addresses))


def least(works):
    """The least number of addresses, in steps of 64 KiB, with which something works."""
    low, high = 0, AMPLE
    while high - low > 1 << 16:
        middle = (low + high) // 2
        low, high = (low, middle) if works(middle) else (middle, high)
    return high


def starts(program, folder, addresses):
    """The program starts: it puts its usage line."""
    done = subprocess.run([program], cwd=folder, stdin=subprocess.DEVNULL, capture_output=True,
                          preexec_fn=limited(addresses))
    return done.returncode == 2


def is_ended(program, command, folder, addresses, log):
    """Whether the system ends a run under this limit since the first thread's stack may not grow (strace)."""
    if shutil.which("strace") is None:
        return False
    before = ["strace", "-f", "-qq", "-e", "trace=none", "-o", str(log), "prlimit", f"--as={addresses}"]
    commands.run(program, command, folder, before, preexec_fn=same_places)
    match = SEGMENT_FAULT.search(log.read_text(errors="replace"))
    return match is not None and int(match[1], 16) >= LEAST_OF_STACK


def in_steps(program, command, folder, log):
    """Limits from what the program needs to start up to what the command needs, in at most so many steps of whole
    pages. Where the stack of the first thread would have to grow past the limit, the system ends the program: no answer
    can be given, and no file may have changed."""
    ample = commands.run(program, command, folder)
    first = least(lambda addresses: starts(program, folder, addresses))
    last = least(lambda addresses: under_limit(program, command, folder, addresses) == ample)
    every = [first + (last - first) * step // (STEPS - 1) for step in range(STEPS)]
    limits = dict.fromkeys(addresses - addresses % PAGE for addresses in every)
    memory = others = ended = 0
    for addresses in limits:
        found = under_limit(program, command, folder, addresses)
        memory, others = memory + (found[:3] == MEMORY), others + (found == ample)
        if found == commands.Found(-signal.SIGSEGV, b"", b"", command.files):
            if is_ended(program, command, folder, addresses, log):
                ended += 1
                continue
        if not is_one(found, command, ample):
            said = f"{found.status} {found.error[:200]!r}, files {sorted(found.files)}"
            yield f"{command.name}: {addresses >> 10} KiB of addresses: {said}"
    yield len(limits), memory, others, ended
