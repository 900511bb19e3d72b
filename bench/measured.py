"""What a run of a program takes: seconds of the processor, memory, and the host's instructions."""
import os
import re
import resource
import subprocess
import sys
from collections import namedtuple

Measured = namedtuple("Measured", "said clock user system mib")


def limited(gib):
    """What keeps a command from more memory than so many GiB."""
    return lambda: resource.setrlimit(resource.RLIMIT_AS, (gib << 30, gib << 30))


def measured(*words, gib=8, keeps_output=True, output=None):
    """What a run printed, its seconds by the clock and of processor time, and its peak MiB by GNU time; None where it
    failed. The output may go to a file."""
    if output:
        with open(output, "wb") as file:
            return _measured(words, gib, file)
    return _measured(words, gib, subprocess.PIPE if keeps_output else subprocess.DEVNULL)


def _measured(words, gib, output):
    timer = ["/usr/bin/time", "-q", "-f", "%e %U %S %M"]
    ran = subprocess.run([*timer, *map(str, words)], text=True, stderr=subprocess.PIPE, preexec_fn=limited(gib),
                         stdout=output)
    said = (ran.stdout or "").strip()
    if ran.returncode:
        print(f"{words[0]} failed with status {ran.returncode}: {(said + ran.stderr).strip()[-300:]}")
        return None
    clock, user, system, kib = ran.stderr.split()[-4:]
    return Measured(said, float(clock), float(user), float(system), int(kib) / 1024)


def instructions(*words):
    """The host's instructions of a run by callgrind, in millions."""
    count = ["valgrind", "--tool=callgrind", "--callgrind-out-file=/dev/null"]
    ran = subprocess.run([*count, *map(str, words)], text=True, stdout=subprocess.DEVNULL, stderr=subprocess.PIPE)
    if ran.returncode:
        sys.exit(f"{words[0]} failed:\n{ran.stderr}")
    return int(re.search(r"Collected : (\d+)", ran.stderr).group(1)) / 1e6


def load():
    """The machine's load, which times say nothing without."""
    return f"load {os.getloadavg()[0]:.0f}"
