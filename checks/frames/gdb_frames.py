"""The frames that gdb-multiarch finds in a program under qemu-riscv32, and what the program's file says."""
import collections
import json
import os
import pathlib
import re
import subprocess
import time

BACKTRACES = pathlib.Path(__file__).resolve().parent / "backtraces.py"

# The hart begins as one of so many, with the input at descriptor 0.
Run = collections.namedtuple("Run", "name program input hart harts")


def frames_found(folder, run, ordinals):
    """gdb's frames before each of the instructions with these ordinals, or before every one up to the hart's exit
    where ordinals is None: innermost first, callers at their calls, 4 below gdb's return addresses. And a0 after
    the last."""
    socket, order, answer = folder / "socket", folder / "order", folder / "answer"
    for old in (socket, answer):
        old.unlink(missing_ok=True)
    order.write_text(
        json.dumps(
            {
                "program": str(run.program),
                "socket": str(socket),
                "hart": run.hart,
                "harts": run.harts,
                "ordinals": ordinals,
                "exit": exit_of(run.program),
            }
        )
    )
    with open(run.input, "rb") as stdin:
        qemu = subprocess.Popen(
            ["qemu-riscv32", "-g", socket, run.program], stdin=stdin, stdout=subprocess.DEVNULL
        )
    try:
        while not socket.exists() and qemu.poll() is None:
            time.sleep(0.01)
        subprocess.run(
            ["gdb-multiarch", "-nx", "-batch", "-x", BACKTRACES],
            env={**os.environ, "ORDER": str(order), "ANSWER": str(answer)},
            stdin=subprocess.DEVNULL,
            stdout=subprocess.DEVNULL,
            check=True,
        )
    finally:
        qemu.kill()
        qemu.wait()
    found = json.loads(answer.read_text())
    return [[pcs[0], *(pc - 4 for pc in pcs[1:])] for pcs in found["frames"]], found["a0"]


def functions(program):
    """Name, first address and size of each function symbol, in the table's order."""
    words = ["riscv64-unknown-elf-readelf", "--symbols", "--wide", program]
    text = subprocess.run(words, capture_output=True, check=True).stdout.decode()
    rows = re.findall(r"^ +\d+: ([0-9a-f]{8}) +(\d+) FUNC .* (\S+)$", text, re.M)
    return [(name, int(start, 16), int(size)) for start, size, name in rows]


def exit_of(program):
    """The address of the last instruction of the start file, which ends the hart."""
    return next(start + size - 4 for name, start, size in functions(program) if name == "_start")


def described(program):
    """The addresses that a frame description holds."""
    words = ["riscv64-unknown-elf-readelf", "--debug-dump=frames", program]
    text = subprocess.run(words, capture_output=True, check=True).stdout.decode()
    ranges = re.findall(r" pc=([0-9a-f]{8})\.\.([0-9a-f]{8})$", text, re.M)
    return {pc for low, high in ranges for pc in range(int(low, 16), int(high, 16))}
