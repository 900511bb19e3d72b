"""Runs within gdb: writes the frames that gdb finds at chosen instructions of a program under qemu.

The environment variable ORDER names a JSON file: the program, the socket at which qemu waits, the hart's
number and the number of harts, the address of the hart's exit, and the ordinals of the instructions, ascending,
or null for all up to the exit. What is found goes to the file ANSWER: the pcs of the frames before each of these
instructions, innermost first, and at the end the value of a0, which is the hart's status at its exit.
"""
import json
import os

import gdb

SETTINGS = [
    "pagination off",
    "confirm off",
    "debuginfod enabled off",
    "architecture riscv:rv32",
    # The frames outside of main and of the entry procedure count: the frame rules alone end a path.
    "backtrace past-main on",
    "backtrace past-entry on",
]
CLEARED = ["ra", "gp", "tp", "fp"] + [
    f"{kind}{number}" for kind, count in (("t", 7), ("s", 12), ("a", 8)) for number in range(count)
]


def frames():
    """The pcs of the present frames, innermost first. A caller's pc is the return address. An inlined procedure shares
    the frame of what it is inlined into."""
    found = []
    frame = gdb.newest_frame()
    while frame is not None:
        if frame.type() != gdb.INLINE_FRAME:
            found.append(frame.pc())
        try:
            frame = frame.older()
        except gdb.error:
            break
    return found


def start(order):
    """Begins as a hart of the profiler's machine does, but for the stack's place."""
    for setting in SETTINGS:
        gdb.execute(f"set {setting}", to_string=True)
    gdb.execute(f"file {order['program']}", to_string=True)
    gdb.execute(f"target remote {order['socket']}", to_string=True)
    for register in CLEARED:
        gdb.execute(f"set ${register} = 0")
    gdb.execute(f"set $a0 = {order['hart']}")
    gdb.execute(f"set $a1 = {order['harts']}")


def at(ordinals):
    """The frames before each of these instructions."""
    here = 1
    for ordinal in ordinals:
        if ordinal > here:
            gdb.execute(f"stepi {ordinal - here}", to_string=True)
            here = ordinal
        yield frames()


def until(last):
    """The frames before each instruction up to the one at an address."""
    while gdb.newest_frame().pc() != last:
        yield frames()
        gdb.execute("stepi", to_string=True)


def main():
    with open(os.environ["ORDER"]) as file:
        order = json.load(file)
    start(order)
    if order["ordinals"] is None:
        found = list(until(order["exit"]))
    else:
        found = list(at(order["ordinals"]))
    with open(os.environ["ANSWER"], "w") as file:
        json.dump({"frames": found, "a0": int(gdb.parse_and_eval("$a0")) & 0xFFFFFFFF}, file)
    gdb.execute("disconnect", to_string=True)


main()
