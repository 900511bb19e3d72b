"""What llvm-symbolizer and addr2line say of addresses: for each the frames, innermost first, each the procedure's name,
the file and the line; None and 0 where the tool knows none."""
import json
import re
import subprocess
from collections import namedtuple

Frame = namedtuple("Frame", "name file line")

LLVM, ADDR2LINE = "llvm-symbolizer", "addr2line"


def _answers(words, addresses):
    asked = "".join(f"0x{address:x}\n" for address in addresses)
    done = subprocess.run(words, input=asked.encode(), capture_output=True, check=True)
    return done.stdout.decode("latin-1")


def _frame(name, file, line):
    """`??` and an empty text are no answer."""
    return Frame(name if name not in ("", "??") else None, file if file not in ("", "??") else None, line)


def llvm(program, addresses, names="short"):
    """By DW_AT_name where names is `short`, else by symbols."""
    words = ["llvm-symbolizer", f"--obj={program}", "--output-style=JSON", "--inlines", "--no-demangle"]
    text = _answers([*words, f"--functions={names}"], addresses)
    found = {}
    for line in text.splitlines():
        answer = json.loads(line)
        frames = [_frame(s["FunctionName"], s["FileName"], s["Line"]) for s in answer["Symbol"]]
        found[int(answer["Address"], 16)] = frames
    return found


def addr2line(program, addresses):
    """By linkage names, without demangling."""
    text = _answers(["riscv64-unknown-elf-addr2line", "-a", "-i", "-f", "-e", program], addresses)
    found, frames, name = {}, None, None
    for line in text.splitlines():
        if re.fullmatch("0x[0-9a-f]{8}", line) and name is None:
            frames = found.setdefault(int(line, 16), [])
        elif name is None:
            name = line
        else:
            place = re.sub(r" \(discriminator \d+\)$", "", line)
            file, number = place.rsplit(":", 1)
            frames.append(_frame(name, file, 0 if number == "?" else int(number)))
            name = None
    return found
