"""The second readings that checks/fuzz compares with: bench/baseline of the commands that it has, by its server, and
plain Python of databases."""
import importlib.machinery
import importlib.util
import os
import pathlib
import re
import shutil
import subprocess

from answers import Answer

TOP = pathlib.Path(__file__).resolve().parents[2]
SOURCE = TOP / "bench" / "baseline" / "serve.rs"
# What `view` and `stats` are asked for, and the commands that the baseline answers.
TABLES = {"view": ("top", "callers", "flat"), "stats": ("exclusive", "frame", "inclusive")}
EVENTS = ("retired", "loads", "stores", "taken")
READ_BY_BASELINE = ("profile", "run", "prof", "struct", "merge", "live", "trace", "timeline")
LINES = re.compile(
    rb"usage: hpc [^\n]*|hpc: (?:program (?:NotElf|NotRiscv32Exec|CompressedCode|HeaderPlace|SegmentPlace|SectionPlace|"
    rb"CompressedSection|SymbolPlace) at \d+|schedule line \d+|(?:eh )?frames at \d+|lines at \d+|"
    rb"entries (?:BadUnit|SplitUnit|BadAbbrev|UnknownForm) at \d+|structure (?:TooDeep|LinkCycle) at \d+|"
    rb"more than \d+ (?:samples|frames|scopes)|measurement (?:\d+ )?at \d+|trace at \d+|"
    rb"measurement of another program: .*|"
    rb"measurement \d+ of (?:another program|other periods)|database rule [1-7] at \d+|no event \w+|"
    rb"\w+ longer than \d+ bytes|device (?:read|store|print))")


def script(name):
    """A script of checks/files as a module."""
    path = TOP / "checks" / "files" / name
    loader = importlib.machinery.SourceFileLoader(name, str(path))
    module = importlib.util.module_from_spec(importlib.util.spec_from_loader(name, loader))
    loader.exec_module(module)
    return module


def built(folder):
    """The server of the baseline with the program's commands, or None where there is no rustc."""
    if not shutil.which("rustc"):
        return None
    program = pathlib.Path(folder) / "reading"
    subprocess.run(["rustc", "--edition", "2024", "-O", "-o", program, SOURCE], check=True)
    return str(program)


class Readings:
    """The usage line is the program's own, of no words."""

    def __init__(self, baseline, usage):
        self.baseline, self.usage, self.views = baseline, usage, script("views")

    def of_tables(self, words, files):
        """What `view` or `stats` answers."""
        is_form = 3 <= len(words) <= 4 and words[1] and words[2] in TABLES[words[0]]
        if not is_form or len(words) == 4 and words[3] not in EVENTS:
            return Answer(2, b"", self.usage, files)
        name = os.path.normpath(words[1])
        if name not in files:
            return Answer(4, b"", b"hpc: device read\n", files)
        status, text, line = self.views.expected(files[name], words[2], words[3] if len(words) == 4 else None)
        return Answer(status, text.encode(errors="surrogateescape"), line.encode(), files)

    def expected(self, runner, case):
        """The answer that must come, or None where only its form is known."""
        command = case.words[0] if case.words else ""
        if command in TABLES:
            return self.of_tables(case.words, case.files)
        if command == "drill" and len(case.words) == 3:
            return None
        if command not in READ_BY_BASELINE:
            return Answer(2, b"", self.usage, case.files)
        if self.baseline is None:
            return None
        return runner.ask(self.baseline, case.words, case.files)


def is_allowed(answer, case, stored):
    """Whether an answer has a form that is allowed: no output and no change after a refusal, and its line."""
    if answer.status == 0:
        others = {name: content for name, content in answer.files.items() if name != stored}
        return answer.error == b"" and others == {name: case.files[name] for name in case.files if name != stored}
    line = answer.error.removesuffix(b"\n")
    is_line = answer.error.endswith(b"\n") and LINES.fullmatch(line) is not None
    return answer.status in (2, 3, 4) and is_line and answer.output == b"" and answer.files == case.files
