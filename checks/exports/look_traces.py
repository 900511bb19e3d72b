"""Traces as Perfetto's and speedscope's files, beside plain slices of the same samples; what is refused of traces and
of listings; and the listings of the examples beside the scopes by their definitions."""
import importlib.machinery
import importlib.util
import json
import subprocess
import sys

import databases
from exporter import TOP, complain, export, exported, printed, same
from look_formats import IMPORT, SCHEMA, breaks, replayed
from profiles import PROGRAMS
from traced import Traced

PERFETTO = json.loads((TOP / "checks" / "exports" / "perfetto.schema.json").read_text())
# Paths of 512 frames are the longest that a trace has.
PROFILES = {**databases.PROFILES, "deep": (databases.deep(512), 11, 2), **PROGRAMS}


def look_at_traces(window, folder):
    for name, (profile, period, harts) in PROFILES.items():
        traced = Traced(profile, period, harts, rest=len(name))
        trace, listing = write_files(folder, name, traced)
        look_at_perfetto(name, traced, exported(trace, "perfetto", "--struct", listing), [*range(harts)], trace.name)
        look_at_evented(window, name, traced, exported(trace, "speedscope", "--struct", listing))
        last = exported(trace, "perfetto", "--struct", listing, "--hart", str(harts - 1), "--title", "one hart")
        look_at_perfetto(f"{name}, the last hart", traced, last, [harts - 1], "one hart")
    look_at_refused(folder)
    look_at_readings()
    look_at_listings()


def write_files(folder, name, traced):
    trace, listing = folder / f"{name}.trace", folder / f"{name}.struct"
    trace.write_bytes(traced.trace)
    listing.write_bytes(traced.listing)
    return trace, listing


# ---- Perfetto


def look_at_perfetto(name, traced, text, harts, title):
    file = json.loads(text)
    same(f"{name}: the Trace Event format", breaks(PERFETTO["file"], file), None)
    metadata, opened, slices, last, begun = {}, {}, {}, {}, 0
    for event in file["traceEvents"]:
        phase, hart = event["ph"], event["tid"] - 1
        kind = event["name"] if phase == "M" else phase
        if kind not in PERFETTO["events"] or breaks(PERFETTO["events"][kind], event):
            complain(f"{name}: {event} breaks the Trace Event format")
        if phase == "M":
            metadata.setdefault(kind, []).append(next(iter(event["args"].values())))
            continue
        stack, since = opened.setdefault(hart, []), last.get(hart, 0)
        if event["ts"] < since:
            complain(f"{name}: hart {hart} goes back to {event['ts']}")
        if stack and event["ts"] > since:
            slices.setdefault(hart, []).append((since, event["ts"], tuple(stack)))
        last[hart] = event["ts"]
        begun += phase == "B"
        if phase == "B":
            stack.append(event["name"])
        else:
            stack.pop()
    same(f"{name}: what stays open", [stack for stack in opened.values() if stack], [])
    same(f"{name}: tracks", metadata, {"process_name": [title], "thread_name": [f"hart {hart}" for hart in harts],
                                      "thread_sort_index": harts})
    for hart in harts:
        same(f"{name}: slices of hart {hart}", slices.get(hart, []), named(traced.slices(hart)))
    same(f"{name}: how many slices begin", begun, sum(beginnings(traced.slices(hart)) for hart in harts))


def named(slices):
    return [(start, end, tuple(name for name, _ in frames)) for start, end, frames in slices]


def beginnings(slices):
    """How many frames begin, where each that is there before stays open."""
    count, before = 0, ()
    for _, _, frames in slices:
        alike = 0
        while alike < min(len(before), len(frames)) and before[alike] == frames[alike]:
            alike += 1
        count, before = count + len(frames) - alike, frames
    return count


# ---- speedscope


def look_at_evented(window, name, traced, text):
    file = json.loads(text)
    same(f"{name}: speedscope's schema of a trace", breaks(SCHEMA, file), None)
    frames, costs = file["shared"]["frames"], []
    for hart, profile in enumerate(file["profiles"]):
        begins, ends = (profile["startValue"], profile["endValue"]), (0, traced.retired[hart])
        same(f"{name}: hart {hart} begins and ends", begins, ends)
        # Before the first sample nothing is known of a hart.
        first = traced.period - 1 if profile["events"] else 0
        replay = {**profile, "startValue": first, "endValue": ends[1] if profile["events"] else first}
        costs.append(replayed(f"{name}: a trace in speedscope, hart {hart}", frames, replay))
        wanted = {}
        for start, end, names in named(traced.slices(hart)):
            wanted[";".join(names)] = wanted.get(";".join(names), 0) + end - start
        same(f"{name}: times of hart {hart} in speedscope", costs[-1], wanted)
        opens = sum(event["type"] == "O" for event in profile["events"])
        same(f"{name}: frames that open in hart {hart}", opens, beginnings(traced.slices(hart)))
    if window:
        same(f"{name}: a trace in speedscope's way, in a browser", window.run(IMPORT % text.decode()), costs)


# ---- what is refused


def look_at_refused(folder):
    profile, period, harts = PROGRAMS["barrier"]
    trace, listing = write_files(folder, "refused", Traced(profile, period, harts))
    database, other, missing = folder / "refused.db", folder / "other.struct", folder / "missing"
    database.write_bytes(databases.database(profile, period, harts))
    other.write_bytes(b"proc main 0x00000000..0xffffffff\n")
    page = folder / "refused.html"

    def refused(status, line, first, *words):
        found = export(first, *words, "-o", page)
        same(f"refused: {first.name} {' '.join(map(str, words))}", found, (status, b"", f"hpc-export: {line}\n"))

    wants = "perfetto of a trace wants --struct LISTING, what `hpc struct ELF` put"
    refused(2, wants, trace, "perfetto")
    refused(2, f"{database}: perfetto wants a trace", database, "perfetto", "--struct", listing)
    refused(2, "speedscope of a database has no --struct", database, "speedscope", "--struct", listing)
    refused(2, "folded has no --struct", database, "folded", "--struct", listing)
    refused(2, "folded has no --trace", database, "folded", "--trace", trace)
    for words in (("--trace", trace), ("--struct", listing)):
        refused(2, "html takes --trace and --struct together", database, "html", *words)
    refused(2, "--base has no --trace", database, "html", "--base", database, "--trace", trace, "--struct", listing)
    for kind in ("html", "folded", "callgrind", "csv", "json"):
        refused(2, f"{trace}: a trace has no {kind}, but perfetto and speedscope", trace, kind)
    for option in (("--run", "0"), ("--event", "retired"), ("--elf", "program"), ("--places",), ("--min-percent", "1")):
        refused(2, f"{trace}: a trace has no {option[0]}", trace, "speedscope", "--struct", listing, *option)
    refused(2, f"{trace}: harts are 0 to 3", trace, "perfetto", "--struct", listing, "--hart", "4")
    refused(4, f"{missing}: No such file or directory", trace, "perfetto", "--struct", missing)
    refused(4, f"{missing}: No such file or directory", database, "html", "--trace", missing, "--struct", listing)
    look_at_others(folder, refused, database, trace, listing)
    same("nothing is written where a trace is refused", page.exists(), False)


def look_at_others(folder, refused, database, trace, listing):
    """Files that are malformed, or of another run or program."""
    profile, period, harts = PROGRAMS["barrier"]
    cut, other = folder / "cut.trace", folder / "other.struct"
    cut.write_bytes(trace.read_bytes()[:-1])
    refused(3, f"{cut}: trace at {len(trace.read_bytes()) - 4}", cut, "perfetto", "--struct", listing)
    with_trace = "html", "--struct", listing, "--trace"
    refused(3, f"{cut}: trace at {len(trace.read_bytes()) - 4}", database, *with_trace, cut)
    refused(3, f"{database}: trace at 0", database, *with_trace, database)
    one = b"proc f 0x00000000..0x00000004"
    for data, line in ((b"proc main\n", 1), (one + b"\n x\n", 2), (one, 1), (one + b",\n", 1), (b"\n", 1),
                       (b"  inline f called at g:1 0x00000000..0x00000004\n", 1), (b"proc f 0x0..0x4\n", 1)):
        other.write_bytes(data)
        refused(3, f"{other}: line {line} is none of a structure listing", trace, "perfetto", "--struct", other)
    other.write_bytes(b"proc main 0x00000000..0xffffffff\n")
    lacks = f"{other}: a listing by which the trace has call paths that the database lacks"
    refused(3, lacks, database, "html", "--trace", trace, "--struct", other)
    runs = {
        "another period": databases.database(profile, period + 1, harts),
        "another hart": databases.database(profile, period, harts + 1),
        "a sample more": databases.database([*profile, (0, 1, profile[0][2])], period, harts),
        "stores alone": databases.events_database(profile, [(2, period)], harts),
        "two runs": databases.runs_database(profile, [(0, period)], [2, 2]),
    }
    for name, data in runs.items():
        path = folder / f"{name}.db"
        path.write_bytes(data)
        refused(3, f"{trace}: the trace of another database", path, *with_trace, trace)


def plain_traces():
    """The plain reading of traces, which is a command of its own."""
    path = str(TOP / "checks" / "files" / "traces")
    loader = importlib.machinery.SourceFileLoader("plain_traces", path)
    found = importlib.util.module_from_spec(importlib.util.spec_from_loader("plain_traces", loader))
    loader.exec_module(found)
    return found


def look_at_readings():
    """Each byte of whole traces changed, each front of them, and the limits: read or refused as the plain reading
    says."""
    sys.path.insert(0, str(TOP / "tools"))
    from hpc_export import trace

    plain = plain_traces()
    head = len(plain.STRAIGHT), 0x10000
    every = [*plain.limits(head)]
    for name, whole in (("one hart", plain.STRAIGHT), ("two harts", plain.TWO_HARTS),
                        ("calls", plain.written(*head, 7, plain.HARTS))):
        every += plain.changed(name, whole)
    read = 0
    for name, data in every:
        try:
            length, entry, period, harts = plain.read(data)
            wanted = length, entry, period, [(retired, [*map(tuple, samples)]) for retired, samples in harts]
        except plain.Fault as fault:
            wanted = fault.offset
        try:
            got = trace.read(data)
            found = got.length, got.entry, got.period, [
                (hart.retired, [(hart.paths[place][0], tuple(hart.paths[place][1])) for place in hart.places])
                for hart in got.harts]
            read += 1
        except trace.Malformed as error:
            found = error.offset
        if found != wanted:
            complain(f"{name}: hpc-export reads {str(found)[:200]}, not {str(wanted)[:200]}")
    if not 0 < read < len(every):
        complain(f"{read} of {len(every)} traces are read")


# ---- listings

LISTING = b"""\
proc operator new 0x00000010..0x00000020,0x00000040..0x00000050
  inline each called at 2 called at a b.c:7 0x00000010..0x00000018
    inline inner called at a b.c:9 0x00000014..0x00000018
  inline each called at a b.c:8 0x00000018..0x0000001c
    inline not it called at a b.c:9 0x00000010..0x00000014
proc second 0x0000001c..0x00000044
symbol far 0x00000060..0x00000070
symbol same 0x00000060..0x00000080
symbol near 0x00000070..0x00000074
"""
LISTED = {
    0x0C: ("<unknown procedure>",), 0x10: ("operator new", "each called at 2"),
    0x14: ("operator new", "each called at 2", "inner"), 0x18: ("operator new", "each"), 0x1C: ("operator new",),
    0x20: ("second",), 0x3C: ("second",), 0x40: ("operator new",), 0x4C: ("operator new",),
    0x50: ("<unknown procedure>",), 0x60: ("far",), 0x70: ("far",), 0x7C: ("far",), 0x80: ("<unknown procedure>",),
}


def look_at_listings():
    sys.path.insert(0, str(TOP / "tools"))
    from hpc_export.listing import Listing

    listing = Listing(LISTING)
    for address, wanted in LISTED.items():
        name, _, inlined = listing.at(address)
        same(f"the listing at {address:#x}", (name, *inlined), wanted)


def look_at_example_listings(program):
    """The listing of `hpc struct` says of each address of an example what the definitions do."""
    sys.path.insert(0, str(TOP / "tools"))
    from elf_file import Elf
    from hpc_export.listing import Listing
    from scopes_model import Model

    for example in ("straight", "primes", "calls", "histogram"):
        path = TOP / "examples" / example / "program"
        elf = Elf(path.read_bytes())
        listing = Listing(subprocess.run([program, "struct", path], capture_output=True).stdout)
        model = Model(elf, elf.text())
        for address in elf.text():
            found, (name, _, inlined) = model.found_at(address), listing.at(address)
            wanted = [found.procedure, *(procedure for procedure, _ in found.inlines)]
            names = [printed(model.names(procedure)[0].decode("utf-8", "replace")) for procedure in wanted]
            if [name, *inlined] != names:
                complain(f"{example}: the listing has {[name, *inlined]} at {address:#x}, not {names}")
