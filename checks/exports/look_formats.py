"""Folded stacks, speedscope's files and callgrind's, beside plain counts of the same samples."""
import glob
import html
import json
import re
import shutil
import subprocess
import tempfile
from collections import Counter, defaultdict

import databases
from exporter import TOP, complain, exported, printed, same

SCHEMA = json.loads((TOP / "checks" / "exports" / "speedscope.schema.json").read_text())


# ---- folded stacks


def stack_of(path):
    names = []
    for scope in path:
        if scope[0] == "root":
            names.append(databases.ROOTS[scope[1]])
        elif scope[0] in ("proc", "inline"):
            name = printed(scope[1][2].decode()).replace(";", ":")
            names.append(name + "_[i]" * (scope[0] == "inline"))
    return ";".join(names)


def folded_lines(text):
    return {stack: int(cost) for stack, _, cost in (line.rpartition(" ") for line in text.decode().splitlines())}


def look_at_folded(name, database, profile, period, harts, *words):
    """The stacks of a profile, which is the one that the words choose."""
    wanted = defaultdict(int)
    for _, count, path in profile:
        wanted[stack_of(path)] += count * period
    found = exported(database, "folded", *words)
    same(f"{name}: folded stacks", folded_lines(found), dict(wanted))
    same(f"{name}: a line for each stack", len(found.splitlines()), len(wanted))
    with_places = folded_lines(exported(database, "folded", "--places", *words))
    same(f"{name}: folded stacks with places", sum(with_places.values()), sum(wanted.values()))
    for hart in range(harts):
        found = folded_lines(exported(database, "folded", "--hart", str(hart), *words))
        same(f"{name}: hart {hart}, folded", sum(found.values()), period * sum(c for h, c, _ in profile if h == hart))


# flamegraph.pl by its name, or that of Debian's ruby-stackprof.
FLAMEGRAPHS = "/usr/lib/*/rubygems-integration/*/gems/stackprof-*/vendor/FlameGraph/flamegraph.pl"


def look_at_flamegraph(name, database, profile, period):
    """The boxes of flamegraph.pl's picture, each with its cost."""
    tool = shutil.which("flamegraph.pl") or next(iter(glob.glob(FLAMEGRAPHS)), None)
    if not tool or not shutil.which("perl"):
        return
    done = subprocess.run(["perl", tool], input=exported(database, "folded"), capture_output=True)
    titles = re.findall(r"<title>(.*) \(([\d,]+) samples, [\d.]+%\)", done.stdout.decode())
    found = Counter((html.unescape(title), int(cost.replace(",", ""))) for title, cost in titles)
    boxes = defaultdict(int)
    for _, count, path in profile:
        names = stack_of(path).split(";")
        for length in range(len(names) + 1):
            boxes[tuple(names[:length])] += count * period
    wanted = Counter((re.sub(r"_\[i\]$", "", stack[-1]) if stack else "all", cost) for stack, cost in boxes.items())
    same(f"{name}: flamegraph.pl's boxes", found, wanted)


# ---- speedscope


def breaks(schema, value, where=""):
    """Where a value breaks a schema: the few words of JSON Schema that ours has."""
    types = {"object": dict, "array": list, "string": str, "integer": int}
    if "const" in schema and value != schema["const"] or "enum" in schema and value not in schema["enum"]:
        return where or "/"
    if "type" in schema and (not isinstance(value, types[schema["type"]]) or isinstance(value, bool)):
        return where or "/"
    parts = []
    if isinstance(value, dict):
        known = schema.get("properties", {})
        unknown = set() if schema.get("additionalProperties", True) else set(value) - set(known)
        if set(schema.get("required", [])) - set(value) or unknown:
            return where or "/"
        parts = [(known.get(key, {}), part, f"{where}/{key}") for key, part in value.items()]
    if isinstance(value, list) and "items" in schema:
        parts = [(schema["items"], part, f"{where}/{place}") for place, part in enumerate(value)]
    return next((found for part in parts if (found := breaks(*part))), None)


def replayed(name, frames, profile):
    """The cost of each stack, as speedscope would show it. Frames close in the order of opening, costs don't fall."""
    opened, costs, at = [], defaultdict(int), profile["startValue"]
    for event in profile["events"]:
        if opened:
            costs[";".join(frames[frame]["name"] for frame in opened)] += event["at"] - at
        elif event["at"] != at:
            complain(f"{name}: cost without a frame")
        if event["at"] < at:
            complain(f"{name}: events go back")
        at = event["at"]
        if event["type"] == "O":
            opened.append(event["frame"])
        elif not opened or opened.pop() != event["frame"]:
            complain(f"{name}: a frame closes that isn't the last")
    same(f"{name}: open frames at the end", opened, [])
    same(f"{name}: the end", at, profile["endValue"])
    return {stack: cost for stack, cost in costs.items() if cost}


# speedscope itself isn't at hand: its way through an evented profile, in a browser.
IMPORT = """
const file = %s, profiles = file.profiles.map(profile => {
  const open = [], costs = {};
  let last = profile.startValue;
  for (const {type, frame, at} of profile.events) {
    if (at < last) throw new Error("samples must be provided in increasing order of time");
    const stack = open.map(frame => file.shared.frames[frame].name).join(";");
    if (stack) costs[stack] = (costs[stack] || 0) + at - last;
    last = at;
    if (type === "O") open.push(frame);
    else if (open.pop() !== frame) throw new Error("tried to leave a frame that is not on top");
  }
  if (open.length) throw new Error("frames stay open");
  return Object.fromEntries(Object.entries(costs).filter(([, cost]) => cost));
});
return profiles;
"""


def look_at_speedscope(window, name, database, profile, period, harts, *words):
    """Looks at it, and gives the names of its profiles."""
    written = exported(database, "speedscope", *words).decode()
    text = json.loads(written)
    same(f"{name}: speedscope's schema", breaks(SCHEMA, text), None)
    same(f"{name}: speedscope's profiles", len(text["profiles"]), harts)
    frames = text["shared"]["frames"]
    costs = [replayed(f"{name}: speedscope, hart {hart}", frames, found) for hart, found in enumerate(text["profiles"])]
    for hart, found in enumerate(costs):
        wanted = defaultdict(int)
        for owner, count, path in profile:
            if owner == hart:
                names = ["[I] " + part[:-4] if part.endswith("_[i]") else part for part in stack_of(path).split(";")]
                wanted[";".join(names)] += count * period
        # In folded stacks a name has no `;`.
        plain = {stack.replace("; ", ": "): cost for stack, cost in found.items()}
        same(f"{name}: speedscope's stacks, hart {hart}", plain, dict(wanted))
    if window:
        same(f"{name}: speedscope's profiles in a browser", window.run(IMPORT % written), costs)
    return [profile["name"] for profile in text["profiles"]]


# ---- callgrind


def callgrind_events(text):
    return re.search(r"^events: (.*)$", text.decode(), re.M)[1].split()


def read_callgrind(text, place=0):
    """Each function's own cost, its calls' inclusive cost, the file of each of its costs, and the totals; of the event
    at this place in the list of events."""
    names, own, calls, files, totals = {}, defaultdict(int), defaultdict(int), defaultdict(set), {}
    from_end = place - len(callgrind_events(text))
    function = file = called = None
    for line in text.decode().splitlines():
        name = re.match(r"(fl|fi|fe|fn|cfi|cfn)=\((\d+)\)(?: (.*))?$", line)
        if name:
            kind = "fn" if name[1] in ("fn", "cfn") else "fl"
            if name[3] is not None:
                names[kind, name[2]] = name[3]
            known = names[kind, name[2]]
            if name[1] == "fn":
                function = known
            elif name[1] == "cfn":
                called = known
            elif name[1] != "cfi":
                file = known
        elif re.match(r"(0x|\d)", line):
            cost = int(line.split()[from_end])
            if called is None:
                own[function] += cost
                files[function].add(file)
            else:
                calls[function, called] += cost
            called = None
        elif re.match(r"(summary|totals): ", line):
            totals[line.split(":")[0]] = int(line.split()[from_end])
    return {name: cost for name, cost in own.items() if cost}, dict(calls), files, totals


def look_at_callgrind(name, database, profile, period, *words, place=0):
    frame, calls = defaultdict(int), defaultdict(int)
    for _, count, path in profile:
        chain = [scope[1][2].decode() if scope[0] == "proc" else databases.ROOTS[scope[1]] for scope in path
                 if scope[0] in ("root", "proc")]
        frame[printed(chain[-1])] += count * period
        places = [scope for scope in path if scope[0] == "call"]
        arcs = {(a, b, place) for a, b, place in zip(chain, chain[1:], [None, *places])}
        for a, b, _ in arcs:
            calls[printed(a), printed(b)] += count * period
    total = sum(count for _, count, _ in profile) * period
    own, found, _, totals = read_callgrind(exported(database, "callgrind", *words), place)
    same(f"{name}: callgrind, own costs", own, dict(frame))
    same(f"{name}: callgrind, calls", {arc: cost for arc, cost in found.items() if cost}, dict(calls))
    same(f"{name}: callgrind, totals", totals, {"summary": total, "totals": total})
    if total:
        look_at_annotated(name, database, frame, *words, place=place)


def look_at_annotated(name, database, frame, *words, place=0):
    """The same by callgrind_annotate, which has a row for each procedure and file."""
    if not shutil.which("callgrind_annotate"):
        return
    with tempfile.NamedTemporaryFile(suffix=".callgrind") as file:
        written = exported(database, "callgrind", *words)
        file.write(written)
        file.flush()
        event = callgrind_events(written)[place]
        shown = ["--threshold=100", "--auto=no", f"--show={event}", f"--sort={event}"]
        done = subprocess.run(["callgrind_annotate", *shown, file.name], capture_output=True)
    found = defaultdict(int)
    text = done.stdout.decode(errors="replace")
    for cost, row in re.findall(r"^ *([\d,]+) \([ \d.]+%\)  (.*?)(?: \[\])?$", text, re.M):
        if "PROGRAM TOTALS" not in row:
            function = next((fn for fn in frame if row.endswith(":" + fn)), row)
            found[function] += int(cost.replace(",", ""))
    same(f"{name}: callgrind_annotate", {fn: cost for fn, cost in found.items() if cost}, dict(frame))
    same(f"{name}: callgrind_annotate's errors", done.stderr.decode(), "")
