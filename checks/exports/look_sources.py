"""Source texts with costs, and why call paths are partial, beside plain counts."""
import json
import re
import struct
import zlib
import base64
from collections import defaultdict

import databases
from exporter import TOP, complain, export, exported, same
from profiles import calls

CALLS = TOP / "examples" / "calls"
FIGURES = re.compile(r" *(\d+|\.) +(\d+\.\d|\.) +(\d+|\.) +(\d+\.\d|\.) +(\d+)(?:  (.*))?$")


def line_costs(profile, period):
    """The inclusive and exclusive cost of each line of calls.c."""
    inclusive, exclusive = defaultdict(int), defaultdict(int)
    for _, count, path in profile:
        lines = [scope[-1] for scope in path if scope[0] in ("inline", "call", "stmt")]
        for number in {line[3] for line in lines if not isinstance(line, int)}:
            inclusive[number] += count * period
        if not isinstance(lines[-1], int):
            exclusive[lines[-1][3]] += count * period
    return {number: (inclusive[number], exclusive.get(number, 0)) for number in inclusive}


def read_source(text):
    """The costs and the texts of a written source."""
    costs, texts = {}, {}
    for line in text.decode().splitlines():
        found = FIGURES.match(line)
        if found:
            texts[int(found[5])] = found[6] or ""
            if found[1] != ".":
                costs[int(found[5])] = int(found[1]), 0 if found[3] == "." else int(found[3])
    return costs, texts


def look_at_source(folder):
    profile, period = calls(), 7
    database = folder / "lines.db"
    database.write_bytes(databases.database(profile, period, 2))
    wanted, lines = line_costs(profile, period), (CALLS / "calls.c").read_text().splitlines()
    for words in (["--source", TOP], ["--source", f"examples={TOP}/examples"], ["--source", folder, "--source", CALLS]):
        costs, texts = read_source(exported(database, "source", "calls.c", *words))
        same(f"costs of lines, {words}", costs, wanted)
        same(f"texts of lines, {words}", [texts[number] for number in sorted(texts)], [line.rstrip() for line in lines])
    costs, texts = read_source(exported(database, "source", "examples/calls/calls.c", "--source", folder))
    same("costs of lines without a text", (costs, set(texts.values())), (wanted, {""}))
    costs, texts = read_source(exported(database, "source", "calls.c", at=TOP))
    same("a text where its name says", (costs, texts[84].split()[:2]), (wanted, ["long", "left"]))
    same("no folder of sources", export(database, "html", "--source", folder / "no"),
         (4, b"", f"hpc-export: {folder / 'no'}: no such folder\n"))
    least = read_source(exported(database, "source", "calls.c", "--min-percent", "50"))[0]
    total = sum(count for _, count, _ in profile) * period
    same("lines of 50 %", least, {line: cost for line, cost in wanted.items() if 2 * cost[0] >= total})
    same("no such file", export(database, "source", "alls.c")[0::2],
         (2, "hpc-export: alls.c: no file of the database is called so\n"))
    for words in (["source"], ["html", "calls.c"], ["callgrind", "--min-percent", "3"], ["folded", "--source", "."],
                  ["folded", "--measurement", "x"], ["html", "--by-cost"], ["html", "--min-percent", "101"]):
        same(f"words without sense: {words}", export(database, *words)[0], 2)
    page = exported(database, "html", "--source", TOP).decode()
    packed = re.search(r'id="texts">(.*?)</script>', page, re.S)[1]
    texts = json.loads(zlib.decompress(base64.b64decode(packed)))
    same("the page's texts", texts, {"0": (CALLS / "calls.c").read_text().split("\n")})
    return database, wanted, total


MARGIN = """
view.setSource(true);
const {source} = view, found = {};
source.goTo(0, 84);
for (const element of document.querySelectorAll("#text .line"))
  found[element.dataset.line] = [...element.children].map(cell => cell.textContent);
return {found, at: source.at, costs: [...source.costs].map(([line, [all, own]]) => [line, all, own])};
"""


def look_at_margin(window, folder, database, wanted, total, period=7):
    """The page shows the lines with their costs, and follows the selected row and keys."""
    page = folder / "lines.html"
    exported(database, "html", "--source", TOP, "-o", page)
    window.open(page)
    found = window.run(MARGIN)
    same("the margin's costs", {line: (all_ * period, own * period) for line, all_, own in found["costs"]}, wanted)
    text = (CALLS / "calls.c").read_text().split("\n")
    tenths = wanted[84][0] * 1000 // total
    same("a line of the source", found["found"]["84"], [f"{tenths // 10}.{tenths % 10}", "", "84", text[83]])
    window.run("document.getElementById('lines').focus();")
    window.press("n")
    same("the next costly line", window.run("return view.source.at;"), 86)
    window.press("ArrowUp", "p")
    same("the costly line before", window.run("return view.source.at;"), 84)
    window.run("view.setTable('flat'); view.grid.follow([profile.files[0], 1, 74], true);")
    same("the source follows the table", window.run("return view.source.at;"), 74)


# ---- why paths are partial


def measurement(period, harts):
    """A measurement of these paths, by docs/FORMATS.md: for each hart (samples, end, pcs)."""
    words = [100, 0x10000, period, len(harts)]
    for paths in harts:
        words.append(len(paths))
        for samples, end, pcs in paths:
            words += [samples, end, len(pcs), *pcs]
    return b"HPCRUNM1" + struct.pack(f"<{len(words)}I", *words)


def look_at_causes(window, folder, database, samples, period=7):
    rest = samples - 9
    harts = [[(4, 0, [0x10000]), (2, 2, [0x10004, 0x10008])], [(3, 5, [0x10010]), (rest, 2, [0x10014])]]
    path = folder / "measure"
    path.write_bytes(measurement(period, harts))
    page = folder / "causes.html"
    exported(database, "html", "--measurement", path, "-o", page)
    names = json.loads(re.search(r'id="names">(.*?)</script>', page.read_text(), re.S)[1])
    wanted = [["512 frames and another caller", 3], ["no rule for the frame's address", 2 + rest]]
    same("why paths are partial", sorted(names["partial"]), sorted(wanted))
    path.write_bytes(measurement(period + 1, harts))
    same("another run's measurement", export(database, "html", "--measurement", path)[0], 3)
    path.write_bytes(measurement(period, harts)[:-4])
    same("half a measurement", export(database, "html", "--measurement", path)[0], 3)
    if window:
        window.open(page)
        said = window.run("return document.getElementById('causes').textContent;")
        if "512 frames and another caller (3)" not in said:
            complain(f"the page doesn't say why paths are partial: {said}")


def look_at_sources(window, folder):
    database, wanted, total = look_at_source(folder)
    if window:
        look_at_margin(window, folder, database, wanted, total)
    look_at_causes(window, folder, database, total // 7)
