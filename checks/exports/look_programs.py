"""Exports of what the built program made of examples/calls, of a C++ program with four virtual area(), and of four
harts at a barrier: beside the program's own tables, and names beside binutils."""
import json
import re
import shutil
import subprocess

from exporter import TOP, complain, export, exported, same
from look_formats import folded_lines, read_callgrind

CALLS = [TOP / "examples" / "calls" / name for name in ("program", "input", "schedule")]
PROGRAMS = TOP / "checks" / "exports" / "programs"
# Callers in a printed table go so deep.
DEEPEST = 8
TABLES = """
return {top: hpc.table("top"), callers: hpc.table("callers", %d), flat: hpc.table("flat")};
""" % DEEPEST
SEEN = """
const {element, at} = view.grid, row = document.getElementById(`row-${at}`).getBoundingClientRect();
const outer = element.getBoundingClientRect();
return at > 0 && row.top >= outer.top && row.bottom <= outer.bottom + 1;
"""
ROW = re.compile(r" *(\d+) +(\d+\.\d) +(\d+)  ((?:  )*)(.*)$")


def profiled(program, files, period, database):
    words = [program, "profile", *files, str(period), "1", database]
    subprocess.run(words, check=True, capture_output=True)


def has_compiler():
    """Whether g++ for this machine is there, with its library."""
    compiler = shutil.which("riscv64-unknown-elf-g++")
    words = [compiler, "-print-file-name=picolibc.specs"]
    return bool(compiler) and b"/" in subprocess.run(words, check=True, capture_output=True).stdout


def has_names(elf, database):
    """Whether what reads linkage names is there."""
    return "pyelftools" not in export(database, "folded", "--elf", elf)[2]


def built(folder, name, harts):
    """The files of a program of programs/, built as guest/ builds it."""
    source = folder / name
    shutil.copy(PROGRAMS / name, source)
    words = ["make", "-s", "-C", TOP / "guest", f"PROGRAM={source}", f"HARTS={harts}"]
    subprocess.run(words, check=True, capture_output=True)
    return [source.with_suffix(f".{kind}") for kind in ("elf", "input", "schedule")]


def look_at_programs(window, program, folder):
    """Gives the pages."""
    made = [("calls", CALLS, 101, [TOP])]
    if has_compiler():
        made += [("areas", built(folder, "areas.cc", 1), 499, ["/"]),
                 ("barrier", built(folder, "barrier.c", 4), 97, ["/"])]
    pages = []
    for name, files, period, sources in made:
        database, page = folder / f"{name}.program.db", folder / f"{name}.program.html"
        profiled(program, files, period, database)
        elf = ["--elf", files[0]] if has_names(files[0], database) else []
        if elf and name == "areas":
            look_at_names(files[0], database, folder)
        words = [word for source in sources for word in ("--source", source)]
        exported(database, "html", *words, "-o", page)
        if window:
            look_at_tables(window, program, name, database, page)
            exported(database, "html", *elf, *words, "-o", page)
            look_at_page_of(window, name, page)
        pages.append(page)
    return pages


def look_at_tables(window, program, name, database, page):
    window.open(page)
    tables = window.run(TABLES)
    for kind, found in tables.items():
        text = subprocess.run([program, "view", database, kind], check=True, capture_output=True).stdout.decode()
        wanted = [row for row in text.splitlines() if ROW.match(row)]
        rows = [f"{all_:16} {share:>6} {own:16}  {'  ' * level}{label}" for level, all_, share, own, label in found]
        same(f"{name}: the page's {kind} table beside the program's", rows, wanted)


def look_at_page_of(window, name, page):
    """The hot path, a procedure's own view, its source and a link of it."""
    window.open(page)
    window.click_on("#hot")
    same(f"{name}: the end of the hot path is seen", window.run(SEEN), True)
    window.press("a")
    rows = window.run("return view.grid.rows.map(row => row.name);")
    same(f"{name}: callers and callees", [each for each in ("callers", "callees") if each not in rows], [])
    lines = window.run("return [view.source.text.length > 0, view.source.costs.has(view.source.at)];")
    same(f"{name}: the source of the selected row", lines, [True, True])
    window.run("await new Promise(done => setTimeout(done, 300));")
    state = "return [view.kind, view.procedure, view.icicle.selected, view.grid.orders(view.grid.at)];"
    wanted, fragment = window.run(state), window.run("return location.hash;")
    window.open(page, fragment=fragment)
    same(f"{name}: a link", window.run(state), wanted)
    if name == "barrier":
        harts = window.run("return [...document.getElementById('hart').options].map(each => each.text);")
        same("harts of the page", harts, ["all (4)", "0", "1", "2", "3"])
        names = window.run("return hpc.table('callers', 0).map(row => row[4]);")
        same("procedures of four harts", [name for name in ("work", "wait_at_barrier") if name not in names], [])
    if name == "areas" and window.run("return profile.procedures.some(name => name.includes('::'));"):
        found = window.run("return hpc.table('callers', 0).map(row => row[4]).filter(name => name.includes('area'));")
        same("four classes on the page", [len(found), len({name for name in found if name.endswith("::area() const")})],
             [4, 4])


def look_at_names(elf, database, folder):
    """Each of four virtual area() has its class's name, which is what nm says."""
    words = ["riscv64-unknown-elf-nm", "-C", elf]
    symbols = subprocess.run(words, check=True, capture_output=True).stdout.decode()
    wanted = sorted(set(re.findall(r" [tTwW] (.*::area\(\) const)$", symbols, re.M)))
    same("four classes", len(wanted), 4)
    folded = folded_lines(exported(database, "folded", "--elf", elf))
    same("classes of folded stacks", sorted(stack.split(";")[-1] for stack in folded if "area" in stack), wanted)
    own, _, _, _ = read_callgrind(exported(database, "callgrind", "--elf", elf))
    same("classes of callgrind", sorted(name for name in own if "area" in name), wanted)
    frames = json.loads(exported(database, "speedscope", "--elf", elf))["shared"]["frames"]
    same("classes of speedscope", sorted(frame["name"] for frame in frames if "area" in frame["name"]), wanted)
    same("no program", export(database, "folded", "--elf", folder / "no.elf")[0], 4)
    same("a program that is none", export(database, "folded", "--elf", database)[0], 2)
    other = CALLS[0]
    same("another program", export(database, "folded", "--elf", other),
         (2, b"", f"hpc-export: {other}: not the program of this database\n"))
    if not folded:
        complain("no stacks of the C++ program")
