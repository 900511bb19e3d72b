"""What the exporter refuses: malformed databases, files that aren't there, words that have no meaning."""
import sys

import databases
from exporter import TOP, complain, export, exported, same
from look_numpy import look_at_numpy

# The database of examples/straight has its head at 0, its procedure at 28, its nodes from 59 on (node 2 at 83, then
# each 16 bytes), its profile plane at 147, its context plane at 391. What a change breaks follows from docs/FORMATS.md.
MALFORMED = [  # (offset, bytes, rule, offset of the answer)
    (0, b"h", 1, 0),
    (8, bytes(4), 3, 8),
    (12, bytes(4), 2, 603),
    (24, b"\xff\xff\xff\xff", 2, 175),
    (28, b"\3", 4, 28),
    (32, b"\1", 4, 28),
    (40, b"?", 4, 28),
    (63, b"\5", 2, 63),
    (67, b"\2", 5, 59),
    (71, b"\1", 5, 59),
    (79, b"\1", 4, 28),
    (83, b"\5", 5, 83),
    (87, b"\3", 5, 83),
    (91, b"\2", 2, 91),
    (95, b"\x24", 5, 99),
    (111, b"\0", 5, 99),
    (147, b"\x10", 6, 391),
    (151, b"\7", 6, 151),
    (155, b"\3", 6, 151),
    (155, b"\1\0\0\0" + bytes(8), 6, 151),
    (159, bytes(8), 6, 151),
    (159, b"\x19", 6, 159),
    (207, b"\6", 6, 199),
    (207, b"\x0a", 6, 159),
    (391, b"\2", 2, 575),
    (395, b"\1", 7, 395),
    (399, b"\1", 7, 399),
    (647, b"\6", 7, 647),
]


def look_at_malformed(folder):
    good = databases.database(*databases.PROFILES["straight"])
    same("straight: the length of its database", len(good), 655)
    rows = [(good[:at] + new + good[at + len(new) :], rule, where) for at, new, rule, where in MALFORMED]
    rows += [(good[:-1], 2, 647), (good + b"\0", 2, 655), (good[:7], 1, 0), (b"", 1, 0), (good[:30], 2, 28)]
    path, kept = folder / "malformed.db", folder / "kept"
    kept.write_text("kept")
    for data, rule, where in rows:
        path.write_bytes(data)
        status, out, errors = export(path, "html", "-o", kept)
        same("malformed", (status, out, errors), (3, b"", f"hpc-export: {path}: database rule {rule} at {where}\n"))
    same("a refusal's output file", kept.read_text(), "kept")
    look_at_processes(good, rows)
    look_at_changes(good)
    look_at_numpy(rows)


def look_at_processes(good, rows):
    """The same where each plane is compared by a process of its own, as of many nodes."""
    sys.path.insert(0, str(TOP / "tools"))
    from hpc_export import planes
    from hpc_export.database import Malformed
    from hpc_export.reader import read

    many, planes.MANY = planes.MANY, 0
    same("planes by processes", len(read(good).nodes), 6)
    for data, rule, where in rows:
        try:
            read(data)
            complain(f"by processes: rule {rule} at {where} is broken, and the database is read")
        except Malformed as error:
            same("malformed, by processes", (error.rule, error.offset), (rule, where))
    planes.MANY = many


def look_at_changes(good):
    """Every front of a database, and every byte changed, is refused or read, and nothing else."""
    sys.path.insert(0, str(TOP / "tools"))
    from hpc_export.database import Malformed
    from hpc_export.reader import read

    accepted = []
    changes = [(at, value) for at in range(len(good)) for value in {good[at] ^ 1, 0, 255, good[at] ^ 4} - {good[at]}]
    for data in [good[:at] for at in range(len(good))]:
        try:
            read(data)
            complain(f"a front of {len(data)} bytes is read")
        except Malformed as error:
            if error.offset > len(data) or error.rule > 2:
                complain(f"a front of {len(data)} bytes: {error}")
    for at, value in changes:
        try:
            read(good[:at] + bytes([value]) + good[at + 1 :])
            accepted.append(at)
        except Malformed as error:
            if error.offset > at and error.rule not in (2, 5, 6, 7):
                complain(f"byte {at} as {value}: {error}")
    # What may change: the period to 1, the nameless procedure to one at address 0, the root's kind, and the addresses
    # of statements where their order stays.
    free = {8, 28, 67} | {at for node in range(4) for at in range(95 + 16 * node, 99 + 16 * node)}
    same("changed bytes that are read", sorted(set(accepted) - free), [])


def look_at_refusals(folder):
    missing = folder / "missing.db"
    same("no database", export(missing, "html"), (4, b"", f"hpc-export: {missing}: No such file or directory\n"))
    good = folder / "good.db"
    good.write_bytes(databases.database(*databases.PROFILES["straight"]))
    target = folder / "no" / "file"
    status, _, errors = export(good, "html", "-o", target)
    same("no folder", (status, errors), (4, f"hpc-export: {target}: No such file or directory\n"))
    same("an unknown format", export(good, "pprof")[0], 2)
    same("no such hart", export(good, "folded", "--hart", "1")[0], 2)
    written = folder / "out"
    exported(good, "folded", "-o", written)
    same("an output file", written.read_bytes(), exported(good, "folded"))
    same("a pipe", exported(good, "folded", "-o", "/dev/stdout"), written.read_bytes())
    same("files beside", sorted(folder.glob(".hpc-export*")), [])
