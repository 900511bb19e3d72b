"""What the exporter does by numpy, as of a large database, beside what it does without: what it refuses, what it reads,
and the bytes of each format."""
import contextlib
import io
import random
import sys

import databases
from exporter import TOP, same

# Formats, and what is chosen in them.
WRITTEN = [(kind, words) for kind in ("folded", "speedscope", "callgrind", "html", "csv", "source") for words in (
    {}, {"with_places": True}, {"min_percent": 3.0}, {"with_places": True, "min_percent": 2.0})]


@contextlib.contextmanager
def done_by_numpy():
    """All is done by numpy, of so few nodes too."""
    from hpc_export import by_numpy

    least, by_numpy.LEAST = by_numpy.LEAST, 1
    yield
    by_numpy.LEAST = least


def answer_of(data):
    """The parts of a database, or the rule that it breaks and where."""
    from hpc_export.database import Malformed
    from hpc_export.reader import read

    try:
        found = read(data)
        return found.nodes, found.planes, found.context
    except Malformed as error:
        return error.rule, error.offset


def look_at_numpy(rows):
    """The same by numpy: what is refused, and of each version what is read, and what of fronts and changed bytes."""
    sys.path.insert(0, str(TOP / "tools"))
    from hpc_export import by_numpy

    if not by_numpy.module():
        print("look: no numpy, so what is done by it is not looked at")
        return
    good = [databases.database(*databases.PROFILES["recursive"])]
    good += [databases.events_database(*databases.EVENT_PROFILES["recursive events"])]
    good += [databases.runs_database(*databases.RUN_PROFILES["recursive runs"])]
    good += [databases.written(databases.large(500, 4), databases.retired_every(997), 4)]
    bent = [data[:at] + bytes([data[at] ^ 1]) + data[at + 1 :] for data in good for at in range(0, len(data), 97)]
    cut = [data[: len(data) // 2] for data in good]
    plain = list(map(answer_of, good + bent + cut))
    with done_by_numpy():
        for data, rule, where in rows:
            same("malformed, by numpy", answer_of(data), (rule, where))
        for place, data in enumerate(good + bent + cut):
            same(f"database {place} by numpy", answer_of(data), plain[place])
    look_at_formats(good + [alike(seed) for seed in range(12)])


def alike(seed):
    """A database of few names, files and lines: many paths have the same names, and many places the same lines."""
    draw, profile = random.Random(seed), []
    procedures = [(0, 10 + number, b"p%d" % (number % 3)) for number in range(5)] + [databases.NAMELESS]
    files = [(0, 1, b"/a/x.c"), (0, 2, b"/b/x.c")]

    def line():
        return draw.choice([draw.randrange(256, 260), (*draw.choice(files), draw.randrange(1, 4))])

    for _ in range(40):
        path = [("root", draw.randrange(2)), ("proc", draw.choice(procedures))]
        for _ in range(draw.randrange(5)):
            path += [("inline", draw.choice(procedures), line()) for _ in range(draw.randrange(3))]
            path += [("call", line()), ("proc", draw.choice(procedures))]
        profile.append((draw.randrange(4), draw.randrange(1, 5), (*path, ("stmt", line()))))
    events, runs = [[(0, 7)], [(0, 7), (2, 3)]][seed % 2], [[4], [1, 3], [2, 2], [1, 1]][seed % 4]
    return databases.runs_database(profile, events, runs)


def look_at_formats(good):
    """The same bytes of each format."""
    plain = [written(data) for data in good]
    with done_by_numpy():
        for place, data in enumerate(good):
            for (kind, words), found, wanted in zip(WRITTEN, written(data), plain[place]):
                if found != wanted:
                    same(f"{kind} of database {place} by numpy, {words}", found[-600:], wanted[-600:])


def written(data):
    from hpc_export.contexts import Shown
    from hpc_export.main import WRITERS, Options
    from hpc_export.reader import read
    from hpc_export.sources import Sources

    database, found = read(data), []
    every = [Shown(list(range(database.harts)), place) for place in range(len(database.events))]
    for kind, words in WRITTEN:
        out = io.BytesIO()
        file = database.files[0].name.decode() if database.files else ""
        if kind != "source" or file:
            WRITERS[kind](out, database, Options("t", every[-1], every, sources=Sources([]), file=file, **words))
        found.append(out.getvalue())
    return found


