"""Random measurements, traces and databases, mostly well formed: see docs/FORMATS.md."""
import databases
import measurement_files
import trace_files

PROCEDURES = [databases.NAMELESS, (0, 0x1D, b"main"), (0, 0x19, b"f\n"), (1, 0x10010, b"g"), (1, 0x10020, b"")]
FILES = [(0, 0, b"/s/a.c"), (0, 1, b"b.c"), (73, 1, b"<unknown file>")]


def chosen_events(random):
    found = [(number, random.choice((1, 5, 31, 97, 4294967295))) for number in range(4) if random.random() < 0.5]
    return found or [(0, 7)]


# ---- measurements and traces

def raw_path(random, code):
    """An end and the frames of a path, at addresses of code or somewhere."""
    depth = random.choice((1, 1, 2, 3, 4, random.randint(1, 30)))
    end = random.choice((0, 0, 0, random.randrange(6)))
    somewhere = [random.choice((0, 4, 0xFFFFFFFC, 0x7F4A7C15, 0x9E3779B9, random.randrange(1 << 32))), *code]
    return end, tuple(random.choice(somewhere) for _ in range(depth))


def distinct(random, code, most):
    return list(dict.fromkeys(raw_path(random, code) for _ in range(random.randrange(most))))


def measurement(random, head, code):
    events, harts = chosen_events(random), random.choice((1, 1, 2, 3))
    columns = []
    for _ in range(harts * len(events)):
        columns.append([(random.choice((1, 1, 2, 100)), *path) for path in distinct(random, code, 6)])
    if len(events) == 1 and events[0][0] == 0:
        return measurement_files.written(*head, events[0][1], columns)
    return measurement_files.events_written(*head, events, harts, columns)


def trace(random, head, code):
    period, harts = random.choice((1, 2, 5, 97)), []
    for _ in range(random.choice((1, 1, 2, 4))):
        paths = distinct(random, code, 5)
        places = list(range(len(paths)))
        for _ in range(random.randrange(9) if paths else 0):
            at = random.randint(1, len(places))
            places.insert(at, random.randint(0, max(places[:at])))
        harts.append((len(places) * period + random.randrange(period), paths, places))
    return trace_files.written(*head, period, harts)


# ---- databases

def line(random):
    if random.random() < 0.4:
        return random.choice((0, 0x10000, 0x10024, 0xFFFFFFFC))
    return (*random.choice(FILES), random.choice((0, 1, 8, 4294967295)))


def path(random):
    found = [("root", random.choice((0, 0, 1)))]
    for _ in range(random.choice((0, 1, 1, 2, 4))):
        found += [*procedure(random), ("call", line(random))]
    return (*found, *procedure(random), ("stmt", line(random)))


def procedure(random):
    yield "proc", random.choice(PROCEDURES)
    for _ in range(random.choice((0, 0, 0, 1, 2))):
        yield "inline", random.choice(PROCEDURES), line(random)


def database(random):
    events = chosen_events(random)
    runs = [random.choice((1, 1, 2, 3)) for _ in range(random.choice((1, 1, 2, 3)))]
    columns = sum(runs) * len(events)
    profile = []
    for _ in range(random.randrange(1, 9)):
        profile.append((random.randrange(columns), random.choice((1, 1, 2, 50)), path(random)))
    return databases.events_database(profile, events, runs)
