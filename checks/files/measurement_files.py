"""Measurements for tests, written from docs/FORMATS.md: whole ones, each byte of one changed, and the limits."""
import struct

WHOLE, NO_FDE, NO_CFA, EXPRESSION, UNMAPPED, DEPTH = range(6)
MOST_HARTS, MOST_EVENTS, MOST_DEPTH = 64, 4, 512
MOST_SAMPLES, MOST_FRAMES = 1048576, 4194304


def written(length, entry, period, harts):
    """The bytes of version 1 for a program of that length and entry: for each hart its paths, each a count, an end and
    pcs."""
    return spelled(b"HPCRUNM1", [length, entry, period, len(harts)], harts)


def events_written(length, entry, events, harts, columns):
    """The bytes of version 2, of events with their numbers and periods: for each hart and event its paths."""
    numbers = [number for event in events for number in event]
    return spelled(b"HPCRUNM2", [length, entry, len(events), *numbers, harts], columns)


def spelled(first, head, columns):
    words = [*head]
    for paths in columns:
        words.append(len(paths))
        for count, end, pcs in paths:
            words += [count, end, len(pcs), *pcs]
    return first + struct.pack(f"<{len(words)}I", *words)


# examples/straight with the period 5
STRAIGHT = bytes.fromhex(
    "48504352554e4d31 a8000000 00000100 05000000 01000000 04000000"
    "01000000 00000000 01000000 10000100 01000000 00000000 01000000 24000100"
    "01000000 00000000 01000000 38000100 01000000 00000000 01000000 4c000100"
)
ONE, CALLED = (1, WHOLE, (0x10000,)), (0x10024, 0x10020, 0x10004)
# A path on both harts, two that differ in their cause alone, some that another bit makes equal, one without a symbol.
HARTS = [
    [(3, WHOLE, CALLED), (1, NO_FDE, CALLED[:2]), (2, DEPTH, CALLED[:2]), (4, WHOLE, (0x10004,)), ONE],
    [(7, WHOLE, CALLED), (5, NO_CFA, (0x10030, 0x10008))],
]
# Retired and stores of two harts: a path of both events, one of both harts, and a column without a path.
EVENTS = [(0, 31), (2, 3)]
COLUMNS = [[(3, WHOLE, CALLED), ONE], [(1, WHOLE, CALLED), (2, NO_CFA, CALLED[:1])], [], [(5, WHOLE, CALLED[:2])]]


def changed(name, whole):
    """The measurement, with each byte in turn as another, each front of it, and a byte more, with a name each."""
    yield name, whole
    for at, byte in enumerate(whole):
        others = {0, 1, 255, (byte + 1) % 256, (byte - 1) % 256, *(byte ^ 1 << bit for bit in range(8))}
        for other in sorted(others - {byte}):
            yield f"{name}, byte {at} as {other}", whole[:at] + bytes([other]) + whole[at + 1 :]
    for length in range(len(whole)):
        yield f"{name}, the first {length} bytes", whole[:length]
    yield f"{name}, a byte more", whole + b"\0"


def deep(number):
    """So many paths of the most frames."""
    return [(1, WHOLE, (0x10010 + 4 * place, *[0x10020] * (MOST_DEPTH - 1))) for place in range(number)]


def limits(head):
    """Measurements at the limits, and past each, with a name each."""
    rows = {
        "no path": (1, [[]]),
        "the longest period": (0xFFFFFFFF, [[(MOST_SAMPLES, *ONE[1:])]]),
        "all samples": (1, [[(MOST_SAMPLES - 1, *ONE[1:])], [ONE]]),
        "a sample too many": (1, [[(MOST_SAMPLES, *ONE[1:])], [ONE]]),
        "all harts": (7, [[ONE]] * MOST_HARTS),
        "a hart too many": (7, [[ONE]] * (MOST_HARTS + 1)),
        "each end": (7, [[(1, end, CALLED) for end in (DEPTH, UNMAPPED, EXPRESSION, NO_CFA, NO_FDE, WHOLE)]]),
        "another end": (7, [[(1, DEPTH + 1, CALLED)]]),
        "all frames of a path": (7, [deep(1)]),
        "a frame of a path too many": (7, [[(1, DEPTH, CALLED[:1] * (MOST_DEPTH + 1))]]),
        "a scope too many": (1, [deep(8184), [ONE], [ONE], [ONE]]),
        "all frames, and scopes too many": (1, [deep(4096), deep(4096)]),
        "a frame too many": (1, [deep(4096), deep(4096), [ONE]]),
    }
    for name, (period, harts) in rows.items():
        yield name, written(*head, period, harts)


def event_limits(head):
    """The same of several events."""
    every = [(number, 7) for number in range(MOST_EVENTS)]
    rows = {
        "all events of all harts": (every, MOST_HARTS, [[ONE]] * (MOST_EVENTS * MOST_HARTS)),
        "all events of a hart too many": (every, MOST_HARTS + 1, [[ONE]] * (MOST_EVENTS * (MOST_HARTS + 1))),
        "no hart": (every, 0, []),
        "no event": ([], 1, []),
        "an event too many": ([*every, (4, 1)], 1, [[ONE]] * 5),
        "retired alone": ([(0, 7)], 1, [[ONE]]),
        "retired alone with the period 0": ([(0, 0)], 1, [[ONE]]),
        "each period 0": ([(1, 0), (3, 0)], 1, [[ONE]] * 2),
        "an event twice, the first period 0": ([(1, 0), (1, 7)], 1, [[ONE]] * 2),
        "an event before the one before it": ([(3, 7), (1, 7)], 1, [[ONE]] * 2),
        "an event before the first of three": ([(1, 7), (3, 7), (0, 7)], 1, [[ONE]] * 3),
        "taken alone, with the longest period": ([(3, 0xFFFFFFFF)], 1, [[(MOST_SAMPLES, *ONE[1:])]]),
        "all samples in two events": (EVENTS, 1, [[(MOST_SAMPLES - 1, *ONE[1:])], [ONE]]),
        "a sample too many in two events": (EVENTS, 1, [[(MOST_SAMPLES, *ONE[1:])], [ONE]]),
        "a path twice in a column": (EVENTS, 1, [[ONE], [ONE, ONE]]),
        "a scope too many in three events": (every[1:], 1, [deep(8184), [ONE], [ONE, (1, WHOLE, (0x10004,))]]),
        "a frame too many in two events": (EVENTS, 1, [deep(4096), [*deep(4096), ONE]]),
        "a column too few": (EVENTS, 2, [[ONE]] * 3),
        "a column too many": (EVENTS, 2, [[ONE]] * 5),
    }
    for name, (events, harts, columns) in rows.items():
        yield name, events_written(*head, events, harts, columns)
