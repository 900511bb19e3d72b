"""What is made of a trace by itself, and with a database its timeline for the page.

A trace has addresses. A database has lines in the place of most addresses, so that nothing in it says which procedure
an address lies in; the listing of `hpc struct` does, by the ranges of each procedure. So the names come from there.
"""
from . import listing, perfetto, speedscope, trace
from .refusals import INVALID, MALFORMED, Refused, read_file
from .slices import Slices
from .timeline import NoPath, Timeline

WRITERS = {"perfetto": perfetto.write, "speedscope": speedscope.write_trace}


def is_trace(data):
    return data[:8] == trace.MAGIC


def read(name, data):
    try:
        return trace.read(data)
    except trace.Malformed as error:
        raise Refused(MALFORMED, f"{name}: {error}") from error


def listed(name):
    try:
        return listing.Listing(read_file(name))
    except listing.NotAListing as error:
        raise Refused(MALFORMED, f"{name}: {error}") from error


def slices_of(words, data):
    """The slices of the trace that the words name, and the harts that they want."""
    found = read(words.database, data)
    if words.struct is None:
        raise Refused(INVALID, f"{words.format} of a trace wants --struct LISTING, what `hpc struct ELF` put")
    if not set(words.hart or []) <= set(range(len(found.harts))):
        raise Refused(INVALID, f"{words.database}: harts are 0 to {len(found.harts) - 1}")
    harts = [hart for hart in range(len(found.harts)) if words.hart is None or hart in words.hart]
    return Slices(found, listed(words.struct)), harts


def timeline_of(words, database, harts):
    """The timeline of a database's page, or nothing where no trace is given. `harts` are those that the page has."""
    if words.trace is None:
        return None
    data = read_file(words.trace)
    if not is_trace(data):
        raise Refused(MALFORMED, f"{words.trace}: trace at 0")
    found = read(words.trace, data)
    if not _is_of(found, database, harts):
        raise Refused(MALFORMED, f"{words.trace}: the trace of another database")
    try:
        return Timeline(found, listed(words.struct), database, [database.places[hart][1] for hart in harts])
    except NoPath as error:
        raise Refused(MALFORMED, f"{words.struct}: a listing by which the trace has call paths that the database lacks"
                      ) from error


def _is_of(found, database, harts):
    """Whether a trace is of the run whose harts these are: its number of harts, the period of retired instructions, and
    the number of samples of each hart are the database's."""
    runs = {database.places[hart][0] for hart in harts}
    retired = [place for place, event in enumerate(database.events) if event.number == 0]
    if len(runs) != 1 or not retired or database.events[retired[0]].period != found.period:
        return False
    run = runs.pop()
    own = [hart for hart, place in enumerate(database.places) if place[0] == run]
    planes = [database.planes[hart * len(database.events) + retired[0]] for hart in own]
    return [sum(plane.samples) for plane in planes] == [len(hart.places) for hart in found.harts]
