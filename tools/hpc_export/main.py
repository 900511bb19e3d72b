"""The command hpc-export."""
import argparse
import contextlib
import gc
import io
import os
import stat
import sys
import tempfile
from dataclasses import dataclass, field
from typing import List

from . import callgrind, folded, html, linkage_names, measurement, nodes, source, speedscope, traces
from .comparison import Base
from .contexts import Shown
from .database import EVENTS, Malformed
from .reader import begin
from .refusals import DEVICE, INVALID, MALFORMED, Refused, read_file
from .sources import Sources
from .timeline import Timeline

WRITERS = {
    "folded": folded.write,
    "speedscope": speedscope.write,
    "callgrind": callgrind.write,
    "html": html.write,
    "source": source.write,
    "csv": nodes.write_csv,
    "json": nodes.write_json,
}
# Which formats have which options.
ONLY = {
    "--min-percent": ("folded", "speedscope", "html", "source"),
    "--by-cost": ("folded",),
    "--source": ("html", "source"),
    "--measurement": ("html",),
    "--base": ("html", "folded"),
    "--trace": ("html",),
    "--struct": ("html", "perfetto", "speedscope"),
}
FORMATS = [*WRITERS, *sorted(set(traces.WRITERS) - set(WRITERS))]


@dataclass
class Options:
    """What a format may be told: its title, which values are shown, and those of each event where a format has several
    of them, whether places of calls and statements are frames,
    the share of the total below which scopes are left out, whether the costliest comes first, where sources are, the
    file whose source is written, why call paths are partial (texts with numbers of samples), what is compared with, and
    what each hart did at each moment."""

    title: str
    shown: Shown
    every: List[Shown]
    with_places: bool = False
    min_percent: float = 0
    by_cost: bool = False
    sources: Sources = None
    file: str = ""
    causes: List = field(default_factory=list)
    base: Base = None
    timeline: Timeline = None


def _arguments():
    parser = argparse.ArgumentParser(
        prog="hpc-export",
        description="Exports a profiler's database or trace for other tools, or as a page for a browser.",
        epilog="folded: collapsed stacks for flamegraph.pl, inferno, speedscope. speedscope: its own format. "
        "callgrind: for KCachegrind and callgrind_annotate. html: a page of its own, without any network. source: the "
        "text of FILE with the cost of each line. csv, json: a row for each node of the tree, with its values. "
        "perfetto, of a trace alone: the Trace Event format, for ui.perfetto.dev and chrome://tracing; speedscope takes "
        "a trace too. A trace has addresses alone, and a database has no addresses by which to name them: the names are "
        "those of --struct, the listing of the same program. "
        "Status: 0 done, 2 an invalid command line, 3 a malformed file, 4 a file that can't be read or written.",
    )
    parser.add_argument(
        "database", metavar="DB|TRACE",
        help="the database that `hpc profile` stored, or the trace that `hpc trace` did: its first 8 bytes tell",
    )
    parser.add_argument("format", metavar="FORMAT", choices=FORMATS, help=" | ".join(FORMATS))
    parser.add_argument("file", metavar="FILE", nargs="?", help="source: the file, by its name or the end of it")
    parser.add_argument("-o", dest="output", metavar="FILE", help="write to FILE in place of standard output")
    parser.add_argument("--run", type=int, action="append", metavar="R", help="this run alone (may be repeated)")
    parser.add_argument(
        "--hart", type=int, action="append", metavar="H", help="this hart of the runs alone (may be repeated)"
    )
    parser.add_argument(
        "--event", choices=EVENTS, metavar="EVENT",
        help=" | ".join(EVENTS) + ": this event (default: the first of the database; callgrind, csv, json: all)",
    )
    parser.add_argument("--title", help="the title of what is written (default: the database's name)")
    parser.add_argument("--elf", metavar="PROGRAM", help="name procedures as PROGRAM's linkage names do: classes too")
    parser.add_argument(
        "--places", action="store_true",
        help="folded, speedscope, csv, json: places of calls and statements are frames too",
    )
    parser.add_argument("--by-cost", action="store_true", help="folded: the costliest stack first")
    parser.add_argument(
        "--min-percent", type=_percent, default=0, metavar="P",
        help="folded, speedscope: scopes with less of the total are left out, their cost is the scope's above; "
        "html: the page begins so; source: lines with less have no figures",
    )
    parser.add_argument(
        "--source", action="append", metavar="FOLDER|FROM=TO",
        help="html, source: where sources lie, or how names begin there (may be repeated)",
    )
    parser.add_argument(
        "--base", metavar="BEFORE", help="html, folded: beside each value that of BEFORE, a database, by call path of names"
    )
    parser.add_argument("--measurement", metavar="MEASURE", help="html: say why call paths are partial")
    parser.add_argument(
        "--struct", metavar="LISTING", help="of a trace: the procedures of its program, as `hpc struct ELF` puts them"
    )
    parser.add_argument(
        "--trace", metavar="TRACE", help="html: a timeline above the graph, of the trace of the same run; wants --struct"
    )
    return parser


def _percent(word):
    share = float(word)
    if not 0 <= share <= 100:
        raise ValueError(word)
    return share


@contextlib.contextmanager
def _opened(name, finish):
    """A file to write to. Nothing is seen of what is written until `finish` has returned. A regular file takes its name
    only when it is whole, so that the old one stays until then."""
    if name is None or os.path.exists(name) and not stat.S_ISREG(os.stat(name).st_mode):
        written = io.BytesIO()
        yield written
        finish()
        with open(sys.stdout.fileno() if name is None else name, "wb", closefd=name is not None) as file:
            file.write(written.getbuffer())
        return
    target = os.path.realpath(name)
    descriptor, beside = tempfile.mkstemp(dir=os.path.dirname(target), prefix=".hpc-export.")
    try:
        with open(descriptor, "wb") as file:
            yield file
        finish()
        os.chmod(beside, os.stat(target).st_mode & 0o777 if os.path.exists(target) else 0o666 & ~_umask())
        os.replace(beside, target)
    except BaseException:
        os.unlink(beside)
        raise


def _umask():
    mask = os.umask(0)
    os.umask(mask)
    return mask


def _begun(name, data):
    """The database of a file's bytes, and what waits until all of it is checked."""
    try:
        database, finish = begin(data)
    except Malformed as error:
        raise Refused(MALFORMED, f"{name}: {error}") from error

    def finish_refusing():
        try:
            finish()
        except Malformed as error:
            raise Refused(MALFORMED, f"{name}: {error}") from error

    return database, finish_refusing


def _named(words, database):
    """The database with the names that the user wants."""
    if words.elf is None:
        return database
    try:
        return linkage_names.with_linkage_names(database, words.elf)
    except OSError as error:
        raise Refused(DEVICE, f"{words.elf}: {error.strerror}") from error
    except linkage_names.NoNames as error:
        raise Refused(INVALID, str(error)) from error


def _causes(words, database):
    """Why call paths are partial, the most samples first."""
    if words.measurement is None:
        return []
    try:
        measured = measurement.read(read_file(words.measurement))
    except measurement.Malformed as error:
        raise Refused(MALFORMED, f"{words.measurement}: {error}") from error
    counted = sum(path.samples for paths in measured.columns for path in paths)
    samples = sum(sum(plane.samples) for plane in database.planes)
    events = [(event.number, event.period) for event in database.events]
    if (measured.events, counted) != (events, samples):
        raise Refused(MALFORMED, f"{words.measurement}: the measurement of another database")
    return [[measurement.CAUSES[end], count] for end, count in measurement.causes(measured).most_common()]


def _sources(words):
    """Where sources are. The source that is asked for is where its name says, if nothing else is said."""
    for folder in words.source or []:
        if "=" not in folder and not os.path.isdir(folder):
            raise Refused(DEVICE, f"{folder}: no such folder")
    return Sources(words.source or (["="] if words.format == "source" else []))


def _places(words, database):
    """The places of the events that are shown."""
    names = [event.name for event in database.events]
    if words.event and words.event not in names:
        raise Refused(INVALID, f"{words.database}: no event {words.event}; there is {' and '.join(names)}")
    return [names.index(words.event)] if words.event else list(range(len(names)))


def _harts(words, database, name):
    """The harts of the runs that the user wants, by their numbers among all."""
    if not set(words.run or []) <= set(range(len(database.runs))):
        raise Refused(INVALID, f"{name}: {_range('runs', len(database.runs))}")
    chosen = [hart for hart, (run, _) in enumerate(database.places) if words.run is None or run in words.run]
    numbers = {database.places[hart][1] for hart in chosen}
    if not set(words.hart or []) <= numbers:
        raise Refused(INVALID, f"{name}: {_range('harts', len(numbers))}")
    return [hart for hart in chosen if words.hart is None or database.places[hart][1] in words.hart]


def _range(what, count):
    return f"{what} are 0 to {count - 1}"


def _base(words, before, every, events):
    """What is compared with, and the places of the events that both databases have."""
    numbers = [event.number for event in before.events]
    harts = _harts(words, before, words.base)
    both = [(shown, numbers.index(event.number)) for shown, event in zip(every, events) if event.number in numbers]
    if not both:
        raise Refused(INVALID, f"{words.base}: no event {' or '.join(event.name for event in events)}")
    shown = [Shown(harts, place) for _, place in both]
    return Base(before, os.path.basename(words.base), shown), [after for after, _ in both]


def _options(words, database, named, before):
    """`named` is the database with the names that its file has."""
    harts = _harts(words, database, words.database)
    places = _places(words, database)
    every, base = [Shown(harts, place) for place in places], None
    if before:
        base, every = _base(words, before, every, [database.events[place] for place in places])
    return Options(
        title=words.title or os.path.basename(words.database),
        shown=every[0],
        every=every,
        base=base,
        with_places=words.places,
        min_percent=words.min_percent,
        by_cost=words.by_cost,
        sources=_sources(words),
        file=words.file,
        causes=_causes(words, database),
        timeline=traces.timeline_of(words, named, harts),
    )


def _check_words(words):
    """Refuses options that the format doesn't have."""
    for option, formats in ONLY.items():
        if getattr(words, option[2:].replace("-", "_")) and words.format not in formats:
            raise Refused(INVALID, f"{words.format} has no {option}")
    if (words.file is not None) != (words.format == "source"):
        raise Refused(INVALID, "source wants a FILE" if words.format == "source" else f"{words.format} takes no FILE")
    if words.format == "html" and (words.trace is None) != (words.struct is None):
        raise Refused(INVALID, "html takes --trace and --struct together")
    if words.trace is not None and words.base is not None:
        raise Refused(INVALID, "--base has no --trace")


def _check_words_of_trace(words):
    """Refuses formats and options that a trace doesn't have."""
    if words.format not in traces.WRITERS:
        raise Refused(INVALID, f"{words.database}: a trace has no {words.format}, but {' and '.join(traces.WRITERS)}")
    for option in ("--run", "--event", "--elf", "--places", "--min-percent"):
        if getattr(words, option[2:].replace("-", "_")):
            raise Refused(INVALID, f"{words.database}: a trace has no {option}")


def _put(words, finish, write):
    try:
        with _opened(words.output, finish) as out:
            write(out)
            out.flush()
    except source.NotFound as error:
        raise Refused(INVALID, str(error)) from error
    except BrokenPipeError:
        # The reader has what it wanted (`| head`).
        sys.stdout = None
    except OSError as error:
        raise Refused(DEVICE, f"{words.output or 'standard output'}: {error.strerror}") from error


def _write(words, database, before, finish):
    named = _named(words, database)
    options = _options(words, named, database, before and _named(words, before))
    _put(words, finish, lambda out: WRITERS[words.format](out, named, options))


def _export_trace(words, data):
    _check_words_of_trace(words)
    slices, harts = traces.slices_of(words, data)
    title = words.title or os.path.basename(words.database)
    _put(words, lambda: None, lambda out: traces.WRITERS[words.format](out, slices, harts, title))


def _export(words):
    _check_words(words)
    data = read_file(words.database)
    if traces.is_trace(data):
        return _export_trace(words, data)
    if words.format not in WRITERS:
        raise Refused(INVALID, f"{words.database}: {words.format} wants a trace")
    if words.struct and words.format != "html":
        raise Refused(INVALID, f"{words.format} of a database has no --struct")
    return _export_database(words, data)


def _export_database(words, data):
    database, finish = _begun(words.database, data)
    before, finish_before = _begun(words.base, read_file(words.base)) if words.base else (None, lambda: None)

    def finish_both():
        finish()
        finish_before()

    try:
        _write(words, database, before, finish_both)
    except Refused:
        # That a database is malformed is said before all else.
        finish_both()
        raise


def main():
    words = _arguments().parse_args()
    # Nothing here refers to itself, and millions of objects would be looked at again and again.
    gc.disable()
    try:
        _export(words)
    except Refused as refusal:
        print(f"hpc-export: {refusal}", file=sys.stderr)
        return refusal.status
    return 0
