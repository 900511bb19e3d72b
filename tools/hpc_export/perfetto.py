"""The Trace Event format, which ui.perfetto.dev and chrome://tracing open ("Trace Event Format", JSON object format:
duration events B and E, metadata events M).

Each hart is a thread of one process, whose numbers begin with 1, since a thread 0 may be taken for what is idle. Times
are microseconds there: one stands for a retired instruction of the hart.
"""
import json


def write(out, slices, harts, title):
    out.write(b'{"displayTimeUnit":"ns","otherData":{"exporter":"hpc-export",')
    out.write(b'"unit":"a microsecond is a retired instruction of the hart"},"traceEvents":[\n')
    out.write(_json({"ph": "M", "pid": 1, "tid": 1, "ts": 0, "name": "process_name", "args": {"name": title}}))
    for hart in harts:
        for name, value in (("thread_name", {"name": f"hart {hart}"}), ("thread_sort_index", {"sort_index": hart})):
            out.write(b",\n" + _json({"ph": "M", "pid": 1, "tid": hart + 1, "ts": 0, "name": name, "args": value}))
    for hart in harts:
        for events in _events(slices, hart):
            out.write(b",\n" + b",\n".join(events))
    out.write(b"\n]}\n")


def _json(value):
    return json.dumps(value, separators=(",", ":")).encode()


def _events(slices, hart):
    """The events of each moment at which frames end or begin."""
    opens, where = [], b'"pid":1,"tid":%d,"ts":' % (hart + 1)
    for moment, closed, opened in slices.changes(hart):
        while len(opens) < len(slices.labels):
            opens.append(b'{"ph":"B","name":%s,"cat":"procedure",%s' % (_json(slices.labels[len(opens)]), where))
        at = b"%d}" % moment
        yield [b'{"ph":"E",%s%s' % (where, at)] * len(closed) + [opens[frame] + at for frame in opened]
