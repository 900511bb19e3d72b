"""What fields.py and planes.py do with the planes of a large database, by numpy (by_numpy.py)."""
from .by_numpy import column_of, ends, module, owners, viewed
from .database import PROC, STMT

# ---- the planes' fields


def entries_of(data):
    """The entries of a plane, a column for each of their fields: two words and the value."""
    found = module().frombuffer(data, [("first", "<u4"), ("second", "<u4"), ("value", "<u8")])
    return found["first"], found["second"], found["value"]


def exclusive_of(data, period):
    """Of a column's entries those of exclusive values, as the least byte of a kind tells: nodes, values and numbers of
    samples."""
    nodes, kinds, values = entries_of(data)
    is_exclusive = kinds & 255 == 0
    values = values[is_exclusive]
    samples = values // period if period else values
    return column_of("I", nodes[is_exclusive]), column_of("Q", values), column_of("Q", samples)


# ---- rules 6 and 7

# So many values are looked at at once.
_MOST_VALUES = 1 << 22


def are_samples(database, most):
    """Whether the exclusive values are numbers of samples at statements, at most so many in all."""
    np = module()
    scope, total = viewed(database.nodes.scope), 0
    for column, plane in enumerate(database.planes):
        node, value, samples = map(viewed, (plane.node, plane.value, plane.samples))
        if not len(node):
            continue
        is_whole = (samples > 0).all() and (samples <= most).all()
        if not is_whole or node.max() >= len(scope) or (scope[node] != STMT).any():
            return False
        if (samples * np.uint64(database.period(column)) != value).any():
            return False
        total += int(samples.sum())
    return total <= most


class _Sums:
    """What the exclusive values of each column give, in samples: the exclusive, frame and inclusive ones of nodes from
    one on up to another."""

    def __init__(self, database):
        np = module()
        self.database, nodes = database, database.nodes
        self.scope, self.end = viewed(nodes.scope), ends(nodes)
        owner = owners(nodes)
        self.columns = [self._column(plane, owner) for plane in database.planes]

    def _column(self, plane, owner):
        """The exclusive samples, and these and those of the frames alone, added up to each node."""
        np = module()
        count = len(owner)
        node, samples = viewed(plane.node), viewed(plane.samples)
        own = np.bincount(node, samples, count)
        in_frames = np.bincount(owner[node], samples, count)
        return own.astype("u4"), _added_up(own), _added_up(own - in_frames), in_frames.astype("u4")

    def of(self, column, start, stop):
        own, all_, rest, in_frames = self.columns[column]
        end, nodes = self.end[start:stop], slice(start, stop)
        frame = module().where(self.scope[nodes] == PROC, in_frames[nodes], rest[end] - rest[nodes])
        return own[nodes], frame, all_[end] - all_[nodes]


def _added_up(values):
    """The sums of the values before each place, and that of all."""
    np = module()
    return np.append(0, np.cumsum(values)).astype("u4")


def are_planes(database):
    """Whether both planes are what the exclusive values give, and each statement has samples."""
    sums = _Sums(database)
    return all(_is_plane(database, sums, column) for column in range(database.columns)) and _is_context(database, sums)


def _is_plane(database, sums, column):
    np = module()
    wanted = np.stack(sums.of(column, 0, len(database.nodes)), 1).ravel()
    places = np.flatnonzero(wanted)
    nodes, kinds, values = entries_of(database.planes[column].data)
    return (
        len(nodes) == len(places)
        and (nodes == places // 3).all()
        and (kinds == places % 3).all()
        and (values == wanted[places].astype("u8") * np.uint64(database.period(column))).all()
    )


def _is_context(database, sums):
    np = module()
    columns, data, at = database.columns, database.context.data, 0
    if len(data) % 4:
        return False
    words = np.frombuffer(data, "<u4")
    periods = np.array([database.period(column) for column in range(columns)] * 3, "u8")
    step = max(_MOST_VALUES // (3 * columns), 1)
    for start in range(0, len(database.nodes), step):
        stop = min(start + step, len(database.nodes))
        # By kind, and then by column.
        kinds = list(zip(*(sums.of(column, start, stop) for column in range(columns))))
        is_stmt = sums.scope[start:stop] == STMT
        if not sum(own[is_stmt] > 0 for own in kinds[0]).all():
            return False
        length = _length_of_part(words[at:], [each for kind in kinds for each in kind], periods)
        if length is None:
            return False
        at += length
    return at == len(words)


def _length_of_part(words, values, periods):
    """How many of the context plane's words are those of nodes with these values, in samples, a column each; None where
    the words are others."""
    np, width = module(), len(values)
    table = np.stack(values, 1)
    has_value = table != 0
    of_node = sum(has_value[:, column].astype("u4") for column in range(width))
    places = np.flatnonzero(has_value)
    length = len(of_node) + 4 * len(places)
    if len(words) < length:
        return None
    nodes = places // width
    place = places - nodes * width
    # Before an entry are as many entries as its place says, and the numbers of entries of its node and those before it.
    at = nodes + 1
    at += 4 * np.arange(len(places))
    counts = np.arange(len(of_node)) + 4 * (np.cumsum(of_node, dtype="q") - of_node)
    kind, column = (each.astype("u4") for each in np.divmod(np.arange(width), width // 3))
    wanted = table.ravel()[places].astype("u8") * periods[place]
    is_part = (
        (words[counts] == of_node).all()
        and (words[at] == kind[place]).all()
        and (words[at + 1] == column[place]).all()
        and (words[at + 2] == (wanted & np.uint64(0xFFFFFFFF))).all()
        and (words[at + 3] == wanted >> np.uint64(32)).all()
    )
    return length if is_part else None
