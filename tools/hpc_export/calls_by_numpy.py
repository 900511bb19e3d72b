"""What callgrind.py gathers of a large database, by numpy (by_numpy.py)."""
from .by_numpy import ends, exclusive, inclusive, module, owners, viewed
from .database import CALL, INLINE, PROC, ROOT, STMT


class Columns:
    """For each node its function, the scope above it, and for each event its inclusive and exclusive values. A function
    is a procedure's place in the list, or -1 - kind for a root."""

    def __init__(self, database, every):
        np, self.nodes, count = module(), database.nodes, len(database.nodes)
        nodes = self.nodes
        self.scope, self.operand, self.parent = map(viewed, (nodes.scope, nodes.operand, nodes.parent))
        self.file, self.line = viewed(nodes.line_file), viewed(nodes.line)
        self.above, owner = self.scope[self.parent], owners(nodes)
        self.function = np.where(self.scope[owner] == ROOT, -1 - self.operand[owner].astype("q"), self.operand[owner])
        self.files = len(database.files)
        planes = [[shown.plane(database, hart) for hart in shown.harts] for shown in every]
        self.own = [exclusive(each, count) for each in planes]
        self.all = [inclusive(own, nodes) for own in self.own]

    def functions(self):
        """The functions with costs, and the roots."""
        np = module()
        called = self.operand[(self.scope == PROC) & _any(self.all)]
        return {*np.unique(called).tolist(), *np.unique(self.function[self.scope == ROOT]).tolist()}

    def files_of_functions(self):
        """Each function's file: that of the first place that is its own, not of what is inlined in it."""
        np = module()
        places = np.flatnonzero((self.scope >= CALL) & (self.above == PROC) & (self.file >= 0))
        functions, first = np.unique(self.operand[self.parent[places]], return_index=True)
        return dict(zip(functions.tolist(), self.file[places[first]].tolist()))

    def files_of_places(self):
        return set(module().unique(self.file[self.scope >= CALL]).tolist())

    def _block(self, place):
        """The block of each place: its file, and as many more as there are files where it is inlined."""
        return self.file[place] + 1 + (self.above[place] == INLINE) * (self.files + 1)

    def costs(self):
        """Functions, blocks, lines and costs of the statements, those of one place added up."""
        places = module().flatnonzero((self.scope == STMT) & _any(self.own))
        columns = [self.function[places], self._block(places), self.line[places]]
        return _added_up(columns, [own[places] for own in self.own])

    def calls(self):
        """Functions, blocks, lines, what is called and costs of the calls, those of one place added up. Each sample is
        counted once where one call is within the same."""
        np = module()
        called = np.flatnonzero((self.scope == PROC) & _any(self.all))
        caller, count = self.parent[called], len(self.scope)
        order, group = _grouped([self.function[caller], self.file[caller], self.line[caller], self.operand[called]])
        called = called[order]
        covered = np.maximum.accumulate(group * (count + 1) + ends(self.nodes)[called])
        is_first = np.append(True, covered[:-1] <= (group * (count + 1) + called)[1:])[: len(called)]
        called = np.sort(called[is_first])
        caller = self.parent[called]
        columns = [self.function[caller], self._block(caller), self.line[caller], self.operand[called]]
        return _added_up(columns, [all_[called] for all_ in self.all])


def _any(values):
    return sum(each > 0 for each in values) > 0


def _grouped(columns):
    """The order in which rows ascend by their columns, and then by their places; and for each row in this order the
    number of its group, whose rows are alike."""
    np, key, most = module(), 0, 1
    for column in columns:
        least, span = int(column.min(initial=0)), int(column.max(initial=0)) - int(column.min(initial=0)) + 1
        key, most = key * span + (column.astype("q") - least), most * span
    if most < 1 << 63:
        order = np.argsort(key, kind="stable")
        differs = key[order][1:] != key[order][:-1]
    else:
        order = np.lexsort(columns[::-1])
        differs = sum(column[order][1:] != column[order][:-1] for column in columns) > 0
    return order, np.append(0, np.cumsum(differs))[: len(order)]


def _added_up(columns, values):
    """The columns of the groups of rows, ascending, and the sums of their values."""
    np = module()
    order, group = _grouped(columns)
    first = np.flatnonzero(np.append(True, group[1:] != group[:-1])[: len(group)])
    sums = [np.add.reduceat(each[order], first) if len(first) else each for each in values]
    return [column[order][first] for column in columns], sums


def slices(function, block):
    """Of rows that ascend by these two columns: functions, blocks, and where the rows of each begin and end."""
    np = module()
    is_first = np.append(True, (function[1:] != function[:-1]) | (block[1:] != block[:-1]))[: len(function)]
    first = np.flatnonzero(is_first)
    return zip(function[first].tolist(), block[first].tolist(), first.tolist(), [*first[1:].tolist(), len(function)])
