"""Callgrind's output format (valgrind's manual, "Callgrind Format Specification"): KCachegrind, callgrind_annotate.

A procedure's own cost is its frame cost: what is spent in it, inlined procedures included, without what it calls. It
stands at the lines or addresses of the samples. What an inlined procedure or another file has of it stands behind `fi`,
and the procedure's own file goes on behind `fe`. A call has the inclusive cost of what it leads to, each sample once
also where the path has the call several times (recursion). `calls=` counts samples, since calls aren't counted.
`<thread root>` and `<partial call paths>` are procedures that call the outermost ones. Where several events are sampled
each cost has a number for each.
"""
import operator
from itertools import chain, compress

from . import by_numpy, calls_by_numpy
from .columns import picked
from .contexts import ROOT_NAMES, Labels, encoded, ends
from .database import CALL, INLINE, PROC, ROOT, STMT

UNKNOWN = "???"
# The events, by their numbers.
NAMES = ("Instructions", "Loads", "Stores", "TakenBranches")


def write(out, database, options):
    profile = (_ProfileByNumpy if by_numpy.is_here(len(database.nodes)) else _Profile)(database, options.every)
    has_address, has_row = profile.positions()
    columns = " ".join(name for name, has in (("instr", has_address), ("line", has_row or not has_address)) if has)
    events = [shown.event(database) for shown in options.every]
    head = (
        "# callgrind format\nversion: 1\ncreator: hpc-export\n"
        f"cmd: {options.title}, sampled every {_listed([f'{event.period} {event.unit}' for event in events])}\n"
        f"positions: {columns}\nevents: {' '.join(NAMES[event.number] for event in events)}\n"
        f"summary: {profile.total}\n"
    )
    out.write(encoded(head))
    writer = _Writer(profile, has_address, has_row or not has_address)
    for function in sorted(profile.functions):
        out.write(encoded("".join(writer.function(function))))
    out.write(encoded(f"\ntotals: {profile.total}\n"))


def _listed(words):
    return " and ".join([", ".join(words[:-1])] * (len(words) > 1) + words[-1:])


def _marks(*scopes):
    return bytes(scope in scopes for scope in range(256))


_IS_ROOT, _IS_PROC, _IS_PLACE = _marks(ROOT), _marks(PROC), _marks(CALL, STMT)
_IS_OPEN = _marks(ROOT, PROC, INLINE, CALL)


# Of the number of a block: a file's place, and -1 for none, behind this where it is inlined.
_INLINED = 1 << 33


class _Functions:
    """The costs by function. A function is a procedure's place in the list, or -1 - kind for a root. A block of a
    function is a file's place, and _INLINED more for what is inlined."""

    def __init__(self, database, every):
        self.nodes, self.labels = database.nodes, Labels(database)
        self.periods = [shown.event(database).period for shown in every]

    def name(self, function):
        return ROOT_NAMES[-1 - function] if function < 0 else self.labels.procedures[function]


class _ProfileByNumpy(_Functions):
    """The same of a large database. Rows lie one after another, and each block has a part of them."""

    def __init__(self, database, every):
        super().__init__(database, every)
        columns = calls_by_numpy.Columns(database, every)
        self.functions, self.files = columns.functions(), columns.files_of_functions()
        self.files_of_places = columns.files_of_places()
        self.total = _Cost.of([int(own.sum()) for own in columns.own])
        self.blocks = {function: {} for function in self.functions}
        (functions, blocks, lines), costs = columns.costs()
        rows = list(chain.from_iterable(zip(lines.tolist(), self._texts(costs))))
        for function, block, start, end in calls_by_numpy.slices(functions, blocks):
            self._block(function, block, columns.files)[0] = rows[2 * start : 2 * end]
        (functions, blocks, lines, called), costs = columns.calls()
        samples = sum(each // period for each, period in zip(costs, self.periods)).tolist()
        rows = list(zip(lines.tolist(), called.tolist(), samples, self._texts(costs)))
        for function, block, start, end in calls_by_numpy.slices(functions, blocks):
            self._block(function, block, columns.files)[1] = rows[start:end]

    def _block(self, function, number, files):
        """The rows of a function's block with this number."""
        is_inlined, file = divmod(number, files + 1)
        return self.blocks[function].setdefault(file - 1 + is_inlined * _INLINED, [(), ()])

    @staticmethod
    def _texts(costs):
        return costs[0].tolist() if len(costs) == 1 else map(_Cost, zip(*(each.tolist() for each in costs)))

    def positions(self):
        """Whether places are addresses, and whether they are rows of line tables."""
        return -1 in self.files_of_places, bool(self.files_of_places - {-1})

    def blocks_of(self, function):
        """By its blocks: lines and costs in turn, ascending; and calls: line, what is called, samples, cost."""
        return self.blocks[function]


class _Profile(_Functions):
    """The costs of a database, gathered plainly."""

    def __init__(self, database, every):
        super().__init__(database, every)
        # The scope above each node, where there is one.
        self.above = bytes(picked(self.nodes.scope, self.nodes.parent))
        self.function_of = self._functions()
        self.files = self._files()
        roots = compress(self.nodes.operand, self.nodes.scope.translate(_IS_ROOT))
        self.functions = {-1 - kind for kind in roots}
        all_costs = [shown.inclusive(database) for shown in every]
        for all_ in all_costs:
            has_cost = map(operator.and_, self.nodes.scope.translate(_IS_PROC), map(bool, all_))
            self.functions |= {*compress(self.nodes.operand, has_cost)}
        own_costs = [shown.exclusive(database) for shown in every]
        self.total = _Cost.of([sum(own) for own in own_costs])
        # Function, block, line: cost. Function, block, line, called function: cost. A cost is a number, or a _Cost.
        self.costs = self._joined([self._gathered(self._costs(own)) for own in own_costs])
        self.calls = self._joined([self._gathered(self._calls(all_)) for all_ in all_costs])

    def _functions(self):
        """For each node but a statement the function that it lies in."""
        found, nodes = [0] * len(self.nodes), self.nodes
        rows = zip(range(len(nodes)), nodes.scope, nodes.parent, nodes.operand)
        for node, scope, parent, operand in compress(rows, nodes.scope.translate(_IS_OPEN)):
            found[node] = found[parent] if scope > PROC else operand if scope == PROC else -1 - operand
        return found

    def _files(self):
        """Each function's file: that of the first place that is its own, not of what is inlined in it."""
        nodes, is_of_proc = self.nodes, self.above.translate(_IS_PROC)
        is_own = bytes(compress(nodes.scope.translate(_IS_PLACE), is_of_proc))
        files = list(compress(compress(nodes.line_file, is_of_proc), is_own))
        functions = picked(nodes.operand, list(compress(compress(nodes.parent, is_of_proc), is_own)))
        # Of two the first one stays.
        own = zip(reversed(functions), reversed(files))
        return {function: file for function, file in own if file >= 0}

    def positions(self):
        """Whether places are addresses, and whether they are rows of line tables."""
        files = set(compress(self.nodes.line_file, self.nodes.scope.translate(_IS_PLACE)))
        return -1 in files, bool(files - {-1})

    def blocks_of(self, function):
        """By its blocks: lines and costs in turn, ascending; and calls: line, what is called, samples, cost."""
        costs, calls = self.costs[function], self.calls[function]
        return {
            block: (
                list(chain.from_iterable(sorted(costs.get(block, {}).items()))),
                [(*place, self._samples(cost), cost) for place, cost in sorted(calls.get(block, {}).items())],
            )
            for block in costs.keys() | calls.keys()
        }

    def _samples(self, cost):
        return cost // self.periods[0] if len(self.periods) == 1 else sum(map(operator.floordiv, cost, self.periods))

    def _gathered(self, rows):
        """The costs of rows by their function, block and place, added up."""
        found = {function: {} for function in self.functions}
        before = above = places = None
        for function, block, place, cost in rows:
            # Many rows of one function follow one another.
            if function != before:
                before, above = function, found[function]
            places = above.get(block)
            if places is None:
                above[block] = {place: cost}
            elif place in places:
                places[place] += cost
            else:
                places[place] = cost
        return found

    def _blocks(self, files, above):
        """The blocks of places with these files, below these scopes."""
        return map(operator.add, files, map((0, 0, _INLINED, 0, 0).__getitem__, above))

    def _joined(self, gathered):
        """The costs of all events at each place."""
        if len(gathered) == 1:
            return gathered[0]
        found = {function: {} for function in self.functions}
        for function, blocks in found.items():
            for block in set().union(*(each[function] for each in gathered)):
                places = [each[function].get(block, {}) for each in gathered]
                blocks[block] = {place: _Cost.of([of.get(place, 0) for of in places]) for place in set().union(*places)}
        return found

    def _costs(self, own):
        """The rows of statements: nothing else has a cost of its own."""
        nodes = self.nodes
        functions = picked(self.function_of, list(compress(nodes.parent, own)))
        blocks = self._blocks(compress(nodes.line_file, own), compress(self.above, own))
        return zip(functions, blocks, compress(nodes.line, own), filter(None, own))

    def _calls(self, all_):
        """The rows of calls, each sample once where one call is within the same."""
        nodes, end, covered = self.nodes, ends(self.nodes), {}
        has_cost = bytes(map(operator.and_, nodes.scope.translate(_IS_PROC), map(bool, all_)))
        called = list(compress(range(len(nodes)), has_cost))
        callers = picked(nodes.parent, called)
        functions = picked(self.function_of, callers)
        files, lines, above = (picked(column, callers) for column in (nodes.line_file, nodes.line, self.above))
        places = zip(lines, picked(nodes.operand, called))
        rows = zip(called, functions, files, self._blocks(files, above), places, picked(all_, called))
        for node, function, file, block, place, cost in rows:
            key = function, file, place
            if node >= covered.get(key, 0):
                covered[key] = end[node]
                yield function, block, place, cost


class _Cost(tuple):
    """The costs of several events, as they are written."""

    @classmethod
    def of(cls, costs):
        return cls(costs) if len(costs) > 1 else costs[0]

    def __str__(self):
        return " ".join(map(str, self))


class _Writer:
    """Writes functions. Each name is written once, and is a number from then on."""

    def __init__(self, profile, has_address, has_row):
        self.profile = profile
        self.has_address, self.has_row = has_address, has_row
        # Files by their numbers, from 1; they are told from names that are alike by their text alone.
        self.files = {file: f"({file + 2}) {name}" for file, name in enumerate(profile.labels.files)}
        self.files[-1] = f"(1) {UNKNOWN}"
        # Where each function begins: its file, and the position of a call to it.
        files = {function: profile.files.get(function, -1) for function in profile.functions}
        self.starts = {function: (file, self.position(file, min(file, 0))) for function, file in files.items()}
        self.called = {function: f"({function + 3}) {profile.name(function)}" for function in profile.functions}
        # How calls to a function begin that was called before.
        self.known = {}

    def file(self, file):
        text, self.files[file] = self.files[file], f"({file + 2})"
        return text

    def name(self, function):
        text, self.called[function] = self.called[function], f"({function + 3})"
        return text

    def position(self, file, line):
        columns = [f"0x{line if file < 0 and line >= 0 else 0:x}"] if self.has_address else []
        return " ".join(columns + [str(line if file >= 0 else 0)] * self.has_row)

    def function(self, function):
        """The lines of a function: its own block, and then the others."""
        own_file, blocks = self.profile.files.get(function, -1), self.profile.blocks_of(function)
        lines = [f"\nfl={self.file(own_file)}\nfn={self.name(function)}\n"]
        self.block(lines, own_file, *blocks.pop(own_file, ((), ())))
        for block in sorted(blocks):
            file = block if block < _INLINED - 1 else block - _INLINED
            lines.append(f"fi={self.file(file)}\n")
            self.block(lines, file, *blocks[block])
        if blocks:
            lines.append(f"fe={self.file(own_file)}\n")
        return lines

    def block(self, lines, file, costs, calls):
        """`costs` has lines and their costs in turn, `calls` lines, what is called there, samples and costs."""
        before = "0x0 " if self.has_address else ""
        row = f"{before}%d %s\n" if file >= 0 else f"0x%x{' 0' * self.has_row} %s\n"
        lines.append(row * (len(costs) // 2) % tuple(costs))
        for line, called, samples, cost in calls:
            called_file, cfi, cfn, start = self.known.get(called) or self.call(called, file)
            place = f"{before}{line}" if file >= 0 else self.position(file, line)
            lines.append(f"{'' if called_file == file else cfi}{cfn}{samples}{start}{place} {cost}\n")

    def call(self, called, file):
        """The file of a function that is called in a file, and the parts of its lines; once it is known, by numbers."""
        called_file, start = self.starts[called]
        file_name = "" if called_file == file else self.file(called_file)
        first = called_file, f"cfi={file_name}\n", f"cfn={self.name(called)}\ncalls=", f" {start}\n"
        self.known[called] = called_file, f"cfi=({called_file + 2})\n", f"cfn=({called + 3})\ncalls=", f" {start}\n"
        return first
