"""What a report says of nets over time: the runs of moments in which each was repaired, undecided or unknown; sums by scope."""
import heapq
import itertools

from xrepair_lib.texts import Refused, bits_of, path_of, text_of

KINDS = ("unknown", "undecided", "repaired")  # in the order in which a chart stacks them
KIND = {b"0": 2, b"1": 2, b"unknown": 0, b"undecided": 1}
COLUMNS = 800  # the most columns of a chart


class Net:
    """A net, or a bit of one: its written name, scope and own name, its moments of each kind, and its runs of moments of one result."""

    __slots__ = ("written", "scope", "own", "counts", "runs")

    def __init__(self, name):
        path, index = path_of(name)
        path = tuple(map(text_of, path))
        self.written, self.scope = text_of(name), path[:-1]
        self.own = path[-1] if index is None else f"{path[-1]}[{index}]"
        self.counts, self.runs = [0, 0, 0], []

    def add(self, moment, result):
        """At this moment, the next after those before, it had this result."""
        self.counts[KIND[result]] += 1
        if self.runs and self.runs[-1][1] == moment - 1 and self.runs[-1][2] == result:
            self.runs[-1][1] = moment
        else:
            self.runs.append([moment, moment, result])


class Moments:
    """The times of a recording, and the columns in which a chart shows them: one a moment, or slices of time where they are many."""

    def __init__(self, times, columns=COLUMNS):
        self.times = times or [0]
        self.length = max(self.times[-1] - self.times[0], 1)
        self.after = self.times[-1] + max(self.length // 50, 1)  # where the last moment is drawn to end
        self.is_exact = len(self.times) <= columns
        self.count = len(self.times) if self.is_exact else columns
        self.number = {time: number for number, time in enumerate(self.times)}

    def end_of(self, moment):
        """The time at which the moment ends."""
        return self.times[moment + 1] if moment + 1 < len(self.times) else self.after

    def place(self, time):
        """Where a time is among the slices, in slices."""
        return (time - self.times[0]) * self.count / (self.after - self.times[0])

    def starts(self):
        """The time at which each column begins, and the one at which the last ends."""
        if self.is_exact:
            return [*self.times, self.after]
        step = (self.after - self.times[0]) / self.count
        return [self.times[0] + step * number for number in range(self.count + 1)]


class Bits:
    """How many bits have each kind in each column, from the runs of nets: in a slice of time as an average over it."""

    def __init__(self, moments):
        self.moments = moments
        self.changes = [[0] * (moments.count + 2) for _ in KINDS]  # from each column on
        self.parts = [[0.0] * (moments.count + 1) for _ in KINDS]  # in one column alone

    def add(self, net):
        for first, last, result in net.runs:
            kind = KIND[result]
            if self.moments.is_exact:
                self.changes[kind][first] += 1
                self.changes[kind][last + 1] -= 1
            else:
                self.add_slices(kind, self.moments.place(self.moments.times[first]), self.moments.place(self.moments.end_of(last)))

    def add_slices(self, kind, first, last):
        """A bit has the kind from one place among the slices to another."""
        changes, parts = self.changes[kind], self.parts[kind]
        if int(first) == int(last):
            parts[int(first)] += last - first
        else:
            parts[int(first)] += 1 - first % 1
            parts[int(last)] += last % 1
            changes[int(first) + 1] += 1
            changes[int(last)] -= 1

    def heights(self):
        """Of each kind, how many bits have it in each column."""
        sums = (itertools.accumulate(changes[: self.moments.count]) for changes in self.changes)
        return [[whole + part for whole, part in zip(*pair)] for pair in zip(sums, self.parts)]


class Scope:
    """A scope of nets: its own nets, the scopes directly below it, and how often a bit of it and below it has each kind."""

    def __init__(self, path):
        self.path, self.nets, self.below, self.counts = path, [], {}, [0, 0, 0]

    def total(self):
        return sum(self.counts)

    def all_nets(self):
        yield from self.nets
        for scope in self.below.values():
            yield from scope.all_nets()


def nets_of(lines, moments):
    """The nets of a report's lines, by their names, in order."""
    nets = {}
    for number, time, name, result in bits_of(lines):
        net = nets.get(name)
        if net is None:
            net = nets[name] = Net(name)
        if time not in moments.number:
            raise Refused(f"line {number}: the recording has no moment at {time}")
        net.add(moments.number[time], result)
    return list(nets.values())


def tree_of(nets):
    """The scope at the top, with all nets at and below it."""
    top = Scope(())
    for net in nets:
        scope = top
        for name in (None, *net.scope):
            if name is not None:
                scope = scope.below.setdefault(name, Scope((*scope.path, name)))
            scope.counts = [sum(pair) for pair in zip(scope.counts, net.counts)]
        scope.nets.append(net)
    return top


def shown_scopes(top, most):
    """The scopes that have most, so many of them at most; each with that above it."""
    shown, due = set(), [(-top.total(), top.path, top)]
    while due and len(shown) < most:
        scope = heapq.heappop(due)[2]
        shown.add(scope.path)
        for it in scope.below.values():
            heapq.heappush(due, (-it.total(), it.path, it))
    return shown
