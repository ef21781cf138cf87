"""Guesses the top of a netlist and its scope in a recording, by the names of modules, instances and ports alone.

What it finds is a guess, since it reads no more of a netlist than names: xrepair says whether it is right."""
import re

NAME = rb"(?:\\[!-~]+|[A-Za-z_][\w$]*)"
# An escaped name stands for itself; comments, texts, attributes and directives are dropped.
DROPPED = re.compile(
    rb'(\\[!-~]+)|//[^\n]*|/\*.*?\*/|"[^"\n]*"|\(\*(?!\s*\)).*?\*\)|`(?:timescale|line|include|define)[^\n]*|`\w+', re.S
)
MODULE = re.compile(rb"\b(?:macro)?module\s+(" + NAME + rb")(.*?)\bendmodule\b", re.S)
HEAD = re.compile(rb"\b(?:macro)?module\s+(" + NAME + rb")")
PRIMITIVE = re.compile(rb"\bprimitive\s+(" + NAME + rb")")
FIRST = re.compile(rb"(?:;|\bendspecify\b)\s*(" + NAME + rb")")
CALLED = re.compile(rb"(?<![.\w$\\])(" + NAME + rb")\s*\(")
PORTS = re.compile(rb"\b(?:input|output)\b[^;]*")
TOKEN = re.compile(rb"\[[^\]]*\]|" + NAME + rb"|[(),;]")
NO_NAMES = {b"wire", b"reg", b"tri", b"signed"}
TRIED = 200  # the most scopes that are looked at for near misses


def plain(name):
    return name[1:] if name.startswith(b"\\") else name


class Module:
    """A module of a netlist, by its name and the text after it."""

    def __init__(self, name, text):
        self.name, self.text = name, text
        self.mentioned = set(map(plain, FIRST.findall(text)))  # the words that its items begin with: modules among them
        self._ports = None

    def ports(self):
        """The names of its inputs and those of its outputs."""
        if self._ports is None:
            found, direction = {b"input": set(), b"output": set()}, None
            for declared in PORTS.findall(self.text):
                for token in TOKEN.findall(declared):
                    if token in found or token in (b")", b"inout"):
                        direction = found.get(token)
                    elif direction is not None and token[:1] not in b"[(," and token not in NO_NAMES:
                        direction.add(plain(token))
            self._ports = found[b"input"], found[b"output"]
        return self._ports

    def called(self):
        """The names that stand before a bracket: those of its instances, and some more."""
        return set(map(plain, CALLED.findall(self.text)))


class Netlist:
    """The modules of netlist texts, by their names, and its primitives' names in order."""

    def __init__(self, texts):
        text = DROPPED.sub(lambda it: it[1] or b" ", b"\n".join(texts))
        self.modules = {}
        for name, body in MODULE.findall(text):
            self.modules.setdefault(plain(name), Module(plain(name), body))
        self.primitives = list(map(plain, PRIMITIVE.findall(text)))

    def needed(self, name):
        """The modules that a module is made of, itself among them."""
        found, due = set(), [name]
        while due:
            name = due.pop()
            if name not in found:
                found.add(name)
                due += self.modules[name].mentioned & self.modules.keys()
        return found

    def is_bench(self, module):
        """Whether it is taken for a testbench: it has no ports, and instances of other modules."""
        return not any(module.ports()) and bool(module.mentioned & self.modules.keys())

    def tops(self):
        """The modules that no other instantiates, and those that only testbenches do."""
        users = [it for it in self.modules.values() if not self.is_bench(it)]
        below = set().union(*(it.mentioned - {it.name} for it in users))
        return [it for it in users if it.name not in below] or list(self.modules.values())


class Fit:
    """A scope that may be a module's instance: whether it has the outputs too, and how many variables are in it and below it."""

    def __init__(self, scope, module, recording):
        self.scope, self.module, self.count = scope, module, recording.counts[scope]
        self.has_outputs = module.ports()[1] <= recording.names[scope]


def shorn(name):
    """A variable's name without the range that may stand directly after it."""
    return re.sub(rb"\[-?\d+(:-?\d+)?\]$", b"", name)


class Recording:
    """The scopes of a recording, with the names of their variables and of the scopes directly below each."""

    def __init__(self, scopes, counts):
        self.scopes, self.counts = scopes, counts
        self.names = {path: {shorn(plain(it.name)) for it in own} | {plain(it.name) for it in own} for path, own in scopes.items()}
        self.below = {path: set() for path in scopes}
        for path in scopes:
            if path:
                self.below[path[:-1]].add(path[-1])

    def fits(self, path, module):
        """Whether the scope has all inputs of the module, or without any all outputs, and below it only scopes that are its instances."""
        inputs, outputs = module.ports()
        wanted = inputs or outputs
        has_ports = wanted <= self.names[path] if wanted else bool(self.below[path])
        return has_ports and (not self.below[path] or self.below[path] <= module.called())

    def paths(self, scope):
        """The scope that is given, or all."""
        return [path for path in self.scopes if path and scope in (None, path)]

    def lacks(self, path, module):
        """The inputs of the module that the scope hasn't."""
        return module.ports()[0] - self.names[path]


def found_fits(recording, modules, scope):
    """The scopes, or the one that is given, with modules that fit: none below another, and where any has all outputs such alone."""
    fits, taken = [], set()
    for path in sorted(recording.paths(scope), key=len):
        if not any(path[:depth] in taken for depth in range(len(path))):
            here = [Fit(path, it, recording) for it in modules if recording.fits(path, it)]
            taken.update(it.scope for it in here)
            fits += here
    return [it for it in fits if it.has_outputs] or fits


def guesses(netlist, recording, scope=None, top=None):
    """What fits, and in words which modules were tried: the given one, the tops, or where no top fits all others."""
    if top is not None:
        return found_fits(recording, [netlist.modules[top]], scope), "the given top"
    tops = netlist.tops()
    fits = found_fits(recording, tops, scope)
    if fits:
        return fits, "no other module instantiates it"
    others = [it for it in netlist.modules.values() if it not in tops and any(it.ports())]
    return found_fits(recording, others, scope), "no scope has the inputs of a module that no other instantiates"


def near_misses(netlist, recording, scope=None, top=None):
    """The scopes that lack fewest of the inputs of a top: what is lacking, the scope and the module."""
    modules = [netlist.modules[top]] if top is not None else netlist.tops()
    paths = recording.paths(scope)[:TRIED]
    misses = [(recording.lacks(path, it), path, it) for it in modules for path in paths if it.ports()[0]]
    misses = [it for it in misses if it[0] < it[2].ports()[0]]
    return sorted(misses, key=lambda it: (len(it[0]) / len(it[2].ports()[0]), len(it[1])))
