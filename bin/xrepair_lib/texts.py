"""What the scripts beside it read: the words and declarations of a recording, a report, what `blame` prints, a certificate."""
import re

PIECE = 1 << 20  # bytes that are read at once
LONGEST = 1 << 22  # the most bytes of a word
OWN_WORDS = {b"$var": 4, b"$scope": 2}  # how many words of a declaration stand before one may be its $end
DECLARATIONS = {b"$date", b"$version", b"$comment", b"$timescale", b"$upscope", b"$enddefinitions", *OWN_WORDS}
NAME = re.compile(rb"\\([^ ]+) |([^.\[ ]+)")  # an escaped name with the blank after it, or a plain one
BIT = re.compile(rb"#(\d+) (.+) (\S) (0|1|unknown|undecided)")
CONDITION = re.compile(rb"condition #(\d+) round (\d+) (.+?) ([01]) needs (.+)")
SOURCE = re.compile(rb"source (.+) #(\d+) round (\d+) bits (\d+)")
CERTAIN = re.compile(rb"([er]) \d+ \d+ ([01])( : (.*))?")


class Refused(Exception):
    """Why a text can't be read."""


def shown(word):
    """The beginning of a word, as a message has it."""
    return word[:40].decode("ascii", "backslashreplace")


def text_of(name):
    """A name's bytes as text."""
    return name.decode("utf-8", "replace")


# ---- recordings


def words_of(file):
    """The words of a file."""
    rest = b""
    while piece := file.read(PIECE):
        piece = rest + piece
        words = piece.split()
        rest = b"" if piece[-1:].isspace() else words.pop()
        if len(rest) > LONGEST:
            raise Refused("a word is too long")
        yield from words
    yield from filter(None, [rest])


def due(words):
    """The next word, which must be there."""
    word = next(words, None)
    if word is None:
        raise Refused("truncated")
    return word


def upto_end(words, taken):
    """The words of a declaration or note whose first ones are taken, with its $end."""
    while (word := due(words)) != b"$end":
        taken.append(word)
    return taken + [word]


def declarations(words):
    """The declarations of a recording, each as its words, the last one that of $enddefinitions."""
    word = None
    while word != b"$enddefinitions":
        word = due(words)
        if word not in DECLARATIONS:
            raise Refused(f"syntax: {shown(word)} is no declaration")
        yield upto_end(words, [word, *(due(words) for _ in range(OWN_WORDS.get(word, 0)))])


def plain(name):
    """A name without the backslash of an escaped one."""
    return name[1:] if name.startswith(b"\\") else name


class Variable:
    """A variable of a recording: the names of its scopes, its own, its range as it stands there, its width, code and kind."""

    __slots__ = ("scopes", "name", "range", "width", "code", "kind")

    def __init__(self, scopes, words):
        self.scopes, self.kind, self.width, self.code, self.name = scopes, *words[1:5]
        self.range = b"".join(words[5:-1])

    def path(self):
        """Its scopes and its name, each without its backslash."""
        return tuple(map(plain, (*self.scopes, self.name)))


def scopes_of(declared):
    """The scopes that declarations have, in order, by their plain names, each with the list of its own variables."""
    scopes, found = (), {(): []}
    for words in declared:
        if words[0] == b"$scope":
            scopes = (*scopes, words[2])
        elif words[0] == b"$upscope":
            scopes = scopes[:-1]
        own = found.setdefault(tuple(map(plain, scopes)), [])
        if words[0] == b"$var":
            own.append(Variable(scopes, words))
    return found


def counted_below(scopes):
    """How many variables each scope has, its own and those of the scopes below it."""
    counts = dict.fromkeys(scopes, 0)
    for path, variables in scopes.items():
        for depth in range(len(path) + 1):
            counts[path[:depth]] += len(variables)
    return counts


def times_of(file):
    """The times of a recording in which each stands in a line of its own, as in one that xrepair wrote: distinct and ascending."""
    times, rest = [], b""
    while piece := file.read(PIECE):
        lines, newline, rest = (rest + piece).rpartition(b"\n")
        times += map(int, re.findall(rb"^#(\d+)", lines, re.M))
    times += map(int, re.findall(rb"^#(\d+)", rest, re.M))
    return sorted(set(times))


# ---- reports and the like


def path_of(name):
    """The names of a net of a report, and its index where it has one."""
    at, path = 0, []
    while found := NAME.match(name, at):
        path.append(found[1] or found[2])
        at = found.end()
        if name[at : at + 1] != b".":
            break
        at += 1
    index = re.fullmatch(rb"\[(\d+)\]", name[at:])
    if not path or at < len(name) and not index:
        raise Refused("no net's name")
    return tuple(path), int(index[1]) if index else None


def refusal_in(line):
    """Whether the line is that of a run that was refused."""
    return line.startswith(b"refused: ")


def bits_of(lines):
    """What the lines of a report say of bits: number of the line, time, the net's name and what became of it."""
    for number, line in enumerate(lines, 1):
        if line.startswith(b"#"):
            found = BIT.fullmatch(line.rstrip(b"\r\n"))
            if not found:
                raise Refused(f"line {number}: no line of a report")
            yield number, int(found[1]), found[2], found[4]
        elif refusal_in(line):
            raise Refused(f"line {number}: of a run that was refused")


def counts_of(lines):
    """The counts in the lines before the first bit's, by their words, as {'places': 28, ..}."""
    found = {}
    for line in lines:
        if line.startswith(b"#") or refusal_in(line):
            break
        words = line.decode("ascii", "replace").split()
        found.update((word, int(number)) for word, number in zip(words[::2], words[1::2]) if number.isdigit())
    return found


def conditions_of(lines):
    """What a report of form 2 says that certain places need: time, round, name, value and list, in place order."""
    for line in lines:
        if found := CONDITION.match(line):
            yield int(found[1]), int(found[2]), found[3], found[4], found[5]


def certain_lines(lines):
    """The lines of a certificate by which a place is certain, in order: the line's number, e or r, the value, clauses of the log."""
    for number, line in enumerate(lines, 1):
        if found := CERTAIN.match(line):
            yield number, found[1].decode(), found[2], len(re.findall(rb"(?<=\s)0(?=\s|$)", found[3] or b""))


def sources_of(lines):
    """The sources that `blame` printed: name, time, round and number of bits."""
    for line in lines:
        if found := SOURCE.match(line):
            yield found[1], int(found[2]), int(found[3]), int(found[4])
