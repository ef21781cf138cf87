"""What to do about a refusal: what is tried at once, and what is said of it: its causes, and the section of the handbook."""
import dataclasses
import os
import re
import shlex

from xrepair_lib.job import HERE, program, read, script, shown
from xrepair_lib.modules import HEAD, found_fits, shorn
from xrepair_lib.texts import declarations, due, plain, scopes_of, upto_end, words_of

MOMENTS = 200_000  # as many moments are looked at for changes that no input made
CHEAP = 60  # seconds: what took longer isn't tried again with other words
PLACES = 1 << 27  # the most places of a run without --places
MOST = 1 << 33  # up to so many places, which take minutes, a run is tried with --places
BLOCKS = 5  # the most blocks that are listed
RACED = 8  # the most lines of what the script raced says
PHASES = {5: 1, 6: 1, 7: 2, 11: 2, 8: 3, 9: 3, 10: 4, 0: 5}  # how far a run came that ended with this status
DIFFERS = re.compile(
    r"refused: (disagrees|unsettled|optimistic) #(\d+) (?:round \d+ )?(.+) (?:recorded|kept|replayed) (\S) (?:replayed|next|found) (\S)"
)
UNDECIDED = re.compile(r" undecided (\d+)$")
TOO_LARGE = re.compile(r"too large places (\d+)$")


def progress(answer):
    """How far a run came: its phase, and the time where that is in the refusal."""
    found = DIFFERS.match(answer.line)
    return PHASES.get(answer.status, 0), int(found[2]) if found and answer.status in (8, 9) else 0


# ---- what is tried: each gives the changed job and what was done, or None and why nothing was


def trim(run, job, answer):
    """Where the netlist is refused: without the definitions that the top doesn't need."""
    if answer.status != 5 or job.files != run.files:
        return None, ""
    if not program("xrtrim"):
        return None, "xrtrim, which drops what the top doesn't need of a library, isn't there"
    to = run.folder.path("trimmed.v")
    answer = run.call("xrtrim", [program("xrtrim"), "--top", job.top, "--to", to, *job.files], "trim.txt")
    if answer.status:
        return None, f"xrtrim ended with status {answer.status}: {answer.line}"
    return dataclasses.replace(job, files=(to,)), "the definitions that the top doesn't need were dropped by xrtrim (trimmed.v)"


def settle(run, job, answer):
    """Where the recording has delays: folded into moments without."""
    if answer.status not in (8, 9) or job.record != run.record:
        return None, ""
    moments, alone = moves_alone(run, job)
    if not alone:
        return None, ""
    run.has_delays = f"nets change in {alone} of {moments} moments in which no input of the top does, as in one with delays"
    if not script("settle", run.me):
        return None, f"{run.has_delays}; the script settle, which folds these, isn't there"
    to = run.folder.path("settled.vcd")
    words = [script("settle", run.me), "--scope", job.scope, "--top", job.top, job.record, to, *run.files]
    answer = run.call("settle", words, "settle.txt")
    if answer.status:
        return None, f"{run.has_delays}; settle ended with status {answer.status} {answer.line}"
    return dataclasses.replace(job, record=to), f"{run.has_delays}: it was folded by settle (settled.vcd): {answer.line}"


def start(run, job, answer):
    """Where a register is known at the first moment and can't be from a cold start: as it is recorded there."""
    found = DIFFERS.match(answer.line)
    if answer.status != 8 or job.option("start", None) or not found or (found[4] in "01", found[5]) != (True, "x"):
        return None, ""
    return job.given("start", "recorded"), "registers start as they are recorded first (--start recorded), since it begins late"


def rounds(number):
    """With more rounds: for ripples and clocks that pass many gates."""

    def more(_, job, answer):
        if answer.status not in (8, 9) or answer.seconds > CHEAP or int(job.option("rounds", 4)) >= number:
            return None, ""
        return job.given("rounds", str(number)), f"a moment has {number} rounds (--rounds {number})"

    return more


def conflicts(number):
    """With longer searches, where a line before the refused place is undecided."""

    def more(_, job, answer):
        found = UNDECIDED.search(answer.line)
        if answer.status != 10 or not found or found[1] == "0" or answer.seconds > CHEAP:
            return None, ""
        if int(job.option("conflicts", 1000)) >= number:
            return None, ""
        return job.given("conflicts", str(number)), f"a search may learn {number} clauses (--conflicts {number})"

    return more


def levels(run, job, answer):
    """Where the simulator knows too much: with levels that hold, by which registers reset others in every world."""
    if answer.status != 10 or job.option("levels", None):
        return None, ""
    return job.given("levels", "hold"), "an active set or reset and an open latch hold their register (--levels hold)"


def places(run, job, answer):
    """Where there are more places than without the word: memory goes by what changes."""
    found = TOO_LARGE.search(answer.line)
    if answer.status != 11 or not found or job.option("places", None) or int(found[1]) > MOST:
        return None, ""
    return job.given("places", found[1]), f"there are {found[1]} places (--places {found[1]})"


TRIED = (places, trim, settle, start, rounds(8), rounds(16), conflicts(10_000), conflicts(100_000), levels)


def moves_alone(run, job):
    """How many moments after the first have a change below the scope, and in how many of them no input of the top changes."""
    path = tuple(job.scope.encode().split(b"."))
    inputs = run.netlist.modules[job.top.encode()].ports()[0]
    with open(job.record, "rb") as file:
        words = words_of(file)
        scopes = scopes_of(declarations(words))
        below = {it.code for scope, own in scopes.items() if scope[: len(path)] == path for it in own}
        driven = {it.code for it in scopes.get(path, []) if shorn(plain(it.name)) in inputs}
        moments = list(changed_codes(words, below))[1:]
    return len(moments), sum(1 for changed in moments if not changed & driven)


def changed_codes(words, below):
    """Of each moment the codes, of these, that get another value in it, where there are any; of so many moments at most."""
    values, changed, count = {}, set(), 0
    for word in words:
        first = word[:1]
        if first == b"#" and changed:
            yield changed
            changed, count = set(), count + 1
            if count == MOMENTS:
                return
        elif word == b"$comment":
            upto_end(words, [])
        elif first in b"01xzXZbBrR":
            code, value = (due(words), word) if first in b"bBrR" else (word[1:], first)
            if code in below and values.get(code) != value:
                values[code] = value
                changed.add(code)
    if changed:
        yield changed


# ---- what is said


SECTIONS = {5: "Libraries", 7: "Making the recording", 8: "Races", 9: "Making the recording", 10: "Resets", 11: "Long recordings"}


def handbook(section):
    """Where a section of the handbook stands."""
    there = (os.path.join(HERE, "..", *way, "docs", "HANDBOOK.md") for way in ((), ("share", "doc", "xrepair")))
    path = next((os.path.relpath(path) for path in there if os.path.exists(path)), "docs/HANDBOOK.md")
    return f"the handbook, '{section}': {path}"


def advice(run, job, answer):
    """What to do about a refusal that nothing that was tried helps, a line each."""
    known = {
        5: netlist_refused, 6: loop, 7: recording_refused, 8: disagrees, 9: unsettled, 10: optimistic, 11: too_large,
        3: lambda *_: ["is the file there, and may it be read?"], 4: lambda *_: ["is there room on the disk?"],
        20: lambda *_: ["out of memory: a shorter recording needs less: xrepair-cut cuts it in time"],
    }  # fmt: skip
    lines = list(known.get(answer.status, lambda *_: [])(run, job, answer))
    section = "Simulations with delays" if run.has_delays else SECTIONS.get(answer.status)
    return lines + ([f"see {handbook(section)}"] if section else [])


def netlist_refused(run, job, answer):
    if "no module" in answer.line:
        yield f"the modules that no other instantiates are {names(it.name for it in run.netlist.tops())}:"
        yield "name one by --top, or add the file that has the missing one"
    elif "directive" in answer.line:
        yield "run a preprocessor first, as `iverilog -E -o flat.v FILE..`"
    elif "two modules" in answer.line:
        yield "leave one of the two definitions out"
    else:
        yield "the top needs this: give a structural model of it in its place"
        yield from blocks(run, job, answer)


def blocks(run, job, answer):
    """The blocks, with their scopes, that don't need the module in which the netlist is refused."""
    at = re.search(r"netlist at (\d+)", answer.line)
    text = b"\n".join(map(read, job.files))[: int(at[1])] if at else b""
    heads = [plain(name) for name in HEAD.findall(text) if plain(name) in run.netlist.modules]
    if heads:
        free = [it for it in run.netlist.modules.values() if any(it.ports()) and heads[-1] not in run.netlist.needed(it.name)]
        fits = sorted(found_fits(run.recording, free, None), key=lambda it: -it.count)
        if fits:
            yield f"or repair a block that doesn't need {heads[-1].decode('utf-8', 'replace')}, by these words, a guess by names:"
            yield from (f"  {fit_words(it)}" for it in fits[:BLOCKS] if it.count * 10 >= fits[0].count)


def fit_words(fit):
    """The words that choose a scope and a top, and how many variables are there."""
    scope, top = (name.decode("utf-8", "replace") for name in (b".".join(fit.scope), fit.module.name))
    return f"--scope {shlex.quote(scope)} --top {shlex.quote(top)}  ({fit.count} variables)"


def loop(*_):
    yield "cells drive each other in a ring: cut it, or repair a block without it by --top and --scope"


def recording_refused(_, job, answer):
    if "missing input" in answer.line:
        yield f"record every input of the top, as by $dumpvars(0, {job.scope})"
    elif "range differs" in answer.line:
        yield "is this the netlist of the recording, and its top? another scope is named by --scope"
    elif "truncated" in answer.line:
        yield "the recording ends early: did its simulation end, and was the file copied whole?"
    elif "dump off" in answer.line:
        yield "record without $dumpoff: what changes while the dump is off is not known"


def disagrees(run, job, answer):
    found = DIFFERS.match(answer.line)
    yield f"at {found[2]} the simulator showed {found[4]} on {found[3].strip()}, and the netlist gives {found[5]}"
    said = raced(run, job, found[2])
    if said and said[0].startswith("raced"):
        yield from ("it is a race, by the script raced (raced.txt):", *said)
        return
    yield "the usual causes, the likeliest first:"
    if run.has_delays:
        yield f"- delays: {run.has_delays}"
    yield "- another netlist than the one that was simulated, or other inputs: was it this version?"
    if not run.has_delays:
        yield "- delays in the simulation, a force or a deposit, or behaviour in a cell that the netlist hasn't"
    if said:
        yield "- no race, by the script raced (raced.txt)"
    else:
        yield "- data that changed with the clock's edge: let inputs change at the other edge, or after it"
        if script("raced", run.me):
            yield "  the script raced couldn't tell; with the whole instance recorded it mostly can"


def raced(run, job, time):
    """The lines that the script raced prints of a disagreement, where there is one and it ends well."""
    path = script("raced", run.me)
    if not path:
        return []
    options = ["--rounds", job.option("rounds", "4")]
    answer = run.call("raced", [path, "--scope", job.scope, "--top", job.top, *options, time, job.record, *job.files], "raced.txt")
    said = read(run.folder.path("raced.txt")).decode("utf-8", "replace")
    return list(filter(None, said.split("\n")))[:RACED] if answer.status == 0 else []


def unsettled(*_):
    yield "a moment isn't at rest after its rounds: a ripple of n stages needs n + 1 of them, at most 16 (--rounds)"


def optimistic(run, job, _):
    """What `audit` says of the places that the simulator knows and that not every filling gives, with levels that hold."""
    held = job if job.option("levels", None) else job.given("levels", "hold")
    answer = run.xrepair("audit", held, "audit.txt")
    counted = re.match(r"audit places \d+ listed (\d+)", answer.line)
    if answer.status or not counted:
        yield f"audit ended with status {answer.status}: {answer.line}"
        return
    yield f"the simulator knows {counted[1]} places that not every filling gives (audit.txt). They begin at these rows of primitives:"
    with open(run.folder.path("audit.txt"), "rb") as file:
        rows = [line.decode("utf-8", "replace").split() for line in file if line.startswith(b"primitive ")]
    for _, number, _, row, _, count in sorted(rows, key=lambda it: -int(it[5]))[:5]:
        name = run.primitive(job, int(number))
        yield f"- {name or 'primitive ' + number}, row {row}: {count} places"
    if held.option("levels", None) == "change":
        yield "a register that other registers reset does this: --levels hold may help"
    else:
        yield "such a row gives a value at an x where 0 and 1 don't both give it"


def too_large(run, job, answer):
    found = TOO_LARGE.search(answer.line)
    if found:
        with open(job.record, "rb") as file:
            moments = sum(1 for word in words_of(file) if word[:1] == b"#" and word[1:].isdigit())
        each = max(moments * PLACES // int(found[1]) * 9 // 10, 2)
        yield f"give it --places {found[1]}, at most {1 << 40}, or"
        yield f"cut the recording in time: {shown(script('cut', run.me))} --moments {each} {job.record}"
        yield "and repair each window, all but the first with --start recorded"
    elif "recording" in answer.line:
        yield "cut the recording in time, by xrepair-cut"
    else:
        yield "keep of the netlist what the top needs, by xrtrim"


def names(all_of, most=8):
    """Some names in words."""
    listed = [name.decode("utf-8", "replace") for name in all_of]
    return ", ".join(listed[:most]) + (f" and {len(listed) - most} more" if len(listed) > most else "")
