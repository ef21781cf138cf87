"""A job of xrepair as the scripts run it: its words, the folder of what is written, the programs and scripts that are called."""
import dataclasses
import gzip
import os
import shutil
import subprocess
import time

HERE = os.path.dirname(os.path.dirname(os.path.realpath(__file__)))
MARKER = "written-by-xrepair-quick"  # the file that lists what was written into a folder
JOB_OPTIONS = ("rounds", "places", "conflicts", "enumerate", "start", "levels", "undriven")  # of commands with a job; replay decides nothing


class Refused(Exception):
    """Why nothing is done."""


class Folder:
    """A folder in which only that is written which wasn't there, or which was written there before."""

    def __init__(self, name):
        self.name, self.marker, self.written = name, os.path.join(name, MARKER), []
        if not os.path.exists(name):
            os.mkdir(name)
        elif not os.path.isfile(self.marker) and (not os.path.isdir(name) or os.listdir(name)):
            raise Refused(f"{name} is there, and has no file {MARKER}: give another folder by --to")
        else:
            self.clear()
        self.note([])

    def clear(self):
        """Takes away what was written before, also what a run that was killed left unfinished."""
        if os.path.isfile(self.marker):
            with open(self.marker, encoding="utf-8") as file:
                names = [name for name in file.read().split("\n") if name and os.path.basename(name) == name]
            for name in (*names, *(f"{name}.part" for name in names)):
                if os.path.lexists(os.path.join(self.name, name)):
                    os.remove(os.path.join(self.name, name))

    def drop(self, name):
        """Takes a file away that was written."""
        os.remove(self.path(name))

    def leave(self):
        """Leaves no folder where nothing but the marker stands in it."""
        if os.listdir(self.name) == [MARKER]:
            os.remove(self.marker)
            os.rmdir(self.name)

    def note(self, names):
        """Says in the marker that these are written too."""
        self.written += names
        with open(self.marker, "w", encoding="utf-8") as file:
            file.writelines(f"{name}\n" for name in self.written)

    def path(self, name):
        """The path of a file that is to be written there."""
        path = os.path.join(self.name, name)
        if name not in self.written:
            if os.path.lexists(path):
                raise Refused(f"{path} is there, and xrepair-quick didn't write it")
            self.note([name])
        return path


def read(name):
    with open(name, "rb") as file:
        return file.read()


def unpacked(name, folder, say):
    """The recording as a VCD file: itself, or unpacked into the folder, which is said."""
    with open(name, "rb") as file:
        first = file.read(9)
    if first[:2] == b"\x1f\x8b":
        say(f"unpacks {name}")
        with gzip.open(name) as source, open(folder.path("recording.vcd"), "wb") as to:
            shutil.copyfileobj(source, to, 1 << 20)
    elif name.endswith(".fst") or first == b"\0" + (329).to_bytes(8, "big"):
        if not shutil.which("fst2vcd"):
            raise Refused(f"{name} is an FST file, and fst2vcd, which comes with GTKWave, isn't there to unpack it")
        say(f"unpacks {name} by fst2vcd")
        if subprocess.run(["fst2vcd", "-f", name, "-o", folder.path("recording.vcd")], stdout=subprocess.DEVNULL).returncode:
            raise Refused(f"fst2vcd couldn't unpack {name}")
        close_dump(folder.path("recording.vcd"))
    else:
        return name
    return folder.path("recording.vcd")


def close_dump(name):
    """Ends the dump of a recording of one moment, which fst2vcd leaves open."""
    text = read(name)
    if text.rfind(b"$dumpvars") > text.rfind(b"$end"):
        with open(name, "ab") as file:
            file.write(b"$end\n")


@dataclasses.dataclass(frozen=True)
class Job:
    """What is repaired: a recording, the scope and the top, the netlist, and the other options by their names."""

    record: str
    scope: str
    top: str
    files: tuple
    options: tuple = ()

    def option(self, name, default):
        return dict(self.options).get(name, default)

    def given(self, name, value):
        """The job with another value of an option."""
        return dataclasses.replace(self, options=tuple({**dict(self.options), name: value}.items()))

    def words(self, options=JOB_OPTIONS):
        """The words that all commands have in common, the options of these names among them."""
        given = [word for name, value in self.options if name in options for word in (f"--{name}", value)]
        return ["--record", self.record, "--scope", self.scope, "--top", self.top, *given, *self.files]


@dataclasses.dataclass(frozen=True)
class Answer:
    """How a call ended: its status, what the first line that it printed says, and its seconds."""

    status: int
    line: str
    seconds: float


def program(name):
    """The command xrepair or xrtrim, where there is one: that of XREPAIR or XRTRIM in the environment, or the one beside the scripts."""
    path = os.environ.get(name.upper()) or os.path.join(HERE, name)
    return path if os.path.exists(path) else None


def script(name, me):
    """A script beside the one whose name is given, named as that is; None where there is none."""
    path = os.path.join(HERE, ("xrepair-" if me.startswith("xrepair-") else "") + name)
    return path if os.path.exists(path) else None


def shown(path):
    """A program or script as a user calls it: by its name where the path leads to it, else from here."""
    found = shutil.which(os.path.basename(path))
    return os.path.basename(path) if found and os.path.samefile(found, path) else os.path.relpath(path)


def call(words, to, limit=None):
    """Calls a command, whose text goes to a file; after so many seconds it is ended, and the answer is None."""
    start = time.monotonic()
    with open(to, "wb") as file:
        try:
            status = subprocess.run(words, stdout=file, stdin=subprocess.DEVNULL, timeout=limit).returncode
        except subprocess.TimeoutExpired:
            return None
    with open(to, "rb") as file:
        line = file.readline(1 << 16).decode("utf-8", "replace").rstrip("\r\n")
    return Answer(status, line, time.monotonic() - start)
