"""What the scripts in this folder read of the repository: its crates in their groups, and the calls that a crate exports."""
import os
import re

ROOT = os.path.dirname(os.path.dirname(os.path.abspath(__file__)))


def text_of(path):
    """The text of a file, named from the top of the repository."""
    with open(os.path.join(ROOT, path), encoding="utf-8") as file:
        return file.read()


def files():
    """The files of the repository, named from its top, but those that builds make."""
    found = []
    for folder, below, names in os.walk(ROOT):
        below[:] = sorted(set(below) - {".git", "out", "__pycache__"})
        found += [os.path.relpath(os.path.join(folder, name), ROOT) for name in sorted(names)]
    return found


def groups():
    """The groups of crates.txt, each a heading and its crates, a crate being a name and what it depends on."""
    found = []
    for line in text_of("crates.txt").split("\n"):
        if line.startswith("#"):
            found.append((line[1:].strip(), []))
        elif ":" in line:
            name, below = line.split(":")
            found[-1][1].append((name.split()[0], below.split()))
    return found


def root_of(crate):
    """The root file of a crate."""
    library = f"crates/{crate}/src/lib.rt"
    return library if os.path.exists(os.path.join(ROOT, library)) else f"crates/{crate}/src/main.rt"


def exports(crate):
    """What a crate exports: (file, name in it, or None for all that is public there, words that lead to it)."""
    root = re.sub(r"//.*", "", text_of(root_of(crate)))
    own = set(re.findall(r"^(?:pub )?mod (\w+);", root, re.M))
    found = [(f"crates/{crate}/src/{name}.rt", None, f"{name}::") for name in re.findall(r"^pub mod (\w+);", root, re.M)]
    for path, names in re.findall(r"^pub use ([\w:]+?)::(?:(\w+)|\{[^}]*\});", root, re.M):
        if path.split("::")[0] not in own:
            continue
        whole = re.search(rf"^pub use {path}::(\w+|\{{[^}}]*\}});", root[root.index(f"pub use {path}::"):], re.M).group(1)
        for name in re.findall(r"\w+", names or whole):
            found.append((f"crates/{crate}/src/{path.replace('::', '/')}.rt", name, ""))
    return found


class Call:
    """A public function: its name with its type's, the names or texts of its clauses, and the first sentence of its comment."""

    def __init__(self, name, requires, ensures, says):
        self.name, self.requires, self.ensures, self.says = name, requires, ensures, says


def closed(text, at, opens, closes):
    """The place after the bracket that closes the one at `at`."""
    depth = 0
    for place in range(at, len(text)):
        depth += (text[place] == opens) - (text[place] == closes)
        if depth == 0:
            return place + 1
    raise ValueError(f"no {closes} closes: {text[at : at + 80]}")


def clauses(text, at, path):
    """The clauses of the function whose name ends at `at`: those that it requires and those that it ensures."""
    at = closed(text, text.index("(", at), "(", ")")
    found = {"requires": [], "ensures": []}
    while True:
        head = re.compile(r"[^{;]*?\b(requires|ensures)\b\s*(\w*)\s*(?={)").match(text, at)
        if not head:
            return found["requires"], found["ensures"]
        end = closed(text, head.end(), "{", "}")
        found[head.group(1)].append(head.group(2) or " ".join(text[head.end() + 1 : end - 1].split()))
        at = end


def sentence(comment):
    """The first sentence of a comment's lines."""
    words = " ".join(line.strip()[3:].strip() for line in comment.split("\n") if line.strip()).strip()
    words = re.split(r"  +", words)[0]
    return re.split(r"(?<=\.)\s+(?=[A-Z`])", words)[0]


CALL = re.compile(r"((?:^ *///.*\n)*)(?:^ *#\[.*\n)*^( *)(pub )?(?:const )?fn (\w+)(?:<(?:[^<>]|<[^<>]*>)*>)?(?=\()", re.M)
BLOCK = re.compile(r"^(pub trait|impl(?:<[^{]*?>)?) ([\w:]+)(?:<[^{\n]*>)?(?: for (\w+))?[^{\n]*\{\n(.*?)^\}", re.M | re.S)


def calls_in(path):
    """The public calls of a file, by the name that leads to each: a function's own, or its type's."""
    text = re.sub(r"^#\[cfg\(test\)\].*?\n(?:mod \w+;|mod \w+ \{.*?^\})", "", text_of(path), flags=re.M | re.S)
    found = []
    for head in CALL.finditer(text):
        if head.group(3) and head.group(2) == "":
            found.append((head.group(4), Call(head.group(4), *clauses(text, head.end(), path), sentence(head.group(1)))))
    for block in BLOCK.finditer(text):
        kind, of, owner, body = block.groups()
        if owner and of.endswith("Display") and "ghost output" in body:
            found.append((owner, Call(f"{owner}: Display", [], ["output"], "What it prints.")))
        for head in CALL.finditer(body) if not owner else []:
            if head.group(3) or kind == "pub trait":
                call = Call(f"{of}::{head.group(4)}", *clauses(body, head.end(), path), sentence(head.group(1)))
                found.append((of, call))
    return found


def calls(crate):
    """The calls that a crate exports, in the order of its root file; a type's methods also where another file has them."""
    at = f"crates/{crate}/src/"
    inside = [path for path in files() if path.startswith(at) and path.endswith(".rt")]
    stand = {path: calls_in(path) for path in inside}
    found = []
    for path, name, way in exports(crate):
        for there in [path, *(other for other in inside if other != path)]:
            takes = re.search(rf"^(?:pub )?use [^;]*\b{name}\b[^;]*;", text_of(there), re.M) if name else None
            for owner, call in stand[there]:
                if there == path and name in (None, owner) or takes and owner == name and call.name != name:
                    found.append((way, call))
    short = {id(call) for way, call in found if not way}
    return [
        Call(way + call.name, call.requires, call.ensures, call.says)
        for way, call in found
        if not way or id(call) not in short
    ]
