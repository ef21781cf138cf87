#!/usr/bin/env python3
"""Compares repaired.vcd with simulations by Icarus Verilog, in this folder.

    python3 against_icarus.py code          with the code that xrepair wrote, code.v, compiled beside the testbench
    python3 against_icarus.py forced        forces each repaired bit while it is repaired
    python3 against_icarus.py random 200    so many chips: each register starts at 0 or 1, each unknown input is 0 or 1

The first two must show repaired.vcd and nothing else, at the end of each moment. Of the third, each must show the repaired
bits as they are repaired, and each unknown bit must be seen as 0 and as 1. Another code or recording of the same test
may be named behind `code`: python3 against_icarus.py code o.v o.vcd
"""
import os
import random
import re
import subprocess
import sys
import tempfile


def read(path):
    """The bits of a recording below tb.dut: for each the values it changes to, by time."""
    bits, codes, scopes, time = {}, {}, [], 0
    words = iter(open(path).read().split())
    for word in words:
        if word == "$scope":
            next(words)
            scopes.append(next(words))
        elif word == "$upscope":
            scopes.pop()
        elif word == "$var":
            next(words)
            width, code, name = int(next(words)), next(words), next(words)
            high = next(words)
            first = int(high[1:].split(":")[0]) if high.startswith("[") else None
            if scopes[:2] == ["tb", "dut"]:
                codes.setdefault(code, []).append((".".join([*scopes, name]), width, first))
        elif word[0] == "#":
            time = int(word[1:])
        elif word[0] in "01xzb" and not word.startswith("$"):
            value, code = (word[1:], next(words)) if word[0] == "b" else (word[0], word[1:])
            for path_of, width, first in codes.get(code, ()):
                full = value.rjust(width, value[0] if value[0] in "xz" else "0")
                for k, bit in enumerate(full):
                    name = path_of if first is None else f"{path_of}[{first - k}]"
                    bits.setdefault(name, {})[time] = bit
    return bits


def at(changes, time):
    """The value at a time: that of the last change in it or before."""
    known = [t for t in changes if t <= time]
    return changes[max(known)] if known else "x"


def simulate(folder, testbench, netlist, cells, code=""):
    """The recording of a simulation of these texts."""
    texts = {"tb.v": testbench, "timer.v": netlist, "cells.v": cells, "code.v": code}
    for name, text in texts.items():
        open(f"{folder}/{name}", "w").write(text)
    subprocess.run(["iverilog", "-g2005", "-o", "t.vvp", *texts], cwd=folder, check=True)
    subprocess.run(["vvp", "t.vvp"], cwd=folder, check=True, stdout=subprocess.DEVNULL)
    return read(f"{folder}/r.vcd")


def forces(recorded, repaired, times):
    """Lines that force each repaired bit while it is repaired, once registers saw a moment's edges; how many forces."""
    lines, count = [], 0
    for name, changes in repaired.items():
        held = None
        for time in times:
            shown = at(changes, time)
            wanted = shown if shown in "01" and at(recorded[name], time) == "x" else None
            if wanted != held:
                what = f"force {name} = 1'b{wanted};" if wanted else f"release {name};"
                lines.append((time, what))
                count += wanted is not None
            held = wanted
    return sorted(lines), count


def compare(repaired, times, texts, count):
    """Simulates these texts and compares each bound bit at the end of each moment; whether all agree."""
    with tempfile.TemporaryDirectory() as folder:
        shown = simulate(folder, *texts)
    differ = [(n, t) for n in repaired for t in times if at(shown[n], t) != at(repaired[n], t)]
    bits = len(repaired) * len(times)
    print(f"{count} forces, {bits} bits compared, {bits - len(differ)} agree, {len(differ)} differ")
    for name, time in differ[:10]:
        print(f"#{time} {name} repaired {at(repaired[name], time)} simulated {at(shown[name], time)}")
    return not differ


def with_code(repaired, times, texts, code):
    # `#1` of the code is one tick of the recording
    tick = re.search(r"\$timescale\s+(1\d*)\s*(\w+)", open("r.vcd").read())
    scale = f"`timescale {tick[1]}{tick[2]}/{tick[1]}{tick[2]}\n"
    return compare(repaired, times, [*texts, scale + code], len(re.findall(r"\bforce\b", code)))


def forced(recorded, repaired, times, texts):
    lines, count = forces(recorded, repaired, times)
    code = "".join(f"  initial #{time / 1000:g} #0 {what}\n" for time, what in lines)
    texts[0] = texts[0].replace("endmodule", code + "endmodule")
    return compare(repaired, times, texts, count)


def chip(draw, texts):
    """The texts of one chip, whose registers and unknown inputs are drawn."""
    testbench, netlist, cells = texts
    bit = lambda _: f"1'b{draw.randrange(2)}"
    byte = lambda _: f"8'd{draw.randrange(256)}"
    testbench = re.sub(r"8'bx", byte, re.sub(r"1'bx", bit, testbench))
    testbench = testbench.replace("rstn = 0;", f"ck = {draw.randrange(2)}; rstn = 0;")
    # two primitives and two cells for each one that keeps a value, one for each start
    keeps = re.findall(r"primitive (\w+) \([^;]*;\s*output q; reg q;.*?endprimitive", cells, re.S)
    both, holders = cells, set()
    for name in keeps:
        body = re.search(rf"primitive {name} .*?endprimitive", cells, re.S)[0]
        # (at time 0 the simulator's nets come from x, in no chip: that changes nothing)
        pins = body[: body.index(")")].count(",")
        rows = "".join(f"     {'? ' * k}(x?){' ?' * (pins - 1 - k)} : ? : - ;\n" for k in range(pins - 1))
        body = body.replace("  endtable", rows + "  endtable")
        for start in "01":
            both += body.replace(name, f"{name}_{start}").replace("\n  table", f"\n  initial q = 1'b{start};\n  table") + "\n"
    for cell in re.findall(r"^module \w+ .*?^endmodule", cells, re.S | re.M):
        name = cell.split()[1]
        if any(f" {it} (" in cell for it in keeps):
            holders.add(name)
            for start in "01":
                copy = cell.replace(f"module {name} ", f"module {name}_{start} ")
                for it in keeps:
                    copy = copy.replace(f" {it} (", f" {it}_{start} (")
                both += copy + "\n"
    some = "|".join(sorted(holders))
    netlist = re.sub(rf"^(\s+)({some}) ", lambda it: f"{it[1]}{it[2]}_{draw.randrange(2)} ", netlist, flags=re.M)
    return testbench, netlist, both


def drawn(recorded, repaired, times, texts, count):
    seen, wrong = {}, 0
    for seed in range(count):
        with tempfile.TemporaryDirectory() as folder:
            shown = simulate(folder, *chip(random.Random(seed), texts))
        for name in repaired:
            for time in times:
                value, bit = at(repaired[name], time), at(shown[name], time)
                if value in "01":
                    wrong += bit != value
                else:
                    seen.setdefault((name, time), set()).add(bit)
    once = sum(it != {"0", "1"} for it in seen.values())
    print(f"{count} chips: {wrong} repaired bits differ; of {len(seen)} unknown bits {once} were not seen as 0 and as 1")
    return not wrong and not once


def main(words):
    folder = os.getcwd()
    os.chdir(os.path.dirname(os.path.abspath(__file__)))
    files = [os.path.join(folder, it) for it in words[1:]] if words[:1] == ["code"] else []
    code, shown = (files + ["code.v", "repaired.vcd"][len(files):])[:2]
    recorded, repaired = read("r.vcd"), read(shown)
    times = sorted({t for changes in recorded.values() for t in changes})
    texts = [open(it).read() for it in ("tb.v", "timer.v", "cells.v")]
    if words[:1] == ["code"]:
        return with_code(repaired, times, texts, open(code).read())
    if words[:1] == ["random"]:
        return drawn(recorded, repaired, times, texts, int(words[1]))
    return forced(recorded, repaired, times, texts)


if __name__ == "__main__":
    sys.exit(0 if main(sys.argv[1:]) else 1)
