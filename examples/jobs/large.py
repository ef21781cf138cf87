#!/usr/bin/env python3
"""Makes the large jobs: `python3 large.py FOLDER [JOB ..]`.

`picorv32` is a core from the sources of Debian's package nextpnr, as it is there, that runs program.py; `picorv32_unset` is the same
without setting all registers first. `idle_M_B` is a block that does nothing beside a counter, for M moments, in the first B of which
the counter's clock moves. Of each job it prints how to replay and how to repair it, how large it is, and the processor seconds that
Icarus Verilog took. Netlists that FOLDER has are kept.
"""
import glob
import os
import re
import resource
import subprocess
import sys
import tarfile

import jobs
import program

HERE = os.path.dirname(os.path.abspath(__file__))
LIBRARY = "/usr/share/qflow/tech/osu035/osu035_stdcells"
ALL = ["picorv32", "picorv32_unset", "idle_12000_12000", "idle_24000_12000", "idle_24000_24000"]
ROUNDS = 4
NO_FORCES = "module xrepair_code;\n  initial begin\n  end\nendmodule\n"
SOURCES = """the sources of the package nextpnr are needed. Let a file of /etc/apt/sources.list.d, as sources.sources, say
    Types: deb-src
    URIs: http://deb.debian.org/debian
    Suites: bookworm
    Components: main
    Signed-By: /usr/share/keyrings/debian-archive-keyring.gpg
then run apt-get update; or put the core itself, picorv32.v, beside the jobs as picorv32_rtl.v"""
CELLS = os.path.join(HERE, "cells.v")
# How the registers of a design are mapped, and where its cells are; later definitions go before. Registers of the library have a
# notifier, a pin that is always x; those of cells.v have none.
LIBRARIES = {"picorv32": (f"dfflibmap -liberty {LIBRARY}.lib", [LIBRARY + ".v"]),
             "idle": ("dfflegalize -cell $_DFF_P_ x -cell $_DFF_PN0_ x", [LIBRARY + ".v", CELLS])}


def fetch():
    """The core's text, from the sources of the package."""
    if os.path.exists("picorv32_rtl.v"):
        return
    if subprocess.call(["apt-get", "-qq", "source", "--download-only", "nextpnr"], stderr=subprocess.DEVNULL):
        sys.exit(SOURCES)
    with tarfile.open(glob.glob("nextpnr_*.orig.tar.*")[0]) as sources:
        member = next(one for one in sources.getmembers() if one.name.endswith("/ice40/benchmark/picorv32.v"))
        open("picorv32_rtl.v", "wb").write(sources.extractfile(member).read())


def mapped(design, top, texts):
    """The netlist of a design, after the definitions of the cells that it uses."""
    if os.path.exists(design + ".v"):
        return
    registers, libraries = LIBRARIES[design]
    subprocess.check_call(["yosys", "-q", "-p", f"read_verilog {' '.join(texts)}; synth -flatten -top {top}; {registers}; "
                           f"abc -liberty {LIBRARY}.lib; setundef -zero; opt_clean -purge; "
                           f"write_verilog -noattr -noexpr {design}_netlist.v"])
    netlist = open(design + "_netlist.v").read()
    definitions = {}
    for library in libraries:
        definitions.update(definitions_of(open(library).read()))
    open(design + ".v", "w").write("\n".join([*used(definitions, netlist), netlist]))


def definitions_of(library):
    found = re.finditer(r"^(module|primitive)\s+(\S+).*?\bend\1\b", library, re.S | re.M)
    return {one.group(2): one.group(0) for one in found}


def used(definitions, netlist):
    """The definitions that a netlist uses, and those that these use."""
    found, due = {}, [netlist]
    while due:
        for name in set(re.findall(r"\\\S+|\w+", due.pop())) & definitions.keys() - found.keys():
            found[name] = definitions[name]
            due.append(definitions[name])
    return [found[name] for name in sorted(found)]


def seconds(words):
    """Runs a program, and gives the processor seconds that it took."""
    before = resource.getrusage(resource.RUSAGE_CHILDREN)
    subprocess.check_call(words, stdout=subprocess.DEVNULL)
    after = resource.getrusage(resource.RUSAGE_CHILDREN)
    return after.ru_utime + after.ru_stime - before.ru_utime - before.ru_stime


def declared(file):
    """How many nets below tb.dut have each code of a recording, and their width. A `reg`, as a notifier is, is no net."""
    found, scopes = {}, []
    for words in map(str.split, file):
        if words[0] == "$scope":
            scopes.append(words[2])
        elif words[0] == "$upscope":
            scopes.pop()
        elif words[:2] == ["$var", "wire"] and scopes[:2] == ["tb", "dut"]:
            found[words[3]] = found.get(words[3], (0, 0))[0] + 1, int(words[2])
        elif words[0] == "$enddefinitions":
            return found


def sizes(path):
    """The nets of a recording below tb.dut, its moments, their bits that change after the first one, and those that are x."""
    moments = changes = unknown = present = 0
    with open(path) as file:
        variables = declared(file)
        values = {code: "" for code in variables}
        for line in file:
            if line[0] == "#":
                moments, unknown = moments + 1, unknown + present
            elif line[0] in "01xzb":
                bits, code = line[1:].split() if line[0] == "b" else (line[0], line[1:-1])
                if code in variables:
                    count, width = variables[code]
                    before, after = values[code], bits.rjust(width, bits[0] if bits[0] in "xz" else "0")
                    values[code] = after
                    changes += count * sum(a != b for a, b in zip(before, after)) if moments > 1 else 0
                    present += count * (after.count("x") + after.count("z") - before.count("x") - before.count("z"))
    return sum(count * width for count, width in variables.values()), moments, changes, unknown + present


def record(job, design, top, words):
    """Records a test, and prints the lines for the job."""
    test = os.path.join(HERE, "tests", design + ".v")
    compiling = seconds(["iverilog", "-g2005", "-Ttyp", "-o", job + ".vvp", "-s", "tb", *words, test, design + ".v"])
    running = seconds(["vvp", "-n", job + ".vvp"])
    os.remove(job + ".vvp")
    os.replace("test.vcd", job + ".vcd")
    nets, moments, changes, unknown = sizes(job + ".vcd")
    words = f"--record {job}.vcd --scope tb.dut --top {top} --rounds {ROUNDS} --places {1 << 40}"
    print(f"xrepair replay {words} --code none.v --vcd p.vcd {design}.v\n"
          f"xrepair repair {words} --vcd o.vcd --code o.v --cert o.xc {design}.v\n"
          f"  {nets} nets, {moments} moments, {nets * moments * ROUNDS} places; {changes} changes, {unknown} bits x, "
          f"{os.path.getsize(job + '.vcd')} bytes; Icarus {compiling:.2f} s to compile, {running:.2f} s to run", flush=True)


def picorv32(job):
    fetch()
    mapped("picorv32", "picorv32", ["picorv32_rtl.v"])
    found = program.words(job == "picorv32")
    open("program.hex", "w").write("".join(f"{word:08x}\n" for word in found + [0] * (1024 - len(found))))
    record(job, "picorv32", "picorv32", [])
    memory = [int(word, 16) for line in open("memory.hex") for word in line.partition("//")[0].split()]
    if any(memory[at] != word for at, word in program.wanted().items()):
        sys.exit("the program left other words in memory than it must")
    print(f"  the program sorted, and then counted to {memory[program.COUNTER // 4]}")


def idle(moments, busy):
    open("idle_cipher.v", "w").write(jobs.cipher("cipher", True))
    mapped("idle", "top", [os.path.join(HERE, "rtl", "idle.v"), "idle_cipher.v"])
    record(f"idle_{moments}_{busy}", "idle", "top", [f"-Ptb.MOMENTS={moments}", f"-Ptb.BUSY={busy}"])


def main():
    os.makedirs(sys.argv[1], exist_ok=True)
    os.chdir(sys.argv[1])
    open("none.v", "w").write(NO_FORCES)
    for job in sys.argv[2:] or ALL:
        if job.startswith("idle_"):
            idle(*job.split("_")[1:])
        else:
            picorv32(job)


if __name__ == "__main__":
    main()
