#!/usr/bin/env python3
"""Makes netlists and recordings whose repair is timed: `python3 jobs.py FOLDER [JOB ..]`.

Jobs of a kind that grow, written here gate by gate (`hold 200`, `counter 50` .. as `hold200`, `counter50`), and designs of
rtl/ that Yosys maps to the cells of cells.v. Icarus Verilog records each. A line for each job says how to repair it, and
how many seconds Icarus Verilog took to compile and to run.
"""
import os
import random
import subprocess
import sys
import time

HERE = os.path.dirname(os.path.abspath(__file__))
MAPPING = ("read_verilog {rtl}; synth -flatten -top top; "
           "dfflegalize -cell $_DFF_P_ x -cell $_DFF_PN0_ x -cell $_DLATCH_P_ x; "
           "abc -g AND,NAND,OR,NOR,XOR,XNOR,MUX; opt_clean; setundef -undriven -zero; "
           "write_verilog -noattr -noexpr {netlist}")


def register(name, data, clock="ck"):
    return f"  wire {name}; \\$_DFF_P_  r_{name} (.D({data}), .C({clock}), .Q({name}));\n"


def module(ports, body):
    return f"module top({', '.join(ports)});\n  input {', '.join(ports)};\n{body}endmodule\n"


def clocked(moments, each=""):
    return f"repeat ({moments // 2}) begin #5 ck = 1; #5 ck = 0; {each} end"


def gates(draw, count, signals, kinds, back):
    text = ""
    for number in range(count):
        first, second = draw.choice(signals), draw.choice(signals[-back:])
        text += f"  wire g{number}; {draw.choice(kinds)} (g{number}, {first}, {second});\n"
        signals.append(f"g{number}")
    return text


def hold(moments):
    """Twenty registers that hold what they start with, and gates that mix them with inputs."""
    inputs = [f"i{k}" for k in range(8)]
    body = "".join(register(f"q{k}", f"q{k}") for k in range(20))
    signals = inputs + [f"q{k}" for k in range(20)]
    body += gates(random.Random(1), 60, signals, ["and", "or", "nand", "nor", "xor"], 1000)
    drawn = "{" + ", ".join(reversed(inputs)) + "} = $random;"
    return ["ck"] + inputs, body, f"ck = 0; {drawn} {clocked(moments, drawn)}", 2


def counter(moments):
    """A counter of 16 bits that is never reset."""
    body = "  wire c0; buf (c0, 1'b1);\n"
    for k in range(16):
        body += f"  wire d{k}, c{k + 1}; xor (d{k}, q{k}, c{k}); and (c{k + 1}, q{k}, c{k});\n"
        body += register(f"q{k}", f"d{k}")
    return ["ck"], body, f"ck = 0; {clocked(moments)}", 4


def feedback(moments):
    """A shift register of 8 bits with feedback that is never reset."""
    body = "  wire f; xor (f, q7, q5, q4, q3);\n"
    body += "".join(register(f"q{k}", "f" if k == 0 else f"q{k - 1}") for k in range(8))
    return ["ck"], body, f"ck = 0; {clocked(moments)}", 4


def parity(moments):
    """The parity of an input that is x, over the moments."""
    body = "  wire q, d; xor (d, q, i); \\$_DFF_PN0_  r (.D(d), .C(ck), .R(rn), .Q(q));\n"
    return ["ck", "rn", "i"], body, f"ck = 0; rn = 0; i = 0; #5 rn = 1; i = 1'bx; {clocked(moments)}", 4


def chain(count):
    """A row of gates that each read the gate before and one of two inputs that are x."""
    draw = random.Random(2)
    body = "  wire g0; xor (g0, a, b);\n"
    for number in range(1, count):
        body += f"  wire g{number}; {draw.choice(['xor', 'nand'])} (g{number}, g{number - 1}, {draw.choice('ab')});\n"
    return ["a", "b"], body, "a = 1'bx; b = 1'bx; #10 a = 0; #10;", 1


def mix(count):
    """Random gates over 16 inputs that are x."""
    inputs = [f"i{k}" for k in range(16)]
    body = gates(random.Random(3), count, list(inputs), ["and", "or", "nand", "nor", "xor"], 200)
    return inputs, body, "#10 i0 = 0; #10;", 1


GROWING = {"hold": (hold, (200, 400, 800, 1600)), "counter": (counter, (50, 100, 200, 400)),
           "feedback": (feedback, (400, 800, 1600, 3200)), "parity": (parity, (400, 800, 1600)),
           "chain": (chain, (2000, 4000, 8000)), "mix": (mix, (1000, 2000, 4000))}


def cipher(name="top", reset=False):
    """Sixteen rounds of eight boxes of six bits and a permutation, with registers after each fourth round."""
    draw = random.Random(7)
    text = f"module {name}(input ck, {'input rn, ' if reset else ''}input [63:0] d, input [63:0] k, output [63:0] y);\n"
    for box in range(8):
        rows = " ".join(f"6'd{n}: s{box} = 4'd{draw.randrange(16)};" for n in range(64))
        text += f"  function [3:0] s{box}; input [5:0] a; case (a) {rows} endcase endfunction\n"
    text += "  reg [31:0] l0, r0; reg [63:0] kk;\n  " + clocked_registers({"{l0, r0}": "d", "kk": "k"}, reset)
    for n in range(16):
        key = ", ".join(f"kk[{draw.randrange(64)}]" for _ in range(48))
        wide = ", ".join(f"r{n}[{(4 * b + j) % 32}]" for b in range(8) for j in range(-1, 5))
        boxes = ", ".join(f"s{b}(e{n}[{6 * b + 5}:{6 * b}])" for b in range(8))
        places = list(range(32))
        draw.shuffle(places)
        text += f"  wire [47:0] e{n} = {{{wide}}} ^ {{{key}}};\n  wire [31:0] f{n} = {{{boxes}}};\n"
        text += f"  wire [31:0] p{n} = {{{', '.join(f'f{n}[{x}]' for x in places)}}};\n"
        if n % 4 == 3 and n < 15:
            text += f"  reg [31:0] l{n + 1}, r{n + 1}; " + clocked_registers({f"l{n + 1}": f"r{n}", f"r{n + 1}": f"l{n} ^ p{n}"}, reset)
        else:
            text += f"  wire [31:0] l{n + 1} = r{n}, r{n + 1} = l{n} ^ p{n};\n"
    return text + "  assign y = {r16, l16};\nendmodule\n"


def clocked_registers(values, reset):
    taken = " ".join(f"{name} <= {value};" for name, value in values.items())
    if not reset:
        return f"always @(posedge ck) begin {taken} end\n"
    cleared = " ".join(f"{name} <= 0;" for name in values)
    return f"always @(posedge ck or negedge rn) if (!rn) begin {cleared} end else begin {taken} end\n"


CYCLE = "#5 ck = 1; #5 ck = 0;"
DESIGNS = {
    "state_machine": ("ck, rn, [1:0] i", f"ck = 0; rn = 0; i = 0; #5 rn = 1; for (n = 0; n < 250; n = n + 1) begin {CYCLE} "
                      "i = (n > 100 && n < 110) ? 2'bx1 : $random; if (n == 120) rn = 0; if (n == 121) rn = 1; end"),
    "fifo": ("ck, rn, we, re, [7:0] d", f"ck = 0; rn = 0; we = 0; re = 0; d = 0; #5 rn = 1; for (n = 0; n < 170; n = n + 1) begin {CYCLE} "
             "d = $random; we = (n % 3) != 0; re = n > 20 && (n % 2); end"),
    "latches": ("p1, p2, [3:0] d", "p1 = 0; p2 = 0; d = 0; for (n = 0; n < 130; n = n + 1) begin "
                "#5 p1 = 1; #5 p1 = 0; #5 p2 = 1; #5 p2 = 0; d = $random; end"),
    "serial_port": ("ck, rn, rx, send, [7:0] d", f"ck = 0; rn = 0; rx = 1; send = 0; d = 0; #5 rn = 1; for (n = 0; n < 400; n = n + 1) begin {CYCLE} "
                    "if (n % 16 == 0) rx = n < 30 ? 1 : $random; send = n == 40 || n == 230; d = n; end"),
    "processor": ("ck, rn, [15:0] ins", f"ck = 0; rn = 0; ins = 0; #5 rn = 1; for (n = 0; n < 900; n = n + 1) begin {CYCLE} ins = $random; "
                  "if (n < 8) ins = {4'd4, n[2:0], n[2:0], n[2:0], 3'd0}; if (n > 8 && n < 300) ins[11] = 0; end"),
    "lockstep": ("ck, [6:0] a, [6:0] b", f"ck = 0; a = 0; b = 0; for (n = 0; n < 500; n = n + 1) begin {CYCLE} a = $random; b = $random; "
                 "if (n > 40 && n < 50) a = 7'bx; if (n > 42 && n < 47) b = 7'bx; end"),
    "lockstep8": ("ck, [7:0] a, [7:0] b", f"ck = 0; a = 0; b = 0; for (n = 0; n < 500; n = n + 1) begin {CYCLE} a = $random; b = $random; "
                  "if (n > 40 && n < 50) a = 8'bx; if (n > 42 && n < 47) b = 8'bx; end"),
    "cipher": ("ck, [63:0] d, [63:0] k", f"ck = 0; d = 0; k = 0; for (n = 0; n < 90; n = n + 1) begin {CYCLE} "
               "d = {$random, $random}; k = {$random, $random}; if (n > 10 && n < 18) d[7:0] = 8'bx; if (n > 40 && n < 50) k[3:0] = 4'bx; end"),
    "accumulators": ("ck, rn, en, [15:0] a, [15:0] b", f"ck = 0; rn = 0; en = 0; a = 0; b = 0; #5 rn = 1; for (n = 0; n < 60; n = n + 1) begin {CYCLE} "
                     "a = $random; b = $random; en = n > 28; if (n > 30 && n < 33) a[1:0] = 2'bx; end"),
}


def mapped(job):
    rtl = os.path.join(HERE, "rtl", job + ".v")
    if job == "cipher":
        rtl = "cipher_rtl.v"
        open(rtl, "w").write(cipher())
    subprocess.check_call(["yosys", "-q", "-p", MAPPING.format(rtl=rtl, netlist=job + ".v")], stderr=subprocess.DEVNULL)


def record(job, inputs, body, rounds):
    names = [one.split()[-1] for one in inputs]
    ports = ", ".join(f".{name}({name})" for name in names)
    declared = " ".join(f"reg {one};" for one in inputs)
    open(job + "_tb.v", "w").write(
        f"`timescale 1ps/1ps\nmodule tb;\n  {declared}\n  integer n;\n  top dut ({ports});\n"
        f"  initial begin $dumpfile(\"{job}.vcd\"); $dumpvars(0, tb); end\n  initial begin {body} $finish; end\nendmodule\n")
    before = time.time()
    cells = os.path.join(HERE, "cells.v")
    subprocess.check_call(["iverilog", "-g2005", "-o", job + ".vvp", job + "_tb.v", job + ".v", cells])
    subprocess.check_call(["vvp", "-n", job + ".vvp"], stdout=subprocess.DEVNULL)
    os.remove(job + ".vvp")
    print(f"xrepair repair --record {job}.vcd --scope tb.dut --top top --rounds {rounds} "
          f"--vcd o.vcd --code o.v --cert o.xc {cells} {job}.v  # Icarus {time.time() - before:.2f} s", flush=True)


def main():
    os.makedirs(sys.argv[1], exist_ok=True)
    os.chdir(sys.argv[1])
    wanted = sys.argv[2:]
    for kind, (make, sizes) in GROWING.items():
        for size in sizes:
            job = f"{kind}{size}"
            if not wanted or job in wanted or kind in wanted:
                inputs, body, test, rounds = make(size)
                open(job + ".v", "w").write(module(inputs, body))
                record(job, inputs, test, rounds)
    for job, (inputs, test) in DESIGNS.items():
        if not wanted or job in wanted:
            mapped(job)
            record(job, [one.strip() for one in inputs.split(", ")], test, 4)


if __name__ == "__main__":
    main()
