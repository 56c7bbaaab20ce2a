#!/usr/bin/env python3
"""Measures racelog on networks of growing size, and iverilog beside it where that is installed.

    python3 bench/bench.py PROGRAM [SIZE ..]

PROGRAM is the built racelog. For each SIZE (1,024 to 16,384 operators, doubling, where none are given) it makes a network,
compiles it, evaluates it at some times, and simulates the compiled module for 64 cycles. It prints the wires and register bits of
the module, the least seconds of five runs (of one, where that takes over 5 s), the most memory in MiB, and by how much the
seconds grew from the size before. Memory of at most this script's own, some 15 MiB, can't be measured, and is given as `<` and
that. With iverilog it compiles and runs the same module under a test bench of its own, prints the seconds of both, and compares
the levels of every output digit by digit.

Then it runs the module of the least SIZE once for 100,000 cycles.

Then it makes modules of 1 to 16 MiB of text, doubling, and measures how long `sim` takes to read them: one cycle is simulated.
Such a module has a wire for each 256 bytes, and the assign of each is an OR of earlier wires.

A network of SIZE operators and as many inc has 32 inputs and 16 outputs. Each let takes min, max or lt, by turns, of two of the
256 lets and inputs before it, chosen by a fixed generator of numbers, the first delayed by 1 to 3 cycles.
"""
import os
import re
import resource
import shutil
import subprocess
import sys
import tempfile
import time

INPUTS = 32
OUTPUTS = 16
CYCLES = 64
MANY_CYCLES = 100000


class Numbers:
    """The generator of Lehmer with the multiplier 48,271."""

    def __init__(self, seed):
        self.state = seed

    def below(self, n):
        self.state = self.state * 48271 % 2147483647
        return self.state % n


def network(size):
    numbers = Numbers(20181)
    names = ["a%d" % i for i in range(INPUTS)]
    lines = ["racenet 1", "input " + " ".join(names)]
    for k in range(size):
        recent = names[-256:]
        first = recent[numbers.below(len(recent))]
        second = recent[numbers.below(len(recent))]
        operator = ("min", "max", "lt")[k % 3]
        cycles = 1 + numbers.below(3)
        lines.append("let p%d = %s(inc(%s, %d), %s)" % (k, operator, first, cycles, second))
        names.append("p%d" % k)
    for o in range(OUTPUTS):
        lines.append("output y%d = %s" % (o, names[-1 - o]))
    return "\n".join(lines) + "\n"


def long_module(size):
    """A module of about so many bytes, a wire for each 256."""
    numbers = Numbers(20181)
    wires = size // 256
    ports = ["  %s;" % port for port in ("input clk", "input rst", "input in_a", "output out_y")]
    lines = ["module race(clk, rst, in_a, out_y);"] + ports
    lines += ["  wire w%d;" % k for k in range(wires)]
    for k in range(wires):
        parts = ["in_a"]
        length = len("  assign w%d = in_a;  wire w%d;  " % (k, k))
        while k > 0:
            part = "w%d" % (k - 1 - numbers.below(min(k, 256)))
            length += len(part) + 3
            if length > 256:
                break
            parts.append(part)
        lines.append("  assign w%d = %s;" % (k, " | ".join(parts)))
    lines += ["  assign out_y = w%d;" % (wires - 1), "endmodule"]
    return "\n".join(lines) + "\n"


def times():
    numbers = Numbers(7)
    return ["never" if i % 8 == 7 else str(numbers.below(24)) for i in range(INPUTS)]


def run(words, out, status=0):
    """Runs a program five times, or once where that takes over 5 s: the least seconds, and the most memory in MiB. It must end
    with this status."""
    best = None
    most = 0.0
    for _ in range(5):
        with open(out, "wb") as to:
            begin = time.perf_counter()
            child = subprocess.Popen(words, stdout=to)
            _, ended, usage = os.wait4(child.pid, 0)
            child.returncode = os.waitstatus_to_exitcode(ended)
            seconds = time.perf_counter() - begin
        if child.returncode != status:
            sys.exit("%s ended with %d" % (" ".join(words[:2]), child.returncode))
        best = seconds if best is None else min(best, seconds)
        most = max(most, usage.ru_maxrss / 1024)
        if seconds > 5:
            break
    return best, most


def shown(memory):
    """Memory in MiB as it is printed: one that is no more than this script's own can't be measured."""
    own = resource.getrusage(resource.RUSAGE_SELF).ru_maxrss / 1024
    return "%6.1f" % memory if memory > own + 0.5 else ("<%.0f" % (own + 0.5)).rjust(6)


def test_bench(rises, cycles):
    """A module that drives race by levels, and prints its outputs in each cycle."""
    lines = ["module bench;", "reg clk = 0, rst = 1;"]
    ports = [".clk(clk)", ".rst(rst)"]
    for i in range(INPUTS):
        lines.append("reg a%d = 0;" % i)
        ports.append(".in_a%d(a%d)" % (i, i))
    for o in range(OUTPUTS):
        lines.append("wire y%d;" % o)
        ports.append(".out_y%d(y%d)" % (o, o))
    lines.append("race it(%s);" % ", ".join(ports))
    lines += ["integer t;", "initial begin", "#1 clk = 1; #1 clk = 0; rst = 0;"]
    lines.append("for (t = 0; t < %d; t = t + 1) begin" % cycles)
    for i, rise in enumerate(rises):
        if rise != "never":
            lines.append("a%d = t >= %s;" % (i, rise))
    outs = ", ".join("y%d" % o for o in range(OUTPUTS))
    lines.append('#1 $display("%s", %s); clk = 1; #1 clk = 0;' % ("%b" * OUTPUTS, outs))
    lines += ["end", "$finish;", "end", "endmodule"]
    return "\n".join(lines) + "\n"


def beside(folder, rises, cycles):
    """iverilog's seconds to compile and to run the module, and whether its levels are the same."""
    with open(os.path.join(folder, "bench.v"), "w") as to:
        to.write(test_bench(rises, cycles))
    made = os.path.join(folder, "made")
    words = ["iverilog", "-o", made, os.path.join(folder, "bench.v"), os.path.join(folder, "module.v")]
    compiled, _ = run(words, os.path.join(folder, "nothing"))
    ran, _ = run(["vvp", "-n", made], os.path.join(folder, "levels.iverilog"))
    with open(os.path.join(folder, "levels.iverilog")) as f:
        theirs = [line.strip() for line in f if line.strip()]
    with open(os.path.join(folder, "levels")) as f:
        rows = [line.split()[1] for line in f]
    same = len(theirs) >= cycles and all("".join(row[t] for row in rows) == theirs[t] for t in range(cycles))
    return "  %8.4f  %8.4f  %s" % (compiled, ran, "yes" if same else "NO")


def built(module):
    """How many wires and register bits a module has."""
    with open(module) as f:
        text = f.read()
    last_bits = re.findall(r"^  reg (?:\[(\d+):0\] )?", text, re.M)
    return len(re.findall("^  wire ", text, re.M)), sum(int(last or 0) + 1 for last in last_bits)


HEAD = "operators  wires   bits  command    cycles   seconds     MiB  growth"
BESIDE = "  iverilog: compile       run  same"


def measure_networks(program, sizes, folder):
    """A line for each size and command, and one of a long run."""
    rises = times()
    have = shutil.which("iverilog") is not None
    print(HEAD + (BESIDE if have else ""))
    last = {}
    path = os.path.join(folder, "network")
    module = os.path.join(folder, "module.v")
    levels = os.path.join(folder, "levels")
    for size, cycles in [(size, CYCLES) for size in sizes] + [(min(sizes), MANY_CYCLES)]:
        with open(path, "w") as to:
            to.write(network(size))
        jobs = [
            ("compile", [program, "compile", path], module),
            ("eval", [program, "eval", path] + rises, os.path.join(folder, "values")),
            ("sim", [program, "sim", module, str(cycles)] + rises, levels),
        ]
        if cycles == MANY_CYCLES:
            run(jobs[0][1], module)
            jobs, last = jobs[2:], {}
        for name, words, out in jobs:
            seconds, memory = run(words, out)
            wires, bits = built(module)
            line = "%9d %6d %6d  %-7s  %8s  %8.4f  %s  %s" % (
                size, wires, bits, name, cycles if name == "sim" else "-", seconds, shown(memory), growth(last, name, seconds))
            if have and name == "sim":
                line += "         " + beside(folder, rises, cycles)
            print(line, flush=True)


def growth(last, name, seconds):
    """By how much the seconds grew from the size before, which are kept in `last`."""
    text = "%6.2f" % (seconds / last[name]) if name in last else "     -"
    last[name] = seconds
    return text


def measure_reading(program, folder):
    """A line for each size of a module's text."""
    print("\n    bytes  command   seconds     MiB  growth")
    last = {}
    path = os.path.join(folder, "long.v")
    for mebibytes in (1, 2, 4, 8, 16):
        with open(path, "w") as to:
            to.write(long_module(mebibytes * 1048576 - 4096))
        seconds, memory = run([program, "sim", path, "1", "0"], os.path.join(folder, "digit"))
        size = os.path.getsize(path)
        print("%9d  %-7s  %8.4f  %s  %s" % (size, "sim", seconds, shown(memory), growth(last, "sim", seconds)), flush=True)


def main():
    if len(sys.argv) < 2:
        sys.exit(__doc__)
    program = os.path.abspath(sys.argv[1])
    sizes = [int(word) for word in sys.argv[2:]] or [1024, 2048, 4096, 8192, 16384]
    with tempfile.TemporaryDirectory() as folder:
        measure_networks(program, sizes, folder)
        measure_reading(program, folder)


if __name__ == "__main__":
    main()
