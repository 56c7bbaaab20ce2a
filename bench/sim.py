#!/usr/bin/env python3
"""Measures `racelog sim` on modules, beside iverilog and verilator where they are installed.

    python3 bench/sim.py PROGRAM [SIZE ..]

PROGRAM is the built racelog. For each SIZE (1,024, 4,096 and 16,384 operators where none are given) it compiles the network of
bench.py and simulates the module for 64 and for 100,000 cycles; then modules of the largest SIZE in which much changes: `toggles`,
in which every register and every wire changes in each cycle, `chain` and `mixed`, chains of wires of one operand and of three that
change in each cycle, `rings`, of three registers of which one changes in each cycle, with wires over them, and `registers`, which
all change, without wires; and `long`, one shift register of 65,536 bits.

It prints the least seconds of five runs (of one, where that takes over 5 s), the same with `--order 0`, the most memory in MiB,
and memory in bytes for each byte of the module's text. Where rustc is installed, `plain` is plain.rs, which walks all expressions in
each cycle: its seconds, and how many times as long `sim` takes. For another peer it prints the seconds to build and to run the same module with
the same inputs, and whether all levels are the same. verilator is run with a C++ main of its own at -O3, which prints the levels
of each cycle. A peer that takes over LIMIT seconds to build or to run is given as `-`.
"""
import os
import shutil
import subprocess
import sys
import tempfile
import time

import bench

LIMIT = 100
FEW, MANY = 64, 100000


def toggles(size):
    """A module in which all registers and wires change in each cycle."""
    ports = "".join("  %s;\n" % port for port in ("input clk", "input rst", "input in_a", "output out_y"))
    wires, regs = size // 2, size - size // 2
    lines = ["module race(clk, rst, in_a, out_y);\n" + ports[:-1]]
    lines += ["  wire w%d;" % k for k in range(wires)]
    lines += ["  reg r%d;" % k for k in range(regs)]
    lines += ["  assign w0 = ~r0;"]
    lines += ["  assign w%d = ~w%d & ~r%d | ~w%d & ~r%d;" % (k, k - 1, k, k - 1, k) if k % 2 else
              "  assign w%d = ~r%d & ~w%d;" % (k, k, k - 1) for k in range(1, wires)]
    lines += ["  assign out_y = w%d;" % (wires - 1)]
    lines += ["  always @(posedge clk) if (rst) r%d <= 1'b0; else r%d <= ~r%d;" % (k, k, k) for k in range(regs)]
    return "\n".join(lines + ["endmodule", ""])


def module_of(wires, regs, assigns, nexts):
    """A module of one input and one output, with these wires and registers, assigns, and next levels of the registers."""
    ports = "".join("  %s;\n" % port for port in ("input clk", "input rst", "input in_a", "output out_y"))
    lines = ["module race(clk, rst, in_a, out_y);\n" + ports[:-1]]
    lines += ["  wire w%d;" % k for k in range(wires)] + ["  reg r%d;" % k for k in range(regs)]
    lines += ["  assign %s = %s;" % assign for assign in assigns]
    lines += ["  always @(posedge clk) if (rst) r%d <= 1'b0; else r%d <= %s;" % (k, k, bit) for k, bit in enumerate(nexts)]
    return "\n".join(lines + ["endmodule", ""])


def chain(size):
    """A chain of wires over a register that changes in each cycle."""
    assigns = [("w%d" % k, "~w%d" % (k - 1) if k else "~r0") for k in range(size)]
    return module_of(size, 1, assigns + [("out_y", "w%d" % (size - 1))], ["~r0"])


def mixed(size):
    """The same, of wires that name a register that stays low too."""
    assigns = [("w%d" % k, "w%d & ~r1 | r1" % (k - 1) if k else "~r0") for k in range(size)]
    return module_of(size, 2, assigns + [("out_y", "w%d" % (size - 1))], ["~r0", "r1"])


def rings(size):
    """Rings of three registers, in each of which one changes in each cycle, and a wire over each."""
    count = size // 4
    nexts = [("~r%d" % (k + 2) if k % 3 == 0 else "r%d" % (k - 1)) for k in range(3 * count)]
    assigns = [("w%d" % k, "r%d & ~r%d" % (3 * k, 3 * k + 2)) for k in range(count)]
    return module_of(count, 3 * count, assigns + [("out_y", "w0")], nexts)


def registers(size):
    """Registers that change in each cycle."""
    return module_of(0, size, [("out_y", "r0")], ["~r%d" % k for k in range(size)])


def long_network():
    return "racenet 1\ninput a\noutput y = inc(a, 65536)\n"


def main_program(inputs, outputs, rises, cycles):
    """A C++ main that drives the module and prints its outputs in each cycle, a line each."""
    lines = ['#include "Vrace.h"', '#include "verilated.h"', "#include <cstdio>", "int main() {", "Vrace m;"]
    lines += ["m.clk = 0; m.rst = 1;"] + ["m.in_%s = 0;" % name for name in inputs]
    lines += ["m.eval(); m.clk = 1; m.eval(); m.clk = 0; m.eval(); m.rst = 0;", "for (long t = 0; t < %d; t++) {" % cycles]
    lines += ["m.in_%s = t >= %sL;" % (name, rise) for name, rise in zip(inputs, rises) if rise != "never"]
    lines += ["m.eval();"] + ["putchar('0' + m.out_%s);" % name for name in outputs] + ["putchar('\\n');"]
    lines += ["m.clk = 1; m.eval(); m.clk = 0; m.eval();", "}", "return 0;", "}"]
    return "\n".join(lines) + "\n"


def test_bench(inputs, outputs, rises, cycles):
    """The same as a module for iverilog."""
    lines = ["module bench;", "reg clk = 0, rst = 1;"]
    lines += ["reg a%d = 0;" % i for i in range(len(inputs))] + ["wire y%d;" % o for o in range(len(outputs))]
    ports = [".clk(clk)", ".rst(rst)"] + [".in_%s(a%d)" % (n, i) for i, n in enumerate(inputs)]
    ports += [".out_%s(y%d)" % (n, o) for o, n in enumerate(outputs)]
    lines += ["race it(%s);" % ", ".join(ports), "integer t;", "initial begin", "#1 clk = 1; #1 clk = 0; rst = 0;"]
    lines += ["for (t = 0; t < %d; t = t + 1) begin" % cycles]
    lines += ["a%d = t >= %s;" % (i, rise) for i, rise in enumerate(rises) if rise != "never"]
    lines += ['#1 $display("%s", %s); clk = 1; #1 clk = 0;' % ("%b" * len(outputs), ", ".join("y%d" % o for o in range(len(outputs))))]
    return "\n".join(lines + ["end", "$finish;", "end", "endmodule", ""])


def build(words, folder):
    """The seconds that a build takes, or None where it takes too long or fails."""
    begin = time.perf_counter()
    try:
        done = subprocess.run(words, cwd=folder, timeout=LIMIT, stdout=subprocess.DEVNULL, stderr=subprocess.DEVNULL)
    except subprocess.TimeoutExpired:
        return None
    return time.perf_counter() - begin if done.returncode == 0 else None


def run_peer(words, out):
    """The least seconds of up to five runs, or None where one takes too long."""
    best = None
    for _ in range(5):
        begin = time.perf_counter()
        try:
            with open(out, "wb") as to:
                done = subprocess.run(words, stdout=to, timeout=LIMIT)
        except subprocess.TimeoutExpired:
            return None
        if done.returncode != 0:
            return None
        seconds = time.perf_counter() - begin
        best = seconds if best is None else min(best, seconds)
        if seconds > 5:
            break
    return best


def same_levels(ours, theirs, cycles):
    with open(theirs) as f:
        lines = [line.strip() for line in f if line.strip()]
    with open(ours) as f:
        rows = [line.split()[1] for line in f]
    return len(lines) >= cycles and all("".join(row[t] for row in rows) == lines[t] for t in range(cycles))


def peer(name, words, program, folder, ours, cycles):
    """What is printed of a peer."""
    seconds = build(words, folder)
    if seconds is None:
        return "  %s: build - " % name
    theirs = os.path.join(folder, "levels." + name)
    ran = run_peer(program, theirs)
    if ran is None:
        return "  %s: build %8.3f run -" % (name, seconds)
    return "  %s: build %8.3f run %9.4f %s" % (name, seconds, ran, "same" if same_levels(ours, theirs, cycles) else "DIFFERENT")


def measure(program, label, module, inputs, outputs, rises, cycles, folder):
    levels = os.path.join(folder, "levels")
    seconds, memory = bench.run([program, "sim", module, str(cycles)] + rises, levels)
    ordered, _ = bench.run([program, "sim", module, str(cycles)] + rises + ["--order", "0"], os.path.join(folder, "ordered"))
    size = os.path.getsize(module)
    line = "%-14s %9d %7d  %8.4f  %8.4f  %s  %5.1f" % (label, size, cycles, seconds, ordered, bench.shown(memory), memory * 1048576 / size)
    plain = os.path.join(folder, "plain")
    if os.path.exists(plain):
        walked, _ = bench.run([plain, module, str(cycles)] + rises, os.path.join(folder, "walked"))
        with open(levels) as ours, open(os.path.join(folder, "walked")) as theirs:
            same = "same" if ours.read() == theirs.read() else "DIFFERENT"
        line += "  plain: %9.4f, times %5.2f %s" % (walked, seconds / walked, same)
    if shutil.which("iverilog"):
        with open(os.path.join(folder, "bench.v"), "w") as to:
            to.write(test_bench(inputs, outputs, rises, cycles))
        line += peer("iverilog", ["iverilog", "-o", "made", "bench.v", module], ["vvp", "-n", os.path.join(folder, "made")], folder, levels, cycles)
    if shutil.which("verilator"):
        with open(os.path.join(folder, "main.cpp"), "w") as to:
            to.write(main_program(inputs, outputs, rises, cycles))
        shutil.rmtree(os.path.join(folder, "obj_dir"), ignore_errors=True)
        words = ["verilator", "--cc", "--exe", "--build", "-O3", "-CFLAGS", "-O3", "-Wno-fatal", "--top-module", "race", "main.cpp", module]
        line += peer("verilator", words, [os.path.join(folder, "obj_dir", "Vrace")], folder, levels, cycles)
    print(line, flush=True)


def main():
    program = os.path.abspath(sys.argv[1])
    sizes = [int(word) for word in sys.argv[2:]] or [1024, 4096, 16384]
    print("module             bytes  cycles   seconds   order 0     MiB  MiB a MiB of text")
    with tempfile.TemporaryDirectory() as folder:
        module = os.path.join(folder, "module.v")
        if shutil.which("rustc"):
            source = os.path.join(os.path.dirname(os.path.abspath(__file__)), "plain.rs")
            subprocess.run(["rustc", "-O", "-o", os.path.join(folder, "plain"), source], check=True)
        network = os.path.join(folder, "network")
        names = ["a%d" % i for i in range(bench.INPUTS)], ["y%d" % o for o in range(bench.OUTPUTS)]
        for size in sizes:
            with open(network, "w") as to:
                to.write(bench.network(size))
            bench.run([program, "compile", network], module)
            for cycles in (FEW, MANY):
                measure(program, "network %d" % size, module, names[0], names[1], bench.times(), cycles, folder)
        for made in (toggles, chain, mixed, rings, registers):
            with open(module, "w") as to:
                to.write(made(max(sizes)))
            for cycles in (FEW, 10000):
                measure(program, made.__name__, module, ["a"], ["y"], ["3"], cycles, folder)
        with open(network, "w") as to:
            to.write(long_network())
        bench.run([program, "compile", network], module)
        for cycles in (FEW, MANY):
            measure(program, "long", module, ["a"], ["y"], ["3"], cycles, folder)


if __name__ == "__main__":
    main()
