#!/usr/bin/env python3
"""Measures each command on the inputs within the limits that take it longest.

    python3 bench/longest.py PROGRAM [CASE ..]

PROGRAM is the built racelog. It prints for each case the seconds, the least of three runs (of one, where that takes over 2 s), the
most memory in MiB, and the status. A run is stopped after 120 s. Where the longest run would take longer than that, a part of it is
measured, and what the whole takes by that measure is in the last column: the seconds times how many times the part fits into it.
Where a row is "the same" as the one before but for the cycles, the seconds of that one, which are for reading, are counted once.
With names of commands (compile, sim ..) only their cases are run.
"""
import os
import resource
import subprocess
import sys
import tempfile
import time

import bench
import commands

OPERATORS, MIB, LIMIT = 16384, 1 << 20, 120
INPUTS = ["a%d" % i for i in range(64)]


def lets(inputs, bodies, outputs):
    """A network of lets p0, p1 and so on."""
    lines = ["racenet 1", "input " + " ".join(inputs)] + ["let p%d = %s" % item for item in enumerate(bodies)]
    return "\n".join(lines + ["output y%d = %s" % item for item in enumerate(outputs)]) + "\n"


def many_inputs(inputs):
    """16,384 operators that the output needs, over so many inputs."""
    names = INPUTS[:inputs]
    bodies = ["%s(%s, %s)" % (("min", "max")[k % 2], "p%d" % (k - 1) if k else "a0", names[k % inputs]) for k in range(OPERATORS)]
    return lets(names, bodies, ["p%d" % (OPERATORS - 1)])


def delays():
    """16,384 joins of delays, with 65,536 register bits."""
    bodies = ["inc(%s, 1024)" % name for name in INPUTS]
    bodies += ["min(inc(%s, %d), inc(%s, %d))" % (INPUTS[k % 64], 1 + k // 64 * 4, INPUTS[(k + 1) % 64], 3 + k // 64 * 4) for k in range(8192 - 64)]
    bodies += ["max(p%d, p%d)" % (64 + k, 64 + (k * 7 + 1) % 8128) for k in range(8190)]
    bodies += ["min(p%d, p%d)" % (k % 64, (k + 1) % 64) for k in range(66)]
    return lets(INPUTS, bodies, ["p%d" % (len(bodies) - 1 - o) for o in range(64)])


def nested_lt():
    """8,000 lt over one chain of 8,000 max, for the laws of lt."""
    bodies = ["max(%s, %s)" % ("p%d" % (k - 1) if k else "a0", INPUTS[k % 64]) for k in range(8000)]
    bodies += ["lt(p%d, p%d)" % ((k * 31) % 8000, 7999 if k == 0 else 7999 + k) for k in range(8000)]
    return lets(INPUTS, bodies, ["p15999"])


def one_operand(op):
    """8,192 max of one operand and 8,192 lt along the chain, or 8,192 min and 4,096 lt, which are joined by max."""
    bodies = ["inc(a0, 1)" if op == "max" else "lt(a1, a0)"] + ["%s(a0, p%d)" % (op, k) for k in range(OPERATORS // 2 - 1)]
    last = len(bodies) - 1
    if op == "max":
        bodies += ["lt(%s, p%d)" % ("p%d" % (last + k) if k else "a0", last) for k in range(OPERATORS // 2)]
    else:
        for k in range(OPERATORS // 4):
            bodies += ["lt(p%d, a0)" % (last - k), "max(p%d, p%d)" % (last + 2 * k, last + 2 * k + 1)]
    return lets(INPUTS[:2], bodies, ["p%d" % (len(bodies) - 1)])


def padded(text, size):
    """The text with comments up to a size."""
    line = "# " + "x" * 60 + "\n"
    return text + line * ((size - len(text)) // len(line))


def toggling(wires, parts):
    """A module of a register that toggles, and wires that read it twice in each of so many parts: all change in each cycle."""
    ports = ["  input clk;", "  input rst;", "  input in_a;", "  output out_y;"]
    head = ["module race(clk, rst, in_a, out_y);"] + ports + ["  wire w%d;" % k for k in range(wires)] + ["  reg r;"]
    body = "|".join(["r&r"] * parts)
    assigns = ["  assign w%d = %s;" % (k, body) for k in range(wires)]
    tail = ["  assign out_y = w%d;" % (wires - 1), "  always @(posedge clk) if (rst) r <= 1'b0; else r <= ~r & in_a;", "endmodule"]
    return "\n".join(head + assigns + tail) + "\n"


def chained(wires, toggles):
    """A module whose wires are one chain after an input, or after a register that toggles."""
    ports = ["  input clk;", "  input rst;", "  input in_a;", "  output out_y;"]
    head = ["module race(clk, rst, in_a, out_y);"] + ports + ["  wire w%d;" % k for k in range(wires)] + ["  reg r;"]
    assigns = ["  assign w%d = %s;" % (k, "w%d" % (k - 1) if k else "r" if toggles else "in_a") for k in range(wires)]
    tail = ["  always @(posedge clk) if (rst) r <= 1'b0; else r <= ~r;", "endmodule"]
    return "\n".join(head + assigns + ["  assign out_y = w%d;" % (wires - 1)] + tail) + "\n"


def equal_network(outputs):
    """16,384 operators of one input, whose forms are settled without facts."""
    bodies = ["max(%s, a0)" % ("p%d" % (k - 1) if k else "a0") for k in range(OPERATORS)]
    return lets(["a0"], bodies, ["p%d" % (OPERATORS - 1)] * outputs)


def many_leaves(leaves, trees=1):
    """Trees of so many leaves."""
    tree = ["split 0 0 0"] * (leaves - 1) + ["leaf"] * leaves + ["end"]
    return "racetree 1\n" + "".join("tree y%d\n" % o + "\n".join(tree) + "\n" for o in range(trees))


def cases(folder, program):
    """Each case: what it is, its words, and how many times it fits into the longest run."""
    put = lambda name, text: commands.write(folder, name, text)
    random = put("random.net", bench.network(OPERATORS))
    full = put("full.net", padded(bench.network(OPERATORS), MIB))
    chain, both = put("chain.net", many_inputs(64)), put("delays.net", delays())
    sixteen, eight = put("sixteen.net", many_inputs(16)), put("eight.net", many_inputs(8))
    wide = put("wide.table", commands.table(16, 256))
    ones = ["1"] * 64
    yield "random, 16,384 operators", ["compile", random], 1
    yield "the same with comments up to 1 MiB", ["compile", full], 1
    yield "64,000 bits, 16,384 operators over delays", ["compile", both], 1
    yield "a table of 256 rows and 16 inputs", ["compile", wide], 1
    yield "random, 16,384 operators, 1 MiB", ["eval", full] + bench.times(), 1
    yield "a chain of 16,384 operators", ["eval", chain] + ones, 1
    yield "a table of 256 rows and 16 inputs", ["eval", wide] + ["0"] * 16, 1
    yield "a table of 256 rows and 16 inputs", ["synth", wide], 1
    yield "random, 16,384 operators, 1 MiB", ["simplify", full], 1
    yield "a chain of 16,384 operators", ["simplify", chain], 1
    yield "8,000 `lt` over a chain of 8,000 `max`", ["simplify", put("lt.net", nested_lt())], 1
    yield "8,192 `lt` along a chain of 8,192 `max` of one operand", ["simplify", put("max.net", one_operand("max"))], 1
    yield "4,096 `lt` along a chain of 8,192 `min` of one operand", ["simplify", put("min.net", one_operand("min"))], 1
    yield "16 inputs, 16,384 operators, 65,536 lists", ["tabulate", sixteen, "y0", "0"], 1
    yield "16 inputs, of which 3 operators are needed, beside 16,381", ["tabulate", put("few.net", few_needed()), "y0", "0"], 1
    yield "8 inputs, 16,384 operators, 65,536 lists", ["tabulate", eight, "y0", "2"], 1
    text = toggling(65500, 54)
    yield "%.1f MiB, read, 1 cycle" % (len(text) / MIB), ["sim", put("large.v", text), "1", "0"], 1
    yield "the same, all changes in each cycle, 100 cycles", ["sim", os.path.join(folder, "large.v"), "100", "0"], 1000
    small = put("toggling.v", toggling(65536, 1))
    yield "65,536 wires that change in each cycle, 2,000 cycles", ["sim", small, "2000", "0"], 50
    yield "a chain of 65,536 wires, 100,000 cycles", ["sim", put("chain.v", chained(65536, False)), "100000", "7"], 1
    yield "65,536 wires that change in each cycle, 200 cycles, `--order 0`", ["sim", small, "200", "0", "--order", "0"], 500
    yield "a chain of 8,192 wires that change in each cycle, 8 cycles, `--order 1`", [
        "sim", put("order.v", chained(8192, True)), "8", "7", "--order", "1"], 64 * 12500
    nets = put("equal.net", equal_network(1))
    yield "a tree of 10,000 leaves over 16,384 operators", ["check", nets, nets, put("leaves.tree", many_leaves(10000))], 350
    lone = put("lone.net", "racenet 1\ninput a\noutput y0 = a\n")
    yield "a tree of 500,000 leaves, no operator", ["check", lone, lone, put("lone.tree", many_leaves(500000))], 1
    for operators, opened, fits in ((11, "14,335", 70), (16384, "100,000", 10)):  # a budget may be 1,000,000 cases
        left, right = (put("%s%d.net" % (side, operators), nested_min(12, side == "right", operators)) for side in ("left", "right"))
        what = "`min` of 12 inputs from the left and from the right, %s operators, %s cases" % (format(operators, ","), opened)
        yield what, ["compare", left, right], fits
    yield "16,384", ["big", "16384"], 1


def nested_min(inputs, from_right, operators):
    """The `min` of the inputs, nested from one side, and operators over it up to so many. The cases are 2^(inputs-2) * (inputs+2) - 1."""
    names = INPUTS[:inputs]
    order = names[::-1] if from_right else names
    bodies = ["min(%s, %s)" % (("p%d" % (k - 1), order[k + 1]) if k else (order[0], order[1])) for k in range(inputs - 1)]
    bodies += ["max(p%d, %s)" % (k - 1, names[k % inputs]) for k in range(inputs - 1, operators)]
    return lets(names, bodies, ["p%d" % (len(bodies) - 1)])


def few_needed():
    """An output of 3 operators in a network of 16,384."""
    names = INPUTS[:16]
    bodies = ["min(a0, a1)", "max(p0, a2)", "min(p1, a3)"]
    bodies += ["max(%s, %s)" % ("p%d" % (k - 1) if k > 3 else "a0", names[k % 16]) for k in range(3, OPERATORS)]
    return lets(names, bodies, ["p2"])


def timed(program, words, out):
    """The seconds, the memory and the status of a run, or None where it takes too long."""
    with open(out, "wb") as to, open(out + ".err", "wb") as err:
        begin = time.perf_counter()
        limit = lambda: resource.setrlimit(resource.RLIMIT_CPU, (LIMIT, LIMIT))
        child = subprocess.Popen([program] + words, stdout=to, stderr=err, preexec_fn=limit)
        _, state, usage = os.wait4(child.pid, 0)
    child.returncode = os.waitstatus_to_exitcode(state)
    return time.perf_counter() - begin, usage.ru_maxrss / 1024, child.returncode, usage.ru_utime + usage.ru_stime


def main():
    program = os.path.abspath(sys.argv[1])
    wanted = sys.argv[2:]
    print("| Command | Input | Seconds of the processor | MiB | Ends with | The whole, s |\n|---|---|---|---|---|---|")
    with tempfile.TemporaryDirectory() as folder:
        out, before = os.path.join(folder, "out"), 0.0
        for what, words, fits in cases(folder, program):
            if wanted and words[0] not in wanted:
                continue
            seconds, memory, status, used = timed(program, words, out)
            for _ in range(2 if seconds < 2 and status >= 0 else 0):
                again = timed(program, words, out)
                seconds, used = min(seconds, again[0]), min(used, again[3])
            with open(out + ".err") as f:
                said = f.read().strip().replace("racelog: ", "") or "status %d" % status
            if status < 0:
                said = "stopped"
            reading = before if what.startswith("the same, all") else 0.0
            whole = "%.0f" % ((used - reading) * fits + reading) if fits > 1 else ""
            before = used
            print("| `%s` | %s | %.3f | %s | %s | %s |" % (words[0], what, used, bench.shown(memory).strip(), said, whole), flush=True)


if __name__ == "__main__":
    main()
