#!/usr/bin/env python3
"""Differences that times drawn at random don't show: how many cases `racelog compare` opens to find them.

    python3 bench/rare.py PROGRAM [SEEDS]

PROGRAM is the built racelog; it needs z3. Networks of 16 to 48 operators with constants up to 999 are made, from the seeds 1 to SEEDS (40).
Each is compared with itself, rewritten by laws, after one operator or one constant of it was changed: all such changes in turn. Those
are kept that differ (z3 says so) though 336 lists of times, drawn below 1, 2, 4 and so on up to 2^20, show no difference. For each of them
the least budget is searched with which `compare` says different (1: no case was needed), beside the cases that equality takes: those of
the certificate for the network and itself, rewritten. It prints how many need no case, how many at most a tenth of those of equality, the
greatest number, and the seconds of the longest run.
"""
import os
import random
import subprocess
import sys
import tempfile
import time

import compare

BUDGET = 1000000


def network(seed):
    """A network in which constants decide: delays and latches in chains, and all ends joined in one output."""
    draws, net, used = random.Random(seed), compare.Net((4, 6, 8, 8)[seed % 4]), set()
    places = list(range(net.inputs))
    while len(net.nodes) < (16, 24, 32, 48)[seed % 4]:
        op = draws.choice(["lt", "lt", "min", "max", "inc", "inc"])
        free = [p for p in places if p not in used] or places
        one = draws.choice(free[-4:])
        two = draws.choice(free)
        if op == "inc":
            place = net.add("inc", one, draws.randrange(1, 1000))
        elif one == two:
            continue
        else:
            place = net.add(op, one, two)
            used.add(two)
        used.add(one)
        places.append(place)
    ends = [p for p in places if p not in used and p >= net.inputs]
    while len(ends) > 1:
        one, two = ends.pop(), ends.pop()
        ends.insert(0, net.add(draws.choice(["min", "max"]), one, two))
    net.outputs = ends
    return net


def rewritten(net):
    """The same function, by laws applied backwards."""
    draws, other, to = random.Random(1), compare.Net(net.inputs), list(range(net.inputs))
    for op, a, b in net.nodes:
        if op == "inc":
            to.append(other.add("inc", to[a], b))
            continue
        kind, x, y = draws.randrange(3), to[a], to[b]
        if op != "lt" and kind == 0:
            to.append(other.add(op, y, x))
        elif op == "max" and kind == 1:
            to.append(other.add("max", x, other.add("max", y, other.add("min", x, y))))
        elif op == "min" and kind == 1:
            to.append(other.add("min", other.add("max", x, other.add("min", x, y)), y))
        elif op == "lt" and kind == 1:
            to.append(other.add("lt", other.add("lt", x, y), y))
        else:
            to.append(other.add(op, x, y))
    other.outputs = [to[o] for o in net.outputs]
    return other


def changes(net):
    """The network with one operator or constant changed, each in turn."""
    for k, (op, a, b) in enumerate(net.nodes):
        nodes = [(op, a, b + 1)] + [(op, a, b - 1)] * (b > 1) if op == "inc" else [(o, a, b) for o in ("min", "max", "lt") if o != op]
        for node in nodes + [("lt", b, a)] * (op == "lt"):
            other = compare.Net(net.inputs)
            other.nodes, other.outputs = net.nodes[:k] + [node] + net.nodes[k + 1:], net.outputs
            yield other


def drawn(inputs):
    draws = random.Random(1)
    return [[draws.randrange(1 << k) for _ in range(inputs)] for k in range(21) for _ in range(16)]


def values(net, lists):
    rows = [list(row) for row in zip(*lists)]
    for op, a, b in net.nodes:
        if op == "inc":
            rows.append([x + b for x in rows[a]])
        else:
            join = {"min": min, "max": max, "lt": lambda x, y: x if x < y else float("inf")}[op]
            rows.append([join(x, y) for x, y in zip(rows[a], rows[b])])
    return [rows[o] for o in net.outputs]


def differ(folder, one, other):
    """Whether they differ at some times, by z3."""
    path = os.path.join(folder, "question")
    with open(path, "w") as to:
        to.write(compare.question(one, other, 0))
    return subprocess.run(["z3", "-T:20", path], capture_output=True).stdout.strip() == b"sat"


def run(program, folder, one, other, budget):
    paths = [os.path.join(folder, name) for name in ("first", "second")]
    for path, net in zip(paths, (one, other)):
        with open(path, "w") as to:
            to.write(net.text())
    start = time.perf_counter()
    got = subprocess.run([program, "compare"] + paths + ["--nodes", str(budget)], capture_output=True)
    return got.returncode, got.stdout, time.perf_counter() - start


def least_budget(program, folder, one, other):
    low, high = 0, 1
    while run(program, folder, one, other, high)[0] != 1:
        if high >= BUDGET:
            return None
        low, high = high, min(2 * high, BUDGET)
    while high - low > max(1, high // 30):
        middle = (low + high) // 2
        low, high = (low, middle) if run(program, folder, one, other, middle)[0] == 1 else (middle, high)
    return high


def main():
    program, seeds = os.path.abspath(sys.argv[1]), int(sys.argv[2]) if len(sys.argv) > 2 else 40
    tried, found = 0, []
    with tempfile.TemporaryDirectory() as folder:
        for seed in range(1, seeds + 1):
            net = network(seed)
            lists = drawn(net.inputs)
            before, items = values(net, lists), None
            for other in changes(net):
                tried += 1
                if values(other, lists) != before or not differ(folder, net, other):
                    continue
                if items is None:
                    status, text, _ = run(program, folder, net, rewritten(net), BUDGET)
                    items = BUDGET if status == 7 else sum(line.startswith((b"split", b"leaf")) for line in text.splitlines())
                seconds = run(program, folder, net, rewritten(other), BUDGET)[2]
                found.append((least_budget(program, folder, net, rewritten(other)), items, seconds))
    cases = [f[0] for f in found]
    print("%d changes, %d differ where no drawn times show it" % (tried, len(found)))
    print("without a case: %d" % sum(c == 1 for c in cases))
    print("with at most a tenth of the cases of equality: %d" % sum(c == 1 or c is not None and 10 * c <= n for c, n, _ in found))
    print("not found: %d" % sum(c is None for c in cases))
    print("the most cases: %d, where equality takes %d" % max((c, n) for c, n, _ in found if c is not None))
    print("the longest run: %.3f s" % max(f[2] for f in found))


if __name__ == "__main__":
    main()
