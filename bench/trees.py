#!/usr/bin/env python3
"""Measures `racelog check` on large trees.

    python3 bench/trees.py PROGRAM [ITEMS ..]

PROGRAM is the built racelog. For each number of items (62,500 to 1,000,000, doubling, where none are given) it makes two networks
of 64 operators over 24 inputs that have one output, equal in both, and a valid tree of about so many items: four splits decide the
least of five inputs, and further splits of other inputs below them need no facts. Each leaf has the four facts that its output
needs. It prints the items, the bytes of the tree's file, the least seconds of five runs (of one, where that takes over 5 s), the
most memory in MiB, and bytes of memory for each byte of the file.

Then it checks a file of nearly 64 MiB whose tree has another name than the output (E53), which measures the reading alone.
"""
import os
import sys
import tempfile

import bench

INPUTS = 24
RACERS = 5
OPERATORS = 64


def network(join):
    """The least of the first inputs, then operators that change nothing."""
    lines = ["racenet 1", "input " + " ".join("a%d" % i for i in range(INPUTS))]
    last = "a0"
    for k in range(OPERATORS):
        other = "a%d" % (k + 1) if k + 1 < RACERS else last
        lines.append("let p%d = %s(%s, %s)" % (k, "min" if k + 1 < RACERS else join, last, other))
        last = "p%d" % k
    lines.append("output y = %s" % last)
    return "\n".join(lines) + "\n"


def tree(items):
    """A valid tree of about so many items, as lines."""
    lines = ["racetree 1", "tree y"]

    def leaf(facts):
        lines.append("leaf")
        lines.extend(facts)

    def spread(facts, depth, count):
        """A subtree of about so many items whose splits are needless."""
        if count < 3:
            leaf(facts)
            return
        i = RACERS + depth % (INPUTS - RACERS)
        lines.append("split %d %d %d" % (i, RACERS + (depth + 1) % (INPUTS - RACERS), depth))
        below = (count - 1) // 2
        spread(facts, depth + 1, below)
        spread(facts, depth + 1, count - 1 - below)

    def race(least, rival, facts, count):
        """A subtree of about so many items, where `least` is the least input before `rival`."""
        if rival == RACERS:
            spread(facts, 0, count)
            return
        lines.append("split %d %d 0" % (least, rival))
        number = rival - 1
        race(least, rival + 1, facts + ["fact %d %d 0 : %d" % (least, rival, number)], (count - 1) // 2)
        race(rival, rival + 1, facts + ["fact %d %d -1 : %d" % (rival, least, number)], (count - 1) // 2)

    race(0, 1, [], items)
    return lines + ["end", ""]


def full_tree():
    """A tree of another name, as lines of nearly 64 MiB."""
    lines = tree(1000000)
    lines[1] = "tree z"
    room = 67108864 - sum(len(line) + 1 for line in lines)
    facts = ["fact %d %d %d : 0" % (i % INPUTS, i % 7, i % 100) for i in range(4000)]
    longer = []
    for line in lines:
        longer.append(line)
        if line == "leaf" and room > 100000:
            more = facts[:room // 100000]
            longer.extend(more)
            room -= sum(len(fact) + 1 for fact in more)
    return longer


def main():
    program = os.path.abspath(sys.argv[1])
    sizes = [int(word) for word in sys.argv[2:]] or [62500, 125000, 250000, 500000, 1000000]
    with tempfile.TemporaryDirectory() as folder:
        first, second, trees, out = (os.path.join(folder, name) for name in ("first", "second", "trees", "out"))
        for path, join in ((first, "max"), (second, "min")):
            with open(path, "w") as to:
                to.write(network(join))
        print("    items     bytes   seconds     MiB  bytes a byte")
        for size in sizes:
            lines = tree(size)
            text = "\n".join(lines)
            with open(trees, "w") as to:
                to.write(text)
            items = sum(1 for line in lines if line.startswith(("split", "leaf")))
            seconds, memory = bench.run([program, "check", first, second, trees], out)
            with open(out) as f:
                if f.read() != "accepted y\n":
                    sys.exit("the tree was not accepted")
            print("%9d %9d  %8.4f  %s  %12.2f" % (items, len(text), seconds, bench.shown(memory), memory * 1048576 / len(text)), flush=True)

        text = "\n".join(full_tree())
        with open(trees, "w") as to:
            to.write(text)
        seconds, memory = bench.run([program, "check", first, second, trees], out, 3)
        print("reading   %9d  %8.4f  %s  %12.2f  %.0f MB/s" % (
            len(text), seconds, bench.shown(memory), memory * 1048576 / len(text), len(text) / seconds / 1e6))


if __name__ == "__main__":
    main()
