#!/usr/bin/env python3
"""Measures the commands that store terms on networks whose terms collide in the store's hash table.

    python3 bench/keys.py PROGRAM [COLLIDING]

PROGRAM is the built racelog. The hash of the store's nodes has a fixed seed, so their places in the table can be computed, as here.
It makes a network of 16,384 min, max and lt over 64 inputs, in which COLLIDING (8,000) distinct terms begin in the same one of 4,096
groups of the table, so that a look-up of one goes through all groups that they fill, and the other operators repeat one of
these terms. It is compared with an honest network: the same, but the terms are chosen at random, and so is what is repeated. It prints
the least of nine runs of each command on both, in seconds of the processor, and their ratio. The status is 0 if no ratio is over 10.
"""
import os
import sys
import tempfile

import bench
import longest

OPERATORS, INPUTS, GROUPS, GROUP = 16384, 64, 4096, 5
STATE, MULTIPLIER, MASK = 0x243F6A8885A308D3, 0x9E3779B97F4A7C15, (1 << 64) - 1
NAMES = {2: "min", 3: "max", 4: "lt"}


def folded(a, b):
    """The low and the high half of a product of 128 bits, joined by xor."""
    product = a * b
    return product & MASK ^ product >> 64


def written(state, word, size):
    """The state after a word of 4 or 8 bytes."""
    short = word | word << 32 if size == 4 else word
    return folded(state ^ short, MULTIPLIER ^ 2 * size)


def group(variant, first, second):
    """The group of the table at which a search for a node begins."""
    state = written(written(written(STATE, variant, 8), first, 4), second, 4)
    return (state ^ state >> 32) % GROUPS


def colliding(first, places, seconds):
    """The nodes of this first operand over these second operands that begin in GROUP."""
    found = []
    last = MULTIPLIER ^ 8
    for variant in NAMES:
        state = written(written(STATE, variant, 8), first, 4)
        for second in seconds:
            product = (state ^ second * 0x100000001) * last
            value = product & MASK ^ product >> 64
            if (value ^ value >> 32) % GROUPS == GROUP:
                found.append((variant, first, second))
    return found


class Maker:
    """A network in the making: the nodes of its lets, each over earlier places."""

    def __init__(self):
        self.numbers = bench.Numbers(20181)
        self.nodes = []
        self.held = set()

    def places(self):
        return INPUTS + len(self.nodes)

    def add(self, node):
        if node not in self.held:
            self.held.add(node)
            self.nodes.append(node)

    def add_random(self):
        places = self.places()
        self.add((2 + self.numbers.below(3), self.numbers.below(places), self.numbers.below(places)))

    def text(self, repeated):
        """The network, with these nodes as the other operators up to OPERATORS, all of them below its outputs by use or not."""
        name = lambda place: "a%d" % place if place < INPUTS else "p%d" % (place - INPUTS)
        nodes = self.nodes + [repeated(i) for i in range(OPERATORS - len(self.nodes))]
        lines = ["racenet 1", "input " + " ".join("a%d" % i for i in range(INPUTS))]
        lines += ["let p%d = %s(%s, %s)" % (k, NAMES[v], name(a), name(b)) for k, (v, a, b) in enumerate(nodes)]
        lines += ["output y%d = p%d" % (o, len(self.nodes) - 1 - o) for o in range(64)]
        return "\n".join(lines) + "\n"


def hostile(count):
    """A network of so many colliding terms, after enough others to have that many to choose from."""
    maker = Maker()
    while len(maker.nodes) < 2000:
        maker.add_random()
    begun, first = len(maker.nodes), 0
    while len(maker.nodes) - begun < count:
        for node in colliding(first, maker.places(), range(maker.places())):
            if len(maker.nodes) - begun < count:
                maker.add(node)
        first += 1
    return maker, maker.text(lambda i: maker.nodes[-1])


def honest(size):
    """A network of as many distinct terms."""
    maker = Maker()
    while len(maker.nodes) < size:
        maker.add_random()
    return maker.text(lambda i: maker.nodes[maker.numbers.below(size)])


def main():
    program = os.path.abspath(sys.argv[1])
    count = int(sys.argv[2]) if len(sys.argv) > 2 else 8000
    maker, bad = hostile(count)
    chosen = sum(group(*node) == GROUP for node in maker.nodes)
    print("%d distinct terms, of which %d begin in one group; %d repeat one" % (len(maker.nodes), chosen, OPERATORS - len(maker.nodes)))
    texts = {"honest": honest(len(maker.nodes)), "colliding": bad}
    worst = 0.0
    print("| Command | Honest, s | Colliding, s | Ratio |\n|---|---|---|---|")
    with tempfile.TemporaryDirectory() as folder:
        for command, more in (("compile", []), ("simplify", []), ("eval", ["1"] * INPUTS)):
            seconds = {}
            for name, text in texts.items():
                path = os.path.join(folder, name)
                with open(path, "w") as to:
                    to.write(text)
                seconds[name] = min(longest.timed(program, [command, path] + more, os.path.join(folder, "out"))[3] for _ in range(9))
            ratio = seconds["colliding"] / seconds["honest"]
            worst = max(worst, ratio)
            print("| `%s` | %.4f | %.4f | %.1f |" % (command, seconds["honest"], seconds["colliding"], ratio), flush=True)
    sys.exit(worst > 10)


if __name__ == "__main__":
    main()
