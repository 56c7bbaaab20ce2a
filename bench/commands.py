"""The commands of racelog with their inputs, for the scripts that try what can go wrong.

A new command is one more row of `rows`. A command that the program doesn't have is left out, and `cases` says so.
"""
import os
import subprocess
import sys

import bench
import trees

TOP = os.path.dirname(os.path.dirname(os.path.abspath(__file__)))
SMALL, MIDDLING = "small", "middling"


def table(inputs, rows):
    """A table of so many inputs and rows. The first input is 0, and row r has the binary digits of r as the others, by 1 and 2."""
    lines = ["racetable 1", "inputs " + " ".join("a%d" % i for i in range(inputs)), "output y"]
    for row in range(rows):
        entries = ["0"] + [str(1 + (row >> i & 1)) for i in range(inputs - 1)]
        lines.append(" ".join(entries) + " -> %d" % (2 + row % 4))
    return "\n".join(lines) + "\n"


def write(folder, name, text):
    """Writes a file, and answers its path."""
    path = os.path.join(folder, name)
    with open(path, "w") as to:
        to.write(text)
    return path


def module_of(program, folder, name, network):
    """The module of a network's file."""
    path = os.path.join(folder, name)
    with open(path, "wb") as to:
        subprocess.run([program, "compile", network], stdout=to, check=True)
    return path


def small_files(program, folder):
    """The files of the small cases."""
    example = {name: os.path.join(TOP, "examples", name) for name in os.listdir(os.path.join(TOP, "examples"))}
    return {
        "network": example["race.net"], "times": ["4", "6"], "table": example["first.table"], "table_times": ["4", "6"],
        "module": module_of(program, folder, "small.v", example["race.net"]), "wordy": example["wordy.net"],
        "window": [example["three.net"], "a_first", "3"], "first": example["max.net"], "second": example["max2.net"],
        "trees": example["max.tree"], "number": "8",
    }


def middling_files(program, folder):
    """The files of the middling cases: 256 operators, tables of 64 rows, trees of some 200 items."""
    network = write(folder, "middling.net", bench.network(256))
    return {
        "network": network, "times": bench.times(), "table": write(folder, "middling.table", table(8, 64)),
        "table_times": ["0"] * 8, "module": module_of(program, folder, "middling.v", network), "wordy": network,
        "window": [os.path.join(TOP, "examples", "three.net"), "a_first", "12"],
        "first": write(folder, "first.net", trees.network("max")), "second": write(folder, "second.net", trees.network("min")),
        "trees": write(folder, "middling.tree", "\n".join(trees.tree(200))), "number": "256",
    }


def rows(files):
    """Each command with its words."""
    f = files
    return [
        ("compile", ["compile", f["network"]]),
        ("compile, table", ["compile", f["table"]]),
        ("eval", ["eval", f["network"]] + f["times"]),
        ("eval, table", ["eval", f["table"]] + f["table_times"]),
        ("synth", ["synth", f["table"]]),
        ("simplify", ["simplify", f["wordy"]]),
        ("tabulate", ["tabulate"] + f["window"]),
        ("sim", ["sim", f["module"], "64"] + f["times"]),
        ("sim --order", ["sim", f["module"], "64"] + f["times"] + ["--order", "1"]),
        ("check", ["check", f["first"], f["second"], f["trees"]]),
        ("compare", ["compare", f["first"], f["second"]]),
        ("big", ["big", f["number"]]),
    ]


def run(program, words, **more):
    """Runs the program: its status (less than 0 for a signal), and what it wrote."""
    done = subprocess.run([program] + words, stdout=subprocess.PIPE, stderr=subprocess.PIPE, stdin=subprocess.DEVNULL, **more)
    return done.returncode, done.stdout, done.stderr


def cases(program, folder, size):
    """The commands that the program has, each with its words and its answer: a status and what it writes."""
    files = (small_files if size == SMALL else middling_files)(program, folder)
    found = []
    for name, words in rows(files):
        answer = run(program, words)
        if answer[0] == 2:
            print("%s: the program doesn't have it" % name)
        elif answer[0] not in (0, 1, 7):
            sys.exit("%s, %s: status %d: %s" % (name, size, answer[0], answer[2].decode()))
        else:
            found.append((name, words, answer))
    return found
