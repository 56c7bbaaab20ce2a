#!/usr/bin/env python3
"""Gives each reader random files, and looks at how the program ends.

    python3 bench/random_files.py PROGRAM [COUNT [READER ..]]

PROGRAM is the built racelog, COUNT the files for each reader (100,000), and the readers are network, table, module and tree. A file is
one of the examples with 1 to 8 random changes: a byte, a word or a line is taken away, doubled, exchanged, put in from another
example, or replaced by another, by a byte at random, or by a number at a limit; or the text is cut. Each run must end with a status
from 0 to 7, and write to standard output only with 0, 1 and 7. It prints how often each status and code came. A file that ends
otherwise is kept in the working folder. The numbers come from a fixed seed, so a run can be repeated.
"""
import glob
import os
import random
import re
import sys
import tempfile

import commands

NUMBERS = [b"0", b"1", b"64", b"255", b"256", b"65535", b"65536", b"1000000", b"1000001", b"4294967296", b"18446744073709551616", b"-1", b"00"]


def texts(pattern):
    found = []
    for path in sorted(glob.glob(os.path.join(commands.TOP, "examples", pattern))):
        with open(path, "rb") as f:
            found.append(f.read())
    return found


def module_texts(program):
    """The modules of the example networks and tables."""
    found = []
    for pattern in ("*.net", "*.table"):
        for path in sorted(glob.glob(os.path.join(commands.TOP, "examples", pattern))):
            status, out, _ = commands.run(program, ["compile", path])
            if status == 0:
                found.append(out)
    return found


def tree_texts():
    """The example, and a tree for trees.py's networks."""
    return texts("*.tree") + ["\n".join(commands.trees.tree(20)).encode()]


def pieces(text, kind):
    """The text in bytes, words or lines, with what is between."""
    if kind == 0:
        return [text[i:i + 1] for i in range(len(text))]
    return re.findall(rb"\w+|\s+|[^\w\s]" if kind == 1 else rb"[^\n]*\n|[^\n]+", text)


def change(numbers, text, others):
    """One random change."""
    kind = numbers.randrange(3)
    parts = pieces(text, kind)
    if not parts:
        return numbers.choice(others)
    at = numbers.randrange(len(parts))
    how = numbers.randrange(8)
    if how == 0:
        del parts[at]
    elif how == 1:
        parts.insert(at, parts[at])
    elif how == 2:
        other = numbers.randrange(len(parts))
        parts[at], parts[other] = parts[other], parts[at]
    elif how == 3:
        parts[at] = numbers.choice(pieces(numbers.choice(others), kind) or [b""])
    elif how == 4:
        parts.insert(at, numbers.choice(pieces(numbers.choice(others), kind) or [b""]))
    elif how == 5:
        parts[at] = numbers.choice(NUMBERS)
    elif how == 6:
        parts[at] = bytes([numbers.randrange(256)])
    elif numbers.randrange(4) == 0:
        parts = parts[:at]
    else:
        parts[at] = parts[at] * numbers.randrange(2, 20)
    return b"".join(parts)


def mutated(numbers, examples):
    text = numbers.choice(examples)
    for _ in range(numbers.choice((1, 1, 1, 2, 3, 5, 8))):
        text = change(numbers, text, examples)
    return text


def started(program, words, out, err):
    """Runs the program with its outputs in two open files: its status. It is killed after 10 s of its own time."""
    for f in (out, err):
        os.ftruncate(f, 0)
        os.lseek(f, 0, os.SEEK_SET)
    actions = [(os.POSIX_SPAWN_DUP2, out, 1), (os.POSIX_SPAWN_DUP2, err, 2)]
    child = os.posix_spawn(program, [program] + words, {}, file_actions=actions)
    return os.waitstatus_to_exitcode(os.waitpid(child, 0)[1])


def words_of(reader, path, networks, numbers):
    """A command that reads the file by this reader."""
    times = [str(numbers.randrange(8)) for _ in range(numbers.choice((1, 2, 2, 2, 3, 3, 4)))]
    if reader == "network":
        return numbers.choice((["compile", path], ["eval", path] + times, ["simplify", path], ["tabulate", path, "y", "2"]))
    if reader == "table":
        return numbers.choice((["compile", path], ["eval", path] + times, ["synth", path]))
    if reader == "module":
        return ["sim", path, "9"] + times + numbers.choice(([], ["--order", "1"]))
    return ["check", networks[0], networks[1], path]


def try_reader(program, reader, examples, networks, count, folder):
    """Prints a row for a reader; how many runs were wrong."""
    numbers = random.Random("racelog " + reader)
    path, out_path, err_path = (os.path.join(folder, name) for name in ("file", "out", "err"))
    out, err = (os.open(name, os.O_RDWR | os.O_CREAT) for name in (out_path, err_path))
    statuses, codes, wrong = {}, {}, 0
    for number in range(count):
        text = mutated(numbers, examples)
        with open(path, "wb") as to:
            to.write(text)
        words = words_of(reader, path, networks, numbers)
        status = started(program, words, out, err)
        statuses[status] = statuses.get(status, 0) + 1
        said = os.pread(err, 100, 0)
        if status == 3:
            code = said.split()[1].decode()
            codes[code] = codes.get(code, 0) + 1
        silent = os.fstat(out).st_size == 0
        if not 0 <= status <= 7 or (status not in (0, 1, 7)) != silent or (status in (0, 1, 7)) != (said == b""):
            wrong += 1
            with open("wrong_%s_%d" % (reader, number), "wb") as to:
                to.write(text)
            print("wrong:", reader, number, " ".join(words), status, said, file=sys.stderr)
    show = lambda counts: ", ".join("%s: %d" % (key, counts[key]) for key in sorted(counts))
    print("| %s | %d | %s | %s | %d |" % (reader, count, show(statuses), show(codes), wrong), flush=True)
    return wrong


def main():
    program = os.path.abspath(sys.argv[1])
    count = int(sys.argv[2]) if len(sys.argv) > 2 else 100000
    readers = sys.argv[3:] or ["network", "table", "module", "tree"]
    wrong = 0
    print("| Reader | Files | Statuses | Codes | Wrong |\n|---|---|---|---|---|")
    with tempfile.TemporaryDirectory(dir="/dev/shm" if os.path.isdir("/dev/shm") else None) as folder:
        networks = [os.path.join(commands.TOP, "examples", name) for name in ("max.net", "max2.net")]
        for reader in readers:
            examples = {"network": lambda: texts("*.net"), "table": lambda: texts("*.table"), "tree": tree_texts,
                        "module": lambda: module_texts(program)}[reader]()
            wrong += try_reader(program, reader, examples, networks, count, folder)
    sys.exit(wrong != 0)


if __name__ == "__main__":
    main()
