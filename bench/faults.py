#!/usr/bin/env python3
"""Has each single allocation, read and write of each command fail in turn, and runs the program in little memory and little stack.

    python3 bench/faults.py PROGRAM [PART ..]

PROGRAM is the built racelog. The parts are calls, memory, stack; all where none is given. It needs a C compiler (`cc`), which makes
the library of disturb.py, which is put between the program and the C library and has the call of a number fail.

calls: a run for each call of malloc and realloc, of open, and of read and write, once failing and once short (one byte). Right are
the answer of an undisturbed run, or status 6 (4 for a failed open or read, 5 for a failed write) with nothing written, with status 5
at most a beginning of the answer.

memory: `ulimit -v` in steps, from too little to enough, with inputs of 16,384 operators. Where even the C library has no room, the
program isn't started. stack: the least `ulimit -s` for the deepest texts that the limits allow; each should be answered in 1 MiB.

The status is 0 if every run was right.
"""
import os
import resource
import signal
import sys
import tempfile

import commands
import disturb

KINDS = [("alloc", 6), ("fail-open", 4), ("fail-read", 4), ("short-read", 0), ("fail-write", 5), ("short-write", 0)]
TITLES = ["Allocation refused", "Open fails", "Read fails", "Short read", "Write fails", "Short write"]


def is_right(got, answer, status):
    """Whether a disturbed run gave the answer, or its status with nothing or a beginning written."""
    if got[:2] == answer[:2]:
        return True
    if got[0] != status or status == 0:
        return False
    return answer[1].startswith(got[1]) and got[1] != answer[1] if status == 5 else got[1] == b""


def endings(disturbed, words, answer, kind, status):
    """How the runs ended whose call of this kind failed, one for each: how many by each ending, and how many were wrong."""
    ended, wrong = {}, 0
    for number in range(1, disturbed.count(words, kind) + 1):
        got = disturbed.run(words, kind, number)
        right = is_right(got, answer, status)
        key = "answer" if got[:2] == answer[:2] else "%d" % got[0] if right else "WRONG %d%s" % (got[0], " and output" if got[1] else "")
        ended[key] = ended.get(key, 0) + 1
        wrong += not right
        if not right:
            print("wrong:", kind, number, words[0], got[0], got[2], file=sys.stderr)
    return ended, wrong


def try_calls(program, folder):
    """A row for each command and size; whether all were right."""
    disturbed = disturb.Disturbed(program, folder)
    wrong = 0
    print("| Command | Input | " + " | ".join(TITLES) + " |")
    print("|---" * (2 + len(KINDS)) + "|")
    for size in (commands.SMALL, commands.MIDDLING):
        for name, words, answer in commands.cases(program, folder, size):
            cells = []
            for kind, status in KINDS:
                ended, bad = endings(disturbed, words, answer, kind, status)
                wrong += bad
                cells.append(", ".join("%s: %d" % item for item in sorted(ended.items())) or "-")
            print("| `%s` | %s | %s |" % (name, size, " | ".join(cells)), flush=True)
    return wrong


def limited(kind, amount):
    """What sets a limit in the new process."""
    return lambda: resource.setrlimit(kind, (amount, amount))


def large_files(program, folder):
    """The files of the cases of 16,384 operators, 256 rows, and some 100,000 items."""
    files = commands.middling_files(program, folder)
    files["network"] = files["wordy"] = commands.write(folder, "large.net", commands.bench.network(16384))
    files["table"] = commands.write(folder, "large.table", commands.table(16, 256))
    files["table_times"] = ["0"] * 16
    files["module"] = commands.module_of(program, folder, "large.v", files["network"])
    files["trees"] = commands.write(folder, "large.tree", "\n".join(commands.trees.tree(100000)))
    files["number"] = "16384"
    return files


def ends(program, words, answer, amount):
    """How a command ends in so much memory."""
    got = commands.run(program, words, preexec_fn=limited(resource.RLIMIT_AS, amount << 10))
    if got[:2] == answer[:2]:
        return "answer"
    if got[0] == 6 and got[1] == b"":
        return "refused"
    if got[0] == 127 and b"loading shared libraries" in got[2] or got[0] < 0 and amount < 2048:
        return "not started"
    print("wrong: ulimit -v %d" % amount, words[0], got[0], got[2], file=sys.stderr)
    return "wrong"


def try_memory(program, folder):
    """A row for each command: how it ends in growing memory, in steps of a 16th, from 1 MiB to enough."""
    wrong = 0
    print("\n| Command | Runs | Not started | Status 6 | Answer | Wrong |")
    print("|---|---|---|---|---|---|")
    for name, words in commands.rows(large_files(program, folder)):
        answer = commands.run(program, words)
        if answer[0] == 2:
            continue
        amount, ended = 1024, {}
        while len(ended.get("answer", [])) < 8:
            ended.setdefault(ends(program, words, answer, amount), []).append(amount / 1024)
            amount += amount // 16
        between = lambda key: "%.1f to %.1f MiB" % (ended[key][0], ended[key][-1]) if key in ended else "-"
        wrong += len(ended.get("wrong", []))
        print("| `%s` | %d | %s | %s | from %.1f MiB | %d |" % (
            name, sum(map(len, ended.values())), between("not started"), between("refused"), ended["answer"][0], len(ended.get("wrong", []))), flush=True)
    return wrong


def nested(depth, group):
    """A module for sim whose output is so many groups, one in another."""
    inner = "in_a"
    for _ in range(depth):
        inner = group(inner)
    ports = ["  input clk;", "  input rst;", "  input in_a;", "  output out_y;"]
    return "\n".join(["module race(clk, rst, in_a, out_y);"] + ports + ["  assign out_y = %s;" % inner, "endmodule", ""])


def group_last(inner):
    """A group of 64 parts, of which the last is another group."""
    return "(" + "in_a | " * 63 + inner + ")"


def group_first(inner):
    """A group of 64 parts, of which the first is another group. An operator's left side is all before it, so this is deeper."""
    return "(" + inner + " | in_a" * 63 + ")"


def group_deepest(inner):
    """The same with a chain of 64 parts of `&` in it."""
    return "(" + inner + " & in_a" * 63 + " | in_a" * 63 + ")"


def parentheses(most):
    """A module that is nothing but opened parentheses, up to the limit of a file."""
    begin = "module race(clk, rst, in_a, out_y);\n  input clk;\n  input rst;\n  input in_a;\n  output out_y;\n  assign out_y = "
    return begin + "(" * (most - len(begin))


def deep_network(depth):
    """A network whose output is nested so deep."""
    return "racenet 1\ninput a b\noutput y = " + "min(" * depth + "a" + ", b)" * depth + "\n"


def long_chain():
    """A network of 16,384 lets, each over the one before."""
    lines = ["racenet 1", "input a b", "let p0 = min(a, b)"]
    lines += ["let p%d = %s(p%d, b)" % (k, ("min", "max", "lt")[k % 3], k - 1) for k in range(1, 16384)]
    return "\n".join(lines + ["output y = p16383"]) + "\n"


def deep_tree(items):
    """A valid tree of so many items, as deep as it can be: all splits first, then a leaf for each."""
    splits = items // 2
    lines = ["racetree 1", "tree y"] + ["split 0 0 0"] * splits + ["leaf"] * (splits + 1)
    return "\n".join(lines + ["end", ""])


def deep_cases(folder):
    """The deepest texts, with the words that read them."""
    one = commands.write(folder, "one.net", "racenet 1\ninput a\noutput y = a\n")
    net = commands.write(folder, "deep.net", deep_network(64))
    over = commands.write(folder, "over.net", deep_network(65))
    braces = commands.write(folder, "braces.net", "racenet 1\ninput a\noutput y = " + "min(" * 262000)
    chain = commands.write(folder, "chain.net", long_chain())
    opened = commands.write(folder, "opened.v", parentheses(16777216))
    tree = commands.write(folder, "deep.tree", deep_tree(999999))
    module = lambda name, depth, group: ["sim", commands.write(folder, name + ".v", nested(depth, group)), "3", "1"]
    return [
        ("a network, 64 operators nested", ["compile", net]),
        ("the same, 65 nested", ["compile", over]),
        ("a network of 1 MiB of `min(`", ["compile", braces]),
        ("16,384 lets, each over the one before", ["compile", chain]),
        ("the same", ["simplify", chain]),
        ("the same", ["eval", chain, "1", "2"]),
        ("a module, 64 nested groups of 64 parts, each the last part of the next", module("last", 64, group_last)),
        ("the same, each the first part of the next", module("first", 64, group_first)),
        ("the same with a chain of 64 `&` in each", module("deepest", 64, group_deepest)),
        ("the same, 65 nested groups", module("more", 65, group_deepest)),
        ("a module of 16 MiB of `(`", ["sim", opened, "3", "1"]),
        ("a tree of 999,999 items, 499,999 deep", ["check", one, one, tree]),
    ]


def ending(status):
    """A status, or the name of the signal that ended a run."""
    return signal.Signals(-status).name if status < 0 else "status %d" % status


def least_stack(program, words, answer):
    """The least stack in KiB that gives the answer, within 16."""
    enough = lambda amount: commands.run(program, words, preexec_fn=limited(resource.RLIMIT_STACK, amount << 10)) == answer
    low, high = 16, 16384
    while high - low > 16:
        middle = (low + high) // 2
        low, high = (low, middle) if enough(middle) else (middle, high)
    return high


def try_stack(program, folder):
    """A row for each deep text: what it answers, and the least stack that suffices. Wrong is one that needs more than 1 MiB."""
    wrong = 0
    print("\n| Text | Command | Answer | Least stack | In 1 MiB |")
    print("|---|---|---|---|---|")
    for what, words in deep_cases(folder):
        answer = commands.run(program, words, preexec_fn=limited(resource.RLIMIT_STACK, 16384 << 10))
        least = least_stack(program, words, answer)
        small = commands.run(program, words, preexec_fn=limited(resource.RLIMIT_STACK, 1024 << 10))
        wrong += small != answer
        ended = "the same" if small == answer else "WRONG: %s%s" % (ending(small[0]), " and output" if small[1] else "")
        said = answer[2].decode().strip().replace("racelog: ", "") or "status %d" % answer[0]
        print("| %s | `%s` | %s | %d KiB | %s |" % (what, words[0], said, least, ended), flush=True)
    return wrong


def main():
    program = os.path.abspath(sys.argv[1])
    parts = {"calls": try_calls, "memory": try_memory, "stack": try_stack}
    wrong = 0
    with tempfile.TemporaryDirectory() as folder:
        for part in sys.argv[2:] or list(parts):
            wrong += parts[part](program, folder)
    print("\nwrong: %d" % wrong)
    sys.exit(wrong != 0)


if __name__ == "__main__":
    main()
