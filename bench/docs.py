#!/usr/bin/env python3
"""Runs the commands of the documents, and compares what they print with what the documents say.

    python3 bench/docs.py crates/racelog/out/racelog          with the built program
    python3 bench/docs.py --try [FOLDER]                      with the program as `rt try` runs it, which proves nothing

In README.md and docs/*.md, in blocks between lines of ```:
  - a line `$ COMMAND` is run by the shell, in a folder with a copy of examples/, and must print the lines that follow, up to the
    next such line. What a command of one document writes into a file, the later ones of that document can read. A command whose
    first word, or the first word after a `|`, is a tool that this machine lacks is skipped;
  - a text of a network or a table, where the next block is one line `racelog: ..` or a Verilog module: `compile` of that text must
    print that block;
  - lines that end a module, where the next block is one line `racelog: ..`: `sim` of the last block that begins a module, with these
    lines after it, must print that line;
  - a block after a line that ends with "`examples/NAME`:" must be that file;
  - a block of definitions, after a line that ends with "`CRATE/specs/NAME.antt`:", must have each of them as that file has it.

Besides, each row of a table in docs/definitions.md, of names in backticks and a file, must name a file below crates/ that has these
names. A file without a path is in one of the directories that the heading above gives.

With --try the answers are kept in FOLDER, where it is given: remove it when the program has changed. The status is 0 if all agree.
"""
import glob
import os
import re
import shlex
import shutil
import subprocess
import sys
import tempfile

TOP = os.path.dirname(os.path.dirname(os.path.abspath(__file__)))
SHIM = """#!/usr/bin/env python3
import hashlib, os, sys
words = sys.argv[1:]
text = open(words[1], "rb").read() if len(words) > 1 and os.path.isfile(words[1]) else None
key = hashlib.sha256(repr((words, text)).encode()).hexdigest()[:24]
answer = os.path.join({answers!r}, key)
if not os.path.exists(answer):
    folder = os.path.join({wanted!r}, key)
    os.makedirs(folder, exist_ok=True)
    open(os.path.join(folder, "args"), "w").write("".join(word + "\\n" for word in words))
    if text is not None:
        open(os.path.join(folder, "text"), "wb").write(text)
    sys.exit(99)
status, _, text = open(answer, "rb").read().partition(b"\\n")
out = sys.stdout if status == b"0" else sys.stderr
out.buffer.write(text)
sys.exit(int(status))
"""


class Block:
    """A block of a document: its lines, the number of its first line, and the last line of words before it."""

    def __init__(self, number, lead, tag):
        self.number, self.lead, self.tag, self.lines = number, lead, tag, []

    def text(self):
        return "".join(line + "\n" for line in self.lines)

    def is_source(self):
        words = [line for line in self.lines if line.strip() and not line.startswith("#")]
        return bool(words) and not self.lines[0].startswith("$ ") and words[0].split()[0] in ("racenet", "racetable")

    def begins_module(self):
        return self.lines[0].startswith("module race(") and self.lines[-1] != "endmodule"

    def ends_module(self):
        return self.lines[0].startswith("  ") and self.lines[-1] == "endmodule"


def blocks(path):
    """The blocks of a document, in order."""
    found, inside, lead = [], None, ""
    with open(path, encoding="utf-8") as document:
        for number, line in enumerate(document.read().split("\n"), 1):
            if line.startswith("```"):
                if inside is None:
                    inside = Block(number + 1, lead, line[3:].strip())
                else:
                    found.append(inside)
                    inside, lead = None, ""
            elif inside is not None:
                inside.lines.append(line)
            elif line.strip():
                lead = line.strip()
    return found


def commands(block):
    """The commands of a block: for each the number of its line, its text, and what it is to print."""
    found = []
    for number, line in enumerate(block.lines, block.number):
        if line.startswith("$ "):
            found.append([number, line[2:], ""])
        elif found:
            found[-1][2] += line + "\n"
    return found


def checks(document):
    """What is to be run or compared of a document: lists of number, command or None, what is said, and a text for a file."""
    last, start = None, ""
    for block in blocks(document):
        named = re.search(r"`(examples/[\w.]+)`:$", block.lead)
        if named:
            yield block.number, "cat " + named.group(1), block.text(), None
        yield from ((number, words, said, None) for number, words, said in commands(block))
        told = len(block.lines) == 1 and block.lines[0].startswith("racelog: ")
        if last is not None and last.ends_module() and told:
            yield block.number, "racelog sim _text 8 3", block.text(), start + last.text()
        elif last is not None and last.is_source() and (told or block.tag == "verilog"):
            yield block.number, "racelog compile _text", block.text(), last.text()
        start = block.text() if block.begins_module() else start
        last = block


def quoted(document):
    """Compares the definitions that a document quotes with their files: how many agreed, and a report for each that didn't."""
    agreed, reports = 0, []
    for block in blocks(document):
        named = re.search(r"`([\w/]+\.antt)`:$", block.lead)
        if block.tag == "antt" and named:
            with open(os.path.join(TOP, "crates", named.group(1)), encoding="utf-8") as source:
                parts = source.read().strip("\n").split("\n\n")
            for part in block.text().strip("\n").split("\n\n"):
                if part in parts:
                    agreed += 1
                else:
                    reports.append("%s:%d: %s has no such definition\n%s\n" % (
                        os.path.relpath(document, TOP), block.number, named.group(1), part))
    return agreed, reports


def has_names(paths, names):
    """Whether one of these files has all these names."""
    for path in paths:
        if os.path.isfile(path):
            with open(path, encoding="utf-8") as source:
                text = source.read()
            if all(re.search(r"(?<!\w)%s(?!\w)" % re.escape(name.split("::")[-1]), text) for name in names):
                return True
    return False


def listed():
    """Looks up the names of docs/definitions.md in their files: how many rows agreed, and a report for each that didn't."""
    agreed, reports, folders = 0, [], []
    with open(os.path.join(TOP, "docs", "definitions.md"), encoding="utf-8") as document:
        for number, line in enumerate(document, 1):
            cells = [cell.strip() for cell in line.split("|")]
            if line.startswith("#"):
                folders = re.findall(r"`(\w+/\w+)`", line)
            elif len(cells) > 3 and cells[1].startswith("`") and re.fullmatch(r"(`[\w/]+\.(antt|rt)`(, )?)+", cells[2]):
                files = re.findall(r"`([^`]+)`", cells[2])
                paths = [os.path.join(TOP, "crates", file) for file in files if file.count("/") > 1]
                paths += [os.path.join(TOP, "crates", folder, file) for folder in folders for file in files]
                names = re.findall(r"`([^`]+)`", cells[1])
                if all(has_names(paths, [name]) for name in names):
                    agreed += 1
                else:
                    reports.append("docs/definitions.md:%d: %s: not in %s\n" % (number, cells[1], cells[2]))
    return agreed, reports


def missing_tool(command):
    """The first tool of a command that this machine lacks, or None."""
    words = shlex.shlex(command, posix=True, punctuation_chars=True)
    words.whitespace_split = True
    begins = True
    for word in words:
        if word[-1:] in ("|", ";", "&", "(") and set(word) <= set("|;&()"):
            begins = True
        elif begins and "=" not in word:
            if word != "racelog" and shutil.which(word) is None:
                return word
            begins = False
    return None


def run_document(document, bin_folder):
    """Runs a document's checks in a new folder: how many agreed and were skipped, and a report for each that didn't agree."""
    agreed, skipped, reports = 0, {}, []
    with tempfile.TemporaryDirectory() as folder:
        shutil.copytree(os.path.join(TOP, "examples"), os.path.join(folder, "examples"))
        env = dict(os.environ, PATH=bin_folder + os.pathsep + os.environ["PATH"])
        for number, command, said, text in checks(document):
            tool = missing_tool(command)
            if tool:
                skipped[tool] = skipped.get(tool, 0) + 1
                continue
            if text is not None:
                with open(os.path.join(folder, "_text"), "w", encoding="utf-8") as to:
                    to.write(text)
            child = subprocess.run(command, shell=True, cwd=folder, env=env, stdin=subprocess.DEVNULL,
                                   stdout=subprocess.PIPE, stderr=subprocess.STDOUT, timeout=120)
            printed = child.stdout.decode("utf-8", "replace")
            if printed == said:
                agreed += 1
            else:
                reports.append("%s:%d: %s\n--- said\n%s--- printed\n%s" % (
                    os.path.relpath(document, TOP), number, command, said, printed))
    return agreed, skipped, reports


def run_all(bin_folder):
    """Runs all documents: the reports, and a line that counts."""
    reports, total, left_out = [], 0, {}
    for document in [os.path.join(TOP, "README.md")] + sorted(glob.glob(os.path.join(TOP, "docs", "*.md"))):
        agreed, skipped, wrong = run_document(document, bin_folder)
        same, misquoted = quoted(document)
        total += agreed + same
        reports += wrong + misquoted
        for tool, count in skipped.items():
            left_out[tool] = left_out.get(tool, 0) + count
    same, lost = listed()
    total += same
    reports += lost
    words = "".join(", %d skipped, since %s is missing" % (count, tool) for tool, count in sorted(left_out.items()))
    return reports, "%d agree, %d differ%s" % (total, len(reports), words)


def answer_by_trial(wanted, answers):
    """Runs what is wanted under `rt try`, all with one build, and keeps the answers."""
    crate = os.path.join(TOP, "crates", "racelog")
    with tempfile.TemporaryDirectory() as cases:
        data = []
        for key in os.listdir(wanted):
            with open(os.path.join(wanted, key, "args")) as words:
                args = words.read().split("\n")[:-1]
            text = os.path.join(wanted, key, "text")
            if os.path.exists(text):                 # a name of its own for each text
                args[1] = key + ".text"
                data += ["--data", "%s=%s" % (args[1], text)]
            with open(os.path.join(cases, key + ".args"), "w") as to:
                to.write("".join(arg + "\n" for arg in args))
            open(os.path.join(cases, key), "w").close()
        child = subprocess.run(["rt", "try", "--cases", cases] + data, cwd=crate, stdout=subprocess.PIPE, stderr=subprocess.STDOUT)
    printed = child.stdout.decode("utf-8", "replace")
    for key, text, status in re.findall(r"^== (\w+)\n(.*?)^case=\1 run=ended status=(\d+)", printed, re.M | re.S):
        with open(os.path.join(answers, key), "w", encoding="utf-8") as to:
            to.write(status + "\n" + text)
    return len(os.listdir(answers))


def with_trials(answers):
    """Runs all documents until no answer of the program is wanted any more."""
    with tempfile.TemporaryDirectory() as bin_folder:
        wanted = os.path.join(bin_folder, "wanted")
        shim = os.path.join(bin_folder, "racelog")
        with open(shim, "w") as to:
            to.write(SHIM.format(answers=answers, wanted=wanted))
        os.chmod(shim, 0o755)
        for _ in range(4):
            os.makedirs(wanted)
            result = run_all(bin_folder)
            if not os.listdir(wanted):
                break
            before = len(os.listdir(answers))
            if answer_by_trial(wanted, answers) == before:
                sys.exit("docs.py: rt try gave no answer")
            shutil.rmtree(wanted)
        return result


def main():
    if len(sys.argv) < 2:
        sys.exit(__doc__)
    if sys.argv[1] == "--try":
        with tempfile.TemporaryDirectory() as folder:
            answers = os.path.abspath(sys.argv[2]) if len(sys.argv) > 2 else folder
            os.makedirs(answers, exist_ok=True)
            reports, line = with_trials(answers)
    else:
        with tempfile.TemporaryDirectory() as bin_folder:
            os.symlink(os.path.abspath(sys.argv[1]), os.path.join(bin_folder, "racelog"))
            reports, line = run_all(bin_folder)
    for report in reports:
        print(report)
    print(line)
    sys.exit(1 if reports else 0)


if __name__ == "__main__":
    main()
