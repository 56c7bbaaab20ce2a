#!/usr/bin/env python3
"""Runs commands on files that change while they are read, on what is no file, and with outputs that fail.

    python3 bench/lying.py PROGRAM

PROGRAM is the built racelog. It prints a row for each case: what it is, the status, and what was written. The status is 0 if each
case ended as the script says. It needs a C compiler, for the library of disturb.py, which stops the program at a read so that its
file can be changed there. Run as root, it tries a file without permission as another user.
"""
import os
import resource
import shutil
import signal
import socket
import subprocess
import sys
import tempfile
import threading
import time

import commands
import disturb
import faults
import longest

MIB = 1 << 20


class Cases:
    """Runs cases, prints a row for each, and counts those that ended otherwise than they should."""

    def __init__(self, program, folder):
        self.program, self.folder, self.wrong = program, folder, 0
        self.disturbed = disturb.Disturbed(program, folder)

    def say(self, what, words, status, out, err, wanted):
        """A row. `wanted` is the status, and what is on standard error or, with status 0, on standard output."""
        said = (out if status in (0, 1, 7) else err).decode(errors="replace").strip().split("\n")[0]
        right = status == wanted[0] and said == wanted[1] and (status in (0, 1, 5, 7) or not out)
        self.wrong += not right
        ended = "killed by %s" % signal.Signals(-status).name if status < 0 else str(status)
        print("| %s | `%s` | %s | %s |%s" % (
            what, words[0], ended, "`%s`" % said[:60] if said else "nothing", "" if right else " WRONG, expected %r" % (wanted,)), flush=True)

    def simple(self, what, words, wanted, **more):
        """A run as it is."""
        how = {"stdout": subprocess.PIPE, "stderr": subprocess.PIPE, "stdin": subprocess.DEVNULL}
        how.update(more)
        begin = time.perf_counter()
        done = subprocess.run([self.program] + words, timeout=60, **how)
        if time.perf_counter() - begin > 20:
            print("slow: %.1f s" % (time.perf_counter() - begin), file=sys.stderr)
        self.say(what, words, done.returncode, done.stdout or b"", done.stderr or b"", wanted)

    def shell(self, what, words, command, wanted):
        """A run by the shell. `RUN` is the program with the words; what it says is the lines `status N` and standard error."""
        quoted = "'%s' %s" % (self.program, " ".join("'%s'" % word for word in words))
        done = subprocess.run(["sh", "-c", command.replace("RUN", quoted)], stdout=subprocess.PIPE, stderr=subprocess.PIPE, cwd=self.folder)
        lines = done.stdout.decode().strip().split("\n")
        status = int(lines[-1].split()[-1]) if lines[-1].startswith("status") else done.returncode
        status = 128 - status if status > 128 else status
        self.say(what, words, status, "\n".join(lines[:-1]).encode() if status == 0 else b"", done.stderr, wanted)

    def changed(self, what, words, path, text, number, change, wanted):
        """A run that is stopped at its read of this number, where its file is changed."""
        with open(path, "wb") as to:
            to.write(text)
        child = subprocess.Popen([self.program] + words, env=self.disturbed.env("stop-read", number), stdout=subprocess.PIPE,
                                 stderr=subprocess.PIPE, stdin=subprocess.DEVNULL)
        _, state = os.waitpid(child.pid, os.WUNTRACED)
        if not os.WIFSTOPPED(state):
            self.wrong += 1
            print("%s: the program didn't stop: %r" % (what, state))
            return
        change(path)
        os.kill(child.pid, signal.SIGCONT)
        out, err = child.communicate(timeout=60)
        self.say(what, words, child.returncode, out, err, wanted)


def replaced(path):
    with open(path + ".new", "w") as to:
        to.write("module other")
    os.rename(path + ".new", path)


def appended(text):
    def change(path):
        with open(path, "ab") as to:
            to.write(text)
    return change


def overwritten(path):
    with open(path, "r+b") as to:
        to.write(b"$" * 3 * MIB)


def module(size):
    """A module of so many bytes, most of them a comment before `endmodule`."""
    text = faults.nested(1, lambda inner: "(" + inner + " | in_a)").replace("endmodule\n", "")
    return (text + "/*" + " " * (size - len(text) - 14) + "*/\nendmodule\n").encode()


def changing(cases, sim, path):
    """Files that change while they are read. `sim` reads 1 MiB at a time."""
    three = module(3 * MIB)
    good = (0, "y 011")
    row = lambda what, number, change, wanted: cases.changed(what, sim, path, three, number, change, wanted)
    row("removed after 1 MiB was read", 2, os.remove, good)
    row("another file is moved to its name after 1 MiB", 2, replaced, good)
    row("cut to 0 bytes before the first read", 1, lambda p: os.truncate(p, 0), (3, "racelog: E70 file 1 line 1"))
    row("cut to 2 MiB after 1 MiB", 2, lambda p: os.truncate(p, 2 * MIB), (3, "racelog: E70 file 1 line 7"))
    row("cut to 0 bytes after 1 MiB", 2, lambda p: os.truncate(p, 0), (3, "racelog: E70 file 1 line 7"))
    row("overwritten with `$` after 1 MiB, within the comment", 2, lambda p: overwritten_later(p), good)
    row("overwritten with `$` before the first read", 1, overwritten, (3, "racelog: E70 file 1 line 1"))
    row("a comment is added at its end after 1 MiB", 2, appended(b"// more\n"), good)
    row("a word is added at its end after 1 MiB", 2, appended(b"more\n"), (3, "racelog: E70 file 1 line 8"))
    row("16 MiB are added after 1 MiB", 2, appended(b" " * 16 * MIB), (3, "racelog: E01 file 1 16777216"))


def overwritten_later(path):
    with open(path, "r+b") as to:
        to.seek(2 * MIB)
        to.write(b"$" * 1000)


def pipe_of(folder, text, forever=False):
    """A named pipe, and a thread that writes to it in pieces, or without end."""
    path = os.path.join(folder, "pipe")
    if os.path.exists(path):
        os.remove(path)
    os.mkfifo(path)

    def feed():
        try:
            with open(path, "wb", buffering=0) as to:
                at = 0
                while at < len(text) or forever:
                    to.write(text if forever else text[at:at + 7])
                    at += 7
        except BrokenPipeError:
            pass
    threading.Thread(target=feed, daemon=True).start()
    return path


def no_files(cases, net):
    """What isn't a file, and what can't be read."""
    folder = cases.folder
    fault = (4, "racelog: read fault file 1")
    cases.simple("a directory", ["compile", folder], fault)
    cases.simple("a directory", ["sim", folder, "3", "1"], fault)
    cases.simple("a directory as the second file", ["check", net, folder, net], (4, "racelog: read fault file 2"))
    cases.simple("no such file", ["compile", os.path.join(folder, "none")], fault)
    loop = os.path.join(folder, "loop")
    os.symlink(loop, loop)
    cases.simple("a symbolic link to itself", ["compile", loop], fault)
    cases.simple("a name of 4,096 bytes", ["compile", "n" * 4096], fault)
    cases.simple("a path through a file", ["compile", net + "/x"], fault)
    unix = os.path.join(folder, "socket")
    listening = socket.socket(socket.AF_UNIX)
    listening.bind(unix)
    cases.simple("a socket", ["compile", unix], fault)
    if os.geteuid() == 0:
        secret = commands.write(folder, "secret", "racenet 1\n")
        os.chmod(secret, 0)
        os.chmod(folder, 0o755)
        shutil.copy(cases.program, os.path.join(folder, "program"))
        cases.simple("no permission", ["compile", secret], fault, executable=os.path.join(folder, "program"), preexec_fn=lambda: os.setuid(65534))
    cases.simple("`/proc/self/mem`, which fails when read", ["compile", "/proc/self/mem"], fault)
    cases.simple("`/dev/null`", ["compile", "/dev/null"], (3, "racelog: E10 file 1 line 1"))
    for command, limit, more in (("compile", MIB, []), ("synth", MIB, []), ("sim", 16 * MIB, ["3", "1"])):
        cases.simple("`/dev/zero`, zeros without end", [command, "/dev/zero"] + more, (3, "racelog: E01 file 1 %d" % limit))
    cases.simple("`/dev/zero` as the third file", ["check", net, net, "/dev/zero"], (3, "racelog: E01 file 3 %d" % (64 * MIB)))
    endless = pipe_of(folder, b" " * 65536, forever=True)
    cases.simple("a pipe whose writer never ends", ["compile", endless], (3, "racelog: E01 file 1 %d" % MIB))
    with open(net, "rb") as f:
        slow = pipe_of(folder, f.read())
    cases.simple("a pipe whose writer writes 7 bytes at a time", ["eval", slow, "3", "5"], (0, "y 3"))
    with open(net, "rb") as given:
        cases.simple("`/dev/stdin`", ["eval", "/dev/stdin", "3", "5"], (0, "y 3"), stdin=given)
    cases.shell("`/dev/stdin` that is closed", ["eval", "/dev/stdin", "3", "5"], "RUN <&-; echo status $?", fault)


def outputs(cases, net):
    """Outputs that fail."""
    bad = commands.write(cases.folder, "bad.net", "racenet 1\n$\n")
    large = commands.write(cases.folder, "large.net", commands.bench.network(4096))
    write_fault, line = (5, "racelog: write fault"), (3, "racelog: E10 file 1 line 2")
    cases.shell("standard output closed", ["compile", net], "RUN >&-; echo status $?", write_fault)
    cases.shell("standard output closed, a fault in the file", ["compile", bad], "RUN >&-; echo status $?", line)
    cases.shell("standard error closed", ["compile", bad], "RUN 2>&-; echo status $?", (3, ""))
    cases.shell("standard error closed, no fault", ["eval", net, "3", "5"], "RUN 2>&-; echo status $?", (0, "y 3"))
    cases.simple("standard output is a full disk (`/dev/full`)", ["compile", net], write_fault, stdout=open("/dev/full", "wb"))
    cases.simple("standard error is a full disk", ["compile", bad], (3, ""), stderr=open("/dev/full", "wb"))
    cases.simple("both are full disks", ["compile", net], (5, ""), stdout=open("/dev/full", "wb"), stderr=open("/dev/full", "wb"))
    cases.simple("standard output is open for reading only", ["compile", net], write_fault, stdout=open(net, "rb"))
    there, here = os.pipe()
    os.close(there)
    cases.simple("standard output is a pipe that nobody reads; SIGPIPE ignored", ["compile", net], write_fault, stdout=here,
                 preexec_fn=lambda: signal.signal(signal.SIGPIPE, signal.SIG_IGN))
    cases.simple("the same; SIGPIPE as usual", ["compile", net], write_fault, stdout=here)
    cases.simple("standard error is such a pipe", ["compile", bad], (3, ""), stderr=here)
    there, here = os.pipe()
    os.set_blocking(here, False)
    cases.simple("standard output is a full pipe that doesn't block", ["compile", large], write_fault, stdout=here)
    size = lambda: resource.setrlimit(resource.RLIMIT_FSIZE, (1000, 1000))
    ignored = lambda: (size(), signal.signal(signal.SIGXFSZ, signal.SIG_IGN))
    out = os.path.join(cases.folder, "out")
    cases.simple("a file that may not grow over 1,000 bytes; SIGXFSZ ignored", ["compile", large], write_fault, stdout=open(out, "wb"), preexec_fn=ignored)
    if os.path.getsize(out) != 1000:
        cases.wrong += 1
        print("it has %d bytes" % os.path.getsize(out))
    cases.simple("the same; SIGXFSZ as usual", ["compile", large], (-signal.SIGXFSZ, ""), stdout=open(out, "wb"), preexec_fn=size)
    same = commands.write(cases.folder, "same.net", open(net).read())
    cases.simple("standard output is the file itself, added at its end", ["compile", same], (0, ""), stdout=open(same, "ab"))


def closed(cases, net):
    """The program without standard input, output and error: the file gets a low number, and must stay as it is."""
    before = open(net, "rb").read()
    child = os.fork()
    if child == 0:
        for number in (0, 1, 2):
            os.close(number)
        os.execv(cases.program, [cases.program, "compile", net])
    status = os.waitstatus_to_exitcode(os.waitpid(child, 0)[1])
    cases.say("standard input, output and error closed", ["compile"], status, b"", b"", (5, ""))
    if open(net, "rb").read() != before:
        cases.wrong += 1
        print("the file was changed")


def interrupted(cases):
    """A long run that is ended by SIGINT, as by Ctrl-C."""
    path = commands.write(cases.folder, "long.v", longest.toggling(65536, 1))
    child = subprocess.Popen([cases.program, "sim", path, "100000", "0"], stdout=subprocess.PIPE, stderr=subprocess.PIPE)
    time.sleep(1)
    child.send_signal(signal.SIGINT)
    out, err = child.communicate(timeout=60)
    cases.say("SIGINT (Ctrl-C) in a long run", ["sim"], child.returncode, out, err, (-signal.SIGINT, ""))


def main():
    program = os.path.abspath(sys.argv[1])
    net = os.path.join(commands.TOP, "examples", "earliest.net")
    print("| Case | Command | Status | Written |\n|---|---|---|---|")
    with tempfile.TemporaryDirectory() as folder:
        cases = Cases(program, folder)
        path = os.path.join(folder, "changing.v")
        changing(cases, ["sim", path, "3", "1"], path)
        no_files(cases, net)
        outputs(cases, net)
        closed(cases, net)
        interrupted(cases)
    print("\nwrong: %d" % cases.wrong)
    sys.exit(cases.wrong != 0)


if __name__ == "__main__":
    main()
