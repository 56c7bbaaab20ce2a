"""A library that is put between a program and the C library, and disturbs one call of the program: it fails, moves one byte only, or
stops the program until it is sent SIGCONT. It is made by `cc`.

FAIL_KIND is the kind of call: alloc, fail-open, fail-read, short-read, stop-read, fail-write or short-write. FAIL_AT is which call of
that kind is disturbed, from 1. FAIL_COUNT is a file descriptor to which the number of calls of that kind is written at the end.
"""
import os
import subprocess
import sys

import commands

SOURCE = r"""
#define _GNU_SOURCE
#include <dlfcn.h>
#include <errno.h>
#include <signal.h>
#include <stdarg.h>
#include <stdlib.h>
#include <string.h>
#include <unistd.h>

static long left = -1;
static long counted;
static const char *kind = "";

__attribute__((constructor)) static void begin(void) {
    const char *number = getenv("FAIL_AT");
    kind = getenv("FAIL_KIND") ? getenv("FAIL_KIND") : "";
    left = number ? atol(number) : -1;
}

__attribute__((destructor)) static void end(void) {
    const char *to = getenv("FAIL_COUNT");
    if (to && *to) {
        char text[32];
        int at = sizeof text;
        do { text[--at] = '0' + counted % 10; counted /= 10; } while (counted);
        static long (*really)(int, const void *, size_t);
        really = dlsym(RTLD_NEXT, "write");
        really(atoi(to), text + at, sizeof text - at);
    }
}

static int hits(const char *which) {
    if (strcmp(which, kind)) return 0;
    counted++;
    return left > 0 && --left == 0;
}

#define NEXT(name) static __typeof__(&name) next; if (!next) next = (__typeof__(&name))dlsym(RTLD_NEXT, #name)

void *malloc(size_t n) { NEXT(malloc); if (hits("alloc")) { errno = ENOMEM; return 0; } return next(n); }
void *realloc(void *p, size_t n) { NEXT(realloc); if (hits("alloc")) { errno = ENOMEM; return 0; } return next(p, n); }
void *calloc(size_t m, size_t n) { NEXT(calloc); if (hits("alloc")) { errno = ENOMEM; return 0; } return next(m, n); }
int posix_memalign(void **p, size_t a, size_t n) { NEXT(posix_memalign); return hits("alloc") ? ENOMEM : next(p, a, n); }
void *aligned_alloc(size_t a, size_t n) { NEXT(aligned_alloc); if (hits("alloc")) { errno = ENOMEM; return 0; } return next(a, n); }

#define FAILS if (hits("fail-" WORD)) { errno = EIO; return -1; }
#define SHORT(n) if (hits("short-" WORD) && n > 1) n = 1;
#define STOPS if (hits("stop-read")) raise(SIGSTOP);
#define WORD "read"
ssize_t read(int f, void *p, size_t n) { NEXT(read); STOPS FAILS SHORT(n) return next(f, p, n); }
ssize_t pread(int f, void *p, size_t n, off_t at) { NEXT(pread); STOPS FAILS SHORT(n) return next(f, p, n, at); }
ssize_t pread64(int f, void *p, size_t n, off_t at) { NEXT(pread64); STOPS FAILS SHORT(n) return next(f, p, n, at); }
#undef WORD
#define WORD "write"
ssize_t write(int f, const void *p, size_t n) { NEXT(write); FAILS SHORT(n) return next(f, p, n); }
ssize_t __write(int f, const void *p, size_t n) { return write(f, p, n); }
#undef WORD
#define WORD "open"
int open(const char *s, int how, ...) { va_list l; va_start(l, how); int m = va_arg(l, int); va_end(l); NEXT(open); FAILS return next(s, how, m); }
int open64(const char *s, int how, ...) { va_list l; va_start(l, how); int m = va_arg(l, int); va_end(l); NEXT(open64); FAILS return next(s, how, m); }
int openat(int d, const char *s, int how, ...) { va_list l; va_start(l, how); int m = va_arg(l, int); va_end(l); NEXT(openat); FAILS return next(d, s, how, m); }
"""


class Disturbed:
    """The program under the library."""

    def __init__(self, program, folder):
        self.program = program
        self.library = os.path.join(folder, "faults.so")
        source = commands.write(folder, "faults.c", SOURCE)
        subprocess.run(["cc", "-O1", "-w", "-shared", "-fPIC", "-o", self.library, source, "-ldl"], check=True)

    def env(self, kind, number):
        """What has the call of this number fail."""
        return {"LD_PRELOAD": self.library, "FAIL_KIND": kind, "FAIL_AT": str(number)}

    def run(self, words, kind, number):
        """The answer of a run whose call of this number fails."""
        return commands.run(self.program, words, env=self.env(kind, number))

    def count(self, words, kind):
        """How many calls of the kind a run makes."""
        there, here = os.pipe()
        os.set_inheritable(here, True)
        env = {"LD_PRELOAD": self.library, "FAIL_KIND": kind, "FAIL_COUNT": str(here)}
        commands.run(self.program, words, env=env, pass_fds=[here])
        os.close(here)
        with os.fdopen(there) as text:
            said = text.read()
        if not said:
            sys.exit("the library was not loaded")
        return int(said)
