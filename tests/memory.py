#!/usr/bin/env python3
"""Runs the built program while one allocation after the other finds no memory.

A small library, compiled by `cc` and loaded before the C library, counts the allocations of a run
and refuses one of them, or each from one on. For every case and each allocation of its run: the
exit status is 6 (or that of the whole run, where the allocation could be missed), no signal and no
message, what is written is a beginning of what the whole run writes, and a stored file is either
the whole one or not there. Where a run makes many allocations, the first and the last ones and some
between are refused. Standard library alone; skipped with a word where there is no `cc`.

    tests/memory.py                         over crates/sota/out/sota
    tests/memory.py --sota PATH --most N    at most N allocations of each case are refused
    tests/memory.py --large --most 60       a large made network alone, which takes a minute or two
"""
import argparse
import os
import random
import shutil
import subprocess
import sys
import tempfile

from hostile import GRAPH, HISTS, MEMORY, PLAN, SOTA

SHIM = r"""
#define _GNU_SOURCE
#include <dlfcn.h>
#include <errno.h>
#include <stdio.h>
#include <stdlib.h>

static unsigned long count, first, last;
static void *(*real_malloc)(size_t);
static void *(*real_realloc)(void *, size_t);

static unsigned long number(const char *name) {
    const char *text = getenv(name);
    return text ? strtoul(text, 0, 10) : 0;
}

__attribute__((constructor)) static void begin(void) {
    first = number("REFUSE_FROM");
    last = number("REFUSE_TO");
    real_malloc = (void *(*)(size_t))dlsym(RTLD_NEXT, "malloc");
    real_realloc = (void *(*)(void *, size_t))dlsym(RTLD_NEXT, "realloc");
    count = 0;
}

__attribute__((destructor)) static void end(void) {
    unsigned long all = count;
    const char *name = getenv("COUNT_FILE");
    first = 0;
    FILE *file = name ? fopen(name, "w") : 0;
    if (file) { fprintf(file, "%lu", all); fclose(file); }
}

static int refused(void) {
    count += 1;
    return first && first <= count && count <= last;
}

void *malloc(size_t size) {
    if (!real_malloc) real_malloc = (void *(*)(size_t))dlsym(RTLD_NEXT, "malloc");
    if (refused()) { errno = ENOMEM; return 0; }
    return real_malloc(size);
}

void *realloc(void *old, size_t size) {
    if (!real_realloc) real_realloc = (void *(*)(void *, size_t))dlsym(RTLD_NEXT, "realloc");
    if (refused()) { errno = ENOMEM; return 0; }
    return real_realloc(old, size);
}
"""

SCRIPT = (
    b"ask 1 3 2\nedit 2 1:4\npolicy 1 3 3 plan\nask 1 3 2\nask 1 3 9\nclose 3\nask 1 3 9\n"
    b"route 3 3 1 2\nneed 1 3 0.750000000000000000 9\n"
)
CASES = [
    ("script", ["run", "graph", "hists", "script"]),
    ("ask", ["ask", "graph", "hists", "1", "3", "3"]),
    ("check", ["check", "graph", "hists", "policy"]),
    ("replay", ["replay", "graph", "hists", "policy", "100", "7"]),
    ("make", ["make", "7", "40", "120", "12", "180"]),
    ("timed", ["timed", "graph", "1", "3", "3", "10", "hists", "8", "hists"]),
]
LARGE = [("large", ["make", "7", "400", "1200", "120", "1800"])]
ALWAYS = 2**63


class Case:
    """A command in a folder of its own, and what its whole run does."""

    def __init__(self, folder, shim, words):
        self.folder, self.shim, self.words = folder, shim, words
        self.status, self.text, self.stored, self.count = self.play(0, 0)

    def play(self, first, last):
        """Runs the command while the allocations from one to another are refused."""
        stored, counted = os.path.join(self.folder, "plan"), os.path.join(self.folder, "count")
        for name in (stored, counted):
            if os.path.exists(name):
                os.remove(name)
        around = {"LD_PRELOAD": self.shim, "COUNT_FILE": counted,
                  "REFUSE_FROM": str(first), "REFUSE_TO": str(last)}
        done = subprocess.run([SOTA, *self.words], cwd=self.folder, env=around, timeout=120,
                              capture_output=True, check=False)
        if done.stderr:
            raise SystemExit(f"{self.words}, {first}: wrote the message {done.stderr!r}")
        data = None
        if os.path.exists(stored):
            with open(stored, "rb") as file:
                data = file.read()
        with open(counted, encoding="ascii") as file:
            return done.returncode, done.stdout, data, int(file.read())

    def fault(self, first, last):
        """What is wrong with such a run, None where nothing is."""
        status, text, stored, _ = self.play(first, last)
        if status not in (MEMORY, self.status):
            return f"status {status}"
        if status == self.status and text != self.text:
            return f"status {status} with the text {text!r}"
        if not self.text.startswith(text):
            return f"the text {text!r}"
        if stored not in (None, self.stored):
            return f"a stored file of {len(stored)} bytes"
        return None

    def refusals(self, most):
        """The allocations to refuse: all, or the first and the last and some between."""
        numbers = list(range(1, self.count + 1))
        if len(numbers) <= most:
            return numbers
        between = random.Random(1).sample(numbers[most // 4:-(most // 4)], most - most // 2)
        return sorted(set(numbers[:most // 4] + numbers[-(most // 4):] + between))


def compile_shim(folder):
    """The library that refuses allocations, compiled."""
    source, shim = os.path.join(folder, "refuse.c"), os.path.join(folder, "refuse.so")
    with open(source, "w", encoding="ascii") as out:
        out.write(SHIM)
    subprocess.run(["cc", "-O1", "-shared", "-fPIC", "-o", shim, source, "-ldl"], check=True)
    return shim


def main():
    global SOTA
    words = argparse.ArgumentParser(
        description=__doc__, formatter_class=argparse.RawDescriptionHelpFormatter)
    words.add_argument("--sota", default=SOTA)
    words.add_argument("--most", type=int, default=400)
    words.add_argument("--large", action="store_true")
    given = words.parse_args()
    SOTA = os.path.abspath(given.sota)
    if not shutil.which("cc"):
        print("tests: no allocation is refused: no cc")
        return 0
    faults = 0
    with tempfile.TemporaryDirectory() as folder:
        shim = compile_shim(folder)
        files = {"graph": GRAPH, "hists": HISTS, "script": SCRIPT, "policy": PLAN}
        for name, data in files.items():
            with open(os.path.join(folder, name), "wb") as out:
                out.write(data)
        for name, command in LARGE if given.large else CASES:
            case = Case(folder, shim, command)
            numbers = case.refusals(given.most)
            for first in numbers:
                for last in (first, ALWAYS):
                    fault = case.fault(first, last)
                    if fault:
                        faults += 1
                        print(f"{name}: allocation {first} of {case.count} refused: {fault}")
            print(f"{name}: {len(numbers)} of {case.count} allocations refused, each alone and "
                  f"with all after it")
    return 1 if faults else 0


if __name__ == "__main__":
    sys.exit(main())
