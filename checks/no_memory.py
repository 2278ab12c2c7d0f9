#!/usr/bin/env python3
"""Makes each request for memory of `finder` fail in turn, and prints a table of what then happens.

    python3 checks/no_memory.py PROGRAM

A request is a call of `malloc`, `calloc` or `realloc` of the C library, which is where the program has all its memory from. The script
compiles the few lines of C below with `cc` and lays them over the C library by `LD_PRELOAD`. They count the calls from the start of `main`
on and answer call K with NULL, as the C library does where memory is out; in a second round call K and all behind it. K goes from 1 to the
number of calls that the row makes when none fails.

The files, and what the program owes over them, are those of examples/README.md. A run that meets a refused call is to end with status 10
and nothing printed, or as the row does when none fails. The exit status is 1 where one ends otherwise.
"""
import argparse
import os
import re
import subprocess
import sys
import tempfile
from collections import Counter

EXAMPLES = os.path.join(os.path.dirname(os.path.abspath(__file__)), os.pardir, "examples")
NO_MEMORY = (10, b"")

FAILING_MALLOC = r"""
#include <errno.h>
#include <fcntl.h>
#include <stdio.h>
#include <stdlib.h>
#include <unistd.h>

extern void *__libc_malloc(size_t);
extern void *__libc_calloc(size_t, size_t);
extern void *__libc_realloc(void *, size_t);

static long asked, fail_at, fail_behind;
static int counting;

static int refuses(void) {
    if (!counting) return 0;
    asked++;
    if (asked != fail_at && !(fail_behind && asked > fail_at)) return 0;
    errno = ENOMEM;
    return 1;
}

void *malloc(size_t size) { return refuses() ? NULL : __libc_malloc(size); }
void *calloc(size_t count, size_t size) { return refuses() ? NULL : __libc_calloc(count, size); }
void *realloc(void *old, size_t size) { return refuses() ? NULL : __libc_realloc(old, size); }

__attribute__((constructor)) static void start(void) {
    const char *at = getenv("FAIL_AT");
    fail_at = at ? atol(at) : 0;
    if (fail_at == 0) fail_at = -1;
    fail_behind = fail_at > 0 && getenv("FAIL_BEHIND") != NULL;
    counting = 1;
}

__attribute__((destructor)) static void stop(void) {
    char line[32];
    counting = 0;
    const char *name = getenv("COUNT_FILE");
    int file = name ? open(name, O_WRONLY | O_CREAT | O_TRUNC, 0600) : -1;
    if (file < 0) return;
    int length = snprintf(line, sizeof line, "%ld", asked);
    if (write(file, line, length) != length) _exit(99);
    close(file);
}
"""


class Program:
    """The program with the failing malloc over it."""

    def __init__(self, path, folder):
        self.path, self.library, self.count_file = os.path.abspath(path), os.path.join(folder, "failing.so"), os.path.join(folder, "count")
        source = os.path.join(folder, "failing.c")
        with open(source, "w") as out:
            out.write(FAILING_MALLOC)
        subprocess.run(["cc", "-O1", "-shared", "-fPIC", "-o", self.library, source], check=True)

    def run(self, words, fail_at=0, fails_behind=False):
        """The status and what is printed where this call fails, and the number of calls."""
        environment = os.environ | {"LD_PRELOAD": self.library, "COUNT_FILE": self.count_file, "FAIL_AT": str(fail_at)}
        if fails_behind:
            environment["FAIL_BEHIND"] = "1"
        if os.path.exists(self.count_file):
            os.remove(self.count_file)
        ran = subprocess.run([self.path, *words], cwd=EXAMPLES, env=environment, capture_output=True, timeout=60)
        if not os.path.exists(self.count_file):
            sys.exit(f"{' '.join(words)}: no count with call {fail_at} refused: it ended with {ran.returncode}")
        with open(self.count_file) as count:
            return (ran.returncode, ran.stdout), int(count.read())


def shown(text, command):
    """What examples/README.md shows that a command prints."""
    return re.search(rf"^\$ {re.escape(command)}\n(.*?)^(?:```|\$ )", text, re.MULTILINE | re.DOTALL)[1].encode()


def rows(folder):
    """What is shown, the words, and the status and text that are due."""
    with open(os.path.join(EXAMPLES, "README.md")) as page:
        text = page.read()
    tunnel, domains = "find cust-a any cust-b any vpn.json", "w-host any e-host any west.json core.json east.json"
    document = os.path.join(folder, "answer")
    with open(document, "wb") as out:
        out.write(shown(text, f"finder {tunnel}"))
    outcome = shown(text, f"finder {tunnel}").split(b"\n")[2]
    return [
        ("find, a tunnel with potentials", tunnel.split(" "), (0, shown(text, f"finder {tunnel}"))),
        ("route, three domains", ["route", *domains.split(" ")], (0, shown(text, f"finder route {domains}"))),
        ("survey, three domains", ["survey", *domains.split(" ")[4:]], (0, shown(text, "finder survey " + domains.split("any ")[-1]))),
        ("find, whose second file is not there", "find a any b any one.json gone.json".split(" "), (5, b"read 2 absent\n")),
        ("find, whose second file is a folder", "find a any b any one.json pictures".split(" "), (5, b"read 2 failed\n")),
        ("find, whose FROM is no port", "find q any b any one.json".split(" "), (4, b"request unknown-port q\n")),
        ("survey, one file twice", "survey one.json one.json".split(" "), (3, b"fault 2 0 duplicate-topology d 1\n")),
        ("check, the tunnel", ["check", document, "vpn.json"], (0, outcome.replace(b"outcome", b"valid") + b"\n")),
        ("replay, the tunnel", ["replay", document, "vpn.json"], (0, b"carried 5 any-order\n")),
    ]


def main():
    parser = argparse.ArgumentParser(description=__doc__, formatter_class=argparse.RawDescriptionHelpFormatter)
    parser.add_argument("program")
    options = parser.parse_args()
    print("| row | calls | runs | status 10, nothing printed | as the row | otherwise |\n|---|---|---|---|---|---|")
    wrong = []
    with tempfile.TemporaryDirectory() as folder:
        program = Program(options.program, folder)
        for name, words, due in rows(folder):
            said, calls = program.run(words)
            if said != due or calls == 0:
                sys.exit(f"{name}: {said} after {calls} calls of malloc, none of them refused; due: {due}")
            ends = Counter()
            for fails_behind in (False, True):
                for number in range(1, calls + 1):
                    said, _ = program.run(words, number, fails_behind)
                    end = "none" if said == NO_MEMORY else "row" if said == due else "other"
                    ends[end] += 1
                    if end == "other":
                        wrong.append(f"{name}: call {number}{' and all behind it' if fails_behind else ''}: {said}")
            print(f"| {name} | {calls} | {2 * calls} | {ends['none']} | {ends['row']} | {ends['other']} |", flush=True)
    print("".join(line + "\n" for line in wrong), end="")
    sys.exit(1 if wrong else 0)


if __name__ == "__main__":
    main()
