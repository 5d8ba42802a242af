#!/usr/bin/env python3
"""Lets allocations of the proved program fail in turn, over some rows of scripts in crates/kevin_rows and the script of
the tables in crates/kevin_cuts.

usage: examples/want_of_memory.py [--each] [PROGRAM]     (crates/kevin/out/kevin, which `rt run` in crates/kevin leaves)

Two mounts are added to each row. Each run must end with status 7 and no text, or answer as wanted up to one line
that answers `down nomem`; the lines behind it answer `off` up to the next mount, and that mount goes on from no
change before the last sync that answered. A run has the 34 MB of its flash, so of the allocations that a
format takes FORMAT_TRIES are tried, and of those behind it LINE_TRIES, evenly spread; all ends in a few minutes. With
--each the script of the tables is run alone, and each of its allocations behind the format fails in turn, some 35,000 of
them. The status is 1 where a run does otherwise. It wants cc, since the allocator is told by a library that is loaded
before the C library.
"""
import concurrent.futures
import os
import re
import shutil
import subprocess
import sys
import tempfile

# The rows: each kind of call, with boundaries, syncs and mounts, and none that fills a device.
ROWS = (
    "a mount behind a sync",
    "seventy directories meet a boundary after sixty-four changes",
    "bytes between two writes read as zero",
    "truncate by a path and by a descriptor",
    "an open that empties a file",
    "a file without a name lives until the mount",
    "a directory goes below another",
    "the tree in the order of bytes",
    "a file replaces a file",
    "a directory replaces an empty one",
    "a file is cut short, grown and emptied",
    "errors while all descriptors are open",
)

# The script of the tables, whose answers no row tells.
TABLE = "files are made, rewritten, renamed and removed"

# How many allocations of a format fail in a row, and how many of the lines behind it.
FORMAT_TRIES, LINE_TRIES = 4, 80

FAILING = r"""
#define _GNU_SOURCE
#include <dlfcn.h>
#include <stdio.h>
#include <stdlib.h>
#include <unistd.h>
static unsigned long count, at;
static void *(*take)(size_t), *(*again)(void *, size_t);
__attribute__((constructor)) static void begin(void) {
    take = dlsym(RTLD_NEXT, "malloc");
    again = dlsym(RTLD_NEXT, "realloc");
    at = strtoul(getenv("FAIL_ALLOCATION"), 0, 10);
    count = 0;
}
__attribute__((destructor)) static void end(void) {
    char text[32];
    int length = snprintf(text, sizeof text, "%lu", count);
    if (write(2, text, length) < 0) _exit(9);
}
static char early[65536];
static size_t used;
void *malloc(size_t n) {
    if (!take) { void *p = early + used; used += (n + 15) & ~15ul; return p; }
    return ++count == at ? NULL : take(n);
}
void *realloc(void *p, size_t n) {
    if (!again) return malloc(n);
    return ++count == at ? NULL : again(p, n);
}
"""


def lines_of(row):
    """The lines of a row: `* N LINE` stands for N lines, with the count from 00 in the place of `{}`."""
    for line in row:
        if line.startswith("* "):
            _, count, line = line.split(" ", 2)
            yield from (line.replace("{}", f"{number:02}") for number in range(int(count)))
        else:
            yield line


def rows_of(folder):
    """The rows by their names: lines and answers."""
    scripts = open(folder + "/stdin").read().split("\n-- ")[1:]
    answers = ("\n" + open(folder + "/stdout").read()).split("\n-- ")[1:]
    rows = {}
    for script, answer in zip(scripts, answers):
        name, *lines = script.splitlines()
        told, status, *answer = answer.splitlines()
        assert name == told, f"{name} is told as {told}"
        rows[name] = list(lines_of(lines)), answer
    return [rows[name] for name in ROWS]


def table_of(folder):
    """The lines of the script of the tables."""
    scripts = open(folder + "/stdin").read()[len("-- ") :].split("\n-- ")
    name, words, *lines = next(s for s in scripts if s.startswith(TABLE + "\n")).splitlines()
    return lines


def some_of(first, end, most):
    """So many numbers from the first on, evenly spread."""
    return range(first, end, 1 + (end - first - 1) // most)


def by_line(lines, told):
    """The answers line by line, those of `@tree` with what they list; None where they don't come out even."""
    answers, at = [], 0
    for _ in lines:
        if at >= len(told):
            return None
        tree = re.match(r"tree (\d+)$", told[at])
        more = 1 + (int(tree.group(1)) if tree else 0)
        answers.append("\n".join(told[at : at + more]))
        at += more
    return answers if at == len(told) else None


def kept_by(lines, want, run):
    """For each line the number that a mount behind it must at least tell: that of the last sync before it."""
    kept, least = [], 0
    for i, line in enumerate(lines):
        kept.append(least)
        if line.split()[0] in ("sync", "fsync") and want[i] == "ok":
            _, text, _ = run(lines[: i + 1] + ["@mount"], 0)
            least = int(text.split()[-1])
    return kept


def fault_of(lines, want, kept, status, text):
    """What is wrong with a run in which an allocation failed, or None."""
    if status == 7:
        return "text at status 7" if text else None
    answers = by_line(lines, text.splitlines())
    if status != 0 or answers is None:
        return f"status {status}"
    if answers == want:
        return None
    at = next(i for i in range(len(lines)) if answers[i] != want[i])
    if answers[at] != "down nomem":
        return f"{lines[at]} answers {answers[at]}"
    for i in range(at + 1, len(lines)):
        if lines[i] == "@mount":
            if not answers[i].startswith("mounted ") or int(answers[i].split()[1]) < kept[at]:
                return f"the mount answers {answers[i]}"
            return None
        if answers[i] != ("ok" if lines[i].startswith(("@cut", "@fail")) else "off"):
            return f"{lines[i]} answers {answers[i]} while it is down"
    return None


def main():
    here = os.path.dirname(os.path.dirname(os.path.abspath(__file__)))
    words = [word for word in sys.argv[1:] if word != "--each"]
    is_each = len(words) < len(sys.argv) - 1
    program = os.path.abspath(words[0] if words else here + "/crates/kevin/out/kevin")
    folder = tempfile.mkdtemp()
    with open(folder + "/failing.c", "w") as source:
        source.write(FAILING)
    library = folder + "/failing.so"
    subprocess.run(["cc", "-shared", "-fPIC", "-o", library, folder + "/failing.c", "-ldl"], check=True)

    def run(lines, n):
        done = subprocess.run(
            [program, "run", f"{folder}/image{n}"],
            input="".join(line + "\n" for line in lines),
            capture_output=True,
            text=True,
            env={"LD_PRELOAD": library, "FAIL_ALLOCATION": str(n)},
        )
        if os.path.exists(f"{folder}/image{n}"):
            os.remove(f"{folder}/image{n}")
        return done.returncode, done.stdout, int(done.stderr)

    runs, wrong = 0, 0
    _, _, formatted = run(["@format 256"], 0)
    scripts = [table_of(here + "/crates/kevin_cuts")]
    for lines, want in [] if is_each else rows_of(here + "/crates/kevin_rows"):
        status, text, _ = run(lines, 0)
        if status != 0 or text.splitlines() != want:
            sys.exit(f"the row doesn't answer as it should: {' ; '.join(lines)}")
        scripts.append(lines)
    for lines in scripts:
        lines = lines + ["@mount", "@mount"]
        _, text, count = run(lines, 0)
        want = by_line(lines, text.splitlines())
        kept = kept_by(lines, want, run)
        most = count if is_each else LINE_TRIES
        tries = [*some_of(1, formatted, FORMAT_TRIES), *some_of(formatted, count + 1, most)]
        with concurrent.futures.ThreadPoolExecutor(os.cpu_count()) as pool:
            answers = list(pool.map(lambda n: run(lines, n), tries))
        for n, (status, text, _) in zip(tries, answers):
            fault = fault_of(lines, want, kept, status, text)
            runs += 1
            if fault:
                wrong += 1
                print(f"allocation {n}: {fault}: {' ; '.join(lines)}")
    shutil.rmtree(folder)
    print(f"{runs} runs, {wrong} wrong")
    sys.exit(1 if wrong else 0)


main()
