#!/usr/bin/env python3
"""Times the proved program on a load and on three scripts, beside the same calls of this machine's own file system.

usage: examples/speed.py [PROGRAM]     (crates/kevin/out/kevin, which `rt run` in crates/kevin leaves)

For each job: lines, processor seconds of the program, lines per processor second, its greatest memory, and how
many times the processor seconds of the same calls made by Python in a folder of this machine.
"""
import os
import shutil
import sys
import tempfile


def small_files():
    """Sixty directories, each with 150 files that are made, written and closed."""
    lines = []
    for a in range(60):
        lines.append(("mkdir", f"/d{a}"))
        for b in range(150):
            path = f"/d{a}/f{b}"
            lines += [("create", path), ("write", 300), ("close",)]
    return lines + [("sync",)]


def overwrites():
    """One file of 1 MiB, written a thousand times."""
    return [("create", "/f")] + [("pwrite", 1 << 20)] * 1000 + [("close",), ("sync",)]


def renames():
    """A file that moves between two directories, twenty levels down."""
    lines, path = [], ""
    for level in range(20):
        path += f"/n{level}"
        lines.append(("mkdir", path))
    lines += [("mkdir", path + "/a"), ("mkdir", path + "/b"), ("create", path + "/a/f"), ("close",)]
    for turn in range(10_000):
        here, there = ("/a/f", "/b/f") if turn % 2 == 0 else ("/b/f", "/a/f")
        lines.append(("rename", path + here, path + there))
    return lines + [("sync",)]


SPELLED = {
    "mkdir": lambda path: f"mkdir {path}",
    "create": lambda path: f"open {path} rw+creat",
    "write": lambda count: f"write 0 f:{count}:41",
    "pwrite": lambda count: f"pwrite 0 f:{count}:41 0",
    "close": lambda: "close 0",
    "rename": lambda old, new: f"rename {old} {new}",
    "sync": lambda: "sync",
}


def beside(lines, folder):
    """The same calls in a folder of this machine. Its sync is left out."""
    file = -1
    for word, *more in lines:
        if word == "mkdir":
            os.mkdir(folder + more[0])
        elif word == "create":
            file = os.open(folder + more[0], os.O_RDWR | os.O_CREAT)
        elif word == "write":
            os.write(file, b"\x41" * more[0])
        elif word == "pwrite":
            os.pwrite(file, b"\x41" * more[0], 0)
        elif word == "close":
            os.close(file)
        elif word == "rename":
            os.rename(folder + more[0], folder + more[1])


def measured(child):
    """What a child process does: its processor seconds, its greatest memory in MiB, and its status."""
    pid = os.fork()
    if pid == 0:
        child()
        os._exit(0)
    _, status, usage = os.wait4(pid, 0)
    return usage.ru_utime + usage.ru_stime, usage.ru_maxrss / 1024, status


def run(program, words, script):
    def child():
        with open(script) as source, open(script + ".out", "w") as sink:
            os.dup2(source.fileno(), 0)
            os.dup2(sink.fileno(), 1)
            os.execv(program, [program, *words])

    seconds, memory, status = measured(child)
    if status != 0:
        sys.exit(f"{words} ended with {status}")
    return seconds, memory


def main():
    program = os.path.abspath(sys.argv[1] if len(sys.argv) > 1 else "crates/kevin/out/kevin")
    folder = tempfile.mkdtemp()
    script = folder + "/script"
    open(script, "w").close()
    print("| Job | Lines | Seconds | Lines a second | MiB | Times this machine's |")
    print("|---|---|---|---|---|---|")
    seconds, memory = run(program, ["make", "1", "20000", "2048"], script)
    calls = int(open(script + ".out").read().split()[1])
    print(f"| `make 1 20000 2048` | {calls:,} | {seconds:.2f} | {calls / seconds:,.0f} | {memory:.0f} | |")
    for job in (small_files, overwrites, renames):
        lines = job()
        with open(script, "w") as text:
            text.write("@format 2048\n")
            text.writelines(SPELLED[word](*more) + "\n" for word, *more in lines)
        seconds, memory = run(program, ["run", folder + "/image"], script)
        if any(line.startswith(("err", "down", "off")) for line in open(script + ".out")):
            sys.exit(f"{job.__name__}: a call was not done")
        os.mkdir(folder + "/tree")
        other, _, _ = measured(lambda: beside(lines, folder + "/tree"))
        shutil.rmtree(folder + "/tree")
        count = len(lines) + 1
        name = job.__doc__.split("\n")[0].rstrip(".")
        print(f"| {name} | {count:,} | {seconds:.2f} | {count / seconds:,.0f} | {memory:.0f} | {seconds / other:.1f} |")
    shutil.rmtree(folder)


main()
