#!/usr/bin/env python3
"""Measures `redo` beside `dump --quiet` of the same log.

Makes logs of 24,000 pages' images, each of another block (after `./pgwal` was built): one of images without a hole, and one
whose pages have a hole of 7,900 bytes, so that nearly all of the work is the store's. Prints instructions of both, counted
by valgrind's callgrind, which the machine's load does not disturb, where it is installed; and the processor's seconds in the
program and in the system apart, the clock's, the page faults and the peak memory: the medians of some runs in turn.
"Huge pages" is the same with memory asked for in huge pages (glibc's tunable), as a system does by itself whose transparent
huge pages are set to `always`. The last rows are what the system takes for fresh memory of this size, filled once by this
script and nothing else.
Usage: bench/redo.py [RUNS]
"""
import mmap
import os
import resource
import shutil
import statistics
import subprocess
import sys
import tempfile
import time

sys.dont_write_bytecode = True

from bench import PROGRAM, instructions

IMAGES = 24_000
PAGE = 8192

# The hole of each image: where it begins, and its bytes.
LOGS = {"without a hole": "0+0", "with a hole": "64+7900"}

HUGE = {"GLIBC_TUNABLES": "glibc.malloc.hugetlb=1"}

# What is measured: a command's words, and what its environment has beside the caller's.
COMMANDS = {
    "dump --quiet": (["dump", "--quiet"], {}),
    "redo": (["redo"], {}),
    "redo, huge pages": (["redo"], HUGE),
}

# Fresh memory that is filled, and how it is asked for.
ADVICES = {"fresh memory alone": mmap.MADV_NORMAL, "fresh memory alone, huge pages": mmap.MADV_HUGEPAGE}


def make_log(folder, hole):
    lines = (f"I 1 9 10 - 1663/5/16384:0:{block}:-:{hole}+5a\n" for block in range(IMAGES))
    subprocess.run([PROGRAM, "run"], cwd=folder, input="".join(lines).encode(), stdout=subprocess.DEVNULL, check=True)


def run(words, more, folder):
    """The seconds of a run in the program, in the system and by the clock, its page faults, and its peak memory in MB."""
    begin = time.monotonic()
    child = subprocess.Popen([PROGRAM, *words], cwd=folder, env={**os.environ, **more}, stdout=subprocess.DEVNULL)
    _, status, usage = os.wait4(child.pid, 0)
    clock = time.monotonic() - begin
    if status != 0:
        sys.exit(f"{' '.join(words)}: status {os.waitstatus_to_exitcode(status)}")
    return usage.ru_utime, usage.ru_stime, clock, usage.ru_minflt, usage.ru_maxrss * 1024 / 1_000_000


def fill(advice):
    """What filling fresh memory for all pages takes, in `run`'s terms."""
    page = b"Z" * PAGE
    before, begin = resource.getrusage(resource.RUSAGE_SELF), time.monotonic()
    with mmap.mmap(-1, IMAGES * PAGE, flags=mmap.MAP_PRIVATE | mmap.MAP_ANONYMOUS) as memory:
        memory.madvise(advice)
        for at in range(0, IMAGES * PAGE, PAGE):
            memory[at : at + PAGE] = page
    after, clock = resource.getrusage(resource.RUSAGE_SELF), time.monotonic() - begin
    return after.ru_utime - before.ru_utime, after.ru_stime - before.ru_stime, clock, after.ru_minflt - before.ru_minflt, IMAGES * PAGE / 2**20


def row(images, command, counted, taken):
    program, system, clock, faults, memory = map(statistics.median, zip(*taken))
    print(f"| {images} | {command} | {counted} | {program:.3f} | {system:.3f} | {clock:.3f} | {faults:,.0f} | {memory:.0f} |", flush=True)


def main():
    if not os.access(PROGRAM, os.X_OK):
        sys.exit("build the program first: run ./pgwal once")
    runs = int(sys.argv[1]) if len(sys.argv) > 1 else 15
    print("| images | command | million instructions | s in the program | in the system | by the clock | page faults | peak MB |")
    print("|---|---|---|---|---|---|---|---|")
    for log, hole in LOGS.items():
        with tempfile.TemporaryDirectory() as folder:
            make_log(folder, hole)
            taken = {name: [] for name in COMMANDS}
            for _ in range(runs):
                for name, (words, more) in COMMANDS.items():
                    taken[name].append(run(words, more, folder))
            for name, (words, more) in COMMANDS.items():
                counted = ""
                if shutil.which("valgrind") and not more:
                    counted = f"{instructions([PROGRAM, *words], folder) / 1e6:.0f}"
                row(log, name, counted, taken[name])
    for name, advice in ADVICES.items():
        row("", name, "", [fill(advice) for _ in range(runs)])


if __name__ == "__main__":
    main()
