#!/usr/bin/env python3
"""Measures `send` and `receive`: how fast a log's frames are made, and taken.

Makes a log of about 200 MB in a folder of memory (after `./pgwal` was built), sends it into a file
there, and receives that file in a fresh folder beside it. Prints for each the medians of some runs:
the processor's seconds in the program and in the system apart, the clock's, and megabytes of pages
a second of one processor and by the clock; then that the copy lists as the log does. Where valgrind
is installed, the instructions a byte of page are counted, which the machine's load does not
disturb: those that a log of 1,079 pages takes more than one of 73, so that what each run takes
once, as the clearing of buffers, is no part of it.
Usage: bench/standby.py [RUNS]
"""
import os
import shutil
import statistics
import subprocess
import sys
import tempfile
import time

sys.dont_write_bytecode = True

from bench import PROGRAM, instructions

MEMORY = "/dev/shm"
PAGE = 8192
FRAME = PAGE + 32

# Of each backend, of which `gen` has four: some 200 MB of records.
LINES = 55_000


def run(words, folder, source, out):
    """The seconds of a command in the program, in the system and by the clock."""
    with open(source, "rb") as given, open(out, "wb") as taken:
        begin = time.monotonic()
        child = subprocess.Popen([PROGRAM, *words], cwd=folder, stdin=given, stdout=taken)
        _, status, usage = os.wait4(child.pid, 0)
        clock = time.monotonic() - begin
    if status != 0:
        sys.exit(f"{' '.join(words)}: status {os.waitstatus_to_exitcode(status)}")
    return usage.ru_utime, usage.ru_stime, clock


def folder_of(parent, name):
    path = os.path.join(parent, name)
    shutil.rmtree(path, ignore_errors=True)
    os.mkdir(path)
    return path


def made(parent, name, words):
    folder = folder_of(parent, name)
    subprocess.run([PROGRAM, *words], cwd=folder, stdout=subprocess.DEVNULL, check=True)
    return folder


def listing(folder):
    return subprocess.run([PROGRAM, "dump"], cwd=folder, stdout=subprocess.PIPE, check=True).stdout


def row(name, megabytes, taken):
    program, system, clock = map(statistics.median, zip(*taken))
    rate, by_clock = megabytes / (program + system), megabytes / clock
    print(f"| {name} | {program:.3f} | {system:.3f} | {clock:.3f} | {rate:.0f} | {by_clock:.0f} |", flush=True)


def counted(parent, lines):
    """Of a log of so many lines of each backend: its bytes of page, and what both commands take."""
    size = ["--seg", "1048576"]
    folder = made(parent, "short", ["gen", str(lines), *size])
    frames = os.path.join(parent, "frames")
    run(["send", *size], folder, os.devnull, frames)
    pages = os.path.getsize(frames) // FRAME * PAGE
    copy = folder_of(parent, "short_copy")
    sent = instructions([PROGRAM, "send", *size], folder)
    received = instructions([PROGRAM, "receive", *size], copy, frames)
    return pages, sent, received


def count(parent):
    """Prints the instructions a byte of page, of both commands."""
    short, long = counted(parent, 200), counted(parent, 3000)
    pages, sent, received = (more - less for more, less in zip(long, short))
    print(f"\ninstructions a byte of page: send {sent / pages:.2f}, receive {received / pages:.2f}")


def main():
    if not os.access(PROGRAM, os.X_OK):
        sys.exit("build the program first: run ./pgwal once")
    runs = int(sys.argv[1]) if len(sys.argv) > 1 else 5
    with tempfile.TemporaryDirectory(dir=MEMORY) as parent:
        log = made(parent, "log", ["gen", str(LINES)])
        frames, told = os.path.join(parent, "frames"), os.path.join(parent, "told")
        sent, received = [], []
        for _ in range(runs):
            sent.append(run(["send"], log, os.devnull, frames))
            copy = folder_of(parent, "copy")
            received.append(run(["receive"], copy, frames, told))
        megabytes = os.path.getsize(frames) // FRAME * PAGE / 1e6
        print(f"{megabytes:.0f} MB of pages\n")
        print("| command | s in the program | in the system | by the clock | MB/s of one processor | by the clock |")
        print("|---|---|---|---|---|---|")
        row("send", megabytes, sent)
        row("receive", megabytes, received)
        if listing(copy) != listing(log):
            sys.exit("the copy lists otherwise than the log")
        if shutil.which("valgrind"):
            count(parent)


if __name__ == "__main__":
    main()
