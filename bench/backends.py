#!/usr/bin/env python3
"""Measures `run` of the built program with 1, 2, 4 and 8 backends.

All backends of a run together insert about as many records of 100 bytes, or make about as many commits of 34 bytes, in
segments of 16 MiB: over files in a fresh folder for each run, and over files in memory (/dev/shm) where there are such. The
seconds are those of the whole run, of which reading the script and assembling its records is a part that no number of
backends changes. Printed are the median, the least and the most of several runs. The summary has to count what was asked.

TMPDIR has to name a folder on the disk that is to be measured.
Usage: bench/backends.py [RUNS [RECORDS [COMMITS]]]; by default 5 runs of 400,000 records or 8,000 commits
"""
import os
import statistics
import subprocess
import sys
import tempfile
import time

TOP = os.path.dirname(os.path.dirname(os.path.abspath(__file__)))
PROGRAM = os.path.join(TOP, "crates", "pgwal", "out", "pgwal")
BACKENDS = (1, 2, 4, 8)
MEMORY = "/dev/shm"


def script_of(backends, line, lines):
    """So many lines of each backend, parted by lines `B`."""
    return "B\n".join([f"{line}\n" * lines] * backends).encode()


def seconds(script, want, place):
    """How long a run of a script takes in a fresh folder."""
    with tempfile.TemporaryDirectory(dir=place) as folder:
        begin = time.monotonic()
        done = subprocess.run([PROGRAM, "run"], cwd=folder, input=script, capture_output=True)
        taken = time.monotonic() - begin
    told = done.stdout.decode()
    if done.returncode or not told.startswith(want):
        sys.exit(f"run: status {done.returncode}, printed {told!r}, not {want!r}: {done.stderr.decode()}")
    return taken


def measure(what, line, count, place, runs):
    for backends in BACKENDS:
        lines = count // backends
        script = script_of(backends, line, lines)
        made = backends * lines
        want = f"records {made} commits {made if line.startswith('C') else 0} "
        rates = sorted(made / seconds(script, want, place) for _ in range(runs))
        middle = statistics.median(rates)
        where = "memory" if place else "files"
        print(f"| {what} | {where} | {backends} | {middle:,.0f} | {rates[0]:,.0f} | {rates[-1]:,.0f} |", flush=True)


def main():
    given = [int(word) for word in sys.argv[1:]]
    runs, records, commits = given + [5, 400_000, 8_000][len(given) :]
    if runs < 1 or min(records, commits) < max(BACKENDS):
        sys.exit("at least one run, and a line for each backend")
    if not os.access(PROGRAM, os.X_OK):
        sys.exit("build the program first: run ./pgwal once")
    print("| what | over | backends | a second | least | most |")
    print("|---|---|---|---|---|---|")
    for place in [None, MEMORY] if os.path.isdir(MEMORY) else [None]:
        measure("records of 100 bytes", "I 1 10 00 74*5a", records, place, runs)
        measure("commits", "C 1 0", commits, place, runs)


if __name__ == "__main__":
    main()
