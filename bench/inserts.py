#!/usr/bin/env python3
"""Measures the inserts a second of one log that threads share.

Builds crates/bench_log (`rt run`, which proves it first) and runs it with 1, 2, 4 and 8 backends, which insert records
with 8, 100, 1,000 and 8,000 bytes of main data (34, 126, 1,029 and 8,029 bytes each), over files in a fresh folder for each
run, and in memory. Each backend inserts one record again and again, which was assembled before; all of a run together insert
about as many bytes. The time is the program's own: the first segment is made before it, it reads no script, and nothing is
flushed at the end. Printed are the median, the least and the most of several runs, in thousands a second, and how many times
one backend's that is.

With `count` it prints instead how many instructions one insert takes, by valgrind's callgrind, which the machine's load does
not disturb: a run of one backend in memory with more inserts less one with fewer. All that an insert causes is in it, the
mapping and the writing of pages too.
Usage: bench/inserts.py [RUNS [MEGABYTES]], by default 5 runs of 100 MB; or bench/inserts.py count
"""
import os
import re
import statistics
import subprocess
import sys
import tempfile

TOP = os.path.dirname(os.path.dirname(os.path.abspath(__file__)))
CRATE = os.path.join(TOP, "crates", "bench_log")
PROGRAM = os.path.join(CRATE, "out", "bench_log")
BACKENDS = (1, 2, 4, 8)
# The bytes of main data, and what such a record takes up.
SIZES = {8: 40, 100: 128, 1000: 1032, 8000: 8032}


def build():
    if not os.access(PROGRAM, os.X_OK):
        subprocess.run(["rt", "run", "--", "1", "1", "memory", "inserts", "8"], cwd=CRATE, check=True)


def told(words, wrapped=()):
    """What a run of the program prints, and what it tells beside."""
    with tempfile.TemporaryDirectory() as folder:
        done = subprocess.run([*wrapped, PROGRAM, *words], cwd=folder, capture_output=True, text=True)
    if done.returncode:
        sys.exit(f"{' '.join(words)}: status {done.returncode}, printed {done.stdout!r}: {done.stderr}")
    return done.stdout, done.stderr


def rate(backends, inserts, size, place):
    """The inserts a second of a run in which each backend makes so many."""
    printed, _ = told([str(backends), str(inserts), place, "inserts", str(size), "timed"])
    found = re.fullmatch(r"inserts (\d+)\nmicroseconds (\d+)\n", printed)
    if not found or int(found[1]) != backends * inserts:
        sys.exit(f"{backends} backends of {inserts} inserts printed {printed!r}")
    return int(found[1]) * 1_000_000 / max(int(found[2]), 1)


def instructions(inserts, size):
    """The instructions of a run of one backend in memory."""
    counted = ["valgrind", "--tool=callgrind", "--callgrind-out-file=/dev/null"]
    _, beside = told(["1", str(inserts), "memory", "inserts", str(size)], counted)
    return int(re.search(r"Collected : (\d+)", beside)[1])


def count():
    print("| bytes of main data | instructions an insert |")
    print("|---|---|")
    for size, room in SIZES.items():
        # So many more records fill whole rings of 64 pages, so that mapping and writing have their share.
        more = 8 * 64 * 8192 // room
        print(f"| {size:,} | {(instructions(2 * more, size) - instructions(more, size)) / more:,.0f} |", flush=True)


def main():
    build()
    if sys.argv[1:] == ["count"]:
        return count()
    runs, megabytes = [int(word) for word in (sys.argv[1:] + ["5", "100"][len(sys.argv) - 1 :])]
    if runs < 1 or megabytes < 1:
        sys.exit("at least one run, of a megabyte")
    print("| over | bytes of main data | backends | thousand inserts a second | least | most | times one backend's |")
    print("|---|---|---|---|---|---|---|")
    for place in ("memory", "files"):
        for size, room in SIZES.items():
            one = None
            for backends in BACKENDS:
                inserts = max(megabytes * 1_000_000 // room // backends, 1)
                rates = sorted(rate(backends, inserts, size, place) / 1000 for _ in range(runs))
                middle = statistics.median(rates)
                one = one or middle
                print(f"| {place} | {size:,} | {backends} | {middle:,.0f} | {rates[0]:,.0f} | {rates[-1]:,.0f} | {middle / one:.2f} |",
                      flush=True)


if __name__ == "__main__":
    main()
