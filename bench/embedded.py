#!/usr/bin/env python3
"""Measures the commits and the appends a second of a log that a program in C links, beside those of bench_log.

Builds crates/bench_log and crates/pgwal_c where they are not built (`rt run` and `rt lib`, which prove them first) and
bench/embedded.c, and runs both in turn with 1, 2, 4 and 8 threads, over files in a fresh folder for each run: commits of
records with 8 bytes of main data, and inserts of 100 bytes. The first segment is made before the time is taken. Printed are
the medians, and how many times bench_log's the program in C makes.
Usage: bench/embedded.py [RUNS [COMMITS [INSERTS]]]; by default 5 runs of 8,000 commits and 400,000 inserts. TMPDIR names a
folder on the disk that is to be measured.
"""
import os
import re
import statistics
import subprocess
import sys
import tempfile

TOP = os.path.dirname(os.path.dirname(os.path.abspath(__file__)))
BENCH = os.path.join(TOP, "crates", "bench_log", "out", "bench_log")
LIBRARY = os.path.join(TOP, "crates", "pgwal_c", "out")
THREADS = (1, 2, 4, 8)


def build(program):
    if not os.access(BENCH, os.X_OK):
        subprocess.run(["rt", "run", "--", "1", "1", "memory", "commits", "hard"], cwd=os.path.dirname(os.path.dirname(BENCH)), check=True)
    if not os.access(os.path.join(LIBRARY, "libpgwal_c.a"), os.R_OK):
        subprocess.run(["rt", "lib"], cwd=os.path.dirname(LIBRARY), check=True)
    kit = os.path.dirname(subprocess.run(["rt", "doc"], capture_output=True, text=True, check=True).stdout.strip())
    subprocess.run(["cc", "-std=c11", "-O2", f"-I{TOP}/bindings/c", "-o", program, os.path.join(TOP, "bench", "embedded.c"),
                    f"-L{LIBRARY}", "-lpgwal_c", f"-L{kit}/c", "-los_c", "-llibc_c", "-pthread"], check=True)


def rate(words, done):
    """How many a second a run tells, of which this many are to be done."""
    with tempfile.TemporaryDirectory() as folder:
        run = subprocess.run(words, cwd=folder, capture_output=True, text=True)
    told = re.fullmatch(r"[a-z]+ (\d+)\nmicroseconds (\d+)\n", run.stdout)
    if run.returncode or not told or int(told[1]) != done:
        sys.exit(f"{' '.join(words)}: status {run.returncode}, printed {run.stdout!r}: {run.stderr}")
    return done * 1_000_000 / max(int(told[2]), 1)


def main():
    runs, commits, inserts = [int(word) for word in (sys.argv[1:] + ["5", "8000", "400000"][len(sys.argv) - 1 :])]
    if runs < 1 or min(commits, inserts) < max(THREADS):
        sys.exit("at least one run, and a record for each thread")
    with tempfile.TemporaryDirectory() as built:
        program = os.path.join(built, "embedded")
        build(program)
        print("| work | threads | in C, a second | bench_log | times |")
        print("|---|---|---|---|---|")
        for name, count, ours, size in (("commits", commits, ["commits", "hard"], 8), ("appends", inserts, ["inserts", "100"], 100)):
            for threads in THREADS:
                each = count // threads
                rates = [(rate([program, str(threads), str(each), name, str(size)], threads * each),
                          rate([BENCH, str(threads), str(each), "files", *ours, "timed"], threads * each)) for _ in range(runs)]
                linked, own = (statistics.median(side) for side in zip(*rates))
                print(f"| {name} | {threads} | {linked:,.0f} | {own:,.0f} | {linked / own:.2f} |", flush=True)


if __name__ == "__main__":
    main()
