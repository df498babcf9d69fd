#!/usr/bin/env python3
"""Measures the commits a second of one log that threads share, hard ones and ones that are answered ahead of the disk.

Builds crates/bench_log (`rt run`, which proves it first) and runs it with 1, 2, 4, 8 and 16 backends, over files in a
fresh folder for each run, and in memory. All backends of a run together make about as many commits, each of a record of 34
bytes; of those answered ahead ten times as many, since they take less. Beside these one more thread flushes behind, again
and again, until all are durable, so that its last flush is in the time. The time is the program's own: the first segment
is made before it, and so are the records, and it reads no script. Printed are the median, the least and the most of
several runs, and how many microseconds of its processors (the system's among them) the whole program took for each
commit, the median: what those that wait cost.

Over files a hard commit waits for a sync: TMPDIR has to name a folder on the disk that is to be measured, not one in
memory. The disk in memory keeps each page that it is given, so a commit takes up to some 25 KB there.
Usage: bench/commits.py [RUNS [COMMITS]]; by default 5 runs of 8,000 commits
"""
import os
import re
import resource
import statistics
import subprocess
import sys
import tempfile

TOP = os.path.dirname(os.path.dirname(os.path.abspath(__file__)))
CRATE = os.path.join(TOP, "crates", "bench_log")
PROGRAM = os.path.join(CRATE, "out", "bench_log")
BACKENDS = (1, 2, 4, 8, 16)
# Each kind of commit, and how many times as many are made.
KINDS = (("hard", 1), ("async", 10))


def build():
    if not os.access(PROGRAM, os.X_OK):
        subprocess.run(["rt", "run", "--", "1", "1", "memory", "commits", "hard"], cwd=CRATE, check=True)


def processor_seconds():
    """The seconds of their processors that all programs took which have ended."""
    used = resource.getrusage(resource.RUSAGE_CHILDREN)
    return used.ru_utime + used.ru_stime


def measure(backends, commits, place, kind):
    """The commits a second of a run in which each backend makes so many, and the processors' microseconds for each."""
    before = processor_seconds()
    with tempfile.TemporaryDirectory() as folder:
        words = [PROGRAM, str(backends), str(commits), place, "commits", kind, "timed"]
        done = subprocess.run(words, cwd=folder, capture_output=True, text=True)
    told = re.fullmatch(r"commits (\d+)\nmicroseconds (\d+)\n", done.stdout)
    if done.returncode or not told or int(told[1]) != backends * commits:
        sys.exit(f"{' '.join(words)}: status {done.returncode}, printed {done.stdout!r}: {done.stderr}")
    return int(told[1]) * 1_000_000 / max(int(told[2]), 1), (processor_seconds() - before) * 1_000_000 / int(told[1])


def main():
    runs, commits = [int(word) for word in (sys.argv[1:] + ["5", "8000"][len(sys.argv) - 1 :])]
    if runs < 1 or commits < 2 * max(BACKENDS):
        sys.exit("at least one run, and two commits for each backend")
    build()
    print("| over | commits | backends | commits a second | least | most | processor µs |")
    print("|---|---|---|---|---|---|---|")
    for place in ("files", "memory"):
        for kind, times in KINDS:
            for backends in BACKENDS:
                measured = [measure(backends, times * commits // backends, place, kind) for _ in range(runs)]
                rates = sorted(rate for rate, _ in measured)
                processor = statistics.median(used for _, used in measured)
                print(f"| {place} | {kind} | {backends} | {statistics.median(rates):,.0f} | {rates[0]:,.0f} | {rates[-1]:,.0f} |"
                      f" {processor:.1f} |", flush=True)


if __name__ == "__main__":
    main()
