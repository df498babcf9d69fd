#!/usr/bin/env python3
"""Measures pgmap: sets a second by several threads beside the commits a second of the log alone, and how fast it opens.

Builds crates/pgmap and crates/bench_log if they are not there (`rt run`, which proves them first), and the program by
./pgwal. Each round gives `pgmap --threads 4` 100,000 sets of 100 bytes in a fresh folder, and has bench_log commit as often
by four backends in another one; the two take turns. Of pgmap the whole program is timed, its opening, its reading of the
script and its printing among it; of bench_log the commits alone, by itself. Then the map's folder is opened by `pgmap`
without any command, and listed by `./pgwal dump --quiet`; both read files that the system has in memory, and the whole
program is timed. Printed are the median, the least and the most.

A change waits for a sync: TMPDIR has to name a folder on the disk that is to be measured, not one in memory.
Usage: bench/map.py [RUNS [SETS [THREADS]]]; by default 5 runs of 100,000 sets by 4 threads
"""
import os
import re
import statistics
import subprocess
import sys
import tempfile
import time

TOP = os.path.dirname(os.path.dirname(os.path.abspath(__file__)))
VALUE_BYTES = 100
SEGMENT = 1 << 20
# Where pgwal looks for a log.
FOLDER = "pg_wal"


def program(crate, *words):
    """The path of a crate's program, built if it is not there."""
    folder = os.path.join(TOP, "crates", crate)
    path = os.path.join(folder, "out", crate)
    if not os.access(path, os.X_OK):
        subprocess.run(["rt", "run", "--", *words], cwd=folder, check=True, stdin=subprocess.DEVNULL)
    return path


def timed(words, folder, **more):
    """Runs a program to its end, and gives its seconds and what it printed."""
    begin = time.monotonic()
    done = subprocess.run(words, cwd=folder, stderr=subprocess.PIPE, **more)
    seconds = time.monotonic() - begin
    if done.returncode:
        sys.exit(f"{' '.join(words)}: status {done.returncode}: {done.stderr!r}")
    return seconds, done.stdout


def log_bytes(folder):
    """The bytes of a log's segments, the last of which is not full."""
    return SEGMENT * len([name for name in os.listdir(folder) if re.fullmatch("[0-9A-F]{24}", name)])


def shown(name, unit, measured):
    rates = sorted(measured)
    print(f"| {name} | {unit} | {statistics.median(rates):,.0f} | {rates[0]:,.0f} | {rates[-1]:,.0f} |", flush=True)


def main():
    words = sys.argv[1:]
    runs, sets, threads = [int(word) for word in (words + ["5", "100000", "4"][len(words):])]
    if runs < 1 or sets < threads or threads < 1:
        sys.exit("at least one run, and a set for each thread")
    pgmap, bench_log = program("pgmap", "list"), program("bench_log", "1", "1", "memory", "commits", "hard")
    pgwal = os.path.join(TOP, "pgwal")
    script = b"".join(b"set key%07d %s\n" % (number, b"v" * VALUE_BYTES) for number in range(sets))
    rates = {"sets": [], "commits": [], "open": [], "dump": []}
    for _ in range(runs):
        with tempfile.TemporaryDirectory() as folder:
            seconds, printed = timed([pgmap, "--dir", FOLDER, "--threads", str(threads)], folder, input=script,
                                     stdout=subprocess.PIPE)
            if printed.count(b"\n") != sets:
                sys.exit(f"pgmap answered {printed.count(b'ok ')} of {sets}")
            rates["sets"].append(sets / seconds)
            size = log_bytes(os.path.join(folder, FOLDER))
            seconds, _ = timed([pgmap, "--dir", FOLDER], folder, input=b"", stdout=subprocess.DEVNULL)
            rates["open"].append(size / seconds / 1e6)
            listing = [pgwal, "dump", "--quiet", "--seg", str(SEGMENT)]
            seconds, _ = timed(listing, folder, stdout=subprocess.DEVNULL)
            rates["dump"].append(size / seconds / 1e6)
        with tempfile.TemporaryDirectory() as folder:
            asked = [bench_log, str(threads), str(sets // threads), "files", "commits", "hard", "timed"]
            _, printed = timed(asked, folder, stdout=subprocess.PIPE)
            done = re.fullmatch(rb"commits (\d+)\nmicroseconds (\d+)\n", printed)
            rates["commits"].append(int(done[1]) * 1_000_000 / int(done[2]))
    print("| what | unit | median | least | most |")
    print("|---|---|---|---|---|")
    shown(f"pgmap --threads {threads}, sets of {VALUE_BYTES} bytes", "a second", rates["sets"])
    shown(f"bench_log, {threads} backends, commits", "a second", rates["commits"])
    shown("pgmap without commands: the log is opened", "MB/s", rates["open"])
    shown("pgwal dump --quiet", "MB/s", rates["dump"])
    ratio = statistics.median(rates["sets"]) / statistics.median(rates["commits"])
    print(f"sets to commits: {ratio:.2f}")


if __name__ == "__main__":
    main()
