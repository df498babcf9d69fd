#!/usr/bin/env python3
"""Kills runs of the built program at random moments, and looks at what they leave.

A script of commits and of records that cross pages is run once to its end, and listed. Then it is run in new folders, each
run killed (SIGKILL) somewhere between its start and its end; the listing of what it left must be a front of the whole one,
line for line, and end with status 0, or with 6 where a record is torn.

With `--append` the runs go on in one log, `run --append` behind each other, until it is nearly full; then in a new one. Each
is killed somewhere, or now and then let end. What was listed before a run is found by it, stays in front of what is listed
behind it, and holds each commit that a run before was told hard.

A killed process leaves what it handed to the system: this tries the program and its files, not the disk's cache. What a
crash of the disk leaves is tried over the disk in memory, by the tests. Told lines are printed at a run's end only, so a
killed run tells no receipt that could be compared.

Usage: tests/by_hand/kill.py [--append] [--program PROGRAM] [TRIALS [SEED]] (1,000 trials), by hand, outside `rt ci`
"""
import argparse
import collections
import os
import random
import re
import subprocess
import sys
import tempfile
import time

TOP = os.path.abspath(os.path.join(os.path.dirname(__file__), "..", ".."))
PROGRAM = os.path.join(TOP, "crates", "pgwal", "out", "pgwal")
SEGMENT = "1048576"


def script():
    """Lines that fill several pages and begin a second segment: a commit behind each insert."""
    lines = []
    for number in range(1, 161):
        lines.append(f"I {number} 10 00 {1 + number * 7919 % 16000}*{number % 256:02x}")
        lines.append(f"C {number} {number}")
    return "\n".join(lines) + "\n"


def listing(folder):
    """The lines of a folder's log, and the status of their listing."""
    done = subprocess.run([PROGRAM, "dump", "--seg", SEGMENT], cwd=folder, capture_output=True, timeout=60)
    return done.stdout.splitlines(), done.returncode


def run_upto(folder, path, seconds):
    """Begins a run, kills it after so many seconds (None: lets it end), and gives its status."""
    with open(path, "rb") as given:
        run = subprocess.Popen([PROGRAM, "run", "--seg", SEGMENT], cwd=folder, stdin=given, stdout=subprocess.DEVNULL)
        if seconds is not None:
            time.sleep(seconds)
            run.kill()
        return run.wait(timeout=60)


def trials_apart(top, trials, chance):
    """Runs in new folders, each killed: counts of what they left."""
    path = os.path.join(top, "script")
    with open(path, "w") as out:
        out.write(script())
    spans = []
    for turn in range(5):
        whole = os.path.join(top, f"whole{turn}")
        os.mkdir(whole)
        begin = time.monotonic()
        if run_upto(whole, path, None) != 0:
            sys.exit("kill.py: the whole run did not end with status 0")
        spans.append(time.monotonic() - begin)
    span = min(spans)
    expected, status = listing(whole)
    if status != 0 or len(expected) != 320:
        sys.exit(f"kill.py: the whole run lists {len(expected)} records, status {status}")
    found = collections.Counter()
    for trial in range(trials):
        with tempfile.TemporaryDirectory(dir=top) as folder:
            ended = run_upto(folder, path, chance.uniform(0, span))
            lines, status = listing(folder)
        if lines != expected[:len(lines)] or status not in (0, 6):
            sys.exit(f"kill.py: trial {trial}: no front of the log, status {status}")
        found["ended" if ended == 0 else "nothing" if not lines else "torn" if status else "front"] += 1
    return found


def further_script(first):
    """Two backends of inserts with a commit behind each, by transactions from this one on."""
    backends = []
    for backend in range(2):
        lines = []
        for number in range(first + backend * 20, first + backend * 20 + 20):
            lines.append(f"I {number} 10 00 {1 + number * 7919 % 16000}*{number % 256:02x}")
            lines.append(f"C {number} {number}")
        backends.append("\n".join(lines))
    return "\nB\n".join(backends) + "\n"


def append_upto(folder, given, seconds):
    """A run that goes on, killed after so many seconds (None: it ends by itself): its status and its lines."""
    run = subprocess.Popen([PROGRAM, "run", "--append", "--seg", SEGMENT, "--list"], cwd=folder, stdin=subprocess.PIPE,
                           stdout=subprocess.PIPE, stderr=subprocess.PIPE)
    try:
        run.stdin.write(given.encode())
        run.stdin.close()
        if seconds is not None:
            time.sleep(seconds)
            run.kill()
    except BrokenPipeError:
        pass
    lines = run.stdout.read().splitlines()
    return run.wait(timeout=60), lines


def commits_listed(lines):
    """The addresses at which the lines have a commit."""
    return {re.search(rb"lsn: ([0-9A-F/]+)", line).group(1) for line in lines if b"COMMIT" in line}


def trials_behind_each_other(top, trials, chance):
    """Runs that go on in one log, most of them killed: counts of how they ended."""
    found = collections.Counter()
    folder = None
    span = None
    for trial in range(trials):
        # A run's records take up to half a megabyte: 64 segments hold a hundred runs.
        if folder is None or trial % 100 == 0:
            folder = os.path.join(top, f"log{trial}")
            os.mkdir(folder)
            lines, hard = [], set()
        ends = span is None or chance.random() < 0.1
        begin = time.monotonic()
        status, told = append_upto(folder, further_script(1 + 40 * trial), None if ends else chance.uniform(0, span * 1.2))
        if ends:
            taken = time.monotonic() - begin
            span = taken if span is None else min(span, taken)
        if status not in (0, -9) or (ends and status != 0):
            sys.exit(f"kill.py: trial {trial}: a run that goes on ended with {status}")
        if status == 0:
            words = told[0].split()
            if words[:3] != [b"found", str(len(lines)).encode(), b"end"]:
                sys.exit(f"kill.py: trial {trial}: {len(lines)} records were listed before, and it told {told[0]}")
            hard |= {line.split()[3] for line in told if b" hard " in line}
        before = lines
        lines, listed = listing(folder)
        if listed not in ((0,) if status == 0 else (0, 6)):
            sys.exit(f"kill.py: trial {trial}: ended with {status}, listed with {listed}")
        if lines[:len(before)] != before:
            sys.exit(f"kill.py: trial {trial}: what was found is no front of what is listed")
        if not hard <= commits_listed(lines):
            sys.exit(f"kill.py: trial {trial}: a commit that was told hard is lost")
        found["ended" if status == 0 else "nothing" if lines == before else "torn" if listed else "front"] += 1
    return found


def main():
    global PROGRAM
    words = argparse.ArgumentParser(description="kills runs at random moments, and looks at what they leave")
    words.add_argument("--append", action="store_true", help="the runs go on in one log, behind each other")
    words.add_argument("--program", default=PROGRAM, help="another build")
    words.add_argument("trials", nargs="?", type=int, default=1000)
    words.add_argument("seed", nargs="?", type=int, default=int(time.time()))
    asked = words.parse_args()
    PROGRAM = os.path.realpath(asked.program)
    print(f"{asked.trials} runs, seed {asked.seed}", flush=True)
    with tempfile.TemporaryDirectory() as top:
        play = trials_behind_each_other if asked.append else trials_apart
        found = play(top, asked.trials, random.Random(asked.seed))
    print(", ".join(f"{name} {count}" for name, count in sorted(found.items())))


if __name__ == "__main__":
    main()
