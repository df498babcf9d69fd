#!/usr/bin/env python3
"""Kills pgmap at random moments while its threads set random keys, and looks at what it answered.

Each trial goes on in one folder. It gives `pgmap --threads 4` a script of random sets and dels of 64 keys, kills it (SIGKILL)
somewhere between its start and its end, or now and then lets it end, and reads what it printed up to then: the answers, in
the order of the lines. Then `pgmap list` has to give each key what the last line of this key left that was answered, or
what one behind it left, which was begun and not answered; before any line, what was listed before. Every 50 trials a new
folder is begun.

A killed process leaves what it handed to the system: this tries the program and its files, not the disk's cache.

Usage: tests/by_hand/kill_pgmap.py [--program PROGRAM] [TRIALS [SEED]] (500 trials), by hand, outside `rt ci`
"""
import argparse
import collections
import os
import random
import re
import subprocess
import sys
import tempfile
import threading
import time

TOP = os.path.abspath(os.path.join(os.path.dirname(__file__), "..", ".."))
PROGRAM = os.path.join(TOP, "crates", "pgmap", "out", "pgmap")
THREADS = "4"
KEYS = 64
# Some of pgmap's batches, so that answers come in between.
LINES = 10_000
FOLDER_TRIALS = 50
ANSWER = re.compile(rb"ok [0-9A-F]+/[0-9A-F]{8} [0-9]+\n")


def changes(chance, turn):
    """Random sets and dels, as pairs of a key and its new value, or None."""
    made = []
    for number in range(LINES):
        key = f"k{chance.randrange(KEYS)}"
        made.append((key, None if chance.random() < 0.1 else f"{turn}.{number}"))
    return made


def script(made):
    return "".join(f"del {key}\n" if value is None else f"set {key} {value}\n" for key, value in made).encode()


def listed(program, folder):
    """What each key has."""
    done = subprocess.run([program, "--dir", folder, "list"], capture_output=True, timeout=120)
    if done.returncode:
        sys.exit(f"kill_pgmap.py: list ended with {done.returncode}: {done.stderr!r}")
    return dict(line.split(" ") for line in done.stdout.decode().splitlines())


def feed(run, text):
    try:
        run.stdin.write(text)
        run.stdin.close()
    except BrokenPipeError:
        pass


def run_upto(program, folder, text, seconds):
    """Begins a run, kills it after so many seconds (None: lets it end), and gives its status and what it printed."""
    words = [program, "--dir", folder, "--threads", THREADS]
    run = subprocess.Popen(words, stdin=subprocess.PIPE, stdout=subprocess.PIPE, stderr=subprocess.PIPE)
    feeding = threading.Thread(target=feed, args=(run, text))
    feeding.start()
    if seconds is not None:
        killing = threading.Timer(seconds, run.kill)
        killing.start()
    printed = run.stdout.read()
    told = run.stderr.read()
    status = run.wait()
    if seconds is not None:
        killing.cancel()
    feeding.join()
    if told:
        sys.exit(f"kill_pgmap.py: status {status}, told {told!r}")
    return status, printed


def allowed(before, made, answered):
    """The values that each key may have: behind its last answered line, or behind each later one of its lines."""
    values = {f"k{number}": [before.get(f"k{number}")] for number in range(KEYS)}
    for number, (key, value) in enumerate(made):
        if number < answered:
            values[key] = [value]
        else:
            values[key].append(value)
    return values


def main():
    parser = argparse.ArgumentParser()
    parser.add_argument("--program", default=PROGRAM)
    parser.add_argument("trials", nargs="?", type=int, default=500)
    parser.add_argument("seed", nargs="?", type=int, default=0)
    asked = parser.parse_args()
    program = os.path.realpath(asked.program)
    chance = random.Random(asked.seed)
    counts = collections.Counter()
    span = None
    with tempfile.TemporaryDirectory() as top:
        for trial in range(asked.trials):
            folder = os.path.join(top, f"map{trial // FOLDER_TRIALS}")
            if trial % FOLDER_TRIALS == 0:
                before = {}
            made = changes(chance, trial)
            ends = span is None or chance.random() < 0.05
            begin = time.monotonic()
            status, printed = run_upto(program, folder, script(made), None if ends else chance.uniform(0, span))
            if ends:
                span = time.monotonic() - begin
            answers = printed.splitlines(keepends=True)
            # The last line may be cut off.
            whole = [line for line in answers if line.endswith(b"\n")]
            if not all(ANSWER.fullmatch(line) for line in whole) or (ends and (status or len(whole) != LINES)):
                sys.exit(f"kill_pgmap.py: trial {trial}: status {status}, {len(whole)} answers")
            found = listed(program, folder)
            values = allowed(before, made, len(whole))
            wrong = [key for key in values if found.get(key) not in values[key]]
            if wrong or set(found) - set(values):
                sys.exit(f"kill_pgmap.py: trial {trial}: behind {len(whole)} answers {wrong[:3]} are other than they may be")
            counts["ended" if ends else "killed before any answer" if not whole else "killed behind some answers"] += 1
            counts["answered changes"] += len(whole)
            before = found
    print(", ".join(f"{what}: {count}" for what, count in sorted(counts.items())))


if __name__ == "__main__":
    main()
