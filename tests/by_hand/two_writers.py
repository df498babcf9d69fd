#!/usr/bin/env python3
"""Lets two writers go on at once in one folder, with a reader beside them, and looks at what they leave.

Two `run`s in a new folder: one ends with status 0 and the other with 4 (the folder is locked) or 9 (it came later), and the
log is that of the one. Two `run --append`s, where the program knows the word: each ends with 0 or 4, and the log is what was
there, then what those with 0 wrote, one behind the other. A `dump` beside them lists a front of what is there at the end. A
writer that is stopped keeps its lock: another one ends with 4 and changes nothing. One that is killed leaves no lock.

Usage: tests/by_hand/two_writers.py [--program PROGRAM] [TRIALS [SEED]] (200 trials of each pair), by hand, outside `rt ci`
"""
import argparse
import collections
import hashlib
import os
import random
import re
import signal
import subprocess
import sys
import tempfile
import time

TOP = os.path.abspath(os.path.join(os.path.dirname(__file__), "..", ".."))
PROGRAM = os.path.join(TOP, "crates", "pgwal", "out", "pgwal")
SIZE = ["--seg", "1048576"]
FIRST = "000000010000000000000001"
LIMIT = 120


def commits(first, count):
    """A script of so many commits, by transactions from this one on, with a record that crosses pages between them."""
    lines = []
    for xid in range(first, first + count):
        lines.append(f"C {xid} 0")
    lines.insert(count // 2, f"I {first} 10 00 20000*5a")
    return ("\n".join(lines) + "\n").encode()


def call(folder, *words, given=b""):
    """Calls the program in a folder, and gives its status and its lines."""
    done = subprocess.run([PROGRAM, *words, *SIZE], cwd=folder, input=given, capture_output=True, timeout=LIMIT)
    return done.returncode, done.stdout.decode().splitlines()


def begin(folder, *words):
    return subprocess.Popen([PROGRAM, *words, *SIZE], cwd=folder, stdin=subprocess.PIPE, stdout=subprocess.DEVNULL,
                            stderr=subprocess.DEVNULL)


def transactions(lines):
    """Those whose commits are listed."""
    return [int(re.search(r"tx: *(\d+),", line).group(1)) for line in lines if "COMMIT" in line]


def names(folder):
    return sorted(os.listdir(os.path.join(folder, "pg_wal")))


def contents(folder):
    """The folder's names with the digests of what they hold."""
    told = []
    for name in names(folder):
        with open(os.path.join(folder, "pg_wal", name), "rb") as file:
            told.append((name, hashlib.sha256(file.read()).hexdigest()))
    return told


def pair(folder, chance, words, scripts):
    """Two writers whose scripts end at nearly the same time, and a reader: their statuses, and what it listed."""
    writers = [begin(folder, *words) for _ in scripts]
    for writer, script in zip(writers, scripts):
        writer.stdin.write(script)
        writer.stdin.flush()
    order = list(range(len(writers)))
    chance.shuffle(order)
    for number in order:
        writers[number].stdin.close()
        time.sleep(chance.choice([0, 0, 0.0005, 0.002, 0.01]))
    read_status, read = call(folder, "dump")
    statuses = [writer.wait(timeout=LIMIT) for writer in writers]
    return statuses, read_status, read


def wrong(text):
    sys.exit(f"two_writers.py: {text}")


def look(folder, read_status, read, trial):
    """The listing at the end, after it was compared with what the reader saw, and the folder's names."""
    status, lines = call(folder, "dump")
    if status != 0 or read_status not in (0, 6) or read != lines[:len(read)]:
        wrong(f"trial {trial}: listed with {status}, beside the writers with {read_status}: {read[-1:]}")
    if names(folder) != [FIRST]:
        wrong(f"trial {trial}: left {names(folder)}")
    return transactions(lines)


def two_runs(top, trials, chance):
    found = collections.Counter()
    for trial in range(trials):
        with tempfile.TemporaryDirectory(dir=top) as folder:
            statuses, read_status, read = pair(folder, chance, ["run"], [commits(700, 20), commits(900, 20)])
            if sorted(statuses) not in ([0, 4], [0, 9]):
                wrong(f"two runs, trial {trial}: statuses {statuses}")
            first = 700 if statuses[0] == 0 else 900
            if look(folder, read_status, read, trial) != list(range(first, first + 20)):
                wrong(f"two runs, trial {trial}: the log is not that of the one")
            found[max(statuses)] += 1
    return found


def two_appends(top, trials, chance):
    found = collections.Counter()
    for trial in range(trials):
        with tempfile.TemporaryDirectory(dir=top) as folder:
            status, _ = call(folder, "run", given=commits(1, 3))
            if status != 0:
                wrong(f"two appends, trial {trial}: the first run ended with {status}")
            firsts = [700, 900]
            statuses, read_status, read = pair(folder, chance, ["run", "--append"], [commits(it, 20) for it in firsts])
            if sorted(statuses) not in ([0, 0], [0, 4]):
                wrong(f"two appends, trial {trial}: statuses {statuses}")
            listed = look(folder, read_status, read, trial)
            wrote = [list(range(it, it + 20)) for it, status in zip(firsts, statuses) if status == 0]
            wanted = [[1, 2, 3] + sum(order, []) for order in (wrote, wrote[::-1])]
            if listed not in wanted:
                wrong(f"two appends, trial {trial}: statuses {statuses}, listed {listed}")
            found["one behind the other" if sum(statuses) == 0 else 4] += 1
    return found


def wait_for(path):
    end = time.monotonic() + LIMIT
    while not os.path.exists(path):
        if time.monotonic() > end:
            wrong(f"no {path}")
        time.sleep(0.001)


def stopped_and_killed(top, knows_append):
    """A writer that is stopped in its midst has its lock, one that is killed then has none."""
    with tempfile.TemporaryDirectory(dir=top) as folder:
        writer = begin(folder, "gen", "100000")
        try:
            wait_for(os.path.join(folder, "pg_wal", FIRST))
            writer.send_signal(signal.SIGSTOP)
            os.waitid(os.P_PID, writer.pid, os.WSTOPPED)
            before = contents(folder)
            words = ["run", "--append"] if knows_append else ["run"]
            statuses = [call(folder, *it, given=commits(900, 20))[0] for it in (["run"], words)]
            read_status, _ = call(folder, "dump")
            if statuses != [4, 4] or contents(folder) != before or read_status not in (0, 6):
                wrong(f"beside a stopped writer: statuses {statuses}, listed with {read_status}, or the folder changed")
        finally:
            writer.kill()
            writer.wait(timeout=LIMIT)
        status, _ = call(folder, "run", given=commits(900, 20))
        if status != 9:
            wrong(f"behind a killed writer: status {status}")
        if knows_append:
            _, there = call(folder, "dump")
            status, _ = call(folder, "run", "--append", given=commits(900, 20))
            _, lines = call(folder, "dump")
            if status != 0 or lines[:len(there)] != there or transactions(lines[len(there):]) != list(range(900, 920)):
                wrong(f"behind a killed writer: status {status} of a run that goes on")


def main():
    global PROGRAM
    words = argparse.ArgumentParser(description="lets two writers go on at once in one folder")
    words.add_argument("--program", default=PROGRAM, help="another build")
    words.add_argument("trials", nargs="?", type=int, default=200)
    words.add_argument("seed", nargs="?", type=int, default=29)
    asked = words.parse_args()
    PROGRAM = os.path.realpath(asked.program)
    trials = asked.trials
    chance = random.Random(asked.seed)
    with tempfile.TemporaryDirectory() as top:
        with tempfile.TemporaryDirectory(dir=top) as folder:
            knows_append = call(folder, "run", "--append")[0] != 2
        stopped_and_killed(top, knows_append)
        told = [("run", two_runs(top, trials, chance))]
        if knows_append:
            told.append(("run --append", two_appends(top, trials, chance)))
    for words, found in told:
        print(f"{trials} pairs of {words}: the other ended with " + ", ".join(f"{it}: {count}" for it, count in found.items()))


if __name__ == "__main__":
    main()
