#!/usr/bin/env python3
"""Counts the instructions of a turn of the machine of many backends.

Runs `bench_log turns` (after `rt run` in crates/bench_log built it), which plays ten million turns of eight backends: inserts of
40-byte records, and each fiftieth line a commit. Instructions are counted by valgrind's callgrind, which the machine's load
does not disturb. Printed are those of the whole program for each turn, those of its own code alone (the compiler puts the
turns into one function; making the lines, memory and the copies of whole pages by the disk stand apart), and the functions that
take most.
Usage: bench/turns.py
"""
import os
import re
import subprocess
import sys
import tempfile

TOP = os.path.dirname(os.path.dirname(os.path.abspath(__file__)))
PROGRAM = os.path.join(TOP, "crates", "bench_log", "out", "bench_log")


def main():
    if not os.access(PROGRAM, os.X_OK):
        sys.exit("build the program first: rt run in crates/bench_log")
    with tempfile.TemporaryDirectory() as folder:
        counts = os.path.join(folder, "callgrind")
        words = ["valgrind", "--tool=callgrind", f"--callgrind-out-file={counts}", PROGRAM, "turns", "kinds"]
        done = subprocess.run(words, capture_output=True, text=True)
        if done.returncode:
            sys.exit(f"{' '.join(words)}: status {done.returncode}: {done.stderr}")
        listed = subprocess.run(["callgrind_annotate", "--threshold=99", counts], capture_output=True, text=True, check=True).stdout
    turns = int(re.search(r"^turns (\d+)$", done.stdout, re.M).group(1))
    found = re.findall(r"^ *([\d,]+) \([^)]*\)  (.*)$", listed, re.M)
    taken = [(int(count.replace(",", "")), name) for count, name in found]
    print(done.stdout.strip())
    print("| what | instructions a turn |")
    print("|---|---|")
    for count, name in taken[:12]:
        name = re.sub(r"^.*?([\w:+.<>]+) \[.*$", r"\1", name)
        print(f"| {name} | {count / turns:.1f} |")


if __name__ == "__main__":
    main()
