#!/usr/bin/env python3
"""Measures `run` and `dump` of the built program, and checks what they count.

Makes scripts of 100-byte and of 8,000-byte records, of records with a block's data and with a page's image, with a commit
for each thousand, about 200 MB of log each, and one of half as many small records (twice the records are to take about
twice the time). Prints instructions for each record, records and megabytes a second and the peak memory, with pg_waldump's
listing of the same segments beside it where one is installed.

Instructions are counted by valgrind's callgrind, which the machine's load does not disturb, in two smaller runs, of which
one has a thousand records more: their difference, divided by a thousand, is without what starting costs. What the system
does in its calls is not counted. Without valgrind the column is empty.
Usage: bench/bench.py [MEGABYTES]; with 0 megabytes the instructions alone
"""
import os
import re
import resource
import shutil
import subprocess
import sys
import tempfile
import time

TOP = os.path.dirname(os.path.dirname(os.path.abspath(__file__)))
PROGRAM = os.path.join(TOP, "crates", "pgwal", "out", "pgwal")


# What each case's records have behind their transaction, and how many bytes they have.
CASES = {
    "100 bytes": ("10 00 100*5a", 24 + 2 + 100),
    "8,000 bytes": ("10 00 8000*5a", 24 + 5 + 8000),
    "a block of 100 bytes": ("10 00 - 1663/5/16384:0:7:100*5a:-", 24 + 20 + 100),
    "a page's image": ("10 00 - 1663/5/16384:0:7:-:0+0+5a", 24 + 25 + 8192),
}


# Scripts that are short for what they ask, or long for what they do: a line, and how often it stands there.
SHAPES = {
    "40 records of 1 MiB": ("I 1 10 00 1048547*5a", 40),
    "2,000,000 lines F": ("F", 2_000_000),
    "2,000,000 commits answered ahead, of 40 bytes": ("A 1 0", 2_000_000),
    "2,000,000 records of 24 bytes": ("I 1 10 00 -", 2_000_000),
}


# How a log is listed: the options, and whether a line comes for each record (a filter that keeps nothing reads all).
LISTINGS = {
    "dump": ([], True),
    "dump --quiet": (["--quiet"], False),
    "dump --rmgr Storage": (["--rmgr", "Storage"], False),
}


def room(total):
    """The bytes that a record of this size takes up."""
    return (total + 7) // 8 * 8


def write_script(path, fields, records):
    """Writes a script piece by piece: a child's peak memory counts what its parent held when it was made."""
    with open(path, "w") as out:
        for _ in range(records // 1000):
            out.write(f"I 1 {fields}\n" * 999 + "C 1 0\n")
    return records // 1000 * 1000


def timed(words, folder, stdin=None):
    """Runs a program in a folder: its output, the seconds it took, and its peak memory in MB."""
    begin = time.monotonic()
    # Output goes to a file, so that no pipe slows the program down.
    with tempfile.TemporaryFile() as out, open(stdin or os.devnull, "rb") as given:
        child = subprocess.Popen(words, cwd=folder, stdin=given, stdout=out, stderr=subprocess.PIPE)
        told = child.stderr.read()
        _, status, usage = os.wait4(child.pid, 0)
        seconds = time.monotonic() - begin
        out.seek(0, os.SEEK_END)
        size = out.tell()
        out.seek(max(0, size - 200))
        tail = out.read().decode()
        out.seek(0)
        lines = sum(piece.count(b"\n") for piece in iter(lambda: out.read(1 << 20), b""))
    if status != 0:
        sys.exit(f"{' '.join(words)}: status {os.waitstatus_to_exitcode(status)}: {told.decode()}")
    return tail, lines, seconds, usage.ru_maxrss * 1024 / 1_000_000


def instructions(words, folder, stdin=None):
    """The instructions that a program takes in a folder."""
    counts = os.path.join(folder, "callgrind")
    counted = ["valgrind", "--tool=callgrind", f"--callgrind-out-file={counts}", *words]
    with open(stdin or os.devnull, "rb") as given:
        done = subprocess.run(counted, cwd=folder, stdin=given, stdout=subprocess.DEVNULL, stderr=subprocess.PIPE)
    told = done.stderr.decode()
    found = re.search(r"Collected : (\d+)", told)
    if done.returncode or not found:
        sys.exit(f"{' '.join(counted)}: status {done.returncode}: {told}")
    return int(found[1])


def instructions_per_record(fields):
    """Those that `run` takes for one record more, and each listing; each log lies in segments of 16 MiB."""
    counts = []
    for records in (1000, 2000):
        with tempfile.TemporaryDirectory() as folder:
            path = os.path.join(folder, "script")
            write_script(path, fields, records)
            run = instructions([PROGRAM, "run"], folder, path)
            listings = [instructions([PROGRAM, "dump", *options], folder) for options, _ in LISTINGS.values()]
            counts.append((run, *listings))
    run, *listings = [(more - less) / 1000 for less, more in zip(*counts)]
    return run, listings


def row(name, counted, records, size, seconds, memory):
    print(
        f"| {name} | {counted} | {records:,} | {records / seconds / 1e6:.3f} | {size / seconds / 1e6:.0f} | {seconds:.2f} | {memory:.0f} |",
        flush=True,
    )


def measure(name, case, records, of_run, of_listings):
    fields, total = CASES[case]
    with tempfile.TemporaryDirectory() as folder:
        path = os.path.join(folder, "script")
        records = write_script(path, fields, records)
        size = (records - records // 1000) * room(total) + records // 1000 * 40
        tail, _, seconds, memory = timed([PROGRAM, "run"], folder, path)
        want = f"records {records} commits {records // 1000} bytes {size} "
        if not tail.startswith(want):
            sys.exit(f"run printed {tail!r}, not {want!r}")
        row(f"run, {name}", of_run, records, size, seconds, memory)
        peer = shutil.which("pg_waldump")
        for (kind, (options, prints)), of_listing in zip(LISTINGS.items(), of_listings):
            tail, lines, seconds, memory = timed([PROGRAM, "dump", *options], folder)
            if lines != (records if prints else 0):
                sys.exit(f"{kind} listed {lines} records of {records}")
            row(f"{kind}, {name}", of_listing, records, size, seconds, memory)
            if peer:
                first = os.path.join(folder, "pg_wal", "000000010000000000000001")
                begin = time.monotonic()
                done = subprocess.run([peer, *options, first], stdout=subprocess.DEVNULL, stderr=subprocess.PIPE)
                told = done.stderr.decode()[-80:].strip()
                print(f"| pg_waldump for {kind}, segment 1, {name} | | | | | {time.monotonic() - begin:.2f} | {told} |")


def measure_memory(name):
    """The peak memory of `run`, beside the script's size, the records' and the count of lines."""
    line, count = SHAPES[name]
    with tempfile.TemporaryDirectory() as folder:
        path = os.path.join(folder, "script")
        with open(path, "w") as out:
            for _ in range(count):
                out.write(line + "\n")
        tail, _, seconds, memory = timed([PROGRAM, "run"], folder, path)
        size = int(re.search(r" bytes (\d+) ", tail)[1])
        print(f"| {name} | {os.path.getsize(path) / 1e6:.1f} | {size / 1e6:.1f} | {count:,} | {seconds:.2f} | {memory:.0f} |", flush=True)


def main():
    if not os.access(PROGRAM, os.X_OK):
        sys.exit("build the program first: run ./pgwal once")
    megabytes = int(sys.argv[1]) if len(sys.argv) > 1 else 200
    if not (megabytes or shutil.which("valgrind")):
        sys.exit("instructions are counted by valgrind, which is not here")
    if megabytes:
        print("| what | instructions a record | records | million records/s | MB/s | s | peak MB |")
        print("|---|---|---|---|---|---|---|")
    else:
        print("| what | instructions a record |")
        print("|---|---|")
    for case, (fields, total) in CASES.items():
        of_run, of_listings = "", [""] * len(LISTINGS)
        if shutil.which("valgrind"):
            run, listings = instructions_per_record(fields)
            of_run, of_listings = f"{run:,.0f}", [f"{each:,.0f}" for each in listings]
        if not megabytes:
            print(f"| run, {case} | {of_run} |")
            for kind, of_listing in zip(LISTINGS, of_listings):
                print(f"| {kind}, {case} | {of_listing} |", flush=True)
            continue
        records = megabytes * 1_000_000 // room(total)
        if case == "100 bytes":
            measure("100 bytes, half", case, records // 2, "", [""] * len(LISTINGS))
        measure(case, case, records, of_run, of_listings)
    if megabytes:
        print("\n| run | script MB | records MB | lines | s | peak MB |\n|---|---|---|---|---|---|")
        for name in SHAPES:
            measure_memory(name)


if __name__ == "__main__":
    resource.setrlimit(resource.RLIMIT_CORE, (0, 0))
    main()
