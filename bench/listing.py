#!/usr/bin/env python3
"""Measures listings of the built program beside those of PostgreSQL's pg_waldump.

Makes a log of 1,562,000 records of 100 bytes and one of 24,000 pages' images, and lists each in turn with both programs,
by the same options. Prints the processor's seconds of the program and of the reader, the least of some runs, and how many
times as fast the program is. Where no reader is at hand, its columns are empty. That the reader ends at the log's end by
its own word for it is no failure; anything else that it says (one of another version reads no page) is told in the last
column, and nothing is compared then. With a MAGIC, each page of what the reader reads has that number (d110 for version 15,
whose pages and records are else as those of 16).
Usage: bench/listing.py [READER [RUNS [MAGIC]]]; the reader is pg_waldump where no path is given, and it runs seven times
"""
import os
import re
import shutil
import subprocess
import sys
import tempfile

sys.dont_write_bytecode = True

from bench import CASES, PROGRAM, write_script

# The records of each log: what they have behind their transaction, and how many they are. Those of images are full-page
# images, of which the reader has no text; it reads main data of others, whether they have it or not.
LOGS = {
    "100 bytes": (CASES["100 bytes"][0], 1_562_000),
    "a page's image": ("0 b0 - 1663/5/16384:0:7:-:0+0+5a", 24_000),
}

# How a log is listed: the options, which both programs have.
LISTINGS = ([], ["--quiet"], ["--stats"], ["--rmgr", "Storage"], ["--xid", "7"], ["--fullpage"])

# The folder of what the reader reads, and how its files are named.
COPIES = "copies"
IS_SEGMENT = re.compile("[0-9A-F]{24}")
PAGE = 8192

# What the reader says where the log ends.
ENDS = ("invalid record length at", "record with incorrect prev-link", "invalid magic number 0000")


def seconds(words, folder):
    """The processor's seconds of a run, its status, and the last line that it says on standard error."""
    with tempfile.TemporaryFile() as told:
        child = subprocess.Popen(words, cwd=folder, stdout=subprocess.DEVNULL, stderr=told)
        _, status, usage = os.wait4(child.pid, 0)
        told.seek(0)
        lines = told.read().decode().splitlines()
    return usage.ru_utime + usage.ru_stime, os.waitstatus_to_exitcode(status), lines[-1] if lines else ""


def own(options, folder):
    taken, status, said = seconds([PROGRAM, "dump", *options], folder)
    if status != 0:
        sys.exit(f"dump {' '.join(options)}: status {status}: {said}")
    return taken


def copy_log(folder, magic):
    """Copies the segments to where the reader finds them, with this number in each page's first two bytes if one is given."""
    log, copies = (os.path.join(folder, name) for name in ("pg_wal", COPIES))
    os.mkdir(copies)
    for name in filter(IS_SEGMENT.fullmatch, os.listdir(log)):
        with open(os.path.join(log, name), "rb") as given:
            pages = bytearray(given.read())
        for at in range(0, len(pages) if magic else 0, PAGE):
            if pages[at : at + 2] != bytes(2):
                pages[at : at + 2] = magic
        with open(os.path.join(copies, name), "wb") as out:
            out.write(pages)


def peer(reader, options, folder):
    """The reader's seconds, and what it says that is not the log's end."""
    names = sorted(os.listdir(os.path.join(folder, COPIES)))
    taken, status, said = seconds([reader, "-p", COPIES, *options, names[0], names[-1]], folder)
    is_end = status == 0 or status == 1 and any(word in said for word in ENDS)
    return taken, "" if is_end else said or f"status {status}"


def row(name, options, reader, runs, folder):
    ours, theirs, said = [], [], ""
    for _ in range(runs):
        ours.append(own(options, folder))
        if reader:
            taken, said = peer(reader, options, folder)
            theirs.append(taken)
    cells = [f"{min(ours):.3f}", "", ""]
    if theirs and not said:
        cells[1:] = [f"{min(theirs):.3f}", f"{min(theirs) / min(ours):.2f}"]
    print(f"| {name} | dump {' '.join(options)} | {' | '.join(cells)} | {said} |", flush=True)


def main():
    if not os.access(PROGRAM, os.X_OK):
        sys.exit("build the program first: run ./pgwal once")
    reader = shutil.which(sys.argv[1] if len(sys.argv) > 1 else "pg_waldump")
    runs = int(sys.argv[2]) if len(sys.argv) > 2 else 7
    magic = int(sys.argv[3], 16).to_bytes(2, "little") if len(sys.argv) > 3 else None
    print("| record | listing | s | s of the reader | times as fast | |")
    print("|---|---|---|---|---|---|")
    for name, (fields, records) in LOGS.items():
        with tempfile.TemporaryDirectory() as folder:
            script = os.path.join(folder, "script")
            write_script(script, fields, records)
            with open(script, "rb") as given:
                subprocess.run([PROGRAM, "run"], cwd=folder, stdin=given, stdout=subprocess.DEVNULL, check=True)
            copy_log(folder, magic)
            for options in LISTINGS:
                row(name, options, reader, runs, folder)


if __name__ == "__main__":
    main()
