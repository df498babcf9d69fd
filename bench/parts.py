#!/usr/bin/env python3
"""Counts by part what a record of 100 bytes takes in `run`, `dump` and `dump --quiet`, in instructions.

callgrind's counts by function (what is compiled into a function counts for it) of a run of 2,000
records less those of one of 1,000, divided by 1,000, so that what starting costs falls out; what
the system does in its calls is not counted. The functions are put together into the parts that
docs/PERFORMANCE.md has; `bench/parts.py functions` prints them one by one.
Usage: bench/parts.py [functions]
"""
import collections
import os
import re
import shutil
import subprocess
import sys
import tempfile

sys.dont_write_bytecode = True

from bench import CASES, PROGRAM, write_script

# A part: its name, and what the names of its functions have. The first that fits counts.
PARTS = (
    ("the CRC", r"\bwal_crc32c::"),
    ("memory", r"malloc|\bfree$|_int_free|unlink_chunk|arena|rattle_alloc|rattle_dealloc|realloc"
     r"|Vec::drop|\bbytes::"),
    ("copies and clearing by the C library", r"memmove|memcpy|memset"),
    ("the script's text", r"\brun_script::|\bcli_text::"),
    ("assembling", r"wal_spelling::(body::Body::assemble|assembly|blocks|refusing)"),
    ("the insert", r"wal_log::(inserting|copying)|\breserve_lock::|\binsert_locks::|word_ring::copying"
     r"|\bwal_page::|\bwal_spelling::"),
    ("pages mapped and written", r"wal_log::|word_ring::|flush_core::"),
    ("the listing's text", r"\bwaldump_text::|\bwal_types::"),
    ("reading records", r"\bwal_reader::|\bbyte_position::"),
    ("decoding", r"\bwal_record::"),
)
COMMANDS = {"run": ["run"], "dump": ["dump"], "dump --quiet": ["dump", "--quiet"]}
SEGMENT = ["--seg", "1048576"]
ROW = re.compile(r"\s*([\d,]+) \([^)]*\)\s+[^:]*(?::[^:/]+\.[cS])?:(.*?)(?: \[.*)?$")


def functions(words, folder, source):
    """The instructions of a command by the name of each function."""
    counts = os.path.join(folder, "callgrind")
    with open(source, "rb") as given:
        subprocess.run(["valgrind", "--tool=callgrind", f"--callgrind-out-file={counts}", PROGRAM,
                        *words, *SEGMENT], cwd=folder, stdin=given, stdout=subprocess.DEVNULL,
                       stderr=subprocess.DEVNULL, check=True)
    told = subprocess.run(["callgrind_annotate", "--threshold=100", counts], capture_output=True,
                          text=True, check=True).stdout
    os.remove(counts)
    found = collections.Counter()
    for line in told.splitlines():
        row = ROW.match(line)
        if row:
            found[row[2]] += int(row[1].replace(",", ""))
    return found


def more_by_function(words, folders):
    """What a thousand records more take, for each of them, by function."""
    less, more = (functions(words, folder, f"{folder}.script") for folder in folders)
    return {name: (count - less[name]) / 1000 for name, count in more.items()}


def part_of(name):
    return next((part for part, words in PARTS if re.search(words, name)), "all else")


def by_part(counts):
    parts = collections.Counter()
    for name, count in counts.items():
        parts[part_of(name)] += count
    return parts


def print_parts(counted):
    print(f"| part | {' | '.join(counted)} |")
    print(f"|---|{'---|' * len(counted)}")
    columns = [{part: round(count) for part, count in by_part(it).items()} for it in counted.values()]
    for part in [*(part for part, _ in PARTS), "all else"]:
        cells = [f"{column[part]:,}" if column.get(part) else "" for column in columns]
        if any(cells):
            print(f"| {part} | {' | '.join(cells)} |")
    print(f"| in all | {' | '.join(f'{sum(column.values()):,}' for column in columns)} |")


def print_functions(counted):
    for command, counts in counted.items():
        print(f"\n{command}")
        for name, count in sorted(counts.items(), key=lambda it: -it[1]):
            if count >= 1:
                print(f"{count:9.1f}  {part_of(name)}: {name}")


def main():
    if not os.access(PROGRAM, os.X_OK):
        sys.exit("build the program first: run ./pgwal once")
    if not shutil.which("valgrind"):
        sys.exit("valgrind counts the instructions: install it")
    fields, _ = CASES["100 bytes"]
    with tempfile.TemporaryDirectory() as parent:
        folders = [os.path.join(parent, str(records)) for records in (1000, 2000)]
        for folder in folders:
            os.mkdir(folder)
            write_script(f"{folder}.script", fields, int(os.path.basename(folder)))
        counted = {command: more_by_function(words, folders) for command, words in COMMANDS.items()}
    print_functions(counted) if sys.argv[1:] == ["functions"] else print_parts(counted)


if __name__ == "__main__":
    main()
