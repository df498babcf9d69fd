#!/usr/bin/env python3
"""Plays random scripts of one backend, and compares what the built program tells with a model of
the rules.

A backend that is alone makes its device calls by its script and the ring alone, so each moment
that it is told can be worked out. The model here is made from the rules alone (docs/FORMATS.md,
"Moments of one backend", and the parts on scripts, records and logs), and from nothing of the
program: sizes of records, addresses, a ring of pages, a writer that counts its calls. Records are
made to end about the borders of pages, of what the ring has mapped, of segments and of the log.
In some trials a folder has the name of a segment, which so cannot be made: the line that meets it
is told so, and each behind it.

Usage: tests/by_hand/moments_of_one.py [--program PROGRAM] [TRIALS [SEED]] (200 trials), by hand, outside `rt ci`
       tests/by_hand/moments_of_one.py --calls RING <SCRIPT (what the model tells, with the calls)
"""
import argparse
import itertools
import os
import random
import subprocess
import sys
import tempfile

TOP = os.path.abspath(os.path.join(os.path.dirname(__file__), "..", ".."))
PROGRAM = os.path.join(TOP, "crates", "pgwal", "out", "pgwal")
PAGE = 8192
SEGMENT = 1 << 20
PAGES = SEGMENT // PAGE
# Bytes of a segment that are in no page's header: its first page has 40 in it, each other one 24.
FIRST_PAGE = PAGE - 40
OTHER_PAGE = PAGE - 24
IN_SEGMENT = FIRST_PAGE + (PAGES - 1) * OTHER_PAGE
SWITCH = 24


def room_of(size):
    return (size + 7) // 8 * 8


def text_of(address):
    return f"{address >> 32:X}/{address & 0xFFFFFFFF:08X}"


def place(position):
    """The address of a byte position."""
    segment, rest = divmod(position, IN_SEGMENT)
    if rest < FIRST_PAGE:
        return segment * SEGMENT + 40 + rest
    page, rest = divmod(rest - FIRST_PAGE, OTHER_PAGE)
    return segment * SEGMENT + (1 + page) * PAGE + 24 + rest


def end_form(position):
    """The address behind the byte before a byte position."""
    return place(position - 1) + 1


# Sizes of records, by the fields of their lines


def count_of(data):
    if data == "-":
        return 0
    return int(data.split("*")[0]) if "*" in data else len(data) // 2


def main_data_size(count):
    return count if count == 0 else count + (2 if count < 256 else 5)


def blocks_size(blocks):
    size, before = 0, None
    for block in blocks:
        relation, _, _, data, image = block.split(":")
        size += 4 + count_of(data) + (0 if relation == before else 12) + 4
        if image != "-":
            size += 5 + PAGE - int(image.split("+")[1])
        before = relation
    return size


def record_size(fields):
    """The size of the record of a line I, C or A."""
    if fields[0] == "I":
        return 24 + blocks_size(fields[5:]) + main_data_size(count_of(fields[4]))
    return 24 + main_data_size(8)


class Fault(Exception):
    """A call of the disk failed."""


class Full(Exception):
    """Fewer bytes of the log are left than a record takes up."""


class Writer:
    """Writes the log's pages in rising order. The disk's moment is the number of its calls."""

    def __init__(self, fails):
        self.fails = fails
        self.calls = []
        self.written = SEGMENT
        self.made = 0
        self.unsynced = False

    def call(self, name, number):
        self.calls.append(f"{name} {number}")
        if self.fails(len(self.calls), name, number):
            raise Fault

    def write_upto(self, address):
        """Pages from the one that begins at or holds the written address, up to this address."""
        while self.written < address:
            page = self.written // PAGE
            segment = page // PAGES
            if segment > self.made:
                self.call("create", segment)
                self.made = segment
            self.call("write", page)
            self.unsynced = True
            self.written = min((page + 1) * PAGE, address)
            if self.written % SEGMENT == 0:
                self.sync(segment)

    def sync(self, segment):
        self.call("sync", segment)
        self.unsynced = False


class Backend:
    """A log with one backend, and what its lines are told."""

    def __init__(self, ring, cap, fails=lambda number, name, of: False):
        self.ring = ring
        self.limit = (1 + cap) * IN_SEGMENT
        self.writer = Writer(fails)
        self.reserved = IN_SEGMENT
        self.mapped = PAGES + ring
        self.flushed = SEGMENT
        self.moment = 0
        self.ahead = SEGMENT
        self.own_end = SEGMENT
        self.records = self.commits = self.bytes = 0
        self.met_fault = self.met_full = False

    def end(self):
        return end_form(self.reserved)

    def insert(self, room):
        """Reserves, and copies page by page: where the record begins and ends."""
        if room > self.limit - self.reserved:
            raise Full
        start, last = place(self.reserved), place(self.reserved + room - 1)
        self.reserved += room
        self.records += 1
        self.bytes += room
        self.own_end = last + 1
        self.started = start
        for page in range(start // PAGE, last // PAGE + 1):
            if page >= self.mapped:
                self.map(page)
        return start, last + 1

    def map(self, page):
        """Gives an absent page its buffer. What the buffer holds is written first; the next word
        to copy is the first one of this page's header, so all below it is copied."""
        held = page - self.ring
        if (held + 1) * PAGE > self.writer.written:
            self.writer.write_upto(page * PAGE)
        self.mapped = page + 1

    def flush(self, position):
        """The flushed address and its moment, once it has reached a position."""
        if self.flushed < position:
            self.writer.write_upto(self.end())
            if self.writer.unsynced:
                self.writer.sync((self.end() - 1) // SEGMENT)
            self.flushed = self.writer.written
            self.moment = len(self.writer.calls)
        return self.flushed, self.moment

    def switch(self):
        if self.end() % SEGMENT == 0:
            return f"stayed {text_of(self.end())}"
        if self.limit - self.reserved < SWITCH:
            raise Full
        last_byte = self.reserved + SWITCH - 1
        start, end = self.insert((last_byte // IN_SEGMENT + 1) * IN_SEGMENT - self.reserved)
        return f"switched {text_of(start)} {text_of(end)}"

    def flush_behind(self):
        end = self.end()
        target = end - end % PAGE if end - end % PAGE > self.flushed else self.ahead
        if target <= self.flushed:
            return f"idle {text_of(self.flushed)}"
        upto, moment = self.flush(target)
        return f"flushed {text_of(upto)} {moment}"

    def answer(self, fields):
        """What a line is told where no call fails and the log has room for it."""
        if fields[0] == "F":
            upto, moment = self.flush(self.own_end)
            return f"flushed {text_of(upto)} {moment}"
        if fields[0] == "L":
            return self.flush_behind()
        if fields[0] == "W":
            return self.switch()
        start, end = self.insert(room_of(record_size(fields)))
        places = f"{text_of(start)} {text_of(end)}"
        if fields[0] == "A":
            self.ahead = end
            return f"async {places}"
        if fields[0] == "I":
            return f"wrote {places}"
        _, moment = self.flush(end)
        self.commits += 1
        return f"hard {places} {moment}"

    def told(self, fields):
        if self.met_fault:
            return "down 1"
        records = self.records
        try:
            return self.answer(fields)
        except Full:
            self.met_full = True
            return f"full {self.limit - self.reserved}"
        except Fault:
            self.met_fault = True
            reserved = f" reserved {text_of(self.started)}" if self.records > records else ""
            return f"disk 1{reserved}"

    def close(self):
        """The run's last flush."""
        try:
            if not self.met_fault:
                self.flush(self.end())
        except Fault:
            self.met_fault = True

    def summary(self):
        segments = (self.end() - 1) // SEGMENT
        return (f"records {self.records} commits {self.commits} bytes {self.bytes} "
                f"end {text_of(self.end())} segments {segments}")

    def status(self):
        return 4 if self.met_fault else 5 if self.met_full else 0


def played(backend, lines):
    """What a run of a script's lines prints, and its status."""
    told = [f"0 {number} {backend.told(line.split())}" for number, line in enumerate(lines, 1)]
    backend.close()
    return told + [backend.summary()], backend.status()


# Scripts


def insert_of(chance, room):
    """A line whose record takes up so many bytes, or some near."""
    room = max(24, min(room, room_of(1 << 20)))
    for size in range(min(room, 1 << 20), room - 8, -1):
        for head in (0, 2, 5):
            count = size - 24 - head
            if 0 <= count and main_data_size(count) == count + head:
                data = f"{count}*{chance.randrange(256):02x}" if count else "-"
                return f"I {chance.randrange(1, 30)} {chance.choice([10, 11, 128])} 00 {data}"
    return "I 1 10 00 -"


def borders(backend):
    """The byte positions at which a page, what is mapped, a segment and the log end."""
    at = backend.reserved
    in_segment = at % IN_SEGMENT
    first = at - in_segment
    in_pages = max(0, in_segment - FIRST_PAGE)
    page = first + FIRST_PAGE + (in_pages // OTHER_PAGE + (in_segment >= FIRST_PAGE)) * OTHER_PAGE
    segment, pages = divmod(backend.mapped, PAGES)
    mapped = segment * IN_SEGMENT + (FIRST_PAGE + (pages - 1) * OTHER_PAGE if pages else 0)
    return [page, page, mapped, mapped, first + IN_SEGMENT, backend.limit]


def some_insert(chance, backend):
    kind = chance.random()
    if kind < 0.2:
        return insert_of(chance, chance.randrange(24, 400))
    if kind < 0.35:
        return insert_of(chance, chance.randrange(24, 9 * PAGE))
    if kind < 0.4:
        return f"I 3 10 00 - 1663/5/16384:0:7:aa:{chance.choice(['64+8000', '0+0'])}+5a"
    about = chance.choice([-64, -40, -32, -24, -16, -8, 0, 0, 0, 8, 16, 24, 32, 40])
    pages = chance.choice([-OTHER_PAGE, 0, 0, 0, 0, OTHER_PAGE, 3 * OTHER_PAGE])
    return insert_of(chance, chance.choice(borders(backend)) + pages + about - backend.reserved)


def some_line(chance, backend):
    kind = chance.choices("ICFWAL", [50, 20, 8, 4, 5, 5])[0]
    if kind == "I":
        return some_insert(chance, backend)
    return f"{kind} {chance.randrange(1, 9)} 0" if kind in "CA" else kind


def some_script(chance, ring, cap):
    """A script, made along a play without a fault: it tells how far the next border is."""
    backend = Backend(ring, cap)
    lines = []
    for _ in range(chance.randrange(1, 25)):
        lines.append(some_line(chance, backend))
        backend.told(lines[-1].split())
    return lines


def trial(program, chance):
    ring = chance.choice([4, 4, 5, 5, 7, 64, 64, chance.randrange(4, 65)])
    cap = chance.randrange(1, 5)
    lines = some_script(chance, ring, cap)
    lost = chance.randrange(2, cap + 1) if cap > 1 and chance.random() < 0.3 else None
    words = ["run", "--seg", str(SEGMENT), "--ring", str(ring), "--cap", str(cap), "--list"]
    with tempfile.TemporaryDirectory() as folder:
        if lost:
            os.makedirs(os.path.join(folder, "pg_wal", f"{1:08X}{0:08X}{lost:08X}"))
        done = subprocess.run([program] + words, cwd=folder, input="\n".join(lines), text=True,
                              capture_output=True, timeout=60)
    backend = Backend(ring, cap, lambda _, name, of: name == "create" and of == lost)
    wanted, status = played(backend, lines)
    got = done.stdout.splitlines()
    if (got, done.returncode) == (wanted, status):
        return None
    pairs = itertools.zip_longest(wanted, got, fillvalue="nothing")
    differing = [f"{want} / {tells}" for want, tells in pairs if want != tells]
    return "\n".join([" ".join(words) + (f" (segment {lost} cannot be made)" if lost else "")]
                     + lines
                     + [f"the rules / the program: status {status} / {done.returncode}"]
                     + differing)


def tell_calls(ring, cap=64):
    """What each line of the script on standard input is told, with the calls that it makes."""
    backend = Backend(ring, cap)
    for number, line in enumerate(sys.stdin.read().splitlines(), 1):
        before = len(backend.writer.calls)
        told = f"0 {number} {backend.told(line.split())}"
        print(told, backend.writer.calls[before:])
    before = len(backend.writer.calls)
    backend.close()
    print(backend.summary(), backend.writer.calls[before:], len(backend.writer.calls), "calls")


def main():
    words = argparse.ArgumentParser(description="compares what one backend is told with a model of the rules")
    words.add_argument("--program", default=PROGRAM, help="another build")
    words.add_argument("--calls", type=int, metavar="RING", help="tells what the model makes of a script")
    words.add_argument("trials", nargs="?", type=int, default=200)
    words.add_argument("seed", nargs="?", type=int, default=random.randrange(1 << 32))
    asked = words.parse_args()
    if asked.calls is not None:
        return tell_calls(asked.calls)
    program = os.path.realpath(asked.program)
    print(f"seed {asked.seed}", flush=True)
    failed = 0
    for number in range(asked.trials):
        said = trial(program, random.Random(f"{asked.seed} {number}"))
        if said:
            failed += 1
            print(f"trial {number} of seed {asked.seed}: {said}", flush=True)
    print(f"{asked.trials - failed} passed, {failed} failed")
    sys.exit(1 if failed else 0)


if __name__ == "__main__":
    main()
