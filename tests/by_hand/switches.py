#!/usr/bin/env python3
"""Writes logs that have segment switches, and compares what the built program lists of them.

`pgwal run` writes switches of 24 bytes alone, with zeros behind them, so the logs are made here, from docs/FORMATS.md alone:
commits, inserts, and switches, which may have data, end on their segment's last byte, or go on in the next segment. Behind a
switch its segment is zeros, as PostgreSQL leaves it, or noise, which is not to be read. Then the last segment is taken away:
what stands before it is listed, and the status is 0, or 6 where a record goes on in it.

Usage: tests/by_hand/switches.py [--program PROGRAM] [TRIALS [SEED]] (100 trials), by hand, outside `rt ci`
"""
import argparse
import os
import random
import struct
import subprocess
import sys
import tempfile

TOP = os.path.abspath(os.path.join(os.path.dirname(__file__), "..", ".."))
PROGRAM = os.path.join(TOP, "crates", "pgwal", "out", "pgwal")
SEGMENT = 1 << 20
PAGE = 8192


def table_of_crc():
    table = []
    for byte in range(256):
        for _ in range(8):
            byte = (byte >> 1) ^ (0x82F63B78 if byte & 1 else 0)
        table.append(byte)
    return table


TABLE = table_of_crc()


def crc_of(text):
    crc = 0xFFFFFFFF
    for byte in text:
        crc = TABLE[(crc ^ byte) & 255] ^ (crc >> 8)
    return crc ^ 0xFFFFFFFF


class Record:
    """A record with main data alone."""

    def __init__(self, rmid, info, xid, data, word, name):
        self.rmid, self.info, self.xid, self.data, self.word, self.name = rmid, info, xid, data, word, name

    def behind_header(self):
        if not self.data:
            return b""
        if len(self.data) < 256:
            return bytes([255, len(self.data)]) + self.data
        return b"\xfe" + struct.pack("<I", len(self.data)) + self.data

    def size(self):
        return 24 + len(self.behind_header())

    def spelled(self, prev):
        behind = self.behind_header()
        front = struct.pack("<IIQBBH", self.size(), self.xid, prev, self.info, self.rmid, 0)
        return front + struct.pack("<I", crc_of(behind + front)) + behind

    def is_switch(self):
        return self.rmid == 0 and self.info & 0xF0 == 0x40

    def line(self, start, prev):
        size = self.size()
        return (
            f"rmgr: {self.name:<11} len (rec/tot): {size:6}/{size:6}, tx: {self.xid:10}, lsn: 0/{start:08X}, "
            f"prev 0/{prev:08X}, desc: {self.word} data {self.data.hex() or '-'}"
        )


def commit(xid):
    return Record(1, 0, xid, struct.pack("<q", xid), "COMMIT", "Transaction")


def insert(xid, data):
    return Record(10, 0, xid, data, "INSERT", "Heap")


def switch(low=0, xid=0, data=b""):
    return Record(0, 0x40 + low, xid, data, "SWITCH", "XLOG")


class Log:
    """Segments from number 1 on, and the records in them with their first and last addresses."""

    def __init__(self):
        self.segments = {}
        self.records = []
        self.address = SEGMENT
        self.prev = 0

    def put(self, address, text):
        segment = self.segments.setdefault(address // SEGMENT, bytearray(SEGMENT))
        segment[address % SEGMENT:address % SEGMENT + len(text)] = text

    def begin_page(self, owed):
        flags = 4 | (1 if owed else 0) | (2 if self.address % SEGMENT == 0 else 0)
        text = struct.pack("<HHIQII", 0xD113, flags, 1, self.address, owed, 0)
        if flags & 2:
            text += struct.pack("<QII", 1, SEGMENT, PAGE)
        self.put(self.address, text)
        self.address += len(text)

    def left_in_segment(self):
        """How many bytes from here to the segment's end are in no header."""
        address, left = self.address, 0
        while True:
            here = address % PAGE or (40 if address % SEGMENT == 0 else 24)
            left += PAGE - here
            address = address - address % PAGE + PAGE
            if address % SEGMENT == 0:
                return left

    def add(self, record, noise):
        if self.address % PAGE == 0:
            self.begin_page(0)
        start, text = self.address, record.spelled(self.prev)
        while True:
            part = text[:PAGE - self.address % PAGE]
            self.put(self.address, part)
            self.address += len(part)
            text = text[len(part):]
            if not text:
                break
            self.begin_page(len(text))
        last = self.address - 1
        self.address = (self.address + 7) // 8 * 8
        if record.is_switch():
            end = (last // SEGMENT + 1) * SEGMENT
            self.put(self.address, noise(end - self.address))
            self.address = end
        self.records.append((record.line(start, self.prev), start, last))
        self.prev = start


def filler(chance, left):
    """An insert of so many bytes in all, or None where no header gives that size."""
    for short, head in ((True, 26), (False, 29)):
        count = left - head
        if count > 0 and (count < 256) == short:
            return insert(chance.randrange(1, 99), bytes([chance.randrange(256)]) * count)
    return None


def some_switch(chance):
    if chance.random() < 0.6:
        return switch()
    return switch(chance.randrange(16), chance.randrange(9), chance.randbytes(chance.choice([1, 5, 40, 9000])))


def made_log(chance):
    log = Log()
    noise = chance.choice([bytes, chance.randbytes])
    for _ in range(chance.randrange(1, 5)):
        for number in range(chance.randrange(4)):
            log.add(chance.choice([commit(number + 1), insert(7, bytes(chance.randrange(20000)))]), noise)
        last = some_switch(chance)
        room = (last.size() + 7) // 8 * 8
        behind = chance.choice([None, room, room, 8, 16, 24, 32, 40, room + 8])
        if behind is not None:
            fill = filler(chance, log.left_in_segment() - behind)
            if fill is not None:
                log.add(fill, noise)
        log.add(last, noise)
    for number in range(chance.randrange(3)):
        log.add(commit(number + 100), noise)
    return log


def listing(folder):
    done = subprocess.run([PROGRAM, "dump", "--seg", str(SEGMENT)], cwd=folder, capture_output=True, timeout=60, text=True)
    return done.stdout.splitlines(), done.stderr, done.returncode


def file_of(folder, segment):
    return os.path.join(folder, "pg_wal", f"00000001{0:08X}{segment:08X}")


def wanted_below(log, address):
    """What is listed of a log that has nothing from a segment's start on."""
    whole = [line for line, _, last in log.records if last < address]
    cut = [start for _, start, last in log.records if start < address <= last]
    if cut:
        return whole, f"pgwal: damaged at 0/{cut[0]:08X}: missing\n", 6
    return whole, "", 0


def trial(chance):
    log = made_log(chance)
    with tempfile.TemporaryDirectory() as folder:
        os.mkdir(os.path.join(folder, "pg_wal"))
        for segment, text in log.segments.items():
            with open(file_of(folder, segment), "wb") as file:
                file.write(text)
        last = max(log.segments)
        if listing(folder) != ([line for line, _, _ in log.records], "", 0):
            return "the whole log is not listed as it was written"
        os.remove(file_of(folder, last))
        if listing(folder) != wanted_below(log, last * SEGMENT):
            return "what is left without the last segment is not listed as it should be"
    return None


def main():
    global PROGRAM
    words = argparse.ArgumentParser(description="compares what the built program lists of logs with segment switches")
    words.add_argument("--program", default=PROGRAM, help="another build")
    words.add_argument("trials", nargs="?", type=int, default=100)
    words.add_argument("seed", nargs="?", type=int, default=random.randrange(1 << 32))
    asked = words.parse_args()
    PROGRAM = os.path.realpath(asked.program)
    print(f"seed {asked.seed}", flush=True)
    failed = 0
    for number in range(asked.trials):
        said = trial(random.Random(f"{asked.seed} {number}"))
        if said:
            failed += 1
            print(f"trial {number} of seed {asked.seed}: {said}")
    print(f"{asked.trials - failed} passed, {failed} failed")
    sys.exit(1 if failed else 0)


if __name__ == "__main__":
    main()
