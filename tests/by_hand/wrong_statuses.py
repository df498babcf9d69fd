#!/usr/bin/env python3
"""Tries the status: a program that always ends with the same one has to be refused.

    tests/by_hand/wrong_statuses.py            tries the statuses from 2 to 9
    tests/by_hand/wrong_statuses.py NUMBER..   tries these

That the status is always 0 is a must-fail edit of backend_cli, where each edit takes as long as the
proof: so the others are tried by hand, outside `rt ci`. In a copy of the repository the topmost call
answers one status at a time, whatever the command came to, and its contract must refuse that. A
first check of the copy proves what lies below, in half an hour; where the libraries are built they
may be copied into it instead (crates/*/out, by --built). Prints a line for each, and its status is
1 if one was not refused.
"""
import argparse
import pathlib
import re
import shutil
import subprocess
import tempfile

TOP = pathlib.Path(__file__).resolve().parents[2]
FILE = "crates/backend_cli/src/program.rt"
TEXT = "status: outcome.status(),"
CALL = "pgwal"
# The clause that says which status is answered.
GOAL = "returns-clause-obeys"


def checked(copy):
    """Whether the topmost call of the copy is proved, and what the check said."""
    ran = subprocess.run(["rt", "check", "--only", CALL, "--jobs", "1"], cwd=copy / "crates" / "backend_cli",
                         capture_output=True, text=True)
    return ran.returncode == 0, ran.stdout + ran.stderr


def refusals(said):
    """The goals of the topmost call that stay open, noted above its line, if it is not proved."""
    open_goals = []
    for line in said.splitlines():
        open_goals += re.findall(r"^note: .* is not proved that .* \(`([\w-]+)`\)", line)
        if line.startswith("fn "):
            # With answers of its own a function whose goal stays open is told as without proof.
            if re.match(rf"fn \S*\b{CALL}: (not proved|no proof)", line):
                return sorted(set(open_goals))
            open_goals = []
    return []


def copied(folder, built):
    """A copy of the repository, with what is built if that is asked for."""
    copy = pathlib.Path(folder) / "copy"
    subprocess.run(["git", "clone", "-q", TOP, copy], check=True)
    if built:
        for out in TOP.glob("crates/*/out"):
            shutil.copytree(out, copy / out.relative_to(TOP), symlinks=True)
    return copy


def main():
    words = argparse.ArgumentParser(description="tries a program that always ends with one status")
    words.add_argument("statuses", nargs="*", type=int, metavar="NUMBER")
    words.add_argument("--built", action="store_true", help="copies the libraries that are built")
    asked = words.parse_args()
    statuses = asked.statuses or range(2, 10)
    refused = 0
    with tempfile.TemporaryDirectory() as folder:
        copy = copied(folder, asked.built)
        path = copy / FILE
        text = path.read_text()
        if text.count(TEXT) != 1:
            raise SystemExit(f"'{TEXT}' does not stand once in {FILE}")
        if not checked(copy)[0]:
            raise SystemExit(f"{CALL} is not proved as it stands")
        for status in statuses:
            path.write_text(text.replace(TEXT, f"status: outcome.status() * 0 + {status},"))
            proved, said = checked(copy)
            goals = refusals(said)
            refused += not proved and GOAL in goals
            if proved:
                told = "NOT REFUSED"
            elif goals:
                told = f"refused by {', '.join(goals)}"
            else:
                told = f"no verdict on {CALL}; the check's last lines:\n" + said[-1000:]
            print(f"always {status}: {told}", flush=True)
    failed = len(statuses) - refused
    print(f"{refused} passed, {failed} failed")
    raise SystemExit(failed != 0)


main()
