#!/usr/bin/env python3
"""Tries the machine's own conditions: each wrong step of a list has to be refused by the laws.

    tests/by_hand/wrong_definitions.py          tries all
    tests/by_hand/wrong_definitions.py WORD..   tries those with one of these words in their name

An edit in must-fail/ changes the code of the crate in which it stands, and what a step may rest on
is a definition of machine_state, of which the laws stand in machine_laws. So these are tried by hand,
outside `rt ci`: in a copy of the repository one definition at a time is weakened, by a term that
has the same shape and always holds, and machine_state must still check, and machine_laws must not. A
first check of the copy proves what lies below, in some minutes; each edit takes one more. Prints a
line for each, and its status is 1 if one was not refused.
"""
import pathlib
import re
import subprocess
import sys
import tempfile

TOP = pathlib.Path(__file__).resolve().parents[2]
STEPS, MOVES = "Steps.antt", "Moves.antt"
# the name of each, the file of machine_state's specs, the text that stands once in it, and what it becomes
WRONG = [
    ("a page is given up before it is written", STEPS,
     "(at + 8192 ≤ written + (setup_of).ring_pages * 8192)", "(at + 0 ≤ at + written)"),
    ("a lock is given back with words left", STEPS,
     "→ c.copied ≡ words_owned (setup_of).seg_size c.entry)", "→ c.copied ≡ c.copied)"),
    ("a lock tells more than is copied", STEPS,
     "(upto < most_told (setup_of)", "(upto < 8 + most_told (setup_of)"),
    ("a lock without an entry tells more than was seen", STEPS,
     "(end_form setup_of (v.reserving).seen) lock",
     "(8 + end_form setup_of (v.reserving).seen) lock"),
    ("the flushed address is stored before the moment", STEPS,
     "HasOut (λ l. (l.hard ≡ (l.writer).written)", "HasOut (λ l. (l.hard ≡ l.hard)"),
    ("the moment is stored before the sync", STEPS,
     "((l.writer).waiting ≡ none))\n  MayStep store_flushed",
     "((l.writer).waiting ≡ (l.writer).waiting))\n  MayStep store_flushed"),
    ("a write goes past what is known to be copied", STEPS,
     "pub copied : upto ≤ l.known\n", "pub copied : upto ≤ upto\n"),
    ("a segment is made before all below it is written", STEPS,
     "pub behind : segment * setup.seg_size ≤ (l.writer).written\n",
     "pub behind : segment * 0 ≤ (l.writer).written\n"),
    ("a word is copied to a page that was not met", STEPS,
     "pub met : address_of_word setup.seg_size c.entry c.copied < confirmed",
     "pub met : address_of_word setup.seg_size c.entry c.copied\n"
     "      < confirmed + 1 + address_of_word setup.seg_size c.entry c.copied"),
    ("an entry is reserved past the log's end", STEPS,
     "(at + room_at (setup_of).seg_size at value ≤ log_limit setup_of)",
     "(at + room_at (setup_of).seg_size at value\n"
     "      ≤ at + room_at (setup_of).seg_size at value)"),
    ("an answer goes past what is reserved", STEPS,
     "(upto ≤ end_form setup_of (v.reserving).seen)", "(upto ≤ upto + (v.reserving).seen)"),
    ("a switch is reserved under seven locks", STEPS,
     "IsTrue (is_switch value) → (lock : ℕ) → lock < 8 → Contains locks lock",
     "IsTrue (is_switch value) → (lock : ℕ) → lock < 7 → Contains locks lock"),
    ("the async address is lowered", STEPS,
     "(raise_async expected upto) = (expected < upto)",
     "(raise_async expected upto) = (expected ≤ expected + upto)"),
    ("an answer ahead is marked where its raise failed", MOVES,
     "with_async (if met == expected then upto else met) v", "with_async (max upto met) v"),
    ("the down word is set by a pass that met it", STEPS,
     "× ((v.writing).down_met ≡ 0) × ((v.writing).down_set ≡ 0))",
     "× ((v.writing).down_met ≡ (v.writing).down_met)\n"
     "      × ((v.writing).down_set ≡ 0))"),
    ("a pass stays off a segment's start", STEPS,
     "× (end_form setup_of at % (setup_of).seg_size ≡ 0)",
     "× (end_form setup_of at ≡ end_form setup_of at)"),
    ("a failed writer is taken unawares", MOVES,
     "max (v.writing).down_met (fault_number writer.fault);",
     "max (v.writing).down_met (fault_number none);"),
    ("a watcher learns a word too many", MOVES,
     "else min x.bound (met - 1));", "else min x.bound met);"),
    ("a watcher passes a lock that tells nothing", MOVES,
     "if (lock == x.visited) && (own || not (met == 1))",
     "if (lock == x.visited) && (own || not (met == 2))"),
]


def checked(copy, crate):
    """Whether a crate of the copy is proved, and what the check said."""
    ran = subprocess.run(["rt", "check"], cwd=copy / "crates" / crate, capture_output=True, text=True)
    return ran.returncode == 0, ran.stdout + ran.stderr


def main():
    asked = sys.argv[1:]
    wrong = [it for it in WRONG if not asked or any(word in it[0] for word in asked)]
    failed = 0
    with tempfile.TemporaryDirectory() as folder:
        copy = pathlib.Path(folder) / "copy"
        subprocess.run(["git", "clone", "-q", TOP, copy], check=True)
        if not checked(copy, "machine_laws")[0]:
            sys.exit("machine_laws is not proved as it stands")
        for name, file, old, new in wrong:
            path = copy / "crates" / "machine_state" / "specs" / file
            text = path.read_text()
            if text.count(old) != 1:
                print(f"{name}: its text does not stand once in {file}")
                failed += 1
                continue
            path.write_text(text.replace(old, new))
            sound, _ = checked(copy, "machine_state")
            proved, said = checked(copy, "machine_laws") if sound else (False, "")
            path.write_text(text)
            where = re.search(r"proofs/(\w+)\.antt:\d+:\d+: error: `(\w+)", said)
            if not sound or proved or not where:
                failed += 1
            print(f"{name}: " + ("machine_state does not check" if not sound else "NOT REFUSED" if proved
                                 else f"refused by {where[2]} of {where[1]}" if where else "refused, for no law"))
    print(f"{len(wrong) - failed} passed, {failed} failed")
    sys.exit(failed != 0)


main()
