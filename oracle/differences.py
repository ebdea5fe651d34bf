#!/usr/bin/env python3
"""Runs each difference of docs/DIFFERENCES.md that can be run, and says whether both still answer as it says there.

differences.py MOVES ORACLE
"""

import subprocess
import sys
from dataclasses import dataclass

from compare import Pair

K, K2 = "1".rjust(64, "0"), "2".rjust(64, "0")
MOST = 2**64 - 1
BOXES = "voyage box leading4 pages 16 128 4096"
VOYAGE = "voyage digest leading4 pages 16 128 4096"
SAVED = ["save out/rows", "damage out/rows 0 0", VOYAGE, "open out/rows", "load 1"]


@dataclass
class Difference:
    name: str
    # What the original is asked, and the last answers that it gives.
    asked: list
    original: list
    # The same of `moves`; nothing where its script has no such call.
    asked_of_us: list
    ours: list


DIFFERENCES = [
    Difference("a slot of 2^24 has the handle of slot 0",
               ["handle 0 5", "handle 16777216 5"], ["handle 5", "handle 5"], [], []),
    Difference("a position of 2^40 ends the program",
               ["handle 0 1099511627776", "handle 16777216 1099511627776"],
               ["panic: section must hold fewer than 2^40 records"] * 2, [], []),
    Difference("a failed put takes the archive with it",
               [VOYAGE, "load 1", f"put 0 {K} a", "fail_writes", f"put 1 {K} b", "counts"],
               ["error: Journal(Runtime(WriteFailed))", "the archive is gone"],
               ["voyage digest leading4 pages 1 1 8", "load 1", f"put 0 {K} a", f"put 1 {K} b", "counts"],
               ["refused 12 layer 2 section 1 position 0 amount 0: no slot is free for a new section",
                "counts records 1 numbers 1 floor none"]),
    Difference("a load cuts a section at a damaged value",
               [VOYAGE, "load 1", f"put 0 {K} aa", f"put_multi 0 {K2} bb", *SAVED, f"has_key {K2}"],
               ["loaded 0", "no"],
               [VOYAGE, "load 1", f"put 0 {K} aa", f"put_multi 0 {K2} bb", *SAVED, f"has_key {K2}"],
               ["loaded 2", "yes"]),
    Difference("a load cuts a section behind its last sound value",
               [VOYAGE, "load 1", f"put 0 {K} aa", f"put_multi 0 {K2} bb", "save out/rows", "damage out/rows 0 1",
                "open out/rows", "load 1"],
               ["loaded 1"],
               [VOYAGE, "load 1", f"put 0 {K} aa", f"put_multi 0 {K2} bb", "save out/rows", "damage out/rows 0 1",
                VOYAGE, "open out/rows", "load 1", f"get_key {K2}"],
               ["loaded 2", "refused 7 layer 2 section 0 position 1 amount 0: the stored value is damaged"]),
    Difference("what a load cut does not come back when the value is mended",
               [VOYAGE, "load 1", f"put 0 {K} aa", *SAVED, *SAVED], ["loaded 0"],
               [VOYAGE, "load 1", f"put 0 {K} aa", *SAVED, *SAVED, "get 0"], ["loaded 1", "found 0 0 length 2: aa"]),
    Difference("whether a load cuts there hangs on earlier loads",
               [VOYAGE, "load 1", f"put 0 {K} aa", "save out/rows", "open out/rows", "load 1", *SAVED, "get 0"],
               ["loaded 1", "refused 7 layer 2 section * position * amount 0: the stored value is damaged"],
               [VOYAGE, "load 1", f"put 0 {K} aa", *SAVED, "get 0"],
               ["loaded 1", "refused 7 layer 2 section 0 position 0 amount 0: the stored value is damaged"]),
    Difference("a damaged value hides a row of another section",
               ["journal pages 32 16 128 4096", f"append 0 0 {K} aa", f"append 0 7 {K} bb", *SAVED],
               ["loaded 0"],
               ["journal pages 32 16 128 4096", f"append 0 0 {K} aa", f"append 0 7 {K} bb", *SAVED],
               ["refused 8 layer 3 section 0 position 1 amount 0: a row's move number is another section's"]),
    Difference("a key that went bad is met before a row of another section",
               [BOXES, "load 1", "put 1 AAAU0000007 a", "put 4 AAAU0000007 b", "save out/rows", "open out/rows", "load 1",
                "save out/rows", "alter_key out/rows 4 0", "open out/rows", "load 2"],
               ["refused 6 layer 1 section * position * amount 0: a stored row is wrong"],
               [BOXES, "load 1", "put 1 AAAU0000007 a", "put 4 AAAU0000007 b", "save out/rows", "alter_key out/rows 4 0",
                BOXES, "open out/rows", "load 2"],
               ["refused 8 layer 3 section 1 position 0 amount 0: a row's move number is another section's"]),
    Difference("a far number ends the program after its row was written",
               [VOYAGE, f"load {MOST}", f"put {2**62} {K} aa", "save out/rows", "open out/rows", f"load {MOST}"],
               ["panic: capacity overflow", "- saved: the bytes on disk differ", "~ opened 1 sections",
                "panic: capacity overflow"],
               [VOYAGE, f"load {MOST}"],
               ["refused 1 layer 3 section 0 position 0 amount 0: numbers a section outside 1 to 64"]),
    Difference("one damaged value, and a number's values cannot be listed",
               [VOYAGE, "load 1", f"put 0 {K} aa", f"put_multi 0 {K2} bb", "save out/rows", "open out/rows", "load 1",
                "save out/rows", "damage out/rows 0 1", "open out/rows", "load 1", "list 0"],
               ["loaded 2", "refused 7 layer 2 section * position * amount 0: the stored value is damaged"],
               [VOYAGE, "load 1", f"put 0 {K} aa", f"put_multi 0 {K2} bb", "save out/rows", "damage out/rows 0 1",
                VOYAGE, "open out/rows", "load 1", "list 0"], ["loaded 2", "listed 2: 0/0 0/1"]),
    Difference("no limits of rows and bytes",
               ["voyage digest leading4 pages 1 1 4", "load 1", f"put 0 {K}", f"put_multi 0 {K} x", f"put 1 {K}"],
               ["stored 0 0", "stored 0 1", "stored 1 0"],
               ["voyage digest leading4 pages 1 1 4", "load 1", f"put 0 {K}", f"put_multi 0 {K} x", f"put 1 {K}"],
               ["stored 0 0", "refused 13 layer 2 section 0 position 0 amount 0: the section has all its rows",
                "refused 12 layer 2 section 1 position 0 amount 0: no slot is free for a new section"]),
    Difference("numbers a section have no upper limit",
               [VOYAGE, "load 65"], ["loaded 0"],
               [VOYAGE, "load 65"],
               ["refused 1 layer 3 section 0 position 0 amount 0: numbers a section outside 1 to 64"]),
    Difference("which of several bearers a get by key names",
               [VOYAGE, "load 10", f"put 1 {K} a", f"put 0 {K} b", f"get_key {K}"],
               ["found 1 0 length 1: a\tfound 0 1 length 1: b"],
               [VOYAGE, "load 10", f"put 1 {K} a", f"put 0 {K} b", f"get_key {K}"], ["found 0 1 length 1: b"]),
]


def tail(answers, wanted):
    return answers[-len(wanted):] if wanted else []


def main():
    pair = Pair(*sys.argv[1:3])
    wrong = 0
    for difference in DIFFERENCES:
        text = "".join(line + "\n" for line in difference.asked)
        ran = subprocess.run([pair.oracle, "--bare"], input=text, capture_output=True, text=True)
        original = tail(ran.stdout.split("\n")[:-1], difference.original)
        ours = tail(pair.ours(difference.asked_of_us), difference.ours) if difference.ours else []
        shown = original == difference.original and ours == difference.ours
        wrong += not shown
        print("shown    " if shown else "NOT SHOWN", difference.name)
        if not shown:
            print("  original:", *original, "  moves:", *ours, sep="\n    ")
    return 1 if wrong else 0


if __name__ == "__main__":
    sys.exit(main())
