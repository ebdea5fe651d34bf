#!/usr/bin/env python3
"""Runs scripts through `moves` and through the original, and compares the answers line by line.

compare.py MOVES ORACLE [--calls N] [--seed S] [--short N]
"""

import argparse
import collections
import itertools
import os
import re
import subprocess
import sys
import tempfile

import scripts

# How an answer compared.
SAME, WORKED_OUT, OTHER_BEARER, LEFT_OUT, DIFFERS = "same", "worked out", "other bearer", "left out", "differs"


def fnv32(held):
    check = 2166136261
    for byte in held:
        check = (check ^ byte) * 16777619 % 2**32
    return check


def spoil(folder, line, voyage):
    """Turns a bit in a saved file, of the check of a value or of a key; docs/FORMATS.md says where these lie."""
    what, name, start, position = line.split(" ")
    slots, rows, size = (int(word) for word in voyage.split(" ")[4:])
    row = 24 + (11 if voyage.startswith("voyage box") else 32)
    page = 16 + rows * row
    path = os.path.join(folder, name)
    if not os.path.exists(path):
        return "no such file"
    with open(path, "rb") as file:
        held = bytearray(file.read())
    for slot in range(slots):
        header = held[slot * page:slot * page + 16]
        kept = int.from_bytes(header[8:12], "big")
        if int.from_bytes(header[:8], "big") == int(start) and int(position) < kept:
            end = slot * page + 16 + (int(position) + 1) * row
            if what == "damage":
                offset, cost = held[end - 16:end - 8], held[end - 8:end - 4]
                value = slots * page + slot * size + int.from_bytes(offset, "big")
                held[value + int.from_bytes(cost, "big") - 1] ^= 1
            else:
                held[end - 17] ^= 1
                held[end - 4:end] = fnv32(held[end - row:end - 4]).to_bytes(4, "big")
            with open(path, "wb") as file:
                file.write(held)
            return "spoilt"
    return "no such row"


class Pair:
    """Both programs, in a folder of their own for what they save."""

    def __init__(self, moves, oracle):
        self.moves, self.oracle = os.path.abspath(moves), os.path.abspath(oracle)
        self.folder = tempfile.TemporaryDirectory()
        os.mkdir(os.path.join(self.folder.name, "out"))

    def once(self, program, lines):
        text = "".join(line + "\n" for line in lines).encode()
        ran = subprocess.run([program], input=text, capture_output=True, cwd=self.folder.name)
        answers = ran.stdout.decode().split("\n")[:-1]
        if ran.returncode != 0:
            answers.append(f"ended with {ran.returncode}")
        return answers

    def ours(self, lines):
        """What `moves` says, without its last line. It has no line that spoils a file, so it ends before such a
        line, and begins anew behind it with the voyage that was begun last."""
        spoiling = (at for at, line in enumerate(lines) if line.startswith(("damage ", "alter_key ")))
        spoilt = next(spoiling, len(lines))
        answers = self.once(self.moves, lines[:spoilt])
        if answers and answers[-1].startswith("done: "):
            answers.pop()
        if spoilt == len(lines):
            return answers
        before, behind = lines[:spoilt], lines[spoilt + 1:]
        begun = [line for line in before if line.startswith("voyage ")][-1:]
        first = begun or [line for line in behind if line.startswith("voyage ")]
        answers.append(spoil(self.folder.name, lines[spoilt], first[0]) if first else "no voyage")
        return answers + self.ours(begun + behind)[len(begun):]

    def answers(self, lines):
        """Line by line what both say, with no file from a script before."""
        for name in os.listdir(os.path.join(self.folder.name, "out")):
            os.remove(os.path.join(self.folder.name, "out", name))
        pairs = itertools.zip_longest(self.ours(lines), self.once(self.oracle, lines), fillvalue="no answer")
        return list(pairs)


def fits(ours, theirs):
    """A star in a refusal stands for a part that the original does not tell."""
    theirs = theirs.removeprefix("~ ")
    if not theirs.startswith("refused "):
        return ours == theirs
    return re.fullmatch(re.escape(theirs).replace(r"\*", r"\d+"), ours) is not None


def judge(ours, theirs):
    if theirs.startswith("- "):
        return LEFT_OUT
    first, *others = theirs.split("\t")
    if fits(ours, first):
        return WORKED_OUT if first.startswith("~ ") else SAME
    return OTHER_BEARER if any(fits(ours, other) for other in others) else DIFFERS


def kind(answer):
    words = answer.removeprefix("~ ").split(" ")
    return " ".join(words[:2]) if words[0] == "refused" else words[0].rstrip(":")


def signature(line, ours, theirs):
    return line.split(" ")[0], kind(ours), kind(theirs)


class Comparison:
    def __init__(self, pair):
        self.pair = pair
        self.counts = collections.Counter()
        self.found = {}

    def compare(self, lines):
        """Compares a script up to its first difference: what comes behind it may follow from it."""
        pairs = self.pair.answers(lines)
        for place, (ours, theirs) in enumerate(pairs):
            line = lines[place] if place < len(lines) else ""
            judged = judge(ours, theirs)
            self.counts[line.split(" ")[0], kind(ours), judged] += 1
            if judged == DIFFERS:
                self.note(lines[: place + 1], ours, theirs)
                return

    def note(self, lines, ours, theirs):
        found = signature(lines[-1], ours, theirs)
        if found not in self.found:
            small = self.smallest(lines, found)
            self.found[found] = small, *self.pair.answers(small)[-1]

    def still(self, lines, found):
        pairs = self.pair.answers(lines)
        return (len(pairs) == len(lines) and judge(*pairs[-1]) == DIFFERS
                and signature(lines[-1], *pairs[-1]) == found)

    def smallest(self, lines, found):
        """Leaves lines out, first many at a time, as long as the last one still differs in the same way."""
        step = len(lines) // 2
        while step:
            at = 0
            while at < len(lines) - 1:
                fewer = lines[:at] + lines[min(at + step, len(lines) - 1):]
                if self.still(fewer, found):
                    lines = fewer
                else:
                    at += step
            step //= 2
        return lines

    def compared(self):
        return sum(count for (*_, judged), count in self.counts.items() if judged != LEFT_OUT)

    def report(self):
        for (name, answer, judged), count in sorted(self.counts.items()):
            print(f"{count:8} {name:10} {answer:12} {judged}")
        of = collections.Counter()
        for (*_, judged), count in self.counts.items():
            of[judged] += count
        print(f"{self.compared()} answers compared:", ", ".join(f"{of[how]} {how}" for how in
              (SAME, WORKED_OUT, OTHER_BEARER, DIFFERS)), f"; {of[LEFT_OUT]} left out")
        for lines, ours, theirs in self.found.values():
            print("DIFFERENCE", *("    " + line[:200] for line in lines), sep="\n")
            print(f"  moves:    {ours[:200]}\n  original: {theirs[:200]}")
        print(f"{len(self.found)} kinds of difference")


def main():
    parser = argparse.ArgumentParser()
    parser.add_argument("moves")
    parser.add_argument("oracle")
    parser.add_argument("--calls", type=int, default=20_000, help="answers to compare, at least")
    parser.add_argument("--seed", type=int, default=1)
    parser.add_argument("--short", type=int, default=3, help="every sequence of up to so many calls")
    asked = parser.parse_args()
    comparison = Comparison(Pair(asked.moves, asked.oracle))
    short = scripts.short_scripts(asked.short)
    while batch := list(itertools.islice(short, 100)):
        comparison.compare([line for lines in batch for line in lines])
    print(f"{comparison.compared()} answers of every sequence of up to {asked.short} calls")
    goal = comparison.compared() + asked.calls
    for seed in itertools.count(asked.seed):
        if comparison.compared() >= goal:
            break
        comparison.compare(scripts.script(f"{seed}"))
    print(f"seeds {asked.seed} to {seed - 1}")
    comparison.report()
    return 1 if comparison.found else 0


if __name__ == "__main__":
    sys.exit(main())
