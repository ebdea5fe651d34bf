#!/usr/bin/env python3
"""Writes sample.script and sample.answers: calls that both answer alike, with what the original answered.

sample.py MOVES ORACLE
"""

import sys

import scripts
from compare import SAME, Pair, judge

CALLS = 500


def plain(lines):
    """Short lines, nothing that touches a file, and no rows behind the archive's back."""
    short = len(lines) <= 130 and max(map(len, lines)) <= 120
    return short and not any(line.split(" ")[0] in ("save", "open", "journal", "damage") for line in lines)


def kept(pair, lines):
    """The lines that the original answers by itself, and those that begin a voyage. What is left out changed nothing:
    a refusal, a question, or a get by a key that several records bear."""
    for line, (ours, theirs) in zip(lines, pair.answers(lines)):
        if line.startswith("voyage ") and ours == "voyage ready":
            yield line, ours
        elif judge(ours, theirs) == SAME and ours == theirs:
            yield line, theirs


def main():
    pair = Pair(*sys.argv[1:3])
    chosen, seed = [], 0
    while len(chosen) < CALLS:
        seed += 1
        lines = scripts.script(f"sample {seed}")
        if plain(lines):
            both = list(kept(pair, lines))
            # A voyage on which little was stored has little to ask.
            if sum(answer.startswith("stored ") for _, answer in both) >= 10:
                chosen += both
    script = [line for line, _ in chosen]
    answers = [answer for _, answer in chosen]
    # A whole run of what was chosen, so that no line needs one that was left out.
    assert pair.ours(script) == answers
    assert [theirs.removeprefix("~ ") for _, theirs in pair.answers(script)] == answers
    for name, lines in (("sample.script", script), ("sample.answers", answers)):
        with open(name, "w", encoding="utf-8") as file:
            file.writelines(line + "\n" for line in lines)
    print(f"{len(script)} lines, {sum(line.startswith('voyage ') for line in script)} of them begin a voyage")


if __name__ == "__main__":
    sys.exit(main())
