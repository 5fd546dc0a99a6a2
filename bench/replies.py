#!/usr/bin/env python3
"""The replies of the plain model to a script, as a transcript: each line behind `> `, and its reply below it.

    bench/replies.py [--rule PATH=KIND ...] < SCRIPT

A word that begins with $ and a number stands for the name of the commit with that number: `show @$0`. What stands in the place of
such a word is written out. Transcripts of tests have their names from here, and not from the program.

Merges go by the program's rules, or by those that are given, each for its path and all under it. KIND is same, counter, lines, seq
(a counter, and lines where that conflicts), call (the left side's bytes and the right one's behind them, where both have some),
none (no contents), most or more (so many bytes as contents may have, or one more)."""

import argparse
import re
import sys

import model


def counted_or_joined(base, left, right):
    try:
        return model.counted(base, left, right)
    except model.Conflict:
        return model.joined(base, left, right)


def left_and_right(base, left, right):
    if left is None or right is None:
        raise model.Conflict
    return left + right


def nothing(base, left, right):
    return None


KINDS = {
    "same": model.unmerged,
    "counter": model.counted,
    "lines": model.joined,
    "seq": counted_or_joined,
    "call": left_and_right,
    "none": nothing,
    "most": lambda base, left, right: bytes(model.CONTENTS),
    "more": lambda base, left, right: bytes(model.CONTENTS + 1),
}


def rule(word):
    path, kind = word.rsplit("=", 1)
    return model.steps_of(path), KINDS[kind]


def main():
    parser = argparse.ArgumentParser(description=__doc__, formatter_class=argparse.RawDescriptionHelpFormatter)
    parser.add_argument("--rule", action="append", type=rule, metavar="PATH=KIND")
    given = parser.parse_args()
    store = model.Model(dict(given.rule) if given.rule else model.PROGRAM)
    for line in sys.stdin.read().splitlines():
        line = re.sub(r"\$(\d+)", lambda found: store.commits[int(found[1])].name, line)
        print(f"> {line}\n{store.reply(line)}")


main()
