#!/usr/bin/env python3
"""Merges of two directories of many entries, each side with ten paths changed: what is read, appended and taken.

    bench/merging.py [PROGRAM] [--folder DIR] [--entries N ...]

The root of the merge must have the name of the root that has both sides' edits made one by one. Where `strace` is there, the calls
that read are counted, of the merge alone."""

import os
import re
import shutil
import subprocess

import common
from wide import check, serve


def edits(count, first):
    """Five contents changed, three taken away and two put, spread over a directory of so many entries."""
    steps = [number * (count // 10) + first for number in range(8)] + [count + first, count + first + 1]
    words = [b"set %s 02"] * 5 + [b"rm %s"] * 3 + [b"set %s 03"] * 2
    return b"".join(word % (b"d/k%07d" % step) + b"\n" for word, step in zip(words, steps))


def reads(given, folder, script):
    """How many calls read, while a script is served."""
    told = folder + ".calls"
    subprocess.run(
        ["strace", "-f", "-e", "trace=pread64", "-o", told, given.program, "serve", folder],
        input=script, stdout=subprocess.PIPE, check=True,
    )
    with open(told) as calls:
        return sum(1 for call in calls if re.match(r"\d+ +pread64", call))


def one(given, count):
    """Two directories of so many entries. A row of a table."""
    left, right, merge = edits(count, 1), edits(count, count // 20), b"merge dev main 3 a m\nshow main\n"
    with common.fresh_folder(given.folder) as base:
        folder, other = base + "/one", base + "/other"
        os.mkdir(folder)
        common.init(given.program, folder)
        sets = b"".join(b"set d/k%07d 01\n" % number for number in range(count))
        serve(given.program, folder, sets + b"commit main 0 a m\nbranch dev main\ncheckout main\n" + left + b"commit main 1 a m\nbranch left main\n")
        serve(given.program, folder, b"checkout dev\n" + right + b"commit dev 2 a m\n")
        before = common.live_slot(folder).end
        shutil.copytree(folder, other)
        calls = "-"
        if shutil.which("strace"):
            looked = reads(given, other, b"show main\n")
            calls = reads(given, other, merge) - looked
        opening = min(serve(given.program, folder, b"stat\n")[1] for _ in range(5))
        took = []
        for number in range(5):
            shutil.copytree(folder, "%s/%d" % (base, number))
            took.append(serve(given.program, "%s/%d" % (base, number), merge)[1])
        said, _ = serve(given.program, folder, merge)
        grown = common.live_slot(folder).end - before
        check("the reply", said[0].split()[0], b"merged")
        by_hand, _ = serve(given.program, folder, b"checkout left\n" + right + b"commit hand 4 a m\nshow hand\n")
        check("the merge's root", said[1].split()[3], by_hand[-1].split()[3])
    return count, calls, grown, min(took) - opening, opening


def main():
    parser = common.options(__doc__)
    parser.add_argument("--entries", type=int, nargs="+", default=[1000, 10000, 100000])
    given = common.parsed(parser)
    print("entries  calls that read  bytes appended    merging  opening")
    for count in given.entries:
        print("%7d  %15s  %14d  %7.3f s  %5.3f s" % one(given, count))


if __name__ == "__main__":
    main()
