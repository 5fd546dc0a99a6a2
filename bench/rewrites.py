#!/usr/bin/env python3
"""A commit of values that were all set again as they were: what it writes and takes, against one of as many values that changed.

    bench/rewrites.py [PROGRAM] [--folder DIR] [--values N] [--value BYTES] [--directories 100,1] [--rounds N]

A store gets a commit of so many values that differ, each at its path, in so many directories. Then all are set again and committed, some
times with the same bytes and some times with others; both take turns. Of the same bytes a commit may append the directories, itself and its branch,
and no contents: the bytes by docs/FORMAT.md must be those by which the live slot's end has moved. Of others it appends the contents
besides. Timed is the line `commit`, from its writing to its reply, and the processor's time of `serve` for it; the syncs of the disk are in the
first. The lines `set` before it are told apart.

Exit status 1 where a commit appended other bytes."""

import collections
import hashlib
import random
import statistics
import sys
import time

import common
from common import Row

LEAF, DEEPEST = 32, 51

# A commit of one parent, and its branch `main`.
COMMIT = 107 + 18


def place(step, depth):
    """The place of a step in a part of this depth."""
    return int.from_bytes(hashlib.sha256(step).digest(), "big") >> (251 - 5 * depth) & 31


def size_of(steps, depth=0):
    """The bytes of the records of a directory of these steps, by the format."""
    if len(steps) <= LEAF or depth == DEEPEST:
        return 9 + sum(len(step) + 43 for step in steps)
    children = {}
    for step in steps:
        children.setdefault(place(step, depth), []).append(step)
    return 10 + 45 * len(children) + sum(size_of(below, depth + 1) for below in children.values())


def paths_of(values, directories):
    """The paths, and the bytes of the records of all directories."""
    below = {b"d%d" % number: [] for number in range(directories)}
    names = list(below)
    for number in range(values):
        below[names[number % directories]].append(b"k%d" % number)
    paths = [f"{directory.decode()}/{step.decode()}" for directory, steps in below.items() for step in steps]
    return paths, size_of(names) + sum(size_of(steps) for steps in below.values())


# What one commit took and appended: milliseconds of the lines `set`, of the line `commit`, and of the processor for that; and bytes.
Turn = collections.namedtuple("Turn", "edits took spent appended")


class Store:
    """A store that is served, and what its commits appended and took."""

    def __init__(self, program, folder):
        self.folder = folder
        common.init(program, folder)
        self.serve = common.Serve(program, folder)
        self.commits = 0

    def spent(self):
        """The processor's time of `serve` so far, in milliseconds."""
        with open(f"/proc/{self.serve.process.pid}/schedstat") as told:
            return int(told.read().split()[0]) / 1e6

    def commit(self, paths, values):
        """Sets all, and commits: what that took and appended."""
        begun = time.perf_counter()
        for path, value in zip(paths, values):
            common.must(self.serve.ask(f"set {path} {value.hex()}"), "ok")
        end, spent, edited = common.live_slot(self.folder).end, self.spent(), time.perf_counter()
        common.must(self.serve.ask(f"commit main {self.commits} a m"), "committed ")
        took = (time.perf_counter() - edited) * 1e3
        self.commits += 1
        return Turn((edited - begun) * 1e3, took, self.spent() - spent, common.live_slot(self.folder).end - end)


def check(what, turn, wanted):
    """The turn, which appended so many bytes."""
    if turn.appended != wanted:
        sys.exit(f"{what} appended {turn.appended} bytes, and not {wanted}")
    return turn


def medians(turns):
    return Turn(*(statistics.median(its) for its in zip(*turns)))


def measure(program, folder=None, values=10000, size=100, directories=100, rounds=5):
    """The rows of one number of directories."""
    paths, parts = paths_of(values, directories)
    draw = random.Random(directories)
    contents = values * (5 + size)
    with common.fresh_folder(folder) as base:
        store = Store(program, base)
        now = [draw.randbytes(size) for _ in paths]
        check("the first commit", store.commit(paths, now), contents + parts + COMMIT - 40)
        same, other = [], []
        for _ in range(rounds):
            same.append(check("a commit of the same values", store.commit(paths, now), parts + COMMIT))
            now = [draw.randbytes(size) for _ in paths]
            other.append(check("a commit of other values", store.commit(paths, now), contents + parts + COMMIT))
        store.serve.end()
    same, other = medians(same), medians(other)
    name = f"{values} values in {directories} directories" if directories > 1 else f"{values} values in one directory"
    return [
        Row(f"{name}, as they were, over others: a commit", same.took, "ms", other.took),
        Row(f"{name}, as they were, over others: the processor's time", same.spent, "ms", other.spent),
        Row(f"{name}, as they were, over others: bytes appended", same.appended, "bytes", other.appended),
        Row(f"{name}: the lines `set` before it", same.edits, "ms", other.edits),
    ]


def main():
    parser = common.options(__doc__)
    parser.add_argument("--values", type=int, default=10000, help="values that each commit sets (default: %(default)s)")
    parser.add_argument("--value", type=int, default=100, help="bytes of each (default: %(default)s)")
    parser.add_argument("--directories", default="100,1", help="numbers of directories (default: %(default)s)")
    parser.add_argument("--rounds", type=int, default=5, help="turns of each (default: %(default)s)")
    given = common.parsed(parser)
    print(f"commits of {given.values} values of {given.value} bytes, {given.rounds} turns, on {common.file_system(given.folder or '/tmp')}")
    rows = []
    for number in given.directories.split(","):
        rows += measure(given.program, given.folder, given.values, given.value, int(number), given.rounds)
    common.show("values that are set again", rows)


if __name__ == "__main__":
    main()
