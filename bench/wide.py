#!/usr/bin/env python3
"""Directories of many entries: their names against docs/FORMAT.md, what one edit takes and writes, and the greatest number of entries.

    bench/wide.py [PROGRAM] [--folder DIR] [--entries N ...] [--limit]

Of each number of entries a directory is made in one work and committed; the name of its root must be the one that the format
gives. Then one entry is changed and committed, and the bytes that this appends must be those of the parts on its way. With
--limit one of 1048576 entries is made, and one more must be refused."""

import hashlib
import struct
import subprocess
import sys
import time

import common

LEAF, WIDTH, DEEPEST, MOST = 32, 32, 51, 1048576


def step_of(number):
    return b"k%07d" % number


class Shape:
    """The parts of a directory of entries that are contents of one byte, by the format."""

    def __init__(self, count):
        self.digests = {}
        for number in range(count):
            step = step_of(number)
            self.digests[step] = int.from_bytes(hashlib.sha256(step).digest(), "big")
        self.content = hashlib.sha256(b"\x01").digest()

    def place(self, step, depth):
        return self.digests[step] >> (251 - 5 * depth) & 31

    def children(self, steps, depth):
        found = {}
        for step in steps:
            found.setdefault(self.place(step, depth), []).append(step)
        return sorted(found.items())

    def name(self, steps, depth=0):
        if len(steps) <= LEAF or depth == DEEPEST:
            entries = b"".join(bytes([len(it)]) + it + b"\x01" + self.content for it in steps)
            return hashlib.sha256(b"\x02" + struct.pack("<I", len(steps)) + entries).digest()
        children = self.children(steps, depth)
        bitmap = sum(1 << index for index, _ in children)
        told = b"".join(struct.pack("<I", len(below)) + self.name(below, depth + 1) for _, below in children)
        return hashlib.sha256(b"\x03" + bytes([depth]) + struct.pack("<I", bitmap) + told).digest()

    def written(self, step):
        """The bytes of the records of the parts on the way to a step, and how many they are."""
        steps, depth, size, count = sorted(self.digests), 0, 0, 1
        while len(steps) > LEAF and depth < DEEPEST:
            children = self.children(steps, depth)
            size += 10 + 45 * len(children)
            steps, depth, count = dict(children)[self.place(step, depth)], depth + 1, count + 1
        return size + 9 + sum(len(it) + 43 for it in steps), count


def serve(program, folder, script):
    """What is said for a script, and how long it took."""
    begun = time.perf_counter()
    done = subprocess.run([program, "serve", folder], input=script, stdout=subprocess.PIPE, check=True)
    return done.stdout.splitlines(), time.perf_counter() - begun


def check(what, got, want):
    if got != want:
        sys.exit(f"{what}: {got!r} and not {want!r}")


def one(given, count):
    """One directory of so many entries. A row of a table."""
    shape = Shape(count)
    with common.fresh_folder(given.folder) as folder:
        common.init(given.program, folder)
        sets = b"".join(b"set %s 01\n" % step_of(number) for number in range(count))
        said, making = serve(given.program, folder, sets + b"commit main 0 a m\nshow main\n")
        check("replies of `set`", set(said[:count]), {b"ok"})
        check("the root's name", said[-1].split()[3].decode(), shape.name(sorted(shape.digests)).hex())
        before = common.live_slot(folder).end
        step = step_of(count // 2)
        said, editing = serve(given.program, folder, b"checkout main\nset %s 02\ncommit main 1 a m\n" % step)
        parts, number = shape.written(step)
        # contents, the parts, the commit with one parent, and its branch
        check("bytes that a commit appends", common.live_slot(folder).end - before, 6 + parts + 107 + 18)
        said, listing = serve(given.program, folder, b"checkout main\nlist /\n")
        check("entries that are listed", said[-1].split()[1], b"%d" % count)
        _, opening = serve(given.program, folder, b"")
    return count, making, number, 6 + parts + 107 + 18, editing - opening, listing - opening, opening


def limit(given):
    """The greatest number of entries, and one more."""
    with common.fresh_folder(given.folder) as folder:
        common.init(given.program, folder)
        sets = b"".join(b"set %s 01\n" % step_of(number) for number in range(MOST + 1))
        said, took = serve(given.program, folder, sets + b"set %s 02\nrm %s\nset %s 01\n" % (step_of(0), step_of(1), step_of(MOST)))
        check("replies", (set(said[:MOST]), said[MOST:]), ({b"ok"}, [b"limit entries", b"ok", b"ok", b"ok"]))
    print(f"{MOST} entries are taken, and one more is refused: {took:.1f} s")


def main():
    parser = common.options(__doc__)
    parser.add_argument("--entries", type=int, nargs="+", default=[33, 1000, 100000])
    parser.add_argument("--limit", action="store_true")
    given = common.parsed(parser)
    print("entries  made, committed  parts an edit writes  bytes it appends  edit and commit     list  opening")
    for count in given.entries:
        row = one(given, count)
        print("%7d  %13.2f s  %20d  %16d  %13.4f s  %5.3f s  %5.3f s" % row)
    if given.limit:
        limit(given)


if __name__ == "__main__":
    main()
