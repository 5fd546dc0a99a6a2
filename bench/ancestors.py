#!/usr/bin/env python3
"""Least common ancestors of heads that are near each other, in long histories: what they take must not grow with the history.

    bench/ancestors.py [PROGRAM] [--folder DIR] [--commits N ...]

A line has commits with one parent each. A comb has mergers, each of the last one and of a commit that goes on from the first commit
of all. Each pair of heads is asked many times in one call, and once; each answer must be the one that is known."""

import hashlib
import resource
import struct
import sys

import common
from wide import check, serve

TURNS = 20000
EMPTY = hashlib.sha256(b"\x02" + struct.pack("<I", 0)).digest()


def asked(given, folder, lines):
    """What is said for lines, and the processor's time that the call takes."""
    before = resource.getrusage(resource.RUSAGE_CHILDREN).ru_utime
    said, _ = serve(given.program, folder, lines)
    return said, resource.getrusage(resource.RUSAGE_CHILDREN).ru_utime - before


def name_of(date, parents):
    """The name of a commit of the empty tree."""
    text = b"\x04" + EMPTY + bytes([len(parents)]) + b"".join(parents) + struct.pack("<Q", date) + b"\x01a\x01\x00m"
    return hashlib.sha256(text).digest()


def line(count):
    """The names of the commits of a line, and the script that makes it."""
    names = [name_of(0, [])]
    for number in range(1, count):
        names.append(name_of(number, names[-1:]))
    return names, b"".join(b"commit main %d a m\n" % number for number in range(count))


def comb(count):
    """The same of a comb of so many commits. Mergers have even numbers."""
    names, script = [name_of(0, [])], [b"commit main 0 a m\n"]
    for number in range(1, count - 1, 2):
        side = name_of(number, names[:1])
        names += [side, name_of(number + 1, [names[-1], side])]
        script.append(b"checkout @%s\nbranch side @%s\n" % ((names[0].hex().encode(),) * 2))
        script.append(b"commit side %d a m\ncheckout main\nparent side\ncommit main %d a m\n" % (number, number + 1))
    return names, b"".join(script)


def pairs(shape, last):
    """Heads, most of them counted back from the last merger or commit, and the number of their one least common ancestor."""
    if shape == "line":
        return [(last, last, last), (last, last - 9, last - 9), (last - 49, last, last - 49), (9, 0, 0)]
    return [(last, last - 2, last - 2), (last - 20, last, last - 20), (last - 1, last, last - 1), (last - 3, last - 1, 0)]


def one(given, shape, count):
    """The microseconds of the processor that each pair of a shape takes. A row of a table."""
    names, script = (line if shape == "line" else comb)(count)
    with common.fresh_folder(given.folder) as folder:
        common.init(given.program, folder)
        serve(given.program, folder, script)
        took = []
        for one, other, least in pairs(shape, len(names) - 1):
            ask = b"lcas @%s @%s\n" % (names[one].hex().encode(), names[other].hex().encode())
            once = min(asked(given, folder, ask)[1] for _ in range(3))
            runs = [asked(given, folder, ask * TURNS) for _ in range(3)]
            check("the replies", runs[0][0], [b"lcas 1 " + names[least].hex().encode()] * TURNS)
            took.append((min(seconds for _, seconds in runs) - once) / TURNS * 1e6)
    return took


def main():
    parser = common.options(__doc__)
    parser.add_argument("--commits", type=int, nargs="+", default=[1001, 10001, 50001])
    given = common.parsed(parser)
    print("shape  commits  microseconds of the processor for each pair")
    for shape in ("line", "comb"):
        least = None
        for count in given.commits:
            took = one(given, shape, count)
            print("%5s  %7d  %s" % (shape, count, "  ".join("%7.1f" % micros for micros in took)))
            least = least or took
            for micros, first in zip(took, least):
                if micros > 10 * max(first, 5):
                    sys.exit("what a pair takes grows with the history")


if __name__ == "__main__":
    main()
