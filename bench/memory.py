#!/usr/bin/env python3
"""The peak of resident memory of `ipstore serve`, for scripts of more and more lines: it must not grow with their length.

    bench/memory.py [PROGRAM] [--folder DIR] [--lines 10000,100000,1000000] [--allow KIB]

The lines are `set` of 32 paths in turn and `get` of what was set; nothing is committed, since names of commits are kept by design.
The peak is what the system tells of the running process (VmHWM of /proc/PID/status) when it has answered all lines and its
input is still open. The exit status is 1 where the longest script took more than the shortest by more than is allowed.
"""

import sys
import threading
import time

import common
from common import Row

# Lines that are written at once.
BLOCK = 1000

PATHS = 32


def line_at(number):
    """The line of this number: a set, then a get of what it set, and so on."""
    at = number // 2
    path = f"d/k{at % PATHS}"
    if number % 2:
        return f"get {path}\n"
    return f"set {path} {at:032x}\n"


def write_script(serve, count):
    """Writes so many lines."""
    for first in range(0, count, BLOCK):
        block = [line_at(number) for number in range(first, min(first + BLOCK, count))]
        serve.send("".join(block).encode())


def read_replies(serve, count):
    """Reads so many replies, without keeping them."""
    for _ in range(count):
        common.must(serve.reply(), "")


def told_peak(process):
    """The peak of resident memory of a running process so far, in KiB; nothing where the system tells none."""
    try:
        with open(f"/proc/{process}/status") as status:
            return next((int(row.split()[1]) for row in status if row.startswith("VmHWM:")), None)
    except OSError:
        return None


def peak_of(process):
    """The same, which the system tells."""
    seen = told_peak(process)
    if seen is None:
        sys.exit("the system tells no peak of resident memory")
    return seen


def peak(program, base, count):
    """The peak of a script of so many lines, and how long it took."""
    with common.fresh_folder(base) as folder:
        common.init(program, folder)
        serve = common.Serve(program, folder)
        writer = threading.Thread(target=write_script, args=(serve, count))
        start = time.perf_counter()
        writer.start()
        read_replies(serve, count)
        took = time.perf_counter() - start
        writer.join()
        seen = peak_of(serve.process.pid)
        serve.end()
    print(f"  {count} lines: {seen} KiB, {took:.1f} s", flush=True)
    return seen


def measure(program, folder=None, lengths=(10000, 100000, 1000000)):
    """The rows of all lengths, each beside the first."""
    print("peaks of resident memory")
    peaks = [peak(program, folder, count) for count in lengths]
    return [Row(f"peak of {count} lines, over the first", its, "KiB", peaks[0]) for count, its in zip(lengths, peaks)]


def main():
    parser = common.options(__doc__)
    parser.add_argument("--lines", default="10000,100000,1000000", help="lengths of scripts (default: %(default)s)")
    parser.add_argument("--allow", type=int, default=1024, help="KiB that are no growth (default: %(default)s)")
    given = common.parsed(parser)
    rows = measure(given.program, given.folder, [int(word) for word in given.lines.split(",")])
    common.show("memory", rows)
    grown = rows[-1].value - rows[0].value
    if grown > given.allow:
        sys.exit(f"memory grows with the script: by {grown} KiB")


if __name__ == "__main__":
    main()
