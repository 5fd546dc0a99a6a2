#!/usr/bin/env python3
"""Warm gets of one path through the pipes of `ipstore serve`, beside what the pipes themselves can carry.

    bench/gets.py [PROGRAM] [--folder DIR] [--lines N] [--rounds N] [--steps 1,3,5]

A thread writes the lines `get PATH` in large pieces, and the replies are read in large pieces, each of them compared; timed
is from the first line's writing to the last reply's reading. The tree is in the work after edits, or it was
committed, when the records on its path were fetched by the first get and are kept; then also the processor's time of
`serve` for a line is told. The limits of the same run: a small program of Python that answers each line
with the same reply, by one call of the system a reply as `serve` does it, and knows nothing; and `cat`, which carries the lines in
large pieces. Beside them stands sqlite: a row by its primary key, in this process and without a pipe.
"""

import contextlib
import fcntl
import os
import resource
import statistics
import subprocess
import sys
import threading
import time

import common
from common import Row

try:
    import sqlite3
except ImportError:
    sqlite3 = None

# A pipe's room, where the system lets it be chosen.
ROOM = 1 << 20

# A shorter piece than this is followed by a pause, so that the reader does not take its time for single replies.
PIECE = 1 << 16
PAUSE = 0.001

VALUE = "0123456789abcdef"

# Answers each line with one reply, by one call.
ANSWERER = """
import os, sys
reply = sys.argv[1].encode() + b"\\n"
write = os.write
while True:
    piece = os.read(0, 4096)
    if not piece:
        break
    for _ in range(piece.count(b"\\n")):
        write(1, reply)
"""


def widen(descriptor):
    """Gives a pipe more room, where that can be done."""
    with contextlib.suppress(OSError, AttributeError):
        fcntl.fcntl(descriptor, fcntl.F_SETPIPE_SZ, ROOM)


def write_lines(descriptor, line, count):
    """Writes so many lines, in large pieces."""
    block = max(1, PIECE // len(line))
    piece = line * block
    left = count
    while left > 0:
        view = memoryview(piece if left >= block else line * left)
        while view:
            view = view[os.write(descriptor, view):]
        left -= block


def read_replies(descriptor, reply, count):
    """Reads so many replies, each of them this one."""
    pattern = reply * (ROOM // len(reply) + 2)
    size = len(reply) * count
    got = 0
    while got < size:
        piece = os.read(descriptor, ROOM)
        at = got % len(reply)
        if not piece or piece != pattern[at:at + len(piece)]:
            sys.exit(f"another reply came, or none: {piece[:100]!r}")
        got += len(piece)
        if len(piece) < PIECE and got < size:
            time.sleep(PAUSE)


def rate(source, sink, line, reply, count):
    """Lines per second through a running program, whose input and output these are."""
    widen(source)
    widen(sink)
    writer = threading.Thread(target=write_lines, args=(source, line, count))
    start = time.perf_counter()
    writer.start()
    read_replies(sink, reply, count)
    took = time.perf_counter() - start
    writer.join()
    return count / took


def path_of(steps):
    return "/".join("k" * steps)


def spent():
    """The processor's time of the programs that have ended, in seconds, without that of the system's calls."""
    return resource.getrusage(resource.RUSAGE_CHILDREN).ru_utime


def rate_of_store(program, base, steps, committed, count):
    """Lines per second of a store of its own, and the processor's time for one, in microseconds."""
    before = spent()
    path = path_of(steps)
    with common.fresh_folder(base) as folder:
        common.init(program, folder)
        serve = common.Serve(program, folder)
        common.must(serve.ask(f"set {path} {VALUE}"), "ok")
        if committed:
            common.must(serve.ask("commit main 0 a m"), "committed ")
        line = f"get {path}\n".encode()
        lines = rate(serve.input, serve.output, line, f"value {VALUE}\n".encode(), count)
        serve.end()
    return lines, (spent() - before) / count * 1e6


def rate_of_program(words, line, reply, count):
    """Lines per second of a program that carries or answers them."""
    child = subprocess.Popen(words, stdin=subprocess.PIPE, stdout=subprocess.PIPE, bufsize=0)
    lines = rate(child.stdin.fileno(), child.stdout.fileno(), line, reply, count)
    child.stdin.close()
    child.wait(common.PATIENCE)
    child.stdout.close()
    return lines


def rate_of_answerer(steps, count):
    words = [sys.executable, "-c", ANSWERER, f"value {VALUE}"]
    return rate_of_program(words, f"get {path_of(steps)}\n".encode(), f"value {VALUE}\n".encode(), count)


def rate_of_cat(steps, count):
    line = f"get {path_of(steps)}\n".encode()
    return rate_of_program(["cat"], line, line, count)


def rate_of_sqlite(count):
    """Rows per second, one asked for after the other."""
    db = sqlite3.connect(":memory:")
    db.execute("CREATE TABLE kv (k TEXT PRIMARY KEY, v BLOB)")
    db.execute("INSERT INTO kv VALUES ('k', ?)", (bytes.fromhex(VALUE),))
    start = time.perf_counter()
    for _ in range(count):
        db.execute("SELECT v FROM kv WHERE k = ?", ("k",)).fetchone()
    took = time.perf_counter() - start
    db.close()
    return count / took


def medians(acts, rounds):
    """The median of each number of each, which take turns."""
    seen = [[] for _ in acts]
    for _ in range(rounds):
        for act, its in zip(acts, seen):
            its.append(act())
    return [tuple(statistics.median(each) for each in zip(*its)) for its in seen]


def measure_path(program, base, steps, count, rounds):
    """The rows of a path of so many steps."""
    (edited, work), (committed, kept), (limit,), (carried,) = medians(
        [
            lambda: rate_of_store(program, base, steps, False, count),
            lambda: rate_of_store(program, base, steps, True, count),
            lambda: (rate_of_answerer(steps, count),),
            lambda: (rate_of_cat(steps, count),),
        ],
        rounds,
    )
    name = "1 step" if steps == 1 else f"{steps} steps"
    return [
        Row(f"gets of {name}, in the work after edits, over the answerer", edited, "lines/s", limit),
        Row(f"gets of {name}, after a commit, over the answerer", committed, "lines/s", limit),
        Row(f"gets of {name}, in the work after edits, over cat", edited, "lines/s", carried),
        Row(f"gets of {name}, in the work after edits, the processor's time", work, "us"),
        Row(f"gets of {name}, after a commit, the processor's time", kept, "us"),
    ]


def measure(program, folder=None, count=1000000, rounds=3, steps=(1,)):
    """The rows of all paths."""
    print(f"gets by {count} lines, {rounds} turns")
    rows = [row for each in steps for row in measure_path(program, folder, each, count, rounds)]
    if sqlite3 is None:
        print("sqlite is left out: this Python has no sqlite3")
    else:
        ((asked,),) = medians([lambda: (rate_of_sqlite(count),)], rounds)
        rows.append(Row("sqlite, a row by its key, without a pipe", asked, "rows/s"))
    return rows


def main():
    parser = common.options(__doc__)
    parser.add_argument("--lines", type=int, default=1000000, help="lines of one turn (default: %(default)s)")
    parser.add_argument("--rounds", type=int, default=3, help="turns of each (default: %(default)s)")
    parser.add_argument("--steps", default="1", help="lengths of paths, as 1,3,5 (default: %(default)s)")
    given = common.parsed(parser)
    steps = [int(word) for word in given.steps.split(",")]
    common.show("warm gets", measure(given.program, given.folder, given.lines, given.rounds, steps))


if __name__ == "__main__":
    main()
