#!/usr/bin/env python3
"""Opening a store, against reading and hashing the same bytes.

    bench/opening.py [PROGRAM] [--folder DIR] [--commits N] [--sets N] [--value BYTES] [--chunk BYTES] [--rounds N] [--no-git]
    bench/opening.py [PROGRAM] --small ..

The store is made by `serve` itself: each commit sets some paths anew. Timed is `ipstore serve DIR` on an empty script,
from its start to its end: it reads each record once, hashes it and tests it. The limit of the same run is one loop of Python
that reads the same chunks, each at once, and hashes them by SHA-256, in this process; both take turns. The start of the program
alone is told by a store without commits. Beside them stand `git fsck --full` and `git rev-list --objects --all`, on the same
history as git packs it. All files were read before, so the system has them in memory. `--small` is 5000 commits of one value of 8
bytes each; and of each size the processor's time is told beside that of `sha256sum` over the same files.
"""

import hashlib
import os
import random
import resource
import shutil
import statistics
import subprocess
import time

import common
import durable
from common import Row

# Directories of the tree, and steps of each: a commit sets some of these paths.
DIRECTORIES = 8
STEPS = 32


def history(commits, sets, size):
    """What each commit sets: paths, and bytes that differ."""
    draw = random.Random(0)
    at = 0
    for _ in range(commits):
        changes = []
        for _ in range(sets):
            path = f"d{at % DIRECTORIES}/k{at // DIRECTORIES % STEPS}"
            changes.append((path, draw.randbytes(size)))
            at += 1
        yield changes


def make_store(program, folder, commits, chunk=None):
    """Makes the store of a history, each reply of a commit being waited for."""
    common.init(program, folder, chunk=chunk)
    serve = common.Serve(program, folder)
    for at, changes in enumerate(commits):
        for path, value in changes:
            common.must(serve.ask(f"set {path} {value.hex() or '-'}"), "ok")
        common.must(serve.ask(f"commit main {at} a m"), "committed ")
    serve.end()


def seconds(act):
    start = time.perf_counter()
    act()
    return time.perf_counter() - start


def processor(act):
    """The processor's time of the programs that a call runs, in seconds."""
    before = resource.getrusage(resource.RUSAGE_CHILDREN)
    act()
    after = resource.getrusage(resource.RUSAGE_CHILDREN)
    return after.ru_utime + after.ru_stime - before.ru_utime - before.ru_stime


def sum_chunks(folder):
    """`sha256sum` over the chunks of a store."""
    chunks = sorted(os.path.join(folder, name) for name in os.listdir(folder) if name.startswith("chunk."))
    subprocess.run(["sha256sum", *chunks], stdout=subprocess.DEVNULL, check=True)


def open_store(program, folder):
    """Opens the store, and serves an empty script."""
    subprocess.run([program, "serve", folder], stdin=subprocess.DEVNULL, check=True)


def read_and_hash(folder, slot):
    """Reads the bytes of the store's records, and hashes them."""
    state = hashlib.sha256()
    for piece in common.pieces(folder, slot.chunk, 0, slot.end):
        state.update(piece)
    return state.hexdigest()


def import_of(commits):
    """A history as `git fast-import` reads it."""
    for at, changes in enumerate(commits):
        yield b"commit refs/heads/main\ncommitter a <a@a> %d +0000\ndata 1\nm\n" % at
        for path, value in changes:
            yield b"M 100644 inline %s\ndata %d\n%s\n" % (path.encode(), len(value), value)


def git(folder, *words, **how):
    subprocess.run(["git", *words], cwd=folder, env=durable.git_environment(), check=True, **how)


def make_repository(folder, commits):
    """Makes git's repository of a history."""
    git(folder, "init", "-q", "--bare")
    git(folder, "fast-import", "--quiet", input=b"".join(import_of(commits)))


def git_acts(base, commits):
    """What is timed of git: names and calls."""
    folder = common.new_folder(base, "git")
    make_repository(folder, commits)
    quiet = {"stdout": subprocess.DEVNULL, "stderr": subprocess.DEVNULL}
    return [
        ("git fsck --full", lambda: git(folder, "fsck", "--full", **quiet)),
        ("git rev-list --objects --all", lambda: git(folder, "rev-list", "--objects", "--all", **quiet)),
    ]


def take_turns(acts, rounds, of=seconds):
    """The median milliseconds of each; the first turn only warms."""
    times = [[] for _ in acts]
    for turn in range(rounds + 1):
        for act, its in zip(acts, times):
            its.append(of(act) * 1e3)
    return [statistics.median(its[1:]) for its in times]


def measure(program, folder=None, commits=2000, sets=8, value=1000, rounds=7, with_git=True, chunk=None):
    """The rows of opening, and of git where it is there."""
    with common.fresh_folder(folder) as base:
        store, empty = common.new_folder(base, "store"), common.new_folder(base, "empty")
        make_store(program, store, history(commits, sets, value), chunk)
        common.init(program, empty)
        slot = common.live_slot(store)
        print(f"opening {commits} commits in {slot.end} bytes, in chunks of {slot.chunk}, {rounds} turns")
        opened, limit, alone = take_turns(
            [lambda: open_store(program, store), lambda: read_and_hash(store, slot), lambda: open_store(program, empty)],
            rounds,
        )
        rows = [
            Row("opening, over reading and hashing its bytes", opened, "ms", limit),
            Row("of this, start and end of the program", alone, "ms"),
        ]
        if shutil.which("sha256sum"):
            own, sums = take_turns([lambda: open_store(program, store), lambda: sum_chunks(store)], rounds, processor)
            rows.append(Row("opening, the processor's time, over that of `sha256sum`", own, "ms", sums))
        if with_git and durable.git_version() is not None:
            acts = git_acts(base, history(commits, sets, value))
            times = take_turns([act for _, act in acts], rounds)
            rows += [Row(name, its, "ms", limit) for (name, _), its in zip(acts, times)]
        else:
            print("git is left out: there is none, or it is not wanted")
        return rows


def main():
    parser = common.options(__doc__)
    parser.add_argument("--commits", type=int, default=2000, help="commits of the store (default: %(default)s)")
    parser.add_argument("--sets", type=int, default=8, help="paths that a commit sets, at most 256 (default: %(default)s)")
    parser.add_argument("--value", type=int, default=1000, help="bytes that each of them gets (default: %(default)s)")
    parser.add_argument("--chunk", type=int, help="bytes of a chunk (default: that of init)")
    parser.add_argument("--rounds", type=int, default=7, help="turns of each (default: %(default)s)")
    parser.add_argument("--small", action="store_true", help="5000 commits of one value of 8 bytes")
    parser.add_argument("--no-git", action="store_true", help="without git beside")
    given = common.parsed(parser)
    if given.small:
        given.commits, given.sets, given.value = 5000, 1, 8
    rows = measure(
        given.program, given.folder, given.commits, given.sets, given.value, given.rounds, not given.no_git,
        given.chunk,
    )
    common.show("opening a store", rows)


if __name__ == "__main__":
    main()
