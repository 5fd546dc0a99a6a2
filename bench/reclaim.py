#!/usr/bin/env python3
"""What a collection takes, while commits go on in the same `serve`: the child, the commits meanwhile, `look`, `finish`, and what is freed.

    bench/reclaim.py [PROGRAM] [--folder DIR] [--commits N] [--keep N] [--sets N] [--value BYTES] [--steps N] [--idle N] [--no-git]

A store of so many commits, whose first one sets all paths and each later one a few anew, is collected down to the last few, twice, each
time over a copy of its own: once by one `look` behind each commit until it is through, once by a `finish` as soon as the child has left
its done file. Before that the same lines are given while no collection runs. Timed is the line `commit` alone, from its last byte to the
reply. The child's time is that from the reply of `collect` to its done file; its memory is looked at before each commit. The last `look`,
and `finish`, remove the chunks that nothing needs any more: beside them stands what a bare loop takes to remove as many files of that
size in the same folder. What is freed is what the folder takes on the disk, before `collect` and behind the sweep.

Beside it stands git where it is there: the same history, cut before the last few commits (`shallow`), and then `git gc --prune=now`. It
packs and compresses what is left, which the store does not; and nobody commits meanwhile.
"""

import os
import random
import shutil
import statistics
import subprocess
import time

import common
import durable
import killing
import memory
import opening
import records
from common import Row

# Directories of the tree.
DIRECTORIES = 64

# Where a store is made that is copied to the folder then, so that its commits need not wait for a disk.
MEMORY = "/dev/shm"


def path_of(at, steps):
    return f"d{at % DIRECTORIES}/k{at // DIRECTORIES % steps}"


def history(commits, sets, size, steps):
    """What each commit sets: the first all paths, each later one some of them."""
    draw = random.Random(0)
    yield [(path_of(at, steps), draw.randbytes(size)) for at in range(DIRECTORIES * steps)]
    for _ in range(1, commits):
        yield [(path_of(draw.randrange(DIRECTORIES * steps), steps), draw.randbytes(size)) for _ in range(sets)]


class Commits:
    """Commits of some paths through a running `serve`, each timed."""

    def __init__(self, serve, given):
        self.serve, self.given = serve, given
        self.draw = random.Random(1)
        self.made = 0

    def commit(self):
        """Milliseconds of one more."""
        for _ in range(self.given.sets):
            path = path_of(self.draw.randrange(DIRECTORIES * self.given.steps), self.given.steps)
            common.must(self.serve.ask(f"set {path} {self.draw.randbytes(self.given.value).hex()}"), "ok")
        self.made += 1
        reply, took = timed(self.serve, f"commit main {self.made} a meanwhile")
        common.must(reply, "committed ")
        return took


def timed(serve, line):
    """The reply to a line, and its milliseconds."""
    start = time.perf_counter()
    reply = serve.ask(line)
    return reply, 1e3 * (time.perf_counter() - start)


def taken(folder):
    """The bytes that the files of a folder, and of those in it, take on the disk."""
    return sum(
        512 * os.stat(os.path.join(place, name)).st_blocks for place, _, names in os.walk(folder) for name in names
    )


class Seen:
    """What was seen of one collection."""

    def __init__(self):
        self.idle, self.running, self.checking, self.looks = [], [], [], []
        self.collect = self.finish = self.child = None
        # KiB of the program before the collection and behind it, and of its child as it was seen last
        self.before = self.behind = self.child_peak = 0


def left_at(folder, attempt):
    """When the done file of an attempt was written, by the system's clock; nothing where it is not there."""
    try:
        return os.stat(os.path.join(folder, f"done.{attempt}")).st_mtime
    except FileNotFoundError:
        return None


def collected(given, folder, name, by_looks):
    """Gives one run commits, and a collection at the commit of this name with commits meanwhile."""
    serve = common.Serve(given.program, folder)
    common.must(serve.ask("checkout main"), "at ")
    commits, seen = Commits(serve, given), Seen()
    seen.idle = [commits.commit() for _ in range(given.idle)]
    attempt, process = records.live_slot(folder)[1].attempt, serve.process.pid
    seen.before = memory.peak_of(process)
    reply, seen.collect = timed(serve, f"collect @{name}")
    started = time.time()
    common.must(reply, "started ")
    child = killing.child_of(process)
    while True:
        seen.child_peak = memory.told_peak(child) or seen.child_peak
        if seen.child is None:
            left = left_at(folder, attempt)
            seen.child = None if left is None else max(left - started, 1e-3)
        if seen.child is not None and not by_looks:
            break
        (seen.running if seen.child is None else seen.checking).append(commits.commit())
        if by_looks:
            left = left_at(folder, attempt)
            reply, took = timed(serve, "look")
            seen.looks.append(took)
            if not reply.startswith(("running", "checking ")):
                seen.child = seen.child or max((left or time.time()) - started, 1e-3)
                break
    if not by_looks:
        reply, seen.finish = timed(serve, "finish")
    common.must(reply, "collected ")
    seen.behind = memory.peak_of(process)
    serve.end()
    return seen


def work_of(folder):
    """The bytes and the records that a collection kept, and the records from its horizon to its end."""
    _, slot = records.live_slot(folder)
    mapping = records.read(folder, f"mapping.{slot.live}")
    end = int.from_bytes(mapping[16:24], "little")
    kept = sum(1 for _ in records.records_in(0, records.read(folder, f"prefix.{slot.live}")))
    behind = sum(1 for _ in records.records_in(slot.horizon, records.suffix(folder, slot._replace(end=end))))
    return slot.prefix, kept, behind


def make(given, base):
    """Makes the store, in memory where that can be, and the name of the commit that is collected at."""
    place = MEMORY if os.access(MEMORY, os.W_OK) else given.folder
    with common.fresh_folder(place) as folder:
        opening.make_store(given.program, folder, history(given.commits, given.sets, given.value, given.steps))
        serve = common.Serve(given.program, folder)
        name = serve.ask("log main").split()[1 + given.keep]
        serve.end()
        for copy in ("looks", "finish"):
            shutil.copytree(folder, os.path.join(base, copy))
    os.sync()
    return name


def removing(base, size, count):
    """Milliseconds that a bare loop takes to remove so many files of so many bytes, which are on the disk."""
    folder = common.new_folder(base, "bare")
    names = [os.path.join(folder, str(number)) for number in range(count)]
    for name in names:
        records.write(folder, name, os.urandom(size))
    os.sync()
    start = time.perf_counter()
    for name in names:
        os.remove(name)
    took = time.perf_counter() - start
    os.rmdir(folder)
    return 1e3 * took


def commit_rows(seen):
    """The rows of commits, while the child runs and while its files are compared, over those without a collection."""
    median, longest = statistics.median(seen.idle), max(seen.idle)
    rows = []
    for times, when in ((seen.running, "while the child runs"), (seen.checking, "while its files are compared")):
        if times:
            rows.append(Row(f"a commit {when}, median of {len(times)}, over {len(seen.idle)} before", statistics.median(times), "ms", median))
            rows.append(Row(f"the longest commit {when}, over the longest before", max(times), "ms", longest))
    return rows


def git_rows(given, base):
    """What cutting the same history and collecting takes git."""
    folder = common.new_folder(base, "git")
    opening.make_repository(folder, history(given.commits, given.sets, given.value, given.steps))
    before = taken(folder)
    words = ["git", "rev-list", "--skip", str(given.keep - 1), "-n", "1", "main"]
    environment = durable.git_environment()
    oldest = subprocess.run(words, cwd=folder, env=environment, capture_output=True, check=True).stdout
    records.write(folder, "shallow", oldest)
    os.sync()
    took = opening.seconds(lambda: opening.git(folder, "-c", "core.fsync=all", "gc", "--quiet", "--prune=now"))
    return [
        Row("git gc, its history cut before the same commit", 1e3 * took, "ms"),
        Row(f"what it freed of {before / 1e6:.1f} MB", (before - taken(folder)) / 1e6, "MB"),
    ]


def measure(given):
    """The rows of both collections, and of git where it is there."""
    with common.fresh_folder(given.folder) as base:
        name = make(given, base)
        print(f"collecting {given.commits} commits down to the last {given.keep} in {base} ({common.file_system(base)})")
        rows = []
        for by_looks in (True, False):
            folder = os.path.join(base, "looks" if by_looks else "finish")
            before = taken(folder)
            seen = collected(given, folder, name, by_looks)
            size, kept, behind = work_of(folder)
            _, slot = records.live_slot(folder)
            gone = slot.horizon // slot.chunk
            bare = removing(base, slot.chunk, gone)
            rows += commit_rows(seen)
            rows.append(Row("the line `collect`", seen.collect, "ms"))
            rows.append(Row(f"the child: {size / 1e6:.2f} MB of prefix, {kept} records kept and {behind} behind them", 1e3 * seen.child, "ms"))
            rows.append(Row("the child, of prefix", size / 1e6 / seen.child, "MB/s"))
            rows.append(Row("the child, records kept and behind", (kept + behind) / seen.child, "a second"))
            if by_looks:
                *others, last = seen.looks
                rows.append(Row(f"the longest of {len(others)} lines `look` before the last", max(others, default=0), "ms"))
                rows.append(Row(f"the last one, which collects, over removing {gone} files", last, "ms", bare))
            else:
                rows.append(Row(f"the line `finish`, over removing {gone} files", seen.finish, "ms", bare))
            rows.append(Row("peak memory of the program, over that before `collect`", seen.behind / 1024, "MB", seen.before / 1024))
            rows.append(Row("peak memory of the child, as it was seen last", seen.child_peak / 1024, "MB"))
            rows.append(Row(f"what was freed of {before / 1e6:.1f} MB, less the commits since", (before - taken(folder)) / 1e6, "MB"))
        if given.git and durable.git_version() is not None:
            rows += git_rows(given, base)
        else:
            print("git is left out: there is none, or it is not wanted")
        return rows


def main():
    parser = common.options(__doc__)
    parser.add_argument("--commits", type=int, default=10000, help="commits of the store (default: %(default)s)")
    parser.add_argument("--keep", type=int, default=100, help="of these are kept (default: %(default)s)")
    parser.add_argument("--sets", type=int, default=4, help="paths that a commit sets (default: %(default)s)")
    parser.add_argument("--value", type=int, default=250, help="bytes that each of them gets (default: %(default)s)")
    parser.add_argument("--steps", type=int, default=256, help=f"steps of each of the {DIRECTORIES} directories (default: %(default)s)")
    parser.add_argument("--idle", type=int, default=200, help="commits before the collection (default: %(default)s)")
    parser.add_argument("--no-git", dest="git", action="store_false", help="without git beside")
    given = common.parsed(parser)
    common.show("a collection", measure(given))


if __name__ == "__main__":
    main()
