#!/usr/bin/env python3
"""Durable commits, against a bare loop of the same writes and syncs in the same folder, and once more on a file system in memory.

    bench/durable.py [PROGRAM] [--folder DIR] [--rounds N] [--commits N] [--keys N]

A commit is of one small value that changed, in a tree of one key or of as many as `--keys` says: the lines `set` and `commit` are
given to a running `ipstore serve`, each once the reply before it was read. The bare loop writes as many bytes, in the same pieces, at the same places of two files
of its own, which it opens once, and syncs as often. Both take turns, some commits each; told are the medians of
these turns. Beside them stand sqlite, with its write-ahead log and with its rollback journal, and git, where they are
there. A time of a sync is one of the folder's disk: name a folder on the disk that matters. On a file system in memory (/dev/shm) a sync
takes nothing, so that the processor alone counts; there the processor's time of `serve` is told too.
"""

import os
import random
import shutil
import statistics
import subprocess
import time

import common
from common import Row

try:
    import sqlite3
except ImportError:
    sqlite3 = None

# Where a file system is in memory.
MEMORY = "/dev/shm"

# The first git whose commits can be told to sync all that they write.
SYNCING_GIT = (2, 36)


class StoreCommits:
    """Commits through a running `ipstore serve`."""

    def __init__(self, program, folder, keys):
        common.init(program, folder)
        self.folder = folder
        self.serve = common.Serve(program, folder)
        self.keys = keys
        self.draw = random.Random(0)
        for key in range(keys):
            common.must(self.serve.ask(f"set k{key} {key:016x}"), "ok")

    def commit(self, number):
        common.must(self.serve.ask(f"set k{self.draw.randrange(self.keys)} {number:016x}"), "ok")
        common.must(self.serve.ask(f"commit main {number} a m"), "committed ")

    def ask_twice(self, _):
        """As many lines and replies as a commit has, and nothing written."""
        self.serve.ask("stat")
        self.serve.ask("stat")

    def batch(self):
        """How many bytes one more commit appends."""
        before = common.live_slot(self.folder).end
        self.commit(0)
        return common.live_slot(self.folder).end - before

    def processor(self):
        """The processor's time of `serve` so far, in seconds: its own, and that of the system's calls."""
        with open(f"/proc/{self.serve.process.pid}/stat") as file:
            fields = file.read().rpartition(")")[2].split()
        return [int(ticks) / os.sysconf("SC_CLK_TCK") for ticks in fields[11:13]]

    def close(self):
        self.serve.end()


class BareLoop:
    """The writes and syncs of the durable step (docs/DISK.md), and nothing else."""

    def __init__(self, folder, batch):
        flags = os.O_RDWR | os.O_CREAT
        self.chunk = os.open(os.path.join(folder, "chunk"), flags)
        self.control = os.open(os.path.join(folder, "control"), flags)
        os.pwrite(self.control, bytes(2 * common.SLOT), 0)
        os.fsync(self.control)
        self.records = bytes(batch)
        self.end = 0
        self.slot = 0

    def commit(self, _):
        os.pwrite(self.chunk, self.records, self.end)
        os.fsync(self.chunk)
        self.end += len(self.records)
        self.slot = 1 - self.slot
        self.write_slot(common.SLOT * self.slot)

    def write_slot(self, at):
        before = os.pread(self.control, common.SLOT, at)
        if len(before) < common.SLOT or before[0] == common.GATE_OPEN:
            os.pwrite(self.control, b"\0", at)
            os.fsync(self.control)
        os.pwrite(self.control, bytes(common.SLOT - 1), at + 1)
        os.fsync(self.control)
        os.pwrite(self.control, bytes([common.GATE_OPEN]), at)
        os.fsync(self.control)

    def close(self):
        os.close(self.chunk)
        os.close(self.control)


class SqliteCommits:
    """Transactions that each update one row, on the disk when they end. No older value is kept."""

    def __init__(self, folder, journal):
        self.db = sqlite3.connect(os.path.join(folder, "db"), isolation_level=None)
        self.db.execute(f"PRAGMA journal_mode={journal}")
        self.db.execute("PRAGMA synchronous=FULL")
        self.db.execute("CREATE TABLE kv (k TEXT PRIMARY KEY, v BLOB)")

    def commit(self, number):
        self.db.execute("BEGIN")
        self.db.execute("INSERT OR REPLACE INTO kv VALUES ('k', ?)", (number.to_bytes(8, "big"),))
        self.db.execute("COMMIT")

    def close(self):
        self.db.close()


class GitCommits:
    """`git commit` of one changed file, told to sync what it writes. Each starts git anew."""

    def __init__(self, folder):
        self.folder = folder
        self.git("init", "-q")
        self.write(0)
        self.git("add", "k")

    def commit(self, number):
        self.write(number)
        self.git("commit", "-q", "-a", "-m", str(number))

    def write(self, number):
        with open(os.path.join(self.folder, "k"), "w") as file:
            file.write(f"{number:016x}")

    def git(self, *words):
        settings = ["core.fsync=all", "core.fsyncMethod=fsync", "gc.auto=0", "user.name=a", "user.email=a@a"]
        chosen = [word for setting in settings for word in ("-c", setting)]
        subprocess.run(["git", *chosen, *words], cwd=self.folder, env=git_environment(), check=True)

    def close(self):
        pass


def git_environment():
    """No settings of the machine or its user."""
    return {**os.environ, "GIT_CONFIG_GLOBAL": os.devnull, "GIT_CONFIG_NOSYSTEM": "1"}


def git_version():
    """The version of git, or nothing where it is not there."""
    if shutil.which("git") is None:
        return None
    words = subprocess.run(["git", "version"], capture_output=True, text=True, check=True).stdout.split()
    return tuple(int(part) for part in words[2].split(".")[:2])


def turn(act, first, count):
    """Microseconds of each of so many commits."""
    start = time.perf_counter()
    for number in range(first, first + count):
        act(number)
    return (time.perf_counter() - start) / count * 1e6


def take_turns(acts, rounds, count):
    """The median of the turns of each, which come one after the other."""
    times = [[] for _ in acts]
    for turns in range(rounds):
        for act, its in zip(acts, times):
            its.append(turn(act, 1 + turns * count, count))
    return [statistics.median(its) for its in times]


def measure_store(program, base, rounds, count, keys, with_processor=False):
    """The rows of the store and of the bare loop, and the time of the loop."""
    store = StoreCommits(program, common.new_folder(base, "store"), keys)
    store.commit(2 ** 63)
    batch = store.batch()
    bare = BareLoop(common.new_folder(base, "bare"), batch)
    bare.commit(0)
    mine, limit = take_turns([store.commit, bare.commit], rounds, count)
    (pipe,) = take_turns([store.ask_twice], rounds, count)
    of = f" of {keys} keys" if keys > 1 else ""
    rows = [
        Row(f"a commit{of} through `serve` ({batch} bytes appended), over the bare loop", mine, "us", limit),
        Row("of this, two lines and replies through the pipes", pipe, "us"),
    ]
    if with_processor:
        before = store.processor()
        commits = max(1000, rounds * count)
        turn(store.commit, 2 ** 62, commits)
        own, system = [(b - a) / commits * 1e6 for a, b in zip(before, store.processor())]
        rows += [
            Row("of this, the processor's time of `serve`, its own", own, "us"),
            Row("of this, the processor's time of `serve` in the system's calls", system, "us"),
        ]
    store.close()
    bare.close()
    return rows, limit


def measure_in_memory(program, rounds, count, keys):
    """The rows on a file system in memory, where there is one."""
    if common.file_system(MEMORY) != "tmpfs":
        print(f"a file system in memory is left out: {MEMORY} is none")
        return []
    with common.fresh_folder(MEMORY) as base:
        rows, _ = measure_store(program, base, rounds, count, keys, with_processor=True)
    return [row._replace(what=f"in memory: {row.what}") for row in rows]


def others(base):
    """What stands beside the store: a name, what makes one of it in a folder, and by how much fewer commits it is measured."""
    found = []
    if sqlite3 is None:
        print("sqlite is left out: this Python has no sqlite3")
    else:
        found.append(("sqlite, write-ahead log", lambda: SqliteCommits(common.new_folder(base, "wal"), "WAL"), 1))
        found.append(("sqlite, rollback journal", lambda: SqliteCommits(common.new_folder(base, "journal"), "DELETE"), 1))
    version = git_version()
    if version is None or version < SYNCING_GIT:
        print("git is left out: there is none, or it can't be told to sync all")
    else:
        found.append(("git commit", lambda: GitCommits(common.new_folder(base, "git")), 10))
    return found


def measure_others(base, rounds, count, limit):
    """The rows of the others, beside the time of the bare loop."""
    rows = []
    for name, make, fewer in others(base):
        other = make()
        (its,) = take_turns([other.commit], rounds, max(1, count // fewer))
        other.close()
        os.sync()
        rows.append(Row(name, its, "us", limit))
    return rows


def measure(program, folder=None, rounds=21, count=20, keys=1000):
    """The rows of all."""
    with common.fresh_folder(folder) as base:
        print(f"durable commits in {base} ({common.file_system(base)}), {rounds} turns of {count}")
        rows, limit = measure_store(program, base, rounds, count, keys)
        os.sync()
        rows += measure_others(base, rounds, count, limit)
    return rows + measure_in_memory(program, rounds, count, keys)


def main():
    parser = common.options(__doc__)
    parser.add_argument("--rounds", type=int, default=21, help="turns of each (default: %(default)s)")
    parser.add_argument("--commits", type=int, default=20, help="commits of one turn (default: %(default)s)")
    parser.add_argument("--keys", type=int, default=1000, help="keys of the tree (default: %(default)s)")
    given = common.parsed(parser)
    rows = measure(given.program, given.folder, given.rounds, given.commits, given.keys)
    common.show("one durable commit", rows)


if __name__ == "__main__":
    main()
