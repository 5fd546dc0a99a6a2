#!/usr/bin/env python3
"""What commits append, byte for byte, against a plain writer by docs/FORMAT.md alone.

    bench/batches.py [PROGRAM] [--folder DIR] [--seed N] [--scripts N] [--lines N]

Seeded scripts of edits, grafts, checkouts, further parents and commits, of few paths and few values, so that a commit often finds its
contents in the tree of its first parent or at an earlier path; one directory is a leaf and an inode by turns. Each script is served
in pieces, over one folder. Behind each of them the store's bytes must be those of the plain writer, and what each path of each commit
has must be read. Exit status 1 where it is not, with the folder kept.
"""

import collections
import hashlib
import random
import struct
import sys

import common
import records
from common import Wrong

LEAF, DEEPEST = 32, 51
STEPS, VALUES = ("a", "b", "c"), ("-", "01", "02", "0102", "ab" * 300)

# How many steps the directory `w` may have.
WIDE = 60


def sha256(data):
    return hashlib.sha256(data).digest()


def short(data):
    return bytes([len(data)]) + data


def record(kind, body):
    return bytes([kind]) + struct.pack("<I", len(body)) + body


def place(step, depth):
    return int.from_bytes(sha256(step), "big") >> (251 - 5 * depth) & 31


# What a reference tells: the kind, the height, the name, the offset, and of a part how many entries it has.
class Told:
    def __init__(self, kind, height, name, at, count=0):
        self.kind, self.height, self.name, self.at, self.count = kind, height, name, at, count


class Contents:
    """Bytes, and the offset of the record that is known to hold them, if there is one."""

    def __init__(self, data, at=None):
        self.data, self.at = data, at

    def copy(self):
        return Contents(self.data, self.at)


class Directory:
    """Entries by step, and the offsets of the parts that are known, by the places on the way to them."""

    def __init__(self, entries=None, known=None):
        self.entries, self.known = entries or {}, known or {}

    def copy(self):
        return Directory({step: below.copy() for step, below in self.entries.items()}, dict(self.known))

    def touch(self, step):
        """What an edit at a step leaves known: the parts that are not on the way to it, and are parts still."""
        way = tuple(place(step, depth) for depth in range(DEEPEST))
        self.known = {indexes: at for indexes, at in self.known.items() if indexes != way[: len(indexes)] and self.is_part(indexes)}

    def below(self, indexes):
        return sorted(step for step in self.entries if all(place(step, depth) == index for depth, index in enumerate(indexes)))

    def is_part(self, indexes):
        """Whether there is a part at these places: each above it is an inode."""
        return bool(self.below(indexes)) and all(len(self.below(indexes[:depth])) > LEAF for depth in range(len(indexes)))


def set_at(directory, path, node):
    step, rest = path[0], path[1:]
    if rest:
        below = directory.entries.get(step)
        below = below if isinstance(below, Directory) else Directory()
        set_at(below, rest, node)
        node = below
    directory.entries[step] = node
    directory.touch(step)


def at_path(directory, path):
    node = directory
    for step in path:
        node = node.entries.get(step) if isinstance(node, Directory) else None
    return node


def remove_at(directory, path):
    step, rest = path[0], path[1:]
    if rest:
        below = directory.entries[step]
        remove_at(below, rest)
        if below.entries:
            directory.touch(step)
            return
    del directory.entries[step]
    directory.touch(step)


def contents_of(directory, front=()):
    """All contents with their paths, ascending by path."""
    for step in sorted(directory.entries):
        below = directory.entries[step]
        if isinstance(below, Directory):
            yield from contents_of(below, (*front, step))
        else:
            yield (*front, step), below


class Writer:
    """The records that a plain writer appends."""

    def __init__(self):
        self.data, self.commits, self.heads, self.counts = bytearray(), [], {}, collections.Counter()

    def put(self, kind, body):
        at = len(self.data)
        self.counts[kind] += 1
        self.data += record(kind, body)
        return at

    def write_contents(self, tree, first):
        """New contents: those of the first parent's tree at the same path, or of an earlier path, or a record of their own."""
        written = {}
        for path, node in contents_of(tree):
            if node.at is not None:
                continue
            other = at_path(first, path) if first else None
            if isinstance(other, Contents) and other.data == node.data:
                node.at = other.at
                self.counts["parent"] += 1
                continue
            self.counts["earlier"] += node.data in written
            if node.data not in written:
                written[node.data] = self.put(1, node.data)
            node.at = written[node.data]

    def write_part(self, directory, indexes=()):
        """A part that is not known, behind what is below it. What refers to it."""
        steps = directory.below(indexes)
        if len(steps) <= LEAF or len(indexes) == DEEPEST:
            told = [self.told_below(directory.entries[step]) for step in steps]
            count = struct.pack("<I", len(steps))
            name = sha256(b"\2" + count + b"".join(short(step) + bytes([it.kind]) + it.name for step, it in zip(steps, told)))
            rows = (short(step) + bytes([it.kind, it.height]) + it.name + struct.pack("<Q", it.at) for step, it in zip(steps, told))
            kind, body, height = 2, count + b"".join(rows), max((it.height + 1 for it in told), default=0)
        else:
            places = sorted({place(step, len(indexes)) for step in steps})
            told = [self.write_part(directory, (*indexes, index)) for index in places]
            head = bytes([len(indexes)]) + struct.pack("<I", sum(1 << index for index in places))
            name = sha256(b"\3" + head + b"".join(struct.pack("<I", it.count) + it.name for it in told))
            rows = (struct.pack("<IB", it.count, it.height) + it.name + struct.pack("<Q", it.at) for it in told)
            kind, body, height = 3, head + b"".join(rows), max(it.height for it in told)
        if indexes not in directory.known:
            directory.known[indexes] = self.put(kind, body)
        return Told(2, height, name, directory.known[indexes], len(steps))

    def told_below(self, node):
        if isinstance(node, Directory):
            return self.write_part(node)
        return Told(1, 0, sha256(node.data), node.at)

    def name_of(self, root, parents, date):
        names = b"".join(self.commits[number][0] for number in parents)
        return sha256(b"\4" + root.name + bytes([len(parents)]) + names + struct.pack("<Q", date) + short(b"a") + struct.pack("<H", 1) + b"m")

    def commit(self, tree, parents, branch, date):
        """The commit's name. It is no name of another one: each has its own date."""
        self.write_contents(tree, self.commits[parents[0]][1] if parents else None)
        root = self.write_part(tree)
        number, name = len(self.commits), self.name_of(root, parents, date)
        told = b"".join(struct.pack("<Q", parent) + self.commits[parent][0] for parent in parents)
        body = struct.pack("<Q", number) + root.name + struct.pack("<QB", root.at, len(parents)) + told
        self.put(4, body + struct.pack("<Q", date) + short(b"a") + struct.pack("<H", 1) + b"m")
        self.put(5, struct.pack("<Q", number) + short(branch.encode()))
        self.commits.append((name, tree.copy()))
        self.heads[branch] = number
        return name


class Trial:
    """A script that is drawn line by line, with the reply that each line has."""

    def __init__(self, seed):
        self.draw, self.writer, self.date = random.Random(seed), Writer(), 0
        self.begin()

    def begin(self):
        self.tree, self.parents = Directory(), []

    def path(self):
        if self.draw.random() < 0.5:
            return [b"w", b"k%d" % self.draw.randrange(WIDE)]
        return [step.encode() for step in self.draw.choices(STEPS, k=self.draw.choice((1, 1, 2, 3)))]

    def first_line(self):
        """The first line of a piece: it mostly goes on from a branch."""
        heads = sorted(self.writer.heads)
        return self.checkout(heads) if heads and self.draw.random() < 0.8 else self.line()

    def line(self):
        """The next line and its reply."""
        heads = sorted(self.writer.heads)
        act = self.draw.choices(("set", "rm", "graft", "checkout", "empty", "parent", "commit"), (60, 12, 4, 2, 0.5, 4, 6))[0]
        if act in ("graft", "checkout", "parent") and not heads:
            act = "set"
        return getattr(self, act)(heads)

    def set(self, _):
        path, value = self.path(), self.draw.choice(VALUES)
        if self.parents and self.draw.random() < 0.3:
            path, value = self.of_first_parent(path, value)
        set_at(self.tree, path, Contents(bytes.fromhex(value) if value != "-" else b""))
        return f"set {b'/'.join(path).decode()} {value}", "ok"

    def of_first_parent(self, path, value):
        """One of the contents of the first parent's tree, as they are there, if it has some."""
        found = list(contents_of(self.writer.commits[self.parents[0]][1]))
        if not found:
            return path, value
        path, node = self.draw.choice(found)
        return path, node.data.hex() or "-"

    def rm(self, _):
        path = self.path()
        if self.draw.random() < 0.1:
            path = path[:1]
        line = f"rm {b'/'.join(path).decode()}"
        if at_path(self.tree, path) is None:
            return line, "absent"
        remove_at(self.tree, path)
        return line, "ok"

    def graft(self, heads):
        branch, source, to = self.draw.choice(heads), self.path(), self.path()
        if self.draw.random() < 0.3:
            source = source[:1]
        line = f"graft {branch} {b'/'.join(source).decode()} {b'/'.join(to).decode()}"
        node = at_path(self.writer.commits[self.writer.heads[branch]][1], source)
        if node is None:
            return line, "absent"
        set_at(self.tree, to, node.copy())
        return line, "ok"

    def checkout(self, heads):
        branch = self.draw.choice(heads)
        number = self.writer.heads[branch]
        name, tree = self.writer.commits[number]
        self.tree, self.parents = tree.copy(), [number]
        return f"checkout {branch}", f"at {name.hex()}"

    def empty(self, _):
        self.begin()
        return "empty", "ok"

    def parent(self, heads):
        branch = self.draw.choice(heads)
        number = self.writer.heads[branch]
        if number not in self.parents:
            if len(self.parents) == 16:
                return f"parent {branch}", "limit parents"
            self.parents.append(number)
        return f"parent {branch}", "ok"

    def commit(self, _):
        branch, self.date = self.draw.choice(("main", "main", "dev")), self.date + 1
        line, head = f"commit {branch} {self.date} a m", self.writer.heads.get(branch)
        if head is not None and head not in self.parents:
            return line, f"head-moved {self.writer.commits[head][0].hex()}"
        name = self.writer.commit(self.tree, self.parents, branch, self.date)
        self.parents = [len(self.writer.commits) - 1]
        return line, f"committed {name.hex()}"


def first_other(one, other):
    """The first place at which two differ."""
    for at, (left, right) in enumerate(zip(one, other)):
        if left != right:
            return at
    return min(len(one), len(other))


def compare(folder, trial):
    """The store's bytes are the plain writer's."""
    _, slot = records.live_slot(folder)
    found, wanted = records.suffix(folder, slot), bytes(trial.writer.data)
    if found != wanted:
        raise Wrong(f"the store has {len(found)} bytes and the plain writer {len(wanted)}; they differ at {first_other(found, wanted)}")


def read_back(serve, trial):
    """Each path of the last commits has what it had."""
    for name, tree in trial.writer.commits[-3:]:
        for path, node in contents_of(tree):
            reply = serve.ask(f"cat @{name.hex()} {b'/'.join(path).decode()}")
            if reply != f"value {node.data.hex() or '-'}":
                raise Wrong(f"at {path} of {name.hex()} there is {reply[:80]!r}")


def one(given, base, seed):
    """One script. How many records of each kind it appended, how many contents had none of their own, and how many bytes."""
    folder, trial, lines = common.new_folder(base, f"store-{seed}"), Trial(seed), []
    common.init(given.program, folder, chunk=4096)
    for _ in range(given.lines // 100):
        serve = common.Serve(given.program, folder)
        trial.begin()
        for at in range(100):
            line, wanted = trial.first_line() if at == 0 else trial.line()
            lines.append(line)
            reply = serve.ask(line)
            if reply != wanted:
                raise Wrong(f"`{line[:80]}` is answered {reply[:200]!r}, and not {wanted!r}; it is line {len(lines)} of seed {seed}")
        if serve.end() != (0, ""):
            raise Wrong("serve ended otherwise than with status 0")
        compare(folder, trial)
    serve = common.Serve(given.program, folder)
    read_back(serve, trial)
    serve.end()
    return trial.writer.counts + collections.Counter(bytes=len(trial.writer.data))


def main():
    parser = common.options(__doc__)
    parser.add_argument("--seed", type=int, default=1, help="the first seed (default: %(default)s)")
    parser.add_argument("--scripts", type=int, default=20, help="how many scripts (default: %(default)s)")
    parser.add_argument("--lines", type=int, default=1000, help="lines of each (default: %(default)s)")
    given = common.parsed(parser)
    with common.kept_folder(given.folder) as base:
        counts = collections.Counter()
        for seed in range(given.seed, given.seed + given.scripts):
            try:
                counts += one(given, base, seed)
            except (Wrong, common.Ended, OSError, TimeoutError) as wrong:
                print(f"FAIL  seed {seed}: {wrong}\n  the folder is {base}")
                sys.exit(1)
        print(f"ok    {given.scripts} scripts of {given.lines} lines appended {counts['bytes']} bytes, each as the plain writer has it")
        print(f"ok    {counts[records.COMMIT]} commits, {counts[records.LEAF]} leaves, {counts[records.INODE]} inodes")
        print(f"ok    {counts[1]} new contents were written, {counts['parent']} were the first parent's, {counts['earlier']} an earlier path's")


if __name__ == "__main__":
    main()
