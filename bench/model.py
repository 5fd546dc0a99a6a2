"""A plain model of a store, for the tests of this folder: what each line is answered, with the names of docs/FORMAT.md. It knows
the lines that the tests give, and merges by the program's rules or by others. Of a collection it knows what it may be answered:
how far its child is, and whether that was killed, the caller tells by the reply that was heard (`Model.takes`)."""

import hashlib
import re
import struct

# The greatest number of bytes that contents may have.
CONTENTS = 1048576


def sha(data):
    return hashlib.sha256(data).digest()


def short(text):
    """A short text of a name."""
    return bytes([len(text)]) + text.encode("latin-1")


def steps_of(path):
    return tuple(path.split("/"))


def is_under(path, place):
    """Whether a path is a place or stands under it."""
    return path[: len(place)] == place


def placed(tree, path, data):
    """The tree with bytes at a path: what stood under it, and contents on the way to it, are gone."""
    kept = {other: its for other, its in tree.items() if not is_under(other, path) and not is_under(path, other)}
    kept[path] = data
    return kept


def without(tree, path):
    """The tree without all that stands under a path."""
    return {other: its for other, its in tree.items() if not is_under(other, path)}


def entries(tree, place):
    """The entries of the directory at a place: of each step, whether it leads to a directory."""
    depth = len(place)
    return {path[depth]: len(path) > depth + 1 for path in tree if len(path) > depth and is_under(path, place)}


def part_name(told, depth=0):
    """The name of a part of a directory, of which each step is told with what it leads to: a leaf, or an inode over its children."""
    if len(told) <= 32 or depth == 51:
        entries = b"".join(short(step) + told[step] for step in sorted(told))
        return sha(b"\x02" + struct.pack("<I", len(told)) + entries)
    children = {}
    for step in told:
        place = int.from_bytes(sha(step.encode("latin-1")), "big") >> (251 - 5 * depth) & 31
        children.setdefault(place, {})[step] = told[step]
    bitmap = sum(1 << place for place in children)
    below = b"".join(struct.pack("<I", len(children[place])) + part_name(children[place], depth + 1) for place in sorted(children))
    return sha(b"\x03" + bytes([depth]) + struct.pack("<I", bitmap) + below)


def root_name(tree, place=()):
    """The name of the directory at a place."""
    told = {}
    for step, directory in entries(tree, place).items():
        told[step] = b"\x02" + root_name(tree, place + (step,)) if directory else b"\x01" + sha(tree[place + (step,)])
    return part_name(told)


def said(tree, path):
    """The reply to `get` of a path."""
    if path in tree:
        return "value " + (tree[path].hex() or "-")
    found = entries(tree, path)
    return f"dir {len(found)}" if found else "absent"


def listed(tree, place):
    """The reply to `list` of a place."""
    if place in tree:
        return "contents"
    found = entries(tree, place)
    if place and not found:
        return "absent"
    return " ".join([f"list {len(found)}"] + [("d:" if found[step] else "c:") + step for step in sorted(found)])


def bytes_of(word):
    return b"" if word == "-" else bytes.fromhex(word)


class Conflict(Exception):
    """A merger has no answer."""


def number_of(data):
    """The number that some bytes spell."""
    if not re.fullmatch(rb"0|-?[1-9][0-9]*", data) or not -(2**63) <= int(data) < 2**63:
        raise Conflict
    return int(data)


def counted(base, left, right):
    """Numbers: what both sides add to the ancestor's, which counts 0 where there is none."""
    if left is None or right is None:
        raise Conflict
    total = number_of(left) + number_of(right) - number_of(b"0" if base is None else base)
    if not -(2**63) <= total < 2**63:
        raise Conflict
    return b"%d" % total


def lines_of(data):
    return set(data.removesuffix(b"\n").split(b"\n")) if data else set()


def joined(base, left, right):
    """Sets of lines: those of both sides, and those of one that the ancestor has not."""
    if left is None or right is None:
        raise Conflict
    old, one, other = lines_of(base or b""), lines_of(left), lines_of(right)
    return b"".join(line + b"\n" for line in sorted((one & other) | ((one | other) - old)))


def unmerged(base, left, right):
    """Sides that differ conflict."""
    raise Conflict


# The program's rules: each is for the path and all under it.
PROGRAM = {("count",): counted, ("lines",): joined}


def rule_of(rules, path):
    """The rule of the longest path that is this one or lies above it."""
    for depth in range(len(path), -1, -1):
        if path[:depth] in rules:
            return rules[path[:depth]]
    return unmerged


def decided(rules, path, base, left, right):
    """What a merge has at a path."""
    if left == right or right == base:
        return left
    if left == base:
        return right
    return rule_of(rules, path)(base, left, right)


def merged(rules, base, left, right):
    """The merge of two trees, or the least path that conflicts."""
    tree, conflicts = {}, []
    for path in sorted(set(base) | set(left) | set(right)):
        try:
            value = decided(rules, path, base.get(path), left.get(path), right.get(path))
        except Conflict:
            conflicts.append(path)
        else:
            if value is not None:
                tree[path] = value
    conflicts += {path[:depth] for path in tree for depth in range(1, len(path))} & set(tree)
    return tree, min(conflicts, default=None)


class Commit:
    """A commit: its number, its name, and what is named by it."""

    def __init__(self, number, tree, parents, date, author, message):
        self.number, self.tree, self.parents = number, tree, parents
        self.date, self.author, self.message = date, author, message
        self.root = root_name(tree)
        self.name = sha(self.text()).hex()

    def text(self):
        """What the name is the SHA-256 of."""
        parents = b"".join(bytes.fromhex(parent.name) for parent in self.parents)
        message = self.message.encode("latin-1")
        return (
            b"\x04" + self.root + bytes([len(self.parents)]) + parents + struct.pack("<Q", self.date)
            + short(self.author) + struct.pack("<H", len(message)) + message
        )

    def shown(self):
        """The reply to `show`."""
        words = ["commit", self.name, str(self.number), self.root.hex(), str(self.date), self.author, str(len(self.parents))]
        return " ".join(words + [parent.name for parent in self.parents] + [self.message])

    def ancestors(self, floor=0):
        """The commit and its ancestors of this number and more, descending by number."""
        seen, left = {}, [self]
        while left:
            commit = left.pop()
            if commit.number not in seen and commit.number >= floor:
                seen[commit.number] = commit
                left += commit.parents
        return [seen[number] for number in sorted(seen, reverse=True)]


class Refused(Exception):
    """A line is refused, with this reply."""


class Model:
    """A store and its work. Its list of commits has those that were given up too, which are below the floor."""

    def __init__(self, rules=PROGRAM):
        self.rules = rules
        self.commits = []
        self.names = {}
        self.branches = {}
        self.floor = 0
        self.reopen()

    def copy(self):
        """A model that goes its own way."""
        other = Model(self.rules)
        other.commits, other.names, other.branches = list(self.commits), dict(self.names), dict(self.branches)
        other.floor, other.collecting = self.floor, self.collecting
        other.tree, other.parents, other.least = self.tree, self.parents, self.least
        return other

    def forget_work(self):
        """The work is the empty one."""
        self.tree, self.parents, self.least = {}, [], None

    def reopen(self):
        """The store is opened anew: its work is empty, and no collection runs."""
        self.forget_work()
        self.collecting = None

    def retained(self):
        """The commits that are not given up."""
        return self.commits[self.floor :]

    def take_from(self, commit):
        """The work takes from a commit."""
        self.least = commit.number if self.least is None else min(self.least, commit.number)

    def must_be_kept(self):
        """A work that took from commits which are given up is refused."""
        if self.least is not None and self.least < self.floor:
            raise Refused(f"given-up {self.least}")

    def must_not_leave(self, number):
        """Nothing is made that takes from a commit which a collection that runs will give up."""
        if self.collecting is not None and number is not None and number < self.collecting.number:
            raise Refused(f"leaving {number}")

    def reply(self, line):
        """What a line is answered; it is done."""
        word, *rest = line.split(" ")
        try:
            return getattr(self, "do_" + word.replace("-", "_"))(*rest)
        except Refused as refused:
            return str(refused)

    def at(self, ref):
        """The commit that a REF names."""
        if ref.startswith("@"):
            if ref[1:] not in self.names:
                raise Refused("no-commit " + ref[1:])
            return self.names[ref[1:]]
        if ref not in self.branches:
            raise Refused("no-branch " + ref)
        return self.branches[ref]

    def do_empty(self):
        self.forget_work()
        return "ok"

    def do_checkout(self, ref):
        commit = self.at(ref)
        self.tree, self.parents, self.least = commit.tree, [commit], commit.number
        return "at " + commit.name

    def do_parent(self, ref):
        self.must_be_kept()
        commit = self.at(ref)
        if commit not in self.parents:
            if len(self.parents) == 16:
                raise Refused("limit parents")
            self.parents = self.parents + [commit]
            self.take_from(commit)
        return "ok"

    def do_set(self, path, word):
        self.must_be_kept()
        self.tree = placed(self.tree, steps_of(path), bytes_of(word))
        return "ok"

    def do_rm(self, path):
        self.must_be_kept()
        if said(self.tree, steps_of(path)) == "absent":
            raise Refused("absent")
        self.tree = without(self.tree, steps_of(path))
        return "ok"

    def do_graft(self, ref, place, target):
        self.must_be_kept()
        source, target = () if place == "/" else steps_of(place), steps_of(target)
        commit = self.at(ref)
        found = {target + path[len(source):]: its for path, its in commit.tree.items() if is_under(path, source)}
        if not found:
            raise Refused("absent")
        if max(map(len, found)) > 64:
            raise Refused("limit depth")
        self.tree = {path: its for path, its in self.tree.items() if not is_under(path, target) and not is_under(target, path)} | found
        self.take_from(commit)
        return "ok"

    def do_get(self, path):
        self.must_be_kept()
        return said(self.tree, steps_of(path))

    def do_list(self, place):
        self.must_be_kept()
        return listed(self.tree, () if place == "/" else steps_of(place))

    def do_cat(self, ref, path):
        return said(self.at(ref).tree, steps_of(path))

    def do_commit(self, branch, date, author, *message):
        self.must_be_kept()
        head = self.branches.get(branch)
        if head is not None and head not in self.parents:
            raise Refused("head-moved " + head.name)
        self.must_not_leave(self.least)
        commit = self.add(branch, Commit(len(self.commits), self.tree, self.parents, int(date), author, " ".join(message)))
        self.parents, self.least = [commit], commit.number
        return "committed " + commit.name

    def do_lcas(self, one, other):
        found = self.bases(self.at(one), self.at(other))
        return " ".join([f"lcas {len(found)}"] + [commit.name for commit in found])

    def bases(self, one, other):
        """The least common ancestors of two commits, ascending by number."""
        others = other.ancestors(self.floor)
        common = [commit for commit in one.ancestors(self.floor) if commit in others]
        above = {commit for below in common for commit in below.ancestors(self.floor) if commit is not below}
        return [commit for commit in reversed(common) if commit not in above]

    def do_merge(self, ref, branch, date, author, *message):
        commit = self.at(ref)
        head = self.at(branch)
        if commit in head.ancestors(self.floor):
            return "current " + head.name
        if head in commit.ancestors(self.floor):
            self.branches[branch] = commit
            return "forward " + commit.name
        self.must_not_leave(commit.number)
        bases = self.bases(head, commit)
        if len(bases) > 1:
            raise Refused(f"bases {len(bases)}")
        tree, conflict = merged(self.rules, bases[0].tree if bases else {}, head.tree, commit.tree)
        if conflict is not None:
            raise Refused("conflict " + "/".join(conflict))
        if any(len(its) > CONTENTS for its in tree.values()):
            raise Refused("limit contents")
        return "merged " + self.add(branch, Commit(len(self.commits), tree, [head, commit], int(date), author, " ".join(message))).name

    def add(self, branch, commit):
        """Puts a branch at a new commit."""
        if commit.name in self.names:
            raise Refused("existing " + commit.name)
        self.commits.append(commit)
        self.names[commit.name] = self.branches[branch] = commit
        return commit

    def do_branch(self, name, ref):
        commit = self.at(ref)
        self.must_not_leave(commit.number)
        self.branches[name] = commit
        return "ok"

    def do_branch_rm(self, name):
        self.at(name)
        del self.branches[name]
        return "ok"

    def do_branches(self):
        rows = [f"{name} {self.branches[name].name}" for name in sorted(self.branches)]
        return " ".join([f"branches {len(rows)}"] + rows)

    def do_show(self, ref):
        return self.at(ref).shown()

    def do_log(self, ref):
        found = self.at(ref).ancestors(self.floor)
        return " ".join([f"log {len(found)}"] + [commit.name for commit in found])

    def do_stat(self):
        phase = "idle" if self.collecting is None else f"at {self.collecting.number}"
        return f"stat {self.floor} {len(self.commits)} {len(self.branches)} {phase}"

    def do_collect(self, ref):
        if self.collecting is not None:
            raise Refused("busy " + self.collecting.name)
        commit = self.at(ref)
        for name in sorted(self.branches):
            if self.branches[name].number < commit.number:
                raise Refused("held " + name)
        self.collecting = commit
        return "started " + commit.name

    def do_look(self):
        """The reply where the child has ended well and all is compared by one look."""
        return self.do_finish()

    def do_finish(self):
        """The reply where the child has ended well."""
        if self.collecting is None:
            raise Refused("idle")
        for commit in self.commits[self.floor : self.collecting.number]:
            self.names.pop(commit.name, None)
        self.floor, self.collecting = self.collecting.number, None
        return f"collected {self.floor}"

    def do_cancel(self):
        if self.collecting is None:
            raise Refused("idle")
        self.collecting = None
        return "cancelled"

    def takes(self, line, reply, killed=False):
        """Whether a line may be answered so, where the child of the collection that runs may have been killed; it is done as that says."""
        if line in ("look", "finish") and self.collecting is not None:
            if line == "look" and (reply == "running" or reply.startswith("checking ")):
                return True
            if killed and reply == "rejected exit signal":
                self.collecting = None
                return True
        return self.reply(line) == reply
