"""What the trials with kills share: seeded lines, moments, and a folder with the model of what it holds. Nothing is run from here."""

import contextlib
import os
import random
import sys
import time

import common
from common import Wrong
from model import Model

STEPS = ["a", "b", "c", "d", "e", "f", "g", "lines"]
BRANCHES = ["main", "dev", "old", "x", "y"]
DURABLE = ("commit", "merge", "branch", "branch-rm", "collect", "look", "finish")
WRITTEN = ("ok", "committed", "merged", "forward", "started", "collected")

# Bytes of a large value.
LARGE = 300000

# How many of the older commits are asked for in a round, and of how many the history is asked for in the end.
OLDER = 3
HISTORIES = 100

# So many places of a tree are asked for at most.
PLACES = 400

# So many seconds a child may go on that was left behind.
CHILD = 60


# Lines


def draw_path(draw):
    return "/".join(draw.choices(STEPS, k=draw.randint(1, 3)))


def draw_value(draw):
    """Mostly a few bytes, at times none or many."""
    kind = draw.random()
    if kind < 0.05:
        return "-"
    return draw.randbytes(draw.randint(1, LARGE) if kind > 0.97 else draw.randint(1, 40)).hex()


def draw_ref(draw, model):
    """A branch, mostly one that is there, or a commit."""
    if model.commits and draw.random() < 0.2:
        return "@" + draw.choice(model.retained()).name
    return draw_branch_there(draw, model)


def draw_branch_there(draw, model):
    """A branch, mostly one that is there."""
    there = sorted(model.branches)
    return draw.choice(there if there and draw.random() < 0.9 else BRANCHES)


def draw_branch(draw, model):
    """A branch for a commit, mostly one that is at a parent of the work, or nowhere."""
    fitting = [name for name in BRANCHES if model.branches.get(name) in (None, *model.parents)]
    return draw.choice(fitting if fitting and draw.random() < 0.8 else BRANCHES)


def draw_line(draw, model, tag):
    """A line that may do something to this model. The tag makes its commit one of its own."""
    kind = draw.choices(
        ["set", "rm", "commit", "merge", "branch", "branch-rm", "checkout", "parent", "get"], [30, 4, 30, 12, 8, 4, 8, 3, 3]
    )[0]
    if kind == "set":
        return f"set {draw_path(draw)} {draw_value(draw)}"
    if kind == "commit":
        return f"commit {draw_branch(draw, model)} {draw.randrange(2 ** 64)} someone {tag}"
    if kind == "merge":
        return f"merge {draw_ref(draw, model)} {draw_branch_there(draw, model)} {draw.randrange(2 ** 64)} someone {tag}"
    if kind == "branch":
        return f"branch {draw.choice(BRANCHES)} {draw_ref(draw, model)}"
    if kind == "branch-rm":
        return f"branch-rm {draw.choice(BRANCHES)}"
    if kind in ("checkout", "parent"):
        return f"{kind} {draw_ref(draw, model)}"
    return f"{kind} {draw_path(draw)}"


def writes(line, reply):
    """Whether a line that is answered so has changed the files."""
    return line.split(" ")[0] in DURABLE and reply.split(" ")[0] in WRITTEN


# Moments


class Clock:
    """How long a line took so far, one that writes, and such a one by its first word: the mean of what was seen, late ones weighing more."""

    def __init__(self):
        self.means = {}

    def note(self, what, took):
        self.means[what] = 0.8 * self.means.get(what, took) + 0.2 * took

    @property
    def line(self):
        return self.means.get("any", 0)

    @property
    def write(self):
        return self.means.get("write", 0)

    def of(self, line):
        """How long one like this takes that writes."""
        return self.means.get(line.split(" ")[0], self.write)

    def ask(self, serve, line):
        """Asks, and notes how long it took."""
        start = time.perf_counter()
        reply = serve.ask(line)
        took = time.perf_counter() - start
        self.note("any", took)
        if writes(line, reply):
            self.note("write", took)
            self.note(line.split(" ")[0], took)
        return reply


def spin(seconds):
    """Waits by looking at the clock, since sleeping takes too long."""
    until = time.perf_counter() + seconds
    while time.perf_counter() < until:
        pass


def write_all(serve, lines):
    """Writes all lines, or as many as the program lives to take."""
    try:
        serve.send("".join(line + "\n" for line in lines).encode("latin-1"))
    except OSError:
        pass


def must_be(ended, status):
    if ended[0] != status:
        raise Wrong(f"the program ended with status {ended[0]} and {ended[1]!r}, and not {status}")


# Children


def child_of(process):
    """The number of the process that this one started, if it has any."""
    with contextlib.suppress(OSError):
        with open(f"/proc/{process}/task/{process}/children") as file:
            return next(iter([int(word) for word in file.read().split()]), None)
    return next((number for number, parent in parents() if parent == process), None)


def parents():
    """The numbers of all processes, each with its parent's."""
    for word in os.listdir("/proc"):
        if word.isdigit():
            with contextlib.suppress(OSError):
                with open(f"/proc/{word}/stat") as file:
                    yield int(word), int(file.read().rpartition(")")[2].split()[1])


def is_ended(process):
    """Whether a process has ended, waited for or not."""
    try:
        with open(f"/proc/{process}/stat") as file:
            return file.read().rpartition(")")[2].split()[0] in ("Z", "X")
    except OSError:
        return True


def workers(folder):
    """The attempts whose children run over this folder; None among them where one has not begun."""
    for word in os.listdir("/proc"):
        if word.isdigit():
            with contextlib.suppress(OSError):
                with open(f"/proc/{word}/cmdline", "rb") as file:
                    words = file.read().decode("latin-1").split("\0")
                if folder in words and not is_ended(int(word)):
                    yield int(words[3]) if words[1] == "worker" else None


def ended(process):
    """Waits until a process that is none of ours has ended."""
    until = time.monotonic() + CHILD
    while not is_ended(process):
        if time.monotonic() > until:
            raise Wrong(f"the child {process} has not ended within {CHILD} s")
        time.sleep(0.001)


# The folder and its model


class Trial:
    """One folder, its model, and what was seen."""

    def __init__(self, program, folder, seed):
        self.program, self.folder = program, folder
        self.draw = random.Random(seed)
        self.clock = Clock()
        self.model = Model()
        # the model as it would be if the line that was cut short was done
        self.other = None
        # the commits from this number on were not asked for yet
        self.asked = 0
        self.seen = dict.fromkeys(["acknowledged", "written", "done", "undone", "opened", "contents", "shown"], 0)

    def open(self):
        self.seen["opened"] += 1
        return common.Serve(self.program, self.folder)

    def expect(self, serve, line):
        """Asks for what the model says."""
        wanted = self.model.reply(line)
        got = serve.ask(line)
        if got != wanted:
            raise Wrong(f"`{line}` is answered\n      {got[:300]}\n  and not\n      {wanted[:300]}")

    def settle(self, serve):
        """Tells which of the two models the store holds."""
        held = [serve.ask("stat"), serve.ask("branches")]
        choices = [self.model] if self.other is None else [self.model, self.other]
        for at, model in enumerate(choices):
            model.reopen()
            if held == [model.reply("stat"), model.reply("branches")]:
                if self.other is not None:
                    self.seen[("undone", "done")[at]] += 1
                self.model, self.other = model, None
                return
        wanted = [model.reply(line) for model in choices for line in ("stat", "branches")]
        raise Wrong("the store holds\n      " + "\n      ".join(held) + "\n  and neither of\n      " + "\n      ".join(wanted))

    def ask_commit(self, serve, commit):
        """The fields of a commit, and its tree by `cat` and `list`."""
        ref = "@" + commit.name
        self.expect(serve, f"show {ref}")
        self.seen["shown"] += 1
        places = {path[:depth] for path in commit.tree for depth in range(1, len(path))}
        paths = list(commit.tree) + sorted(places)
        for path in paths if len(paths) <= PLACES else self.draw.sample(paths, PLACES):
            self.expect(serve, f"cat {ref} {'/'.join(path)}")
            self.seen["contents"] += 1
        self.expect(serve, f"cat {ref} none/such")
        self.expect(serve, f"checkout {ref}")
        for place in [()] + sorted(places):
            self.expect(serve, f"list {'/'.join(place) or '/'}")

    def ask_new(self, serve):
        """What is new since this was asked last, some older commits, and the history of each branch."""
        floor, end = self.model.floor, len(self.model.commits)
        new = max(self.asked, floor)
        old = self.model.commits[floor:new]
        for commit in self.model.commits[new:] + self.draw.sample(old, min(OLDER, len(old))):
            self.ask_commit(serve, commit)
        self.asked = end
        for name in sorted(self.model.branches):
            self.expect(serve, f"log {name}")
            self.expect(serve, f"show {name}")
        self.expect(serve, "empty")

    def ask_all(self, serve):
        """Each commit that is retained, and the history of some."""
        retained = self.model.retained()
        for commit in retained:
            self.ask_commit(serve, commit)
        for commit in self.draw.sample(retained, min(HISTORIES, len(retained))):
            self.expect(serve, f"log @{commit.name}")

    def kill_opening(self):
        """Kills a program that opens the store."""
        start = time.perf_counter()
        serve = self.open()
        serve.ask("stat")
        took = time.perf_counter() - start
        must_be(serve.end(), 0)
        serve = self.open()
        spin(self.draw.random() * took)
        serve.kill()
        must_be(serve.waited(), -9)

    def last(self):
        """All that the store holds in the end."""
        serve = self.open()
        self.settle(serve)
        self.ask_all(serve)
        must_be(serve.end(), 0)


# A whole trial


def all_rounds(test, count):
    """So many rounds, and what is asked in the end."""
    for turn in range(1, count + 1):
        try:
            test.round(turn)
        except (Wrong, common.Ended, OSError, TimeoutError) as wrong:
            raise Wrong(f"round {turn}: {wrong}") from wrong
    test.last()


def report(test, rounds):
    """One line for each check that all trials make."""
    seen = test.seen
    print(f"ok    opened {seen['opened']} times over {rounds} rounds, and never damaged")
    print(f"ok    {seen['acknowledged']} replies were those of the model, {seen['written']} of them to lines that had written; none was lost")
    print(f"ok    of lines that write and were cut short, {seen['done']} were done and {seen['undone']} were not; nothing else was")


def tried(folder, seed, act):
    """What this does in a fresh folder, which is kept where it fails."""
    with common.kept_folder(folder) as place:
        try:
            return act(place)
        except (Wrong, common.Ended, OSError, TimeoutError) as wrong:
            print(f"FAIL  seed {seed}, {wrong}\n  the folder is {place}")
            sys.exit(1)
