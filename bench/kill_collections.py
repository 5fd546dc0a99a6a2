#!/usr/bin/env python3
"""Kills `ipstore serve`, the child of its collection, or both, at seeded moments, over one folder, and goes on: no acknowledged command is lost.

    bench/kill_collections.py [PROGRAM] [--folder DIR] [--rounds N] [--seed N] [--chunk BYTES] [--paths N] [--generations N]

Each round opens the store, asks it for what it holds, and gives it seeded lines, `collect`, `look`, `finish` and `cancel` among them. It
kills (SIGKILL) the program as `kill.py` does, within one of those lines too; or its child, behind which `finish` must be answered
`rejected exit signal` where the child had not left its done file, and the program goes on; or both. Or the child is stopped, the program
killed, and the child let go on while the store is opened again and collected anew: that collection must end well. What the store holds
when it is opened again must be what a plain model (`model.py`) holds after the lines that were answered, or after one more, and the folder
must hold no file that docs/DISK.md does not allow; behind a `collected` only what is served, and what such a left child may write. The
first commit has a directory of so many paths that a check of what the child left takes several looks.

Then, over a fresh folder, so many generations one after the other: in the end it must hold `control`, the chunks from the horizon's on
and the live pair, and nothing else.

The seed fixes the kind of each moment, and the lines as far as replies do not decide them; the moments themselves follow the machine's
time. Exit status 0, or 1 with the folder kept.
"""

import collections
import contextlib
import os
import random
import signal
import threading
import time

import common
import killing
import records
from killing import Wrong, child_of, ended, is_ended, must_be, spin, workers, write_all, writes
from model import Model

# Lines of a round at most.
LINES = 40

# Each kind of round: the program is killed after some time, behind some number of replies, within one line, or while it opens the store;
# its child is killed; both are; or the child is left behind.
KINDS = ["time", "replies", "within", "opening", "child", "both", "left"]
WEIGHTS = [3, 2, 6, 1, 4, 3, 4]


# Lines


def collectable(draw, model):
    """A commit that may be collected at, mostly."""
    least = min([commit.number for commit in model.branches.values()], default=len(model.commits) - 1)
    retained = model.commits[model.floor : least + 1]
    if not retained or draw.random() < 0.1:
        return killing.draw_ref(draw, model)
    return "@" + draw.choice(retained[-8:]).name


def draw_lines(draw, model, tag):
    """A line or a few, which may do something to this model."""
    kind = draw.choices(["other", "collect", "look", "finish", "cancel", "stat", "gone"], [70, 9, 8, 6, 2, 3, 2])[0]
    if kind == "other":
        return [killing.draw_line(draw, model, tag)]
    if kind == "gone":
        return [f"show @{draw.choice(model.commits).name}" if model.commits else "branches"]
    if kind != "collect":
        return [kind]
    lines = []
    if model.branches and draw.random() < 0.5:
        # The branch that is furthest behind holds a collection up.
        behind = min(sorted(model.branches), key=lambda name: model.branches[name].number)
        lines.append(draw.choice([f"branch-rm {behind}", f"branch {behind} {killing.draw_branch_there(draw, model)}"]))
    return lines + [f"collect {collectable(draw, model)}"]


def guessed(model, line):
    """What a line is answered where a child has not ended when it is looked at; it is done."""
    if line == "look" and model.collecting is not None:
        return "running"
    return model.reply(line)


def draw_script(draw, model, turn):
    """Lines, and a guess at what each is answered, from this model on, which stays."""
    model = model.copy()
    lines, guesses = [], []
    wanted = draw.randint(10, LINES)
    while len(lines) < wanted:
        for line in draw_lines(draw, model, f"round {turn} line {len(lines)}") if lines else [f"checkout {killing.draw_ref(draw, model)}"]:
            lines.append(line)
            guesses.append(guessed(model, line))
    return lines, guesses


# The trial


class Test(killing.Trial):
    """Rounds over one folder."""

    def __init__(self, program, folder, seed):
        super().__init__(program, folder, seed)
        # how long a child takes to its done file
        self.child_takes = 0
        # whether the child that is held was killed, and whether that was before it had left its done file
        self.killed = self.cut = False
        # the attempts that nobody waited for, and the children of such that are stopped
        self.lost, self.stopped = set(), []
        # attempts that were drawn, and how far chunks may reach past the end
        self.drawn, self.reach = 0, 0
        self.seen.update(dict.fromkeys(["left", "files"], 0))
        # the first words of replies
        self.words = collections.Counter()

    # what a reply is

    def hear(self, line, reply):
        """Goes on by a line that was answered so."""
        if not self.model.takes(line, reply, self.killed):
            wanted = self.model.copy().reply(line)
            raise Wrong(f"`{line[:200]}` was answered {reply[:300]!r}, and not {wanted[:300]!r}")
        if self.cut and reply.startswith("collected "):
            raise Wrong(f"`{line}` was answered {reply!r} behind a child that was killed before it was through")
        self.seen["acknowledged"] += 1
        self.seen["written"] += writes(line, reply)
        word = reply.split()[0]
        self.words[word] += 1
        self.drawn += word == "started"
        if word in ("started", "collected", "rejected", "cancelled"):
            self.killed = self.cut = False

    def ask(self, serve, line):
        reply = self.clock.ask(serve, line)
        self.hear(line, reply)
        return reply

    def is_cut_short(self, line):
        """The program was killed behind the replies that were heard: the next line may be done."""
        after = self.model.copy()
        if writes(line, after.reply(line)):
            self.other = after

    def is_gone(self):
        """The program has ended: its child, if one is held, is waited for by nobody."""
        _, slot = records.live_slot(self.folder)
        may_run = [model for model in (self.model, self.other) if model is not None and model.collecting is not None]
        if may_run or slot.attempt - 1 > self.drawn:
            self.lost.add(slot.attempt - 1)
        if not self.drawn <= slot.attempt - 1 <= self.drawn + (self.other is not None):
            raise Wrong(f"{slot.attempt - 1} attempts were drawn, and {self.drawn} were acknowledged")
        self.drawn = slot.attempt - 1
        self.killed = self.cut = False

    def look_at_files(self, swept=False):
        """The folder holds what it must, and nothing that it may not: where it was swept just now, nothing that nobody needs."""
        _, slot = records.live_slot(self.folder)
        if swept:
            slot = slot._replace(first_chunk=slot.horizon // slot.chunk, first_attempt=slot.live or slot.attempt)
        strange = records.strange_files(self.folder, self.lost, self.reach, slot)
        if strange:
            raise Wrong(f"of the folder: {', '.join(strange[:10])}; lost are the attempts {sorted(self.lost)}, the slot is {slot}")
        self.seen["files"] += 1

    def forget_ended(self):
        """Of an attempt whose child has ended nothing new is left: what is there goes by the next sweep, or was written behind its own."""
        running = set(workers(self.folder))
        if None in running:
            return
        _, slot = records.live_slot(self.folder)
        held = {name.rpartition(".")[2] for name in os.listdir(self.folder) if not name.startswith("chunk")}
        self.lost = {n for n in self.lost if n in running or (n < slot.first_attempt and str(n) in held)}

    # rounds

    def begin(self, turn):
        """Opens the store, and asks what it holds; lines for it, with guesses."""
        if self.stopped and self.draw.random() < 0.5:
            self.go_on(self.stopped[0])
        self.forget_ended()
        self.look_at_files()
        serve = self.open()
        self.settle(serve)
        self.ask_new(serve)
        lines, guesses = draw_script(self.draw, self.model, turn)
        _, slot = records.live_slot(self.folder)
        self.reach = max(self.reach, slot.end + sum(map(len, lines)) + slot.chunk * len(lines))
        return serve, lines, guesses

    def finish_killed(self, serve, replies, lines):
        """The program was killed: goes on by what it had said."""
        must_be(serve.waited(), -signal.SIGKILL)
        for line, reply in zip(lines, replies + [line.decode("latin-1") for line in serve.lines]):
            self.hear(line, reply)
            lines = lines[1:]
        if lines:
            self.is_cut_short(lines[0])
        self.is_gone()

    def within(self, serve, lines, guesses):
        """Line by line up to one that writes, or speaks to a child, and a kill while this one is run."""
        places = [at for at, line in enumerate(lines) if writes(line, guesses[at]) or line in ("look", "finish", "cancel")]
        spoken = [at for at in places if lines[at].split()[0] in ("collect", "look", "finish", "cancel")]
        place = self.draw.choice(spoken if spoken and self.draw.random() < 0.7 else places or [len(lines) - 1])
        for line in lines[:place]:
            self.ask(serve, line)
        write_all(serve, lines[place : place + 1])
        part = self.draw.choice([self.draw.uniform(0, 1.2), self.draw.uniform(0.7, 1.1)])
        spin(part * self.clock.of(lines[place]))
        serve.kill()
        self.finish_killed(serve, [], lines[place : place + 1])

    def between(self, serve, lines, kind):
        """All lines at once, and a kill after some time, or behind some number of replies."""
        writer = threading.Thread(target=write_all, args=(serve, lines))
        writer.start()
        replies = []
        if kind == "replies":
            replies = [serve.reply() for _ in range(self.draw.randint(0, len(lines) - 1))]
        else:
            time.sleep(self.draw.random() * len(lines) * self.clock.line)
        serve.kill()
        writer.join()
        self.finish_killed(serve, replies, lines)

    def kill_child(self, serve):
        """Kills the child of the collection that runs, at some moment of its time."""
        spin(self.draw.choice([0, self.draw.uniform(0, 1.3)]) * self.child_takes)
        child = child_of(serve.process.pid)
        if child is None:
            raise Wrong("a collection runs, and the program has no child")
        os.kill(child, signal.SIGKILL)
        ended(child)
        self.killed = True
        self.cut = not os.path.exists(os.path.join(self.folder, f"done.{self.drawn}"))

    def child(self, serve, lines, both):
        """Line by line, each child that is started being killed; and the program in the end, or behind the child."""
        last = self.draw.randrange(len(lines)) if both else len(lines)
        for at, line in enumerate(lines):
            reply = self.ask(serve, line)
            if reply.startswith("started "):
                if self.draw.random() < 0.8:
                    self.kill_child(serve)
                if both and at >= last:
                    break
            if reply.startswith("collected "):
                self.look_at_files(swept=True)
        if not both:
            if self.model.collecting is not None:
                self.ask(serve, "finish")
            self.expect(serve, "stat")
            must_be(serve.end(), 0)
            self.is_gone()
            return
        serve.kill()
        self.finish_killed(serve, [], [])

    def left(self, serve, turn):
        """A child that is left behind by a program that is killed goes on while the store is collected anew."""
        if not self.model.commits:
            serve.kill()
            self.finish_killed(serve, [], [])
            return
        if not self.started_somewhere(serve):
            return
        child = child_of(serve.process.pid)
        spin(self.draw.choice([0, self.draw.uniform(0, 1.3)]) * self.child_takes)
        os.kill(child, signal.SIGSTOP)
        self.stopped.append(child)
        serve.kill()
        self.finish_killed(serve, [], [])
        self.seen["left"] += not is_ended(child)
        serve, lines, _ = self.begin(turn)
        # It goes on before the new collection, as this begins, before it is finished, or in some later round.
        moment = self.draw.randrange(4)
        if moment == 0:
            self.go_on(child)
        if not self.started_somewhere(serve):
            return
        if moment == 1:
            self.go_on(child)
        for line in lines[: self.draw.randrange(8)]:
            if line.split()[0] not in ("collect", "look", "finish", "cancel"):
                self.ask(serve, line)
        if moment == 2:
            self.go_on(child)
        self.ask(serve, "finish")
        self.look_at_files(swept=True)
        self.expect(serve, "stat")
        must_be(serve.end(), 0)
        self.is_gone()

    def started_somewhere(self, serve):
        """Begins a collection at a commit that no branch is behind. False, and the program killed, where it was refused."""
        for line in [f"collect {collectable(self.draw, self.model)}" for _ in range(3)]:
            if self.ask(serve, line).startswith("started "):
                return True
        serve.kill()
        self.finish_killed(serve, [], [])
        return False

    def go_on(self, child):
        """Lets a child go on that was stopped, and at times waits until it has ended."""
        if child in self.stopped:
            self.stopped.remove(child)
        with contextlib.suppress(ProcessLookupError):
            os.kill(child, signal.SIGCONT)
        if self.draw.random() < 0.5:
            ended(child)

    def round(self, turn):
        """One round."""
        kind = self.draw.choices(KINDS, WEIGHTS)[0]
        if kind == "opening":
            self.look_at_files()
            self.kill_opening()
            return
        serve, lines, guesses = self.begin(turn)
        if kind == "within":
            self.within(serve, lines, guesses)
        elif kind in ("time", "replies"):
            self.between(serve, lines, kind)
        elif kind == "left":
            self.left(serve, turn)
        else:
            self.child(serve, lines, kind == "both")

    def measure(self, paths):
        """A round that nobody kills: how long its lines take, and a child. The tree that all begins with has so many paths."""
        serve = self.open()
        wide = [f"set wide/k{at} {at:08x}" for at in range(paths)]
        for line in [*wide, "set a 00", "commit main 0 a first", *draw_script(self.draw, self.model, 0)[0]]:
            if line.split()[0] not in ("collect", "look", "finish", "cancel"):
                self.ask(serve, line)
        self.ask(serve, f"collect {collectable(self.draw, self.model)}")
        if self.model.collecting is not None:
            start = time.perf_counter()
            while not os.path.exists(os.path.join(self.folder, f"done.{self.drawn}")):
                pass
            self.child_takes = time.perf_counter() - start
            self.ask(serve, "finish")
        must_be(serve.end(), 0)

    def last(self):
        """All that the store holds in the end, when every child that was left has ended."""
        while self.stopped:
            child = self.stopped[0]
            self.go_on(child)
            ended(child)
        self.look_at_files()
        super().last()


def report(test, rounds):
    """One line for each check."""
    killing.report(test, rounds)
    seen = test.seen
    print(f"ok    {test.words['started']} collections were begun, {test.words['collected']} ended well, {test.words['rejected']} by a killed child")
    print(f"ok    {seen['left']} children were left behind, and the store collected again meanwhile")
    print(f"ok    {len(test.model.commits)} commits, {test.model.floor} of them given up; shown {seen['shown']} times, with {seen['contents']} places")
    print(f"ok    the replies begin with {', '.join(f'{word} ({count})' for word, count in sorted(test.words.items()))}")
    print(f"ok    {seen['files']} times the folder held no file that it may not hold", flush=True)


# Generations


def generations(program, folder, seed, count, chunk):
    """So many collections over one folder, some by looks, some cancelled, some in a run of their own: what is there in the end."""
    draw, model = random.Random(seed), Model()
    common.init(program, folder, chunk=chunk)
    serve = common.Serve(program, folder)

    def ask(line):
        reply = serve.ask(line)
        if not model.takes(line, reply):
            raise Wrong(f"`{line[:200]}` was answered {reply[:300]!r}")
        return reply

    done = 0
    while done < count:
        if draw.random() < 0.1:
            must_be(serve.end(), 0)
            model.reopen()
            serve = common.Serve(program, folder)
            ask("checkout main")
        for _ in range(draw.randrange(1, 4)):
            ask(f"set {killing.draw_path(draw)} {killing.draw_value(draw)}")
            ask(f"commit main {len(model.commits)} a m")
        ask(f"collect {draw.choice(['main', '@' + draw.choice(model.retained()).name])}")
        if draw.random() < 0.1:
            ask("cancel")
            continue
        line = draw.choice(["finish", "look"])
        while not ask(line).startswith("collected "):
            pass
        done += 1
    ask("stat")
    must_be(serve.end(), 0)
    _, slot = records.live_slot(folder)
    must, _ = records.names_of(slot)
    held = set(os.listdir(folder))
    if held != must:
        raise Wrong(f"generation {count}: besides there is {sorted(held - must)[:10]}, and {sorted(must - held)[:10]} is missing")
    return f"{count} generations in {slot.attempt - 1} attempts: {', '.join(sorted(held))} are there, and nothing else"


def main():
    parser = common.options(__doc__)
    parser.add_argument("--rounds", type=int, default=200, help="rounds with kills (default: %(default)s)")
    parser.add_argument("--seed", type=int, default=1, help="of lines and moments (default: %(default)s)")
    parser.add_argument("--chunk", type=int, default=4096, help="bytes of a chunk: a large value goes over many (default: %(default)s)")
    parser.add_argument("--paths", type=int, default=1200, help="of the first commit (default: %(default)s)")
    parser.add_argument("--generations", type=int, default=200, help="collections one after the other (default: %(default)s)")
    given = common.parsed(parser)

    def rounds(place):
        test = Test(given.program, place, given.seed)
        try:
            common.init(test.program, test.folder, chunk=given.chunk)
            test.measure(given.paths)
            killing.all_rounds(test, given.rounds)
        finally:
            for child in test.stopped:
                with contextlib.suppress(ProcessLookupError):
                    os.kill(child, signal.SIGKILL)
        report(test, given.rounds)

    if given.rounds:
        killing.tried(given.folder, given.seed, rounds)
    if given.generations:
        seen = killing.tried(given.folder, given.seed, lambda place: generations(given.program, place, given.seed, given.generations, given.chunk))
        print(f"ok    {seen}")


if __name__ == "__main__":
    main()
