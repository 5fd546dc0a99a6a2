#!/usr/bin/env python3
"""Kills `ipstore serve` at seeded moments, over one folder, and opens the store again: no acknowledged command is lost.

    bench/kill.py [PROGRAM] [--folder DIR] [--rounds N] [--seed N] [--chunk BYTES]

Each round opens the store, asks it for what it holds, gives it seeded lines (`set`, `rm`, `commit`, `merge`, `branch`,
`branch-rm` and more), and kills it (SIGKILL): after some time, behind some number of replies, within one command that
writes, or while it opens the store. A plain model says what each line is answered. What the store holds when it is opened
again must be what the model holds after the lines that were answered, or after one more. That no damage is found, and that
the contents of commits are those of the model, is asked in each round of what is new, and in the end of all.

A kill leaves what the system has in memory: so this tests the order of writes and replies, and not the syncs (`crashes.py` does). The seed
fixes lines and the kind of each moment; the moments themselves follow the machine's time. Exit status 0, or 1 with the folder kept.
"""

import threading
import time

import common
import killing
from killing import Wrong, must_be, spin, write_all, writes

# Lines of a round at most.
LINES = 60

# Each kind of moment.
KINDS = ["time", "replies", "within", "opening"]
WEIGHTS = [4, 2, 6, 1]


# Lines


def draw_script(draw, model, turn):
    """Lines, and what each is answered, from this model on, which stays."""
    model = model.copy()
    lines, replies = [], []
    for at in range(draw.randint(10, LINES)):
        line = f"checkout {killing.draw_ref(draw, model)}" if at == 0 else killing.draw_line(draw, model, f"round {turn} line {at}")
        lines.append(line)
        replies.append(model.reply(line))
    return lines, replies


# Moments


def killed_within(serve, lines, wanted, draw, clock):
    """Line by line up to one that writes, and a kill while this one is run."""
    places = [at for at, line in enumerate(lines) if writes(line, wanted[at])] or [len(lines) - 1]
    place = draw.choice(places)
    part = draw.choice([draw.uniform(0, 1.2), draw.uniform(0.7, 1.1)])
    replies = [clock.ask(serve, line) for line in lines[:place]]
    write_all(serve, lines[place:place + 1])
    spin(part * clock.of(lines[place]))
    serve.kill()
    return replies


def killed_between(serve, lines, count, seconds):
    """All lines at once, and a kill after some time, or behind some number of replies."""
    writer = threading.Thread(target=write_all, args=(serve, lines))
    writer.start()
    if seconds is None:
        replies = [serve.reply() for _ in range(count)]
    else:
        replies = []
        time.sleep(seconds)
    serve.kill()
    writer.join()
    return replies


def killed(serve, lines, wanted, kind, draw, clock):
    """The replies that a program said to these lines until it was killed."""
    if kind == "within":
        replies = killed_within(serve, lines, wanted, draw, clock)
    elif kind == "replies":
        replies = killed_between(serve, lines, draw.randint(0, len(lines) - 1), None)
    else:
        replies = killed_between(serve, lines, None, draw.random() * len(lines) * clock.line)
    return replies + [line.decode("latin-1") for line in serve.lines]


# The test


class Test(killing.Trial):
    """Rounds over one folder."""

    def note(self, lines, replies, wanted):
        """Goes on by what was answered, and by what may have been done beyond."""
        if replies != wanted[: len(replies)]:
            at = next(at for at, (one, other) in enumerate(zip(replies, wanted)) if one != other)
            raise Wrong(f"`{lines[at]}` was answered {replies[at][:300]!r}, and not {wanted[at][:300]!r}")
        self.seen["acknowledged"] += len(replies)
        for line, reply in zip(lines, replies):
            self.seen["written"] += writes(line, reply)
            self.model.reply(line)
        at = len(replies)
        if at < len(lines) and writes(lines[at], wanted[at]):
            self.other = self.model.copy()
            self.other.reply(lines[at])

    def measure(self):
        """A round that nobody kills: how long its lines take."""
        serve = self.open()
        lines, wanted = draw_script(self.draw, self.model, 0)
        replies = [self.clock.ask(serve, line) for line in lines]
        self.note(lines, replies, wanted)
        must_be(serve.end(), 0)

    def round(self, turn):
        """One round."""
        kind = self.draw.choices(KINDS, WEIGHTS)[0]
        if kind == "opening":
            self.kill_opening()
            return
        serve = self.open()
        self.settle(serve)
        self.ask_new(serve)
        lines, wanted = draw_script(self.draw, self.model, turn)
        replies = killed(serve, lines, wanted, kind, self.draw, self.clock)
        must_be(serve.waited(), -9)
        self.note(lines, replies, wanted)


def trial(given, folder):
    """All rounds in this folder, and a line for each check."""
    test = Test(given.program, folder, given.seed)
    common.init(test.program, test.folder, chunk=given.chunk)
    test.measure()
    killing.all_rounds(test, given.rounds)
    killing.report(test, given.rounds)
    print(f"ok    {len(test.model.commits)} commits, shown {test.seen['shown']} times, with {test.seen['contents']} places of their trees")


def main():
    parser = common.options(__doc__)
    parser.add_argument("--rounds", type=int, default=300, help="kills (default: %(default)s)")
    parser.add_argument("--seed", type=int, default=1, help="of lines and moments (default: %(default)s)")
    parser.add_argument("--chunk", type=int, default=4096, help="bytes of a chunk: a large value goes over many (default: %(default)s)")
    given = common.parsed(parser)
    killing.tried(given.folder, given.seed, lambda folder: trial(given, folder))


if __name__ == "__main__":
    main()
