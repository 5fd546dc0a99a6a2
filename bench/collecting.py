#!/usr/bin/env python3
"""Collections to their end: whether the child leaves the files of docs/FORMAT.md, whether the program serves the store as before, and what
opening and reading it take.

    bench/collecting.py [PROGRAM] [--folder DIR] [--seed N] [--rounds N] [--commits N] [--chunk BYTES] [--measure N]

A seeded history with directories, older trees grafted and several branches is collected again and again, with commits in between and
while a collection runs. Before each one the folder is copied, and a plain collector (`records.py`), by docs/FORMAT.md alone, collects the
copy. Then the program does by `collect`, and by `finish` or by one `look` after the other: the prefix and the mapping must be the plain
ones, byte for byte, the slot must name them, and the folder hold these files, the chunks from the horizon's on and no others. Each
retained commit must be shown, listed and read as before, and so it must over the copy; each other one must be gone. Exit status 1 where
one is not, with the folders kept. With `--measure N` a store of N commits is opened and read before and after its collection.
"""

import os
import random
import shutil
import statistics
import subprocess
import sys

import common
import opening
import records
from common import Wrong

# How many steps the directory `w` may have: some three fifths of them at a time.
WIDE = 60


def need(holds, otherwise):
    if not holds:
        raise Wrong(otherwise)


def asked(program, folder, lines):
    """The replies to these lines, given to one run."""
    serve = common.Serve(program, folder)
    replies = [serve.ask(line) for line in lines]
    need(serve.end() == (0, ""), "serve ended otherwise than with status 0")
    return replies


def collected(serve, looks):
    """The last reply of a collection that runs: that of `finish`, or of the look at which it ended."""
    reply = serve.ask("look" if looks else "finish")
    while reply == "running" or reply.startswith("checking "):
        reply = serve.ask("look")
    return reply


class History:
    """A store that grows by seeded lines, and what it says of each commit."""

    def __init__(self, program, base, seed, chunk):
        self.program, self.base, self.draw = program, base, random.Random(seed)
        self.folder = common.new_folder(base, "store")
        self.names, self.floor, self.heads = [], 0, {}
        common.init(program, self.folder, chunk=chunk)

    def grow(self, serve, commits, least):
        """So many commits, each of a few edits of the tree of a branch, which take from no commit below this number."""
        for _ in range(commits):
            branch = self.draw.choice(["main", "main", "dev"])
            if branch in self.heads:
                common.must(serve.ask(f"checkout {branch}"), "at ")
            else:
                common.must(serve.ask("empty"), "ok")
            for _ in range(self.draw.randrange(1, 5)):
                path = f"d{self.draw.randrange(4)}/k{self.draw.randrange(12)}"
                serve.ask(f"set {path} {self.draw.randbytes(self.draw.randrange(40)).hex() or '-'}")
            # A directory that goes over 32 entries and back.
            for _ in range(self.draw.randrange(12)):
                entry = f"w/e{self.draw.randrange(WIDE)}"
                serve.ask(f"set {entry} {self.draw.randbytes(2).hex()}" if self.draw.random() < 0.6 else f"rm {entry}")
            if self.names[least:] and self.draw.random() < 0.3:
                other = self.draw.choice(self.names[least:])
                serve.ask(f"graft @{other} d{self.draw.randrange(4)} g{self.draw.randrange(3)}")
            reply = serve.ask(f"commit {branch} {len(self.names)} a m")
            common.must(reply, "committed ")
            self.heads[branch] = len(self.names)
            self.names.append(reply.split()[1])

    def grown(self, commits):
        """The same in a run of its own."""
        serve = common.Serve(self.program, self.folder)
        self.grow(serve, commits, self.floor)
        serve.end()

    def lines(self, numbers):
        """What is asked of these commits."""
        lines = []
        for number in numbers:
            name = self.names[number]
            lines += [f"show @{name}", f"checkout @{name}", "list /"]
            for step in range(4):
                lines += [f"list d{step}", f"list g{step}"]
                lines += [f"cat @{name} d{step}/k{key}" for key in range(12)]
            lines += ["list w"] + [f"cat @{name} w/e{key}" for key in range(WIDE)]
        return lines

    def told(self, floor):
        """What `stat` and `branches` are answered where nothing below this number is retained and no collection runs."""
        rows = [f"{name} {self.names[self.heads[name]]}" for name in sorted(self.heads)]
        return [f"stat {floor} {len(self.names)} {len(rows)} idle", " ".join([f"branches {len(rows)}"] + rows)]

    def collect(self):
        """Collects at some commit that no branch is behind: what was seen."""
        number = self.draw.randrange(self.floor, min(self.heads.values()) + 1)
        retained = self.lines(range(number, len(self.names)))
        before = asked(self.program, self.folder, retained)
        plain = os.path.join(self.base, "plain")
        shutil.copytree(self.folder, plain)
        wanted = records.collect(plain, number)
        need(asked(self.program, plain, retained) == before, "over the plain collector's files a commit is read otherwise")
        serve = common.Serve(self.program, self.folder)
        common.must(serve.ask(f"collect @{self.names[number]}"), "started ")
        meanwhile = self.draw.choice([0, 0, 1, 4])
        self.grow(serve, meanwhile, number)
        looks = self.draw.random() < 0.5
        reply = collected(serve, looks)
        need(reply == f"collected {number}", f"the collection at {number} ended by {reply!r}")
        after = [serve.ask(line) for line in retained]
        need(serve.end() == (0, ""), "serve ended otherwise than with status 0")
        need(after == before, "a commit is read otherwise in the run that collected")
        self.compare(plain, wanted, meanwhile)
        self.floor = number
        self.ask_again(retained, before)
        shutil.rmtree(plain)
        how = f"by {'looks' if looks else 'finish'}, with {meanwhile} commits meanwhile"
        return f"at {number} of {len(self.names)}, {how}: {wanted.prefix} bytes in {wanted.rows} runs are kept"

    def compare(self, plain, wanted, meanwhile):
        """The files are those of the plain collector, and no others are there."""
        for kind in ("mapping", "prefix"):
            name = f"{kind}.{wanted.live}"
            need(records.read(self.folder, name) == records.read(plain, name), f"{name} is not the plain collector's")
        _, slot = records.live_slot(self.folder)
        fields = ("chunk", "horizon", "floor", "live", "attempt", "prefix", "rows")
        for field in fields if meanwhile else (*fields, "end", "next"):
            seen, its = getattr(slot, field), getattr(wanted, field)
            need(seen == its, f"the slot's {field} is {seen}, and not {its}")
        need(records.suffix(self.folder, slot).startswith(records.suffix(plain, wanted)), "the records from the horizon on differ")
        must, _ = records.names_of(slot)
        held = set(os.listdir(self.folder))
        need(held == must, f"the folder holds besides {sorted(held - must)}, and lacks {sorted(must - held)}")

    def ask_again(self, retained, before):
        """A new run tells the same of what is retained, and has no other commit."""
        need(asked(self.program, self.folder, ["stat", "branches"]) == self.told(self.floor), "the floor or the branches are wrong")
        need(asked(self.program, self.folder, retained) == before, "a commit is read otherwise when the store is opened again")
        given_up = self.names[: self.floor]
        gone = asked(self.program, self.folder, [f"show @{name}" for name in given_up])
        need(gone == [f"no-commit {name}" for name in given_up], "a commit that was given up is shown")


def trial(program, folder, seed, rounds, commits, chunk):
    with common.kept_folder(folder) as base:
        try:
            history = History(program, base, seed, chunk)
            for _ in range(rounds):
                history.grown(commits)
                print(f"ok    {history.collect()}", flush=True)
        except (Wrong, common.Ended) as wrong:
            sys.exit(f"FAIL  seed {seed}, {wrong}\n  the folders are in {base}")


# Measured


def cats(program, folder, paths):
    """The seconds that a run takes which reads these paths of `main`."""
    lines = "".join(f"cat main {path}\n" for path in paths).encode()
    return opening.seconds(
        lambda: subprocess.run([program, "serve", folder], input=lines, stdout=subprocess.DEVNULL, check=True)
    )


def measure(program, folder, commits, rounds=7):
    with common.fresh_folder(folder) as base:
        opening.make_store(program, base, opening.history(commits, 8, 1000))
        paths = [f"d{at % opening.DIRECTORIES}/k{at // opening.DIRECTORIES % opening.STEPS}" for at in range(256)] * 40
        rows = []
        for when in ("before", "after"):
            _, slot = records.live_slot(base)
            took = [opening.seconds(lambda: opening.open_store(program, base)) for _ in range(rounds)]
            read_in = [cats(program, base, paths) for _ in range(rounds)]
            held = slot.prefix + slot.end - slot.horizon
            rows.append(common.Row(f"opening {when} it, {held} bytes in {slot.rows} runs and the chunks", 1e3 * statistics.median(took), "ms"))
            rows.append(common.Row(f"{len(paths)} lines of cat {when} it", 1e3 * (statistics.median(read_in) - statistics.median(took)), "ms"))
            if when == "before":
                ended = asked(program, base, ["collect main", "finish"])[-1]
                need(ended == f"collected {commits - 1}", f"the collection ended by {ended!r}")
        common.show(f"a store of {commits} commits, collected at its last one", rows)


def main():
    parser = common.options(__doc__)
    parser.add_argument("--seed", type=int, default=1, help="of the history (default: %(default)s)")
    parser.add_argument("--rounds", type=int, default=8, help="collections (default: %(default)s)")
    parser.add_argument("--commits", type=int, default=12, help="commits before each (default: %(default)s)")
    parser.add_argument("--chunk", type=int, default=4096, help="bytes of a chunk (default: %(default)s)")
    parser.add_argument("--measure", type=int, metavar="N", help="measure a store of N commits instead")
    given = common.parsed(parser)
    if given.measure:
        measure(given.program, given.folder, given.measure)
    else:
        trial(given.program, given.folder, given.seed, given.rounds, given.commits, given.chunk)


if __name__ == "__main__":
    main()
