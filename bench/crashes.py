#!/usr/bin/env python3
"""What a machine that stops may leave of a folder, at each moment of a run with collections: the store must be there again.

    bench/crashes.py [PROGRAM] [--folder DIR] [--seed N] [--images N]

It needs `strace`, which tells each write, sync, creation and removal of the program and of its children, in their order. From these the
files are built that docs/DISK.md lets a stop leave behind each of them: of a file what its last sync saw, and each later write whole, in
part, as other bytes or not at all; of a name that was made or removed since the folder was synced, each of its states. Tried are the files
with nothing kept that was not synced, with all of it, and so many by chance. Each time the program must open them without damage and hold
what a plain model (`model.py`) does after the lines that were answered by then, or after one more; every few times it takes a commit and
is collected too.

This tests the order of writes and syncs of the program as they are asked of the system; that a sync is honest is the disk's matter.
Exit status 0, or 1 with the folder kept.
"""

import os
import random
import re
import shutil
import subprocess
import sys

import calls
import common
import records
from killing import CHILD, Wrong, must_be
from model import Model

TRACED = "pwrite64,fsync,unlink,openat,write,ftruncate,pwritev,fdatasync,rename,renameat,renameat2,unlinkat"

# One image in so many takes a commit and is collected.
FEW = 9


# What was called


def whole_calls(log):
    """The calls in the order of their ends: of each its name, and all that was told of it."""
    begun = {}
    with open(log, "rb") as file:
        for line in file:
            process, _, told = line.rstrip(b"\n").partition(b" ")
            told = told.strip()
            if told.endswith(b"<unfinished ...>"):
                begun[process] = told[: -len(b"<unfinished ...>")]
                continue
            resumed = re.match(rb"<\.\.\. \w+ resumed>(.*)", told)
            if resumed:
                told = begun.pop(process) + resumed[1]
            found = re.match(rb"(\w+)\((.*)\)\s+= (-?\d+)", told)
            if found:
                yield found[1].decode(), found[2], int(found[3])


def plain(text):
    """Bytes that are told as hex escapes."""
    return bytes.fromhex(text.replace(rb"\x", b"").decode())


def events_of(log, folder):
    """What was done to the files of the folder, and what was said: tuples of a word, a name, and more."""
    start = folder.encode()
    for name, told, answer in whole_calls(log):
        if answer < 0:
            continue
        of = re.match(rb"(\d+)<((?:\\x[0-9a-f]{2})*)>", told)
        texts = [plain(text) for text in re.findall(rb'"((?:\\x[0-9a-f]{2})*)"', told)]
        path = plain(of[2]) if of else texts[0] if texts else b""
        if name == "write" and of[1] == b"1":
            yield "say", None, texts[0][:answer]
        elif not path.startswith(start):
            continue
        elif path == start and name == "fsync":
            yield "keep names", None, None
        elif path != start:
            yield event_of(name, path[len(start) + 1 :].decode(), told, texts, answer)


def event_of(name, file, told, texts, answer):
    """A call on a file of the folder."""
    if name == "openat":
        return ("make" if b"O_CREAT" in told else "open"), file, b"O_TRUNC" in told
    if name == "pwrite64":
        return "write", file, (int(told.rpartition(b", ")[2]), texts[0][:answer])
    if name == "fsync":
        return "sync", file, None
    if name == "unlink":
        return "remove", file, None
    raise Wrong(f"the program calls {name}, of which this knows nothing")


# What the disk has


class File:
    """What a stop leaves of a file: the bytes that its last sync saw, and the writes since."""

    def __init__(self, data=b""):
        self.synced, self.writes = data, []

    def left(self, draw, how):
        """Bytes that a stop may leave."""
        data = bytearray(self.synced)
        for at, piece in self.writes:
            kept = {"none": 0, "all": 1}.get(how)
            kept = draw.choice([0, 1, 2, 3]) if kept is None else kept
            if kept == 2:
                piece = piece[: draw.randrange(len(piece) + 1)]
            if kept == 3:
                piece = draw.randbytes(len(piece))
            if kept and piece:
                data.extend(bytes(max(0, at + len(piece) - len(data))))
                data[at : at + len(piece)] = piece
        return bytes(data)

    def sync(self):
        self.synced, self.writes = self.left(None, "all"), []


class Disk:
    """The files by their names now, and of each name what it was when the folder was synced and since."""

    def __init__(self, folder):
        self.names = {name: File(records.read(folder, name)) for name in os.listdir(folder)}
        self.keep_names()

    def keep_names(self):
        self.past = {name: [file] for name, file in self.names.items()}

    def change(self, name, file):
        """A name is another file's from now on, or nobody's."""
        self.past.setdefault(name, [None]).append(file)
        if file is None:
            del self.names[name]
        else:
            self.names[name] = file

    def do(self, word, name, more):
        if word == "keep names":
            self.keep_names()
        elif word == "make" and name not in self.names:
            self.change(name, File())
        elif word in ("make", "open") and more:
            raise Wrong(f"{name} is cut when it is opened, of which this knows nothing")
        elif word == "remove":
            self.change(name, None)
        elif word == "write":
            self.names[name].writes.append(more)
        elif word == "sync":
            self.names[name].sync()

    def put(self, folder, draw, how):
        """Makes a folder as a stop may leave it."""
        for name, states in self.past.items():
            state = {"none": states[0], "all": states[-1]}[how] if how in ("none", "all") else draw.choice(states)
            if state is not None:
                records.write(folder, name, state.left(draw, how))


# The trial


def models_of(said):
    """The model before each line, and behind the last, where each was answered as it says."""
    model, models = Model(), []
    for line, reply in zip(calls.LINES, said):
        models.append(model.copy())
        if model.reply(line) != reply:
            raise Wrong(f"`{line[:40]}` is answered {reply[:100]!r}")
    return models + [model]


def try_image(given, folder, models, more):
    """The program opens these files, and holds what one of the models does."""
    serve = common.Serve(given.program, folder)
    model = calls.held(serve, [model.copy() for model in models])
    for commit in model.retained():
        for path in commit.tree:
            calls.ask(serve, model, f"cat @{commit.name} {'/'.join(path)}")
        calls.ask(serve, model, f"show @{commit.name}")
    must_be(serve.end(), 0)
    if more:
        model.reopen()
        calls.goes_on(given.program, folder, [model])


def try_all(given, base):
    """Each moment of one run: how many, and how many images."""
    folder, log, draw = common.new_folder(base, "store"), os.path.join(base, "log"), random.Random(given.seed)
    common.init(given.program, folder, chunk=4096)
    disk = Disk(folder)
    words = ["strace", "-f", "-y", "-xx", "-s", "100000", "-o", log, "-e", f"trace={TRACED}", given.program, "serve", folder]
    script = "".join(line + "\n" for line in calls.LINES).encode()
    done = subprocess.run(words, input=script, capture_output=True, timeout=CHILD)
    must_be((done.returncode, done.stderr.decode()), 0)
    models = models_of(done.stdout.decode().splitlines())
    said, images, moments = b"", 0, 0
    for word, name, more in events_of(log, os.path.realpath(folder)):
        if word == "say":
            said += more
        else:
            disk.do(word, name, more)
        moments += 1
        answered = said.count(b"\n")
        for how in ["none", "all"] + ["chance"] * given.images:
            image = common.new_folder(base, "image")
            disk.put(image, draw, how)
            images += 1
            try:
                try_image(given, image, models[answered : answered + 2], images % FEW == 0)
            except (Wrong, common.Ended, OSError, TimeoutError) as wrong:
                raise Wrong(f"behind event {moments} ({word} {name}), with {how} of what was not synced, image {images}: {wrong}") from wrong
            shutil.rmtree(image)
    kept = {name: file.left(None, "all") for name, file in disk.names.items()}
    if kept != {name: records.read(folder, name) for name in os.listdir(folder)}:
        raise Wrong("the events do not tell what the folder holds in the end")
    return f"{moments} moments of a run of {len(calls.LINES)} lines, {images} images: each opens, and nothing that was answered is lost"


def main():
    parser = common.options(__doc__)
    parser.add_argument("--seed", type=int, default=1, help="of what is kept by chance (default: %(default)s)")
    parser.add_argument("--images", type=int, default=6, help="by chance at each moment (default: %(default)s)")
    given = common.parsed(parser)
    common.must_have("strace")
    with common.kept_folder(given.folder) as base:
        try:
            print(f"ok    {try_all(given, base)}")
        except Wrong as wrong:
            print(f"FAIL  seed {given.seed}, {wrong}\n  the folder is {base}")
            sys.exit(1)


if __name__ == "__main__":
    main()
