"""What the checks of edges.py stand on: a program and a fresh folder, how a call ended, and small stores."""

import os
import struct
import subprocess

import common
from common import GATE_OPEN, SLOT, Serve, Wrong
from model import Model

# docs/SCRIPT.md, "How a call ends".
DONE, USAGE, NO_STORE, DAMAGED, READ, WRITE, DISK, MEMORY, LIMIT, UNFINISHED, EXISTS = 0, 2, 3, 4, 5, 6, 7, 8, 9, 10, 11
LINES = {
    DONE: "",
    USAGE: "ipstore: usage\n",
    NO_STORE: "ipstore: no store\n",
    READ: "ipstore: read fault\n",
    WRITE: "ipstore: write fault\n",
    DISK: "ipstore: disk fault\n",
    UNFINISHED: "ipstore: unfinished line\n",
    EXISTS: "ipstore: store exists\n",
}
STATUSES = set(range(12)) - {1}

DEFAULT_CHUNK = 1 << 20
LONGEST_LINE = 4194304
MOST_CONTENTS = 1048576

# So many seconds a check may take.
LONG = 600

# A reply comes within so many seconds, and what comes too much within so many.
SOON = 10
QUIET = 0.05


class Skip(Exception):
    """A check can't be tried here, as this says."""


CHECKS = []


def check(act):
    """A check: its name is that of the function. It gets a bed, and says what was seen."""
    CHECKS.append(act)
    return act


class Bed:
    """A program, and a fresh folder for one check."""

    def __init__(self, program, base, size):
        self.program, self.base, self.size = program, base, size
        self.made = 0
        self.children = []

    def path(self, name):
        return os.path.join(self.base, name)

    def folder(self):
        """A new empty folder."""
        self.made += 1
        return common.new_folder(self.base, f"folder{self.made}")

    def store(self, *lines, chunk=1 << 20):
        """A new store with chunks of this size, that was given these lines, each answered."""
        folder = self.folder()
        self.call("init", folder, "--chunk", str(chunk)).must(DONE)
        if lines:
            self.serve(folder, script(*lines)).must(DONE, None)
        return folder

    def call(self, *words, input=b"", timeout=common.PATIENCE, **how):
        """Calls the program with these words to its end."""
        streams = {"stdout": subprocess.PIPE, "stderr": subprocess.PIPE, **how}
        if "stdin" not in streams:
            streams["input"] = input
        ended = subprocess.run([self.program, *words], timeout=timeout, **streams)
        return Call(words, ended.returncode, ended.stdout or b"", ended.stderr or b"")

    def serve(self, folder, input=b"", **how):
        return self.call("serve", folder, input=input, **how)

    def start(self, folder, **how):
        """A running `serve`."""
        serve = Serve(self.program, folder, **how)
        self.children.append(serve.process)
        return serve

    def close(self):
        """Ends what a check that failed has left running."""
        for child in self.children:
            if child.poll() is None:
                child.kill()
                child.wait()


class Call:
    """How a call ended: its status, what it said, its line on standard error and what else stands there."""

    def __init__(self, words, status, out, error):
        self.words, self.status, self.out, self.all_error = words, status, out, error.decode("latin-1")
        self.error, self.causes = common.status_line(status, self.all_error)
        need(status in STATUSES, f"{words}: status {status}, which the program has not ({self.all_error!r})")

    def must(self, status, out=b"", error=None):
        """It ended with this status, these replies (None: any) and the status line of docs/SCRIPT.md."""
        error = LINES[status] if error is None else error
        seen = (self.status, self.out if out is not None else None, self.error)
        need(seen == (status, out, error), f"{self.words!r:.200}: {seen!r:.300}, and not {(status, out, error)!r:.300}")
        return self

    def because(self, *causes):
        """These lines stand behind that of the status, or in front of it where the words were wrong."""
        wanted = [f"{cause}\n" for cause in causes]
        need(self.causes == wanted, f"{self.words!r:.200}: {self.causes!r:.300}, and not {wanted!r:.300}")
        return self


def need(holds, otherwise):
    if not holds:
        raise Wrong(otherwise)


def same(seen, wanted, what):
    need(seen == wanted, f"{what}: {seen!r:.300}, and not {wanted!r:.300}")


def script(*lines):
    """Lines as a script."""
    return "".join(line + "\n" for line in lines).encode("latin-1")


def replies(*lines):
    """What the model answers to these lines."""
    model = Model()
    return script(*(model.reply(line) for line in lines))


def replies_after_opening(*lines):
    """What the model answers to the questions when the store of those few commits was opened again."""
    model = Model()
    for line in SOME:
        model.reply(line)
    model.forget_work()
    return script(*(model.reply(line) for line in [*lines, *QUESTIONS]))


# Folders


def content(folder, name="control"):
    """The bytes of a file of a store; nothing where it is absent."""
    try:
        with open(os.path.join(folder, name), "rb") as file:
            return file.read()
    except FileNotFoundError:
        return None


def put(folder, name, data):
    with open(os.path.join(folder, name), "wb") as file:
        file.write(data)


def new_control(chunk=DEFAULT_CHUNK):
    """The control file of a new store."""
    slot = bytearray(SLOT)
    slot[0] = GATE_OPEN
    struct.pack_into("<I", slot, 8, 1)
    struct.pack_into("<QQ", slot, 16, 1, chunk)
    struct.pack_into("<Q", slot, 72, 1)
    struct.pack_into("<Q", slot, 104, 1)
    return bytes(slot) + bytes(SLOT)


def closing(*descriptors):
    """Closes these streams in the program that starts."""
    return {"preexec_fn": lambda: [os.close(each) for each in descriptors]}


# A few commits, so that a store has something.
SOME = [
    "set a 01", "set d/b 0203", "commit main 5 alice first", "set d/c -", "rm a", "commit main 6 bob second one",
    "branch dev main", "checkout dev", "set e/f/g 04", "commit dev 7 carol third", "branch old main", "branch-rm old",
]

# Questions about them.
QUESTIONS = [
    "stat", "branches", "log main", "log dev", "show main", "show dev", "cat main a", "cat main d/b", "cat dev e/f/g",
    "cat dev d", "cat main e", "checkout dev", "list /", "list d", "get d/c", "log old",
]
