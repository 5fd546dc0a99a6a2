"""What the scripts of this folder share: options, fresh folders, calls of the program, a running `serve`, the control
file, the chunks, and tables. Nothing is run from here."""

import argparse
import collections
import contextlib
import os
import select
import shutil
import struct
import subprocess
import sys
import tempfile

HERE = os.path.dirname(os.path.abspath(__file__))
PROGRAM = os.path.join(HERE, "..", "crates", "ipstore", "out", "ipstore")

# So many seconds are waited for what should come at once.
PATIENCE = 30

GATE_OPEN = 0xA5
SLOT = 128


# Options and folders


def options(doc):
    """The options that each script has; its own are added to them."""
    parser = argparse.ArgumentParser(
        description=doc, formatter_class=argparse.RawDescriptionHelpFormatter
    )
    parser.add_argument("program", nargs="?", default=PROGRAM, help="the built program (default: %(default)s)")
    parser.add_argument("--folder", help="where fresh folders are made, and removed afterwards (default: the system's)")
    return parser


def parsed(parser):
    """The options given, with a program that is there."""
    given = parser.parse_args()
    given.program = os.path.abspath(given.program)
    if not os.access(given.program, os.X_OK):
        sys.exit(f"no program at {given.program}: build it with `cd crates/ipstore && rt run`, or name it")
    return given


def must_have(tool):
    """Ends the run where this tool is not installed."""
    if shutil.which(tool) is None:
        sys.exit(f"there is no {tool}")


@contextlib.contextmanager
def fresh_folder(base=None):
    """A new empty folder, which is removed in the end."""
    folder = tempfile.mkdtemp(prefix="ipstore-", dir=base)
    try:
        yield folder
    finally:
        shutil.rmtree(folder, ignore_errors=True)


@contextlib.contextmanager
def kept_folder(base=None):
    """A new empty folder, which is removed where all goes well, and kept where not."""
    folder = tempfile.mkdtemp(prefix="ipstore-", dir=base)
    yield folder
    shutil.rmtree(folder, ignore_errors=True)


def new_folder(parent, name):
    """A new empty folder of this name, which goes with its parent."""
    folder = os.path.join(parent, name)
    os.mkdir(folder)
    return folder


def file_system(folder):
    """The kind of file system that a folder is on, as far as the system tells it."""
    best = ("", "unknown")
    try:
        with open("/proc/mounts") as mounts:
            rows = [row.split()[1:3] for row in mounts]
    except OSError:
        return best[1]
    real = os.path.realpath(folder)
    for place, kind in rows:
        inside = real == place or real.startswith(place.rstrip("/") + "/")
        if inside and len(place) >= len(best[0]):
            best = (place, kind)
    return best[1]


# The program


def init(program, folder, *words, chunk=None):
    """Makes a store, with chunks of this size where one is given."""
    size = [] if chunk is None else ["--chunk", str(chunk)]
    subprocess.run([program, "init", folder, *size, *words], check=True, timeout=PATIENCE)


class Wrong(Exception):
    """A check failed, as this says."""


class Ended(Exception):
    """The program ended where a reply was waited for: with this status, and this on standard error."""

    def __init__(self, status, error):
        super().__init__(f"the program ended with status {status} and {error!r} where a reply was waited for")
        self.status, self.error = status, error


USAGE = 2


def status_line(status, error):
    """Of what stands on standard error the line of the status: the last one where the words were wrong, and else the first, but for a
    cause. What is left are the words that there are, or causes."""
    lines = error.splitlines(keepends=True)
    at = len(lines) - 1 if status == USAGE else 0
    if not lines or lines[at].startswith("ipstore: start child: "):
        return "", lines
    return lines[at], lines[:at] + lines[at + 1:]


class Serve:
    """A running `ipstore serve`: it is given lines, and its replies are read. Lines and replies are text, of which each
    character stands for one byte."""

    def __init__(self, program, folder, **how):
        self.process = subprocess.Popen(
            [program, "serve", folder],
            stdin=subprocess.PIPE,
            stdout=subprocess.PIPE,
            stderr=subprocess.PIPE,
            bufsize=0,
            **how,
        )
        self.input = self.process.stdin.fileno()
        self.output = self.process.stdout.fileno()
        self.lines = collections.deque()
        self.piece = b""
        self.causes = None

    def send(self, data):
        """Writes all the bytes."""
        view = memoryview(data)
        while view:
            view = view[os.write(self.input, view):]

    def reply(self):
        """The next reply, without its line feed."""
        while not self.lines:
            if not self.hear():
                raise Ended(*self.end())
        return self.lines.popleft().decode("latin-1")

    def hear(self):
        """Reads what is said, or waits for something. False where nothing is said any more."""
        if not select.select([self.output], [], [], PATIENCE)[0]:
            raise TimeoutError(f"nothing was said within {PATIENCE} s")
        heard = os.read(self.output, 1 << 16)
        *lines, self.piece = (self.piece + heard).split(b"\n")
        self.lines.extend(lines)
        return bool(heard)

    def ask(self, line):
        """Gives one line and waits for its reply."""
        with contextlib.suppress(BrokenPipeError):
            self.send(line.encode("latin-1") + b"\n")
        return self.reply()

    def end(self):
        """Ends the input, drops what is still said, and waits: the exit status and its line on standard error."""
        with contextlib.suppress(OSError):
            self.process.stdin.close()
        while self.hear():
            pass
        return self.waited()

    def kill(self):
        """Kills it, and hears what it had said."""
        self.process.kill()
        while self.hear():
            pass

    def waited(self):
        """Waits for its end: the exit status and its line on standard error. A signal N is the status -N."""
        error = self.process.stderr.read().decode("latin-1")
        status = self.process.wait(PATIENCE)
        error, self.causes = status_line(status, error)
        for stream in (self.process.stdin, self.process.stdout, self.process.stderr):
            with contextlib.suppress(OSError):
                stream.close()
        return status, error


def must(seen, wanted):
    """A reply that begins otherwise ends the run."""
    if not seen.startswith(wanted):
        sys.exit(f"a reply begins with {wanted!r} no more: {seen[:200]!r}")


# The control file


Slot = collections.namedtuple("Slot", "index sequence chunk end next")


def live_slot(folder):
    """The live slot of a store's control file."""
    with open(os.path.join(folder, "control"), "rb") as file:
        data = file.read(2 * SLOT)
    found = [slot_at(data, index) for index in (0, 1) if is_open(data, index)]
    return max(found, key=lambda slot: slot.sequence)


def is_open(data, index):
    """Whether the slot is whole and its gate is open."""
    return len(data) >= SLOT * (index + 1) and data[SLOT * index] == GATE_OPEN


def slot_at(data, index):
    """The fields of a slot, as docs/FORMAT.md places them."""
    sequence, chunk, _, end, _, following = struct.unpack_from("<6Q", data, SLOT * index + 16)
    return Slot(index, sequence, chunk, end, following)


# The chunks


def pieces(folder, size, start, end):
    """The bytes of the space from an offset up to another, chunk by chunk; a chunk may be absent or short."""
    while start < end:
        number, place = divmod(start, size)
        with open(os.path.join(folder, f"chunk.{number}"), "rb", buffering=0) as file:
            file.seek(place)
            piece = file.read(min(size - place, end - start))
        if not piece:
            raise EOFError(f"chunk {number} has no byte at {place}")
        yield piece
        start += len(piece)


# Tables


# What was measured, in which unit, and beside which limit of the same run.
Row = collections.namedtuple("Row", "what value unit limit", defaults=(None,))


def number(value):
    """Three digits that count, and no more."""
    if value >= 100:
        return f"{value:,.0f}"
    return f"{value:.2f}" if value < 10 else f"{value:.1f}"


def ratio(row):
    """The value over its limit."""
    return "" if row.limit is None else f"{row.value / row.limit:.2f}"


def show(title, rows):
    """Prints a table: the value, the limit and the ratio of each row."""
    cells = [("", "measured", "limit", "ratio", "")]
    for row in rows:
        limit = "" if row.limit is None else number(row.limit)
        cells.append((row.what, number(row.value), limit, ratio(row), row.unit))
    widths = [max(len(cell[column]) for cell in cells) for column in range(4)]
    print(title)
    for what, value, limit, over, unit in cells:
        line = f"  {what:<{widths[0]}}  {value:>{widths[1]}}  {limit:>{widths[2]}}  {over:>{widths[3]}}  {unit}"
        print(line.rstrip())
    print(flush=True)
