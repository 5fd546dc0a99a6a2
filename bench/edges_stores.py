"""Checks of full disks, scripts in pieces, limits, two programs on one folder, and damage."""

import contextlib
import os
import random
import resource
import select
import signal
import subprocess
import threading
import time

import common
from bed import (
    DAMAGED, DISK, DONE, EXISTS, LIMIT, LINES, LONG, LONGEST_LINE, MEMORY, MOST_CONTENTS, NO_STORE,
    QUESTIONS, QUIET, SOME, SOON, Skip, UNFINISHED, Wrong, check, content, need, put, replies,
    replies_after_opening, same, script,
)
from common import SLOT
from model import Model, sha


# Full disks


def limited(size):
    """No file may have more bytes than this, and the system says so by a failing call."""

    def limit():
        signal.signal(signal.SIGXFSZ, signal.SIG_IGN)
        resource.setrlimit(resource.RLIMIT_FSIZE, (size, size))

    return {"preexec_fn": limit}


def large_commits():
    """Lines that commit some thousand bytes each."""
    draw = random.Random(3)
    for at in range(10000):
        yield f"set k{at % 20} {draw.randbytes(5000).hex()}"
        yield f"commit main {at} a m"


def fill(bed, folder, **how):
    """Commits until the program ends: the model of what was acknowledged, and that with the commit that was not."""
    model = Model()
    serve = bed.start(folder, **how)
    for line in large_commits():
        after = model.copy()
        wanted = after.reply(line)
        try:
            same(serve.ask(line), wanted, line[:20])
        except common.Ended as end:
            same((end.status, end.error), (DISK, LINES[DISK]), "the end where no more fits")
            need(line.startswith("commit"), "the program ended in a line that writes nothing")
            return model, after
        model = after
    raise Wrong("the disk is never full")


def holds(bed, folder, models):
    """The store holds what one of these models does, and goes on: the number of its commits."""
    for model in models:
        model.forget_work()
    told = bed.serve(folder, script("stat")).must(DONE, None).out
    fitting = [model for model in models if script(model.reply("stat")) == told]
    need(fitting, f"the store has {told!r}, and was acknowledged {models[0].reply('stat')!r}")
    model = fitting[0]
    lines = ["branches", "log main", "show main"]
    for commit in model.commits[-40:]:
        lines += [f"cat @{commit.name} {'/'.join(path)}" for path in commit.tree]
    lines += ["checkout main", "set more 01", "commit main 99999 a more", "cat main more"]
    count = len(model.commits)
    bed.serve(folder, script(*lines)).must(DONE, script(*(model.reply(line) for line in lines)))
    return count


@check
def files_that_may_not_grow(bed):
    folder = bed.store()
    models = fill(bed, folder, **limited(200000))
    bed.serve(folder, b"", **limited(100)).must(DONE)
    bed.serve(folder, script("commit other 1 a m"), **limited(100)).must(DISK)
    count = holds(bed, folder, models)
    fresh = bed.folder()
    bed.call("init", fresh, **limited(100)).must(DISK)
    return f"a limit of files' sizes: status 7 without a reply, and {count} commits are there when it is gone"


@contextlib.contextmanager
def small_disk(bed, place, size):
    """A small disk in memory, where that may be mounted."""
    os.mkdir(place)
    words = ["mount", "-t", "tmpfs", "-o", f"size={size}", "ipstore-test", place]
    try:
        mounted = subprocess.run(words, capture_output=True).returncode == 0
    except OSError:
        mounted = False
    if not mounted:
        raise Skip("a small disk can't be mounted")
    try:
        yield
    finally:
        bed.close()
        subprocess.run(["umount", place], check=True)


@check
def full_disk(bed):
    if os.geteuid() != 0:
        raise Skip("only root may mount a small disk")
    folder = bed.path("disk")
    with small_disk(bed, folder, "400k"):
        ballast = os.path.join(folder, "ballast")
        put(folder, "ballast", bytes(100000))
        bed.call("init", folder).must(DONE)
        models = fill(bed, folder)
        os.remove(ballast)
        count = holds(bed, folder, models)
    return f"a disk of 400 KiB: status 7 without a reply, and {count} commits are there when something else was removed"


@check
def init_on_a_full_disk(bed):
    if os.geteuid() != 0:
        raise Skip("only root may mount a small disk")
    folder = bed.path("disk")
    with small_disk(bed, folder, "16k"):
        with contextlib.suppress(OSError):
            put(folder, "ballast", bytes(1 << 20))
        bed.call("init", folder).must(DISK)
        os.remove(os.path.join(folder, "ballast"))
    return "status 7"


@check
def few_open_files(bed):
    seen = []
    for most in range(4, 17):
        limit = {"preexec_fn": lambda: resource.setrlimit(resource.RLIMIT_NOFILE, (most, most))}
        made = bed.call("init", bed.folder(), **limit)
        folder = bed.store("commit first 0 a m")
        served = bed.serve(folder, script(*SOME), **limit)
        for ended in (made, served):
            need(ended.status in (DONE, DISK), f"{most} files: {ended.words[0]} has status {ended.status}")
        acknowledged = served.out.count(b"committed ")
        number = int(bed.serve(folder, script("stat")).must(DONE, None).out.split()[2])
        need(number - 1 in (acknowledged, acknowledged + 1), f"{most} files: {number - 1} commits, {acknowledged} acknowledged")
        seen.append((most, made.status, served.status))
    same(seen[-1][1:], (DONE, DONE), "the statuses with most files")
    return f"so many may be open, init, serve: {seen[:4]} ..; what was acknowledged is there"


# Want of memory


@check
def little_memory(bed):
    folder = bed.store(*SOME)
    control, seen = content(folder), []
    for size in range(2 << 20, 16 << 20, 1 << 18):
        limit = {"preexec_fn": lambda: resource.setrlimit(resource.RLIMIT_AS, (size, size))}
        ended = subprocess.run([bed.program, "serve", folder], input=script("stat"), capture_output=True, **limit)
        if ended.returncode in (127, -signal.SIGSEGV, -signal.SIGKILL):
            need(not seen, f"{size} bytes: status {ended.returncode} behind {seen}")
            continue
        seen.append(ended.returncode)
        need(seen[-1] in (DONE, MEMORY), f"{size} bytes: status {seen[-1]}")
        need((seen[-1] == DONE) == (ended.stdout != b""), f"{size} bytes: status {seen[-1]} and {ended.stdout!r}")
    same(content(folder), control, "control")
    need(seen and seen[-1] == DONE, f"statuses {seen}")
    return f"statuses {sorted(set(seen))}: where memory is refused nothing is said"


# Scripts in pieces


def long_script(size):
    """A script of about so many bytes, with lines of many lengths and kinds."""
    draw = random.Random(5)
    lines, length = ["commit main 0 a m"], 0
    while length < size:
        line = draw_line(draw, len(lines))
        lines.append(line)
        length += len(line) + 1
    return script(*lines)


def draw_line(draw, at):
    path = f"d{draw.randrange(5)}/k{draw.randrange(30)}"
    kind = draw.random()
    if kind < 0.35:
        return f"get {path}"
    if kind < 0.7:
        return f"set {path} {draw.randbytes(draw.randint(1, 60)).hex()}"
    if kind < 0.701:
        return f"set {path} {draw.randbytes(draw.randint(1, 100000)).hex()}"
    if kind < 0.702:
        return f"commit main {at} a m{at}"
    return draw.choice(["stat", "list /", "list d1", f"rm {path}", "hash 00ff", "branches", "frob", "", f"cat main {path}", "log none"])


def whole(descriptor, data, draw):
    """One write, as far as the system takes it in one."""
    view = memoryview(data)
    while view:
        view = view[os.write(descriptor, view):]


def bytewise(descriptor, data, draw):
    view = memoryview(data)
    for at in range(len(view)):
        os.write(descriptor, view[at:at + 1])


def in_pieces(descriptor, data, draw):
    at = 0
    while at < len(data):
        size = draw.choice([1, 2, 10, 100, 4095, 4096, 4097, 70000])
        at += os.write(descriptor, data[at:at + draw.randint(1, size)])


def served_in(bed, data, way):
    """The replies to a script that is written in such a way to a store of its own."""
    folder = bed.store()
    with open(bed.path("replies"), "w+b") as sink:
        child = subprocess.Popen([bed.program, "serve", folder], stdin=subprocess.PIPE, stdout=sink, bufsize=0)
        bed.children.append(child)
        way(child.stdin.fileno(), data, random.Random(7))
        child.stdin.close()
        same(child.wait(LONG), DONE, f"the status of {way.__name__}")
        sink.seek(0)
        return sink.read()


@check
def scripts_in_pieces(bed):
    data = long_script(bed.size)
    folder = bed.store()
    put(bed.base, "script", data)
    with open(bed.path("script"), "rb") as source:
        wanted = bed.serve(folder, stdin=source, timeout=LONG).must(DONE, None).out
    same(wanted.count(b"\n"), data.count(b"\n"), "replies of the script from a file")
    need(b"committed " in wanted and b"\nbad 0\n" in wanted, "the script has too little in it")
    for way in (whole, in_pieces, bytewise):
        need(served_in(bed, data, way) == wanted, f"{way.__name__}: the replies differ")
    return f"{len(data)} bytes, {len(wanted)} of replies: from a file, in one write, in random pieces, byte by byte the same"


def heard(serve, seconds):
    """Whether something is said within so many seconds."""
    return bool(select.select([serve.output], [], [], seconds)[0])


@check
def slow_writer(bed):
    folder = bed.store()
    model = Model()
    serve = bed.start(folder)
    for line in SOME + QUESTIONS:
        half = len(line) // 2
        serve.send(line[:half].encode())
        need(not heard(serve, QUIET), f"something is said before `{line}` has its end")
        serve.send(line[half:].encode() + b"\n")
        said = reply_of(serve)
        same(said, model.reply(line).encode() + b"\n", line)
        need(not heard(serve, QUIET), f"more is said behind the reply to `{line}`")
    same(serve.end(), (DONE, ""), "the end")
    return f"{len(SOME + QUESTIONS)} lines: each reply came before the next line was written, and nothing else did"


def reply_of(serve):
    """What is said up to a line feed, if it comes soon."""
    said = b""
    until = time.monotonic() + SOON
    while not said.endswith(b"\n"):
        need(heard(serve, until - time.monotonic() if until > time.monotonic() else 0), f"no reply within {SOON} s, but {said!r}")
        piece = os.read(serve.output, 1 << 16)
        need(piece, f"the output ended behind {said!r}")
        said += piece
    return said


@check
def many_replies_unread(bed):
    folder = bed.store()
    serve = bed.start(folder)
    count = 200000
    writer = threading.Thread(target=serve.send, args=(b"stat\n" * count,))
    writer.start()
    time.sleep(0.5)
    for _ in range(count):
        same(serve.reply(), "stat 0 0 0 idle", "a reply")
    writer.join()
    same(serve.end(), (DONE, ""), "the end")
    return f"{count} replies, read only when the pipe was full: all came"


# Lines


@check
def unfinished_line(bed):
    folder = bed.store()
    bed.serve(folder, b"get a").must(UNFINISHED)
    bed.serve(folder, b"stat\nset a 00\ncommit main 1 a m").must(UNFINISHED, b"stat 0 0 0 idle\nok\n")
    bed.serve(folder, b"stat\n ").must(UNFINISHED, b"stat 0 0 0 idle\n")
    bed.serve(folder, b"stat\n").must(DONE, b"stat 0 0 0 idle\n")
    bed.serve(folder, b"\n").must(DONE, b"bad 0\n")
    return "status 10, whole lines before it are answered, and it is not run"


@check
def long_lines(bed):
    folder = bed.store()
    limit = {"error": "ipstore: limit line\n"}
    longest, longer = b"x" * LONGEST_LINE, b"x" * (LONGEST_LINE + 1)
    bed.serve(folder, b"stat\n" + longer + b"\nstat\n").must(LIMIT, b"stat 0 0 0 idle\n", **limit)
    bed.serve(folder, longer).must(LIMIT, **limit)
    bed.serve(folder, longer + b"x" * LONGEST_LINE).must(LIMIT, **limit)
    bed.serve(folder, longest + b"\nstat\n").must(DONE, b"bad 0\nstat 0 0 0 idle\n")
    bed.serve(folder, longest).must(UNFINISHED)
    return "4194304 bytes are a line, one more ends the call with status 9"


@check
def large_contents(bed):
    folder = bed.store()
    most, more = "ab" * MOST_CONTENTS, "ab" * (MOST_CONTENTS + 1)
    lines = script(f"set a {more}", "get a", f"set a {most}", "get a", "commit main 0 a m", "get a", "cat main a")
    model = Model()
    wanted = ["limit contents", "absent"]
    wanted += [model.reply(line) for line in (f"set a {most}", "get a", "commit main 0 a m", "get a", "cat main a")]
    bed.serve(folder, lines).must(DONE, script(*wanted))
    bed.serve(folder, script("cat main a")).must(DONE, script("value " + most))
    return "1048576 bytes of contents are committed and read again, one more is refused"


@check
def lines_of_any_bytes(bed):
    folder = bed.store()
    every = bytes(byte for byte in range(256) if byte != 10)
    lines = [every, b"\0", b"\r", b"stat\r", b"\xff\xfe", b"get " + bytes(range(128, 256)), b"stat"]
    ended = bed.serve(folder, b"\n".join(lines) + b"\n").must(DONE, None)
    told = ended.out.split(b"\n")
    same(len(told), len(lines) + 1, "the number of replies")
    need(all(reply.startswith(b"bad ") for reply in told[:5]), f"replies {told[:5]}")
    same(told[5:7], [b"absent", b"stat 0 0 0 idle"], "the last replies")
    return "each line is answered"


# Stores


@check
def store_of_another_process(bed):
    folder = bed.store()
    bed.serve(folder, script(*SOME)).must(DONE, replies(*SOME))
    bed.serve(folder, script(*QUESTIONS)).must(DONE, replies_after_opening())
    more = ["checkout main", "parent dev", "set z 05", "commit main 9 dan both"]
    bed.serve(folder, script(*more, *QUESTIONS)).must(DONE, replies_after_opening(*more))
    return "what one wrote the next one reads, and goes on with"


@check
def served_twice(bed):
    folder = bed.store()
    first = bed.start(folder)
    same(first.ask("set a 01"), "ok", "the first")
    bed.serve(folder, script("stat", "commit other 1 a m")).must(DISK)
    before = content(folder)
    third = bed.call("init", folder)
    need(third.status in (DISK, EXISTS) and content(folder) == before, f"init beside it: status {third.status}")
    same(first.ask("commit main 1 a m")[:10], "committed ", "the first, behind the second")
    bed.serve(folder, script("stat")).must(DISK)
    same(first.ask("stat"), "stat 0 1 1 idle", "the first, at its end")
    same(first.end(), (DONE, ""), "the end of the first")
    bed.serve(folder, script("stat")).must(DONE, b"stat 0 1 1 idle\n")
    return f"the second: status 7, and init: {third.status}; the first goes on, and behind it the next is served"


@check
def stopped_and_continued(bed):
    folder = bed.store()
    serve = bed.start(folder)
    for turn in range(20):
        same(serve.ask(f"commit b{turn} {turn} a m")[:10], "committed ", f"turn {turn}")
        serve.process.send_signal(signal.SIGSTOP)
        serve.send(script("stat"))
        need(not heard(serve, QUIET), "a program that is stopped says something")
        serve.process.send_signal(signal.SIGCONT)
        same(serve.reply(), f"stat 0 {turn + 1} {turn + 1} idle", f"turn {turn}")
    same(serve.end(), (DONE, ""), "the end")
    return "20 times while it waits: it goes on"


@check
def served_behind_a_kill(bed):
    folder = bed.store()
    for turn in range(20):
        serve = bed.start(folder)
        same(serve.ask(f"commit b{turn} {turn} a m")[:10], "committed ", f"turn {turn}")
        serve.kill()
        same(serve.waited(), (-signal.SIGKILL, ""), "the end of the one that was killed")
    bed.serve(folder, script("stat")).must(DONE, b"stat 0 20 20 idle\n")
    return "20 times: the next one is served at once"


# Damage


def damaged(name, at):
    return {"error": f"ipstore: damaged {name} {at}\n"}


@check
def chunk_that_was_cut(bed):
    folder = bed.store(*SOME[:3])
    records = content(folder, "chunk.0")
    last = len(records) - (5 + 8 + 1 + len("main"))
    put(folder, "chunk.0", records[:-1])
    bed.serve(folder, script("stat")).must(DAMAGED, **damaged("chunk.0", last))
    put(folder, "chunk.0", b"")
    bed.serve(folder, script("stat")).must(DAMAGED, **damaged("chunk.0", 0))
    os.remove(os.path.join(folder, "chunk.0"))
    bed.serve(folder, script("stat")).must(DAMAGED, **damaged("chunk.0", 0))
    put(folder, "chunk.0", records)
    bed.serve(folder, script("cat main a")).must(DONE, b"value 01\n")
    return f"by one byte: status 4 at {last}; empty or absent: at 0; and nothing was changed by that"


@check
def chunks_that_were_cut(bed):
    # The first commit begins at 4058 in chunk 0 and ends at 29 in chunk 1, where its branch ends at 47; the second one's contents go from there to 956 in chunk 2.
    folder = bed.store(f"set a {'ab' * 4000}", "commit main 0 a m", f"set b {'cd' * 5000}", "commit main 1 a m", chunk=4096)
    names = sorted(name for name in os.listdir(folder) if name != "control")
    same(names, ["chunk.0", "chunk.1", "chunk.2"], "the folder")
    files = {name: content(folder, name) for name in names}
    for name, length, wanted in (
        ("chunk.0", None, ("chunk.0", 0)), ("chunk.0", 4095, ("chunk.0", 4058)), ("chunk.1", None, ("chunk.0", 4058)),
        ("chunk.1", 28, ("chunk.0", 4058)), ("chunk.1", 29, ("chunk.1", 29)), ("chunk.1", 4095, ("chunk.1", 47)),
        ("chunk.2", None, ("chunk.1", 47)), ("chunk.2", 955, ("chunk.1", 47)), ("chunk.2", 956, ("chunk.2", 956)),
    ):
        os.remove(os.path.join(folder, name))
        if length is not None:
            put(folder, name, files[name][:length])
        bed.serve(folder, script("stat")).must(DAMAGED, **damaged(*wanted))
        put(folder, name, files[name])
    os.remove(os.path.join(folder, "chunk.1"))
    os.mkdir(os.path.join(folder, "chunk.1"))
    bed.serve(folder, script("stat")).must(DISK)
    os.rmdir(os.path.join(folder, "chunk.1"))
    put(folder, "chunk.1", files["chunk.1"])
    bed.serve(folder, script("cat main b")).must(DONE, b"value " + b"cd" * 5000 + b"\n")
    return "each at its ends, absent, and a folder in its place: status 4 at the record that is not whole, or 7; whole again: as before"


@check
def bytes_behind_the_end(bed):
    folder = bed.store(*SOME)
    put(folder, "chunk.0", content(folder, "chunk.0") + b"\xff" * 1000)
    bed.serve(folder, script(*QUESTIONS, "commit more 3 a m", "cat dev e/f/g")).must(DONE, None)
    lines = ["cat dev e/f/g", "stat"]
    bed.serve(folder, script(*lines)).must(DONE, b"value 04\nstat 0 4 3 idle\n")
    return "mean nothing, and are written over"


@check
def control_that_was_changed(bed):
    folder = bed.store(*SOME)
    whole_file = content(folder)
    live = common.live_slot(folder).index
    changed = bytearray(whole_file)
    changed[SLOT * live + 8] = 9
    put(folder, "control", changed)
    bed.serve(folder, script("stat")).must(DAMAGED, **damaged("control", SLOT * live))
    changed = bytearray(whole_file)
    changed[0] = changed[SLOT] = 0
    for gates_shut in (bytes(changed), whole_file[:SLOT - 1], b""):
        put(folder, "control", gates_shut)
        bed.serve(folder, script("stat")).must(NO_STORE)
    put(folder, "control", whole_file + b"\xff" * 100)
    bed.serve(folder, script(*QUESTIONS)).must(DONE, replies_after_opening())
    return f"another version: status 4 at {SLOT * live}; no gate open, or cut: status 3; bytes behind it: as before"


@check
def contents_that_were_changed(bed):
    folder = bed.store(*SOME[:3])
    records = bytearray(content(folder, "chunk.0"))
    # The contents at `a` and `d/b` are 1 and 2 bytes behind 5 each; the leaf of `d` comes next and names the latter.
    records[5 + 1 + 5] ^= 1
    put(folder, "chunk.0", bytes(records))
    bed.serve(folder, script("stat")).must(DAMAGED, **damaged("chunk.0", 5 + 1 + 5 + 2))
    return "status 4 at the directory that names other bytes"


@check
def records_that_change_under_a_session(bed):
    want, got = sha(b"\x01").hex(), sha(b"\x02").hex()
    # A commit whose first record is the contents at `a`: another kind, and another byte.
    for at, byte, line in ((0, 9, "record 0"), (5, 2, f"name 0 {want} {got}")):
        folder = bed.store("set a 01", "commit main 0 a m")
        serve = bed.start(folder)
        same(serve.ask("stat"), "stat 0 1 1 idle", "before")
        with open(os.path.join(folder, "chunk.0"), "r+b") as file:
            file.seek(at)
            file.write(bytes([byte]))
        serve.send(script("cat main a"))
        need(not serve.hear(), f"the line is answered by {serve.lines}")
        same(serve.waited(), (DAMAGED, f"ipstore: damaged {line}\n"), "the end")
    return "a read of a record that others changed: status 4 with its place and names, and the line has no reply"


@check
def records_that_change_under_a_commit(bed):
    want, got = sha(b"\x01").hex(), sha(b"\x02").hex()
    # Contents are at 0 and at 6, their leaf at 12, their commit at 109. The next commit goes on from that one, and has the same contents at `k`.
    for at, byte, line in ((109, 1, "record 109"), (12, 1, "record 12"), (11, 2, f"name 6 {want} {got}")):
        folder = bed.store("set a 05", "set k 01", "commit main 0 a m")
        serve = bed.start(folder)
        for its in ("set k 01", "parent main"):
            same(serve.ask(its), "ok", its)
        with open(os.path.join(folder, "chunk.0"), "r+b") as file:
            file.seek(at)
            file.write(bytes([byte]))
        before = [content(folder, name) for name in ("control", "chunk.0")]
        serve.send(script("commit main 1 a m"))
        need(not serve.hear(), f"the line is answered by {serve.lines}")
        same(serve.waited(), (DAMAGED, f"ipstore: damaged {line}\n"), "the end")
        same([content(folder, name) for name in ("control", "chunk.0")], before, "the files")
    return "a commit that meets what others changed of its first parent: status 4 with its place and names, no reply, and nothing is written"
