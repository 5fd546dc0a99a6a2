"""Checks of collections and generated lines: the words `worker` and `load`, a child for which the disk is full, and one that can't be started."""

import os
import re
import shutil
import resource
import signal
import stat
import subprocess

import killing
import records
from bed import (
    DAMAGED, DISK, DONE, LINES, LONG, MEMORY, NO_STORE, SOME, Skip, USAGE, WRITE, check, closing, content, need, put, same, script,
)
from edges_stores import limited, small_disk

# The words of a worker behind DIR: attempt, horizon, end, chunk, live attempt, old horizon, length of the live prefix, rows of the live mapping.
JOB = "1 59 164 4096 0 0 0 0"

# A commit, and what it adds to the store of docs/FORMAT.md's example: the job above is that of a collection at it.
FIRST = ["set a 01", "commit main 0 a m"]

JOB_FAULT = "ipstore: damaged job\n"


def wrong_jobs():
    """Words that are no job."""
    words = JOB.split()
    for count in range(8):
        yield words[:count]
    yield words + ["0"]
    for at in range(8):
        for word in ("", "-1", "+1", "0x1", "1.0", "01", "00", " 1", "1 ", "x", "18446744073709551616", "99999999999999999999999"):
            yield words[:at] + [word] + words[at + 1:]
    for job in (
        # no attempt; a live one that is not before it; chunks of another size; an end that is no more than the horizon, or too far
        "0 59 164 4096 0 0 0 0", "1 59 164 4096 1 9 9 1", "1 59 164 4096 2 9 9 1", "1 59 164 4097 0 0 0 0", "1 59 164 2048 0 0 0 0",
        "1 59 164 0 0 0 0 0", "1 59 59 4096 0 0 0 0", "1 164 59 4096 0 0 0 0", f"1 59 {2 ** 62 + 1} 4096 0 0 0 0",
        # a horizon before the old one; a live attempt without an old horizon, or one without the other
        "2 59 164 4096 1 60 9 1", "2 59 164 4096 1 0 9 1", "2 59 164 4096 0 9 9 1",
    ):
        yield job.split()


@check
def words_of_a_worker_that_are_no_job(bed):
    folder = bed.store(*FIRST, chunk=4096)
    before = sorted(os.listdir(folder))
    count = 0
    for job in wrong_jobs():
        bed.call("worker", folder, *job).must(USAGE)
        count += 1
    for words in (["worker"], ["worker", "--help"], ["worker", folder, "--help"], ["worker", "--", folder], ["worker", folder, *JOB.split(), "-x"]):
        bed.call(*words).must(USAGE)
    same(sorted(os.listdir(folder)), before, "the folder")
    return f"{count} jobs: status 2, nothing said, nothing made"


def table_of(folder):
    """Writes the table of branches behind the end, as a collection does that begins, and no slot that names it: the end behind it."""
    _, slot = records.live_slot(folder)
    last = records.spelled(records.table(records.branches_of(records.records_of(folder, slot))))
    records.append(folder, slot, last)
    return slot.end + len(last)


@check
def worker_by_hand(bed):
    folder = bed.store(*FIRST, chunk=4096)
    same(table_of(folder), 164, "the end behind the table")
    _, slot = records.live_slot(folder)
    wanted = records.pair_of(records.records_of(folder, slot._replace(end=164)), 59, 164)
    control, chunk = content(folder), content(folder, "chunk.0")
    for name in (folder, folder + "/", os.path.relpath(folder, bed.base)):
        bed.call("worker", name, *JOB.split(), cwd=bed.base).must(DONE)
        same(content(folder, "prefix.1"), wanted[0], "prefix.1")
        same(content(folder, "mapping.1"), wanted[1], "mapping.1")
        same(content(folder, "done.1"), b"IPDONE01", "done.1")
        same((content(folder), content(folder, "chunk.0")), (control, chunk), "control and the chunk")
        put(folder, "prefix.1", b"\xff" * 1000)
        put(folder, "mapping.1", b"")
    serve = bed.start(folder)
    same(serve.ask("stat"), "stat 0 1 1 idle", "stat")
    bed.call("worker", folder, *JOB.split()).must(DONE)
    same(content(folder, "prefix.1"), wanted[0], "prefix.1")
    same(serve.end(), (DONE, ""), "the end of serve")
    return "status 0, nothing said, the pair of docs/FORMAT.md and the done file; over what was there of it, and while the store is served"


@check
def worker_over_files_that_are_not_whole(bed):
    folder = bed.store(*FIRST, chunk=4096)
    table_of(folder)
    chunk = content(folder, "chunk.0")
    for data in (b"", chunk[:100], chunk[:163], chunk[:59] + b"\x09" + chunk[60:], None):
        os.remove(os.path.join(folder, "chunk.0"))
        if data is not None:
            put(folder, "chunk.0", data)
        bed.call("worker", folder, *JOB.split()).must(DAMAGED, error=JOB_FAULT)
        same(content(folder, "done.1"), None, "done.1")
    put(folder, "chunk.0", chunk)
    # A live pair that is not there, or not as the job has it.
    for job in ("2 59 164 4096 1 6 6 1", "2 59 164 4096 1 6 7 1", "2 59 164 4096 1 6 6 2"):
        bed.call("worker", folder, *job.split()).must(DAMAGED, error=JOB_FAULT)
    bed.call("worker", bed.folder(), *JOB.split()).must(DAMAGED, error=JOB_FAULT)
    bed.call("worker", bed.path("none"), *JOB.split()).must(DISK)
    same(sorted(name for name in os.listdir(bed.base) if name == "none"), [], "the folder that is not there")
    return "a chunk that is cut or absent, a record that is none, a pair that is not there: status 4 and no done file; no folder: status 7"


@check
def worker_by_closed_streams(bed):
    folder = bed.store(*FIRST, chunk=4096)
    table_of(folder)
    for streams in ([0], [1], [2], [0, 1, 2]):
        bed.call("worker", folder, *JOB.split(), **closing(*streams)).must(DONE)
        same(content(folder, "done.1"), b"IPDONE01", "done.1")
        need(content(folder, "prefix.1") == content(folder, "chunk.0")[:59], "prefix.1 is not as it should be")
    return "each of the three, and all: status 0, and the files as they should be"


# Collections


def collected(serve, floor):
    """A collection that ends well, and what the store says then."""
    same(serve.ask("finish"), f"collected {floor}", "the collection")
    return serve.ask("stat")


@check
def collection_by_many_names(bed):
    for name, folder in (("serve", bed.store(*FIRST)), ("relative", bed.store(*FIRST)), ("link", bed.store(*FIRST))):
        place = {"serve": folder, "relative": os.path.relpath(folder, bed.base), "link": bed.path("a link")}[name]
        if name == "link":
            os.symlink(folder, place)
        lines = script("set a 02", "commit more 1 a m", "branch-rm main", "collect more", "finish", "cat more a", "stat")
        ended = bed.serve(place, lines, cwd=bed.base).must(DONE, None)
        same(ended.out.splitlines()[-3:], [b"collected 1", b"value 02", b"stat 1 2 1 idle"], f"the last replies, {name}")
        same(sorted(os.listdir(folder)), ["chunk.0", "control", "mapping.1", "prefix.1"], f"the folder, {name}")
    return "a whole name, a relative one and a link: collected, and only the live pair and the chunks are there"


@check
def input_that_ends_in_a_collection(bed):
    folder = bed.store(*SOME)
    for turn in range(20):
        ended = bed.serve(folder, script("collect dev" if turn % 2 else "collect main")).must(DONE, None)
        need(ended.out.startswith((b"started ", b"held ")), f"the reply is {ended.out!r}")
    bed.serve(folder, script("stat", "branch-rm dev", "collect main", "finish", "stat")).must(DONE, None)
    _, slot = records.live_slot(folder)
    must, _ = records.names_of(slot)
    same(sorted(os.listdir(folder)), sorted(must), "the folder")
    return "20 times the child is ended with it: the store is idle again, and the next collection sweeps what it left"


def full_for_the_child(bed, folder, room, **how):
    """A collection whose child finds no room, and what the store does then: it goes on, and collects when there is room again."""
    serve = bed.start(folder, **how)
    before = serve.ask("stat")
    lines = ["cat main k0", "cat main k5", "log main", "show main"]
    told = [serve.ask(line) for line in lines]
    room(False)
    started = serve.ask("collect main")
    need(started.startswith("started "), f"collect is answered {started!r:.100}")
    same(serve.ask("finish"), f"rejected exit {DISK}", "the collection")
    same(serve.ask("stat"), before, "stat behind it")
    same([serve.ask(line) for line in lines], told, "what is held behind it")
    same(serve.ask("finish"), "idle", "another finish")
    room(True)
    same(serve.ask("checkout main")[:3], "at ", "checkout behind it")
    same(serve.ask("set more 01"), "ok", "set behind it")
    same(serve.ask("commit main 9 a more")[:10], "committed ", "a commit behind it")
    same(serve.end(), (DONE, ""), "the end")
    serve = bed.start(folder)
    need(serve.ask("collect main").startswith("started "), "it can't be collected behind it")
    floor = int(before.split()[2])
    same(collected(serve, floor), f"stat {floor} {floor + 1} 1 idle", "stat behind a collection")
    same(serve.end(), (DONE, ""), "the end")
    _, slot = records.live_slot(folder)
    must, _ = records.names_of(slot)
    same(sorted(name for name in os.listdir(folder) if name != "ballast"), sorted(must), "the folder")


def large_tree(bed, folder, chunk):
    """Fills a store with two commits, the later of which needs 60,000 bytes from before it."""
    bed.call("init", folder, "--chunk", str(chunk)).must(DONE)
    lines = [f"set k{at} {at:02x}{'ab' * 4999}" for at in range(12)] + ["commit main 0 a m", "set k0 00", "commit main 1 a m"]
    bed.serve(folder, script(*lines)).must(DONE, None)


@check
def files_of_a_child_that_may_not_grow(bed):
    folder = bed.folder()
    large_tree(bed, folder, 4096)
    full_for_the_child(bed, folder, lambda there: None, **limited(20000))
    return f"a limit of files' sizes, which the child has too: `rejected exit {DISK}`; the store goes on, and collects when it is gone"


@check
def full_disk_of_a_child(bed):
    if os.geteuid() != 0:
        raise Skip("only root may mount a small disk")
    folder = bed.path("disk")
    with small_disk(bed, folder, "400k"):
        large_tree(bed, folder, 4096)
        ballast = os.path.join(folder, "ballast")

        def room(there):
            if there:
                os.remove(ballast)
                return
            free = os.statvfs(folder)
            # Room for the table of branches, and for the first pages of what the child writes.
            put(folder, "ballast", bytes(free.f_bavail * free.f_frsize - 16384))

        full_for_the_child(bed, folder, room)
    return f"a disk of 400 KiB: `rejected exit {DISK}`; the store goes on, and collects when something else was removed"


@check
def child_that_can_not_be_started(bed):
    folder = bed.store(*FIRST)
    program = bed.path("program")
    shutil.copy(bed.program, program)
    bed.program = program
    serve = bed.start(folder)
    same(serve.ask("stat"), "stat 0 1 1 idle", "stat")
    os.remove(program)
    same(serve.ask("collect main"), "start-fault", "collect")
    same(serve.ask("look"), "idle", "look behind it")
    same(serve.ask("set b 02"), "ok", "set behind it")
    same(serve.ask("commit other 1 a m")[:10], "committed ", "a commit behind it")
    same(serve.ask("stat"), "stat 0 2 2 idle", "stat behind it")
    same(serve.end(), (DONE, ""), "the end")
    same(records.live_slot(folder)[1].attempt, 2, "the next attempt")
    return "a program that was removed meanwhile: `start-fault`, the attempt is spent, and the store goes on"


@check
def names_of_the_program(bed):
    place = bed.folder()
    shutil.copy(bed.program, os.path.join(place, "named"))
    os.symlink(os.path.join(place, "named"), bed.path("a link"))
    path = {**os.environ, "PATH": place + os.pathsep + os.environ.get("PATH", "")}
    real = bed.program
    for name, how, wanted in (
        (os.path.join(place, "named"), {}, b"collected 0"), ("./named", {"cwd": place}, b"collected 0"), ("named", {"env": path}, b"collected 0"),
        (bed.path("a link"), {}, b"collected 0"), ("no such program", {"executable": real}, b"idle"), ("", {"executable": real}, b"idle"),
    ):
        bed.program = real
        folder = bed.store(*FIRST)
        bed.program = name
        told = bed.serve(folder, script("collect main", "finish"), **how).must(DONE, None).out.splitlines()
        same(told[1], wanted, f"finish, called as {name!r}")
        need((told[0] == b"start-fault") == (wanted == b"idle"), f"collect, called as {name!r}: {told[0]!r}")
    return "whole, relative, in the search path, a link: collected; called by a name that is no program: `start-fault`"


@check
def collection_with_closed_error(bed):
    folder = bed.store(*FIRST)
    bed.serve(folder, script("collect main", "finish", "stat"), **closing(2)).must(DONE, None)
    same(sorted(os.listdir(folder)), ["chunk.0", "control", "mapping.1", "prefix.1"], "the folder")
    return "standard error is closed: collected"


@check
def collection_where_children_are_not_kept(bed):
    folder = bed.store(*FIRST)
    serve = bed.start(folder, preexec_fn=lambda: signal.signal(signal.SIGCHLD, signal.SIG_IGN))
    need(serve.ask("collect main").startswith("started "), "no child was started")
    same(serve.ask("finish"), "wait-fault", "finish")
    same(serve.ask("stat"), "stat 0 1 1 at 0", "stat")
    same(serve.ask("cancel"), "cancelled orphan", "cancel")
    same(serve.ask("stat"), "stat 0 1 1 idle", "stat behind it")
    same(serve.end(), (DONE, ""), "the end")
    serve = bed.start(folder)
    need(serve.ask("collect main").startswith("started "), "no child was started behind it")
    same(collected(serve, 0), "stat 0 1 1 idle", "stat behind a collection")
    same(serve.end(), (DONE, ""), "the end")
    return "SIGCHLD is ignored: `wait-fault`, then `cancelled orphan`; a later run collects"


@check
def little_memory_in_a_collection(bed):
    folder = bed.folder()
    large_tree(bed, folder, 4096)
    lines, floors, statuses, seen = script("collect main", "finish", "stat"), [0, 1], set(), set()
    for size in range(2 << 20, 16 << 20, 1 << 18):
        limit = {"preexec_fn": lambda: resource.setrlimit(resource.RLIMIT_AS, (size, size))}
        ended = subprocess.run([bed.program, "serve", folder], input=lines, capture_output=True, **limit)
        if ended.returncode in (127, -signal.SIGSEGV, -signal.SIGKILL):
            need(not statuses, f"{size} bytes: status {ended.returncode} behind {statuses}")
            continue
        statuses.add(ended.returncode)
        need(ended.returncode in (DONE, MEMORY), f"{size} bytes: status {ended.returncode}")
        told = ended.stdout.decode().splitlines()
        if told:
            need(re.fullmatch(r"started [0-9a-f]{64}|memory|start-fault", told[0]), f"{size} bytes: collect is answered {told[0]!r}")
            need(re.fullmatch(r"collected 1|memory|idle|rejected exit (8|127|signal)", told[1]), f"{size} bytes: finish is answered {told[1]!r}")
            seen.add(told[1])
            floors = [1] if told[1] == "collected 1" else floors
        now = int(bed.serve(folder, script("stat")).must(DONE, None).out.split()[1])
        need(now in floors, f"{size} bytes: the floor is {now}")
        bed.serve(folder, script("cat main k0")).must(DONE, b"value 00\n")
    need(DONE in statuses and "collected 1" in seen, f"statuses {statuses}, replies {seen}")
    return f"statuses {sorted(statuses)}, and `finish` is answered {sorted(seen)}: nothing is lost"


# Children that are another program


def with_child(bed, program, act):
    """From now on this program is called, but its child does these lines of a shell in its place: $d is the folder there, and $n the attempt."""
    if not os.path.exists("/bin/bash"):
        raise Skip("there is no shell")
    path = bed.path("program")
    with open(path, "w") as file:
        file.write(f"#!/bin/bash\nprogram='{program}'\nif [ \"$1\" = worker ]; then d=$2; n=$3\n{act}\nfi\nexec -a \"$0\" \"$program\" \"$@\"\n")
    os.chmod(path, stat.S_IRWXU)
    bed.program = path


# The work of a child as it should be, in lines of a shell.
WORK = "\"$program\" \"$@\" || exit $?\n"

# What children do over a store of one commit, and what `finish` is answered then. The pair of that store has 59 and 56 bytes.
WRONG_CHILDREN = [
    ("exit 3", "rejected exit 3"),
    ("exit 255", "rejected exit 255"),
    ("kill -TERM $$", "rejected exit signal"),
    ("exit 0", "rejected mapping 0 49 none"),
    (WORK + "truncate -s 0 $d/mapping.$n", "rejected mapping 0 49 end"),
    (WORK + "truncate -s 55 $d/mapping.$n", "rejected mapping 55 00 end"),
    (WORK + "printf x >> $d/mapping.$n", "rejected mapping 56 end 78"),
    (WORK + "rm $d/prefix.$n", "rejected prefix 0 01 none"),
    (WORK + "truncate -s 58 $d/prefix.$n", "rejected prefix 58 00 end"),
    (WORK + "printf '\\377' | dd of=$d/prefix.$n bs=1 seek=58 conv=notrunc 2> /dev/null", "rejected prefix 58 00 ff"),
    (WORK + "printf '\\0' >> $d/prefix.$n", "rejected prefix 59 end 00"),
    (WORK + "rm $d/done.$n", "collected 0"),
    (WORK, "collected 0"),
]


@check
def children_that_are_wrong(bed):
    program = bed.program
    for act, wanted in WRONG_CHILDREN:
        with_child(bed, program, act + "\nexit 0")
        folder = bed.store(*FIRST, chunk=4096)
        serve = bed.start(folder)
        need(serve.ask("collect main").startswith("started "), "no child was started")
        same(serve.ask("finish"), wanted, f"finish behind a child that does `{act[-60:]}`")
        same(serve.ask("stat"), "stat 0 1 1 idle", "stat")
        same(serve.ask("cat main a"), "value 01", "cat")
        with_child(bed, program, WORK + "exit 0")
        need(serve.ask("collect main").startswith("started "), "no child was started behind it")
        same(collected(serve, 0), "stat 0 1 1 idle", "stat behind a collection")
        same(serve.end(), (DONE, ""), "the end")
        live = records.live_slot(folder)[1].live
        same(sorted(os.listdir(folder)), ["chunk.0", "control", f"mapping.{live}", f"prefix.{live}"], "the folder")
    return f"{', '.join(wanted for _, wanted in WRONG_CHILDREN)}: nothing is lost, and the next collection ends well"


@check
def files_of_a_child(bed):
    program, told = bed.program, bed.path("told")
    # What it was given is told before it does anything: the shell's own script is the one file besides.
    with_child(bed, program, f"stat -c %N /proc/$$/fd/* > '{told}'\nprintf '%s\\n' \"$@\" > '{told}.words'\nexec \"$program\" \"$@\"")
    folder = bed.store(*FIRST, chunk=4096)
    serve = bed.start(folder)
    need(serve.ask("collect main").startswith("started "), "no child was started")
    same(serve.ask("finish"), "collected 0", "the collection")
    same(serve.end(), (DONE, ""), "the end")
    same(content(bed.base, "told.words").decode().split(), ["worker", folder, "1", "59", "164", "4096", "0", "0", "0", "0"], "its words")
    held = dict(re.findall(r"/fd/(\d+)' -> '(.*)'", content(bed.base, "told").decode()))
    same([held.pop(number, None) for number in "012"], [os.devnull] * 3, "its streams")
    same([name for name in held.values() if name != bed.program], [], "what else it has open")
    return "it is called by worker DIR and eight numbers; its streams are the null device, and it has no file of the program"


@check
def child_that_has_no_end(bed):
    program = bed.program
    with_child(bed, program, "exec sleep 1000")
    folder = bed.store(*FIRST)
    serve = bed.start(folder)
    for line, wanted in (("cancel", "cancelled"), (None, None)):
        need(serve.ask("collect main").startswith("started "), "no child was started")
        child = killing.child_of(serve.process.pid)
        same([serve.ask("look") for _ in range(3)], ["running"] * 3, "looks")
        same(serve.ask("stat"), "stat 0 1 1 at 0", "stat")
        if line is not None:
            same(serve.ask(line), wanted, line)
        else:
            same(serve.end(), (DONE, ""), "the end")
        need(killing.is_ended(child), "the child goes on")
    serve = bed.start(folder)
    need(serve.ask("collect main").startswith("started "), "no child was started")
    child = killing.child_of(serve.process.pid)
    serve.process.stdout.close()
    serve.send(script("stat"))
    same(serve.waited(), (WRITE, LINES[WRITE]), "the end where nobody reads")
    need(killing.is_ended(child), "the child goes on behind a fault")
    bed.program = program
    serve = bed.start(folder)
    need(serve.ask("collect main").startswith("started "), "no child was started")
    same(collected(serve, 0), "stat 0 1 1 idle", "stat behind a collection")
    same(serve.end(), (DONE, ""), "the end")
    return "`look` is answered `running`; it is ended by `cancel`, by the end of the input, and where a reply can't be said"


# Generated lines


def load_lines(seed, count):
    """The lines that `load` runs: a state of 64 bits begins as the seed, and each word is the upper half of the next one."""
    state = seed

    def word():
        nonlocal state
        state = (state * 6364136223846793005 + 1442695040888963407) % 2 ** 64
        return state >> 32

    for at in range(1, count + 1):
        kind, directory, key, value = word(), word(), word(), word()
        path = f"d{directory % 8}/k{key % 64}"
        kind %= 16
        if kind <= 8:
            yield f"set {path} {value:08x}"
        else:
            yield {
                9: f"rm {path}",
                10: f"get {path}",
                11: f"commit main {at} load line",
                12: f"commit side {at} load line",
                13: "checkout main" if directory % 2 == 0 else "checkout side",
                14: "branch side main",
                15: f"merge side main {at} load line",
            }[kind]


def summary(replies):
    """What `load` says of these replies, without what `stat` is answered."""
    counts = {}
    for reply in replies:
        word = reply.split(" ")[0]
        counts[word] = counts.get(word, 0) + 1
    return " ".join([f"load {len(replies)}"] + [f"{word} {counts[word]}" for word in sorted(counts)])


@check
def load_of_a_line(bed):
    for seed, wanted in ((1, ("load 1 committed 1", "stat 0 1 1 idle")), (0, ("load 1 no-branch 1", "stat 0 0 0 idle"))):
        bed.call("load", bed.store(), str(seed), "1").must(DONE, script(*wanted))
    return "seed 1 commits, and seed 0 finds no branch"


@check
def words_of_load(bed):
    folder = bed.store()
    wrong = [[], ["1"], ["00", "1"], ["0", "0"], ["0", "1000001"], ["01", "1"], ["1", "01"], ["-1", "1"], ["1", "-1"], ["+1", "1"], ["1", "x"]]
    wrong += [["", "1"], ["1", ""], ["18446744073709551616", "1"], ["1", "18446744073709551617"], ["1", "1", "1"], ["1", "1", "--help"]]
    for words in wrong:
        bed.call("load", folder, *words).must(USAGE)
    same(content(folder, "chunk.0"), None, "a chunk")
    bed.call("load").must(USAGE)
    bed.call("load", bed.folder(), "1", "1").must(NO_STORE)
    bed.call("load", bed.path("none"), "1", "1").must(DISK)
    put(folder, "control", b"\xa5" + bytes(255))
    bed.call("load", folder, "1", "1").must(DAMAGED, error="ipstore: damaged control 0\n")
    greatest = bed.store()
    bed.call("load", greatest, str(2 ** 64 - 1), "3").must(DONE, None)
    return f"{len(wrong)} calls: status 2, nothing said, nothing made; no store: 3, no folder: 7, a slot that is not whole: 4"


@check
def load_and_its_streams(bed):
    wanted = script("load 1 committed 1", "stat 0 1 1 idle")
    bed.call("load", bed.store(), "1", "1", input=b"stat\nfrob").must(DONE, wanted)
    bed.call("load", bed.store(), "1", "1", **closing(0)).must(DONE, wanted)
    folder = bed.store()
    bed.call("load", folder, "1", "1", **closing(1)).must(WRITE)
    bed.serve(folder, script("stat")).must(DONE, b"stat 0 1 1 idle\n")
    served = bed.start(folder)
    same(served.ask("stat"), "stat 0 1 1 idle", "stat")
    bed.call("load", folder, "1", "1").must(DISK, error=LINES[DISK])
    same(served.end(), (DONE, ""), "the end of serve")
    return "its input is not read; a closed output: status 6 behind what was kept; beside a serve: status 7"


@check
def load_of_many_lines(bed):
    count = 20000
    lines = list(load_lines(1, count))
    folder = bed.store()
    ended = bed.serve(folder, script(*lines, "stat"), timeout=LONG).must(DONE, None)
    *replies, told = ended.out.decode().splitlines()
    wanted = script(summary(replies), told)
    need(re.fullmatch(r"stat 0 \d+ 2 idle", told), f"stat is answered {told!r}")
    for _ in range(2):
        other = bed.store()
        bed.call("load", other, "1", str(count), timeout=LONG).must(DONE, wanted)
        same(sorted(os.listdir(other)), sorted(os.listdir(folder)), "the folder")
        for name in os.listdir(folder):
            need(content(other, name) == content(folder, name), f"{name} is another than that of serve on the same lines")
    return f"{wanted.decode().splitlines()[0]}: the same twice, with the counts and the files of serve on those lines"
