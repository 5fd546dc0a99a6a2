"""Checks of what stands under the names of a store: what a child leaves in the place of its three files, while it is looked at and behind
that, and what stands there when a store is opened. No link is followed, nothing is waited for, and nothing is lost."""

import contextlib
import os
import random
import re
import shutil
import stat
import subprocess
import sys
import time

import common
import killing
import records
from bed import DAMAGED, DISK, DONE, Skip, check, content, need, put, same, script
from edges_collections import WORK, with_child

# The first commit's record begins with the second chunk: the prefix of a collection at it has the bytes of the first one.
LINES = [f"set a {'ab' * 4038}", "commit base 0 a m", "set d/b 0203", "commit main 1 a m"]
QUESTIONS = ["stat", "branches", "log main", "log base", "show main", "show base", "cat main a", "cat main d/b", "cat base a", "checkout main", "list /"]

KINDS = ("prefix", "mapping", "done")

# What `finish` is answered where a file counts as absent.
ABSENT = {"mapping": "rejected mapping 0 49 none", "prefix": "rejected prefix 0 01 none"}

# A reply comes at once, also where a file has 8 TB: within so many seconds.
AT_ONCE = 10

NOBODY = 65534

# In lines of a shell: $f is the name, $d the folder, $n the attempt, $o a folder elsewhere.
LEFT = {
    "a link to a copy elsewhere": "mv $f $o/copy; ln -s $o/copy $f",
    "a link to a copy in the folder": "mv $f $d/copy; ln -s copy $f",
    "a dead link": "rm $f; ln -s nowhere $f",
    "a link to itself": "rm $f; ln -s ${f##*/} $f",
    "a link to a folder": "rm $f; ln -s . $f",
    "a link to a fifo": "rm $f; mkfifo $o/fifo; ln -s $o/fifo $f",
    "a link to the terminal": "rm $f; ln -s /dev/tty $f",
    "a link to zeros": "rm $f; ln -s /dev/zero $f",
    "a link to a full device": "rm $f; ln -s /dev/full $f",
    "a second name elsewhere": "ln $f $o/second",
    "a second name in the folder": "ln $f $d/second",
    "a fifo": "rm $f; mkfifo $f",
    "a fifo with a writer": "rm $f; mkfifo $f; exec 5<>$f; sleep 1 1>&5 &",
    "a socket": "rm $f; $python -c 'import socket, sys; socket.socket(socket.AF_UNIX).bind(sys.argv[1])' $f",
    "an empty folder": "rm $f; mkdir $f",
    "a program that runs": "rm $f; cp $(command -v sleep) $f; chmod 755 $f; $f 1 & until [ $(readlink /proc/$!/exe) = $f ]; do :; done",
}

# The same, by root alone.
DEVICES = {
    "the null device": "rm $f; mknod $f c 1 3",
    "a terminal": "rm $f; mknod $f c 5 0",
    "a serial line": "rm $f; mknod $f c 4 64",
    "a disk": "rm $f; mknod $f b 7 0",
}


# Stores


def first_store(bed):
    """A store that was never collected."""
    folder = bed.store(*LINES, chunk=4096)
    same(records.offset_of(records.records_of(folder, records.live_slot(folder)[1]), 0), 4096, "the place of the first commit")
    return folder


def collected_store(bed):
    """The same, with a live pair."""
    folder = first_store(bed)
    bed.serve(folder, script("collect base", "finish")).must(DONE, None)
    same(records.live_slot(folder)[1].live, 1, "the live attempt")
    same(content(folder, "chunk.0"), None, "the first chunk")
    return folder


def copied(bed, store, user=None):
    """A copy of this store, and a folder elsewhere."""
    folder, outside = bed.folder(), bed.folder()
    shutil.copytree(store, folder, dirs_exist_ok=True)
    if user is not None:
        os.chmod(bed.base, 0o755)
        for place in (folder, outside, *(os.path.join(folder, name) for name in os.listdir(folder))):
            os.chown(place, user, user)
    return folder, outside


def by(user):
    """As which user a program is run."""
    return {} if user is None else {"user": user, "group": user, "extra_groups": []}


def ask(serve, line, wanted, what):
    begun = time.monotonic()
    same(serve.ask(line), wanted, what)
    need(time.monotonic() - begun < AT_ONCE, f"{what}: `{line}` takes {time.monotonic() - begun:.1f} s")


def collects(serve, wanted, what):
    need(serve.ask("collect base").startswith("started "), f"{what}: no child was started")
    ask(serve, "finish", wanted, what)


def goes_on(bed, folder, told, left, what, user=None):
    """The store is opened, read whole and collected, and once more where what can't be removed was removed."""
    wanted = "collected 0 left 1" if left else "collected 0"
    serve = bed.start(folder, **by(user))
    same([serve.ask(line) for line in QUESTIONS], told, f"{what}: the store, opened again")
    collects(serve, wanted, f"{what}: the collection behind it")
    same(serve.end(), (DONE, ""), f"{what}: the end")
    for name in left:
        removed(os.path.join(folder, name))
    serve = bed.start(folder, **by(user))
    collects(serve, "collected 0", f"{what}: the last collection")
    same([serve.ask(line) for line in QUESTIONS], told, f"{what}: the store, collected again")
    same(serve.end(), (DONE, ""), f"{what}: the end")
    must, _ = records.names_of(records.live_slot(folder)[1])
    same(sorted(set(os.listdir(folder)) - {"copy", "second"}), sorted(must), f"{what}: the folder")


def removed(place):
    """Removes what the store could not remove."""
    subprocess.run(["chattr", "-i", place], capture_output=True)
    if os.path.isdir(place):
        shutil.rmtree(place)
    else:
        os.remove(place)


def act_of(outside, kind, lines):
    """The lines of a child that does its work and then this with one of its files."""
    return f"{WORK}o='{outside}'; f=$d/{kind}.$n; python='{sys.executable}'\n({lines}) > /dev/null 2>&1\nexit 0"


def leaves(bed, program, store, kind, lines, wanted, left=False, user=None):
    """A child that leaves this in the place of one of its files, and all that comes behind it."""
    folder, outside = copied(bed, store, user)
    attempt = records.live_slot(folder)[1].attempt
    what = f"`{lines}` of {kind}.{attempt}"
    with_child(bed, program, act_of(outside, kind, lines))
    os.chmod(bed.program, 0o755)
    serve = bed.start(folder, **by(user))
    told = [serve.ask(line) for line in QUESTIONS]
    collects(serve, wanted + (" left 1" if left and wanted.startswith("collected") else ""), what)
    same([serve.ask(line) for line in QUESTIONS], told, f"{what}: the store behind it")
    with_child(bed, program, WORK + "exit 0")
    os.chmod(bed.program, 0o755)
    collects(serve, "collected 0" + (" left 1" if left else ""), f"{what}: the next collection")
    same(serve.end(), (DONE, ""), f"{what}: the end")
    goes_on(bed, folder, told, [f"{kind}.{attempt}"] if left else [], what, user)
    bed.program = program


def both_stores(bed):
    return first_store(bed), collected_store(bed)


def absent(*kinds):
    """What `finish` is answered where these files count as absent."""
    return next((ABSENT[kind] for kind in ("mapping", "prefix") if kind in kinds), "collected 0")


@check
def children_that_leave_something_else(bed):
    program, count = bed.program, 0
    things = {**LEFT, **(DEVICES if may_make_devices(bed) else {})}
    for store in both_stores(bed):
        for lines in things.values():
            for kind in KINDS:
                leaves(bed, program, store, kind, lines, absent(kind))
                count += 1
    return f"{len(things)} things in the place of each file, of a first attempt and of one beside a live pair: {count} times as if it were absent, nothing lost"


def may_make_devices(bed):
    try:
        os.mknod(bed.path("device"), stat.S_IFCHR | 0o600, os.makedev(1, 3))
    except OSError:
        return False
    return True


@check
def children_that_leave_links_to_the_store(bed):
    program, count = bed.program, 0
    for store in both_stores(bed):
        attempt = records.live_slot(store)[1].attempt
        targets = [*sorted(os.listdir(store)), *(f"{kind}.{attempt}" for kind in KINDS)]
        for kind in KINDS:
            for target in targets:
                if target == f"{kind}.{attempt}":
                    continue
                own = target.split(".")[0] if target.endswith(f".{attempt}") and target.split(".")[0] in KINDS else kind
                for lines, wanted in (
                    (f"rm $f; ln -s {target} $f", absent(kind)), (f"rm $f; ln -s $d/{target} $f", absent(kind)), (f"rm $f; ln $d/{target} $f", absent(kind, own)),
                ):
                    leaves(bed, program, store, kind, lines, wanted)
                    count += 1
    return f"to each file of the store, symbolic and hard, of each file of a child: {count} times as if it were absent, nothing lost"


@check
def children_that_leave_folders(bed):
    program = bed.program
    for store in both_stores(bed):
        for kind in KINDS:
            for lines in ("rm $f; mkdir $f; echo x > $f/x", "rm $f; mkdir -p $f/x/y"):
                leaves(bed, program, store, kind, lines, absent(kind), left=True)
    return "with something in them, in the place of each file: as if it were absent, and each `collected` says `left 1` until it is removed by hand"


@check
def children_that_leave_what_none_may_change(bed):
    program, tried = bed.program, bed.path("tried")
    put(bed.base, "tried", b"")
    if shutil.which("chattr") is None or subprocess.run(["chattr", "+i", tried], capture_output=True).returncode:
        raise Skip("no file can be kept from being changed")
    removed(tried)
    for store in both_stores(bed):
        for kind in KINDS:
            leaves(bed, program, store, kind, "chattr +i $f", "collected 0" if kind == "done" else absent(kind), left=True)
    return "the whole file, as one that nobody may change or remove: the pair as if it were absent, and each `collected` says `left 1`"


@check
def children_that_leave_much_of_nothing(bed):
    program, size = bed.program, 8 << 40
    try:
        with open(bed.path("sparse"), "wb") as file:
            file.truncate(size)
    except OSError as why:
        raise Skip(f"no file may have 8 TB: {why}") from why
    for store in both_stores(bed):
        for kind, behind, blank in (
            ("prefix", "rejected prefix 4096 end 00", "rejected prefix 0 01 00"), ("mapping", "rejected mapping 56 end 00", "rejected mapping 0 49 00"),
            ("done", "collected 0", "collected 0"),
        ):
            leaves(bed, program, store, kind, f"truncate -s {size} $f", behind)
            leaves(bed, program, store, kind, f"rm $f; truncate -s {size} $f", blank)
    return "8 TB of which none is written, behind the valid file and alone: rejected at once, at the first byte that is another"


@check
def children_that_leave_no_permission(bed):
    program = bed.program
    user = NOBODY if os.geteuid() == 0 else None
    if user is not None and subprocess.run([program], capture_output=True, **by(user)).returncode != 2:
        raise Skip("nobody may run the program")
    for store in both_stores(bed):
        for kind in KINDS:
            for mode in ("000", "400", "200"):
                leaves(bed, program, store, kind, f"chmod {mode} $f", "collected 0" if kind == "done" else absent(kind), user=user)
    return "none, none to write, none to read, not as root: as if it were absent"


@check
def children_that_find_something_else(bed):
    program = bed.program
    for store in both_stores(bed):
        attempt = records.live_slot(store)[1].attempt
        for kind in KINDS:
            for target in [*sorted(os.listdir(store)), "nowhere", None]:
                folder, _ = copied(bed, store)
                place = os.path.join(folder, f"{kind}.{attempt}")
                if target is None:
                    os.mkdir(place)
                else:
                    os.symlink(target, place)
                before = {name: content(folder, name) for name in os.listdir(folder) if name != f"{kind}.{attempt}"}
                serve = bed.start(folder)
                told = [serve.ask(line) for line in QUESTIONS]
                need(serve.ask("collect base").startswith("started "), "no child was started")
                killing.ended(killing.child_of(serve.process.pid))
                after = {name: content(folder, name) for name in before}
                need(all(after[name] == before[name] for name in before if name != "control" and not name.startswith("chunk")), "a file was changed")
                ask(serve, "finish", "collected 0", f"{kind} that is there before")
                same(serve.end(), (DONE, ""), "the end")
                goes_on(bed, folder, told, [], f"{kind} -> {target}")
    bed.program = program
    return "a link or an empty folder that stands under a child's names before it begins is removed, and what it points to stays"


# Opening


@contextlib.contextmanager
def instead(folder, outside, name, what):
    """Something else stands under this name meanwhile: the file itself lies in another folder."""
    place, kept = os.path.join(folder, name), os.path.join(outside, name)
    os.rename(place, kept)
    if what == "link":
        os.symlink(kept, place)
    elif what == "dead link":
        os.symlink("nowhere", place)
    elif what == "fifo":
        os.mkfifo(place)
    elif what == "folder":
        os.mkdir(place)
    elif what == "terminal":
        os.symlink("/dev/tty", place)
    else:
        os.mknod(place, stat.S_IFSOCK | 0o600)
    yield
    if what == "folder":
        os.rmdir(place)
    else:
        os.remove(place)
    os.rename(kept, place)


def fails(bed, *words):
    """A call that ends at once with a disk fault."""
    begun = time.monotonic()
    ended = bed.call(*words, timeout=AT_ONCE)
    need(ended.status == DISK and ended.error.startswith("ipstore: disk fault"), f"{words}: status {ended.status}, {ended.error!r}")
    need(time.monotonic() - begun < AT_ONCE, f"{words}: it takes {time.monotonic() - begun:.1f} s")


@check
def names_that_are_something_else_at_opening(bed):
    store, count = collected_store(bed), 0
    for name in ("control", "chunk.1", "prefix.1", "mapping.1"):
        for what in ("link", "dead link", "fifo", "folder", "terminal", "socket"):
            folder, outside = copied(bed, store)
            with instead(folder, outside, name, what):
                fails(bed, "serve", folder)
                fails(bed, "load", folder, "1", "1")
                if name == "control":
                    fails(bed, "init", folder)
                count += 1
            same({each: content(folder, each) for each in os.listdir(folder)}, {each: content(store, each) for each in os.listdir(store)}, "the files")
            serve = bed.start(folder)
            told = [serve.ask(line) for line in QUESTIONS]
            same(serve.end(), (DONE, ""), "the end")
            goes_on(bed, folder, told, [], f"{name}, a {what} before")
    return f"the control file, a chunk and the live pair, as six other things: {count} times status 7 at once, nothing changed"


@check
def second_names_at_opening(bed):
    folder, outside = copied(bed, collected_store(bed))
    for name in os.listdir(folder):
        os.link(os.path.join(folder, name), os.path.join(outside, name))
    serve = bed.start(folder)
    told = [serve.ask(line) for line in QUESTIONS]
    same(serve.end(), (DONE, ""), "the end")
    goes_on(bed, folder, told, [], "second names of all files")
    return "a second name of each file, as a child may make one: served and collected"


@check
def live_pairs_that_are_changed(bed):
    store, count = collected_store(bed), 0
    user = NOBODY if os.geteuid() == 0 else None
    for name, words in (("prefix.1", "ipstore: damaged prefix.1 0\n"), ("mapping.1", "ipstore: damaged mapping.1 0\n")):
        folder, outside = copied(bed, store)
        size = os.path.getsize(os.path.join(folder, name))
        with contextlib.suppress(OSError):
            os.truncate(os.path.join(folder, name), 8 << 40)
            begun = time.monotonic()
            bed.serve(folder, script("stat")).must(DAMAGED, error=words)
            need(time.monotonic() - begun < AT_ONCE, f"8 TB at {name} take {time.monotonic() - begun:.1f} s")
            count += 1
        os.truncate(os.path.join(folder, name), size)
        bed.serve(folder, script("cat main d/b", "collect base", "finish")).must(DONE, None)
        if user is not None and subprocess.run([bed.program], capture_output=True, **by(user)).returncode != 2:
            continue
        for mode in (0o000, 0o400, 0o200):
            folder, outside = copied(bed, store, user)
            os.chmod(os.path.join(folder, name), mode)
            before = sorted(os.listdir(folder))
            bed.serve(folder, script("stat"), **by(user)).must(DISK).because(f"ipstore: open {name}: no permission")
            same(sorted(os.listdir(folder)), before, "the files")
            os.chmod(os.path.join(folder, name), 0o600)
            bed.serve(folder, script("cat main d/b", "collect base", "finish"), **by(user)).must(DONE, None)
            count += 1
    return f"8 TB of nothing behind each file, and files that may not be opened: {count} times its status at once, and it goes on with the file as it was"


@check
def done_files_of_the_live_attempt(bed):
    store = collected_store(bed)
    for what, left in (("link", []), ("dead link", []), ("fifo", []), ("folder", []), ("terminal", []), ("socket", []), ("full folder", ["done.1"])):
        folder, outside = copied(bed, store)
        put(folder, "done.1", b"")
        with contextlib.ExitStack() as stack:
            stack.enter_context(instead(folder, outside, "done.1", what.split()[-1] if "folder" in what else what))
            if left:
                put(os.path.join(folder, "done.1"), "x", b"")
            serve = bed.start(folder)
            told = [serve.ask(line) for line in QUESTIONS]
            same(serve.end(), (DONE, ""), "the end")
            stack.pop_all()
        goes_on(bed, folder, told, left, f"done.1, a {what}")
    return "seven other things: the store is opened, and the next collection removes them, or says `left 1` until it can"


@check
def folders_that_are_something_else(bed):
    for name, make in (("fifo", os.mkfifo), ("socket", lambda place: os.mknod(place, stat.S_IFSOCK | 0o600)), ("dead", lambda place: os.symlink("nowhere", place))):
        make(bed.path(name))
        for words in (["init"], ["serve"], ["load"], ["worker"]):
            numbers = {"load": ["1", "1"], "worker": "1 59 164 4096 0 0 0 0".split()}.get(words[0], [])
            fails(bed, *words, bed.path(name), *numbers)
    return "a fifo, a socket, a dead link in the place of DIR: status 7 at once"


@check
def folders_that_begin_with_a_dash(bed):
    for name in ("-", "-x", "--", "--help", "-x y", "--chunk=4096"):
        os.mkdir(bed.path(name))
        bed.call("init", "--chunk", "4096", "--", name, cwd=bed.base).must(DONE)
        for turn in range(2):
            lines = [*(LINES if turn == 0 else []), "collect base", "finish", "cat base a", "stat"]
            ended = bed.call("serve", "--", name, input=script(*lines), cwd=bed.base).must(DONE, None)
            same(ended.out.splitlines()[-3::2], [b"collected 0", b"stat 0 2 2 idle"], f"the replies of {name}")
        must, _ = records.names_of(records.live_slot(bed.path(name))[1])
        same(sorted(os.listdir(bed.path(name))), sorted(must), f"the folder {name}")
        bed.call("serve", "./" + name, input=script("collect base", "finish"), cwd=bed.base).must(DONE, None)
    return "six names: served, and collected by a child that is told the folder with ./ in front"


# Names that change while they are looked at


# Swaps names with others for some milliseconds, a step each so many microseconds: SECONDS PAUSE NAME OTHER ..
SWAP = """
import ctypes, os, sys, time
swap = ctypes.CDLL(None).renameat2
seconds, pause, pairs = float(sys.argv[1]), float(sys.argv[2]), [os.fsencode(word) for word in sys.argv[3:]]
until, steps = time.monotonic() + seconds, 0
while time.monotonic() < until or steps % 2 != int(os.environ["ODD"]):
    for one, other in zip(pairs[::2], pairs[1::2]):
        swap(-100, one, -100, other, 2)
    steps += 1
    time.sleep(pause)
with open(os.environ["STEPS"], "w") as file:
    file.write(str(steps))
"""

# What stands there by turns with the plain file; $g is the name that it has meanwhile.
BY_TURNS = [
    "cp $f $o/copy.$k; ln -s $o/copy.$k $g", "ln -s nowhere $g", "mkfifo $g", "mkdir $g", "mkdir -p $g/x", "ln -s $d/control $g", "ln -s $d/chunk.1 $g",
    "ln -s $d/chunk.0 $g", "ln -s $d/prefix.1 $g", "ln -s $d/mapping.1 $g", "ln $d/control $g", "ln $d/chunk.1 $g", "cp $f $g", "ln -s /dev/tty $g",
]


def swapping(bed, draw, outside, behind):
    """The lines of a child that swaps some of its names as it goes on, or leaves that to a process behind it."""
    kinds = draw.sample(KINDS, draw.randint(1, 3))
    lines, words = [], []
    for at, kind in enumerate(kinds):
        lines += [f"f=$d/{kind}.$n; g=$o/other.{at}; k={at}", draw.choice(BY_TURNS)]
        words.append(f"$d/{kind}.$n $o/other.{at}")
    put(outside, "swap.py", SWAP.encode())
    # A process behind the child ends with the plain files in their places, since no other pair may be taken for the valid one then.
    odd = 0 if behind else draw.randint(0, 1)
    seconds = draw.uniform(0.02, 0.3)
    run = f"ODD={odd} STEPS=$o/steps '{sys.executable}' $o/swap.py {seconds:.3f} {draw.choice([0, 0.0001, 0.0005])} {' '.join(words)}"
    lines.append(f"{run} &\nsleep {draw.uniform(0, 0.1):.3f}" if behind else run)
    return WORK + f"o='{outside}'\n" + "\n".join(lines) + "\nexit 0"


def concluded(serve, looks):
    """The reply by which a collection ends, after so many looks at most. Where a name is another file's when the pair is synced, the call ends."""
    reply = None
    try:
        while looks and (reply is None or reply == "running" or reply.startswith("checking ")):
            reply = serve.ask("look")
            looks -= 1
        if reply is None or reply == "running" or reply.startswith("checking "):
            reply = serve.ask("finish")
    except common.Ended as ended:
        same((ended.status, ended.error), (DISK, "ipstore: disk fault\n"), "the end")
        return "status 7"
    return reply


def race(bed, program, store, seed, behind):
    """One child that swaps, and all that comes behind it: the reply to `finish`, and how many swaps there were."""
    draw = random.Random(seed)
    folder, outside = copied(bed, store)
    with_child(bed, program, swapping(bed, draw, outside, behind))
    serve = bed.start(folder)
    told = [serve.ask(line) for line in QUESTIONS]
    need(serve.ask("collect base").startswith("started "), "no child was started")
    reply = concluded(serve, draw.randint(0, 2000))
    if not (behind and reply == "status 7"):
        need(re.fullmatch(r"(collected 0|rejected (mapping 0 49|prefix 0 01) none)( left [1-3])?", reply), f"seed {seed}: it is answered {reply!r}")
        same([serve.ask(line) for line in QUESTIONS], told, f"seed {seed}: the store behind it")
        same(serve.end(), (DONE, ""), f"seed {seed}: the end")
    until = time.monotonic() + AT_ONCE
    while content(outside, "steps") is None:
        need(time.monotonic() < until, "the swaps have no end")
        time.sleep(0.01)
    bed.program = program
    for name in records.names_of(records.live_slot(folder)[1])[0] ^ set(os.listdir(folder)):
        if os.path.isdir(os.path.join(folder, name)):
            shutil.rmtree(os.path.join(folder, name))
    goes_on(bed, folder, told, [], f"seed {seed}")
    shutil.rmtree(folder)
    return reply.split(" left")[0], int(content(outside, "steps"))


def races(bed, behind, count):
    program, stores, seen, steps = bed.program, both_stores(bed), {}, 0
    for seed in range(count):
        reply, made = race(bed, program, stores[seed % 2], seed, behind)
        seen[reply] = seen.get(reply, 0) + 1
        steps += made
    return f"{count} times, {steps} swaps: {', '.join(f'`{reply}` {n}' for reply, n in sorted(seen.items()))}; the store was read whole each time"


@check
def children_that_swap_names(bed):
    return races(bed, False, 120)


@check
def processes_that_swap_names_behind_a_child(bed):
    return races(bed, True, 120)


# Calls


def calls_of(log, folder):
    """The calls that each traced process made, in their order: its words, and each call's name, file and text."""
    base = os.path.basename(log)
    for name in sorted(os.listdir(os.path.dirname(log))):
        if name.startswith(base + "."):
            with open(os.path.join(os.path.dirname(log), name)) as file:
                yield [call_of(line, folder) for line in file if "(" in line]


def call_of(line, folder):
    path = re.search(r'"((?:[^"\\]|\\.)*)"', line)
    name = path.group(1) if path else ""
    inside = name[len(folder) + 1:] if name.startswith(folder + "/") else None
    return line.split("(")[0], inside, line


def judge_opens(calls):
    """Each open of a name of the store makes the file anew, or the name was looked at right before and is a plain file. It never waits."""
    opens = 0
    for at, (call, name, line) in enumerate(calls):
        if call in ("open", "creat", "openat2") and name:
            raise AssertionError(line)
        if call != "openat" or not name or not re.fullmatch(r"control|(chunk|prefix|mapping|done)\.[0-9]+", name):
            continue
        opens += 1
        need("O_CLOEXEC" in line and "O_NOCTTY" in line and "O_RDWR" in line and "O_TRUNC" not in line, f"an open by other flags: {line}")
        if "O_CREAT" in line:
            need("O_EXCL" in line, f"an open that may follow: {line}")
            continue
        before = calls[at - 1]
        need(before[1] == name and "AT_SYMLINK_NOFOLLOW" in before[2] and "S_IFREG" in before[2], f"{line} behind {before[2]}")
    return opens


def served_under_strace(bed, folder, lines):
    log = bed.path(f"log{bed.made}")
    words = ["strace", "-ff", "-o", log, "-e", "trace=open,openat,creat,openat2,statx,newfstatat,stat,lstat,execve"]
    ended = subprocess.run([*words, bed.program, "serve", folder], input=script(*lines), capture_output=True, timeout=60)
    need(ended.returncode == DONE, f"status {ended.returncode}: {ended.stderr[-300:]!r}")
    return ended.stdout.decode().splitlines(), list(calls_of(log, folder))


@check
def opens_that_are_made(bed):
    if shutil.which("strace") is None:
        raise Skip("there is no strace")
    program, opens, processes = bed.program, 0, 0
    folder = bed.store(*LINES, chunk=4096)
    large = [f"set k{at} {at:02x}{'cd' * 4999}" for at in range(30)] + ["commit main 2 a m"]
    for lines in (["collect base", "finish"], [*large, "collect base", "look", "finish"], ["collect base", "finish", *QUESTIONS, "cat main k3"]):
        for calls in served_under_strace(bed, folder, lines)[1]:
            opens += judge_opens(calls)
            processes += 1
    scenes = 0
    for store in both_stores(bed):
        attempt = records.live_slot(store)[1].attempt
        for kind in KINDS:
            for lines in LEFT.values():
                folder, outside = copied(bed, store)
                with_child(bed, program, act_of(outside, kind, lines))
                replies, told = served_under_strace(bed, folder, ["collect base", "finish"])
                same(replies[1], absent(kind), f"`{lines}` of {kind}")
                for calls in told:
                    if any("execve" == call and '"serve"' in line for call, _, line in calls):
                        judge_opens(calls)
                        name = f"{kind}.{attempt}"
                        opened = [line for call, its, line in calls if call == "openat" and its == name and "ETXTBSY" not in line]
                        need(not opened, f"`{lines}`: {opened}")
                        scenes += 1
    bed.program = program
    return f"{opens} opens of {processes} processes: each name was looked at right before, or the file is made anew; {scenes} things of a child: not opened"
