#!/usr/bin/env python3
"""Each call of the system that a run with collections makes, one after the other, fails or is where the run is killed: in the program, and in
the child that it starts. And each allocation of the program fails.

    bench/calls.py [PROGRAM] [--folder DIR] [--only NAME ..] [--every N]

It needs `strace`, which makes a call fail or kills at it. The run is a fixed script of commits, branches, collections that are finished and
one that is cancelled, over a folder with chunks of 4096 bytes. It is run once to see which calls it makes, and then once for each of
them and each way, over a fresh folder. What was said must be what a plain model (`model.py`) says, as far as it went; the exit status must
be one of that call; opened again, the store must hold what the model does after the lines that were answered, or after one more, and it
must be collected once more, behind which the folder holds what is served and nothing else. Where it is the child's call, `finish` must be
answered `rejected exit 7`, or `signal` where it was killed, and the next collection in the same run must end well.

Of an allocation, which a small library makes fail where there is a `cc`, the line is answered `memory`, or as it is without, or the run ends:
with status 5 in opening, 7 in a call on files, 8 in reading the script.

Exit status 0, or 1 with the folder kept.
"""

import collections
import os
import re
import shutil
import stat
import subprocess
import sys
import time

import common
import killing
import records
from killing import CHILD, Wrong, workers
from model import Model

LINES = [
    f"set a {'ab' * 5000}", "set d/e 00", "commit main 0 a m", "set b 01", "commit main 1 a m", "collect main", "finish", "set c 02",
    "commit main 2 a m", "branch dev main", "collect main", "set d/e 03", "commit main 3 a m", "finish", "branch-rm dev",
    f"set a {'cd' * 4500}", "commit main 4 a m", "collect main", "cancel", "collect main", "finish", "stat",
]

# A commit and a collection of it, twice: the first child is the one that is tried.
CHILD_LINES = [f"set a {'ab' * 5000}", "set d/e 00", "commit main 0 a m", "set d/e 01", "commit main 1 a m"]

# The calls that are tried of the program, with the exit status where one fails: 0 where the run goes on.
PROGRAM_CALLS = {"pwrite64": 7, "fsync": 7, "openat": 7, "pread64": 7, "unlink": 0, "write": 6, "clone3": 0, "wait4": 0, "flock": 7, "statx": 7}

# Those of the child.
CHILD_CALLS = ("pwrite64", "fsync", "openat", "pread64", "unlink", "statx")

# The lines that may want memory.
MAY_WANT = ("set", "commit", "collect", "finish", "branch", "branch-rm")

# How a run ends of which an allocation failed: in opening, in a call on files, in reading the script; or it goes on.
WANTING = (0, 5, 7, 8)

# How a call fails.
FAULTS = {"pwrite64": "ENOSPC", "clone3": "EAGAIN", "wait4": "ECHILD"}


def traced(name, how, nth, log):
    """The words before a program's that make its call of this number fail or kill it there; only tell its calls where no way is given."""
    words = ["strace", "-y", "-o", log, "-e", f"trace={name}"]
    if how == "kill":
        words += ["-e", f"inject={name}:signal=SIGKILL:when={nth}"]
    elif how == "fail":
        words += ["-e", f"inject={name}:error={FAULTS.get(name, 'EIO')}:when={nth}"]
    return words


def told_calls(log, folder):
    """Of the calls that were told: the number of each, from 1 on by its name, that is of the folder, of its output or of its child."""
    found, counts = [], {}
    with open(log) as file:
        for line in file:
            name = line.split("(")[0]
            counts[name] = counts.get(name, 0) + 1
            if folder in line or name in ("clone3", "wait4") or line.startswith("write(1<"):
                found.append((name, counts[name]))
    return found


def was_hit(log):
    """Whether the call was reached."""
    with open(log) as file:
        told = file.read()
    return "(INJECTED)" in told or "killed by SIGKILL" in told


def children_ended(folder):
    """Waits until no child runs over the folder."""
    until = time.monotonic() + CHILD
    while [attempt for attempt in workers(folder) if attempt is not None]:
        if time.monotonic() > until:
            raise Wrong("a child does not end")
        time.sleep(0.001)


# What was answered


def takes(model, line, reply):
    """Whether a line may be answered so where a call may have failed; it is done as that says."""
    if reply == "memory":
        return line.split(" ")[0] in MAY_WANT
    if reply == "start-fault" and line.startswith("collect ") or reply == "wait-fault" and line == "finish":
        return True
    if reply == "cancelled orphan" and line == "cancel":
        reply = "cancelled"
    if line == "finish" and model.collecting is not None:
        reply = re.sub(r" left [1-9][0-9]*$", "", reply)
    return model.takes(line, reply)


def followed(replies):
    """The model behind these replies, and that behind one more line, if there is one."""
    model = Model()
    for line, reply in zip(LINES, replies):
        if not takes(model, line, reply):
            raise Wrong(f"`{line[:40]}` is answered {reply[:200]!r}")
    models = [model]
    if len(replies) < len(LINES):
        models.append(model.copy())
        models[1].reply(LINES[len(replies)])
    return models


def held(serve, models):
    """The model of what the store holds, which is one of these."""
    seen = [serve.ask("stat"), serve.ask("branches")]
    for model in models:
        model.reopen()
        if seen == [model.reply("stat"), model.reply("branches")]:
            return model
    raise Wrong(f"the store holds {seen}, and not {[model.reply('stat') for model in models]}")


def ask(serve, model, line):
    """Asks for what the model says."""
    wanted, reply = model.reply(line), serve.ask(line)
    if reply != wanted:
        raise Wrong(f"`{line[:100]}` is answered {reply[:200]!r}, and not {wanted[:200]!r}")


def goes_on(program, folder, models):
    """The store holds what one of these models does, takes a commit, and is collected once more."""
    _, slot = records.live_slot(folder)
    lost = set(range(1, slot.attempt))
    strange = records.strange_files(folder, lost, slot.end + 3 * 5000, slot)
    if strange:
        raise Wrong(f"of the folder: {strange}")
    serve = common.Serve(program, folder)
    model = held(serve, models)
    for commit in model.retained():
        for path in commit.tree:
            ask(serve, model, f"cat @{commit.name} {'/'.join(path)}")
        ask(serve, model, f"show @{commit.name}")
    if "main" in model.branches:
        ask(serve, model, "checkout main")
    for line in ("set z 00", "commit main 9 a last", *(f"branch-rm {name}" for name in sorted(model.branches) if name != "main")):
        ask(serve, model, line)
    children_ended(folder)
    for line in ("collect main", "finish", "cat main z", "stat"):
        ask(serve, model, line)
    killing.must_be(serve.end(), 0)
    swept(folder, slot.first_attempt)


def swept(folder, first):
    """Behind a collection the folder holds what is served, and nothing else but what a lost child has left behind a sweep of its files."""
    _, slot = records.live_slot(folder)
    must, _ = records.names_of(slot)
    old = {name for name in os.listdir(folder) if name.split(".")[0] in ("prefix", "mapping", "done") and int(name.split(".")[1]) < first}
    past = {f"chunk.{number}" for number in range(slot.end // slot.chunk, slot.end // slot.chunk + 4)}
    there = set(os.listdir(folder)) - old - past
    if there - must or must - set(os.listdir(folder)):
        raise Wrong(f"the folder holds besides {sorted(there - must)}, and lacks {sorted(must - there)}; the slot is {slot}")


# The program's calls


def run_program(given, folder, words):
    """The status, what was said whole, and what stands on standard error, of the script under these words."""
    script = "".join(line + "\n" for line in LINES).encode()
    done = subprocess.run([*words, given.program, "serve", folder], input=script, capture_output=True, timeout=CHILD)
    return done.returncode, done.stdout.decode().split("\n")[:-1], done.stderr.decode()


def try_program(given, base, name, nth, how):
    """One call of the program: what the run says then, and what the store holds."""
    folder, log = common.new_folder(base, "store"), os.path.join(base, "log")
    common.init(given.program, folder, chunk=4096)
    status, replies, error = run_program(given, folder, traced(name, how, nth, log))
    if not was_hit(log):
        raise Wrong("the call was not made")
    wanted = -9 if how == "kill" else PROGRAM_CALLS[name]
    if status != wanted:
        raise Wrong(f"the status is {status}, and not {wanted}: {error!r}")
    if nth % 2:
        children_ended(folder)
    goes_on(given.program, folder, followed(replies))
    shutil.rmtree(folder)


def trying(what, act):
    try:
        act()
    except (Wrong, common.Ended, OSError, TimeoutError, subprocess.SubprocessError) as wrong:
        raise Wrong(f"{what}: {wrong}") from wrong


def try_each(given, who, names, found, act):
    """Each call of these names that was found, once killed there and once failing."""
    for name in names:
        numbers = [nth for its, nth in found if its == name][:: given.every]
        if given.only and name not in given.only:
            continue
        for how in ("kill", "fail"):
            for nth in numbers:
                trying(f"the {who}'s {name} of number {nth}, {how}", lambda: act(name, nth, how))
            print(f"ok    the {who}'s {name}, {len(numbers)} times: {how}", flush=True)


def try_all_of_program(given, base):
    """Each of its calls: how many there were of each name and way."""
    folder, log = common.new_folder(base, "store"), os.path.join(base, "log")
    common.init(given.program, folder, chunk=4096)
    status, replies, _ = run_program(given, folder, traced(",".join(PROGRAM_CALLS), None, 0, log))
    if status or len(replies) != len(LINES):
        raise Wrong(f"the run that is only traced ends with status {status}")
    found = told_calls(log, folder)
    shutil.rmtree(folder)
    try_each(given, "program", PROGRAM_CALLS, found, lambda name, nth, how: try_program(given, base, name, nth, how))


# The child's calls


def wrapper(given, base, words):
    """A program that is the given one, and starts its children under these words."""
    path = os.path.join(base, "program")
    quoted = " ".join(f"'{word}'" for word in words)
    with open(path, "w") as file:
        file.write(
            "#!/bin/bash\n"
            f"if [ \"$1\" = worker ] && [ \"$3\" = 1 ]; then exec {quoted} '{given.program}' \"$@\"; fi\n"
            f"exec -a \"$0\" '{given.program}' \"$@\"\n"
        )
    os.chmod(path, stat.S_IRWXU)
    return path


def try_child(given, base, name, nth, how):
    """One call of the first child: what `finish` says then, and that the next collection ends well."""
    folder, log = common.new_folder(base, "store"), os.path.join(base, "log")
    program = wrapper(given, base, traced(name, how, nth, log))
    common.init(given.program, folder, chunk=4096)
    model, serve = Model(), common.Serve(program, folder)
    for line in [*CHILD_LINES, "collect main"]:
        ask(serve, model, line)
    reply = serve.ask("finish")
    wanted = {"kill": "rejected exit signal", "fail": "rejected exit 7", None: "collected 1"}[how]
    if reply != wanted:
        raise Wrong(f"`finish` is answered {reply!r}, and not {wanted!r}")
    if how is None:
        killing.must_be(serve.end(), 0)
        return told_calls(log, folder)
    if not was_hit(log):
        raise Wrong("the call was not made")
    model.collecting = None
    for line in ("stat", "cat main a", "set f 05", "commit main 5 a m", "collect main", "finish", "cat main a", "stat"):
        ask(serve, model, line)
    killing.must_be(serve.end(), 0)
    swept(folder, 1)
    shutil.rmtree(folder)
    return []


def try_all_of_child(given, base):
    """Each of its calls."""
    found = try_child(given, base, ",".join(CHILD_CALLS), 0, None)
    shutil.rmtree(os.path.join(base, "store"))
    try_each(given, "child", CHILD_CALLS, found, lambda name, nth, how: try_child(given, base, name, nth, how))


# Allocations


def run_wanting(given, base, library, nth):
    """The run of which the allocation of this number fails, over a new store: its status, what was said, and how many allocations there were."""
    folder, told = common.new_folder(base, "store"), os.path.join(base, "log")
    common.init(given.program, folder, chunk=4096)
    status, replies, error = run_program(given, folder, ["env", f"LD_PRELOAD={library}", f"FAIL_AT={nth}", f"TOLD={told}"])
    if status not in WANTING or status == 0 and len(replies) != len(LINES):
        raise Wrong(f"the status is {status} behind {len(replies)} replies: {error!r}")
    children_ended(folder)
    goes_on(given.program, folder, followed(replies))
    shutil.rmtree(folder)
    with open(told) as file:
        return status, replies, int(file.read())


def try_allocations(given, base):
    """Each allocation of the program."""
    library = os.path.join(base, "allocations.so")
    subprocess.run(["cc", "-O1", "-shared", "-fPIC", "-o", library, os.path.join(common.HERE, "allocations.c"), "-ldl"], check=True)
    status, replies, count = run_wanting(given, base, library, 0)
    if status or "memory" in replies:
        raise Wrong(f"the run that is only counted ends with status {status}")
    ends = collections.Counter()
    for nth in range(1, count + 1, given.every):
        def act():
            status, replies, _ = run_wanting(given, base, library, nth)
            ends["memory" if "memory" in replies else f"status {status}"] += 1
        trying(f"the allocation of number {nth}", act)
    print(f"ok    of {count} allocations each that was tried failed alone: {', '.join(f'{end} {n} times' for end, n in sorted(ends.items()))}")


def main():
    parser = common.options(__doc__)
    parser.add_argument("--only", nargs="+", metavar="NAME", help="calls of these names alone")
    parser.add_argument("--every", type=int, default=1, help="try every so manieth call (default: %(default)s)")
    given = common.parsed(parser)
    common.must_have("strace")
    with common.kept_folder(given.folder) as base:
        try:
            try_all_of_program(given, base)
            try_all_of_child(given, base)
            if shutil.which("cc") and not given.only:
                try_allocations(given, base)
        except Wrong as wrong:
            print(f"FAIL  {wrong}\n  the folder is {base}")
            sys.exit(1)


if __name__ == "__main__":
    main()
