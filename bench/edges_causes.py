"""Checks of what a person is told: why a call of the system failed, and which words there are."""

import os
import resource
import signal
import subprocess

from bed import DISK, DONE, EXISTS, READ, SOME, Skip, USAGE, WRITE, check, closing, content, need, put, same, script
from edges_stores import small_disk

JOB = "1 59 164 4096 0 0 0 0"

NOBODY = 65534


def calls_on(folder):
    """One call of each kind that opens the folder."""
    return ["init", folder], ["serve", folder], ["load", folder, "1", "1"], ["worker", folder, *JOB.split()]


def limit(which, size):
    """A limit of the shell's, as a user sets it: SIGXFSZ ends whoever does not see to it."""
    def set_limit():
        signal.signal(signal.SIGXFSZ, signal.SIG_DFL)
        resource.setrlimit(getattr(resource, which), (size, size))

    return {"preexec_fn": set_limit}


def as_nobody(bed):
    """Runs as a user who may do nothing, where that can be tried."""
    if os.geteuid() != 0:
        raise Skip("only root can become another user")
    os.chmod(bed.base, 0o755)

    def become():
        os.setgroups([])
        os.setgid(NOBODY)
        os.setuid(NOBODY)

    if subprocess.run([bed.program, "init", "/nonexistent"], capture_output=True, preexec_fn=become, check=False).returncode != DISK:
        raise Skip("another user may not run the program")
    return {"preexec_fn": become}


@check
def cause_no_folder(bed):
    for words in calls_on(bed.path("none")):
        bed.call(*words).must(DISK).because("ipstore: open folder: no such folder")
    same(sorted(name for name in os.listdir(bed.base) if name == "none"), [], "the folder that is not there")
    return "four calls"


@check
def cause_file_in_the_place_of_the_folder(bed):
    put(bed.base, "file", b"no folder")
    for name in ("file", "file/below"):
        for words in calls_on(bed.path(name)):
            bed.call(*words).must(DISK).because("ipstore: open folder: not a folder")
    same(content(bed.base, "file"), b"no folder", "the file")
    return "a file, and a path through it"


@check
def cause_served_by_another_process(bed):
    folder = bed.store(*SOME)
    serve = bed.start(folder)
    serve.ask("stat")
    for words in calls_on(folder)[:3]:
        bed.call(*words).must(DISK).because("ipstore: open control: another process serves this store")
    same(serve.end(), (DONE, ""), "the end of the first")
    bed.serve(folder, script("stat")).must(DONE, None).because()
    return "init, serve and load while it is served; later they go on"


@check
def cause_no_permission(bed):
    how = as_nobody(bed)
    folder = bed.store(*SOME)
    os.chmod(folder, 0o700)
    for words in calls_on(folder):
        bed.call(*words, **how).must(DISK).because("ipstore: open folder: no permission")
    os.chmod(folder, 0o755)
    os.chmod(os.path.join(folder, "control"), 0o600)
    bed.serve(folder, **how).must(DISK).because("ipstore: open control: no permission")
    os.chmod(os.path.join(folder, "control"), 0o666)
    os.chmod(os.path.join(folder, "chunk.0"), 0o600)
    bed.serve(folder, **how).must(DISK).because("ipstore: open chunk.0: no permission")
    fresh = bed.folder()
    os.chmod(fresh, 0o755)
    bed.call("init", fresh, **how).must(DISK).because("ipstore: open control: no permission")
    return "a folder, its control file and its chunk that another user may not open, and a folder in which he may make nothing"


@check
def cause_read_only(bed):
    if os.geteuid() != 0:
        raise Skip("only root may mount a disk")
    folder = bed.path("disk")
    with small_disk(bed, folder, "400k"):
        bed.call("init", folder).must(DONE)
        bed.serve(folder, script(*SOME)).must(DONE, None)
        subprocess.run(["mount", "-o", "remount,ro", folder], check=True)
        bed.serve(folder, script("stat")).must(DISK).because("ipstore: open control: read-only file system")
        bed.call("init", folder).must(DISK).because("ipstore: open control: read-only file system")
    return "a disk that may not be written"


@check
def cause_no_space(bed):
    if os.geteuid() != 0:
        raise Skip("only root may mount a disk")
    folder = bed.path("disk")
    with small_disk(bed, folder, "64k"):
        bed.call("init", folder).must(DONE)
        lines = script(f"set a {'00' * 200000}", "commit main 1 a m")
        bed.serve(folder, lines).must(DISK, b"ok\n").because("ipstore: write chunk.0: no space left")
        bed.serve(folder, script("stat")).must(DONE, b"stat 0 0 0 idle\n").because()
    return "a disk of 64 KiB that is full: no reply, and the store is as it was"


@check
def cause_too_many_files(bed):
    folder = bed.store(*SOME)
    bed.serve(folder, script("stat"), **limit("RLIMIT_NOFILE", 4)).must(DISK).because("ipstore: open control: too many open files")
    bed.serve(folder, script("stat"), **limit("RLIMIT_NOFILE", 6)).must(DONE, None).because()
    return "a limit of 4 files, and one of 6, by which it goes"


@check
def cause_limit_of_a_file(bed):
    folder, tight = bed.store(*SOME), limit("RLIMIT_FSIZE", 100)
    before = content(folder), content(folder, "chunk.0")
    past = "past the limit of a file's size"
    bed.serve(folder, script("stat"), **tight).must(DONE, None).because()
    bed.serve(folder, script("commit other 1 a m"), **tight).must(DISK).because(f"ipstore: write chunk.0: {past}")
    same((content(folder), content(folder, "chunk.0")), before, "the files")
    bed.call("init", bed.folder(), **tight).must(DISK).because(f"ipstore: write control: {past}")
    size = len(before[1])
    lines = script("set z 00", "commit other 1 a m")
    bed.serve(folder, lines, **limit("RLIMIT_FSIZE", size + 1)).must(DISK, b"ok\n").because(f"ipstore: write chunk.0: {past}")
    bed.serve(folder, lines, **limit("RLIMIT_FSIZE", size + 1000)).must(DONE, None).because()
    return "as `ulimit -f` sets it: status 7 and no signal, the files as they were"


@check
def cause_child_of_a_limited_collection(bed):
    folder = bed.store(*(line for k in range(40) for line in (f"set k{k} {'00' * 500}", f"commit main {k} a m")), chunk=4096)
    serve = bed.start(folder, **limit("RLIMIT_FSIZE", 4096))
    need(serve.ask("collect main").startswith("started "), "the start")
    same(serve.ask("finish"), "rejected exit 7", "the finish where the prefix gets too long")
    same(serve.end(), (DONE, ""), "the end")
    return "a child whose files may not grow so long ends with status 7"


@check
def cause_folder_in_the_place_of_a_file(bed):
    folder = bed.store(*SOME)
    os.rename(os.path.join(folder, "chunk.0"), bed.path("chunk.0"))
    os.mkdir(os.path.join(folder, "chunk.0"))
    call = bed.serve(folder, script("stat"))
    call.must(DISK)
    need(len(call.causes) == 1 and call.causes[0].startswith("ipstore: open chunk.0: "), f"the cause: {call.causes!r}")
    return f"status 7: {call.causes[0].strip()}"


@check
def cause_of_output(bed):
    folder = bed.store(*SOME)
    if os.path.exists("/dev/full"):
        with open("/dev/full", "wb") as sink:
            bed.serve(folder, script("stat"), stdout=sink).must(WRITE, None).because("ipstore: write output: no space left")
    ends = os.pipe()
    os.close(ends[0])
    try:
        bed.serve(folder, script("stat"), stdout=ends[1]).must(WRITE, None).because("ipstore: write output: nobody reads it")
    finally:
        os.close(ends[1])
    return "a full device, and a pipe that nobody reads"


@check
def cause_of_input(bed):
    folder = bed.store(*SOME)
    source = os.open(folder, os.O_RDONLY)
    try:
        bed.serve(folder, stdin=source).must(READ).because("ipstore: read input: a folder stands there")
    finally:
        os.close(source)
    return "a folder as the input"


@check
def cause_of_a_child_that_is_not_started(bed):
    folder = bed.store(*SOME)
    words = [bed.path("nowhere/ipstore"), "serve", folder]
    ended = subprocess.run(words, executable=bed.program, input=script("collect main", "look"), capture_output=True, check=False)
    same((ended.returncode, ended.stdout, ended.stderr), (DONE, b"start-fault\nidle\n", b"ipstore: start child: no such file\n"), "the call")
    return "a program that is not found by its own first word: start-fault, and why, behind the end"


@check
def init_beside_what_is_there(bed):
    folder = bed.store(*SOME, "collect main", "finish")
    os.remove(os.path.join(folder, "control"))
    before = {name: content(folder, name) for name in os.listdir(folder)}
    need({"chunk.0", "prefix.1", "mapping.1"} <= set(before), f"the files: {sorted(before)}")
    bed.call("init", folder).must(DONE).because()
    for name, data in before.items():
        same(content(folder, name), data, name)
    lines = ["stat", "set a 01", "commit main 0 a m", "collect main", "finish", "cat main a"]
    out = bed.serve(folder, script(*lines)).must(DONE, None).out.decode().splitlines()
    same((out[0], out[4], out[5]), ("stat 0 0 0 idle", "collected 0", "value 01"), "the replies")
    bed.call("init", folder).must(EXISTS).because()
    return "a control file that was lost: init makes an empty store, leaves the other files, and they count for nothing"


@check
def words_that_there_are(bed):
    folder = bed.store(*SOME)
    wanted = None
    for words in (["--help"], ["-h"], ["help"], [], ["frob"], ["serve"], ["init", folder, "--chunk", "5000"], ["serve", folder, "x"], ["serve", "--help"]):
        call = bed.call(*words).must(USAGE)
        wanted = wanted or call.causes
        same(call.causes, wanted, f"the words that there are, of {words!r}")
    text = "".join(wanted)
    for form in ("init DIR [--chunk N]", "serve DIR", "load DIR SEED COUNT", "worker DIR "):
        need(f"ipstore {form}" in text, f"no {form!r} among the words")
    return f"{len(wanted)} lines in front of that of the status"


@check
def version(bed):
    for word in ("--version", "-V"):
        call = bed.call(word).must(USAGE)
        need(len(call.causes) == 1 and call.causes[0].startswith("ipstore "), f"{word}: {call.causes!r}")
    bed.call("--version", **closing(2)).must(USAGE, error="")
    return call.causes[0].strip()
