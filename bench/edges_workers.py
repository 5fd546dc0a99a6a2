"""Checks of `worker` by hand: it destroys nothing that a store needs."""

import os
import shutil
import subprocess

import common
import killing
import records
from bed import DAMAGED, DISK, DONE, Skip, check, content, need, put, same, script
from edges_collections import FIRST, JOB, JOB_FAULT, table_of

# The live attempt of a store that was collected once, as a job that reads what it was made of: the chunk holds all of it still.
COLLECTED = [*FIRST, "collect main", "finish"]


def all_of(folder):
    """Each file of a folder, and what it has."""
    return {name: content(folder, name) for name in sorted(os.listdir(folder))}


@check
def worker_of_the_live_attempt(bed):
    folder = bed.store(*COLLECTED, chunk=4096)
    bed.serve(folder, script("stat")).must(DONE, b"stat 0 1 1 idle\n")
    before = all_of(folder)
    need({"prefix.1", "mapping.1"} <= set(before), f"the files: {sorted(before)}")
    bed.call("worker", folder, *JOB.split()).must(DAMAGED, error=JOB_FAULT)
    same(all_of(folder), before, "the files")
    serve = bed.start(folder)
    same(serve.ask("stat"), "stat 0 1 1 idle", "stat")
    bed.call("worker", folder, *JOB.split()).must(DAMAGED, error=JOB_FAULT)
    same(all_of(folder), before, "the files while it is served")
    same(serve.ask("cat main a"), "value 01", "the contents")
    same(serve.end(), (DONE, ""), "the end")
    bed.serve(folder, script("cat main a", "collect main", "finish")).must(DONE, None)
    return "status 4, each file as it was, also while it is served; it is collected again"


@check
def worker_of_a_job_of_no_store(bed):
    folder = bed.store(*COLLECTED, chunk=4096)
    for name, data in (("prefix.7", b"mine"), ("mapping.7", b"mine too"), ("done.7", b"IPDONE01")):
        put(folder, name, data)
    before = all_of(folder)
    # a horizon where no record begins, an end that is no record's, another live pair, chunks of another size
    for job in ("7 60 164 4096 0 0 0 0", "7 59 163 4096 0 0 0 0", "7 59 165 4096 0 0 0 0", "7 59 164 4096 1 9 9 1", "7 59 164 8192 0 0 0 0"):
        call = bed.call("worker", folder, *job.split())
        if call.status == DONE:
            continue
        call.must(DAMAGED, error=JOB_FAULT)
        same(all_of(folder), before, f"the files behind {job}")
    bed.call("worker", bed.path("none"), *JOB.split()).must(DISK)
    return "status 4, and files that stand at the attempt's names are as they were"


@check
def worker_beside_the_store(bed):
    folder = bed.store(*COLLECTED, chunk=4096)
    _, slot = records.live_slot(folder)
    job = f"7 59 {slot.end} 4096 0 0 0 0".split()
    put(folder, "prefix.7", b"\xff" * 1000)
    put(folder, "done.7", b"")
    serve = bed.start(folder)
    same(serve.ask("stat"), "stat 0 1 1 idle", "stat")
    before = {name: data for name, data in all_of(folder).items() if not name.endswith(".7")}
    bed.call("worker", folder, *job).must(DONE)
    after = all_of(folder)
    same(after["done.7"], b"IPDONE01", "done.7")
    same(after["prefix.7"], after["chunk.0"][:59], "prefix.7")
    same({name: data for name, data in after.items() if not name.endswith(".7")}, before, "the store's files")
    same(serve.ask("cat main a"), "value 01", "the contents")
    same(serve.end(), (DONE, ""), "the end")
    return "a job that is whole, of an attempt that is not live: status 0, without the lock that serve holds"


@check
def worker_where_no_slot_is_live(bed):
    folder = bed.store(*FIRST, chunk=4096)
    table_of(folder)
    control = content(folder)
    for data in (None, b"", control[:100], bytes(256), control[:8] + b"\x09" + control[9:]):
        os.remove(os.path.join(folder, "control"))
        if data is not None:
            put(folder, "control", data)
        bed.call("worker", folder, *JOB.split()).must(DONE)
        same(content(folder, "done.1"), b"IPDONE01", "done.1")
        same(content(folder), data, "control")
        for name in ("prefix.1", "mapping.1", "done.1"):
            os.remove(os.path.join(folder, name))
        if data is None:
            put(folder, "control", b"")
    os.remove(os.path.join(folder, "control"))
    os.mkdir(os.path.join(folder, "control"))
    put(folder, "prefix.1", b"mine")
    bed.call("worker", folder, *JOB.split()).must(DISK)
    same(content(folder, "prefix.1"), b"mine", "prefix.1")
    return "a control file that is absent, short, closed or of a wrong form names none: status 0; one that can't be read: status 7, and nothing goes"


# A look compares 1024 records: a commit of so many has more.
MANY = 1500

QUESTIONS = ["stat", "branches", "show main", "cat main d3/k3", "cat main a"]


def job_beside(folder, commit):
    """The words of a worker by hand, of the attempt of the collection that goes on: at one of the commits, by number."""
    _, slot = records.live_slot(folder)
    commits = sorted(at for at, record in records.records_of(folder, slot).items() if record.kind == records.COMMIT)
    return f"{slot.attempt - 1} {commits[commit]} {slot.end} {slot.chunk} 0 0 0 0".split()


def is_whole_still(bed, folder, told, what):
    """The store is opened again, and read whole. How many commits it has given up is no matter."""
    ended = bed.serve(folder, script(*QUESTIONS, "collect main", "finish"))
    same((ended.status, ended.error), (DONE, ""), f"{what}: how it is opened again")
    replies = ended.out.decode().splitlines()
    same(replies[1:-2], told[1:], f"{what}: the store, opened again")
    need(replies[-1].startswith("collected "), f"{what}: it is collected again: {replies[-1]!r}")


@check
def worker_of_a_collection_that_is_compared(bed):
    lines = [f"set d{at % 30}/k{at} {at:04x}" for at in range(MANY)]
    for commit, what in ((1, "the job of the child"), (0, "another job")):
        folder = bed.store(*lines, "set a 01", "commit main 0 a m", *lines, "set a 02", "commit main 1 a m")
        serve = bed.start(folder)
        told = [serve.ask(line) for line in QUESTIONS]
        need(serve.ask("collect main").startswith("started "), "no child was started")
        killing.ended(killing.child_of(serve.process.pid))
        need(serve.ask("look").startswith("checking "), "one look compares all")
        bed.call("worker", folder, *job_beside(folder, commit))
        try:
            serve.ask("finish")
            same(serve.end(), (DONE, ""), f"{what}: the end")
        except common.Ended as ended:
            same((ended.status, ended.error), (DISK, "ipstore: disk fault\n"), f"{what}: the end")
        is_whole_still(bed, folder, told, what)
    return "between two looks, at the names that the store compares: nothing is lost"


@check
def worker_that_is_held_up_before_its_look(bed):
    if shutil.which("strace") is None:
        raise Skip("there is no strace")
    folder = bed.store("set a 01", "commit main 0 a m", "set d3/k3 02", "commit main 1 a m")
    serve = bed.start(folder)
    told = [serve.ask(line) for line in QUESTIONS]
    need(serve.ask("collect main").startswith("started "), "no child was started")
    killing.ended(killing.child_of(serve.process.pid))
    log = bed.path("log")
    words = ["strace", "-o", log, "-P", os.path.join(folder, "control"), "-e", "inject=pread64:delay_enter=2000000:when=1"]
    words += [bed.program, "worker", folder, *job_beside(folder, 0)]
    with subprocess.Popen(words, stderr=subprocess.DEVNULL) as worker:
        while not os.path.exists(log) or "pread64" not in open(log).read():
            need(worker.poll() is None, "the worker has ended before it was held up")
        serve.ask("finish")
        same(serve.end(), (DONE, ""), "the end")
    is_whole_still(bed, folder, told, "held up")
    return "before its look at the control file, while the store takes its attempt as the live one: nothing is lost"
