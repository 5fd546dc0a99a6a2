"""Checks of words, folders and streams: what a call is asked, where, and what it is given to read and to write on."""

import os

from bed import (
    DISK, DONE, EXISTS, LINES, NO_STORE, QUESTIONS, READ, SOME, Skip, UNFINISHED, USAGE, WRITE,
    check, closing, content, need, new_control, put, replies, replies_after_opening, same, script,
)


# Words, and making a store


@check
def init_in_an_empty_folder(bed):
    folder = bed.folder()
    bed.call("init", folder).must(DONE)
    same(content(folder), new_control(), "control")
    return "status 0, nothing said, control has its 256 bytes"


@check
def second_init(bed):
    folder = bed.store(*SOME)
    before = content(folder)
    bed.call("init", folder).must(EXISTS)
    bed.call("init", folder, "--chunk", "4096").must(EXISTS)
    same(content(folder), before, "control")
    return "status 11, control as it was"


@check
def init_beside_other_files(bed):
    folder = bed.folder()
    put(folder, "notes", b"mine")
    put(folder, "control", b"")
    bed.call("init", folder).must(DONE)
    same(content(folder), new_control(), "control")
    same(content(folder, "notes"), b"mine", "the other file")
    return "an empty control file and a strange file: status 0, and the other file stays"


@check
def chunk_sizes(bed):
    for size in (4096, 8192, 1 << 30):
        for words in (["{}", "--chunk", size], ["--chunk", size, "{}"], ["{}", f"--chunk={size}"], [f"--chunk={size}", "{}"]):
            folder = bed.folder()
            bed.call("init", *(str(word).format(folder) for word in words)).must(DONE)
            same(content(folder), new_control(size), f"control of {words}")
            bed.serve(folder, script("stat")).must(DONE, replies("stat"))
    return "4096, 8192 and 2^30, before and behind DIR, with a space and with =: in the control file"


# Words


def wrong_words(folder):
    """Words that are no command; where one of them names a folder, it is an empty one that is there."""
    sizes = ["5000", "04096", "2048", "2147483648", "4097", "0", "1", "", "+4096", "-4096", "4096x", " 4096", "0x1000", "4e3"]
    sizes += ["18446744073709551616", "18446744073709555712", "4096.0", "4_096"]
    yield from ([], [""], ["frob"], ["--help"], ["-h"], ["help"], ["help", "init"], ["--version"], ["-V"], ["init"], ["serve"])
    yield from (["init", "--help"], ["serve", "--help"], ["init", folder, "--help"], ["serve", folder, "-h"], ["frob", folder])
    yield from (["INIT", folder], ["init ", folder], ["ini", folder], ["serv", folder], ["-init", folder])
    yield from (["init", folder, folder], ["serve", folder, folder], ["serve", folder, "--chunk", "4096"])
    yield from (["init", "--chunk", "4096"], ["init", folder, "--chunk"], ["init", folder, "--chunks", "4096"], ["init", "-x"])
    yield from (["serve", "-x"], ["init", folder, "-x"], ["--chunk", "4096", "init"], ["init", folder, "frob", "--chunk", "4096"])
    yield from (["init", folder, "--chunk", "4096", "--chunk", "4096"], ["init", "--", folder, "--chunk", "4096"], ["serve", "--", folder, folder])
    yield from (["init", folder, "--chunk", size] for size in sizes)
    yield from (["init", folder, f"--chunk={size}"] for size in sizes)


@check
def words_that_are_no_command(bed):
    folder = bed.folder()
    seen = 0
    for words in wrong_words(folder):
        bed.call(*words, input=script("stat")).must(USAGE)
        seen += 1
    same(os.listdir(folder), [], "the folder")
    return f"{seen} calls: status 2, the line of that last on standard error, nothing said, nothing made"


@check
def folders_behind_two_dashes(bed):
    base = bed.folder()
    os.mkdir(os.path.join(base, "-d"))
    for words in ["init", "--chunk", "4096", "--", "-d"], ["init", "--", "-d"], ["serve", "--", "-d"]:
        status = EXISTS if words == ["init", "--", "-d"] else DONE
        bed.call(*words, cwd=base).must(status)
    same(content(os.path.join(base, "-d")), new_control(4096), "control")
    return "a folder whose name begins with a dash is made a store and served"


@check
def strange_words(bed):
    root = content("/", "control")
    calls = [[b"\xff"], [b"\xff", b"x"], [b"init", b"\xff\xfe"], [b"serve", b"\xff\xfe"], [b"init", b""], [b"serve", b""]]
    calls += [[b"init", b"x" * 5000], [b"serve", b"x" * 5000], [b"init", b"d\n"], [b"serve", b"a" * 100000]]
    calls += [[b"init", bed.folder().encode(), b"--chunk=\xff"]]
    statuses = []
    for words in calls:
        ended = bed.call(*words, cwd=bed.base)
        need(ended.status in (USAGE, DISK), f"{words!r:.100}: status {ended.status}")
        ended.must(ended.status)
        statuses.append(ended.status)
    same(content("/", "control"), root, "a control file in the root folder")
    return f"words that are no UTF-8, empty or long: statuses {statuses}"


@check
def names_of_folders(bed):
    folder = bed.store(*SOME)
    asked, told = script(*QUESTIONS), replies_after_opening()
    os.symlink(folder, bed.path("link"))
    os.rename(folder, bed.path("with a space é"))
    os.symlink(bed.path("with a space é"), folder)
    for name in (folder, folder + "/", bed.path("link"), os.path.relpath(folder, bed.base), "./with a space é", "with a space é/."):
        bed.serve(name, asked, cwd=bed.base).must(DONE, told)
    bed.serve(".", asked, cwd=folder).must(DONE, told)
    return "relative, with a slash, a space, a letter beyond ASCII, through links, and `.`"


@check
def serve_in_an_empty_folder(bed):
    folder = bed.folder()
    bed.serve(folder, script("stat")).must(NO_STORE)
    same(os.listdir(folder), [], "the folder")
    return "status 3, nothing made"


@check
def folder_that_is_not_there(bed):
    for name in ("none", "none/such"):
        bed.call("init", bed.path(name)).must(DISK)
        bed.serve(bed.path(name), script("stat")).must(DISK)
    same(os.listdir(bed.base), [], "the folder above")
    return "init and serve: status 7, nothing made"


@check
def folder_that_is_a_file(bed):
    put(bed.base, "file", b"mine")
    for name in ("file", "file/in"):
        bed.call("init", bed.path(name)).must(DISK)
        bed.serve(bed.path(name), script("stat")).must(DISK)
    same(content(bed.base, "file"), b"mine", "the file")
    return "init and serve: status 7, the file as it was"


@check
def control_that_is_a_folder(bed):
    folder = bed.folder()
    os.mkdir(os.path.join(folder, "control"))
    bed.serve(folder, script("stat")).must(DISK)
    bed.call("init", folder).must(DISK)
    return "init and serve: status 7"


@check
def control_without_permission(bed):
    if os.geteuid() == 0:
        raise Skip("root may read all")
    folder = bed.store(*SOME)
    os.chmod(os.path.join(folder, "control"), 0)
    bed.serve(folder, script("stat")).must(DISK)
    bed.call("init", folder).must(DISK)
    os.chmod(os.path.join(folder, "control"), 0o600)
    bed.serve(folder, script(*QUESTIONS)).must(DONE, replies_after_opening())
    return "init and serve: status 7, and all is there when it may be read again"


@check
def folder_without_permission(bed):
    if os.geteuid() == 0:
        raise Skip("root may write everywhere")
    folder = bed.folder()
    os.chmod(folder, 0o500)
    bed.call("init", folder).must(DISK)
    os.chmod(folder, 0o700)
    same(os.listdir(folder), [], "the folder")
    return "init: status 7, nothing made"


# Streams


@check
def closed_output(bed):
    folder = bed.store(*SOME)
    before = content(folder), content(folder, "chunk.0")
    bed.serve(folder, script("stat"), **closing(1)).must(WRITE)
    bed.serve(folder, script("set a 00", "commit dev 1 a m"), **closing(1)).must(WRITE)
    bed.serve(folder, b"", **closing(1)).must(DONE)
    same((content(folder), content(folder, "chunk.0")), before, "the files")
    bed.serve(folder, script("commit new 1 a m", "commit more 2 a m"), **closing(1)).must(WRITE)
    bed.serve(folder, script("stat")).must(DONE, b"stat 0 4 3 idle\n")
    return "status 6 where a reply is said, 0 where none is; the files stay, but for a commit that was made"


@check
def init_with_closed_streams(bed):
    for streams in ([0], [1], [2], [0, 1], [0, 2], [1, 2], [0, 1, 2]):
        folder = bed.folder()
        bed.call("init", folder, **closing(*streams)).must(DONE)
        same(content(folder), new_control(), f"control, with {streams} closed")
    return "each of the three streams, and all: status 0, control as it should be"


@check
def output_that_nobody_reads(bed):
    folder = bed.store(*SOME)
    before = content(folder)
    reader, writer = os.pipe()
    os.close(reader)
    with open(writer, "wb") as sink:
        bed.serve(folder, script("stat"), stdout=sink).must(WRITE)
    same(content(folder), before, "control")
    return "status 6, and no signal"


@check
def output_whose_reader_goes_away(bed):
    folder = bed.store()
    serve = bed.start(folder)
    same(serve.ask("commit main 1 a m")[:10], "committed ", "the first reply")
    serve.process.stdout.close()
    serve.send(script("stat", "stat", "commit main 2 a m"))
    same(serve.waited(), (WRITE, LINES[WRITE]), "the end")
    bed.serve(folder, script("stat")).must(DONE, b"stat 0 1 1 idle\n")
    return "behind a reply that was read: status 6, and what was acknowledged is there"


@check
def full_output(bed):
    if not os.path.exists("/dev/full"):
        raise Skip("there is no /dev/full")
    folder = bed.store(*SOME)
    before = content(folder)
    with open("/dev/full", "wb") as sink:
        bed.serve(folder, script("stat"), stdout=sink).must(WRITE)
        bed.serve(folder, b"", stdout=sink).must(DONE)
    same(content(folder), before, "control")
    return "/dev/full: status 6, control as it was"


@check
def closed_input(bed):
    folder = bed.store(*SOME)
    before = content(folder), content(folder, "chunk.0")
    seen = []
    for streams in ([0], [0, 1], [0, 1, 2]):
        ended = bed.serve(folder, script("stat"), **closing(*streams))
        need(ended.status in (DONE, READ) and ended.out == b"", f"{streams} closed: {ended.status}, {ended.out!r}")
        seen.append(ended.status)
        same((content(folder), content(folder, "chunk.0")), before, "the files")
    return f"no reply, statuses {seen}, the files as they were"


@check
def input_that_can_not_be_read(bed):
    folder = bed.store(*SOME)
    source = os.open(folder, os.O_RDONLY)
    try:
        bed.serve(folder, stdin=source).must(READ)
    finally:
        os.close(source)
    return "a folder as the input: status 5"


@check
def closed_error(bed):
    folder, empty = bed.store(*SOME), bed.folder()
    before = content(folder)
    calls = [(["init", folder], EXISTS), (["serve", empty], NO_STORE), (["frob"], USAGE), (["init", bed.path("none")], DISK)]
    for words, status in calls:
        bed.call(*words, **closing(2)).must(status, error="")
        bed.call(*words, **closing(1, 2)).must(status, error="")
        if os.path.exists("/dev/full"):
            with open("/dev/full", "wb") as sink:
                bed.call(*words, stderr=sink).must(status, error="")
    bed.serve(folder, b"stat", **closing(2)).must(UNFINISHED, error="")
    same(content(folder), before, "control")
    same(os.listdir(empty), [], "the empty folder")
    return "the same statuses, with standard error closed and full; control as it was"
