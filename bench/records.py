"""The records of a store as docs/FORMAT.md has them, and a plain collector by that alone: which files a collection has to leave. What the
program's child writes is compared with it."""

import collections
import contextlib
import os
import struct

import common

RECORD = collections.namedtuple("Record", "kind body")
LIVE = "<12Q"
FIELDS = "sequence chunk horizon end floor next live attempt prefix rows first_chunk first_attempt"
Slot = collections.namedtuple("Slot", FIELDS)

LEAF, INODE, COMMIT, BRANCH_SET, BRANCH_REMOVE, BRANCH_TABLE = 2, 3, 4, 5, 6, 7


# The files


def read(folder, name):
    with open(os.path.join(folder, name), "rb") as file:
        return file.read()


def write(folder, name, data):
    with open(os.path.join(folder, name), "wb") as file:
        file.write(data)


def live_slot(folder):
    """The index and the fields of the live slot."""
    control = read(folder, "control")
    index = common.live_slot(folder).index
    return index, Slot(*struct.unpack_from(LIVE, control, common.SLOT * index + 16))


def put_slot(folder, index, slot):
    """Writes a slot with an open gate."""
    control = bytearray(read(folder, "control"))
    data = b"\xa5" + bytes(7) + struct.pack("<II", 1, 0) + struct.pack(LIVE, *slot) + bytes(16)
    control[common.SLOT * index : common.SLOT * (index + 1)] = data
    write(folder, "control", control)


def suffix(folder, slot):
    """The bytes of the chunks from the horizon to the end."""
    return b"".join(common.pieces(folder, slot.chunk, slot.horizon, slot.end))


def stretches(folder, slot):
    """The stretches of the space, each with its offset and its bytes."""
    if slot.live:
        mapping, prefix = read(folder, f"mapping.{slot.live}"), read(folder, f"prefix.{slot.live}")
        for row in range(slot.rows):
            at, length, place = struct.unpack_from("<3Q", mapping, 32 + 24 * row)
            yield at, prefix[place : place + length]
    yield slot.horizon, suffix(folder, slot)


def records_in(at, data):
    """The records that lie end to end in these bytes, which begin at an offset: each with its own."""
    place = 0
    while place < len(data):
        length = struct.unpack_from("<I", data, place + 1)[0]
        yield at + place, RECORD(data[place], data[place + 5 : place + 5 + length])
        place += 5 + length


def records_of(folder, slot):
    """The records by offset, ascending."""
    return {at: record for start, data in stretches(folder, slot) for at, record in records_in(start, data)}


def spelled(record):
    return bytes([record.kind]) + struct.pack("<I", len(record.body)) + record.body


# The collector


def references(record):
    """The offsets that a record refers to, but for a commit's parents."""
    if record.kind == COMMIT:
        return [struct.unpack_from("<Q", record.body, 40)[0]]
    found = []
    if record.kind == LEAF:
        place = 4
        for _ in range(struct.unpack_from("<I", record.body)[0]):
            place += 1 + record.body[place] + 2 + 32
            found.append(struct.unpack_from("<Q", record.body, place)[0])
            place += 8
    elif record.kind == INODE:
        place = 5
        for _ in range(bin(struct.unpack_from("<I", record.body, 1)[0]).count("1")):
            found.append(struct.unpack_from("<Q", record.body, place + 37)[0])
            place += 45
    return found


def branches_of(records):
    """The branches that the records leave."""
    branches = {}
    for record in records.values():
        body = record.body
        if record.kind == BRANCH_SET:
            branches[body[9:]] = struct.unpack_from("<Q", body)[0]
        elif record.kind == BRANCH_REMOVE:
            branches.pop(body[1:], None)
        elif record.kind == BRANCH_TABLE:
            branches, place = {}, 2
            for _ in range(struct.unpack_from("<H", body)[0]):
                name = body[place + 1 : place + 1 + body[place]]
                place += 1 + len(name)
                branches[name] = struct.unpack_from("<Q", body, place)[0]
                place += 8
    return branches


def table(branches):
    rows = b"".join(bytes([len(name)]) + name + struct.pack("<Q", branches[name]) for name in sorted(branches))
    return RECORD(BRANCH_TABLE, struct.pack("<H", len(branches)) + rows)


def kept_of(records, horizon):
    """The offsets below the horizon that the records from there on need, ascending."""
    kept = set()
    wanted = [to for at, record in records.items() if at >= horizon for to in references(record)]
    while wanted:
        at = wanted.pop()
        if at < horizon and at not in kept:
            kept.add(at)
            wanted.extend(references(records[at]))
    return sorted(kept)


def runs_of(records, kept):
    """The maximal runs of them, as offsets and lengths."""
    runs = []
    for at in kept:
        length = 5 + len(records[at].body)
        if runs and runs[-1][0] + runs[-1][1] == at:
            runs[-1][1] += length
        else:
            runs.append([at, length])
    return runs


def pair_of(records, horizon, end):
    """The prefix, the mapping and its number of rows that a collection with this horizon and this end has to leave."""
    kept = kept_of(records, horizon)
    runs, rows, place = runs_of(records, kept), b"", 0
    for at, length in runs:
        rows += struct.pack("<3Q", at, length, place)
        place += length
    prefix = b"".join(spelled(records[at]) for at in kept)
    return prefix, b"IPMAP001" + struct.pack("<3Q", horizon, end, len(runs)) + rows, len(runs)


def append(folder, slot, data):
    """Writes bytes at the slot's end, cut where a chunk ends."""
    at = slot.end
    while data:
        number, place = divmod(at, slot.chunk)
        count = slot.chunk - place
        path = os.path.join(folder, f"chunk.{number}")
        with open(path, "r+b" if place else "wb") as file:
            file.seek(place)
            file.write(data[:count])
        at, data = at + count, data[count:]


def forget(folder, slot, horizon):
    """Removes the chunks below the horizon's, as far as they are there, and writes over what that one has below the horizon, since
    nobody may read it."""
    number, place = divmod(horizon, slot.chunk)
    for old in range(slot.first_chunk, number):
        with contextlib.suppress(FileNotFoundError):
            os.remove(os.path.join(folder, f"chunk.{old}"))
    with open(os.path.join(folder, f"chunk.{number}"), "r+b") as file:
        file.write(b"\xff" * place)


def offset_of(records, number):
    """Where the commit of this number lies."""
    return next(at for at, its in records.items() if its.kind == COMMIT and struct.unpack_from("<Q", its.body)[0] == number)


def collect(folder, number):
    """Collects the store at the commit of this number, on which no branch lies below: the slot that serves it from now on."""
    index, slot = live_slot(folder)
    records = records_of(folder, slot)
    horizon = offset_of(records, number)
    last = spelled(table(branches_of(records)))
    end = slot.end + len(last)
    prefix, mapping, rows = pair_of(records, horizon, end)
    attempt = slot.attempt
    write(folder, f"prefix.{attempt}", prefix)
    write(folder, f"mapping.{attempt}", mapping)
    append(folder, slot, last)
    forget(folder, slot, horizon)
    served = slot._replace(
        sequence=slot.sequence + 1, horizon=horizon, end=end, floor=number, live=attempt, attempt=attempt + 1,
        prefix=len(prefix), rows=rows, first_chunk=horizon // slot.chunk,
    )
    put_slot(folder, 1 - index, served)
    if slot.live:
        for name in ("prefix", "mapping"):
            os.remove(os.path.join(folder, f"{name}.{slot.live}"))
    return served


# What a folder holds


def names_of(slot, orphans=()):
    """The names of files that a folder must have by its live slot, and those that it may have besides: what is not swept yet, and
    what children that nobody waited for may leave, whose attempts are named."""
    must = {"control"} | {f"chunk.{number}" for number in range(slot.horizon // slot.chunk, -(-slot.end // slot.chunk))}
    may = {f"chunk.{number}" for number in range(slot.first_chunk, slot.horizon // slot.chunk)}
    if slot.live:
        must |= {f"prefix.{slot.live}", f"mapping.{slot.live}"}
    unswept = set(range(slot.first_attempt, slot.attempt)) | set(orphans)
    may |= {f"{kind}.{attempt}" for kind in ("prefix", "mapping", "done") for attempt in unswept}
    return must, may - must


def strange_files(folder, orphans, reach, slot):
    """The names of files that are missing by this slot, or that nothing allows. Batches that were cut short may have left bytes up to an
    offset."""
    must, may = names_of(slot, orphans)
    may |= {f"chunk.{number}" for number in range(slot.end // slot.chunk, reach // slot.chunk + 1)}
    held = set(os.listdir(folder))
    return [f"{name} is missing" for name in sorted(must - held)] + [f"{name} is there" for name in sorted(held - must - may)]
