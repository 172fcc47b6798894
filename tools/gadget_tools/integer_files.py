"""The binary files of the program: snapshots, restart files, bin files, catalogues and both tables.

Lengths are in length units (2^32 of them are the box), masses in mass units, times in ticks, and a momentum p
moves a body of mass m by p / (m * 2^VelocityShift) length units a tick.
"""
import struct
from dataclasses import dataclass, field

import numpy

from .faults import Fault, read_bytes
from .text_files import RANGES

SNAPSHOT_TAG, RESTART_TAG, RESTART_END = b"I4SNAP01", b"I4RESTRT", b"I4RESEND"
EWALD_TAG, EXPANSION_TAG, GROUPS_TAG = b"I4EWALD1", b"I4EXPAN1", b"I4GROUPS"
BINS_TAG, BINS_END = b"I4BINS01", b"I4BINEND"
MOST_BODIES, MOST_MASS, MOST_MOMENTUM = 1 << 20, 1 << 32, 1 << 62
KNOWN_BLOCKS = ("HEAD", "POS ", "MOM ", "ID  ", "MASS")
SETTINGS = ("TimeMax", "LowBin", "TopBin", "ErrTolTheta", "ErrTolIntAccuracy", "GravityConstantInternal",
            "VelocityShift") + tuple("SofteningType%d" % kind for kind in range(1, 6))      # as they stand in a restart file


@dataclass
class Bodies:
    """Bodies as arrays, one entry or row a body, in the order of the file."""
    id: numpy.ndarray                  # u64
    kind: numpy.ndarray                # u8, 1 to 5
    mass: numpy.ndarray                # u32
    pos: numpy.ndarray                 # n by 3, u32
    mom: numpy.ndarray                 # n by 3, i64

    def __len__(self):
        return len(self.id)

    def total_momentum(self):
        """Three Python numbers, exact: a sum may pass 64 bits."""
        low, high = self.mom & 0xFFFFFFFF, self.mom >> 32
        return [int(high[:, a].sum()) * 2**32 + int(low[:, a].sum()) for a in range(3)]

    def total_mass(self):
        return int(self.mass.sum(dtype=numpy.uint64))

    def by_id(self):
        """The same bodies, ascending in id."""
        order = numpy.argsort(self.id, kind="stable")
        return Bodies(*(getattr(self, name)[order] for name in ("id", "kind", "mass", "pos", "mom")))


@dataclass
class Snapshot:
    name: str
    tick: int
    number: int
    counts: list                       # bodies of the types 0 to 5
    bodies: Bodies
    other_blocks: list = field(default_factory=list)


@dataclass
class Restart:
    name: str
    version: int                       # 1: at a synchronisation, 2: inside a base step
    steps: int
    tick: int
    next_snapshot: int
    next_restart: int
    kicks: int
    interactions: int
    settings: dict
    bodies: Bodies
    depth: numpy.ndarray = None        # version 2: how many unfinished steps hold the body in their fast part


@dataclass
class Bins:
    name: str
    records: list                      # the ids of the fast part of each step, in order
    is_whole: bool                     # ended by the mark of a run that was done


@dataclass
class Catalogue:
    name: str
    label: numpy.ndarray
    mass: numpy.ndarray
    ids: list                          # an array of ids for each group


@dataclass
class EwaldTable:
    name: str
    g: int
    entries: numpy.ndarray             # [z, y, x, component], i32; 1 is 2^-30 G m m' / box^2


@dataclass
class ExpansionTable:
    name: str
    s: int
    kick: numpy.ndarray                # u64 at every 2^s ticks
    drift: numpy.ndarray


def list_blocks(name, data):
    """(block name, place of its contents, length) for each block of format 2, or the first framing fault."""
    blocks, at = [], 0
    while at < len(data):
        left = len(data) - at
        words = struct.unpack_from("<5I", data[at:at + 20].ljust(20, b"\0"))
        if left < 4:
            raise Fault(name, "byte %d" % at, "the file ends inside a block's frame")
        if words[0] != 8:
            raise Fault(name, "byte %d" % at, "a name record begins with %d in place of 8: no block of format 2" % words[0])
        if left < 16:
            raise Fault(name, "byte %d" % at, "the file ends inside a name record")
        if words[3] != 8:
            raise Fault(name, "byte %d" % (at + 12), "a name record ends with %d in place of 8" % words[3])
        if left < 20:
            raise Fault(name, "byte %d" % (at + 16), "the file ends before a block's contents")
        length = words[4]
        if words[2] != (length + 8) % 2**32:
            raise Fault(name, "byte %d" % (at + 8), "the way to the next block is %d, and the block has %d bytes" % (words[2], length))
        if left < 24 + length:
            raise Fault(name, "byte %d" % (at + 16), "a block of %d bytes is cut: %d are there" % (length, left - 20))
        last = struct.unpack_from("<I", data, at + 20 + length)[0]
        if last != length:
            raise Fault(name, "byte %d" % (at + 20 + length), "a block of %d bytes ends with the length %d" % (length, last))
        blocks.append((data[at + 4:at + 8].decode("latin-1"), at + 20, length))
        at += 24 + length
    return blocks


def check_bodies(name, bodies):
    """What the program asks of a set of bodies, in its order."""
    if len(bodies) > MOST_BODIES:
        raise Fault(name, "", "%d bodies; the program takes %d" % (len(bodies), MOST_BODIES))
    ids, times = numpy.unique(bodies.id, return_counts=True)
    if (times > 1).any():
        raise Fault(name, "id %d" % ids[times > 1][0], "it stands more than once")
    empty = bodies.mass == 0
    if empty.any():
        raise Fault(name, "id %d" % bodies.id[empty].min(), "its mass is 0")
    if bodies.total_mass() > MOST_MASS:
        raise Fault(name, "block MASS", "the masses add up to %d; 2^32 is the most" % bodies.total_mass())
    fast = ((bodies.mom > MOST_MOMENTUM) | (bodies.mom < -MOST_MOMENTUM)).any(1)
    if fast.any():
        raise Fault(name, "id %d" % bodies.id[fast].min(), "a momentum is beyond 2^62")


def array_of(data, kind, at, length, width=1):
    values = numpy.frombuffer(data, kind, length // numpy.dtype(kind).itemsize, at)
    return values.reshape(-1, width) if width > 1 else values


def read_snapshot(path):
    """A Snapshot of the program, checked as the program checks it."""
    name, data = str(path), read_bytes(path)
    blocks = list_blocks(name, data)
    places = {}
    for block, at, length in blocks:
        if block in KNOWN_BLOCKS and block in places:
            raise Fault(name, "byte %d" % (at - 20), "the block %s stands twice" % block)
        places.setdefault(block, (at, length))
    if "HEAD" not in places:
        raise Fault(name, "", "there is no block HEAD")
    at, length = places["HEAD"]
    if length != 256:
        raise Fault(name, "byte %d" % at, "HEAD has %d bytes in place of 256" % length)
    if data[at:at + 8] != SNAPSHOT_TAG:
        raise Fault(name, "byte %d" % at, "HEAD doesn't begin with I4SNAP01: no snapshot in whole numbers; `convert to-integer` makes one of a float snapshot")
    for block in KNOWN_BLOCKS[1:]:
        if block not in places:
            raise Fault(name, "", "there is no block %s" % block)
    counts = list(struct.unpack_from("<6I", data, at + 8))
    tick, number = struct.unpack_from("<QI", data, at + 32)
    if counts[0]:
        raise Fault(name, "byte %d" % (at + 8), "%d bodies of type 0 (gas); the program has none" % counts[0])
    n = sum(counts)
    if n > MOST_BODIES:
        raise Fault(name, "byte %d" % (at + 8), "%d bodies; the program takes %d" % (n, MOST_BODIES))
    for block, size in (("POS ", 12), ("MOM ", 24), ("ID  ", 8), ("MASS", 4)):
        if places[block][1] != size * n:
            raise Fault(name, "byte %d" % places[block][0], "the block %s has %d bytes in place of %d for %d bodies" % (block, places[block][1], size * n, n))
    bodies = Bodies(array_of(data, "<u8", *places["ID  "]), numpy.repeat(numpy.arange(6, dtype="u1"), counts),
                    array_of(data, "<u4", *places["MASS"]), array_of(data, "<u4", *places["POS "], 3),
                    array_of(data, "<i8", *places["MOM "], 3))
    check_bodies(name, bodies)
    return Snapshot(name, tick, number, counts, bodies, [block for block, _, _ in blocks if block not in KNOWN_BLOCKS])


def frame(block, contents):
    length = struct.pack("<I", len(contents))
    return struct.pack("<I4sII", 8, block, len(contents) + 8, 8) + length + contents + length


def snapshot_bytes(bodies, tick=0, number=0):
    """The bytes of a snapshot, as the program writes them: by type, and within a type ascending in id."""
    check_bodies("the bodies", bodies)
    order = numpy.lexsort((bodies.id, bodies.kind))
    counts = [int((bodies.kind == kind).sum()) for kind in range(6)]
    head = SNAPSHOT_TAG + struct.pack("<6IQI", *counts, tick, number)
    parts = ((b"POS ", bodies.pos, "<u4"), (b"MOM ", bodies.mom, "<i8"), (b"ID  ", bodies.id, "<u8"), (b"MASS", bodies.mass, "<u4"))
    return frame(b"HEAD", head.ljust(256, b"\0")) + b"".join(
        frame(block, numpy.ascontiguousarray(values[order].astype(kind)).tobytes()) for block, values, kind in parts)


def read_restart(path):
    """A Restart of either version."""
    name, data = str(path), read_bytes(path)
    if data[:8] != RESTART_TAG:
        raise Fault(name, "byte 0", "it doesn't begin with I4RESTRT: no restart file")
    if len(data) < 176:
        raise Fault(name, "byte %d" % len(data), "a restart file has 176 bytes at least")
    version, n, steps, tick, snapshot, restart, kicks = struct.unpack_from("<2I5Q", data, 8)
    if version not in (1, 2):
        raise Fault(name, "byte 8", "version %d; 1 and 2 are known" % version)
    size = 52 if version == 1 else 56
    if n > MOST_BODIES or (n == 0 and version == 2):
        raise Fault(name, "byte 12", "%d bodies" % n)
    if len(data) != 176 + size * n:
        raise Fault(name, "byte %d" % len(data), "%d bytes in place of %d for %d bodies" % (len(data), 176 + size * n, n))
    if data[-8:] != RESTART_END:
        raise Fault(name, "byte %d" % (len(data) - 8), "it doesn't end with I4RESEND")
    row = [("id", "<u8"), ("kind", "<u4"), ("mass", "<u4"), ("pos", "<u4", 3), ("mom", "<i8", 3)]
    rows = numpy.frombuffer(data, row + ([("depth", "<u4")] if version == 2 else []), n, 168)
    bodies = Bodies(*(rows[key].copy() for key in ("id", "kind", "mass", "pos", "mom")))
    settings = dict(zip(SETTINGS, struct.unpack_from("<12Q", data, 72)))
    depth = rows["depth"].copy() if version == 2 else None
    check_state(name, version, steps, tick, settings, bodies, depth)
    check_bodies(name, bodies)
    interactions = int.from_bytes(data[56:72], "little")
    return Restart(name, version, steps, tick, snapshot, restart, kicks, interactions, settings, bodies, depth)


def check_state(name, version, steps, tick, settings, bodies, depth):
    """The first number of a restart file that can't be, by its place."""
    low, top, last = settings["LowBin"], min(settings["TopBin"], 20), settings["TimeMax"]
    zeros = (tick & -tick).bit_length() - 1 if tick else 64
    rests = version == 2 and steps == tick >> top and low <= zeros < top
    if not (rests if version == 2 else tick == steps << top) or steps << top >= last:
        raise Fault(name, "byte 24", "tick %d can't be after %d base steps of 2^%d ticks until %d" % (tick, steps, top, last))
    for place, key in enumerate(SETTINGS):
        least, most = RANGES[key]
        if not max(least, low if key == "TopBin" else 0) <= settings[key] <= most:
            raise Fault(name, "byte %d" % (72 + 8 * place), "%s is %d" % (key, settings[key]))
    size = 52 if version == 1 else 56
    falls, odd = numpy.append(False, bodies.id[1:] <= bodies.id[:-1])[:len(bodies)], (bodies.kind < 1) | (bodies.kind > 5)
    deep = depth > top - zeros if version == 2 else numpy.zeros(len(bodies), bool)
    for row in numpy.flatnonzero(falls | odd | deep)[:1]:
        place, cause = (0, "ids don't ascend") if falls[row] else (8, "a type isn't 1 to 5") if odd[row] else (52, "a depth is too large")
        raise Fault(name, "byte %d" % (168 + size * row + place), cause)


def read_bins(path):
    """The records of a bin file. One without its end mark is of a run that was stopped or refused, or goes on."""
    name, data = str(path), read_bytes(path)
    if data[:8] != BINS_TAG:
        raise Fault(name, "byte 0", "it doesn't begin with I4BINS01: no bin file")
    records, at = [], 8
    while at < len(data):
        if data[at:] == BINS_END:
            return Bins(name, records, True)
        size = struct.unpack_from("<I", data[at:at + 4].ljust(4, b"\0"))[0]
        if at + 4 + 8 * size > len(data):
            raise Fault(name, "byte %d" % at, "a record of %d ids is cut" % size)
        records.append(array_of(data, "<u8", at + 4, 8 * size))
        at += 4 + 8 * size
    return Bins(name, records, False)


def read_catalogue(path):
    """Groups of friends of friends, as `gadget groups` writes them."""
    name, data = str(path), read_bytes(path)
    if data[:8] != GROUPS_TAG:
        raise Fault(name, "byte 0", "it doesn't begin with I4GROUPS: no catalogue")
    if len(data) < 16:
        raise Fault(name, "byte 8", "the file ends inside its head")
    at, labels, masses, ids = 16, [], [], []
    for _ in range(struct.unpack_from("<I", data, 8)[0]):
        if len(data) < at + 24:
            raise Fault(name, "byte %d" % at, "the file ends inside a group's head")
        label, mass, count = struct.unpack_from("<3Q", data, at)
        if labels and label <= labels[-1]:
            raise Fault(name, "byte %d" % at, "labels don't ascend")
        if not 1 <= count <= MOST_BODIES:
            raise Fault(name, "byte %d" % (at + 16), "a group of %d members" % count)
        if len(data) < at + 24 + 8 * count:
            raise Fault(name, "byte %d" % (at + 24), "the ids of a group are cut")
        members = array_of(data, "<u8", at + 24, 8 * count)
        bad = numpy.flatnonzero(numpy.append(members[:1] != label, members[1:] <= members[:-1]))
        if len(bad):
            raise Fault(name, "byte %d" % (at + 24 + 8 * bad[0]), "ids don't ascend from the group's label")
        labels.append(label), masses.append(mass), ids.append(members)
        at += 24 + 8 * count
    if at != len(data):
        raise Fault(name, "byte %d" % at, "%d bytes too many" % (len(data) - at))
    both, times = numpy.unique(numpy.concatenate(ids) if ids else numpy.zeros(0, "u8"), return_counts=True)
    if (times > 1).any():
        raise Fault(name, "id %d" % both[times > 1][0], "it is in two groups")
    return Catalogue(name, numpy.array(labels, "u8"), numpy.array(masses, "u8"), ids)


def read_ewald_table(path):
    name, data = str(path), read_bytes(path)
    if data[:8] != EWALD_TAG:
        raise Fault(name, "byte 0", "it doesn't begin with I4EWALD1: no table of corrections")
    if len(data) < 16:
        raise Fault(name, "byte %d" % len(data), "the file ends inside its head")
    g = struct.unpack_from("<I", data, 8)[0]
    if g > 6:
        raise Fault(name, "byte 8", "a grid of 2^%d; 2^6 is the finest" % g)
    n = 2**g + 1
    if len(data) != 16 + 12 * n**3:
        raise Fault(name, "byte %d" % len(data), "%d bytes in place of %d for a grid of 2^%d" % (len(data), 16 + 12 * n**3, g))
    entries = numpy.frombuffer(data, "<i4", offset=16).reshape(n, n, n, 3)
    edge = numpy.zeros((n, n, n), bool)
    for place in (0, n - 1):
        edge[:, :, place] |= entries[:, :, place, 0] != 0
        edge[:, place, :] |= entries[:, place, :, 1] != 0
        edge[place, :, :] |= entries[place, :, :, 2] != 0
    if edge.any():
        first = int(numpy.argmax(edge.ravel()))
        raise Fault(name, "entry %d" % first, "a component isn't 0 on an edge plane of its axis")
    return EwaldTable(name, g, entries)


def read_expansion_table(path):
    name, data = str(path), read_bytes(path)
    if data[:8] != EXPANSION_TAG:
        raise Fault(name, "byte 0", "it doesn't begin with I4EXPAN1: no table of factors")
    if len(data) < 16:
        raise Fault(name, "byte %d" % len(data), "the file ends inside its head")
    s, n = struct.unpack_from("<2I", data, 8)
    if s > 40:
        raise Fault(name, "byte 8", "a spacing of 2^%d ticks; 2^40 is the most" % s)
    if len(data) != 16 + 16 * n:
        raise Fault(name, "byte %d" % len(data), "%d bytes in place of %d for %d entries" % (len(data), 16 + 16 * n, n))
    sums = numpy.frombuffer(data, "<u8", offset=16).reshape(n, 2)
    if n == 0 or sums[0].any():
        raise Fault(name, "entry 0", "the first entry isn't (0, 0)")
    bad = ((sums[1:] < sums[:-1]) | (sums[1:] - sums[:-1] > 2**s)).any(1)
    if bad.any():
        raise Fault(name, "entry %d" % (int(numpy.argmax(bad)) + 1), "a sum falls, or rises by more than the ticks between")
    return ExpansionTable(name, s, sums[:, 0].copy(), sums[:, 1].copy())
