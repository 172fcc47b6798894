"""GADGET's float snapshots of formats 1 and 2, both ways.

The header has 256 bytes, little-endian: npart (6 i32), mass table (6 f64), time and redshift (f64), two flags, npartTotal
(6 u32), one flag, num_files (i32), BoxSize, Omega0, OmegaLambda, HubbleParam (f64), two flags, six high words, one flag.
"""
import struct
from dataclasses import dataclass

import numpy

from .faults import Fault, read_bytes

HEADER = "<6i6d2d2i6I2i4d2i6Ii"
ORDER_OF_FORMAT_1 = ("HEAD", "POS ", "VEL ", "ID  ", "MASS")


@dataclass
class FloatSnapshot:
    """Bodies in the units of the file, by type. Velocities are as they stand in the file."""
    name: str
    format: int
    id: numpy.ndarray
    kind: numpy.ndarray
    mass: numpy.ndarray
    pos: numpy.ndarray
    vel: numpy.ndarray
    time: float = 0.0                  # the expansion factor in a comoving snapshot
    redshift: float = 0.0
    box: float = 0.0
    omega_m: float = 0.0
    omega_lambda: float = 0.0
    hubble: float = 1.0

    def __len__(self):
        return len(self.id)


def records_of(name, data):
    """(format, {block: (place, contents)}) of a float snapshot."""
    first = struct.unpack_from("<I", data[:4].ljust(4, b"\0"))[0]
    if first not in (8, 256):
        swapped = struct.unpack(">I", struct.pack("<I", first))[0] in (8, 256)
        raise Fault(name, "byte 0", "it begins with %d in place of 8 or 256: %s" % (
            first, "its bytes are in the other order" if swapped else "no snapshot of format 1 or 2"))
    form, records, at = (2 if first == 8 else 1), {}, 0
    while at < len(data):
        if form == 2:
            if len(data) < at + 20 or struct.unpack_from("<I", data, at)[0] != 8 or struct.unpack_from("<I", data, at + 12)[0] != 8:
                raise Fault(name, "byte %d" % at, "no name record of format 2")
            block, at = data[at + 4:at + 8].decode("latin-1"), at + 16
        else:
            block = ORDER_OF_FORMAT_1[len(records)] if len(records) < 5 else "block %d" % len(records)
        length = struct.unpack_from("<I", data[at:at + 4].ljust(4, b"\0"))[0]
        if len(data) < at + 8 + length:
            raise Fault(name, "byte %d" % at, "the block %s of %d bytes is cut" % (block, length))
        if struct.unpack_from("<I", data, at + 4 + length)[0] != length:
            raise Fault(name, "byte %d" % (at + 4 + length), "the block %s ends with another length than %d" % (block, length))
        if block in records:
            raise Fault(name, "byte %d" % at, "the block %s stands twice" % block)
        records[block] = (at + 4, data[at + 4:at + 4 + length])
        at += 8 + length
    return form, records


def reals(name, records, block, count, width):
    """The numbers of a block as f64, from f32 or f64 by its length."""
    if block not in records:
        raise Fault(name, "", "there is no block %s" % block)
    at, contents = records[block]
    size = len(contents) // (width * count) if count else 4
    if size not in (4, 8) or len(contents) != size * width * count:
        raise Fault(name, "byte %d" % at, "the block %s has %d bytes, which are no f32 or f64 for %d bodies" % (block, len(contents), count))
    values = numpy.frombuffer(contents, "<f%d" % size).astype("f8").reshape(count, width)
    bad = ~numpy.isfinite(values).all(1)
    if bad.any():
        raise Fault(name, "byte %d" % (at + size * width * int(numpy.argmax(bad))), "a number in the block %s is infinite or none" % block)
    return values


def ids_of(name, records, count):
    if "ID  " not in records:
        raise Fault(name, "", "there is no block ID")
    at, contents = records["ID  "]
    size = len(contents) // count if count else 4
    if size not in (4, 8) or len(contents) != size * count:
        raise Fault(name, "byte %d" % at, "the block ID has %d bytes, which are no u32 or u64 for %d bodies" % (len(contents), count))
    return numpy.frombuffer(contents, "<u%d" % size).astype("u8")


def read_float(path):
    """A FloatSnapshot of format 1 or 2; which one is told by the first word."""
    name, data = str(path), read_bytes(path)
    form, records = records_of(name, data)
    at, head = records.get("HEAD", (0, b""))
    if len(head) != 256:
        raise Fault(name, "byte %d" % at, "HEAD has %d bytes in place of 256" % len(head))
    if head[:8] == b"I4SNAP01":
        raise Fault(name, "byte %d" % at, "this is a snapshot in whole numbers; `convert to-float` takes it")
    words = struct.unpack_from(HEADER, head)
    npart, table, (time, redshift), (box, omega_m, omega_lambda, hubble) = words[:6], words[6:12], words[12:14], words[24:28]
    if min(npart) < 0:
        raise Fault(name, "byte %d" % at, "a number of bodies below 0")
    if words[23] > 1:
        raise Fault(name, "byte %d" % (at + 124), "it is one of %d files; join them first" % words[23])
    count, kind = sum(npart), numpy.repeat(numpy.arange(6, dtype="u1"), npart)
    mass = numpy.array(table)[kind]
    own = mass == 0
    if own.any():
        mass[own] = reals(name, records, "MASS", int(own.sum()), 1)[:, 0]
    return FloatSnapshot(name, form, ids_of(name, records, count), kind, mass, reals(name, records, "POS ", count, 3),
                         reals(name, records, "VEL ", count, 3), time, redshift, box, omega_m, omega_lambda, hubble)


def float_bytes(snapshot, form=2):
    """The bytes of a float snapshot: f32 numbers, and u32 ids where they fit, which yt and splash read."""
    order = numpy.argsort(snapshot.kind, kind="stable")
    npart = [int((snapshot.kind == kind).sum()) for kind in range(6)]
    head = struct.pack(HEADER, *npart, *[0.0] * 6, snapshot.time, snapshot.redshift, 0, 0, *npart, 0, 1, snapshot.box,
                       snapshot.omega_m, snapshot.omega_lambda, snapshot.hubble, 0, 0, *[0] * 6, 0)
    short = len(snapshot) == 0 or int(snapshot.id.max()) < 2**32
    blocks = [(b"HEAD", head.ljust(256, b"\0"))]
    for block, values, kind in ((b"POS ", snapshot.pos, "<f4"), (b"VEL ", snapshot.vel, "<f4"),
                                (b"ID  ", snapshot.id, "<u4" if short else "<u8"), (b"MASS", snapshot.mass, "<f4")):
        blocks.append((block, numpy.ascontiguousarray(values[order].astype(kind)).tobytes()))
    data = b""
    for block, contents in blocks:
        frame = struct.pack("<I", len(contents))
        if form == 2:
            data += struct.pack("<I4sII", 8, block, len(contents) + 8, 8)
        data += frame + contents + frame
    return data


def read_arrays(path):
    """A FloatSnapshot of plain arrays: an .npz file with pos, vel, mass (one number, or one a body), and perhaps id and kind."""
    name = str(path)
    try:
        with numpy.load(path, allow_pickle=False) as file:
            arrays = {key: file[key] for key in file.files}
    except (OSError, ValueError, EOFError, KeyError) as error:
        raise Fault(name, "", "it can't be read as .npz (%s)" % error) from None
    for key in ("pos", "vel", "mass"):
        if key not in arrays:
            raise Fault(name, "", "there is no array %s" % key)
    return arrays_snapshot(name, **{key: arrays[key] for key in ("pos", "vel", "mass", "id", "kind") if key in arrays})


def arrays_snapshot(name, pos, vel, mass, id=None, kind=None):
    pos, vel = numpy.asarray(pos, "f8"), numpy.asarray(vel, "f8")
    count = len(pos)
    for key, values in (("pos", pos), ("vel", vel)):
        if values.shape != (count, 3):
            raise Fault(name, "array " + key, "its shape is %s in place of (%d, 3)" % (values.shape, count))
        bad = ~numpy.isfinite(values).all(1)
        if bad.any():
            raise Fault(name, "array %s, row %d" % (key, numpy.argmax(bad)), "a number is infinite or none")
    try:
        mass = numpy.broadcast_to(numpy.asarray(mass, "f8"), (count,)).copy()
        id = numpy.arange(1, count + 1, dtype="u8") if id is None else numpy.asarray(id).astype("u8").reshape(count)
        kind = numpy.broadcast_to(numpy.asarray(1 if kind is None else kind), (count,)).astype("u1")
    except ValueError as error:
        raise Fault(name, "", "mass, id or kind don't fit %d bodies (%s)" % (count, error)) from None
    return FloatSnapshot(name, 0, id, kind, mass, pos, vel)
