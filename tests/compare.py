#!/usr/bin/env python3
"""Compares `gadget` with another program of the same commands, case by case.

    tests/compare.py [--seed N] [--count N] [--jobs N] [--kinds KIND,..] OTHER..

The kinds are forces, bins, tables, expansions, parameters, lists, snapshots, runs, groups, links, restarts, sessions and
made; without `--kinds` all of them. OTHER.. is the command line of the other program, behind `--` where it has options; the words
of a case are put behind it. Each case is made from the seed and its number: some files, whose bodies are of the kinds
1 to 5, and some words. Both programs are run on them in folders of their own, and their status, what they print and
all files that they leave are compared. The other program's usage line may have more commands. A case of
`sessions` has many calls: a run unbroken, the same run stopped at each of its questions in turn, and a resumed run
from each restart file; resumed runs are compared with the unbroken one too. A case of `made` makes bodies, looks at both
files, and runs them where they are few. One case of `restarts` in 300 has a call
for each length to which a restart file can be cut.
A run, and a resumed one, is made by 1 to 9 ranks, drawn for each call; sessions are traced in half of the cases.
Each difference is printed with the case's folder, which is then kept. The last line tells the numbers; the exit status is 0 where nothing differs.
"""
import argparse
import concurrent.futures
import os
import random
import shutil
import struct
import subprocess
import sys
import tempfile

TOP = os.path.dirname(os.path.dirname(os.path.abspath(__file__)))
STOPPED, USAGE = 1, 2
RUN = ["run", "param.txt", "1"]

ROWS = [
    ("InitCondFile", "ics.dat", None), ("SnapshotFileBase", "snapshot", None),
    ("OutputListFilename", "outputs.txt", None), ("EwaldTableFile", "table.dat", None),
    ("RestartFileBase", "restart", None), ("KickFile", "kicks.txt", None), ("RankTraceFile", "ranktrace.txt", None),
    ("TimeMax", "2", (0, 2**40)), ("LowBin", "1", (1, 20)), ("TopBin", "1", (1, 20)),
    ("ErrTolTheta", "0", (0, 256)), ("ErrTolIntAccuracy", "65536", (1, 65536)),
    ("GravityConstantInternal", "1048576", (0, 2**32)), ("VelocityShift", "20", (0, 40)),
    ("SofteningType1", "256", (256, 2**30)), ("SofteningType2", "256", (256, 2**30)),
    ("SofteningType3", "256", (256, 2**30)), ("SofteningType4", "256", (256, 2**30)),
    ("SofteningType5", "256", (256, 2**30)), ("RestartEvery", "0", (0, 10**6)), ("RankTrace", "0", (0, 1)),
    ("DeliverySeed", "1", (0, 2**64 - 1)), ("ExpansionTableFile", "expansion.dat", None), ("BinFile", "bins.dat", None),
]
OPTIONAL = {"OutputListFilename", "EwaldTableFile", "RestartFileBase", "KickFile", "RankTraceFile", "RestartEvery",
            "RankTrace", "DeliverySeed", "ExpansionTableFile", "BinFile"} | {"SofteningType%d" % k for k in range(1, 6)}
LEFT_OUT = {"OutputListFilename", "EwaldTableFile", "ExpansionTableFile", "BinFile"}
SETTINGS = ROWS[7:19]


# ---- files that are right

def block(name, contents):
    frame = struct.pack("<I", len(contents))
    return struct.pack("<I4sII", 8, name, len(contents) + 8, 8) + frame + contents + frame


def snapshot(bodies, tick=0, number=0):
    bodies = sorted(bodies, key=lambda b: (b["kind"], b["id"]))
    counts = [sum(b["kind"] == k for b in bodies) for k in range(6)]
    head = b"I4SNAP01" + struct.pack("<6IQI", *counts, tick, number)
    return b"".join([
        block(b"HEAD", head.ljust(256, b"\0")),
        block(b"POS ", b"".join(struct.pack("<3I", *b["pos"]) for b in bodies)),
        block(b"MOM ", b"".join(struct.pack("<3q", *b["mom"]) for b in bodies)),
        block(b"ID  ", b"".join(struct.pack("<Q", b["id"]) for b in bodies)),
        block(b"MASS", b"".join(struct.pack("<I", b["mass"]) for b in bodies)),
    ])


def some_kind(rng):
    return rng.choice([1, 1, 1, 2, 3, 4, 5])


def some_bodies(rng, most, spread=2**32):
    ids = rng.sample(range(1, 40), rng.randint(0, most))
    centre = [rng.choice([0, 1, 2**31, 2**32 - 1, rng.randrange(2**32)]) for _ in range(3)]
    return [dict(id=i, kind=some_kind(rng), mass=rng.choice([1, 1024, 2**20, rng.randint(1, 2**24)]),
                 pos=[(c + rng.randrange(spread) - spread // 2) % 2**32 for c in centre],
                 mom=[rng.choice([0, 0, rng.randint(-2**40, 2**40)]) for _ in range(3)]) for i in ids]


def parameter_lines(rng, changes=(), leave=0.5):
    values = dict((name, value) for name, value, _ in ROWS)
    values.update(changes)
    lines = []
    for name, _, _ in ROWS:
        if name not in dict(changes) and (name in LEFT_OUT or (name in OPTIONAL and rng.random() < leave)):
            continue
        lines.append("%s %s" % (name, values[name]))
    return lines


def lines_text(lines):
    return ("\n".join(str(line) for line in lines) + "\n").encode()


# ---- changes that may make them wrong

def flip(rng, data):
    data = bytearray(data)
    if not data:
        return bytes([rng.randrange(256)])
    for _ in range(rng.choice([1, 1, 1, 2, 4])):
        data[rng.randrange(len(data))] = rng.choice([rng.randrange(256), 0x20, 0x0A, 0x09, 0x0D, 0x25, 0x30, 0x39, 0x5F, 0])
    return bytes(data)


def around(rng, low, high):
    return str(max(0, rng.choice([low - 1, low, low + 1, high - 1, high, high + 1, rng.randint(low, high), 2**64 - 1, 2**64, 10**30])))


def odd_number(rng):
    return rng.choice(["1.5", "-1", "+1", "0x1", "1e3", "", "007", "1,0", "\u0661", "99999999999999999999", "0000000000000000000000001"])


def odd_name(rng):
    base = rng.choice(["snapshot", "snapshot_", "snapshot_7", "snapshot7", "restart", "restart_000", "kicks.txt", "ranktrace.txt",
                       "ics.dat", "ics.dat_1", "outputs.txt", "x" * 200, "y" * 201, "a\x7f", "\u00e9", "%", "bins.dat", "table.dat"])
    return base


def change_lines(rng, lines):
    lines = list(lines)
    for _ in range(rng.choice([0, 1, 1, 1, 2, 3])):
        kind = rng.randrange(11)
        at = rng.randrange(len(lines)) if lines else 0
        if kind == 0 and lines:
            del lines[at]
        elif kind == 1 and lines:
            lines.insert(rng.randrange(len(lines) + 1), lines[at])
        elif kind == 2 and len(lines) > 1:
            other = rng.randrange(len(lines))
            lines[at], lines[other] = lines[other], lines[at]
        elif kind == 3:
            lines.insert(at, rng.choice(["", "   ", "\t", "% words", "%", "  % KickFile x", "Gravity 5", "timemax 1", "TimeMax"]))
        elif kind in (4, 5, 6):
            name, _, bounds = rng.choice(ROWS)
            value = around(rng, *bounds) if bounds and rng.random() < 0.8 else odd_number(rng) if bounds else odd_name(rng)
            found = [i for i, line in enumerate(lines) if line.split() and line.split()[0] == name]
            line = "%s %s" % (name, value)
            if found:
                lines[found[0]] = line
            else:
                lines.insert(at, line)
        elif kind == 7 and lines:
            lines[at] = lines[at].replace(" ", rng.choice(["\t", "  ", " \r", " \t "]), 1) + rng.choice(["", " extra", "\r", " % note"])
        elif kind == 8 and lines:
            lines[at] = lines[at].split(" ")[0]
        elif kind == 9:
            rng.shuffle(lines)
        elif kind == 10 and lines:
            lines[at] = flip(rng, lines[at].encode("utf-8")).decode("latin-1")
    text = "\n".join(lines) + rng.choice(["\n", "\n", "\n", ""])
    return text.encode("latin-1", "replace") if all(ord(c) < 256 for c in text) else text.encode("utf-8")


# ---- the kinds of cases

def asked(data):
    """`run`, or `check` where the parameters may ask for more steps than anybody waits for."""
    words = data.split()
    is_long = any(len(value) > 3 for name, value in zip(words, words[1:]) if name == b"TimeMax")
    return ["check", "param.txt"] if is_long else RUN


def parameters(rng):
    data = change_lines(rng, parameter_lines(rng))
    if rng.random() < 0.1:
        data = flip(rng, data)
    if rng.random() < 0.01:
        data = data + b"%" * (65537 - len(data))
    return {"param.txt": data, "ics.dat": snapshot(some_bodies(rng, 3))}, asked(data)


def lists(rng):
    lines = [str(rng.choice([0, 1, 2, 3, 1000, rng.randrange(2**20), 2**64 - 1, 2**64])) if rng.random() < 0.97 else odd_number(rng)
             for _ in range(rng.choice([0, 1, 3, 5, 20]))]
    for _ in range(rng.choice([0, 0, 1, 2])):
        lines.insert(rng.randrange(len(lines) + 1), rng.choice(["", "% later", "  %5", "7 x", "x 7", "5%", "\t12\t", "abc", "12\r"]))
    if rng.random() < 0.01:
        lines = ["1"] * rng.choice([65536, 65537, 70000])
    data = ("\n".join(lines) + rng.choice(["\n", ""])).encode("utf-8")
    if rng.random() < 0.2:
        data = flip(rng, data)
    bin_ = rng.choice([1, 4, 10])
    params = parameter_lines(rng, [("OutputListFilename", "outputs.txt"), ("TimeMax", rng.choice([0, 1, 2, 5, 1000, 4000])),
                                   ("LowBin", bin_), ("TopBin", bin_)])
    if int(dict(line.split(" ", 1) for line in params)["TimeMax"]) > 64 * 2**bin_:
        params = [line if not line.startswith("TimeMax") else "TimeMax %d" % (8 * 2**bin_) for line in params]
    files = {"param.txt": lines_text(params), "outputs.txt": data, "ics.dat": snapshot(some_bodies(rng, 2))}
    if rng.random() < 0.02:
        del files["outputs.txt"]
    return files, RUN


def split_blocks(data):
    found, p = [], 0
    while p < len(data):
        size = 24 + struct.unpack_from("<I", data, p + 16)[0]
        found.append(data[p:p + size])
        p += size
    return found


def bad_snapshot(rng, data):
    kind = rng.randrange(9)
    if kind == 0:
        return data[:rng.randrange(len(data) + 1)]
    if kind == 1:
        return flip(rng, data)
    if kind == 2:
        return data + bytes(rng.randrange(256) for _ in range(rng.randrange(40)))
    blocks = split_blocks(data)
    at = rng.randrange(len(blocks))
    if kind == 3:
        rng.shuffle(blocks)
    elif kind == 4:
        blocks.insert(rng.randrange(len(blocks) + 1), block(rng.choice([b"POT ", b"HEAD", b"ID  ", b"pos ", b"VEL "]), bytes(rng.choice([0, 8, 256]))))
    elif kind == 5:
        del blocks[at]
    elif kind == 6:
        name = blocks[at][4:8]
        contents = blocks[at][20:-4]
        blocks[at] = block(name, contents[:-rng.choice([1, 4, 8])] if rng.random() < 0.5 else contents + bytes(rng.choice([1, 4, 8])))
    elif kind == 7:
        # A word of the frames or of the head.
        raw = bytearray(b"".join(blocks))
        place = rng.choice([0, 8, 12, 16, 20, 24, 28, 32, 36, 40, 48, 52, 276, 280, 288, 292, 296])
        if place + 4 <= len(raw):
            struct.pack_into("<I", raw, place, rng.choice([0, 1, 8, 9, 256, 264, 2**32 - 1, 1048577, rng.randrange(2**32)]))
        return bytes(raw)
    else:
        # Values of bodies: a zero mass, a repeated id, a momentum past its range, masses too heavy together.
        contents = {b[4:8]: bytearray(b[20:-4]) for b in blocks}
        n = len(contents[b"MASS"]) // 4
        if n:
            i = rng.randrange(n)
            change = rng.randrange(4)
            if change == 0:
                struct.pack_into("<I", contents[b"MASS"], 4 * i, rng.choice([0, 2**32 - 1]))
            elif change == 1:
                struct.pack_into("<Q", contents[b"ID  "], 8 * i, struct.unpack_from("<Q", contents[b"ID  "], 8 * rng.randrange(n))[0])
            elif change == 2:
                struct.pack_into("<q", contents[b"MOM "], 8 * rng.randrange(3 * n), rng.choice([2**62, 2**62 + 1, -2**62, -2**62 - 1, 2**63 - 1, -2**63]))
            else:
                for k in range(n):
                    struct.pack_into("<I", contents[b"MASS"], 4 * k, rng.choice([2**31, 2**31 - 1, 2**31 + 1]))
        blocks = [block(name, bytes(data)) for name, data in contents.items()]
    return b"".join(blocks)


def snapshots(rng):
    data = snapshot(some_bodies(rng, 4), rng.choice([0, 5, 2**64 - 1]), rng.choice([0, 7, 2**32 - 1]))
    for _ in range(rng.choice([0, 1, 1, 1, 2])):
        try:
            data = bad_snapshot(rng, data)
        except (struct.error, KeyError, IndexError, ValueError):
            data = flip(rng, data)
    params = lines_text(parameter_lines(rng))
    words = rng.choice([RUN, ["check", "param.txt"], ["show", "ics.dat"]])
    return {"param.txt": params, "ics.dat": data}, words


def runs(rng):
    bodies = some_bodies(rng, 6, rng.choice([4, 2000, 2**20, 2**32]))
    bin_ = rng.randint(1, 6)
    params = parameter_lines(rng, [("TimeMax", rng.randint(1, 2**bin_)), ("LowBin", bin_), ("TopBin", bin_),
                                   ("VelocityShift", rng.choice([0, 4, 20, 40])), ("ErrTolIntAccuracy", rng.choice([1, 31246, 65536])),
                                   ("GravityConstantInternal", rng.choice([0, 1048576, 2**32]))])
    return {"param.txt": lines_text(params), "ics.dat": snapshot(bodies)}, RUN


def table(rng):
    g = rng.choice([0, 1, 1, 2, 3])
    edge = 2**g
    most = rng.choice([2**31 - 1, 2**20, 3])
    data = b"I4EWALD1" + struct.pack("<II", g, rng.choice([0, 7]))
    for k in range(edge + 1):
        for j in range(edge + 1):
            for i in range(edge + 1):
                data += struct.pack("<3i", *(0 if at in (0, edge) else rng.randint(-most - 1, most) for at in (i, j, k)))
    return data


def near_bodies(rng, least, most):
    """Bodies in a few clusters, some at one place, some at the edges of the box."""
    centres = [[rng.choice([0, 1, 2**31, 2**32 - 1, 2**30, rng.randrange(2**32)]) for _ in range(3)] for _ in range(rng.randint(1, 3))]
    spread = rng.choice([1, 3, 2000, 2**20, 2**29, 2**31])
    ids = rng.sample(range(1, 60), rng.randint(least, most))
    heavy = rng.choice([[1], [1024], [2**20], [1, 7, 1024, 2**20, 2**24]])
    fast = rng.choice([0, 0, 2**30, 2**50])
    return [dict(id=i, kind=some_kind(rng), mass=rng.choice(heavy),
                 pos=[(c + rng.randrange(spread) - spread // 2) % 2**32 for c in rng.choice(centres)],
                 mom=[rng.randint(-fast, fast) for _ in range(3)]) for i in ids]


def forces(rng):
    bin_ = rng.randint(1, 6)
    changes = [("TimeMax", 2**bin_ * rng.choice([1, 1, 2])), ("LowBin", bin_), ("TopBin", bin_), ("ErrTolTheta", rng.choice([0, 1, 128, 256, 256, 200])),
               ("VelocityShift", rng.choice([4, 20, 40])), ("ErrTolIntAccuracy", 65536), ("GravityConstantInternal", rng.choice([1048576, 2**32, 2**32])),
               ("SofteningType1", rng.choice([256, 4096])), ("SofteningType2", rng.choice([8192, 2**30])), ("SofteningType3", rng.choice([257, 2**20])),
               ("SofteningType4", rng.choice([256, 5000])), ("SofteningType5", 300)]
    files = {"ics.dat": snapshot(near_bodies(rng, 2, 12))}
    if rng.random() < 0.5:
        changes.append(("EwaldTableFile", "table.dat"))
        files["table.dat"] = table(rng)
    files["param.txt"] = lines_text(parameter_lines(rng, changes))
    return files, RUN


def expansion(rng, last):
    s = rng.choice([0, 1, 2, 3, 5])
    n = -(-last // 2**s) + rng.choice([1, 1, 2, 3])
    kick, drift, entries = 0, 0, b""
    for i in range(n):
        entries += struct.pack("<QQ", kick, drift)
        kick += rng.choice([0, 1, 2**s, rng.randint(0, 2**s)]) if rng.random() < 0.8 else 2**s
        drift += rng.choice([0, 2**s, rng.randint(0, 2**s)])
        kick, drift = min(kick, (i + 1) * 2**s), min(drift, (i + 1) * 2**s)
    return b"I4EXPAN1" + struct.pack("<II", s, n) + entries


def put_on_edge(rng, bodies):
    """Momenta at the edge of their range: of one body or of all, on one axis or on all."""
    axes = rng.choice([[rng.randrange(3)], [0, 1, 2], [0, 1, 2]])
    for body in rng.choice([bodies, [rng.choice(bodies)]]):
        for axis in axes:
            body["mom"][axis] = rng.choice([1, -1]) * (2**62 - rng.choice([0, 0, 0, 5, 2**20]))


def bins(rng):
    """Several bins, with and without a table of factors and a file of finer bins."""
    top = rng.randint(1, 6)
    low = rng.randint(1, top)
    time_max = rng.choice([1, 2**top, 2**top + 1, 2**(top + 1)])
    last = -(-time_max // 2**top) * 2**top
    changes = [("TimeMax", time_max), ("LowBin", low), ("TopBin", top), ("ErrTolTheta", rng.choice([0, 0, 128, 256])),
               ("VelocityShift", rng.choice([0, 2, 4, 4, 6, 10])), ("ErrTolIntAccuracy", rng.choice([65536, 65536, 31246, 2000, 60])),
               ("GravityConstantInternal", rng.choice([1024, 1048576, 2**26, 2**32])), ("SofteningType2", 8192), ("SofteningType4", 1024)]
    bodies = near_bodies(rng, 2, 8)
    if rng.random() < 0.3:
        put_on_edge(rng, bodies)
    files = {"ics.dat": snapshot(bodies)}
    if rng.random() < 0.4:
        changes.append(("ExpansionTableFile", "expansion.dat"))
        files["expansion.dat"] = expansion(rng, last)
    if rng.random() < 0.5:
        changes.append(("BinFile", "bins.dat"))
    files["param.txt"] = lines_text(parameter_lines(rng, changes))
    return files, RUN


def expansions(rng):
    time_max = rng.choice([1, 2, 3, 8])
    data = expansion(rng, time_max + 1)
    if rng.random() < 0.4:
        data = data[:rng.choice([0, 7, 8, 15, 16, 17, len(data) - 1, rng.randrange(len(data) + 1)])]
    elif rng.random() < 0.3:
        data = data[:12] + struct.pack("<I", rng.choice([0, 1, 2])) + data[16:]
    if rng.random() < 0.5:
        data = flip(rng, data)
    params = parameter_lines(rng, [("ExpansionTableFile", "expansion.dat"), ("TimeMax", time_max)])
    files = {"param.txt": lines_text(params), "expansion.dat": data, "ics.dat": snapshot(some_bodies(rng, 3))}
    if rng.random() < 0.03:
        del files["expansion.dat"]
    return files, rng.choice([RUN, ["check", "param.txt"]])


def tables(rng):
    data = table(rng)
    if rng.random() < 0.4:
        data = data[:rng.choice([0, 7, 8, 15, 16, 17, len(data) - 1, rng.randrange(len(data) + 1)])]
    elif rng.random() < 0.2:
        data += bytes(rng.randint(1, 12))
    if rng.random() < 0.6:
        data = flip(rng, data)
    params = parameter_lines(rng, [("EwaldTableFile", "table.dat")])
    files = {"param.txt": lines_text(params), "table.dat": data, "ics.dat": snapshot(some_bodies(rng, 3))}
    if rng.random() < 0.03:
        del files["table.dat"]
    return files, rng.choice([RUN, ["check", "param.txt"]])


# ---- groups and links

def grouped_bodies(rng):
    """Bodies in chains of about a link, some round the edge of the box, and the length of a link."""
    link = rng.choice([0, 1, 3, 100, 2**20, 2**29, 2**30])
    ids = rng.sample(range(1, 200), rng.choice([0, 1, 2, 5, rng.randint(1, 60)]))
    pos = [rng.choice([0, 1, 2**31, 2**32 - 1, 2**32 - link // 2 - 1, rng.randrange(2**32)]) for _ in range(3)]
    bodies = []
    for i in ids:
        if rng.random() < 0.15:
            pos = [rng.randrange(2**32) for _ in range(3)]
        way = [0, 0, 0]
        way[rng.randrange(3)] = link + rng.choice([-1, 0, 0, 0, 1])
        if rng.random() < 0.3:
            way = [rng.randrange(link + 1) for _ in range(3)]
        pos = [(x + rng.choice([1, -1]) * w) % 2**32 for x, w in zip(pos, way)]
        bodies.append(dict(id=i, kind=some_kind(rng), mass=rng.randint(1, 2**20), pos=pos, mom=[0, 0, 0]))
    return bodies, link


def groups(rng):
    bodies, link = grouped_bodies(rng)
    data = snapshot(bodies, rng.choice([0, 5]))
    if rng.random() < 0.3:
        try:
            data = bad_snapshot(rng, data)
        except (struct.error, KeyError, IndexError, ValueError):
            data = flip(rng, data)
    words = ["groups", "s", str(link), str(rng.choice([1, 1, 2, 2, 3, 10, 1048576])), "g"]
    if rng.random() < 0.2:
        at = rng.randrange(1, 5)
        words[at] = rng.choice([around(rng, 0, 2**30), around(rng, 1, 1048576), odd_number(rng)] if at in (2, 3)
                               else ["", "absent", "n" * 200, "n" * 201, "n" * 221, "n" * 222, "a b", "s", "g"])
    if rng.random() < 0.05:
        words = rng.choice([words[:4], words + ["x"], ["Groups"] + words[1:]])
    return {"s": data, "g": rng.choice([b"", b"old"])}, words


def catalogue(groups):
    text = b"I4GROUPS" + struct.pack("<II", len(groups), 0)
    return text + b"".join(struct.pack("<3Q", group[0], 7 * len(group), len(group)) + struct.pack("<%dQ" % len(group), *group) for group in groups)


def some_groups(rng, ids):
    """Some of the ids, parted into groups."""
    groups = {}
    for i in rng.sample(ids, rng.randint(0, len(ids))):
        groups.setdefault(rng.randrange(rng.choice([1, 3, 8])), []).append(i)
    return sorted(sorted(group) for group in groups.values())


def bad_catalogue(rng, groups):
    kind = rng.randrange(7)
    data = catalogue(groups)
    if kind == 0 or not groups:
        return data[:rng.choice([rng.randrange(len(data) + 1), 7, 8, 15, 16, len(data) - 1])]
    if kind == 1:
        return flip(rng, data)
    if kind == 2:
        return data + bytes(rng.choice([1, 8, 24, 32]))
    if kind == 3:
        return data[:8] + struct.pack("<II", rng.choice([0, len(groups) - 1, len(groups) + 1, 2**32 - 1]), rng.randrange(2**32)) + data[16:]
    groups = [list(group) for group in groups]
    group = rng.choice(groups)
    if kind == 4:
        group.append(rng.choice([i for other in groups for i in other]))
    elif kind == 5:
        group[rng.randrange(len(group))] = rng.choice([0, 2**64 - 1, rng.randrange(100), group[0]])
    else:
        rng.shuffle(groups)
    return catalogue([group if kind == 6 or rng.random() < 0.2 else sorted(group) for group in groups])


def links(rng):
    least = rng.choice([0, 1, 2**32, 2**64 - 60])
    ids = rng.sample(range(least, least + 60), rng.choice([0, 1, 3, 12, 40]))
    both = [some_groups(rng, ids), some_groups(rng, ids)]
    data = [catalogue(groups) for groups in both]
    for at in rng.choice([[], [], [], [0], [1], [0, 1]]):
        data[at] = bad_catalogue(rng, both[at])
    words = ["links", "first", rng.choice(["second", "second", "second", "first"]), "n"]
    if rng.random() < 0.1:
        words[rng.randrange(1, 4)] = rng.choice(["", "absent", "n" * 200, "n" * 201, "a b", "first", "second"])
    if rng.random() < 0.03:
        words = rng.choice([words[:3], words + ["x"], ["Links"] + words[1:]])
    return {"first": data[0], "second": data[1]}, words


# ---- restart files

def paces(rng, bodies, bin_):
    """Accuracy, gravity and velocity shift by which the fastest body about fits the bin, all softening lengths being 256."""
    most = 1
    for one in bodies:
        pull = 0
        for other in bodies:
            ways = [abs((x - y + 2**31) % 2**32 - 2**31) for x, y in zip(one["pos"], other["pos"])]
            pull += 2**64 * other["mass"] * sum(ways) // int((sum(way * way for way in ways) + 65536)**1.5)
        most = max(most, pull)
    for _ in range(20):
        accuracy, shift = rng.choice([60, 2000, 31246, 65536]), rng.choice([0, 4, 10, 20, 30])
        gravity = 2**64 * (accuracy * 512 * 2**shift // 65536) // (most * 4**bin_)
        if 16 <= gravity <= 2**32:
            break
    return [accuracy, min(gravity, 2**32) // rng.choice([1, 2, 3]), shift]


def restart(state):
    """A restart file by its fields; each body has a depth in version 2."""
    deep = state["version"] == 2
    text = b"I4RESTRT" + struct.pack("<II5Q", *(state[name] for name in ("version", "count", "steps", "tick", "snapshots", "restarts", "kicks")))
    text += state["interactions"].to_bytes(16, "little") + struct.pack("<12Q", *state["settings"])
    for body in state["bodies"]:
        text += struct.pack("<QII3I3q", body["id"], body["kind"], body["mass"], *body["pos"], *body["mom"])
        text += struct.pack("<I", body["depth"]) if deep else b""
    return text + state["end"]


def counters(rng):
    few = [0, 1, 3, 998, 999]
    return dict(snapshots=rng.choice(few + [2**32 - 1, 2**32, 2**64 - 1]), restarts=rng.choice(few + [2**64 - 1]),
                kicks=rng.choice(few + [2**64 - 1]), interactions=rng.choice(few + [2**64 - 1, 2**128 - 1]))


def kept_state(rng):
    """A state from which a run goes on for one or two base steps, at a synchronisation or inside a base step."""
    deep = rng.random() < 0.6
    top = rng.choice([2, 3, 4, 5, 5]) if deep or rng.random() < 0.8 else rng.choice([1, 20])
    low = rng.randint(1, top - deep) if top < 20 else 20
    unit = 2**top
    steps = rng.choice([0, 1, 2, 5, rng.randrange(2**10), 2**40 // unit - 1])
    time_max = min(2**40, steps * unit + rng.choice([1, unit // 2, unit, unit + 1, 2 * unit]))
    bin_ = rng.randint(low, top - 1) if deep else top
    tick = steps * unit + (2 * rng.randrange(2**(top - bin_ - 1)) + 1) * 2**bin_ if deep else steps * unit
    settings = [time_max, low, top, rng.choice([0, 128, 256]), rng.choice([65536, 31246, 1]), rng.choice([0, 1024, 1048576, 2**32]),
                rng.choice([0, 4, 20, 40])] + [rng.choice([256, 8192, 2**30]) for _ in range(5)]
    bodies = sorted(near_bodies(rng, int(deep), 5), key=lambda body: body["id"])
    if rng.random() < 0.5:
        settings[4:7] = paces(rng, bodies, low)
    for body in bodies:
        body["depth"] = rng.randint(0, top - bin_)
    return dict(counters(rng), version=1 + deep, count=len(bodies), steps=steps, tick=tick, unit=unit, settings=settings, bodies=bodies, end=b"I4RESEND")


def change_head(rng, state):
    unit, count, steps, tick = state["unit"], state["count"], state["steps"], state["tick"]
    name, values = rng.choice([
        ("version", [0, 1, 2, 3, 257, 2**32 - 1]),
        ("count", [0, count + 1, max(0, count - 1), 1048576, 1048577, 2**32 - 1]),
        ("steps", [steps + 1, max(0, steps - 1), steps + 2**64 // unit, 2**63, 2**64 - 1]),
        ("tick", [0, tick + 1, max(0, tick - 1), tick + unit, tick ^ unit // 2, tick ^ unit // 4, tick | 2**63, 2**64 - 1]),
        ("end", [b"I4RESEN", b"I4RESENd", b"", b"I4RESEND\0", b"I4RESTRT"])])
    state[name] = rng.choice(values)


def change_setting(rng, state):
    at = rng.choice([0, 1, 2, rng.randrange(12)])
    low, high = SETTINGS[at][2]
    values = [max(0, low - 1), low, high, high + 1, rng.randint(low, high), 2**63, 2**64 - 1]
    if at == 0:
        values = [state["tick"], state["tick"] + 1, max(0, state["tick"] - 1), state["steps"] * state["unit"], 2**40, 2**40 + 1, 0, 2**64 - 1]
    if at == 2:
        values += [state["settings"][1], state["settings"][1] - 1, 21]
    state["settings"][at] = rng.choice(values) % 2**64


def change_body(rng, state):
    if not state["bodies"]:
        return
    at = rng.randrange(len(state["bodies"]))
    body = state["bodies"][at]
    kind = rng.randrange(6)
    if kind == 0:
        body["id"] = rng.choice([0, 2**64 - 1, state["bodies"][at - 1]["id"], state["bodies"][at - 1]["id"] + 1])
    elif kind == 1:
        body["kind"] = rng.choice([0, 1, 5, 6, 257, 2**32 - 1])
    elif kind == 2:
        body["depth"] = rng.choice([body["depth"] + 1, body["depth"] + 2, 0, 256, 257, 2**32 - 1])
    elif kind == 3:
        body["mass"] = rng.choice([0, 0, 2**32 - 1, 2**31])
    elif kind == 4:
        body["mom"][rng.randrange(3)] = rng.choice([2**62, 2**62 + 1, -2**62, -2**62 - 1, 2**63 - 1, -2**63])
    else:
        for one in state["bodies"]:
            one["mass"] = rng.choice([2**31, 2**31 - 1, 2**31 + 1])


def change_words(rng, words):
    ranks = ["resume", "param.txt", words[2], rng.choice(["0", "2", "256", "257", "x", "01", "+1", ""])]
    return rng.choice([words[:3], words + ["1"], ranks, ranks, ranks,
                       words[:1] + [rng.choice(["absent", "p" * 200, "p" * 201, "ics.dat"])] + words[2:],
                       words[:2] + [rng.choice(["restart_001", "ics.dat", "param.txt", "r" * 221, "r" * 222, "", "a b", "\u00e9", "a\x7f"]), "1"],
                       ["Resume"] + words[1:], ["check", "param.txt"], ["show", "restart_000"]])


def beside_restart(rng, state):
    """The parameter file of a state and what it names."""
    changes = [(row[0], value) for row, value in zip(SETTINGS, state["settings"])] + [("RestartEvery", rng.choice([0, 1, 2]))]
    files = {"ics.dat": snapshot([])} if rng.random() < 0.8 else {}
    time_max, unit = state["settings"][0], state["unit"]
    if rng.random() < 0.3:
        near = [state["tick"] + rng.choice([-1, 0, 1, unit - 1, unit]) for _ in range(3)]
        files["outputs.txt"] = lines_text(max(0, tick) for tick in near)
        changes.append(("OutputListFilename", "outputs.txt"))
    if rng.random() < 0.2 and time_max < 2**12:
        files["expansion.dat"] = expansion(rng, -(-time_max // unit) * unit)
        changes.append(("ExpansionTableFile", "expansion.dat"))
    if rng.random() < 0.2:
        changes.append(("BinFile", "bins.dat"))
    if rng.random() < 0.25:
        files["stop"] = b""
    files["param.txt"] = lines_text(parameter_lines(rng, changes))
    return files


def restarts(rng):
    state = kept_state(rng)
    files = beside_restart(rng, state)
    for change in rng.choice([[], [], [], [change_head], [change_setting], [change_body], [change_body], [change_head, change_body], [change_setting, change_setting]]):
        change(rng, state)
    data = restart(state)
    how = rng.random()
    if how < 0.1:
        data = data[:rng.choice([rng.randrange(len(data) + 1), 7, 8, 175, 176, len(data) - 1])]
    elif how < 0.2:
        data = flip(rng, data)
    elif how < 0.25:
        data += bytes(rng.choice([1, 4, 8, 52, 56]))
    elif how < 0.35:
        name, _, (low, high) = rng.choice(SETTINGS[3:])
        files["param.txt"] = lines_text("%s %d" % (name, rng.randint(low, high)) if line.startswith(name + " ") else line
                                        for line in files["param.txt"].decode().splitlines())
    if rng.random() < 0.98:
        files["restart_000"] = data
    words = ["resume", "param.txt", "restart_000", "1"]
    return files, change_words(rng, words) if rng.random() < 0.1 else words


def restarts_case(rng, both):
    """One call, or one for each length to which a restart file can be cut."""
    if rng.random() * 300 >= 1:
        return both.once(*restarts(rng))
    state = kept_state(rng)
    state["bodies"], state["count"] = state["bodies"][:2], len(state["bodies"][:2])
    both.fill(beside_restart(rng, state))
    data = restart(state)
    for length in range(len(data)):
        both.fill({"restart_000": data[:length]})
        both.call(["resume", "param.txt", "restart_000", "1"])


# ---- sessions

def session(rng):
    """The files of a run of several base steps, in most of which some bodies make finer steps."""
    top = rng.randint(1, 5)
    low = rng.choice([rng.randint(1, top), max(1, top - 2), max(1, top - 3)])
    unit = 2**top
    time_max = rng.randint(1, 6) * unit - rng.choice([0, 0, 1, unit // 2, unit - 1])
    bodies = near_bodies(rng, 1, 8)
    accuracy, gravity, shift = paces(rng, bodies, rng.randint(low, max(low, top - 1)))
    if rng.random() < 0.1:
        put_on_edge(rng, bodies)
    changes = [("TimeMax", time_max), ("LowBin", low), ("TopBin", top), ("ErrTolTheta", rng.choice([0, 128, 256])), ("ErrTolIntAccuracy", accuracy),
               ("VelocityShift", shift), ("GravityConstantInternal", gravity), ("RestartEvery", rng.randint(0, 3)),
               ("RankTrace", rng.randint(0, 1)), ("DeliverySeed", rng.choice([0, 1, 42, 2**64 - 1]))]
    files = {"ics.dat": snapshot(bodies)}
    for name, file_name, data in [("ExpansionTableFile", "expansion.dat", expansion(rng, -(-time_max // unit) * unit)),
                                  ("EwaldTableFile", "table.dat", table(rng)), ("BinFile", "bins.dat", None), ("OutputListFilename", "outputs.txt", ticks(rng, time_max, unit))]:
        if rng.random() < (0.75 if name == "OutputListFilename" else 0.4):
            changes.append((name, file_name))
            if data is not None:
                files[file_name] = data
    files["param.txt"] = lines_text(parameter_lines(rng, changes))
    return files


def ticks(rng, time_max, unit):
    """Ticks at, between and beyond synchronisations."""
    last = -(-time_max // unit)
    return lines_text(rng.choice([0, rng.randint(0, last) * unit, rng.randint(0, last) * unit + rng.choice([1, unit - 1]), rng.randint(0, last * unit),
                                  time_max, last * unit + 1, 2**40]) for _ in range(rng.choice([0, 1, 3, 6])))


def numbered(files, base):
    return {name: data for name, data in files.items() if name.startswith(base + "_") and name[len(base) + 1:].isdigit()}


def goes_on(kept, name, whole, part):
    """What a run resumed from `kept` has otherwise than the unbroken one, by the numbers that `kept` has."""
    snapshots, _, kicks = struct.unpack_from("<3Q", kept, 32)
    later = {number: data for number, data in numbered(whole[2], "snapshot").items() if int(number[9:]) >= snapshots}
    written = numbered(part[2], "snapshot")
    lines = whole[2]["kicks.txt"].splitlines(True)[kicks:]
    steps, tick = struct.unpack_from("<2Q", kept, 16)
    kick_file = "kicks.txt_from_%d" % steps + ("_at_%d" % tick if kept[8] == 2 else "")
    stopped = part[0] == STOPPED
    wrong = []
    if not stopped and part[:2] != whole[:2]:
        wrong.append("answers %r, unbroken %r" % (part[:2], whole[:2]))
    if any(later.get(number) != data for number, data in written.items()) or not (stopped or later == written):
        wrong.append("writes the snapshots %s, unbroken %s" % (sorted(written), sorted(later)))
    got = part[2].get(kick_file, b"none").splitlines(True)
    if got != lines[:len(got)] or not (stopped or got == lines):
        wrong.append("writes other kick lines")
    return ["resumed from %s it %s" % (name, what) for what in wrong]


def sessions_case(rng, both):
    """A run unbroken; stopped at each of its questions in turn; and resumed from each restart file of both."""
    files = dict(session(rng))
    whole = both.beside("whole").fill(files)
    unbroken = whole.call(RUN)
    chain = both.beside("chain").fill(dict(files, stop=b""))
    words, kept, name = RUN, None, None
    while True:
        before = chain.files()
        part = chain.call(words)
        if kept is not None:
            part = part[:2] + ({file: data for file, data in part[2].items() if before.get(file) != data},)
            both.wrong += goes_on(kept, name, unbroken, part)
        new = [file for file in numbered(part[2], "restart") if file not in before]
        if part[0] != STOPPED or not new or both.wrong:
            break
        name = max(new, key=lambda file: int(file[8:]))
        kept, words = part[2][name], ["resume", "param.txt", name, "1"]
    if part[:2] != unbroken[:2] or numbered(chain.files(), "snapshot") != numbered(unbroken[2], "snapshot"):
        both.wrong.append("after stops it ends %r, unbroken %r" % (part[:2], unbroken[:2]))
    for source in (whole, chain):
        resume_from_each(both, source, unbroken)


def resume_from_each(both, source, unbroken):
    """In a copy of the folder, without `stop` and the snapshots, so that those that are written show."""
    for name, kept in sorted(numbered(source.files(), "restart").items()):
        again = source.copy("again", lambda file: file != "stop" and not file.startswith("snapshot_"))
        part = again.call(["resume", "param.txt", name, "1"])
        both.wrong += goes_on(kept, name, unbroken, part)
        if both.wrong:
            return
        again.drop()


def made_case(rng, both):
    """Bodies by a count, a seed and a name, one of which may be wrong; a look at both files; and a run where they are few."""
    count = rng.choice([0, 1, 2, rng.randint(3, 60), rng.randint(61, 3000)])
    seed = rng.choice([0, 1, rng.randrange(2**32), rng.randrange(2**64), 2**64 - 1])
    name = "".join(rng.choice("abcxyz0._%") for _ in range(rng.choice([1, 2, 8, 180])))
    words = ["make", str(count), str(seed), name]
    if rng.random() < 0.2:
        words[rng.randint(1, 3)] = rng.choice(["", "x", "007", "-1", "1048577", "18446744073709551616", "n" * 181])
    both.fill({}).call(words)
    both.call(["check", name + ".param"])
    both.call(["show", name + ".ics"])
    if count <= 60:
        both.call(["run", name + ".param", "1"])


# Of a staged kind a case makes its own calls; of the others it is one call.
KINDS = {"forces": forces, "bins": bins, "tables": tables, "expansions": expansions, "parameters": parameters, "lists": lists, "snapshots": snapshots, "runs": runs,
         "groups": groups, "links": links}
STAGED = {"restarts": restarts_case, "sessions": sessions_case, "made": made_case}


# ---- running

def files_in(folder):
    left = {}
    for name in sorted(os.listdir(folder)):
        with open(os.path.join(folder, name), "rb") as got:
            left[name] = got.read()
    return left


def on_some_ranks(rng, words):
    """The words of a run on one rank, on 1 to 9."""
    if words[:1] in (["run"], ["resume"]) and words[-1] == "1":
        return words[:-1] + [str(rng.choice([1, 2, 3, rng.randint(1, 9)]))]
    return words


def is_same(mine, theirs):
    """Equal statuses, outputs and files; the other program's usage line may have more commands."""
    is_usage = mine[0] == USAGE and has_commands(theirs[1].rstrip(b"\n").split(b" | "), mine[1].rstrip(b"\n").split(b" | "))
    return mine[0] == theirs[0] and mine[2] == theirs[2] and (mine[1] == theirs[1] or is_usage)


def has_commands(more, commands):
    """All of the commands are among more, in their order."""
    left = iter(more)
    return all(command in left for command in commands)


class Both:
    """Both programs, each in a folder of its own that goes on from call to call, and what was found."""

    def __init__(self, other, folder, rng, found=None):
        self.other, self.folder, self.rng = other, folder, rng
        self.folders = [os.path.join(folder, name) for name in ("gadget", "other")]
        found = found or self
        if found is self:
            self.statuses, self.wrong = [], []
        else:
            self.statuses, self.wrong = found.statuses, found.wrong

    def beside(self, name):
        return Both(self.other, os.path.join(self.folder, name), self.rng, self)

    def fill(self, files):
        for folder in self.folders:
            os.makedirs(folder, exist_ok=True)
            for name, data in files.items():
                with open(os.path.join(folder, name), "wb") as out:
                    out.write(data)
        return self

    def copy(self, name, wanted):
        again = Both(self.other, self.folder + "-" + name, self.rng, self)
        for source, target in zip(self.folders, again.folders):
            os.makedirs(target)
            for file in filter(wanted, os.listdir(source)):
                shutil.copyfile(os.path.join(source, file), os.path.join(target, file))
        return again

    def drop(self):
        shutil.rmtree(self.folder)

    def files(self):
        return files_in(self.folders[0])

    def call(self, words):
        """What `gadget` answers and leaves; where the other program does otherwise, that is noted."""
        words = on_some_ranks(self.rng, words)
        mine = answer([os.path.join(TOP, "gadget")], words, self.folders[0])
        self.statuses.append(mine[0])
        theirs = answer(self.other, words, self.folders[1])
        if not is_same(mine, theirs):
            files = [name for name in set(mine[2]) | set(theirs[2]) if mine[2].get(name) != theirs[2].get(name)]
            self.wrong.append("%s: %r against %r, files %s" % (" ".join(words), mine[:2], theirs[:2], files))
        return mine

    def once(self, files, words):
        self.fill(files).call(words)


def answer(command, words, folder):
    done = subprocess.run(command + words, cwd=folder, stdin=subprocess.DEVNULL, stdout=subprocess.PIPE, stderr=subprocess.PIPE, timeout=600)
    return done.returncode, done.stdout, files_in(folder)


def case(kind, seed, number, other):
    rng = random.Random("%s %d %d" % (kind, seed, number))
    folder = tempfile.mkdtemp(prefix="gadget-compare-")
    both = Both(other, folder, rng)
    if kind in STAGED:
        STAGED[kind](rng, both)
    else:
        both.once(*KINDS[kind](rng))
    if not both.wrong:
        shutil.rmtree(folder)
    return kind, number, both.statuses, both.wrong, folder


def main():
    parser = argparse.ArgumentParser()
    parser.add_argument("--seed", type=int, default=1)
    parser.add_argument("--count", type=int, default=500, help="cases of each kind")
    parser.add_argument("--kinds", default=",".join([*KINDS, *STAGED]))
    parser.add_argument("--jobs", type=int, default=2)
    parser.add_argument("other", nargs="+")
    args = parser.parse_args()
    statuses, different = {}, 0
    with concurrent.futures.ThreadPoolExecutor(args.jobs) as pool:
        waiting = [pool.submit(case, kind, args.seed, number, args.other) for kind in args.kinds.split(",") for number in range(args.count)]
        for done in concurrent.futures.as_completed(waiting):
            kind, number, found, wrong, folder = done.result()
            for status in found:
                statuses[status] = statuses.get(status, 0) + 1
            different += bool(wrong)
            for what in wrong:
                print("%s %d differs in %s: %s" % (kind, number, folder, what), flush=True)
    told = ", ".join("%d: %d" % pair for pair in sorted(statuses.items()))
    print("%d cases of %d calls, %d differ; by status %s" % (len(waiting), sum(statuses.values()), different, told))
    return 1 if different else 0


if __name__ == "__main__":
    sys.exit(main())
