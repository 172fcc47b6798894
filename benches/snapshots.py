#!/usr/bin/env python3
"""Times the reading and writing of a large snapshot, beside a plain `cp` of the same file.

    benches/snapshots.py [BODIES]        1,000,000 where nothing is said

Makes a snapshot of so many bodies in a folder of its own, and then runs three commands on it, each three times:
`cp`; `gadget check`, which reads it; and `gadget run` with `TimeMax 0`, which reads it and writes it again. Prints
the best seconds of processor time, the wall time of that run, and the peak memory of each.
"""
import array
import os
import random
import shutil
import struct
import subprocess
import sys
import tempfile
import time

TOP = os.path.dirname(os.path.dirname(os.path.abspath(__file__)))
PARAMETERS = """InitCondFile ics.dat
SnapshotFileBase out
TimeMax 0
LowBin 1
TopBin 1
ErrTolTheta 0
ErrTolIntAccuracy 65536
GravityConstantInternal 1
VelocityShift 20
"""


def block(out, name, contents):
    frame = struct.pack("<I", len(contents))
    out.write(struct.pack("<I4sII", 8, name, len(contents) + 8, 8) + frame)
    out.write(contents)
    out.write(frame)


def make(path, n):
    rng = random.Random(1)
    pos = array.array("I", (rng.getrandbits(32) for _ in range(3 * n)))
    for i in range(n):
        pos[3 * i] = i * 4096 % 2**32
    mom = array.array("q", (rng.getrandbits(40) - 2**39 for _ in range(3 * n)))
    ids = array.array("Q", range(1, n + 1))
    mass = array.array("I", [4000] * n)
    head = b"I4SNAP01" + struct.pack("<6IQI", 0, n, 0, 0, 0, 0, 0, 0)
    with open(path, "wb") as out:
        block(out, b"HEAD", head.ljust(256, b"\0"))
        for name, column in ((b"POS ", pos), (b"MOM ", mom), (b"ID  ", ids), (b"MASS", mass)):
            block(out, name, column.tobytes())


def timed(command, folder):
    start = time.time()
    child = subprocess.Popen(command, cwd=folder, stdout=subprocess.DEVNULL)
    _, status, used = os.wait4(child.pid, 0)
    child.returncode = os.waitstatus_to_exitcode(status)
    if child.returncode:
        sys.exit("%s ended with %d" % (command, child.returncode))
    return used.ru_utime + used.ru_stime, time.time() - start, used.ru_maxrss / 1024


def main():
    n = int(sys.argv[1]) if len(sys.argv) > 1 else 1000000
    folder = tempfile.mkdtemp(prefix="gadget-bench-")
    program = os.path.join(TOP, "gadget")
    subprocess.run([program], stdout=subprocess.DEVNULL)
    make(os.path.join(folder, "ics.dat"), n)
    with open(os.path.join(folder, "param.txt"), "w") as out:
        out.write(PARAMETERS)
    print("%d bodies, %.1f MB" % (n, os.path.getsize(os.path.join(folder, "ics.dat")) / 1e6))
    for name, command in (("cp", ["cp", "ics.dat", "copy.dat"]), ("read", [program, "check", "param.txt"]),
                          ("read and write", [program, "run", "param.txt", "1"])):
        best = min(timed(command, folder) for _ in range(3))
        print("%-15s %6.2f s of processor time, %6.2f s, peak %5.0f MB" % ((name,) + best))
    shutil.rmtree(folder)


if __name__ == "__main__":
    main()
