#!/usr/bin/env python3
"""Runs `gadget` with one allocation refused, and with all from one on refused, for each allocation that it makes.

    tests/refused_memory.py [PROGRAM]

PROGRAM is the proved program, crates/gadget/out/gadget without it. A small library that refuses is compiled by `cc`
and put before the C library. Of each run this is checked: it ends with status 3, or with the status, the output and
the files of the run without a refusal. With status 3 it prints `no memory`, or a first part of what the unrefused
run prints, mostly nothing, where the memory for the words or for printing was refused. Then each input is as it was,
each other file is one of the unrefused run and holds a first part of that, and the numbered files are the first
ones, all but the last of them whole.
A line is printed for each case and each fault; the exit status is 0 where there is none.
"""
import os
import shutil
import subprocess
import sys
import tempfile

sys.dont_write_bytecode = True
from compare import RUN, TOP, catalogue, files_in, lines_text, numbered, snapshot  # noqa: E402

LIBRARY = r"""
#include <stddef.h>
#include <stdio.h>
#include <stdlib.h>
#include <unistd.h>

extern void *__libc_malloc(size_t size);
extern void *__libc_realloc(void *from, size_t size);
static long asked, first, last;

__attribute__((constructor)) static void begin(void)
{
    asked = 0;
    first = atol(getenv("REFUSE_FIRST"));
    last = atol(getenv("REFUSE_LAST"));
}

__attribute__((destructor)) static void end(void)
{
    char line[32];
    int size = snprintf(line, sizeof line, "asked %ld\n", asked);
    first = 0;
    if (write(2, line, size) != size)
        _exit(125);
}

static int is_refused(void)
{
    asked++;
    return first <= asked && asked <= last;
}

void *malloc(size_t size) { return is_refused() ? NULL : __libc_malloc(size); }
void *realloc(void *from, size_t size) { return is_refused() ? NULL : __libc_realloc(from, size); }
"""
NEVER, ALWAYS = 0, 2**62
NO_MEMORY = 3


def pair(*more):
    """Two bodies at rest, 1000 length units apart."""
    bodies = [dict(id=i, kind=1, mass=1024, pos=[x, 0, 0], mom=[0, 0, 0]) for i, x in [(1, 0), (2, 1000)]]
    lines = ["InitCondFile ics.dat", "SnapshotFileBase snapshot", "GravityConstantInternal 1048576", *more]
    return {"ics.dat": snapshot(bodies), "param.txt": lines_text(lines)}


TWO_BODIES = pair("TimeMax 2", "LowBin 1", "TopBin 1", "ErrTolTheta 0", "ErrTolIntAccuracy 65536", "VelocityShift 20")
BINS = ["TimeMax 4", "LowBin 1", "TopBin 2", "ErrTolTheta 0", "ErrTolIntAccuracy 65536", "VelocityShift 4"]
FOUR_STEPS = pair("OutputListFilename outputs.txt", "TimeMax 4000", "LowBin 4", "TopBin 10", "ErrTolTheta 180", "ErrTolIntAccuracy 1638",
                  "VelocityShift 20", "SofteningType1 4096", "RestartEvery 2", "DeliverySeed 42")
CATALOGUES = {"first": catalogue([[1, 2, 3], [4, 5]]), "second": catalogue([[1, 4, 5], [2, 3]])}
FOUR_STEPS["outputs.txt"] = lines_text(["1600", "0", "% later ones", "1000 1", "1500", "9000"])


def run(program, library, files, words, first=NEVER, last=NEVER):
    """The status and the output, the files that are left, and how many allocations were asked for."""
    folder = tempfile.mkdtemp(prefix="gadget-refused-")
    for name, data in files.items():
        with open(os.path.join(folder, name), "wb") as out:
            out.write(data)
    known = {"LD_PRELOAD": library, "REFUSE_FIRST": str(first), "REFUSE_LAST": str(last)}
    done = subprocess.run([program] + words, cwd=folder, env=known, stdin=subprocess.DEVNULL, stdout=subprocess.PIPE, stderr=subprocess.PIPE, timeout=60)
    left = files_in(folder)
    shutil.rmtree(folder)
    told = done.stderr.split()
    asked = int(told[1]) if len(told) == 2 and told[0] == b"asked" else None
    return (done.returncode, done.stdout), left, asked


def wrong_file(whole, files, left):
    """What is wrong with the files that are left for want of memory, or nothing."""
    for name, data in left.items():
        if name not in whole:
            return "it leaves a file %s" % name
        if not whole[name].startswith(data) or (name in files and data != whole[name]):
            return "%s has other bytes" % name
    if any(name not in left for name in files):
        return "an input is gone"
    for base in ("snapshot", "restart"):
        wanted, got = sorted(numbered(whole, base)), sorted(numbered(left, base))
        if got != wanted[:len(got)] or any(left[name] != whole[name] for name in got[:-1]):
            return "the numbered files aren't the first ones: %s" % got
    return ""


def fault(whole, files, part):
    """What is wrong with a run some of whose memory was refused, or nothing."""
    (status, printed), left, asked = part
    if asked is None or (status != NO_MEMORY and (status, printed) != whole[0]):
        return "it ends %d, printing %r" % (status, printed)
    if status != NO_MEMORY:
        return "" if left == whole[1] else "it leaves other files"
    if printed != b"no memory\n" and not whole[0][1].startswith(printed):
        return "it prints %r" % printed
    return wrong_file(whole[1], files, left)


def cases(program, library):
    """The names of the cases, their files and their words."""
    stopped = run(program, library, dict(pair(*BINS), stop=b""), RUN)[1]
    del stopped["stop"], stopped["kicks.txt"]
    return [("two bodies", TWO_BODIES, RUN), ("two bins", pair(*BINS), RUN), ("two bins and their file", pair(*BINS, "BinFile bins.dat"), RUN),
            ("four base steps", FOUR_STEPS, RUN), ("stopped inside a base step", dict(pair(*BINS), stop=b""), RUN),
            ("resumed inside a base step", stopped, ["resume", "param.txt", "restart_000", "1"]),
            ("check", FOUR_STEPS, ["check", "param.txt"]), ("show", TWO_BODIES, ["show", "ics.dat"]),
            ("groups", TWO_BODIES, ["groups", "ics.dat", "1000", "1", "groups.dat"]), ("links", CATALOGUES, ["links", "first", "second", "links.txt"])]


def main():
    program = os.path.abspath(sys.argv[1] if len(sys.argv) > 1 else os.path.join(TOP, "crates/gadget/out/gadget"))
    folder = tempfile.mkdtemp(prefix="gadget-refusing-")
    library = os.path.join(folder, "refusing.so")
    subprocess.run(["cc", "-O1", "-shared", "-fPIC", "-x", "c", "-", "-o", library], input=LIBRARY.encode(), check=True)
    faults = 0
    for title, files, words in cases(program, library):
        whole = run(program, library, files, words)
        ends = {}
        for number in range(1, whole[2] + 1):
            for last in (number, ALWAYS):
                part = run(program, library, files, words, number, last)
                wrong = fault(whole, files, part)
                end = "%d" % part[0][0] if part[0][1] else "%d, nothing printed" % part[0][0]
                ends[end] = ends.get(end, 0) + 1
                if wrong:
                    faults += 1
                    print("%s, allocation %d refused%s: %s" % (title, number, "" if last == number else " and all later ones", wrong))
        told = "; ".join("%s: %d" % end for end in sorted(ends.items()))
        print("%s: ends %d, %d allocations, %d runs; by status %s" % (title, whole[0][0], whole[2], 2 * whole[2], told))
    shutil.rmtree(folder)
    print("%d faults" % faults)
    return 1 if faults else 0


if __name__ == "__main__":
    sys.exit(main())
