#!/usr/bin/env python3
"""Times whole runs of `gadget`, beside another program of the same commands.

    benches/runs/runs.py [--counts N,..] [--angles A,..] [--ranks R,..] [--rounds N] [OTHER..]

Bodies are those of `gadget make COUNT 7`; a run has two forces (`TimeMax 2`, both bins 1, `VelocityShift 30`,
`ErrTolIntAccuracy 65536`). OTHER.. is the command line of the other program; both are run in turn, and the least of the
rounds is told: seconds, seconds of processor time, interactions in a second of the latter, and the peak of memory. The files
that both leave must be the same.
"""
import argparse
import os
import resource
import shutil
import subprocess
import sys
import tempfile
import time

TOP = os.path.dirname(os.path.dirname(os.path.dirname(os.path.abspath(__file__))))
GADGET = [os.path.join(TOP, "crates", "gadget", "out", "gadget")]
SETTINGS = {"TimeMax": 2, "LowBin": 1, "TopBin": 1, "ErrTolIntAccuracy": 65536, "VelocityShift": 30}


def call(command, words, folder):
    """Seconds, processor seconds, peak in MB and what was printed, by a process of its own that waits for the program."""
    reader, writer = os.pipe()
    child = os.fork()
    if child == 0:
        os.close(reader)
        begun = time.monotonic()
        done = subprocess.run(command + words, cwd=folder, stdout=subprocess.PIPE, check=False)
        seconds = time.monotonic() - begun
        used = resource.getrusage(resource.RUSAGE_CHILDREN)
        told = "%f %f %f %s" % (seconds, used.ru_utime + used.ru_stime, used.ru_maxrss / 1000, done.stdout.decode())
        os.write(writer, told.encode())
        os._exit(done.returncode)
    os.close(writer)
    with os.fdopen(reader) as told:
        seconds, processor, peak, text = told.read().split(" ", 3)
    _, status = os.waitpid(child, 0)
    if status:
        sys.exit("%s answers %s: %s" % (" ".join(command + words), status >> 8, text))
    return float(seconds), float(processor), float(peak), text


def folder_of(count, angle, folder):
    os.makedirs(folder)
    call(GADGET, ["make", str(count), "7", "c"], folder)
    with open(os.path.join(folder, "c.param"), encoding="ascii") as made:
        lines = dict(line.split() for line in made)
    lines.update(SETTINGS, ErrTolTheta=angle)
    with open(os.path.join(folder, "c.param"), "w", encoding="ascii") as out:
        out.writelines("%s %s\n" % line for line in lines.items())


def files_in(folder):
    left = {}
    for name in sorted(os.listdir(folder)):
        with open(os.path.join(folder, name), "rb") as file:
            left[name] = file.read()
    return left


def compare(count, angle, ranks, rounds, programs):
    best, files = {}, {}
    for _ in range(rounds):
        for name, command in programs:
            folder = tempfile.mkdtemp(prefix="gadget-runs-")
            folder_of(count, angle, os.path.join(folder, "at"))
            got = call(command, ["run", "c.param", str(ranks)], os.path.join(folder, "at"))
            best[name] = min(best.get(name, got), got, key=lambda one: one[1])
            files[name] = files_in(os.path.join(folder, "at"))
            shutil.rmtree(folder)
    for name, (seconds, processor, peak, text) in best.items():
        interactions = int(text.split()[text.split().index("interactions") + 1])
        print("| %d | %d | %d | %s | %.2f | %.2f | %.1f | %.0f |" % (count, angle, ranks, name, seconds, processor, interactions / processor / 1e6, peak), flush=True)
    if len(set(map(str, files.values()))) > 1:
        sys.exit("the files differ")


def main():
    parser = argparse.ArgumentParser()
    for name, values in [("counts", "10000,100000"), ("angles", "128,256"), ("ranks", "1,8,64")]:
        parser.add_argument("--" + name, default=values)
    parser.add_argument("--rounds", type=int, default=2)
    parser.add_argument("other", nargs="*")
    args = parser.parse_args()
    programs = [("gadget", GADGET)] + ([("other", args.other)] if args.other else [])
    print("| bodies | angle | ranks | program | s | processor s | million interactions a processor s | peak MB |\n|---|---|---|---|---|---|---|---|")
    for count in args.counts.split(","):
        for angle in args.angles.split(","):
            for ranks in args.ranks.split(","):
                compare(int(count), int(angle), int(ranks), args.rounds, programs)


if __name__ == "__main__":
    main()
