"""Pictures are made, and show something; progress and the command line."""
import struct
import time

import gadget_tools
import matplotlib.image
import numpy
import pytest
from conftest import TOOLS, call
from gadget_tools import pictures, progress


def colours_of(path):
    assert path.read_bytes()[:8] == b"\x89PNG\r\n\x1a\n"
    return len(numpy.unique(matplotlib.image.imread(path).reshape(-1, 4), axis=0))


def test_density(sphere, made, tmp_path):
    folder, _ = sphere
    made(tmp_path, "plot", "density", folder / "ics.dat", "a.png", "--units", folder / "param.txt.units.json")
    made(tmp_path, "plot", "density", folder / "snapshot_000", folder / "snapshot_002", "b.png", "--axis", "x", "--width", 0.25, "--pixels", 64)
    assert colours_of(tmp_path / "a.png") > 20 and colours_of(tmp_path / "b.png") > 20
    made(tmp_path, "plot", "density", folder / "restart_000", "c.png")
    assert (tmp_path / "a.png").read_bytes() != (tmp_path / "c.png").read_bytes()


def test_the_pixels_have_the_mass():
    pos = numpy.array([[0, 0, 0], [2**31, 5, 0], [2**32 - 1, 2**32 - 1, 0], [2**31 + 2**29, 2**31, 0]], "u4")
    mass = numpy.array([1, 2, 3, 4], "u4")
    grid, across, _, _ = pictures.column_density(pos, mass, pixels=4)
    assert across == [0, 1]
    want = numpy.zeros((4, 4))
    want[0, 0], want[0, 2], want[3, 3], want[2, 2] = 1, 2, 3, 4          # [y, x]
    assert (grid == want * 16 / 10).all()
    grid, _, corner, side = pictures.column_density(pos, mass, pixels=4, width=0.5, centre=(0, 0, 0))
    assert (corner, side) == ([0.75, 0.75], 0.5)
    want = numpy.zeros((4, 4))
    want[2, 2], want[1, 1] = 1, 3                       # the view goes round the box
    assert (grid == want * 64 / 10).all()


def test_kicks(sphere, made, tools, tmp_path):
    folder, _ = sphere
    made(tmp_path, "plot", "kicks", folder / "kicks.txt", "k.png")
    assert colours_of(tmp_path / "k.png") > 20
    (tmp_path / "empty").touch()
    answer = tools(tmp_path, "plot", "kicks", "empty", "e.png")
    assert answer.status == 1 and "no kick yet" in answer.err and not (tmp_path / "e.png").exists()


def test_pairs_and_groups(sphere, made, tools, tmp_path):
    folder, _ = sphere
    (tmp_path / "pairs").write_text("shell 0 5\nshell 1 40\nshell 2 160\nshell 3 10970\nwalked 99 pairs 11175\n")
    made(tmp_path, "plot", "pairs", "pairs", "p.png", "--first", 100000000)
    data = b"I4GROUPS" + struct.pack("<2I", 1, 0) + struct.pack("<3Q", 2, 60, 40) + struct.pack("<40Q", *range(2, 42))
    (tmp_path / "groups").write_bytes(data)
    made(tmp_path, "plot", "groups", "groups", "g.png", folder / "ics.dat")
    assert colours_of(tmp_path / "p.png") > 5 and colours_of(tmp_path / "g.png") > 20
    (tmp_path / "groups").write_bytes(data[:-8] + struct.pack("<Q", 999))
    answer = tools(tmp_path, "plot", "groups", "groups", "h.png", folder / "ics.dat")
    assert answer.status == 1 and "a member isn't in" in answer.err


def test_progress_of_a_growing_kick_file(sphere, tmp_path):
    folder, _ = sphere
    lines = (folder / "kicks.txt").read_text().split("\n")
    (tmp_path / "param.txt").write_text((folder / "param.txt").read_text())
    said, now, cuts = [], [0.0], iter([20, 60, 60, len(lines)])

    def sleep(seconds):
        now[0] += seconds
        (tmp_path / "kicks.txt").write_text("\n".join(lines[:next(cuts)]) + "\n7 half")
        if (tmp_path / "kicks.txt").read_text().count("\n") >= len(lines):
            (tmp_path / "kicks.txt").write_text("\n".join(lines))
    last = progress.follow(tmp_path / "param.txt", interval=10.0, say=said.append, clock=lambda: now[0], sleep=sleep)
    assert last == 3145728 and said[0].startswith("no kick yet") and said[-1].startswith("tick 3145728 of 3145728, 100.0 % done")
    assert len(said) == 4 and "ticks a second" in said[2] and "left" in said[2]


def test_progress_of_a_run_that_ended(sphere, made):
    folder, _ = sphere
    assert made(folder, "progress", "param.txt", "--once") == "tick 3145728 of 3145728, 100.0 % done"
    begin = time.monotonic()
    made(folder, "progress", "param.txt")               # ends by itself
    assert time.monotonic() - begin < 30


@pytest.mark.parametrize("words", [
    [], ["info"], ["convert", "to-integer"], ["convert", "to-float"], ["ewald-table"], ["expansion-table"], ["start", "sphere"], ["start", "waves"],
    ["plot", "density"], ["plot", "kicks"], ["plot", "pairs"], ["plot", "groups"], ["progress"]])
def test_help(words, capsys):
    from gadget_tools.command_line import main
    with pytest.raises(SystemExit) as end:
        main([*words, "--help"])
    assert end.value.code == 0 and "usage: gadget-tools" in capsys.readouterr().out


def test_the_script(sphere, tmp_path):
    folder, _ = sphere
    answer = call((TOOLS, "info", "snapshot_000"), folder)
    assert answer.status == 0 and answer.out.startswith("snapshot_000: snapshot in whole numbers: tick 0, number 0")
    answer = call((TOOLS, "plot", "kicks", folder / "nothing", "k.png"), tmp_path)
    assert answer.status == 1 and answer.err.endswith("nothing: there is no such file") and not list(tmp_path.iterdir())
    assert call((TOOLS, "inform"), tmp_path).status == 2


def test_info_and_wrong_words(sphere, made, tools, tmp_path):
    folder, line = sphere
    text = made(folder, "info", "snapshot_000", "restart_000", "kicks.txt", "bins.dat", "param.txt")
    assert "bodies 150, mass" in text and "restart file, version 1" in text and "the same in every line" in text and "whole" in text
    assert "interactions " + line.split()[10] in text
    answer = tools(tmp_path, "info", "nothing")
    assert answer.status == 1 and answer.err == "gadget-tools: nothing: there is no such file"


def test_the_same_words_make_the_same_start(made, tmp_path):
    for name in ("a", "b"):
        made(tmp_path, "start", "sphere", name, name + "p", "--bodies", 60, "--seed", 9)
    assert (tmp_path / "a").read_bytes() == (tmp_path / "b").read_bytes()
    made(tmp_path, "start", "sphere", "c", "cp", "--bodies", 60, "--seed", 10)
    assert (tmp_path / "a").read_bytes() != (tmp_path / "c").read_bytes()
    first = gadget_tools.read(tmp_path / "a").bodies
    r2 = ((first.pos.astype(object) - 2**31)**2).sum(1)
    assert max(r2) <= 2**58 and len(set(map(tuple, first.pos.tolist()))) == 60
