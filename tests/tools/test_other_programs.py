"""Converted snapshots open in yt and in splash, with the right bodies. Each is skipped where Debian's package isn't there."""
import shutil
import subprocess

import gadget_tools
import numpy
import pytest
from gadget_tools import float_files

BOX = 100.0


@pytest.fixture(scope="module")
def converted(made, tmp_path_factory):
    """A folder with a float snapshot `in`, and x.gad, what it became by way of whole numbers; the bodies of the first, by id."""
    folder, rng, count = tmp_path_factory.mktemp("converted"), numpy.random.default_rng(8), 300
    kind = numpy.sort(rng.choice([1, 2, 3], count)).astype("u1")
    pos, vel = rng.uniform(0, BOX, (count, 3)), rng.normal(0, 100, (count, 3))
    source = float_files.arrays_snapshot("in", pos, vel, rng.uniform(1, 2, count), rng.permutation(count) + 1, kind)
    source.box = BOX
    (folder / "in").write_bytes(float_files.float_bytes(source, 1))
    made(folder, "convert", "to-integer", "in", "ics", "param", "--gravity", 1, "--time-max", 0.1)
    made(folder, "convert", "to-float", "ics", "param.units.json", "x.gad")
    made(folder, "convert", "to-float", "ics", "param.units.json", "one.gad", "--type-1")
    order = numpy.argsort(source.id)
    return folder, source.id[order], source.pos[order], source.mass[order], source.vel[order]


def test_yt(converted):
    yt = pytest.importorskip("yt", reason="Debian's package yt (python3-yt) isn't installed")
    yt.set_log_level("error")
    folder, ids, pos, mass, vel = converted
    unit = dict(length=(1, "cm"), mass=(1, "g"), velocity=(1, "cm/s"))
    data = yt.load(str(folder / "x.gad"), unit_base=unit).all_data()
    order = numpy.argsort(numpy.array(data["all", "particle_index"]))
    assert len(order) == len(ids) and (numpy.array(data["all", "particle_index"])[order] == ids).all()
    assert numpy.abs(numpy.array(data["all", "particle_position"].to("code_length"))[order] - pos).max() < 2e-5
    assert numpy.abs(numpy.array(data["all", "particle_mass"].to("code_mass"))[order] / mass - 1).max() < 1e-6
    assert numpy.abs(numpy.array(data["all", "particle_velocity"].to("code_velocity"))[order] - vel).max() < 1e-3


@pytest.mark.skipif(not shutil.which("splash"), reason="Debian's package splash isn't installed")
def test_splash(converted):
    folder, ids, pos, mass, vel = converted
    subprocess.run(["splash", "to", "ascii", "-gadget", "--format=2", "x.gad"], cwd=folder, stdin=subprocess.DEVNULL, capture_output=True, timeout=60)
    written = folder / "x.gad.ascii"
    assert written.exists()
    rows = numpy.loadtxt(written)[:, :7]
    assert len(rows) == len(ids)
    back = gadget_tools.read(folder / "x.gad")          # splash keeps the order of the file and tells no ids
    rows = rows[numpy.argsort(back.id)]
    for got, want in ((rows[:, :3], pos), (rows[:, 3:6], vel), (rows[:, 6:7], mass[:, None])):
        assert numpy.abs(got - want).max() <= 2e-6 * numpy.abs(want).max()


@pytest.mark.skipif(not shutil.which("splash"), reason="Debian's package splash isn't installed")
def test_a_picture_by_splash(converted):
    folder = converted[0]
    words = ["splash", "-gadget", "--format=2", "one.gad", "-x", "1", "-y", "2", "--hsoft=2", "-dev", "p.png"]
    subprocess.run(words, cwd=folder, stdin=subprocess.DEVNULL, capture_output=True, timeout=60)
    pictures = [path for path in folder.iterdir() if path.suffix == ".png"]
    assert pictures and pictures[0].read_bytes()[:4] == b"\x89PNG" and pictures[0].stat().st_size > 1000
