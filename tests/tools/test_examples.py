"""The examples, from making the bodies to the pictures, where they have some."""
import subprocess

import gadget_tools
import numpy
import pytest
from conftest import TOP
from test_pictures import colours_of


@pytest.fixture
def example(tmp_path):
    def run(name):
        done = subprocess.run([TOP / "examples" / name / "run.sh", tmp_path / "run"], cwd=tmp_path, stdin=subprocess.DEVNULL, capture_output=True, text=True)
        assert done.returncode == 0, done.stdout + done.stderr
        assert "done tick " in done.stdout
        return tmp_path / "run"
    return run


def test_cold_collapse(example):
    folder = example("cold-collapse")
    first, last = (gadget_tools.read(folder / name).bodies for name in ("snapshot_000", "snapshot_002"))
    assert len(first) == len(last) == 4000
    size = [numpy.sqrt(((bodies.pos.astype("f8") - 2**31)**2).sum(1).mean()) for bodies in (first, last)]
    assert size[1] < 0.5 * size[0]
    kicks = gadget_tools.read(folder / "kicks.txt")
    assert len(set(kicks.bin)) > 1 and all(row == [0, 0, 0] for row in kicks.momentum)
    assert colours_of(folder / "collapse.png") > 50 and colours_of(folder / "kicks.png") > 20


def test_expanding_box(example):
    folder = example("expanding-box")
    snapshots = [gadget_tools.read(folder / ("snapshot_%03d" % number)).bodies for number in range(5)]

    def clumping(bodies):
        counts, _ = numpy.histogramdd(bodies.pos / 2.0**32, bins=4, range=[(0, 1)] * 3)
        return counts.var() / counts.mean()
    assert len(snapshots[-1]) == 1009 and clumping(snapshots[-1]) > 3 * clumping(snapshots[0]) > 0
    kicks = gadget_tools.read(folder / "kicks.txt")
    assert all(row == kicks.momentum[0] for row in kicks.momentum)
    assert colours_of(folder / "waves.png") > 20


def test_cluster(example):
    folder = example("cluster")
    first, last = (gadget_tools.read(folder / name).bodies for name in ("c.ics", "c_out_000"))
    assert len(first) == len(last) == 4000
    kicks = gadget_tools.read(folder / "c.kicks")
    assert len(set(kicks.bin)) > 1 and all(row == [38386965, -3720755, -215765] for row in kicks.momentum)
