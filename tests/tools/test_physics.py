"""Runs of the program with what the tools made, against independent sums, linear theory and a float leapfrog."""
import gadget_tools
import numpy
import pytest
from gadget_tools import integer_files, tables, text_files
from gadget_tools.starts import sheared_lattice
from gadget_tools.units import read_units


@pytest.fixture(scope="module")
def ewald(made, tmp_path_factory):
    path = tmp_path_factory.mktemp("ewald") / "ew"
    made(path.parent, "ewald-table", path, "--grid", 5)
    return path


@pytest.mark.parametrize("d", [(0.25, 0.0, 0.0), (0.1, 0.2, 0.3)])
def test_two_bodies_feel_the_periodic_force(d, ewald, program, tmp_path):
    first = numpy.array([0.9, 0.1, 0.5])                # so that the way goes round the box
    pos = numpy.round(numpy.stack([first, first + d]) % 1.0 * 2**32).astype("u8").astype("u4")
    bodies = integer_files.Bodies(numpy.array([1, 2], "u8"), numpy.ones(2, "u1"), numpy.full(2, 2**31, "u4"), pos, numpy.zeros((2, 3), "i8"))
    (tmp_path / "ics").write_bytes(integer_files.snapshot_bytes(bodies))
    (tmp_path / "ew").write_bytes(ewald.read_bytes())
    (tmp_path / "p").write_bytes(text_files.parameter_bytes(dict(
        InitCondFile="ics", SnapshotFileBase="s", EwaldTableFile="ew", TimeMax=2, LowBin=1, TopBin=1, ErrTolTheta=0,
        ErrTolIntAccuracy=65536, GravityConstantInternal=2**32, VelocityShift=40)))
    answer = program(tmp_path, "run", "p", "1")
    assert answer.status == 0, answer.out
    end = gadget_tools.read(tmp_path / "s_000").bodies
    force = end.mom / 2 / 2.0**30                       # two kicks of one tick; G m m' / box^2 is 2^(32 + 62 - 64)
    want = tables.periodic_force(d)[0]
    assert numpy.abs(force[0] - want).max() <= 1e-3 * numpy.linalg.norm(want)
    assert (end.mom[0] == -end.mom[1]).all()
    plain = numpy.array(d) / numpy.dot(d, d)**1.5
    assert numpy.linalg.norm(plain - want) > 0.02 * numpy.linalg.norm(want)     # the table matters


def test_a_plane_wave_grows_by_linear_theory(ewald, made, program, tmp_path):
    (tmp_path / "ew").write_bytes(ewald.read_bytes())
    made(tmp_path, "expansion-table", "exp", "--start", 0.1, "--base-steps", 32, "--top-bin", 18)
    made(tmp_path, "start", "waves", "ics", "p", "--bodies", 1201, "--expansion-table", "exp", "--ewald-table", "ew",
         "--height", 0.3, "--low-bin", 18, "--accuracy", 65536, "--snapshots", 4)
    answer = program(tmp_path, "run", "p", "1")
    assert answer.status == 0, answer.out
    lattice, cosmology, units = sheared_lattice(1201), tables.Cosmology(0.3, 0.7), read_units(tmp_path / "p.units.json")
    for number in range(5):
        snapshot = gadget_tools.read(tmp_path / ("snapshot_%03d" % number))
        a = units.time_at(snapshot.tick)
        moved = snapshot.bodies.by_id().pos / 2.0**32 - lattice
        moved -= numpy.round(moved)
        height = 2 * (moved[:, 0] * numpy.sin(2 * numpy.pi * lattice[:, 0])).mean() * 2 * numpy.pi
        assert height == pytest.approx(0.3 * cosmology.growth(a) / cosmology.growth(1.0), rel=0.02), a
    assert a == pytest.approx(1.0) and cosmology.growth(1.0) / cosmology.growth(0.1) > 7


class Leapfrog:
    """The same steps in floats: a kick, a drift, a kick, of equal masses, all by one step; what the program is to equal but for rounding."""

    def __init__(self, bodies, gravity, shift, softening, step):
        self.x, self.p = bodies.pos.astype("f8"), bodies.mom.astype("f8")
        self.strength, self.soft2, self.step = float(gravity) * float(bodies.mass[0])**2, float(softening)**2, float(step)
        self.inertia = float(bodies.mass[0]) * 2.0**shift
        self.force = self.find()

    def pairs(self, rows):
        d = self.x[None] - self.x[rows, None]
        return d, (d * d).sum(2) + self.soft2

    def find(self):
        force = numpy.zeros_like(self.x)
        for rows in numpy.array_split(numpy.arange(len(self.x)), 8):
            d, r2 = self.pairs(rows)
            force[rows] = numpy.einsum("ijk,ij->ik", d, r2**-1.5)
        return force * self.strength

    def go(self):
        self.p += self.step / 2 * self.force
        self.x += self.p * self.step / self.inertia
        self.force = self.find()
        self.p += self.step / 2 * self.force

    def energy(self):
        binding = sum((self.pairs(rows)[1]**-0.5).sum() for rows in numpy.array_split(numpy.arange(len(self.x)), 8)) - len(self.x) / self.soft2**0.5
        return (self.p**2).sum() / (2 * self.inertia) - self.strength * binding / 2


def test_a_cold_sphere_keeps_its_energy_as_a_float_leapfrog(made, program, tmp_path):
    made(tmp_path, "start", "sphere", "ics", "p", "--bodies", 1000, "--falls", 1.65, "--max-step", 0.045, "--low-bin", 17,
         "--accuracy", 65536, "--softening", 0.02, "--snapshots", 4)
    answer = program(tmp_path, "run", "p", "1")
    assert answer.status == 0, answer.out
    parameters, start = gadget_tools.read(tmp_path / "p"), gadget_tools.read(tmp_path / "ics").bodies
    kicks, step = gadget_tools.read(tmp_path / "kicks.txt"), 2**parameters["TopBin"]
    assert set(kicks.bin) == {parameters["TopBin"]}     # one step for all, as in the leapfrog
    settings = parameters["GravityConstantInternal"], parameters["VelocityShift"], parameters["SofteningType1"], step
    floats = Leapfrog(start, *settings)
    first, worst, tick = floats.energy(), 0.0, 0
    for number in range(1, 5):
        snapshot = gadget_tools.read(tmp_path / ("snapshot_%03d" % number))
        while tick < snapshot.tick:
            floats.go()
            tick += step
        whole = Leapfrog(snapshot.bodies.by_id(), *settings).energy() / first - 1
        ours = floats.energy() / first - 1
        worst = max(worst, abs(ours))
        assert abs(whole - ours) < 0.02 * max(abs(ours), 1e-5), number
        apart = snapshot.bodies.by_id().pos.astype("f8") - floats.x
        assert (apart - apart.mean(0)).std() < 2e-5 * 2**32
    assert worst > 1e-5                                 # the steps err, far above the rounding
    assert all(row == [0, 0, 0] for row in kicks.momentum)
