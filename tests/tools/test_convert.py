"""Float snapshots to whole numbers and back."""
import json
import struct

import gadget_tools
import numpy
import pytest
from gadget_tools import convert, float_files, integer_files, units

G, BOX = 43007.1, 100.0


def some_bodies(count=400, seed=5):
    rng = numpy.random.default_rng(seed)
    kind = numpy.sort(rng.choice([1, 1, 1, 2, 4], count)).astype("u1")
    return float_files.arrays_snapshot("some", rng.uniform(0, BOX, (count, 3)).astype("f4"), rng.normal(0, 200, (count, 3)).astype("f4"),
                                       rng.uniform(0.5, 1.5, count).astype("f4") * 1e-3, rng.permutation(count) + 1, kind)


def write_float(path, source, form):
    source.box, source.time, source.hubble = BOX, 0.25, 0.7
    path.write_bytes(float_files.float_bytes(source, form))


WORDS = ["--gravity", G, "--time-max", 0.05, "--softening", "1=0.1", "--softening", "2=0.2", "--softening", "4=0.3"]


@pytest.mark.parametrize("form", [1, 2])
def test_there_and_back(form, made, program, tmp_path):
    source = some_bodies()
    write_float(tmp_path / "in", source, form)
    report = made(tmp_path, "convert", "to-integer", "in", "ics", "param", *WORDS)
    bodies = gadget_tools.read(tmp_path / "ics").bodies
    answer = program(tmp_path, "check", "param")
    assert answer.out == "ok bodies 400 mass %d momentum %d %d %d" % (bodies.total_mass(), *bodies.total_momentum())
    assert 2**32 - 400 <= bodies.total_mass() <= 2**32
    made(tmp_path, "convert", "to-float", "ics", "param.units.json", "back", "--format", form)
    one, back = gadget_tools.read(tmp_path / "in"), gadget_tools.read(tmp_path / "back")
    assert back.format == form and back.time == 0.25 and back.box == BOX and back.hubble == 0.7
    order = lambda s: numpy.argsort(s.id)
    a, b = order(one), order(back)
    assert (one.id[a] == back.id[b]).all() and (one.kind[a] == back.kind[b]).all()
    told = {line.split()[0]: float(line.split("by at most ")[1].split()[0].strip(";")) for line in report.split("\n") if "by at most" in line}
    assert told["positions"] <= BOX / 2**33 and told["velocities"] < 1e-6 and told["masses"] < 2e-6
    short = numpy.abs(one.pos).max() * 2**-24           # f32 adds its own rounding on the way back
    assert numpy.abs(one.pos[a] - back.pos[b]).max() <= told["positions"] + short
    assert numpy.abs(one.vel[a] - back.vel[b]).max() <= told["velocities"] + numpy.abs(one.vel).max() * 2**-24
    assert numpy.abs(back.mass[b] / one.mass[a] - 1).max() <= told["masses"] + 2**-24


def test_arrays_and_a_mass_table(made, tmp_path):
    source = some_bodies(50)
    numpy.savez(tmp_path / "in.npz", pos=source.pos, vel=source.vel, mass=2e-3, id=source.id)
    made(tmp_path, "convert", "to-integer", "in.npz", "a", "param", "--box", BOX, *WORDS)
    bodies = gadget_tools.read(tmp_path / "a").bodies.by_id()
    assert (bodies.mass == 2**32 // 50).all() and (bodies.kind == 1).all()
    head = struct.pack(float_files.HEADER, 0, 50, *[0] * 4, 0, 2e-3, *[0] * 4, 0, 0, 0, 0, 0, 50, *[0] * 4, 0, 1, BOX, 0, 0, 1, *[0] * 9).ljust(256, b"\0")
    data = b""
    for contents in (head, source.pos.astype("<f8").tobytes(), source.vel.astype("<f4").tobytes(), source.id.astype("<u8").tobytes()):
        data += struct.pack("<I", len(contents)) + contents + struct.pack("<I", len(contents))
    (tmp_path / "table").write_bytes(data)
    made(tmp_path, "convert", "to-integer", "table", "b", "param2", *WORDS)
    assert (tmp_path / "a").read_bytes() == (tmp_path / "b").read_bytes()


def test_a_restart_file_and_the_centre(sphere, made, tmp_path):
    folder, _ = sphere
    made(tmp_path, "convert", "to-float", folder / "restart_000", folder / "param.txt.units.json", "out")
    back, restart = gadget_tools.read(tmp_path / "out"), gadget_tools.read(folder / "restart_000")
    assert numpy.abs(back.pos - restart.bodies.pos / 2**32).max() < 1e-7
    source = some_bodies(50)
    source.pos -= 500.0
    numpy.savez(tmp_path / "in.npz", pos=source.pos, vel=source.vel, mass=source.mass)
    made(tmp_path, "convert", "to-integer", "in.npz", "ics", "param", "--box", 400, "--centre", *WORDS)
    pos = gadget_tools.read(tmp_path / "ics").bodies.pos / 2**32
    assert numpy.abs((pos.min(0) + pos.max(0)) / 2 - 0.5).max() < 1e-9
    made(tmp_path, "convert", "to-float", "ics", "param.units.json", "moved")
    assert numpy.abs(gadget_tools.read(tmp_path / "moved").pos - source.pos).max() < 1e-4


def test_the_units_obey_newton():
    """Two bodies of the units: acceleration in file units from the program's force law, against G m / r^2."""
    source = float_files.arrays_snapshot("two", [[10, 50, 50], [30, 50, 50]], [[0, 0, 0], [1, 2, 3]], [3.0, 1.0])
    bodies, scale, _ = convert.to_integer(source, BOX, G)
    d = int(bodies.pos[1, 0]) - int(bodies.pos[0, 0])
    force = scale.gravity_internal * int(bodies.mass[0]) * int(bodies.mass[1]) / d**2               # momentum a tick
    gain = scale.velocities(numpy.array([[force, 0, 0]]), bodies.mass[:1])[0, 0] / scale.tick
    assert gain == pytest.approx(G * 1.0 / 20**2, rel=1e-6)
    assert scale.velocities(bodies.mom, bodies.mass)[1] == pytest.approx([1, 2, 3], abs=1e-6)


def test_the_velocity_shift_leaves_room():
    slow = convert.to_integer(some_bodies(), BOX, G)[1]
    assert slow.velocity_shift == 20 and slow.gravity_internal == 2**32
    source = some_bodies()
    source.vel *= 256                                   # faster than any escape, so that momenta need a smaller shift
    bodies, fast, _ = convert.to_integer(source, BOX, G)
    assert 0 < fast.velocity_shift < 20 and 2**57 < numpy.abs(bodies.mom).max() <= 2**59
    long = convert.to_integer(some_bodies(), BOX, G, time_max=slow.tick * 2.0**36)[1]
    assert long.velocity_shift == 12 and long.tick == pytest.approx(16 * slow.tick)


def test_positions_wrap():
    source = float_files.arrays_snapshot("wrapped", [[BOX, 0, 50], [-1e-13, 1.25 * BOX, 25]], numpy.zeros((2, 3)), 1.0)
    bodies, _, report = convert.to_integer(source, BOX, G)
    assert bodies.pos.tolist() == [[0, 0, 2**31], [0, 2**30, 2**30]]
    assert "2 bodies were outside the box and stand where it wraps" in report


def test_masses():
    whole, unit = units.whole_masses("x", numpy.full(1000, 0.1))
    assert (whole == 2**32 // 1000).all() and unit * whole.sum() == pytest.approx(100)
    whole, _ = units.whole_masses("x", numpy.append(numpy.full(1000, 1e-30), 1.0))
    assert whole.min() == 1 and whole.sum() == 2**32
    assert units.whole_masses("x", [7.0])[0][0] == 2**32 - 1


def refusal(source, **changes):
    with pytest.raises(gadget_tools.Fault) as fault:
        convert.to_integer(source, changes.get("box", BOX), changes.get("gravity", G), changes.get("shift"))
    assert fault.value.name == "some"
    return fault.value.place, fault.value.cause


def test_what_is_refused():
    source = some_bodies(20)
    source.kind[3] = 0
    assert "1 bodies of type 0 (gas)" in refusal(source)[1]
    source = some_bodies(20)
    source.id[4] = source.id[9]
    assert refusal(source) == ("id %d" % source.id[9], "it stands more than once")
    source = some_bodies(20)
    source.mass[6] = -1
    assert refusal(source)[0] == "body 7"
    source = some_bodies(20)
    source.vel[2] = 1e12
    assert refusal(source, shift=40)[0] == "id %d" % source.id[2] and "give a smaller" in refusal(source, shift=40)[1]
    source.vel[2] = 1e13
    assert "even with a velocity shift of 0" in refusal(source)[1]
    assert "the box is 0" in refusal(some_bodies(20), box=0.0)[1]


def test_wrong_files_leave_nothing(tools, tmp_path):
    source = some_bodies(20)
    write_float(tmp_path / "in", source, 2)
    good = (tmp_path / "in").read_bytes()
    nan = bytearray(good)
    at = good.index(b"VEL ") + 16
    nan[at + 12:at + 16] = struct.pack("<f", float("nan"))
    cases = ((good[:-3], "the block MASS of 80 bytes is cut"), (bytes(nan), "byte %d: a number in the block VEL" % (at + 12)),
             (good.replace(b"VEL ", b"XEL "), "there is no block VEL"), (struct.pack(">I", 256) + good[4:], "other order"), (b"", "byte 0"),
             (good[:20] + bytes(24) + good[44:], "which are no u32 or u64 for 0 bodies"))
    for data, cause in cases:
        (tmp_path / "in").write_bytes(data)
        answer = tools(tmp_path, "convert", "to-integer", "in", "ics", "param", *WORDS)
        assert answer.status == 1 and answer.err.startswith("gadget-tools: in: ") and answer.err.count("\n") == 0
        assert cause in answer.err
        assert [path.name for path in tmp_path.iterdir()] == ["in"]


def test_nothing_is_overwritten_without_force(tools, made, tmp_path):
    write_float(tmp_path / "in", some_bodies(20), 2)
    (tmp_path / "param").write_text("mine")
    words = ["convert", "to-integer", "in", "ics", "param", *WORDS]
    answer = tools(tmp_path, *words)
    assert answer.status == 1 and answer.err == "gadget-tools: param: it is there already; --force replaces it"
    assert sorted(path.name for path in tmp_path.iterdir()) == ["in", "param"] and (tmp_path / "param").read_text() == "mine"
    made(tmp_path, *words, "--force")
    assert sorted(path.name for path in tmp_path.iterdir()) == ["ics", "in", "param", "param.units.json"]
    answer = tools(tmp_path, "convert", "to-float", "ics", "param.units.json", "ics", "--force")
    assert answer.status == 1 and "is read by this command" in answer.err
    answer = tools(tmp_path, "convert", "to-float", "ics", "param.units.json", "nowhere/out")
    assert answer.err == "gadget-tools: nowhere/out: its folder isn't there"


def test_a_comoving_snapshot(made, tools, program, tmp_path):
    made(tmp_path, "expansion-table", "exp", "--start", 0.2, "--base-steps", 8)
    made(tmp_path, "start", "waves", "first", "param1", "--base", "s1", "--expansion-table", "exp", "--bodies", 127, "--most", 1)
    made(tmp_path, "convert", "to-float", "first", "param1.units.json", "float")
    source = gadget_tools.read(tmp_path / "float")
    assert source.time == pytest.approx(0.2) and source.redshift == pytest.approx(4) and source.omega_m == 0.3
    gravity = json.loads((tmp_path / "param1.units.json").read_text())["gravity"]
    words = ["convert", "to-integer", "float", "second", "param2", "--base", "s2", "--expansion", "exp.scales.json", "--hubble", 1, "--softening", "1=0.01"]
    made(tmp_path, *words, "--gravity", gravity)
    assert program(tmp_path, "check", "param2").out.startswith("ok bodies 127 ")
    one, two = (integer_files.read_snapshot(tmp_path / name).bodies for name in ("first", "second"))
    assert (one.mass == two.mass).all()
    parameters, scales = gadget_tools.read(tmp_path / "param1"), json.loads((tmp_path / "exp.scales.json").read_text())
    flow = source.vel * 0.2**1.5                        # a^2 dx/dt in boxes and 1/H0, of GADGET's sqrt(a) dx/dt
    want = flow * 2.0**32 * one.mass[:, None] * 2.0**parameters["VelocityShift"] * scales["tau_drift"]
    assert numpy.abs(one.mom - want).max() <= numpy.abs(want).max() * 2**-22
    want = 3 * 0.3 / (8 * numpy.pi) * 2.0**(96 + parameters["VelocityShift"]) / one.total_mass() * scales["tau_kick"] * scales["tau_drift"]
    assert 2**31 < parameters["GravityConstantInternal"] == round(want) <= 2**32
    assert numpy.abs(one.pos.astype("i8") - two.pos.astype("i8")).max() <= 2**8          # f32 between them
    assert numpy.abs(one.mom - two.mom).max() <= numpy.abs(one.mom).max() * 2**-23
    answer = tools(tmp_path, *words, "--gravity", 2 * gravity, "--force")
    assert answer.status == 1 and "makes Omega_m 0.6000, and the expansion table has 0.3000" in answer.err
