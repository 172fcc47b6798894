"""Both tables: accepted by the program, symmetric, and right against sums of another kind."""
import struct

import gadget_tools
import numpy
import pytest
from gadget_tools import tables
from scipy.integrate import quad


@pytest.fixture(scope="module")
def written(made, tmp_path_factory):
    folder = tmp_path_factory.mktemp("tables")
    report = made(folder, "ewald-table", "ew", "--grid", 4)
    made(folder, "expansion-table", "exp", "--start", 0.1, "--base-steps", 6, "--top-bin", 16)
    return folder, report


def heat_kernel_force(x):
    """The same force without Ewald's splitting: bodies as sources of heat, -4 pi times the gradient of all heat over all times."""
    def one(t, u):
        n = numpy.arange(-8, 9)
        if t < 0.05:
            gauss = numpy.exp(-(u - n)**2 / (4 * t)) / numpy.sqrt(4 * numpy.pi * t)
            return gauss.sum(), (-(u - n) / (2 * t) * gauss).sum()
        k = numpy.arange(1, 9)
        wave = 2 * numpy.exp(-4 * numpy.pi**2 * k * k * t)
        return 1 + (wave * numpy.cos(2 * numpy.pi * k * u)).sum(), -(wave * 2 * numpy.pi * k * numpy.sin(2 * numpy.pi * k * u)).sum()

    def slope(log_t, axis):
        t = numpy.exp(log_t)
        values = [one(t, u) for u in x]
        return -4 * numpy.pi * t * numpy.prod([values[j][1 if j == axis else 0] for j in range(3)])
    return [quad(slope, -14, 2, args=(axis,), epsabs=1e-11, limit=400)[0] for axis in range(3)]


@pytest.mark.parametrize("x", [(0.25, 0, 0), (0.1, 0.2, 0.3), (0.45, 0.45, 0.45), (0.5, 0.1, 0.02), (-0.3, 0.4, 0.05)])
def test_the_sum_by_another_way(x):
    assert tables.periodic_force(x)[0] == pytest.approx(heat_kernel_force(x), abs=1e-8)
    for alpha in (1.7, 2.3):
        assert tables.periodic_force(x, alpha)[0] == pytest.approx(tables.periodic_force(x)[0], abs=1e-9)


def test_the_table_is_symmetric_to_the_last_bit(written):
    entries = gadget_tools.read(written[0] / "ew").entries.astype("i8")
    x, y, z = (entries[..., j] for j in range(3))       # indexed [iz, iy, ix]
    assert (x == x.transpose(1, 0, 2)).all()            # y and z change places
    assert (y == x.transpose(0, 2, 1)).all() and (z == x.transpose(2, 1, 0)).all()
    assert not x[:, :, [0, -1]].any() and not y[:, [0, -1]].any() and not z[[0, -1]].any()


def test_its_entries_are_the_correction(written):
    entries, report = gadget_tools.read(written[0] / "ew").entries, written[1]
    rng, cut = numpy.random.default_rng(2), 0
    for iz, iy, ix in rng.integers(1, 16, (40, 3)):
        d = numpy.array([ix, iy, iz]) / 32
        want = (tables.periodic_force(d)[0] - d / (d @ d)**1.5) * 2**30
        clipped = numpy.clip(numpy.round(want), -2**31, 2**31 - 1)
        cut += (clipped != numpy.round(want)).sum()
        assert numpy.abs(entries[iz, iy, ix] - clipped).max() <= 1
    assert cut > 0 and "cut to 32 bits: 1218 components" in report
    assert ((entries == 2**31 - 1) | (entries == -2**31)).sum() <= 1218


def test_the_program_accepts_both(written, sphere, program):
    folder, text = written[0], (sphere[0] / "param.txt").read_text()
    (folder / "ics.dat").write_bytes((sphere[0] / "ics.dat").read_bytes())
    lines = [line for line in text.split("\n") if not line.startswith(("Output", "TimeMax", "LowBin", "TopBin"))]
    (folder / "p").write_text("\n".join(lines + ["EwaldTableFile ew", "ExpansionTableFile exp", "TimeMax 393216", "LowBin 16", "TopBin 16"]))
    assert program(folder, "check", "p").out.startswith("ok bodies 150 ")
    for name, at, byte, text in (("ew", 8, 9, "table grid 9"), ("exp", 8, 41, "expansion spacing 41"),
                                 ("ew", 16, 1, "table plane 0"), ("exp", 16, 1, "expansion entry 0")):
        data = bytearray((folder / name).read_bytes())
        data[at] = byte
        (folder / "bad").write_bytes(data)
        (folder / "q").write_text((folder / "p").read_text().replace("TableFile " + name, "TableFile bad"))
        assert program(folder, "check", "q").out == text
        with pytest.raises(gadget_tools.Fault):
            gadget_tools.read(folder / "bad")


def test_expansion_sums():
    cosmology, a1, a2 = tables.Cosmology(0.25, 0.6), 0.1, 0.7           # with curvature
    kick, drift, s, scales = tables.expansion_sums(cosmology, a1, a2, 10, 12)
    assert kick[0] == drift[0] == 0 and (len(kick) - 1) << s == 10 << 12
    for place in (1, 7, len(kick) // 2, len(kick) - 1):
        a = scales.factor_at(place << s)
        for sums, unit, power in ((kick, scales.tau_kick, 2), (drift, scales.tau_drift, 3)):
            want = quad(lambda b: 1 / (b**power * cosmology.rate(b)), a1, a)[0] / unit       # dt = da / (a H)
            assert abs(sums[place] - want) <= 1 + 1e-6 * want
    assert numpy.diff(kick).max() <= 2**s and numpy.diff(drift).max() <= 2**s


def test_growth():
    flat = tables.Cosmology(1.0, 0.0)                   # Einstein and de Sitter: the growth is a
    assert flat.growth(0.3) == pytest.approx(0.3, rel=1e-9) and flat.growth_rate(0.3) == pytest.approx(1, rel=1e-9)
    cosmology = tables.Cosmology(0.3, 0.7)
    step = 1e-4
    slope = numpy.log(cosmology.growth(0.8 * (1 + step)) / cosmology.growth(0.8 * (1 - step))) / numpy.log((1 + step) / (1 - step))
    assert cosmology.growth_rate(0.8) == pytest.approx(slope, rel=1e-6)
    assert cosmology.growth(1.0) == pytest.approx(0.779, abs=2e-3)      # the known value of this cosmology


@pytest.mark.parametrize("words, cause", [
    (["--start", 1, "--end", 0.5], "don't rise"), (["--start", 0.1, "--omega-m", -1], "isn't above 0"),
    (["--start", 0.1, "--omega-lambda", 5], "doesn't expand"),
    (["--start", 0.1, "--base-steps", 1 << 25], "aren't 1 to 2^40"), (["--start", 0.1, "--spacing", 19], "don't fit")])
def test_refused_expansions(words, cause, tools, tmp_path):
    answer = tools(tmp_path, "expansion-table", "exp", *words)
    assert answer.status == 1 and cause in answer.err and not list(tmp_path.iterdir())


def test_a_header_by_hand(written):
    data = (written[0] / "ew").read_bytes()
    assert data[:16] == b"I4EWALD1" + struct.pack("<II", 4, 0) and len(data) == 16 + 12 * 17**3
    data = (written[0] / "exp").read_bytes()
    s, n = struct.unpack_from("<II", data, 8)
    assert data[:8] == b"I4EXPAN1" and len(data) == 16 + 16 * n and (n - 1) << s == 6 << 16
