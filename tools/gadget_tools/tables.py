"""The two tables that the program takes: periodic corrections by Ewald's sum, and the sums of an expansion."""
import struct

import numpy
from scipy.integrate import cumulative_trapezoid, quad
from scipy.special import erfc

from .faults import Fault
from .integer_files import EWALD_TAG, EXPANSION_TAG
from .units import Expansion, MOST_BIN, MOST_TIME

ALPHA, COPIES, WAVES = 2.0, 4, 8       # splitting, and copies and waves a side: what is left out is below 1e-15
ENTRY_UNIT = 2.0**30                   # an entry of 1 is 2^-30 G m m' / box^2
MOST_ENTRIES = (4194304 - 16) // 16


# ---- periodic corrections

def near_sum(x, alpha=ALPHA):
    """The part of Ewald's sum over copies, for the rows of x in boxes."""
    force = numpy.zeros_like(x)
    steps = numpy.arange(-COPIES, COPIES + 1)
    for n in numpy.stack(numpy.meshgrid(steps, steps, steps), -1).reshape(-1, 3):
        d = x - n
        r2 = (d * d).sum(1)
        r = numpy.sqrt(r2)
        with numpy.errstate(all="ignore"):
            weight = (erfc(alpha * r) + 2 * alpha * r / numpy.sqrt(numpy.pi) * numpy.exp(-alpha**2 * r2)) / (r2 * r)
        weight[r2 == 0] = 0
        force += d * weight[:, None]
    return force


def wave_weights(alpha=ALPHA):
    """w[h, k, l] = 2 h / |(h, k, l)|^2 exp(-(pi |.| / alpha)^2) for h from 1 on and k, l from 0 on, each with its copies by sign."""
    h, k, l = numpy.meshgrid(numpy.arange(1, WAVES + 1), numpy.arange(WAVES + 1), numpy.arange(WAVES + 1), indexing="ij")
    square = h * h + k * k + l * l
    return 2 * 2.0 * h / square * numpy.exp(-(numpy.pi / alpha)**2 * square) * numpy.where(k > 0, 2, 1) * numpy.where(l > 0, 2, 1)


def wave_sum(x, alpha=ALPHA):
    """The part of Ewald's sum over waves; by its symmetry it is a product of one sine and two cosines."""
    weights, force = wave_weights(alpha), numpy.empty_like(x)
    for axis in range(3):
        a, b, c = (2 * numpy.pi * x[:, j] for j in (axis, (axis + 1) % 3, (axis + 2) % 3))
        sines = numpy.sin(a[:, None] * numpy.arange(1, WAVES + 1))
        cosines = [numpy.cos(t[:, None] * numpy.arange(WAVES + 1)) for t in (b, c)]
        force[:, axis] = numpy.einsum("hkl,nh,nk,nl->n", weights, sines, *cosines, optimize=True)
    return force


def periodic_force(x, alpha=ALPHA):
    """The pull towards a body at each row of x and all its copies, a uniform background taken off; in G m m' / box^2."""
    x = numpy.atleast_2d(numpy.asarray(x, "f8"))
    return near_sum(x, alpha) + wave_sum(x, alpha)


def correction(x):
    """What the periodic force has beyond that of the nearest copy; x within half a box, 0 at the origin."""
    x = numpy.atleast_2d(numpy.asarray(x, "f8"))
    r = numpy.sqrt((x * x).sum(1))
    with numpy.errstate(all="ignore"):
        nearest = x / (r**3)[:, None]
    nearest[r == 0] = 0
    force = periodic_force(x) - nearest
    force[r == 0] = 0
    return force


def exact_grid(g):
    """The correction at the grid points, [z, y, x, component]; each value is computed once, so it is symmetric to the last bit."""
    n = 2**g + 1
    side = numpy.arange(n) / 2**(g + 1)
    i, j, k = (index.ravel() for index in numpy.meshgrid(numpy.arange(n), numpy.arange(n), numpy.arange(n), indexing="ij"))
    chosen = j <= k
    points = numpy.stack([side[index[chosen]] for index in (i, j, k)], -1)
    values = numpy.concatenate([correction(part)[:, 0] for part in numpy.array_split(points, max(1, len(points) // 8192))])
    along = numpy.empty((n, n, n))     # [own axis, and the others in either order]
    along[i[chosen], j[chosen], k[chosen]] = values
    along[i[chosen], k[chosen], j[chosen]] = values
    return numpy.stack([along.transpose(2, 1, 0), along.transpose(2, 0, 1), along], -1)


def ewald_entries(g):
    """(entries, exact): the whole numbers of the table, cut to 32 bits and 0 on the edge planes, and the exact corrections."""
    if not 1 <= g <= 6:
        raise Fault("--grid", "", "2^%d isn't 2^1 to 2^6" % g)
    exact = exact_grid(g)
    entries = numpy.clip(numpy.round(exact * ENTRY_UNIT), -2**31, 2**31 - 1).astype("i8")
    for edge in (0, 2**g):
        entries[:, :, edge, 0] = 0
        entries[:, edge, :, 1] = 0
        entries[edge, :, :, 2] = 0
    return entries, exact


def ewald_bytes(entries):
    return EWALD_TAG + struct.pack("<II", (len(entries) - 1).bit_length() - 1, 0) + entries.astype("<i4").tobytes()


def look_up(entries, d):
    """The table's correction in G m m' / box^2 at ways d in boxes, as the program takes it but in floats."""
    d = numpy.atleast_2d(numpy.asarray(d, "f8"))
    cells = len(entries) - 1
    u = numpy.abs(d) * 2 * cells
    low = numpy.minimum(numpy.floor(u).astype(int), cells - 1)
    part, total = u - low, numpy.zeros_like(d)
    for corner in range(8):
        bits = numpy.array([corner & 1, corner >> 1 & 1, corner >> 2])
        at = low + bits
        total += entries[at[:, 2], at[:, 1], at[:, 0]] * numpy.where(bits, part, 1 - part).prod(1)[:, None]
    return numpy.where(d < 0, -total, total) / ENTRY_UNIT


def ewald_report(entries, exact, points=4000):
    """How many entries are cut, and what cut, grid and edge planes cost."""
    cut, cells = numpy.abs(exact) >= 2, len(entries) - 1
    lines = ["grid 2^%d: %d entries of three components" % (cells.bit_length() - 1, (cells + 1)**3),
             "cut to 32 bits: %d components, in %d entries; the largest is %.4f, and 2 is the most" % (
                 cut.sum(), cut.any(3).sum(), numpy.abs(exact).max())]
    d = numpy.random.default_rng(1).uniform(-0.5, 0.5, (points, 3))
    true = periodic_force(d)
    nearest = d / ((d * d).sum(1)**1.5)[:, None]
    error = nearest + look_up(entries, d) - true
    reach = numpy.abs(d).max(1)
    for low, high in ((0, .1), (.1, .2), (.2, .3), (.3, .4), (.4, .5)):
        shell = (reach >= low) & (reach < high)
        if shell.any():
            size = numpy.sqrt((true[shell]**2).mean())
            lines.append("bodies %.1f to %.1f box apart: force off by %.2g rms, %.2g at most; the force itself is %.3g rms" % (
                low, high, numpy.sqrt((error[shell]**2).mean()), numpy.abs(error[shell]).max(), size))
    lines.append("numbers in G m m' / box^2; from 0.3 box on the cut and the planes of 0 make the error")
    return lines


# ---- expansion

class Cosmology:
    """Matter, Lambda and curvature; times in 1/H0."""

    def __init__(self, omega_m, omega_lambda):
        self.omega_m, self.omega_lambda, self.omega_k = omega_m, omega_lambda, 1 - omega_m - omega_lambda

    def rate(self, a):
        """H(a) / H0."""
        return numpy.sqrt(self.omega_m / a**3 + self.omega_k / a**2 + self.omega_lambda)

    def growth(self, a):
        """The growing mode of linear theory, equal to a while matter rules."""
        return 2.5 * self.omega_m * self.rate(a) * quad(lambda b: (b * self.rate(b))**-3.0, 0, a)[0]

    def growth_rate(self, a):
        """d ln growth / d ln a."""
        rate = self.rate(a)
        slope = (-3 * self.omega_m / a**3 - 2 * self.omega_k / a**2) / (2 * rate**2)
        return slope + 2.5 * self.omega_m / (a * a * rate**2 * self.growth(a))


def expansion_sums(cosmology, a_start, a_end, base_steps, top_bin, spacing=None):
    """(kick, drift, s, Expansion): the sums at every 2^s ticks, ticks being even in ln a."""
    check_expansion(cosmology, a_start, a_end, base_steps, top_bin)
    ticks = base_steps << top_bin
    if spacing is None:
        spacing = max(0, min(top_bin, ticks.bit_length() - 12))
    if not 0 <= spacing <= top_bin or (ticks >> spacing) + 1 > MOST_ENTRIES:
        raise Fault("--spacing", "", "2^%d ticks between entries don't fit: 0 to %d, and at most %d entries" % (spacing, top_bin, MOST_ENTRIES))
    fine = 16
    x = numpy.linspace(numpy.log(a_start), numpy.log(a_end), (ticks >> spacing) * fine + 1)
    a = numpy.exp(x)
    sums = [cumulative_trapezoid(1 / (a**power * cosmology.rate(a)), x, initial=0)[::fine] for power in (1, 2)]
    units = [float(numpy.diff(total).max() / 2**spacing) for total in sums]
    kick, drift = (numpy.floor(total / unit * (1 - 1e-12)).astype("i8") for total, unit in zip(sums, units))
    return kick, drift, spacing, Expansion(cosmology.omega_m, cosmology.omega_lambda, a_start, a_end, ticks, top_bin, *units)


def check_expansion(cosmology, a_start, a_end, base_steps, top_bin):
    if not 0 < a_start < a_end:
        raise Fault("--start", "", "the factors %g and %g don't rise from above 0" % (a_start, a_end))
    if not cosmology.omega_m > 0:
        raise Fault("--omega-m", "", "%g isn't above 0" % cosmology.omega_m)
    a = numpy.geomspace(a_start, a_end, 1000)
    if (cosmology.omega_m / a**3 + cosmology.omega_k / a**2 + cosmology.omega_lambda <= 0).any():
        raise Fault("--omega-lambda", "", "this cosmology doesn't expand throughout")
    if not 1 <= top_bin <= MOST_BIN:
        raise Fault("--top-bin", "", "%d isn't 1 to %d" % (top_bin, MOST_BIN))
    if base_steps < 1 or base_steps << top_bin > MOST_TIME:
        raise Fault("--base-steps", "", "%d of 2^%d ticks aren't 1 to 2^40 ticks" % (base_steps, top_bin))


def expansion_bytes(kick, drift, spacing):
    if kick[0] or drift[0] or (numpy.diff([kick, drift]) > 2**spacing).any() or (numpy.diff([kick, drift]) < 0).any():
        raise Fault("the expansion table", "", "a sum falls or rises by more than the ticks between")
    return EXPANSION_TAG + struct.pack("<II", spacing, len(kick)) + numpy.stack([kick, drift], 1).astype("<u8").tobytes()


def expansion_report(kick, drift, spacing, scales, sum_of_masses):
    shift = scales.greatest_shift(sum_of_masses)
    gravity = scales.gravity_internal(sum_of_masses, shift) if shift is not None else None
    step = numpy.log(scales.a_end / scales.a_start) / scales.ticks
    lines = ["%d entries, 2^%d ticks apart; %d ticks, %.4g in ln a each" % (len(kick), spacing, scales.ticks, step),
             "a kick's unit tau_K is %.9g / H0, a drift's tau_D %.9g / H0" % (scales.tau_kick, scales.tau_drift),
             "the least rises are %.3f of a tick for kicks and %.3f for drifts" % (numpy.diff(kick).min() / 2**spacing, numpy.diff(drift).min() / 2**spacing)]
    if shift is None:
        raise Fault("--base-steps", "", "the gravity constant would pass 2^32 even with a velocity shift of 0; make more base steps")
    lines.append("for a sum of masses %d: GravityConstantInternal %d, VelocityShift %d, TimeMax %d, TopBin %d" % (
        sum_of_masses, round(gravity), shift, scales.ticks, scales.top_bin))
    lines.append("p = a^2 dx/dt * m * 2^VelocityShift * tau_D, with x in length units and t in 1/H0")
    return lines
