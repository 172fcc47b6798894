"""Float snapshots to integer ones with their parameter files, and back."""
import math

import numpy

from .faults import Fault
from .float_files import FloatSnapshot
from .integer_files import MOST_BODIES, MOST_MOMENTUM, Bodies
from .units import BOX, MOST_BIN, MOST_GRAVITY, MOST_SHIFT, MOST_TIME, Units, tick_for, whole_masses

USUAL_SHIFT, LEAST_SOFTENING, MOST_SOFTENING, WISE_SOFTENING = 20, 1 << 8, 1 << 30, 1 << 16
ROOM = 8                               # how often the largest momentum fits the range, for infall
USUAL_TIME = 1 << 32                   # ticks of a run, at most, where the shift is chosen here


def to_integer(source, box, gravity, shift=None, time_max=0.0, offset=(0.0, 0.0, 0.0), expansion=None, hubble=0.0):
    """(Bodies, Units, report): `source` is a FloatSnapshot, the report a list of lines on what was rounded by how much."""
    check_source(source, box, gravity)
    mass, unit = whole_masses(source.name, source.mass)
    total = int(mass.sum())
    if expansion:
        check_density(source, box, gravity, hubble, expansion)
        most = expansion.greatest_shift(total)
        if most is None or (shift is not None and shift > most):
            raise Fault(source.name, "", "no gravity constant of at most 2^32 fits these steps and this shift; make the base steps shorter")
        tries = [most] if shift is None else [shift]
    else:
        tries = range(USUAL_SHIFT, -1, -1) if shift is None else [shift]
    for shift in tries:
        units = units_for(box, unit, gravity, shift, offset, source.time, expansion, hubble, total)
        speeds = source.vel / units.velocity_unit(0) * 2.0**shift * mass[:, None]
        largest = float(numpy.abs(speeds).max())
        if largest * ROOM <= MOST_MOMENTUM and (expansion or time_max <= USUAL_TIME * units.tick):
            break
    if largest > MOST_MOMENTUM:
        worst = int(numpy.argmax(numpy.abs(speeds).max(1)))
        raise Fault(source.name, "id %d" % source.id[worst], "its momentum is 2^%.1f, beyond 2^62, %s" % (
            math.log2(largest), "give a smaller --velocity-shift" if shift else "even with a velocity shift of 0"))
    units.hubble_parameter = source.hubble
    whole = numpy.round((source.pos - numpy.array(offset)) / units.length)
    bodies = Bodies(source.id.astype("u8"), source.kind.astype("u1"), mass.astype("u4"),
                    numpy.mod(whole, BOX).astype("u8").astype("u4"), numpy.round(speeds).astype("i8"))
    return bodies, units, report_of(source, bodies, units, whole)


def check_source(source, box, gravity):
    if len(source) > MOST_BODIES:
        raise Fault(source.name, "", "%d bodies; the program takes %d" % (len(source), MOST_BODIES))
    if (source.kind == 0).any():
        raise Fault(source.name, "", "%d bodies of type 0 (gas); the program has none" % (source.kind == 0).sum())
    if (source.kind > 5).any():
        raise Fault(source.name, "body %d" % (numpy.argmax(source.kind > 5) + 1), "its type isn't 1 to 5")
    ids, times = numpy.unique(source.id, return_counts=True)
    if (times > 1).any():
        raise Fault(source.name, "id %d" % ids[times > 1][0], "it stands more than once")
    for value, what in ((box, "the box"), (gravity, "the gravity constant")):
        if not (math.isfinite(value) and value > 0):
            raise Fault(source.name, "", "%s is %g; a number above 0 is needed" % (what, value))


def check_density(source, box, gravity, hubble, expansion):
    """In a comoving run the mass in the box is the matter of the cosmology."""
    found = 8 * math.pi * gravity * float(source.mass.sum()) / (3 * hubble**2 * box**3)
    if abs(found / expansion.omega_m - 1) > 0.02:
        raise Fault(source.name, "", "its mass in this box makes Omega_m %.4f, and the expansion table has %.4f" % (found, expansion.omega_m))
    if abs(source.time / expansion.a_start - 1) > 1e-4:
        raise Fault(source.name, "", "its expansion factor is %g, and the expansion table begins at %g" % (source.time, expansion.a_start))


def units_for(box, unit, gravity, shift, offset, time, expansion, hubble, total):
    if not 0 <= shift <= MOST_SHIFT:
        raise Fault("--velocity-shift", "", "%d isn't 0 to %d" % (shift, MOST_SHIFT))
    offset = tuple(float(x) for x in offset)
    if expansion:
        return Units(box, unit, gravity, round(expansion.gravity_internal(total, shift)), shift, 0.0, offset, time, hubble, expansion=expansion)
    return Units(box, unit, gravity, MOST_GRAVITY, shift, tick_for(box, unit, gravity, MOST_GRAVITY, shift), offset, time)


def report_of(source, bodies, units, whole):
    back = units.velocities(bodies.mom, bodies.mass)
    moved = numpy.abs((source.pos - numpy.array(units.offset)) - whole * units.length).max()
    masses = numpy.abs(bodies.mass * units.mass / source.mass - 1).max()
    outside = int(((whole < 0) | (whole >= BOX)).any(1).sum())
    together = len(bodies) - len(numpy.unique(bodies.pos, axis=0))
    scale = "tick %.9g" % units.tick
    if units.expansion:
        scale = "tau_K %.9g, tau_D %.9g of 1/H0" % (units.expansion.tau_kick, units.expansion.tau_drift)
    return [
        "bodies %d, of types %s" % (len(bodies), ", ".join("%d: %d" % (kind, (bodies.kind == kind).sum()) for kind in range(1, 6) if (bodies.kind == kind).any())),
        "units: length %.9g (box / 2^32), mass %.9g, %s" % (units.length, units.mass, scale),
        "gravity constant %d, velocity shift %d, sum of masses %d" % (units.gravity_internal, units.velocity_shift, bodies.total_mass()),
        "positions rounded by at most %.3g (%.2g of the box)" % (moved, moved / units.box),
        "velocities rounded by at most %.3g; the largest is %.6g" % (numpy.abs(back - source.vel).max(), numpy.abs(source.vel).max()),
        "masses rounded by at most %.3g of their value" % masses,
        "largest momentum 2^%.1f of 2^62" % math.log2(max(1.0, float(numpy.abs(bodies.mom.astype("f8")).max()))),
        "%d bodies were outside the box and stand where it wraps" % outside,
        "%d bodies share their position with another" % together,
    ]


def softening_values(source, units, given):
    """({parameter: length units}, lines): `given` is {type: length}; a type without one gets 0.04 of the mean distance."""
    values, lines = {}, []
    extent = numpy.clip(numpy.ptp(source.pos, axis=0), units.length, None)
    usual = 0.04 * float((extent.prod() / len(source))**(1 / 3))
    for kind in range(1, 6):
        if kind not in given and not (source.kind == kind).any():
            continue
        length = given.get(kind, usual)
        whole = round(length / units.length) if math.isfinite(length) else 0
        if not LEAST_SOFTENING <= whole <= MOST_SOFTENING:
            raise Fault("--softening", "type %d" % kind, "%g is %d length units; the range is 2^8 to 2^30, that is %g to %g" % (
                length, whole, LEAST_SOFTENING * units.length, MOST_SOFTENING * units.length))
        values["SofteningType%d" % kind] = whole
        lines.append("softening of type %d: %.6g, rounded by %.2g%s%s" % (
            kind, length, abs(whole * units.length - length), "" if kind in given else " (0.04 of the mean distance)",
            "; below 2^16 length units it is no useful resolution" if whole < WISE_SOFTENING else ""))
    return values, lines


def step_values(units, time_max, max_step=None, low_bin=1):
    """TimeMax, LowBin and TopBin for a run without expansion, and a line on them."""
    ticks = math.ceil(time_max / units.tick)
    if ticks > MOST_TIME:
        raise Fault("--time-max", "", "%g is 2^%.1f ticks, and 2^40 is the most; give a smaller --velocity-shift" % (time_max, math.log2(ticks)))
    longest = max_step / units.tick if max_step else ticks / 16
    top = min(MOST_BIN, max(1, math.floor(math.log2(max(2.0, longest)))))
    if low_bin > top:
        raise Fault("--low-bin", "", "it is above the top bin %d" % top)
    line = "time %g is %d ticks: %d base steps of 2^%d ticks (%.6g)" % (time_max, ticks, -(-ticks // 2**top), top, 2**top * units.tick)
    return dict(TimeMax=ticks, LowBin=low_bin, TopBin=top), line


def to_float(snapshot, units):
    """A FloatSnapshot of a Snapshot or Restart, in the units of the file that it came from."""
    bodies, tick = snapshot.bodies, snapshot.tick
    time, flow = units.time_at(tick), units.expansion
    return FloatSnapshot(snapshot.name, 2, bodies.id, bodies.kind, bodies.mass * units.mass, units.positions(bodies.pos),
                         units.velocities(bodies.mom, bodies.mass, tick), time, 1 / time - 1 if flow else 0.0, units.box,
                         flow.omega_m if flow else 0.0, flow.omega_lambda if flow else 0.0, units.hubble_parameter)
