"""What the whole numbers of a run stand for.

The box is 2^32 length units; a mass unit is the total mass over the sum of the whole masses. In a run without expansion
a tick is sqrt(Gint * length^3 / (2^V * G * mass)), with Gint the parameter GravityConstantInternal and V the VelocityShift.
In a comoving run a kick and a drift go by sums of dt/a and dt/a^2, in the units tau_K and tau_D of an expansion table.
"""
import json
from dataclasses import asdict, dataclass

import numpy

from .faults import Fault, read_bytes

BOX = 1 << 32
MOST_GRAVITY, MOST_SHIFT, MOST_TIME, MOST_BIN = 1 << 32, 40, 1 << 40, 20


@dataclass
class Expansion:
    """The cosmology and the scales of an expansion table; times are in 1/H0. Ticks are even in ln a."""
    omega_m: float
    omega_lambda: float
    a_start: float
    a_end: float
    ticks: int
    top_bin: int
    tau_kick: float
    tau_drift: float

    def factor_at(self, tick):
        return self.a_start * (self.a_end / self.a_start)**(tick / self.ticks)

    def gravity_internal(self, sum_of_masses, shift):
        """2^V * (3 Omega_m / 8 pi) * (2^96 / S) * tau_K * tau_D: the box drops out."""
        return 3 * self.omega_m / (8 * numpy.pi) * 2.0**96 / sum_of_masses * 2.0**shift * self.tau_kick * self.tau_drift

    def greatest_shift(self, sum_of_masses):
        """The greatest VelocityShift whose gravity constant is in range, or None."""
        shifts = [shift for shift in range(MOST_SHIFT + 1) if round(self.gravity_internal(sum_of_masses, shift)) <= MOST_GRAVITY]
        return shifts[-1] if shifts else None


@dataclass
class Units:
    """The scales of a run, in the units of the float snapshot that it came from."""
    box: float
    mass: float                        # one mass unit
    gravity: float
    gravity_internal: int
    velocity_shift: int
    tick: float                        # 0 in a comoving run
    offset: tuple = (0.0, 0.0, 0.0)    # what was taken off the positions
    start_time: float = 0.0
    hubble: float = 0.0                # H0; 0 without expansion
    hubble_parameter: float = 1.0      # the header's h, which is only carried along
    expansion: Expansion = None

    @property
    def length(self):
        return self.box / BOX

    def time_at(self, tick):
        """The time, or in a comoving run the expansion factor."""
        return self.expansion.factor_at(tick) if self.expansion else self.start_time + tick * self.tick

    def velocity_unit(self, tick=0):
        """The velocity of a body for which p = m * 2^V; GADGET's sqrt(a) dx/dt in a comoving run."""
        if self.expansion:
            return self.length * self.hubble / self.expansion.tau_drift / self.expansion.factor_at(tick)**1.5
        return self.length / self.tick

    def positions(self, whole):
        return numpy.asarray(whole, "f8") * self.length + numpy.array(self.offset)

    def velocities(self, mom, mass, tick=0):
        return numpy.asarray(mom, "f8") / numpy.asarray(mass, "f8")[:, None] / 2.0**self.velocity_shift * self.velocity_unit(tick)

    def text(self):
        return (json.dumps(asdict(self), indent=1) + "\n").encode()


def read_units(path):
    """The Units that `convert to-integer` or `start` wrote beside a parameter file."""
    return from_json(path, Units)


def read_expansion_scales(path):
    """The Expansion that `expansion-table` wrote beside its table."""
    return from_json(path, Expansion)


def from_json(path, kind):
    try:
        values = json.loads(read_bytes(path))
        if kind is Units:
            values["offset"] = tuple(values["offset"])
            values["expansion"] = Expansion(**values["expansion"]) if values["expansion"] else None
        return kind(**values)
    except (ValueError, TypeError, KeyError) as error:
        raise Fault(path, "", "it isn't a file of %s (%s)" % (kind.__name__.lower(), error)) from None


def whole_masses(name, mass):
    """(u32 masses, the mass unit): in proportion, each at least 1, with a sum of at most 2^32. Equal masses have no error."""
    mass = numpy.asarray(mass, "f8")
    bad = ~(numpy.isfinite(mass) & (mass > 0))
    if bad.any():
        raise Fault(name, "body %d" % (numpy.argmax(bad) + 1), "its mass is %g" % mass[bad][0])
    if len(mass) == 0:
        raise Fault(name, "", "there are no bodies")
    whole = numpy.floor(mass / mass.sum() * BOX).astype("i8")
    whole = numpy.clip(whole, 1, BOX - 1)
    over = int(whole.sum()) - BOX      # only where very small masses were raised to 1
    if over > 0:
        whole[numpy.argmax(whole)] -= over
    return whole, float(mass.sum() / whole.sum())


def tick_for(box, mass, gravity, gravity_internal, shift):
    return float(numpy.sqrt(gravity_internal * (box / BOX)**3 / (2.0**shift * gravity * mass)))
