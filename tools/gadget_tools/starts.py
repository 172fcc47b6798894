"""Beginnings made by the tools: a cold sphere, and waves in an expanding box. The same numbers make the same bodies."""
import numpy

from .faults import Fault
from .float_files import arrays_snapshot
from .tables import Cosmology
from .units import BOX


class Generator:
    """A congruence in 64 bits, whose upper 32 bits are given."""

    def __init__(self, seed):
        self.state = seed

    def draw(self):
        self.state = (self.state * 0x5851F42D4C957F2D + 0x14057B7EF767814F) % 2**64
        return self.state >> 32

    def between(self, low, high):
        """A number from low to high - 1; drawn again where it would not be even."""
        width = high - low
        while True:
            value = self.draw()
            if value < BOX - BOX % width:
                return low + value % width


def cold_sphere(bodies, seed, radius):
    """Bodies of equal mass at rest, evenly in a sphere in the middle of the box; the box, the mass and G are 1."""
    if bodies < 1 or not 0 < radius <= 0.25:
        raise Fault("the sphere", "", "%d bodies within %g box: there is to be one at least, and the radius is at most a quarter" % (bodies, radius))
    generator, reach, places = Generator(seed), round(radius * BOX), []
    while len(places) < bodies:
        place = [generator.between(-reach, reach + 1) for _ in range(3)]
        if sum(x * x for x in place) <= reach * reach:
            places.append([x + BOX // 2 for x in place])
    pos = numpy.array(places, "f8") / BOX
    snapshot = arrays_snapshot("the sphere", pos, numpy.zeros((bodies, 3)), 1.0 / bodies)
    snapshot.box = 1.0
    return snapshot


def free_fall_time(radius):
    """Of a sphere of mass 1 with G = 1."""
    return float(numpy.pi / 2 * numpy.sqrt(radius**3 / 2))


def is_prime(n):
    return n > 1 and all(n % k for k in range(2, int(n**0.5) + 1))


def sheared_lattice(bodies):
    """Places i * (1, a, a^2) / n of the box, with the a whose bodies are widest apart; n is an odd prime.

    A cubic grid would put whole planes of bodies on the half of the box, where the table of corrections is cut.
    """
    if bodies < 5 or not is_prime(bodies):
        raise Fault("--bodies", "", "%d isn't a prime of 5 or more" % bodies)
    i, best = numpy.arange(1, bodies), (0, 0)
    for a in range(2, bodies // 2 + 1):
        d = numpy.stack([i, i * a % bodies, i * (a * a % bodies) % bodies], -1)
        d = numpy.minimum(d, bodies - d)
        best = max(best, (int((d * d).sum(1).min()), a))
    i, a = numpy.arange(bodies), best[1]
    return (numpy.stack([i, i * a % bodies, i * (a * a % bodies) % bodies], -1) + 0.25) / bodies


def one_wave(height):
    """(vectors, heights, phases) of one wave along x."""
    return numpy.array([[1, 0, 0]]), numpy.array([height]), numpy.array([0.0])


def many_waves(height, most, slope, seed):
    """All waves of at most `most` a box, with random phases and heights whose squares go as |h|^slope; together `height` rms."""
    generator = Generator(seed)
    steps = range(-most, most + 1)
    vectors = [h for h in ((x, y, z) for x in steps for y in steps for z in steps) if h > (0, 0, 0) and sum(c * c for c in h) <= most * most]
    if not vectors:
        raise Fault("--most", "", "%d isn't 1 or more" % most)
    draws = numpy.array([[(generator.draw() + 0.5) / BOX for _ in range(2)] for _ in vectors])
    size = numpy.sqrt((numpy.array(vectors)**2).sum(1))
    heights = size**(slope / 2) * numpy.sqrt(-2 * numpy.log(draws[:, 0]))
    return numpy.array(vectors), heights * height / numpy.sqrt((heights**2).sum() / 2), 2 * numpy.pi * draws[:, 1]


def displacement(lattice, waves):
    """Where the waves move each place, in boxes; its divergence is minus their sum."""
    vectors, heights, phases = waves
    moved = numpy.zeros_like(lattice)
    for vector, height, phase in zip(vectors, heights, phases):
        moved += height / (2 * numpy.pi * (vector @ vector)) * numpy.sin(2 * numpy.pi * lattice @ vector + phase)[:, None] * vector
    return moved


def waves_in_a_box(lattice, waves, scales):
    """Zel'dovich's start of waves whose heights are those of linear theory at the end; the box, the mass and H0 are 1."""
    cosmology = Cosmology(scales.omega_m, scales.omega_lambda)
    a = scales.a_start
    moved = displacement(lattice, waves) * cosmology.growth(a) / cosmology.growth(scales.a_end)
    flow = a**2 * cosmology.rate(a) * cosmology.growth_rate(a) * moved      # a^2 dx/dt
    snapshot = arrays_snapshot("the waves", (lattice + moved) % 1.0, flow / a**1.5, 1.0 / len(lattice))
    snapshot.box, snapshot.time, snapshot.redshift = 1.0, a, 1 / a - 1
    snapshot.omega_m, snapshot.omega_lambda = scales.omega_m, scales.omega_lambda
    return snapshot


def gravity_of(omega_m):
    """The gravity constant that makes a mass of 1 in a box of 1 the matter of the cosmology, with H0 = 1."""
    return 3 * omega_m / (8 * numpy.pi)
