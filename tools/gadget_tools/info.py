"""What a file holds, told in a few lines."""
import numpy

from .float_files import FloatSnapshot
from .integer_files import Bins, Catalogue, EwaldTable, ExpansionTable, Restart, Snapshot
from .text_files import Kicks, Parameters, Shells


def info_lines(thing):
    for kind, tell in TELLERS:
        if isinstance(thing, kind):
            return tell(thing)
    return ["%d entries" % len(thing)]


def bodies_lines(bodies):
    lines = ["bodies %d, mass %d, momentum %d %d %d" % (len(bodies), bodies.total_mass(), *bodies.total_momentum())]
    for kind in range(1, 6):
        if (bodies.kind == kind).any():
            mass = bodies.mass[bodies.kind == kind]
            lines.append("type %d: %d bodies, masses %d to %d" % (kind, len(mass), mass.min(), mass.max()))
    if len(bodies):
        lines.append("ids %d to %d" % (bodies.id.min(), bodies.id.max()))
        for axis in range(3):
            lines.append("%s from %.6f to %.6f of the box, momentum from %d to %d" % (
                "xyz"[axis], bodies.pos[:, axis].min() / 2**32, bodies.pos[:, axis].max() / 2**32, bodies.mom[:, axis].min(), bodies.mom[:, axis].max()))
    return lines


def tell_snapshot(snapshot):
    extra = ["other blocks: " + ", ".join(snapshot.other_blocks)] if snapshot.other_blocks else []
    return ["snapshot in whole numbers: tick %d, number %d" % (snapshot.tick, snapshot.number)] + bodies_lines(snapshot.bodies) + extra


def tell_restart(restart):
    inside = ", inside a base step" if restart.version == 2 else ""
    return ["restart file, version %d: tick %d, base steps %d%s" % (restart.version, restart.tick, restart.steps, inside),
            "next snapshot %d, next restart file %d, kicks %d, interactions %d" % (
                restart.next_snapshot, restart.next_restart, restart.kicks, restart.interactions),
            *("%s %d" % setting for setting in restart.settings.items()), *bodies_lines(restart.bodies)]


def tell_float(snapshot):
    form = "plain arrays" if snapshot.format == 0 else "float snapshot of format %d" % snapshot.format
    lines = ["%s: time %.9g, redshift %.9g, box %.9g" % (form, snapshot.time, snapshot.redshift, snapshot.box),
             "Omega_m %g, Omega_Lambda %g, h %g" % (snapshot.omega_m, snapshot.omega_lambda, snapshot.hubble),
             "bodies %d, mass %.9g" % (len(snapshot), snapshot.mass.sum())]
    for kind in range(6):
        if (snapshot.kind == kind).any():
            lines.append("type %d: %d bodies" % (kind, (snapshot.kind == kind).sum()))
    for axis in range(3):
        if len(snapshot):
            lines.append("%s from %.6g to %.6g, velocity from %.6g to %.6g" % (
                "xyz"[axis], snapshot.pos[:, axis].min(), snapshot.pos[:, axis].max(), snapshot.vel[:, axis].min(), snapshot.vel[:, axis].max()))
    return lines


def tell_kicks(kicks):
    if not len(kicks):
        return ["kick file: no kick yet"]
    same = all(row == kicks.momentum[0] for row in kicks.momentum)
    lines = ["kick file: %d kicks from tick %d to %d%s" % (len(kicks), kicks.tick[0], kicks.tick[-1], ", the last line cut" if kicks.is_cut else ""),
             "interactions %d" % (sum(map(int, kicks.interactions)) + sum(map(int, kicks.fast_interactions))),
             "total momentum %d %d %d, %s" % (*kicks.momentum[0], "the same in every line" if same else "BUT NOT IN EVERY LINE")]
    for bin in numpy.unique(kicks.bin)[::-1]:
        chosen = kicks.bin == bin
        lines.append("bin %d: %d kicks, at most %d bodies" % (bin, chosen.sum(), (kicks.whole - kicks.fast)[chosen].max()))
    return lines


def tell_catalogue(catalogue):
    sizes = [len(ids) for ids in catalogue.ids]
    lines = ["catalogue: %d groups with %d members" % (len(sizes), sum(sizes))]
    for place in numpy.argsort(sizes, kind="stable")[::-1][:10]:
        lines.append("group %d: %d members, mass %d" % (catalogue.label[place], sizes[place], catalogue.mass[place]))
    return lines


def tell_ewald(table):
    size = numpy.abs(table.entries.astype("i8"))
    return ["table of corrections on a grid of 2^%d: %d entries" % (table.g, (2**table.g + 1)**3),
            "largest %.4f in G m m' / box^2; %d components at the limit of 32 bits" % (size.max() / 2**30, (size >= 2**31 - 1).sum())]


def tell_expansion(table):
    return ["table of factors: %d entries, 2^%d ticks apart, up to tick %d" % (len(table.kick), table.s, (len(table.kick) - 1) << table.s),
            "of all ticks %d count for kicks and %d for drifts" % (table.kick[-1], table.drift[-1])]


def tell_bins(bins):
    return ["bin file: %d records with %d ids; %s" % (len(bins.records), sum(map(len, bins.records)), "whole" if bins.is_whole else "without its end mark")]


def tell_parameters(parameters):
    return ["parameter file: base steps of %d ticks until tick %d" % (1 << parameters["TopBin"], parameters.last_tick()),
            *("%s %s" % pair for pair in parameters.values.items() if pair[1] is not None)]


def tell_shells(shells):
    return ["pairs %d in %d shells and beyond, walked %d" % (shells.pairs, len(shells.counts) - 1, shells.walked),
            *("shell %d: %d" % pair for pair in enumerate(shells.counts))]


TELLERS = ((Snapshot, tell_snapshot), (Restart, tell_restart), (FloatSnapshot, tell_float), (Kicks, tell_kicks), (Catalogue, tell_catalogue),
           (EwaldTable, tell_ewald), (ExpansionTable, tell_expansion), (Bins, tell_bins), (Parameters, tell_parameters), (Shells, tell_shells))
