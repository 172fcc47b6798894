"""Pictures as PNG bytes."""
import io

import matplotlib
import numpy

matplotlib.use("Agg")
import matplotlib.pyplot as pyplot  # noqa: E402
from matplotlib.colors import LogNorm  # noqa: E402

from .faults import Fault  # noqa: E402


def png_of(figure):
    out = io.BytesIO()
    figure.savefig(out, format="png", dpi=110, bbox_inches="tight", metadata={"Software": None})
    pyplot.close(figure)
    return out.getvalue()


def column_density(pos, mass, axis=2, pixels=256, width=1.0, centre=(0.5, 0.5, 0.5)):
    """The mass of each pixel over the mean of a picture of the whole box; whole numbers decide the pixel.

    `width` is the side of the picture in boxes and is taken down to a power of 1/2; `centre` is in boxes.
    """
    across = [a for a in range(3) if a != axis]
    zoom = max(0, round(-numpy.log2(width)))
    shift = 32 - zoom - (pixels - 1).bit_length()
    if shift < 0:
        raise Fault("--width", "", "%g box is too narrow for %d pixels" % (width, pixels))
    count = 1 << (32 - zoom - shift)
    corner = [(round(c * 2**32) - 2**(31 - zoom)) % 2**32 for c in centre]
    from_corner = [((pos[:, a].astype("i8") - corner[a]) % 2**32) for a in across]
    seen = (from_corner[0] < 2**(32 - zoom)) & (from_corner[1] < 2**(32 - zoom))
    grid = numpy.zeros((count, count))
    numpy.add.at(grid, tuple((from_corner[k][seen] >> shift) for k in (1, 0)), mass[seen].astype("f8"))
    mean = mass.sum(dtype="f8") / (count << zoom)**2
    return grid / mean, across, [corner[a] / 2**32 for a in across], 2.0**-zoom


def density_picture(snapshots, times=None, **view):
    """The logs of the column densities of Snapshots or Restarts, side by side and by one scale."""
    views = [column_density(snapshot.bodies.pos, snapshot.bodies.mass, **view) for snapshot in snapshots]
    for snapshot, (grid, _, _, _) in zip(snapshots, views):
        if not grid.any():
            raise Fault(snapshot.name, "", "no body is in this view")
    low = min(grid[grid > 0].min() for grid, _, _, _ in views) / 2
    norm = LogNorm(vmin=low, vmax=max(4 * low, *(grid.max() for grid, _, _, _ in views)))
    size = (6, 5) if len(views) == 1 else (3.6 * len(views), 3.6)
    figure, row = pyplot.subplots(1, len(views), figsize=size, squeeze=False, layout="constrained")
    for axes, snapshot, time, (grid, across, corner, side) in zip(row[0], snapshots, times or [None] * len(views), views):
        extent = (corner[0], corner[0] + side, corner[1], corner[1] + side)
        image = axes.imshow(numpy.maximum(grid, low), origin="lower", extent=extent, norm=norm, cmap="inferno", interpolation="nearest")
        axes.set(xlabel="xyz"[across[0]] + " / box", ylabel="xyz"[across[1]] + " / box")
        axes.set_title(time or "tick %d, %d bodies" % (snapshot.tick, len(snapshot.bodies)))
    figure.colorbar(image, ax=row[0], label="column density / mean of the box")
    return png_of(figure)


def kicks_picture(kicks):
    """Bodies in each bin, interactions of each kick, and the total momentum less its first value."""
    if not len(kicks):
        raise Fault(kicks.name, "", "it has no kick yet")
    figure, axes = pyplot.subplots(3, 1, figsize=(8, 8), sharex=True)
    for bin in numpy.unique(kicks.bin)[::-1]:
        chosen = kicks.bin == bin
        axes[0].step(kicks.tick[chosen], (kicks.whole - kicks.fast)[chosen], where="post", marker=".", ms=3, label="bin %d" % bin)
    axes[0].set(yscale="symlog", ylabel="bodies that step in this bin")
    axes[0].legend(ncol=3, fontsize=7)
    axes[1].plot(kicks.tick, kicks.interactions + kicks.fast_interactions, ".", ms=4)
    axes[1].set(yscale="symlog", ylabel="interactions of a kick")
    for axis in range(3):
        first = kicks.momentum[0][axis]
        axes[2].plot(kicks.tick, [float(row[axis] - first) for row in kicks.momentum], lw=3 - axis, label="%s: first %d" % ("xyz"[axis], first))
    axes[2].set(ylabel="total momentum - first", xlabel="tick")
    axes[2].legend(fontsize=7)
    return png_of(figure)


def shells_picture(shells, first):
    """Pairs by their distance. `first` is the outer edge of the first shell in length units; each shell doubles it."""
    if not any(shells.counts[:-1]):
        raise Fault(shells.name, "", "it has no pairs in its shells")
    edges = numpy.array([0.0] + [first * 2.0**k for k in range(len(shells.counts) - 1)]) / 2**32
    volume = 4 * numpy.pi / 3 * numpy.diff(edges**3)
    counts = numpy.array(shells.counts[:-1], "f8")
    figure, axes = pyplot.subplots(2, 1, figsize=(7, 7), sharex=True)
    axes[0].stairs(counts, edges, fill=True)
    axes[0].set(yscale="symlog", ylabel="pairs in the shell", title="%d pairs, %d beyond the shells" % (shells.pairs, shells.counts[-1]))
    middle = edges[1:] * 0.75
    axes[1].plot(middle[counts > 0], (counts / (shells.pairs * volume))[counts > 0], "o-")
    axes[1].axhline(1, color="grey", lw=1)
    axes[1].set(yscale="log", xscale="log", xlabel="distance / box", ylabel="pairs / pairs of an even spread")
    return png_of(figure)


def groups_picture(catalogue, snapshot, axis=2):
    """The members of the groups over all bodies, and how many groups have how many members."""
    across = [a for a in range(3) if a != axis]
    order = numpy.argsort(snapshot.bodies.id)
    ids, pos = snapshot.bodies.id[order], snapshot.bodies.pos[order][:, across] / 2**32
    figure, axes = pyplot.subplots(1, 2, figsize=(11, 5))
    axes[0].plot(pos[:, 0], pos[:, 1], ",", color="lightgrey")
    for place, members in enumerate(catalogue.ids):
        at = numpy.searchsorted(ids, members)
        if (at >= len(ids)).any() or (ids[at] != members).any():
            raise Fault(catalogue.name, "group %d" % catalogue.label[place], "a member isn't in " + snapshot.name)
        axes[0].plot(pos[at, 0], pos[at, 1], ".", ms=2)
    middle, half = (pos.min(0) + pos.max(0)) / 2, 0.55 * numpy.ptp(pos, axis=0).max() + 1e-9
    axes[0].set(xlim=(middle[0] - half, middle[0] + half), ylim=(middle[1] - half, middle[1] + half), aspect="equal")
    axes[0].set(xlabel="xyz"[across[0]] + " / box", ylabel="xyz"[across[1]] + " / box", title="%d groups" % len(catalogue.ids))
    sizes = [len(members) for members in catalogue.ids]
    axes[1].hist(sizes, bins=numpy.geomspace(1, max(sizes, default=1) + 1, 20))
    axes[1].set(xscale="log", xlabel="members", ylabel="groups")
    return png_of(figure)
