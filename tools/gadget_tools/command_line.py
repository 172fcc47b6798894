"""The command line: one word for each thing, each with its own --help."""
import argparse
import os
import sys

from .faults import Fault
from .outputs import Outputs

DESCRIPTION = "Tools around the program gadget: look at its files, convert snapshots, make tables and beginnings, draw pictures."


def number_above_zero(text):
    value = float(text)
    if not 0 < value < float("inf"):
        raise argparse.ArgumentTypeError("%s isn't a number above 0" % text)
    return value


def softening(text):
    kind, _, length = text.partition("=")
    if kind not in ("1", "2", "3", "4", "5"):
        raise argparse.ArgumentTypeError("%s isn't TYPE=LENGTH with a type of 1 to 5" % text)
    return int(kind), number_above_zero(length)


def whole(least, most):
    def parse(text):
        if not text.isdigit() or not least <= int(text) <= most:
            raise argparse.ArgumentTypeError("%s isn't a whole number from %d to %d" % (text, least, most))
        return int(text)
    return parse


# ---- the words

def do_info(args):
    from .info import info_lines
    from .reading import read
    for path in args.files:
        lines = info_lines(read(path, args.kind))
        print("%s: %s" % (path, "\n  ".join(lines)))


def do_to_integer(args):
    from .convert import softening_values, step_values, to_integer
    from .float_files import read_arrays
    from .reading import read
    from .units import read_expansion_scales
    source = read_arrays(args.source) if args.source.endswith(".npz") else read(args.source, "float")
    scales = read_expansion_scales(args.expansion) if args.expansion else None
    box = args.box or source.box
    if not box:
        raise Fault(args.source, "byte 148" if source.format == 1 else "", "its header has no BoxSize; give --box")
    if scales and not args.hubble:
        raise Fault("--hubble", "", "a comoving run needs H0 in the units of the file; 0.1 for kpc/h and km/s")
    offset = (0.0, 0.0, 0.0)
    if args.centre:
        offset = tuple((source.pos.min(0) + source.pos.max(0)) / 2 - box / 2)
    bodies, units, report = to_integer(source, box, args.gravity, args.velocity_shift, args.time_max or 0.0, offset, scales, args.hubble or 0.0)
    values, lines = softening_values(source, units, dict(args.softening or []))
    if not scales:
        if not args.time_max:
            raise Fault("--time-max", "", "a run without expansion needs its length in the time unit of the file")
        steps, line = step_values(units, args.time_max, args.max_step, args.low_bin)
        values.update(steps)
        lines.append(line)
    begin_files(args, bodies, units, values, report + lines, [args.source] + ([args.expansion] if args.expansion else []))


def begin_files(args, bodies, units, values, report, inputs):
    """Writes the snapshot, the parameter file, the units and the output list of a run, together."""
    from .integer_files import snapshot_bytes
    from .text_files import output_bytes, parameter_bytes
    folder = os.path.dirname(args.param)
    if os.path.realpath(folder or ".") != os.path.realpath(os.path.dirname(args.ics) or "."):
        raise Fault(args.param, "", "it is to be in the folder of %s: names in it are found from there" % args.ics)
    if units.expansion:
        values.update(TimeMax=units.expansion.ticks, TopBin=units.expansion.top_bin, LowBin=min(args.low_bin, units.expansion.top_bin))
        values["ExpansionTableFile"] = args.expansion_table
    values.update(InitCondFile=os.path.basename(args.ics), SnapshotFileBase=args.base, ErrTolTheta=args.theta, ErrTolIntAccuracy=args.accuracy,
                  GravityConstantInternal=units.gravity_internal, VelocityShift=units.velocity_shift, EwaldTableFile=args.ewald_table,
                  BinFile=args.bin_file, RestartEvery=args.restart_every)
    outputs = Outputs(args.force, inputs)
    outputs.put(args.ics, snapshot_bytes(bodies))
    if args.snapshots > 1:
        values["OutputListFilename"] = os.path.basename(args.param) + ".times"
        outputs.put(args.param + ".times", output_bytes(values["TimeMax"] * k // args.snapshots for k in range(args.snapshots + 1)))
    outputs.put(args.param, parameter_bytes(values, ["Made by gadget-tools; %s.units.json tells what the numbers stand for." % os.path.basename(args.param)]))
    outputs.put(args.param + ".units.json", units.text())
    outputs.write()
    print("\n".join(report))
    print("written: " + ", ".join(outputs.files))


def do_to_float(args):
    from .convert import to_float
    from .float_files import float_bytes
    from .units import read_units
    source, units = state_of(args.source), read_units(args.units)
    result = to_float(source, units)
    if args.type_1:
        result.kind[:] = 1
    outputs = Outputs(args.force, [args.source, args.units])
    outputs.put(args.out, float_bytes(result, args.format))
    outputs.write()
    print("written: %s, %d bodies, %s %.9g" % (args.out, len(result), "a" if units.expansion else "time", result.time))


def do_ewald_table(args):
    from .tables import ewald_bytes, ewald_entries, ewald_report
    outputs = Outputs(args.force)
    outputs.check(args.out)
    entries, exact = ewald_entries(args.grid)
    outputs.put(args.out, ewald_bytes(entries))
    outputs.write()
    print("\n".join(ewald_report(entries, exact)))


def do_expansion_table(args):
    import json
    from dataclasses import asdict
    from .tables import Cosmology, expansion_bytes, expansion_report, expansion_sums
    kick, drift, spacing, scales = expansion_sums(Cosmology(args.omega_m, args.omega_lambda), args.start, args.end, args.base_steps, args.top_bin, args.spacing)
    report = expansion_report(kick, drift, spacing, scales, args.sum_of_masses)
    outputs = Outputs(args.force)
    outputs.put(args.out, expansion_bytes(kick, drift, spacing))
    outputs.put(args.out + ".scales.json", (json.dumps(asdict(scales), indent=1) + "\n").encode())
    outputs.write()
    print("\n".join(report))
    print("written: " + ", ".join(outputs.files))


def do_start_sphere(args):
    from .convert import softening_values, step_values, to_integer
    from .starts import cold_sphere, free_fall_time
    source = cold_sphere(args.bodies, args.seed, args.radius)
    bodies, units, report = to_integer(source, 1.0, 1.0)
    values, lines = softening_values(source, units, {1: args.softening} if args.softening else {})
    fall = free_fall_time(args.radius)
    steps, line = step_values(units, args.falls * fall, args.max_step * fall if args.max_step else None, args.low_bin)
    values.update(steps)
    begin_files(args, bodies, units, values, report + lines + [line], [])


def do_start_waves(args):
    from .convert import softening_values, to_integer
    from .starts import gravity_of, many_waves, one_wave, sheared_lattice, waves_in_a_box
    from .units import read_expansion_scales
    scales = read_expansion_scales(args.expansion_table + ".scales.json")
    waves = one_wave(args.height) if args.most == 0 else many_waves(args.height, args.most, args.slope, args.seed)
    source = waves_in_a_box(sheared_lattice(args.bodies), waves, scales)
    bodies, units, report = to_integer(source, 1.0, gravity_of(scales.omega_m), expansion=scales, hubble=1.0)
    cell = args.bodies**(-1 / 3)
    values, lines = softening_values(source, units, {1: args.softening or 0.1 * cell})
    args.expansion_table = os.path.basename(args.expansion_table)
    begin_files(args, bodies, units, values, report + lines, [])


def do_plot_density(args):
    from .pictures import density_picture
    from .units import read_units
    snapshots, times, args.inputs = [state_of(name) for name in args.sources], None, args.sources
    if args.units:
        units = read_units(args.units)
        times = ["%s = %.4g" % ("a" if units.expansion else "time", units.time_at(snapshot.tick)) for snapshot in snapshots]
        args.inputs = args.sources + [args.units]
    put_picture(args, density_picture(snapshots, times, axis="xyz".index(args.axis), pixels=args.pixels, width=args.width, centre=args.centre))


def state_of(name):
    """The Snapshot or Restart of a file, or a refusal of every other kind of file."""
    from .integer_files import Restart, Snapshot
    from .reading import read
    thing = read(name)
    if not isinstance(thing, (Snapshot, Restart)):
        raise Fault(name, "", "it is no snapshot in whole numbers and no restart file")
    return thing


def do_plot_kicks(args):
    from .pictures import kicks_picture
    from .text_files import read_kicks
    put_picture(args, kicks_picture(read_kicks(args.source, running=True)))


def do_plot_pairs(args):
    from .pictures import shells_picture
    from .text_files import read_shells
    put_picture(args, shells_picture(read_shells(args.source), args.first))


def do_plot_groups(args):
    from .integer_files import read_catalogue, read_snapshot
    from .pictures import groups_picture
    args.inputs = [args.source, args.snapshot]
    put_picture(args, groups_picture(read_catalogue(args.source), read_snapshot(args.snapshot), "xyz".index(args.axis)))


def put_picture(args, data):
    outputs = Outputs(args.force, args.inputs or [args.source])
    outputs.put(args.out, data)
    outputs.write()
    print("written: " + args.out)


def do_progress(args):
    from .progress import follow
    follow(args.param, args.kicks, args.once, args.interval, say=lambda line: print(line, flush=True))


# ---- their arguments

def with_force(parser):
    parser.add_argument("--force", action="store_true", help="replace files that are there already")


def with_run(parser, theta=64):
    """What a parameter file needs besides the units."""
    parser.add_argument("ics", metavar="ICS", help="the snapshot to write, where the run begins")
    parser.add_argument("param", metavar="PARAM",
                        help="the parameter file to write, in the same folder; PARAM.units.json and PARAM.times come beside it")
    parser.add_argument("--base", default="snapshot", help="SnapshotFileBase (default snapshot)")
    parser.add_argument("--theta", type=whole(0, 256), default=theta,
                        help="ErrTolTheta in 1/256; 0: every pair of bodies (default %(default)s)")
    parser.add_argument("--accuracy", type=whole(1, 65536), default=1638,
                        help="ErrTolIntAccuracy in 1/65536 (default 1638, which is 0.025)")
    parser.add_argument("--low-bin", type=whole(1, 20), default=1, help="the finest steps are 2^LOW_BIN ticks (default 1)")
    parser.add_argument("--snapshots", type=whole(1, 65535), default=1, metavar="N",
                        help="snapshots at N + 1 even times from the start to the end (default 1: at the end alone)")
    parser.add_argument("--ewald-table", metavar="FILE", help="EwaldTableFile, a table in the same folder")
    parser.add_argument("--restart-every", type=whole(0, 1000000), default=0, metavar="N",
                        help="a restart file after every N base steps (default 0: none)")
    parser.add_argument("--bin-file", metavar="FILE", help="BinFile: write the ids of every finer step there")
    with_force(parser)


def add_convert(words):
    convert = words.add_parser("convert", help="float snapshots to whole numbers and back").add_subparsers(dest="direction", required=True)
    parser = convert.add_parser("to-integer",
                        help="a float snapshot of format 1 or 2, or an .npz file with pos, vel and mass, to a run's snapshot and parameter file")
    parser.add_argument("source", metavar="IN",
                        help="the float snapshot, or an .npz file with arrays pos, vel, mass and perhaps id and kind")
    with_run(parser)
    parser.add_argument("--box", type=number_above_zero, help="the box in the file's length unit (default: BoxSize of the header)")
    parser.add_argument("--gravity", type=number_above_zero, required=True, metavar="G",
                        help="the gravity constant in the file's units; 43007.1 for kpc, 1e10 solar masses and km/s")
    parser.add_argument("--velocity-shift", type=whole(0, 40), metavar="V",
                        help="VelocityShift (default: 20, or less where momenta or times need it)")
    parser.add_argument("--softening", type=softening, action="append", metavar="TYPE=LENGTH",
                        help="Plummer softening of a type in the file's length unit (default 0.04 of the mean distance)")
    parser.add_argument("--time-max", type=number_above_zero, metavar="T",
                        help="how long the run lasts in the file's time unit; not in a comoving run")
    parser.add_argument("--max-step", type=number_above_zero, metavar="DT", help="the longest step (default: a sixteenth of the run)")
    parser.add_argument("--centre", action="store_true", help="move the bodies to the middle of the box; to-float moves them back")
    parser.add_argument("--expansion", metavar="SCALES", help="a comoving run by the table whose TABLE.scales.json this is")
    parser.add_argument("--expansion-table", metavar="FILE", help="ExpansionTableFile (default: SCALES without .scales.json)")
    parser.add_argument("--hubble", type=number_above_zero, metavar="H0", help="H0 in the file's units; 0.1 for kpc/h and km/s")
    parser.set_defaults(call=do_to_integer)
    parser = convert.add_parser("to-float", help="a snapshot or restart file of a run to a float snapshot, for yt, splash and others")
    parser.add_argument("source", metavar="IN", help="a snapshot or restart file of the program")
    parser.add_argument("units", metavar="UNITS", help="the file PARAM.units.json of the run")
    parser.add_argument("out", metavar="OUT", help="the float snapshot to write")
    parser.add_argument("--format", type=int, choices=(1, 2), default=2, help="GADGET's format (default 2)")
    parser.add_argument("--type-1", action="store_true", help="give all bodies type 1, the only one that splash draws by default")
    with_force(parser)
    parser.set_defaults(call=do_to_float)


def add_tables(words):
    parser = words.add_parser("ewald-table", help="make the table of periodic corrections")
    parser.add_argument("out", metavar="OUT")
    parser.add_argument("--grid", type=whole(1, 6), default=5, metavar="G",
                        help="2^G cells on half the box (default 5: 431,260 bytes; 6 takes a minute)")
    with_force(parser)
    parser.set_defaults(call=do_ewald_table)
    parser = words.add_parser("expansion-table",
                        help="make the table of kick and drift sums of a cosmology, and OUT.scales.json with its units")
    parser.add_argument("out", metavar="OUT")
    parser.add_argument("--omega-m", type=float, default=0.3, help="matter today (default 0.3)")
    parser.add_argument("--omega-lambda", type=float, default=0.7, help="the cosmological constant today (default 0.7)")
    parser.add_argument("--start", type=number_above_zero, required=True, metavar="A", help="the expansion factor at which the run begins")
    parser.add_argument("--end", type=number_above_zero, default=1.0, metavar="A", help="the expansion factor at which it ends (default 1)")
    parser.add_argument("--base-steps", type=whole(1, 1 << 30), default=32, metavar="N", help="base steps, even in ln a (default 32)")
    parser.add_argument("--top-bin", type=whole(1, 20), default=18, metavar="B", help="a base step is 2^B ticks (default 18)")
    parser.add_argument("--spacing", type=whole(0, 20), metavar="S", help="2^S ticks between entries (default: some 2,000 entries)")
    parser.add_argument("--sum-of-masses", type=whole(1, 1 << 32), default=1 << 32, metavar="M",
                        help="of the snapshot, in mass units (default 2^32)")
    with_force(parser)
    parser.set_defaults(call=do_expansion_table)


def add_starts(words):
    start = words.add_parser("start", help="make a beginning: bodies and a parameter file").add_subparsers(dest="kind", required=True)
    parser = start.add_parser("sphere", help="a cold sphere that collapses; the box, the mass and G are 1")
    with_run(parser, theta=0)
    parser.add_argument("--bodies", type=whole(1, 1 << 20), default=4000, metavar="N", help="(default 4000)")
    parser.add_argument("--seed", type=whole(0, 2**64 - 1), default=1, help="(default 1)")
    parser.add_argument("--radius", type=number_above_zero, default=0.125, help="of the sphere, in boxes (default 0.125)")
    parser.add_argument("--falls", type=number_above_zero, default=1.0, help="the run's length in free-fall times (default 1)")
    parser.add_argument("--max-step", type=number_above_zero, help="the longest step in free-fall times (default: a sixteenth of the run)")
    parser.add_argument("--softening", type=number_above_zero, help="in boxes (default 0.04 of the mean distance)")
    parser.set_defaults(call=do_start_sphere)
    parser = start.add_parser("waves", help="waves in an expanding box, on a lattice, by Zel'dovich's rule")
    with_run(parser, theta=0)
    parser.add_argument("--expansion-table", required=True, metavar="FILE",
                        help="a table of expansion-table in the same folder, with FILE.scales.json beside it")
    parser.add_argument("--bodies", type=whole(5, 1 << 20), default=1009, metavar="N", help="a prime (default 1009)")
    parser.add_argument("--height", type=number_above_zero, default=0.3,
                        help="linear theory's height at the end: of one wave, or rms of many (default 0.3)")
    parser.add_argument("--most", type=whole(0, 16), default=0, metavar="K",
                        help="all waves of at most K a box (default 0: one wave along x)")
    parser.add_argument("--slope", type=float, default=-2.0, help="the squares of the heights go as k^SLOPE (default -2)")
    parser.add_argument("--seed", type=whole(0, 2**64 - 1), default=1, help="(default 1)")
    parser.add_argument("--softening", type=number_above_zero, help="in boxes (default 0.1 of the mean distance)")
    parser.set_defaults(call=do_start_waves)


def add_plots(words):
    plot = words.add_parser("plot", help="draw a picture (PNG)").add_subparsers(dest="picture", required=True)

    def picture(word, text, call, source):
        parser = plot.add_parser(word, help=text)
        if source == "SNAP":
            parser.add_argument("sources", nargs="+", metavar=source)
        else:
            parser.add_argument("source", metavar=source)
        parser.add_argument("out", metavar="OUT.png")
        with_force(parser)
        parser.set_defaults(call=call, inputs=None)
        return parser
    parser = picture("density", "the log of the column density of snapshots or restart files, side by side", do_plot_density, "SNAP")
    parser.add_argument("--axis", choices=tuple("xyz"), default="z", help="look along this axis (default z)")
    parser.add_argument("--pixels", type=whole(2, 4096), default=256, help="a side, taken up to a power of two (default 256)")
    parser.add_argument("--width", type=number_above_zero, default=1.0, help="of the view in boxes: 1, 0.5, 0.25 .. (default 1)")
    parser.add_argument("--centre", type=float, nargs=3, default=(0.5, 0.5, 0.5), metavar=("X", "Y", "Z"),
                        help="of the view in boxes (default the middle)")
    parser.add_argument("--units", metavar="FILE", help="PARAM.units.json, for the times above the pictures")
    picture("kicks", "the kick file: bins used, interactions, and the total momentum as a flat line", do_plot_kicks, "KICKS")
    parser = picture("pairs", "pair counts by distance, from what `gadget pairs` is to print (not built yet)", do_plot_pairs, "TEXT")
    parser.add_argument("--first", type=whole(1, 1 << 31), required=True, help="the outer edge of the first shell in length units")
    parser = picture("groups", "groups, from a catalogue of `gadget groups` and its snapshot", do_plot_groups, "CATALOGUE")
    parser.add_argument("snapshot", metavar="SNAP")
    parser.add_argument("--axis", choices=tuple("xyz"), default="z", help="look along this axis (default z)")


def parser_of_words():
    from .reading import KINDS
    parser = argparse.ArgumentParser(prog="gadget-tools", description=DESCRIPTION,
                        epilog="See docs/USER_GUIDE.md. Exit status: 0, or 1 with one line on standard error, or 2 for wrong words.")
    words = parser.add_subparsers(dest="word", required=True)
    info = words.add_parser("info", help="tell what files hold")
    info.add_argument("files", nargs="+", metavar="FILE")
    info.add_argument("--kind", choices=sorted(KINDS), help="what the files are, where the contents aren't to decide")
    info.set_defaults(call=do_info)
    add_convert(words)
    add_tables(words)
    add_starts(words)
    add_plots(words)
    progress = words.add_parser("progress", help="follow a running run by its kick file: share done, speed and time left")
    progress.add_argument("param", metavar="PARAM")
    progress.add_argument("--kicks", metavar="FILE", help="the kick file (default: the one that PARAM names)")
    progress.add_argument("--once", action="store_true", help="print one line and end")
    progress.add_argument("--interval", type=number_above_zero, default=2.0, metavar="SECONDS", help="between two looks (default 2)")
    progress.set_defaults(call=do_progress)
    return parser


def main(words=None):
    args = parser_of_words().parse_args(words)
    if getattr(args, "expansion", None) and not args.expansion_table:
        args.expansion_table = os.path.basename(args.expansion).removesuffix(".scales.json")
    try:
        args.call(args)
    except Fault as fault:
        print("gadget-tools: %s" % fault, file=sys.stderr)
        return 1
    except MemoryError:
        print("gadget-tools: no memory", file=sys.stderr)
        return 1
    except KeyboardInterrupt:
        return 1
    return 0
