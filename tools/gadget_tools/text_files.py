"""The text files of the program: parameter files, output lists, kick files, traces, and what later commands print."""
from dataclasses import dataclass

import numpy

from .faults import Fault, read_bytes

# name, least and greatest value (None: a name), default (None: required; "": none)
PARAMETERS = (
    ("InitCondFile", None, None), ("SnapshotFileBase", None, None), ("OutputListFilename", None, ""),
    ("EwaldTableFile", None, ""), ("RestartFileBase", None, "restart"), ("KickFile", None, "kicks.txt"),
    ("RankTraceFile", None, "ranktrace.txt"), ("TimeMax", (0, 1 << 40), None), ("LowBin", (1, 20), None),
    ("TopBin", (1, 20), None), ("ErrTolTheta", (0, 256), None), ("ErrTolIntAccuracy", (1, 65536), None),
    ("GravityConstantInternal", (0, 1 << 32), None), ("VelocityShift", (0, 40), None),
) + tuple(("SofteningType%d" % kind, (256, 1 << 30), 256) for kind in range(1, 6)) + (
    ("RestartEvery", (0, 1000000), 0), ("RankTrace", (0, 1), 0), ("DeliverySeed", (0, 2**64 - 1), 1),
    ("ExpansionTableFile", None, ""), ("BinFile", None, ""))
RANGES = {name: limits for name, limits, _ in PARAMETERS}


@dataclass
class Parameters:
    """The settings of a run: `values` has each name's value, defaults included; None is an absent file."""
    name: str
    values: dict

    def __getitem__(self, key):
        return self.values[key]

    def last_tick(self):
        """The tick at which the run ends: whole base steps until TimeMax."""
        base = 1 << self["TopBin"]
        return -(-self["TimeMax"] // base) * base


@dataclass
class Kicks:
    """A line a kick. The momenta are rows of three Python numbers, since a total may pass 64 bits."""
    name: str
    tick: numpy.ndarray
    bin: numpy.ndarray
    whole: numpy.ndarray               # bodies of the step
    fast: numpy.ndarray                # those of them that need finer steps
    interactions: numpy.ndarray        # of the forces among all bodies of the step
    fast_interactions: numpy.ndarray   # of the forces among the fast ones
    momentum: list                     # of all bodies, after the kick
    is_cut: bool = False               # the last line isn't finished

    def __len__(self):
        return len(self.tick)


@dataclass
class Shells:
    name: str
    counts: list                       # pairs in each shell, the last one being all beyond
    walked: int
    pairs: int


def lines_of(path):
    name, data = str(path), read_bytes(path)
    try:
        text = data.decode("ascii")
    except UnicodeDecodeError as error:
        raise Fault(name, "byte %d" % error.start, "it isn't plain text") from None
    return name, text


def number_of(name, line, word):
    if not (word.isascii() and word.isdigit()):
        raise Fault(name, "line %d" % line, "%s isn't a whole number" % (word or "nothing"))
    return int(word)


def parameter_of(name, line, key, word):
    limits = RANGES[key]
    if limits is None:
        if not (1 <= len(word) <= 200 and all(33 <= ord(c) <= 126 for c in word)):
            raise Fault(name, "line %d" % line, "%s: a file name has 1 to 200 visible characters" % key)
        return word
    value = number_of(name, line, word)
    if not limits[0] <= value <= limits[1]:
        raise Fault(name, "line %d" % line, "%s is %d, and its range is %d to %d" % (key, value, *limits))
    return value


def read_parameters(path):
    """The Parameters of a file, or its first fault."""
    name, text = lines_of(path)
    values, lines = {}, {}
    for line, content in enumerate(text.split("\n"), 1):
        words = content.replace("\r", " ").split()
        if not words or words[0].startswith("%"):
            continue
        key = words[0]
        if key not in RANGES:
            raise Fault(name, "line %d" % line, "there is no parameter %s" % key)
        if key in values:
            raise Fault(name, "line %d" % line, "%s stood on line %d" % (key, lines[key]))
        if len(words) < 2:
            raise Fault(name, "line %d" % line, "%s has no value" % key)
        values[key], lines[key] = parameter_of(name, line, key, words[1]), line
    for key, _, default in PARAMETERS:
        if key not in values and default is None:
            raise Fault(name, "", "%s is missing" % key)
        values.setdefault(key, default if default != "" else None)
    check_together(name, values, lines)
    return Parameters(name, values)


def check_together(name, values, lines):
    """The order of the bins, and names of files that would meet: equal ones, or one that goes on from another with `_`."""
    if values["LowBin"] > values["TopBin"]:
        raise Fault(name, place_of(lines, "LowBin", "TopBin"), "LowBin is above TopBin")
    names = [key for key, limits, _ in PARAMETERS if limits is None and values.get(key) is not None]
    for place, first in enumerate(names):
        for second in names[place + 1:]:
            one, other = values[first], values[second]
            if one == other or one.startswith(other + "_") or other.startswith(one + "_"):
                raise Fault(name, place_of(lines, first, second), "%s %s and %s %s are names that clash" % (first, one, second, other))


def place_of(lines, *keys):
    return "line %d" % max(lines.get(key, 0) for key in keys) if lines else ""


def parameter_bytes(values, comment=()):
    """A parameter file with these values, in the order of the table; what isn't given keeps its default."""
    lines = ["% " + line for line in comment]
    check_together("the parameters", {key: values.get(key, default) or None for key, _, default in PARAMETERS}, {})
    for key, limits, default in PARAMETERS:
        if key in values and values[key] is not None:
            parameter_of("the parameters", 0, key, str(values[key]))
            lines.append("%-23s %s" % (key, values[key]))
        elif default is None:
            raise Fault("the parameters", key, "it is missing")
    return ("\n".join(lines) + "\n").encode()


def output_bytes(ticks):
    return "".join("%d\n" % tick for tick in ticks).encode()


def read_outputs(path):
    """The listed times, ascending and each once."""
    name, text = lines_of(path)
    ticks = []
    for line, content in enumerate(text.split("\n"), 1):
        words = content.split()
        if words and not words[0].startswith("%"):
            ticks.append(number_of(name, line, words[0]))
    return sorted(set(ticks))


def read_kicks(path, running=False):
    """The Kicks of a kick file. With `running` a last line that isn't finished is left out; else it is a fault."""
    name, text = lines_of(path)
    lines = text.split("\n")
    is_cut = lines.pop() != ""
    if is_cut and not running:
        raise Fault(name, "line %d" % (len(lines) + 1), "it isn't finished; the run may be on its way, or was broken off")
    rows = []
    for line, content in enumerate(lines, 1):
        words = content.split(" ")
        if len(words) != 9:
            raise Fault(name, "line %d" % line, "%d words in place of nine: no kick file" % len(words))
        signed = [word[1:] if word.startswith("-") else word for word in words[6:]]
        for word in words[:6] + signed:
            number_of(name, line, word)
        rows.append([int(word) for word in words])
    columns = list(zip(*rows)) if rows else [()] * 9
    arrays = [numpy.array(column, "i8") for column in columns[:6]]
    return Kicks(name, *arrays, [row[6:] for row in rows], is_cut)


def read_shells(path):
    """What `gadget pairs` is to print. The command isn't built yet; this is the form of its lines."""
    name, text = lines_of(path)
    counts, lines = [], text.split("\n")
    for line, content in enumerate(lines, 1):
        words = content.split()
        if words[:1] == ["shell"] and len(words) == 3:
            if number_of(name, line, words[1]) != len(counts):
                raise Fault(name, "line %d" % line, "shell %s in place of shell %d" % (words[1], len(counts)))
            counts.append(number_of(name, line, words[2]))
        elif words[:1] == ["walked"] and len(words) == 4 and counts:
            walked, pairs = number_of(name, line, words[1]), number_of(name, line, words[3])
            if pairs != sum(counts):
                raise Fault(name, "line %d" % line, "%d pairs, and the shells have %d" % (pairs, sum(counts)))
            return Shells(name, counts, walked, pairs)
        else:
            break
    raise Fault(name, "line %d" % line, "a line `shell K COUNT` or `walked W pairs N` was wanted")


def read_links(path):
    """(label, descendant or None, shared, main) for each line, as `gadget links` writes them."""
    name, text = lines_of(path)
    links = []
    for line, content in enumerate(text.split("\n")[:-1], 1):
        words = content.split(" ")
        if len(words) != 4:
            raise Fault(name, "line %d" % line, "%d words in place of four: no file of links" % len(words))
        label, shared, main = (number_of(name, line, words[k]) for k in (0, 2, 3))
        descendant = None if words[1] == "none" else number_of(name, line, words[1])
        links.append((label, descendant, shared, bool(main)))
    return links


def read_trace(path):
    """The events of each force: (number of bodies, [(kind, numbers ..), ..])."""
    name, text = lines_of(path)
    forces = []
    for line, content in enumerate(text.split("\n")[:-1], 1):
        words = content.split(" ")
        numbers = [number_of(name, line, word) for word in words[1:]]
        if words[0] == "force" and len(numbers) == 1:
            forces.append((numbers[0], []))
        elif forces and words[0].isalpha() and len(numbers) in (2, 3):
            forces[-1][1].append((words[0], *numbers))
        else:
            raise Fault(name, "line %d" % line, "no line of a trace: %s" % content[:40])
    return forces
