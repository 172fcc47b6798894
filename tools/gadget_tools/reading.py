"""One call for every file."""
from . import float_files, integer_files, text_files
from .faults import Fault, read_bytes

TAGS = {
    integer_files.RESTART_TAG: integer_files.read_restart, integer_files.BINS_TAG: integer_files.read_bins,
    integer_files.GROUPS_TAG: integer_files.read_catalogue, integer_files.EWALD_TAG: integer_files.read_ewald_table,
    integer_files.EXPANSION_TAG: integer_files.read_expansion_table,
}
KINDS = {
    "snapshot": integer_files.read_snapshot, "restart": integer_files.read_restart, "bins": integer_files.read_bins,
    "catalogue": integer_files.read_catalogue, "ewald": integer_files.read_ewald_table,
    "expansion": integer_files.read_expansion_table, "kicks": text_files.read_kicks, "parameters": text_files.read_parameters,
    "outputs": text_files.read_outputs, "shells": text_files.read_shells, "links": text_files.read_links,
    "trace": text_files.read_trace, "float": float_files.read_float, "arrays": float_files.read_arrays,
}


def read(path, kind=None):
    """The contents of a file, of whatever kind; `kind` is a word of KINDS where the contents are not to decide."""
    if kind is not None:
        return KINDS[kind](path)
    return reader_of(path)(path)


def reader_of(path):
    data = read_bytes(path)
    if data[:8] in TAGS:
        return TAGS[data[:8]]
    if data[:4] == b"PK\3\4":
        return float_files.read_arrays
    if data[:4] == b"\0\1\0\0":
        return float_files.read_float
    if data[:4] == b"\x08\0\0\0":
        at = data.find(b"I4SNAP01")
        return integer_files.read_snapshot if at >= 0 and data[:at].endswith(b"\0\1\0\0") else float_files.read_float
    return text_reader_of(path, data)


def text_reader_of(path, data):
    for line in data.split(b"\n"):
        words = line.split()
        if not words or words[0].startswith(b"%"):
            continue
        first = words[0].decode("latin-1")
        if first in text_files.RANGES:
            return text_files.read_parameters
        if first == "shell":
            return text_files.read_shells
        if first == "force":
            return text_files.read_trace
        if first.isdigit() and len(words) == 9:
            return text_files.read_kicks
        if first.isdigit() and len(words) == 4:
            return text_files.read_links
        break
    raise Fault(path, "byte 0", "it is no file of the program, nor a float snapshot; where you know what it is, say so by --kind")
