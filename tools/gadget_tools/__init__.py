"""Tools around the program `gadget`: its files as numpy arrays, units, float snapshots, tables and pictures.

    import gadget_tools
    snapshot = gadget_tools.read("snapshot_000")
    snapshot.bodies.pos, snapshot.tick

`read` tells by the contents what a file is. The tools are no part of what is proved.
"""
from .faults import Fault
from .reading import read

__all__ = ["Fault", "read"]
