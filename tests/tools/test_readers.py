"""Every reader against files of the program, or, of commands that aren't built, against files of their form."""
import shutil
import struct

import gadget_tools
import numpy
import pytest
from gadget_tools import integer_files, text_files


def test_a_snapshot_is_as_the_program_shows_it(sphere, program):
    folder, _ = sphere
    snapshot = gadget_tools.read(folder / "snapshot_001")
    shown = program(folder, "show", "snapshot_001").out.split("\n")
    assert shown[0] == "tick %d number %d bodies %d mass %d momentum %d %d %d" % (
        snapshot.tick, snapshot.number, len(snapshot.bodies), snapshot.bodies.total_mass(), *snapshot.bodies.total_momentum())
    assert shown[1:] == ["type %d bodies %d" % (kind, snapshot.counts[kind]) for kind in range(1, 6)]
    assert integer_files.snapshot_bytes(snapshot.bodies, snapshot.tick, snapshot.number) == (folder / "snapshot_001").read_bytes()


def test_a_restart_file_has_the_bodies_of_the_snapshot_of_its_tick(sphere):
    folder, _ = sphere
    restart, snapshot = gadget_tools.read(folder / "restart_000"), gadget_tools.read(folder / "snapshot_001")
    assert (restart.version, restart.steps, restart.tick, restart.next_snapshot, restart.next_restart) == (1, 2, snapshot.tick, 2, 1)
    for name in ("id", "kind", "mass", "pos", "mom"):
        assert (getattr(restart.bodies, name) == getattr(snapshot.bodies, name)).all(), name
    parameters = gadget_tools.read(folder / "param.txt")
    assert restart.settings == {name: parameters[name] for name in restart.settings}
    kicks = gadget_tools.read(folder / "kicks.txt")
    assert kicks.tick[restart.kicks - 1] == kicks.tick[restart.kicks] == restart.tick      # the end of a step, and the start of the next
    assert restart.interactions == sum((kicks.interactions + kicks.fast_interactions)[:restart.kicks])


def test_a_run_stopped_inside_a_base_step(sphere, program, tmp_path):
    folder, _ = sphere
    for name in ("ics.dat", "param.txt", "param.txt.times"):
        shutil.copy(folder / name, tmp_path)
    (tmp_path / "stop").touch()
    answer, at = program(tmp_path, "run", "param.txt", "1"), 0
    while answer.status == 1 and "tick" not in answer.out:
        answer, at = program(tmp_path, "resume", "param.txt", "restart_%03d" % at, "1"), at + 1
    assert answer.status == 1
    restarts = sorted(path for path in tmp_path.iterdir() if path.name.startswith("restart_"))
    restart = gadget_tools.read(restarts[-1])
    assert answer.out == "stopped steps %d tick %d" % (restart.steps, restart.tick)
    assert restart.version == 2 and len(restart.depth) == 150 and restart.depth.max() >= 1
    assert not gadget_tools.read(tmp_path / "bins.dat").is_whole


def test_kicks_add_up_to_the_printed_line(sphere):
    folder, line = sphere
    kicks, words = gadget_tools.read(folder / "kicks.txt"), line.split()
    assert kicks.tick[-1] == int(words[2]) and len(kicks) == int(words[8])
    assert sum(kicks.interactions) + sum(kicks.fast_interactions) == int(words[10])
    assert all(row == [int(word) for word in words[12:15]] for row in kicks.momentum)
    assert len(set(kicks.bin)) > 1


def test_bins_are_the_fast_parts_of_the_kicks(sphere):
    folder, _ = sphere
    bins, kicks = gadget_tools.read(folder / "bins.dat"), gadget_tools.read(folder / "kicks.txt")
    assert bins.is_whole
    assert sorted(2 * [len(record) for record in bins.records]) == sorted(kicks.fast)
    assert max(len(record) for record in bins.records) > 0


def test_parameters_and_outputs(sphere, program):
    folder, _ = sphere
    parameters = gadget_tools.read(folder / "param.txt")
    assert program(folder, "check", "param.txt").out.startswith("ok bodies 150 ")
    assert parameters["KickFile"] == "kicks.txt" and parameters["EwaldTableFile"] is None
    outputs = gadget_tools.read(folder / "param.txt.times", "outputs")
    assert outputs[0] == 0 and outputs[-1] == parameters["TimeMax"] and len(outputs) == 4


WRONG_PARAMETERS = [
    ("LowBin 1\nBlowBin 3\n", "line 2"), ("LowBin 1\nLowBin 1\n", "line 2"), ("% x\nTimeMax\n", "line 2"), ("TimeMax 1.5\n", "line 1"),
    ("TopBin 21\n", "line 1"), ("TopBin 99999999999999999999999\n", "line 1"), ("InitCondFile a\nSnapshotFileBase s\n", ""),
]


@pytest.mark.parametrize("text, place", WRONG_PARAMETERS)
def test_wrong_parameters_are_refused_where_the_program_refuses(text, place, program, tmp_path):
    (tmp_path / "p").write_text(text)
    with pytest.raises(gadget_tools.Fault) as fault:
        gadget_tools.read(tmp_path / "p", "parameters")
    answer = program(tmp_path, "check", "p")
    assert answer.status == 10 and answer.out.startswith("parameter line %d " % int(place[5:] or "0"))
    assert fault.value.place == place and fault.value.name == str(tmp_path / "p")


def test_clashing_names_are_refused_as_by_the_program(sphere, program, tmp_path):
    text = (sphere[0] / "param.txt").read_text()
    (tmp_path / "p").write_text(text + "KickFile snapshot_7\n")
    answer = program(tmp_path, "check", "p")
    with pytest.raises(gadget_tools.Fault) as fault:
        gadget_tools.read(tmp_path / "p")
    assert answer.out == "parameter %s clash" % fault.value.place and "snapshot_7" in fault.value.cause


@pytest.mark.parametrize("length", [3, 15, 18, 23, 24, 279, 280, 281, 300, 500, 2103, 2104, 7000])
def test_cut_snapshots_are_refused_where_the_program_refuses(length, sphere, program, tmp_path):
    (tmp_path / "cut").write_bytes((sphere[0] / "ics.dat").read_bytes()[:length])
    answer = program(tmp_path, "show", "cut")
    with pytest.raises(gadget_tools.Fault) as fault:
        gadget_tools.read(tmp_path / "cut", "snapshot")
    if answer.status == 13 and " at " in answer.out:
        at = int(answer.out.split(" at ")[1].split()[0])
        assert fault.value.place.startswith("byte ") and int(fault.value.place[5:]) == at
    else:                                              # `show` reads the head alone
        assert answer.status in (0, 13)
        assert "there is no block" in fault.value.cause


@pytest.mark.parametrize("at, byte, text", [
    (0, 9, "name frame at 0"), (8, 7, "skip differs at 8"), (12, 9, "frames differ at 12 8 9"), (20, 0, "head tag"), (28, 1, "gas 1")])
def test_altered_snapshots(at, byte, text, sphere, program, tmp_path):
    data = bytearray((sphere[0] / "ics.dat").read_bytes())
    data[at] = byte
    (tmp_path / "bad").write_bytes(data)
    (tmp_path / "p").write_text((sphere[0] / "param.txt").read_text().replace("ics.dat", "bad").replace("OutputList", "%"))
    assert program(tmp_path, "check", "p").out == "snapshot " + text
    with pytest.raises(gadget_tools.Fault) as fault:
        gadget_tools.read(tmp_path / "bad", "snapshot")
    assert str(tmp_path / "bad") in str(fault.value) and "byte" in str(fault.value)


@pytest.mark.parametrize("at, value", [(0, 1), (8, 3), (12, 9), (16, 1), (24, 7), (80, 99), (88, 0), (97, 255), (133, 1), (161, 0),
                                       (168, 200), (228, 0), (7972, 1)])
def test_altered_restart_files_are_refused_where_the_program_refuses(at, value, sphere, program, tmp_path):
    for name in ("param.txt", "param.txt.times"):
        shutil.copy(sphere[0] / name, tmp_path)
    data = bytearray((sphere[0] / "restart_000").read_bytes())
    data[at] = value
    (tmp_path / "r").write_bytes(data)
    answer = program(tmp_path, "resume", "param.txt", "r", "1")
    with pytest.raises(gadget_tools.Fault) as fault:
        gadget_tools.read(tmp_path / "r", "restart")
    assert answer.status == 14
    if answer.out.startswith("restart field at "):
        assert fault.value.place == "byte " + answer.out.split()[-1]


def test_cut_restart_and_bin_files(sphere, tmp_path):
    folder, _ = sphere
    for name, lengths in (("restart_000", (4, 100, 200, 7975)), ("bins.dat", (4, 11))):
        for length in lengths:
            (tmp_path / "cut").write_bytes((folder / name).read_bytes()[:length])
            with pytest.raises(gadget_tools.Fault):
                gadget_tools.read(tmp_path / "cut", "restart" if name.startswith("restart") else "bins")


GROUPS = b"I4GROUPS" + struct.pack("<2I", 2, 0) + struct.pack("<3Q", 1, 60, 3) + struct.pack("<3Q", 1, 2, 3) + struct.pack("<4Q", 4, 9, 1, 4)


def test_catalogues(tmp_path):
    path = tmp_path / "groups"
    path.write_bytes(GROUPS)
    catalogue = gadget_tools.read(path)
    assert list(catalogue.label) == [1, 4] and list(catalogue.mass) == [60, 9] and [list(ids) for ids in catalogue.ids] == [[1, 2, 3], [4]]
    for change, place in ((lambda b: b[:-1], "byte 88"), (lambda b: b[:50], "byte 40"), (lambda b: b + b"x", "byte 96"),
                          (lambda b: b[:48] + b[40:48] + b[56:], "byte 48"), (lambda b: b[:64] + b[16:24] + b[72:], "byte 64")):
        path.write_bytes(change(GROUPS))
        with pytest.raises(gadget_tools.Fault) as fault:
            gadget_tools.read(path, "catalogue")
        assert fault.value.place == place


def test_shells_links_and_traces(tmp_path):
    path = tmp_path / "text"
    path.write_text("shell 0 2\nshell 1 1\nshell 2 3\nwalked 5 pairs 6\n")
    shells = gadget_tools.read(path)
    assert (shells.counts, shells.walked, shells.pairs) == ([2, 1, 3], 5, 6)
    path.write_text("1 2 2 1\n4 1 2 0\n9 none 0 0\n")
    assert gadget_tools.read(path) == [(1, 2, 2, True), (4, 1, 2, False), (9, None, 0, False)]
    path.write_text("force 3\nbuild 0 5\ntable 0 1 2\n")
    assert gadget_tools.read(path) == [(3, [("build", 0, 5), ("table", 0, 1, 2)])]
    path.write_text("shell 0 2\nshell 2 1\n")
    with pytest.raises(gadget_tools.Fault, match="line 2"):
        gadget_tools.read(path)


def test_a_kick_file_that_is_being_written(sphere, tmp_path):
    text = (sphere[0] / "kicks.txt").read_bytes()
    (tmp_path / "kicks.txt").write_bytes(text[:-5])
    with pytest.raises(gadget_tools.Fault, match="isn't finished"):
        gadget_tools.read(tmp_path / "kicks.txt")
    kicks = text_files.read_kicks(tmp_path / "kicks.txt", running=True)
    assert kicks.is_cut and len(kicks) == text.count(b"\n") - 1


def test_what_is_no_file_of_the_program(tmp_path):
    (tmp_path / "x").write_bytes(b"\x89PNG and so on")
    for path, cause in ((tmp_path / "x", "no file of the program"), (tmp_path / "nothing", "no such file"), (tmp_path, "can't be read")):
        with pytest.raises(gadget_tools.Fault, match=cause):
            gadget_tools.read(path)


def test_exact_totals():
    bodies = integer_files.Bodies(numpy.arange(1, 5, dtype="u8"), numpy.ones(4, "u1"), numpy.ones(4, "u4"), numpy.zeros((4, 3), "u4"),
                                  numpy.array([[2**62, -2**62, 3]] * 4, "i8"))
    assert bodies.total_momentum() == [2**64, -2**64, 12]
