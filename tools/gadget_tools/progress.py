"""How far a run is, told from its kick file while it is written."""
import os
import time

from .faults import Fault
from .text_files import read_parameters


def last_kick(path):
    """The tick of the last finished line of a kick file, or None; only the end of the file is read."""
    try:
        size = os.path.getsize(path)
        with open(path, "rb") as file:
            file.seek(max(0, size - 4096))
            lines = file.read().split(b"\n")[:-1]
    except FileNotFoundError:
        return None
    except OSError as error:
        raise Fault(path, "", "it can't be read (%s)" % error.strerror) from None
    if not lines:
        return None
    word = lines[-1].split(b" ")[0]
    if not word.isdigit() or len(lines[-1].split(b" ")) != 9:
        raise Fault(path, "last line", "it isn't a line of a kick file")
    return int(word)


def duration(seconds):
    seconds = int(round(seconds))
    if seconds < 60:
        return "%d s" % seconds
    if seconds < 3600:
        return "%d min %02d s" % divmod(seconds, 60)
    return "%d h %02d min" % divmod(seconds // 60, 60)


def line_of(tick, last, seen):
    """`seen` is a list of (seconds, tick): when which tick was reached."""
    if tick is None:
        return "no kick yet; the first line comes after the first base step"
    text = "tick %d of %d, %.1f %% done" % (tick, last, 100.0 * tick / last if last else 100.0)
    (then, before), (now, here) = seen[0], seen[-1]
    if here > before and now > then:
        speed = (here - before) / (now - then)
        text += ", %.3g ticks a second, %s left" % (speed, duration((last - tick) / speed))
    return text


def follow(param, kicks=None, once=False, interval=2.0, say=print, clock=time.monotonic, sleep=time.sleep):
    """Says a line at once and one whenever the run has gone on, until its last tick; with `once` only the first."""
    parameters = read_parameters(param)
    path = kicks or os.path.join(os.path.dirname(str(param)), parameters["KickFile"])
    last, seen, said = parameters.last_tick(), [], object()
    while True:
        tick = last_kick(path)
        if tick is not None and (not seen or tick > seen[-1][1]):
            seen = (seen + [(clock(), tick)])[-20:]
        if tick != said:
            say(line_of(tick, last, seen))
            said = tick
        if once or (tick is not None and tick >= last):
            return tick
        sleep(interval)
