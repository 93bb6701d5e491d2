"""Takes measurements while the machine is quiet.

A virtual machine shares its processors and its memory with others, and is slow while these are busy. So a short loop and
a copy of memory are timed before and after each measurement, and compared with the least time seen of each. If one of them
takes over a fifth longer, the machine is busy: then the measurement waits, for 20 seconds at most, or is made again, up to
three times in all. Once a script has spent 30 seconds on waiting and on such measurements, it waits no more, and makes none
again.
"""
import re
import statistics
import time

ALLOWED = 1.2
WAIT = 20
TRIES = 3
ALL_WAITS = 30
TURNS = 3
LOOPS = 1_000_000
COPIED = 64 << 20

FIRST_LOOKS = 40
MOST_NAMED = 5

_source = bytearray(COPIED)
_target = bytearray(COPIED)
_least = []
_loops = []
_measured = []
_busy = []
_waited = [0.0]


def _spent(work):
    start = time.perf_counter()
    work()
    return time.perf_counter() - start


def loop():
    """Some work for one processor: additions."""
    total = 0
    for number in range(LOOPS):
        total += number


def _copy():
    _target[:] = _source


def _look(times):
    """The least seconds of each, out of this many runs."""
    return [min(_spent(work) for _ in range(times)) for work in (loop, _copy)]


def _is_quiet():
    now = _look(2)
    _loops.append(now[0])
    _least[:] = map(min, zip(_least or _look(FIRST_LOOKS), now))
    return all(seconds <= ALLOWED * least for seconds, least in zip(now, _least))


def _wait():
    end = time.perf_counter() + min(WAIT, ALL_WAITS - _waited[0])
    while not _is_quiet() and time.perf_counter() < end:
        time.sleep(0.2)


def _until_quiet(measure):
    """Waits, measures, and adds the time to that of all waits if the machine is not quiet afterwards."""
    start = time.perf_counter()
    _wait()
    begun = time.perf_counter()
    result = measure()
    is_quiet = _is_quiet()
    _waited[0] += (begun if is_quiet else time.perf_counter()) - start
    return result, is_quiet


def measured(what, measure):
    """The result of a measurement that was made while the machine was quiet, or of the last try."""
    _measured.append(what)
    for _ in range(TRIES):
        result, is_quiet = _until_quiet(measure)
        if is_quiet:
            return result
        if _waited[0] >= ALL_WAITS:
            break
    _busy.append(what)
    return result


def in_turns(what, compared, measure):
    """What a measurement gives for each of some things, by their keys: a list of all that its turns have given. So the machine is
    equally fast for all that is compared."""
    taken = {key: [] for key in compared}
    for turn in range(TURNS):
        found = measured("%s, turn %d" % (what, turn + 1), lambda: [(key, measure(thing)) for key, thing in compared.items()])
        for key, values in found:
            taken[key] += values
    return taken


def told():
    """What to print after the measurements: the speed of the quiet machine, and how many were made on a busy one, by name if they
    are few."""
    times = 1000 * _least[0], 1000 * statistics.median(_loops), COPIED / _least[1] / 1e9
    text = "the machine: a million additions in Python in %.0f ms at least and %.0f by the median, memory copied with %.1f GB/s at most" % times
    text += "; it was busy at %d of %d measurements" % (len(_busy), len(_measured))
    if not _busy or len(_busy) > MOST_NAMED:
        return text
    # Without the folders that were made for this run.
    return text + ": " + ", ".join(re.sub(r" /\S+/files\b", "", what) for what in _busy)
