"""Request 13's part of the fixed list of step files: loads written, with room for the file, for a byte less and for none."""
from fixed import (ENDS, NEVER, RIDE, SEARCH, best, call, call_of, dated, opening, rides, rule, service, stop, withdrawal, write)
from reading import Reading
from records import FIRST
from steps import Steps

PLAIN = [opening(origins=b"\0", targets=b"\0", transfers=0), *ENDS[1:]]
NAN = float("nan")


def size(parts):
    """How long the file of the load after these steps is."""
    steps = Steps()
    list(steps.lines(FIRST + b"".join(parts)))
    return len(Reading().file_of(steps.load))


def tried(*parts):
    """The load written with much room, with as much as it needs, with a byte less, with none and with all that can be asked."""
    long = size(parts)
    return [*parts, *(write(room) for room in (70000, long, long - 1, 0, 2**32 - 1))]


def written():
    """What each field is written as."""
    yield tried(opening())
    yield tried(opening(origins=b"", targets=b"", seconds=0, transfers=0))
    yield tried(opening(origins=b"\1\2\3\4", targets=b"\5\6\7\xff", seconds=15300, now=-2**40, epochs=(2**40, 0, -1)))
    yield tried(opening(seconds=90, now=1000, epochs=(1000, 87400, -85400)), *ENDS[1:], *(
        call(trip=day, day=day, sequence=i, at=i, arrival=at, departure=at) for day, start in ((0, 0), (2, 86400))
        for i, at in enumerate((start + 600, start + 900))), SEARCH, best())
    names = (None, b"", b"n", b"N" * 64, b"\xff", b"Caf\xc3\xa9")
    yield tried(*ENDS, *(stop(b"s%d" % i, name, members=17 * i) for i, name in enumerate(names)))
    yield tried(*ENDS, stop(b"S", location=1, members=255), stop(b"x" * 32, b"p", b"S", members=255), stop(b"p", None, b"S"))
    places = (0.0, 0.0), (-0.0, 180.0), (90.0, -180.0), (NAN, 1.0), (1.0, NAN), (float("inf"), -float("inf")), (1e300, 5e-324)
    yield tried(*ENDS, *(stop(b"s%d" % i, b"name", position=place) for i, place in enumerate(places)))
    yield tried(*ENDS, *(rule(i // 2, i % 2, kind, seconds) for i, (kind, seconds) in enumerate(
        ((0, None), (1, 300), (2, 65535), (3, 0)))))
    yield tried(*ENDS, *(rule(i // 2, i % 2, 0, seconds) for i, seconds in enumerate((0, 1, 256, None))), *RIDE, SEARCH)
    types = [call(trip=pickup, sequence=drop, pickup=pickup, drop_off=drop) for pickup in range(4) for drop in range(4)]
    yield tried(*ENDS, *types)
    ends = ((0, 0), (0, 21600), (21600, 21600), (21600, 30000), (21601, 21601), (21599, 21601))
    yield tried(*ENDS, *(call(trip=i, arrival=a, departure=d, pickup=2, drop_off=3) for i, (a, d) in enumerate(ends)))
    early = opening(now=5000, epochs=(0, 0, 0))
    yield tried(early, *ENDS[1:], *(call(trip=i, arrival=a, departure=d, pickup=3, drop_off=2) for i, (a, d) in enumerate(
        ((4000, 4999), (4000, 5000), (5000, 5000), (4999, 26601), (26600, 26600)))))


def ordered():
    """In the order taken, sorted once searched; the search record; withdrawn calls."""
    several = [call(trip=3), call(trip=1, sequence=9, arrival=900, departure=900), call(trip=1), call(trip=2, day=1), call(trip=2)]
    yield tried(*ENDS, *several)
    yield tried(*ENDS, *several, SEARCH)
    yield [*ENDS, *several, write(), withdrawal(1), write(), SEARCH, write(), call(trip=0), write(), withdrawal(2), write(), best()]
    yield [*ENDS, *RIDE, SEARCH, write(), SEARCH, stop(b"c"), write(), best()]
    yield [*ENDS, call(), call(), SEARCH, write()]


def refused():
    """25, also with no room: dates, a table that was cut. A list that was cut is written."""
    yield [dated(), write(), write(0), *ENDS[1:], service(), call_of(), write(), SEARCH, write(), write(0)]
    yield [dated(), service(marks=NEVER), write()]
    cut = [*PLAIN, *rides(256, 21600, 0), call(trip=300, arrival=16100, departure=16100)]
    yield [*cut, write(), write(0), SEARCH, write(), write(0), best()]
    yield tried(*PLAIN, *rides(65, 6000), SEARCH)
    yield tried(*PLAIN, *rides(256, 21600, 0))


def full():
    """128 stops with long texts, and 128 rules."""
    stops = [stop(b"S" * 32, location=1), *(stop(b"%032d" % i, b"n" * 64, b"S" * 32, position=(1.0, 2.0), members=255) for i in range(125))]
    pairs = [(i, j) for i in range(12) for j in range(11)]
    yield tried(*ENDS, *stops, *(rule(*pair, 0, 1) for pair in pairs[:128]))


MAKERS = written, ordered, refused, full
