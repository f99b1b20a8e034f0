"""Request 12's part of the fixed list of step files: searches within a limit, stopped loads and what is done with them, margins."""
from fixed import (DISPLAY, ENDS, NEVER, RIDE, SEARCH, aside, best, best_of, call, call_of, dated, limited, next_after, next_of, opening,
                   rides, rule, service, stop, withdrawal, write)

MOST = 2**64 - 1
STOPS = [stop(b"a", members=3), stop(b"b", members=48), stop(b"c")]   # two origins, two targets, and where one changes
ASKED = [best(), best(-1), best(1), best(10), best(11), best(20), best(21), next_after(), next_after(0, 10), next_after(0, 20)]


def trip(number, *calls, **given):
    """Calls of a trip: the stop and its time."""
    return [call(trip=number, sequence=i, at=at, arrival=time, departure=time, **given) for i, (at, time) in enumerate(calls)]


def plain(transfers=1, origins=b"\0", targets=b"\0", seconds=0):
    return [opening(origins=origins, targets=targets, seconds=seconds, transfers=transfers), *STOPS]


TWO = [*trip(1, (0, 10), (1, 90)), *trip(2, (0, 20), (1, 80))]   # four joins
# five rides, of which two begin at an origin; ones that join, that miss each other, at no target, of one trip
NET = [*trip(1, (0, 100), (2, 200), (1, 400)), *trip(2, (2, 250), (1, 350)), *trip(3, (1, 500), (0, 600))]
SPAN = [0, 1, 2, 3, 4, 5, 6, 9, 10, 11, 14, 15, 16, 19, 20, 21, MOST]


def stops():
    """Where a search stops: every limit of the two rides, and of a table with several origins, targets and changes."""
    for limit in (0, 1, 2, 3, 4, 5, 255, 256, 2**16, 2**31, 2**32, 2**32 + 1, 2**63 - 1, 2**63, MOST - 1, MOST):
        yield [*plain(), *TWO, limited(limit), *ASKED]
    for limit in SPAN:
        yield [*plain(1, b"\0\1", b"\0\0"), *NET, limited(limit), best(), best(41)]
    for limit in (0, 4, 5, 9, 10, 11):   # the second origin's walk isn't met
        yield [*plain(1, b"\0\2", b"\3\0"), *NET, limited(limit), best()]
    for origins, targets in ((b"", b"\0"), (b"\0", b""), (b"", b""), (b"\0\1\2", b"\0\1\2"), (b"\1\1", b"\1\1")):
        yield from ([*plain(1, origins, targets), *NET, limited(limit), best()] for limit in (0, 7, MOST))
    # two changes of one first ride: the later found beats the first
    both = [*trip(1, (0, 100), (2, 200)), *trip(2, (2, 250), (1, 500)), *trip(3, (2, 260), (1, 400))]
    yield from ([*plain(), *both, limited(limit), best(), next_after()] for limit in range(5))
    # each is due before the one that is offered before it
    falling = [c for i in range(3) for c in trip(i, (0, 20 - 10 * i), (1, 90 - 10 * i))]
    yield from ([*plain(), *falling, limited(limit), best(), best(11), next_after()] for limit in (0, 3, 6))
    # calls that can't be boarded or left aren't rides' ends
    barred = [*trip(1, (0, 100), (2, 200), (1, 300)), *trip(2, (2, 250), (1, 350), pickup=1), *trip(3, (2, 250), (1, 340), drop_off=1)]
    yield from ([*plain(), *barred, limited(limit), best()] for limit in (0, 5, 6, 8, 9, 10))
    # a ride twice over, in trips and days of its own
    twice = [*trip(1, (0, 100), (1, 200)), *trip(2, (0, 100), (1, 200)), *trip(1, (0, 100), (1, 200), day=1)]
    yield from ([*plain(), *twice, limited(limit), best()] for limit in (0, 3, 8, 9))


def none():
    """No join at all, and nothing found yet."""
    for limit in (0, 1, MOST):
        yield [*plain(0), *NET, limited(limit), best(), withdrawal(2, 0, 0), best(), limited(limit), SEARCH]
        yield [*plain(), limited(limit), best(), *TWO, best(), limited(limit)]
        yield [*plain(), *trip(1, (2, 100), (1, 200)), limited(limit), best(), *TWO, best()]
        yield [*plain(), *trip(1, (1, 100), (0, 200)), *trip(2, (0, 300), (2, 400)), limited(limit), best(), best(1), next_after()]
    yield [*plain(), *trip(1, (2, 10), (1, 20)), *trip(2, (0, 30), (2, 40)), *trip(3, (2, 50), (1, 60)), limited(0), best(),
           withdrawal(3, 0, 0), best(), *trip(4, (0, 25), (1, 70)), best()]


def margins():
    """The margin: of any ride at a target, its walk included."""
    early = trip(8, (2, 5), (1, 15))   # from no origin
    for extra in ([], early, trip(8, (2, 5), (1, 15), pickup=1), trip(8, (2, 5), (1, 15), drop_off=1), trip(8, (1, 15)),
                  trip(8, (1, 5), (2, 15)), trip(8, (1, 5), (1, 15)), trip(8, (0, 5), (2, 15))):
        yield [*plain(), *TWO, *extra, limited(0), *ASKED, withdrawal(8, 0, 1), best()]
    for targets in (b"\1\2", b"\2\1", b"\0\5", b"\5\0", b"\xff", b"\xff\xff"):
        yield [*plain(1, b"\0", targets), *TWO, *early, limited(0), best(), best(1), next_after()]
    # the ride that comes first has the longer walk
    far = [opening(origins=b"\0", targets=b"\0\5", seconds=0), stop(b"a", members=1), stop(b"b", members=16), stop(b"c", members=32)]
    yield [*far, *trip(1, (0, 100), (1, 900)), *trip(2, (0, 100), (2, 300)), *trip(3, (0, 100), (1, 500)), limited(0), best()]
    yield [*far, *trip(1, (0, 100), (1, 900)), *trip(2, (0, 100), (2, 300)), *trip(3, (0, 100), (1, 700)), limited(0), best()]
    # a margin that the finished answer doesn't use up, and one that it does
    for ahead in (trip(2, (2, 0), (1, 300)), trip(2, (2, 250), (1, 300))):
        for limit in (0, 1, 2, 3, 4):
            yield [*plain(), *trip(1, (0, 100), (2, 200), (1, 900)), *ahead, limited(limit), best()]
    yield [*plain(), *TWO, limited(4), best(), SEARCH, best()]
    yield [*plain(), *TWO, SEARCH, best(), limited(0), best()]
    yield [*plain(), *TWO, best(), limited(0), best(), *plain(), best(), *TWO, best(), limited(4), best()]


def altered():
    """Stopped loads hold their limit; once a search finished they are searched in full."""
    more = trip(3, (0, 30), (1, 70))   # nine joins with it
    for limit in (0, 1, 2, 3, 4, 5, 8, 9):
        yield [*plain(), *TWO, limited(limit), *more, best(), best(21), withdrawal(1, 0, 1), best(), withdrawal(2, 0, 0), best(), *more]
        yield [*plain(), *TWO, *more, limited(limit), withdrawal(1, 0, 0), best(), trip(1, (0, 10))[0], best(), withdrawal(3, 0, 1), best()]
    for step in (more[0], withdrawal(3, 0, 0), withdrawal(1, 0, 1)):   # each way by itself
        yield from ([*plain(), *TWO, *more[1:], limited(limit), step, *more[:1], best()] for limit in (0, 2, 3, 4, 5, 6))
    # one finishes by a withdrawal, and is then searched in full
    yield [*plain(), *TWO, limited(2), withdrawal(2, 0, 1), best(), trip(2, (0, 20), (1, 80))[1], best(), *more, best()]
    yield [*plain(), *TWO, limited(4), *more, best(), withdrawal(1, 0, 0), best()]
    yield [*plain(), *TWO, SEARCH, *more, best(), withdrawal(1, 0, 0), best()]
    # what leaves the table leaves the stopped load
    left = [call(trip=9, arrival=None), call(trip=9, arrival=30000, departure=30000), call(trip=9, arrival=601), call(at=9), withdrawal(9),
            withdrawal(65535), withdrawal(day=3)]
    yield [*plain(), *TWO, limited(1), *left, best(), *more, best(), withdrawal(3, 0, 0), best()]
    # straight after taking: the load comes back
    for limit in (0, 3, 4):
        yield [*plain(), *TWO, limited(limit), more[0], withdrawal(3, 0, 0), best(), write(), *more, withdrawal(3, 0, 1), best()]
    # another load has no limit
    yield [*plain(), *TWO, limited(0), opening(transfers=9), *more, best(), *plain(), *TWO, SEARCH, *more, best()]
    dated_load = [dated(origins=b"\0", targets=b"\0", seconds=0), *STOPS, service(), service(b"r", NEVER)]
    named = [call_of(trip=1, at=0, arrival=10, departure=10), call_of(trip=1, sequence=2, at=1, arrival=90, departure=90)]
    yield [*dated_load, *named, limited(0), best(), service(b"v"), call_of(b"r", trip=2), best(), call_of(trip=2, arrival=20, departure=20),
           call_of(trip=2, sequence=2, at=1, arrival=80, departure=80), best(), withdrawal(1), best(), write()]


def refused():
    """15, 1, 14 and 11, each by itself and with those after it; the load is as it was."""
    clash, three = [call(trip=5), call(trip=5)], [opening(), *plain(2)]   # three rides are request 10's
    for limit in (0, 1, MOST):
        yield [*plain(), *TWO, *clash, limited(limit), best(), withdrawal(5), limited(limit), best(), limited(limit), SEARCH, best()]
        yield [*plain(), *TWO, SEARCH, limited(limit), best()]
        yield [*plain(), *TWO, limited(limit), stop(b"d"), rule(), service(), call(trip=7, at=3), SEARCH, limited(MOST), limited(0), best()]
        yield [*three, *TWO, limited(limit), best(), SEARCH, limited(limit), best(), *clash, limited(limit)]
        yield [*three, *TWO, *clash, limited(limit), withdrawal(5), limited(limit), SEARCH, best()]
        yield [*three, limited(limit), *TWO, limited(limit), rule(), best(), SEARCH, limited(limit), best()]
    for second in (clash[1], call(trip=5, sequence=2, arrival=599, departure=599)):   # 14 of a stopped load's search
        yield [*plain(), *TWO, clash[0], limited(1), second, best(), withdrawal(5), second, best()]


def lists():
    """Lists that fall, and lists whose fall is refused, before the stop or behind it: 65 rides have 4225 joins."""
    apart = [opening(origins=b"\0", targets=b"\0", seconds=0), *ENDS[1:]]
    for limit in (0, 64 * 65 - 1, 64 * 65, 64 * 65 + 1, 65 * 65 - 1, 65 * 65):
        yield [*apart, *rides(65, 3600), limited(limit), best(), best(63), best(64), call(trip=90), withdrawal(64, 0, 2), best(63)]
        yield [*apart, *rides(65, 3601), limited(limit), best(), best(3600), best(3601), withdrawal(9, 0, 2), best(3600), best(3601)]
    # one that hides the others goes: its search meets 11, or stops before that
    for limit in (65, 64 * 66, 65 * 66):
        hiding = [call(trip=0, arrival=100, departure=100), call(trip=0, sequence=2, at=1, arrival=3000, departure=3000)]
        hidden = [c for i in range(65) for c in (call(trip=i + 1, arrival=i, departure=i),
                                                 call(trip=i + 1, sequence=2, at=1, arrival=3101 + i, departure=3101 + i))]
        yield [*apart, *hiding, *hidden, limited(limit), best(), withdrawal(0), best(), withdrawal(0, 0, 2), best(), best(20)]


def cuts():
    """Full tables of stopped loads: a call that cuts, is taken or outside after it, or has no room."""
    late, early = ([call(trip=100 + i, at=2, arrival=time, departure=time) for i, time in enumerate(times)]
                   for times in ([15000] * 254 + [16201] * 254, [10] * 508))
    for limit in (0, 2):
        yield [*plain(), *TWO, *late, limited(limit), call(trip=9, arrival=16201, departure=16201), best(), best(16201),
               withdrawal(1, 0, 1)]
        yield [*plain(), *TWO, *late, limited(limit), *trip(3, (0, 30), (1, 70)), best(), write(), withdrawal(2, 0, 1), best()]
    yield [*plain(), *TWO, *early, limited(3), call(trip=9), best(), withdrawal(100), call(trip=9), best()]


def shown():
    """Stopped loads are shown and not written."""
    for limit in (0, 2, 4):
        yield [*plain(), *TWO, write(), limited(limit), write(), write(0), aside(1), DISPLAY, best_of(1), best_of(1, 11), next_of(1, 0, 10),
               aside(0), withdrawal(2, 0, 1), write(), aside(2), DISPLAY, best_of(0), best_of(2), best()]
    yield [*plain(), *TWO, limited(0), aside(0), *plain(), *TWO, SEARCH, aside(1), *plain(), *TWO, aside(2), DISPLAY, limited(1), aside(2),
           DISPLAY, best_of(2)]
    yield [*ENDS, *RIDE, limited(0), write(), withdrawal(), write(), *RIDE[:1], write()]


MAKERS = stops, none, margins, altered, refused, lists, cuts, shown
