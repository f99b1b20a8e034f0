"""Request 11's part of the fixed list of step files: calls withdrawn, calls added to searched loads, and the loads searched again."""
from fixed import (DISPLAY, ENDS, NEVER, RIDE, SEARCH, aside, best, best_of, call, call_of, dated, exception, next_after, opening, rides,
                   rule, service, stop, withdrawal)

PLAIN = [opening(origins=b"\0", targets=b"\0", transfers=0), *ENDS[1:]]
# keys that no call can have, and such that the table hasn't
NO_KEYS = [withdrawal(trip=65535), withdrawal(day=3), withdrawal(day=255), withdrawal(trip=65535, day=3),
           withdrawal(trip=65535, sequence=9)]
UNKNOWN = [withdrawal(trip=2), withdrawal(day=1), withdrawal(day=2), withdrawal(sequence=3), withdrawal(sequence=0), withdrawal(trip=65534),
           withdrawal(sequence=65537), withdrawal(trip=257)]


def ride(trip, departure, arrival):
    return [call(trip=trip, sequence=1, arrival=departure, departure=departure),
            call(trip=trip, sequence=2, at=1, arrival=arrival, departure=arrival)]


def withdrawn():
    """From an unsearched load: which call goes, 9 and 24."""
    yield [*ENDS, withdrawal(), *NO_KEYS, *RIDE, *NO_KEYS, *UNKNOWN, withdrawal(), withdrawal(), best(), SEARCH, best()]
    yield [*ENDS, *RIDE, withdrawal(sequence=2), RIDE[1], SEARCH, best()]
    keys = [dict(trip=65534), dict(day=2), dict(sequence=0), dict(sequence=2**32 - 1), dict(sequence=65537), dict(trip=0)]
    for key in keys:
        other = {"trip": 5, **key}
        yield [*ENDS, *RIDE, call(**key), withdrawal(**key), withdrawal(**key), SEARCH, call(**other), withdrawal(**other)]
    several = [call(arrival=time, departure=time, at=at) for time, at in ((600, 0), (900, 1), (300, 0), (600, 0), (1000, 1))]
    others = [call(trip=2), call(day=1), call(sequence=3)]
    for count in range(6):   # the table is printed at the end
        yield [*ENDS, *several[:3], *others, *several[3:], *[withdrawal()] * count]
    yield [*ENDS, *several[:2], withdrawal(), *several[2:4], withdrawal(), SEARCH, withdrawal(), SEARCH, best(), withdrawal(), withdrawal()]
    for odd in (call(arrival=None), call(arrival=30000, departure=30000), call(arrival=601), call(at=2)):   # never in the table
        yield [*ENDS, odd, withdrawal(), *RIDE[1:], SEARCH, odd, withdrawal()]


def searched_again():
    """Calls added to and withdrawn from searched loads."""
    later = ride(2, 700, 1100)
    yield [*ENDS, *RIDE, SEARCH, *NO_KEYS, *UNKNOWN, best(), withdrawal(), best(), withdrawal(), call(), best(), *later, best(), best(361)]
    yield [*ENDS, *RIDE, SEARCH, *later, best(), withdrawal(2), best(), withdrawal(2, 0, 2), withdrawal(1, 0, 2), best(), next_after()]
    yield [*ENDS, *RIDE, SEARCH, withdrawal(), stop(b"c"), rule(), service(), exception(1), SEARCH, call(at=2), RIDE[0], best(), SEARCH]
    yield [*ENDS, SEARCH, *RIDE, best(), call(sequence=2), call(sequence=3), call(sequence=0, arrival=601, departure=601), best()]
    # the order of tests on a searched load: 9, outside, 10, outside, 11, then 14 and 11 of its search
    yield [*ENDS, *RIDE, SEARCH, call(at=2), call(trip=65535), call(day=3), call(pickup=4), call(drop_off=4), call(arrival=601, at=2),
           call(arrival=601), call(arrival=None), call(departure=None, drop_off=4), call(arrival=30000, departure=29999), best(),
           call(arrival=30000, departure=30000), call(arrival=650, departure=650), call(sequence=3, arrival=1000, departure=1000), best()]
    # the list falls to 5999; a call at 6500 is taken, and one at 21601 is outside
    yield [*PLAIN, *rides(65, 6000), SEARCH, best(5999), best(6000), *ride(80, 64, 6500), best(), best(6000)]
    yield [*PLAIN, *rides(65, 6000), SEARCH, call(trip=80, arrival=21601, departure=21601), withdrawal(3, 0, 1), best(0), best(21600)]
    yield [*PLAIN, *rides(65, 6000), SEARCH, withdrawal(9, 0, 2), *ride(80, 65, 7000), best(6999), withdrawal(80, 0, 2), best(7000)]
    yield [*PLAIN, *rides(66, 6000), SEARCH, withdrawal(9, 0, 2), best(5998), best(6000)]
    # 11 of a call's search and of a withdrawal's; the searched load stays, and goes on
    full, hidden = rides(64, 3599), [*ride(0, 100, 3000), *(c for i in range(65) for c in ride(i + 1, i, 3101 + i))]
    yield [*PLAIN, *full, SEARCH, *ride(90, 64, 3600), best(), best(64), withdrawal(90, 0, 2), withdrawal(5), best(), *ride(90, 64, 3600)]
    yield [*PLAIN, *full, SEARCH, *ride(90, 64, 3601), best(3600), best(3601), stop(b"c"), SEARCH]
    yield [*PLAIN, *full, SEARCH, *ride(90, 64, 3600), call(trip=91), best(64), withdrawal(90, 0, 1), best(63)]
    yield [*PLAIN, *hidden, SEARCH, best(), withdrawal(0), best(), withdrawal(0, 0, 2), best(100), SEARCH, withdrawal(9), best(),
           withdrawal(0), best(), best(9), best(64)]
    yield [*PLAIN, *hidden, SEARCH, withdrawal(0), call(trip=0, sequence=3, at=1, arrival=3300, departure=3300), *ride(70, 0, 3000), best()]
    # 14 of a call's search
    yield [*ENDS, *RIDE, SEARCH, call(), call(sequence=2), call(sequence=3), best(), withdrawal(sequence=3), call(sequence=3, arrival=1200,
           departure=1300), call(sequence=4, arrival=1299, departure=1300), best(), withdrawal(sequence=4), withdrawal(sequence=3)]


def filled(times):
    """So many calls of trips of their own, at these times."""
    return [call(trip=100 + i, arrival=time, departure=time) for i, time in enumerate(times)]


def cuts():
    """Full tables, before a search and after one."""
    late, early = [15000] * 255 + [16201] * 255, [10] * 510
    # cut, then outside; cut, then taken
    yield [*PLAIN, *RIDE, *filled(late), SEARCH, call(trip=9, arrival=16201, departure=16201), best(), best(16201)]
    yield [*PLAIN, *RIDE, *filled(late), SEARCH, call(trip=9, arrival=16200, departure=16200), withdrawal(9), best(16200), withdrawal(),
           best()]
    yield [*PLAIN, *RIDE, *filled(late), call(trip=9, arrival=16201, departure=16201), withdrawal(100), SEARCH, best(), withdrawal(101)]
    yield [*PLAIN, *RIDE, *filled(late), call(trip=9), withdrawal(9), withdrawal(609)]
    # 11
    yield [*PLAIN, *RIDE, *filled(early), SEARCH, call(trip=9), best(), withdrawal(100), call(trip=9), withdrawal(9), best(4000)]
    # the later of two is dropped by a cut: the earlier goes
    for searched in ([], [SEARCH]):
        yield [*PLAIN, call(), *filled(late), call(arrival=21000, departure=21000), call(trip=9), withdrawal(), withdrawal(), *searched,
               withdrawal(9)]
    # a list that fell, in a table that is then cut
    yield [*PLAIN, *rides(65, 14000), *filled([20000] * 382), SEARCH, call(trip=99, arrival=20001, departure=20001), best(13999),
           best(16200), withdrawal(3, 0, 2), best(16200)]


def others():
    """Services, displays, several loads."""
    load = [dated(), *ENDS[1:], service()]
    yield [*load, call_of(), withdrawal(), service(b"v"), exception(2), call_of(sequence=4), withdrawal(sequence=4)]
    yield [*load, service(b"r", NEVER), call_of(b"r"), withdrawal(), call_of(), call_of(b"r"), withdrawal(), withdrawal(), service(b"v")]
    second = call_of(sequence=2, at=1, arrival=1200, departure=1200)
    yield [*load, service(b"r", NEVER), SEARCH, call_of(b"r"), call_of(b"x"), call(), call_of(b"x", at=2), call_of(), second, best(),
           call_of(b"r", trip=2), call_of(b"r", arrival=9, departure=5), withdrawal(), best(), service(b"v")]
    yield [*ENDS, SEARCH, call_of(b"x"), call_of(b"", sequence=2, at=1, arrival=1200, departure=1200), best(), withdrawal(), best()]
    yield [*ENDS, *RIDE, SEARCH, aside(0), withdrawal(), aside(1), *RIDE[:1], aside(2), DISPLAY, best_of(0), best_of(1), best_of(2), best()]
    yield [*ENDS, *RIDE, SEARCH, *ENDS, withdrawal(), *RIDE, withdrawal(), opening(transfers=3), withdrawal(sequence=2), SEARCH, best()]
