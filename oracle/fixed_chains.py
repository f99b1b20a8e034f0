"""Step files of journeys of three rides (request 10), for the fixed list (drive_list)."""
from fixed import (DAYS, DISPLAY, NEVER, SEARCH, aside, best, best_of, call, call_of, dated, next_after, opening, rule, service, stop,
                   withdrawal, write)

STOPS = [stop(b"a", members=1), stop(b"m"), stop(b"n"), stop(b"b", members=16)]


def ride(trip, src, dst, departure, arrival, made=call, **given):
    return [made(trip=trip, at=src, arrival=departure, departure=departure, **given),
            made(trip=trip, sequence=2, at=dst, arrival=arrival, departure=arrival, **given)]


def chain(first=1090, last=1590):
    return [*ride(1, 0, 1, 600, 1000), *ride(2, 1, 2, first, 1500), *ride(3, 2, 3, last, 2000)]


def opened(seconds=90, transfers=2):
    return [opening(origins=b"\5", targets=b"\2", seconds=seconds, transfers=transfers), *STOPS]


def chains():
    """Each setting; each join a second short, met and a second more; what is added, withdrawn, written, dated and shown."""
    asked = [best(), best(300), best(301), next_after(0, 299), next_after(0, 300), write()]
    for transfers in range(4):
        yield [*opened(), *opened(transfers=transfers), *chain(), SEARCH, *asked]
    for first, last in ((1089, 1590), (1090, 1589), (1091, 1591)):
        yield [*opened(), *chain(first, last), SEARCH, *asked]
    yield [*opened(), rule(1, 1, 2, 91), *chain(), SEARCH, best(), *ride(4, 1, 2, 1091, 1490), best(), rule(2, 2)]
    yield [*opened(), rule(2, 2, 3), *chain(), SEARCH, best(), *ride(4, 2, 3, 1000, 1001), best(), *ride(5, 1, 3, 1100, 2001), best()]
    for i, added in enumerate(chain()):
        yield [*opened(), *chain(), write(), SEARCH, write(), withdrawal(1 + i // 2, sequence=1 + i % 2), *asked, added, *asked]
    yield [*opened(), *chain()[2:], SEARCH, best(), *chain()[:2], *asked, *ride(0, 0, 3, 601, 2000), *asked]
    week = [service(), service(b"r", NEVER)]
    for name in (b"w", b"r"):
        rides = [*ride(1, 0, 1, 600, 1000, call_of), *ride(2, 1, 2, 1090, 1500, call_of, name=name),
                 *ride(3, 2, 3, 1590, 2000, call_of, day=1)]
        yield [dated(DAYS, origins=b"\5", targets=b"\2", seconds=90, transfers=2), *STOPS, *week, *rides, SEARCH, *asked]
    yield [*opened(), *chain(), SEARCH, aside(0), *opened(transfers=1), *chain(), SEARCH, aside(1), DISPLAY, best_of(0), best_of(1),
           best_of(0, 300), best_of(0, 301)]


MAKERS = (chains,)
