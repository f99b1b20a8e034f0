"""Wrong readings of request 12, each in one place: which joins there are, where a search stops, what it says. Those of stopped loads and
margins are in wrong_stopped.py; wrong_steps.py counts the step files that tell them.
"""
from limits import JOIN
from reading import Reading

READINGS = {}


def misread(name, **parts):
    READINGS[name] = type(name, (Reading,), parts)


# --- which joins ---
misread("joins-at-targets", joins_of=lambda self, load, first, last: int(bool(self.targets(load, last.dst))))
misread("joins-once-per-target", joins_of=lambda self, load, first, last: len(self.targets(load, last.dst)))
misread("joins-more-with-two-targets", joins_of=lambda self, load, first, last: max(1, len(self.targets(load, last.dst))))
misread("own-trip-left-out", joins_of=lambda self, load, first, last: int(self.other(first, last)))
misread("itself-left-out", joins_of=lambda self, load, first, last: int(first != last))
misread("those-that-join", joins_of=lambda self, load, first, last: int(self.do_join(load, first, last, {})))
misread("those-with-a-change", joins_of=lambda self, load, first, last: int(self.transfer(load, first.dst, last.src) is not None))
misread("those-in-time", joins_of=lambda self, load, first, last: int(first.arrival <= last.departure))
misread("last-rides-of-no-origin", joins_of=lambda self, load, first, last: int(not self.origins(load, last.src)))
misread("joins-without-changes", lists_joins=lambda self, load: True)
misread("no-joins-at-all", lists_joins=lambda self, load: False)


def lowest_origin(self, load, origin, first, lasts, known):
    """The joins of a ride are counted for its first origin alone."""
    for event in Reading.pairings(self, load, origin, first, lasts, known):
        if event is not JOIN or origin == self.origins(load, first.src)[0]:
            yield event


def walk_unmet(self, load, calls):
    """Joins of first rides whose walk isn't met are tested too."""
    boards, self.boards = self.boards, lambda departure, walk: True
    firsts, rides = list(self.firsts_in_order(load, calls)), self.rides_in_order(calls)
    self.boards = boards
    for origin, first in firsts:
        met = self.boards(first.departure, load.settings.origin_walks[origin])
        yield from self.directs(load, origin, first) if met else []
        if self.lists_joins(load):
            yield from self.pairings(load, origin, first, [(ride, self.targets(load, ride.dst) if met else []) for ride in rides], {})


def any_first(self, load, calls):
    """Joins of every ride as the first, at an origin or not; its journeys are those of origins."""
    lasts = [(ride, self.targets(load, ride.dst)) for ride in self.rides_in_order(calls)]
    for origin, first in every_first(self, load, calls):
        yield from self.directs(load, origin, first) if origin is not None else []
        if self.lists_joins(load):
            yield from self.pairings(load, origin, first, lasts if origin is not None else [(last, []) for last, _ in lasts], {})


def every_first(self, load, calls):
    for i, b in enumerate(calls):
        met = [o for o in self.origins(load, b.stop) if self.boards(b.departure, load.settings.origin_walks[o])]
        for origin in met or [None]:
            yield from ((origin, self.ride(b, a)) for a in self.alightings(calls, i) if b.board)


def barred_too(self, calls):
    """Rides of calls that can't be boarded count."""
    return [self.ride(b, a) for i, b in enumerate(calls) for a in self.alightings(calls, i)]


def barred_joins(self, load, calls):
    """Joins with rides that can't be boarded are tested too."""
    lasts, rides = [(ride, self.targets(load, ride.dst)) for ride in barred_too(self, calls)], self.rides_in_order(calls)
    lasts = [(ride, targets if ride in rides else []) for ride, targets in lasts]
    for origin, first in self.firsts_in_order(load, calls):
        yield from self.directs(load, origin, first)
        if self.lists_joins(load):
            yield from self.pairings(load, origin, first, lasts, {})


misread("once-whatever-the-origins", pairings=lowest_origin)
misread("walk-unmet-tested", events=walk_unmet)
misread("any-ride-is-a-first", events=any_first)
misread("barred-rides-tested", events=barred_joins)

# --- where it stops ---
misread("one-join-late", past=lambda self, tested, limit: tested > limit)
misread("one-join-early", past=lambda self, tested, limit: tested + 1 >= limit)
misread("limit-0-tests-one", past=lambda self, tested, limit: tested >= max(1, limit))
misread("limit-0-is-none", past=lambda self, tested, limit: limit != 0 and tested >= limit)
misread("limit-of-32-bits", past=lambda self, tested, limit: tested >= limit % 2**32)
misread("limit-is-signed", past=lambda self, tested, limit: tested >= (limit + 2**63) % 2**64 - 2**63)
misread("limit-of-16-bits", past=lambda self, tested, limit: tested >= limit % 2**16)


def joins_first(self, load, calls):
    """Direct journeys after the joins of their ride."""
    lasts = [(ride, self.targets(load, ride.dst)) for ride in self.rides_in_order(calls)]
    for origin, first in self.firsts_in_order(load, calls):
        if self.lists_joins(load):
            yield from self.pairings(load, origin, first, lasts, {})
        yield from self.directs(load, origin, first)


def directs_first(self, load, calls):
    """All direct journeys before all joins."""
    events = list(Reading.events(self, load, calls))
    yield from (e for e in events if e is not JOIN and e.rides == 1)
    yield from (e for e in events if e is JOIN or e.rides > 1)


def join_last(self, load, origin, first, lasts, known):
    """A join is tested once its journeys are offered."""
    for last, targets in lasts:
        if targets and self.do_join(load, first, last, known):
            yield from (self.journey(load, origin, target, [first, last]) for target in targets)
        yield JOIN


misread("direct-journeys-after-joins", events=joins_first)
misread("direct-journeys-before-all", events=directs_first)
misread("journeys-before-their-join", pairings=join_last)


def until(goes_on):
    """A search that takes, of the events behind its stop, those that go on."""
    def within(self, load, limit):
        events, tested = list(self.events(load, self.prepared(load))), 0
        for event in events:
            if event is JOIN and tested >= limit:
                self.stopped_at(load, limit)
            elif event is JOIN:
                tested += not load.stopped
            elif not load.stopped or goes_on(event):
                self.candidate(load, event)
        self.settled(load)
        return tested
    return within


def stops_full(journeys):
    """A search that stops once as many joins are tested as the limit has: with the journeys of the last join, or before them."""
    def within(self, load, limit):
        tested, late = 0, False
        events = list(self.events(load, self.prepared(load)))
        for event in events:
            late = late or tested == limit and (event is JOIN or not journeys or event.rides == 1)
            if event is not JOIN and not late:
                self.candidate(load, event)
            tested += event is JOIN and not late
        if events.count(JOIN) > tested:
            self.stopped_at(load, limit)
        self.settled(load)
        return tested
    return within


misread("direct-journeys-go-on", within=until(lambda journey: journey.rides == 1))
misread("all-journeys-go-on", within=until(lambda journey: True))
misread("stops-before-the-direct-journeys", within=stops_full(True))
misread("stops-before-its-journeys", within=stops_full(False))


# --- finished and stopped ---
def full_is_stopped(self, load, limit):
    tested = Reading.within(self, load, limit)
    if tested == limit:
        self.stopped_at(load, limit)
    return tested


def zero_is_stopped(self, load, limit):
    tested = Reading.within(self, load, limit)
    if limit == 0:
        self.stopped_at(load, limit)
    return tested


misread("stopped-is-finished", stopped_at=lambda self, load, limit: None)
misread("full-is-stopped", within=full_is_stopped)
misread("limit-0-is-stopped", within=zero_is_stopped)


def counted(count):
    def within(self, load, limit):
        tested = Reading.within(self, load, limit)
        events = list(self.events(load, sorted(load.table, key=self.call_order)))
        return count(events.count(JOIN), len(events), tested, limit)
    return within


misread("the-limit-counted", within=counted(lambda joins, events, tested, limit: limit))
misread("all-joins-counted", within=counted(lambda joins, events, tested, limit: joins))
misread("journeys-counted", within=counted(lambda joins, events, tested, limit: events - joins))
misread("the-stop-counted", within=counted(lambda joins, events, tested, limit: min(joins, tested + 1)))
misread("the-rest-counted", within=counted(lambda joins, events, tested, limit: joins - tested))


def stop_marks(self, load, limit):
    Reading.stopped_at(self, load, limit)
    load.limits = 1


def stop_cuts(self, load, limit):
    """The horizon of a stopped load is that of its latest journey."""
    Reading.stopped_at(self, load, limit)
    load.horizon = max((j.arrival for j in load.kept), default=load.horizon)


def unsorted(self, load):
    load.searched = True
    if not load.stopped:
        Reading.settled(self, load)


misread("a-stop-sets-the-mark", stopped_at=stop_marks)
misread("a-stop-cuts-the-horizon", stopped_at=stop_cuts)
misread("stopped-list-as-offered", settled=unsorted)
