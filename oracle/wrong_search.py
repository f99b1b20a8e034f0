"""Wrong readings of windows, the search, best and the refusals."""
from fields import first_cause
from reading import Reading
from wrong import misread, reordered

# --- windows ---
misread("outside-at-horizon", outside=lambda self, a, d, h: d < 0 or a >= h)
misread("outside-at-zero", outside=lambda self, a, d, h: d <= 0 or a > h)
misread("outside-by-arrival-below-0", outside=lambda self, a, d, h: a < 0 or a > h)
misread("outside-by-departure-after", outside=lambda self, a, d, h: d < 0 or d > h)
misread("held-times-board", inside=lambda self, time, horizon: True)
misread("not-boardable-at-horizon", inside=lambda self, time, horizon: 0 <= time < horizon)
misread("not-boardable-at-0", inside=lambda self, time, horizon: 0 < time <= horizon)
misread("times-not-held", hold=lambda self, time, horizon: time)
misread("request-on-any-call", request=lambda self, able, kind: kind in (2, 3))
misread("request-type-3-alone", request=lambda self, able, kind: able and kind == 3)
misread("request-type-2-alone", request=lambda self, able, kind: able and kind == 2)
misread("one-epoch-for-all-days", offset=lambda self, load, day, s: load.settings.epochs[0] + s - load.settings.now)
misread("start-left-out", offset=lambda self, load, day, s: load.settings.epochs[day] + s)
misread("quotient-rounded-up", less=lambda self, horizon: horizon - -(-horizon // 4))
misread("three-quarters-of-the-first", less=lambda self, horizon: horizon - 5400)
misread("table-of-511", CALLS=511)
misread("table-of-513", CALLS=513)
misread("limits-not-set", mark=lambda self, load: 0)


def unmended(self, load):
    """The table cut without holding departures or barring boarding anew."""
    before = dict((id(c), w) for c, w in zip(load.handed, load.table))
    Reading.cut(self, load)
    load.table = [before[id(c)] for c in load.handed]


def barred_not(self, load):
    before = dict((id(c), w.board) for c, w in zip(load.handed, load.table))
    Reading.cut(self, load)
    load.table = [w._replace(board=before[id(c)]) for c, w in zip(load.handed, load.table)]


def not_dropped(self, load):
    horizon, table, handed = self.less(load.horizon), load.table, load.handed
    Reading.cut(self, load)
    load.table = load.table + [c for c in table if c.arrival > horizon][:1]
    load.handed = load.handed + [c for c, w in zip(handed, table) if w.arrival > horizon][:1]


def cut_first(self, load, c):
    """A call past the 512th cuts before it is looked at."""
    if None not in (c.arrival, c.departure) and c.arrival <= c.departure and len(load.table) >= 512:
        self.cut(load)
    return Reading.taken(self, load, c)


def not_anew(self, load, c):
    full = len(load.table) >= 512
    taken = Reading.taken(self, load, c)
    return taken or full and None not in (c.arrival, c.departure) and self.offset(load, c.day, c.departure) >= 0


def late_before_absent(self, load, c):
    first_cause([((c.arrival or 0) > (c.departure or 0), 10)])
    return Reading.taken(self, load, c)


def late_after_outside(self, load, c):
    if None not in (c.arrival, c.departure) and self.window(load, c, load.horizon) is None:
        return False
    return Reading.taken(self, load, c)


misread("cut-holds-no-departure", cut=unmended)
misread("cut-bars-no-boarding", cut=barred_not)
misread("cut-leaves-a-later-call", cut=not_dropped)
misread("513th-cuts-unseen", taken=cut_first)
misread("513th-not-tried-anew", taken=not_anew)
misread("10-before-absent", taken=late_before_absent)
misread("10-after-outside", taken=late_after_outside)


# --- the search ---
def raw_clash(self, load):
    """Neighbours tested by their times before they are held."""
    first_cause([(load.searched, 15)])
    calls = sorted(load.handed, key=self.call_order)
    first_cause([(any(self.clash(a, b) for a, b in zip(calls, calls[1:])), 14)])
    Reading.search(self, load)


def newest(self, load, j):
    """Of equal journeys the newer stays."""
    figures = lambda k: (k.leave, k.arrival, k.rides, k.walk)
    load.kept = [k for k in load.kept if figures(k) != figures(j)]
    Reading.candidate(self, load, j)


def not_removed(self, load, j):
    if not self.late(load, j) and not any(self.covers(k, j) for k in load.kept):
        load.kept = self.listed(load, load.kept + [j])


def changes_first(self, load, origin, first, lasts, known):
    offers = list(Reading.from_first(self, load, origin, first, lasts, known))
    return sorted(offers, key=lambda j: -j.rides)


def direct_all_first(self, load, calls):
    offers = list(Reading.offers(self, load, calls))
    return sorted(offers, key=lambda j: j.rides)


def origin_outermost(self, load, calls):
    offers = list(Reading.offers(self, load, calls))
    return sorted(offers, key=lambda j: j.origin)


def earlier_alightings(self, calls, i):
    return Reading.alightings(self, calls, i)[:1]


def latest_alone(self, load, kept):
    """At the 65th only one of the latest goes."""
    if len(kept) <= 64:
        return kept
    latest = max(k.arrival for k in kept)
    Reading.listed(self, load, kept)
    return [k for i, k in enumerate(kept) if i != max(n for n, q in enumerate(kept) if q.arrival == latest)]


def offer_dropped(self, load, kept):
    return kept if len(kept) <= 64 else Reading.listed(self, load, kept)[:64] if kept[-1].arrival == 0 else kept[:-1]


def lexical(order):
    return lambda self, a, b: a.leave >= b.leave and order(a) <= order(b)


misread("held-times-ignored", search=raw_clash)
misread("equal-sequence-allowed", clash=lambda self, a, b: (a.trip, a.day) == (b.trip, b.day) and a.departure > b.arrival)
misread("overlap-allowed", clash=lambda self, a, b: (a.trip, a.day, a.sequence) == (b.trip, b.day, b.sequence))
misread("touching-times-clash", clash=lambda self, a, b: (a.trip, a.day) == (b.trip, b.day)
        and (a.sequence == b.sequence or a.departure >= b.arrival))
misread("clash-across-days", clash=lambda self, a, b: a.trip == b.trip and (a.sequence == b.sequence or a.departure > b.arrival))
misread("day-first", call_order=lambda self, c: (c.day, c.trip, c.sequence))
misread("order-by-departure", call_order=lambda self, c: (c.trip, c.day, c.departure, c.sequence))
misread("calls-as-taken", call_order=lambda self, c: 0)
misread("changes-before-direct", from_first=changes_first)
misread("all-direct-first", offers=direct_all_first)
misread("origin-before-call", offers=origin_outermost)
misread("highest-origin-first", origins=lambda self, load, stop: Reading.origins(self, load, stop)[::-1])
misread("highest-target-first", targets=lambda self, load, stop: Reading.targets(self, load, stop)[::-1])
misread("first-origin-alone", origins=lambda self, load, stop: Reading.origins(self, load, stop)[:1])
misread("next-alighting-alone", alightings=earlier_alightings)
misread("boards-after-the-walk", boards=lambda self, departure, walk: departure > walk * 60)
misread("boards-at-any-time", boards=lambda self, departure, walk: True)
misread("egress-left-out", due=lambda self, j: j.legs[-1].arrival)
misread("late-at-horizon", late=lambda self, load, j: j.arrival >= load.horizon)
misread("horizon-not-tested", late=lambda self, load, j: False)
misread("list-of-63", LIST=63)
misread("list-of-65", LIST=65)
misread("horizon-not-less-1", end=lambda self, kept: max(k.arrival for k in kept))
misread("horizon-of-the-offer", end=lambda self, kept: kept[-1].arrival - 1)
misread("least-horizon-3601", LEAST=3601)
misread("least-horizon-3599", LEAST=3599)
misread("one-of-the-latest-goes", listed=latest_alone)
misread("65th-turned-away", listed=offer_dropped)
misread("newer-of-equals", candidate=newest)
misread("beaten-stay", candidate=not_removed)
misread("leaves-later-to-beat", covers=lambda self, a, b: a.leave > b.leave and Reading.covers(self, a, b))
misread("leave-not-compared", covers=lambda self, a, b: (a.arrival, a.rides, a.walk) <= (b.arrival, b.rides, b.walk))
misread("figures-one-by-one", covers=lambda self, a, b: a.leave >= b.leave and a.arrival <= b.arrival
        and a.rides <= b.rides and a.walk <= b.walk)
misread("rides-first", covers=lexical(lambda j: (j.rides, j.arrival, j.walk)))
misread("walk-before-rides", covers=lexical(lambda j: (j.arrival, j.walk, j.rides)))
misread("walk-not-compared", covers=lexical(lambda j: (j.arrival, j.rides)))
misread("rides-not-compared", covers=lexical(lambda j: (j.arrival, j.walk)))
misread("egress-in-the-walk", journey=lambda self, load, o, t, legs: (
    lambda j: j._replace(walk=j.walk + load.settings.target_walks[t]))(Reading.journey(self, load, o, t, legs)))

misread("list-in-offer-order", list_order=lambda self, j: 0)
misread("list-rides-before-arrival", list_order=lambda self, j: (j.rides, j.arrival, j.walk, -j.leave))
misread("list-walk-before-rides", list_order=lambda self, j: (j.arrival, j.walk, j.rides, -j.leave))
misread("list-latest-arrival-first", list_order=lambda self, j: (-j.arrival, j.rides, j.walk, -j.leave))


# --- journeys of three rides (request 10) ---
# Which of the three rides may be of one trip and day is no reading here, as no file tells it: where two of them are, the trip's own ride
# from the first boarding to the last alighting makes a journey of fewer rides, which is offered before and covers this one.
def any_boarding(self, calls):
    return [self.ride(b, a) for i, b in enumerate(calls) for a in self.alightings(calls, i)]


def any_alighting(self, calls):
    return self.rides([c._replace(alight=True) for c in calls])


def three_first(self, load, calls):
    return sorted(Reading.offers(self, load, calls), key=lambda j: j.rides != 3)


def three_in_turn(self, load, calls):
    """The journeys of three rides of each first ride just after its others."""
    lasts, known = self.lasts(load, self.rides(calls)), {}
    for origin, first in self.firsts(load, calls):
        yield from self.from_first(load, origin, first, lasts, known)
        yield from self.three_rides(load, [(origin, first)], self.middles(calls), lasts, known)


def by_ride(*places):
    """Journeys of three rides by their first, middle and last ride in another order of these."""
    def three_rides(self, load, firsts, middles, lasts, known):
        offers = list(Reading.three_rides(self, load, firsts, middles, lasts, known))
        order = {}
        for place in places:
            for ride in [first for _, first in firsts] if place == 0 else middles if place == 1 else [last for last, _ in lasts]:
                order.setdefault((place, ride), len(order))
        return sorted(offers, key=lambda j: [order[place, j.legs[place]] for place in places])
    return three_rides


def two_counted(self, load, origin, target, legs):
    return Reading.journey(self, load, origin, target, legs)._replace(rides=min(len(legs), 2))


def untimed(self, load, a, b, known):
    return Reading.joins(self, load, a, b._replace(departure=65535), known)


def elsewhere(self, load, a, b, known):
    return self.other(a, b) and self.meets(a.arrival, self.change(load), b.departure)


misread("first-join-missed", joins_middle=lambda self, load, first, middle, known: True)
misread("second-join-missed", joins_last=lambda self, load, middle, last, known: True)
misread("first-join-untimed", joins_middle=untimed)
misread("second-join-untimed", joins_last=untimed)
misread("first-join-anywhere", joins_middle=elsewhere)
misread("second-join-anywhere", joins_last=elsewhere)
misread("middle-boards-where-barred", middles=any_boarding)
misread("middle-alights-where-barred", middles=any_alighting)
misread("middle-next-alighting-alone", middles=lambda self, calls: [
    self.ride(b, a) for i, b in enumerate(calls) if b.board for a in self.alightings(calls, i)[:1]])
misread("three-rides-first", offers=three_first)
misread("three-rides-in-turn", offers=three_in_turn)
misread("by-middle-ride-first", three_rides=by_ride(1, 0, 2))
misread("by-last-ride-first", three_rides=by_ride(2, 0, 1))
misread("last-before-middle", three_rides=by_ride(0, 2, 1))
misread("three-rides-counted-2", journey=two_counted)
misread("three-rides-alone", from_first=lambda self, load, *rest: (
    [] if load.settings.max_transfers == 2 else Reading.from_first(self, load, *rest)))
misread("two-rides-left-out", from_first=lambda self, load, *rest: (
    j for j in Reading.from_first(self, load, *rest) if load.settings.max_transfers < 2 or j.rides == 1))
misread("three-rides-left-out", three_rides=lambda self, *rest: [])
misread("three-rides-with-1", most_changes=lambda self, load: 2 * load.settings.max_transfers)

# --- best ---
misread("best-before-0", best=lambda self, load, second: Reading.best(self, load, max(second, 0)))
misread("best-after-horizon", best=lambda self, load, second: Reading.best(self, load, min(second, load.horizon)))
misread("best-leaves-after", best=lambda self, load, second: Reading.best(self, load, second if second < 0 else second + 1))
misread("best-by-leave", rank=lambda self, j: (-j.leave, j.arrival, j.rides, j.walk))
misread("best-earliest-leave", rank=lambda self, j: (j.arrival, j.rides, j.walk, j.leave))
misread("best-of-arrival-alone", rank=lambda self, j: j.arrival)
misread("best-walk-before-rides", rank=lambda self, j: (j.arrival, j.walk, j.rides))
misread("next-at-the-leave", next_after=lambda self, load, second, j: self.best(load, max(second, j.leave)))
misread("next-before-the-second", next_after=lambda self, load, second, j: self.best(load, j.leave + 1))

# --- refusals ---
misread("five-origins", ENDS=5)
misread("three-transfers", TRANSFERS=3)
misread("one-transfer", TRANSFERS=1)
misread("start-below-2-to-40", TIME=2**40 - 1)
misread("start-above-2-to-40", TIME=2**40 + 1)
misread("id-of-31", ID=31)
misread("id-of-33", ID=33)
misread("name-of-63", NAME=63)
misread("name-of-65", NAME=65)
misread("stops-127", STOPS=127)
misread("stops-129", STOPS=129)
misread("rules-127", RULES=127)
misread("rules-129", RULES=129)
misread("parent-any-stop", known_parent=lambda self, load, parent: any(t.id == parent for t in load.stops))
misread("parent-unknown-allowed", known_parent=lambda self, load, parent: True)
misread("trip-65535", bad_call=lambda self, load, c: Reading.bad_call(self, load, c._replace(trip=0)))
misread("type-2-without-seconds", bad_rule=lambda self, r: r.transfer_type > 3)
misread("type-4", bad_rule=lambda self, r: r.transfer_type > 4 or (r.transfer_type == 2 and r.seconds is None))
for step, number, before in [
        ("open", 2, 1), ("stop", 3, 15), ("stop", 5, 3), ("stop", 6, 5), ("stop", 7, 6), ("stop", 8, 7), ("stop", 8, 6),
        ("stop", 4, 8), ("stop", 4, 5), ("rule", 9, 15), ("rule", 12, 9), ("rule", 13, 12), ("rule", 11, 13),
        ("rule", 11, 12)]:
    misread(f"{step}-{number}-before-{before}", refuse=reordered(step, number, before))
