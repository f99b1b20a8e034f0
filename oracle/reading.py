"""Document 01 and requests 02, 05, 06, 07, 09 and 10, read slowly: a method for each sentence, so that wrong.py can misread one at a time.
Request 03 is in weeks.py, 11 in withdrawals.py, 12 in limits.py, 13 in writing.py.

Written from the words of 01, its constants for the place test from `same_place_keys`, which 01 names as the definition.
"""
from collections import namedtuple
from fields import Fields, first_cause
from limits import Limits
from places import Places
from weeks import Weeks
from withdrawals import Withdrawals
from writing import Writing

Call = namedtuple("Call", "trip day sequence stop arrival departure board alight board_request alight_request")
Ride = namedtuple("Ride", "trip day src dst departure arrival board_request alight_request")
Journey = namedtuple("Journey", "leave arrival rides walk origin target legs")


class Load:
    def __init__(self, settings):
        self.settings, self.stops, self.rules, self.searched = settings, [], [], False
        self.handed, self.table, self.answers = [], [], ""   # calls answered taken, and as the window leaves them
        self.horizon, self.limits, self.kept, self.places = 21600, 0, [], None
        self.dates, self.services, self.exceptions, self.answered = None, [], [], False   # request 03; whether a call was answered
        self.before = None   # request 11: of a searched load, the load that was searched
        self.stopped, self.limit = False, None   # request 12: a stopped load holds its limit


class Reading(Places, Weeks, Withdrawals, Limits, Writing):
    ENDS, TRANSFERS, TIME, ID, NAME, STOPS, RULES, CALLS, LIST, LEAST = 4, 2, 2**40, 32, 64, 128, 128, 512, 64, 3600
    CHANGE = 15300   # seconds, request 05

    Fields = Fields

    def refuse(self, step, causes):
        """The first cause that holds, in 01's order for the step."""
        first_cause(causes)

    # --- opening, stops, rules ---
    def long_change(self, s):
        return s.transfer_seconds > self.CHANGE

    def opening_causes(self, s):
        return [
            (max(len(s.origin_walks), len(s.target_walks)) > self.ENDS or s.max_transfers > self.TRANSFERS, 1),
            (self.long_change(s), 1),
            (any(abs(t) > self.TIME for t in (s.now, *s.epochs)), 2)]

    def opened(self, s):
        return Load(s)

    def open(self, s):
        self.refuse("open", self.opening_causes(s))
        return self.opened(s)

    def needed(self, s):
        return s.location_type == 0 and s.parent is None and self.usable(s.position)

    def known_parent(self, load, parent):
        return any(t.id == parent and t.location_type == 1 for t in load.stops)

    def long(self, name):
        return len(name) > self.NAME

    def bad_name(self, s):
        if s.name is not None and self.long(s.name):
            return True
        return self.needed(s) and (not self.words(self.shown(s)) or any(map(self.bad_point, self.points(self.shown(s)))))

    def stop(self, load, s):
        self.refuse("stop", [
            (load.searched, 15),
            (not 1 <= len(s.id) <= self.ID, 3),
            (any(t.id == s.id for t in load.stops), 5),
            (s.location_type > 1 or (s.location_type == 1 and s.parent is not None), 6),
            (s.parent is not None and not self.known_parent(load, s.parent), 7),
            (self.bad_name(s), 8),
            (len(load.stops) >= self.STOPS, 4)])
        load.stops.append(s)

    def bad_rule(self, r):
        return r.transfer_type > 3 or (r.transfer_type == 2 and r.seconds is None)

    def rule(self, load, r):
        n = len(load.stops)
        self.refuse("rule", [
            (load.searched, 15),
            (r.src >= n or r.dst >= n, 9),
            (self.bad_rule(r), 12),
            (any((q.src, q.dst) == (r.src, r.dst) for q in load.rules), 13),
            (len(load.rules) >= self.RULES, 11)])
        load.rules.append(r)

    # --- windows and the full table ---
    def offset(self, load, day, seconds):
        return load.settings.epochs[day] + seconds - load.settings.now

    def outside(self, arrival, departure, horizon):
        return departure < 0 or arrival > horizon

    def inside(self, time, horizon):
        return 0 <= time <= horizon

    def hold(self, time, horizon):
        return min(max(time, 0), horizon)

    def request(self, able, kind):
        return able and kind in (2, 3)

    def window(self, load, c, horizon):
        arrival, departure = self.offset(load, c.day, c.arrival), self.offset(load, c.day, c.departure)
        if self.outside(arrival, departure, horizon):
            return None
        board = self.inside(departure, horizon) and c.pickup != 1
        alight = self.inside(arrival, horizon) and c.drop_off != 1
        return Call(c.trip, c.day, c.sequence, c.stop, self.hold(arrival, horizon), self.hold(departure, horizon),
                    board, alight, self.request(board, c.pickup), self.request(alight, c.drop_off))

    def mark(self, load):
        return 1

    def less(self, horizon):
        return horizon - horizon // 4

    def cut(self, load):
        """The table as the window at the smaller horizon leaves it."""
        horizon = self.less(load.horizon)
        first_cause([(horizon < self.LEAST, 11)])
        load.horizon, load.limits = horizon, self.mark(load)
        seen = [(c, self.window(load, c, horizon)) for c in load.handed]
        load.handed = [c for c, w in seen if w]
        load.table = [w for c, w in seen if w]

    def bad_call(self, load, c):
        return c.stop >= len(load.stops) or c.trip == 65535 or c.day > 2 or c.pickup > 3 or c.drop_off > 3

    def answer(self, load, c, service):
        """A call on an unsearched load."""
        self.refuse("call", [(self.bad_call(load, c), 9), (self.unknown_service(load, service), 21)])
        taken = self.taken_of(load, c, service)
        load.answers += "t" if taken else "o"
        load.answered = load.answered or self.is_answer(taken)

    def taken(self, load, c):
        if c.arrival is None or c.departure is None:
            return False
        first_cause([(c.arrival > c.departure, 10)])
        while True:
            w = self.window(load, c, load.horizon)
            if w is None:
                return False
            if len(load.table) < self.CALLS:
                load.table.append(w)
                load.handed.append(c)
                return True
            self.cut(load)

    # --- transfers ---
    def sides(self, load, stop):
        """The stop's number and, where it has a parent, the parent's."""
        parent = load.stops[stop].parent
        return [stop] if parent is None else [stop, next(i for i, s in enumerate(load.stops) if s.id == parent)]

    def exact(self, r, a, b):
        """Request 06: full exactness first, then the from side, then the to side."""
        return 2 * (r.src == a) + (r.dst == b)

    def chosen(self, rules, a, b):
        """No two rules that apply are equally exact, as a pair may be taken once."""
        most = max(self.exact(r, a, b) for r in rules)
        [r] = [r for r in rules if self.exact(r, a, b) == most]
        return r

    def change(self, load):
        return load.settings.transfer_seconds

    def seconds(self, load, r):
        """Request 02: seconds count for type 2 alone."""
        return max(r.seconds, self.change(load)) if r.transfer_type == 2 else self.change(load)

    def linked(self, load, a, b):
        parents = load.stops[a].parent, load.stops[b].parent
        return (a == b or (parents[0] is not None and parents[0] == parents[1])
                or (load.places[a] is not None and load.places[a] == load.places[b]))

    def transfer(self, load, a, b):
        here, there = self.sides(load, a), self.sides(load, b)
        rules = [r for r in load.rules if r.src in here and r.dst in there]
        if rules:
            r = self.chosen(rules, a, b)
            return None if r.transfer_type == 3 else self.seconds(load, r)
        return self.change(load) if self.linked(load, a, b) else None

    def other(self, first, last):
        return (first.trip, first.day) != (last.trip, last.day)

    def meets(self, arrival, seconds, departure):
        return arrival + seconds <= departure

    # --- the search ---
    def call_order(self, call):
        return call.trip, call.day, call.sequence

    def clash(self, a, b):
        return (a.trip, a.day) == (b.trip, b.day) and (a.sequence == b.sequence or a.departure > b.arrival)

    def bits(self, byte, count):
        return [i for i in range(count) if byte >> i & 1]

    def origins(self, load, stop):
        return self.bits(load.stops[stop].members & 15, len(load.settings.origin_walks))

    def targets(self, load, stop):
        return self.bits(load.stops[stop].members >> 4, len(load.settings.target_walks))

    trip_days = None, {}   # calls that are searched, and where those of each trip and day stand among them

    def run_of(self, calls, call):
        """The places of the calls of its trip and day, found once for a list of calls."""
        if self.trip_days[0] is not calls:
            places = {}
            for i, c in enumerate(calls):
                places.setdefault((c.trip, c.day), []).append(i)
            self.trip_days = calls, places
        return self.trip_days[1][call.trip, call.day]

    def alightings(self, calls, i):
        return [calls[j] for j in self.run_of(calls, calls[i]) if j > i and calls[j].alight]

    def ride(self, b, a):
        return Ride(b.trip, b.day, b.stop, a.stop, b.departure, a.arrival, b.board_request, a.alight_request)

    def boards(self, departure, walk):
        return departure >= walk * 60

    def journey(self, load, origin, target, legs):
        walk = load.settings.origin_walks[origin]
        due = legs[-1].arrival + load.settings.target_walks[target] * 60
        return Journey(legs[0].departure - walk * 60, due, len(legs), walk, origin, target, legs)

    def rides(self, calls):
        """The rides of the table in call order: from a boardable call to a later alightable one of its trip and day."""
        return [self.ride(b, a) for i, b in enumerate(calls) if b.board for a in self.alightings(calls, i)]

    def middles(self, calls):
        return self.rides(calls)

    def lasts(self, load, rides):
        """Those that end at a target, with its targets."""
        return [(r, self.targets(load, r.dst)) for r in rides if self.targets(load, r.dst)]

    def firsts(self, load, calls):
        """First rides by boarding call, origin and alighting call."""
        for i, b in enumerate(calls):
            for origin in self.origins(load, b.stop) if b.board else []:
                if self.boards(b.departure, load.settings.origin_walks[origin]):
                    for a in self.alightings(calls, i):
                        yield origin, self.ride(b, a)

    def offers(self, load, calls):
        firsts, lasts, known = list(self.firsts(load, calls)), self.lasts(load, self.rides(calls)), {}
        for origin, first in firsts:
            yield from self.from_first(load, origin, first, lasts, known)
        yield from self.three_rides(load, firsts, self.middles(calls), lasts, known)

    def most_changes(self, load):
        return load.settings.max_transfers

    def joins(self, load, a, b, known):
        pair = a.dst, b.src
        if pair not in known:
            known[pair] = self.transfer(load, *pair)
        return self.other(a, b) and known[pair] is not None and self.meets(a.arrival, known[pair], b.departure)

    def from_first(self, load, origin, first, lasts, known):
        for target in self.targets(load, first.dst):
            yield self.journey(load, origin, target, [first])
        if self.most_changes(load) >= 1:
            for last, targets in lasts:
                if self.joins(load, first, last, known):
                    for target in targets:
                        yield self.journey(load, origin, target, [first, last])

    # request 10: all three-ride journeys after all the others, by first, middle and last ride in call order
    def three_rides(self, load, firsts, middles, lasts, known):
        if self.most_changes(load) == 2:
            onward = {}   # for each middle ride its last rides, found once
            for origin, first in firsts:
                for i, middle in enumerate(middles):
                    if self.joins_middle(load, first, middle, known):
                        if i not in onward:
                            onward[i] = [(r, targets) for r, targets in lasts if self.joins_last(load, middle, r, known)]
                        for last, targets in onward[i]:
                            for target in targets:
                                yield self.journey(load, origin, target, [first, middle, last])

    def joins_middle(self, load, first, middle, known):
        return self.joins(load, first, middle, known)

    def joins_last(self, load, middle, last, known):
        return self.joins(load, middle, last, known)

    def covers(self, a, b):
        return a.leave >= b.leave and (a.arrival, a.rides, a.walk) <= (b.arrival, b.rides, b.walk)

    def due(self, j):
        return j.arrival

    def late(self, load, j):
        return self.due(j) > load.horizon

    def candidate(self, load, j):
        if self.late(load, j) or any(self.covers(k, j) for k in load.kept):
            return
        kept = [k for k in load.kept if not self.covers(j, k)] + [j]
        load.kept = self.listed(load, kept)

    def end(self, kept):
        return max(self.due(k) for k in kept) - 1

    def listed(self, load, kept):
        if len(kept) <= self.LIST:
            return kept
        horizon = self.end(kept)
        first_cause([(horizon < self.LEAST, 11)])
        load.horizon, load.limits = horizon, self.mark(load)
        return [k for k in kept if self.due(k) <= horizon]

    # request 09: the list by arrival, rides and walk, least first, then latest leave
    def list_order(self, j):
        return j.arrival, j.rides, j.walk, -j.leave

    def prepared(self, load):
        """The calls in order, of a load that is to be searched."""
        load.before = self.copied(load)
        calls = sorted(load.table, key=self.call_order)
        first_cause([(any(self.clash(a, b) for a, b in zip(calls, calls[1:])), 14)])
        load.places = self.group(load.stops)
        return calls

    def settled(self, load):
        load.kept.sort(key=self.list_order)
        load.searched = True

    def search(self, load):
        first_cause([(load.searched, 15)])
        for j in self.offers(load, self.prepared(load)):
            self.candidate(load, j)
        self.settled(load)

    # --- best ---
    def rank(self, j):
        return j.arrival, j.rides, j.walk, -j.leave

    def best(self, load, second):
        if not load.searched or second < 0 or second > load.horizon:
            return None
        return min((k for k in load.kept if k.leave >= second), key=self.rank, default=None)

    def next_after(self, load, second, journey):
        return self.best(load, max(second, journey.leave + 1))
