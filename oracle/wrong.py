"""Readings of 01 that are wrong on purpose, each in one place. oracle/tell shows the files that tell them from the right one."""
import math
from fractions import Fraction
from fields import first_cause
from reading import Reading

READINGS = {}


def misread(name, **parts):
    READINGS[name] = type(name, (Reading,), parts)


def reordered(step, number, before):
    """Cause `number` of a step tested just before cause `before`."""
    def refuse(self, at, causes):
        if at == step:
            moved = [c for c in causes if c[1] == number]
            rest = [c for c in causes if c[1] != number]
            place = next(i for i, c in enumerate(rest) if c[1] == before)
            causes = rest[:place] + moved + rest[place:]
        first_cause(causes)
    return refuse


# --- transfers ---
def sides_exact(r, a, b):
    return (r.src == a) + (r.dst == b)


misread("first-of-equal-rules", chosen=lambda self, rules, a, b: max(rules, key=lambda r: sides_exact(r, a, b)))
misread("last-of-equal-rules", chosen=lambda self, rules, a, b: max(reversed(rules), key=lambda r: sides_exact(r, a, b)))
misread("last-rule-whatever-exact", chosen=lambda self, rules, a, b: rules[-1])
misread("to-side-first", exact=lambda self, r, a, b: (r.src == a) + 2 * (r.dst == b))
misread("half-exact-before-exact", exact=lambda self, r, a, b: [0, 2, 3, 1][2 * (r.src == a) + (r.dst == b)])
misread("from-side-alone", chosen=lambda self, rules, a, b: max(rules, key=lambda r: r.src == a))
misread("rules-at-stops-only", sides=lambda self, load, stop: [stop])
misread("rules-at-stations-only", sides=lambda self, load, stop: Reading.sides(self, load, stop)[-1:])
misread("rule-seconds-alone", seconds=lambda self, load, r: r.seconds or 0)
misread("type-2-seconds-alone", seconds=lambda self, load, r: r.seconds if r.transfer_type == 2 else self.change(load))
misread("minutes-alone", seconds=lambda self, load, r: self.change(load))


def seconds_of(*types):
    """Seconds that count for other types than type 2 alone."""
    return lambda self, load, r: max(r.seconds or 0, self.change(load)) if r.transfer_type in types else self.change(load)


misread("seconds-of-every-type", seconds=seconds_of(0, 1, 2))
misread("seconds-of-type-0-too", seconds=seconds_of(0, 2))
misread("seconds-of-type-1-too", seconds=seconds_of(1, 2))
misread("rule-both-ways", transfer=lambda self, load, a, b: either_way(self, load, a, b))
misread("no-place-for-changes", linked=lambda self, load, a, b: a == b or load.stops[a].parent == load.stops[b].parent != None)
misread("same-stop-always", transfer=lambda self, load, a, b: self.change(load) if a == b else Reading.transfer(self, load, a, b))
misread("no-change-at-one-stop", linked=lambda self, load, a, b: a != b and Reading.linked(self, load, a, b))
misread("platform-and-its-station", linked=lambda self, load, a, b: Reading.linked(self, load, a, b) or parent_of(load, a, b))
misread("join-needs-time-left", meets=lambda self, arrival, seconds, departure: arrival + seconds < departure)
misread("same-trip-other-day-barred", other=lambda self, first, last: first.trip != last.trip)
misread("day-must-differ-too", other=lambda self, first, last: first.trip != last.trip and first.day != last.day)
misread("any-trip-joins", other=lambda self, first, last: True)


def forbidding_as_none(self, load, a, b):
    rules = load.rules
    load.rules = [r for r in rules if r.transfer_type != 3]
    try:
        return Reading.transfer(self, load, a, b)
    finally:
        load.rules = rules


def either_way(self, load, a, b):
    here = Reading.transfer(self, load, a, b)
    return Reading.transfer(self, load, b, a) if here is None else here


def parent_of(load, a, b):
    return load.stops[a].parent == load.stops[b].id or load.stops[b].parent == load.stops[a].id


misread("forbidding-rule-ignored", transfer=forbidding_as_none)


# --- places ---
def chained(self, stops, keys, places, i):
    for j in self.place_order(stops):
        if places[j] is not None and self.same_place(keys[i], keys[j]):
            return places[j]
    return i


def nearest_last(self, stops, keys, places, i):
    return next((j for j in reversed(self.place_order(stops)) if places[j] == j and self.same_place(keys[i], keys[j])), i)


def with_real_cosine(self, a, b):
    dx = self.turn(abs(a.lon - b.lon)) * 0.111195 * math.cos(math.radians((a.lat + b.lat) / 2e6))
    return math.hypot(dx, (a.lat - b.lat) * 0.111195) <= 125


def without_rounding(self, a, b):
    """The same polynomial in exact numbers, with the f64 nearest to pi."""
    x2 = (Fraction(a.lat + b.lat) * Fraction(math.pi) / 360000000) ** 2
    cos = 1 + x2 * (Fraction(-1, 2) + x2 * (Fraction(1, 24) + x2 * (Fraction(-1, 720) + x2 * (Fraction(1, 40320) - x2 / 3628800))))
    metre = Fraction(111195, 1000000)
    return (self.turn(abs(a.lon - b.lon)) * metre * cos) ** 2 + ((a.lat - b.lat) * metre) ** 2 <= 15625


def flat(self, a, b):
    return math.hypot(self.turn(abs(a.lon - b.lon)) * 0.111195, (a.lat - b.lat) * 0.111195) <= 125


def key_with(tag, bytes_of):
    """The key of one tag with another text hashed."""
    def place_key(self, stop):
        key = Reading.place_key(self, stop)
        return key._replace(hash=self.fold(bytes_of(self, stop))) if key.tag == tag else key
    return place_key


misread("chains-of-places", representative=chained)
misread("largest-id-representative", representative=nearest_last)
misread("places-in-stop-order", place_order=lambda self, stops: range(len(stops)))
misread("stations-have-places", keyed=lambda self, stop: True)
misread("no-tag-in-key", same_key=lambda self, a, b: a.hash == b.hash)
misread("no-hash-in-key", same_key=lambda self, a, b: a.tag == b.tag)
misread("any-distance", near=lambda self, a, b: True)
misread("exact-position", near=lambda self, a, b: (a.lat, a.lon) == (b.lat, b.lon))
misread("real-cosine", near=with_real_cosine)
misread("real-algebra", near=without_rounding)
misread("no-cosine", near=flat)
misread("no-antimeridian", turn=lambda self, delta: delta)
misread("antimeridian-at-180-too", turn=lambda self, delta: 360000000 - delta if delta >= 180000000 else delta)
misread("microdegrees-rounded", micro=lambda self, degrees: round(degrees * 1000000.0))
misread("microdegrees-floored", micro=lambda self, degrees: math.floor(degrees * 1000000.0))
misread("usable-below-90", usable=lambda self, p: Reading.usable(self, p) and abs(p[0]) < 90)
misread("usable-below-180", usable=lambda self, p: Reading.usable(self, p) and abs(p[1]) < 180)
misread("latitude-to-180", usable=lambda self, p: p is not None and all(math.isfinite(d) and abs(d) <= 180 for d in p))
misread("no-position-same-name", place_key=key_with("I", lambda self, stop: self.folded(self.shown(stop))))
misread("name-not-folded", place_key=key_with("N", lambda self, stop: self.shown(stop)))
misread("missing-name-not-folded", place_key=key_with("N", lambda self, s: s.id if s.name is None else self.folded(s.name)))
misread("parent-folded", place_key=key_with("P", lambda self, stop: self.folded(stop.parent)))
misread("id-folded", place_key=key_with("I", lambda self, stop: self.folded(stop.id)))
misread("empty-name-is-none", shown=lambda self, stop: stop.name or stop.id)
misread("every-name-needed", needed=lambda self, s: True)
misread("name-needed-without-position", needed=lambda self, s: s.location_type == 0 and s.parent is None)

import wrong_names, wrong_search, wrong_file, wrong_calls  # the rest of the readings
