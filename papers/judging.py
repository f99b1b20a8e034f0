"""A load file judged record by record: the first refusal with its record, and what a writer of papers should know besides.

The number is the slow reader's (slow.py); the words are made here from the record that it stopped at.
"""
import slow
from refusing import clock, explained, quoted

MANY = 20   # warnings of calls left out are told up to here, then counted


class Judge(slow.reading.Reading):
    """The reader, which remembers the record it is at, and with each stop, call and rule the record that it came in."""
    def __init__(self):
        self.at, self.kind, self.record, self.load, self.within = 0, "", None, None, False
        self.stops_at, self.rules_at, self.calls, self.cuts, self.left = [], [], [], [], []

    def seen(self, kind, record, load=None):
        self.at, self.kind, self.record = self.at + 1, kind, record
        self.load = load or self.load

    def open(self, settings):
        self.seen("settings", settings)
        self.load = super().open(settings)
        return self.load

    def stop(self, load, stop):
        self.seen("stop", stop, load)
        super().stop(load, stop)
        self.stops_at.append(self.at)

    def rule(self, load, rule):
        self.seen("rule", rule, load)
        super().rule(load, rule)
        self.rules_at.append(self.at)

    def call(self, load, call, *rest):
        self.seen("call", call, load)
        horizon = load.horizon
        self.calls.append((self.at, call))
        self.within = True   # a search that a call makes is no record
        super().call(load, call, *rest)
        self.within = False
        if load.horizon < horizon:
            self.cuts.append((self.at, "call", load.horizon))
        if load.answers.endswith("o"):
            self.left.append((self.at, call, load.horizon))

    def search(self, load, *rest):
        if self.within:
            return super().search(load, *rest)
        self.seen("search", None, load)
        horizon = load.horizon
        super().search(load, *rest)
        if load.horizon < horizon:
            self.cuts.append((self.at, "search", load.horizon))

    # --- what isn't refused, and yet may be a slip ---
    def warnings(self):
        """Each as the number of a record, 0 for the whole, and words."""
        left = list(self.calls_left())
        yield from left[:MANY]
        if left[MANY:]:
            yield 0, f"{len(left[MANY:])} more calls are left out"
        yield from self.ends()
        yield from self.far_names()
        for at, kind, horizon in self.cuts:
            why = "over 512 calls" if kind == "call" else "over 64 journeys of which none beats another"
            yield at, f"{why}: the horizon is cut to {horizon} seconds, {self.hour(horizon)}; nothing is said of what is due later"
        if not self.load.searched:
            yield 0, "no search: no journey is listed"
        if not self.load.table:
            yield 0, "no call is within the window"
        elif self.load.searched and not self.load.kept:
            yield 0, "no connection"

    def hour(self, second):
        """A second from the start by the clock of day 0."""
        return clock(self.load.settings.now + second - self.load.settings.epochs[0])

    def calls_left(self):
        for at, call, horizon in self.left:
            what = f"call trip {call.trip} sequence {call.sequence}: left out, "
            absent = [name for name in ("arrival", "departure") if getattr(call, name) is None]
            if absent:
                yield at, what + f"no {' and no '.join(absent)}"
            elif self.offset(self.load, call.day, call.departure) < 0:
                yield at, what + f"departs {clock(call.departure)} of day {call.day}, before the start"
            else:
                yield at, what + f"arrives {clock(call.arrival)} of day {call.day}, after the horizon {horizon}, {self.hour(horizon)}"
        held = {id(call) for call in self.load.handed}
        gone = {id(call) for _, call, _ in self.left}
        for at, call in self.calls:
            if id(call) not in held | gone:
                yield at, f"call trip {call.trip} sequence {call.sequence}: left out when the horizon was cut"

    def ends(self):
        """Origins and targets that have no stop, stops that are both, and members of ends that aren't there."""
        counts = len(self.load.settings.origin_walks), len(self.load.settings.target_walks)
        stops = range(len(self.load.stops))
        for word, count, of in (("origin", counts[0], self.origins), ("target", counts[1], self.targets)):
            for i in range(count):
                if not any(i in of(self.load, stop) for stop in stops):
                    yield 1, f"settings: {word} {i} has no stop"
            if count == 0:
                yield 1, f"settings: no {word}"
        for stop in stops:
            at, name, byte = self.stops_at[stop], quoted(self.load.stops[stop].id), self.load.stops[stop].members
            both = self.origins(self.load, stop), self.targets(self.load, stop)
            if all(both):
                yield at, f"stop {name}: of origin {both[0][0]} and of target {both[1][0]}; who starts there is there already"
            if self.bits(byte & 15, 4) != both[0] or self.bits(byte >> 4, 4) != both[1]:
                yield at, f"stop {name}: members names an origin or a target that settings haven't"

    def far_names(self):
        """Stops of one name without a rule between them that are two places, since they lie too far apart."""
        keyed = [(i, self.place_key(stop)) for i, stop in enumerate(self.load.stops) if self.keyed(stop)]
        pairs = {(rule.src, rule.dst) for rule in self.load.rules}
        places = self.group(self.load.stops)
        for n, (i, a) in enumerate(keyed):
            for j, b in keyed[n + 1:]:
                if a.tag == b.tag == "N" and a.hash == b.hash and places[i] != places[j] and not {(i, j), (j, i)} & pairs:
                    names = f"{quoted(self.load.stops[i].id)} and {quoted(self.load.stops[j].id)}"
                    yield self.stops_at[j], f"stop {names} have one name, but lie too far apart for one place; a change there needs a rule"


class Verdict:
    """The number, None if nothing is refused; the places and words of the refusal; the warnings. A place is a record's number."""
    def __init__(self, number, words, warnings):
        self.number, self.words, self.warnings = number, words, warnings


def judged(data):
    judge = Judge()
    try:
        slow.reader.records(judge, data)
    except slow.fields.Refused as refused:
        return Verdict(refused.number, explained(judge, refused.number, data), [])
    return Verdict(None, [], sorted(judge.warnings(), key=lambda warning: warning[0] or float("inf")))
