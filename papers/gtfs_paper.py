"""A paper from a GTFS feed: its trips numbered, its stops, rules and calls as lines of a text, and notes of what was dropped and why."""
import datetime, re
import gtfs, gtfs_choice
from fields import TEXT
from gtfs import FeedError, Transfer

IDS, NAMES, STOPS, CALLS, RULES, LEAST, SHOWN = 32, 64, 128, 512, 128, 3600, 5
DECIMAL = re.compile(r"[+-]?([0-9]+\.?[0-9]*|\.[0-9]+)([eE][+-]?[0-9]+)?")


class Notes:
    """What was dropped, or written otherwise, by reason."""
    def __init__(self):
        self.by = {}

    def add(self, reason, what):
        self.by.setdefault(reason, []).append(what)

    def lines(self):
        for reason, found in self.by.items():
            more = f" and {len(found) - SHOWN} more" if len(found) > SHOWN else ""
            yield plain(f"{reason}: {', '.join(found[:SHOWN])}{more}")


def plain(text):
    """A text of one line for a comment: bytes that are no UTF-8 and what can't be printed stand as question marks."""
    return "".join(c if c.isprintable() else "?" for c in text.encode("utf-8", "surrogateescape").decode("utf-8", "replace"))


def raw(text):
    return text.encode("utf-8", "surrogateescape")


def quoted(text):
    return TEXT.show(raw(text))


def clock(seconds):
    return f"{seconds // 3600}:{seconds // 60 % 60:02}:{seconds % 60:02}"


def readable(text):
    """Whether a text may be a needed name: a word, no control, no code point above 255, well-formed (request 07)."""
    points = [ord(c) for c in text]
    parts = [9 <= p <= 13 or p in (32, 133, 160) for p in points]
    return not all(parts) and not any(p > 255 or (not part and (p < 32 or 127 <= p <= 159)) for p, part in zip(points, parts))


class Chosen:
    """The runs of a feed that a paper needs, and what they name."""
    def __init__(self, feed, date, start, origins, targets, two, notes):
        self.date, self.start, self.notes = date, start, notes
        self.stops = gtfs.stops(feed)
        self.origins, self.targets = (gtfs_choice.Ends([self.members(*end) for end in ends]) for ends in (origins, targets))
        self.transfers = self.rules(feed)
        self.runs = self.chosen(feed, two)
        self.unused()
        self.few_stops()
        self.full()

    def members(self, stop, minutes):
        """The stops of an end: itself, and the platforms of a station."""
        if stop not in self.stops:
            alike = [s.id for s in self.stops.values() if stop.casefold() in s.name.casefold()]
            hint = f"; that is in the name of {', '.join(alike[:SHOWN])}" if alike else ""
            raise FeedError(plain(f"no stop with the id {stop}{hint}"))
        return [stop] + [s.id for s in self.stops.values() if s.parent == stop and s.type == 0], minutes

    def rules(self, feed):
        """The transfers that a paper can have, each pair once."""
        found = {}
        for row in feed.rows("transfers", ["from_stop_id", "to_stop_id"], False):
            pair, kind = (row["from_stop_id"], row["to_stop_id"]), gtfs.number(row, "transfer_type", 0)
            seconds = gtfs.number(row, "min_transfer_time", -1)
            what = f"{row['']} {pair[0]} to {pair[1]}"
            tests = [
                (kind in (4, 5), f"dropped, transfer of type {kind}, which is of a trip to the next"),
                (kind > 5, "dropped, transfer of an unknown type"),
                (any(row.get(side + "_id") for side in ("from_trip", "to_trip", "from_route", "to_route")),
                 "dropped, transfer for some trips or routes alone"),
                (any(side not in self.stops or self.stops[side].type > 1 for side in pair), "dropped, transfer of no stop or station"),
                (kind == 2 and seconds < 0, "dropped, transfer of type 2 without a time"),
                (pair in found, "dropped, a second transfer for one pair of stops")]
            reason = next((why for holds, why in tests if holds), None)
            if reason:
                self.notes.add(reason, what)
                continue
            if seconds > 65535:
                self.notes.add("written as 65535 seconds, a transfer of more", what)
            found[pair] = Transfer(*pair, kind, None if seconds < 0 else min(seconds, 65535))
        return list(found.values())

    def chosen(self, feed, two):
        """The runs that some connection might use, each with the calls within six hours."""
        dates = [self.date + datetime.timedelta(days) for days in (0, -1, 1)]
        services = gtfs.running(feed, dates)
        trips = {trip.id: trip for trip in gtfs.trips(feed, set().union(*services))}
        ends = set(self.origins.walk) | set(self.targets.walk)
        repeated = {row["trip_id"] for row in feed.rows("frequencies", ["trip_id"], False)}
        wanted = gtfs.serving(feed, ends) & set(trips)
        for trip in sorted(wanted & repeated):
            self.notes.add("dropped, trip given by its frequency", trip)
        calls = {trip: self.sound(trip, some) for trip, some in gtfs.calls(feed, wanted - repeated).items()}
        runs = [gtfs_choice.Run(trips[trip], day, some, self.start) for trip, some in calls.items()
                for day in range(3) if some and trips[trip].service in services[day]]
        gtfs_choice.mark(runs, self.origins, self.targets, self.stops, self.transfers, two)
        return sorted((run for run in runs if run.used), key=lambda run: (run.times[min(run.used)], run.trip.id, run.day))

    def sound(self, trip, calls):
        """The calls of a trip that a paper can have; none if its times run backwards."""
        kept = []
        for call in calls:
            what = f"{trip} sequence {call.sequence} at {call.stop}"
            stop = self.stops.get(call.stop)
            tests = [
                (call.arrival is None, "dropped, call without a time"),
                (stop is None or stop.type != 0, "dropped, call at no stop"),
                (stop and not 1 <= len(raw(call.stop)) <= IDS, f"dropped, call at a stop whose id has more than {IDS} bytes"),
                (max(call.pickup, call.drop_off) > 3, "dropped, call with an unknown pickup or drop-off"),
                (call.sequence > 2**32 - 1, "dropped, call with a sequence above 4294967295"),
                (kept and kept[-1].sequence == call.sequence, "dropped, a second call with one sequence")]
            reason = next((why for holds, why in tests if holds), None)
            if reason:
                self.notes.add(reason, what)
            else:
                kept.append(call)
        times = [time for call in kept for time in (call.arrival, call.departure)]
        if times != sorted(times):
            self.notes.add("dropped, trip whose times run backwards", trip)
            return []
        return kept

    def shown(self, run):
        return [i for i in range(len(run.calls)) if run.inside(i)]

    def named(self):
        """The stops that the paper names: of calls and ends, with their stations; those whose id is too long are left out."""
        ends = set(self.origins.walk) | set(self.targets.walk)
        used = ends | {run.calls[i].stop for run in self.runs for i in self.shown(run)}
        parents = {self.stops[stop].parent for stop in used} & set(self.stops)
        return {stop for stop in used | parents if 1 <= len(raw(stop)) <= IDS and self.stops[stop].type <= 1}

    def keep(self, runs):
        """Keeps the named calls of each run."""
        for run, kept in runs:
            run.calls, run.times = [run.calls[i] for i in kept], [run.times[i] for i in kept]
            run.used = {n for n, i in enumerate(kept) if i in run.used}
        self.runs = [run for run in self.runs if run.calls]

    def unused(self):
        """Over 512 calls or 128 stops, the calls that no connection uses go."""
        total = sum(len(self.shown(run)) for run in self.runs)
        if total > CALLS or len(self.named()) > STOPS:
            self.keep([(run, sorted(run.used)) for run in self.runs])
            left = sum(len(self.shown(run)) for run in self.runs)
            if left < total:
                reason = f"dropped, calls that no connection uses (over {CALLS} calls or {STOPS} stops)"
                self.notes.add(reason, f"{total - left} of {total}")

    def full(self):
        """Says what the display does with more than 512 calls: its horizon falls, so nothing is claimed beyond."""
        arrivals = [run.times[i][0] for run in self.runs for i in self.shown(run)]
        horizon = gtfs_choice.HORIZON
        while sum(arrival <= horizon for arrival in arrivals) > CALLS and horizon >= LEAST:
            horizon -= horizon // 4
        if horizon < LEAST:
            self.notes.add(f"{len(arrivals)} calls, over {CALLS} within the first hour", "the display refuses it with 11; take fewer ends")
        elif horizon < gtfs_choice.HORIZON:
            self.notes.add(f"{len(arrivals)} calls, over {CALLS}", f"the display cuts its horizon to {horizon} seconds, so later ones go")

    def few_stops(self):
        """Over 128 stops, those that are called at latest go, and from then on the list isn't the feed's."""
        ends, gone, since = set(self.origins.walk) | set(self.targets.walk), [], 0
        while len(self.named()) > STOPS:
            first = {}
            for run in self.runs:
                for i in self.shown(run):
                    stop = run.calls[i].stop
                    first[stop] = min(first.get(stop, run.times[i][0]), run.times[i][0])
            if ends >= set(first):
                raise FeedError(f"the origins and targets have more than {STOPS} stops, with their stations")
            since, last = max((time, stop) for stop, time in first.items() if stop not in ends)
            gone.append(last)
            self.keep([(run, [i for i, call in enumerate(run.calls) if call.stop != last]) for run in self.runs])
        for stop in gone:
            when = clock(max(self.start + since, 0))
            self.notes.add(f"dropped, stops over {STOPS}; connections over them, from {when} on, are lacking", stop)
