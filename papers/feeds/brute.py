"""Every connection of a feed by brute force, from GTFS and the words of 01, to hold a paper made of the feed against.

It shares no code with from-gtfs, knows nothing of papers and leaves no trip out: each trip of each day that runs is tried with each other.
"""
import csv, datetime, math
from collections import namedtuple

Call = namedtuple("Call", "trip day sequence stop arrival departure pickup drop_off")
HORIZON, DAYS = 21600, (0, -1, 1)
WEEK = "monday tuesday wednesday thursday friday saturday sunday".split()


def table(folder, name):
    path = folder / (name + ".txt")
    return list(csv.DictReader(path.open(encoding="utf-8-sig", newline=""))) if path.exists() else []


def runs(folder, service, date):
    text = date.strftime("%Y%m%d")
    types = [row["exception_type"] for row in table(folder, "calendar_dates") if (row["service_id"], row["date"]) == (service, text)]
    week = any(row["service_id"] == service and row[WEEK[date.weekday()]] == "1" and row["start_date"] <= text <= row["end_date"]
               for row in table(folder, "calendar"))
    return "2" not in types and ("1" in types or week)


def clock(text):
    hours, minutes, seconds = map(int, text.split(":"))
    return hours * 3600 + minutes * 60 + seconds


class Brute:
    def __init__(self, folder, date, start, origins, targets, change):
        self.folder, self.start, self.change = folder, start, change * 60
        self.stops = {row["stop_id"]: row for row in table(folder, "stops")}
        self.origins, self.targets = ([(self.under(stop), walk) for stop, walk in ends] for ends in (origins, targets))
        self.rules = self.transfers()
        self.places = self.placed()
        self.trips = self.timetable([date + datetime.timedelta(days) for days in DAYS])

    def under(self, stop):
        return {stop} | {s for s, row in self.stops.items() if row["parent_station"] == stop}

    def transfers(self):
        found = {}
        for row in table(self.folder, "transfers"):
            seconds, kind = row.get("min_transfer_time") or None, int(row["transfer_type"] or 0)
            if kind > 3 or row.get("from_trip_id") or row.get("to_trip_id") or (kind == 2 and seconds is None):
                continue
            wait = None if kind == 3 else max(int(seconds), self.change) if kind == 2 else self.change
            found.setdefault((row["from_stop_id"], row["to_stop_id"]), (wait,))
        return found

    def timetable(self, dates):
        found = []
        services = {row["trip_id"]: row["service_id"] for row in table(self.folder, "trips")}
        rows = {}
        for row in table(self.folder, "stop_times"):
            rows.setdefault(row["trip_id"], []).append(row)
        for trip, service in services.items():
            for day, date in enumerate(dates):
                if runs(self.folder, service, date):
                    found.append(self.calls(trip, day, sorted(rows[trip], key=lambda row: int(row["stop_sequence"]))))
        return [calls for calls in found if all(a.arrival <= a.departure <= b.arrival for a, b in zip(calls, calls[1:]))]

    def calls(self, trip, day, rows):
        shift, found = DAYS[day] * 86400 - self.start, []
        for row in rows:
            times = [row["arrival_time"] or row["departure_time"], row["departure_time"] or row["arrival_time"]]
            if times[0] and len(row["stop_id"].encode()) <= 32:
                found.append(Call(trip, day, int(row["stop_sequence"]), row["stop_id"], *(clock(time) + shift for time in times),
                                  row["pickup_type"] != "1", row["drop_off_type"] != "1"))
        return found

    def placed(self):
        """Each stop's place: the first by id of one name within 125 m, of stops without a station but with a position."""
        found = {}
        for stop in sorted(self.stops, key=str.encode):
            row = self.stops[stop]
            if row["location_type"] in ("", "0") and not row["parent_station"] and row["stop_lat"]:
                found[stop] = next((other for other in found if found[other] == other and self.near(stop, other)), stop)
        return found

    def name(self, stop):
        name = self.stops[stop]["stop_name"] or stop
        return " ".join((name if max(map(ord, name)) < 256 else stop).lower().split())

    def near(self, a, b):
        (x, y), (u, v) = ((float(self.stops[s]["stop_lat"]), float(self.stops[s]["stop_lon"])) for s in (a, b))
        metres = 111195 * math.hypot(x - u, (y - v) * math.cos(math.radians((x + u) / 2)))
        return self.name(a) == self.name(b) and metres <= 125

    def wait(self, a, b):
        """The seconds of a change; None where there is none. The most exact rule decides, the from side before the to side."""
        up = lambda stop: [stop] + [self.stops[stop]["parent_station"]] * bool(self.stops[stop]["parent_station"])
        for pair in [(x, y) for x in up(a) for y in up(b)]:
            if pair in self.rules:
                return self.rules[pair][0]
        one = a == b or (up(a)[1:] and up(a)[1:] == up(b)[1:]) or (a in self.places and self.places[a] == self.places.get(b))
        return self.change if one else None

    def rides(self):
        for calls in self.trips:
            for i, b in enumerate(calls):
                for a in calls[i + 1:]:
                    if b.pickup and a.drop_off and 0 <= b.departure <= HORIZON and 0 <= a.arrival <= HORIZON:
                        yield b, a

    def journeys(self, two):
        """(leave, arrival, rides, walk, origin, target) of every connection that is due by the horizon."""
        rides, found = list(self.rides()), []
        chains = [[ride] for ride in rides]
        if two:
            waits = {(x, y): self.wait(x, y) for x in self.stops for y in self.stops}
            chains += [[f, s] for f in rides for s in rides if f[0][:2] != s[0][:2] and waits[f[1].stop, s[0].stop] is not None
                       and f[1].arrival + waits[f[1].stop, s[0].stop] <= s[0].departure]
        for chain in chains:
            for o, (members, walk) in enumerate(self.origins):
                for t, (ends, egress) in enumerate(self.targets):
                    leave, due = chain[0][0].departure - walk * 60, chain[-1][1].arrival + egress * 60
                    if chain[0][0].stop in members and chain[-1][1].stop in ends and leave >= 0 and due <= HORIZON:
                        found.append((leave, due, len(chain), walk, o, t))
        return found

    def best(self, two):
        """The figures of those that none other beats, in the list's order."""
        figures = {journey[:4] for journey in self.journeys(two)}
        beats = lambda a, b: a != b and a[0] >= b[0] and a[1:] <= b[1:]
        return sorted((j for j in figures if not any(beats(k, j) for k in figures)), key=lambda j: (j[1:], -j[0]))
