"""Random step files (docs/STEPS.md). A kind of record is one method of Maker and one line of WEIGHTS.

Most files open a load, fill it, search it and ask it, with steps of every kind in between; a file opens up to four loads. Times,
ids and numbers are mostly such that steps are taken, and now and then such that each refusal comes up.
"""
import struct
from call_files import CallMaker
from damage import damage_once
from limit_files import LimitMaker, put_in
from records import FIRST, number, optional, record, text
from week_files import WeekMaker

ENDS = [-2**63, 2**63 - 1, -2**63 + 1, 2**63 - 2, -1, 0, 1, 2**31, 2**32, -2**40, 2**40, 65535, 65536]
HORIZONS = [21600, 16200, 12150, 9113, 6835, 5127, 3846, 3600]
PLACES = [(52.0, 5.0), (52.001124, 5.0), (52.001125, 5.0), (52.002248, 5.0), (-33.9, 179.9999999), (-33.9, -179.9999999), (91.0, 0.0),
          (0.0, float("nan")), (float("inf"), 1.0), (90.0, 180.0)]
NAMES = [b"Main Street", b"main  street", b"MAIN\tSTREET", b"Quay", b" ", b"", b"a\x01b", b"Caf\xc3\xa9", b"\xff", b"n" * 64, b"n" * 65]


class Maker(WeekMaker, CallMaker, LimitMaker):
    # kinds of the steps between an opening and its search, and of those after it
    WEIGHTS = {"stop": 5, "call": 12, "rule": 3, "search": 0.1, "best": 1, "next_after": 1, "service": 0.1, "exception": 0.1, "call_of": 1,
               "set_aside": 0.05, "display": 0.05, "best_of_group": 0.05, "next_of_group": 0.05, "withdrawal": 1, "repeated": 0.05,
               "again": 0.3, "write": 0.5, "limited": 0.1}
    AFTER = {"stop": 1, "call": 3, "rule": 1, "search": 1, "best": 8, "next_after": 6, "service": 0.4, "exception": 0.4, "call_of": 2,
             "set_aside": 0.6, "display": 1, "best_of_group": 2, "next_of_group": 1, "withdrawal": 4, "repeated": 0.5, "again": 1,
             "write": 2, "limited": 1, "at_0": 2}
    DATED = {**WEIGHTS, "call": 0.5, "call_of": 12, "service": 0.4, "exception": 0.4}   # as WEIGHTS, in a load with dates

    def __init__(self, rng):
        self.rng = rng
        self.forget()

    def forget(self):
        self.stops, self.stations, self.trips, self.now, self.epochs = 0, [], {}, 0, [0, 0, 0]
        self.walks, self.leaves = b"\0", [0]   # walks of the origins; leaves that a journey may have
        self.forget_week()
        self.forget_calls()

    def seldom(self, share=0.02):
        return self.rng.random() < share

    def usual(self, values, odd, share=0.02):
        return self.rng.choice(odd if self.seldom(share) else values)

    # --- a method for each kind ---
    def settings(self):
        rng = self.rng
        self.forget()
        counts = [self.usual([1, 1, 2, 3, 4], [0, 5, 255], 0.04) for _ in range(2)]
        walks = bytes(self.usual([0, 0, 1, 2, 3, 5], [60, 255], 0.05) for _ in range(sum(counts)))
        self.walks = walks[:counts[0]] or b"\0"
        change = self.usual([0, 60, 90, 180, 300, rng.randrange(600)], [59, 61, 3600, 15299, 15300, 15301, 15360, 65520, 65535], 0.08)
        transfers = self.usual([0, 1, 1, 2], [3, 3, 255], 0.03)
        self.now = self.usual([0, 1000, 1_700_000_000], [2**40, -2**40, 2**40 + 1, -2**40 - 1, *ENDS[:2]], 0.08)
        self.epochs = [self.now - rng.choice([0, 0, 600, 25200]) + day * 86400 * rng.choice([0, 0, 1]) for day in range(3)]
        if self.seldom():
            self.epochs[rng.randrange(3)] = rng.choice([*ENDS, 2**40 + 1])
        clocks = [max(-2**63, min(2**63 - 1, time)) for time in (self.now, *self.epochs)]
        return record(1, bytes(counts), walks, struct.pack(">HBqqqq", change, transfers, *clocks))

    def stop_id(self):
        if self.seldom(0.06):
            return self.rng.choice([b"", b"s0", b"x" * 32, b"x" * 33, b"\xff\xfe", b"S0"])
        return b"s%d" % self.stops

    def stop(self):
        rng, own = self.rng, self.stop_id()
        location = self.usual([0, 0, 0, 0, 1], [2, 255])
        parent = rng.choice(self.stations) if self.stations and rng.random() < 0.4 else None
        if (location == 1 and not self.seldom(0.1)) or self.seldom():
            parent = None
        if self.seldom():
            parent = rng.choice([b"s0", b"none", b""])
        name = self.usual([None, None, *NAMES[:4]], NAMES, 0.1)
        place = self.usual([None, *PLACES[:4]], PLACES, 0.2)
        members = rng.choice([0, 1, 2, 16, 32, 17, 15, 240, 255, rng.randrange(256)] + [15, 240, 255] * 3 * (self.stops < 3))
        if own == b"s%d" % self.stops and location < 2:
            self.stops += 1
            self.stations += [own] * location
        return record(2, text(own), optional(name, text), optional(parent, text), bytes([location]),
                      optional(place, lambda p: struct.pack(">dd", *p)), bytes([members]))

    def call_times(self, run):
        """Arrival and departure after the day's epoch: mostly after the run's call before, now and then at an end of the window."""
        rng, start = self.rng, self.now - self.epochs[run[1] % 3]
        last = self.trips.get(run, (0, start + rng.choice([0, rng.randrange(3000), rng.randrange(12000)])))[1]
        arrival = last + rng.choice([0, 60, 299, 300, 301, 600, rng.randrange(2000)])
        if self.seldom(0.08):
            arrival = start + rng.choice(HORIZONS) + rng.choice([-1, 0, 1]) - rng.choice([0, 60, 120])
        departure = arrival + rng.choice([0, 0, 0, 30, 60, rng.randrange(900)]) - (self.seldom(0.03) * 61)
        return [max(0, min(2**32 - 1, time)) for time in (arrival, departure)]

    def call(self):
        rng = self.rng
        run = self.usual(range(3), [65534, 65535], 0.03), self.usual([0] * 8 + [1, 2], [3, 255], 0.02)
        times = self.call_times(run)
        sequence = self.trips.get(run, (0, 0))[0] + rng.choice([1, 1, 1, 10])
        if self.seldom(0.03):
            sequence = rng.choice([0, 1, 2**32 - 1, max(0, sequence - 1)])
        self.trips[run] = min(sequence, 2**32 - 20), times[1]
        self.leaves.append(times[1] + self.epochs[run[1] % 3] - self.now - 60 * rng.choice(self.walks))
        if self.seldom(0.04):
            times[rng.randrange(2)] = rng.choice([None, None, 0, 2**32 - 1])
        stop = rng.randrange(self.stops) if self.stops and not self.seldom() else rng.choice([self.stops, 65535])
        kinds = bytes(self.usual([0, 0, 0, 0, 1, 2, 3], [4, 255], 0.01) for _ in range(2))
        return self.note(record(3, struct.pack(">HBIH", *run, sequence, stop), *(optional(t, number("I")) for t in times), kinds))

    def rule(self):
        rng = self.rng
        ends = [rng.randrange(self.stops) if self.stops and not self.seldom() else rng.choice([self.stops, 65535]) for _ in range(2)]
        seconds = rng.choice([None, 0, 60, 179, 180, 181, 600, rng.choice([15300, 65535])])
        return record(4, struct.pack(">HHB", *ends, self.usual([0, 1, 2, 3], [4, 255])), optional(seconds, number("H")))

    def search(self):
        return record(5)

    def second(self):
        rng = self.rng
        if rng.random() < 0.2:
            return rng.choice(ENDS)
        near = rng.choice(HORIZONS) + rng.choice([-1, 0, 1])
        return rng.choice([0, 0, near, rng.randrange(22000), rng.randrange(3000), self.leave(), self.leave()])

    def leave(self):
        """A leave that a journey may have, or the second before or after it."""
        return max(-2**63, min(2**63 - 1, self.rng.choice(self.leaves) + self.rng.choice([-1, 0, 0, 1])))

    def best(self):
        return record(12, number("q")(self.second()))

    def next_after(self):
        leave = self.rng.choice([0, 65535, 65534, 21600, self.rng.randrange(6000), *[max(0, min(65535, self.leave()))] * 4])
        return record(13, struct.pack(">qH", self.second(), leave))

    def write(self):
        return record(14, number("I")(self.usual([70000, 40000, 2**32 - 1], [0, 1, 43, 44, 100, 300, 1000, 33588, 65536, 69999], 0.3)))

    # --- displays ---
    def group(self):
        return self.usual(range(4), [4, 255], 0.03)

    def set_aside(self):
        return record(15, bytes([self.group()]))

    def display(self):
        return record(16)

    def best_of_group(self):
        return record(17, bytes([self.group()]), number("q")(self.second()))

    def next_of_group(self):
        return record(18, bytes([self.group()]), struct.pack(">qH", self.second(), max(0, min(65535, self.leave()))))

    def list_of(self, now):
        """A load of one start that keeps so many journeys, up to four of them with one arrival."""
        rng = self.rng
        self.forget()
        parts = [record(1, b"\4\1\0\1\2\3\0", struct.pack(">HBqqqq", 0, 0, *[now] * 4))]
        parts += [record(2, text(b"s%d" % i), b"\0\0\0\0", bytes([1 << i])) for i in range(5)]
        leave, arrival = rng.randrange(200), rng.choice([900, 3530, 3560, 3580, 3590, 3599, 3600, 4000, 9000]) + rng.choice([0, 1, 2, 60])
        count, trip, rise = rng.choice([0, 1, 8, 15, 16, 17, 18, 20, 30, 40, 47, 48, 49, 63, 64, 65, 66]), 0, rng.choice([1, 1, 3, 60])
        while trip < count:
            for walk in range(min(rng.choice([1, 1, 1, 2, 3, 4]), count - trip)):
                self.leaves.append(leave)
                parts += self.ride(trip, leave + 60 * walk, arrival, (walk, 4))
                trip, leave = trip + 1, leave + rng.choice([1, 1, 2, 5])
            arrival += rng.choice([1, 1, rise])
        return parts + [self.searching()] * (not self.seldom())

    def aside_as(self, group):
        return record(15, bytes([self.group() if self.seldom() else group]))

    def asked(self):
        weights = {"best_of_group": 6, "next_of_group": 3, "best": 1, "display": 0.1}
        return [self.display()] + self.some(weights, self.rng.choice([0, 4, 12]))

    def displayed(self):
        """Up to four such lists, mostly of one start. Either a display of all of them, groups apart, or displays of each in several groups;
        and its groups asked."""
        rng, parts, now = self.rng, [], self.rng.choice([0, 1000, -5])
        groups, apart = rng.sample(range(4), 4), rng.random() < 0.5
        for i in range(rng.choice([1, 2, 2, 3, 3, 4, 4, 4])):
            parts += self.list_of(now + self.seldom())
            if apart:
                parts += [self.aside_as(groups[i])]
            else:
                for _ in range(rng.choice([1, 2, 3])):
                    parts += [self.aside_as(group) for group in rng.sample(groups, rng.choice([1, 2, 3, 4, 4]))] + self.asked()
        return parts + self.asked() * apart

    # --- files ---
    def some(self, weights, count):
        made = [getattr(self, name)() for name in self.rng.choices(list(weights), list(weights.values()), k=count)]
        return [part for parts in made for part in (parts if isinstance(parts, list) else [parts])]

    def load(self):
        """An opening, stops, steps of any kind, mostly a search, and steps after it."""
        rng, dated = self.rng, self.rng.random() < 0.5
        parts = [self.dated(), *self.week()] if dated else [self.settings()]
        parts += [self.stop() for _ in range(rng.choice([0, 2, 3, 3, 4, 4, 6]))]
        parts += self.some(self.DATED if dated else self.WEIGHTS, rng.choice([0, 3, 10, 20, 30, 40]))
        if rng.random() < 0.8:
            parts += [self.searching()] + self.some(self.AFTER, rng.choice([0, 1, 3, 8, 16]))
        return parts

    def ends(self, transfers, change=0):
        """An opening, a stop of the origin and one of the target."""
        self.forget()
        self.stops = 2
        return [record(1, b"\1\1\0\0", struct.pack(">HBqqqq", change, transfers, 0, 0, 0, 0)),
                record(2, text(b"s0"), b"\0\0\0\0\x0f"), record(2, text(b"s1"), b"\0\0\0\0\xf0")]

    def ride(self, trip, departure, arrival, stops=(0, 1)):
        return [record(3, struct.pack(">HBIH", trip, 0, i, stops[i]), optional(time, number("I")), optional(time, number("I")), b"\0\0")
                for i, time in enumerate((departure, arrival))]

    def changing(self):
        """Changes at one platform, or between two of a station, that are just made or just missed; now and then by a rule."""
        rng = self.rng
        change = self.usual([0, 60, 90, 180, rng.randrange(600), rng.randrange(15301)], [15299, 15300, 15301], 0.05)
        seconds, parts = change, self.ends(1, change) + [record(2, text(b"s2"), b"\0\0\1\0\0")]
        parts += [record(2, text(name), b"\0\1", text(b"s2"), b"\0\0\0") for name in (b"s3", b"s4")]
        self.stops = 5
        if rng.random() < 0.4:
            ends, kind = rng.choice([(2, 2), (3, 4), (3, 2), (2, 3)]), rng.randrange(4)
            given = max(0, change + rng.choice([-60, -1, 0, 1, 60]))
            parts.append(record(4, struct.pack(">HHB", *ends, kind), b"\1", struct.pack(">H", given)))
            seconds = rng.choice([change, given])
        for trip in range(0, 2 * rng.randint(1, 3), 2):
            self.leaves.append(rng.randrange(2000))
            arrival = self.leaves[-1] + rng.randrange(600)
            departure = max(0, arrival + seconds + rng.choice([-1, 0, 0, 1]))
            parts += self.ride(trip, self.leaves[-1], arrival, (0, 3))
            parts += self.ride(trip + 1, departure, departure + rng.randrange(600), (rng.choice([3, 4]), 1))
        return parts + [self.searching()] + self.some(self.AFTER, 4)

    def many(self):
        """A table that is cut, or a list that falls: many rides between two stops, then a search and queries."""
        rng = self.rng
        rides = rng.choice([64, 65, 66, 80, 257, 270, 330])
        parts = self.ends(rng.randrange(2) if rides < 100 else 0)
        first, step, length = rng.choice([0, 100, 3000]), rng.choice([1, 30, 60]), rng.choice([1, 400, 3000])
        last = rng.choice([first + 2 * length, 3600, 3601, 21600, 21600, 21600])
        for trip in range(rides):
            arrival = min(last, first + trip * step + length) if rng.random() < 0.98 else 21600
            self.leaves.append(min(first + trip * step, arrival))
            parts += self.ride(trip, self.leaves[-1], arrival)
        return parts + [self.searching()] + self.some(self.AFTER, 6)

    def full(self):
        """127 to 130 stops or rules."""
        parts, count = self.ends(0), self.rng.randint(127, 130)
        if self.rng.random() < 0.5:
            return parts + [record(2, text(b"t%d" % i), b"\0\0\0\0\0") for i in range(count - 2)] + self.some(self.WEIGHTS, 10)
        parts += [record(2, text(b"t%d" % i), b"\0\0\0\0\0") for i in range(10)]
        pairs = [(i, j) for i in range(12) for j in range(12)]
        return parts + [record(4, struct.pack(">HHB", i, j, 0), b"\0") for i, j in pairs[:count]] + self.some(self.WEIGHTS, 10)

    def file(self):
        rng, parts = self.rng, []
        for _ in range(rng.choice([1, 1, 1, 2, 2, 3, 4])):
            way = rng.random()
            if way < 0.003:
                parts += self.displayed()
                continue
            one = (self.many() if way < 0.006 else self.full() if way < 0.009 else self.altered() if way < 0.06
                   else self.changing() if way < 0.17 else self.joining() if way < 0.3 else self.load())
            parts += self.dated_ones(one) if way < 0.3 and rng.random() < 0.4 else one
        if self.seldom():
            parts += self.some(self.WEIGHTS, 3)
            del parts[0]
        return FIRST + b"".join(put_in(parts))


def made_display(rng):
    """A file of one display."""
    return FIRST + b"".join(put_in(Maker(rng).displayed()))


def made(rng):
    """A file; one in five is damaged."""
    data = Maker(rng).file()
    if rng.random() < 0.2:
        for _ in range(rng.choice([1, 1, 2, 3])):
            data = damage_once(rng, data, data)
    return data
