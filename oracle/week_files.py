"""Request 03's records of random step files: openings with dates, services, exceptions, calls that name a service.

Most services run on one of the load's days or more, and the calls of a trip mostly name one service; now and then each refusal
comes up: dates that the calendar hasn't, names that are empty, too long, unknown or taken, late services, loads without dates.
"""
import struct
from records import record, text

# three dates of a load: following days, one date twice or thrice, falling, far apart
DATES = [(20240228, 20240229, 20240301), (20261116, 20261117, 20261118), (20261121, 20261122, 20261123), (10101, 10102, 10103),
         (99991229, 99991230, 99991231), (20000229, 20000229, 20000229), (20261116, 20261116, 20261117), (20261118, 20261117, 20261116),
         (10101, 20000229, 99991231), (19000228, 19000301, 20000229), (20231231, 20240101, 20240108)]
NO_DATES = [0, 1, 101, 10001, 10100, 10132, 10229, 19000229, 20230229, 20240230, 20240431, 20240001, 20240100, 20241301, 20240132,
            21000229, 99991232, 100000101, 2**31, 2**32 - 1]
NO_NAMES = [b"", b"x" * 32, b"x" * 33, b"x" * 255, b"wk", b"WK0", b"wk0\0", b"s0", b"\xff"]
EVERY, NEVER = b"\1" * 7, b"\0" * 7


class WeekMaker:
    """What Maker (step_files.py) has for request 03; `rng`, `usual`, `seldom`, `settings` and `call` are Maker's."""
    def forget_week(self):
        self.dates, self.services = DATES[0], []

    def near(self, share=0.03):
        """A date of the load, one beside it, an end of the calendar, and seldom none that the calendar has."""
        day = self.rng.choice(self.dates)
        beside = [d for dates in DATES for d in dates]
        return self.usual([day, day, day, self.rng.choice(beside)], NO_DATES, share)

    def dated(self):
        """Settings with dates in place of the plain ones."""
        plain = self.settings()
        self.dates = self.rng.choice(DATES)
        dates = list(self.dates)
        if self.seldom(0.06):
            dates[self.rng.randrange(3)] = self.rng.choice(NO_DATES)
        return record(11, plain[3:], struct.pack(">III", *dates))

    def service(self):
        rng, name = self.rng, b"wk%d" % len(self.services)
        if self.seldom(0.12):
            name = rng.choice(NO_NAMES + self.services[:1])
        marks = rng.choice([EVERY, EVERY, EVERY, NEVER] + [bytes(rng.choices([0, 1], k=7)) for _ in range(4)])
        if self.seldom(0.004):
            marks = marks[:6] + b"\2"
        start = self.usual([10101, 10101, self.near()], [self.near(0.5)], 0.04)
        end = self.usual([99991231, 99991231, self.near()], [self.near(0.5)], 0.04)
        self.services.append(name)
        return record(6, text(name), marks, struct.pack(">II", start, end))

    def service_name(self, trip):
        if not self.services or self.seldom(0.06):
            return self.rng.choice(NO_NAMES)
        return self.rng.choice(self.services) if self.seldom(0.1) else self.services[trip % len(self.services)]

    def exception(self):
        kind = self.usual([1, 2], [0, 3, 255], 0.04)
        return record(7, text(self.service_name(self.rng.randrange(64))), struct.pack(">IB", self.near(), kind))

    def call_of(self):
        return self.of_service(self.call())

    def of_service(self, call):
        """The call, naming a service."""
        trip = int.from_bytes(call[3:5], "big")
        return record(10, call[3:], text(self.service_name(trip)))

    def plain_service(self, name, marks):
        self.services.append(name)
        return record(6, text(name), marks, struct.pack(">II", 10101, 99991231))

    def week(self):
        """Services and their exceptions; seldom about as many services as a load holds, or many exceptions."""
        rng, way = self.rng, self.rng.random()
        full = rng.randint(60, 64) if way < 0.005 else 0
        exceptions = rng.choice([100, 300]) if way > 0.998 else rng.choice([0, 0, 1, 2, 4, 8])
        return ([self.plain_service(b"full%d" % i, rng.choice([EVERY, NEVER])) for i in range(full)]
                + [self.service() for _ in range(rng.choice([0, 1, 1, 2, 2, 3, 3, 5]))] + [self.exception() for _ in range(exceptions)])

    def dated_ones(self, parts):
        """A load whose opening comes first, with dates, a service that runs and one that doesn't; its calls name them."""
        self.dates, self.services = DATES[1], []
        week = [self.plain_service(b"wk0", EVERY), self.plain_service(b"wk1", NEVER)]
        self.services = [b"wk0"] * 20 + [b"wk1"]
        opening = record(11, parts[0][3:], struct.pack(">III", *self.dates))
        return [opening, *week, *(self.of_service(part) if part[2] == 3 else part for part in parts[1:])]
