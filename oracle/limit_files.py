"""Request 12's records of random step files: searches within a limit, and loads whose rides join in many ways.

Limits are 0, 1, 2 and other small numbers, ends of u64, numbers between 0 and the joins that the load has, and numbers about that total.
What depends on the joins is put in when the file is whole (`put_in`).
"""
import struct
from fixed import limited
from reading import Reading
from records import number, optional, record, text
from steps import Malformed, Steps

FEW = [0, 0, 0, 1, 1, 2, 3]
ENDS = [2**64 - 1, 2**64 - 1, 2**64 - 1, 2**64 - 2, 2**63, 2**63 - 1, 2**32, 2**32 - 1, 65536, 255, 256]


class Limited(bytes):
    """The record of a limited search whose limit is told by the joins that there are."""
    limit = None   # of the joins


def told_by_joins(limit):
    made = Limited(limited(0))
    made.limit = limit
    return made


def joins_there(load):
    """Each origin's first rides × the table's rides."""
    reading, calls = Reading(), sorted(load.table, key=Reading().call_order)
    firsts = sum(1 for _ in reading.firsts_in_order(load, calls))
    return firsts * len(reading.rides_in_order(calls)) if reading.lists_joins(load) else 0


TABLE = 1, 2, 3, 6, 7, 8, 10, 11   # kinds that tell which rides there are


def put_in(parts):
    """The records with every limit. Searches are left out of this, so the joins are seldom those of a load that refuses a call."""
    steps, made = Steps(), []
    last = max((i for i, part in enumerate(parts) if isinstance(part, Limited)), default=0)
    for i, part in enumerate(parts):
        if isinstance(part, Limited):
            part = limited(min(2**64 - 1, max(0, part.limit(joins_there(steps.load) if steps.load else 0))))
        elif i < last and part[2] in TABLE:
            try:
                steps.record(part[2:])
            except Malformed:
                pass
        made.append(part)
    return made


class LimitMaker:
    """What Maker (step_files.py) has for request 12; `rng`, `usual`, `seldom`, `search`, `some` and `note` are Maker's."""
    # steps after a limited search
    STOPPED = {"at_0": 5, "best": 1, "withdrawal": 5, "call": 4, "repeated": 0.5, "again": 2, "limited": 1, "search": 0.6, "stop": 0.2,
               "rule": 0.2, "write": 0.7, "set_aside": 0.5, "display": 0.4, "best_of_group": 0.5, "next_after": 0.5}

    def limited(self):
        rng, way = self.rng, self.rng.random()
        if way < 0.3:
            return limited(rng.choice([*FEW, rng.randrange(40), rng.choice(ENDS)]))
        if way < 0.6:
            share = rng.random()
            return told_by_joins(lambda joins: int(joins * share))
        if way < 0.7:
            few = rng.randrange(200)
            return told_by_joins(lambda joins: few % (joins + 1))
        more = rng.choice([-3, -2, -1, -1, 0, 0, 1, 2])
        return told_by_joins(lambda joins: joins + more)

    def searching(self):
        """A search, in full or within a limit."""
        return self.limited() if self.rng.random() < 0.5 else self.search()

    def at_0(self):
        return record(12, number("q")(0))

    def joining(self):
        """Trips over few stops at times on a grid, several origins and targets: rides that tie, beat each other and join. Searched within
        a limit, then altered and asked."""
        rng = self.rng
        self.forget()
        origins, targets = (bytes(rng.choice([0, 0, 1, 2, 5]) for _ in range(rng.choice([1, 1, 2, 4]))) for _ in range(2))
        self.walks, self.stops = origins, rng.choice([3, 4, 5])
        parts = [record(1, bytes([len(origins), len(targets)]), origins, targets,
                        struct.pack(">HBqqqq", rng.choice([0, 60, 300]), self.usual([1], [0, 2], 0.1), 0, 0, 0, 0))]
        members = [1, 16, *(rng.choice([0, 0, 17, 2, 32, 255, rng.randrange(256)]) for _ in range(3))]
        parts += [record(2, text(b"s%d" % i), b"\0\0\0\0", bytes([members[i]])) for i in range(self.stops)]
        step = rng.choice([60, 100, 300])
        for trip in range(rng.choice([1, 2, 3, 5, 8])):
            parts += self.trip_of(trip, step)
        return parts + [self.searching() if self.seldom(0.1) else self.limited()] + self.some(self.STOPPED, rng.choice([2, 5, 10, 16]))

    def trip_of(self, trip, step):
        rng, time, calls = self.rng, self.rng.randrange(40) * step, []
        for sequence in range(rng.choice([2, 2, 3, 4, 5])):
            stay = rng.choice([0, 0, step])
            kinds = bytes(self.usual([0, 0, 0, 0, 2], [1, 3], 0.1) for _ in range(2))
            stop = rng.randrange(self.stops)
            times = [optional(t, number("I")) for t in (time, time + stay)]
            calls.append(self.note(record(3, struct.pack(">HBIH", trip, 0, sequence, stop), *times, kinds)))
            self.leaves.append(time + stay - 60 * rng.choice(self.walks))
            self.trips[trip, 0] = sequence, time + stay
            time += stay + rng.choice([0, 1, 2, 4]) * step
        return calls
