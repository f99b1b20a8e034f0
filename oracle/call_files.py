"""Request 11's records of random step files: withdrawals, calls handed in twice, and loads that are searched again and again.

Most withdrawals name a call that was handed in; now and then one that is gone, was never there, or that no call can be. Searched loads
get calls until their table is cut or their list falls or is refused, and lose calls that hid others.
"""
import struct
from records import number, optional, record


class CallMaker:
    """What Maker (step_files.py) has for request 11; `rng`, `usual`, `seldom`, `ends`, `ride`, `searching` and `some` are Maker's."""
    def forget_calls(self):
        self.handed = []   # the fields of calls handed in, without a service's name

    def note(self, call):
        """A call's record, noted."""
        self.handed.append(call[3:])
        return call

    def withdrawal(self):
        rng = self.rng
        if self.handed and not self.seldom(0.12):
            late = self.handed[-1 - min(int(rng.expovariate(0.3)), len(self.handed) - 1)]
            key = struct.unpack(">HBI", rng.choice([late, late, rng.choice(self.handed)])[:7])
        else:
            key = rng.choice([0, 1, 2, 65534, 65535]), rng.choice([0, 0, 1, 2, 3, 255]), rng.choice([0, 1, 2, 3, 65536, 2**32 - 1])
        if self.seldom(0.06):
            trip, day, sequence = key
            key = rng.choice([(65535, day, sequence), (trip, 3, sequence), (trip, (day + 1) % 3, sequence),
                              (trip, day, (sequence + 65536) % 2**32), (trip ^ 1, day, sequence)])
        return record(8, struct.pack(">HBI", *key))

    def repeated(self):
        """A call that was handed in, once more: with its own times or a little later."""
        if not self.handed:
            return self.call()
        fields = self.rng.choice(self.handed[-8:])
        if fields[9] == 1 and fields[14] == 1 and self.rng.random() < 0.5:
            times = [min(2**32 - 1, int.from_bytes(fields[at:at + 4], "big") + 60) for at in (10, 15)]
            fields = fields[:9] + b"".join(optional(t, number("I")) for t in times) + fields[-2:]
        return self.named_call(record(3, fields))

    def named_call(self, call):
        """As the loads' calls are: of a service, where the load has services."""
        return self.of_service(call) if self.services else call

    def again(self):
        """A call that is withdrawn straight after it, now and then more than once."""
        call = self.call()
        return [self.named_call(call), *[record(8, call[3:10])] * self.rng.choice([1, 1, 2, 3])]

    # --- loads that are searched again and again ---
    def listing(self):
        """Rides of which none beats another, as many as a list holds or so, due by about 3600 or later, with room for one between them."""
        rng, parts = self.rng, self.ends(self.rng.randrange(2))
        count, last = rng.choice([62, 63, 64, 64, 64, 64, 65, 66, 70]), rng.choice([3598, 3599, 3600, 3600, 3601, 3602, 5000, 20000, 21600])
        due = [last - count + trip + (trip > count // 2) for trip in range(1, count + 1)]
        for trip in range(1, count + 1):
            parts += map(self.note, self.ride(trip, 2 * trip, due[trip - 1]))
        self.leaves += range(0, 2 * count, 2)
        return parts, count, due

    def hiding(self, due):
        """A ride that beats all of them, and is offered before them."""
        return list(map(self.note, self.ride(0, 300, due[0] - self.rng.choice([0, 1, 100]))))

    def one_more(self, trip, count, due):
        """A ride between the others or behind them, mostly one that none of them beats."""
        rng, middle = self.rng, count // 2
        between, behind = (2 * middle + 1, due[middle - 1] + 1), (2 * count + 1, due[-1] + 1)
        beaten = 2 * rng.randrange(count), rng.choice(due)
        leave, arrival = rng.choice([between, between, behind, (1, due[0] - 1), (400, 21600), beaten])
        return list(map(self.note, self.ride(trip, min(leave, arrival), arrival)))

    def relisted(self):
        """Such a list: the one that hides the others goes and comes, rides go, a 65th comes."""
        rng = self.rng
        parts, count, due = self.listing()
        parts += self.hiding(due) if rng.random() < 0.6 else []
        parts.append(self.searching())
        for turn in range(rng.choice([2, 4, 6])):
            way = rng.random()
            if way < 0.25:
                parts.append(record(8, struct.pack(">HBI", 0, 0, rng.randrange(2))))
            elif way < 0.45:
                parts.append(record(8, struct.pack(">HBI", rng.randrange(1, count + 1), 0, rng.randrange(2))))
            elif way < 0.7:
                parts += self.one_more(1000 + turn, count, due)
            else:
                parts += self.hiding(due) if way < 0.8 else self.some(self.AFTER, 1)
        return parts + self.some(self.AFTER, 3)

    def brim(self):
        """A table that is all but full, searched, and calls at its horizons: taken, cut for, outside after a cut, or without room. Some
        have two rides, and so joins."""
        rng, joins = self.rng, self.rng.randrange(2)
        parts = self.ends(joins)
        early = rng.choice([0, 0, 200, 400, 500, 511, 512])
        count = rng.choice([509, 510, 511, 512, 512, 512]) - 4 * joins
        for trip in (600, 601) if joins else ():
            parts += map(self.note, self.ride(trip, trip - 590, 900 - trip))
        steps = [rng.choice([3600, 3601, 3846, 5127, 9113, 12150, 12151, 16200, 16201, 20000, 21600]) for _ in range(4)]
        for i in range(count):
            time = 1000 + i if i < early else rng.choice(steps) - rng.choice([0, 0, 1, 2])
            parts.append(self.note(self.at(i, time)))
        parts += [self.searching()] * (rng.random() < 0.9)
        for i in range(rng.choice([3, 6, 10])):
            way = rng.random()
            if way < 0.55:
                time = rng.choice([*steps, 21600, 16201, 12151, 1000, 22000]) + rng.choice([0, 0, 1, -1])
                parts.append(self.note(self.at(rng.choice([count + i, count + i, rng.randrange(count)]), time)))
            elif way < 0.75:
                parts.append(self.withdrawal())
            else:
                parts += self.some(self.AFTER, 1)
        return parts

    def at(self, trip, time, sequence=0, stop=0):
        return record(3, struct.pack(">HBIH", trip, 0, sequence, stop), *[optional(time, number("I"))] * 2, b"\0\0")

    def doubles(self):
        """Calls of few keys, before and after a search: several of one key, withdrawn one by one, at times that tell them."""
        rng, parts = self.rng, self.ends(1, 60)
        for _ in range(rng.choice([6, 12, 20])):
            way = rng.random()
            if way < 0.5:
                trip, sequence = rng.randrange(2), rng.randrange(3)
                time = 600 + 300 * sequence + 7 * rng.randrange(40)
                stop = min(sequence, 1) if rng.random() < 0.8 else rng.randrange(2)
                parts.append(self.note(self.at(trip, time, sequence, stop)))
            elif way < 0.8:
                parts.append(record(8, struct.pack(">HBI", rng.randrange(2), 0, rng.randrange(3))))
            else:
                parts += [self.searching()] if way < 0.93 else self.some(self.AFTER, 1)
        return parts + self.some(self.AFTER, 2)

    def altered(self):
        return self.rng.choices([self.relisted, self.brim, self.doubles], [4, 1.5, 8])[0]()
