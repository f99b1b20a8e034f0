"""Records with usual fields, and parts of loads, for the fixed list of step files (drive_list)."""
import struct
from records import number, optional, record, text

DAYS = 20261116, 20261117, 20261118   # from a Monday
EVERY, NEVER = b"\1" * 7, b"\0" * 7
I64 = [-2**63, -1, 0, 299, 300, 301, 1200, 21600, 21601, 2**63 - 1]


def opening(origins=b"\5", targets=b"\2", seconds=180, transfers=1, now=0, epochs=(0, 0, 0)):
    return record(1, bytes([len(origins), len(targets)]), origins, targets, struct.pack(">HBqqqq", seconds, transfers, now, *epochs))


def stop(own, name=None, parent=None, location=0, position=None, members=0):
    return record(2, text(own), optional(name, text), optional(parent, text), bytes([location]),
                  optional(position, lambda p: struct.pack(">dd", *p)), bytes([members]))


def call(trip=1, day=0, sequence=1, at=0, arrival=600, departure=600, pickup=0, drop_off=0):
    times = (optional(time, number("I")) for time in (arrival, departure))
    return record(3, struct.pack(">HBIH", trip, day, sequence, at), *times, bytes([pickup, drop_off]))


def rule(src=0, dst=1, kind=0, seconds=None):
    return record(4, struct.pack(">HHB", src, dst, kind), optional(seconds, number("H")))


def best(second=0):
    return record(12, number("q")(second))


def next_after(second=0, leave=0):
    return record(13, struct.pack(">qH", second, leave))


def dated(dates=DAYS, **given):
    return record(11, opening(**given)[3:], struct.pack(">III", *dates))


def service(name=b"w", marks=EVERY, start=10101, end=99991231):
    return record(6, text(name), marks, struct.pack(">II", start, end))


def exception(kind, date=DAYS[0], name=b"w"):
    return record(7, text(name), struct.pack(">IB", date, kind))


def call_of(name=b"w", **given):
    return record(10, call(**given)[3:], text(name))


SEARCH = record(5)
ENDS = [opening(), stop(b"a", members=15), stop(b"b", members=240)]
RIDE = [call(), call(sequence=2, at=1, arrival=1200, departure=1200)]
ASKED = [best(s) for s in I64] + [next_after(s, leave) for s in I64 for leave in (0, 299, 300, 65535)]


def rides(count, last, step=1):
    """So many journeys that none other beats, the last due at `last`."""
    return [c for i in range(count) for c in (call(trip=i, departure=i, arrival=i),
                                              call(trip=i, sequence=2, at=1, arrival=last - (count - 1 - i) * step,
                                                   departure=last - (count - 1 - i) * step))]


def withdrawal(trip=1, day=0, sequence=1):
    return record(8, struct.pack(">HBI", trip, day, sequence))


def limited(limit=2**64 - 1):
    return record(9, number("Q")(limit))


def write(room=70000):
    return record(14, number("I")(room))


def aside(group=0):
    return record(15, bytes([group]))


def best_of(group=0, second=0):
    return record(17, bytes([group]), number("q")(second))


def next_of(group=0, second=0, leave=0):
    return record(18, bytes([group]), struct.pack(">qH", second, leave))


DISPLAY = record(16)


def listing(arrivals, now=0):
    """A searched load with a journey for each arrival, in order; those of one arrival leave later and walk longer."""
    parts = [opening(origins=bytes(range(4)), targets=b"\0", seconds=0, transfers=0, now=now, epochs=(now,) * 3)]
    parts += [stop(b"s%d" % i, members=1 << i) for i in range(5)]
    for i, arrival in enumerate(arrivals):
        walk, leave = arrivals[:i].count(arrival), 2 * i
        parts += [call(trip=i, at=walk, arrival=leave + 60 * walk, departure=leave + 60 * walk),
                  call(trip=i, sequence=2, at=4, arrival=arrival, departure=arrival)]
    return parts + [SEARCH]
