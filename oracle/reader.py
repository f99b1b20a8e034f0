#!/usr/bin/env python3
"""A slow reader of documents 01 and 02 (requests 01 and 13), written from their words, to compare the oracle with.

usage: reader.py [--batch] [--wrong NAME]      load files on standard input, the answers on standard output
       reader.py --list                        the wrong readings, one a line

It prints what the oracle prints, with `refused N` for every refusal.
"""
import struct, sys
from fields import Refused
from helping import helped
from reading import Reading


def records(reading, data):
    """Each record is tested and handed on before the next is looked at."""
    reading.refuse("version", [(data[:1] not in (b"\x01", b"\x02"), 17)])
    at, load, second = 1, None, data[:1] == b"\x02"
    while at < len(data):
        reading.refuse("length", [(at + 2 > len(data), 18)])
        length = struct.unpack(">H", data[at:at + 2])[0]
        body = data[at + 2:at + 2 + length]
        reading.refuse("length", [(length == 0 or len(body) < length, 18)])
        kind = body[0]
        reading.refuse("kind", [(not 1 <= kind <= 5, 19), (load is None and kind != 1, 19), (load is not None and kind == 1, 19)])
        load = step(reading, load, kind, reading.Fields(body[1:], second))
        at += 2 + length
    reading.refuse("end", [(load is None, 19)])
    return load


def step(reading, load, kind, fields):
    names = {1: "settings", 2: "stop", 3: "call", 4: "rule"}
    record = getattr(fields, names[kind])() if kind in names else None
    reading.refuse("rest", [(fields.at != len(fields.data), 18)])
    if kind == 1:
        return reading.open(record)
    if kind == 5:
        reading.search(load)
    else:
        getattr(reading, names[kind])(load, record)
    return load


def figures(j):
    return f"{j.leave} {j.arrival} {j.rides} {j.walk} {j.origin} {j.target}" if j else "none"


def spaced(*fields):
    return " ".join(str(int(f)) if isinstance(f, bool) else str(f) for f in fields)


def lines(reading, load):
    yield spaced("answers", *([load.answers] if load.answers else []))
    for c in sorted(load.table, key=lambda c: (c.trip, c.day, c.sequence)):
        yield spaced("call", *c)
    if load.searched:
        yield spaced("places", *("-" if p is None else p for p in load.places))
    for j in load.kept:
        yield "journey " + figures(j) + "".join(" | " + spaced(*leg) for leg in j.legs)
    yield f"horizon {load.horizon} limits {load.limits}"
    seconds = {-1, 0, load.horizon, load.horizon + 1}
    seconds |= {j.leave + d for j in load.kept for d in (0, 1)}
    for second in sorted(seconds):
        yield f"best {second} {figures(reading.best(load, second))}"
    for j in load.kept:
        yield f"next {j.leave} {figures(reading.next_after(load, 0, j))}"


def answer(reading, data):
    try:
        return list(lines(reading, records(reading, data)))
    except Refused as refused:
        return [f"refused {refused.number}"]


def batch(stream):
    """The load files of a stream in batch form."""
    while head := stream.read(4):
        yield stream.read(struct.unpack(">I", head)[0])


def chosen(words):
    if "--wrong" not in words:
        return Reading()
    import wrong
    return wrong.READINGS[words[words.index("--wrong") + 1]]()


def main():
    helped(__doc__)
    words = sys.argv[1:]
    if "--list" in words:
        import wrong
        return print("\n".join(wrong.READINGS))
    reading = chosen(words)
    if "--batch" not in words:
        return print("\n".join(answer(reading, sys.stdin.buffer.read())))
    for data in batch(sys.stdin.buffer):
        print("\n".join(answer(reading, data)) + "\n.")


if __name__ == "__main__":
    main()
