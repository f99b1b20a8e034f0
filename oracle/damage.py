"""Damage to load files: bytes, and records with their lengths, kinds and fields. `fuzz` uses it."""
ODD = [0, 1, 2, 3, 4, 5, 6, 31, 32, 33, 64, 65, 127, 128, 254, 255]
TAILS = [b"\0", b"\0\0", b"\0\1", b"\0\1\5", b"\0\1\5\0", b"\0\2\5\0", b"\0\1\6", b"\0\1\0", b"\0\1\1", b"\xff\xff",
         b"\xff\xff\5"]
EXTREMES = [2**40, 2**40 + 1, -2**40, -2**40 - 1, 2**63 - 1, -2**63, 21600, 21601, 2**32 - 1, 0x7ff8 << 48, 0x7ff0 << 48]


def records(data):
    """The records after the version; what is malformed stays with the last."""
    parts, at = [], 1
    while at < len(data):
        size = 2 + int.from_bytes(data[at:at + 2], "big")
        parts.append(data[at:at + size])
        at += size
    return parts


def fitted(kind, fields):
    """A record whose length fits its fields."""
    return ((len(fields) + 1) % 65536).to_bytes(2, "big") + kind + fields


def place(rng, data):
    return rng.randrange(len(data) + 1)


def byte(rng):
    return bytes([rng.choice(ODD) if rng.random() < 0.6 else rng.randrange(256)])


# --- bytes ---
def changed(rng, data):
    at = place(rng, data)
    return data[:at] + byte(rng) + data[at + 1:]


def flipped(rng, data):
    at = place(rng, data)
    return data[:at] + bytes(b ^ 1 << rng.randrange(8) for b in data[at:at + 1]) + data[at + 1:]


def cut(rng, data):
    return data[:place(rng, data)]


def inserted(rng, data):
    at = place(rng, data)
    return data[:at] + b"".join(byte(rng) for _ in range(rng.randint(1, 4))) + data[at:]


def removed(rng, data):
    at = place(rng, data)
    return data[:at] + data[at + rng.randint(1, 4):]


def doubled(rng, data):
    at, size = place(rng, data), rng.choice([1, 2, 3, 8, 40])
    return data[:at] + data[at:at + size] + data[at:]


def version(rng, data):
    return byte(rng) + data[1:]


def tail(rng, data):
    return data + rng.choice(TAILS)


# --- the list of records ---
def swapped(rng, parts):
    i, j = rng.randrange(len(parts)), rng.randrange(len(parts))
    parts[i], parts[j] = parts[j], parts[i]


def dropped(rng, parts):
    del parts[rng.randrange(len(parts))]


def repeated(rng, parts):
    parts.insert(place(rng, parts), rng.choice(parts))


# --- one record ---
def length(rng, record):
    size = int.from_bytes(record[:2], "big")
    size = rng.choice([0, 1, size - 1, size + 1, size + 2, size + 256, 65535, rng.randrange(65536)])
    return (size % 65536).to_bytes(2, "big") + record[2:]


def kind(rng, record):
    return record[:2] + bytes([rng.choice([0, 1, 2, 3, 4, 5, 6, 7, 255])]) + record[3:]


def field(rng, record):
    at = rng.randrange(3, max(4, len(record)))
    return record[:at] + byte(rng) + record[at + 1:]


def mark(rng, record):
    """A byte 0 or 1, which may say whether a field is there, becomes another."""
    at = rng.choice([i for i in range(3, len(record)) if record[i] < 2] or [len(record)])
    return record[:at] + rng.choice([b"\0", b"\1", b"\2", b"\xff"]) + record[at + 1:]


def extreme(rng, record):
    at, size = rng.randrange(3, max(4, len(record))), rng.choice([2, 4, 8])
    return record[:at] + (rng.choice(EXTREMES) % 256**size).to_bytes(size, "big") + record[at + size:]


def stretched(rng, record):
    """Bytes more or fewer, the length made to fit them."""
    fields, size = record[3:], rng.choice([1, 1, 1, 2, 4, 8])
    return fitted(record[2:3], rng.choice([fields[:-size], fields + bytes(size), fields[size:], byte(rng) + fields]))


def huge(rng, record):
    return fitted(record[2:3], (record[3:] + bytes(65534))[:65534])


# --- version 2 ---
def in_seconds(data, seconds):
    """A file of version 1 as one of version 2, `seconds` telling its change time of the minutes; another file as it is."""
    parts = records(data)
    body = parts[0][3:] if parts and parts[0][2:3] == b"\1" else b""
    at = 2 + sum(body[:2])
    if data[:1] != b"\1" or at >= len(body):
        return data
    parts[0] = fitted(b"\1", body[:at] + seconds(body[at]).to_bytes(2, "big") + body[at + 1:])
    return b"\2" + b"".join(parts)


def second(rng, data):
    """A file of version 1 as one of version 2, its change time in seconds, often no whole minutes."""
    def seconds(minutes):
        odd = [0, 1, 59, 61, 90, 15299, 15300, 15301, 65535, rng.randrange(65536)]
        return minutes * 60 if rng.random() < 0.5 else rng.choice(odd)

    return in_seconds(data, seconds)


BYTES = [changed, flipped, cut, inserted, removed, doubled, version, tail]
LISTS = [swapped, dropped, repeated]
SINGLE = [length, kind, field, field, mark, mark, extreme, extreme, stretched, stretched]


def damage_once(rng, data, other):
    parts, way = records(data), rng.random()
    if way < 0.35 or not parts:
        return rng.choice(BYTES)(rng, data)
    if way < 0.5:
        rng.choice(LISTS)(rng, parts)
    elif way < 0.55:
        parts.insert(place(rng, parts), rng.choice(records(other) or [b""]))
    else:
        at = rng.randrange(len(parts))
        parts[at] = (huge if rng.random() < 0.0005 else rng.choice(SINGLE))(rng, parts[at])
    return data[:1] + b"".join(parts)


def damaged(rng, data, other):
    """The file with one to four of these damages, and not as it was; seldom mere noise after the version. `other` lends a record.
    Half of the files are of version 2 first, and some of those are left as they then are."""
    if rng.random() < 0.01:
        return rng.choice([b"\1", b"\2"]) + rng.randbytes(rng.randrange(40))
    found = second(rng, data) if rng.random() < 0.5 else data
    if found != data and rng.random() < 0.2:
        return found
    for _ in range(rng.choice([1, 1, 1, 2, 2, 3, 4])):
        found = damage_once(rng, found, other)
    return found if found != data else damaged(rng, data, other)
