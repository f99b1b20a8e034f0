"""What to say of a refusal: the field and what was expected, from the record at which the slow reader stopped."""
from fields import TEXT
from unpacking import clock as whole_clock, unpacked

GENERAL = {
    1: "settings out of range", 2: "the start or an epoch is beyond 2^40 either way", 3: "an id has 1 to 32 bytes",
    4: "a 129th stop", 5: "an id that is there already", 6: "a type above 1, or a station with a parent",
    7: "a parent that is no station above", 8: "a name that can't be used", 9: "a number out of range",
    10: "the arrival is after the departure",
    11: "so many calls or journeys that the horizon would fall below an hour, or a 129th rule",
    12: "a type above 3, or type 2 without seconds", 13: "a second rule for one pair of stops", 14: "two calls of one trip clash",
    15: "a line after search", 17: "no load file", 18: "a damaged record", 19: "a record that may not stand here"}


def clock(seconds):
    """By the clock, without seconds where there are none."""
    return whole_clock(seconds).removesuffix(":00") if seconds % 60 == 0 else whole_clock(seconds)


def quoted(value):
    return TEXT.show(value)


def first(pairs):
    return next((words for holds, words in pairs if holds), None)


def settings(judge, s, number):
    sides = (("origins", len(s.origin_walks)), ("targets", len(s.target_walks)))
    if number == 2:
        named = [("now", s.now), *((f"epochs, day {day}", epoch) for day, epoch in enumerate(s.epochs))]
        return first((abs(value) > judge.TIME, f"{name}: {value}, at most {judge.TIME} either way") for name, value in named)
    counts = [(count > judge.ENDS, f"walks: {count} {side}, at most {judge.ENDS}") for side, count in sides]
    return first(counts + [(s.max_transfers > judge.TRANSFERS, f"max-transfers: {s.max_transfers}, at most {judge.TRANSFERS}"),
                           (True, f"transfer-seconds: {s.transfer_seconds}, at most {judge.CHANGE}")])


def name_fault(judge, s):
    """Why a stop's name, or the id for none, can't be used."""
    if s.name is not None and judge.long(s.name):
        return f"name: {len(s.name)} bytes, at most {judge.NAME}"
    which, text = ("id, which stands for a name", s.id) if s.name is None else ("name", s.name)
    try:
        letters = text.decode("utf-8")
    except UnicodeDecodeError as error:
        return f"{which}: not UTF-8 from byte {error.start} on"
    bad = next((letter for letter in letters if judge.bad_point(ord(letter))), None)
    if bad is None:
        return f"{which}: no word"
    kind = "the control" if ord(bad) < 256 else f"{bad}, where letters up to U+00FF are expected:"
    return f"{which}: {kind} U+{ord(bad):04X}"


def stop(judge, s, number):
    same = lambda wanted: next((i for i, t in enumerate(judge.load.stops) if t.id == wanted), None)
    if number == 3:
        return f"id: {len(s.id)} bytes, 1 to {judge.ID} are expected"
    if number == 5:
        return ("id: taken already", judge.stops_at[same(s.id)])
    if number == 6:
        return f"type: {s.location_type}, 0 or 1 is expected" if s.location_type > 1 else "parent: a station has none"
    if number == 7:
        is_there = same(s.parent) is not None
        return f"parent: {quoted(s.parent)} is {'no station' if is_there else 'no station above'}"
    return name_fault(judge, s) if number == 8 else f"a {len(judge.load.stops) + 1}th stop, at most {judge.STOPS}"


def call(judge, c, number):
    if number == 9:
        return first([(c.stop >= len(judge.load.stops), f"stop: no stop {c.stop} above"), (c.trip == 65535, "trip: 65535, at most 65534"),
                      (c.day > 2, f"day: {c.day}, at most 2"), (c.pickup > 3, f"pickup: {c.pickup}, at most 3"),
                      (True, f"drop-off: {c.drop_off}, at most 3")])
    if number == 10:
        return f"arrives {clock(c.arrival)}, after it departs, {clock(c.departure)}"
    if number == 11:
        return "so many calls or journeys that the horizon would fall below an hour"
    # 14 of a call after the search: the searched load stays, so the clash is not in it
    return "clashes with a call of its trip and day: one sequence, or a departure after the next arrival" if number == 14 else None


def rule(judge, r, number):
    if number == 9:
        side, wrong = first([(r.src >= len(judge.load.stops), ("from", r.src)), (True, ("to", r.dst))])
        return f"{side}: no stop {wrong} above"
    if number == 12:
        return f"type: {r.transfer_type}, at most 3" if r.transfer_type > 3 else "seconds: none, and type 2 must have them"
    if number == 13:
        pair = [(q.src, q.dst) for q in judge.load.rules].index((r.src, r.dst))
        return ("from and to: a rule has this pair already", judge.rules_at[pair])
    return f"a {len(judge.load.rules) + 1}th rule, at most {judge.RULES}"


def clash(judge):
    """The first two neighbours that clash, as places and words: both calls."""
    at = {id(c): record for record, c in judge.calls}
    pairs = sorted(zip(judge.load.table, judge.load.handed), key=lambda pair: judge.call_order(pair[0]))
    for (a, c), (b, d) in zip(pairs, pairs[1:]):
        if judge.clash(a, b):
            name = f"call trip {c.trip}" + (f" day {c.day}" if c.day else "") + " sequence"
            if c.sequence == d.sequence:
                return [(at[id(c)], f"{name} {c.sequence}: a sequence that two calls have"), (at[id(d)], f"{name} {d.sequence}: the other")]
            words = f"departs {clock(c.departure)}, the next arrives {clock(d.arrival)}"
            return [(at[id(c)], f"{name} {c.sequence}: {words}"), (at[id(d)], f"{name} {d.sequence}: the next")]
    return []


def title(judge):
    record = judge.record
    stop_name = lambda n: quoted(judge.load.stops[n].id) if n < len(judge.load.stops) else str(n)
    return {"stop": lambda: f"stop {quoted(record.id)}", "call": lambda: f"call trip {record.trip} sequence {record.sequence}",
            "rule": lambda: f"rule from {stop_name(record.src)} to {stop_name(record.dst)}"}.get(judge.kind, lambda: judge.kind)()


def damaged(data, number):
    """What `unpack` says of damage, without its number."""
    lines, whole = unpacked(data)
    said = [line for line in lines if line.startswith("! unreadable")]
    return said[0][2:].rsplit(" (refused", 1)[0] if said and not whole else GENERAL[number]


def explained(judge, number, data):
    """The places (numbers of records) and words of a refusal; the first has the number. 17 to 19 are of the record after the last."""
    if number in (17, 18, 19):
        return [(judge.at + 1, damaged(data, number))]
    if number == 14 and judge.kind == "search" and clash(judge):
        return clash(judge)
    makers = {"settings": settings, "stop": stop, "call": call, "rule": rule}
    words = None
    if number == 15:
        words = "stands after search, which is to be last"
    elif judge.kind == "search" and number == 11:
        words = "so many journeys of which none beats another that the horizon would fall below an hour"
    elif judge.kind in makers:
        words = makers[judge.kind](judge, judge.record, number)
    words, other = words if isinstance(words, tuple) else (words, None)
    found = [(judge.at, f"{title(judge)}: {words or GENERAL.get(number, 'refused')}")]
    return found + ([(other, "the one before")] if other else [])
