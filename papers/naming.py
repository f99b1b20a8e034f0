"""A connection as a person writes it, found in a paper: trips, stops by id or name, clock times where a trip calls twice."""
import re

from fields import FIELDS, TEXT, Record
from unpacking import clock, head, read

TIME = re.compile(r"\d+:\d\d(:\d\d)?$")


class Unclear(Exception):
    """What was written names no call of the paper, or several."""


def plain(text):
    return " ".join(text.split()).casefold()


class Paper:
    """The records of a load file, with its times as seconds from the start."""
    def __init__(self, data):
        self.settings, self.stops, self.calls, self.rules = None, [], [], []
        at = 1
        while at < len(data):
            kind, end = head(data, at, at == 1)
            fields = {}
            read(Record(data, at + 3, end), data[0], kind, fields)
            self.take(kind, fields)
            at = end

    def take(self, kind, fields):
        if kind == "settings":
            self.settings = fields
        elif kind != "search":
            {"stop": self.stops, "call": self.calls, "rule": self.rules}[kind].append(fields)

    def second(self, call, key):
        if call[key] is None or call["day"] > 2:
            return None
        return self.settings["epochs"][call["day"]] + call[key] - self.settings["now"]

    def clock(self, second):
        """By the clock of day 0."""
        return clock(second + self.settings["now"] - self.settings["epochs"][0])

    def label(self, number):
        stop = self.stops[number]
        return TEXT.show(stop["id"]).strip('"')

    def names(self, number):
        """What a stop may be called: its id, its name, and those of its station."""
        stop = self.stops[number]
        found = [stop["id"], stop.get("name")]
        parent = stop.get("parent")
        found += [parent] if parent is not None else []
        found += [s.get("name") for s in self.stops if parent is not None and s["id"] == parent]
        return {plain(n.decode("utf-8", "replace") if isinstance(n, bytes) else n) for n in found if n}

    def told(self, call):
        times = dict.fromkeys(self.clock(s) for s in (self.second(call, "arrival"), self.second(call, "departure")) if s is not None)
        return f"{self.label(call['stop'])} {' to '.join(times) or 'without a time'}"


def sides(text):
    """The rides written, each as trip, day or None, and the words of its two calls."""
    found = []
    for ride in re.findall(r'(?:"[^"]*"|[^,"])+', text):
        ends = ride.split(">")
        if len(ends) != 2:
            raise Unclear(f"'{ride.strip()}' should be a trip and a stop, '>', a stop")
        m = re.match(r"\s*(\d+)(?:/(\d+))?\s+(.*)$", ends[0])
        if not m:
            raise Unclear(f"'{ends[0].strip()}' should start with a trip's number, or trip/day, and then name a stop")
        found.append((int(m[1]), None if m[2] is None else int(m[2]), m[3], ends[1]))
    if not found:
        raise Unclear("no ride is named")
    return found


def at_time(paper, call, time):
    """Whether a call has a clock time, of its own day or of day 0; h:mm is a minute."""
    parts = [int(p) for p in time.split(":")]
    whole = len(parts) == 3
    wanted = parts[0] * 3600 + parts[1] * 60 + (parts[2] if whole else 0)
    shift = paper.settings["epochs"][call["day"]] - paper.settings["epochs"][0] if call["day"] < 3 else 0
    for key in ("arrival", "departure"):
        for add in (0, shift):
            if call[key] is not None and (call[key] + add == wanted or not whole and (call[key] + add) // 60 * 60 == wanted):
                return True
    return False


def one_call(paper, calls, words, trip):
    """The one call among some of a trip that words name."""
    parts = re.findall(r'"[^"]*"|\S+', words)
    times = [p for p in parts if TIME.match(p)]
    name = plain(" ".join(p.strip('"') for p in parts if not TIME.match(p)))
    listed = "; ".join(paper.told(c) for c in calls)
    if len(times) > 1:
        raise Unclear(f"'{words.strip()}' has two times")
    if name and not any(name in paper.names(i) for i in range(len(paper.stops))):
        raise Unclear(f"no stop is called '{name}'; trip {trip} calls at {listed}")
    found = [c for c in calls if not name or name in paper.names(c["stop"])]
    if not found:
        raise Unclear(f"trip {trip} doesn't call at '{name}'; it calls at {listed}")
    timed = [c for c in found if all(at_time(paper, c, t) for t in times)]
    if not timed:
        raise Unclear(f"trip {trip} isn't at '{name}' at {times[0]}; it is at {'; '.join(paper.told(c) for c in found)}")
    if len(timed) > 1:
        raise Unclear(f"'{words.strip()}' may be {' or '.join(paper.told(c) for c in timed)}: write a stop's id, and its time")
    return timed[0]


def one_day(paper, calls, trip, day, board):
    """The calls of a trip on the one day that is meant."""
    days = sorted({c["day"] for c in calls})
    if day is not None:
        if day not in days:
            raise Unclear(f"trip {trip} doesn't run on day {day}; it runs on day {', '.join(map(str, days))}")
        days = [day]
    fits = []
    for d in days:
        try:
            one_call(paper, [c for c in calls if c["day"] == d], board, trip)
            fits.append(d)
        except Unclear:
            if len(days) == 1:
                raise
    if len(fits) != 1:
        raise Unclear(f"trip {trip} runs on days {', '.join(map(str, days))}: write {trip}/DAY")
    return [c for c in calls if c["day"] == fits[0]]


def legs(paper, text):
    """The two calls of each ride."""
    found = []
    for trip, day, board, alight in sides(text):
        calls = [c for c in paper.calls if c["trip"] == trip]
        if not calls:
            raise Unclear(f"no trip {trip}; there are {', '.join(map(str, sorted({c['trip'] for c in paper.calls})))}")
        run = one_day(paper, calls, trip, day, board)
        found.append((one_call(paper, run, board, trip), one_call(paper, run, alight, trip)))
    return found


def end(paper, call, side, given, word):
    """The origin or target of a stop; the one given, or the only one; 0 where the stop is of none."""
    if given is not None:
        return given
    members = paper.stops[call["stop"]]["members"][side]
    if len(members) > 1:
        raise Unclear(f"{paper.label(call['stop'])} is of {word}s {', '.join(map(str, members))}: say --{word} N")
    return members[0] if members else 0
