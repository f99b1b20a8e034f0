"""What a paper's key shows: the lines of the program `key_lines`, and the paper's stops, clock and slips for words beside them.

The journeys and their figures are the program's alone. Names, clocks and walks are read from the load file.
"""
import re
from collections import namedtuple
import slow
from judging import Judge
from refusing import clock

Ride = namedtuple("Ride", "trip day src dst departure arrival board_request alight_request")
Journey = namedtuple("Journey", "leave arrival rides walk origin target legs")
Printed = namedtuple("Printed", "refused journeys horizon limits searched")
NUMBERS = r"(?: [0-9]+)"
LINE = re.compile(rf"journey({NUMBERS}{{6}})((?: \|{NUMBERS}{{8}}){{1,3}})")
END = re.compile(r"horizon ([0-9]+) limits ([01])\nsearched ([01])\n")


class Unread(Exception):
    """What the program printed is no list, or not the whole of one."""


def journey(line):
    found = LINE.fullmatch(line)
    if not found:
        raise Unread(f"a line that is no journey: {line!r}")
    figures = list(map(int, found[1].split()))
    legs = [Ride(*map(int, part.split())) for part in found[2].split("|")[1:]]
    if len(legs) != figures[2]:
        raise Unread(f"{len(legs)} rides where {figures[2]} are counted: {line!r}")
    return Journey(*figures, legs)


def printed(text):
    """The program's lines; a list that breaks off is none."""
    refused = re.fullmatch(r"refused ([0-9]+)\n", text)
    if refused:
        return Printed(int(refused[1]), [], 0, 0, 0)
    at = text.rfind("horizon ")
    end = END.fullmatch(text[at:]) if at >= 0 else None
    if not end:
        raise Unread("the program's lines are not whole")
    return Printed(None, [journey(line) for line in text[:at].splitlines()], *map(int, end.groups()))


class Quick(Judge):
    """Judges all but which journeys a search finds: the list is the program's."""
    def offers(self, load, calls):
        return []


class Paper:
    """A load file that is not refused, as a key names it."""
    def __init__(self, data):
        self.judge = Quick()
        slow.reader.records(self.judge, data)
        self.load = self.judge.load
        self.settings = self.load.settings
        self.names = [self.text(stop.id if stop.name is None else stop.name) for stop in self.load.stops]

    @staticmethod
    def text(value):
        """Letters as they are, and what can't be printed by the digits of its bytes."""
        digits = lambda c: "".join(f"\\x{b:02x}" for b in c.encode("utf-8", "surrogateescape"))
        return "".join(c if c.isprintable() else digits(c) for c in value.decode("utf-8", "surrogateescape"))

    def name(self, number):
        """A stop's name, with its id where others have that name."""
        name = self.names[number]
        plain = lambda other: " ".join(other.lower().split())
        alike = sum(plain(name) == plain(other) for other in self.names) > 1
        return f"{name} ({self.text(self.load.stops[number].id)})" if alike else name

    def clock(self, second):
        """A second from the start by the clock of day 0."""
        return clock(self.settings.now + second - self.settings.epochs[0])

    def members(self, of, end):
        """The stops of an origin or a target."""
        return [self.name(i) for i in range(len(self.load.stops)) if end in of(self.load, i)]

    def warnings(self, shown):
        """Each as the number of a record, 0 for the whole, and words."""
        table, final = self.load.horizon, shown.horizon
        if not shown.searched:
            yield 0, "no search: nothing was looked for, and nothing can be marked by this page"
        if table < 21600:
            yield 0, f"over 512 calls: the table was cut, and the horizon with it, to {self.clock(table)}"
        if final < table:
            yield 0, f"over 64 journeys of which none beats another: the list was cut, and the horizon with it, to {self.clock(final)}"
        if shown.searched and not shown.journeys:
            yield 0, "no connection" if self.load.table else "no call is within the window"
        yield from self.judge.calls_left()
        yield from self.judge.ends()
        yield from self.judge.far_names()


def minutes(seconds):
    return f"{seconds // 60} min" + (f" {seconds % 60} s" if seconds % 60 else "")


def steps(paper, j):
    """A journey from leaving to arriving, as rows of clock and words; words in pairs of a text and whether it is a name."""
    on_foot = paper.settings.origin_walks[j.origin], paper.settings.target_walks[j.target]
    yield j.leave, [("Leave for ", False), (paper.name(j.legs[0].src), True), (f", {on_foot[0]} min on foot (origin {j.origin})", False)]
    for at, leg in enumerate(j.legs):
        if at:
            before = j.legs[at - 1]
            wait = f", {minutes(leg.departure - before.arrival)} until it departs"
            where = [("Change at ", False), (paper.name(before.dst), True)] if leg.src == before.dst else \
                [("Change from ", False), (paper.name(before.dst), True), (" to ", False), (paper.name(leg.src), True)]
            yield before.arrival, where + [(wait, False)]
        trip = f"Trip {leg.trip}" + (f" of day {leg.day}" if leg.day else "")
        asked = " (on request)"
        yield leg.departure, [(f"{trip}: board at ", False), (paper.name(leg.src), True), (asked if leg.board_request else "", False)]
        yield leg.arrival, [("Alight at ", False), (paper.name(leg.dst), True), (asked if leg.alight_request else "", False)]
    yield j.arrival, [(f"Arrive, {on_foot[1]} min on foot (target {j.target})", False)]
