#!/usr/bin/env python3
"""A slow reader of step files (docs/STEPS.md), over the reader of documents 01 and 02.

usage: steps.py      step files on standard input, what `drive` is to print on standard output

Input that begins with byte 83 is one step file; other input is a batch, with a line `.` after each file.
A kind of record is one method of Steps and one line of KINDS.
"""
import copy, io, sys
from displays import Dealing
from fields import Fields, Refused
from helping import helped
from reader import batch, figures, spaced
from reading import Journey, Reading
from weeks import Service, ServiceDate
from withdrawals import Key

FIRST = 83


class Malformed(Exception):
    pass


class StepFields(Fields):
    """The fields of load files of version 2: the transfer setting is two bytes of seconds."""
    def change(self):
        return self.number("H")

    def dated(self):
        return self.settings(), self.numbers("III")

    def service(self):
        return Service(self.text(), [self.mark() for _ in range(7)], *self.numbers("II"))

    def exception(self):
        return ServiceDate(self.text(), *self.numbers("IB"))

    def call_of(self):
        return self.call(), self.text()

    def key(self):
        return Key(*self.numbers("HBI"))

    def limit(self):
        return self.number("Q")

    def room(self):
        return self.number("I")

    def nothing(self):
        return []

    def best(self):
        return self.number("q")

    def next_after(self):
        return self.numbers("qH")

    def group(self):
        return self.number("B")

    def best_of_group(self):
        return self.numbers("Bq")

    def next_of_group(self):
        return self.numbers("BqH")


class Steps:
    """The steps of one file. A method is handed a record's fields, and says the line that is printed."""
    # kind: the name of its fields, its method, and whether it needs a load
    KINDS = {1: ("settings", "settings", False), 2: ("stop", "stop", True), 3: ("call", "call", True), 4: ("rule", "rule", True),
             5: ("nothing", "search", True), 6: ("service", "service", True), 7: ("exception", "exception", True),
             8: ("key", "withdrawal", True), 9: ("limit", "limited", True), 10: ("call_of", "call_of", True), 11: ("dated", "dated", False),
             12: ("best", "best", True), 13: ("next_after", "next_after", True), 14: ("room", "write", True),
             15: ("group", "set_aside", True), 16: ("nothing", "display", False), 17: ("best_of_group", "best_of_group", False),
             18: ("next_of_group", "next_of_group", False)}
    ASIDE, ROOM = 4, 70000

    def __init__(self, reading=None, dealing=None):
        self.reading, self.load = reading or Reading(), None
        self.dealing, self.aside, self.shown = dealing or Dealing(), [], {}

    def settings(self, settings):
        self.load = self.reading.open(settings)
        return "opened"

    def stop(self, stop):
        self.reading.stop(self.load, stop)
        return "taken"

    def dated(self, given):
        self.load = self.reading.open_dated(*given)
        return "opened"

    def service(self, service):
        self.reading.service(self.load, service)
        return "taken"

    def exception(self, exception):
        self.reading.exception(self.load, exception)
        return "taken"

    def call_of(self, given):
        return self.call(*given)

    def call(self, call, service=b""):
        cuts = self.load.horizon, self.load.limits, self.load.table, self.load.handed
        try:
            self.reading.call(self.load, call, service)
        except Refused:   # a call that is refused at a full table has cut nothing
            self.load.horizon, self.load.limits, self.load.table, self.load.handed = cuts
            raise
        return "taken" if self.reading.was_taken(self.load) else "outside"

    def withdrawal(self, key):
        self.reading.withdraw(self.load, key)
        return "taken"

    def rule(self, rule):
        self.reading.rule(self.load, rule)
        return "taken"

    def searched(self, search):
        """What the search answers; one that is refused leaves the load as it was."""
        found = self.load.horizon, self.load.limits, self.load.kept
        try:
            return search()
        except Refused:
            self.load.horizon, self.load.limits, self.load.kept = found
            raise

    def search(self, _):
        self.searched(lambda: self.reading.search(self.load))
        return "taken"

    def limited(self, limit):
        tested = self.searched(lambda: self.reading.search_within(self.load, limit))
        return spaced("stopped" if self.load.stopped else "finished", tested)

    def told(self, journey):
        return "journey " + figures(journey) if journey else "none"

    def best(self, second):
        margin = self.reading.margin(self.load) if second == 0 else None
        return self.told(self.reading.best(self.load, second)) + ("" if margin is None else f" margin {margin}")

    def next_after(self, asked):
        second, leave = asked
        return self.told(self.reading.next_after(self.load, second, Journey(leave, 0, 0, 0, 0, 0, [])))

    def write(self, room):
        data = self.reading.write(self.load, min(room, self.ROOM))
        return f"written {len(data)} {self.reading.fold(data):016x}"

    # --- displays ---
    def set_aside(self, number):
        if len(self.aside) == self.ASIDE:
            raise Malformed
        self.aside.append((number, copy.copy(self.load)))
        return "aside"

    def display(self, _):
        given, self.aside, self.shown = self.aside, [], {}
        self.shown = self.dealing.display(given)
        return " ; ".join(f"group {number} " + (f"window {group.horizon} shown {len(group.kept)}" if group else "refused 11")
                          for number, group in self.shown.items())

    def best_of_group(self, asked):
        number, second = asked
        group = self.shown.get(number)
        return self.told(group and self.reading.best(group, second))

    def next_of_group(self, asked):
        number, second, leave = asked
        group = self.shown.get(number)
        return self.told(group and self.reading.next_after(group, second, Journey(leave, 0, 0, 0, 0, 0, [])))

    # --- records ---
    def record(self, body):
        """The line of a record. A refusal of its fields (18) is a malformed record; the steps' own are printed."""
        kind = body[0] if body else 0
        if kind not in self.KINDS:
            raise Malformed
        name, method, needs = self.KINDS[kind]
        fields = StepFields(body[1:])
        try:
            given = getattr(fields, name)()
        except Refused:
            raise Malformed
        if fields.at != len(fields.data) or (needs and self.load is None):
            raise Malformed
        try:
            return getattr(self, method)(given)
        except Refused as refused:
            return f"refused {refused.number}"

    def records(self, data):
        """A line for each record; then the last load's."""
        if data[:1] != bytes([FIRST]):
            raise Malformed
        at = 1
        while at < len(data):
            size = int.from_bytes(data[at:at + 2], "big")
            body = data[at + 2:at + 2 + size]
            if at + 2 > len(data) or len(body) < size:
                raise Malformed
            yield self.record(body)
            at += 2 + size
        yield from self.last()

    def last(self):
        load = self.load
        if load is None:
            return
        for c in sorted(load.table, key=self.reading.call_order):
            yield spaced("call", *c)
        for j in load.kept:
            yield "journey " + figures(j) + "".join(" | " + spaced(*leg) for leg in j.legs)
        yield f"horizon {load.horizon} limits {load.limits}"
        yield spaced("searched", load.searched, "stopped", load.stopped)

    def lines(self, data):
        try:
            yield from self.records(data)
        except Malformed:
            yield "malformed"


def answer(data):
    return "".join(line + "\n" for line in Steps().lines(data))


def main():
    helped(__doc__)
    data = sys.stdin.buffer.read()
    if data[:1] == bytes([FIRST]):
        return print(answer(data), end="")
    for file in batch(io.BytesIO(data)):
        print(answer(file) + ".")


if __name__ == "__main__":
    main()
