"""Dates, services and exceptions of a paper (request 03). Load files carry none, so packing leaves out the calls of services that rest.

Which services run, and what is wrong with one, is the slow reader's (slow.py); its numbers are said in words, and such a paper isn't
packed.
"""
import re
import slow
from fields import BYTE, TEXT

SAID = {3: "a service's name has 1 to 32 bytes", 5: "a service has this name already", 20: "no such date, or a type other than 1 and 2",
        21: "no such service above", 22: "a 65th service", 15: "services stand above the calls, in a paper whose settings have dates"}


def date_of(word):
    """Year, month and day as one number."""
    if not re.fullmatch(r"[0-9]{4}-[0-9]{2}-[0-9]{2}", word):
        raise ValueError(f"{word}, where a date as 2026-03-02 was expected")
    return int(word.replace("-", ""))


def marks_of(word):
    if not re.fullmatch("[01]{7}", word):
        raise ValueError(f"{word}, where seven marks 0 or 1, Monday's first, were expected")
    return [int(mark) for mark in word]


def text_of(word):
    return TEXT.parse(word, [])


FIELDS = {"service": {"name": text_of, "weekdays": marks_of, "start": date_of, "end": date_of},
          "exception": {"service": text_of, "date": date_of, "type": lambda word: BYTE.parse(word, [])}}


class Week:
    """What a paper has said of its dates so far."""
    def __init__(self):
        self.reading, self.load = slow.reading.Reading(), slow.reading.Load(None)
        self.lines, self.calls = {}, {}   # of each service its line, and how many calls it has on each day

    def judged(self, step, *words):
        try:
            return step(*words)
        except slow.fields.Refused as refused:
            raise ValueError(f"{SAID[refused.number]} (refused {refused.number})")

    def take(self, kind, pairs, line):
        """A service or an exception."""
        found = dict(pairs)
        if sorted(found, key=str) != sorted(FIELDS[kind]) or len(found) < len(pairs):
            raise ValueError(f"{kind} has the fields {', '.join(FIELDS[kind])}, each once")
        values = []
        for key, parse in FIELDS[kind].items():
            try:
                values.append(parse(found[key]))
            except ValueError as error:
                raise ValueError(f"{key}: {error}")
        record = (slow.weeks.Service if kind == "service" else slow.weeks.ServiceDate)(*values)
        self.judged(getattr(self.reading, kind), self.load, record)
        if kind == "service":
            self.lines[record.name] = line

    def own(self, kind, pairs):
        """The word of this module that a record's line has, if any, and the others."""
        key = {"settings": "dates", "call": "service"}.get(kind)
        mine = [value for word, value in pairs if word == key]
        if len(mine) > 1:
            raise ValueError(f"{key} stands twice")
        return mine[0] if mine else None, [pair for pair in pairs if pair[0] != key]

    def dates(self, word):
        if len(word.split(",")) != 3:
            raise ValueError(f"dates: {word}, where three with ',' between them were expected, of days 0, 1 and 2")
        found = [date_of(part) for part in word.split(",")]
        if self.reading.no_date(*found):
            raise ValueError(f"dates: {word}: {SAID[20]} (refused 20)")
        self.load.dates = found

    def rests(self, word, day):
        """Whether a call is left out: its service doesn't run on its day."""
        self.load.answered = True
        if self.load.dates is None or word is None:
            if word is not None or self.load.dates is not None:
                raise ValueError(f"service: {'missing, and' if word is None else 'given, but only'} a paper with dates has it")
            return False
        name = text_of(word)
        if not self.reading.has_service(self.load, name):
            raise ValueError(f"service: {word}: {SAID[21]} (refused 21)")
        self.calls[name, day] = self.calls.get((name, day), 0) + 1
        return day < 3 and not self.reading.runs(self.load, name, day)

    def notes(self):
        """Of each service and day with calls: its line, whether it rests, and words."""
        for (name, day), count in sorted(self.calls.items()):
            if day < 3:
                number, rests = str(self.load.dates[day]), not self.reading.runs(self.load, name, day)
                date = f"{number[:-4].zfill(4)}-{number[-4:-2]}-{number[-2:]}"
                words = f"service {TEXT.show(name)}: {'rests' if rests else 'runs'} on {date}, day {day}; "
                yield self.lines[name], rests, words + f"{count} call{'s' * (count != 1)}" + (" left out" if rests else "")
