#!/usr/bin/env python3
"""Wrong readings of step files, and how many files tell each from the right one.

usage: wrong_steps.py [N]      N random files (1,500 unless given; half of them of displays), and the fixed list of crates/drive/stdin

Exits with 1 if the fixed list doesn't tell one.
"""
import pathlib, random, sys
sys.dont_write_bytecode = True
from fields import first_cause
from displays import Dealing
from fields import Refused
from helping import helped
from reader import batch
from reading import Reading
from step_files import made, made_display
from steps import Malformed, Steps
import wrong_calls, wrong_limits, wrong_stopped, wrong_weeks, wrong_writes

FIXED = pathlib.Path(__file__).resolve().parent.parent / "crates" / "drive" / "stdin"


class RefusedCallCuts(Steps):
    def call(self, call, service=b""):
        self.reading.call(self.load, call, service)
        return "taken" if self.reading.was_taken(self.load) else "outside"


class RefusedSearchKeeps(Steps):
    def search(self, _):
        self.reading.search(self.load)
        return "taken"


class RefusedOpeningCloses(Steps):
    def settings(self, settings):
        self.load = None
        return super().settings(settings)


class FirstLoadStays(Steps):
    def settings(self, settings):
        before, line = self.load, super().settings(settings)
        self.load = before or self.load
        return line


class NextAtLeave(Steps):
    def next_after(self, asked):
        return super().next_after((asked[0], asked[1] - 1))


class NextWithoutSecond(Steps):
    def next_after(self, asked):
        return super().next_after((0, asked[1]))


class SecondOf32Bits(Steps):
    def best(self, second):
        return super().best((second + 2**31) % 2**32 - 2**31)


class MalformedPrintsLoad(Steps):
    def lines(self, data):
        try:
            yield from self.records(data)
        except Malformed:
            yield "malformed"
            yield from self.last()


class FifteenFirst(Dealing):
    FIRST = 15


class HighestFirst(Dealing):
    def turns(self, groups):
        return sorted(groups, reverse=True)


class DealtAgain(Dealing):
    """The share of a group that is refused goes to the others."""
    def display(self, given):
        shown = super().display(given)
        groups = dict(given)
        counted = {number: load.kept if shown[number] else [] for number, load in groups.items()}
        shares = self.shares(counted)
        return {number: self.shown(groups[number], shares[number]) if shown[number] else None for number in shown}


class WindowAtArrival(Dealing):
    def before(self, journey):
        return journey.arrival


class DueBefore(Dealing):
    def by(self, journey, window):
        return journey.arrival < window


class TiesShown(Dealing):
    """The window is that of the first that doesn't fit, and all of the share is shown."""
    def shown(self, load, share):
        group = super().shown(load, share)
        if group:
            group.kept = self.ranked(load.kept)[:share]
        return group


class HourRefused(Dealing):
    LEAST = 3601


class FourAllowed(Dealing):
    GROUPS = 5


class TwiceTaken(Dealing):
    def twice(self, given):
        return False


class UnsearchedShown(Dealing):
    def unsearched(self, given):
        return False


class AnyStart(Dealing):
    def unlike(self, given):
        return False


class AsideFollows(Steps):
    """A load set aside changes with the load."""
    def set_aside(self, number):
        line = super().set_aside(number)
        self.aside[-1] = number, self.load
        return line


class AsideStays(Steps):
    """Loads stay set aside after a display."""
    def display(self, record):
        given = self.aside
        try:
            return super().display(record)
        finally:
            self.aside = given


class RefusedDisplayStays(Steps):
    """A display that is turned away leaves the one before."""
    def display(self, record):
        shown = self.shown
        try:
            return super().display(record)
        except Refused:
            self.shown = shown
            raise


class QueriedToHorizon(Steps):
    """A group's best is that of its whole list."""
    def display(self, record):
        given = dict(self.aside)
        line = super().display(record)
        self.shown = {number: group and given[number] for number, group in self.shown.items()}
        return line


def dealing(kind):
    """The reading that deals so."""
    return type(kind.__name__, (Steps,), {"__init__": lambda self: Steps.__init__(self, dealing=kind())})


DEALINGS = [FifteenFirst, HighestFirst, DealtAgain, WindowAtArrival, DueBefore, TiesShown, HourRefused, FourAllowed, TwiceTaken,
            UnsearchedShown, AnyStart]


def misread(name, **parts):
    """The steps of a wrong reading of 01 and 02."""
    reading = type(name, (Reading,), parts)
    return type(name, (Steps,), {"__init__": lambda self: Steps.__init__(self, reading())})


def change_tested_last(self, step, causes):
    first_cause([causes[0], *causes[2:], causes[1]] if step == "open" else causes)


CHANGES = [misread("ChangeBelow15300", CHANGE=15299), misread("ChangeUpTo15301", CHANGE=15301), misread("ChangeOfAnySize", CHANGE=65535),
           misread("ChangeTestedLast", refuse=change_tested_last),
           misread("ChangeInMinutes", change=lambda self, load: load.settings.transfer_seconds // 60 * 60),
           misread("ChangeToTheNextMinute", change=lambda self, load: -load.settings.transfer_seconds // 60 * -60),
           misread("ChangeTimes60", change=lambda self, load: load.settings.transfer_seconds * 60)]
READINGS = {way.__name__: way for way in (RefusedCallCuts, RefusedSearchKeeps, RefusedOpeningCloses, FirstLoadStays, NextAtLeave,
                                          NextWithoutSecond, SecondOf32Bits, MalformedPrintsLoad, *CHANGES, AsideFollows, AsideStays,
                                          RefusedDisplayStays, QueriedToHorizon, *map(dealing, DEALINGS))}
READINGS.update(wrong_stopped.STEPS)
# requests 03's, 11's, 12's and 13's: the steps right, over a reading that isn't
for readings in (wrong_weeks.READINGS, wrong_calls.READINGS, wrong_limits.READINGS, wrong_stopped.READINGS, wrong_writes.READINGS):
    READINGS.update((name, lambda reading=reading: Steps(reading())) for name, reading in readings.items())


def telling(reading, files):
    return sum(list(reading().lines(data)) != right for data, right in files)


def read(files):
    return [(data, list(Steps().lines(data))) for data in files]


def main():
    helped(__doc__)
    count = int(sys.argv[1]) if len(sys.argv) > 1 else 1500
    with FIXED.open("rb") as stream:
        fixed = read(batch(stream))
    some = read((made if i % 2 else made_display)(random.Random(f"wrong {i}")) for i in range(count))
    told = [(name, telling(reading, some), telling(reading, fixed)) for name, reading in READINGS.items()]
    for name, random_files, fixed_files in told:
        print(f"{name}: {random_files} of {count} random files, {fixed_files} of {len(fixed)} fixed ones")
    sys.exit(any(fixed_files == 0 for _, _, fixed_files in told))


if __name__ == "__main__":
    main()
