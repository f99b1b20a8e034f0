"""Wrong readings of request 12, each in one place: what a stopped load holds, refusals, margins, and step files (STEPS). The others are in
wrong_limits.py; wrong_steps.py counts the step files that tell them.
"""
from displays import Dealing
from fields import Refused
from limits import JOIN
from reader import spaced
from reading import Reading
from steps import Steps
from wrong import reordered
from wrong_limits import barred_too

READINGS, STEPS = {}, {}


def misread(name, **parts):
    READINGS[name] = type(name, (Reading,), parts)


# --- what a stopped load holds ---
class Holds(Reading):
    """A search that finished holds its limit, and calls are searched within it."""
    def within(self, load, limit):
        tested = Reading.within(self, load, limit)
        load.limit = limit
        return tested

    def search_as(self, load, other):
        if load.limit is None:
            self.search(other)
        else:
            self.within(other, load.limit)


class HoldsAgain(Holds):
    """Only one that finished when it was searched again holds the limit."""
    def search_within(self, load, limit):
        tested = Reading.search_within(self, load, limit)
        load.limit = limit if load.stopped else None
        return tested


class CallsInFull(Reading):
    def call(self, load, c, service=b""):
        limit, load.limit = load.limit, 2**64 - 1
        try:
            Reading.call(self, load, c, service)
        except Refused:
            load.limit = limit
            raise
        load.limit = limit if load.stopped else None


class WithdrawnInFull(Reading):
    def withdraw(self, load, key):
        limit, load.limit = load.limit, 2**64 - 1
        try:
            Reading.withdraw(self, load, key)
        except Refused:
            load.limit = limit
            raise


class StepForgets(Reading):
    """A step that is refused, or leaves the table, leaves a load that counts as finished."""
    def call(self, load, c, service=b""):
        table = load.table
        try:
            Reading.call(self, load, c, service)
        finally:
            load.stopped = load.stopped and load.table is not table


class SearchAgain(Reading):
    """A stopped load may be searched again."""
    def opened_again(self, load):
        if load.stopped:
            load.__dict__.update(self.unsearched(load).__dict__)

    def search(self, load):
        self.opened_again(load)
        Reading.search(self, load)


class LimitedAgain(SearchAgain):
    search = Reading.search

    def search_within(self, load, limit):
        self.opened_again(load)
        return Reading.search_within(self, load, limit)


class StoppedTakes(Reading):
    """15 doesn't meet a stopped load's stops and rules."""
    def stop(self, load, s):
        load.searched = load.searched and not load.stopped
        try:
            Reading.stop(self, load, s)
        finally:
            load.searched = load.searched or load.stopped

    def rule(self, load, r):
        load.searched = load.searched and not load.stopped
        try:
            Reading.rule(self, load, r)
        finally:
            load.searched = load.searched or load.stopped


class Unsearched(Reading):
    """A stopped load answers none."""
    def best(self, load, second):
        return None if load.stopped else Reading.best(self, load, second)


for kind in (Holds, HoldsAgain, CallsInFull, WithdrawnInFull, StepForgets, SearchAgain, LimitedAgain, StoppedTakes, Unsearched):
    READINGS[kind.__name__] = kind
misread("stopped-searched-in-full", search_as=lambda self, load, other: self.search(other))
misread("finished-searched-within-0", search_as=lambda self, load, other: self.within(other, load.limit if load.stopped else 0))
misread("limit-is-spent", stopped_at=lambda self, load, limit: Reading.stopped_at(self, load, 0))
misread("stopped-is-written", unwritable=lambda self, load: load.dates is not None or self.table_horizon(load) < self.WHOLE)


# --- refusals ---
def full_refusals(self, load, limit):
    """The causes of the full search."""
    Reading.search(self, self.copied(load))
    return Reading.within(self, load, limit)


def fall_stops(self, load, limit):
    """A list that can't fall stops the search."""
    found = []

    def candidate(j):
        try:
            Reading.candidate(self, load, j)
        except Refused:
            found.append(j)

    calls, tested = self.prepared(load), 0
    for event in self.events(load, calls):
        if event is not JOIN:
            candidate(event)
        if found or event is JOIN and self.past(tested, limit):
            self.stopped_at(load, limit)
            break
        tested += event is JOIN
    self.settled(load)
    return tested


def no_clash(self, load, limit):
    """With limit 0 neighbours aren't tested."""
    clash, self.clash = self.clash, (lambda a, b: False) if limit == 0 else self.clash
    try:
        return Reading.within(self, load, limit)
    finally:
        self.clash = clash


misread("11-behind-the-stop", within=full_refusals)
misread("11-is-a-stop", within=fall_stops)
misread("limit-0-meets-no-14", within=no_clash)
misread("limited-search-after-a-search", limited_causes=lambda self, load: Reading.limited_causes(self, load)[1:])
misread("1-with-one-change", limited_causes=lambda self, load: [(load.searched, 15), (load.settings.max_transfers > 0, 1)])
if Reading.TRANSFERS > 1:   # request 10
    misread("1-before-15", refuse=reordered("limited", 1, 15))
    misread("three-rides-within-a-limit", limited_causes=lambda self, load: Reading.limited_causes(self, load)[:1])


# --- the margin ---
def ends(rides):
    def earliest(self, load):
        found = rides(self, load, sorted(load.table, key=self.call_order))
        return min((r.arrival + load.settings.target_walks[t] * 60 for r in found for t in self.targets(load, r.dst)), default=0)
    return earliest


def calls_there(able):
    """The calls at targets, boarded before or not."""
    return lambda self, load, calls: [self.ride(c, c) for c in calls if able(c)]


def by_target(walk, choose=min):
    def earliest(self, load):
        rides = self.rides_in_order(sorted(load.table, key=self.call_order))
        due = lambda r: [r.arrival + walk(load.settings.target_walks[t]) for t in self.targets(load, r.dst)]
        return min(choose(due(r)) for r in rides if due(r))
    return earliest


def margin_of_full(self, load):
    answer = self.best(load, 0)
    if not load.stopped or not answer:
        return None
    full = self.copied(load.before)
    try:
        self.search(full)
    except Refused:
        return None
    return answer.arrival - self.best(full, 0).arrival


misread("margin-from-calls", earliest=ends(calls_there(lambda c: True)))
misread("margin-from-calls-left", earliest=ends(calls_there(lambda c: c.alight)))
misread("margin-from-first-rides", earliest=ends(lambda self, load, calls: [r for _, r in self.firsts_in_order(load, calls)]))
misread("margin-from-barred-rides", earliest=ends(lambda self, load, calls: barred_too(self, calls)))
misread("margin-without-walk", earliest=by_target(lambda walk: 0))
misread("margin-of-the-longest-walk", earliest=by_target(lambda walk: walk * 60, max))
misread("margin-of-the-first-target", earliest=by_target(lambda walk: walk * 60, lambda due: due[0]))
misread("margin-from-the-list", earliest=lambda self, load: min(j.arrival for j in load.kept))
misread("margin-of-the-full-search", margin=margin_of_full)
misread("margin-once-finished", margin=lambda self, load: (lambda answer: answer and answer.arrival - self.earliest(load))(
    self.best(load, 0)))


# --- step files ---
def misprint(name, **parts):
    STEPS[name] = type(name, (Steps,), parts)


def margined(steps, line, load):
    margin = steps.reading.margin(load)
    return line if margin is None or "margin" in line or line == "none" else f"{line} margin {margin}"


def margin_0_left_out(self, second):
    return Steps.best(self, second).removesuffix(" margin 0")


def none_has_margin(self, second):
    line = Steps.best(self, second)
    return line + " margin 0" if line == "none" and second == 0 and self.load.stopped else line


def said(word):
    def limited(self, limit):
        return spaced(word, Steps.limited(self, limit).split(" ")[1])
    return limited


def refused_keeps(self, limit):
    """A limited search that is refused leaves its list."""
    tested = self.reading.search_within(self.load, limit)
    return spaced("stopped" if self.load.stopped else "finished", tested)


def group_margin(self, asked):
    number, second = asked
    group = self.shown.get(number)
    answer = group and self.reading.best(group, second)
    margin = self.reading.margin(group) if answer and second == 0 else None
    return self.told(answer) + ("" if margin is None else f" margin {margin}")


def last_as_finished(self):
    yield from (line.replace("stopped 1", "stopped 0") for line in Steps.last(self))


class StoppedUnshown(Dealing):
    def unsearched(self, given):
        return Dealing.unsearched(self, given) or any(load.stopped for _, load in given)


misprint("margin-at-every-second", best=lambda self, second: margined(self, Steps.best(self, second), self.load))
misprint("margin-of-next-after", next_after=lambda self, asked: margined(self, Steps.next_after(self, asked), self.load))
misprint("margin-of-a-group", best_of_group=group_margin)
misprint("margin-0-left-out", best=margin_0_left_out)
misprint("margin-of-none", best=none_has_margin)
misprint("always-finished", limited=said("finished"))
misprint("always-stopped", limited=said("stopped"))
misprint("refused-limited-search-keeps", limited=refused_keeps)
misprint("told-as-finished", last=last_as_finished)
misprint("stopped-isnt-shown", __init__=lambda self: Steps.__init__(self, dealing=StoppedUnshown()))
