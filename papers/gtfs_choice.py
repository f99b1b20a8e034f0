"""Which trips and calls of a feed a paper needs: those of any connection of one ride, or of two, within six hours.

A run is a trip on one of the three days. Times here are seconds from the start. A change is thought possible wherever it might be:
at one stop, in one station, between stops of one name, or where a transfer row has it; the proved program decides.
"""
from collections import defaultdict

HORIZON, DAY = 21600, 86400
EPOCHS = 0, -DAY, DAY   # the day, the day before, the day after


class Run:
    def __init__(self, trip, day, calls, start):
        self.trip, self.day, self.calls, self.used = trip, day, calls, set()
        self.times = [(EPOCHS[day] + c.arrival - start, EPOCHS[day] + c.departure - start) for c in calls]

    def inside(self, i):
        return self.times[i][1] >= 0 and self.times[i][0] <= HORIZON

    def boards(self, i):
        return self.calls[i].pickup != 1 and 0 <= self.times[i][1] <= HORIZON

    def alights(self, i):
        return self.calls[i].drop_off != 1 and 0 <= self.times[i][0] <= HORIZON


class Ends:
    """The stops of each origin, or of each target, and the least walk from or to a stop in seconds."""
    def __init__(self, sides):
        self.sides, self.walk = sides, {}
        for members, minutes in sides:
            for stop in members:
                self.walk[stop] = min(self.walk.get(stop, 255 * 60), minutes * 60)


def links(stops, used, transfers):
    """For each stop the stops to which a change might be possible."""
    groups, reach = defaultdict(set), defaultdict(set)
    for stop in used:
        groups["stop", stop].add(stop)
        groups["parent", stops[stop].parent or stop].add(stop)
        for text in {stops[stop].name, stop} - {""}:   # the id stands in where a name is dropped
            groups["name", " ".join(text.split()).casefold()].add(stop)
    for group in groups.values():
        for stop in group:
            reach[stop] |= group
    side = lambda stop: groups["parent", stop] | groups["stop", stop]
    for transfer in transfers:
        for stop in side(transfer.source):
            reach[stop] |= side(transfer.target)
    return reach


def firsts(run, origins):
    """The calls at which one may board from an origin."""
    return [i for i, call in enumerate(run.calls) if call.stop in origins.walk and run.boards(i)
            and run.times[i][1] >= origins.walk[call.stop]]


def lasts(run, targets):
    """The calls at which one may alight for a target."""
    return [i for i, call in enumerate(run.calls) if call.stop in targets.walk and run.alights(i)
            and run.times[i][0] + targets.walk[call.stop] <= HORIZON]


def direct(run, origins, targets):
    for i in firsts(run, origins):
        for j in lasts(run, targets):
            if i < j:
                run.used |= {i, j}


def changes(runs, origins, targets, reach):
    """Marks the calls of every connection of two rides: boarding, alighting before the change, boarding after it, alighting."""
    boards = defaultdict(list)
    for run in runs:
        last = max(lasts(run, targets), default=0)
        for i in range(last):
            if run.boards(i):
                boards[run.calls[i].stop].append((run.times[i][1], run, i))
    for run in runs:
        first = min(firsts(run, origins), default=len(run.calls))
        for i in range(first + 1, len(run.calls)):
            if run.alights(i):
                onward = [(other, j) for stop in reach[run.calls[i].stop] for departure, other, j in boards[stop]
                          if other is not run and run.times[i][0] <= departure]
                for other, j in onward:
                    other.used |= {j} | {k for k in lasts(other, targets) if k > j}
                if onward:
                    run.used |= {i} | {k for k in firsts(run, origins) if k < i}


def mark(runs, origins, targets, stops, transfers, two):
    """Marks in each run the calls that some connection might use."""
    for run in runs:
        direct(run, origins, targets)
    if two:
        used = {call.stop for run in runs for call in run.calls}
        changes(runs, origins, targets, links(stops, used, transfers))
