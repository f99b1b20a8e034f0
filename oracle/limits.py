"""Request 12, read slowly: a search within a limit on joins. A method for each sentence, so that wrong_limits.py can misread one at a time.

The offer order is listed as events: a journey that is offered, or JOIN for a join that is tested. A join is followed by the journeys that
it gives. A stopped load holds its limit; one whose search finished is that of a full search, and holds none.
"""
JOIN = "join"


class Limits:
    # --- joins and journeys in the offer order ---
    def rides_in_order(self, calls):
        """Every ride of the table, by boarding call and alighting call."""
        return [self.ride(b, a) for i, b in enumerate(calls) if b.board for a in self.alightings(calls, i)]

    def firsts_in_order(self, load, calls):
        """Each origin's first rides, with the origin: by boarding call, origin and alighting call, where the walk is met."""
        for i, b in enumerate(calls):
            for origin in self.origins(load, b.stop) if b.board else []:
                if self.boards(b.departure, load.settings.origin_walks[origin]):
                    for a in self.alightings(calls, i):
                        yield origin, self.ride(b, a)

    def joins_of(self, load, first, last):
        """A pair of rides is one join, targets aside, whether or not they join."""
        return 1

    def do_join(self, load, first, last, known):
        """`known` are the changes between stops, as far as they were asked."""
        pair = first.dst, last.src
        if pair not in known:
            known[pair] = self.transfer(load, *pair)
        return self.other(first, last) and known[pair] is not None and self.meets(first.arrival, known[pair], last.departure)

    def lists_joins(self, load):
        return load.settings.max_transfers == 1

    def directs(self, load, origin, first):
        return [self.journey(load, origin, target, [first]) for target in self.targets(load, first.dst)]

    def pairings(self, load, origin, first, lasts, known):
        """The joins of a first ride with every ride, each before its journeys."""
        for last, targets in lasts:
            yield from [JOIN] * self.joins_of(load, first, last)
            if targets and self.do_join(load, first, last, known):
                yield from (self.journey(load, origin, target, [first, last]) for target in targets)

    def events(self, load, calls):
        lasts, known = [(ride, self.targets(load, ride.dst)) for ride in self.rides_in_order(calls)], {}
        for origin, first in self.firsts_in_order(load, calls):
            yield from self.directs(load, origin, first)
            if self.lists_joins(load):
                yield from self.pairings(load, origin, first, lasts, known)

    # --- the search ---
    def past(self, tested, limit):
        """Whether the next join is past the limit."""
        return tested >= limit

    def stopped_at(self, load, limit):
        load.stopped, load.limit = True, limit

    def within(self, load, limit):
        """The number of joins tested; the search stops just before the first join past the limit."""
        calls, tested = self.prepared(load), 0
        for event in self.events(load, calls):
            if event is not JOIN:
                self.candidate(load, event)
            elif self.past(tested, limit):
                self.stopped_at(load, limit)
                break
            else:
                tested += 1
        self.settled(load)
        return tested

    def limited_causes(self, load):
        return [(load.searched, 15), (load.settings.max_transfers > 1, 1)]

    def search_within(self, load, limit):
        self.refuse("limited", self.limited_causes(load))
        return self.within(load, limit)

    def search_as(self, load, other):
        """Where a call was added or withdrawn: a stopped load is searched within its limit, any other searched one in full."""
        if load.stopped:
            self.within(other, load.limit)
        else:
            self.search(other)

    # --- the margin ---
    def earliest(self, load):
        """The earliest arrival, walk included, of any ride in the table at a target."""
        rides = self.rides_in_order(sorted(load.table, key=self.call_order))
        return min(r.arrival + load.settings.target_walks[t] * 60 for r in rides for t in self.targets(load, r.dst))

    def margin(self, load):
        """Of a stopped load's answer for second 0; with nothing found yet there is none."""
        answer = self.best(load, 0)
        return answer.arrival - self.earliest(load) if load.stopped and answer else None
