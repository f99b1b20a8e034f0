"""Displays (request 08), from its words: a method for each sentence. A group is given as (number, load)."""
import copy
from fields import Refused


class Dealing:
    """Deals a display from up to four groups."""
    JOURNEYS, FIRST, LEAST, GROUPS = 64, 16, 3600, 4

    def above(self, given):
        return any(number >= self.GROUPS for number, _ in given)

    def twice(self, given):
        return len({number for number, _ in given}) < len(given)

    def unsearched(self, given):
        return not all(load.searched for _, load in given)

    def unlike(self, given):
        lowest = min(given, key=lambda group: group[0])[1] if given else None
        return any(load.settings.now != lowest.settings.now for _, load in given)

    def turned_away(self, given):
        return self.above(given) or self.twice(given) or self.unsearched(given) or self.unlike(given)

    def first(self, journeys):
        return min(self.FIRST, len(journeys))

    def turns(self, groups):
        """The order in which what is left is dealt."""
        return sorted(groups)

    def shares(self, groups):
        """The share of each group; `groups` are the lists of journeys by number."""
        shares = {number: self.first(groups[number]) for number in groups}
        left = self.JOURNEYS - sum(shares.values())
        for number in self.turns(groups):
            more = min(left, len(groups[number]) - shares[number])
            shares[number], left = shares[number] + more, left - more
        return shares

    def ranked(self, journeys):
        return sorted(journeys, key=lambda j: j.arrival)

    def before(self, journey):
        return journey.arrival - 1

    def window(self, load, share):
        unfit = self.ranked(load.kept)[share:]
        return self.before(unfit[0]) if unfit else load.horizon

    def by(self, journey, window):
        return journey.arrival <= window

    def shown(self, load, share):
        """The load with the window as its horizon and the journeys shown; none if the window falls below 3600."""
        group = copy.copy(load)
        group.horizon = self.window(load, share)
        group.kept = [j for j in load.kept if self.by(j, group.horizon)]
        return group if group.horizon >= self.LEAST else None

    def display(self, given):
        """What each group shows, by number."""
        if self.turned_away(given):
            raise Refused(23)
        groups = dict(given)
        shares = self.shares({number: load.kept for number, load in groups.items()})
        return {number: self.shown(groups[number], shares[number]) for number in sorted(groups)}
