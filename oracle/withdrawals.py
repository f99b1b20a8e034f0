"""Request 11, read slowly: calls withdrawn from a load, and calls added to and withdrawn from a searched one. A method for each sentence,
so that wrong_calls.py can misread one at a time.

A searched load holds the load that was searched, as it stood before: the unsearched load with the horizon and mark it then had.
"""
import copy
from collections import namedtuple

Key = namedtuple("Key", "trip day sequence")


class Withdrawals:
    # --- withdrawing from an unsearched load ---
    def bad_key(self, key):
        """Trip 65535 and days above 2 are no call's."""
        return key.trip == 65535 or key.day > 2

    def has_key(self, call, key):
        return (call.trip, call.day, call.sequence) == key

    def named(self, load, key):
        """The places of such calls in the table, as taken: one that a cut dropped is not in it."""
        return [i for i, call in enumerate(load.table) if self.has_key(call, key)]

    def going(self, places):
        """The last taken of several goes."""
        return places[-1:]

    def remove(self, load, key):
        """The horizon stays as it is, and services stay closed."""
        places = self.named(load, key)
        self.refuse("withdrawal", [(self.bad_key(key), 9), (not places, 24)])
        gone = self.going(places)
        load.handed = [c for i, c in enumerate(load.handed) if i not in gone]
        load.table = [c for i, c in enumerate(load.table) if i not in gone]

    # --- a searched load goes back, and is searched again ---
    def copied(self, load):
        """A load that can be altered without the other."""
        other = copy.copy(load)
        other.handed, other.table, other.before = list(load.handed), list(load.table), None
        return other

    def unsearched(self, load):
        return self.copied(load.before)

    def search_again(self, load, before):
        """What the step made of the unsearched load is searched; a refusal of that search leaves the searched load."""
        self.search_as(load, before)
        load.__dict__.update(before.__dict__)

    def withdraw(self, load, key):
        if not load.searched:
            return self.remove(load, key)
        before = self.unsearched(load)
        self.remove(before, key)
        self.search_again(load, before)

    # --- calls, searched or not ---
    def was_taken(self, load):
        return load.answers[-1] == "t"

    def leaves_the_table(self, load, before):
        """A call that is outside without a cut leaves the load, services aside."""
        return not self.was_taken(before) and before.horizon == load.before.horizon

    def call(self, load, c, service=b""):
        if not load.searched:
            return self.answer(load, c, service)
        before = self.unsearched(load)
        self.answer(before, c, service)
        if self.leaves_the_table(load, before):
            load.answers, load.answered, load.before = before.answers, before.answered, before
        else:
            self.search_again(load, before)
