"""Wrong readings of request 11, each in one place; wrong_steps.py counts the step files that tell them."""
from fields import Refused, first_cause
from reading import Reading
import wrong
from wrong import reordered

READINGS = {}


def misread(name, **parts):
    READINGS[name] = type(name, (Reading,), parts)


# --- which call goes ---
misread("first-of-several-goes", going=lambda self, places: places[:1])
misread("all-of-several-go", going=lambda self, places: places)
misread("any-day-goes", has_key=lambda self, call, key: (call.trip, call.sequence) == (key.trip, key.sequence))
misread("any-trip-goes", has_key=lambda self, call, key: (call.day, call.sequence) == (key.day, key.sequence))
misread("any-sequence-goes", has_key=lambda self, call, key: (call.trip, call.day) == (key.trip, key.day))
misread("sequence-by-two-bytes", has_key=lambda self, call, key: Reading.has_key(
    self, call._replace(sequence=call.sequence % 65536), key._replace(sequence=key.sequence % 65536)))


class Remembered(Reading):
    """Holds every call answered taken and not withdrawn, those too that a cut dropped since."""
    def opened(self, s):
        load = Reading.opened(self, s)
        load.ever = []
        return load

    def taken(self, load, c):
        taken = Reading.taken(self, load, c)
        load.ever = load.ever + [c] * taken
        return taken

    def remove(self, load, key):
        Reading.remove(self, load, key)
        last = max(i for i, c in enumerate(load.ever) if self.has_key(c, key))
        load.ever = load.ever[:last] + load.ever[last + 1:]


class DroppedCounts(Remembered):
    """The last taken is the one named, also where a cut dropped it."""
    def named(self, load, key):
        last = [c for c in load.ever if self.has_key(c, key)][-1:]
        return [i for i, c in enumerate(load.handed) if any(c is one for one in last)]


class DroppedIsKnown(Remembered):
    """A call that a cut dropped is withdrawn like another, and nothing changes."""
    def remove(self, load, key):
        self.refuse("withdrawal", [(self.bad_key(key), 9), (not any(self.has_key(c, key) for c in load.ever), 24)])
        if self.named(load, key):
            Remembered.remove(self, load, key)


class CutUndone(Remembered):
    """The table is filled anew, at the widest horizon, by the calls that are left."""
    def remove(self, load, key):
        Remembered.remove(self, load, key)
        left, load.ever = load.ever, []
        load.handed, load.table, load.horizon, load.limits = [], [], 21600, 0
        for c in left:
            self.taken(load, c)


class HorizonWidened(Reading):
    """A withdrawal gives the horizon back, and leaves the calls as they are held."""
    def remove(self, load, key):
        Reading.remove(self, load, key)
        load.horizon, load.limits = 21600, 0


for reading in (DroppedCounts, DroppedIsKnown, CutUndone, HorizonWidened):
    READINGS[reading.__name__] = reading


def services_open(self, load, key):
    Reading.remove(self, load, key)
    load.answered = bool(load.table)


misread("services-open-again", remove=services_open)
misread("withdrawn-call-stays", remove=lambda self, load, key: self.refuse("withdrawal", [
    (self.bad_key(key), 9), (not self.named(load, key), 24)]))

# --- 9 and 24 ---
misread("day-2-is-9", bad_key=lambda self, key: key.trip == 65535 or key.day > 1)
misread("trip-65534-is-9", bad_key=lambda self, key: key.trip >= 65534 or key.day > 2)
misread("any-day-is-named", bad_key=lambda self, key: key.trip == 65535)
misread("any-trip-is-named", bad_key=lambda self, key: key.day > 2)
misread("sequence-0-is-9", bad_key=lambda self, key: Reading.bad_key(self, key) or key.sequence == 0)
misread("withdrawal-24-before-9", refuse=reordered("withdrawal", 24, 9))


def none_is_taken(self, load, key):
    if self.bad_key(key) or self.named(load, key):
        Reading.remove(self, load, key)


misread("none-such-is-taken", remove=none_is_taken)

# --- the load that a searched one goes back to ---
def shown(*fields):
    """These fields are the searched load's, in place of those before its search."""
    def unsearched(self, load):
        before = Reading.unsearched(self, load)
        for field in fields:
            setattr(before, field, getattr(load, field))
        return before
    return unsearched


def window_shown(self, load):
    """The table too as the window at the searched load's horizon leaves it."""
    before = shown("horizon", "limits")(self, load)
    seen = [(c, self.window(before, c, before.horizon)) for c in before.handed]
    before.handed, before.table = [c for c, w in seen if w], [w for c, w in seen if w]
    return before


def fresh(self, load):
    before = Reading.unsearched(self, load)
    before.horizon, before.limits = 21600, 0
    return before


misread("shown-horizon-kept", unsearched=shown("horizon", "limits"))
misread("shown-horizon-kept-and-cut", unsearched=window_shown)
misread("mark-not-restored", unsearched=shown("limits"))
misread("horizon-of-the-opening", unsearched=fresh)
misread("old-list-goes-on", unsearched=shown("kept"))

# --- searched again, or not ---
def not_searched(self, load, before):
    """The table follows, and list, horizon and mark stay."""
    load.handed, load.table, load.answers, load.before = before.handed, before.table, before.answers, before


def unsearched_then(self, load, before):
    load.__dict__.update(before.__dict__)


def refused_goes_back(self, load, before):
    after = self.copied(before)
    try:
        Reading.search_again(self, load, before)
    except Refused:
        load.__dict__.update(after.__dict__)
        raise


def refused_keeps_the_step(self, load, before):
    """The table follows although the search is refused."""
    after = self.copied(before)
    try:
        Reading.search_again(self, load, before)
    except Refused:
        not_searched(self, load, after)
        raise


def refused_loses_the_list(self, load, before):
    try:
        Reading.search_again(self, load, before)
    except Refused:
        load.kept = []
        raise


def refused_is_taken(self, load, before):
    """The step is answered as if its search were taken, and the searched load stays."""
    answers = before.answers
    try:
        Reading.search_again(self, load, before)
    except Refused:
        load.answers = answers


misread("not-searched-again", search_again=not_searched)
misread("left-unsearched", search_again=unsearched_then)
misread("refused-search-goes-back", search_again=refused_goes_back)
misread("refused-search-keeps-the-step", search_again=refused_keeps_the_step)
misread("refused-search-loses-the-list", search_again=refused_loses_the_list)
misread("refused-search-is-taken", search_again=refused_is_taken)


def unsound_offers(number):
    """The second search never meets this number: it is searched as far as it goes."""
    def search_again(self, load, before):
        try:
            Reading.search_again(self, load, before)
        except Refused as refused:
            first_cause([(refused.number != number, refused.number), (True, 15)])
    return search_again


misread("second-14-is-15", search_again=unsound_offers(14))
misread("second-11-is-15", search_again=unsound_offers(11))

# --- calls on a searched load ---
def late_call(number):
    def call(self, load, c, service=b""):
        first_cause([(load.searched, number)])
        Reading.call(self, load, c, service)
    return call


def late_withdrawal(self, load, key):
    first_cause([(load.searched, 15)])
    Reading.withdraw(self, load, key)


def taken_15(self, load, c, service=b""):
    """15 in place of taken alone."""
    before = load.searched and self.unsearched(load)
    if before:
        self.answer(before, c, service)
        first_cause([(self.was_taken(before), 15)])
    Reading.call(self, load, c, service)


def cut_left(self, load, before):
    return not self.was_taken(before)


def cut_unsearched(self, load, c, service=b""):
    """A call that is outside after a cut leaves the cut table, with the list as it was."""
    before = load.searched and self.unsearched(load)
    if before:
        self.answer(before, c, service)
        if not self.was_taken(before):
            return not_searched(self, load, before)
    Reading.call(self, load, c, service)


misread("15-for-a-call", call=late_call(15))
misread("15-for-a-call-that-is-taken", call=taken_15)
misread("15-for-a-withdrawal", withdraw=late_withdrawal)
misread("outside-after-a-cut-leaves-the-load", leaves_the_table=cut_left)
misread("outside-after-a-cut-isnt-searched", call=cut_unsearched)


def against_the_list(self, load, c, service=b""):
    """An added call is tested at the horizon that is shown."""
    if load.searched and None not in (c.arrival, c.departure) and c.arrival <= c.departure and self.window(load, c, load.horizon) is None:
        load.answers += "o"
        return
    Reading.call(self, load, c, service)


def refused_call_cuts(self, load, c, service=b""):
    before = load.searched and self.unsearched(load)
    try:
        Reading.call(self, load, c, service)
    except Refused:
        if before:
            load.before = before
            try:
                self.answer(before, c, service)
            except Refused:
                pass
        raise


misread("added-within-the-shown-horizon", call=lambda self, load, c, service=b"": against_the_list(self, load, c, service)
        if not self.bad_call(load, c) and not self.unknown_service(load, service) else Reading.call(self, load, c, service))
misread("refused-call-cuts-what-is-gone-back-to", call=refused_call_cuts)

# those that load files tell, which have no withdrawals and end at a refusal
OF_LOAD_FILES = ["shown-horizon-kept", "shown-horizon-kept-and-cut", "mark-not-restored", "horizon-of-the-opening", "not-searched-again",
                 "left-unsearched", "refused-search-is-taken", "second-14-is-15", "second-11-is-15", "15-for-a-call",
                 "15-for-a-call-that-is-taken", "outside-after-a-cut-leaves-the-load", "outside-after-a-cut-isnt-searched",
                 "added-within-the-shown-horizon"]
wrong.READINGS.update((name, READINGS[name]) for name in OF_LOAD_FILES)
