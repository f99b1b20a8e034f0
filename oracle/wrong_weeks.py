"""Wrong readings of request 03, each in one place; wrong_steps.py counts the step files that tell them."""
import datetime
from fields import Refused, first_cause
from reading import Reading
from wrong import reordered

READINGS = {}


def misread(name, **parts):
    READINGS[name] = type(name, (Reading,), parts)


# --- dates ---
def day_of(wrong):
    """Another calendar: `wrong` gives the parts of a number, or none, in place of those that the calendar has."""
    def day(self, number):
        parts = wrong(*self.date_parts(number))
        return Reading.day(self, parts[0] * 10000 + parts[1] * 100 + parts[2]) if parts else None
    return day


def julian(year, month, day):
    return (year, 3, 1) if (month, day) == (2, 29) and year % 100 == 0 < year < 10000 else (year, month, day)


def every_fourth_leap_but_centuries(year, month, day):
    return None if (month, day) == (2, 29) and year % 100 == 0 else (year, month, day)


def year_0(year, month, day):
    return (year or 400, month, day)


def rolled_over(year, month, day):
    return (year, month + 1, day - 30) if day == 31 and month in (4, 6, 9, 11) else (year, month, day)


misread("1900-a-leap-year", day=day_of(julian))
misread("2000-no-leap-year", day=day_of(every_fourth_leap_but_centuries))
misread("a-year-0", day=day_of(year_0))
misread("31-April-is-1-May", day=day_of(rolled_over))
misread("Sunday-first", weekday=lambda self, date: (Reading.weekday(self, date) + 1) % 7)
misread("weekday-off-by-one", weekday=lambda self, date: (Reading.weekday(self, date) + 6) % 7)
misread("dates-must-differ", wrong_dates=lambda self, s, dates: self.no_date(*dates) or len(set(dates)) < 3)
misread("dates-must-rise", wrong_dates=lambda self, s, dates: self.no_date(*dates) or list(dates) != sorted(dates))
misread("only-the-first-date-tested", wrong_dates=lambda self, s, dates: self.no_date(dates[0]),
        weekday=lambda self, date: 0 if self.no_date(date) else Reading.weekday(self, date))


def unlike_epochs(self, settings, dates):
    epoch = datetime.date(1970, 1, 1)
    return self.no_date(*dates) or any((self.day(d) - epoch).days != e // 86400 for d, e in zip(dates, settings.epochs))


misread("dates-must-fit-the-epochs", wrong_dates=unlike_epochs)

# --- on which days a service runs ---
misread("start-excluded", spans=lambda self, s, date: s.start < date <= s.end)
misread("end-excluded", spans=lambda self, s, date: s.start <= date < s.end)
misread("span-turned-round", spans=lambda self, s, date: min(s.start, s.end) <= date <= max(s.start, s.end))
misread("end-before-start-is-open", spans=lambda self, s, date: s.start <= date <= s.end or s.end < s.start <= date)
misread("end-before-start-is-20", wrong_span=lambda self, s: self.no_date(s.start, s.end) or s.end < s.start)
misread("addition-outweighs", outweighed=lambda self, kinds, by_week: 1 in kinds or (2 not in kinds and by_week))
misread("last-exception-decides", outweighed=lambda self, kinds, by_week: kinds[-1] == 1 if kinds else by_week)
misread("first-exception-decides", outweighed=lambda self, kinds, by_week: kinds[0] == 1 if kinds else by_week)
misread("removal-spares-an-addition", outweighed=lambda self, kinds, by_week: by_week if {1, 2} <= set(kinds) else
        Reading.outweighed(self, kinds, by_week))
misread("exceptions-unread", outweighed=lambda self, kinds, by_week: by_week)
misread("types-turned-round", outweighed=lambda self, kinds, by_week: 1 not in kinds and (2 in kinds or by_week))


def within_span_only(self, load, name, day):
    service = next(s for s in load.services if s.name == name)
    return Reading.runs(self, load, name, day) and self.spans(service, load.dates[day])


def of_every_service(self, load, service, day):
    return [e.kind for e in load.exceptions if e.date == load.dates[day]]


def first_day_only(self, load, service, day):
    return Reading.kinds(self, load, service, day) if load.dates.index(load.dates[day]) == day else []


def held(count):
    """So many exceptions of a load are held, and those after them are taken and unread."""
    def kinds(self, load, service, day):
        return [e.kind for e in load.exceptions[:count] if (e.service, e.date) == (service.name, load.dates[day])]
    return kinds


misread("addition-within-the-span-only", runs=within_span_only)
misread("exceptions-of-every-service", kinds=of_every_service)
misread("one-date-marks-one-day", kinds=first_day_only)
misread("512-exceptions", kinds=held(512))
misread("days-are-all-the-first", runs=lambda self, load, name, day: Reading.runs(self, load, name, 0))


def another_date(self, load, e):
    Reading.exception(self, load, e)
    first_cause([(e.date not in load.dates, 20)])


def outside_is_20(self, load, e):
    service = next((s for s in load.services if s.name == e.service), None)
    first_cause([(service is not None and not self.too_late(load) and not self.spans(service, e.date), 20)])
    Reading.exception(self, load, e)


misread("exception-on-another-date-is-20", exception=another_date)
misread("exception-outside-the-span-is-20", exception=outside_is_20)

# --- when services come ---
misread("outside-is-no-answer", is_answer=lambda self, taken: taken)
misread("taken-is-no-answer", is_answer=lambda self, taken: not taken)
misread("the-search-alone-closes", is_answer=lambda self, taken: False)
misread("services-without-dates", too_late=lambda self, load: load.searched or load.answered)
misread("services-after-the-search", too_late=lambda self, load: load.answered or load.dates is None)


def refused_call_closes(self, load, c, service=b""):
    try:
        Reading.call(self, load, c, service)
    except Refused:
        load.answered = True
        raise


def closes_on_stop(self, load, s):
    Reading.stop(self, load, s)
    load.answered = True


def exceptions_stay_open(self, load, e):
    answered, load.answered = load.answered, False
    try:
        Reading.exception(self, load, e)
    finally:
        load.answered = answered


misread("refused-call-closes", call=refused_call_closes)
misread("a-stop-closes", stop=closes_on_stop)
misread("exceptions-stay-open", exception=exceptions_stay_open)

# --- names ---
misread("65-services", SERVICES=65)
misread("63-services", SERVICES=63)


def no_id(self, load, s):
    first_cause([(not self.too_late(load) and any(t.id == s.name for t in load.stops), 5)])
    Reading.service(self, load, s)


def no_service(self, load, s):
    first_cause([(not load.searched and self.has_service(load, s.id), 5)])
    Reading.stop(self, load, s)


def cut_names(self, load, s):
    Reading.service(self, load, s._replace(name=s.name[:32]))


def wrong_name_is_3(step):
    def tested(self, load, given, *name):
        named = name[0] if name else given.service
        first_cause([(not load.searched and load.dates is not None and not 1 <= len(named) <= self.ID, 3)])
        return step(self, load, given, *name)
    return tested


misread("ids-of-stops-are-names-too", service=no_id)
misread("names-are-ids-of-stops-too", stop=no_service)
misread("names-cut-at-32", service=cut_names)
misread("exception-of-a-wrong-name-is-3", exception=wrong_name_is_3(Reading.exception))
misread("call-of-a-wrong-name-is-3", call=wrong_name_is_3(Reading.call))

# --- calls ---
misread("no-service-runs-always", unknown_service=lambda self, load, name: name != b"" and Reading.unknown_service(self, load, name),
        rests=lambda self, load, c, name: name != b"" and Reading.rests(self, load, c, name))
misread("unknown-service-doesnt-run", unknown_service=lambda self, load, name: False,
        rests=lambda self, load, c, name: load.dates is not None and (
            not self.has_service(load, name) or Reading.rests(self, load, c, name)))
misread("name-read-without-dates", unknown_service=lambda self, load, name: name != b"" and not self.has_service(load, name)
        or Reading.unknown_service(self, load, name))
misread("resting-is-21", taken_of=lambda self, load, c, name: first_cause([(self.rests(load, c, name), 21)]) or self.taken(load, c))
misread("resting-calls-are-taken", rests=lambda self, load, c, name: False)


def ten_first(self, load, c, name):
    first_cause([(None not in (c.arrival, c.departure) and c.arrival > c.departure, 10)])
    return Reading.taken_of(self, load, c, name)


def rests_last(self, load, c, name):
    """A call of a service that doesn't run cuts a full table before it is found outside."""
    taken = self.taken(load, c)
    if taken and self.rests(load, c, name):
        load.table, load.handed = load.table[:-1], load.handed[:-1]
        return False
    return taken


misread("10-before-not-running", taken_of=ten_first)
misread("not-running-last", taken_of=rests_last)

# --- the order of tests: a cause before the one that comes before it ---
for step, number, before in [("open", 20, 2), ("open", 20, 1), ("service", 3, 15), ("service", 5, 15), ("service", 20, 5),
                             ("service", 20, 3), ("service", 22, 20), ("service", 22, 5), ("service", 22, 3), ("exception", 20, 15),
                             ("exception", 21, 20), ("exception", 21, 15), ("call", 21, 9)]:
    misread(f"{step}-{number}-before-{before}", refuse=reordered(step, number, before))
