"""Request 03, read slowly: dates, services, exceptions, and the calls that name a service. A method for each sentence, so that
wrong_weeks.py can misread one at a time. The calendar is Python's own, which is Gregorian and has the years 1 to 9999.
"""
import datetime
from collections import namedtuple

Service = namedtuple("Service", "name weekdays start end")   # seven marks, Monday's first
ServiceDate = namedtuple("ServiceDate", "service date kind")


class Weeks:
    SERVICES = 64

    # --- dates ---
    def date_parts(self, number):
        """Year × 10000 + month × 100 + day."""
        return number // 10000, number // 100 % 100, number % 100

    def day(self, number):
        """The day with this number, or none if the calendar hasn't it."""
        try:
            return datetime.date(*self.date_parts(number))
        except ValueError:
            return None

    def weekday(self, date):
        """From 0 for Monday."""
        return self.day(date).weekday()

    def no_date(self, *numbers):
        return any(self.day(n) is None for n in numbers)

    # --- on which days a service runs ---
    def spans(self, service, date):
        """Start and end are both included; an end before the start has no date between."""
        return service.start <= date <= service.end

    def by_week(self, service, date):
        return service.weekdays[self.weekday(date)] == 1 and self.spans(service, date)

    def outweighed(self, kinds, by_week):
        """A removal outweighs an addition whichever came first; `kinds` are those of the date, as they came."""
        return 2 not in kinds and (1 in kinds or by_week)

    def kinds(self, load, service, day):
        """The types of the service's exceptions on the date of the load's day, as they came."""
        return [e.kind for e in load.exceptions if (e.service, e.date) == (service.name, load.dates[day])]

    def runs(self, load, name, day):
        service = next(s for s in load.services if s.name == name)
        return self.outweighed(self.kinds(load, service, day), self.by_week(service, load.dates[day]))

    # --- opening with dates, services, exceptions ---
    def wrong_dates(self, settings, dates):
        return self.no_date(*dates)

    def open_dated(self, settings, dates):
        self.refuse("open", [*self.opening_causes(settings), (self.wrong_dates(settings, dates), 20)])
        load = self.opened(settings)
        load.dates = dates
        return load

    def too_late(self, load):
        """After the search or the first answered call; and always, on a load without dates."""
        return load.searched or load.answered or load.dates is None

    def has_service(self, load, name):
        return any(s.name == name for s in load.services)

    def wrong_span(self, s):
        return self.no_date(s.start, s.end)

    def service(self, load, s):
        self.refuse("service", [
            (self.too_late(load), 15),
            (not 1 <= len(s.name) <= self.ID, 3),
            (self.has_service(load, s.name), 5),
            (self.wrong_span(s), 20),
            (len(load.services) >= self.SERVICES, 22)])
        load.services.append(s)

    def exception(self, load, e):
        self.refuse("exception", [
            (self.too_late(load), 15),
            (self.no_date(e.date) or e.kind not in (1, 2), 20),
            (not self.has_service(load, e.service), 21)])
        load.exceptions.append(e)

    # --- calls that name a service ---
    def unknown_service(self, load, name):
        """A load without dates doesn't read the name. A call that names no service has the empty name."""
        return load.dates is not None and not self.has_service(load, name)

    def rests(self, load, c, name):
        return load.dates is not None and not self.runs(load, name, c.day)

    def taken_of(self, load, c, name):
        """Outside on a day when its service doesn't run; else as without services."""
        return not self.rests(load, c, name) and self.taken(load, c)

    def is_answer(self, taken):
        """A call is answered if it is taken or outside; one that is refused isn't."""
        return True
