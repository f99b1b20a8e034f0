"""The records of document 01, and how requests 01 and 13 write the fields of each."""
import struct
from collections import namedtuple

Settings = namedtuple("Settings", "origin_walks target_walks transfer_seconds max_transfers now epochs")
Stop = namedtuple("Stop", "id name parent location_type position members")
StopTime = namedtuple("StopTime", "trip day sequence stop arrival departure pickup drop_off")
Rule = namedtuple("Rule", "src dst transfer_type seconds")


SIZES = {"B": 1, "H": 2, "I": 4, "Q": 8, "q": 8}


class Refused(Exception):
    def __init__(self, number):
        self.number = number


def first_cause(causes):
    for holds, number in causes:
        if holds:
            raise Refused(number)


class Fields:
    """The fields of one record; too few bytes, or an optional byte above 1, is 18."""
    def __init__(self, data, second=False):
        self.data, self.at, self.second = data, 0, second

    def take(self, n):
        if self.at + n > len(self.data):
            raise Refused(18)
        self.at += n
        return self.data[self.at - n:self.at]

    def number(self, code):
        """Whole, of a code of module struct."""
        return int.from_bytes(self.take(SIZES[code]), "big", signed=code == "q")

    def text(self):
        return bytes(self.take(self.number("B")))

    def optional(self, field):
        return field() if self.mark() else None

    def mark(self):
        mark = self.number("B")
        first_cause([(mark > 1, 18)])
        return mark

    def numbers(self, codes):
        codes = ">" + codes
        return list(struct.unpack(codes, self.take(struct.calcsize(codes))))

    def walks(self, count):
        return list(self.take(count))

    def settings(self):
        origins, targets = self.numbers("BB")
        walks = self.walks(origins), self.walks(targets)
        return Settings(*walks, self.change(), *self.numbers("Bq"), self.numbers("qqq"))

    def change(self):
        """Request 05: a file of version 1 keeps minutes. Request 13: one of version 2 has seconds."""
        return self.number("H") if self.second else self.number("B") * 60

    def stop(self):
        return Stop(self.text(), self.optional(self.text), self.optional(self.text), self.number("B"),
                    self.optional(lambda: self.numbers("dd")), self.number("B"))

    def call(self):
        time = lambda: self.number("I")
        return StopTime(*self.numbers("HBIH"), self.optional(time), self.optional(time), *self.numbers("BB"))

    def rule(self):
        return Rule(*self.numbers("HHB"), self.optional(lambda: self.number("H")))
