"""Wrong readings of request 13, each in one place; wrong_steps.py counts the step files that tell them."""
import struct
from fields import first_cause
from reading import Reading
from records import record

READINGS = {}


def misread(name, **parts):
    READINGS[name] = type(name, (Reading,), parts)


misread("version-1-written", VERSION=1)
misread("minutes-written", change_bytes=lambda self, s: bytes([s.transfer_seconds // 60 % 256]))
misread("epochs-written", epochs_of=lambda self, s: s.epochs)
misread("seconds-of-type-2-alone", rule_seconds=lambda self, r: r.seconds if r.transfer_type == 2 else None)
misread("no-seconds-are-0", rule_seconds=lambda self, r: r.seconds or 0)
misread("empty-name-is-none", name_of=lambda self, stop: stop.name or None)
misread("members-within-the-counts", members_of=lambda self, load, stop: stop.members & (
    (1 << len(load.settings.origin_walks)) - 1 | (1 << len(load.settings.target_walks)) - 1 << 4))
misread("barred-is-0", type_of=lambda self, able, asked: 2 if asked else 0)
misread("request-is-3", type_of=lambda self, able, asked: (3 if asked else 0) if able else 1)
misread("no-request-mark", type_of=lambda self, able, asked: 0 if able else 1)
misread("calls-as-taken", calls_of=lambda self, load: load.table)
misread("calls-always-sorted", calls_of=lambda self, load: sorted(load.table, key=self.call_order))
misread("search-always-written", search_records=lambda self, load: [record(5)])
misread("search-never-written", search_records=lambda self, load: [])
misread("rules-after-the-calls", records_of=lambda self, load: [
    *(self.stop_record(load, s) for s in load.stops), *map(self.call_record, self.calls_of(load)), *map(self.rule_record, load.rules),
    *self.search_records(load)])
misread("times-of-the-day", call_record=lambda self, c: Reading.call_record(self, c) if c.day == 0 else Reading.call_record(
    self, c._replace(arrival=c.arrival + 86400 * c.day, departure=c.departure + 86400 * c.day)))
misread("nan-as-handed-in", degree_bytes=lambda self, degrees: struct.pack(">d", degrees) if degrees == degrees else b"\xff" * 8)
misread("horizon-of-the-list", table_horizon=lambda self, load: load.horizon)
misread("dates-written", unwritable=lambda self, load: load.stopped or self.table_horizon(load) < self.WHOLE)
misread("cut-table-written", unwritable=lambda self, load: load.dates is not None or load.stopped)
misread("room-first", writing_causes=lambda self, load, room, size: Reading.writing_causes(self, load, room, size)[::-1])
misread("room-for-one-more", writing_causes=lambda self, load, room, size: Reading.writing_causes(self, load, room - 1, size))
misread("room-for-one-less", writing_causes=lambda self, load, room, size: Reading.writing_causes(self, load, room + 1, size))
misread("short-is-25", write=lambda self, load, room: first_cause(
    [(len(self.file_of(load)) > room, 25)]) or Reading.write(self, load, room))
