"""Request 13, read slowly: a load written as a file of version 2. A method for each sentence, so that wrong_writes.py can misread one at a
time.
"""
import math, struct
from records import number, optional, record, text


class Writing:
    VERSION, WHOLE = 2, 21600

    # --- which loads are written ---
    def table_horizon(self, load):
        """The horizon before any search."""
        return (load.before if load.searched else load).horizon

    def unwritable(self, load):
        return load.dates is not None or load.stopped or self.table_horizon(load) < self.WHOLE

    def writing_causes(self, load, room, size):
        return [(self.unwritable(load), 25), (room < size, 26)]

    # --- fields ---
    def change_bytes(self, s):
        return number("H")(s.transfer_seconds)

    def epochs_of(self, s):
        """Held times count from the start."""
        return [s.now] * 3

    def degree_bytes(self, degrees):
        """Bits in, bits out; one NaN."""
        return bytes.fromhex("7ff8000000000000") if math.isnan(degrees) else struct.pack(">d", degrees)

    def rule_seconds(self, r):
        return r.seconds

    def name_of(self, stop):
        return stop.name

    def members_of(self, load, stop):
        return stop.members

    def type_of(self, able, asked):
        return (2 if asked else 0) if able else 1

    # --- records ---
    def settings_record(self, s):
        walks = bytes([len(s.origin_walks), len(s.target_walks), *s.origin_walks, *s.target_walks])
        return record(1, walks, self.change_bytes(s), bytes([s.max_transfers]), struct.pack(">qqqq", s.now, *self.epochs_of(s)))

    def stop_record(self, load, s):
        position = optional(s.position, lambda p: b"".join(map(self.degree_bytes, p)))
        return record(2, text(s.id), optional(self.name_of(s), text), optional(s.parent, text), bytes([s.location_type]), position,
                      bytes([self.members_of(load, s)]))

    def rule_record(self, r):
        return record(4, struct.pack(">HHB", r.src, r.dst, r.transfer_type), optional(self.rule_seconds(r), number("H")))

    def call_record(self, c):
        times = (optional(time, number("I")) for time in (c.arrival, c.departure))
        types = self.type_of(c.board, c.board_request), self.type_of(c.alight, c.alight_request)
        return record(3, struct.pack(">HBIH", c.trip, c.day, c.sequence, c.stop), *times, bytes(types))

    # --- the file ---
    def calls_of(self, load):
        """In the order taken or, once searched, sorted."""
        return sorted(load.table, key=self.call_order) if load.searched else load.table

    def search_records(self, load):
        return [record(5)] * load.searched

    def records_of(self, load):
        return [*(self.stop_record(load, s) for s in load.stops), *map(self.rule_record, load.rules),
                *map(self.call_record, self.calls_of(load)), *self.search_records(load)]

    def file_of(self, load):
        return bytes([self.VERSION]) + self.settings_record(load.settings) + b"".join(self.records_of(load))

    def write(self, load, room):
        """The file, where the buffer has room for it."""
        data = self.file_of(load)
        self.refuse("write", self.writing_causes(load, room, len(data)))
        return data
