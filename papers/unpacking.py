"""A load file to text that packs to the same bytes, with what its numbers mean in comments (papers/README.md)."""
from fields import FIELDS, KINDS, TEXT, Damaged, Record

BOARDING = {0: "", 1: "no boarding", 2: "boards on request", 3: "boards on request"}
ALIGHTING = {0: "", 1: "no alighting", 2: "alights on request", 3: "alights on request"}
CHANGES = {0: "a change", 1: "a change", 2: "a change with a least time", 3: "no change"}


def clock(seconds):
    size = abs(seconds)
    return f"{'-' if seconds < 0 else ''}{size // 3600}:{size // 60 % 60:02}:{size % 60:02}"


class Notes:
    """The comment after each record: stops by id, times by the clock, types in words."""
    def __init__(self, version):
        self.version, self.ids, self.now, self.epochs = version, [], 0, [0, 0, 0]

    def stop_name(self, number):
        return TEXT.show(self.ids[number]) if number < len(self.ids) else f"no stop {number}"

    def settings(self, fields):
        self.now, self.epochs = fields["now"], fields["epochs"]
        origins, targets = fields["walks"]
        return [f"origin {i}: {walk} minutes" for i, walk in enumerate(origins)] \
            + [f"target {i}: {walk} minutes" for i, walk in enumerate(targets)] \
            + [f"a change: {60 * fields['transfer-minutes']} seconds" if "transfer-minutes" in fields else ""] \
            + ["starts at " + ", ".join(f"{clock(self.now - epoch)} of day {day}" for day, epoch in enumerate(self.epochs))]

    def stop(self, fields):
        self.ids.append(fields["id"])
        origins, targets = fields["members"]
        kind = {0: "stop", 1: "station"}.get(fields["type"], "unknown type")
        return [f"{kind} {len(self.ids) - 1}"] + [f"origin {i}" for i in origins] + [f"target {i}" for i in targets]

    def time(self, day, seconds):
        if seconds is None:
            return "no time"
        start = f" = second {self.epochs[day] + seconds - self.now}" if day < 3 else ""
        return clock(seconds) + start

    def call(self, fields):
        times = [self.time(fields["day"], fields[key]) for key in ("arrival", "departure")]
        lacking = None in (fields["arrival"], fields["departure"])
        return [self.stop_name(fields["stop"]), " to ".join(dict.fromkeys(times)), "left out" if lacking else "",
                BOARDING.get(fields["pickup"], "unknown pickup"), ALIGHTING.get(fields["drop-off"], "unknown drop-off")]

    def rule(self, fields):
        return [f"{self.stop_name(fields['from'])} to {self.stop_name(fields['to'])}",
                CHANGES.get(fields["type"], "unknown type")]

    def search(self, fields):
        return []

    def line(self, kind, fields):
        notes = "; ".join(note for note in getattr(self, kind)(fields) if note)
        return shown(self.version, kind, fields) + (f"  # {notes}" if notes else "")


def shown(version, kind, fields):
    return " ".join([kind] + [f"{key}={field.show(fields[key])}" for key, field, _ in FIELDS[version][kind] if key in fields])


def head(data, at, first):
    """The kind of the record at a byte, and where it ends."""
    end = at + 2 + int.from_bytes(data[at:at + 2], "big")
    if at + 2 > len(data):
        raise Damaged(at, "one byte, where a record's length has two", 18)
    if end == at + 2:
        raise Damaged(at, "a record of length 0", 18)
    if end > len(data):
        raise Damaged(at, f"a record that would end at byte {end}, past the end of the file at {len(data)}", 18)
    kind = KINDS.get(data[at + 2])
    if kind is None:
        raise Damaged(at + 2, f"kind {data[at + 2]}; there are 1 to 5", 19)
    if first and kind != "settings":
        raise Damaged(at + 2, f"the first record is a {kind}; it should be settings", 19)
    if not first and kind == "settings":
        raise Damaged(at + 2, "settings a second time", 19)
    return kind, end


def read(record, version, kind, fields):
    """Puts the fields of a record into a dict, one by one; what is there when it breaks off could be read."""
    for key, field, _ in FIELDS[version][kind]:
        try:
            fields[key] = field.get(record)
        except Damaged as damage:
            raise Damaged(damage.at, f"{key}: {damage.why}", damage.number)
    if record.at < record.end:
        raise Damaged(record.at, f"the record goes on to byte {record.end}, past its last field", 18)


def records(data):
    """Each record's line; then Damaged where the file can't be read on, with the part of a record that could be."""
    version = data[0] if data else 0
    if version not in FIELDS:
        raise Damaged(0, f"version {version}; it should be 1 or 2 (a text is to be packed first)" if data else "no byte at all", 17)
    at, notes = 1, Notes(version)
    if version != 1:
        yield f"version {version}"
    while at < len(data):
        kind, end = head(data, at, at == 1)
        fields = {}
        try:
            read(Record(data, at + 3, end), version, kind, fields)
        except Damaged as damage:
            damage.part = shown(version, kind, fields)
            raise
        yield notes.line(kind, fields)
        at = end
    if at == 1:
        raise Damaged(1, "the file ends without a record", 19)


def unpacked(data):
    """The text's lines, and whether the file could be read to its end."""
    lines = [f"# a load file of {len(data)} bytes"]
    try:
        lines += records(data)
    except Damaged as damage:
        return lines + broken(data, damage), False
    return lines, True


def broken(data, damage):
    rest = data[damage.at:damage.at + 24]
    return [f"! unreadable from byte {damage.at} on: {damage.why} (refused {damage.number})"] \
        + ([f"! read of this record: {damage.part}"] if damage.part else []) \
        + [f"! bytes from there: {rest.hex(' ') or 'none'}{' ..' if len(data) > damage.at + 24 else ''}"]
