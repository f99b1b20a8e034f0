"""The fields of a load file (requests 01 and 13): each kind of field in bytes and in text.

Every kind has get (from a Record), put (to bytes), parse (from a word of text) and show (to a word). FIELDS lists the fields
of each record in the order of the file, by the file's version, with the word that stands for a field that a text leaves out, None if it
can't.
"""
import math, re, struct


class Damaged(Exception):
    """Where a file stops being readable, why, the number with which it is turned away, and what of a record was read."""
    def __init__(self, at, why, number):
        self.at, self.why, self.number, self.part = at, why, number, ""


class Record:
    """The fields of one record that are still to be read; `at` counts from the start of the file."""
    def __init__(self, data, at, end):
        self.data, self.at, self.end = data, at, end

    def take(self, n):
        if self.at + n > self.end:
            raise Damaged(self.at, f"the record ends at byte {self.end}, before this field does", 18)
        self.at += n
        return self.data[self.at - n:self.at]


class Number:
    def __init__(self, code, most=None):
        self.code, self.size = ">" + code, struct.calcsize(">" + code)
        bits = 8 * self.size - code.islower()
        self.least, self.most = -2**bits if code.islower() else 0, 2**bits - 1 if most is None else most

    def get(self, record):
        return struct.unpack(self.code, record.take(self.size))[0]

    def put(self, value):
        return struct.pack(self.code, value)

    def within(self, value, word):
        if not self.least <= value <= self.most:
            raise ValueError(f"{word}, where {self.least} to {self.most} was expected")
        return value

    def parse(self, word, ids):
        if not re.fullmatch(r"-?[0-9]{1,20}", word):
            raise ValueError(f"{word}, where a number from {self.least} to {self.most} was expected")
        return self.within(int(word), word)

    def show(self, value):
        return str(value)


class WholeMinutes(Number):
    """Seconds in a text, minutes in the file: one of version 1 keeps minutes (request 05)."""
    def parse(self, word, ids):
        seconds = U16.parse(word, ids)
        if seconds % 60 or seconds > 60 * self.most:
            raise ValueError(f"{word}; a file of version 1 keeps minutes, so it is to be a multiple of 60, up to {60 * self.most}")
        return seconds // 60


class InSeconds(Number):
    """Minutes in a text, seconds in the file: one of version 2 has seconds (request 13)."""
    def parse(self, word, ids):
        return self.within(60 * super().parse(word, ids), word)


class Time(Number):
    """Seconds, after the day's epoch or of the paper's one clock; in a text also h:mm or h:mm:ss, and with a sign where it may be."""
    def parse(self, word, ids):
        parts = re.fullmatch(r"(-?)([0-9]{1,9}):([0-5][0-9])(?::([0-5][0-9]))?", word)
        if not parts and not re.fullmatch(r"-?[0-9]{1,20}", word):
            raise ValueError(f"{word}, where seconds, h:mm or h:mm:ss were expected")
        if not parts:
            return super().parse(word, ids)
        hours, minutes, seconds = (int(part or 0) for part in parts.groups()[1:])
        return self.within((hours * 3600 + minutes * 60 + seconds) * (-1 if parts[1] else 1), word)


class StopNumber(Number):
    """A stop's number; in a text also the quoted id of a stop above."""
    def parse(self, word, ids):
        if not word.startswith('"'):
            return super().parse(word, ids)
        if TEXT.parse(word, ids) not in ids:
            raise ValueError(f"{word}, where the id of a stop above was expected")
        return self.within(ids.index(TEXT.parse(word, ids)), word)


class Text:
    """Bytes, in quotes: \\" and \\\\ for these two, \\xNN for a byte by its hexadecimal digits; letters in UTF-8."""
    PART = re.compile(r'\\x([0-9a-fA-F]{2})|\\(["\\])|([^"\\])')

    def get(self, record):
        return bytes(record.take(BYTE.get(record)))

    def put(self, value):
        return BYTE.put(len(value)) + value

    def parse(self, word, ids):
        inside = word[1:-1]
        parts = list(self.PART.finditer(inside))
        if len(word) < 2 or word[0] + word[-1] != '""' or "".join(p[0] for p in parts) != inside:
            raise ValueError(f"{word}, where a text in quotes was expected, with the escapes \\\", \\\\ and \\xNN")
        value = bytes(int(p[1], 16) if p[1] else ord(p[2] or p[3]) for p in parts)
        if len(value) > 255:
            raise ValueError(f"a text of {len(value)} bytes; it has at most 255")
        return value

    def show(self, value):
        """Printable letters as they are, every other byte by its digits."""
        digits = lambda c: "".join(f"\\x{b:02x}" for b in c.encode("utf-8", "surrogateescape"))
        plain = lambda c: "\\" + c if c in '"\\' else c if c.isprintable() else digits(c)
        return '"' + "".join(map(plain, value.decode("utf-8", "surrogateescape"))) + '"'


class Optional:
    """A byte 0 or 1, then the field if it is 1; `none` in a text where it is 0."""
    def __init__(self, field):
        self.field = field

    def get(self, record):
        mark = BYTE.get(record)
        if mark > 1:
            raise Damaged(record.at - 1, f"byte {mark} where 0 or 1 says whether the field is there", 18)
        return self.field.get(record) if mark else None

    def put(self, value):
        return b"\0" if value is None else b"\1" + self.field.put(value)

    def parse(self, word, ids):
        return None if word == "none" else self.field.parse(word, ids)

    def show(self, value):
        return "none" if value is None else self.field.show(value)


class Degrees:
    """A float, held as its 8 bytes of bits: a decimal number in a text, 0x and 16 digits for what is not finite."""
    def get(self, record):
        return record.take(8)

    def put(self, value):
        return value

    def parse(self, word, ids):
        if re.fullmatch(r"0x[0-9a-fA-F]{16}", word):
            return bytes.fromhex(word[2:])
        if not re.fullmatch(r"[+-]?([0-9]+\.?[0-9]*|\.[0-9]+)([eE][+-]?[0-9]+)?", word) or math.isinf(float(word)):
            raise ValueError(f"{word}, where a decimal number, or 0x and 16 digits, was expected")
        return struct.pack(">d", float(word))

    def show(self, value):
        number = struct.unpack(">d", value)[0]
        return repr(number) if math.isfinite(number) else "0x" + value.hex()


class Several:
    """So many fields of one kind, with a mark between them in a text."""
    def __init__(self, field, count, mark=","):
        self.field, self.count, self.mark = field, count, mark

    def get(self, record):
        return [self.field.get(record) for _ in range(self.count)]

    def put(self, values):
        return b"".join(self.field.put(value) for value in values)

    def parse(self, word, ids):
        parts = word.split(self.mark)
        if len(parts) != self.count:
            raise ValueError(f"{word}, where {self.count} with '{self.mark}' between them were expected")
        return [self.field.parse(part, ids) for part in parts]

    def show(self, values):
        return self.mark.join(self.field.show(value) for value in values)


class Ends:
    """Two lists of numbers with a slash between: what belongs to origins, then to targets."""
    def parse(self, word, ids):
        if word.count("/") != 1:
            raise ValueError(f"{word}, where one '/' was expected, between origins and targets")
        return [[self.NUMBER.parse(n, ids) for n in side.split(",") if side] for side in word.split("/")]

    def show(self, sides):
        return "/".join(",".join(map(str, side)) for side in sides)


class Walks(Ends):
    """Both counts, then the walk minutes of each."""
    NUMBER = Number("B")

    def get(self, record):
        counts = BYTE.get(record), BYTE.get(record)
        return [list(record.take(n)) for n in counts]

    def put(self, sides):
        return bytes([len(side) for side in sides] + sides[0] + sides[1])

    def parse(self, word, ids):
        sides = super().parse(word, ids)
        if max(map(len, sides)) > 255:
            raise ValueError("more than 255 walks")
        return sides


class Members(Ends):
    """The membership byte: bits 0 to 3 origins, bits 4 to 7 targets."""
    NUMBER = Number("B", 3)

    def get(self, record):
        byte = BYTE.get(record)
        return [[i for i in range(4) if byte >> shift + i & 1] for shift in (0, 4)]

    def put(self, sides):
        origins, targets = (sum(1 << i for i in set(side)) for side in sides)
        return BYTE.put(origins | targets << 4)


BYTE, U16, U32, TEXT = Number("B"), Number("H"), Number("I"), Text()

FIRST = {
    "settings": [("walks", Walks(), None), ("transfer-minutes", BYTE, None), ("max-transfers", BYTE, None),
                 ("now", Time("q"), "0"), ("epochs", Several(Time("q"), 3), "0,0,0")],
    "stop": [("id", TEXT, None), ("name", Optional(TEXT), "none"), ("parent", Optional(TEXT), "none"), ("type", BYTE, "0"),
             ("position", Optional(Several(Degrees(), 2)), "none"), ("members", Members(), "/")],
    "call": [("trip", U16, None), ("day", BYTE, "0"), ("sequence", U32, None), ("stop", StopNumber("H"), None),
             ("arrival", Optional(Time("I")), "none"), ("departure", Optional(Time("I")), "none"),
             ("pickup", BYTE, "0"), ("drop-off", BYTE, "0")],
    "rule": [("from", StopNumber("H"), None), ("to", StopNumber("H"), None), ("type", BYTE, None),
             ("seconds", Optional(U16), "none")],
    "search": [],
}
SECONDS = "transfer-seconds", U16, None
SECOND = FIRST | {"settings": [SECONDS if field[0] == "transfer-minutes" else field for field in FIRST["settings"]]}
FIELDS = {1: FIRST, 2: SECOND}
# other words for a field: what it is there, and how it is read
OTHER = {1: {"transfer-seconds": ("transfer-minutes", WholeMinutes("B"))},
         2: {"transfer-minutes": ("transfer-seconds", InSeconds("H"))}}
KINDS = dict(enumerate(FIRST, 1))
