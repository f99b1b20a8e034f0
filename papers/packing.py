"""A paper as text to a load file: one record a line (papers/README.md)."""
import re
import dated
from fields import FIELDS, KINDS, OTHER

WORD = re.compile(r'(?:([a-z-]+)=)?("(?:[^"\\]|\\.)*"|[^\s"#]+)(?=[\s#]|$)', re.ASCII)


class Wrong(Exception):
    """A line that can't be packed."""


def words(line):
    """The words of a line as pairs of key and value, without its comment; the key is None where there is none."""
    at = 0
    while line[at:].strip() and line[at:].lstrip()[0] != "#":
        at += len(line[at:]) - len(line[at:].lstrip())
        word = WORD.match(line, at)
        if not word:
            raise ValueError(f"can't read {line[at:].strip()}")
        yield word.groups()
        at = word.end()


def given(kind, pairs, version):
    """The fields that the line names, each once."""
    found, known, other = {}, [key for key, _, _ in FIELDS[version][kind]], OTHER[version]
    for word, value in pairs:
        key = other[word][0] if word in other else word
        if key not in known:
            raise ValueError(f"{kind} has no field {word or value}, only {', '.join(known) or 'none'}")
        if key in found:
            raise ValueError(f"{word} stands twice" if found[key][0] == word else f"{word} beside {found[key][0]}")
        found[key] = word, value
    return found


def values(kind, found, ids, version):
    other = OTHER[version]
    for key, field, default in FIELDS[version][kind]:
        word, value = found.get(key, (key, default))
        if value is None:
            raise ValueError(f"{key}: missing, and {kind} must have it")
        try:
            yield key, (other[word][1] if word in other else field).parse(value, ids)
        except ValueError as error:
            raise ValueError(f"{word}: {error}")


def version_of(line):
    """The version that a line names, as in `version 2`; None of another line."""
    found = list(words(line))
    if not found or found[0] != (None, "version"):
        return None
    if found[1:] not in ([(None, "1")], [(None, "2")]):
        raise ValueError("a version is 1 or 2")
    return int(found[1][1])


def record(line, ids, version, week, number):
    """The bytes of a line; none for an empty one, or a call whose service rests. The ids of the stops so far grow by a stop's."""
    head, *pairs = list(words(line)) or [(None, "")]
    if head == (None, ""):
        return b""
    kind = head[1] if head[0] is None else f"{head[0]}={head[1]}"
    if kind == "!":
        raise ValueError("the file that this text was made of is damaged here")
    if kind in dated.FIELDS:
        week.take(kind, pairs, number)
        return b""
    if kind not in FIELDS[version]:
        raise ValueError(f"{kind} is none of {', '.join([*FIELDS[version], *dated.FIELDS])}")
    own, pairs = week.own(kind, pairs)
    fields = dict(values(kind, given(kind, pairs, version), ids, version))
    if kind == "settings" and own is not None:
        week.dates(own)
    if kind == "call" and week.rests(own, fields["day"]):
        return b""
    if kind == "stop":
        ids.append(fields["id"])
    body = b"".join(field.put(fields[key]) for key, field, _ in FIELDS[version][kind])
    return (len(body) + 1).to_bytes(2, "big") + bytes([next(n for n, name in KINDS.items() if name == kind)]) + body


class Packed:
    """The load file of a text, as bytes: of version 1, unless a line before the records names another; the line of each record."""
    def __init__(self, text):
        self.ids, self.parts, self.lines, self.version, self.week = [], [], [], 1, dated.Week()
        for number, line in enumerate(text.removeprefix(b"\xef\xbb\xbf").decode("latin-1").split("\n"), 1):
            try:
                self.take(number, line)
            except ValueError as error:
                raise Wrong(f"line {number}: {error}")
        self.data = bytes([self.version]) + b"".join(self.parts)

    def take(self, number, line):
        named = version_of(line)
        if named and self.parts:
            raise ValueError("the version stands before the records")
        self.version = named or self.version
        part = b"" if named else record(line, self.ids, self.version, self.week, number)
        if part:
            self.parts.append(part)
            self.lines.append(number)


def packed(text):
    """The load file of a text, both as bytes."""
    return Packed(text).data
