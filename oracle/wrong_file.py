"""Wrong readings of request 01's load file."""
from fields import Fields, first_cause
from reading import Reading
from wrong import misread


def unless(step, keep):
    """The causes of one test of the file left out, or changed."""
    return lambda self, at, causes: first_cause(keep(causes) if at == step else causes)


def fields(name, **parts):
    misread(name, Fields=type(name, (Fields,), parts))


def lenient(self, n):
    """Bytes that are not there read as 0."""
    found = self.data[self.at:self.at + n]
    self.at += len(found)
    return found + bytes(n - len(found))


def counted(self, count):
    first_cause([(count > 4, 1)])
    return Fields.walks(self, count)


misread("any-version", refuse=unless("version", lambda causes: []))
misread("version-is-18", refuse=unless("version", lambda causes: [(holds, 18) for holds, _ in causes]))
misread("past-the-end-allowed", refuse=unless("length", lambda causes: []))
misread("past-the-end-is-19", refuse=unless("length", lambda causes: [(holds, 19) for holds, _ in causes]))
misread("kind-is-18", refuse=unless("kind", lambda causes: [(holds, 18) for holds, _ in causes]))
misread("unknown-kind-is-a-search", refuse=unless("kind", lambda causes: causes[1:]))
misread("first-record-of-any-kind", refuse=unless("kind", lambda causes: causes[:1] + causes[2:]))
misread("second-settings-open-anew", refuse=unless("kind", lambda causes: causes[:2]))
misread("no-record-accepted", refuse=unless("end", lambda causes: []))
misread("no-record-is-18", refuse=unless("end", lambda causes: [(holds, 18) for holds, _ in causes]))
misread("fields-left-over-allowed", refuse=unless("rest", lambda causes: []))
misread("fields-are-19", refuse=unless("rest", lambda causes: [(holds, 19) for holds, _ in causes]))
fields("optional-byte-above-1-is-given", mark=lambda self: self.number("B"))
fields("missing-bytes-are-0", take=lenient)
fields("minutes-are-seconds", change=lambda self: self.number("B"))
fields("walks-at-most-4", walks=lambda self, count: Fields.walks(self, min(count, 4)))
fields("count-before-18", walks=counted)
