"""What is said of a paper or a load file: refusals and warnings with file, line and field."""
import re
from judging import judged
from packing import Packed, Wrong
from refusing import GENERAL


def printable(text):
    return "".join(c if c.isprintable() else f"\\x{ord(c):02x}" for c in text)


def unreadable(name, wrong):
    """What pack says of a line that it can't read."""
    number, why = re.fullmatch(r"line (\d+): (.*)", str(wrong), re.DOTALL).groups()
    return f"{name}:{number}: {why.encode('latin-1').decode('utf-8', 'replace')}"


def is_text(name, data):
    return name.endswith(".paper") or data[:1] not in (b"", b"\1", b"\2") and not name.endswith(".load")


def placed(name, places, record):
    """A record's place: its line in a paper, its number in a load file; 0 is the whole file."""
    if record == 0 or places is not None and record > len(places):
        return name
    return f"{name}: record {record}" if places is None else f"{name}:{places[record - 1]}"


def report(name, data, as_text=None):
    """The lines for one file, and whether it is taken; whether it is a text is seen from its name and bytes unless said."""
    places, rest = None, []
    if is_text(name, data) if as_text is None else as_text:
        try:
            paper = Packed(data)
        except Wrong as wrong:
            return [unreadable(name, wrong)], False
        data, places = paper.data, paper.lines
        rest = [f"{name}:{line}: warning: {said}" for line, rests, said in paper.week.notes() if rests]
    place = lambda record: placed(name, places, record)
    verdict = judged(data)
    short = lambda text: re.sub("^unreadable from byte [0-9]+ on: ", "", text) if places is not None else text
    lines = [f"{place(record)}: {short(said)}" for record, said in verdict.words]
    if verdict.number is not None:
        return [f"{lines[0]} (refused {verdict.number})", *lines[1:]], False
    lines = rest + [f"{place(record)}: warning: {said}" for record, said in verdict.warnings]
    return [*lines, f"{name}: not refused, {len(lines)} warning{'s' * (len(lines) != 1)}"], True


def refusal(name, data, number, as_text):
    """The words of a refusal whose number the program gave. For 11 the slow reader, which finds the record, might take minutes."""
    return [f"{name}: {GENERAL[11]} (refused 11)"] if number == 11 else report(name, data, as_text)[0]


def warned(name, data, as_text, warnings):
    """Warnings, each as the number of a record and words, with their places."""
    paper = Packed(data) if as_text else None
    services = [f"{name}:{line}: {said}" for line, _, said in paper.week.notes()] if paper else []
    return services + [f"{placed(name, paper and paper.lines, record)}: {said}" for record, said in warnings]
