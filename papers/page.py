"""A paper's key as one HTML page: no script, nothing fetched; black on white, for A4."""
import html
from answers import minutes, steps
from diagram import diagrams
from refusing import clock
from unpacking import ALIGHTING, BOARDING, CHANGES

STYLE = """
@page { size: A4; margin: 16mm 15mm }
body { font: 11pt/1.4 serif; color: #000; background: #fff; max-width: 180mm; margin: 8mm auto; padding: 0 4mm;
  overflow-wrap: anywhere }
h1 { font-size: 17pt; margin: 0 0 2mm } h2 { font-size: 13pt; margin: 7mm 0 2mm; break-after: avoid }
h3 { font-size: 11pt; margin: 5mm 0 1mm; break-after: avoid }
table { border-collapse: collapse; width: 100% }
th, td { border-bottom: 0.5pt solid #000; padding: 1pt 5pt; text-align: left; vertical-align: top }
td.n, th.n { text-align: right; white-space: nowrap } tr, article, figure { break-inside: avoid } thead { display: table-header-group }
table.steps td { border: 0 } table.steps td:first-child { width: 18mm; text-align: right; white-space: nowrap }
figure { margin: 3mm 0 } figcaption { font-size: 9.5pt } svg { width: 100%; height: auto; display: block }
svg text { font: 11px sans-serif; fill: #000; stroke: #fff; stroke-width: 3px; paint-order: stroke }
svg line { stroke: #000 } line.row { stroke-width: 0.4 } line.grid { stroke: #888; stroke-width: 0.5 }
line.ride { stroke-width: 2.2 } line.walk { stroke-width: 1.1; stroke-dasharray: 5 3 }
line.wait { stroke-width: 1.1; stroke-dasharray: 1 3 }
.note { border: 1pt solid #000; padding: 1mm 3mm; margin: 3mm 0 }
footer { margin-top: 8mm; border-top: 0.5pt solid #000; font-size: 9pt }
code { font-size: 9pt } .blank td { height: 9mm }
@media print { body { margin: 0; padding: 0 1mm; max-width: none } }
"""


def tag(name, inside, mark=""):
    return f"<{name}{mark}>{inside}</{name}>"


def said(words):
    """Pairs of a text and whether it is a name; names are kept apart from the words around them, whatever their letters."""
    return "".join(tag("bdi", html.escape(text)) if is_name else html.escape(text) for text, is_name in words)


def row(cells, kind="td"):
    """Cells; those that are numbers stand to the right."""
    return tag("tr", "".join(tag(kind, cell[1:], ' class="n"') if cell.startswith("#") else tag(kind, cell) for cell in cells))


def table(heads, rows, mark=""):
    return tag("table", tag("thead", row(heads, "th")) + tag("tbody", "".join(rows)), mark)


def named(names):
    return ", ".join(tag("bdi", html.escape(name)) for name in names) or "no stop"


def setting(paper):
    """The question: start, ends and walks, change time."""
    s, judge = paper.settings, paper.judge
    ends = [row([f"{word} {i}", named(paper.members(of, i)), f"#{walk} min"])
            for word, walks, of in (("origin", s.origin_walks, judge.origins), ("target", s.target_walks, judge.targets))
            for i, walk in enumerate(walks)]
    changes = "no change" if s.max_transfers == 0 else f"at most {s.max_transfers} change{'s' * (s.max_transfers != 1)}, " \
        f"{minutes(s.transfer_seconds)} each where no rule says otherwise"
    return tag("p", f"Start {paper.clock(0)}; {changes}.") + table(["end", "stops", "#on foot"], ends, ' class="ends"')


def figures(paper, journeys):
    cells = lambda n, j: (n, paper.clock(j.leave), paper.clock(j.arrival), j.rides, j.walk, j.origin, j.target, j.leave, j.arrival)
    rows = [row([f"#{cell}" for cell in cells(n, j)]) for n, j in enumerate(journeys, 1)]
    heads = ["#no.", "#leave", "#arrival", "#rides", "#walk, min", "#origin", "#target", "#leave, s", "#arrival, s"]
    return table(heads, rows, ' class="figures"') \
        + tag("p", "Seconds count from the start; the walk is the one to the first stop.")


def listed(paper, journeys):
    for number, j in enumerate(journeys, 1):
        head = f"{number}. Leave {paper.clock(j.leave)}, arrive {paper.clock(j.arrival)}: {j.rides} ride{'s' * (j.rides != 1)}, " \
            f"{j.walk} min on foot to the first stop"
        rows = [tag("tr", tag("td", paper.clock(second)) + tag("td", said(words))) for second, words in steps(paper, j)]
        yield tag("article", tag("h3", head) + tag("table", "".join(rows), ' class="steps"'))


def pictures(paper, journeys):
    for first, last, svg in diagrams(paper, journeys):
        which = f"Journey {first}" if first == last else f"Journeys {first} to {last}"
        words = f"{which}, numbered at leave and arrival: thick a ride, dashed on foot, dotted a change. Stops are not to scale."
        yield tag("figure", svg + tag("figcaption", words))


def horizon(paper, shown):
    until = f"{paper.clock(shown.horizon)} ({shown.horizon} s after the start, limits {shown.limits})"
    return tag("p", f"Horizon: {tag('strong', until)}", ' class="horizon"') + tag(
        "p", "Of every connection that the paper admits and that arrives by the horizon, the list has one that is as good or better: it "
        "leaves no earlier, and of arrival, rides and walk, compared in that order, it is no worse. A connection due by the horizon that "
        "no listed one equals or beats is wrong. Nothing is said of what arrives later.")


def warned(lines):
    items = tag("ul", "".join(tag("li", html.escape(line)) for line in lines))
    return tag("div", tag("strong", "Note") + items, ' class="note"') if lines else ""


def timetable(paper):
    """Every trip as it was handed in, by trip, day and sequence."""
    trips = {}
    for _, call in sorted(paper.judge.calls, key=lambda pair: (pair[1].day, pair[1].trip, pair[1].sequence)):
        trips.setdefault((call.trip, call.day), []).append(call)
    time = lambda seconds: "#" + ("" if seconds is None else clock(seconds))
    for (trip, day), calls in sorted(trips.items()):
        notes = lambda c: ", ".join(filter(None, (BOARDING.get(c.pickup), ALIGHTING.get(c.drop_off))))
        rows = [row([tag("bdi", html.escape(paper.name(c.stop))), time(c.arrival), time(c.departure), notes(c)]) for c in calls]
        head = tag("h3", f"Trip {trip}" + (f", by the clock of day {day}" if day else ""))
        yield tag("article", head + table(["stop", "#arrives", "#departs", ""], rows))


def rules(paper):
    rows = [row([tag("bdi", html.escape(paper.name(r.src))), tag("bdi", html.escape(paper.name(r.dst))), CHANGES[r.transfer_type],
                 f"#{minutes(r.seconds)}" if r.transfer_type == 2 else ""]) for r in paper.load.rules]
    return tag("h2", "Changes") + table(["from", "to", "rule", "#least time"], rows) if rows else ""


def questions(paper):
    lines = [row([f"#{n}"] + [""] * 5) for n in range(1, 9)]
    return [setting(paper), tag("h2", "Timetable"), *timetable(paper), rules(paper), tag("h2", "Your connections"),
            table(["#no.", "leave", "arrival", "trips", "changes at", "walk, min"], lines, ' class="blank"')]


def answers(paper, shown, warnings):
    if not shown.searched:
        return [setting(paper), warned(warnings)]
    found = [tag("h2", "Figures"), figures(paper, shown.journeys), tag("h2", "Journeys"), *listed(paper, shown.journeys),
             tag("h2", "Time and stops"), *pictures(paper, shown.journeys)] if shown.journeys else []
    return [setting(paper), warned(warnings), horizon(paper, shown), *found]


def page(title, body, foot):
    """The whole page; `foot` has pairs of a word and a value."""
    head = '<meta charset="utf-8"><meta name="viewport" content="width=device-width">'
    head += tag("title", html.escape(title)) + tag("style", STYLE)
    end = tag("footer", "".join(tag("div", f"{html.escape(word)}: {tag('code', html.escape(value))}") for word, value in foot))
    inside = tag("body", "\n".join([tag("h1", html.escape(title)), *body, end]))
    return "<!DOCTYPE html>\n" + tag("html", tag("head", head) + "\n" + inside, ' lang="en"') + "\n"
