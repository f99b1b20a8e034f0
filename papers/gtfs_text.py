"""The lines of a paper made of a feed's chosen runs."""
from gtfs_choice import EPOCHS
from gtfs_paper import DECIMAL, NAMES, RULES, clock, plain, quoted, raw, readable

HEAD = "settings walks={} transfer-minutes={} max-transfers={} now={} epochs={}"


def degrees(stop):
    """Whether a stop's position can be written, and is usable."""
    if not DECIMAL.fullmatch(stop.lat) or not DECIMAL.fullmatch(stop.lon):
        return False
    return abs(float(stop.lat)) <= 90 and abs(float(stop.lon)) <= 180


def memberships(chosen, stop):
    sides = [[str(i) for i, (members, _) in enumerate(ends.sides) if stop in members] for ends in (chosen.origins, chosen.targets)]
    return "/".join(map(",".join, sides))


def stop_line(chosen, stop, stations):
    """A stop's line. A name that can't be used is dropped, and the id stands in; if that can't be used either, the position goes."""
    name, located, parent = stop.name, degrees(stop), stop.parent in stations and stop.type == 0
    if stop.parent and not parent:
        chosen.notes.add("dropped, parent that is no station, or whose id has more than 32 bytes", f"{stop.parent} of {stop.id}")
    if (stop.lat or stop.lon) and not located:
        chosen.notes.add("dropped, position that is none", stop.id)
    needed = located and not parent and stop.type == 0
    if name and (len(raw(name)) > NAMES or needed and not readable(name)):
        chosen.notes.add("dropped, name over 64 bytes, or with what is no letter up to code point 255; the id stands in",
                         f"{name} of {stop.id}")
        name = ""
    if needed and not name and not readable(stop.id):
        chosen.notes.add("dropped, position of a stop without a usable name", stop.id)
        located = False
    members = memberships(chosen, stop.id)
    return " ".join(["stop", f"id={quoted(stop.id)}"] + [f"name={quoted(name)}"] * bool(name)
                    + [f"parent={quoted(stop.parent)}"] * parent + ["type=1"] * (stop.type == 1)
                    + [f"position={stop.lat},{stop.lon}"] * located + [f"members={members}"] * (members != "/"))


def stop_lines(chosen):
    """The stations first, then the rest, as the feed has them."""
    named = chosen.named()
    stops = [stop for stop in chosen.stops.values() if stop.id in named]
    stations = {stop.id for stop in stops if stop.type == 1}
    return [stop_line(chosen, stop, stations) for stop in sorted(stops, key=lambda stop: stop.type != 1)]


def rule_lines(chosen):
    named = chosen.named()
    rules = [rule for rule in chosen.transfers if {rule.source, rule.target} <= named]
    for rule in rules[RULES:]:
        chosen.notes.add(f"dropped, transfers over {RULES}; the list isn't the feed's where they count", f"{rule.source} to {rule.target}")
    return [f"rule from={quoted(rule.source)} to={quoted(rule.target)} type={rule.type}"
            + ("" if rule.seconds is None else f" seconds={rule.seconds}") for rule in rules[:RULES]]


def trip_lines(chosen, dates):
    """The trips, numbered from 1 as they leave; a trip of two days has one number."""
    numbers = {}
    for run in chosen.runs:
        number = numbers.setdefault(run.trip.id, len(numbers) + 1)
        words = [run.trip.id] + [f"route {run.trip.route}"] * bool(run.trip.route) + [f"to {run.trip.headsign}"] * bool(run.trip.headsign)
        yield "# trip {}: {}; service {} on {}".format(number, plain(", ".join(words)), plain(run.trip.service), dates[run.day])
        for i in chosen.shown(run):
            call = run.calls[i]
            yield f"call trip={number}" + (f" day={run.day}" if run.day else "") + f" sequence={call.sequence} stop={quoted(call.stop)}" \
                f" arrival={clock(call.arrival)} departure={clock(call.departure)}" \
                + (f" pickup={call.pickup}" if call.pickup else "") + (f" drop-off={call.drop_off}" if call.drop_off else "")


def end_lines(chosen):
    for word, ends in (("origin", chosen.origins), ("target", chosen.targets)):
        for i, (members, minutes) in enumerate(ends.sides):
            yield plain(f"# {word} {i}: {chosen.stops[members[0]].name or members[0]}, {minutes} minutes on foot")


def text(chosen, title, dates, change, transfers):
    """The paper's lines: what it is of, what was dropped, the records."""
    walks = "/".join(",".join(str(minutes) for _, minutes in ends.sides) for ends in (chosen.origins, chosen.targets))
    settings = HEAD.format(walks, change, transfers, clock(chosen.start), ",".join(map(str, EPOCHS)))
    stops, rules, trips = stop_lines(chosen), rule_lines(chosen), list(trip_lines(chosen, dates))
    if not trips:
        chosen.notes.add("no trip", "none takes one from an origin to a target within six hours")
    notes = [f"# {line}" for line in chosen.notes.lines()]
    head = [f"# {plain(title)}: {dates[0]}, from {clock(chosen.start)} for six hours. Day 1 is {dates[1]}, day 2 {dates[2]}."]
    return [*head, *end_lines(chosen), *notes, settings, "", *stops, *[""] * bool(rules), *rules, "", *trips, "", "search"]
