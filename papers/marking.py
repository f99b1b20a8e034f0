"""The lines of the program `mark` in sentences, for a connection that a person named."""
import naming


class Named:
    """A connection found in a paper."""
    def __init__(self, paper, text, origin, target):
        self.paper, self.legs = paper, naming.legs(paper, text)
        if len(self.legs) > 255:
            raise naming.Unclear("more rides than can be asked")
        self.origin = naming.end(paper, self.legs[0][0], 0, origin, "origin")
        self.target = naming.end(paper, self.legs[-1][1], 1, target, "target")

    def packed(self):
        data = bytes([self.origin, self.target, len(self.legs)])
        for board, alight in self.legs[:3]:
            data += board["trip"].to_bytes(2, "big") + bytes([board["day"]])
            data += board["sequence"].to_bytes(4, "big") + alight["sequence"].to_bytes(4, "big")
        return data.ljust(36, b"\0")

    def walk(self, side, number):
        walks = self.paper.settings["walks"][side]
        return walks[number] if number < len(walks) else 0

    def due(self):
        last = self.paper.second(self.legs[-1][1], "arrival")
        return None if last is None else last + 60 * self.walk(1, self.target)

    def figures(self):
        """Leave, arrival, rides, walk."""
        first, walk = self.paper.second(self.legs[0][0], "departure"), self.walk(0, self.origin)
        return None if first is None else first - 60 * walk, self.due(), len(self.legs), walk

    def ride(self, number):
        board, alight = self.legs[number]
        return f"trip {board['trip']} from {self.paper.label(board['stop'])} to {self.paper.label(alight['stop'])}"

    def change(self, number):
        return f"the change from trip {self.legs[number][0]['trip']} at {self.paper.label(self.legs[number][1]['stop'])} " \
            f"to trip {self.legs[number + 1][0]['trip']} at {self.paper.label(self.legs[number + 1][0]['stop'])}"


def moment(paper, second):
    return "no time" if second is None else f"{paper.clock(second)} (second {second})"


def told(paper, figures):
    leave, arrival, rides, walk = figures
    return f"leaves {moment(paper, leave)}, arrives {moment(paper, arrival)}, {rides} ride{'s' * (rides != 1)}, a walk of {walk} minutes"


def rule(named, number):
    r = named.paper.rules[number] if number < len(named.paper.rules) else None
    return f"rule {number}" + (f", from {named.paper.label(r['from'])} to {named.paper.label(r['to'])}" if r else "")


def why(named, word, n):
    """The cause of a connection that can't be made, in words; n are its numbers."""
    paper = named.paper
    if word == "short":
        return f"{named.change(n[0])} takes {n[1]} seconds, and there are {n[3] - n[2]}: " \
            f"{moment(paper, n[2])} to {moment(paper, n[3])}"
    texts = {
        "rides": lambda: f"{n[0]} rides; there may be one to three",
        "no-call": lambda: f"{named.ride(n[0])}: its call with sequence {n[1]} isn't in the load "
                           "(it lacks a time, departs before the start, or stands later in the paper than the search)",
        "boarding": lambda: f"{named.ride(n[0])}: boarding is barred there",
        "alighting": lambda: f"{named.ride(n[0])}: alighting is barred there",
        "not-later": lambda: f"{named.ride(n[0])}: it doesn't call there later",
        "origin": lambda: f"{paper.label(named.legs[0][0]['stop'])} isn't a stop of origin {named.origin}",
        "target": lambda: f"{paper.label(named.legs[-1][1]['stop'])} isn't a stop of target {named.target}",
        "walk": lambda: f"{named.ride(0)} departs {moment(paper, n[1])}, before a walk of {n[0]} seconds is done",
        "changes": lambda: f"{len(named.legs) - 1} changes, and the paper allows {n[0]}",
        "same-run": lambda: f"{named.change(n[0])} is to the same trip on the same day",
        "forbidden": lambda: f"{named.change(n[0])} is forbidden by {rule(named, n[1])}",
        "no-change": lambda: f"{named.change(n[0])}: no rule, and neither one stop, one station nor one place",
    }
    return texts[word]()


def beyond(named, word, n, horizon):
    """Whether the call that isn't in the load is one of the paper's that is after the horizon."""
    if word != "no-call":
        return False
    call = next(c for c in named.legs[n[0]] if c["sequence"] == n[1])
    second = named.paper.second(call, "arrival")
    return second is not None and second > horizon


def sentence(named, lines):
    """The exit status, and what is printed, for the program's lines."""
    if lines[0].startswith("refused"):
        return 3, [f"no verdict: the paper is {lines[0]}; papers/check says where and why"]
    listed = [line for line in lines if line.startswith("journey ")]
    horizon = int(lines[len(listed)].split()[1])
    word, *rest = lines[-1].split()
    own = told(named.paper, named.figures())
    late = f"no verdict: due after the horizon, {moment(named.paper, horizon)}"
    if word in ("listed", "equal", "beaten"):
        line = listed[int(rest[0])]
        leave, arrival, rides, walk = (int(x) for x in line.split()[1:5])
        other = told(named.paper, (leave, arrival, rides, walk))
        says = {"listed": "right: it is on the list", "equal": "right: as good as one on the list, with the same four figures",
                "beaten": "beaten: it can be made, and one on the list is better"}[word]
        return int(word == "beaten"), [says, f"  it {own}", f"  line {int(rest[0]) + 1} of the list {other}: {line}"]
    if word == "impossible":
        numbers = [int(x) for x in rest[1:]]
        if beyond(named, rest[0], numbers, horizon):
            return 3, [late, f"  it {own}"]
        return 2, [f"not possible: {why(named, rest[0], numbers)}", f"  it {own}"]
    says = {"late": late, "unfinished": "no verdict: the paper has no search that is finished", "uncovered": "no verdict"}[word]
    return 3, [says, f"  it {own}"]
