"""A time-distance diagram of journeys as inline SVG: the clock to the right, the stops from above; black lines alone."""
import html, textwrap

LEFT, RIGHT, WIDTH, TOP = 186, 24, 700, 16
MOST, ROWS, SPAN, LABEL = 8, 20, 9000, 18   # journeys, rows and seconds of one diagram; the room of a journey's number
STEPS = 60, 120, 300, 600, 900, 1200, 1800, 3600, 7200


def points(j):
    """The corners of a journey as rows and seconds, and how each line to the next is drawn."""
    found = [(("origin", j.origin), j.leave, "walk")]
    for at, leg in enumerate(j.legs):
        found += [(("stop", leg.src), leg.departure, "ride"),
                  (("stop", leg.dst), leg.arrival, "walk" if at == len(j.legs) - 1 else "wait")]
    return found + [(("target", j.target), j.arrival, "")]


def parts(numbered):
    """The journeys of each diagram: so few, and so near in time, that it can be read."""
    part = []
    for number, j in numbered:
        new = part + [(number, j)]
        span = max(k.arrival for _, k in new) - min(k.leave for _, k in new)
        rows = {row for _, k in new for row, _, _ in points(k)}
        if part and (len(new) > MOST or span > SPAN or len(rows) > ROWS):
            yield part
            new = [(number, j)]
        part = new
    if part:
        yield part


def ordered(part):
    """The rows from above: origins, stops as far along their journeys as they lie, targets."""
    places = {}
    for _, j in part:
        line = points(j)
        for at, (row, _, _) in enumerate(line):
            places.setdefault(row, []).append(at / (len(line) - 1))
    side = {"origin": 0, "stop": 1, "target": 2}
    return sorted(places, key=lambda row: (side[row[0]], sum(places[row]) / len(places[row]) if row[0] == "stop" else 0, row[1]))


def lanes(wanted):
    """For each place along a line the lowest lane in which its label touches no other."""
    taken, found = [], {}
    for x, number in sorted(wanted):
        lane = next((i for i, last in enumerate(taken) if x - last >= LABEL), len(taken))
        taken[lane:lane + 1] = [x]
        found[number] = lane
    return found


class Diagram:
    def __init__(self, paper, part):
        self.paper, self.part, self.rows = paper, part, ordered(part)
        self.first = min(j.leave for _, j in part)
        self.last = max(max(j.arrival for _, j in part), self.first + 60)
        self.leaves = lanes([(self.x(j.leave), n) for n, j in part])
        self.arrives = lanes([(self.x(j.arrival), n) for n, j in part])
        self.y, at = {}, TOP + 15 * (max(self.leaves.values()) + 1) + 16
        for row in self.rows:
            lines = self.label(row)
            at += 6 * len(lines) + 8
            self.y[row] = at
            at += 6 * len(lines) + 8
        self.below = at + 15 * (max(self.arrives.values()) + 1)
        self.height = self.below + 34

    def x(self, second):
        return LEFT + (WIDTH - LEFT - RIGHT) * (second - self.first) / (self.last - self.first)

    def label(self, row):
        kind, number = row
        if kind == "stop":
            return textwrap.wrap(self.paper.name(number), 27) or [""]
        walks = self.paper.settings.origin_walks if kind == "origin" else self.paper.settings.target_walks
        return [f"{kind} {number}, {walks[number]} min on foot"]

    def ticks(self):
        step = next((s for s in STEPS if (self.last - self.first) / s <= 7), STEPS[-1])
        start = self.paper.settings.now - self.paper.settings.epochs[0]
        at = -(-(self.first + start) // step) * step - start
        while at <= self.last:
            yield at
            at += step

    def drawn(self):
        text = lambda x, y, words, anchor="middle": f'<text x="{x:.1f}" y="{y:.1f}" text-anchor="{anchor}">{html.escape(words)}</text>'
        line = lambda name, x, y, u, v: f'<line class="{name}" x1="{x:.1f}" y1="{y:.1f}" x2="{u:.1f}" y2="{v:.1f}"/>'
        top, bottom = self.y[self.rows[0]], self.y[self.rows[-1]]
        for second in self.ticks():
            yield line("grid", self.x(second), top - 4, self.x(second), self.below + 10)
            yield text(self.x(second), self.below + 24, self.paper.clock(second))
        for row in self.rows:
            words = self.label(row)
            yield line("row", LEFT, self.y[row], WIDTH - RIGHT, self.y[row])
            for at, part in enumerate(words):
                yield text(LEFT - 8, self.y[row] + 4 + 12 * at - 6 * (len(words) - 1), part, "end")
        for number, j in self.part:
            corners = points(j)
            for (row, second, kind), (to, until, _) in zip(corners, corners[1:]):
                yield line(kind, self.x(second), self.y[row], self.x(until), self.y[to])
            up, down = top - 12 - 15 * self.leaves[number], bottom + 20 + 15 * self.arrives[number]
            yield line("grid", self.x(j.leave), up + 2, self.x(j.leave), top)
            yield line("grid", self.x(j.arrival), bottom, self.x(j.arrival), down - 11)
            yield text(self.x(j.leave), up, str(number)) + text(self.x(j.arrival), down, str(number))

    def svg(self):
        return f'<svg viewBox="0 0 {WIDTH} {self.height:.0f}" role="img" aria-label="time and stops of journeys ' \
            f'{self.part[0][0]} to {self.part[-1][0]}">' + "".join(self.drawn()) + "</svg>"


def diagrams(paper, journeys):
    for part in parts(list(enumerate(journeys, 1))):
        yield part[0][0], part[-1][0], Diagram(paper, part).svg()
