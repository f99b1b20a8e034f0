"""Feeds for tests: small ones by chance, with stations, stops of one name near and far, services with exceptions, times past midnight
and transfers; and one that is more than a display holds.
"""
import csv

DATES = ["20260227", "20260228", "20260301", "20260302", "20260303", "20260304"]
NAMES = ["Quay", "quay", "Market  Square", "Market square", "Élan", "élan", "Łódź"]


def write(folder, table, head, rows):
    with (folder / (table + ".txt")).open("w", encoding="utf-8", newline="") as stream:
        csv.writer(stream).writerows([head.split(","), *rows])


def clock(seconds):
    return f"{seconds // 3600}:{seconds // 60 % 60:02}:{seconds % 60:02}"


def stops(chance):
    """Stops on a grid whose neighbours are some 45 m apart in one row and some 2 km in the next."""
    rows = [["S", "Station", "", "", 1, ""]]
    for i in range(chance.randint(5, 9)):
        placed = chance.random() < .8
        lat, lon = 52 + chance.randint(0, 1) * .02 + chance.randint(0, 2) * .0004, 16.9
        rows.append([f"s{i}", chance.choice(NAMES), f"{lat:.4f}" if placed else "", lon if placed else "", chance.choice(["", 0]),
                     "S" if chance.random() < .25 else ""])
    return rows


def services(chance):
    spans = [("20260101", "20261231")] * 4 + [("20260302", "20260302"), ("20260301", "20260101")]
    week = [[f"w{i}", *(int(chance.random() < .7) for _ in range(7)), *chance.choice(spans)] for i in range(3)]
    dates = [[f"w{chance.randint(0, 4)}", chance.choice(DATES), chance.choice([1, 1, 2])] for _ in range(10)]
    return week, dates


def trips(chance, names):
    """Trips and their calls, of four to two stops, at any hour up to 34:00."""
    trips, times = [], []
    for i in range(chance.randint(30, 80)):
        trips.append(["r", f"w{chance.choice([0, 0, 1, 1, 2, 3])}", f"t{i}", chance.choice(["", "Quay", "Łódź"])])
        at = chance.choice([0, 8, 8, 9, 10, 23, 24, 32, 33]) * 3600 + chance.randint(0, 60) * 60
        for sequence, stop in enumerate(chance.sample(names, chance.randint(2, min(4, len(names))))):
            wait = chance.choice([0, 0, 60])
            kinds = [chance.choice(["", "", 0, 0, 0, 1, 2, 3]) for _ in range(2)]
            times.append([f"t{i}", clock(at), clock(at + wait), stop, sequence * 5, *kinds])
            at += wait + chance.randint(1, 25) * 60
    return trips, times


def feed(chance, folder):
    """Writes a feed, and gives origins and targets with their walks."""
    rows = stops(chance)
    names = [row[0] for row in rows[1:]]
    week, dates = services(chance)
    made, times = trips(chance, names)
    rules = [[chance.choice(["S", *names]), chance.choice(["S", *names]), chance.choice([0, 1, 2, 2, 3, 4]), chance.choice([60, 200, 600])]
             for _ in range(chance.randint(0, 8))]
    write(folder, "stops", "stop_id,stop_name,stop_lat,stop_lon,location_type,parent_station", rows)
    write(folder, "calendar", "service_id,monday,tuesday,wednesday,thursday,friday,saturday,sunday,start_date,end_date", week)
    write(folder, "calendar_dates", "service_id,date,exception_type", dates)
    write(folder, "trips", "route_id,service_id,trip_id,trip_headsign", made)
    write(folder, "stop_times", "trip_id,arrival_time,departure_time,stop_id,stop_sequence,pickup_type,drop_off_type", times)
    write(folder, "transfers", "from_stop_id,to_stop_id,transfer_type,min_transfer_time", rules)
    ends = ["S", *names]
    side = lambda: [(chance.choice(ends), chance.randint(0, 9)) for _ in range(chance.randint(1, 2))]
    return side(), side()


def wide(folder):
    """159 ways from one stop to another, each with a change at a stop of its own: 161 stops, 636 calls and more that nobody uses."""
    rows = [[f"s{i:03}", f"Stop {i}", f"{52 + i / 100:.2f}", 16.9, "", ""] for i in range(161)]
    trips, times = [], []
    for i in range(1, 160):
        at = 8 * 3600 + i * 60
        trips += [["r", "w", f"a{i}", ""], ["r", "w", f"b{i}", ""]]
        times += [[f"{trip}{i}", clock(at + after), clock(at + after), stop, sequence, "", ""] for trip, sequence, after, stop in (
            ("a", 1, 0, "s000"), ("a", 2, 600, f"s{i:03}"), ("b", 0, 850, f"s{i:03}"), ("b", 1, 900, f"s{i:03}"), ("b", 2, 1500, "s160"))]
    write(folder, "stops", "stop_id,stop_name,stop_lat,stop_lon,location_type,parent_station", rows)
    write(folder, "calendar_dates", "service_id,date,exception_type", [["w", "20260302", 1]])
    write(folder, "trips", "route_id,service_id,trip_id,trip_headsign", trips)
    write(folder, "stop_times", "trip_id,arrival_time,departure_time,stop_id,stop_sequence,pickup_type,drop_off_type", times)
    return [("s000", 0)], [("s160", 0)]
