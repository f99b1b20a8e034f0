"""A GTFS feed, a folder or a zip: its tables, and which services run on a date (GTFS Schedule Reference)."""
import csv, io, pathlib, re, zipfile
from collections import namedtuple

Stop = namedtuple("Stop", "id name parent type lat lon")
Trip = namedtuple("Trip", "id service headsign route")
Call = namedtuple("Call", "sequence stop arrival departure pickup drop_off")
Transfer = namedtuple("Transfer", "source target type seconds")
WEEKDAYS = "monday tuesday wednesday thursday friday saturday sunday".split()


class FeedError(Exception):
    """A feed that can't be read, and why."""


class Feed:
    def __init__(self, path):
        self.path, self.archive = pathlib.Path(path), None
        if not self.path.is_dir():
            try:
                self.archive = zipfile.ZipFile(path)
            except (OSError, zipfile.BadZipFile) as error:
                raise FeedError(f"{path}: neither a folder nor a zip that can be read ({error})")

    def stream(self, table):
        """The bytes of a table, from anywhere in a zip; None if the feed hasn't it."""
        name = table + ".txt"
        if self.archive is None:
            return open(self.path / name, "rb") if (self.path / name).is_file() else None
        found = [entry for entry in self.archive.namelist() if entry.split("/")[-1] == name]
        return self.archive.open(min(found, key=len)) if found else None

    def rows(self, table, columns, needed=True):
        """The rows of a table as dicts without white space around their cells, an absent cell as an empty one."""
        stream = self.stream(table)
        if stream is None:
            if needed:
                raise FeedError(f"{self.path}: no {table}.txt")
            return
        with io.TextIOWrapper(stream, "utf-8-sig", "surrogateescape", newline="") as text:
            reader = csv.DictReader(text)
            lacking = [column for column in columns if column not in [name.strip() for name in reader.fieldnames or []]]
            if lacking:
                raise FeedError(f"{table}.txt:1: no column {', '.join(lacking)}")
            try:
                for row in reader:
                    cells = {key.strip(): (value or "").strip() for key, value in row.items() if key is not None}
                    cells[""] = f"{table}.txt:{reader.line_num}"
                    yield cells
            except csv.Error as error:
                raise FeedError(f"{table}.txt:{reader.line_num}: {error}")


def number(row, column, default=None):
    """A cell's number; the default where the cell is empty."""
    text = row.get(column, "")
    if not text and default is not None:
        return default
    if not re.fullmatch("[0-9]{1,10}", text):
        raise FeedError(f"{row['']}: {column}: {text or 'nothing'}, where a number was expected")
    return int(text)


def seconds(row, column):
    """A time of day as seconds, past 24:00:00 too; None where the cell is empty."""
    text = row.get(column, "")
    parts = re.fullmatch("([0-9]{1,3}):([0-5][0-9]):([0-5][0-9])", text)
    if text and not parts:
        raise FeedError(f"{row['']}: {column}: {text}, where h:mm:ss was expected")
    return sum(int(part) * size for part, size in zip(parts.groups(), (3600, 60, 1))) if parts else None


def date_of(row, column):
    if not re.fullmatch("[0-9]{8}", row[column]):
        raise FeedError(f"{row['']}: {column}: {row[column] or 'nothing'}, where a date of eight digits was expected")
    return row[column]


def running(feed, dates):
    """For each date the services that run: on a marked weekday within start and end, or added; a removal outweighs both."""
    if not any(feed.stream(table) for table in ("calendar", "calendar_dates")):
        raise FeedError(f"{feed.path}: neither calendar.txt nor calendar_dates.txt")
    runs, removed, texts = [set() for _ in dates], [set() for _ in dates], [date.strftime("%Y%m%d") for date in dates]
    for row in feed.rows("calendar", ["service_id", "start_date", "end_date", *WEEKDAYS], False):
        start, end = date_of(row, "start_date"), date_of(row, "end_date")
        for day, date in enumerate(dates):
            if row[WEEKDAYS[date.weekday()]] == "1" and start <= texts[day] <= end:
                runs[day].add(row["service_id"])
    for row in feed.rows("calendar_dates", ["service_id", "date", "exception_type"], False):
        for day, text in enumerate(texts):
            if date_of(row, "date") == text:
                {1: runs, 2: removed}.get(number(row, "exception_type"), [set()] * len(dates))[day].add(row["service_id"])
    return [some - gone for some, gone in zip(runs, removed)]


def stops(feed):
    found = {}
    for row in feed.rows("stops", ["stop_id"]):
        cell = lambda column: row.get(column, "")
        found[row["stop_id"]] = Stop(row["stop_id"], cell("stop_name"), cell("parent_station"), number(row, "location_type", 0),
                                     cell("stop_lat"), cell("stop_lon"))
    return found


def trips(feed, services):
    """The trips of some services."""
    for row in feed.rows("trips", ["trip_id", "service_id"]):
        if row["service_id"] in services:
            yield Trip(row["trip_id"], row["service_id"], row.get("trip_headsign", ""), row.get("route_id", ""))


def calls(feed, wanted):
    """The calls of each of some trips, by sequence; one of two times stands for both. Where both are lacking they are None."""
    found = {}
    for row in feed.rows("stop_times", ["trip_id", "stop_id", "stop_sequence", "arrival_time", "departure_time"]):
        if row["trip_id"] in wanted:
            arrival, departure = seconds(row, "arrival_time"), seconds(row, "departure_time")
            found.setdefault(row["trip_id"], []).append(
                Call(number(row, "stop_sequence"), row["stop_id"], departure if arrival is None else arrival,
                     arrival if departure is None else departure, number(row, "pickup_type", 0), number(row, "drop_off_type", 0)))
    return {trip: sorted(some, key=lambda call: call.sequence) for trip, some in found.items()}


def serving(feed, ends):
    """The trips that call at one of some stops."""
    return {row["trip_id"] for row in feed.rows("stop_times", ["trip_id", "stop_id"]) if row["stop_id"] in ends}
