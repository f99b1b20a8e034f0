"""Document 01, "Transfers and places", with request 07's names: hash, names, positions, place keys and the grouping of stops."""
import math
from collections import namedtuple

Key = namedtuple("Key", "tag hash lat lon")


class Places:
    def fold(self, data):
        value = 0xcbf29ce484222325
        for byte in data:
            value = (value ^ byte) * 0x100000001b3 % 2**64
        return value

    def points(self, name):
        """The code points of a text; a byte that is ill-formed stands as one above 255."""
        return [ord(letter) for letter in name.decode("utf-8", "surrogateescape")]

    def written(self, points):
        return "".join(map(chr, points)).encode("utf-8", "surrogateescape")

    def parts(self, point):
        return 9 <= point <= 13 or point in (32, 133, 160)

    def words(self, name):
        found, word = [], []
        for point in self.points(name):
            if self.parts(point):
                found, word = found + [word] * bool(word), []
            else:
                word = word + [point]
        return found + [word] * bool(word)

    def lower(self, point):
        return point + 32 if 65 <= point <= 90 or 192 <= point <= 222 and point != 215 else point

    def folded(self, name):
        return b" ".join(self.written(map(self.lower, word)) for word in self.words(name))

    def control(self, point):
        return point < 9 or 14 <= point <= 31 or 127 <= point <= 159 and point != 133

    def bad_point(self, point):
        return point > 255 or self.control(point)

    def usable(self, position):
        if position is None:
            return False
        lat, lon = position
        return math.isfinite(lat) and math.isfinite(lon) and abs(lat) <= 90 and abs(lon) <= 180

    def micro(self, degrees):
        return math.trunc(degrees * 1000000.0)

    def shown(self, stop):
        return stop.id if stop.name is None else stop.name

    def place_key(self, stop):
        if stop.parent is not None:
            return Key("P", self.fold(stop.parent), 0, 0)
        if self.usable(stop.position):
            lat, lon = stop.position
            return Key("N", self.fold(self.folded(self.shown(stop))), self.micro(lat), self.micro(lon))
        return Key("I", self.fold(stop.id), 0, 0)

    def same_key(self, a, b):
        return a.tag == b.tag and a.hash == b.hash

    def near(self, a, b):
        radians = float(a.lat + b.lat) * math.pi / 360000000.0
        x2 = radians * radians
        cos = 1.0 + x2 * (-0.5 + x2 * (1.0 / 24.0 + x2 * (-1.0 / 720.0 + x2 * (1.0 / 40320.0 - x2 / 3628800.0))))
        dx = float(self.turn(abs(a.lon - b.lon))) * (111195.0 / 1000000.0) * cos
        dy = float(a.lat - b.lat) * (111195.0 / 1000000.0)
        return dx * dx + dy * dy <= 125.0 * 125.0

    def turn(self, delta):
        return 360000000 - delta if delta > 180000000 else delta

    def same_place(self, a, b):
        return self.same_key(a, b) and (a.tag != "N" or self.near(a, b))

    def place_order(self, stops):
        return sorted(range(len(stops)), key=lambda i: stops[i].id)

    def keyed(self, stop):
        return stop.location_type == 0

    def group(self, stops):
        places = [None] * len(stops)
        keys = {i: self.place_key(s) for i, s in enumerate(stops) if self.keyed(s)}
        for i in self.place_order(stops):
            if i in keys:
                places[i] = self.representative(stops, keys, places, i)
        return places

    def representative(self, stops, keys, places, i):
        for j in self.place_order(stops):
            if places[j] == j and self.same_place(keys[i], keys[j]):
                return j
        return i
