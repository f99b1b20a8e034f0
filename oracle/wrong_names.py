"""Wrong readings of names, in 01 and in request 07."""
import re, unicodedata
from reading import Reading
from wrong import misread


def lower(name, points, to):
    """Some code points that fold to something else."""
    misread(name, lower=lambda self, point: to(point) if point in points else Reading.lower(self, point))


def control(name, points, held):
    """Some code points that are controls, or are none."""
    misread(name, control=lambda self, point: held if point in points else Reading.control(self, point))


def parts(name, points, held):
    """Some code points that part words, or part none."""
    misread(name, parts=lambda self, point: held if point in points else Reading.parts(self, point))


# --- 01 ---
misread("not-lower-case", lower=lambda self, point: point)
lower("lower-case-past-z", range(64, 96), lambda point: point | 32)
misread("words-joined-by-nothing", folded=lambda self, name: Reading.folded(self, name).replace(b" ", b""))
misread("space-alone-parts-words", parts=lambda self, point: point == 32)
parts("separators-28-to-31-part-words", range(28, 32), True)
control("delete-is-no-control", [127], False)
control("code-points-14-to-31-allowed", range(14, 32), False)
control("tab-is-a-control", [9], True)


# --- request 07: folding ---
def case_folded(self, name):
    """Letters that fold to several, as the letter sharp s to ss."""
    return b" ".join("".join(map(chr, word)).casefold().encode("utf-8", "surrogateescape") for word in self.words(name))


lower("accents-not-folded", range(128, 256), lambda point: point)
lower("accents-dropped", range(192, 256), lambda point: ord(unicodedata.normalize("NFD", chr(point))[0].lower()))
lower("folds-from-191", [191], lambda point: 223)
lower("192-stays", [192], lambda point: point)
lower("215-folds", [215], lambda point: 247)
lower("222-stays", [222], lambda point: point)
lower("223-folds", [223], lambda point: 255)
misread("folds-to-several", folded=case_folded)

# --- request 07: words and controls ---
parts("133-in-a-word", [133], False)
parts("160-in-a-word", [160], False)
parts("173-parts-words", [173], True)
control("133-is-a-control", [133], True)
control("160-is-a-control", [160], True)
control("173-is-a-control", [173], True)
control("128-to-159-allowed", range(128, 160), False)


# --- request 07: what is refused ---
def overlong(self, name):
    one = lambda pair: bytes([(pair[0][0] & 1) << 6 | pair[0][1] & 63])
    return Reading.points(self, re.sub(rb"[\xc0\xc1][\x80-\xbf]", one, name))


def cut_short(self, name):
    return Reading.points(self, re.sub(rb"[\xc2\xc3]$", b"", name))


def ascii_ids(self, stop):
    return Reading.bad_name(self, stop) or self.needed(stop) and stop.name is None and not stop.id.isascii()


def well_formed(self, stop):
    return Reading.bad_name(self, stop) or stop.name is not None and max(self.points(stop.name), default=0) > 255


def escaped(point):
    """What stands for a byte that is ill-formed."""
    return 0xdc80 <= point <= 0xdcff


misread("ascii-names-alone", bad_point=lambda self, point: point > 127 or Reading.bad_point(self, point))
misread("names-of-latin-1-bytes", points=lambda self, name: list(name))
misread("above-255-accepted", bad_point=lambda self, point: escaped(point) or self.control(point))
misread("ill-formed-accepted", bad_point=lambda self, point: not escaped(point) and Reading.bad_point(self, point))
misread("overlong-accepted", points=overlong)
misread("cut-short-accepted", points=cut_short)
misread("ascii-for-ids-alone", bad_name=ascii_ids)
misread("unneeded-names-well-formed", bad_name=well_formed)
misread("64-code-points", long=lambda self, name: len(self.points(name)) > self.NAME)
