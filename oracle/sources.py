"""Files of the generator in parts, mostly small ones: `fuzz` damages them, `save_compare` writes them. A part depends on the seed and its
number alone.
"""
import io, pathlib, subprocess
from reader import batch

HERE = pathlib.Path(__file__).resolve().parent
GEN = HERE / "target" / "release" / "gen"
KEPT = HERE / "target" / "differs.load"
PART = 2000
SMALL = ["small", "window", "types", "days", "neighbours", "ties", "changes", "change-ties", "figures", "rules", "places",
         "names", "ids", "settings", "refusals", "after"]
LARGE = {"paper": 20, "list": 10, "brim": 5, "counts": 20, "cut": 5}   # so many files of each part


def run(command, data):
    """What a program prints, also where it crashes or takes more than five minutes."""
    try:
        done = subprocess.run(command, input=data, stdout=subprocess.PIPE, timeout=300)
        return done.stdout, "" if done.returncode == 0 else f"exit status {done.returncode}"
    except subprocess.TimeoutExpired as late:
        return late.stdout or b"", "no end after 300 seconds"


def generated(profile, files, seed, start):
    words = {"--profile": profile, "--files": files, "--seed": seed, "--from": start}
    return batch(io.BytesIO(run([GEN, *(str(w) for pair in words.items() for w in pair)], b"")[0]))


def sources(number, files, seed):
    """The files of a part before they are damaged."""
    shares = {SMALL[number % len(SMALL)]: PART - sum(LARGE.values())} | LARGE
    found = [f for profile, n in shares.items() for f in generated(profile, n, seed, number * n)]
    return found[:files]
