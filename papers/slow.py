"""The slow reader of oracle/, which was written from 01 and the requests, for scripts of this folder.

Both folders have a module `fields`; the reader gets its own, and this folder keeps its own.
"""
import pathlib, sys

ORACLE = pathlib.Path(__file__).resolve().parent.parent / "oracle"
OWN = ("fields", "places", "reading", "reader", "weeks")


def imported():
    kept = {name: sys.modules.pop(name) for name in OWN if name in sys.modules}
    sys.path.insert(0, str(ORACLE))
    try:
        import fields, reader, reading, weeks
        return fields, reader, reading, weeks
    finally:
        sys.path.remove(str(ORACLE))
        for name in OWN:
            sys.modules.pop(name, None)
        sys.modules.update(kept)


fields, reader, reading, weeks = imported()
