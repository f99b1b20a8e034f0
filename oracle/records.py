"""Records of step files as bytes (docs/STEPS.md)."""
import struct

FIRST = b"\x53"


def text(data):
    return bytes([len(data)]) + data


def optional(value, packed):
    return b"\0" if value is None else b"\1" + packed(value)


def number(code):
    return lambda value: struct.pack(">" + code, value)


def record(kind, *fields):
    body = bytes([kind]) + b"".join(fields)
    return struct.pack(">H", len(body)) + body
