"""Writes the few bytes that the judge needs."""


def number(value):
    out = b""
    while value > 0x7F:
        out += bytes([value & 0x7F | 0x80])
        value >>= 7
    return out + bytes([value])


def text(value):
    value = value if isinstance(value, bytes) else value.encode()
    return number(len(value)) + value


def section(kind, items):
    body = number(len(items)) + b"".join(items)
    return bytes([kind]) + number(len(body)) + body
