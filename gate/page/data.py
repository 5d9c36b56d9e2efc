"""The data of a page, read without the page's script: values with their bytes, and their links."""
import base64
import json
import re


class Row:
    """A part of the file."""


def files_of(page):
    """Returns the data of the page's files."""
    return json.loads(re.search(r'id="data">(.*?)</script>', page, re.S).group(1))


def rows_of(data):
    """Returns the rows, with the values of items: [kind, word, value, link, bytes' offsets]."""
    rows, start = [], 0
    for number, (up, by, length, kind, *rest) in enumerate(data["rows"]):
        row, start = Row(), start + by
        row.start, row.end, row.kind, row.label = start, start + length, kind, None
        row.up = rows[number - up] if up else None
        if kind in (0, 1, 3) and rest and rest[0] >= 0:
            row.label = (data["words"][rest[0]], rest[1], rest[2])
        row.core = kind == 2 and rest[3]
        row.values = values_of(data, row, *rest[4:6]) if kind == 3 and len(rest) > 4 else []
        rows.append(row)
    return rows


def values_of(data, row, shape, numbers):
    """Returns the values of an item, each before those within it."""
    values, place = [], row.start

    def build(shape, numbers):
        nonlocal place
        kind, _, word, *parts = shape
        value = [kind, word, next(numbers) if kind in "intbl" else None, None, []]
        value[3] = next(numbers) if kind == "i" else None
        values.append(value)
        for part in parts:
            if isinstance(part, int):
                value[4] += range(place, place + part)
                place += part
            elif isinstance(part, list):
                build(part, numbers)
        if kind in "tb":
            value[4] += range(place, place + value[2])
            place += value[2]
        for _ in range(value[2] if kind == "l" else 0):
            element = next(numbers)
            number, *own = element if isinstance(element, list) else [element]
            build(data["shapes"][number], iter(own))

    build(data["shapes"][shape], iter(numbers))
    assert place == row.end, f"values of the item at {row.start:#x} end at {place:#x}"
    return values


def is_right(kind, value, run):
    """Whether these bytes have a value: an index or a number as LEB128, a text after its length."""
    def number(of):
        return sum((byte & 0x7F) << 7 * at for at, byte in enumerate(of))

    def is_whole(of):
        return of and of[-1] < 0x80 and all(byte >= 0x80 for byte in of[:-1])

    if kind in "in":
        # what tells an option or a kind is in front
        wanted = int(value)
        return any(is_whole(run[at:]) and number(run[at:]) in (wanted, wanted & 0x7F)
                   for at in range(len(run)))
    if kind == "t":
        front = run[: len(run) - value]
        return any(is_whole(front[at:]) and number(front[at:]) == value for at in range(len(front)))
    return True


def check(data, file):
    """Returns how many values and indices were checked, and the faults."""
    faults, values, indices = [], 0, 0
    rows = rows_of(data)
    by_place = {row.start: row for row in rows if row.label}
    for row in rows:
        told = sorted(place for value in row.values for place in value[4])
        if row.values and told != list(range(row.start, row.end)):
            faults.append(f"bytes of the item at {row.start:#x}")
        for kind, word, value, link, places in row.values:
            if places:
                values += 1
                if not is_right(kind, value, bytes(file[place] for place in places)):
                    faults.append(f"{kind} {value} at {places[0]:#x}")
            # what is in core modules has no definitions
            if kind == "i" and not row.up.core:
                indices += 1
                target = by_place.get(link)
                space, first, count = target.label if target else (word, value, 1)
                if link == 0 or space != word or not first <= value < first + count:
                    if not (link and link < 0):
                        faults.append(f"link of {word} {value} in the item at {row.start:#x}")
    return values, indices, faults


def bytes_of(data):
    """Returns the bytes that the page has."""
    return b"".join(base64.b64decode(text) for _, text, _ in data["bytes"])
