#!/usr/bin/env python3
"""Writes the example files of this folder, and what the program `file_list` must print of its files.

Run it at the repository's root: python3 examples/make.py
It packs and unpacks the bytes itself and shares no code with the crates.
"""
import struct
from pathlib import Path

HERE = Path("examples")
LIST = Path("crates/file_list")


def record(kind, body):
    return struct.pack("<IH", len(body), kind) + body


def head(points, inlet, outlet):
    return record(1, struct.pack("<HHH", points, inlet, outlet))


def rows(reaches):
    return record(2, b"".join(struct.pack("<HHII", *reach) for reach in reaches))


def note(text):
    return record(3, text.encode())


EXAMPLE = [(0, 1, 5, 0), (0, 2, 4, 0), (1, 2, 3, 0), (1, 3, 2, 0), (2, 3, 6, 0)]
SETTLED = [(0, 1, 5, 4), (0, 2, 4, 4), (1, 2, 3, 2), (1, 3, 2, 2), (2, 3, 6, 6)]

# the example with limit 7 on its last reach, and a flow that fills every reach
PUBLISHED = [(0, 1, 5, 5), (0, 2, 4, 4), (1, 2, 3, 3), (1, 3, 2, 2), (2, 3, 7, 7)]

FILES = {
    "example": head(4, 0, 3) + rows(EXAMPLE),
    "cut": (head(4, 0, 3) + rows(EXAMPLE))[:77],
    "noted": head(4, 0, 3) + note("before") + rows(SETTLED) + note("") + note("after"),
    "two_blocks": head(4, 0, 3) + rows(EXAMPLE) + rows([]),
    "published": head(4, 0, 3) + rows(PUBLISHED),
}


def listing(data):
    """The records up to the first fault, and then the register or the refusal."""
    lines, at, place_of_rows, fault = [], 0, None, None
    if len(data) > 65536:
        fault = (1, 0)
    while fault is None and at < len(data):
        size, kind = struct.unpack_from("<IH", data, at) if at + 6 <= len(data) else (None, None)
        if size is None or at + 6 + size > len(data):
            fault = (2, at)
        elif kind not in (1, 2, 3):
            fault = (3, at)
        elif (kind == 1) != (at == 0) or (kind == 1 and size != 6):
            fault = (4, at)
        elif kind == 2 and (place_of_rows is not None or size % 12 or size > 12 * 4096):
            fault = (5, at)
        else:
            name = {1: "head", 2: "rows", 3: "note"}[kind]
            lines.append(f"{name} at {at}" + ("" if kind == 1 else f", {size} bytes"))
            if kind == 2:
                place_of_rows = at
            at += 6 + size
    if fault is None and not data:
        fault = (4, 0)
    if fault is None and place_of_rows is None:
        fault = (5, len(data))
    if fault:
        return lines + [f"refused file {fault[0]} {fault[1]}"]
    points, inlet, outlet = struct.unpack_from("<HHH", data, 6)
    lines.append(f"points {points} inlet {inlet} outlet {outlet}")
    (size,) = struct.unpack_from("<I", data, place_of_rows)
    body = data[place_of_rows + 6 : place_of_rows + 6 + size]
    return lines + ["{} {} {} {}".format(*row) for row in struct.iter_unpack("<HHII", body)]


if __name__ == "__main__":
    for name, data in FILES.items():
        (HERE / f"{name}.scheme").write_bytes(data)
        (LIST / "data" / f"{name}.scheme").write_bytes(data)
    Path("crates/review/stdin").write_bytes(FILES["published"])
    files = sorted((LIST / "data").glob("*.scheme"))
    (LIST / "args").write_text("".join(f"{f.name}\n" for f in files))
    (LIST / "stdout").write_text("".join(line + "\n" for f in files for line in [f.name] + listing(f.read_bytes())))
