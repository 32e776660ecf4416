"""Geometries and attributes as the farm's data have them, of what GDAL reads."""

from __future__ import annotations

import re
import struct
from collections import Counter
from collections.abc import Callable
from dataclasses import dataclass, field
from typing import Any

WEST, EAST = -2003750834, 2003750837  # the centimetres that the farm takes
GREATEST_LATITUDE = 85.0511287798066
MOST_POINTS, MOST_ATTRIBUTES, LONGEST_NAME = 65536, 64, 64
TAG = re.compile(r'"((?:[^"\\]|\\.)*)"=>"((?:[^"\\]|\\.)*)"')
KINDS = {1: "points", 4: "points", 2: "lines", 5: "lines", 3: "polygon", 6: "polygon"}
FEWEST = {"points": 1, "lines": 2, "polygon": 3}

Point = tuple[float, float]
Project = Callable[[list[Point]], list[tuple[float, ...]]]


class Outside(ValueError):
    """A coordinate that lies on no world."""


class Bad(ValueError):
    """A feature that cannot be kept, where none may be left out."""


@dataclass
class Left:
    """What was left out, counted by its reason, and the feature with which each reason began."""

    is_strict: bool = False
    feature: str = ""  # the one that is read
    counts: Counter[str] = field(default_factory=Counter)
    first: dict[str, str] = field(default_factory=dict)

    def out(self, reason: str) -> None:
        """What the farm's data have no room for."""
        self.counts[reason] += 1
        self.first.setdefault(reason, self.feature)

    def bad(self, reason: str) -> None:
        """What no sound file has: it is left out only where the user said so."""
        if self.is_strict:
            raise Bad(reason)
        self.out(reason)


def parts_of(wkb: bytes) -> tuple[int, list[list[Point]]]:
    """The kind of a geometry in little-endian WKB of two dimensions, and its parts: points, lines or rings."""
    kind, parts, _ = read_geometry(wkb, 0)
    return kind, parts


def read_geometry(wkb: bytes, at: int) -> tuple[int, list[list[Point]], int]:
    (kind,) = struct.unpack_from("<I", wkb, at + 1)
    at += 5
    if kind == 1:
        return kind, [[struct.unpack_from("<2d", wkb, at)]], at + 16
    if kind == 2:
        points, at = read_points(wkb, at)
        return kind, [points], at
    (count,) = struct.unpack_from("<I", wkb, at)
    at += 4
    parts: list[list[Point]] = []
    for _ in range(count):
        if kind == 3:
            points, at = read_points(wkb, at)
            parts.append(points)
        else:
            _, inner, at = read_geometry(wkb, at)
            parts += inner
    return kind, parts, at


def read_points(wkb: bytes, at: int) -> tuple[list[Point], int]:
    (count,) = struct.unpack_from("<I", wkb, at)
    numbers = struct.unpack_from(f"<{2 * count}d", wkb, at + 4)
    return list(zip(numbers[::2], numbers[1::2], strict=True)), at + 4 + 16 * count


def crosses(part: list[Point]) -> bool:
    """Whether neighbours lie more than 180 degrees apart, and are no edge of the whole world: it would go the long way."""
    return any(180 < abs(one[0] - other[0]) < 359.9999 for one, other in zip(part, part[1:], strict=False))


def centimetres(point: tuple[float, ...]) -> tuple[int, int]:
    """A point of EPSG:3857 in whole centimetres within the farm's world."""
    x, y = round(point[0] * 100), round(point[1] * 100)
    return max(WEST, min(EAST, x)), -max(WEST, min(EAST, -y))


def projected(parts: list[list[Point]], project: Project) -> list[list[tuple[int, int]]]:
    """The parts in centimetres, where a point that equals the one before it comes once."""
    flat = [(x, max(-GREATEST_LATITUDE, min(GREATEST_LATITUDE, y))) for part in parts for x, y in part]
    made = iter(project(flat))
    found = [[centimetres(next(made)) for _ in part] for part in parts]
    return [[p for i, p in enumerate(part) if i == 0 or p != part[i - 1]] for part in found]


def geometry_of(geometry: Any, to_degrees: Any, project: Project, left: Left) -> dict[str, Any] | None:
    """The farm's geometry of a geometry of OGR, or None where there is none to be had."""
    if geometry is None or geometry.IsEmpty():
        left.bad("feature without a geometry")
        return None
    if geometry.HasCurveGeometry():
        geometry = geometry.GetLinearGeometry()
    geometry.FlattenTo2D()
    if to_degrees is not None:
        to_degrees(geometry)
    west, east, south, north = geometry.GetEnvelope()
    if not (-180.0001 <= west <= east <= 180.0001 and -90.0001 <= south <= north <= 90.0001):
        raise Outside(f"its coordinates {west:.6g} to {east:.6g}, {south:.6g} to {north:.6g} are no longitudes and latitudes")
    kind, parts = parts_of(bytes(geometry.ExportToWkb()))
    name = KINDS.get(kind)
    if name is None:
        left.bad(f"geometry of the kind {geometry.GetGeometryName()}")
        return None
    if east - west > 180 and name != "points" and any(crosses(part) for part in parts):
        left.out("geometry that may cross the antimeridian: ogr2ogr -wrapdateline -datelineoffset 60 cuts it")
        return None
    return shape_of(name, projected(parts, project), left)


def shape_of(name: str, parts: list[list[tuple[int, int]]], left: Left) -> dict[str, Any] | None:
    """The parts that are long enough; a ring's last point that repeats its first is not needed."""
    if name == "polygon":
        parts = [part[:-1] if len(part) > 1 and part[0] == part[-1] else part for part in parts]
    kept = [part for part in parts if len(part) >= FEWEST[name]]
    if not kept:
        left.out("geometry with too few points")
        return None
    if len(kept) < len(parts):
        left.out(f"part of a geometry with fewer than {FEWEST[name]} points")
    if sum(map(len, kept)) > MOST_POINTS:
        left.out(f"geometry of more than {MOST_POINTS:,} points")
        return None
    return {name: [part[0] for part in kept] if name == "points" else kept}


def box_of(geometry: dict[str, Any]) -> tuple[int, int, int, int]:
    """West, south, east and north of a geometry, in centimetres."""
    ((name, parts),) = geometry.items()
    points = parts if name == "points" else [point for part in parts for point in part]
    xs, ys = [x for x, _ in points], [y for _, y in points]
    return min(xs), min(ys), max(xs), max(ys)


def tags_of(text: str) -> dict[str, str]:
    """The tags that GDAL's reader of OpenStreetMap has no column for."""
    return {unescaped(key): unescaped(value) for key, value in TAG.findall(text)}


def unescaped(text: str) -> str:
    return re.sub(r"\\(.)", r"\1", text)


def is_text(value: Any) -> bool:
    """Whether it is a text of whole characters; JSON can write halves of one, which no file can hold."""
    return isinstance(value, str) and not re.search("[\ud800-\udfff]", value)


def whole(value: Any, factor: float | None) -> int | None:
    """A number as a whole one of 64 bits, times its factor where it has one; or None."""
    try:
        number = round(value * factor) if factor is not None else int(value)
    except (OverflowError, ValueError):  # infinite, or no number
        return None
    return number if -(2**63) <= number < 2**63 and (factor is not None or number == value) else None


def attribute_of(name: str, value: Any, rounds: dict[str, float], left: Left) -> bool | int | str | None:
    """A value as the farm keeps it, or None: what is null is not written, since an absent attribute is null."""
    if isinstance(value, bool) or is_text(value):
        return value
    if isinstance(value, (int, float)):
        number = whole(value, rounds.get(name))
        if number is None:
            left.out(f"attribute {name}, a number with a fraction or past 64 bits (--round {name} keeps it rounded)")
        return number
    if isinstance(value, str):
        left.bad(f"attribute {name} that is no text in UTF-8 (--encoding says what a shapefile's texts are in)")
    else:
        left.out(f"attribute {name} that is no text, whole number or truth value")
    return None


def attributes_of(values: dict[str, Any], rounds: dict[str, float], left: Left) -> dict[str, bool | int | str]:
    kept: dict[str, bool | int | str] = {}
    for name, value in sorted(values.items()):
        if not is_text(name):
            left.bad("attribute whose name is no text in UTF-8 (--encoding)")
            continue
        if not 1 <= len(name.encode()) <= LONGEST_NAME:
            left.out(f"attribute whose name has not 1 to {LONGEST_NAME} bytes")
            continue
        made = attribute_of(name, value, rounds, left)
        if made is not None:
            kept[name] = made
    if len(kept) > MOST_ATTRIBUTES:
        left.out(f"feature's attributes past the first {MOST_ATTRIBUTES}: name those that are wanted (--style, --attributes)")
        kept = dict(list(kept.items())[:MOST_ATTRIBUTES])
    return kept
