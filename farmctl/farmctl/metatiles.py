"""Metatiles: which tiles one holds, where its container lies, and which of them are stored."""

from __future__ import annotations

import math
import os
import re
from collections.abc import Iterator
from dataclasses import dataclass
from pathlib import Path
from typing import NamedTuple

from farmctl.client import Tile
from farmctl.errors import FarmError

DEEPEST = 18
SIDE = 8  # tiles of a metatile's side, from zoom 3 on
HEAD = 532  # bytes before a container's first tile
WIDEST = 85.0511287798  # degrees north and south at which the world's square ends


class Metatile(NamedTuple):
    """A metatile of a map, by its lowest tile."""

    map: str
    z: int
    x: int
    y: int

    @property
    def tile(self) -> Tile:
        return Tile(self.z, self.x, self.y)


@dataclass(frozen=True)
class Stored:
    """A container that is stored."""

    metatile: Metatile
    bytes: int
    time: float


def metatile_of(name: str, tile: Tile) -> Metatile:
    return Metatile(name, tile.z, tile.x & ~(SIDE - 1), tile.y & ~(SIDE - 1))


def is_tile(tile: Tile) -> bool:
    return 0 <= tile.z <= DEEPEST and 0 <= tile.x < 1 << tile.z and 0 <= tile.y < 1 << tile.z


def tile_of(text: str) -> Tile:
    """A tile written as `z/x/y`."""
    found = re.fullmatch(r"(\d{1,2})/(\d{1,7})/(\d{1,7})", text.strip())
    tile = Tile(*(int(number) for number in found.groups())) if found else None
    if tile is None or not is_tile(tile):
        raise FarmError(f"no tile z/x/y: {text.strip()[:60]!r}")
    return tile


def path_of(metatile: Metatile) -> Path:
    """Where its container lies below `tiles`: four bits of column and row in each folder's name, as mod_tile has it."""
    x, y, parts = metatile.x, metatile.y, []
    for _ in range(5):
        parts.insert(0, str((x & 15) << 4 | y & 15))
        x, y = x >> 4, y >> 4
    return Path(metatile.map, str(metatile.z), *parts[:-1], parts[-1] + ".meta")


def place_of(name: str, z: str, parts: list[str]) -> Metatile:
    x = y = 0
    for part in parts:
        x, y = x * 16 + int(part) // 16, y * 16 + int(part) % 16
    return Metatile(name, int(z), x, y)


def stored(tiles: Path) -> Iterator[Stored]:
    """The containers below the folder `tiles`."""
    for folder, _, names in os.walk(tiles):
        found = re.fullmatch(r"([a-z0-9_-]+)/(\d+)/(\d+)/(\d+)/(\d+)/(\d+)", os.path.relpath(folder, tiles))
        for name in names if found else []:
            last = re.fullmatch(r"(\d+)\.meta", name)
            if last:
                try:
                    seen = os.stat(os.path.join(folder, name))
                except FileNotFoundError:
                    continue  # removed while this walks
                map_name, z, *parts = found.groups()
                yield Stored(place_of(map_name, z, [*parts, last[1]]), seen.st_size, seen.st_mtime)


def tiles_in(z: int) -> int:
    """How many tiles a metatile of the zoom holds."""
    return min(SIDE, 1 << z) ** 2


def container_bytes(z: int, size: int) -> int:
    """The bytes of a container of PPM tiles of this many pixels a side."""
    return HEAD + tiles_in(z) * (len(f"P6\n{size} {size}\n255\n") + 3 * size * size)


@dataclass(frozen=True)
class Box:
    """A box in degrees."""

    west: float
    south: float
    east: float
    north: float

    def rows(self, z: int) -> range:
        """The rows of its tiles at a zoom."""
        return range(row_at(self.north, z), row_at(self.south, z) + 1)

    def columns(self, z: int) -> range:
        return range(column_at(self.west, z), column_at(self.east, z) + 1)


def box_of(text: str) -> Box:
    """A box written as `WEST,SOUTH,EAST,NORTH` in degrees."""
    try:
        box = Box(*(float(number) for number in text.split(",")))
    except (TypeError, ValueError) as fault:
        raise FarmError(f"no box WEST,SOUTH,EAST,NORTH in degrees: {text}") from fault
    if not (-180 <= box.west < box.east <= 180 and -90 <= box.south < box.north <= 90):
        raise FarmError(f"no box: {text}: west and south come first, within -180 to 180 and -90 to 90")
    return box


def zooms_of(text: str) -> range:
    """Zooms written as `Z..Z` or `Z`."""
    found = re.fullmatch(r"(\d{1,2})(?:(?:\.\.|-)(\d{1,2}))?", text)
    first, last = (int(found[1]), int(found[2] or found[1])) if found else (1, 0)
    if not first <= last <= DEEPEST:
        raise FarmError(f"no zooms Z..Z from 0 to {DEEPEST}: {text}")
    return range(first, last + 1)


def column_at(longitude: float, z: int) -> int:
    return min(max(math.floor((longitude + 180) / 360 * (1 << z)), 0), (1 << z) - 1)


def row_at(latitude: float, z: int) -> int:
    angle = math.radians(min(max(latitude, -WIDEST), WIDEST))
    return min(max(math.floor((1 - math.asinh(math.tan(angle)) / math.pi) / 2 * (1 << z)), 0), (1 << z) - 1)


def in_box(name: str, box: Box, z: int) -> Iterator[Metatile]:
    """The metatiles of a zoom that the box reaches, row by row."""
    columns, rows = box.columns(z), box.rows(z)
    for y in range(rows[0] & ~(SIDE - 1), rows[-1] + 1, SIDE):
        for x in range(columns[0] & ~(SIDE - 1), columns[-1] + 1, SIDE):
            yield Metatile(name, z, x, y)


def count_in_box(box: Box, z: int) -> int:
    columns, rows = box.columns(z), box.rows(z)
    return (columns[-1] // SIDE - columns[0] // SIDE + 1) * (rows[-1] // SIDE - rows[0] // SIDE + 1)
