"""How a farm is, seen from beside it: its numbers, its process, its disk and what is stored there."""

from __future__ import annotations

import shutil
import time
from collections import defaultdict
from dataclasses import dataclass, field
from pathlib import Path

from farmctl import tally
from farmctl.errors import FarmError
from farmctl.farm import Farm
from farmctl.metatiles import Metatile, stored
from farmctl.process import Process, process_at
from farmctl.tally import Tally

DAY = 86400.0
LEFT_AFTER = 600.0  # seconds: a drawing that is being written is younger


@dataclass
class Kept:
    """Containers and their bytes."""

    containers: int = 0
    bytes: int = 0

    def add(self, length: int) -> None:
        self.containers += 1
        self.bytes += length


@dataclass
class Store:
    """What is stored below `tiles`."""

    zooms: dict[tuple[str, int], Kept] = field(default_factory=lambda: defaultdict(Kept))
    strange: Kept = field(default_factory=Kept)  # of maps and zooms that the configuration does not have
    left: Kept = field(default_factory=Kept)  # half-written files of a run that was cut off
    day: int = 0  # bytes that were written in the last day
    oldest: float | None = None
    oldest_metatile: Metatile | None = None

    @property
    def all(self) -> Kept:
        return Kept(sum(kept.containers for kept in self.zooms.values()), sum(kept.bytes for kept in self.zooms.values()))


@dataclass(frozen=True)
class Disk:
    size: int
    free: int


@dataclass(frozen=True)
class Seen:
    """All of it, at one time."""

    time: float
    tally: Tally | None
    fault: str
    answer_seconds: float
    process: Process | None
    ready_seconds: float | None
    disk: Disk | None
    store: Store

    @property
    def days_until_full(self) -> float | None:
        """At least so many days: of what was written in the last day some took the place of older drawings."""
        return self.disk.free / self.store.day if self.disk and self.store.day else None


def maps_of(farm: Farm) -> dict[str, int]:
    """The maps of the configuration with their greatest zooms."""
    maps = farm.loose_config().get("maps", [])
    return {each["name"]: each.get("maxzoom", 18) for each in maps if isinstance(each, dict) and "name" in each}


def store_of(tiles: Path, maps: dict[str, int], now: float) -> Store:
    """What is stored; it walks through all containers."""
    made = Store()
    for found in stored(tiles):
        metatile = found.metatile
        made.zooms[metatile.map, metatile.z].add(found.bytes)
        if maps and metatile.z > maps.get(metatile.map, -1):
            made.strange.add(found.bytes)
        if found.time > now - DAY:
            made.day += found.bytes
        if made.oldest is None or found.time < made.oldest:
            made.oldest, made.oldest_metatile = found.time, metatile
    for path in (tiles / ".new").glob("*"):
        try:
            seen = path.stat()
        except FileNotFoundError:
            continue  # it was renamed meanwhile
        if seen.st_mtime < now - LEFT_AFTER:
            made.left.add(seen.st_size)
    return made


def ready_seconds(farm: Farm, process: Process | None) -> float | None:
    """How long the farm read its files: it empties `farm.saved` when it begins, which is after that."""
    try:
        seen = (farm.tiles / "farm.saved").stat()
    except OSError:
        return None
    if process is None or process.started is None or seen.st_size or seen.st_mtime < process.started:
        return None
    return seen.st_mtime - process.started


def seen(farm: Farm, store: Store | None = None) -> Seen:
    """How the farm is now; a store that was walked through before may be given."""
    now, began = time.time(), time.monotonic()
    numbers, fault, process = None, "", None
    try:
        address = farm.address("control")
        numbers = tally.tally(address)
        process = process_at(address)
    except FarmError as down:
        fault = str(down)
    took = time.monotonic() - began
    place = farm.tiles if farm.tiles.is_dir() else farm.folder
    usage = shutil.disk_usage(place) if place.is_dir() else None
    disk = Disk(usage.total, usage.free) if usage else None
    walked = store if store is not None else store_of(farm.tiles, maps_of(farm), now)
    return Seen(now, numbers, fault, took, process, ready_seconds(farm, process), disk, walked)
