"""Asks a farm for many metatiles by renderd's protocol, so many at once, until each is Done."""

from __future__ import annotations

import re
import time
from collections import Counter, deque
from collections.abc import Callable, Iterable, Iterator
from dataclasses import dataclass
from pathlib import Path

from farmctl.client import BULK, DONE, Renderd, Tile
from farmctl.errors import FarmError
from farmctl.files import text_of
from farmctl.metatiles import Metatile, container_bytes, is_tile, metatile_of, path_of, tile_of

PAUSE = 1.0  # seconds until a metatile that was not done is asked again
PATIENCE = 120.0  # seconds without one Done, or without a farm


@dataclass
class Size:
    """How much there is to seed: metatiles, the bytes of their containers, and those that lie on the disk already."""

    metatiles: int = 0
    bytes: int = 0
    there: int = 0
    there_bytes: int = 0

    def add(self, metatile: Metatile, side: int, tiles: Path) -> None:
        length = container_bytes(metatile.z, side)
        self.metatiles += 1
        self.bytes += length
        if (tiles / path_of(metatile)).exists():
            self.there += 1
            self.there_bytes += length


def size_of(metatiles: Iterable[Metatile], side: int, tiles: Path) -> Size:
    made = Size()
    for metatile in metatiles:
        made.add(metatile, side, tiles)
    return made


def of_list(name: str, path: Path) -> list[Metatile]:
    """The metatiles of a list of tiles, each once."""
    return list(dict.fromkeys(metatile_of(name, tile_of(line)) for line in text_of(path).splitlines() if line.strip()))


def of_log(name: str, path: Path, most: int) -> list[Metatile]:
    """The metatiles of the map that an access log asks for most, in that order."""
    asked = re.compile(rf"/{re.escape(name)}/(\d{{1,2}})/(\d{{1,7}})/(\d{{1,7}})\.(?:png|ppm)\b")
    counts: Counter[Metatile] = Counter()
    with path.open(encoding="utf-8", errors="replace") as lines:
        for line in lines:
            found = asked.search(line)
            tile = Tile(*(int(number) for number in found.groups())) if found else None
            if tile and is_tile(tile):
                counts[metatile_of(name, tile)] += 1
    return [metatile for metatile, _ in counts.most_common(most)]


class Seeding:
    """One run over metatiles: at most so many are asked and not answered, and what was not done is asked again."""

    def __init__(self, address: str, metatiles: Iterable[Metatile], most_open: int, done: Callable[[], None], patience: float = PATIENCE):
        self.address = address
        self.rest: Iterator[Metatile] = iter(metatiles)
        self.most_open = most_open
        self.done = done
        self.patience = patience
        self.open: dict[tuple[str, Tile], Metatile] = {}
        self.again: deque[tuple[float, Metatile]] = deque()  # those not done, with the time from which they are asked again
        self.refused = 0
        self.last = time.monotonic()  # when something was done

    def run(self) -> None:
        """Until all are done. A farm that is restarted meanwhile is connected to again."""
        while True:
            try:
                with Renderd(self.address, self.patience) as farm:
                    self.last = time.monotonic()
                    while self.fill(farm):
                        self.take(farm)
                    return
            except (OSError, ValueError) as fault:
                if time.monotonic() - self.last > self.patience:
                    raise FarmError(f"{self.address}: {fault}: nothing was drawn for {self.patience:.0f} s") from fault
                self.again.extendleft((0.0, metatile) for metatile in self.open.values())
                self.open.clear()
                time.sleep(PAUSE)

    def fill(self, farm: Renderd) -> bool:
        """Asks for as many as may be open; whether one is open then."""
        while len(self.open) < self.most_open:
            metatile = self.next()
            if metatile is None:
                if self.open or not self.again:
                    break
                time.sleep(max(0.0, self.again[0][0] - time.monotonic()))
                continue
            self.open[metatile.map, metatile.tile] = metatile
            farm.send((BULK, metatile.tile), name=metatile.map)
        return bool(self.open)

    def next(self) -> Metatile | None:
        """One that is to be asked again by now, or the next of the rest."""
        if self.again and self.again[0][0] <= time.monotonic():
            return self.again.popleft()[1]
        return next(self.rest, None)

    def take(self, farm: Renderd) -> None:
        answer = farm.answer()
        if answer is None:
            raise OSError("the farm closed the connection")
        metatile = self.open.pop((answer.map or "", answer.tile))
        now = time.monotonic()
        if answer.command == DONE:
            self.last = now
            self.done()
            return
        self.refused += 1
        self.again.append((now + PAUSE, metatile))
        if now - self.last > self.patience:
            raise FarmError(
                f"nothing was drawn for {self.patience:.0f} s: look at the free disk and the farm's numbers (farmctl status)"
            )
