"""The farm's data, written layer by layer into files of their own and put together at the end, the greatest layer last:
what a layer needs while it is read is then given back before the next, greater one.
"""

from __future__ import annotations

import json
import os
from array import array
from bisect import bisect_left
from collections.abc import Iterable, Iterator
from dataclasses import dataclass, field
from pathlib import Path
from typing import IO

from farmctl.errors import FarmError
from farmctl.sources import Box, Item

MOST_LAYERS, MOST_FEATURES, MOST_BYTES = 64, 1_000_000, 1 << 31


class Ids:
    """The ids of a layer. Files have most of theirs in order, and those take eight bytes each."""

    def __init__(self) -> None:
        self.rising = array("Q")
        self.others: set[int] = set()

    def add(self, number: int) -> bool:
        """Whether it is new, and then it is kept."""
        if not self.rising or self.rising[-1] < number:
            self.rising.append(number)
            return True
        place = bisect_left(self.rising, number)
        if self.rising[place] == number or number in self.others:
            return False
        self.others.add(number)
        return True


@dataclass
class Layer:
    """A layer that is being written: a feature on each line."""

    name: str
    path: Path
    out: IO[bytes]
    ids: Ids = field(default_factory=Ids)
    count: int = 0
    twice: int = 0  # features with the id of an earlier one, which are left out
    bytes: int = 0
    box: Box | None = None

    def add(self, item: Item, leaves_out: bool) -> None:
        if not self.ids.add(item.id):
            if not leaves_out:
                raise FarmError(f"{item.place}: an earlier feature has this id (--id names an attribute that is one); --leave-out leaves it out")
            self.twice += 1
            return
        if self.count == MOST_FEATURES:
            raise FarmError(f"the layer {self.name} has over {MOST_FEATURES:,} features: make two of it, or take fewer (ogr2ogr -where)")
        self.count += 1
        self.out.write(item.line + b"\n")
        self.bytes += len(item.line) + 1
        self.box = item.box if self.box is None else joined(self.box, item.box)


def joined(one: Box, other: Box) -> Box:
    return min(one[0], other[0]), min(one[1], other[1]), max(one[2], other[2]), max(one[3], other[3])


class Layers:
    """The layers of data, in a folder of their own."""

    def __init__(self, folder: Path, names: Iterable[str], leaves_out: bool) -> None:
        folder.mkdir(parents=True, exist_ok=True)
        self.folder = folder
        self.leaves_out = leaves_out
        self.layers: dict[str, Layer] = {}
        for name in names:
            self.layer(name)

    def layer(self, name: str) -> Layer:
        if name not in self.layers:
            if len(self.layers) == MOST_LAYERS:
                raise FarmError(f"more than {MOST_LAYERS} layers: --layers takes some")
            path = self.folder / str(len(self.layers))
            self.layers[name] = Layer(name, path, path.open("wb"))
        return self.layers[name]

    def add(self, items: Iterable[Item]) -> None:
        for item in items:
            self.layer(item.layer).add(item, self.leaves_out)

    def close(self) -> None:
        """After this they may be read; the ids are let go."""
        for layer in self.layers.values():
            layer.out.close()
            layer.ids = Ids()

    def by_size(self) -> list[Layer]:
        return sorted(self.layers.values(), key=lambda layer: layer.bytes)

    @property
    def count(self) -> int:
        return sum(layer.count for layer in self.layers.values())

    @property
    def box(self) -> Box | None:
        """That of all features; none where there is no feature."""
        boxes = [layer.box for layer in self.layers.values() if layer.box]
        found = boxes[0] if boxes else None
        for box in boxes[1:]:
            found = joined(found, box)
        return found

    def write(self, out: Path) -> int:
        """Puts the data together, and renames them to their place; their bytes."""
        made = self.folder / "whole"
        with made.open("wb") as target:
            target.write(b'{"units":"cm","layers":[')
            for place, layer in enumerate(self.by_size()):
                target.write((b",\n" if place else b"\n") + b'{"name":' + quoted(layer.name) + b',"features":[\n')
                joined_lines(layer.path, target)
                target.write(b"]}")
            target.write(b"\n]}\n")
            length = target.tell()
        if length > MOST_BYTES:
            raise FarmError(f"{length:,} bytes, and a farm reads at most {MOST_BYTES:,}: --style leaves out what it does not name")
        os.replace(made, out)
        return length


def quoted(text: str) -> bytes:
    return json.dumps(text, ensure_ascii=False).encode()


def joined_lines(path: Path, out: IO[bytes]) -> None:
    """The lines of a file with commas between them."""
    with path.open("rb") as lines:
        first = True
        for line in lines:
            out.write(line.rstrip(b"\n") if first else b",\n" + line.rstrip(b"\n"))
            first = False


def lines_of(path: Path) -> Iterator[tuple[int, bytes]]:
    """The features of a layer's file, each with its id."""
    with path.open("rb") as lines:
        for line in lines:
            yield int(line[6 : line.index(b",")]), line.rstrip(b"\n")
