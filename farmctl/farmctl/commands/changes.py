"""Makes one update of what differs between two sources, over all their layers.

OLD is what the farm's data were made of, or last updated to, and NEW is today's; both are read as `farmctl data` reads
them, and with the same words. NEW may be a change file of OpenStreetMap (.osc, .osc.gz) over OLD. Features that are gone are
removed, those that are new or differ are put. `farmctl update` brings the update into a running farm. A layer that the
data do not have cannot come by an update: make the data anew. Where a farm's configuration is here (or named by -c) it is
said how many updates it has of those that it may have.

Status 0: OUT is the update. 3: nothing has changed, and there is no OUT. 1: anything else; nothing is written.
"""

from __future__ import annotations

import argparse
import json
import os
import shutil
import subprocess
import tempfile
from array import array
from bisect import bisect_left
from collections.abc import Iterator
from dataclasses import dataclass, field
from itertools import islice
from pathlib import Path
from typing import IO

from farmctl.commands.data import AROUND, read, tell_left
from farmctl.commands.status import size
from farmctl.datafile import MOST_BYTES, joined_lines, lines_of, quoted
from farmctl.errors import FarmError
from farmctl.farm import Farm
from farmctl.metatiles import SIDE
from farmctl.shapes import WEST, box_of
from farmctl.sources import Box, add_options
from farmctl.updating import ANEW, MOST

HELP = "make an update of two extracts, or of one and its changes"
EXAMPLE = """
    farmctl changes sunday.osm.pbf monday.osm.pbf --style style.json -o monday.json
    farmctl changes town.osm.pbf day.osc.gz --style style.json --keep monday.osm.pbf -o monday.json && farmctl update monday.json
"""
NOTHING = 3
ZOOM = 14  # at which touched metatiles are counted
MOST_COUNTED = 1 << 16  # metatiles of one feature; one that reaches more is counted as so many

Square = tuple[int, int]  # a metatile of the zoom


def add(parser: argparse.ArgumentParser) -> None:
    parser.add_argument("old", metavar="[NAME=]OLD", help="what the farm has")
    parser.add_argument("new", metavar="[NAME=]NEW", help="today's, or an .osc over OLD")
    parser.add_argument("-o", "--output", metavar="OUT", type=Path, required=True, help="where the update is written")
    parser.add_argument("--keep", metavar="FILE", type=Path, help="of an .osc: where OLD with its changes is kept, for the next day")
    add_options(parser)


def applied(old: str, change: str, folder: Path) -> str:
    """The extract that a change file makes of an older one."""
    tool = shutil.which("osmium")
    if tool is None:
        raise FarmError("a change file needs the program osmium: apt install osmium-tool")
    made = str(folder / "new.osm.pbf")
    done = subprocess.run([tool, "apply-changes", "--no-progress", "-o", made, old, change], capture_output=True, text=True)
    if done.returncode != 0:
        raise FarmError(f"{change} over {old}: {' '.join(done.stderr.split())[:300]}")
    return made


@dataclass
class Change:
    """What becomes of one layer. The features that are put stand in a file, one on each line."""

    layer: str
    puts: Path
    count: int = 0  # of those that are put
    remove: list[int] = field(default_factory=list)
    squares: set[Square] = field(default_factory=set)  # touched metatiles

    def touch(self, line: bytes) -> None:
        self.squares.update(islice(squares(box_of(json.loads(line)["geometry"])), MOST_COUNTED))

    def write(self, out: IO[bytes]) -> None:
        remove = json.dumps(self.remove, separators=(",", ":")).encode()
        out.write(b'{"layer":%s,"remove":%s,"put":[' % (quoted(self.layer), remove))
        if self.count:
            out.write(b"\n")
            joined_lines(self.puts, out)
            out.write(b"\n")
        out.write(b"]}")


class Known:
    """The features of a layer as it was. Of each only its id is kept and a number that tells its line from others: so a
    million take 17 MB.
    """

    def __init__(self, path: Path) -> None:
        self.ids = array("Q", sorted(number for number, _ in lines_of(path)))
        self.marks = array("q", bytes(8 * len(self.ids)))
        self.is_met = bytearray(len(self.ids))
        for number, line in lines_of(path):
            self.marks[bisect_left(self.ids, number)] = hash(line)

    def meet(self, number: int) -> int | None:
        """The mark of the feature with this id, which has then been met."""
        place = bisect_left(self.ids, number)
        if place == len(self.ids) or self.ids[place] != number:
            return None
        self.is_met[place] = 1
        return self.marks[place]

    def unmet(self) -> list[int]:
        return [number for number, is_met in zip(self.ids, self.is_met, strict=True) if not is_met]


def change_of(old: Path, new: Path, made: Change) -> Change:
    """What leads from a layer as it was to it as it is."""
    known, touched = Known(old), set()
    with made.puts.open("wb") as puts:
        for number, line in lines_of(new):
            if known.meet(number) != hash(line):
                puts.write(line + b"\n")
                made.touch(line)
                made.count += 1
                touched.add(number)
    made.remove = known.unmet()
    touched.update(made.remove)
    for number, line in lines_of(old):
        if number in touched:
            made.touch(line)
    return made


def squares(box: Box) -> Iterator[Square]:
    """The metatiles of the zoom that a box reaches."""
    side = SIDE * AROUND / (1 << ZOOM)
    west, east = (int((x - WEST) // side) for x in (box[0], box[2]))
    north, south = (int((-y - WEST) // side) for y in (box[3], box[1]))
    return ((x, y) for x in range(west, east + 1) for y in range(north, south + 1))


def write(changes: list[Change], out: Path) -> int:
    """The update, written beside and renamed; its bytes."""
    beside = out.with_name(f".{out.name}.{os.getpid()}.new")
    try:
        with beside.open("wb") as target:
            target.write(b'{"units":"cm","changes":[\n')
            for place, change in enumerate(changes):
                target.write(b",\n" if place else b"")
                change.write(target)
            target.write(b"\n]}\n")
            length = target.tell()
        if length > MOST_BYTES:
            raise FarmError(f"{length:,} bytes, and a farm reads at most {MOST_BYTES:,}: make the data anew (farmctl data)")
        os.replace(beside, out)
    finally:
        beside.unlink(missing_ok=True)
    return length


def room(farm: Farm) -> str:
    """How many updates the farm has, where there is one; it may not have all already."""
    if not farm.path.is_file():
        return ""
    count = len(farm.config.get("updates", []))
    if count >= MOST:
        raise FarmError(f"{farm.path} has {count} updates, and may have no more: {ANEW}")
    return f"{farm.path} has {count} of {MOST} updates: after {MOST} {ANEW}"


def run(args: argparse.Namespace) -> int:
    known = room(Farm.of(args))
    place = args.output.absolute().parent
    if not place.is_dir():
        raise FarmError(f"{place} is no folder")
    with tempfile.TemporaryDirectory(prefix=".farmctl-", dir=place) as made:
        folder = Path(made)
        is_osc = args.new.endswith((".osc", ".osc.gz", ".osc.bz2"))
        if args.keep and not is_osc:
            raise FarmError("--keep is for a change file")
        newer = applied(args.old, args.new, folder) if is_osc else args.new
        old = read([args.old], args, folder / "old")[0]
        new, sources = read([newer], args, folder / "new")
        unknown = sorted(set(new.layers) - set(old.layers))
        if unknown:
            raise FarmError(f"{', '.join(unknown)}: no layer of {args.old}: make the data anew (farmctl data)")
        for source in sources:
            source.path = args.new  # which is what the user knows of
        tell_left(new, sources)
        found = [
            change_of(old.layers[name].path, layer.path, Change(name, folder / f"puts-{number}"))
            for number, (name, layer) in enumerate(new.layers.items())
        ]
        changes = [change for change in found if change.count or change.remove]
        length = write(changes, args.output) if changes else 0
        if args.keep:
            shutil.move(newer, args.keep)
    if not changes:
        print("nothing has changed")
        return NOTHING
    tell(changes, length, args.output)
    if known:
        print(known)
    return 0


def tell(changes: list[Change], length: int, out: Path) -> None:
    for change in changes:
        print(f"{change.layer}: removes {len(change.remove):,} and puts {change.count:,} features")
    touched = len(set().union(*(change.squares for change in changes)))
    print(f"{out}: {size(length)}; it touches {touched:,} metatiles of zoom {ZOOM} where they are drawn")
