"""Has a map drawn before somebody asks: the metatiles of a box in degrees at some zooms, or those of a list or of a log.

It says first how many metatiles that are, what disk they take and what is free, and asks. Then it asks the farm for them
by renderd's protocol, lowest zooms first, as bulk, so that viewers come before it. What is not done is asked again after
a second. It can be cut off at any time and goes on where it was, since the farm answers at once for what is clean; a farm
that is restarted meanwhile is waited for.

LIST has tiles, `z/x/y` on each line; of an access log those that were asked most are taken, of any form in which
/MAP/Z/X/Y.png or .ppm stands.
"""

from __future__ import annotations

import argparse
import re
import shutil
import sys
import time
from collections.abc import Callable, Iterator
from dataclasses import dataclass
from itertools import chain
from pathlib import Path
from typing import Any

from farmctl.errors import USAGE, FarmError, library
from farmctl.farm import Farm
from farmctl.metatiles import DEEPEST, Metatile, box_of, in_box, zooms_of
from farmctl.seeding import PATIENCE, Seeding, Size, of_list, of_log, size_of
from farmctl.words import seconds

HELP = "have the tiles of a box drawn beforehand"
EXAMPLE = """
    farmctl seed default 5.9,45.8,10.5,47.8 0..12
    farmctl seed default 8.5,47.3,8.6,47.4 0..18 --count
    farmctl seed default --from-log /var/log/nginx/access.log --top 500 -y
"""
OPEN = 16  # as many as a farm has workers at most
GIB = 1 << 30
GIVEN_UP = 1


def add(parser: argparse.ArgumentParser) -> None:
    parser._negative_number_matcher = re.compile(r"-[\d.]+(,|$)")  # type: ignore[attr-defined]  # a box may begin with a minus
    parser.add_argument("map", metavar="MAP", help="the name of a map")
    parser.add_argument("box", metavar="WEST,SOUTH,EAST,NORTH", nargs="?", help="a box in degrees")
    parser.add_argument("zooms", metavar="Z..Z", nargs="?", help="zooms, as 0..12 or 9")
    parser.add_argument("--list", metavar="FILE", type=Path, help="tiles, z/x/y on each line, in place of a box")
    parser.add_argument("--from-log", metavar="FILE", type=Path, help="an access log, in place of a box")
    parser.add_argument("--top", metavar="N", type=int, default=1000, help="of a log the metatiles that were asked most (1000)")
    parser.add_argument("--count", action="store_true", help="say how much it is, and end")
    parser.add_argument("-y", "--yes", action="store_true", help="do not ask")
    parser.add_argument("-n", "--open", metavar="N", type=int, default=OPEN, help=f"asks that are open at once, 1 to 32 ({OPEN})")
    parser.add_argument("-q", "--quiet", action="store_true", help="no progress")
    parser.add_argument("--patience", metavar="SECONDS", type=seconds, default=PATIENCE, help="give up after so long without one (120)")


@dataclass(frozen=True)
class Map:
    """A map of the configuration, as far as it matters here."""

    name: str
    side: int
    deepest: int


def map_of(farm: Farm, name: str) -> Map:
    maps: list[dict[str, Any]] = farm.config.get("maps", [])
    for each in maps:
        if each.get("name") == name:
            return Map(name, each.get("tile", 256), each.get("maxzoom", DEEPEST))
    raise FarmError(f"no map {name}: there are {', '.join(str(each.get('name')) for each in maps) or 'none'}")


Wanted = Callable[[], Iterator[Metatile]]


def wanted(args: argparse.Namespace, drawn: Map) -> Wanted:
    """What is to be seeded; it may be gone through more than once."""
    if (args.box is None) != (args.zooms is None) or sum(map(bool, (args.box, args.list, args.from_log))) != 1:
        raise FarmError("name a box and zooms, or --list, or --from-log", USAGE)
    if args.box:
        box, zooms = box_of(args.box), zooms_of(args.zooms)
        if zooms[-1] > drawn.deepest:
            raise FarmError(f"the map {drawn.name} ends at zoom {drawn.deepest}")
        return lambda: chain.from_iterable(in_box(drawn.name, box, z) for z in zooms)
    found = of_list(drawn.name, args.list) if args.list else of_log(drawn.name, args.from_log, args.top)
    found = [metatile for metatile in found if metatile.z <= drawn.deepest]
    return lambda: iter(found)


def tell(size: Size, farm: Farm) -> None:
    """How much it is, and what the disk has."""
    new = size.bytes - size.there_bytes
    print(f"{size.metatiles:,} metatiles, {size.there:,} of them stored already; {new / GIB:,.2f} GiB of disk for the others")
    place = farm.tiles if farm.tiles.is_dir() else farm.folder
    if place.is_dir():
        free = shutil.disk_usage(place).free
        print(f"free disk: {free / GIB:,.1f} GiB" + ("; THAT IS TOO LITTLE" if new > free else ""))


def agreed() -> bool:
    if not sys.stdin.isatty():
        raise FarmError("there is nobody to ask: -y goes on without")
    print("go on? [y/N] ", end="", flush=True)
    return sys.stdin.readline().strip().lower() in ("y", "yes")


def run(args: argparse.Namespace) -> int:
    farm = Farm.of(args)
    drawn = map_of(farm, args.map)
    if not 1 <= args.open <= 32:
        raise FarmError("-n is from 1 to 32", USAGE)
    metatiles = wanted(args, drawn)
    size = size_of(metatiles(), drawn.side, farm.tiles)
    tell(size, farm)
    if args.count or not size.metatiles:
        return 0
    if not args.yes and not agreed():
        return GIVEN_UP
    seed(farm.address("renderd"), metatiles(), size.metatiles, args)
    return 0


def seed(address: str, metatiles: Iterator[Metatile], count: int, args: argparse.Namespace) -> None:
    began = time.monotonic()
    if args.quiet:
        made = Seeding(address, metatiles, args.open, lambda: None, args.patience)
        made.run()
    else:
        tqdm = library("tqdm", "python3-tqdm").tqdm
        with tqdm(total=count, unit="metatile", smoothing=0.05, mininterval=1 if sys.stderr.isatty() else 10) as bar:
            made = Seeding(address, metatiles, args.open, bar.update, args.patience)
            made.run()
    took = time.monotonic() - began
    print(f"{count:,} metatiles are done, in {took:.1f} s ({count / max(took, 0.001):.1f} a second); {made.refused} were asked again")
