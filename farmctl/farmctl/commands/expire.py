"""Makes dirty the stored metatiles that a list of tiles overlaps, where the list was made after the farm began.

LIST has `z/x/y` on each line, as render_expired and osm2pgsql have it (`-`, standard input, where it is not named). Each
clean metatile whose square overlaps a tile of the list is marked by its /dirty, over all maps and zooms, and is then
drawn anew. A metatile that is being drawn while this walks is not clean yet and is passed over: run it once more when
that has ended. (Lists that the configuration names are expired by `farmctl control "expire N"`, in one turn, which
touches what is being drawn as well.)
"""

from __future__ import annotations

import argparse
import sys
from collections.abc import Iterable
from pathlib import Path

from farmctl import client
from farmctl.client import Tile
from farmctl.errors import FarmError
from farmctl.farm import Farm
from farmctl.files import text_of
from farmctl.metatiles import Metatile, stored, tile_of

HELP = "make dirty what a list of today overlaps"
EXAMPLE = """
    farmctl expire today.list
    osm2pgsql-expire | farmctl -c /srv/farm/farm.json expire
"""


def add(parser: argparse.ArgumentParser) -> None:
    parser.add_argument("list", metavar="LIST", nargs="?", type=Path, help="tiles, z/x/y on each line")


class Expired:
    """The tiles of a list, and whether a metatile's square overlaps one of them."""

    def __init__(self, tiles: Iterable[Tile]) -> None:
        self.tiles = set(tiles)
        self.above = {Tile(z - up, x >> up, y >> up) for z, x, y in self.tiles for up in range(z + 1)}

    def overlaps(self, metatile: Metatile) -> bool:
        up = min(metatile.z, 3)  # a metatile's square is that of the tile three zooms up
        z, x, y = metatile.z - up, metatile.x >> up, metatile.y >> up
        return Tile(z, x, y) in self.above or any(Tile(z - more, x >> more, y >> more) in self.tiles for more in range(z + 1))


def marked(address: str, metatile: Metatile) -> bool:
    """Whether the metatile was clean, and now is not."""
    target = f"/{metatile.map}/{metatile.z}/{metatile.x}/{metatile.y}.ppm"
    page = client.get(address, target + "/status")
    if page is None or page.status != 200 or not page.body.startswith(b"clean"):
        return False
    client.get(address, target + "/dirty")
    return True


def run(args: argparse.Namespace) -> int:
    farm = Farm.of(args)
    named = args.list and str(args.list) != "-"
    text = text_of(args.list) if named else sys.stdin.read()
    expired = Expired(tile_of(line) for line in text.splitlines() if line.strip())
    address = farm.address("tiles")
    if not farm.tiles.is_dir():
        raise FarmError(f"{farm.tiles}: no folder of tiles")
    try:
        made = sum(marked(address, found.metatile) for found in stored(farm.tiles) if expired.overlaps(found.metatile))
    except OSError as fault:
        raise FarmError(f"{address}: {fault}") from fault
    print(f"clean metatiles made dirty: {made}")
    return 0
