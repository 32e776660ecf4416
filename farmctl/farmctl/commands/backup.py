"""Keeps what a farm cannot be made of again: its configuration, styles, rasters, data, updates, lists and farm.lines.

Tiles need no backup: they are drawn again when somebody asks. With --tiles they are kept too, of a farm that was stopped
in order. OUT is a tar archive; by its ending .gz, .xz or .bz2 it is compressed, which makes tiles a small part of what they
were. It is written whole or not at all.
"""

from __future__ import annotations

import argparse
from pathlib import Path

from farmctl.errors import FarmError
from farmctl.farm import Farm
from farmctl.keeping import backup

HELP = "keep a farm's files, and its tiles where they are wanted"
EXAMPLE = """
    farmctl -c /srv/farm/farm.json backup /backup/farm-monday.tar.gz
    systemctl stop tilefarm && farmctl -c /srv/farm/farm.json backup --tiles /backup/all.tar.xz; systemctl start tilefarm
"""


def add(parser: argparse.ArgumentParser) -> None:
    parser.add_argument("out", metavar="OUT", type=Path, help="the archive, .tar, .tar.gz, .tar.xz or .tar.bz2")
    parser.add_argument("--tiles", action="store_true", help="the tiles too, of a farm that was stopped in order")
    parser.add_argument("-f", "--force", action="store_true", help="write over a file that is there")


def run(args: argparse.Namespace) -> int:
    if args.out.exists() and not args.force:
        raise FarmError(f"{args.out} is there: -f writes over it")
    made = backup(Farm.of(args), args.out, args.tiles)
    print(f"{args.out}: {made.config}, {len(made.files)} files" + (", tiles and what was saved" if made.saved else ""))
    return 0
