"""Brings a backup back into a farm's folder, of a farm that is stopped.

Tiles that are kept as clean are right only with the data, styles and updates of that very moment: the farm is not told
where that is not so, and would send as clean what is not. So tiles/farm.saved is removed, and all is drawn anew where
somebody asks, unless each file is the same, by its checksum, as when the tiles were saved. --only tiles brings the tiles
to files that are there, --only files leaves the tiles that are there.
"""

from __future__ import annotations

import argparse
from pathlib import Path

from farmctl.farm import Farm
from farmctl.keeping import Restore

HELP = "bring a backup back"
EXAMPLE = """
    cd /srv/farm && farmctl restore /backup/farm-monday.tar.gz
    farmctl -c /srv/farm/farm.json restore --only tiles /backup/all.tar.xz
"""


def add(parser: argparse.ArgumentParser) -> None:
    parser.add_argument("archive", metavar="ARCHIVE", type=Path, help="what `farmctl backup` wrote")
    parser.add_argument("--only", choices=("files", "tiles"), help="these alone")


def run(args: argparse.Namespace) -> int:
    done = Restore(Farm.of(args), args.only != "tiles", args.only != "files").run(args.archive)
    print(f"{done.files} files, {len(done.changed)} of them changed; {done.tiles} containers")
    if done.keeps_saved:
        print("tiles/farm.saved is there: the farm goes on from its clean tiles")
    else:
        print(f"no tiles/farm.saved{f' ({done.why})' if done.why else ''}: the farm begins anew; `farmctl run` sends farm.lines again")
    return 0
