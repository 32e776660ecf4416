"""Brings new updates into a running farm, whose configuration did not name them when it began.

A farm reads its files when it begins. So this checks the files with all that the farm has, by the program itself and
while the farm serves; copies them, several as one, to update-N.json in the farm's folder and appends that to the list
`updates`; has the farm restarted by COMMAND, which must stop it in order; waits until it answers; sends `renew N`; keeps
that line in farm.lines; and touches tiles/planet-import-complete, by which mod_tile learns of it.

A file that is refused changes nothing. Where the restart fails, or this is cut off, the configuration is put back, and
the farm started again where it does not answer. It needs `"resume": true`.

Status 0: the update is in. 1: it is not, and the farm serves as before. 5: the farm is down.
"""

from __future__ import annotations

import argparse
import os
from pathlib import Path

from farmctl.farm import Farm
from farmctl.updating import Update
from farmctl.words import command, seconds

HELP = "bring new updates into a running farm"
RESTART = "systemctl restart tilefarm"
EXAMPLE = """
    cd /srv/farm && farmctl update monday.json
    farmctl -c /srv/farm/farm.json update areas.json lines.json --restart /srv/farm/restart
"""


def add(parser: argparse.ArgumentParser) -> None:
    parser.add_argument("files", metavar="FILE", nargs="+", type=Path, help="an update; several become one")
    named = os.environ.get("FARMCTL_RESTART", RESTART)
    parser.add_argument("--restart", metavar="COMMAND", type=command, default=named, help=f"restarts the farm in order (FARMCTL_RESTART, or {RESTART})")
    parser.add_argument(
        "--wait", metavar="SECONDS", type=seconds, help="at most so long for the restart and for the start (20 times the check, at least 60)"
    )


def run(args: argparse.Namespace) -> int:
    print(Update(Farm.of(args), args.restart, args.wait).come(args.files))
    return 0
