"""Runs a farm until it is told to stop, and turns the signals of a supervisor into an orderly end.

The program `tilefarm serve` ends out of order by any signal: it then loses which tiles are clean. Under this SIGTERM and
SIGINT (systemd, docker stop, Ctrl-C) send the control line `stop`; the farm's status is handed on. Once the farm answers,
it is sent the lines of farm.lines again where it began anew, tiles/planet-import-complete is touched for mod_tile, and
systemd is told that it is ready, where it asks (`Type=notify`).

A farm that does not end within `--grace` seconds after a signal, or a second signal that comes, ends it out of order.
"""

from __future__ import annotations

import argparse

from farmctl.farm import Farm
from farmctl.running import Run
from farmctl.words import seconds

HELP = "run a farm, stopped in order by signals"
EXAMPLE = """
    cd /srv/farm && farmctl run
    farmctl -c /etc/tilefarm/farm.json -C /var/lib/tilefarm run --grace 60
"""


def add(parser: argparse.ArgumentParser) -> None:
    parser.add_argument("--grace", metavar="SECONDS", type=seconds, default=100, help="at most so long for an orderly end (100)")


def run(args: argparse.Namespace) -> int:
    return Run(Farm.of(args), args.grace).until_its_end()
