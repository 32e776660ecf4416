"""Sends the lines of farm.lines again to a farm that began anew, and none to one that went on from what it saved.

A farm that did not end in order begins with the data and styles of its configuration, version 0. farm.lines has what was
sent to it since (`renew 0`, `restyle 1`, ..); `farmctl update` keeps it. `farmctl run` does this by itself at each start;
this is for farms that are started by others, and for machines beside one another.
"""

from __future__ import annotations

import argparse
from pathlib import Path

from farmctl import script, tally
from farmctl.farm import Farm
from farmctl.words import seconds

HELP = "send a farm that began anew its lines again"
EXAMPLE = """
    farmctl again
    farmctl --control-address tcp:127.0.0.1:7656 again --lines /srv/farm/farm.lines
"""


def add(parser: argparse.ArgumentParser) -> None:
    parser.add_argument("--lines", metavar="FILE", type=Path, help="the lines (farm.lines in the farm's folder)")
    parser.add_argument("--wait", metavar="SECONDS", type=seconds, default=600, help="at most so long until it answers (600)")


def run(args: argparse.Namespace) -> int:
    farm = Farm.of(args)
    address = farm.address("control")
    lines = script.lines_of(args.lines or farm.folder / script.LINES)
    now = tally.awaited(address, args.wait)
    told = tally.send_again(address, lines, now)
    print(f"{address}: {now}, lines sent again: {len(told)}")
    for line in told:
        print(line)
    return 0
