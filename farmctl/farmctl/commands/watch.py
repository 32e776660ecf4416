"""Shows how a farm works, a line each interval, until it is ended: requests, those that ended well and drawings, each a
second; the version; memory and free disk.

Requests that run away from those that end well mean full queues, or drawings that cannot be kept. A farm that does not
answer is told and waited for.
"""

from __future__ import annotations

import argparse
import shutil
import time

from farmctl import tally
from farmctl.commands.status import size
from farmctl.farm import Farm
from farmctl.process import process_at
from farmctl.tally import Tally
from farmctl.words import seconds

HELP = "show a farm's work as it goes, a line a second"
EXAMPLE = """
    farmctl -c /srv/farm/farm.json watch
    farmctl watch -n 10 --count 6
"""
HEAD = f"{'time':8} {'asks/s':>9} {'done/s':>9} {'stored/s':>9} {'asks':>11} {'done':>11} {'version':>8} {'memory':>10} {'free disk':>10}"
HEAD_EVERY = 20


def add(parser: argparse.ArgumentParser) -> None:
    parser.add_argument("-n", "--interval", metavar="SECONDS", type=seconds, default=1, help="between two lines (1)")
    parser.add_argument("--count", metavar="N", type=int, help="end after so many lines")


def row(now: Tally, before: Tally, seconds: float, memory: int | None, free: int | None) -> str:
    rates = [(b - a) / seconds for a, b in ((before.asks, now.asks), (before.done, now.done), (before.stored, now.stored))]
    told = " ".join(f"{rate:9.1f}" for rate in rates)
    return f"{told} {now.asks:11} {now.done:11} {now.version:8} {size(memory):>10} {size(free):>10}"


def line(farm: Farm, address: str, before: tuple[float, Tally] | None) -> tuple[str, tuple[float, Tally] | None]:
    """What is shown now, and the numbers from which the next line counts."""
    try:
        now, at = tally.tally(address), time.monotonic()
    except tally.Down as fault:
        return f"DOWN: {fault}", None
    process = process_at(address)
    free = shutil.disk_usage(farm.folder).free if farm.folder.is_dir() else None
    began, old = before or (at - 1, now)  # the first line has no rates yet
    return row(now, old, at - began, process and process.memory, free), (at, now)


def run(args: argparse.Namespace) -> int:
    farm = Farm.of(args)
    address = farm.address("control")
    before, shown = None, 0
    try:
        while args.count is None or shown < args.count:
            if shown % HEAD_EVERY == 0:
                print(HEAD)
            text, before = line(farm, address, before)
            print(time.strftime("%H:%M:%S"), text, flush=True)
            shown += 1
            if args.count is None or shown < args.count:
                time.sleep(args.interval)
    except KeyboardInterrupt:
        pass
    return 0
