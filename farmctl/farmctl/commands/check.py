"""Reads every file that the configuration names, by the program itself, and says what it would refuse.

Styles, rasters, data, updates and lists are read as `tilefarm serve` reads them; the lines of farm.lines are made over
them in their order, and then each update that was not sent yet. Nothing is written and no farm is asked, so it goes on
beside a running one. Status 0: a farm can be started or restarted with these files, and told these lines.
"""

from __future__ import annotations

import argparse

from farmctl import script
from farmctl.farm import Farm

HELP = "read all files of a configuration, and say what is refused"
EXAMPLE = """
    farmctl check && systemctl restart tilefarm
    farmctl -c new.json check --sent
"""


def add(parser: argparse.ArgumentParser) -> None:
    parser.add_argument("--sent", action="store_true", help="of the updates only those of farm.lines: what a restart needs")


def unsent(updates: int, lines: list[str]) -> list[str]:
    """A renew of each update that no line has made."""
    made = {line.partition(" ")[2] for line in lines if not line.startswith("restyle")}
    return [f"renew {number}" for number in range(updates) if str(number) not in made]


def run(args: argparse.Namespace) -> int:
    farm = Farm.of(args)
    sent = script.changing(script.kept_lines(farm.folder))
    lines = list(sent)
    if not args.sent and farm.path.is_file():
        lines += unsent(len(script.updates_of(farm.loose_config())), sent)
    script.checked(farm.tilefarm(), farm.folder, farm.path, lines)
    print(f"{farm.path}: all files are taken, and {len(lines)} lines ({len(sent)} of {script.LINES})")
    return 0
