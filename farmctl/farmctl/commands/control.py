"""Sends control lines to a running farm and prints its answers, one a line.

The lines are those of docs/operate/control.md: stats, renew N, update N, restyle N, expire N, stop.

With --farms each line is sent to all farms of that file, which has a control address on each line, and the answers are
told with the farm's address. Lines that change data or styles are then kept in farm.lines of the current folder: a farm
that missed one, or that begins anew, has to be told all of them before viewers are let in (`farmctl again`). The status
is 1 where a farm did not answer, or answered otherwise than the first.
"""

from __future__ import annotations

import argparse
from pathlib import Path

from farmctl import client, script, tally
from farmctl.errors import FarmError
from farmctl.farm import Farm
from farmctl.files import text_of

HELP = "send control lines and print the answers"
EXAMPLE = """
    farmctl control "renew 0" stats
    farmctl --control-address tcp:127.0.0.1:7656 control stop
    farmctl control --farms farms "renew 0"
"""
MISSED = "no answer"


def add(parser: argparse.ArgumentParser) -> None:
    parser.add_argument("lines", metavar="LINE", nargs="+", help="a control line, as one word")
    parser.add_argument("--farms", metavar="FILE", type=Path, help="several farms: their control addresses, one a line")


def said(address: str, line: str) -> str:
    try:
        return client.control(address, line)[0] or f"{MISSED}: closed"
    except (OSError, ValueError) as fault:
        return f"{MISSED}: {fault}"


def kind(answer: str) -> list[str]:
    """An answer without its counts, which are each farm's own: `version 1 renewed 5` is `version 1`."""
    words = answer.split(" ")
    return words[:2] if words[0] in ("version", "refused") else words[:1]


def to_all(farms: list[str], line: str) -> list[str]:
    """Sends a line to all; those that missed it, or stand otherwise than the first that answered."""
    answers = {address: said(address, line) for address in farms}
    for address, answer in answers.items():
        print(f"{address}: {line}: {answer}", flush=True)
    whole = [answer for answer in answers.values() if not answer.startswith(MISSED)]
    if script.changing([line]) and whole and whole[0].startswith(script.TAKEN):
        script.keep_line(Path(), line)
    return [address for address, answer in answers.items() if not whole or kind(answer) != kind(whole[0])]


def run(args: argparse.Namespace) -> int:
    if args.farms:
        farms = text_of(args.farms).split()
        failed = {address for line in args.lines for address in to_all(farms, line)}
        for address in sorted(failed):
            tally.say(f"{address} missed a line, or stands otherwise: keep it out until it was told farm.lines anew")
        return 1 if failed else 0
    address = Farm.of(args).address("control")
    try:
        with client.Control(address) as farm:
            for line in args.lines:
                print(farm.line(line), flush=True)
    except (OSError, ValueError) as fault:
        raise FarmError(f"{address}: {fault}") from fault
    return 0
