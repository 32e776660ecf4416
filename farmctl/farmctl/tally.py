"""The four numbers that a farm tells of itself, and waiting until it tells them."""

from __future__ import annotations

import re
import sys
import time
from collections.abc import Callable
from dataclasses import dataclass

from farmctl import client
from farmctl.errors import FarmError

SECONDS = 10.0  # a farm answers at once, but for a turn that takes long
PAUSE = 0.2
TOLD_EVERY = 10.0  # seconds of waiting between two words of it


class Down(FarmError):
    """Nobody answers at the control address."""


@dataclass(frozen=True)
class Tally:
    """What `stats` answers: requests, those that ended well, drawings that were kept, and the version of the data."""

    asks: int
    done: int
    stored: int
    version: int

    def __str__(self) -> str:
        return f"asks {self.asks} done {self.done} stored {self.stored} version {self.version}"


def tally_of(line: str) -> Tally:
    found = re.fullmatch(r"asks (\d+) done (\d+) stored (\d+) version (\d+)", line)
    if not found:
        raise ValueError(f"no tally: {line!r}")
    return Tally(*(int(number) for number in found.groups()))


def tally(address: str, seconds: float = SECONDS) -> Tally:
    """The farm's numbers now."""
    try:
        (line,) = client.control(address, "stats", seconds=seconds)
        return tally_of(line)
    except (OSError, ValueError) as fault:
        raise Down(f"no farm answers at {address}: {fault}") from fault


def say(text: str) -> None:
    """A word to the operator, beside what the command puts on standard output."""
    print(text, file=sys.stderr, flush=True)


def awaited(address: str, seconds: float, is_there: Callable[[], bool] = lambda: True) -> Tally:
    """The farm's numbers once it answers; it says what it waits for, and gives up after so many seconds, or when the
    process that is waited for is not there any more.
    """
    began = told = time.monotonic()
    while True:
        try:
            return tally(address)
        except Down as fault:
            now = time.monotonic()
            if not is_there():
                raise
            if now - began > seconds:
                raise Down(f"{fault}; given up after {seconds:.0f} s") from fault
            if now - told >= TOLD_EVERY:
                say(f"waiting for the farm to answer at {address}: {now - began:.0f} s, {seconds:.0f} at most")
                told = now
        time.sleep(PAUSE)


def send_again(address: str, lines: list[str], now: Tally) -> list[str]:
    """Sends lines to a farm that began anew, which its version 0 tells, and none to one that went on; what was answered."""
    if now.version != 0:
        return []
    told = []
    with client.Control(address) as farm:
        for line in lines:
            answer = farm.line(line)
            told.append(f"{line}: {answer or 'closed without an answer'}")
            if not answer.startswith(("version", "styled", "expired")):
                raise FarmError(told[-1])
    return told
