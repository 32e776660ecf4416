"""What words of the command line may be, for `argparse`, which says by these names what is refused."""

from __future__ import annotations

import shlex

MOST = 1e9  # seconds; what the system is told to wait has its own limit far above


def seconds(text: str) -> float:
    """From 0 on, and no more than some thirty years."""
    made = float(text)
    if not 0 <= made <= MOST:
        raise ValueError
    return made


def days(text: str) -> float:
    """From 0 on."""
    made = float(text)
    if not 0 <= made < float("inf"):
        raise ValueError
    return made


def command(text: str) -> list[str]:
    """A command's words, as a shell takes them apart."""
    made = shlex.split(text)
    if not made:
        raise ValueError
    return made
