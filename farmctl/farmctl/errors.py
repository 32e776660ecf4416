"""The one exception by which a command ends: a clear line and a status, never a traceback."""

from __future__ import annotations

import importlib
from types import ModuleType

REFUSED = 1  # what was asked for cannot be done
USAGE = 2  # the words are no command; argparse ends with it too


class FarmError(Exception):
    """A line that says what is wrong, and the status with which farmctl ends."""

    def __init__(self, message: str, status: int = REFUSED) -> None:
        super().__init__(message)
        self.status = status


def library(name: str, package: str) -> ModuleType:
    """The library of that name; where it is missing, the line says which package of Debian has it."""
    try:
        return importlib.import_module(name)
    except ModuleNotFoundError as fault:
        raise FarmError(f"this needs the Python library {name}: apt install {package}") from fault
