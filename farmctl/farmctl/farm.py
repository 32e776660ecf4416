"""Which farm a command means: its configuration, the folder it runs in, its addresses, and the program."""

from __future__ import annotations

import argparse
import json
import os
import shutil
from dataclasses import dataclass
from pathlib import Path
from typing import Any

from farmctl.errors import FarmError

CONFIG = "farm.json"


def program_of(named: str | None) -> str:
    """The program tilefarm: the named one, that of TILEFARM, the released one of this clone, or that of PATH."""
    clone = Path(__file__).resolve().parents[2] / "release" / "tilefarm"
    found = named or os.environ.get("TILEFARM") or (str(clone) if clone.is_file() else shutil.which("tilefarm"))
    if found is None:
        raise FarmError("no program tilefarm: name it by --program, or install it")
    return found


def read_config(path: Path) -> dict[str, Any]:
    """The configuration as it stands; the program itself says what is wrong with one (`farmctl check`)."""
    try:
        config = json.loads(path.read_text(encoding="utf-8"))
    except OSError as fault:
        raise FarmError(f"{path}: {fault.strerror}: name the configuration by -c, or addresses (farmctl --help)") from fault
    except ValueError as fault:
        raise FarmError(f"{path}: {fault}") from fault
    except RecursionError as fault:
        raise FarmError(f"{path}: lists in lists, too deep") from fault
    if not isinstance(config, dict):
        raise FarmError(f"{path}: no JSON object")
    wrong = [key for key, is_right in SHAPES.items() if not is_right(config.get(key, []))]
    if wrong:
        raise FarmError(f"{path}: `{wrong[0]}` is of the wrong kind (farmctl check says more)")
    return config


def are_maps(value: Any) -> bool:
    return isinstance(value, list) and all(isinstance(each, dict) and is_map(each) for each in value)


def is_map(value: dict[str, Any]) -> bool:
    sizes = value.get("tile", 0), value.get("maxzoom", 0)
    return isinstance(value.get("name"), str) and all(isinstance(size, int) for size in sizes)


def are_names(value: Any) -> bool:
    return isinstance(value, list) and all(isinstance(each, str) for each in value)


SHAPES = {"maps": are_maps, "updates": are_names, "expiries": are_names}  # what farmctl itself reads of a configuration


@dataclass(frozen=True)
class Farm:
    """A farm as its operator names it. Names of files and of sockets are taken from the folder in which it runs."""

    path: Path
    folder: Path
    given: dict[str, str]
    program: str | None

    @staticmethod
    def of(args: argparse.Namespace) -> Farm:
        path = Path(args.config or CONFIG).absolute()
        given = {front: vars(args)[f"{front}_address"] for front in ("control", "tiles", "renderd")}
        folder = Path(args.folder).absolute() if args.folder else path.parent
        return Farm(path, folder, {front: address for front, address in given.items() if address}, args.program)

    @property
    def config(self) -> dict[str, Any]:
        return read_config(self.path)

    def loose_config(self) -> dict[str, Any]:
        """The configuration, or an empty one where it is none: for commands in which the program is to tell the fault."""
        try:
            return self.config
        except FarmError:
            return {}

    @property
    def tiles(self) -> Path:
        return self.folder / "tiles"

    def tilefarm(self) -> str:
        return program_of(self.program)

    def address(self, front: str) -> str:
        """The address of `control`, `tiles` or `renderd`."""
        if front in self.given:
            return self.given[front]
        found = self.config.get(front)
        if not isinstance(found, str):
            raise FarmError(f"{self.path}: no address `{front}`")
        kind, _, place = found.partition(":")
        return f"unix:{self.folder / place}" if kind == "unix" else found
