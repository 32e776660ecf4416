"""Files read as text, with a line where that cannot be; files written whole or not at all."""

from __future__ import annotations

import hashlib
import os
from pathlib import Path

from farmctl.errors import FarmError

PIECE = 1 << 20


def text_of(path: Path) -> str:
    """The text of a file."""
    try:
        return path.read_text(encoding="utf-8")
    except OSError as fault:
        raise FarmError(f"{path}: {fault.strerror}") from fault
    except UnicodeDecodeError as fault:
        raise FarmError(f"{path}: no text in UTF-8: byte {fault.start}") from fault


def write_whole(path: Path, text: str) -> None:
    """Writes beside and renames, with the rights that the old file has, so that nobody ever reads a half of it."""
    beside = path.with_name(f"{path.name}.{os.getpid()}.new")
    try:
        beside.write_text(text, encoding="utf-8")
        if path.exists():
            beside.chmod(path.stat().st_mode & 0o7777)
            keep_owner(beside, path.stat())
        os.replace(beside, path)
    finally:
        beside.unlink(missing_ok=True)


def keep_owner(path: Path, like: os.stat_result) -> None:
    """root may write another's file, which then is to stay the other's."""
    if os.geteuid() == 0:
        os.chown(path, like.st_uid, like.st_gid)


def checksum(path: Path) -> str:
    made = hashlib.sha256()
    with path.open("rb") as source:
        while piece := source.read(PIECE):
            made.update(piece)
    return made.hexdigest()
