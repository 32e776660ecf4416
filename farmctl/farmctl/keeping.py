"""Backups of a farm: the files that its configuration names, and its tiles where they are wanted.

Tiles that are kept as clean are right only with the data, styles and updates of the moment at which the farm that saved
them ended. So a backup has the checksum of each file, and what is restored keeps `farm.saved` only where all are the same.
"""

from __future__ import annotations

import contextlib
import fcntl
import io
import json
import lzma
import os
import re
import tarfile
import time
import zlib
from collections.abc import Iterator
from dataclasses import dataclass, field
from pathlib import Path, PurePosixPath
from typing import IO, Any

from farmctl import script, tally
from farmctl.errors import FarmError
from farmctl.farm import Farm
from farmctl.files import PIECE, checksum

FORM = 1
MANIFEST = "farmctl-backup.json"
SAVED = "farm.saved"
LOCK = ".lock"
RESTS_ON = ("maps", "data", "updates", "restyles")  # the keys of a configuration that saved tiles rest on
TILE_MEMBER = re.compile(r"tiles/(farm\.saved|planet-import-complete|[a-z0-9_-]{1,40}/\d{1,2}(/\d{1,3}){4}/\d{1,3}\.meta)")


@dataclass
class Manifest:
    """What a backup holds: the configuration's name, each file's checksum by its name, and that of `farm.saved`."""

    config: str
    files: dict[str, str]
    saved: str | None = None
    time: str = ""
    form: int = FORM

    def text(self) -> str:
        return json.dumps(vars(self), indent=1, ensure_ascii=False) + "\n"


def texts(value: Any) -> list[str]:
    return [name for name in value if isinstance(name, str)] if isinstance(value, list) else []


def objects(value: Any) -> list[dict[str, Any]]:
    return [each for each in value if isinstance(each, dict)] if isinstance(value, list) else []


def rasters_of(style: Path) -> list[str]:
    with contextlib.suppress(OSError, ValueError):
        value = json.loads(style.read_text(encoding="utf-8"))
        if isinstance(value, dict):
            return texts([raster.get("file") for raster in objects(value.get("rasters"))])
    return []


def named_files(config: dict[str, Any], folder: Path) -> list[str]:
    """The files that a configuration names, its styles' rasters among them, each once."""
    styles = texts([each.get("style") for key in ("maps", "restyles") for each in objects(config.get(key))])
    rasters = [name for style in styles for name in rasters_of(folder / style)]
    lists = [name for key in ("updates", "expiries") for name in texts(config.get(key))]
    return list(dict.fromkeys([*styles, *rasters, *texts([config.get("data")]), *lists]))


def is_inside(name: str) -> bool:
    path = PurePosixPath(name)
    return not path.is_absolute() and ".." not in path.parts


def sums(folder: Path, names: list[str]) -> dict[str, str]:
    found = {}
    for name in names:
        if not is_inside(name):
            raise FarmError(f"{name} lies outside the farm's folder: bring it in, and name it in the configuration from there")
        try:
            found[name] = checksum(folder / name)
        except OSError as fault:
            raise FarmError(f"{folder / name}: {fault.strerror}") from fault
    return found


def is_up(farm: Farm) -> bool:
    """Whether a farm answers, or has the folder by its lock."""
    try:
        tally.tally(farm.address("control"), 2)
    except FarmError:
        return is_locked(farm.tiles / LOCK)
    return True


def is_locked(path: Path) -> bool:
    try:
        with path.open("rb") as file:
            fcntl.flock(file, fcntl.LOCK_SH | fcntl.LOCK_NB)
    except BlockingIOError:
        return True
    except OSError:
        return False  # no such file, or a disk without locks
    return False


def tile_files(tiles: Path) -> Iterator[Path]:
    """What is kept of `tiles`: containers, what was saved, and mod_tile's file."""
    for place, _, names in os.walk(tiles):
        for name in names:
            path = Path(place, name)
            if TILE_MEMBER.fullmatch(f"tiles/{path.relative_to(tiles)}"):
                yield path


def backup(farm: Farm, out: Path, with_tiles: bool) -> Manifest:
    """Writes a backup, whole or not at all."""
    names = [*named_files(farm.config, farm.folder), *([script.LINES] if (farm.folder / script.LINES).exists() else [])]
    made = Manifest(farm.path.name, sums(farm.folder, names), time=time.strftime("%Y-%m-%dT%H:%M:%S%z"))
    if with_tiles:
        made.saved = saved_sum(farm)
    beside = out.with_name(f".{out.name}.{os.getpid()}.new")
    mode = {".gz": "w:gz", ".xz": "w:xz", ".bz2": "w:bz2"}.get(out.suffix, "w")
    try:
        with tarfile.open(beside, mode) as archive:  # type: ignore[call-overload]
            add_text(archive, MANIFEST, made.text())
            archive.add(farm.path, "config", recursive=False)
            for name in names:
                archive.add((farm.folder / name).resolve(), f"files/{name}", recursive=False)
            for path in tile_files(farm.tiles) if with_tiles else ():
                archive.add(path, f"tiles/{path.relative_to(farm.tiles)}", recursive=False)
        os.replace(beside, out)
    finally:
        beside.unlink(missing_ok=True)
    return made


def saved_sum(farm: Farm) -> str:
    """The checksum of what was saved, of a farm that is stopped."""
    if is_up(farm):
        raise FarmError("the farm runs: its tiles are whole only after an orderly stop; without --tiles it may run")
    path = farm.tiles / SAVED
    if not path.exists() or not path.stat().st_size:
        raise FarmError(f"{path} is empty: the farm did not end in order, and no tile is known to be clean: leave --tiles out")
    return checksum(path)


def add_text(archive: tarfile.TarFile, name: str, text: str) -> None:
    member = tarfile.TarInfo(name)
    member.size, member.mtime = len(text.encode()), int(time.time())
    archive.addfile(member, io.BytesIO(text.encode()))


@dataclass
class Restored:
    """What a restore did."""

    files: int = 0
    changed: list[str] = field(default_factory=list)
    tiles: int = 0
    keeps_saved: bool = False
    why: str = ""


def read_manifest(archive: tarfile.TarFile) -> Manifest:
    member = archive.next()
    source = archive.extractfile(member) if member and member.name == MANIFEST else None
    if source is None:
        raise FarmError("no backup of farmctl: it does not begin with its list")
    try:
        made = Manifest(**json.load(source))
    except (TypeError, ValueError) as fault:
        raise FarmError(f"no backup of farmctl: {fault}") from fault
    if made.form != FORM or not all(is_inside(name) for name in [made.config, *made.files]) or "/" in made.config:
        raise FarmError("a backup of another form, or with names outside its folder")
    return made


def copy_out(source: IO[bytes], path: Path) -> None:
    path.parent.mkdir(parents=True, exist_ok=True)
    beside = path.with_name(f"{path.name}.{os.getpid()}.new")
    try:
        with beside.open("wb") as out:
            while piece := source.read(PIECE):
                out.write(piece)
        os.replace(beside, path)
    finally:
        beside.unlink(missing_ok=True)


class Restore:
    """One restore of an archive into a farm's folder: `farm.saved` goes first, and comes back last, where it may."""

    def __init__(self, farm: Farm, files: bool, tiles: bool) -> None:
        self.farm = farm
        self.with_files = files
        self.with_tiles = tiles
        self.done = Restored()
        self.saved: bytes | None = None  # what the archive has as `farm.saved`

    def run(self, path: Path) -> Restored:
        if is_up(self.farm):
            raise FarmError("the farm runs: stop it first")
        try:
            with tarfile.open(path, "r:*") as archive:
                manifest = read_manifest(archive)
                here = self.farm.tiles / SAVED
                old = here.read_bytes() if here.exists() else b""
                here.unlink(missing_ok=True)
                config = self.members(archive, manifest)
        except (tarfile.TarError, EOFError, ValueError, zlib.error, lzma.LZMAError) as fault:
            told = (str(fault) or "it ends too early").splitlines()[0]
            raise FarmError(f"{path}: no backup: {told.rstrip(':')}") from fault
        except OSError as fault:
            raise FarmError(f"{fault.filename or path}: {fault.strerror or fault}") from fault
        self.give_back(manifest, config, old)
        return self.done

    def members(self, archive: tarfile.TarFile, manifest: Manifest) -> dict[str, Any]:
        """Puts each member where it belongs, by the list alone; the archive's configuration."""
        config: dict[str, Any] = {}
        for member in archive:
            if member.offset == 0:
                continue  # the list, which was read
            source = archive.extractfile(member) if member.isfile() else None
            kind, _, name = member.name.partition("/")
            if source is None:
                raise FarmError(f"{member.name} is no file of a backup")
            if kind == "config":
                config = self.put_config(source)
            elif kind == "files" and name in manifest.files:
                self.put_file(source, name, manifest.files[name])
            elif TILE_MEMBER.fullmatch(member.name):
                self.put_tile(source, name)
            else:
                raise FarmError(f"{member.name} is not in the backup's list")
        return config

    def put_config(self, source: IO[bytes]) -> dict[str, Any]:
        text = source.read()
        config = json.loads(text)
        if not isinstance(config, dict):
            raise ValueError("its configuration is no JSON object")
        old = self.farm.loose_config()
        if self.with_files:
            if any(config.get(key) != old.get(key) for key in RESTS_ON):
                self.done.changed.append(self.farm.path.name)
            copy_out(io.BytesIO(text), self.farm.path)
        return config

    def put_file(self, source: IO[bytes], name: str, wanted: str) -> None:
        path = self.farm.folder / name
        if not self.with_files:
            return
        if not path.exists() or checksum(path) != wanted:
            self.done.changed.append(name)
            copy_out(source, path)
        if checksum(path) != wanted:
            raise FarmError(f"{name}: the backup is damaged: another checksum than its list has")
        self.done.files += 1

    def put_tile(self, source: IO[bytes], name: str) -> None:
        if name == SAVED:
            self.saved = source.read()
        elif self.with_tiles:
            copy_out(source, self.farm.tiles / name)
            self.done.tiles += name.endswith(".meta")

    def give_back(self, manifest: Manifest, config: dict[str, Any], old: bytes) -> None:
        """`farm.saved`, where the tiles are those that it was saved with, and all that they rest on is the same."""
        if self.with_tiles and manifest.saved:
            differs = self.differing(manifest, config)
            kept = b"" if differs else self.saved or b""
            self.done.why = f"not the same as when the tiles were saved: {', '.join(differs)}" if differs else ""
        elif self.done.changed:
            kept, self.done.why = b"", f"changed: {', '.join(self.done.changed)}"
        else:
            kept = old
        if kept:
            copy_out(io.BytesIO(kept), self.farm.tiles / SAVED)
            self.done.keeps_saved = True

    def differing(self, manifest: Manifest, config: dict[str, Any]) -> list[str]:
        here = self.farm.loose_config()
        keys = [f"{key} of {self.farm.path.name}" for key in RESTS_ON if here.get(key) != config.get(key)]
        free = {script.LINES, *texts(config.get("expiries"))}
        rest = ((name, self.farm.folder / name, wanted) for name, wanted in manifest.files.items() if name not in free)
        return keys + [name for name, path, wanted in rest if not path.exists() or checksum(path) != wanted]
