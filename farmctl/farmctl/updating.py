"""A new update for a running farm: checked while the old farm serves, brought in by a restart, and undone where anything
fails, so that no file takes a map down.
"""

from __future__ import annotations

import contextlib
import json
import signal
import subprocess
import tempfile
import time
from collections.abc import Iterator, Sequence
from dataclasses import dataclass
from pathlib import Path
from types import FrameType
from typing import Any

from farmctl import client, script, tally
from farmctl.errors import FarmError
from farmctl.farm import Farm
from farmctl.files import keep_owner, text_of, write_whole

MOST = 256  # updates of one configuration
ANEW = "put the newest data into `data`, empty `updates`, remove tiles/farm.saved and farm.lines"
DOWN = 5  # the status where the farm is down at the end
LEAST_WAIT = 60.0  # seconds
STARTS = 20.0  # a start is given so many times what the check of the same files took
TOUCHED = "planet-import-complete"  # mod_tile knows of dirty tiles by this file's time alone


class Cut(BaseException):
    """A signal that is to end the command, once what it changed is put back."""


@dataclass(frozen=True)
class Restart:
    """The command that restarts the farm in order, and how long it and the farm's start may take."""

    command: tuple[str, ...]
    seconds: float

    def run(self) -> None:
        """Restarts; the farm may still be reading its files when this is through."""
        tally.say(f"restarting: {' '.join(self.command)} ({self.seconds:.0f} s at most)")
        try:
            made = subprocess.Popen(self.command, stdin=subprocess.DEVNULL, start_new_session=True)
        except OSError as fault:
            raise FarmError(f"the restart failed: {self.command[0]}: {fault.strerror}") from fault
        try:
            status = made.wait(self.seconds)
        except subprocess.TimeoutExpired as fault:
            made.kill()
            raise FarmError(f"the restart failed: not through after {self.seconds:.0f} s") from fault
        except Cut:
            with contextlib.suppress(subprocess.TimeoutExpired):
                made.wait(self.seconds)  # it is half-way: what it does is let end, then looked at
            raise
        if status != 0:
            raise FarmError(f"the restart failed, status {status}")


@contextlib.contextmanager
def cut_by_signals() -> Iterator[None]:
    """While this lasts SIGINT, SIGTERM and the end of a terminal raise `Cut`, once; later ones are passed over, so that
    what was begun is undone.
    """
    names = (signal.SIGINT, signal.SIGTERM, signal.SIGHUP)

    def cut(number: int, frame: FrameType | None) -> None:
        for name in names:
            signal.signal(name, signal.SIG_IGN)
        raise Cut(signal.Signals(number).name)

    before = [signal.signal(name, cut) for name in names]
    try:
        yield
    finally:
        for name, old in zip(names, before, strict=True):
            signal.signal(name, old)


@contextlib.contextmanager
def uncut() -> Iterator[None]:
    """While this lasts signals wait: between a renew and the note of it nothing may come."""
    names = {signal.SIGINT, signal.SIGTERM, signal.SIGHUP}
    signal.pthread_sigmask(signal.SIG_BLOCK, names)
    try:
        yield
    finally:
        signal.pthread_sigmask(signal.SIG_UNBLOCK, names)


def read_update(path: Path) -> dict[str, Any]:
    try:
        value = json.loads(path.read_text(encoding="utf-8"))
    except OSError as fault:
        raise FarmError(f"{path}: {fault.strerror}") from fault
    except (ValueError, RecursionError) as fault:
        raise FarmError(f"{path}: no JSON: {fault}") from fault
    if not isinstance(value, dict) or not isinstance(value.get("changes"), list):
        raise FarmError(f"{path}: no update: it has no list `changes`")
    return value


def merged(paths: Sequence[Path]) -> str:
    """One update with the changes of several files, in their order."""
    values = [read_update(path) for path in paths]
    units = {value.get("units", "cm") for value in values}
    if len(units) > 1:
        raise FarmError(f"updates in different units: {', '.join(sorted(map(str, units)))}")
    changes = [change for value in values for change in value["changes"]]
    return json.dumps({"units": units.pop(), "changes": changes}, ensure_ascii=False) + "\n"


def placed(folder: Path, paths: Sequence[Path], number: int) -> Path:
    """The new update as a file of its own in the farm's folder: what its configuration names is never written over, as the
    files of a day may be on the next one.
    """
    text = merged(paths) if len(paths) > 1 else paths[0].read_text(encoding="utf-8")
    path = folder / f"update-{number}.json"
    if path.exists():
        raise FarmError(f"{path} is there: remove or rename it")
    path.write_text(text, encoding="utf-8")
    keep_owner(path, folder.stat())
    return path


class Update:
    """One update on its way into one farm."""

    def __init__(self, farm: Farm, restart: Sequence[str], wait: float | None) -> None:
        self.farm = farm
        self.before = text_of(farm.path) if farm.path.is_file() else ""
        self.config = farm.config
        self.address = farm.address("control")
        self.words = tuple(restart)
        self.wait = wait
        self.is_in = False

    def come(self, paths: Sequence[Path]) -> str:
        """Brings the update in; the line that was sent, and its answer."""
        updates = self.config.setdefault("updates", [])
        if self.config.get("resume") is not True:
            raise FarmError(f"{self.farm.path} has no `\"resume\": true`: a restart would draw all tiles anew")
        if len(updates) >= MOST:
            raise FarmError(f"{MOST} updates are there: {ANEW}")
        now = self.serving()
        line = f"renew {len(updates)}"
        for path in paths:
            read_update(path)
        made = placed(self.farm.folder, paths, len(updates))
        try:
            updates.append(made.name)
            restart = self.checked(line, now)
            with cut_by_signals():
                return self.brought(line, restart, now)
        except BaseException:
            if not self.is_in:
                made.unlink(missing_ok=True)
            raise

    def serving(self) -> tally.Tally:
        try:
            return tally.tally(self.address)
        except tally.Down as fault:
            raise FarmError(f"{fault}; the farm was down before: start it first; nothing was changed", DOWN) from fault

    def checked(self, line: str, now: tally.Tally) -> Restart:
        """Tries all files and lines while the old farm serves; how long a start may take follows from how long that took."""
        lines = script.changing(script.kept_lines(self.farm.folder))
        counted = sum(not kept.startswith("restyle") for kept in lines)
        if counted != now.version:
            tally.say(f"note: the farm is at version {now.version}, and farm.lines has {counted} updates: add lines that were sent by hand")
        began = time.monotonic()
        with tempfile.NamedTemporaryFile("w", suffix=".json", encoding="utf-8") as candidate:
            candidate.write(self.text())
            candidate.flush()
            try:
                script.checked(self.farm.tilefarm(), self.farm.folder, Path(candidate.name), [*lines, line])
            except script.Refused as fault:
                told = str(fault).replace(candidate.name, str(self.farm.path))
                raise FarmError(f"{told}\nthe farm serves as before; nothing was changed") from fault
        return Restart(self.words, self.wait or max(LEAST_WAIT, STARTS * (time.monotonic() - began)))

    def text(self) -> str:
        return json.dumps(self.config, indent=2, ensure_ascii=False) + "\n"

    def brought(self, line: str, restart: Restart, now: tally.Tally) -> str:
        """The restart and the renew; where either fails, or a signal comes, all is put back and the farm started again."""
        write_whole(self.farm.path, self.text())
        try:
            restart.run()
            self.as_before(now, tally.awaited(self.address, restart.seconds))
            return self.renewed(line, now)
        except (FarmError, OSError) as fault:
            status, told = self.put_back(restart, begun=False)
            raise FarmError(f"{line}: {fault}; {told}", status) from fault
        except Cut as cut:
            status, told = self.put_back(restart, begun=True)
            raise FarmError(f"{line}: ended by {cut}; {told}", status) from cut

    def as_before(self, now: tally.Tally, later: tally.Tally) -> None:
        """A farm that did not end in order is told its lines again; it must then stand where it stood."""
        told = tally.send_again(self.address, script.kept_lines(self.farm.folder), later) if now.version else []
        if told:
            tally.say(f"the farm began anew, and was sent {len(told)} lines again")
            later = tally.tally(self.address)
        if later.version != now.version:
            raise FarmError(f"the farm's version was {now.version} and is {later.version}: farm.lines has not all that was sent to it")

    def renewed(self, line: str, now: tally.Tally) -> str:
        """Sends the renew, and keeps it. A farm that has made it goes on only from a configuration that names it, so where
        no answer comes the version tells whether it is in.
        """
        with uncut():
            try:
                (answer,) = client.control(self.address, line)
            except (OSError, ValueError) as fault:
                answer = f"no answer: {fault}"
            if not answer.startswith("version "):
                if tally.awaited(self.address, LEAST_WAIT).version == now.version:
                    raise FarmError(answer or "closed without an answer: no memory")
                answer = f"version {now.version + 1}"
            self.is_in = True
            script.keep_line(self.farm.folder, line)
            if self.farm.tiles.is_dir():
                (self.farm.tiles / TOUCHED).touch()
        return f"{line}: {answer}"

    def put_back(self, restart: Restart, begun: bool) -> tuple[int, str]:
        """The configuration as it was, and the farm up again; the status and how it stands, for the operator. Where a start
        was begun and not waited for, the farm may still be reading its files.
        """
        if self.is_in:
            return 1, "the update is in, and stays in the configuration"
        write_whole(self.farm.path, self.before)
        told = f"{self.farm.path} is as it was"
        try:
            with cut_by_signals():
                return 1, f"{told}; {self.up_again(restart, begun)}"
        except tally.Down as fault:
            return DOWN, f"{told}; THE FARM IS DOWN: {fault}"
        except Cut as cut:
            return DOWN, f"{told}; ended by {cut} before it was seen whether the farm is up: farmctl status"

    def up_again(self, restart: Restart, begun: bool) -> str:
        try:
            now = tally.awaited(self.address, restart.seconds) if begun else tally.tally(self.address)
            return f"the farm is up: {now}"
        except tally.Down:
            pass
        try:
            restart.run()
        except FarmError as fault:
            tally.say(str(fault))
        return f"the farm was started again and is up: {tally.awaited(self.address, restart.seconds)}"
