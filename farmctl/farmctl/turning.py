"""A restart that nobody sees: the farm of another folder is started and warmed while the first serves, takes over by one
renamed link, and the first is stopped once nobody is connected to it any more.

The proxy before the farms (the gateway, nginx, haproxy, mod_tile) is told the sockets below the link. It follows the link at
each connection, so it needs neither a reload nor a word.
"""

from __future__ import annotations

import contextlib
import os
import shlex
import socket
import struct
import subprocess
import sys
import tempfile
import time
from dataclasses import dataclass
from pathlib import Path

from farmctl import client, script, tally
from farmctl.errors import FarmError
from farmctl.farm import CONFIG, Farm
from farmctl.metatiles import Metatile
from farmctl.seeding import Seeding, of_log
from farmctl.updating import Cut, cut_by_signals

FRONTS = ("tiles", "renderd")  # those that a proxy or mod_tile may be connected to
SAVED = "farm.saved"
PAUSE = 0.2
QUIET = 5  # looks at which nobody is connected
OPEN = 16  # asks of a farm at a time, as many as it has workers at most


@dataclass(frozen=True)
class Plan:
    """What the operator chose."""

    link: Path
    other: Path
    program: str | None
    start: list[str] | None
    stop: list[str] | None
    log: Path | None
    most: int
    wait: float
    drain: float


def farm_in(folder: Path, program: str | None) -> Farm:
    return Farm(folder / CONFIG, folder, {}, program)


def maps_of(farm: Farm) -> dict[str, int]:
    """The size of a tile of each map."""
    return {each["name"]: each.get("tile", 256) for each in farm.config.get("maps", [])}


def process_at(address: str) -> int:
    """The process that listens at a Unix address."""
    with client.connect(address) as made:
        return struct.unpack("3i", made.getsockopt(socket.SOL_SOCKET, socket.SO_PEERCRED, 12))[0]


def is_there(process: int) -> bool:
    with contextlib.suppress(ProcessLookupError, FileNotFoundError):
        os.kill(process, 0)
        return Path(f"/proc/{process}/stat").read_text().rpartition(")")[2].split()[0] != "Z"
    return False


def connections(process: int, names: set[str]) -> int | None:
    """How many connections a process has open that came by sockets of these names; None where that may not be seen."""
    inodes = set()
    try:
        files = list(Path(f"/proc/{process}/fd").iterdir())
    except OSError:
        return None
    for each in files:
        with contextlib.suppress(OSError):
            inodes.add(os.readlink(each).removeprefix("socket:[").removesuffix("]"))
    count = 0
    for line in Path("/proc/net/unix").read_text().splitlines()[1:]:
        fields = line.split(maxsplit=7)
        count += len(fields) == 8 and fields[7] in names and fields[5] == "03" and fields[6] in inodes
    return count


class Ready:
    """A socket at which a farm that is started says that it is ready (the protocol of `sd_notify`)."""

    def __init__(self) -> None:
        self.folder = tempfile.TemporaryDirectory(prefix="farmctl-")
        self.path = os.path.join(self.folder.name, "ready")
        self.socket = socket.socket(socket.AF_UNIX, socket.SOCK_DGRAM)
        self.socket.bind(self.path)
        self.socket.settimeout(PAUSE)

    def is_told(self) -> bool:
        """Whether it was said within a short while."""
        try:
            return b"READY=1" in self.socket.recv(4096)
        except TimeoutError:
            return False

    def close(self) -> None:
        self.socket.close()
        self.folder.cleanup()


class Turn:
    """One turn, from the farm that the link names to the other."""

    def __init__(self, plan: Plan) -> None:
        self.plan = plan
        if not plan.link.is_symlink():
            raise FarmError(f"{plan.link}: no link to the folder of the farm that serves")
        self.old = farm_in(plan.link.resolve(), plan.program)
        self.new = farm_in(plan.other.resolve(), plan.program)
        if self.old.folder == self.new.folder:
            raise FarmError(f"{plan.link} names {plan.other} already: name the other folder")

    def made(self) -> None:
        """All of it. Where anything fails before the link is renamed the old farm goes on, and the other is stopped."""
        with cut_by_signals():
            began = time.monotonic()
            self.check()
            try:
                self.start()
                self.seed()
                self.swap()
            except Cut as cut:
                self.undo()
                raise FarmError(f"{cut}: {self.old.folder} serves as before", 130) from None
            except (FarmError, OSError) as fault:
                self.undo()
                raise FarmError(f"{fault}; {self.old.folder} serves as before") from fault
            try:
                self.end_old()
            except Cut as cut:
                raise FarmError(f"{cut}: {self.new.folder} serves, and the farm in {self.old.folder} still runs", 130) from None
        tally.say(f"{self.new.folder} serves, {self.old.folder} has ended, after {time.monotonic() - began:.1f} s")

    def check(self) -> None:
        """Whether the other folder's farm may take over; nothing is touched."""
        for front in FRONTS:
            places = [farm.config.get(front, "") for farm in (self.old, self.new)]
            if places[0] != places[1] or not places[0].startswith("unix:") or places[0].startswith("unix:/"):
                raise FarmError(f"`{front}` is {places[0]} and {places[1]}: it must be the same unix:NAME in both, so that the link leads to it")
        gone = maps_of(self.old).items() - maps_of(self.new).items()
        if gone:
            raise FarmError(f"{self.new.path}: it lacks the maps {', '.join(sorted(name for name, _ in gone))}, or has tiles of another size")
        process_at(self.old.address("control"))
        with contextlib.suppress(OSError):
            process_at(self.new.address("control"))
            raise FarmError(f"a farm runs in {self.new.folder} already: stop it first (farmctl -c {self.new.path} control stop)")
        lines = script.changing(script.kept_lines(self.new.folder))
        script.checked(self.new.tilefarm(), self.new.folder, self.new.path, lines)
        tally.say(f"{self.new.path}: all files are taken, and {len(lines)} lines")

    def start(self) -> None:
        """Starts the other, anew: what it saved is of the data that it had when it was stopped."""
        (self.new.tiles / SAVED).unlink(missing_ok=True)
        if self.plan.start:
            self.command(self.plan.start, self.new)
            tally.awaited(self.new.address("control"), self.plan.wait)
        else:
            self.run()
        tally.say(f"{self.new.folder}: {tally.tally(self.new.address('control'))}")

    def command(self, named: list[str], farm: Farm) -> None:
        words = [word.replace("%", farm.folder.name) for word in named]
        try:
            status = subprocess.run(words, stdin=subprocess.DEVNULL, timeout=self.plan.wait).returncode
        except subprocess.TimeoutExpired as fault:
            raise FarmError(f"{shlex.join(words)}: not through after {self.plan.wait:.0f} s") from fault
        except OSError as fault:
            raise FarmError(f"{words[0]}: {fault.strerror}") from fault
        if status != 0:
            raise FarmError(f"{shlex.join(words)}: status {status}")

    def run(self) -> None:
        """Starts it by `farmctl run`, which goes on when this has ended, and waits until it is ready."""
        words = [sys.executable, "-c", "import sys; from farmctl.cli import main; sys.exit(main())", "-c", str(self.new.path), "run"]
        with contextlib.closing(Ready()) as ready, (self.new.folder / "farm.out").open("a") as out:
            path = os.pathsep.join([str(Path(__file__).resolve().parents[1]), os.environ.get("PYTHONPATH", "")]).rstrip(os.pathsep)
            given = {"NOTIFY_SOCKET": ready.path, "PYTHONPATH": path, "TILEFARM": self.new.tilefarm()}
            made = subprocess.Popen(words, stdin=subprocess.DEVNULL, stdout=out, stderr=out, start_new_session=True,
                                    env={**os.environ, **given})  # fmt: skip
            ends = time.monotonic() + self.plan.wait
            while not ready.is_told():
                if made.poll() is not None:
                    raise FarmError(f"the farm in {self.new.folder} ended with status {made.returncode}: see farm.out there")
                if time.monotonic() > ends:
                    raise FarmError(f"the farm in {self.new.folder} is not ready after {self.plan.wait:.0f} s")

    def seed(self) -> None:
        """Has the other draw what was asked most, so that who comes after the turn does not wait for it."""
        if self.plan.log is None:
            return
        places: list[Metatile] = []
        for name in maps_of(self.new):
            places += of_log(name, self.plan.log, self.plan.most)
        drawn: list[None] = []
        Seeding(self.new.address("renderd"), places, OPEN, lambda: drawn.append(None), self.plan.wait).run()
        tally.say(f"drawn beforehand: {len(drawn)} metatiles that were asked most")

    def swap(self) -> None:
        """From here on each new connection is the other's."""
        beside = self.plan.link.with_name(f".{self.plan.link.name}.{os.getpid()}")
        where = os.path.relpath(self.new.folder, self.plan.link.parent.resolve())
        os.symlink(where, beside)
        try:
            os.replace(beside, self.plan.link)
        except BaseException:
            beside.unlink(missing_ok=True)
            raise
        tally.say(f"{self.plan.link} -> {where}")

    def undo(self) -> None:
        """Stops the other, where it was started."""
        with contextlib.suppress(OSError, FarmError):
            if self.plan.stop:
                self.command(self.plan.stop, self.new)
            client.control(self.new.address("control"), "stop")

    def drain(self, process: int, names: set[str]) -> None:
        """Waits until the first has no connection for a second, or until the operator's time for that is over."""
        ends, quiet, left = time.monotonic() + self.plan.drain, 0, None
        if connections(process, names) is None:
            tally.say(f"who is connected to {process} may be seen by its user and root alone: waiting {self.plan.drain:.0f} s")
        while quiet < QUIET and time.monotonic() < ends:
            left = connections(process, names)
            quiet = quiet + 1 if left == 0 else 0
            time.sleep(PAUSE)
        if left:
            tally.say(f"{left} connections at {self.old.folder} are open after {self.plan.drain:.0f} s: they are closed")

    def end_old(self) -> None:
        """Stops the first once its last connection is closed, and waits for its end."""
        process = process_at(self.old.address("control"))
        self.drain(process, {self.old.config[front].removeprefix("unix:") for front in FRONTS})
        if self.plan.stop:
            self.command(self.plan.stop, self.old)
        else:
            client.control(self.old.address("control"), "stop")
        ends = time.monotonic() + self.plan.wait
        while is_there(process):
            if time.monotonic() > ends:
                raise FarmError(f"{self.new.folder} serves, but the farm in {self.old.folder} has not ended after {self.plan.wait:.0f} s")
            time.sleep(PAUSE)
