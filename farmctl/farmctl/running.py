"""A parent of `tilefarm serve` that is what supervisors expect: ready when it says so, and stopped in order by a signal."""

from __future__ import annotations

import os
import resource
import signal
import socket
import subprocess
import threading
from types import FrameType

from farmctl import client, script, tally
from farmctl.errors import FarmError
from farmctl.farm import Farm
from farmctl.updating import TOUCHED

STARTS = 3600.0  # seconds; whoever starts it has a limit of its own
BY_SIGNAL = 128  # and its number, as a shell has it


def notify(state: str) -> None:
    """Tells systemd a state, where it listens (the protocol of `sd_notify`)."""
    name = os.environ.get("NOTIFY_SOCKET")
    if not name:
        return
    with socket.socket(socket.AF_UNIX, socket.SOCK_DGRAM) as made:
        made.connect("\0" + name[1:] if name.startswith("@") else name)
        made.sendall(state.encode())


def as_many_files_as_allowed() -> None:
    """Three fronts of 1,024 connections want more than the 1,024 files that a shell gives."""
    _, most = resource.getrlimit(resource.RLIMIT_NOFILE)
    resource.setrlimit(resource.RLIMIT_NOFILE, (most, most))


class Run:
    """One run of a farm."""

    def __init__(self, farm: Farm, grace: float) -> None:
        self.farm = farm
        self.grace = grace
        self.address = farm.address("control")
        self.stops = threading.Event()
        self.child: subprocess.Popen[bytes] | None = None

    def until_its_end(self) -> int:
        for name in (signal.SIGTERM, signal.SIGINT):
            signal.signal(name, self.told_to_stop)
        as_many_files_as_allowed()
        program = self.farm.tilefarm()
        try:
            # in a group of its own, so that Ctrl-C comes to this alone; what clients do not read is given back, and what is
            # large has large pages
            self.child = subprocess.Popen(
                [program, "serve", str(self.farm.path)],
                cwd=self.farm.folder,
                stdin=subprocess.DEVNULL,
                process_group=0,
                env={"MALLOC_MMAP_THRESHOLD_": "131072", "GLIBC_TUNABLES": "glibc.malloc.hugetlb=1", **os.environ},
            )
        except OSError as fault:
            raise FarmError(f"{program}: {fault.strerror}") from fault
        for work in (self.begin, self.stop_when_told):
            threading.Thread(target=work, daemon=True).start()
        status = self.child.wait()
        return status if status >= 0 else BY_SIGNAL - status

    def told_to_stop(self, number: int, frame: FrameType | None) -> None:
        """The first signal asks for an orderly end, the next one for an end."""
        if self.stops.is_set() and self.child:
            self.child.kill()
        self.stops.set()

    def is_there(self) -> bool:
        return self.child is not None and self.child.poll() is None

    def begin(self) -> None:
        """What is to be done once it answers."""
        try:
            now = tally.awaited(self.address, STARTS, self.is_there)
            for line in tally.send_again(self.address, script.kept_lines(self.farm.folder), now):
                tally.say(f"farmctl run: sent again: {line}")
        except (FarmError, OSError) as fault:
            if self.is_there():
                tally.say(f"farmctl run: {fault}")
            return
        if self.farm.tiles.is_dir():
            (self.farm.tiles / TOUCHED).touch()
        notify("READY=1")

    def stop_when_told(self) -> None:
        """Sends `stop`. Where the farm does not listen yet it has nothing to keep: its start is ended."""
        self.stops.wait()
        notify("STOPPING=1")
        try:
            client.control(self.address, "stop", seconds=self.grace)
        except (OSError, ValueError) as fault:
            tally.say(f"farmctl run: {self.address}: {fault}: ended out of order")
            self.child.terminate()
        try:
            self.child.wait(self.grace)
        except subprocess.TimeoutExpired:
            tally.say(f"farmctl run: not through {self.grace:.0f} s after `stop`: ended out of order")
            self.child.kill()
