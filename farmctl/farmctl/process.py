"""The process that listens at an address of this machine: its memory, its start, its open files."""

from __future__ import annotations

import os
import re
import socket
import struct
from dataclasses import dataclass
from pathlib import Path

from farmctl import client

PROC = Path("/proc")
LISTENS = "0A"  # the state of a socket in /proc/net/tcp
KIB = 1024


@dataclass(frozen=True)
class Process:
    """What the system tells of a running farm; None where it does not tell this user."""

    pid: int
    started: float | None
    memory: int | None
    most_memory: int | None
    open_files: int | None
    most_files: int | None


def of_unix(address: str) -> int | None:
    """Who listens at a Unix socket, as the system tells whoever connects."""
    try:
        with client.connect(address, 2) as made:
            pid, _, _ = struct.unpack("3i", made.getsockopt(socket.SOL_SOCKET, socket.SO_PEERCRED, 12))
    except OSError:
        return None
    return pid or None


def listening_inode(port: int) -> str | None:
    rows = (PROC / "net" / "tcp").read_text().splitlines()[1:]
    fields = (row.split() for row in rows)
    return next((row[9] for row in fields if row[3] == LISTENS and int(row[1].partition(":")[2], 16) == port), None)


def of_tcp(port: int) -> int | None:
    """Who listens at a port; the files of another user's process are seen by root alone."""
    try:
        inode = listening_inode(port)
    except OSError:
        return None
    wanted = f"socket:[{inode}]"
    for folder in PROC.glob("[0-9]*/fd"):
        try:
            if inode and any(os.readlink(file) == wanted for file in folder.iterdir()):
                return int(folder.parent.name)
        except OSError:
            continue  # it has ended, or is another's
    return None


def field(text: str, name: str) -> int | None:
    found = re.search(rf"^{name}\s*(\d+)", text, re.M)
    return int(found[1]) if found else None


def started(pid: int) -> float | None:
    """When the process began, in seconds of the clock."""
    try:
        ticks = int((PROC / str(pid) / "stat").read_text().rpartition(") ")[2].split()[19])
        begun = field((PROC / "stat").read_text(), "btime")
    except (OSError, IndexError, ValueError):
        return None
    return begun + ticks / os.sysconf("SC_CLK_TCK") if begun is not None else None


def process_at(address: str) -> Process | None:
    """The farm's process, where it runs on this machine and the system tells of it."""
    kind, _, place = address.partition(":")
    pid = of_unix(address) if kind == "unix" else of_tcp(int(place.rpartition(":")[2]))
    if pid is None:
        return None
    folder = PROC / str(pid)
    try:
        status, limits = (folder / "status").read_text(), (folder / "limits").read_text()
    except OSError:
        return None
    try:
        files: int | None = sum(1 for _ in (folder / "fd").iterdir())
    except OSError:
        files = None
    memory, most = field(status, "VmRSS:"), field(status, "VmHWM:")
    return Process(pid, started(pid), memory and memory * KIB, most and most * KIB, files, field(limits, "Max open files"))
