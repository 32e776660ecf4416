"""A client of a running farm: renderd's messages, tiles over HTTP, and control lines.

An address is written as in a configuration: `tcp:127.0.0.1:7654`, or `unix:` and a path. Every wait is bounded by
`SECONDS`.
"""

from __future__ import annotations

import socket
import struct
from dataclasses import dataclass
from enum import IntEnum
from types import TracebackType
from typing import NamedTuple, Self

SECONDS = 60.0
LENGTHS = {1: 20, 2: 64, 3: 144}  # bytes of a message by its version


class Command(IntEnum):
    """Commands of renderd's protocol, as their numbers stand in a message."""

    IGNORE = 0
    RENDER = 1
    DIRTY = 2
    DONE = 3
    NOT_DONE = 4
    PRIO = 5
    BULK = 6
    LOW = 7


IGNORE, RENDER, DIRTY, DONE, NOT_DONE, PRIO, BULK, LOW = Command


class Tile(NamedTuple):
    """Zoom, column, row."""

    z: int
    x: int
    y: int


@dataclass(frozen=True)
class Answer:
    """A message of renderd's protocol; one of version 1 names no map."""

    command: Command
    tile: Tile
    map: str | None
    version: int


@dataclass(frozen=True)
class Page:
    """An answer over HTTP."""

    status: int
    reason: str
    heads: dict[str, str]
    body: bytes


def connect(address: str, seconds: float = SECONDS) -> socket.socket:
    """A new connection to an address of a configuration."""
    kind, _, place = address.partition(":")
    if kind == "unix":
        made = socket.socket(socket.AF_UNIX)
        made.settimeout(seconds)
        try:
            made.connect(place)
        except BaseException:
            made.close()
            raise
        return made
    host, colon, port = place.rpartition(":")
    if kind != "tcp" or not colon or not port.isdecimal():
        raise ValueError(f"{address}: no address (tcp:a.b.c.d:PORT or unix:PATH)")
    return socket.create_connection((host, int(port)), timeout=seconds)


def message(command: Command, tile: Tile, name: str = "default", version: int = 2) -> bytes:
    """A message of renderd's protocol."""
    z, x, y = tile
    head = struct.pack("<5I", version, command, x, y, z)
    rest = struct.pack("41s", name.encode()) if version > 1 else b""
    return (head + rest).ljust(LENGTHS[version], b"\0")


def answer_of(data: bytes) -> Answer:
    version, command, x, y, z = struct.unpack_from("<5I", data)
    name = data[20:61].split(b"\0")[0].decode() if version > 1 else None
    return Answer(Command(command), Tile(z, x, y), name, version)


class _Connection:
    """What the two kinds of lasting connection share."""

    def __init__(self, address: str, seconds: float = SECONDS) -> None:
        self.socket = connect(address, seconds)

    def close(self) -> None:
        self.socket.close()

    def __enter__(self) -> Self:
        return self

    def __exit__(self, kind: type[BaseException] | None, fault: BaseException | None, trace: TracebackType | None) -> None:
        self.close()


class Renderd(_Connection):
    """One connection of renderd's protocol."""

    def send(self, *asks: tuple[Command, Tile], name: str = "default", version: int = 2) -> None:
        self.socket.sendall(b"".join(message(command, tile, name, version) for command, tile in asks))

    def receive(self, count: int) -> bytes:
        """As many bytes as that, or fewer where the farm closes the connection."""
        data = b""
        while len(data) < count:
            piece = self.socket.recv(min(count - len(data), 65536))
            if not piece:
                break
            data += piece
        return data

    def answer(self) -> Answer | None:
        """The next answer, or None where the farm has closed the connection."""
        head = self.receive(20)
        if len(head) < 20:
            return None
        return answer_of(head + self.receive(LENGTHS[struct.unpack_from("<I", head)[0]] - 20))

    def ask(self, command: Command, tile: Tile, name: str = "default", version: int = 2) -> Answer | None:
        self.send((command, tile), name=name, version=version)
        return self.answer()


class Control(_Connection):
    """One connection of control lines."""

    def __init__(self, address: str, seconds: float = SECONDS) -> None:
        super().__init__(address, seconds)
        self.file = self.socket.makefile("rb")

    def line(self, text: str) -> str:
        """The answer to a line, without its newline; empty where the farm has closed the connection."""
        self.socket.sendall(text.encode() + b"\n")
        return self.file.readline().decode().rstrip("\n")

    def close(self) -> None:
        self.file.close()
        super().close()


def control(address: str, *lines: str, seconds: float = SECONDS) -> list[str]:
    """The answers to lines on one new connection."""
    with Control(address, seconds) as made:
        return [made.line(line) for line in lines]


def sent(address: str, data: bytes, seconds: float = SECONDS) -> bytes:
    """All that the farm sends on a new connection after these bytes, until it closes it."""
    with connect(address, seconds) as made:
        made.sendall(data)
        found = b""
        while piece := made.recv(65536):
            found += piece
        return found


def page_of(data: bytes) -> Page:
    head, _, body = data.partition(b"\r\n\r\n")
    first, *lines = head.decode("latin-1").split("\r\n")
    heads = dict(line.split(": ", 1) for line in lines)
    _, status, reason = first.split(" ", 2)
    return Page(int(status), reason, heads, body)


def get(address: str, target: str, seconds: float = SECONDS) -> Page | None:
    """The answer to one GET; None where the farm closed the connection without one."""
    data = sent(address, f"GET {target} HTTP/1.1\r\nHost: farm\r\n\r\n".encode(), seconds)
    return page_of(data) if data else None
