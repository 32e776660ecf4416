"""PNG tiles, a page and TileJSON over HTTP, out of a farm's front of tiles. Needs aiohttp, and Pillow and numpy (`pictures`).

No tile looks cleaner than it is. The farm is asked at each request, also where a client has the tile already: its `ETag` is of
the version and the state that the farm tells now, and of the pixels, since a restyle changes these alone. What is kept in
memory without asking is a clean tile, for as long as the operator chose, and is sent with its age. A dirty tile, and whatever
is no tile, is `no-store`.
"""

from __future__ import annotations

import asyncio
import hashlib
import html
import json
import logging
import math
import re
import socket
import time
from collections import OrderedDict
from collections.abc import Callable
from dataclasses import dataclass, field
from importlib import resources
from pathlib import Path
from typing import Generic, TypeVar

from aiohttp import web

from farmctl import client, pictures

SECONDS = 120  # for a drawing, and all that waits before it
END = 5.0  # seconds, for who is being answered when this ends
WAITING = 1024  # connections that nobody has taken yet
AGAIN = 0.01  # seconds
PIECE = 1 << 16  # bytes of an answer that are read at once
OPEN = 512  # connections to the farm, of all processes together; its front has 1,024
TILE = re.compile(r"/([a-z0-9_-]+)/(0|[1-9]\d?)/(0|[1-9]\d{0,6})/(0|[1-9]\d{0,6})\.png")
TILEJSON = re.compile(r"/([a-z0-9_-]+)\.json")
LEAFLET = Path("/usr/share/javascript/leaflet")  # Debian: libjs-leaflet
LIBRARY = re.compile(r"/leaflet/([a-z-]+\.(?:js|css)|images/[a-z0-9-]+\.png)")
NO_STORE = {"Cache-Control": "no-store"}
EDGE = 85.0511287798066  # degrees: the northern edge of the world's square
ACCESS = '%a - - %t "%r" %s %b "%{Referer}i" "%{User-Agent}i"'

Value = TypeVar("Value")


@dataclass(frozen=True)
class Map:
    """A map of the farm's configuration."""

    name: str
    tile: int
    maxzoom: int

    def holds(self, z: int, x: int, y: int) -> bool:
        return z <= self.maxzoom and x < 1 << z and y < 1 << z


@dataclass(frozen=True)
class View:
    """What the page and TileJSON show first."""

    zoom: int
    latitude: float
    longitude: float


@dataclass(frozen=True)
class Settings:
    """What the operator chose. Ages are in seconds."""

    farm: str  # the address of its front of tiles
    maps: dict[str, Map]
    view: View
    max_age: int = 0  # of a clean tile, with who asked for it
    shared_max_age: int | None = None  # the same, with a cache that serves many
    keep: float = 0.0  # of a clean tile, here
    memory: int = 64 << 20  # bytes of pictures, in each process
    open: int = OPEN  # connections to the farm, of each process
    origin: str = "*"  # whose pages may use the tiles
    public: str | None = None  # the address by which this is known outside
    access_log: str | None = None

    def cache_control(self) -> str:
        """For a clean tile."""
        shared = self.max_age if self.shared_max_age is None else self.shared_max_age
        if not self.max_age and not shared:
            return "no-cache"
        parts = ["public", f"max-age={self.max_age}"]
        return ", ".join(parts + ([f"s-maxage={shared}"] if shared != self.max_age else []))


@dataclass(frozen=True)
class Tile:
    """A tile as the farm told it at a time of the monotonic clock."""

    png: bytes
    state: str
    version: str
    etag: str
    told: float

    @property
    def is_clean(self) -> bool:
        return self.state == "clean"


class Refused(Exception):
    """No tile: a status, and a line for a person."""

    def __init__(self, status: int, text: str) -> None:
        super().__init__(text)
        self.status, self.text = status, text


@dataclass
class Memory(Generic[Value]):
    """Values by key, the least used of which goes where their bytes are too many."""

    most: int
    size_of: Callable[[Value], int]
    bytes: int = 0
    values: OrderedDict[str, Value] = field(default_factory=OrderedDict)

    def get(self, key: str) -> Value | None:
        if key in self.values:
            self.values.move_to_end(key)
        return self.values.get(key)

    def put(self, key: str, value: Value) -> None:
        self.drop(key)
        self.values[key] = value
        self.bytes += self.size_of(value)
        while self.bytes > self.most:
            self.drop(next(iter(self.values)))

    def drop(self, key: str) -> None:
        if (value := self.values.pop(key, None)) is not None:
            self.bytes -= self.size_of(value)


def place_of(address: str) -> tuple[socket.AddressFamily, str | tuple[str, int]]:
    """What a socket is told of an address `unix:PATH` or `tcp:a.b.c.d:PORT`."""
    kind, _, place = address.partition(":")
    if kind == "unix":
        return socket.AF_UNIX, place
    host, _, port = place.rpartition(":")
    return socket.AF_INET, (host, int(port))


async def connected(made: socket.socket, place: str | tuple[str, int]) -> None:
    """Connects. Where too many wait at a Unix address already the system does not keep one more, and says to come again."""
    if made.family != socket.AF_UNIX:
        return await asyncio.get_running_loop().sock_connect(made, place)
    while True:
        try:
            return made.connect(place)
        except BlockingIOError:
            await asyncio.sleep(AGAIN)


async def fetched(address: str, target: str) -> client.Page:
    """The farm's answer to a GET, on a connection that has no more than this one. Raises OSError where none comes.

    Sockets alone: asyncio's transports take twice the time for an answer that comes in a few pieces.
    """
    loop, pieces = asyncio.get_running_loop(), []
    family, place = place_of(address)
    with socket.socket(family, socket.SOCK_STREAM | socket.SOCK_NONBLOCK) as made:
        await connected(made, place)
        await loop.sock_sendall(made, f"GET {target} HTTP/1.1\r\nHost: farm\r\n\r\n".encode())
        while piece := await loop.sock_recv(made, PIECE):
            pieces.append(piece)
    if not pieces:
        raise ConnectionError("the farm closed the connection without an answer")
    return client.page_of(b"".join(pieces))


class Gateway:
    """What one process answers."""

    def __init__(self, settings: Settings) -> None:
        self.settings = settings
        self.places = asyncio.Semaphore(settings.open)
        self.pngs: Memory[bytes] = Memory(settings.memory, len)  # by the checksum of the pixels: no age is in this
        self.tiles: Memory[Tile] = Memory(settings.memory, lambda tile: len(tile.png))
        self.heads = {"X-Content-Type-Options": "nosniff"}
        if settings.origin:
            exposed = "X-Tile, X-Version, ETag, Age"
            self.heads |= {"Access-Control-Allow-Origin": settings.origin, "Access-Control-Expose-Headers": exposed}

    async def answer(self, request: web.BaseRequest) -> web.StreamResponse:
        """The answer to any request."""
        if request.method not in ("GET", "HEAD"):
            return self.text(405, "only GET and HEAD", {"Allow": "GET, HEAD"})
        try:
            if found := TILE.fullmatch(request.path):
                return await self.tile(request, found[1], int(found[2]), int(found[3]), int(found[4]))
            if request.path == "/":
                return self.page()
            if (found := TILEJSON.fullmatch(request.path)) and found[1] in self.settings.maps:
                return self.tilejson(request, self.settings.maps[found[1]])
            if (found := LIBRARY.fullmatch(request.path)) and (LEAFLET / found[1]).is_file():
                return web.FileResponse(LEAFLET / found[1], headers={"Cache-Control": "max-age=3600"})
        except Refused as refused:
            again = {"Retry-After": "2"} if refused.status in (502, 503, 504) else {}
            return self.text(refused.status, refused.text, again)
        return self.text(404, "no such page or map")

    def text(self, status: int, text: str, heads: dict[str, str] | None = None) -> web.Response:
        return web.Response(status=status, text=text + "\n", headers=self.heads | NO_STORE | (heads or {}))

    async def tile(self, request: web.BaseRequest, name: str, z: int, x: int, y: int) -> web.Response:
        chosen = self.settings.maps.get(name)
        if chosen is None or not chosen.holds(z, x, y):
            raise Refused(404, "no such map, or no such tile of it")
        key = f"/{name}/{z}/{x}/{y}"
        tile = self.kept(key) or await self.asked(key)
        heads = self.heads | {"ETag": tile.etag, "X-Tile": tile.state, "X-Version": tile.version}
        heads |= {"Cache-Control": self.settings.cache_control()} if tile.is_clean else NO_STORE
        if age := math.ceil(time.monotonic() - tile.told) if self.settings.keep else 0:
            heads["Age"] = str(age)
        if has(request, tile.etag):
            return web.Response(status=304, headers=heads)
        return web.Response(body=tile.png, content_type="image/png", headers=heads)

    def kept(self, key: str) -> Tile | None:
        """A clean tile that was told a short while ago, where the operator chose to keep them."""
        if not self.settings.keep:
            return None
        tile = self.tiles.get(key)
        return tile if tile and time.monotonic() - tile.told < self.settings.keep else None

    async def asked(self, key: str) -> Tile:
        """What the farm tells of a tile now."""
        began = time.monotonic()  # its age counts from here: the farm had told it by some later time
        self.tiles.drop(key)
        try:
            async with asyncio.timeout(SECONDS), self.places:
                page = await fetched(self.settings.farm, key + ".ppm")
        except TimeoutError:
            raise Refused(504, f"the farm did not answer within {SECONDS} seconds") from None
        except (OSError, ValueError) as fault:
            raise Refused(502, f"the farm does not answer: {fault}") from None
        if page.status == 404:  # the map has this tile: queues are full, or its drawing could not be kept
            raise Refused(503, "the tile is not shown yet: ask again")
        if page.status != 200:
            raise Refused(502, f"the farm: {page.status} {page.reason}")
        tile = self.drawn(page, began)
        if tile.is_clean and self.settings.keep:
            self.tiles.put(key, tile)
        return tile

    def drawn(self, page: client.Page, began: float) -> Tile:
        checksum = hashlib.sha1(page.body, usedforsecurity=False).hexdigest()
        png = self.pngs.get(checksum)
        if png is None:
            try:
                png = pictures.png_of(page.body)
            except ValueError as fault:
                raise Refused(502, f"the farm's picture: {fault}") from None
            self.pngs.put(checksum, png)
        state, version = page.heads.get("X-Tile", "dirty"), page.heads.get("X-Version", "0")
        return Tile(png, state, version, f'"{version}-{state}-{checksum}"', began)

    def tilejson(self, request: web.BaseRequest, chosen: Map) -> web.Response:
        """https://github.com/mapbox/tilejson-spec, version 3; `tileSize` is MapLibre's."""
        base = (self.settings.public or f"{request.scheme}://{request.host}").rstrip("/")
        view = self.settings.view
        told = {
            "tilejson": "3.0.0", "name": chosen.name, "scheme": "xyz", "format": "png", "tileSize": chosen.tile,
            "tiles": [f"{base}/{chosen.name}/{{z}}/{{x}}/{{y}}.png"], "minzoom": 0, "maxzoom": chosen.maxzoom,
            "bounds": [-180, -EDGE, 180, EDGE], "center": [view.longitude, view.latitude, view.zoom],
        }  # fmt: skip
        return web.json_response(told, headers=self.heads | {"Cache-Control": "no-cache"})

    def page(self) -> web.Response:
        """The map by Leaflet's own layer."""
        if not (LEAFLET / "leaflet.js").is_file():
            return self.text(200, "The page needs Leaflet: apt install libjs-leaflet. Tiles: " + ", ".join(self.patterns()))
        layers = [layer(chosen) for chosen in self.settings.maps.values()]
        view = self.settings.view
        text = resources.files("farmctl").joinpath("gateway.html").read_text(encoding="utf-8")
        for mark, value in {"LAYERS": layers, "ZOOM": view.zoom, "MIDDLE": [view.latitude, view.longitude]}.items():
            text = text.replace(f"/*{mark}*/", json.dumps(value))
        title = html.escape(", ".join(self.settings.maps))
        return web.Response(text=text.replace("TITLE", title), content_type="text/html", headers={"Cache-Control": "no-cache"})

    def patterns(self) -> list[str]:
        return [f"/{name}/{{z}}/{{x}}/{{y}}.png" for name in self.settings.maps]


def layer(chosen: Map) -> dict[str, object]:
    """A map as Leaflet is told of it. Its zooms count tiles of 256 pixels."""
    offset = 8 - int(math.log2(chosen.tile))
    options = {"tileSize": chosen.tile, "zoomOffset": offset, "minZoom": max(0, -offset), "maxZoom": chosen.maxzoom - offset}
    return {"name": chosen.name, "url": f"/{chosen.name}/{{z}}/{{x}}/{{y}}.png", "options": options}


def has(request: web.BaseRequest, etag: str) -> bool:
    """Whether who asks has the tile as it is told to be."""
    if "If-None-Match" not in request.headers:
        return False
    return any(tag.value in ("*", etag.strip('"')) for tag in request.if_none_match or ())


def maps_of(config: dict[str, object]) -> dict[str, Map]:
    """The maps of a configuration, which the farm itself has read without a fault."""
    found = config.get("maps")
    maps = [Map(each["name"], each.get("tile", 256), each.get("maxzoom", 18)) for each in found] if isinstance(found, list) else []
    return {each.name: each for each in maps}


def logger(path: str) -> logging.Logger:
    """Writes lines as other servers do; each is one write, so that processes may share the file."""
    made = logging.getLogger("farmctl.gateway")
    made.addHandler(logging.FileHandler(path))
    made.setLevel(logging.INFO)
    made.propagate = False
    return made


async def serve(settings: Settings, listening: socket.socket, ended: asyncio.Event) -> None:
    """One process: answers on the socket until the event."""
    log = logger(settings.access_log) if settings.access_log else None
    server = web.Server(Gateway(settings).answer, access_log=log, access_log_format=ACCESS)
    runner = web.ServerRunner(server)
    await runner.setup()
    await web.SockSite(runner, listening, backlog=1, shutdown_timeout=END).start()  # it takes one connection at a time, so that others get some
    listening.listen(WAITING)
    await ended.wait()
    await runner.cleanup()
