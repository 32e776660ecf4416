"""The gateway before a farm that says what the test wants."""

from __future__ import annotations

import asyncio
import contextlib
import importlib.util
import io
import socket
import tempfile
import unittest
from collections.abc import Mapping

MISSING = [name for name in ("aiohttp", "PIL", "numpy") if importlib.util.find_spec(name) is None]

if not MISSING:
    import aiohttp
    from aiohttp import web
    from PIL import Image

    from farmctl import gateway, pictures

RED, BLUE = b"\xff\0\0", b"\0\0\xff"
TILE = "/default/1/0/1.png"


def ppm(colour: bytes, size: int = 16) -> bytes:
    return b"P6\n%d %d\n255\n" % (size, size) + colour * size * size


class FakeFarm:
    """Answers each request with what was set last, and closes the connection, as the farm does."""

    def __init__(self) -> None:
        self.asked: list[str] = []
        self.answer = b""

    def tile(self, colour: bytes, state: str, version: int) -> None:
        body = ppm(colour)
        self.says(200, "OK", body, f"X-Tile: {state}\r\nX-Version: {version}\r\n")

    def says(self, status: int, reason: str, body: bytes, more: str = "") -> None:
        head = f"HTTP/1.1 {status} {reason}\r\nContent-Length: {len(body)}\r\n{more}Connection: close\r\n\r\n"
        self.answer = head.encode() + body

    async def serve(self, reader: asyncio.StreamReader, writer: asyncio.StreamWriter) -> None:
        head = await reader.readuntil(b"\r\n\r\n")
        self.asked.append(head.split(b" ")[1].decode())
        writer.write(self.answer)
        await writer.drain()
        writer.close()


@unittest.skipIf(MISSING, f"no {', '.join(MISSING)}")
class Answers(unittest.IsolatedAsyncioTestCase):
    chosen: dict[str, object] = {}

    async def asyncSetUp(self) -> None:
        self.farm = FakeFarm()
        self.server = await asyncio.start_server(self.farm.serve, "127.0.0.1", 0)
        port = self.server.sockets[0].getsockname()[1]
        maps = {"default": gateway.Map("default", 256, 18), "small": gateway.Map("small", 16, 3)}
        view = gateway.View(14, 47.3, 8.97)
        self.settings = gateway.Settings(farm=f"tcp:127.0.0.1:{port}", maps=maps, view=view, **self.chosen)
        self.runner = web.ServerRunner(web.Server(gateway.Gateway(self.settings).answer))
        await self.runner.setup()
        site = web.TCPSite(self.runner, "127.0.0.1", 0)
        await site.start()
        self.client = aiohttp.ClientSession(f"http://127.0.0.1:{self.runner.addresses[0][1]}")

    async def asyncTearDown(self) -> None:
        await self.client.close()
        await self.runner.cleanup()
        self.server.close()

    async def get(self, path: str = TILE, method: str = "GET", **heads: str) -> tuple[int, Mapping[str, str], bytes]:
        sent = {name.replace("_", "-"): value for name, value in heads.items()}
        async with self.client.request(method, path, headers=sent) as answer:
            return answer.status, answer.headers.copy(), await answer.read()  # whose names have no case

    async def test_a_clean_tile(self) -> None:
        self.farm.tile(RED, "clean", 7)
        status, heads, body = await self.get()
        self.assertEqual((status, heads["X-Tile"], heads["X-Version"]), (200, "clean", "7"))
        self.assertEqual((heads["Content-Type"], heads["Cache-Control"]), ("image/png", "no-cache"))
        self.assertNotIn("Age", heads)
        self.assertEqual(Image.open(io.BytesIO(body)).convert("RGB").tobytes(), RED * 256)
        self.assertEqual(self.farm.asked, ["/default/1/0/1.ppm"])

    async def test_a_client_that_has_it_is_told_so_after_the_farm_was_asked(self) -> None:
        self.farm.tile(RED, "clean", 7)
        _, heads, _ = await self.get()
        status, again, body = await self.get(If_None_Match=heads["ETag"])
        self.assertEqual((status, body, again["ETag"], again["X-Tile"]), (304, b"", heads["ETag"], "clean"))
        self.assertEqual(len(self.farm.asked), 2)
        self.assertEqual((await self.get(If_None_Match='"other", W/' + heads["ETag"]))[0], 304)

    async def test_what_a_client_has_is_no_longer_the_tile(self) -> None:
        self.farm.tile(RED, "clean", 7)
        _, heads, _ = await self.get()
        changes = {"of another version": (RED, "clean", 8), "dirty": (RED, "dirty", 7), "restyled": (BLUE, "clean", 7)}
        for what, told in changes.items():
            with self.subTest(what):
                self.farm.tile(*told)
                status, now, body = await self.get(If_None_Match=heads["ETag"])
                self.assertEqual((status, now["X-Tile"], now["X-Version"]), (200, told[1], str(told[2])))
                self.assertNotEqual(now["ETag"], heads["ETag"])
                self.assertEqual(Image.open(io.BytesIO(body)).convert("RGB").tobytes(), told[0] * 256)

    async def test_a_dirty_tile_is_kept_by_nobody(self) -> None:
        self.farm.tile(RED, "dirty", 7)
        status, heads, _ = await self.get()
        self.assertEqual((status, heads["X-Tile"], heads["Cache-Control"]), (200, "dirty", "no-store"))

    async def test_a_head_has_no_body(self) -> None:
        self.farm.tile(RED, "clean", 0)
        _, heads, body = await self.get()
        status, again, none = await self.get(method="HEAD")
        self.assertEqual((status, none, again["Content-Length"], again["ETag"]), (200, b"", str(len(body)), heads["ETag"]))

    async def test_what_is_no_tile_is_kept_by_nobody(self) -> None:
        self.farm.says(404, "Not Found", b"Not Found\n")
        asked = {TILE: 503, "/default/1/2/0.png": 404, "/default/19/0/0.png": 404, "/small/4/0/0.png": 404, "/other/0/0/0.png": 404,
                 "/default/01/0/0.png": 404, "/nothing": 404, "/leaflet/../../../etc/passwd": 404}  # fmt: skip
        for path, wanted in asked.items():
            with self.subTest(path):
                status, heads, _ = await self.get(path)
                self.assertEqual((status, heads["Cache-Control"]), (wanted, "no-store"))
        self.assertEqual(len(self.farm.asked), 1)
        self.assertEqual((await self.get(method="POST"))[0], 405)

    async def test_faults_of_the_farm(self) -> None:
        self.farm.tile(RED, "clean", 0)
        whole = self.farm.answer
        self.farm.says(500, "Internal Server Error", b"Internal Server Error\n")
        for what, answer in {"500": self.farm.answer, "nothing": b"", "half": whole[:-100], "rubbish": b"HTTP"}.items():
            with self.subTest(what):
                self.farm.answer = answer
                status, heads, _ = await self.get()
                self.assertEqual((status, heads["Cache-Control"], heads["Retry-After"]), (502, "no-store", "2"))
        self.server.close()
        self.assertEqual((await self.get())[0], 502)

    async def test_tilejson(self) -> None:
        async with self.client.get("/small.json", headers={"Host": "maps.example:81"}) as answer:
            told = await answer.json()
        self.assertEqual(told["tiles"], ["http://maps.example:81/small/{z}/{x}/{y}.png"])
        self.assertEqual((told["minzoom"], told["maxzoom"], told["tileSize"], told["scheme"]), (0, 3, 16, "xyz"))
        self.assertEqual((await self.get("/other.json"))[0], 404)

    async def test_the_page(self) -> None:
        status, heads, body = await self.get("/")
        self.assertEqual(status, 200)
        if heads["Content-Type"].startswith("text/html"):
            self.assertIn(b"L.tileLayer(url, options)", body)
            self.assertIn(b'"/default/{z}/{x}/{y}.png"', body)
            self.assertNotIn(b"/*", body)


@unittest.skipIf(MISSING, f"no {', '.join(MISSING)}")
class Kept(Answers):
    """With ages that the operator chose, all of the above holds but what a clean tile says of them."""

    chosen = {"keep": 1000.0, "max_age": 60, "shared_max_age": 20}
    test_a_clean_tile = test_a_client_that_has_it_is_told_so_after_the_farm_was_asked = None
    test_what_a_client_has_is_no_longer_the_tile = test_faults_of_the_farm = None

    async def test_a_clean_tile_is_kept_and_says_its_age(self) -> None:
        self.farm.tile(RED, "clean", 7)
        status, heads, body = await self.get()
        self.assertEqual((status, heads["Cache-Control"]), (200, "public, max-age=60, s-maxage=20"))
        self.farm.tile(BLUE, "clean", 8)
        self.assertEqual((await self.get())[2], body)
        self.assertGreaterEqual(int((await self.get())[1]["Age"]), 1)
        self.assertEqual(len(self.farm.asked), 1)

    async def test_a_dirty_tile_is_asked_for_again(self) -> None:
        self.farm.tile(RED, "dirty", 7)
        await self.get()
        self.farm.tile(BLUE, "clean", 8)
        self.assertEqual((await self.get())[1]["X-Version"], "8")


@unittest.skipIf(MISSING, f"no {', '.join(MISSING)}")
class Full(unittest.IsolatedAsyncioTestCase):
    async def test_who_finds_a_full_unix_address_waits(self) -> None:
        with tempfile.TemporaryDirectory() as folder, socket.socket(socket.AF_UNIX) as listens, contextlib.ExitStack() as others:
            listens.bind(f"{folder}/s")
            listens.listen(0)
            waiting = 0
            with contextlib.suppress(BlockingIOError):
                while True:
                    other = others.enter_context(socket.socket(socket.AF_UNIX, socket.SOCK_STREAM | socket.SOCK_NONBLOCK))
                    other.connect(f"{folder}/s")
                    waiting += 1
            asked = asyncio.ensure_future(gateway.fetched(f"unix:{folder}/s", "/x"))
            await asyncio.sleep(0.05)
            self.assertFalse(asked.done())
            farm = FakeFarm()
            farm.tile(RED, "clean", 3)
            for _ in range(waiting):
                listens.accept()[0].close()
            server = await asyncio.start_unix_server(farm.serve, sock=listens)
            self.assertEqual((await asked).heads["X-Version"], "3")
            server.close()


@unittest.skipIf(MISSING, f"no {', '.join(MISSING)}")
class Memory(unittest.TestCase):
    def test_the_least_used_goes(self) -> None:
        memory = gateway.Memory(10, len)
        for key in "abc":
            memory.put(key, b"1234")
        self.assertEqual((memory.get("a"), memory.get("b"), memory.bytes), (None, b"1234", 8))
        memory.put("d", b"1234")
        self.assertEqual((memory.get("c"), memory.get("b")), (None, b"1234"))
        memory.put("b", b"12345678901")
        self.assertEqual((memory.get("b"), memory.bytes), (None, 0))


@unittest.skipIf(MISSING, f"no {', '.join(MISSING)}")
class Pictures(unittest.TestCase):
    def test_each_pixel_stays(self) -> None:
        for count in (1, 2, 16, 17, 255, 256, 257, 4096):
            with self.subTest(count):
                colours = [bytes((n * 7 % 256, n * 31 % 256, n // 16)) for n in range(count)]
                raw = b"".join(colours[n * n % count] if n >= count else colours[n] for n in range(4096))
                made = Image.open(io.BytesIO(pictures.png_of(b"P6\n64 64\n255\n" + raw)))
                self.assertEqual(made.mode, "P" if len(set(colours)) <= 256 else "RGB")
                self.assertEqual(made.convert("RGB").tobytes(), raw)

    def test_what_is_no_picture(self) -> None:
        for text in (b"", b"P5\n1 1\n255\n\0", ppm(RED)[:-1], ppm(RED) + b"\0", b"P6\n1 1\n65535\n\0\0\0\0\0\0"):
            with self.assertRaises(ValueError):
                pictures.png_of(text)


if __name__ == "__main__":
    unittest.main()
