#!/usr/bin/env python3
"""Each call of the program to the system goes wrong in turn: the program runs once for each, and nothing wrong may come of it.

    python3 oracle/faults.py [--gate | --within SECONDS] [PROGRAM..]

PROGRAM is the built one, or several; where none is named, those that `rt ci` built. `faults.c`, which `cc` compiles here, is
preloaded to it and has one call, by its kind and number, fail with an error that a system may give, be cut short, be told as
failed though it was made, come late, or end the program before or behind it, as `kill -9` does. The runs are

    render, meta     a drawing with a raster file, a container
    script, load     asks, drawings, a renew and fetches over a folder that has containers; the work that `load` draws
    serve            four workers, clients at all three fronts, a renew meanwhile, over a farm that was saved

Of the first four what is put on both streams is whole, or the status and the line tell what failed, and it is a beginning of
what the second implementation puts, or what that puts where the same call of the store fails. Of `serve` each answer is
one that the rules allow: a tile sent as clean is of no version before the last renew that was answered. Behind each
run each path of the folder has a whole container, the old one or the new one, and where it had one it has one. Behind
each `serve` another goes on from the folder with nothing in its way, and each tile that it calls clean is, byte for byte,
the drawing of the data that it has.

With --gate it is a fixed part of that, and after 110 seconds the rest, which is spread over all of it, is left out, but for
180 runs of each program that are always made; --within says another time. The last line is `N passed, M failed`; the status is 1
where one failed. It needs Python 3 and a C compiler (`cc`, glibc).
"""

import collections
import concurrent.futures
import errno
import hashlib
import itertools
import json
import os
import random
import shutil
import signal
import socket
import subprocess
import sys
import tempfile
import threading
import time

sys.dont_write_bytecode = True
import farm as farms  # noqa: E402
import patience  # noqa: E402
import serve as second  # noqa: E402
import serve_cases as wanted  # noqa: E402
import tilefarm  # noqa: E402

HERE = os.path.dirname(os.path.abspath(__file__))
TOP = os.path.dirname(HERE)
BUILT = [os.path.join(TOP, "crates", "tilefarm", "out", name) for name in ("tilefarm", "tilefarm.by-rattle")]
EACH = 20  # seconds for one wait, by a clock that goes slower the busier the machine is
NO_THREAD = 40  # seconds for one where a thread is wanting, which is told after twenty
GATE = 110  # seconds for a fixed part, of the day
LEAST = 180  # runs of each program that are made in any case
AT_ONCE = min(os.cpu_count() or 1, 4)
LINES = {5: "tilefarm: out of memory\n", 6: "tilefarm: the store failed\n", 7: "tilefarm: the ports failed\n"}

# --- What may go wrong with each kind of call -------------------------------------------------------------------

FAILS = {
    "open": "EMFILE EACCES EIO EINTR", "openat": "EMFILE EIO", "read": "EIO EINTR", "write": "ENOSPC EIO EINTR",
    "lseek": "EIO", "statx": "EACCES EIO", "rename": "EXDEV EACCES ENOSPC", "link": "EPERM EXDEV EMLINK",
    "unlink": "EACCES EIO", "unlinkat": "EACCES", "mkdir": "EACCES ENOSPC", "getdents64": "EIO", "fsync": "EIO",
    "fdatasync": "EIO ENOSPC", "flock": "ENOLCK EWOULDBLOCK", "fcntl": "EMFILE", "ftruncate": "EIO", "socket": "EMFILE",
    "bind": "EADDRINUSE", "listen": "EADDRINUSE", "accept4": "ECONNABORTED EMFILE EINTR", "connect": "ECONNREFUSED",
    "setsockopt": "ENOBUFS", "ioctl": "ENOMEM", "epoll_create1": "EMFILE", "epoll_ctl": "ENOMEM", "epoll_wait": "EINTR",
    "eventfd": "EMFILE", "nanosleep": "EINTR", "send": "ECONNRESET EPIPE EINTR", "recv": "ECONNRESET EINTR",
    "pthread_create": "EAGAIN",
}  # fmt: skip
DONE = ("close", "rename", "link", "unlink", "mkdir", "fsync", "fdatasync")  # made and told as failed, as over a network
SHORT = ("read", "write", "send", "recv")
STORE = ("open", "openat", "read", "write", "lseek", "statx", "rename", "link", "unlink", "unlinkat", "mkdir", "getdents64",
         "fsync", "fdatasync", "flock", "close")  # fmt: skip
ENDS = {"open": (3, 6), "openat": (6,), "read": (3, 6), "lseek": (3, 6), "statx": (3, 6), "write": (4, 6), "pthread_create": (5,)}


class Fault:
    """What goes wrong in a run: COUNT calls of the kind from this one on, 0 for each that follows."""

    def __init__(self, kind, number, what, value=0, count=1):
        self.kind, self.number, self.what, self.value, self.count = kind, number, what, value, count

    def text(self):
        return "%s %d %d %s %d" % (self.kind, self.number, self.count, self.what, self.value)

    def kills(self):
        return self.what in ("kill", "killed")

    def changes_nothing(self):
        return self.what in ("wait", "short", "none") or self.value == errno.EINTR

    def ends(self):
        """With which statuses, beside 0, the program may end."""
        if self.value == errno.ENOMEM:
            return 5, 7
        return () if self.changes_nothing() else ENDS.get(self.kind, (6,) if self.kind in STORE else (7,))


NONE = Fault("none", 0, "none")
CLOCK = threading.Lock()


def now():
    """The seconds by which waits are counted."""
    with CLOCK:
        return patience.now()


def finished(process, seconds=EACH):
    """Status and both streams of a program's end."""
    end = now() + seconds
    while True:
        try:
            out, err = process.communicate(timeout=1)
            return process.returncode, out, err.decode("utf-8", "replace")
        except subprocess.TimeoutExpired:
            if now() > end:
                raise Late("no end within %d seconds" % seconds)


def faults_of(kind, number, is_short=False):
    """Each thing that may go wrong with this call; the first of them where it is to be short."""
    made = [Fault(kind, number, "fail", getattr(errno, name)) for name in FAILS.get(kind, "").split()]
    made += [Fault(kind, number, "short")] * (kind in SHORT) + [Fault(kind, number, "done", errno.EIO)] * (kind in DONE)
    if kind in STORE and kind != "close":
        made.append(Fault(kind, number, "fail", made[0].value, 0))
    return made[:1] if is_short else made + [Fault(kind, number, "wait", 20)]


# --- The world: stripes that grow with each version -------------------------------------------------------------

TILE = 16
STEP, EVERY, WIDE = 2**24, 2**28, 2**30
HAD = {(3, 0, 0): 1, (4, 0, 0): 0, (5, 0, 0): 1, (5, 8, 0): 1}  # containers that the folder has, and their versions
SPOTS = list(HAD) + [(4, 8, 0), (5, 16, 0), (5, 24, 0), (5, 0, 8)]
MOST = 2  # the greatest version


def stripes(version):
    ring = lambda at: [[at, 0], [at + (version + 1) * STEP, 0], [at + (version + 1) * STEP, WIDE], [at, WIDE]]
    return [{"id": 1 + number, "geometry": {"polygon": [ring(number * EVERY)]}} for number in range(WIDE // EVERY)]


def drawn(version, z, x, side=TILE):
    """A tile of the version: a pixel has the colour of its centre, all rows are alike."""
    pixel = 2 ** (30 - z) // side
    centres = [x * 2 ** (30 - z) + column * pixel + pixel // 2 for column in range(side)]
    row = b"".join(wanted.RED if centre % EVERY < (version + 1) * STEP else wanted.WHITE for centre in centres)
    return b"P6\n%d %d\n255\n" % (side, side) + row * side


def container(version, spot):
    z, x, y = spot
    tiles = {(x + column, y + row): drawn(version, z, x + column) for column in range(8) for row in range(8)}
    return second.container(z, x, y, tiles)


CONTAINERS = {spot: [container(version, spot) for version in range(MOST + 1)] for spot in SPOTS}
SCRIPT = """ask 0 render default 3 0 0
claim 0
finish 0
collect 0
fetch default 3 1 1
renew 1
ask 1 render default 3 0 0
ask 1 render default 4 8 0
claim 0
claim 0
finish 1
finish 2
collect 0
collect 0
fetch default 3 1 1
fetch default 4 9 1
tally
"""
GRID = b"P6\n# a raster file\n2 2\n255\n" + wanted.RED + wanted.BLUE + wanted.WHITE + wanted.RED
RASTER = """{"rasters":[{"name":"r","file":"grid","west":0,"north":0,"pixel":268435456}],"styles":[{"name":"s","rules":[{
"symbolizers":[{"symbolizer":"RasterSymbolizer","opacity":"0.5"}]}]}],"layers":[{"name":"l","source":"r","styles":["s"]}]}"""


def files():
    """The files of a farm, by their names."""
    config = {"maps": [{"name": "default", "style": "red.style", "tile": TILE}], "data": "data", "workers": 4, "resume": True,
              "updates": ["update1", "update2"], "expiries": ["list"], "renderd": "unix:r", "tiles": "unix:t", "control": "unix:c"}
    made = {"config": json.dumps(config), "script": SCRIPT, "list": "5/16/0\n", "red.style": wanted.FILES["red.style"]}
    made["data"] = json.dumps({"units": "world", "layers": [{"name": "land", "features": stripes(0)}]})
    for number in (1, 2):
        changes = [{"layer": "land", "put": stripes(number)}]
        made["update%d" % number] = json.dumps({"units": "world", "changes": changes})
    made.update({"raster.style": RASTER, "grid": GRID})
    made["held.meta"] = CONTAINERS[3, 0, 0][0]
    return {name: text if isinstance(text, bytes) else text.encode() for name, text in made.items()}


class Wrong(Exception):
    """Something came that may not."""


class Late(Wrong):
    """Something did not come in time."""


def holds(is_so, what, *values):
    if not is_so:
        raise Wrong(what % values)


# --- The folder -------------------------------------------------------------------------------------------------


def made_folder(folder):
    """The folder that each run begins with: a farm drew two versions there, and was stopped."""
    for name, content in files().items():
        with open(os.path.join(folder, name), "wb") as out:
            out.write(content)
    for spot, version in HAD.items():
        name = os.path.join(folder, second.path_of("default", *spot))
        os.makedirs(os.path.dirname(name), exist_ok=True)
        with open(name, "wb") as out:
            out.write(CONTAINERS[spot][version])
    kept = {(0,) + spot: {"version": 1, "clean": True} for spot, version in HAD.items() if version == 1}
    with open(os.path.join(folder, second.SAVED), "wb") as out:
        out.write(second.saved_text([0], [(1, 0)], kept))


def content_of(*parts):
    try:
        with open(os.path.join(*parts), "rb") as file:
            return file.read()
    except FileNotFoundError:
        return None


def check_folder(folder, links, versions=range(MOST + 1)):
    """Each path has a whole container of a version that may be there; where the folder had one, it has one, unless the
    program is one that does not link what it replaces: between its two renames the path has none."""
    paths = {second.path_of("default", *spot): spot for spot in SPOTS}
    for below, _, names in os.walk(os.path.join(folder, "tiles", "default")):
        for name in names:
            path = os.path.relpath(os.path.join(below, name), folder)
            holds(path in paths or name.endswith(".meta.new"), "there is a file %s", path)
    for path, spot in paths.items():
        content = content_of(folder, path)
        if content is None:
            holds(spot not in HAD or not links, "%s is gone", path)
        else:
            holds(content in [CONTAINERS[spot][version] for version in versions], "%s is not whole: %d bytes", path, len(content))


def check_staged(folder):
    """Of what was staged nothing is left."""
    left = os.listdir(os.path.join(folder, "tiles", ".new"))
    holds(not left, "of what was staged there is left: %s", left)


# --- One program with its shim ----------------------------------------------------------------------------------


class Shim:
    """The program and what is preloaded to it."""

    def __init__(self, program, folder):
        self.program, self.library = os.path.join(folder, "tilefarm"), os.path.join(folder, "faults.so")
        shutil.copyfile(program, self.program)
        os.chmod(self.program, 0o755)
        subprocess.run(["cc", "-O2", "-shared", "-fPIC", "-o", self.library, os.path.join(HERE, "faults.c")], check=True)
        self.links = False  # whether it links what it replaces, so that no path is ever without a file

    def environment(self, folder, fault):
        names = {name.upper(): os.path.join(folder, name) for name in ("hit", "calls")}
        return dict(os.environ, LD_PRELOAD=self.library, FAULT=fault.text(), **names)

    def ran(self, words, folder, fault):
        """Status and both streams of a command."""
        process = subprocess.Popen([self.program, *words], cwd=folder, env=self.environment(folder, fault), stdin=subprocess.DEVNULL,
                                   stdout=subprocess.PIPE, stderr=subprocess.PIPE)  # fmt: skip
        try:
            return finished(process)
        finally:
            process.kill()


def calls_of(folder):
    """How many calls of each kind a run made, and of all."""
    with open(os.path.join(folder, "calls")) as counted:
        return {name: int(number) for name, number in (line.split() for line in counted)}


# --- Commands ---------------------------------------------------------------------------------------------------


def suffixes(length):
    """Calls that fail: none, one, or one and each that follows."""
    return [()] + [(at,) for at in range(length)] + [tuple(range(at, length)) for at in range(length - 1)]


class Command:
    """A command that ends by itself, and what may come of it."""

    def __init__(self, words, stores=None):
        self.words, self.stores = words, stores
        self.answers = {}  # what is put on out, and whether the store failed in it

    def prepare(self, folder):
        """What the second implementation puts, whichever calls of the store fail."""
        for puts, gets in itertools.product(*map(suffixes, self.stores or (0, 0))):
            run = farms.run(farms.Files(folder), self.words, puts, gets) if self.stores else tilefarm.run(folder, self.words)
            holds(run[2] in (0, 6), "%s: the second implementation ends with %s", self.words, run)
            self.answers[run[0]] = run[2]

    def check(self, shim, folder, fault):
        status, out, err = shim.ran(self.words, folder, fault)
        told = "status %d, %d bytes, %.200s" % (status, len(out), err)
        is_beginning = any(answer.startswith(out) for answer in self.answers)
        if fault.kills() and status == -signal.SIGKILL or status == 4:
            holds((status < 0 or 4 in fault.ends()) and is_beginning and err == "", "%s", told)
        elif status == 3:
            name = err[len("tilefarm: ") : -len(": cannot be read\n")]
            holds(3 in fault.ends() and out == b"" and name in files() and err == "tilefarm: %s: cannot be read\n" % name, "%s", told)
        else:
            holds(self.answers.get(out) == status and err == LINES.get(status, ""), "%s", told)
            holds(status == 0 or 6 in fault.ends(), "%s", told)
        check_folder(folder, shim.links)
        return status


def stored(folder):
    """What stands in each container below a folder, by its path."""
    found = {}
    for below, _, names in os.walk(os.path.join(folder, "tiles", "default")):
        for name in names:
            content = content_of(below, name) if name.endswith(".meta") else b""
            found[os.path.relpath(os.path.join(below, name), folder)] = hashlib.sha256(content).digest()
    return found


class Load(Command):
    """The command that draws its own work: what it fetched is told by lengths and sums, and it stores what it stores else."""

    def prepare(self, folder):
        pass

    def check(self, shim, folder, fault):
        ran = shim.ran(self.words, folder, fault)
        if fault is NONE:
            self.whole, self.stored = [int(word) for word in ran[1].split()[1::2]], stored(folder)
            self.length = self.whole[3] // 32
        status = self.line(fault, *ran)
        for path, content in stored(folder).items():
            holds(path.endswith(".meta.new") or self.stored.get(path) == content, "%s is another", path)
        return status

    def line(self, fault, status, out, err):
        told = "status %d, %.100r, %.200s" % (status, out, err)
        numbers = [int(word) for word in out.split()[1::2]]
        if status in (4, -signal.SIGKILL):
            holds((status < 0) == fault.kills() and len(numbers) < 6 and err == "", "%s", told)
            return status
        holds(status == 0 or status == 6 and 6 in fault.ends(), "%s", told)
        holds(err == LINES.get(status, ""), "%s", told)
        clean = numbers[2]
        holds(numbers[:2] == self.whole[:2] and numbers[3] == clean * self.length, "%s", told)
        holds((clean == 32) == (status == 0) and (numbers == self.whole if clean == 32 else numbers[4] < self.whole[4]), "%s", told)
        return status


# --- A farm that serves -----------------------------------------------------------------------------------------


class Server:
    """A running `serve` in a folder, with or without something in its way."""

    def __init__(self, shim, folder, fault=None, config="config"):
        self.folder = folder
        env = shim.environment(folder, fault) if fault else dict(os.environ)
        self.patience = NO_THREAD if fault and fault.kind == "pthread_create" else EACH
        self.process = subprocess.Popen([shim.program, "serve", config], cwd=folder, env=env, stdin=subprocess.DEVNULL,
                                        stdout=subprocess.PIPE, stderr=subprocess.PIPE)  # fmt: skip

    def connected(self, name):
        made = socket.socket(socket.AF_UNIX)
        try:
            made.settimeout(self.patience)
            made.connect(os.path.join(self.folder, name))
        except OSError:
            made.close()
            raise
        return made

    def listens(self, names=("r", "t", "c")):
        """Whether it listens at all three fronts; not where it has ended."""
        end = now() + self.patience
        for name in names:
            while True:
                try:
                    self.connected(name).close()
                    break
                except OSError:
                    if self.process.poll() is not None:
                        return False
                    if now() > end:
                        raise Late("it does not listen")
                    time.sleep(0.003)
        return True

    def told(self, name, sent, is_whole=lambda got: False):
        """What comes on a connection of its own, until it is whole, it ends or is lost."""
        got, end = b"", now() + self.patience
        try:
            with self.connected(name) as made:
                made.sendall(sent)
                made.settimeout(1)
                while not is_whole(got):
                    try:
                        piece = made.recv(65536)
                    except socket.timeout:
                        if now() > end:
                            raise Late("no answer to %.100r within %d seconds" % (sent, self.patience))
                        continue
                    if not piece:
                        break
                    got += piece
        except OSError:
            pass
        return got

    def line(self, line, name="c"):
        """The answer to a control line, or nothing where the connection was lost."""
        return self.told(name, line.encode() + b"\n", lambda got: got.endswith(b"\n")).decode()

    def ended(self, name="c"):
        """Status and both streams of its end, for which it is told to stop as often as it does not hear."""
        for _ in range(5):
            if self.line("stop", name) or self.process.poll() is not None:
                break
        status, out, err = finished(self.process, self.patience)
        return status, out.decode(), err

    def kill(self):
        if self.process.poll() is None:
            self.process.kill()
        self.process.communicate()


def target(spot, more=""):
    """The way of the last tile of a metatile."""
    z, x, y = spot
    side = min(8, 2**z)
    return "/default/%d/%d/%d.ppm%s" % (z, x + side - 1, y + side - 1, more)


class Play:
    """Clients at all fronts of a farm at once, and what each of them is told."""

    def __init__(self, server):
        self.server, self.wrong, self.least, self.most = server, [], 1, 2

    def client(self, call):
        """A thread of a client; what comes wrong is kept."""

        def run():
            try:
                call()
            except Wrong as wrong:
                self.wrong.append(wrong)

        made = threading.Thread(target=run)
        made.start()
        return made

    def run(self):
        clients = [self.client(call) for call in (self.renders, self.renews, self.looks, self.looks)]
        for made in clients:
            made.join()
        for spot in SPOTS:
            self.tile(spot)
        if self.wrong:
            raise self.wrong[0]

    def tile(self, spot):
        """A tile is the drawing of its version, and of the newest where it is clean; or it is told that there is none."""
        z, x, _ = spot
        least = self.least
        got = self.server.told("t", wanted.get(target(spot)))
        last = x + min(8, 2**z) - 1
        may = [wanted.tile(drawn(version, z, last), version) for version in range(least, self.most + 1)]
        may += [wanted.tile(drawn(version, z, last), version, "dirty") for version in range(self.most + 1)]
        told = any(page.startswith(got) for page in may + [wanted.NOT_FOUND, wanted.FAILED])
        holds(told, "%s since version %d: %.300r", target(spot), least, got)
        return got in may

    def looks(self):
        for spot in SPOTS[:4]:
            self.tile(spot)
            got = self.server.told("t", wanted.get(target(spot, "/status")))
            states = [b"missing"] + [b"%s %d" % (word, version) for word in (b"clean", b"dirty") for version in range(self.most + 1)]
            may = [wanted.plain(200, "OK", state.decode() + "\n") for state in states]
            holds(any(page.startswith(got) for page in may), "a status: %.300r", got)

    def renders(self):
        """Drawings for each worker, asked for on one connection."""
        asked = SPOTS[4:]
        got = self.server.told("r", b"".join(wanted.message(wanted.RENDER, *spot) for spot in asked), lambda got: len(got) == 64 * len(asked))
        ends = [wanted.message(end, *spot) for end in (wanted.DONE, wanted.NOT_DONE) for spot in asked]
        replies = [got[at : at + 64] for at in range(0, len(got), 64)]
        is_told = lambda reply: any(end.startswith(reply) for end in ends)
        holds(all(map(is_told, replies)) and len({reply[8:20] for reply in replies}) == len(replies), "replies: %.600r", replies)

    def renews(self):
        told = self.server.line("renew 1")
        holds("version 2 renewed ".startswith(told[:18]), "renew: %r", told)
        if told.endswith("\n"):
            self.least = 2
        told = self.server.line("expire 0")
        holds("expired ".startswith(told[:8]), "expire: %r", told)


def check_end(server, fault):
    """The status and the line of an end in order, and the tally, are among those that the rules have."""
    status, out, err = server.ended()
    told = "status %d, %.200r, %.200r" % (status, out, err)
    if fault.kills() and status == -signal.SIGKILL:
        holds(err == "" and "asks".startswith(out[:4]), "%s", told)
    elif status == 3:
        name = err[len("tilefarm: ") : -len(": cannot be read\n")]
        holds(name in files() and out == "" and err == "tilefarm: %s: cannot be read\n" % name, "%s", told)
    else:
        holds(err == LINES.get(status, "") and (out == "" or out.startswith("asks ")), "%s", told)
    holds(status == 0 or status in fault.ends() or fault.kills() and status < 0, "%s", told)
    return status


def check_resumed(shim, folder, versions):
    """A farm that goes on from the folder, with nothing in its way: what it calls clean is the drawing of its data."""
    server = Server(shim, folder)
    try:
        if not server.listens():
            raise Wrong("the next does not begin: status %d, %s, %s" % server.ended())
        stats = server.line("stats").split(" ")
        holds(len(stats) == 8, "the next answers stats: %s", stats)
        version = int(stats[7])
        holds(version in versions, "the next begins with version %d", version)
        for spot in SPOTS:
            z, x, _ = spot
            state = server.told("t", wanted.get(target(spot, "/status")))
            may = [wanted.plain(200, "OK", text) for text in ("missing\n", "clean %d\n" % version)]
            holds(state in may[: 2 if version else 1], "%s of the next: %.300r", target(spot), state)
            got = server.told("t", wanted.get(target(spot)))
            page = wanted.tile(drawn(version, z, x + min(8, 2**z) - 1), version)
            holds(got == page, "%s of the next, %.20r: %.300r", target(spot), state[-9:], got)
        status = server.ended()
        holds(status[0] == 0 and status[2] == "", "the end of the next: %s", status)
    finally:
        server.kill()
    check_folder(folder, shim.links, [version])
    if shim.links:
        check_staged(folder)


class Serve:
    """A run of a farm, what its clients see, what it leaves, and the farm that goes on from it."""

    words = ["serve"]

    def prepare(self, folder):
        pass

    def check(self, shim, folder, fault):
        server, play = Server(shim, folder, fault), None
        try:
            if server.listens():
                play = Play(server)
                play.run()
            status = check_end(server, fault)
        finally:
            server.kill()
        check_folder(folder, shim.links)
        whole = status == 0 and play is not None
        if whole and fault.changes_nothing():
            check_staged(folder)
        check_resumed(shim, folder, range(play.least if whole else 0, play.most + 1 if play else 2))
        return status


# --- All of it --------------------------------------------------------------------------------------------------


class Run:
    """Runs of one command, each with a fault, each in a folder of its own."""

    def __init__(self, name, command, shim, base):
        self.name, self.command, self.shim, self.base = name, command, shim, base
        self.ends, self.wrong = collections.Counter(), 0

    def begin(self):
        """How many calls of each kind it makes with nothing in its way."""
        self.command.prepare(os.path.join(self.base, "whole"))
        folder = self.folder()
        holds(self.command.check(self.shim, folder, NONE) == 0, "%s: it fails with nothing in its way", self.name)
        self.calls = calls_of(folder)
        self.shim.links |= self.calls["link"] > 0
        shutil.rmtree(folder)

    def folder(self):
        return shutil.copytree(os.path.join(self.base, "whole"), tempfile.mkdtemp(dir=self.base), dirs_exist_ok=True)

    def tried(self, fault):
        """What one run ended with; what comes late is tried twice."""
        for is_last in (False, True):
            folder = self.folder()
            try:
                status = self.command.check(self.shim, folder, fault)
                is_reached = os.path.exists(os.path.join(folder, "hit"))
                return "status %d" % status if is_reached else "not reached"
            except Wrong as wrong:
                if is_last or not isinstance(wrong, Late):
                    return "WRONG  %s %s: %s" % (self.name, fault.text(), wrong)
            finally:
                shutil.rmtree(folder, ignore_errors=True)

    def count(self, end):
        if end.startswith("WRONG"):
            print(end, flush=True)
            self.wrong += 1
        else:
            self.ends[end] += 1

    def right(self):
        """How many runs were right in which a call went wrong."""
        return sum(self.ends.values()) - self.ends["not reached"]

    def tell(self):
        ends = ", ".join("%d %s" % (count, end) for end, count in sorted(self.ends.items()))
        print("%s: %d calls refused: %s, %d wrong" % (self.name, self.right() + self.wrong, ends, self.wrong), flush=True)


def all_faults(run):
    """Every call of a run, in every way; of `load`, whose runs are long, each eleventh call in one way."""
    step = 11 if run.name == "load" else 1
    for kind, count in run.calls.items():
        for number in range(1, count + 1, step):
            yield from (Fault(kind, number, what) for what in ("kill", "killed")) if kind == "all" else faults_of(kind, number, step > 1)


def fixed_faults(run):
    """A part of them that a gate has the time for."""
    for kind, count in run.calls.items():
        step = {"load": 40, "serve": 2 if kind in STORE else 20}.get(run.name, 1)
        if kind == "all":
            yield from (Fault(kind, number, "kill") for number in range(1, count + 1, 4 * step))
        elif kind != "pthread_create":
            yield from itertools.chain(*(faults_of(kind, number, True) for number in range(1, count + 1, step)))


def tried(program, base, faults, end):
    """All runs of a program until a time, or all that there are; how many were right, were wrong, and were left out."""
    os.mkdir(os.path.join(base, "whole"))
    os.mkdir(os.path.join(base, "whole", "tiles"))
    made_folder(os.path.join(base, "whole"))
    shim = Shim(program, base)
    commands = {"render": Command(["render", "raster.style", "data", "16", "0", "0", "0"]), "meta": Command(["meta", "held.meta"]),
                "script": Command(["script", "config", "script"], (3, 6)), "load": Load(["load", "7", "1"]), "serve": Serve()}  # fmt: skip
    runs = [Run(name, command, shim, base) for name, command in commands.items()]
    for run in runs:
        run.begin()
    tries = [(run, fault) for run in runs for fault in faults(run)]
    random.Random(1).shuffle(tries)

    def one(number, run, fault):
        return run, None if end and time.monotonic() > end and number >= LEAST else run.tried(fault)

    with concurrent.futures.ThreadPoolExecutor(AT_ONCE) as pool:
        left = 0
        for made in concurrent.futures.as_completed([pool.submit(one, number, *given) for number, given in enumerate(tries)]):
            run, told = made.result()
            if told is None:
                left += 1
            else:
                run.count(told)
    for run in runs:
        run.tell()
    return sum(run.right() for run in runs), sum(run.wrong for run in runs), left


def options(words):
    """Whether it is the gate's part, for how many seconds at most, and the programs."""
    if words[:1] == ["--gate"]:
        return True, GATE, words[1:]
    if words[:1] == ["--within"]:
        return False, int(words[1]), words[2:]
    return False, None, words


def main(words):
    is_gate, seconds, programs = options(words)
    programs = [os.path.abspath(name) for name in programs or BUILT if os.path.exists(name)]
    begun, passed, failed, left = time.monotonic(), 0, 0, 0
    for number, program in enumerate(programs, 1):
        end = begun + seconds * number / len(programs) if seconds else None
        with tempfile.TemporaryDirectory(prefix="faults-") as base:
            right, wrong, rest = tried(program, base, fixed_faults if is_gate else all_faults, end)
        passed, failed, left = passed + right, failed + wrong, left + rest
    if left:  # the machine is busy
        print("faults: %d more were left out, after %d seconds" % (left, seconds))
    print("faults: tried %d calls refused" % (passed + failed))
    print("%d passed, %d failed" % (passed, failed))
    return 1 if failed or not passed else 0


if __name__ == "__main__":
    sys.exit(main(sys.argv[1:]))
