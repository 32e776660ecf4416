#!/usr/bin/env python3
"""The program on real sockets: a farm is started in a folder of its own, asked, stopped and started anew.

    python3 .ci/sockets.py

It is for the programs that `rt ci` built, as both compilers build them, or for those named as words. Each listens at
Unix sockets and on loopback; what it answers by renderd's protocol, over HTTP and to control lines, its tally and what
it saves are compared with what oracle/serve_cases.py says. So is what no contract speaks of: who is woken, who is heard beside one
that never stops, what stands on the disk, a full disk, too few threads. It needs Python 3 alone, takes half a minute for
each, most of it asleep, and leaves nothing behind. What it waits for comes in time by a clock that goes slower the busier
the machine is (patience.py). The status is 1 where something came that is not as wanted, where twice something did not come
in time, and where something could not be tried.
"""

import contextlib
import os
import resource
import shutil
import signal
import socket
import subprocess
import sys
import tempfile
import threading
import time

TOP = os.path.dirname(os.path.dirname(os.path.abspath(__file__)))
BUILT = [os.path.join(TOP, "crates", "tilefarm", "out", name) for name in ("tilefarm", "tilefarm.by-rattle")]
EACH = 8  # seconds for one wait, by the clock of patience.py
WHOLE = 300  # such seconds for all of a program
LOOK = 1  # second, after which it is seen whether a wait is over
LARGE = 512  # pixels of a large tile
BEGUN = 0.01  # seconds after which a drawing has begun; one of large tiles has not ended yet
NARROW = 40 << 20  # bytes of addresses: less than the stacks of MANY workers
MANY = 16
MOST = 3000  # metatiles of a saved text of more than 65,536 bytes
BUSY = 3  # connections on which something always comes: one that is read sooner than it is filled is not busy for a moment
CONNECTIONS = 66000
PATIENCE = 26  # seconds from its begin, more than the actors of a run wait for one that has no thread
SAVED = "tiles/farm.saved"
sys.dont_write_bytecode = True
sys.path.insert(0, os.path.join(TOP, "oracle"))
import patience  # noqa: E402
import serve_cases as wanted  # noqa: E402

NO_MEMORY = "tilefarm: out of memory\n"
counted = {"farms": 0, "connections": 0}


class Unlike(Exception):
    """Something came that is not as wanted."""


class Late(Exception):
    """Something did not come in time."""


class Taken(Exception):
    """The farm cannot listen: another program has taken the port meanwhile."""


def same(what, seen, wants):
    if seen != wants:
        raise Unlike("%s: %.200r, not %.200r" % (what, seen, wants))


def free_port():
    with socket.socket() as made:
        made.bind(("127.0.0.1", 0))
        return made.getsockname()[1]


def connected(address):
    """A connection; where as many wait to be accepted as may, this one waits too."""
    end = patience.now() + EACH
    while True:
        made = socket.socket(socket.AF_UNIX if isinstance(address, str) else socket.AF_INET)
        try:
            made.settimeout(EACH)
            made.connect(address)
            made.settimeout(LOOK)
            counted["connections"] += 1
            return made
        except (BlockingIOError, socket.timeout):
            made.close()
            if patience.now() > end:
                raise Late("that a connection is taken")
            time.sleep(0.01)
        except OSError:
            made.close()
            raise


def has_sockets():
    """Whether this machine gives a program loopback and Unix sockets at all."""
    try:
        for kind, address in ((socket.AF_UNIX, "tried"), (socket.AF_INET, ("127.0.0.1", 0))):
            with socket.socket(kind) as made:
                made.bind(address)
                made.listen()
                connected(made.getsockname()).close()
        return True
    except OSError:
        return False


class Farm:
    """A running farm in the folder that this script is in. Names of sockets are short, whatever the folder's is."""

    renderd, control = "renderd.sock", "control.sock"

    def __init__(self, program, limit=None, user=None, by_tcp=False, **more):
        self.tiles = ("127.0.0.1", free_port())
        if by_tcp:
            self.renderd, self.control = ("127.0.0.1", free_port()), ("127.0.0.1", free_port())
        said = lambda it: "unix:" + it if isinstance(it, str) else "tcp:%s:%d" % it
        name = wanted.config("sockets", renderd=said(self.renderd), tiles=said(self.tiles), control=said(self.control),
                             **{"updates": ["west.update"], **more})  # fmt: skip
        content = wanted.FILES.pop(name)
        for name, content in [(name, content)] + [(it, wanted.FILES[it]) for it in ("red.style", "square.data", "west.update")]:
            with open(name, "wb") as out:
                out.write(content)
        narrow = (lambda: resource.setrlimit(resource.RLIMIT_AS, (limit, limit))) if limit else None
        self.began = patience.now()
        counted["farms"] += 1
        self.process = subprocess.Popen([program, "serve", "sockets.config"], stdin=subprocess.DEVNULL, stdout=subprocess.PIPE,
                                        stderr=subprocess.PIPE, preexec_fn=narrow, user=user)  # fmt: skip

    def listens(self):
        """Waits until all three ports listen."""
        end = patience.now() + EACH
        for address in (self.renderd, self.tiles, self.control):
            while True:
                try:
                    connected(address).close()
                    break
                except OSError:
                    if self.process.poll() is not None:
                        ended = self.process.returncode, self.process.stderr.read()
                        if ended == (7, wanted.PORTS_FAILED.encode()):
                            raise Taken()
                        raise Unlike("the start: status %d, %r" % ended)
                    if patience.now() > end:
                        raise Late("the start")
                    time.sleep(0.02)

    def busy(self):
        """For how many seconds processors have worked for it."""
        with open("/proc/%d/stat" % self.process.pid) as file:
            fields = file.read().rpartition(")")[2].split()
        return (int(fields[11]) + int(fields[12])) / os.sysconf("SC_CLK_TCK")

    def ended(self, seconds=EACH):
        """The status, and what was written on both streams."""
        status, out, err = finished("the end", self.process, seconds)
        return status, out.decode(), err.decode()

    def kill(self):
        if self.process.poll() is None:
            self.process.kill()
            self.process.wait()
        self.process.stdout.close()
        self.process.stderr.close()


def finished(what, process, seconds=EACH):
    """The status of a process that ends in time, and what it wrote on both streams."""
    end = patience.now() + seconds
    while True:
        try:
            out, err = process.communicate(timeout=LOOK)
            return process.returncode, out, err
        except subprocess.TimeoutExpired:
            if patience.now() > end:
                raise Late(what)


def in_time(what, call, *words):
    """Calls again as long as nothing comes or nothing is taken and there is time."""
    end = patience.now() + EACH
    while True:
        try:
            return call(*words)
        except socket.timeout:
            if patience.now() > end:
                raise Late(what)


def received(what, made, length=None):
    """What comes on a connection, to its end or so many bytes."""
    got = []
    try:
        while length is None or sum(map(len, got)) < length:
            piece = in_time(what, made.recv, 65536)
            if not piece:
                break
            got.append(piece)
    except OSError as error:
        raise Unlike("%s: %s after %d bytes" % (what, error, sum(map(len, got))))
    return b"".join(got)


def send(made, content):
    """Sends all of it."""
    rest = memoryview(content)
    while rest:
        rest = rest[in_time("that all is taken", made.send, rest) :]


def told(what, address, sent, wants, closes=False):
    """Sends on a connection of its own; what comes, to its end or as long as what is wanted, is that."""
    with connected(address) as made:
        send(made, sent)
        same(what, received(what, made, None if closes else len(wants)), wants)


def comes(what, address, sent, wants):
    """Sends on connections of their own, until what comes to the end of one is as wanted."""
    end = patience.now() + EACH
    while patience.now() < end:
        with connected(address) as made:
            send(made, sent)
            if received(what, made) == wants:
                return
        time.sleep(0.05)
    raise Late(what)


def first_run(farm):
    tile, page = "/default/0/0/0.ppm", wanted.plain
    told("renderd's protocol", farm.renderd, wanted.ROW, wanted.ROW_DONE)
    told("a refusal", farm.renderd, wanted.message(wanted.RENDER, 0, 1, 0), wanted.message(wanted.NOT_DONE, 0, 1, 0))
    told("a tile", farm.tiles, wanted.get(tile), wanted.WORLD, True)
    told("its status", farm.tiles, wanted.get(tile + "/status"), page(200, "OK", "clean 0\n"), True)
    said = "version 1\nno update\n" + wanted.tally(3, 2, 1, 1)
    told("control lines", farm.control, b"update 0\nupdate 1\nstats\n", said.encode())
    told("dirty", farm.tiles, wanted.get(tile + "/dirty"), wanted.MARKED, True)
    told("the tile of the new data", farm.tiles, wanted.get(tile), wanted.WEST, True)
    told("no such tile", farm.tiles, wanted.get("/default/0/0/1.ppm/status"), wanted.NOT_FOUND, True)
    told("stop", farm.control, b"stop\n", b"stopping\n")
    same("the end", farm.ended(), (0, wanted.tally(4, 3, 2, 1), ""))


def second_run(farm):
    told("the tile is clean still", farm.tiles, wanted.get("/default/0/0/0.ppm/status"), wanted.plain(200, "OK", "clean 1\n"), True)
    told("and the same", farm.tiles, wanted.get("/default/0/0/0.ppm"), wanted.WEST, True)
    behind = wanted.get("/default/0/0/0.ppm/status") + b"behind the head\n" * 2000
    told("an answer, whatever stands behind the head", farm.tiles, behind, wanted.plain(200, "OK", "clean 1\n"), True)
    before = os.stat(SAVED).st_ino
    told("stop", farm.control, b"stop\n", b"stopping\n")
    same("the second end", farm.ended(), (0, wanted.tally(2, 2, 1, 1), ""))
    if os.stat(SAVED).st_ino == before:
        raise Unlike("what is saved is written into the file that is there")


def run_of_large_tiles(farm):
    """Drawings that last longer than the fronts are awake: who asked is told only by the bell that a worker rings. The
    last tile of a container stands far behind its first 2^24 bytes."""
    large = b"P6\n%d %d\n255\n" % (LARGE, LARGE) + wanted.RED * LARGE**2
    told("a Done that is waited for", farm.renderd, wanted.message(wanted.RENDER, 5, 8, 8), wanted.message(wanted.DONE, 5, 8, 8))
    told("the last tile of that drawing", farm.tiles, wanted.get("/default/5/15/15.ppm"), wanted.tile(large), True)
    told("a tile that is waited for", farm.tiles, wanted.get("/default/5/16/8.ppm"), wanted.tile(large), True)
    with connected(farm.renderd) as waits:
        send(waits, wanted.message(wanted.RENDER, 5, 24, 8))
        time.sleep(BEGUN)  # an update that comes before the drawing begins is drawn
        told("an update meanwhile", farm.control, b"update 0\n", b"version 1\n")
        done = wanted.message(wanted.DONE, 5, 24, 8)
        same("a Done over an update", received("a Done over an update", waits, len(done)), done)
    os.makedirs("tiles/default/5/0/0/0/0/8.meta")  # a folder where the metatile of 5/0/8 would stand
    told("a Not Done that is waited for", farm.renderd, wanted.message(wanted.RENDER, 5, 0, 8), wanted.message(wanted.NOT_DONE, 5, 0, 8))
    told("dirty", farm.tiles, wanted.get("/default/5/8/8.ppm/dirty"), wanted.MARKED, True)
    clean = wanted.plain(200, "OK", "clean 1\n")
    comes("a drawing that nobody waits for", farm.tiles, wanted.get("/default/5/8/8.ppm/status"), clean)
    spoilt = wanted.plain(500, "Internal Server Error")
    os.truncate("tiles/default/5/0/0/0/16/8.meta", 600)
    told("a tile whose file was cut", farm.tiles, wanted.get("/default/5/16/8.ppm"), spoilt, True)
    os.remove("tiles/default/5/0/0/0/16/8.meta")
    told("a tile whose file is gone", farm.tiles, wanted.get("/default/5/16/8.ppm"), spoilt, True)
    before = farm.busy()
    time.sleep(0.4)
    if farm.busy() - before > 0.1:
        raise Unlike("an idle farm is busy for %.2f of 0.4 seconds" % (farm.busy() - before))
    told("stop", farm.control, b"stop\n", b"stopping\n")
    same("the third end", farm.ended(), (0, wanted.tally(7, 6, 4, 1), ""))


def run_over_loopback(farm):
    """All three fronts on loopback, each at the address that is named alone. Each drawing lasts longer than a front is awake
    that has nothing to do, so its answer comes in time only where the worker wakes that front."""
    picture = lambda colour: wanted.tile(b"P6\n%d %d\n255\n" % (LARGE, LARGE) + colour * LARGE**2)
    told("a Done over loopback", farm.renderd, wanted.message(wanted.RENDER, 3, 1, 2), wanted.message(wanted.DONE, 3, 1, 2))
    for place in (farm.renderd, farm.tiles, farm.control):
        try:
            connected(("127.0.0.2", place[1])).close()
        except ConnectionRefusedError:
            continue
        raise Unlike("another address of this machine is listened at")
    told("another tile of the same metatile", farm.tiles, wanted.get("/default/3/2/2.ppm"), picture(wanted.RED), True)
    told("the tile of another one, which is not drawn yet", farm.tiles, wanted.get("/default/4/4/3.ppm"), picture(wanted.WHITE), True)
    told("stop", farm.control, b"stop\n", b"stopping\n")
    same("the end", farm.ended(), (0, wanted.tally(3, 3, 2, 0), ""))


def run_beside_a_busy_one(farm):
    """Connections on which something always comes, and beside them two that ask once: one that was there before."""
    ignored = memoryview(wanted.message(0, 0, 0, 0) * 1024)
    is_over = threading.Event()

    def never_stops(made):
        rest = ignored
        while not is_over.is_set():
            try:
                rest = rest[made.send(rest) :] or ignored
            except socket.timeout:
                pass

    with contextlib.ExitStack() as made:
        before, *busy = [made.enter_context(connected(farm.renderd)) for _ in range(1 + BUSY)]
        senders = [threading.Thread(target=never_stops, args=(each,)) for each in busy]
        for sender in senders:
            sender.start()
        try:
            time.sleep(BEGUN)
            asked, refused = wanted.message(wanted.RENDER, 0, 1, 0), wanted.message(wanted.NOT_DONE, 0, 1, 0)
            send(before, asked)
            same("an ask beside a busy connection", received("an ask beside a busy connection", before, len(refused)), refused)
            told("another, of one that came later", farm.renderd, asked, refused)
        finally:
            is_over.set()
            for sender in senders:
                sender.join()
    told("stop", farm.control, b"stop\n", b"stopping\n")
    same("the end", farm.ended(), (0, wanted.tally(2, 0, 0, 0), ""))


def run_of_many(farm):
    """A saved text of more than 65,536 bytes, and more connections than that. At the end the disk is full."""
    told("one of many", farm.tiles, wanted.get("/default/18/0/8.ppm/status"), wanted.plain(200, "OK", "clean 0\n"), True)
    for _ in range(CONNECTIONS):
        with socket.socket(socket.AF_UNIX) as made:
            made.connect(farm.control)
    counted["connections"] += CONNECTIONS
    told("a connection after many", farm.control, b"update 0\n", b"version 1\n")
    os.symlink("/dev/full", SAVED + ".new")
    told("stop", farm.control, b"stop\n", b"stopping\n")
    same("the end on a full disk", farm.ended(), (6, wanted.tally(MOST, MOST, MOST, 1), wanted.STORE_FAILED))


def serves(program, run, **more):
    """A farm's run; another port is tried where another program took the first."""
    for _ in range(5):
        farm = Farm(program, **more)
        try:
            farm.listens()
            run(farm)
            break
        except Taken:
            continue
        finally:
            farm.kill()
    else:
        raise Late("a free port")


def has_saved():
    """What the farms before it left."""
    if not os.path.exists(SAVED):
        raise Unlike("nothing is saved")
    with open(SAVED, "rb") as file:
        same("what is saved", file.read(), wanted.SAVED)


def leaves_nothing():
    """Of what is written before it is put nothing is left, beside a file or in the folder of what is staged."""
    for folder, _, names in os.walk("tiles"):
        for name in names:
            if name.endswith(".new") or os.path.basename(folder) == ".new":
                raise Unlike("%s/%s is left" % (folder, name))


def is_refused_a_file(program):
    """A saved farm that may not be read is not taken for none, and stays. All else is open to the farm: the file alone stops it."""
    user = 65534 if os.geteuid() == 0 else None
    os.chmod(SAVED, 0)
    try:
        for folder in (".", "tiles") if user else ():
            os.chown(folder, user, -1)
        farm = Farm(program, user=user, resume=True)
        try:
            same("the end at a closed file", farm.ended(), (6, "", wanted.STORE_FAILED))
        finally:
            farm.kill()
    except PermissionError:  # a folder above that nobody may enter
        pass
    finally:
        for folder in (".", "tiles") if user else ():
            os.chown(folder, 0, -1)
    os.chmod(SAVED, 0o644)
    has_saved()


def begun_narrow(program):
    """A farm with too few threads, in a folder of its own."""
    os.mkdir("narrow")
    os.chdir("narrow")
    farm = Farm(program, limit=NARROW, workers=MANY)
    os.chdir("..")
    return farm


def runs_of_sockets(program):
    """All runs of this script, in the folder where it is."""
    narrow = begun_narrow(program)
    try:
        for run in (first_run, second_run):
            serves(program, run, resume=True)
            has_saved()
            leaves_nothing()
        is_refused_a_file(program)
        serves(program, run_of_large_tiles, maps=[{"name": "default", "style": "red.style", "tile": LARGE}])
        leaves_nothing()
        serves(program, run_over_loopback, by_tcp=True, maps=[{"name": "default", "style": "red.style", "tile": LARGE}])
        serves(program, run_beside_a_busy_one)
        with open(SAVED, "wb") as out:
            out.write(wanted.saved_text([0], [], [(18, 8 * number, 8, 0) for number in range(MOST)]))
        serves(program, run_of_many, resume=True)
        rest = max(narrow.began + PATIENCE - patience.now(), 1)
        same("the end of a farm with too few threads", narrow.ended(rest), (5, wanted.tally(0, 0, 0, 0), NO_MEMORY))
    finally:
        narrow.kill()


def tried(built, runs):
    """All runs of a program, in a folder of its own, that goes in the end."""
    folder = tempfile.mkdtemp(prefix="tilefarm-")
    os.chmod(folder, 0o755)
    os.umask(0o022)
    os.chdir(folder)
    try:
        if not has_sockets():
            raise OSError("no sockets on this machine")
        program = os.path.join(folder, "tilefarm")
        shutil.copyfile(built, program)
        os.chmod(program, 0o755)
        runs(program)
    finally:
        os.chdir(TOP)
        shutil.rmtree(folder, ignore_errors=True)


def say(text):
    print("%s: %s" % (os.path.basename(sys.argv[0]), text), flush=True)


def passes(built, name, run):
    """Whether a program does as wanted; what came late is tried once more, when the load has fallen."""
    for is_last in (False, True):
        try:
            tried(built, run)
            return True
        except Late as late:
            say("%s%s: %s did not come in time" % (name, " FAILED" if is_last else "", late))
            if not is_last:
                patience.wait_for_calm()
        except (Unlike, OSError) as unlike:
            say("%s FAILED: %s" % (name, unlike))
            return False
    return False


def failing(runs, built):
    """The first of these runs in which the program does not as wanted, or None."""
    name = os.path.relpath(built, TOP)
    if not os.path.isfile(built):
        say("FAILED: there is no %s" % name)
        return runs[0]
    for run in runs:
        if not passes(built, name + ": " + run.__name__, run):
            return run
    say("%s passed" % name)
    return None


def main(runs, words):
    """Whether one of the programs, those that were built or are named, does not as wanted; with `--row NAME` only in that run."""
    signal.signal(signal.SIGTERM, lambda *_: sys.exit(1))
    if words[:1] == ["--row"]:
        runs, words = [run for run in runs if run.__name__ == words[1]], words[2:]
    programs = [os.path.abspath(it) for it in words or BUILT]
    patience.begin(WHOLE * len(programs))
    found = [failing(runs, built) for built in programs]
    patience.end()
    if not runs or any(found):
        return 1
    for what, number in dict(counted, rows=len(runs) * len(programs)).items():
        say("tried %d %s" % (number, what))
    return 0


if __name__ == "__main__":
    sys.exit(main([runs_of_sockets], sys.argv[1:]))
