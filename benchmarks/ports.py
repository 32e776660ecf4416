#!/usr/bin/env python3
"""Ports over sockets: what comes back of the echo `benches serve`, with clients on the same machine.

    benchmarks/ports.py [PROGRAM]
    benchmarks/ports.py --gate [PROGRAM..]

Under pressure: how many echoes a second come; 1,024 connections at once and more; clients that wait while the descriptors
are used up; one client that asks, and one that connects, beside others that send without end. It takes about a minute.

With `--gate`, what no contract says of sockets, in seconds: where ports listen and fail, over TCP and Unix sockets echoes,
a large answer, pieces of 4,096 bytes at most, and clients that close, end their sending, or leave bytes unread.

Each line says what was seen; where that is not as wanted, an echo is lost, or a client waits longer than five seconds for
one, the line says so and the status is 1. PROGRAM is what the gate built of `benches`, if no other is named.
"""

import multiprocessing
import os
import re
import resource
import select
import shutil
import socket
import subprocess
import sys
import tempfile
import time

TOP = os.path.dirname(os.path.dirname(os.path.abspath(__file__)))
PROGRAM = os.path.join(TOP, "crates", "benches", "out", "benches")
BUILT = [PROGRAM, PROGRAM + ".by-rattle"]
MESSAGE = bytes(range(64))
LARGE = 10_000_000  # bytes of a large answer
PERIOD = 251  # after so many bytes a long text begins anew
PIECE = 1 << 18
LONG = bytes(range(PERIOD)) * (PIECE // PERIOD + 2)
SECONDS = 20
LONGEST = 5
fine = True
told = 0


def tell(what, seen, holds=True):
    global fine, told
    fine, told = fine and holds, told + 1
    print("%-72s %s%s" % (what, seen, "" if holds else "   NOT AS WANTED"), flush=True)


def free_port():
    with socket.socket() as probe:
        probe.bind(("127.0.0.1", 0))
        return probe.getsockname()[1]


class Server:
    """An echo at these addresses, or at a free one of loopback, with so many descriptors, if a number is given."""

    def __init__(self, *addresses, descriptors=None, folder=None):
        self.place = ("127.0.0.1", free_port())
        self.folder = folder
        addresses = addresses or ("tcp:%s:%d" % self.place,)
        limit = lambda: descriptors and resource.setrlimit(resource.RLIMIT_NOFILE, (descriptors, descriptors))
        self.process = subprocess.Popen([PROGRAM, "serve", *addresses], preexec_fn=limit, cwd=folder, stdout=subprocess.PIPE)
        # it tells of each address once it listens there or not
        self.told = [self.process.stdout.readline().decode() for _ in addresses]

    def connect(self, place=None):
        if isinstance(place, str):
            made = socket.socket(socket.AF_UNIX)
            made.settimeout(SECONDS)
            made.connect(os.path.join(self.folder, place))
            return made
        made = socket.create_connection(place or self.place, SECONDS)
        made.setsockopt(socket.IPPROTO_TCP, socket.TCP_NODELAY, 1)
        return made

    def memory(self):
        with open("/proc/%d/status" % self.process.pid) as lines:
            return int(next(line.split()[1] for line in lines if line.startswith("VmRSS:")))

    def __enter__(self):
        return self

    def __exit__(self, *_):
        tell("  the server runs to the end", self.process.poll() is None, self.process.poll() is None)
        self.process.kill()
        self.process.wait()
        self.process.stdout.close()


def read(made, length=len(MESSAGE)):
    """What comes, up to so many bytes."""
    came = b""
    while len(came) < length:
        piece = made.recv(length - len(came))
        if not piece:
            break
        came += piece
    return came


def ask(made):
    """Whether an echo comes, and how long it takes."""
    begun = time.monotonic()
    made.sendall(MESSAGE)
    return read(made) == MESSAGE, time.monotonic() - begun


def crowd(count, rounds=5):
    with Server() as server:
        empty = server.memory()
        held = [server.connect() for _ in range(count)]
        equal, begun = 0, time.monotonic()
        for _ in range(rounds):
            for made in held:
                made.sendall(MESSAGE)
            equal += sum(read(made) == MESSAGE for made in held)
        took = time.monotonic() - begun
        told = "%d of %d echoes, %d a second; %d KiB more" % (
            equal, rounds * count, equal / took, server.memory() - empty)  # fmt: skip
        tell("%d connections at once, all asking" % count, told, equal == rounds * count)
        asked = [ask(held[0]) for _ in range(5000)]
        longest = max(took for _, took in asked)
        told = "%d a second, %.1f ms at most" % (len(asked) / sum(took for _, took in asked), longest * 1000)
        tell("  one of them asks, the others say nothing", told, all(came for came, _ in asked) and longest < LONGEST)
        for made in held:
            made.close()


def few_descriptors(limit=64, count=100):
    with Server(descriptors=limit) as server:
        held = [server.connect() for _ in range(count)]
        for made in held:
            made.sendall(MESSAGE)
        time.sleep(1)
        ready, _, _ = select.select(held, [], [], 0)
        first = sum(read(made) == MESSAGE for made in ready)
        told = "%d echoes" % first
        tell("%d clients of a server that may have %d descriptors" % (count, limit), told, 0 < first < count)
        begun = time.monotonic()
        for made in ready:
            made.close()
        rest = [made for made in held if made not in ready]
        late = sum(read(made) == MESSAGE for made in rest)
        waited = time.monotonic() - begun
        told = "%d echoes, the last after %.0f ms" % (late, waited * 1000)
        tell("  the others, once those have left", told, first + late == count and waited < LONGEST)
        for made in rest:
            made.close()


def flood(server, ends):
    """Sends without end and reads what comes, until it is told to end; then tells how much came."""
    made, data, came = server.connect(), bytes(1 << 16), 0
    made.setblocking(False)
    while not ends.poll(0):
        readable, writable, _ = select.select([made], [made], [], 0.01)
        if readable:
            came += len(made.recv(1 << 18))
        if writable:
            made.send(data)
    ends.send(came)


def beside_floods(count, seconds=3):
    with Server() as server:
        pipes = []
        for _ in range(count):
            ours, theirs = multiprocessing.Pipe()
            multiprocessing.Process(target=flood, args=(server, theirs), daemon=True).start()
            pipes.append(ours)
        time.sleep(0.5)
        made, begun, waits, connects = server.connect(), time.monotonic(), [], []
        equal = True
        while time.monotonic() < begun + seconds:
            came, took = ask(made)
            waits.append(took)
            equal = equal and came
        asked = len(waits) / (time.monotonic() - begun)
        for _ in range(200):
            start = time.monotonic()
            with server.connect() as other:
                equal = ask(other)[0] and equal
            connects.append(time.monotonic() - start)
        lasted = time.monotonic() - begun + 0.5
        for pipe in pipes:
            pipe.send(None)
        came = sum(pipe.recv() for pipe in pipes)
        tell("beside %d who send without end (%.0f MB/s echoed)" % (count, came / lasted / 1e6), "")
        told = "%d a second, %.1f ms at most" % (asked, max(waits) * 1000)
        tell("  one client asks", told, equal and max(waits) < LONGEST)
        told = "%.1f ms in the middle, %.1f ms at most" % (
            sorted(connects)[len(connects) // 2] * 1000, max(connects) * 1000)  # fmt: skip
        tell("  others connect and have their echo", told, max(connects) < LONGEST)


def of_number(number):
    return bytes([number % 256]) + MESSAGE[1:]


def echoes(connect, count, rounds):
    """So many connections send so many messages each: how many came back whole."""
    held, came = [connect() for _ in range(count)], 0
    for _ in range(rounds):
        for number, made in enumerate(held):
            made.sendall(of_number(number))
        came += sum(read(made) == of_number(number) for number, made in enumerate(held))
    for made in held:
        made.close()
    return came


def come(made, most=None):
    """How many bytes of the long text come, to their end or so many, up to the first piece that is another."""
    came = 0
    while most is None or came < most:
        piece = made.recv(PIECE)
        if not piece or not LONG[came % PERIOD :].startswith(piece):
            break
        came += len(piece)
    return came


def large_answer(connect):
    with connect() as made:
        made.sendall(b"large?")
        time.sleep(0.1)  # what the system keeps for a connection is full then
        return come(made, LARGE)


def ends_its_sending(connect):
    with connect() as made:
        made.sendall(LONG[:10000])
        made.shutdown(socket.SHUT_WR)
        return come(made)


def leaves_bytes_unread(connect):
    with connect() as made:
        made.sendall(MESSAGE)
        piece = read(made, 10)
        return 10 if piece == MESSAGE[:10] else 0


# What clients do: a name, the call, how many connections it makes, what comes to them, and what the echo hears of those that
# end, those that are lost, and the longest piece.
TASKS = [
    ("one connection", lambda connect: echoes(connect, 1, 1000), 1, 1000, (1, 1, 0, 64)),
    ("100 connections", lambda connect: echoes(connect, 100, 10), 100, 1000, (100, 100, 0, 64)),
    ("one large answer", large_answer, 1, LARGE, (1, 1, 0, 6)),
    ("one that ends its sending", ends_its_sending, 1, 10000, (1, 1, 0, 4096)),
    ("one that closes with bytes unread", leaves_bytes_unread, 1, 10, (1, 0, 1, 64)),
]
HEARD = "opened %d, ended %d, lost %d, longest piece %d"


def heard(asker):
    """What the echo heard since it was asked last."""
    asker.sendall(b"heard?")
    line = b""
    while not line.endswith(b"\n"):
        piece = asker.recv(4096)
        if not piece:
            break
        line += piece
    return [int(number) for number in re.findall(rb"\d+", line)]


def heard_of(asker, count):
    """The same, once so many connections came and went, or it takes too long."""
    opened = ended = lost = longest = 0
    end = time.monotonic() + SECONDS
    while time.monotonic() < end:
        came = heard(asker)
        opened, ended, lost = (had + more for had, more in zip((opened, ended, lost), came))
        longest = max(longest, came[3])
        if opened >= count and ended + lost == opened:
            break
        time.sleep(0.01)
    return opened, ended, lost, longest


def tasks(server, kind, place):
    with server.connect(place) as asker:
        heard(asker)  # of the asker itself
        for name, call, count, wanted, hears in TASKS:
            came = call(lambda: server.connect(place))
            seen = heard_of(asker, count)
            what = "%s, %s" % (kind, name)
            tell(what, "came %d, " % came + HEARD % seen, came == wanted and seen == hears)


def is_refused(place):
    try:
        socket.create_connection(place, SECONDS).close()
        return False
    except ConnectionRefusedError:
        return True


def clients(folder):
    """Clients over sockets of both kinds, at an echo each: ports listen at one address at a time."""
    port = free_port()
    for kind, address, place in ("tcp", "tcp:127.0.0.1:%d" % port, ("127.0.0.1", port)), ("unix", "unix:echo.sock", "echo.sock"):
        with Server(address, folder=folder) as server:
            tell("an echo over %s" % kind, server.told[0].strip(), server.told == [address + ": listens\n"])
            if kind == "tcp":
                refused = is_refused(("127.0.0.2", port))
                tell("tcp, at another address of this machine", "nobody listens" if refused else "somebody listens", refused)
            tasks(server, kind, place)


def addresses(folder):
    """At which addresses ports listen, one after another, and at which they fail. A file that is no socket stays."""
    plain = os.path.join(folder, "plain")
    with open(plain, "wb") as out:
        out.write(b"kept")
    with socket.socket(socket.AF_UNIX) as left:
        left.bind(os.path.join(folder, "left.sock"))
    with socket.socket() as other:
        other.bind(("127.0.0.1", 0))
        other.listen()
        wanted = [
            ("no address", "", "fails"),
            ("no kind", "127.0.0.1:80", "fails"),
            ("no port", "tcp:127.0.0.1", "fails"),
            ("a name", "tcp:localhost:80", "fails"),
            ("a port that is taken", "tcp:127.0.0.1:%d" % other.getsockname()[1], "fails"),
            ("no path", "unix:", "fails"),
            ("no such folder", "unix:no_folder/a.sock", "fails"),
            ("a plain file", "unix:plain", "fails"),
            ("a socket file that was left", "unix:left.sock", "listens"),
            ("one at which somebody listens", "unix:left.sock", "fails"),
        ]
        with Server(*(address for _, address, _ in wanted), folder=folder) as server:
            for (name, address, says), line in zip(wanted, server.told):
                tell(name, line.strip(), line == "%s: %s\n" % (address, says))
            with server.connect("left.sock") as made:
                came = ask(made)[0]
                tell("an echo after addresses that fail", "came" if came else "did not come", came)
    with open(plain, "rb") as file:
        kept = file.read() == b"kept"
        tell("the plain file", "stays" if kept else "is another", kept)
    ended = subprocess.run([PROGRAM, "serve", "unix:plain"], cwd=folder, capture_output=True, timeout=SECONDS)
    tell("an echo that listens nowhere", "status %d" % ended.returncode, ended.returncode == 1)


def gate(programs):
    global PROGRAM
    for PROGRAM in programs or BUILT:
        PROGRAM = os.path.abspath(PROGRAM)
        print(os.path.relpath(PROGRAM, TOP))
        folder = tempfile.mkdtemp(prefix="ports-")
        try:
            addresses(folder)
            clients(folder)
        except (OSError, ValueError, subprocess.TimeoutExpired) as error:
            tell("the echo", repr(error), False)
        finally:
            shutil.rmtree(folder, ignore_errors=True)
    print("ports.py: tried %d checks" % told)
    return 0 if fine else 1


def rates(folder):
    """How many echoes a second come, to a client that does nothing else."""
    port = free_port()
    for kind, address, place in ("tcp", "tcp:127.0.0.1:%d" % port, ("127.0.0.1", port)), ("unix", "unix:echo.sock", "echo.sock"):
        with Server(address, folder=folder) as server:
            for count, rounds in (1, 20000), (100, 200):
                begun = time.monotonic()
                came = echoes(lambda: server.connect(place), count, rounds)
                seen = "%d echoes, %d a second" % (came, came / (time.monotonic() - begun))
                tell("%s, connections %d" % (kind, count), seen, came == count * rounds)


def main(words):
    global PROGRAM
    if words[:1] == ["--gate"]:
        return gate(words[1:])
    PROGRAM = os.path.abspath(words[0]) if words else PROGRAM
    if not os.access(PROGRAM, os.X_OK):
        sys.exit("ports.py: there is no %s: `rt ci benches` builds it" % PROGRAM)
    hard = resource.getrlimit(resource.RLIMIT_NOFILE)[1]
    resource.setrlimit(resource.RLIMIT_NOFILE, (hard, hard))
    print("%s, %d processors, load %.1f" % (time.strftime("%F"), os.cpu_count(), os.getloadavg()[0]))
    with tempfile.TemporaryDirectory(prefix="ports-") as folder:
        rates(folder)
    for count in (1024, 2000, 4000, 10000):
        if count + 100 < hard:
            crowd(count)
    few_descriptors()
    for count in (0, 2, 8):
        beside_floods(count)
    return 0 if fine else 1


if __name__ == "__main__":
    sys.exit(main(sys.argv[1:]))
