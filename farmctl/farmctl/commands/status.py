"""Says how a farm is: whether it answers, its four numbers, its memory, its disk, and what is stored by map and zoom.

With --check it says one line and ends as monitors want it: 0 well, 1 a warning, 2 critical. Critical is a farm that does
not answer, and a disk that is full in less than --critical-days, or has less free than a container for each of 16
workers. A warning is a disk that is full in less than --warning-days, an answer that took longer than --slow seconds,
files that are running out, and files that a run left half-written.

Days until the disk is full are reckoned from all that was written in the last day; some of it took the place of older
drawings, so they are the least. `ready after` is how long the farm read its files at its start.
"""

from __future__ import annotations

import argparse
import time
from collections.abc import Iterator

from farmctl.farm import Farm
from farmctl.metatiles import container_bytes
from farmctl.observing import Seen, seen
from farmctl.words import days, seconds

HELP = "say how a farm is"
EXAMPLE = """
    farmctl -c /srv/farm/farm.json status
    farmctl -c /srv/farm/farm.json status --check
"""
WORDS = ("OK", "WARNING", "CRITICAL")
OK, WARNING, CRITICAL = range(3)
LEAST_FREE = 16 * container_bytes(18, 256)
MOST_FILES = 0.9  # of those that the process may open


def add(parser: argparse.ArgumentParser) -> None:
    parser.add_argument("--check", action="store_true", help="one line, and status 0, 1 or 2")
    parser.add_argument("--warning-days", metavar="N", type=days, default=7, help="until the disk is full (7)")
    parser.add_argument("--critical-days", metavar="N", type=days, default=1, help="until the disk is full (1)")
    parser.add_argument("--slow", metavar="SECONDS", type=seconds, default=2, help="an answer that takes longer is a warning (2)")


def size(count: float | None) -> str:
    """Bytes for people."""
    if count is None:
        return "not known"
    for unit in ("B", "KiB", "MiB", "GiB"):
        if count < 1024:
            return f"{count:.0f} {unit}" if unit == "B" else f"{count:.1f} {unit}"
        count /= 1024
    return f"{count:.1f} TiB"


def span(seconds: float) -> str:
    for length, unit in ((86400, "days"), (3600, "h"), (60, "min")):
        if seconds >= length:
            return f"{seconds / length:.1f} {unit}"
    return f"{seconds:.1f} s"


def of_process(now: Seen) -> Iterator[tuple[str, str]]:
    if now.tally is None:
        yield "farm", f"DOWN: {now.fault}"
        return
    yield "farm", f"up, answered in {now.answer_seconds * 1000:.0f} ms"
    yield "numbers", str(now.tally)
    if now.process:
        since = f", since {span(now.time - now.process.started)}" if now.process.started else ""
        yield "process", f"{now.process.pid}{since}"
        yield "memory", f"{size(now.process.memory)}, at most {size(now.process.most_memory)}"
        if now.process.open_files is not None:
            yield "open files", f"{now.process.open_files} of {now.process.most_files or 'any number'}"
    if now.ready_seconds is not None:
        yield "ready after", span(now.ready_seconds)


def of_disk(now: Seen) -> Iterator[tuple[str, str]]:
    if now.disk:
        days = now.days_until_full
        full = f"; full in {days:.1f} days at the least" if days is not None else ""
        yield "disk", f"{size(now.disk.free)} free of {size(now.disk.size)}{full}"
    yield "written", f"{size(now.store.day)} in the last day"
    kept = now.store.all
    yield "containers", f"{kept.containers:,}, {size(kept.bytes)}"
    if now.store.oldest is not None:
        yield "oldest", f"{span(max(0.0, now.time - now.store.oldest))} old: {'/'.join(map(str, now.store.oldest_metatile or ()))}"
    if now.store.strange.containers:
        strange = now.store.strange
        yield "strange", f"{strange.containers:,} of maps or zooms that the configuration has not, {size(strange.bytes)}"
    if now.store.left.containers:
        yield "left over", f"{now.store.left.containers} half-written files in tiles/.new, {size(now.store.left.bytes)}"


def page(now: Seen) -> str:
    lines = [f"{name + ':':12} {text}" for name, text in (*of_process(now), *of_disk(now))]
    if now.store.zooms:
        lines.append(f"{'map':20} {'zoom':>4} {'containers':>12} {'bytes':>12}")
    lines += [f"{name:20} {z:4} {kept.containers:12,} {size(kept.bytes):>12}" for (name, z), kept in sorted(now.store.zooms.items())]
    return "\n".join(lines)


def faults(now: Seen, args: argparse.Namespace) -> Iterator[tuple[int, str]]:
    """What is not well, each with how bad it is."""
    if now.tally is None:
        yield CRITICAL, now.fault
    elif now.answer_seconds > args.slow:
        yield WARNING, f"it answered after {now.answer_seconds:.1f} s"
    if now.disk and now.disk.free < LEAST_FREE:
        yield CRITICAL, f"the disk has {size(now.disk.free)} free"
    days = now.days_until_full
    if days is not None and days < args.warning_days:
        yield (CRITICAL if days < args.critical_days else WARNING), f"the disk may be full in {days:.1f} days"
    if now.process and now.process.open_files and now.process.open_files > MOST_FILES * (now.process.most_files or float("inf")):
        yield WARNING, f"{now.process.open_files} of {now.process.most_files} files are open"
    if now.store.left.containers:
        yield WARNING, f"{now.store.left.containers} half-written files in tiles/.new"


def check(now: Seen, args: argparse.Namespace) -> int:
    """One line with what monitors keep, and the status."""
    found = list(faults(now, args))
    worst = max((level for level, _ in found), default=OK)
    told = "; ".join(text for _, text in found) or str(now.tally)
    kept = {"answer": f"{now.answer_seconds:.3f}s", "containers": now.store.all.containers}
    if now.tally:
        kept.update(asks=f"{now.tally.asks}c", done=f"{now.tally.done}c", stored=f"{now.tally.stored}c", version=now.tally.version)
    if now.process and now.process.memory:
        kept["memory"] = f"{now.process.memory}B"
    if now.disk:
        kept["free"] = f"{now.disk.free}B"
    print(f"TILEFARM {WORDS[worst]} - {told} | " + " ".join(f"{name}={value}" for name, value in kept.items()))
    return worst


def run(args: argparse.Namespace) -> int:
    farm = Farm.of(args)
    now = seen(farm)
    if args.check:
        return check(now, args)
    print(time.strftime("%Y-%m-%d %H:%M:%S ", time.localtime(now.time)) + str(farm.path))
    print(page(now))
    return 0 if now.tally else 1
