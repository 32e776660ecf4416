#!/usr/bin/env python3
"""The promise of a farm in plain Python: four properties of a list of events, each with the sentence that it says.

    python3 oracle/promise.py [--gate] [PROGRAM..]        (crates/tilefarm/out/tilefarm where none is given)

A history is a list of events in the order of time, each with its answer. The properties are tried over what PROGRAM does:
over each turn of `script`, for scripts that are drawn anew, and over what clients of `serve` see. So that they are known
to say something, they are tried over mistaken histories too: each of these keeps all of them up to its last event, and
breaks with it the sentence that stands beside it, and no other. `--gate` is shorter, at most a minute where the machine
is idle. What a picture must be is drawn by `tilefarm.py`; Python 3 and nothing else is needed.

The properties say in the words of an ordinary test what `crates/farm_laws/specs/Promise.antt` says, which is proved of
every history; a history here is one that was seen.
"""

import collections
import itertools
import json
import os
import random
import socket
import struct
import subprocess
import sys
import tempfile
import threading
import time

import differ
import farm
import patience
import script_worlds
import texts

Ask = collections.namedtuple("Ask", "conn command spot answer number")  # the number of an ask that waits for a reply
Claim = collections.namedtuple("Claim", "ticket spot version")  # a drawing is given to a worker
Finish = collections.namedtuple("Finish", "ticket end")  # it ends: stored as clean or dirty, putfailed or cut
Update = collections.namedtuple("Update", "number")  # an update that succeeded
Renew = collections.namedtuple("Renew", "number")  # one whose reach is expired too
Restyle = collections.namedtuple("Restyle", "number")  # a style that was given to its map
Expire = collections.namedtuple("Expire", "tile")
Fetch = collections.namedtuple("Fetch", "spot told version picture")  # told is clean or dirty
Look = collections.namedtuple("Look", "spot told version")
Collect = collections.namedtuple("Collect", "conn ask outcome")  # a reply: done, notdone or cut
Stop = collections.namedtuple("Stop", "")
Other = collections.namedtuple("Other", "line told")  # what nothing below speaks of

STORED = ("clean", "dirty")


class Plan:
    """What a farm was started with: maps as pairs of a name and a greatest zoom, the map of each style of its table,
    what a tile of a map looks like in a style over data (numbers of updates), and what an update reaches."""

    def __init__(self, maps, restyles, drawing, reaches):
        self.maps, self.restyles, self.drawing, self.reaches = maps, restyles, drawing, reaches

    def key_of(self, spot):
        """The metatile of a spot with its map; None where it cannot be served."""
        for place, (name, most) in enumerate(self.maps):
            if name == spot[0] and spot[1] <= most and farm.is_tile(*spot[1:]):
                return (place,) + farm.metatile_of(*spot[1:])
        return None


# --- What a history tells of a place in it ----------------------------------------------------------------------


def data_at(h, at):
    """The updates that succeeded before that place, in order: they stand for the data. Their number is the version."""
    return tuple(event.number for event in h[:at] if isinstance(event, (Update, Renew)))


def style_at(plan, h, at, place):
    """The style that a map was last given before that place; None for its first."""
    given = [event.number for event in h[:at] if isinstance(event, Restyle) and plan.restyles[event.number : event.number + 1] == [place]]
    return given[-1] if given else None


def touches(plan, h, at, key):
    """Whether the event at that place makes a metatile dirty: an expiry of a tile whose square meets its own, a request to
    mark it as dirty, another style for its map, an update that is made as a renew and reaches it. Nothing else does."""
    event = h[at]
    if isinstance(event, Expire):
        return farm.meet(farm.sides(event.tile), farm.sides(farm.square_of(key)))
    if isinstance(event, Ask):
        return event.command == "dirty" and plan.key_of(event.spot) == key and Stop() not in h[:at]
    if isinstance(event, Restyle):
        return plan.restyles[event.number : event.number + 1] == [key[0]]
    return isinstance(event, Renew) and plan.reaches(data_at(h, at), event.number, key)


def is_touched(plan, h, after, at, key):
    return any(touches(plan, h, place, key) for place in range(after + 1, at))


def claims(plan, h, key):
    """Where drawings of a metatile were claimed."""
    return [place for place, event in enumerate(h) if isinstance(event, Claim) and plan.key_of(event.spot) == key]


def ends(h, claim, at, how=STORED):
    """Where, before a place, the drawing that was claimed at a place ended so."""
    return [place for place in range(claim + 1, at) if isinstance(h[place], Finish) and h[place].ticket == h[claim].ticket and h[place].end in how]


def is_clean(plan, h, at, key):
    """Whether a metatile is clean at a place: it was stored, no put of it failed since, and nothing has touched it since
    that drawing was claimed."""
    made = [(end, claim) for claim in claims(plan, h[:at], key) for end in ends(h, claim, at, STORED + ("putfailed",))]
    return bool(made) and h[max(made)[0]].end in STORED and not is_touched(plan, h, max(made)[1], at, key)


def is_told_clean(plan, h, at, key):
    """Whether the answer at that place says that the metatile is clean."""
    event = h[at]
    says = isinstance(event, (Fetch, Look)) and event.told == "clean" or isinstance(event, Ask) and event.answer == "done"
    return says and plan.key_of(event.spot) == key


# --- The promise ------------------------------------------------------------------------------------------------
# Each sentence tells the places at which it does not hold.


def clean_tiles(plan, h):
    """1. Every tile sent as clean is byte for byte the plain drawing of its style over the data of one version, taken after
    the last expiry that touches it."""
    for at, event in enumerate(h):
        if isinstance(event, Fetch) and event.told == "clean" and not any(is_of(plan, h, at, claim) for claim in claims(plan, h[:at], plan.key_of(event.spot))):
            yield at


def is_of(plan, h, at, claim):
    """Whether the tile that is sent at a place is of the drawing that was claimed at another: this was stored before;
    nothing has touched the metatile since it was claimed; the version is that of the data before the Claim; and the bytes
    are the plain drawing over them, in the style that the map has as it is sent."""
    sent, key, data = h[at], plan.key_of(h[at].spot), data_at(h, claim)
    return (
        bool(ends(h, claim, at))
        and not is_touched(plan, h, claim, at, key)
        and sent.version == len(data)
        and sent.picture == plan.drawing(key[0], style_at(plan, h, at, key[0]), sent.spot[1:], data)
    )


def drawn_once(plan, h):
    """2. No metatile is drawn twice at once: between two Claims of one metatile the drawing of the first has ended."""
    for at, event in enumerate(h):
        if isinstance(event, Claim):
            before = claims(plan, h[:at], plan.key_of(event.spot))
            if not all(ends(h, claim, at, STORED + ("putfailed", "cut")) for claim in before):
                yield at


def left_dirty(plan, h):
    """3. An expiry during a drawing leaves the tile dirty until a later drawing is stored: what was touched between the
    Claim and the end of its drawing is stored as dirty, and is not told as clean until another is claimed and stored."""
    for claim, event in enumerate(h):
        if isinstance(event, Claim):
            key = plan.key_of(event.spot)
            for end in ends(h, claim, len(h)):
                if is_touched(plan, h, claim, end, key):
                    yield from stays_dirty(plan, h, end, key)


def stays_dirty(plan, h, end, key):
    if h[end].end != "dirty":
        yield end
    later = [claim for claim in claims(plan, h, key) if claim > end]
    for at in range(end + 1, len(h)):
        if is_told_clean(plan, h, at, key) and not any(ends(h, claim, at) for claim in later):
            yield at


def done(plan, h):
    """4. Every Done names a tile stored after the request or clean at it: clean where it is answered at once; and where a
    reply says Done, a drawing of what that connection had asked for under that number was stored since."""
    for at, event in enumerate(h):
        if isinstance(event, Ask) and event.answer == "done" and not is_clean(plan, h, at, plan.key_of(event.spot)):
            yield at
        if isinstance(event, Collect) and event.outcome == "done" and not any(is_stored_for(plan, h, at, ask) for ask in range(at)):
            yield at


def is_stored_for(plan, h, at, ask):
    asked, reply = h[ask], h[at]
    if not isinstance(asked, Ask) or (asked.conn, asked.number) != (reply.conn, reply.ask):
        return False
    return any(end > ask for claim in claims(plan, h[:at], plan.key_of(asked.spot)) for end in ends(h, claim, at))


SENTENCES = (clean_tiles, drawn_once, left_dirty, done)


def broken(plan, h):
    """The sentences that a history breaks, by their numbers."""
    return [number for number, sentence in enumerate(SENTENCES, 1) if any(True for _ in sentence(plan, h))]


# --- Histories from lines and answers of `script` ---------------------------------------------------------------


def event_of(line, told, picture=None):
    """The event of a script's line with its answer."""
    (word, *values), (first, *more) = line.split(" "), told.split(" ")
    spot = lambda words: (words[0],) + tuple(map(int, words[1:4]))
    if word == "ask":
        number = int(more[0]) if first in ("queued", "joined", "lifted") else None
        return Ask(int(values[0]), values[1], spot(values[2:]), first, number)
    if word == "claim" and first == "job":
        return Claim(int(more[0]), spot(more[1:]), int(more[5]))
    if word in ("finish", "cut") and first != "nojob":
        return Finish(int(values[0]), first)
    if word in ("update", "renew") and first == "version":
        return (Update if word == "update" else Renew)(int(values[0]))
    if word == "restyle" and first == "styled":
        return Restyle(int(values[0]))
    if word == "expire" and first == "expired":
        return Expire(tuple(map(int, values)))
    if word == "fetch" and first in STORED:
        return Fetch(spot(values), first, int(more[0]), picture if picture is not None else more[1])
    if word == "look" and first in STORED:
        return Look(spot(values), first, int(more[0]))
    if word == "collect" and first == "reply":
        return Collect(int(more[0]), int(more[1]), more[2])
    return Stop() if word == "stop" else Other(line, told)


def history_of(lines, out):
    """The history of a script: its lines, and what the program wrote, in which a picture stands behind its line."""
    at, h = 0, []
    for line in lines:
        end = out.index(b"\n", at)
        told, at, picture = out[at:end].decode(), end + 1, None
        words = told.split(" ")
        if line.startswith("fetch ") and words[0] in STORED:
            picture, at = out[at : at + int(words[2])], at + int(words[2]) + 1
        h.append(event_of(line, told, picture))
    if at != len(out):
        raise ValueError("more was answered than asked")
    return h


def plan_in(folder):
    """The plan of the configuration `config` of a folder."""
    files = farm.Files(folder)
    config = files.checked("config", farm.config_of)
    maps = [dict(entry, style=files.style(entry["style"])) for entry in config["maps"]]
    restyles = [(place, files.style(name)) for place, name in config["restyles"]]
    updates = [files.checked(name, texts.update_of) for name in config["updates"]]
    known, pictures = {(): files.checked(config["data"], farm.layers_of)}, {}

    def layers(data):
        if data not in known:
            known[data] = farm.applied(layers(data[:-1]), updates[data[-1]])
        return known[data]

    def drawing(place, style, tile, data):
        if (place, style, tile, data) not in pictures:
            sheet = maps[place]["style"] if style is None else restyles[style][1]
            pictures[place, style, tile, data] = farm.tile_of(sheet, layers(data), maps[place]["tile"], *tile)
        return pictures[place, style, tile, data]

    def reaches(data, number, key):
        return any(farm.reaches(feature, maps[key[0]]["tile"], key) for feature in farm.named(layers(data), updates[number]))

    return Plan([(entry["name"], entry["maxzoom"]) for entry in maps], [place for place, _ in restyles], drawing, reaches)


# --- Mistaken histories -----------------------------------------------------------------------------------------
# Each keeps the promise up to its last answer, which is a mistake that a farm could make. The first fifteen and those of
# PASSED_OVER are those of crates/farm_laws/specs/Mistakes.antt; where one shows in no sentence at once, it goes on to where
# a client meets it.

BEGUN = {
    "asked": "ask 0 render m 0 0 0 = queued 0; claim 0 = job 0 m 0 0 0 0",
    "drawn": "ask 0 render m 0 0 0 = queued 0; claim 0 = job 0 m 0 0 0 0; finish 0 = clean",
    "overtaken": "ask 0 render m 0 0 0 = queued 0; claim 0 = job 0 m 0 0 0 0; expire 5 3 3 = expired 0; finish 0 = dirty",
    "deep": "ask 0 render m 4 0 0 = queued 0; claim 0 = job 0 m 4 0 0 0; finish 0 = clean",
    "far": "ask 0 render m 4 8 8 = queued 0; claim 0 = job 0 m 4 8 8 0; finish 0 = clean",
    "full": "ask 0 render m 10 0 0 = queued 0; ask 0 render m 10 8 0 = queued 1",
}
MISTAKES = (
    (3, "stored as clean though expired since its claim", "{asked}; expire 5 3 3 = expired 0; finish 0 = clean"),
    (1, "told from versions, so that an expiry without an update leaves it clean", "{drawn}; expire 18 262143 262143 = expired 1; fetch m 0 0 0 = clean 0 m.-.0/0/0.-"),
    (2, "queued while it is drawn", "{asked}; ask 1 render m 0 0 0 = queued 1; claim 1 = job 1 m 0 0 0 0"),
    (2, "claimed twice", "ask 0 render m 0 0 0 = queued 0; ask 1 render m 0 0 0 = joined 1; claim 0 = job 0 m 0 0 0 0; claim 1 = job 1 m 0 0 0 0"),
    (1, "drawn over the newest data under an older version", "{asked}; update 0 = version 1; finish 0 = clean; fetch m 0 0 0 = clean 0 m.-.0/0/0.0"),
    (1, "expired on its own zoom alone", "{far}; expire 1 1 1 = expired 0; fetch m 4 8 8 = clean 0 m.-.4/8/8.-"),
    (4, "clean after a put that failed", "{drawn}; expire 0 0 0 = expired 1; ask 0 render m 0 0 0 = queued 1; claim 0 = job 1 m 0 0 0 0; finish 1 = putfailed; ask 0 render m 0 0 0 = done"),
    (4, "done after a put that failed", "{asked}; finish 0 = putfailed; collect 0 = reply 0 0 done"),
    (1, "stored though nothing was drawn", "{asked}; cut 0 = clean; fetch m 0 0 0 = clean 0 nothing"),
    (3, "ended twice", "{drawn}; expire 0 0 0 = expired 1; finish 0 = clean"),
    (2, "queued a second time, and given out twice", "ask 0 bulk m 10 0 0 = queued 0; ask 1 low m 10 0 0 = lifted 1; claim 0 = job 0 m 10 0 0 0; claim 1 = job 1 m 10 0 0 0"),
    (4, "clean though it was marked dirty", "{drawn}; ask 1 dirty m 0 0 0 = silent; ask 0 render m 0 0 0 = done"),
    (3, "clean in the old style", "{asked}; restyle 0 = styled 0; finish 0 = clean"),
    (1, "drawn in the old style", "ask 0 render m 0 0 0 = queued 0; restyle 0 = styled 0; claim 0 = job 0 m 0 0 0 0; finish 0 = clean; fetch m 0 0 0 = clean 0 m.-.0/0/0.-"),
    (1, "clean though a renew reached it", "{deep}; renew 0 = version 1 renewed 1; fetch m 4 0 0 = clean 0 m.-.4/0/0.-"),
    (1, "clean though marked dirty", "{drawn}; ask 1 dirty m 0 0 0 = silent; fetch m 0 0 0 = clean 0 m.-.0/0/0.-"),
    (1, "clean though its map has another style", "{drawn}; restyle 0 = styled 1; fetch m 0 0 0 = clean 0 m.-.0/0/0.-"),
    (1, "the newest version over older data", "{drawn}; update 0 = version 1; fetch m 0 0 0 = clean 1 m.-.0/0/0.-"),
    (1, "data that the version does not have yet", "{drawn}; update 0 = version 1; fetch m 0 0 0 = clean 0 m.-.0/0/0.0"),
    (1, "updates in another order", "update 1 = version 1; update 0 = version 2; ask 0 render m 0 0 0 = queued 0; claim 0 = job 0 m 0 0 0 2; finish 0 = clean; fetch m 0 0 0 = clean 2 m.-.0/0/0.0+1"),
    (1, "another tile of the metatile", "{deep}; fetch m 4 1 0 = clean 0 m.-.4/0/0.-"),
    (1, "another map's tile", "{drawn}; ask 0 render n 0 0 0 = queued 1; claim 0 = job 1 n 0 0 0 0; finish 1 = clean; fetch n 0 0 0 = clean 0 m.-.0/0/0.-"),
    (1, "a tile that ends too early", "{drawn}; fetch m 0 0 0 = clean 0 m.-.0/0/0."),
    (1, "never claimed", "ask 0 render m 0 0 0 = queued 0; fetch m 0 0 0 = clean 0 m.-.0/0/0.-"),
    (1, "never claimed, beside one that was stored", "{deep}; fetch m 4 8 8 = clean 0 m.-.4/8/8.-"),
    (1, "sent while it is still drawn", "{asked}; fetch m 0 0 0 = clean 0 m.-.0/0/0.-"),
    (1, "its drawing was cut", "{asked}; cut 0 = cut; fetch m 0 0 0 = clean 0 m.-.0/0/0.-"),
    (1, "the old one sent while the next is drawn", "{drawn}; expire 3 0 0 = expired 1; ask 0 render m 0 0 0 = queued 1; claim 0 = job 1 m 0 0 0 0; fetch m 0 0 0 = clean 0 m.-.0/0/0.-"),
    (1, "the old one sent behind the new one", "{drawn}; renew 1 = version 1 renewed 1; ask 0 render m 0 0 0 = queued 1; claim 0 = job 1 m 0 0 0 1; finish 1 = clean; fetch m 0 0 0 = clean 0 m.-.0/0/0.-"),
    (1, "clean where the next one could not be stored", "{drawn}; expire 0 0 0 = expired 1; ask 0 render m 0 0 0 = queued 1; claim 0 = job 1 m 0 0 0 0; finish 1 = putfailed; fetch m 0 0 0 = clean 0 m.-.0/0/0.-"),
    (2, "expired and claimed while it is drawn", "{asked}; expire 0 0 0 = expired 0; ask 1 render m 0 0 0 = queued 1; claim 1 = job 1 m 0 0 0 0"),
    (2, "marked dirty and claimed while it is drawn", "{asked}; ask 1 dirty m 0 0 0 = silent; claim 1 = job 1 m 0 0 0 0"),
    (2, "claimed behind the end of another", "ask 0 render m 4 8 8 = queued 0; ask 0 render m 4 0 8 = queued 1; claim 0 = job 0 m 4 8 8 0; claim 1 = job 1 m 4 0 8 0; finish 1 = clean; claim 1 = job 2 m 4 8 8 0"),
    (2, "claimed twice behind one that has ended", "{drawn}; expire 0 0 0 = expired 1; ask 0 render m 0 0 0 = queued 1; claim 0 = job 1 m 0 0 0 0; claim 1 = job 2 m 0 0 0 0"),
    (2, "claimed under the same ticket", "{asked}; claim 0 = job 0 m 0 0 0 0"),
    (3, "clean though marked dirty while it was drawn", "{asked}; ask 1 dirty m 0 0 0 = silent; finish 0 = clean"),
    (3, "clean though a renew reached it while it was drawn", "ask 0 render m 4 0 0 = queued 0; claim 0 = job 0 m 4 0 0 0; renew 0 = version 1 renewed 0; finish 0 = clean"),
    (3, "clean though a tile above it was expired while it was drawn", "ask 0 render m 4 8 8 = queued 0; claim 0 = job 0 m 4 8 8 0; expire 1 1 1 = expired 0; finish 0 = clean"),
    (3, "told as clean before the next drawing", "{overtaken}; look m 0 0 0 = clean 0"),
    (3, "told as clean while the next one is drawn", "{overtaken}; claim 0 = job 1 m 0 0 0 0; look m 0 0 0 = clean 0"),
    (3, "told as clean where the next one could not be stored", "{overtaken}; claim 0 = job 1 m 0 0 0 0; finish 1 = putfailed; look m 0 0 0 = clean 0"),
    (3, "told as clean behind the drawing of another", "{overtaken}; ask 0 render m 4 0 0 = queued 1; claim 0 = job 1 m 4 0 0 0; finish 1 = clean; look m 0 0 0 = clean 0"),
    ((1, 3), "sent as clean before the next drawing", "{overtaken}; fetch m 0 0 0 = clean 0 m.-.0/0/0.-"),
    ((3, 4), "done before the next drawing", "{overtaken}; ask 2 render m 0 0 0 = done"),
    (4, "done though nobody drew it", "ask 0 render m 0 0 0 = done"),
    (4, "done though its map has another style", "{drawn}; restyle 0 = styled 1; ask 0 render m 0 0 0 = done"),
    (4, "done since another map has it", "{drawn}; ask 0 render n 0 0 0 = done"),
    (4, "done while it is drawn", "{asked}; ask 1 render m 0 0 0 = done"),
    (4, "done by a drawing that was cut", "{asked}; cut 0 = cut; collect 0 = reply 0 0 done"),
    (4, "done before the drawing ends", "{asked}; collect 0 = reply 0 0 done"),
    (4, "done by the drawing before the request", "{drawn}; collect 0 = reply 0 0 done; expire 0 0 0 = expired 1; ask 0 render m 0 0 0 = queued 1; collect 0 = reply 0 1 done"),
    (4, "done by the drawing of another", "{asked}; ask 1 render m 4 0 0 = queued 1; finish 0 = clean; collect 0 = reply 1 1 done"),
    (4, "done to one that did not ask", "{drawn}; collect 0 = reply 7 0 done"),
    (4, "done under a number that nobody has", "{drawn}; collect 0 = reply 0 3 done"),
)
# Mistakes that no sentence speaks of: what is right there is a rule of answers, by which `farm.py` gives another one.
PASSED_OVER = (
    ("dirty by an update alone", "{drawn}; update 0 = version 1; look m 0 0 0 = dirty 0"),
    ("an update that the table does not have", "update 9 = version 1"),
    ("an update that does not fit", "update 2 = version 1"),
    ("replies out of order", "ask 0 render m 0 0 0 = queued 0; ask 1 render m 0 0 0 = joined 1; claim 0 = job 0 m 0 0 0 0; finish 0 = clean; collect 0 = reply 1 1 done"),
    ("expired beside its square", "ask 0 render m 4 0 8 = queued 0; claim 0 = job 0 m 4 0 8 0; finish 0 = clean; expire 1 1 1 = expired 1"),
    ("a newcomer joins what was expired", "{asked}; expire 5 3 3 = expired 0; ask 2 render m 0 0 0 = joined 1"),
    ("the dirty queue before the low one", "{full}; ask 0 render m 10 16 0 = notdone 6; ask 0 low m 10 48 0 = queued 2; claim 0 = job 0 m 10 0 0 0; finish 0 = clean; claim 0 = job 1 m 10 8 0 0; finish 1 = clean; claim 0 = job 2 m 10 16 0 0"),
    ("dropped while there is room", "{full}; ask 0 render m 10 16 0 = notdone 7"),
    ("more than the dirty queue takes", "{full}; ask 0 render m 10 16 0 = notdone 6; ask 0 render m 10 24 0 = notdone 6; ask 0 render m 10 32 0 = notdone 6"),
    ("more drawings than workers", "{full}; ask 0 low m 10 48 0 = queued 2; claim 0 = job 0 m 10 0 0 0; claim 1 = job 1 m 10 8 0 0; claim 0 = job 2 m 10 48 0 0"),
    ("given out after a stop", "ask 0 render m 0 0 0 = queued 0; stop = stopping; claim 0 = job 0 m 0 0 0 0"),
    ("a reply to a connection that was left", "{asked}; leave 0 = left 1; finish 0 = clean; collect 0 = reply 0 0 done"),
    ("left with what it had asked for", "ask 0 render m 0 0 0 = queued 0; leave 0 = left 1; claim 0 = idle"),
    ("counted before it is collected", "{drawn}; tally = asks 1 done 1 stored 1 version 0"),
    ("left in the bulk queue by a better command", "ask 0 bulk m 10 0 0 = queued 0; ask 1 low m 10 0 0 = joined 1"),
    ("a style that the table does not have", "restyle 9 = styled 0"),
    ("a renew out of its reach", "{far}; renew 0 = version 1 renewed 1"),
    ("gone though it was stored", "{drawn}; fetch m 0 0 0 = gone"),
)
# Histories that keep the promise, though they look like one that does not; the rules answer so.
RIGHT = (("marked dirty after a stop", "{drawn}; stop = stopping; ask 1 dirty m 0 0 0 = silent; fetch m 0 0 0 = clean 0 m.-.0/0/0.-"),)


def small_plan():
    """Two maps, a style for the first, and updates of which the first reaches one metatile. Pictures tell what is drawn."""
    maps = [("m", 18), ("n", 18)]
    told = lambda style: "-" if style is None else str(style)
    drawing = lambda place, style, tile, data: "%s.%s.%d/%d/%d.%s" % (maps[place][0], told(style), *tile, "+".join(map(str, data)) or "-")
    return Plan(maps, [0], drawing, lambda data, number, key: number != 0 or key[1:] == (4, 0, 0))


def small_farm():
    """The farm of that plan by the rules of `farm.py`, with narrow queues; its third update does not fit."""
    style = farm.tilefarm.style_of(b'{"styles":[],"layers":[]}'), []
    point = lambda *at: {"id": 0, "kind": "points", "paths": [[at]], "attrs": {}}
    updates = [[("spots", [], [point(1, 1)])], [("spots", [], [point(2**29, 2**29)])], [("sea", [], [])]]
    maps = [{"name": name, "style": style, "tile": 16, "maxzoom": 18} for name in "mn"]
    limits = {"prio": 32, "request": 2, "low": 32, "dirty": 2, "bulk": 32}
    return farm.Farm({"maps": maps, "limits": limits, "workers": 2, "restyles": [(0, style)], "layers": {"spots": {}}, "updates": updates})


def lines_in(text):
    return [line.split(" = ") for line in text.format(**BEGUN).split("; ")]


def mistaken(number, what, text):
    """What is wrong with the promise: a mistake that it passes over, or refuses for another sentence or too early."""
    wanted = [number] if isinstance(number, int) else list(number)
    plan, h = small_plan(), [event_of(*line) for line in lines_in(text)]
    early, late = broken(plan, h[:-1]), broken(plan, h)
    if early or late != wanted:
        return "mistaken history (%s): it breaks %s, and %s before, where %s was meant" % (what, late, early, wanted)
    return None


def answered(lines):
    """What the rules answer to lines, one after another."""
    known, hand = small_farm(), set()
    return [farm.answer_of(known, hand, *farm.line_of(line.encode())).split(b"\n")[0].decode() for line, _ in lines]


def right(what, text):
    """What is wrong with a history that keeps the promise: it does not, or the rules give other answers."""
    lines = lines_in(text)
    found, told = broken(small_plan(), [event_of(*line) for line in lines]), answered(lines)
    first = lambda line, answer: answer.split(" ")[: 2 if line.startswith("fetch ") else None]  # behind it stands a picture
    if found or [first(line, answer) for (line, _), answer in zip(lines, told)] != [first(*line) for line in lines]:
        return "right history (%s): it breaks the sentences %s, and the rules answer %s" % (what, found, told)
    return None


def passed_over(what, text):
    """What is wrong with a mistake that no sentence speaks of: one does, or `farm.py` gives the same answers."""
    lines = lines_in(text)
    told, given = answered(lines), [answer for _, answer in lines]
    if broken(small_plan(), [event_of(*line) for line in lines]):
        return "mistaken history (%s): it breaks a sentence" % what
    if told[:-1] != given[:-1] or told[-1] == given[-1]:
        return "mistaken history (%s): the rules answer %s" % (what, told)
    return None


# --- Histories of `script` --------------------------------------------------------------------------------------

COMMON = {"ask": 16, "claim": 14, "finish": 14, "fetch": 14, "collect": 8, "look": 3, "expire": 2, "update": 2, "renew": 1, "restyle": 1}


def line_of(r, maps, hand):
    """A line about few tiles, most of which are drawn and read again and again."""
    spot = "%s %d %d %d" % ((r.choice(maps),) + r.choice(script_worlds.SPOTS[:5]))
    z = r.choice((0, 3, 4, 4, 18))
    return {
        "ask": "ask %d %s %s" % (r.randrange(4), r.choice(("render", "render", "render", "prio", "dirty")), spot),
        "claim": "claim 0",
        "finish": "%s %d" % ("finish" if r.random() < 0.95 else "cut", r.choice(sorted(hand) or [0])),
        "fetch": "fetch " + spot,
        "look": "look " + spot,
        "collect": "collect 0",
        "expire": "expire %d %d %d" % (z, r.choice((0, 2**z // 2)), r.choice((0, 2**z // 2))),
        "update": "update %d" % r.randrange(4),
        "renew": "renew %d" % r.randrange(4),
        "restyle": "restyle %d" % r.randrange(2),
    }[r.choices(list(COMMON), list(COMMON.values()))[0]]


def of_script(program, seed, number):
    """A plan, and the history of a script over it. Of some farms the puts of one zoom fail: a file stands in their way."""
    r, case = random.Random("promise %d %d" % (seed, number)), differ.scripts(seed, number)
    config = json.loads(case.files["config"])
    if number % 4:
        lines = script_worlds.script_file(r, None, config, 150, line_of)
        case.files["script"] = "\n".join(lines).encode()
    with tempfile.TemporaryDirectory(prefix="promise-") as folder:
        case.write(folder)
        if number % 4 == 3:
            os.makedirs(os.path.join(folder, "tiles", "default"))
            open(os.path.join(folder, "tiles", "default", "3"), "w").close()
        out, err, status = differ.ran(program, folder, case.words)
        if status not in (0, 6):
            raise ValueError("script ended with status %d: %s" % (status, err.decode("utf-8", "replace")))
        return plan_in(folder), history_of(case.files["script"].decode().split("\n"), out)


def made_wrong(plan, h):
    """Histories that differ from one that was seen in one place, each with a sentence that it must break."""
    for at, event in enumerate(h):
        if isinstance(event, Fetch) and event.told == "clean":
            yield 1, h[:at] + [Expire(event.spot[1:]), event]
            yield 1, h[:at] + [event._replace(version=event.version + 1)]
            yield 1, h[:at] + [event._replace(picture=event.picture[:-1] + bytes([event.picture[-1] ^ 1]))]
        if isinstance(event, Claim):
            yield 2, h[: at + 1] + [event._replace(ticket=event.ticket + 1000)]
        if isinstance(event, Finish) and event.end == "clean":
            spot = next(other.spot for other in h[:at] if isinstance(other, Claim) and other.ticket == event.ticket)
            yield 3, h[:at] + [Expire(spot[1:]), event]
            yield 3, h[:at] + [Expire(spot[1:]), event._replace(end="dirty"), Look(spot, "clean", 0)]
        if isinstance(event, Ask) and event.answer == "done":
            yield 4, h[:at] + [Expire(event.spot[1:]), event]
        if isinstance(event, Collect) and event.outcome == "done":
            yield 4, h[:at] + [event._replace(ask=event.ask + 1000)]


def tried_scripts(program, seconds, least, seeds):
    """How many histories of scripts kept the promise, how many of them that were made wrong did not, what else came."""
    end, counts = time.monotonic() + seconds, collections.Counter()
    for number in itertools.count():
        if number >= least and time.monotonic() > end:
            return counts, []
        plan, h = of_script(program, seeds[number % len(seeds)], number // len(seeds))
        if broken(plan, h):
            return counts, ["script %d of the seeds %s: it breaks the sentences %s" % (number, seeds, broken(plan, h))]
        counts["histories"] += 1
        counts["tiles sent as clean"] += sum(isinstance(event, Fetch) and event.told == "clean" for event in h)
        counts["drawings"] += sum(isinstance(event, Claim) for event in h)
        counts["replies Done"] += sum(isinstance(event, Collect) and event.outcome == "done" for event in h)
        wrong = list(made_wrong(plan, h))
        for sentence, other in random.Random(number).sample(wrong, min(6, len(wrong))):
            if sentence not in broken(plan, other):
                return counts, ["script %d of the seeds %s, made wrong at its place %d: sentence %d passes it" % (number, seeds, len(other) - 1, sentence)]
            counts["histories made wrong"] += 1


# --- What clients of `serve` see --------------------------------------------------------------------------------
# They do not see Claims and ends, and of a request and its answer they know only that the farm did it in between. What is
# asked here is what the sentences then say to them; of the second, clients see nothing. One client alone sends control
# lines, so what these do to the farm stands in their order.

Seen = collections.namedtuple("Seen", "begin end event")  # an event, and when it was asked and answered
Told = collections.namedtuple("Told", "spot told version")  # a tile's status
Marked = collections.namedtuple("Marked", "spot")  # a request that marks it dirty
Done = collections.namedtuple("Done", "spot")  # renderd's answer that it is done


def versions(plan, changes, seen, one):
    """The least and the greatest version that a tile may have which is clean: a drawing of it was claimed after each
    change and each mark that touches it and was answered before the client asked, and before the answer came."""
    key, h, least = plan.key_of(one.event.spot), [change.event for change in changes], 0
    for at, change in enumerate(changes):
        if change.end < one.begin and touches(plan, h, at, key):
            least = len(data_at(h, at + 1))
    for mark in seen:
        if isinstance(mark.event, Marked) and mark.end < one.begin and plan.key_of(mark.event.spot) == key:
            least = max(least, len(data_at(h, sum(change.end < mark.begin for change in changes))))
    return least, len(data_at(h, sum(change.begin < one.end for change in changes)))


def is_right_picture(plan, changes, one):
    """Whether a tile is the plain drawing over the data of its version, in a style that its map had meanwhile."""
    key, h = plan.key_of(one.event.spot), [change.event for change in changes]
    first, last = sum(change.end < one.begin for change in changes), sum(change.begin < one.end for change in changes)
    styles = {style_at(plan, h, at, key[0]) for at in range(first, last + 1)}
    data = data_at(h, len(h))[: one.event.version]
    return any(one.event.picture == plan.drawing(key[0], style, one.event.spot[1:], data) for style in styles)


def broken_to_clients(plan, changes, seen):
    """The sentences that do not hold of what clients saw, by their numbers."""
    found = set()
    for one in seen:
        if isinstance(one.event, (Fetch, Told)) and one.event.told == "clean":
            least, most = versions(plan, changes, seen, one)
            is_version = least <= one.event.version <= most
            if isinstance(one.event, Fetch) and not (is_version and is_right_picture(plan, changes, one)):
                found.add(1)
            if not is_version:
                found.add(3)
        if isinstance(one.event, Told) and one.event.told == "missing":
            if any(isinstance(other.event, Done) and other.end < one.begin and plan.key_of(other.event.spot) == plan.key_of(one.event.spot) for other in seen):
                found.add(4)
    return sorted(found)


class Clients:
    """A running `serve` in a folder, and what its clients see."""

    def __init__(self, program, folder, lists):
        self.folder, self.lists, self.seen, self.changes, self.failed = folder, lists, [], [], []
        self.process = subprocess.Popen([program, "serve", "config"], cwd=folder, stdin=subprocess.DEVNULL, stdout=subprocess.PIPE, stderr=subprocess.PIPE)

    def connected(self, name):
        """A connection, which is waited for while the farm begins."""
        begin = patience.now()
        while True:
            made = socket.socket(socket.AF_UNIX)
            made.settimeout(300)
            try:
                made.connect(os.path.join(self.folder, name))
                return made
            except OSError:
                made.close()
                if self.process.poll() is not None or patience.now() > begin + 20:
                    raise
                time.sleep(0.01)

    def page(self, target):
        """What a request is answered: the status, the head's lines and the body."""
        with self.connected("t") as made:
            made.sendall(b"GET %s HTTP/1.1\r\nHost: a\r\n\r\n" % target.encode())
            head, body = b"".join(iter(lambda: made.recv(65536), b"")).split(b"\r\n\r\n", 1)
        lines = head.decode().split("\r\n")
        return int(lines[0].split(" ")[1]), dict(line.split(": ", 1) for line in lines[1:]), body

    def see(self, what, call):
        """Calls, and keeps the event that comes of it, if one does, with its times."""
        begin = time.monotonic()
        event = call()
        if event is not None:
            what.append(Seen(begin, time.monotonic(), event))

    def tile(self, spot):
        status, head, picture = self.page("/%s/%d/%d/%d.ppm" % spot)
        return Fetch(spot, head["X-Tile"], int(head["X-Version"]), picture) if status == 200 else None

    def status(self, spot):
        status, _, body = self.page("/%s/%d/%d/%d.ppm/status" % spot)
        words = body.decode().split()
        return Told(spot, words[0], int(words[1]) if len(words) > 1 else None) if status == 200 else None

    def marked(self, spot):
        return Marked(spot) if self.page("/%s/%d/%d/%d.ppm/dirty" % spot)[0] == 200 else None

    def done(self, made, spot):
        """Asks for a metatile in renderd's protocol (version 2, a render request), and waits for the answer."""
        made.sendall(struct.pack("<5I44s", 2, 1, spot[2], spot[3], spot[1], spot[0].encode()))
        told = b""
        while len(told) < 64:
            told += made.recv(64 - len(told))
        return Done(spot) if struct.unpack_from("<2I", told)[1] == 3 else None

    def reads(self, r, spots, count):
        for _ in range(count):
            call = r.choices((self.tile, self.status, self.marked), (8, 3, 1))[0]
            spot = r.choice(spots)
            self.see(self.seen, lambda: call(spot))

    def renders(self, r, spots, count):
        with self.connected("r") as made:
            for _ in range(count):
                spot = r.choice(spots)
                self.see(self.seen, lambda: self.done(made, spot))
                self.see(self.seen, lambda: self.status(spot))

    def controls(self, r, count):
        with self.connected("c") as made, made.makefile("rb") as answers:
            for _ in range(count):
                word, number = r.choice(("update", "renew", "expire", "expire", "restyle")), r.randrange(3)
                begin = time.monotonic()
                made.sendall(b"%s %d\n" % (word.encode(), number))
                told = answers.readline().decode().strip().split(" ")[0]
                events = {"version": (Update if word == "update" else Renew,), "styled": (Restyle,)}.get(told, ())
                made_of = [event(number) for event in events] + [Expire(tile) for tile in self.lists[number] if told == "expired"]
                self.changes += [Seen(begin, time.monotonic(), event) for event in made_of]
                time.sleep(0.02 * r.random())

    def guarded(self, call, *values):
        try:
            call(*values)
        except Exception as error:  # told by the thread that waits
            self.failed.append("%s: %r" % (call.__name__, error))

    def stopped(self):
        """Stops the farm; whatever is wrong with how it ended."""
        try:
            with self.connected("c") as made:
                made.sendall(b"stop\n")
                made.recv(100)
        except OSError as error:
            self.failed.append("stop: %r" % error)
            self.process.kill()
        out, err = self.process.communicate()
        if self.process.returncode != 0 or self.failed:
            raise ValueError("serve: status %d, %s, %s" % (self.process.returncode, err.decode(), "; ".join(self.failed)))


def of_serve(program, seed, number):
    """A plan, the changes that a farm over it was told, and what its clients saw meanwhile."""
    r, case = random.Random("serve %d %d" % (seed, number)), differ.scripts(seed, 4 * number)
    config = json.loads(case.files["config"])
    lists = [[(4, r.randrange(16), r.randrange(16)) for _ in range(1 + at)] for at in range(3)]
    config.update(renderd="unix:r", tiles="unix:t", control="unix:c", workers=2, expiries=["list%d" % at for at in range(3)], limits={})
    case.files.update({"list%d" % at: "\n".join("%d/%d/%d" % tile for tile in tiles).encode() for at, tiles in enumerate(lists)})
    case.files["config"] = json.dumps(config).encode()
    spots = [(entry["name"],) + spot for entry in config["maps"] for spot in script_worlds.SPOTS[:5] if spot[0] <= entry.get("maxzoom", 18)]
    with tempfile.TemporaryDirectory(prefix="promise-") as folder:
        case.write(folder)
        clients = Clients(program, folder, lists)
        calls = [(clients.reads, random.Random(r.random()), spots, 25) for _ in range(3)]
        calls += [(clients.renders, random.Random(r.random()), spots, 15), (clients.controls, random.Random(r.random()), 15)]
        threads = [threading.Thread(target=clients.guarded, args=call) for call in calls]
        for thread in threads:
            thread.start()
        for thread in threads:
            thread.join()
        clients.stopped()
        return plan_in(folder), clients.changes, clients.seen


def seen_wrong(plan, changes, seen):
    """What clients saw with one thing changed, and a sentence that does not hold of it."""
    for at, one in enumerate(seen):
        others = seen[:at] + seen[at + 1 :]
        if isinstance(one.event, (Fetch, Told)) and one.event.told == "clean":
            least, most = versions(plan, changes, seen, one)
            for version in {least - 1, most + 1}:
                yield 3, others + [one._replace(event=one.event._replace(version=version))]
        if isinstance(one.event, Fetch) and one.event.told == "clean":
            yield 1, others + [one._replace(event=one.event._replace(picture=one.event.picture[:-1] + bytes([one.event.picture[-1] ^ 1])))]
        if isinstance(one.event, Done):
            yield 4, seen + [Seen(one.end + 1, one.end + 1, Told(one.event.spot, "missing", None))]


def tried_farms(program, seconds, least, seeds):
    """The same of farms that serve."""
    end, counts = time.monotonic() + seconds, collections.Counter()
    for number in itertools.count():
        if number >= least and time.monotonic() > end:
            return counts, []
        plan, changes, seen = of_serve(program, seeds[number % len(seeds)], number // len(seeds))
        if broken_to_clients(plan, changes, seen):
            return counts, ["farm %d of the seeds %s: clients see the sentences %s broken" % (number, seeds, broken_to_clients(plan, changes, seen))]
        counts["histories of clients"] += 1
        counts["tiles sent as clean"] += sum(isinstance(one.event, Fetch) and one.event.told == "clean" for one in seen)
        counts["replies Done"] += sum(isinstance(one.event, Done) for one in seen)
        wrong = list(seen_wrong(plan, changes, seen))
        for sentence, other in random.Random(number).sample(wrong, min(6, len(wrong))):
            if sentence not in broken_to_clients(plan, changes, other):
                return counts, ["farm %d of the seeds %s, seen wrong: sentence %d passes it" % (number, seeds, sentence)]
            counts["histories made wrong"] += 1


# --- All of it --------------------------------------------------------------------------------------------------


LEAST = 12  # histories of scripts that are tried of each program, and half as many farms, however long they take


def tried(program, seconds, least=LEAST):
    """What was tried of a program, and what is wrong."""
    seeds = (differ.FIXED, differ.commit_seed())
    counts, wrong = tried_scripts(program, seconds * 0.6, least, seeds)
    of_farms, more = tried_farms(program, seconds * 0.4, least // 2, seeds)
    return counts + of_farms, wrong + more


def main(words):
    is_gate = words[:1] == ["--gate"]
    programs = words[1:] if is_gate else words
    wrong = [mistaken(*mistake) for mistake in MISTAKES] + [passed_over(*mistake) for mistake in PASSED_OVER] + [right(*kept) for kept in RIGHT]
    wrong, counts = [text for text in wrong if text], collections.Counter()
    programs = programs or [differ.BUILT]
    for program in programs:
        with differ.copied(os.path.abspath(program)) as copy:
            more, failures = tried(copy, (40 if is_gate else 120) / len(programs))
        counts, wrong = counts + more, wrong + failures
    counts["mistaken histories"] = len(MISTAKES)
    counts["mistakes that no sentence speaks of"] = len(PASSED_OVER)
    histories = counts.pop("histories")
    for what, number in counts.items():
        print("promise: tried %d %s" % (number, what))
    for text in wrong:
        print("promise: FAILED: " + text)
    print("promise: tried %d histories" % histories)
    return 1 if wrong else 0


if __name__ == "__main__":
    sys.setrecursionlimit(10000)
    sys.exit(main(sys.argv[1:]))
