"""What a line of tilefarm means, which object it names, and how to mend it: every line that it can write on standard
error. The line counts places from 0; this says names where there are names.
"""

from __future__ import annotations

import json
import re
from pathlib import Path
from typing import Any

from farmctl.errors import FarmError

STYLE = {
    1: "the text is no UTF-8 or no JSON, or nests more than 127 lists and objects: repair the JSON",
    2: "a value of the wrong kind, or a key that must be there and is not: values are strings, as \"2.5\"; a raster's numbers are whole; a rule has Filter or ElseFilter, not both, and ElseFilter is true",
    3: "the filter is refused: look at the byte that the last number names, counted from 0",
    4: "a text outside its grammar: a colour, a number, a width, or a name of no bytes or of more than 64",
    5: "the layer names a style that is not there: mend the name",
    6: "an earlier style, layer or raster has this name: rename one",
    7: "a key or a symbolizer that is not known here: take it out (docs/maps/styles.md lists the keys)",
    8: "a list, a width or a raster's number past its limits: make it smaller",
}
FILTER = {1: "the byte or word there cannot stand there", 2: "the number there is past 9223372036854775807",
          3: "more than 64 are nested there"}
DATA = {
    1: "the text is no UTF-8 or no JSON, or nests more than 127 lists and objects: repair the JSON",
    2: "a value of a wrong kind, a missing or unknown key, a name that has not 1 to 64 bytes, a number outside its 64 bits, "
       "or more than 64 layers",
    3: "the parts of this feature make no geometry",
    4: "an earlier feature of this layer has this id: give it another",
    5: "an earlier layer has this name: rename it, or put the features of both into one",
    6: "more than 1,000,000 features in one layer or change: take some out",
}
GEOMETRY = {1: "too few points: a line has two at least, a ring three", 2: "a point outside the world: look at `units`",
            3: "more than 65,536 points: take it apart", 4: "more than 64 attributes"}
PPM = {1: "the byte there may not stand there, or the file ends there: write P6, the sides, 255, and three bytes a pixel",
       2: "a side is over 4,096 pixels: cut it"}
META = {1: "the file ends before the container's head does", 2: "the file does not begin with META",
        3: "METZ: a compressed container, which is not read", 4: "the count is not 64",
        5: "zoom, column and row are those of no metatile", 6: "a tile lies outside the file"}

KEYS = [
    "the object itself", "maps", "data", "updates", "expiries", "workers", "limits", "renderd", "tiles", "control", "restyles", "resume",
]  # fmt: skip
CONFIG = {
    1: "the text is no UTF-8 or no JSON, or nests more than 127 lists and objects: repair the JSON",
    2: "a value of the wrong kind, a key that must be there and is not, a key that is not known, a text outside its form, or a "
       "restyle of a map that is not there",
    3: "a number outside its range, a list with too many entries, or no map at all",
    4: "an earlier map has this name: rename one",
}
FORMS = {
    1: "a list of 1 to 16 maps, each with name (1 to 40 of a-z 0-9 _ -), style, tile (16, 32, 64, 128, 256, 512) and perhaps maxzoom (0 to 18)",
    2: "the name of a file, and must be there", 3: "a list of at most 256 names of files", 4: "a list of at most 256 names of files",
    5: "a whole number from 1 to 16", 6: "an object with any of prio, request, low and bulk, 1 to 32, and dirty, 1 to 1000",
    7: "an address, tcp:a.b.c.d:port or unix:PATH", 8: "an address, tcp:a.b.c.d:port or unix:PATH",
    9: "an address, tcp:a.b.c.d:port or unix:PATH", 10: "a list of at most 256 objects with map and style", 11: "true or false",
}
SAVED = {1: "the file ends too early", 2: "it does not begin with FSV1: another program wrote it", 3: "an update of no known kind",
         4: "an entry that is no metatile, out of order, or of a version that never was", 5: "bytes behind its end"}
RESUME = {1: "the configuration has another number of maps than the run that saved",
          2: "a style or an update that was in use is no longer in its list, or is of another map: lists may only grow at their end",
          3: "a clean tile is of no map, or past its map's maxzoom", 4: "an update that was made no longer fits the data"}
ANEW = "remove tiles/farm.saved to begin anew (all is then drawn again, the version counts from 0: send the renews again)"
WHOLE = {
    "out of memory": "no memory, or no thread, for what was asked; of `serve`: to begin, for a whole front, or for saving",
    "the store failed": "below `tiles` something could not be read or written; of `serve`: tiles/farm.saved. Look at `df` and at the rights of `tiles`; "
                        "a farm that ended so has to be told its renews again",
    "turns used up": "the farm has answered 2^62 calls: start it again",
}


KINDS = r"style|dataset|ppm|grid|meta|config|list|script|saved|resume|cannot be read"
USAGE = (
    "the words are none of the five forms: numbers are decimal without sign or leading zeros, and there are no options; "
    "T is 16, 32, 64, 128, 256 or 512"
)
MOST_SHOWN = 400  # characters of an object


def item(values: Any, place: int) -> Any:
    return values[place] if isinstance(values, list) and place < len(values) else None


def key_of(value: Any, key: str) -> Any:
    return value.get(key) if isinstance(value, dict) else None


def named(kind: str, value: Any, place: int) -> str:
    name = key_of(value, "name")
    return f"{kind} {place}" + (f" ({json.dumps(name, ensure_ascii=False)})" if name is not None else "")


def shown(value: Any) -> str:
    text = json.dumps(value, ensure_ascii=False)
    return text if len(text) <= MOST_SHOWN else text[:MOST_SHOWN] + " .."


def loaded(path: Path | None) -> Any:
    try:
        return json.loads(path.read_text(encoding="utf-8")) if path else None
    except (OSError, ValueError, RecursionError):
        return None


def in_style(style: Any, part: str, places: list[int]) -> tuple[Any, str]:
    """The object of a style that these places name, and its path by names."""
    if part == "map" or not isinstance(style, dict):
        return style, "the map itself"
    if part in ("layer", "raster"):
        value = item(style.get(part + "s"), places[0])
        return value, named(part, value, places[0])
    value = item(style.get("styles"), places[0])
    path = named("style", value, places[0])
    for depth, (kind, key) in enumerate((("rule", "rules"), ("symbolizer", "symbolizers")), 1):
        if part == "style" or (part == "rule" and kind == "symbolizer"):
            break
        value = item(key_of(value, key), places[depth])
        path += ", " + named(kind, value, places[depth])
        if kind == "symbolizer" and isinstance(value, dict):
            path += f" ({value.get('symbolizer')})"
    return value, path


def filter_lines(value: Any, number: int, offset: int) -> list[str]:
    """The filter, and below it a mark at the byte where its fault is."""
    text = str(key_of(value, "Filter") or "").encode()
    before = len(text[:offset].decode(errors="replace"))
    return [f"filter: {text.decode()}", " " * (8 + before) + "^ " + FILTER.get(number, "")]


def of_style(words: list[str], style: Any) -> list[str]:
    told = []
    found = re.match(r"at (\w+) (\d+) (\d+) (\d+)(?: filter (\d) (\d+))?", " ".join(words[1:]))
    if found:
        value, path = in_style(style, found[1], [int(place) for place in found.group(2, 3, 4)])
        told.append(f"where: {path}")
        if value is not None:
            told.append(f"it is: {shown(value)}")
        if found[5] and isinstance(value, dict):
            told += filter_lines(value, int(found[5]), int(found[6]))
    return [*told, f"why: {STYLE.get(int(words[0]), 'not known')}"]


def of_data(words: list[str], data: Any) -> list[str]:
    told = []
    found = re.match(r"at (\d+)(?: (\d+))?(?: geometry (\d))?(?: id (\d+))?$", " ".join(words[1:]))
    if found:
        layer = item(key_of(data, "layers") or key_of(data, "changes"), int(found[1]))
        told.append(f"where: {named('layer', layer, int(found[1]))}")
        feature = item(key_of(layer, "features") or key_of(layer, "put"), int(found[2])) if found[2] else None
        if feature is not None:
            told.append(f"feature {found[2]} of it: {shown(feature)}")
        if found[3]:
            told.append(f"geometry: {GEOMETRY.get(int(found[3]), 'not known')}")
        if found[4]:
            told.append(f"id: {found[4]}")
    return [*told, f"why: {DATA.get(int(words[0]), 'not known')}"]


def of_key(place: int, config: Any) -> list[str]:
    """What a key of a configuration is, and what it must be."""
    key = KEYS[place]
    told = [f"where: the key {key}" if place else f"where: {key}"]
    if isinstance(config, dict) and key in config:
        told.append(f"it is: {shown(config[key])}")
    elif isinstance(config, dict) and place:
        told.append("it is not there")
    unknown = sorted(set(config) - set(KEYS)) if isinstance(config, dict) else []
    if place in FORMS:
        told.append(f"it must be: {FORMS[place]}")
    elif unknown:
        told.append(f"not known: {', '.join(unknown)}")
    return told


def of_config(words: list[str], config: Any) -> list[str]:
    number = int(words[0])
    place = int(words[2]) if len(words) > 2 else None
    told = [f"why: {CONFIG.get(number, 'not known')}"]
    if number == 4 and place is not None:
        return [*told, f"where: {named('map', item(key_of(config, 'maps'), place), place)}"]
    return told + (of_key(place, config) if place is not None and place < len(KEYS) else [])


def of_line(kind: str, words: list[str], path: Path | None) -> list[str]:
    """A line of a list or of a script."""
    number = int(words[3])
    told = [f"where: line {number}, counted from 1"]
    try:
        line = (path.read_bytes() if path else b"").split(b"\n")[number - 1].decode(errors="replace")
        told.append(f"it is: {line!r}")
    except (OSError, IndexError):
        pass  # the line is told without it
    forms = {
        "list": "z/x/y, a tile of zoom 0 to 18, without leading zeros or blanks",
        "script": "one of docs/operate/script.md's table, words apart by one space",
    }
    return [*told, f"why: no line that can stand there: {forms[kind]}; line 1,000,001 is one too many"]


def of_ports(config: Any) -> list[str]:
    told = [
        "why: one of the three addresses is in use, not of this machine, or not allowed, or its folder is not there; "
        "they are tried in this order:"
    ]
    told += [f"  {key}: {key_of(config, key) or 'as the configuration says'}" for key in ("renderd", "tiles", "control")]
    return [
        *told,
        "look: ss -ltnp tells who listens at which port; ls -l the folder and the file of a Unix socket; ports below 1024 need rights",
        "then: tiles/farm.saved is empty now; put a copy back if you have one, or send the renews again",
    ]


def of_whole(text: str, path: Path | None) -> list[str]:
    """A line that names no file."""
    if text == "the ports failed":
        return of_ports(loaded(path))
    if text in WHOLE:
        return [f"why: {WHOLE[text]}"]
    raise FarmError(f"no line of tilefarm: {text}")


def of_kind(kind: str, numbers: list[str], path: Path) -> list[str]:
    match kind:
        case "style":
            return of_style(numbers, loaded(path))
        case "dataset":
            return of_data(numbers, loaded(path))
        case "config":
            return of_config(numbers, loaded(path))
        case "list" | "script":
            return of_line(kind, numbers, path)
        case "saved" | "resume":
            texts = SAVED if kind == "saved" else RESUME
            return [f"why: {texts.get(int(numbers[0]), 'not known')}", f"then: {ANEW}"]
        case "ppm":
            at = f"byte {numbers[2]}: " if numbers[0] == "1" else ""
            return [f"why: {at}{PPM.get(int(numbers[0]), 'not known')}"]
        case "grid":
            return ["why: a side is over 1,024 pixels: cut it, or take greater pixels"]
        case "meta":
            return [f"why: {META.get(int(numbers[0]), 'not known')}"]
    return [
        "why: there is no such file, it is a folder or longer than 2^31 bytes, or reading it failed; names are taken from the "
        "folder in which the program runs"
    ]


def explain(line: str, path: Path | None = None, folder: Path = Path()) -> list[str]:
    """What a line of tilefarm means; without a path the file that it names is looked at, where the folder has one."""
    line = line.strip()
    if line.startswith("usage:"):
        return [f"why: {USAGE}"]
    found = re.match(rf"(?:tilefarm: )?(.*): ({KINDS})\b ?(.*)$", line)
    if not found:
        return of_whole(line.removeprefix("tilefarm: "), path)
    name, kind, rest = found.groups()
    try:
        return [f"file: {name}", *of_kind(kind, rest.split(), path or folder / name)]
    except (IndexError, ValueError) as fault:
        raise FarmError(f"no line of tilefarm: {line}") from fault
