#!/usr/bin/env python3
"""Makes a style for tilefarm of a style in Mapnik's XML.

    python3 mapnik.py MAP.xml > style.json

It takes Map, Style, Rule, Filter, ElseFilter, scale denominators, PolygonSymbolizer, LineSymbolizer,
MarkersSymbolizer and Layer, their values as attributes or as CssParameter. A layer's source is its name: make
the data with one layer of that name for each; by which command, is told on standard error. What the farm does not
draw is left out, and each thing that is left out is named there with its line, style and rule; at the end stands how
many rules came through, and what the picture lacks. A rule that loses its symbolizers stays where it still decides what
others draw. A style of more rules than the farm takes is cut by its scales, so that each scale has the rules that it had.
It needs Python's standard library alone.
"""

import collections
import colorsys
import itertools
import json
import re
import shlex
import sys
import xml.etree.ElementTree as tree
from xml.parsers import expat

MOST_RULES, MOST_STYLES, MOST_LAYERS, MOST_SYMBOLIZERS = 256, 256, 64, 16  # of the farm (docs/maps/styles.md)
NO_BOUND = 10.0**12

# The colour names of CSS that the farm does not know by name.
COLOURS = """aliceblue f0f8ff antiquewhite faebd7 aquamarine 7fffd4 azure f0ffff beige f5f5dc bisque ffe4c4
blanchedalmond ffebcd blueviolet 8a2be2 brown a52a2a burlywood deb887 cadetblue 5f9ea0 chartreuse 7fff00
chocolate d2691e coral ff7f50 cornflowerblue 6495ed cornsilk fff8dc crimson dc143c cyan 00ffff darkblue 00008b
darkcyan 008b8b darkgoldenrod b8860b darkgray a9a9a9 darkgreen 006400 darkgrey a9a9a9 darkkhaki bdb76b
darkmagenta 8b008b darkolivegreen 556b2f darkorange ff8c00 darkorchid 9932cc darkred 8b0000 darksalmon e9967a
darkseagreen 8fbc8f darkslateblue 483d8b darkslategray 2f4f4f darkslategrey 2f4f4f darkturquoise 00ced1
darkviolet 9400d3 deeppink ff1493 deepskyblue 00bfff dimgray 696969 dimgrey 696969 dodgerblue 1e90ff
firebrick b22222 floralwhite fffaf0 forestgreen 228b22 gainsboro dcdcdc ghostwhite f8f8ff gold ffd700
goldenrod daa520 grey 808080 greenyellow adff2f honeydew f0fff0 hotpink ff69b4 indianred cd5c5c indigo 4b0082
ivory fffff0 khaki f0e68c lavender e6e6fa lavenderblush fff0f5 lawngreen 7cfc00 lemonchiffon fffacd
lightblue add8e6 lightcoral f08080 lightcyan e0ffff lightgoldenrodyellow fafad2 lightgray d3d3d3
lightgreen 90ee90 lightgrey d3d3d3 lightpink ffb6c1 lightsalmon ffa07a lightseagreen 20b2aa lightskyblue 87cefa
lightslategray 778899 lightslategrey 778899 lightsteelblue b0c4de lightyellow ffffe0 limegreen 32cd32
linen faf0e6 magenta ff00ff mediumaquamarine 66cdaa mediumblue 0000cd mediumorchid ba55d3 mediumpurple 9370db
mediumseagreen 3cb371 mediumslateblue 7b68ee mediumspringgreen 00fa9a mediumturquoise 48d1cc
mediumvioletred c71585 midnightblue 191970 mintcream f5fffa mistyrose ffe4e1 moccasin ffe4b5 navajowhite ffdead
oldlace fdf5e6 olivedrab 6b8e23 orange ffa500 orangered ff4500 orchid da70d6 palegoldenrod eee8aa
palegreen 98fb98 paleturquoise afeeee palevioletred db7093 papayawhip ffefd5 peachpuff ffdab9 peru cd853f
pink ffc0cb plum dda0dd powderblue b0e0e6 rosybrown bc8f8f royalblue 4169e1 saddlebrown 8b4513 salmon fa8072
sandybrown f4a460 seagreen 2e8b57 seashell fff5ee sienna a0522d skyblue 87ceeb slateblue 6a5acd
slategray 708090 slategrey 708090 snow fffafa springgreen 00ff7f steelblue 4682b4 tan d2b48c thistle d8bfd8
tomato ff6347 turquoise 40e0d0 violet ee82ee wheat f5deb3 whitesmoke f5f5f5 yellowgreen 9acd32""".split()
COLOURS = {name: "#" + value for name, value in zip(COLOURS[::2], COLOURS[1::2])}
OWN = "aqua black blue fuchsia gray green lime maroon navy olive purple red silver teal white yellow".split()
CAPS = {"0": "butt", "1": "square", "2": "round"}  # as Mapnik's save_map writes them
WORDS = {"eq": "=", "neq": "!=", "lt": "<", "le": "<=", "gt": ">", "ge": ">="}



class Place:
    """Where something stands: its line, and its names for a reader."""

    def __init__(self, text, element):
        self.text, self.line = text, element.line

    def of(self, text, element):
        return Place("%s, %s" % (self.text, text), element)


class Told:
    """What was left out: how often, by its kind, and what became of the rules."""

    def __init__(self):
        self.path, self.count, self.kinds, self.rules = "", 0, collections.Counter(), collections.Counter()


TOLD = Told()


def say(line, text):
    print("%s:%d: %s" % (TOLD.path, line, " ".join(text.split())), file=sys.stderr)


def leave(place, what, kind=None):
    """Names what is left out; its kind is its first word."""
    TOLD.count += 1
    TOLD.kinds[kind or re.split(r"[=, ]", what)[0]] += 1
    say(place.line, "%s: left out: %s" % (place.text, what))


def hexadecimal(parts):
    return "#%02x%02x%02x" % tuple(max(0, min(255, round(part))) for part in parts)


def colour_of(text, place):
    """The colour and how opaque it is, or None."""
    text = text.strip().lower()
    if re.fullmatch(r"#[0-9a-f]{3}|#[0-9a-f]{6}", text) or text in OWN:
        return (text, 1.0)
    if re.fullmatch(r"#[0-9a-f]{8}", text):
        return (text[:7], int(text[7:], 16) / 255)
    if text in COLOURS:
        return (COLOURS[text], 1.0)
    if text == "transparent":
        return ("black", 0.0)
    found = re.fullmatch(r"(rgb|rgba|hsl|hsla)\(([^()]*)\)", text)
    parts = [part.strip() for part in found.group(2).split(",")] if found else []
    try:
        if found and found.group(1).startswith("rgb") and len(parts) in (3, 4):
            scaled = [float(p[:-1]) * 2.55 if p.endswith("%") else float(p) for p in parts[:3]]
            return (hexadecimal(scaled), float(parts[3]) if len(parts) == 4 else 1.0)
        if found and len(parts) in (3, 4):
            hue, saturation, light = float(parts[0]) / 360, float(parts[1].rstrip("%")) / 100, float(parts[2].rstrip("%")) / 100
            scaled = [255 * part for part in colorsys.hls_to_rgb(hue, light, saturation)]
            return (hexadecimal(scaled), float(parts[3]) if len(parts) == 4 else 1.0)
    except ValueError:
        pass
    leave(place, "colour %s, which is not known" % text)
    return None


def decimal(number, digits):
    text = ("%.*f" % (digits, number)).rstrip("0").rstrip(".")
    return text or "0"


def number_of(values, key, place, least=None, most=None, digits=2):
    """The number of this key as the farm writes it, or None where there is none to be had."""
    if key not in values:
        return None
    try:
        number = float(values[key])
    except ValueError:
        leave(place, "%s=%s, which is no number" % (key, values[key]))
        return None
    kept = number if least is None else max(least, min(most, number))
    if kept != number:
        leave(place, "%s=%s past %s to %s" % (key, values[key], decimal(least, 2), decimal(most, 2)))
    return decimal(kept, digits)


def values_of(element):
    """The attributes of a symbolizer, those of CssParameter among them."""
    values = dict(element.attrib)
    for child in element:
        if child.tag in ("CssParameter", "SvgParameter"):
            values[child.get("name", "")] = (child.text or "").strip()
    return values


# What changes no pixel here: nothing is antialiased or clipped, and features are not cached
SAME = "clip gamma gamma-method rasterizer cache-features buffer-size clear-label-cache".split()


def leave_rest(values, known, place):
    for key in sorted(set(values) - set(known) - set(SAME)):
        leave(place, "%s=%s" % (key, values[key]))


def opacity_of(values, keys, clear):
    """The product of what is told of opacity, in thousandths."""
    product = clear
    for key in keys:
        try:
            product *= float(values.get(key, "1"))
        except ValueError:
            pass
    return decimal(max(0.0, min(1.0, product)), 3)


def painted(made, values, key, opacity_key, other_opacity, place):
    """Puts colour and opacity into a symbolizer; false where the colour is not known."""
    clear = 1.0
    if key in values:
        colour = colour_of(values[key], place)
        if colour is None:
            return False
        made[key], clear = colour
    opacity = opacity_of(values, [opacity_key, other_opacity], clear)
    if opacity != "1":
        made[opacity_key if made["symbolizer"] != "MarkersSymbolizer" else "opacity"] = opacity
    return True


def polygon(values, place):
    made = {"symbolizer": "PolygonSymbolizer"}
    leave_rest(values, ["fill", "fill-opacity", "opacity"], place)
    return made if painted(made, values, "fill", "fill-opacity", "opacity", place) else None


def line(values, place):
    made = {"symbolizer": "LineSymbolizer"}
    known = ["stroke", "stroke-opacity", "opacity", "stroke-width", "stroke-linecap", "stroke-linejoin"]
    leave_rest(values, known, place)
    if not painted(made, values, "stroke", "stroke-opacity", "opacity", place):
        return None
    width = number_of(values, "stroke-width", place, 0.01, 64)
    if width is not None:
        made["stroke-width"] = width
    cap = values.get("stroke-linecap", "butt")
    if CAPS.get(cap, cap) in CAPS.values():
        made.update({"stroke-linecap": CAPS.get(cap, cap)} if "stroke-linecap" in values else {})
    else:
        leave(place, "stroke-linecap=%s" % cap)
    if values.get("stroke-linejoin", "round") not in ("round", "2"):
        leave(place, "stroke-linejoin=%s: joins are round" % values["stroke-linejoin"])
    return made


def markers(values, place):
    made = {"symbolizer": "MarkersSymbolizer"}
    if values.get("placement", "point") in ("line", "vertex-first", "vertex-last"):
        leave(place, "markers along lines", "markers along lines")
        return None
    if "file" in values:
        leave(place, "file=%s: an ellipse stands in its place" % values.pop("file"), "icons")
    same = {"allow-overlap": "true", "marker-type": "ellipse", "stroke-width": "0", "placement": "point"}  # what the farm does
    known = [key for key, value in same.items() if values.get(key) == value]
    leave_rest(values, known + ["allow-overlap", "fill", "fill-opacity", "opacity", "width", "height"], place)
    if values.get("allow-overlap") != "true":
        leave(place, "allow-overlap is not true: Mapnik leaves out markers that overlap, the farm draws them all")
    values = dict({"fill": "blue"}, **values)  # Mapnik's own colour and size where none are told
    if not painted(made, values, "fill", "fill-opacity", "opacity", place):
        return None
    width, height = number_of(values, "width", place, 0.01, 64), number_of(values, "height", place, 0.01, 64)
    made["width"], made["height"] = width or height or "10", height or width or "10"
    return made


SYMBOLIZERS = {"PolygonSymbolizer": polygon, "LineSymbolizer": line, "MarkersSymbolizer": markers}


def filter_of(text, place):
    """The filter in the farm's signs, or None where it says what the farm does not."""
    made, rest = [], text.strip()
    while rest:
        found = re.match(r"\s+|'(?:[^'\\]|\\.)*'|\"(?:[^\"\\]|\\.)*\"|\[[^\]]+\]|[0-9]+(?:\.[0-9]+)?|[A-Za-z_][\w.:]*|[<>=!&|]{1,2}|[-+*/%()]|.", rest, re.S)
        token, rest = found.group(0), rest[found.end():]
        if re.fullmatch(r"[0-9]+\.[0-9]+", token) and not token.rstrip("0").endswith("."):
            leave(place, "filter %s: the fraction %s" % (text, token))
            return None
        if re.fullmatch(r"[0-9]+\.0+", token):
            token = token.partition(".")[0]
        word = token.lower()
        if re.match(r"[A-Za-z_.]", token) and word not in ("and", "or", "not", "true", "false", "null"):
            if word not in WORDS:
                leave(place, "filter %s: %s" % (text, token))
                return None
            token = WORDS[word]
        made.append("==" == token and "=" or token)
    return "".join(made)


def rule(element, place):
    """The rule, or None where its filter cannot be kept; and what became of it is counted."""
    before, made = TOLD.count, {}
    for child in element:
        if child.tag == "Filter":
            text = filter_of(child.text or "", place)
            if text is None:
                say(place.line, "%s: left out: the whole rule, since its filter cannot be kept" % place.text)
                TOLD.rules["not at all"] += 1
                return None
            if text:
                made["Filter"] = text
        elif child.tag == "ElseFilter":
            made["ElseFilter"] = True
        elif child.tag in ("MinScaleDenominator", "MaxScaleDenominator"):
            number = number_of({child.tag: child.text or ""}, child.tag, place)
            if number is not None:
                made[child.tag] = number
        elif child.tag not in SYMBOLIZERS:
            leave(place.of(child.tag, child), child.tag)
    asked = [child for child in element if child.tag.endswith("Symbolizer")]
    symbolizers = [SYMBOLIZERS[c.tag](values_of(c), place.of(c.tag, c)) for c in asked if c.tag in SYMBOLIZERS]
    made["symbolizers"] = [s for s in symbolizers if s is not None]
    if len(made["symbolizers"]) > MOST_SYMBOLIZERS:
        leave(place, "symbolizers past the first %d" % MOST_SYMBOLIZERS)
        del made["symbolizers"][MOST_SYMBOLIZERS:]
    became = "whole" if TOLD.count == before else "in part" if made["symbolizers"] else "as filters alone"
    TOLD.rules[became] += 1
    return made


def bounds(each):
    return float(each.get("MinScaleDenominator", 0)), float(each.get("MaxScaleDenominator", NO_BOUND))


def without_idle(rules, is_first):
    """The rules without those that draw nothing and decide nothing: where all are tried, those without symbolizers, and where
    the first decides, those behind the last that draws. Where a rule is for what no other took, all stay."""
    if any("ElseFilter" in each for each in rules):
        return rules
    if not is_first:
        return [each for each in rules if each["symbolizers"]]
    last = max([place for place, each in enumerate(rules) if each["symbolizers"]], default=-1)
    return rules[: last + 1]


def within(each, least, most):
    """The rule for these scales alone."""
    low, high = max(bounds(each)[0], least), min(bounds(each)[1], most)
    made = {key: value for key, value in each.items() if not key.endswith("ScaleDenominator")}
    made.update({"MinScaleDenominator": decimal(low, 2)} if low > 0 else {})
    made.update({"MaxScaleDenominator": decimal(high, 2)} if high < NO_BOUND else {})
    return made


def merged(rules):
    """The rules of which the first decides, where neighbours that draw the same become one."""
    made = []
    for same, group in itertools.groupby(rules, lambda each: {key: value for key, value in each.items() if key != "Filter"}):
        group = list(group)
        if len(group) == 1 or not all("Filter" in each for each in group):
            made += group
        else:
            made.append(dict(same, Filter=" or ".join("(%s)" % each["Filter"] for each in group)))
    return made


def by_scales(rules, is_first, least=0.0, most=NO_BOUND):
    """The rules in lists that the farm takes, each for a range of scales of its own."""
    here = without_idle([within(each, least, most) for each in rules if bounds(each)[0] < most and least < bounds(each)[1]], is_first)
    here = merged(here) if is_first else here
    inner = sorted({bound for each in here for bound in bounds(each) if least < bound < most})
    if len(here) <= MOST_RULES or not inner:
        return [here] if here else []
    middle = inner[len(inner) // 2]
    return by_scales(rules, is_first, least, middle) + by_scales(rules, is_first, middle, most)


def style(element):
    """The styles that one becomes: several where it has too many rules, one for each range of scales; none where nothing of it
    is drawn."""
    name = element.get("name", "")
    place = Place("style %s" % name, element)
    leave_rest(element.attrib, ["name", "filter-mode"], place)
    read = [rule(r, place.of("rule %d" % i, r)) for i, r in enumerate(element.findall("Rule"))]
    is_first, made = element.get("filter-mode") == "first", []
    parts = by_scales([each for each in read if each is not None], is_first) or [[]]
    for number, rules in enumerate(parts):
        if len(rules) > MOST_RULES:
            leave(place, "%d rules of one scale past the first %d" % (len(rules) - MOST_RULES, MOST_RULES), "rules past the limit")
        each = {"name": name if len(parts) == 1 else "%s %d" % (name, number + 1)}
        each.update({"filter-mode": element.get("filter-mode")} if element.get("filter-mode") in ("all", "first") else {})
        made.append(dict(each, rules=rules[:MOST_RULES]))
    return made


def layer(element, parts):
    """The layer, or None where it is off. `parts` are the styles that each of Mapnik's became."""
    name = element.get("name", "")
    place = Place("layer %s" % name, element)
    if element.get("status", "on") in ("off", "false", "0"):
        leave(place, "the whole layer, which is off", "layers that are off")
        return None
    made = {"name": name, "source": name, "styles": []}
    leave_rest(element.attrib, ["name", "status", "srs", "minimum-scale-denominator", "maximum-scale-denominator"], place)
    for key in ("minimum-scale-denominator", "maximum-scale-denominator"):
        number = number_of(element.attrib, key, place)
        if number is not None:
            made[key] = number
    for child in element.findall("StyleName"):
        wanted = (child.text or "").strip()
        if wanted in parts:
            made["styles"] += [each["name"] for each in parts[wanted]]
        else:
            leave(place, "style %s, which is not there" % wanted)
    return made


def data_of(element):
    """Where a layer's data are: the parameters of its Datasource and its coordinates, or None."""
    found = element.find("Datasource")
    if found is None:
        return None
    values = {child.get("name", ""): (child.text or "").strip() for child in found}
    return dict(values, srs=element.get("srs", ""))


def words_of(name, data):
    """The word of `farmctl data` for a source, or None where its data are in no file."""
    path = data.get("file", "")
    if data.get("type") == "shape" and path and not path.endswith(".shp"):
        path += ".shp"
    return "%s=%s" % (name, path) if path else None


def tell_sources(sources):
    """Tells where the data of each source are, and by which command those in files become the farm's."""
    words, systems, encodings = [], collections.Counter(), collections.Counter()
    for name, data, line in sources:
        word = words_of(name, data)
        if word is None:
            where = ["%s=%s" % (key, data[key]) for key in sorted(data) if key not in ("srs", "password") and data[key]]
            say(line, "source %s: its data are not in a file, but in %s" % (name, " ".join(where)))
            continue
        words += [word]
        systems[data["srs"]] += 1
        if data.get("encoding", "utf-8").lower() not in ("utf-8", "utf8"):
            encodings[data["encoding"]] += 1
            say(line, "source %s: its texts are in %s" % (name, data["encoding"]))
    for srs, count in systems.items():
        if srs and count < max(systems.values()):
            say(0, "sources of another coordinate system, %s: where their files do not say so, ogr2ogr -a_srs writes it there" % srs)
    if words:
        srs = systems.most_common(1)[0][0]
        more = (["--srs", srs] if srs else []) + (["--encoding", encodings.most_common(1)[0][0]] if encodings else [])
        line = ["farmctl", "data"] + words + more + ["--style", "style.json", "-o", "data.json"]
        print("make the data with: " + " ".join(shlex.quote(word) for word in line), file=sys.stderr)


def draws(each, styles):
    return any(rule["symbolizers"] for name in each["styles"] for rule in styles[name]["rules"])


def layers(elements, parts):
    """The layers. Mapnik lets several have one name, the farm does not: later ones get a number, and keep the source
    of the first where their data are the same. One of whose styles nothing is drawn is left out."""
    made, taken, sources, told = [], set(), {}, []
    styles = {each["name"]: each for several in parts.values() for each in several}
    for element in elements:
        each = layer(element, parts)
        if each is None:
            continue
        if each["styles"] and not draws(each, styles):
            leave(Place("layer %s" % each["name"], element), "the whole layer, of which nothing is drawn", "layers of which nothing is drawn")
            continue
        name, number, data = each["name"], 2, data_of(element)
        while each["name"] in taken:
            each["name"], number = "%s %d" % (name, number), number + 1
        taken.add(each["name"])
        key = name, tuple(sorted((data or {}).items()))
        if data is not None and key not in sources:
            told.append((each["name"], data, element.line))
        each["source"] = sources.setdefault(key, each["name"])
        made.append(each)
    tell_sources(told)
    return made


class Placed(tree.Element):
    """An element that knows its line."""

    line = 0


def parsed(path):
    """The root element of a file."""
    builder, parser = tree.TreeBuilder(element_factory=Placed), expat.ParserCreate()

    def start(tag, attributes):
        builder.start(tag, attributes).line = parser.CurrentLineNumber

    parser.StartElementHandler, parser.EndElementHandler, parser.CharacterDataHandler = start, builder.end, builder.data
    parser.buffer_text = True
    with open(path, "rb") as source:
        parser.ParseFile(source)
    return builder.close()


def read(path):
    """The map's element; a file that is no style of Mapnik ends the program with one line."""
    try:
        root = parsed(path)
    except (OSError, expat.ExpatError, ValueError, LookupError) as fault:
        sys.exit("%s: cannot be read as Mapnik's XML: %s" % (path, fault))
    if root.tag != "Map":
        sys.exit("%s: cannot be read as Mapnik's XML: it begins with %s in place of Map" % (path, root.tag))
    return root


def tell_all():
    """How many rules came through, and what the picture lacks."""
    count = sum(TOLD.rules.values())
    parts = ", ".join("%d %s (%d %%)" % (number, name, round(100 * number / count)) for name, number in TOLD.rules.most_common())
    print("of %d rules came through: %s" % (count, parts or "none"), file=sys.stderr)
    if TOLD.kinds:
        print("left out: " + ", ".join("%s %d" % pair for pair in TOLD.kinds.most_common()), file=sys.stderr)


def main(words):
    if len(words) != 1 or words[0].startswith("-"):
        sys.exit(__doc__.strip())
    TOLD.path = words[0]
    root = read(words[0])
    made, place = {}, Place("map", root)
    background = root.get("background-color", root.get("bgcolor"))
    colour = colour_of(background, place) if background else None
    if colour is not None:
        made["background-color"] = colour[0]
    leave_rest(root.attrib, ["background-color", "bgcolor", "srs", "font-directory"], place)
    srs = root.get("srs", "")
    if srs and not re.search(r"\+proj=merc|:(3857|900913)$", srs):
        leave(place, "srs=%s: the farm draws in Web Mercator" % srs)
    for child in root:
        if child.tag not in ("Style", "Layer", "Parameters", "FontSet"):
            leave(Place("map", child), child.tag)
    parts = {s.get("name", ""): style(s) for s in root.findall("Style")}
    made["layers"] = layers(root.findall("Layer"), parts)
    named = {name for each in made["layers"] for name in each["styles"]}
    made["styles"] = [each for several in parts.values() for each in several if each["name"] in named or root.find("Layer") is None]
    for key, most in (("layers", MOST_LAYERS), ("styles", MOST_STYLES)):
        if len(made[key]) > most:
            leave(place, "%d %s past the first %d: the farm refuses the style" % (len(made[key]) - most, key, most), key + " past the limit")
    tell_all()
    json.dump(made, sys.stdout, ensure_ascii=False, indent=1)
    print()


if __name__ == "__main__":
    main(sys.argv[1:])
