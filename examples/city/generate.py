# Writes data.json, later.json and relief.ppm, the example's data, a later change of them and its shaded relief:
# `python3 generate.py` in this folder. Nothing is drawn at random, so that every run writes the same bytes. The
# program does not need it.
import json

# The tile 14/8600/5738 in centimetres of EPSG:3857; (u, v) goes over it from 0 to 1000, v to the south.
SIDE = 4007501668 / 2 ** 14
WEST = -2003750834 + 8600 * SIDE
NORTH = 2003750834 - 5738 * SIDE

layers = {"land": [], "buildings": [], "water": [], "roads": [], "spots": []}


def point(u, v):
    return [round(WEST + u / 1000 * SIDE), round(NORTH - v / 1000 * SIDE)]


def add(layer, geometry, **attrs):
    features = layers[layer]
    features.append({"id": len(features) + 1, "geometry": geometry, "attrs": attrs})


def polygon(layer, *rings, **attrs):
    add(layer, {"polygon": [[point(u, v) for u, v in ring] for ring in rings]}, **attrs)


def road(points, **attrs):
    add("roads", {"lines": [[point(u, v) for u, v in points]]}, **attrs)


def land():
    polygon("land", [(-40, -40), (420, -40), (415, 60), (400, 180), (310, 300), (160, 330), (-40, 290)],
            landuse="forest", area=52000)
    polygon("land", [(560, 40), (640, 30), (650, 90), (575, 110)], landuse="forest", area=800)
    polygon("land", [(700, 640), (1040, 570), (1040, 1040), (760, 1040)], landuse="meadow", area=61000)
    polygon("land", [(430, 330), (690, 330), (690, 520), (430, 520)], [(525, 400), (595, 400), (595, 455), (525, 455)],
            landuse="park", area=41000)
    polygon("land", [(40, 664), (660, 664), (660, 1040), (40, 1040)], landuse="residential", area=98000)


def buildings():
    for i in range(6):
        for j in range(4):
            u, v = 80 + 100 * i, 690 + 90 * j
            if i == 2 or (i + j) % 5 == 4:
                continue
            w = 24 + (i * 7 + j) % 5 * 3
            polygon("buildings", [(u, v), (u + w, v), (u + w, v + 20), (u, v + 22)], kind="house", levels=2)
            polygon("buildings", [(u + w + 8, v + 4), (u + 64, v + 4), (u + 64, v + 50), (u + w + 8, v + 50)],
                    kind="house", levels=1 + (i + j) % 4)
            polygon("buildings", [(u, v + 34), (u + w, v + 34), (u + w, v + 56), (u, v + 56)], kind="shed", levels=1)
    polygon("buildings", [(735, 300), (790, 292), (797, 330), (742, 340)], [(752, 308), (776, 305), (780, 322), (757, 325)],
            kind="school", levels=3)


def water():
    polygon("water", [(-40, 430), (140, 440), (250, 500), (420, 580), (640, 590), (820, 540), (1040, 460), (1040, 505),
                      (830, 585), (640, 635), (410, 625), (240, 545), (130, 485), (-40, 475)], water="river")
    polygon("water", [(770, 150), (850, 120), (930, 160), (940, 240), (860, 280), (780, 240)],
            [(840, 190), (870, 180), (880, 205), (850, 215)], water="lake")


# In the order in which they are drawn: the great roads last.
def roads():
    road([(430, 330), (525, 400)], highway="path")
    road([(595, 455), (690, 520)], highway="path")
    road([(690, 330), (595, 400)], highway="path")
    road([(525, 455), (430, 520)], highway="path")
    road([(200, 380), (150, 160), (60, -40)], highway="track", surface=None)
    for i in range(7):
        if i != 2 and i != 3:
            road([(60 + 100 * i, 675), (60 + 100 * i, 1040)], highway="residential")
    for j in range(5):
        road([(60, 675 + 90 * j), (660, 675 + 90 * j)], highway="residential")
    road([(600, 260), (620, 150), (600, 40)], highway="residential")
    road([(820, 350), (865, 420), (900, 520), (940, 700), (1040, 770)], highway="residential", bridge=True)
    road([(-40, 357), (200, 380), (420, 300), (600, 260), (820, 350), (1040, 297)], highway="primary", name="Ring")
    road([(310, 1040), (325, 760), (350, 640), (380, 540), (410, 420), (420, 300), (450, 120), (470, -40)],
         highway="primary", name="North Road", bridge=True)


def spots():
    for u, v, kind in [(560, 427, "fountain"), (410, 420, "bus"), (325, 765, "bus"), (860, 197, "hut"), (150, 160, "hut"),
                       (600, 40, "hut"), (765, 290, "school"), (190, 700, "shop"), (290, 790, "shop"), (590, 880, "shop"),
                       (850, 800, "viewpoint")]:
        add("spots", {"points": [point(u, v)]}, kind=kind)
    add("spots", {"points": [point(u, v) for u, v in [(700, 700), (760, 740), (800, 900), (930, 860)]]}, kind="tree")


def write_data():
    texts = []
    for name, features in layers.items():
        lines = ",\n".join("  " + json.dumps(f, separators=(",", ":")) for f in features)
        texts.append(' {"name":%s,"features":[\n%s\n ]}' % (json.dumps(name), lines))
    with open("data.json", "w") as file:
        file.write('{"units":"cm","layers":[\n' + ",\n".join(texts) + "\n]}\n")


# A lake where the park's meadow was, a road along it, the viewpoint moved there, the trees felled: an update.
def write_later():
    lake = [(760, 760), (860, 720), (970, 780), (1000, 880), (900, 960), (790, 900)]
    shore = [(660, 855), (740, 740), (860, 690), (1000, 750), (1040, 880)]
    changes = [
        ("water", [], {"polygon": [[point(u, v) for u, v in lake]]}, {"water": "lake"}),
        ("roads", [], {"lines": [[point(u, v) for u, v in shore]]}, {"highway": "residential"}),
        ("spots", [11, 12], {"points": [point(880, 690)]}, {"kind": "viewpoint"}),
    ]
    texts = []
    for name, removed, geometry, attrs in changes:
        put = [{"id": len(layers[name]) + 1, "geometry": geometry, "attrs": attrs}]
        texts.append(' {"layer":%s,"remove":%s,"put":%s}' % tuple(json.dumps(v, separators=(",", ":")) for v in (name, removed, put)))
    with open("later.json", "w") as file:
        file.write('{"units":"cm","changes":[\n' + ",\n".join(texts) + "\n]}\n")


# A hill in the north west, lit from there: 64 by 64 grey pixels, each of 1,024 world units, over the tile.
def height(u, v):
    hill = max(0, 900 - (u - 18) ** 2 - (v - 12) ** 2)
    rise = max(0, 500 - (u - 54) ** 2 - 2 * (v - 58) ** 2)
    return hill * hill // 900 + rise * rise // 400 + 6 * (63 - v)


def write_relief():
    shades = bytearray()
    for v in range(64):
        for u in range(64):
            slope = height(u + 1, v + 1) - height(u, v)
            shade = min(255, max(90, 238 + slope * 7 // 10))
            shades += bytes([shade, shade, shade])
    with open("relief.ppm", "wb") as file:
        file.write(b"P6\n64 64\n255\n" + bytes(shades))


for draw in [land, buildings, water, roads, spots, write_data, write_later, write_relief]:
    draw()
