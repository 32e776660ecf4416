"""PNG of the farm's PPM, pixel for pixel: with a palette where 256 colours suffice, else in true colours.

Needs Pillow and numpy. Pillow's own ways to a palette look for colours that are near, and take ten times as long; here each
colour has its place.
"""

from __future__ import annotations

import io
import re

import numpy
from PIL import Image

MOST = 256  # colours of a palette
LEVEL = 6  # of zlib: lower ones make files up to a quarter larger, higher ones take several times as long for a fiftieth
HEAD = re.compile(rb"P6\s+(\d+)\s+(\d+)\s+255\s")
# The place of each colour in the palette that was made last. Pages of it that no colour met take no memory.
PLACES = numpy.zeros(1 << 24, numpy.uint8)

Numbers = numpy.ndarray  # a colour is red, and above it green, and above that blue


def numbers_of(ppm: bytes, start: int, count: int) -> Numbers:
    """A number for the colour of each pixel: of the four bytes from the one before it on, the upper three are its own."""
    return numpy.ndarray(count, "<u4", ppm, start - 1, (3,)) >> 8


def palette_of(pixels: Numbers) -> Numbers | None:
    """The colours, each once; None where they are more than 256."""
    begins = numpy.flatnonzero(pixels[1:] != pixels[:-1]) + 1  # runs of a colour are few on a map
    colours = numpy.unique(numpy.append(pixels[begins], pixels[0]))
    return colours if len(colours) <= MOST else None


def with_palette(size: tuple[int, int], pixels: Numbers, colours: Numbers) -> Image.Image:
    PLACES[colours] = range(len(colours))
    made = Image.frombytes("P", size, PLACES.take(pixels, mode="clip").tobytes())  # which looks at no bound; all are below it
    made.putpalette(colours.astype("<u4").view(numpy.uint8).reshape(-1, 4)[:, :3].tobytes())
    return made


def picture_of(ppm: bytes) -> Image.Image:
    """The picture of a binary PPM as the farm writes it. Raises ValueError where it is none."""
    head = HEAD.match(ppm)
    if head is None:
        raise ValueError("no binary PPM of 256 values")
    size, start = (int(head[1]), int(head[2])), head.end()
    count = size[0] * size[1]
    if count == 0 or len(ppm) - start != 3 * count:
        raise ValueError("a PPM of another length")
    pixels = numbers_of(ppm, start, count)
    colours = palette_of(pixels)
    if colours is None:
        return Image.frombytes("RGB", size, ppm[start:])
    return with_palette(size, pixels, colours)


def png_of(ppm: bytes) -> bytes:
    """The PNG of a PPM. Raises ValueError where it is none."""
    out = io.BytesIO()
    picture_of(ppm).save(out, "PNG", compress_level=LEVEL)
    return out.getvalue()
