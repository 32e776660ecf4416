"""The pixels of PNG and PPM pictures, as rows of three bytes a pixel. It needs Python 3 and nothing else."""

import struct
import zlib


def of_ppm(text):
    """A binary PPM without comments, of values to 255, as tilefarm writes it (Netpbm, ppm)."""
    kind, columns, rows, most, data = text.split(maxsplit=4) if text[:2] == b"P6" else (b"",) * 5
    if kind != b"P6" or most != b"255":
        raise ValueError("not this kind of PPM")
    wide, data = 3 * int(columns), text[len(text) - 3 * int(columns) * int(rows) :]
    return [data[at : at + wide] for at in range(0, len(data), wide)]


def of_png(text):
    """A PNG of eight bits a channel in colours, with or without opacity, which is left out, or with a palette (W3C, PNG, sections
    9 and 11)."""
    at, packed, palette = 8, b"", b""
    while at < len(text):
        (size,), kind = struct.unpack_from(">I", text, at), text[at + 4 : at + 8]
        data = text[at + 8 : at + 8 + size]
        if kind == b"IHDR":
            columns, rows, bits, colour, _, _, laced = struct.unpack(">IIBBBBB", data)
        packed += data if kind == b"IDAT" else b""
        palette = data if kind == b"PLTE" else palette
        at += 12 + size
    step = {2: 3, 3: 1, 6: 4}.get(colour)
    if laced or not step or (bits != 8 and colour != 3):
        raise ValueError("not this kind of PNG")
    data, wide = zlib.decompress(packed), -(-columns * step * bits // 8)
    before, made = bytearray(wide), []
    for row in range(rows):
        line = bytearray(data[row * (wide + 1) + 1 : (row + 1) * (wide + 1)])
        unfilter(data[row * (wide + 1)], line, before, step)
        made.append(line)
        before = line
    if colour == 3:
        return [of_palette(line, columns, bits, palette) for line in made]
    return [bytes(line) if step == 3 else b"".join(line[i : i + 3] for i in range(0, wide, 4)) for line in made]


def of_palette(line, columns, bits, palette):
    """The colours of a row of places in a palette, of so many bits each, the upper ones of a byte first."""
    each, most = 8 // bits, (1 << bits) - 1
    places = [line[i // each] >> 8 - bits * (i % each + 1) & most for i in range(columns)]
    return b"".join(palette[3 * place : 3 * place + 3] for place in places)


def unfilter(kind, line, before, step):
    """Undoes a row's filter in place: none, the pixel at the left, above, the mean of both, or the nearest of three (Paeth)."""
    for i in range(len(line) if kind else 0):
        left, up = line[i - step] if i >= step else 0, before[i]
        corner = before[i - step] if i >= step else 0
        near = min((abs(up - corner), 0, left), (abs(left - corner), 1, up), (abs(left + up - 2 * corner), 2, corner))[2]
        line[i] = (line[i] + (0, left, up, (left + up) // 2, near)[kind]) & 255
