#!/usr/bin/env python3
"""Turns picture text, as `geode draw` writes it, into a PNG.

  tools/picture.py [FILE]

Reads the text on standard input and writes the PNG to FILE, or to standard output. The word 0 is
background. Any other pixel is brighter the nearer it is and the more its surface faces the light,
and tinted by its cluster. A line may stand behind `# `, as the rows of a report do. For a text that
is no picture it names the line on standard error, writes nothing and ends with status 1.
"""
import re
import struct
import sys
import zlib
from math import sqrt

BACKGROUND = (17, 19, 25)
# Seven tints of one lightness; clusters take them in turn.
TINTS = ((252, 196, 192), (190, 218, 178), (200, 208, 250), (236, 206, 168), (160, 222, 210), (240, 198, 230),
         (158, 218, 244))
LEVELS = 255 // len(TINTS)
# The share of light that is left to the farthest pixel, and to a surface turned from the light.
FAR_LIGHT, SHADE_LIGHT = 0.45, 0.30
# The way that the light goes: rightwards, downwards and away from the viewer.
LIGHT = (0.36, 0.48, 0.80)
# The focal length, which no word tells, as a multiple of the picture's longer side.
FOCAL = 2


class NoPicture(Exception):
    pass


def words_of(number, line):
    """The words of one line."""
    words = line.removeprefix('# ').split(' ')
    for word in words:
        if not re.fullmatch('[0-9a-f]*', word):
            raise NoPicture(f'line {number}: {word!r} where a word of hexadecimal digits stands')
        if len(word) != 16:
            raise NoPicture(f'line {number}: {len(word)} digits where a word has 16')
    return [int(word, 16) for word in words]


def read_picture(text):
    """The rows of words that a picture text holds."""
    *lines, rest = text.split('\n')
    rows = []
    for number, line in enumerate(lines, 1):
        rows.append(words_of(number, line))
        if len(rows[-1]) != len(rows[0]):
            raise NoPicture(f'line {number}: {len(rows[-1])} words where line 1 has {len(rows[0])}')
    if rest or not rows:
        raise NoPicture(f'line {len(lines) + 1}: ' + ('no line feed at its end' if rest else 'no words'))
    return rows


def slope(before, here, after):
    """How much depth grows from one pixel to the next: the lesser of both sides, so of one surface."""
    if before and after:
        return min(here - before, after - here, key=abs)
    return here - before if before else after - here if after else 0


def facing(depths, row, column):
    """The cosine between the light and the surface at a pixel.

    On the picture of a plane, depth is an affine function of the place, since it is a multiple of the
    distance's reciprocal. So its two slopes, and its value at the middle, give the plane's normal.
    """
    height, width = len(depths) - 2, len(depths[0]) - 2
    above, line, below = depths[row:row + 3]
    here = line[column + 1]
    across = slope(line[column], here, line[column + 2])
    down = slope(above[column + 1], here, below[column + 1])
    focal = FOCAL * max(width, height)
    normal = (focal * across, focal * down, here - (column - width / 2) * across - (row - height / 2) * down)
    length = sqrt(sum(part * part for part in normal))
    return max(0, sum(part * way for part, way in zip(normal, LIGHT)) / length)


def indices(rows):
    """The rows of places in the palette, a byte a pixel."""
    edge = [0] * (len(rows[0]) + 2)
    depths = [edge, *([0, *(word >> 34 for word in row), 0] for row in rows), edge]
    seen = [depth for line in depths for depth in line if depth]
    far, near = min(seen, default=0), max(seen, default=0)
    for row, words in enumerate(rows):
        line = bytearray(len(words))
        for column, word in enumerate(words):
            if word:
                nearness = ((word >> 34) - far) / max(near - far, 1)
                light = ((FAR_LIGHT + (1 - FAR_LIGHT) * nearness)
                         * (SHADE_LIGHT + (1 - SHADE_LIGHT) * facing(depths, row, column)))
                tint = (word >> 7) % 2 ** 27 % len(TINTS)
                line[column] = 1 + tint * LEVELS + min(int(light * LEVELS), LEVELS - 1)
        yield line


def palette():
    """The background, then each tint from dark to light."""
    colours = [BACKGROUND]
    for tint in TINTS:
        colours += [[part * level // LEVELS for part in tint] for level in range(1, LEVELS + 1)]
    return b''.join(map(bytes, colours))


def chunk(name, data):
    return struct.pack('>I', len(data)) + name + data + struct.pack('>I', zlib.crc32(name + data))


def png(lines):
    """A PNG of indexed colours (ISO/IEC 15948), each line unfiltered."""
    head = struct.pack('>IIBBBBB', len(lines[0]), len(lines), 8, 3, 0, 0, 0)
    packed = zlib.compress(b''.join(b'\0' + line for line in lines), 9)
    return (b'\x89PNG\r\n\x1a\n' + chunk(b'IHDR', head) + chunk(b'PLTE', palette())
            + chunk(b'IDAT', packed) + chunk(b'IEND', b''))


def main(name=None):
    try:
        rows = read_picture(sys.stdin.buffer.read().decode('latin-1'))
        made = png(list(indices(rows)))
        with open(name, 'wb') if name else sys.stdout.buffer as file:
            file.write(made)
    except (NoPicture, OSError) as fault:
        sys.exit(f'picture: {fault}')


if __name__ == '__main__':
    if len(sys.argv) > 2:
        sys.exit(__doc__)
    main(*sys.argv[1:])
