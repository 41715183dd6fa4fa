#!/usr/bin/env python3
"""Writes the OBJ text of a sphere of radius 240 about the origin: a cube's grid blown up to it.

  examples/sphere.py [CELLS]

Each side of the cube has CELLS by CELLS quads (40), so there are 12 * CELLS * CELLS triangles
(19,200). The sphere is closed and faces outwards: counter-clockwise seen from outside. Faces are
written in patches of 8 by 8 quads, so that 128 triangles in turn, a cluster of `geode draw`, lie
together.
"""
import sys
from math import hypot, pi, tan

RADIUS = 240
PATCH = 8


def vertex(lattice, cells):
    """The sphere's point over a lattice point of the cube, spread so that quads are nearly alike."""
    point = [tan(pi / 4 * (2 * place / cells - 1)) for place in lattice]
    length = hypot(*point)
    return tuple(RADIUS * part / length for part in point)


def cells_of(cells):
    """The places of a side's quads, patch by patch."""
    for first_row in range(0, cells, PATCH):
        for first_column in range(0, cells, PATCH):
            for row in range(first_row, min(first_row + PATCH, cells)):
                for column in range(first_column, min(first_column + PATCH, cells)):
                    yield row, column


def quads(cells):
    """The four lattice points of each quad, counter-clockwise seen from outside."""
    for axis in range(3):
        for level in (0, cells):
            def corner(row, column):
                turned = (level, row, column)
                return tuple(turned[(place - axis) % 3] for place in range(3))
            for row, column in cells_of(cells):
                quad = [corner(row, column), corner(row + 1, column), corner(row + 1, column + 1),
                        corner(row, column + 1)]
                yield quad if level else quad[::-1]


def main(cells=40):
    if cells < 1:
        sys.exit('sphere: fewer than 1 cell')
    numbers = {}
    faces = []
    for quad in quads(cells):
        a, b, c, d = (numbers.setdefault(point, len(numbers) + 1) for point in quad)
        faces += [(a, b, c), (a, c, d)]
    for point in numbers:
        print('v %.6f %.6f %.6f' % vertex(point, cells))
    for face in faces:
        print('f %d %d %d' % face)


if __name__ == '__main__':
    if len(sys.argv) > 2 or not all(word.isdecimal() for word in sys.argv[1:]):
        sys.exit(__doc__)
    main(*map(int, sys.argv[1:]))
