#!/usr/bin/env python3
"""Writes the OBJ text of a torus knot, a tube along a curve that goes twice round and three times through.

  examples/torus_knot.py [RINGS [SIDES]]

The tube has RINGS cross-sections (312) of SIDES vertices each (32), so 2 * RINGS * SIDES triangles
(19,968), and lies within 300 units of the origin; the torus's axis is z. It is closed and faces
outwards: counter-clockwise seen from outside. Faces are written in patches of 8 by 8 quads, so that
128 triangles in turn, a cluster of `geode draw`, lie together.
"""
import sys
from math import cos, hypot, pi, sin

AROUND, THROUGH = 2, 3
RING_RADIUS, CURVE_RADIUS, TUBE_RADIUS = 165, 75, 45
PATCH = 8


def cross(a, b):
    return (a[1] * b[2] - a[2] * b[1], a[2] * b[0] - a[0] * b[2], a[0] * b[1] - a[1] * b[0])


def frame(t):
    """The curve's point at t, and two unit vectors that span its cross-section there.

    The first is the normal of the torus that the curve lies on, so both close up after a whole turn.
    """
    u, w = AROUND * t, THROUGH * t
    radius = RING_RADIUS + CURVE_RADIUS * cos(w)
    point = (radius * cos(u), radius * sin(u), CURVE_RADIUS * sin(w))
    normal = (cos(w) * cos(u), cos(w) * sin(u), sin(w))
    inwards, along = THROUGH * CURVE_RADIUS * sin(w), AROUND * radius
    tangent = (-inwards * cos(u) - along * sin(u), along * cos(u) - inwards * sin(u),
               THROUGH * CURVE_RADIUS * cos(w))
    length = hypot(*tangent)
    return point, normal, cross([part / length for part in tangent], normal)


def vertices(rings, sides):
    for ring in range(rings):
        point, normal, side = frame(2 * pi * ring / rings)
        for place in range(sides):
            angle = 2 * pi * place / sides
            yield [p + TUBE_RADIUS * (cos(angle) * n + sin(angle) * s)
                   for p, n, s in zip(point, normal, side)]


def quads(rings, sides):
    """The ring and side of each quad's first vertex, patch by patch."""
    for first_ring in range(0, rings, PATCH):
        for first_side in range(0, sides, PATCH):
            for ring in range(first_ring, min(first_ring + PATCH, rings)):
                for side in range(first_side, min(first_side + PATCH, sides)):
                    yield ring, side


def faces(rings, sides):
    for ring, side in quads(rings, sides):
        here, there = ring * sides + 1, (ring + 1) % rings * sides + 1
        after = (side + 1) % sides
        a, b, c, d = here + side, there + side, there + after, here + after
        yield a, c, b
        yield a, d, c


def main(rings=312, sides=32):
    if rings < 24 or sides < 3:
        sys.exit('torus_knot: fewer than 24 rings or 3 sides')
    for vertex in vertices(rings, sides):
        print('v %.6f %.6f %.6f' % tuple(vertex))
    for face in faces(rings, sides):
        print('f %d %d %d' % face)


if __name__ == '__main__':
    if len(sys.argv) > 3 or not all(word.isdecimal() for word in sys.argv[1:]):
        sys.exit(__doc__)
    main(*map(int, sys.argv[1:]))
