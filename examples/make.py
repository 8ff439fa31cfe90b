#!/usr/bin/env python3
"""Writes the example images of this folder (docs/IMAGE.md describes the format): make.py [FOLDER]

A row's scale times (point - camera) is its ray: here the scale is one over the distance.
"""
import math
import os
import struct
import sys


def image(n, bearings, directions, points):
    """bearings: (camera, point, ray, weight, scale); directions: (source, target, direction, weight, scale); points: (x, y, z)"""
    row = lambda r: struct.pack('<II5d', r[0], r[1], *r[2], r[3], r[4])
    sections = [
        struct.pack('<4I', n, len(points), len(bearings), len(directions)),
        b''.join(map(row, bearings)),
        b''.join(map(row, directions)),
        b''.join(struct.pack('<3d', *p) for p in points),
    ]
    head, at = struct.pack('<HH', 1, 4), 36
    for section in sections:
        head += struct.pack('<II', at, len(section))
        at += len(section)
    return head + b''.join(sections)


def ray(a, b):
    """The unit vector from a to b, and the distance."""
    d = [q - p for p, q in zip(a, b)]
    length = math.sqrt(sum(x * x for x in d))
    return [x / length for x in d], length


def sight(cameras, points, c, p, weight=1.0):
    v, length = ray(cameras[c], points[p])
    return (c, p, v, weight, 1.0 / length)


def heading(cameras, s, t, weight=1.0):
    v, length = ray(cameras[s], cameras[t])
    return (s, t, v, weight, 1.0 / length)


def strip(n, y=0.0):
    """A flight line: a camera every 10 m at 80 m, and two tie points on the ground between neighbours."""
    cameras = [(10.0 * i, y, 80.0 + i % 3) for i in range(n)]
    points = [(10.0 * i + 5.0, y + side, (i * 7 % 5) * 0.5) for i in range(n - 1) for side in (-12.0, 12.0)]
    return cameras, points


def sights(cameras, points):
    """Each tie point is seen by the cameras within 20 m along and across the line."""
    near = lambda a, b: abs(a[0] - b[0]) < 20.0 and abs(a[1] - b[1]) < 20.0
    return [sight(cameras, points, c, p) for p in range(len(points)) for c in range(len(cameras)) if near(cameras[c], points[p])]


def whole_case():
    return image(1, [(0, 0, (0.0, 0.0, 1.0), 1.0, 0.5)], [], [(5.0, 5.0, 5.0)])


def healthy_strip():
    cameras, points = strip(12)
    headings = [heading(cameras, i, i + 1) for i in range(11)]
    return image(12, sights(cameras, points), headings, [(0.0, 0.0, 0.0)] * len(points))


def weak_strip():
    """Two frames from each of four places, tied strongly to each other; from place to place there is only a weak heading."""
    cameras = [(10.0 * i, 0.0, 80.0 + i % 3) for i in range(4) for _ in range(2)]
    points = [(10.0 * i + side, 4.0 * side, 0.5 * i) for i in range(4) for side in (-1, 0, 1)]
    seen = [sight(cameras, points, 2 * (p // 3) + frame, p, 1e10) for p in range(len(points)) for frame in range(2)]
    headings = [heading(cameras, c, c + 2) for c in range(6)]
    return image(8, seen, headings, [(0.0, 0.0, 0.0)] * len(points))


def two_flights():
    """Two flight lines with no tie between them."""
    cameras, points = strip(4)
    more, others = strip(3, 500.0)
    cameras, points = cameras + more, points + others
    return image(7, sights(cameras, points), [], [(0.0, 0.0, 0.0)] * len(points))


def overflow():
    return image(2, [], [(0, 1, (1.0, 0.0, 0.0), 1e300, 1e10)], [])


def heavy_heading():
    """A long flight line, one tie point between neighbours; the weight of the heading from 26 to 27 was meant to hold it fixed."""
    cameras, points = strip(52)
    points = [points[2 * i + i % 2] for i in range(51)]
    headings = [heading(cameras, i, i + 1, 1e200 if i == 26 else 1.0) for i in range(51)]
    return image(52, sights(cameras, points), headings, [(0.0, 0.0, 0.0)] * len(points))


EXAMPLES = {
    'whole-case': whole_case,
    'healthy-strip': healthy_strip,
    'weak-strip': weak_strip,
    'two-flights': two_flights,
    'overflow': overflow,
    'heavy-heading': heavy_heading,
    'cut-short': lambda: healthy_strip()[:2000],
}

if __name__ == '__main__':
    folder = sys.argv[1] if len(sys.argv) > 1 else os.path.dirname(os.path.abspath(__file__))
    for name, make in EXAMPLES.items():
        with open(os.path.join(folder, name + '.image'), 'wb') as out:
            out.write(make())
