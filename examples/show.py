#!/usr/bin/env python3
"""Shows what the solve program printed, as decimal numbers and as a picture.

    show.py [TEXT [IMAGE]] [-o PICTURE.svg]

TEXT is a file with the program's output; '-' or nothing is standard input. IMAGE is the network image that the program was given: with it
the picture has the sight lines and directions of a weight above 0, and a colour for each part. The numbers go to standard output.
"""
import argparse
import math
import struct
import sys
from html import escape

REFUSALS = {
    1: 'no camera, or more than the limit (the solve program: 64; the library: 4,096)',
    2: 'over 65,536 points, 262,144 bearings or 65,536 directions, or (the solve program) an image over 16,384 bytes',
    3: 'the length of a buffer differs from its count, or the work buffer is too short',
    4: 'a camera or point number is out of range',
    5: 'a direction from a camera to itself',
    6: 'the point lists break their rule',
    7: 'a weight, scale, ray, direction or position is outside the domain',
    8: 'route not 1, 2 or 3, or dense limit over 256',
    9: 'iterative: the diagonal + 1e-6 is not finite',
    11: 'iterative: the curvature is not finite or too small',
    12: 'iterative: the new product is not finite, or the old one is at or below 0',
    13: 'iterative: the final residual is not finite or above the allowed',
    14: 'route 1, and n-1 is over the dense limit',
    15: 'dense: a pivot is not finite or not above 0',
    16: 'dense: an entry of the factor is not finite',
    17: 'dense: a back-substituted number is not finite',
    20: 'the image is under 36 bytes, or its version is not 1 or its section count not 4',
    21: 'the image: an offset is not where the section before ended, or the last section does not end the image',
    22: 'the image: the length of a section differs from what the counts say',
    23: 'the output is shorter than the image',
}
ROUTES = {1: 'dense', 2: 'iterative', 3: 'dense, after the iterative part refused'}
COLOURS = ['#1f5fa8', '#b3541e', '#2e7d4f', '#7b3fa0', '#8a6d00', '#a02c4f']


class Wrong(Exception):
    """The text or the image is not what it should be."""


def double(digits):
    return struct.unpack('>d', bytes.fromhex(digits))[0]


def read_text(text):
    """The printed answer: ('refused', number, place, camera of 11 to 13 or None) or a dictionary."""
    lines = [line.split() for line in text.splitlines()]
    try:
        if lines[0][0] == 'refused':
            number, place = int(lines[0][1]), int(lines[0][3])
            return 'refused', number, place, int(lines[0][5]) if number in (11, 12, 13) else None
        named = lambda line: dict(zip(line[::2], map(int, line[1::2])))
        counts = named(lines[0])
        n, m = counts['cameras'], counts['points']
        report = dict(named(lines[2]), few=named(lines[3])['few'])
        vectors = [(line[0], int(line[1]), tuple(map(double, line[2:]))) for line in lines[4:]]
        names = [('c', i) for i in range(n)] + [('p', i) for i in range(m)]
        if [v[:2] for v in vectors] != names or any(len(v[2]) != 3 for v in vectors):
            raise Wrong('the text does not have a line for each camera and point')
        places = [v[2] for v in vectors]
        return dict(counts, parts=int(lines[1][1]), **report, c=places[:n], p=places[n:])
    except (IndexError, KeyError, ValueError, struct.error):
        raise Wrong("this is not the solve program's text") from None


def image_counts(image):
    """n, m, B, E, or None where the image is too short to have them."""
    return struct.unpack_from('<4I', image, 36) if len(image) >= 52 else None


def image_rows(image, answer):
    """The rows of a weight above 0: (is a bearing, first end, second end)."""
    counts = image_counts(image)
    if counts != tuple(answer[k] for k in ('cameras', 'points', 'bearings', 'directions')):
        raise Wrong('the image has other counts than the text')
    n, m, bearings, directions = counts
    if len(image) != 52 + 48 * (bearings + directions) + 24 * m:
        raise Wrong('the image has another length than its counts say')
    rows = [struct.unpack_from('<II5d', image, 52 + 48 * i) for i in range(bearings + directions)]
    if any(row[0] >= n or row[1] >= (m if i < bearings else n) for i, row in enumerate(rows)):
        raise Wrong('the image has a camera or point number out of range')
    return [(i < bearings, row[0], row[1]) for i, row in enumerate(rows) if row[5] > 0.0]


def part_labels(answer, rows):
    """Of each camera, then each point, the number of its part; parts are numbered by their lowest camera, None has no camera."""
    n = answer['cameras']
    parent = list(range(n + answer['points']))

    def root(node):
        while parent[node] != node:
            node = parent[node]
        return node

    for bearing, a, b in rows:
        a, b = root(a), root(n + b if bearing else b)
        parent[max(a, b)] = min(a, b)
    roots = [root(node) for node in range(len(parent))]
    number = {lowest: k for k, lowest in enumerate(sorted(set(roots[:n])))}
    return [number.get(r) for r in roots]


def camera_words(number, camera, counts):
    """Of 11 to 13, what the camera says: it is n where the sum over the cameras stayed finite."""
    if counts and camera >= counts[0]:
        left = {11: 'the curvature is too small', 12: 'the old product is at or below 0', 13: 'the residual is above the allowed'}
        return f'the sum over the cameras stays finite, so {left[number]}'
    words = f'the sum over the cameras stops being finite at camera {camera}'
    return words if counts else f'{words} (or stays finite, if there is no camera {camera})'


def place_words(number, place, camera, counts):
    """Where a refusal is."""
    if number in (4, 5, 7):
        for name, count in zip(('bearing', 'direction', 'point'), counts[2:] + counts[1:2] if counts else ()):
            if place < count:
                return f'{name} {place}'
            place -= count
        return f'camera {place}' if counts else f'row {place}'
    if number == 9:
        return f'camera {place}'
    if number in (11, 12, 13):
        return ('xyz'[place] if place < 3 else str(place)) + ', ' + camera_words(number, camera, counts)
    if number in (15, 16, 17):
        return f'dense row {place} (cameras without the anchor, in order)'
    if number == 21:
        return f'pair {place}'
    if number == 22:
        return ['counts', 'bearings', 'directions', 'points'][place] if place < 4 else str(place)
    return {14: f'n-1 = {place}', 23: f'{place} bytes are needed'}.get(number, '')


def refusal_words(number, place, camera, image):
    where = place_words(number, place, camera, image_counts(image) if image else None)
    return REFUSALS.get(number, 'a number that this script does not know') + (f': {where}' if where else '')


def head_lines(answer):
    some = lambda count, name: f'{count} {name}{"" if count == 1 else "s"}'
    kinds = [('cameras', 'camera'), ('points', 'point'), ('bearings', 'bearing'), ('directions', 'direction')]
    lines = [', '.join(some(answer[k], name) for k, name in kinds)]
    lines.append(f'anchor: camera {answer["anchor"]}; route {answer["route"]} ({ROUTES[answer["route"]]}), {some(answer["rounds"], "round")}')
    lines.append(f'{some(answer["few"], "camera")} held by fewer than 2 rows')
    if answer['parts'] > 1:
        lines.append(f'{answer["parts"]} parts: where they lie relative to each other means nothing')
    return lines


def numbers(answer):
    lines = head_lines(answer)
    for name, places in (('camera', answer['c']), ('point', answer['p'])):
        for i, place in enumerate(places):
            lines.append(f'{name + " " + str(i):<12}' + ''.join(f'{x!r:>26}' for x in place))
    return '\n'.join(lines)


# The picture. Lengths are pixels; text is taken to be at most 0.62 of its size wide for each character.

WIDTH, LEFT, RIGHT, ROOM, GAP = 760, 64, 24, 22, 58


def finite(place):
    return all(map(math.isfinite, place))


def ticks(low, high, length, apart):
    """Round numbers from low to high, some pixels apart."""
    step = (high - low) / max(1.0, length / apart)
    power = 10.0 ** math.floor(math.log10(step))
    step = next(k * power for k in (1, 2, 5, 10) if k * power >= step * 0.999)
    first = math.ceil(low / step)
    return [k * step for k in range(first, math.floor(high / step) + 1)]


class Panel:
    """One view: x to the right, the named axis up, both in one scale."""

    def __init__(self, title, axis, ranges, scale, top):
        self.title, self.axis, self.scale, self.top = title, axis, scale, top
        self.low_x, self.high_x = ranges[0]
        self.low, self.high = ranges[axis]
        self.height = (self.high - self.low) * scale + 2 * ROOM
        self.width = (self.high_x - self.low_x) * scale + 2 * ROOM
        self.taken = []

    def at(self, place):
        x = LEFT + ROOM + (place[0] - self.low_x) * self.scale
        y = self.top + ROOM + (self.high - place[self.axis]) * self.scale
        return x, y

    def frame(self):
        yield f'<text x="{LEFT}" y="{self.top - 8:.1f}" font-weight="bold">{self.title}</text>'
        yield f'<rect x="{LEFT}" y="{self.top:.1f}" width="{self.width:.1f}" height="{self.height:.1f}" fill="#fff" stroke="#999"/>'
        bottom, margin = self.top + self.height, ROOM / self.scale
        for t in ticks(self.low_x - margin, self.high_x + margin, self.width, 60):
            x = LEFT + ROOM + (t - self.low_x) * self.scale
            yield f'<path d="M{x:.1f} {bottom:.1f}v4" stroke="#999"/>'
            yield f'<text x="{x:.1f}" y="{bottom + 15:.1f}" text-anchor="middle" fill="#555">{t:.6g}</text>'
        for t in ticks(self.low - margin, self.high + margin, self.height, 40):
            y = self.top + ROOM + (self.high - t) * self.scale
            yield f'<path d="M{LEFT} {y:.1f}h-4" stroke="#999"/>'
            yield f'<text x="{LEFT - 7}" y="{y + 3.5:.1f}" text-anchor="end" fill="#555">{t:.6g}</text>'
        yield f'<text x="{LEFT + self.width:.1f}" y="{bottom + 29:.1f}" text-anchor="end" fill="#555">x</text>'
        yield f'<text x="{LEFT - 46}" y="{self.top + 9:.1f}" fill="#555">{"xyz"[self.axis]}</text>'

    def lines(self, ends, style):
        path = ''.join('M{:.1f} {:.1f}L{:.1f} {:.1f}'.format(*self.at(a), *self.at(b)) for a, b in ends)
        if path:
            yield f'<path d="{path}" fill="none" {style}/>'

    def free(self, box):
        inside = box[0] >= LEFT and box[2] <= LEFT + self.width and box[1] >= self.top and box[3] <= self.top + self.height
        return inside and all(box[2] <= o[0] or o[2] <= box[0] or box[3] <= o[1] or o[3] <= box[1] for o in self.taken)

    def groups(self, places):
        """Numbers by where they are drawn: what falls on one spot shares a label."""
        spots = {}
        for i, place in places:
            x, y = self.at(place)
            spots.setdefault((round(x / 3), round(y / 3)), (x, y, []))[2].append(i)
        return list(spots.values())

    def label(self, x, y, words, size, colour, reach=5):
        """A label beside a spot where there is room for it, else none; a small one goes under the spot first."""
        width = 0.62 * size * len(words)
        over, under, beside, level = -reach - 2 - size * 0.2, reach + 3 + size * 0.8, reach + 3 + width / 2, size * 0.35
        spots = ((0, over), (0, under), (beside, level), (-beside, level), (beside, over), (-beside, over), (beside, under), (-beside, under))
        if size < 11:
            spots = spots[1::-1] + spots[2:]
        for dx, dy in spots:
            cx, cy = x + dx, y + dy
            box = (cx - width / 2, cy - size * 0.8, cx + width / 2, cy + size * 0.2)
            if self.free(box):
                self.taken.append(box)
                yield f'<text x="{cx:.1f}" y="{cy:.1f}" font-size="{size}" text-anchor="middle" fill="{colour}">{words}</text>'
                return

    def draw(self, answer, rows, colour):
        cameras = [(i, v) for i, v in enumerate(answer['c']) if finite(v)]
        points = [(i, v) for i, v in enumerate(answer['p']) if finite(v)]
        yield from self.frame()
        ends = [(bearing, answer['c'][a], answer['p' if bearing else 'c'][b]) for bearing, a, b in rows]
        ends = [e for e in ends if finite(e[1]) and finite(e[2])]
        yield from self.lines([e[1:] for e in ends if e[0]], 'stroke="#9ab" stroke-width="0.6" stroke-opacity="0.7"')
        yield from self.lines([e[1:] for e in ends if not e[0]], 'stroke="#444" stroke-width="1.2" stroke-dasharray="4 3"')
        for i, v in points:
            x, y = self.at(v)
            yield f'<circle cx="{x:.1f}" cy="{y:.1f}" r="2.5" fill="{colour(answer["cameras"] + i)}"/>'
        for i, v in cameras:
            x, y = self.at(v)
            yield f'<path d="M{x:.1f} {y - 5:.1f}l5 9h-10z" fill="{colour(i)}" stroke="#fff" stroke-width="0.5"/>'
            if i == answer['anchor']:
                yield f'<circle cx="{x:.1f}" cy="{y:.1f}" r="9" fill="none" stroke="#d00" stroke-width="1.5"/>'
        camera_spots, point_spots = self.groups(cameras), self.groups(points)
        for reach, spots in ((6, camera_spots), (3, point_spots)):
            self.taken += [(x - reach, y - reach, x + reach, y + reach) for x, y, _ in spots]
        if finite(answer['c'][answer['anchor']]):
            x, y = self.at(answer['c'][answer['anchor']])
            self.taken.append((x - 9, y - 9, x + 9, y + 9))
        anchor_first = sorted(camera_spots, key=lambda spot: answer['anchor'] not in spot[2])
        name = lambda many: ','.join(map(str, many[:3])) + (f' +{len(many) - 3}' if len(many) > 3 else '')
        yield '<g paint-order="stroke" stroke="#fff" stroke-width="2.5">'
        for x, y, many in anchor_first:
            anchored = answer['anchor'] in many
            yield from self.label(x, y, name(many), 11, '#d00' if anchored else '#000', 9 if anchored else 5)
        for x, y, many in point_spots:
            yield from self.label(x, y, name(many), 8, '#666')
        yield '</g>'


def svg(width, height, body):
    head = f'<svg xmlns="http://www.w3.org/2000/svg" width="{width}" height="{height:.0f}" viewBox="0 0 {width} {height:.0f}"'
    return '\n'.join([head + ' font-family="sans-serif" font-size="10">', f'<rect width="{width}" height="{height:.0f}" fill="#fafafa"/>', *body, '</svg>', ''])


def picture(answer, rows):
    """Seen from above and from the side, in one scale."""
    shown = [v for v in answer['c'] + answer['p'] if finite(v)]
    ranges = [(min(v[k] for v in shown), max(v[k] for v in shown)) for k in range(3)]
    widest = max(high - low for low, high in ranges)
    if not math.isfinite(widest):
        raise Wrong('the positions are too far apart to be drawn')
    # an axis without extent gets a little, so that the scale is never that of rounding errors
    size = max(abs(x) for pair in ranges for x in pair)
    least = max(0.1 * widest, 1e-9 * size) or 1.0
    ranges = [r if r[1] - r[0] >= least else ((r[0] + r[1] - least) / 2, (r[0] + r[1] + least) / 2) for r in ranges]
    extent = [high - low for low, high in ranges]
    scale = min((WIDTH - LEFT - RIGHT - 2 * ROOM) / extent[0], 400 / extent[1], 400 / extent[2])
    labels = part_labels(answer, rows) if rows else [0] * (answer['cameras'] + answer['points'])
    colour = lambda node: '#888' if labels[node] is None else COLOURS[labels[node] % len(COLOURS)]
    head = head_lines(answer)
    left_out = sum(not finite(v) for v in answer['c'] + answer['p'])
    if left_out:
        head.append(f'{left_out} not finite and not drawn')
    body = [f'<text x="16" y="{22 + 16 * i}" font-size="12">{escape(line)}</text>' for i, line in enumerate(head)]
    above = Panel('from above', 1, ranges, scale, 22 + 16 * len(head) + 24)
    side = Panel('from the side', 2, ranges, scale, above.top + above.height + GAP)
    for panel in (above, side):
        body.extend(panel.draw(answer, rows, colour))
    key = 'triangles: cameras; red ring: the anchor; dots: points'
    if rows:
        key += '; thin lines: sight lines; dashed: directions' + ('; a colour for each part' if answer['parts'] > 1 else '')
    bottom = side.top + side.height + 52
    body.append(f'<text x="16" y="{bottom:.1f}" fill="#555">{key}</text>')
    return svg(WIDTH, bottom + 14, body)


def refusal_picture(words):
    lines, line = [], ''
    for word in words.split():
        if len(line) + len(word) > 90:
            lines.append(line)
            line = ''
        line += ('' if not line else ' ') + word
    lines.append(line)
    body = [f'<text x="16" y="{26 + 18 * i}" font-size="13">{escape(line)}</text>' for i, line in enumerate(lines)]
    return svg(WIDTH, 22 + 18 * len(lines) + 8, body)


def main():
    parser = argparse.ArgumentParser(description=__doc__, formatter_class=argparse.RawDescriptionHelpFormatter)
    parser.add_argument('text', nargs='?', default='-', metavar='TEXT')
    parser.add_argument('image', nargs='?', metavar='IMAGE')
    parser.add_argument('-o', metavar='PICTURE.svg', dest='out')
    given = parser.parse_args()
    try:
        text = sys.stdin.read() if given.text == '-' else open(given.text, errors='replace').read()
        image = open(given.image, 'rb').read() if given.image else None
        answer = read_text(text)
        if isinstance(answer, tuple):
            _, number, place, camera = answer
            line = f'refused {number} place {place}' + ('' if camera is None else f' camera {camera}')
            words = f'{line}: ' + refusal_words(number, place, camera, image)
            drawn = refusal_picture(words)
        else:
            rows = image_rows(image, answer) if image is not None else []
            words = numbers(answer)
            drawn = picture(answer, rows) if given.out else ''
        if given.out:
            with open(given.out, 'w') as out:
                out.write(drawn)
        print(words)
    except (Wrong, OSError) as wrong:
        sys.exit(f'show.py: {wrong}')


if __name__ == '__main__':
    main()
