#!/usr/bin/env python3
"""Writes the inputs of the crates `outlines` and `outlines_cases`: args, data/ and stdout.

    python3 oracle/outlines/cases.py

What is printed for a pair stands here as request R-10 says it (the small ones are written out below), or is program.py's.
"""
import os
import shutil
import sys

sys.dont_write_bytecode = True
from program import answers, printed  # noqa: E402

ROOT = os.path.join(os.path.dirname(os.path.abspath(__file__)), '..', '..', 'crates')


def wkt(*corners):
    return ('POLYGON ((' + ', '.join(f'{x} {y}' for x, y in corners + corners[:1]) + '))\n').encode()


def steps(n):
    """A staircase of n corners, n even, its long sides in one step each."""
    k = n // 2 - 1
    up = [p for i in range(k) for p in ((i, i), (i + 1, i))]
    return [*up, (k, k), (0, k)]


SQUARE = ((0, 0), (4, 0), (4, 2), (4, 4), (2, 4), (0, 4))
OTHER = ((2, 2), (4, 2), (6, 2), (6, 6), (2, 6), (2, 4))
BIG = 10 ** 9
FILES = {
    # every way in which two areas can lie
    'square': wkt(*SQUARE),
    'other': wkt(*OTHER),
    'turned': wkt(*SQUARE[::-1]),
    'elsewhere': wkt(*SQUARE[3:], *SQUARE[:3]),
    'far': wkt((9, 9), (12, 9), (12, 12)),
    'beside': wkt((4, 0), (7, 0), (7, 2), (4, 2)),
    'at_corner': wkt((4, 4), (8, 5), (5, 8)),
    'in_it': wkt((1, 1), (3, 1), (2, 3)),
    'around': wkt((-9, -9), (20, -9), (20, 20), (-9, 20)),
    'at_wall': wkt((4, 0), (4, 2), (1, 1)),
    'notch': wkt((0, 0), (4, 0), (4, 2), (4, 4), (3, 1), (1, 1), (0, 4)),
    # spelling
    'loose': b'polyGON   ( (  0   0 , 4 0,4 2  ,  4 4,2 4,0 4, 0 0  )  )',
    'zeros': b'POLYGON((00 -0,004 000,4 02,4 4,2 4,0 0004,0 0))\n',
    'spaced': b'POLYGON' + b' ' * 65491 + wkt(*SQUARE)[8:],
    # the corner counts and the range
    'triangle': wkt((0, 0), (1, 0), (0, 1)),
    'stairs': wkt(*steps(64)),
    'stairs_less': wkt(*steps(62)),
    'edge': wkt((-BIG, -BIG), (BIG, -BIG), (BIG, BIG), (-BIG, BIG)),
    # refusals of a text
    'empty': b'',
    'newline': b'\n',
    'two_lines': wkt(*SQUARE) + b'\n',
    'return': wkt(*SQUARE)[:-1] + b'\r\n',
    'word': b'POLYLINE ((0 0, 1 0, 0 1, 0 0))\n',
    'cut': wkt(*SQUARE)[:-3],
    'behind': wkt(*SQUARE)[:-1] + b' ',
    'plus': b'POLYGON ((0 0, +1 0, 0 1, 0 0))\n',
    'hole': b'POLYGON ((0 0, 9 0, 0 9, 0 0), (1 1, 2 1, 1 2, 1 1))\n',
    'letters': bytes([0x80, 0, 0xff]) * 40,
    'two_corners': b'POLYGON ((0 0, 1 0, 0 0))\n',
    'too_many': wkt(*steps(66)),
    'out': wkt((0, 0), (BIG + 1, 0), (0, 1)),
    'open': b'POLYGON ((0 0, 1 0, 1 1, 0 1))\n',
    'point': b'POINT (0 0)\n',
    'line': b'LINESTRING (0 0, 1 0, 1 1, 0 0)\n',
    'long': b'POLYGON' + b' ' * 65492 + wkt(*SQUARE)[8:],
    'longer': b' ' * 200000,
    # refusals of an outline, and of two
    'equal': wkt((0, 0), (0, 0), (1, 0), (0, 1)),
    'crossed': wkt((0, 0), (2, 2), (2, 0), (0, 2)),
    'pinched': wkt((0, 0), (2, 0), (1, 1), (2, 2), (0, 2), (1, 1)),
    'folded': wkt((0, 0), (4, 0), (2, 0), (2, 2)),
    'uncut': wkt((2, 2), (6, 2), (6, 6), (2, 6)),
    'on_wall': wkt((4, 1), (6, 0), (6, 3)),
    'half_wall': wkt((4, 0), (6, 0), (4, 4)),
}
PAIRS = [('square', name) for name in ('other', 'square', 'turned', 'elsewhere', 'far', 'beside', 'at_corner', 'in_it', 'around', 'at_wall',
                                       'notch', 'loose', 'zeros', 'spaced')]
PAIRS += [(b, a) for a, b in PAIRS[5:11]] + [('triangle', 'far'), ('stairs', 'stairs'), ('stairs', 'stairs_less'), ('edge', 'edge')]
for bad in ('empty', 'newline', 'two_lines', 'return', 'word', 'cut', 'behind', 'plus', 'hole', 'letters', 'two_corners', 'too_many', 'out',
            'open', 'point', 'line', 'long', 'longer', 'none', 'folder', 'equal', 'crossed', 'pinched', 'folded'):
    PAIRS += [(bad, 'square'), ('square', bad)]
PAIRS += [('square', 'uncut'), ('uncut', 'square'), ('square', 'on_wall'), ('square', 'half_wall'), ('crossed', 'uncut'),
          ('crossed', 'equal'), ('equal', 'crossed'), ('equal', 'open'), ('crossed', 'word'), ('word', 'none'), ('none', 'word'),
          ('long', 'point'), ('crossed', 'crossed')]

# by hand, from the request and from a drawing
BY_HAND = {
    ('square', 'other'): answers('212101212'),
    ('square', 'square'): answers('2FFF1FFF2'),
    ('square', 'turned'): answers('2FFF1FFF2'),
    ('square', 'far'): answers('FF2FF1212'),
    ('square', 'beside'): answers('FF2F11212'),
    ('square', 'at_corner'): answers('FF2F01212'),
    ('square', 'in_it'): answers('212FF1FF2'),
    ('in_it', 'square'): answers('2FF1FF212'),
    ('square', 'at_wall'): answers('212F11FF2'),
    ('square', 'spaced'): answers('2FFF1FFF2'),
    ('empty', 'square'): b'refused A 19 at 0\n',
    ('square', 'word'): b'refused B 19 at 4\n',
    ('square', 'hole'): b'refused B 19 at 29\n',
    ('two_lines', 'square'): b'refused A 19 at 45\n',
    ('square', 'too_many'): b'refused B 16 at 0\n',
    ('out', 'square'): b'refused A 17 at 0\n',
    ('square', 'open'): b'refused B 22 at 0\n',
    ('point', 'square'): b'refused A 16 at 0\n',
    ('square', 'line'): b'refused B 16 at 0\n',
    ('long', 'square'): b'refused A 12 at 65536\n',
    ('none', 'square'): b'refused A 23 at 0\n',
    ('square', 'folder'): b'refused B 23 at 0\n',
    ('equal', 'square'): b'refused A 18 at 0\n',
    ('crossed', 'square'): b'refused A 20 at 0 2\n',
    ('square', 'crossed'): b'refused B 20 at 0 2\n',
    ('square', 'uncut'): b'refused both 21 at 1 0\n',
    ('equal', 'open'): b'refused B 22 at 0\n',
    ('crossed', 'equal'): b'refused B 18 at 0\n',
    ('word', 'none'): b'refused A 19 at 4\n',
}


def write(crate, pairs, heading):
    folder = os.path.join(ROOT, crate)
    shutil.rmtree(os.path.join(folder, 'data'), ignore_errors=True)
    os.makedirs(os.path.join(folder, 'data'))
    text, words = b'', []
    for pair in pairs:
        for name in pair:
            words.append(name + '.wkt')
            path = os.path.join(folder, 'data', name + '.wkt')
            if name == 'folder':
                os.makedirs(path, exist_ok=True)
                open(os.path.join(path, 'inner'), 'wb').close()
            elif name in FILES:
                with open(path, 'wb') as file:
                    file.write(FILES[name])
        said = printed(FILES.get(pair[0]), FILES.get(pair[1]))
        assert BY_HAND.get(pair, said) == said, (pair, said)
        text += (b'-- %s.wkt %s.wkt\n' % (pair[0].encode(), pair[1].encode()) if heading else b'') + said
    with open(os.path.join(folder, 'args'), 'w') as file:
        file.write(''.join(word + '\n' for word in words))
    with open(os.path.join(folder, 'stdout'), 'wb') as file:
        file.write(text)
    print(f'{crate}: {len(pairs)} pairs, {len(text)} bytes printed')


if __name__ == '__main__':
    assert len(FILES['spaced']) == 65536 and len(FILES['long']) == 65537
    write('outlines', PAIRS[:1], False)
    write('outlines_cases', PAIRS, True)
