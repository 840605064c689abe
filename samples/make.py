#!/usr/bin/env python3
"""Makes the sample plans, what the program prints for them, a picture of each, and the inputs of the program's crates.

    python3 samples/make.py

A plan is described below once, as records and as a drawing. A is a reader's cover area or path, B is a room. From that
come NAME.plan (the bytes; of two outlines NAME_a.wkt and NAME_b.wkt), NAME.txt (what is printed), NAME.svg (picture.py)
and README.md. The matrix of each stands here as it follows from the picture, not as the program says it; the answers
are read off it by document 01's table. `sh samples/check.sh` compares. The page's last two pictures are outline.py's
and regions.py's, which ask the library.
"""
import os
import struct
import sys

sys.dont_write_bytecode = True
from outline import SECTION  # noqa: E402 (no folder of compiled files beside the samples)
from regions import SECTION as REGIONS  # noqa: E402
from picture import gallery, pairs, svg  # noqa: E402

HERE = os.path.dirname(os.path.abspath(__file__))
NONE, I, B, E = 0, 1, 2, 3

# --- records, by document 01 ---


def area(a, b):
    """An area label: (on, left, right) for A and for B."""
    return bytes([1, *a, *b])


def line(a, b):
    """A line label: on for A and for B."""
    return bytes([0, a, 0, 0, b, 0, 0])


def end(dx, dy, label):
    return struct.pack('>ii', dx, dy) + label


def record(version, kind, body):
    return struct.pack('>HBB', 2 + len(body), version, kind) + body


def node(a, b, ends=(), areas=(NONE, NONE)):
    return record(1, 1, bytes([a, b, *areas, len(ends)]) + b''.join(ends))


def edge(label):
    return record(1, 2, label)


NOT = (NONE, NONE, NONE)

# --- answers, by document 01's table ---

PATTERNS = {
    'within': ['T*F**F***'],
    'contains': ['T*****FF*'],
    'equal_topo': ['FFFFFFFF2', 'T*F**FFF*'],
    'coveredby': ['T*F**F***', '*TF**F***', '**FT*F***', '**F*TF***'],
    'covers': ['T*****FF*', '*T****FF*', '***T**FF*', '****T*FF*'],
    'contains_properly': ['T**FF*FF*'],
    'touches': ['FT*******', 'F**T*****', 'F***T****'],
}
NAMES = ['disjoint', 'intersects', 'within', 'contains', 'equal_topo', 'coveredby', 'covers', 'contains_properly',
         'touches', 'crosses', 'overlaps']


def fits(matrix, pattern):
    return all(p == '*' or (p == 'T' and c != 'F') or p == c for c, p in zip(matrix, pattern))


def holds(name, m):
    a, b = (max(m[i] if m[i] != 'F' else ' ' for i in cells) for cells in ((0, 1, 2), (0, 3, 6)))
    if name in ('disjoint', 'intersects'):
        return (name == 'disjoint') == all(m[i] == 'F' for i in (0, 1, 3, 4))
    if name == 'crosses':
        return (a < b and fits(m, 'T*T******')) or (a > b and fits(m, 'T*****T**')) or (a == b == '1' and m[0] == '0')
    if name == 'overlaps':
        return (a == b == '1' and fits(m, '1*T***T**')) or (a == b and a in '02' and fits(m, 'T*T***T**'))
    return any(fits(m, p) for p in PATTERNS[name])


def answers(matrix):
    return matrix + '\n' + ''.join(f'{n} {"yes" if holds(n, matrix) else "no"}\n' for n in NAMES)


def refused(number, offset):
    return f'refused {number} at {offset}\n'


# --- the plans ---
# A drawing: rings and lines as lists of corners, points, the nodes with the ends that the records have, and where A
# and B are named; alt is the picture in words, notes are lines below it.


# P1 of document 01: a corner where a wall of A crosses a wall of B.
P1 = node(B, B, [
    end(2, 0, area(NOT, (B, I, E))),
    end(0, 2, area((B, I, E), NOT)),
    end(-2, 0, area(NOT, (B, E, I))),
    end(0, -2, area((B, E, I), NOT)),
], areas=(B, B))

# An area of A without width, its two sides on each other, from a wall of B into the room: docs/DIFFERENCES.md's worked
# star. Its end is a line on A's boundary, which collapses A at the node (request R-6).
SHRUNK = [
    (0, 2, area(NOT, (B, I, E))),
    (-4, 0, line(B, NONE)),
    (0, -2, area(NOT, (B, E, I))),
]


def shrunk(ends):
    return node(B, B, [end(*e) for e in ends], areas=(B, B))


def turned(ends):
    """By ninety degrees, against the clock."""
    return [(-dy, dx, label) for dx, dy, label in ends]


# Two squares, each corner and each crossing a record of its own, in the order in which they are numbered in the picture.
# A ring runs against the clock, so its area lies to the left of the end that follows it.
def corner(place, along, back):
    """A corner of A or of B: the directions along the ring and back, and where it lies against the other one."""
    of_a, other = place
    follows, against = (B, I, E), (B, E, I)
    if of_a:
        ends = [end(*along, area(follows, NOT)), end(*back, area(against, NOT))]
        return node(B, other, ends, areas=(B, other))
    ends = [end(*along, area(NOT, follows)), end(*back, area(NOT, against))]
    return node(other, B, ends, areas=(other, B))


WALLS = [
    ((0, 0), corner((True, E), (4, 0), (0, 4))),
    ((4, 0), corner((True, E), (0, 2), (-4, 0))),
    ((6, 2), corner((False, E), (0, 4), (-2, 0))),
    ((6, 6), corner((False, E), (-4, 0), (0, -4))),
    ((4, 2), P1),
    ((4, 4), corner((True, I), (-2, 0), (0, -2))),
    ((2, 2), corner((False, I), (2, 0), (0, 2))),
    ((2, 4), node(B, B, [
        end(2, 0, area((B, E, I), NOT)),
        end(0, 2, area(NOT, (B, E, I))),
        end(-2, 0, area((B, I, E), NOT)),
        end(0, -2, area(NOT, (B, I, E))),
    ], areas=(B, B))),
    ((0, 4), corner((True, E), (0, -4), (2, 0))),
    ((2, 6), corner((False, E), (0, -2), (4, 0))),
]

PLANS = [
    dict(name='overlap', title='P1: a reader\'s area overlaps a room', bytes=P1, prints=answers('212101212'),
         a=[[(0, 0), (4, 0), (4, 4), (0, 4)]], b=[[(2, 2), (6, 2), (6, 6), (2, 6)]],
         nodes=[((4, 2), [(2, 0), (0, 2), (-2, 0), (0, -2)])], named=dict(A=(1, 1), B=(5, 5)),
         alt='Two squares overlap in a corner. A node is marked where A\'s right wall crosses B\'s lower wall.',
         notes=['black: the record\'s node, and its four ends']),
    dict(name='touch', title='A reader\'s area touches a room along a wall',
         bytes=node(B, B, [
             end(4, 0, area(NOT, (B, E, I))),
             end(-4, 0, area((B, I, E), NOT)),
             end(0, -4, area((B, E, I), (B, I, E))),
         ], areas=(B, B)),
         prints=answers('FF2F11212'),
         a=[[(0, 0), (4, 0), (4, 4), (0, 4)]], b=[[(4, 0), (8, 0), (8, 4), (4, 4)]],
         nodes=[((4, 4), [(4, 0), (-4, 0), (0, -4)])], named=dict(A=(1.5, 2), B=(6.5, 2)),
         alt='Two squares side by side share a whole wall. A node is marked at its upper end.',
         notes=['black: the record\'s node, and its three ends']),
    dict(name='reader_in_room', title='A reader, a point, within a room',
         bytes=node(I, I, areas=(NONE, I)) + edge(area((E, E, E), (B, I, E))), prints=answers('0FFFFF212'),
         b=[[(0, 0), (6, 0), (6, 4), (0, 4)]], points=[(3, 2)], named=dict(A=(3.7, 2), B=(1, 3)),
         alt='A point within a rectangle.',
         notes=['blue dot: the reader, a node without ends', 'B\'s outline is an isolated edge']),
    dict(name='area_in_room', title='A reader\'s area strictly within a room',
         bytes=edge(area((B, I, E), (I, I, I))) + edge(area((E, E, E), (B, I, E))), prints=answers('2FF1FF212'),
         a=[[(2, 1), (4, 1), (4, 3), (2, 3)]], b=[[(0, 0), (6, 0), (6, 4), (0, 4)]],
         named=dict(A=(3, 2), B=(1, 3)), alt='A square within a larger rectangle, nowhere at its walls.',
         notes=['no node: each outline is an isolated edge']),
    dict(name='same', title='A reader\'s area is exactly the room', bytes=edge(area((B, I, E), (B, I, E))),
         prints=answers('2FFF1FFF2'), a=[[(0, 0), (6, 0), (6, 4), (0, 4)]], b=[[(0, 0), (6, 0), (6, 4), (0, 4)]],
         named=dict(A=(1.5, 2), B=(4.5, 2)), alt='One rectangle, the outline of A and of B alike.',
         notes=['no node: the common outline is one isolated edge']),
    dict(name='path_into_room', title='A path from outside crosses a wall and ends in the room',
         bytes=node(I, B, [
             end(3, 0, line(I, NONE)),
             end(0, 2, area(NOT, (B, E, I))),
             end(-3, 0, line(I, NONE)),
             end(0, -2, area(NOT, (B, I, E))),
         ], areas=(NONE, B)) + node(B, E, areas=(NONE, E)) + node(B, I, areas=(NONE, I)),
         prints=answers('1010F0212'),
         lines=[[(0, 2), (6, 2)]], b=[[(3, 0), (9, 0), (9, 4), (3, 4)]],
         nodes=[((3, 2), [(3, 0), (0, 2), (-3, 0), (0, -2)])], points=[(0, 2), (6, 2)],
         named=dict(A=(1.2, 2.6), B=(8, 3)),
         alt='A line leads through a wall of a rectangle and ends within. A node is marked in the wall.',
         notes=['black: the node in the wall, and its four ends', 'blue dots: the path\'s two ends, A\'s boundary']),
    dict(name='shrunk', title='A reader\'s area that has shrunk to a line leads from a wall into the room',
         bytes=shrunk(SHRUNK), prints=answers('FFF10F212'),
         lines=[[(6, 2), (2, 2)]], b=[[(0, 0), (6, 0), (6, 4), (0, 4)]],
         nodes=[((6, 2), [(0, 2), (-4, 0), (0, -2)])], named=dict(A=(3, 2.6), B=(1, 3)),
         alt='A line leads from the right wall of a rectangle to a place within. A node is marked in the wall.',
         notes=['black: the record\'s node, and its three ends',
                'A has no width: the line is its boundary, and it has no inside']),
    dict(name='shrunk_turned', title='The same plan turned by ninety degrees has the same matrix',
         bytes=shrunk(turned(SHRUNK)), prints=answers('FFF10F212'),
         lines=[[(2, 6), (2, 2)]], b=[[(0, 0), (4, 0), (4, 6), (0, 6)]],
         nodes=[((2, 6), [(-2, 0), (0, -4), (2, 0)])], named=dict(A=(1.4, 3), B=(1, 1)),
         alt='The same rectangle and line, turned: the line leads down from the upper wall.',
         notes=['black: the record\'s node, and its three ends',
                'in the order of directions A\'s end is now the last']),
    dict(name='apart', title='A reader\'s area and a room apart',
         bytes=edge(area((B, I, E), (E, E, E))) + edge(area((E, E, E), (B, I, E))), prints=answers('FF2FF1212'),
         a=[[(0, 0), (3, 0), (3, 3), (0, 3)]], b=[[(5, 1), (8, 1), (8, 4), (5, 4)]],
         named=dict(A=(1.5, 1.5), B=(6.5, 2.5)), alt='Two squares with a gap between them.',
         notes=['no node: each outline is an isolated edge']),
    dict(name='refused', title='P1, and behind it a node with an end that has no direction: refusal 8 at 69',
         bytes=P1 + node(B, B, [end(0, 0, line(B, B))]), prints=refused(8, 69),
         a=[[(0, 0), (4, 0), (4, 4), (0, 4)]], b=[[(2, 2), (6, 2), (6, 6), (2, 6)]],
         nodes=[((4, 2), [(2, 0), (0, 2), (-2, 0), (0, -2)])], bad=[(2, 4)], named=dict(A=(1, 1), B=(5, 5)),
         alt='The squares of P1. A red dot marks the other place where their walls cross: its record is refused.',
         notes=['black: the first record, accepted', 'red: the record at byte 69; its end has direction 0,0']),
    dict(name='which_wall', title='Which wall made this 2: P1\'s squares, each corner and each crossing a record',
         bytes=b''.join(record for _, record in WALLS), prints=answers('212101212'),
         a=[[(0, 0), (4, 0), (4, 4), (0, 4)]], b=[[(2, 2), (6, 2), (6, 6), (2, 6)]],
         wall=[(6, 2), (2, 2)], numbered=[at for at, _ in WALLS], made=[5, 5, 1, 5, 5, 1, 3, 3, 0],
         named=dict(A=(1, 1), B=(5, 5)),
         alt='Two squares overlap. Corners and crossings are numbered 1 to 10. The room\'s lower wall is red.',
         notes=['dots: the records, in order', 'small in a cell: the record that made it, 0 the start',
                'red: the wall that made II a 2; record 5 is where it enters A'],
         more='`Traced` in Rust and `misonkandi_traced_floor` in C say which record made each cell, as the small numbers in the\n'
              'picture: of II, record 5. `cargo run --example which_wall` in `bindings/rust` reads this plan and says so.'),
]

# Two outlines each, drawn in metres, as the plan tool exports them in millimetres: cut at each other, so that each place
# where their walls meet is a corner of both.
OUTLINES = [
    dict(name='two_areas', title='P1\'s squares as two outlines, cut where their walls cross', prints=answers('212101212'),
         a=[[(0, 0), (4, 0), (4, 2), (4, 4), (2, 4), (0, 4)]], b=[[(2, 2), (4, 2), (6, 2), (6, 6), (2, 6), (2, 4)]],
         named=dict(A=(1, 1), B=(5, 5)),
         alt='Two squares overlap in a corner. The two places where their walls cross are corners of both.'),
    dict(name='alcove', title='A reader\'s area fills the alcove of a room and reaches out of it', prints=answers('2FF11F212'),
         a=[[(2, 3), (4, 3), (4, 4), (4, 6), (2, 6), (2, 4)]],
         b=[[(0, 0), (6, 0), (6, 4), (4, 4), (4, 6), (2, 6), (2, 4), (0, 4)]], named=dict(A=(3, 4.5), B=(1, 1)),
         alt='A room with an alcove in its upper wall. A rectangle fills the alcove and reaches a little into the room.'),
    dict(name='neighbours', title='A room and its neighbour, with a part of a wall in common', prints=answers('FF2F11212'),
         a=[[(0, 0), (3, 0), (3, 1), (3, 3), (3, 5), (0, 5)]], b=[[(3, 1), (7, 0), (8, 3), (3, 3)]],
         named=dict(A=(1.5, 2.5), B=(5.5, 2)),
         alt='A rectangle, and at the middle of its right wall a slanting room that has this part of the wall for its own.'),
]


def wkt(ring):
    return 'POLYGON ((' + ', '.join(f'{1000 * x} {1000 * y}' for x, y in ring + ring[:1]) + '))\n'


# --- the inputs that the gate runs: one for the program itself, the others for crates/relate_cases ---------------------------

WEST = end(-7, 0, line(I, E))
MANY = node(I, E, [end(k - 16, 5, line(I, E)) for k in range(32)])  # 32 ends pass
LONG = b''.join(edge(line(I, I)) for _ in range(6000)) + MANY + b''.join(edge(line(I, I)) for _ in range(6000))

CASES = {
    'empty.plan': (b'', answers('FFFFFFFF2')),
    # more than the buffer holds, 32 ends in the middle, and the last record raises a cell of its own
    'long.plan': (LONG + edge(area((NONE, E, NONE), (NONE, I, NONE))), answers('1F1FFF2F2')),
    'short.plan': (P1 + P1[:40], refused(1, 69)),
    'version.plan': (P1 + record(3, 2, line(I, I)), refused(2, 69)),
    'kind.plan': (P1 + record(1, 3, line(I, I)), refused(3, 69)),
    'length.plan': (P1 + b'\0\0', refused(4, 69)),
    'ends.plan': (MANY + node(I, E, [WEST] * 33), refused(5, len(MANY))),
    'position.plan': (P1 + edge(line(I, 4)), refused(6, 69)),
    'label.plan': (P1 + edge(bytes([2]) + line(I, I)[1:]), refused(7, 69)),
    'direction.plan': (P1 + node(B, B, [end(0, 0, line(B, B))]), refused(8, 69)),
    'left.plan': (P1 + node(B, B, [end(2, 0, area((B, I, E), NOT)), end(0, 2, area((B, NONE, I), NOT))]), refused(9, 69)),
    # a folder, which can be opened and not read; a plan stands in it, since no empty folder is kept
    'folder': (None, 'unreadable\n'),
}

# --- files ---


def write(path, data):
    os.makedirs(os.path.dirname(path), exist_ok=True)
    with open(path, 'wb') as f:
        f.write(data if isinstance(data, bytes) else data.encode())


def main():
    write(os.path.join(HERE, 'README.md'), gallery(PLANS) + '\n' + pairs(OUTLINES) + '\n' + SECTION + '\n' + REGIONS)
    for plan in PLANS:
        at = os.path.join(HERE, plan['name'])
        write(at + '.plan', plan['bytes'])
        write(at + '.txt', plan['prints'])
        write(at + '.svg', svg(plan))
    for plan in OUTLINES:
        at = os.path.join(HERE, plan['name'])
        write(at + '_a.wkt', wkt(plan['a'][0]))
        write(at + '_b.wkt', wkt(plan['b'][0]))
        write(at + '.txt', plan['prints'])
        write(at + '.svg', svg(plan))
    crates = os.path.join(HERE, '..', 'crates')
    write(os.path.join(crates, 'relate', 'stdin'), P1)
    write(os.path.join(crates, 'relate', 'stdout'), answers('212101212'))
    at = os.path.join(crates, 'relate_cases')
    for name, (given, _) in CASES.items():
        if given is None:
            write(os.path.join(at, 'data', name, 'inner.plan'), P1)
        else:
            write(os.path.join(at, 'data', name), given)
    write(os.path.join(at, 'args'), ''.join(f'{name}\n' for name in CASES))
    write(os.path.join(at, 'stdout'), ''.join(f'-- {name}\n{printed}' for name, (_, printed) in CASES.items()))


if __name__ == '__main__':
    main()
