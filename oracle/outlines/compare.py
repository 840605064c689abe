#!/usr/bin/env python3
"""Runs the program on pairs of files and compares what it prints with program.py, and each matrix with GEOS's relate.

    python3 oracle/outlines/compare.py target/native/outlines 500 10

The program, how many pairs, the seed. GEOS is asked through libgeos_c, if there is one.
"""
import ctypes
import os
import random
import subprocess
import sys
import tempfile

sys.dont_write_bytecode = True
from program import printed  # noqa: E402

MAPS = [(1, 0, 0, 1), (1, 1, 0, 1), (2, 1, 1, 1), (1, 0, 3, 1), (0, 1, 1, 0), (-1, 2, 1, -1), (3, 5, 1, 2)]


def geos():
    """The matrix of two texts, or None without GEOS."""
    try:
        lib = ctypes.CDLL('libgeos_c.so.1')
    except OSError:
        return None
    lib.GEOSGeomFromWKT.restype = lib.GEOSRelate.restype = ctypes.c_void_p
    lib.initGEOS(None, None)

    def relate(*texts):
        shapes = [ctypes.c_void_p(lib.GEOSGeomFromWKT(t)) for t in texts]
        answer = ctypes.c_void_p(lib.GEOSRelate(*shapes))
        letters = ctypes.string_at(answer)
        lib.GEOSFree(answer)
        for s in shapes:
            lib.GEOSGeom_destroy(s)
        return letters

    return relate


def ring(cells):
    """The boundary of cells of a grid in unit steps, or None if it isn't one ring."""
    after = {}
    for x, y in cells:
        for p, q, other in (((x, y), (x + 1, y), (x, y - 1)), ((x + 1, y), (x + 1, y + 1), (x + 1, y)),
                            ((x + 1, y + 1), (x, y + 1), (x, y + 1)), ((x, y + 1), (x, y), (x - 1, y))):
            if other not in cells:
                if p in after:
                    return None
                after[p] = q
    path = [min(after)]
    while after[path[-1]] != path[0]:
        path.append(after[path[-1]])
    return path if len(path) == len(after) else None


def shape(rnd, size):
    while True:
        cells = {(rnd.randrange(size), rnd.randrange(size))}
        for _ in range(rnd.randrange(1, 12)):
            x, y = rnd.choice(sorted(cells))
            dx, dy = rnd.choice([(1, 0), (-1, 0), (0, 1), (0, -1)])
            if 0 <= x + dx < size and 0 <= y + dy < size:
                cells.add((x + dx, y + dy))
        path = ring(cells)
        if path and len(path) <= 64:
            return path


def thinned(rnd, cs, keep, most):
    """Without some corners on straight walls, those in keep left alone."""
    out = []
    for k, c in enumerate(cs):
        p, q = cs[k - 1], cs[(k + 1) % len(cs)]
        straight = (c[0] - p[0], c[1] - p[1]) == (q[0] - c[0], q[1] - c[1])
        if not (straight and c not in keep and rnd.random() < most):
            out.append(c)
    return out


def corners(rnd):
    size = rnd.choice([2, 3, 4, 5])
    a, b = shape(rnd, size), shape(rnd, size)
    cut = rnd.random() < 0.85
    a, b = thinned(rnd, a, b if cut else [], 0.7), thinned(rnd, b, a if cut else [], 0.7)
    m, k = rnd.choice(MAPS), rnd.choice([1, 7, 1000, 10000000])
    out = []
    for cs in (a, b):
        cs = [((m[0] * x + m[1] * y) * k, (m[2] * x + m[3] * y) * k) for x, y in cs]
        at = rnd.randrange(len(cs))
        cs = cs[at:] + cs[:at]
        out.append(cs[::-1] if rnd.random() < 0.5 else cs)
    return out


def spelled(rnd, cs):
    """A text of the grammar in some spelling."""
    def gap(least=0):
        return ' ' * (least + (rnd.randrange(3) if rnd.random() < 0.2 else 0))

    def number(z):
        return ('-' if z < 0 or (z == 0 and rnd.random() < 0.1) else '') + '0' * (rnd.random() < 0.1) + str(abs(z))

    word = ''.join(rnd.choice([c, c.lower()]) for c in 'POLYGON')
    pairs = [gap() + number(x) + gap(1) + number(y) + gap() for x, y in cs + cs[:1]]
    return (word + gap() + '(' + gap() + '(' + ','.join(pairs) + ')' + gap() + ')' + rnd.choice(['', '\n'])).encode()


def damaged(rnd, text):
    at = rnd.randrange(len(text))
    byte = rnd.choice([bytes([rnd.randrange(256)]), rnd.choice([b' ', b',', b'(', b')', b'-', b'0', b'9', b'\n'])])
    return rnd.choice([text[:at], text[:at] + text[at + 1:], text[:at] + byte + text[at + 1:], text[:at] + byte + text[at:]])


def main():
    program, count, rnd = sys.argv[1], int(sys.argv[2]), random.Random(int(sys.argv[3]))
    relate, differ, matrices, refused = geos(), 0, 0, {}
    with tempfile.TemporaryDirectory() as work:
        paths = [os.path.join(work, name) for name in ('a.wkt', 'b.wkt')]
        for _ in range(count):
            texts = [spelled(rnd, cs) for cs in corners(rnd)]
            if rnd.random() < 0.4:
                k = rnd.randrange(2)
                texts[k] = damaged(rnd, texts[k])
            for path, text in zip(paths, texts):
                with open(path, 'wb') as file:
                    file.write(text)
            said = subprocess.run([program, *paths], capture_output=True, check=True).stdout
            good = said == printed(*texts)
            if said.startswith(b'refused'):
                number = said.split()[2].decode()
                refused[number] = refused.get(number, 0) + 1
            else:
                matrices += 1
                good = good and (relate is None or relate(*texts) == said[:9])
            if not good:
                differ += 1
                print('differs', texts, said)
    beside = 'GEOS too' if relate else 'without GEOS'
    print(f'{count} pairs: {matrices} matrices ({beside}), refused by number {dict(sorted(refused.items()))}; {differ} differ')
    sys.exit(differ != 0)


if __name__ == '__main__':
    main()
