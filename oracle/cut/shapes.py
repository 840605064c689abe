"""Pairs of outlines that are simple and cut at each other, drawn at random: lists of corners, pairs of whole numbers."""
import math
from fractions import Fraction

MOST = 64
LIMIT = 10**9


def cross(p, q, r):
    """Above 0 if r lies to the left of the way from p to q, 0 if on its line."""
    return (q[0] - p[0]) * (r[1] - p[1]) - (q[1] - p[1]) * (r[0] - p[0])


# ---- A mesh: triangles between points of a lattice, any two of which share a side, a corner or nothing ----


def swept(points):
    """Triangles, counterclockwise, over all points: each point in turn is joined to the sides that it sees."""
    ps = sorted(points)
    k = 2
    while k < len(ps) and cross(ps[0], ps[1], ps[k]) == 0:
        k += 1
    if k == len(ps):
        return []
    left = cross(ps[0], ps[1], ps[k]) > 0
    line = ps[:k]
    triangles = [(p, q, ps[k]) if left else (q, p, ps[k]) for p, q in zip(line, line[1:])]
    hull = line + [ps[k]] if left else line[::-1] + [ps[k]]
    for p in ps[k + 1 :]:
        n = len(hull)
        sees = [cross(hull[i], hull[(i + 1) % n], p) < 0 for i in range(n)]
        first = next(i for i in range(n) if sees[i] and not sees[i - 1])
        hull = hull[first:] + hull[:first]
        sees = sees[first:] + sees[:first]
        count = sees.index(False)
        triangles += [(hull[i + 1], hull[i], p) for i in range(count)]
        hull = [hull[0], p] + hull[count:]
    return triangles


def edges(t):
    return (t[0], t[1]), (t[1], t[2]), (t[2], t[0])


def third(t, edge):
    return next(p for p in t if p not in edge)


def flipped(rnd, triangles, times):
    """The same points, other triangles: the diagonal of a four-cornered convex pair is exchanged, at random."""
    of = {e: t for t in triangles for e in edges(t)}
    inner = [e for e in of if e[::-1] in of]
    for _ in range(times if inner else 0):
        e = rnd.choice(inner)
        if e not in of or e[::-1] not in of:
            continue
        (p, q), (t, u) = e, (of[e], of[e[::-1]])
        r, s = third(t, e), third(u, e)
        if cross(s, q, r) <= 0 or cross(r, p, s) <= 0:
            continue
        for old in (t, u):
            for side in edges(old):
                del of[side]
        for new in ((s, q, r), (r, p, s)):
            for side in edges(new):
                of[side] = new
    return of


def mesh(rnd, count, size):
    while True:
        points = {(rnd.randrange(size + 1), rnd.randrange(size + 1)) for _ in range(count)}
        triangles = swept(points) if len(points) > 2 else []
        if triangles:
            return flipped(rnd, triangles, 3 * len(points))


def grown(rnd, of, steps, start=None, allowed=None, thin=False, corners=MOST):
    """The outline of a region of triangles without holes, which touches itself nowhere, and its triangles. A thin one
    has no corner within: each triangle brings a new corner, until there are so many."""
    first = start or rnd.choice(sorted(set(of.values())))
    region, border = {first}, dict(edges(first))
    seen = set(first)
    for _ in range(steps):
        if len(border) == corners:
            break
        e = rnd.choice(sorted(border.items()))
        t = of.get(e[::-1])
        if t is None or t in region or (allowed is not None and t not in allowed):
            continue
        w = third(t, e)
        shared = [side for side in edges(t) if border.get(side[1]) == side[0]]
        if len(shared) == 1 and w not in seen:
            border[e[0]], border[w] = w, e[1]
            seen.add(w)
        elif len(shared) == 2 and not thin:
            gone = next(p for p in t if all(p in side for side in shared))
            before = next(side[1] for side in shared if side[0] == gone)
            after = next(side[0] for side in shared if side[1] == gone)
            del border[gone]
            border[before] = after
        else:
            continue
        region.add(t)
    path = [min(border)]
    while border[path[-1]] != path[0]:
        path.append(border[path[-1]])
    return path, region


def outside_of(of, region, apart):
    """The triangles that are not in a region; those with no corner of it, if they must be apart."""
    corners = {p for t in region for p in t}
    return {t for t in of.values() if t not in region and not (apart and corners & set(t))}


def off_border(triangles, corners):
    """Those that have no side in common with an outline."""
    border = set(zip(corners, corners[1:] + corners[:1]))
    return {t for t in triangles if not any(e in border or e[::-1] in border for e in edges(t))}


def mesh_pair(rnd):
    """Two regions of one mesh: any, side by side, apart, one in the other, the two without a common side, equal."""
    while True:
        of = mesh(rnd, rnd.choice([4, 6, 9, 14, 40, 110]), rnd.choice([2, 3, 5, 9, 30, 200]))
        most = rnd.choice([3, 10, 40, 300])
        steps = lambda: rnd.randrange(most)
        thin = rnd.random() < 0.5
        a, region = grown(rnd, of, steps(), thin=thin)
        kind = rnd.randrange(9)
        beyond = outside_of(of, region, False)
        allowed = {
            0: beyond,
            1: outside_of(of, region, True),
            2: region,
            3: off_border(beyond, a),
            4: off_border(region, a),
        }.get(kind)
        if kind == 5:
            b = list(a)
        elif allowed is not None and not allowed:
            continue
        else:
            b, _ = grown(rnd, of, steps(), rnd.choice(sorted(allowed)) if allowed else None, allowed, thin)
        return a, b


# ---- Cells of a grid ----


def cells_outline(rnd, width, most):
    """The outline of cells without holes, which touches itself nowhere, a corner at each whole number."""
    while True:
        cells = {(rnd.randrange(width), rnd.randrange(width))}
        for _ in range(rnd.randrange(1, most)):
            x, y = rnd.choice(sorted(cells))
            d = rnd.choice([(1, 0), (-1, 0), (0, 1), (0, -1)])
            c = (x + d[0], y + d[1])
            if 0 <= c[0] < width and 0 <= c[1] < width:
                cells.add(c)
        after, fine = {}, True
        for x, y in cells:
            walls = (
                ((x, y), (x + 1, y), (x, y - 1)),
                ((x + 1, y), (x + 1, y + 1), (x + 1, y)),
                ((x + 1, y + 1), (x, y + 1), (x, y + 1)),
                ((x, y + 1), (x, y), (x - 1, y)),
            )
            for p, q, beyond in walls:
                if beyond not in cells:
                    fine = fine and p not in after
                    after[p] = q
        path = [min(after)]
        while fine and after[path[-1]] != path[0]:
            path.append(after[path[-1]])
        if fine and len(path) == len(after) <= MOST:
            return path


def thinned(rnd, corners, keep):
    """Without some of the corners on straight walls, but for those that the other outline has."""
    n = len(corners)
    straight = [cross(corners[i - 1], corners[i], corners[(i + 1) % n]) == 0 for i in range(n)]
    return [c for i, c in enumerate(corners) if not straight[i] or c in keep or rnd.random() < 0.3]


def cells_pair(rnd):
    width, most = rnd.choice([2, 3, 4, 5, 8, 12]), rnd.choice([4, 12, 30, 60])
    a = cells_outline(rnd, width, most)
    b = list(a) if rnd.random() < 0.05 else cells_outline(rnd, width, most)
    keep_a, keep_b = set(b), set(a)
    return thinned(rnd, a, keep_a), thinned(rnd, b, keep_b)


# ---- Two outlines of their own, cut at each other: where sides cross, both get a corner ----


def meeting_points(p, q, r, s):
    """The points of the side from p to q at which it meets the side from r to s, by exact fractions; of a stretch its
    ends."""
    u, v = (q[0] - p[0], q[1] - p[1]), (s[0] - r[0], s[1] - r[1])
    d = u[0] * v[1] - u[1] * v[0]
    if d:
        k = Fraction((r[0] - p[0]) * v[1] - (r[1] - p[1]) * v[0], d)
        m = Fraction((r[0] - p[0]) * u[1] - (r[1] - p[1]) * u[0], d)
        return [(p[0] + k * u[0], p[1] + k * u[1])] if 0 <= k <= 1 and 0 <= m <= 1 else []
    if cross(p, q, r):
        return []
    along = lambda c: (c[0] - p[0]) * u[0] + (c[1] - p[1]) * u[1]
    return [c for c in (r, s) if 0 <= along(c) <= along(q)]


def cut_at(a, b):
    out = []
    for i, p in enumerate(a):
        q = a[(i + 1) % len(a)]
        met = {c for k, r in enumerate(b) for c in meeting_points(p, q, r, b[(k + 1) % len(b)])} - {p, q}
        out += [p] + sorted(met, key=lambda c: abs(c[0] - p[0]) + abs(c[1] - p[1]))
    return out


def crossed_pair(rnd):
    while True:
        size = rnd.choice([2, 3, 4, 4, 5, 6])
        a, _ = grown(rnd, mesh(rnd, rnd.choice([3, 4, 5, 7]), size), rnd.choice([0, 1, 2, 4]))
        b, _ = grown(rnd, mesh(rnd, rnd.choice([3, 4, 5, 7]), size), rnd.choice([0, 1, 2, 4]))
        c, d = cut_at(a, b), cut_at(b, a)
        by = math.lcm(*(Fraction(v).denominator for p in c + d for v in p))
        if by * size <= LIMIT // 2 and max(len(c), len(d)) <= MOST:
            return [[(int(x * by), int(y * by)) for x, y in one] for one in (c, d)]


# ---- Outlines around a centre, up to 64 corners ----


def around(rnd, centre, radius, corners):
    """Corners by rising angle, so that every one is seen from the centre."""
    while True:
        turns = sorted(rnd.random() * 2 * math.pi for _ in range(corners))
        gaps = [(turns[(i + 1) % corners] - turns[i]) % (2 * math.pi) for i in range(corners)]
        if not 1e-4 < min(gaps) <= max(gaps) < 0.9 * math.pi:
            continue
        far = [rnd.uniform(0.3, 1) * radius for _ in turns]
        return [(centre[0] + round(r * math.cos(t)), centre[1] + round(r * math.sin(t))) for r, t in zip(far, turns)]


def around_pair(rnd):
    radius = rnd.choice([10**6, 10**7])
    corners = lambda: rnd.randrange(3, MOST + 1)
    a = around(rnd, (0, 0), radius, corners())
    kind = rnd.randrange(4)
    if kind == 0:
        return a, around(rnd, (rnd.randrange(3, 6) * radius, rnd.randrange(-5, 6) * radius), radius, corners())
    if kind == 1:
        return a, [(5 * x, 5 * y) for x, y in a]
    if kind == 2:
        return a, around(rnd, (0, 0), 40 * radius, corners())
    return a, list(a)


# ---- Put anywhere, walked either way round from any corner ----

KINDS = {"mesh": mesh_pair, "cells": cells_pair, "crossed": crossed_pair, "around": around_pair}
MATRICES = [(1, 0, 0, 1), (1, 1, 0, 1), (2, 1, 1, 1), (1, 0, 3, 1), (0, 1, 1, 0), (-1, 2, 1, -1), (3, 5, 1, 2), (-1, 0, 0, -1)]


def walked(rnd, corners):
    """Started at any corner, either way round."""
    k = rnd.randrange(len(corners))
    turned = corners[k:] + corners[:k]
    return turned[::-1] if rnd.random() < 0.5 else turned


def placed(rnd, a, b):
    """Sheared or turned, as large as may be or not, in the middle or at the limits."""
    m = rnd.choice(MATRICES)
    put = lambda c: (m[0] * c[0] + m[1] * c[1], m[2] * c[0] + m[3] * c[1])
    a, b = [put(c) for c in a], [put(c) for c in b]
    size = max(abs(v) for c in a + b for v in c)
    if size > LIMIT:
        return None
    by = min(rnd.choice([1, 1, 1, 7, 1000, LIMIT]), LIMIT // size)
    a, b = [[(x * by, y * by) for x, y in one] for one in (a, b)]
    shift = [0, 0]
    if rnd.random() < 0.2:
        for axis in (0, 1):
            values = [c[axis] for c in a + b]
            shift[axis] = rnd.choice([LIMIT - max(values), -LIMIT - min(values)])
    return [[(x + shift[0], y + shift[1]) for x, y in one] for one in (a, b)]


def drawn(rnd, kind):
    """A pair as it is drawn, in small numbers but for those around a centre and the crossed ones."""
    a, b = KINDS[kind](rnd)
    return (b, a) if rnd.random() < 0.5 else (a, b)


def pair(rnd, kind):
    while True:
        put = placed(rnd, *drawn(rnd, kind))
        if put:
            return walked(rnd, put[0]), walked(rnd, put[1])
