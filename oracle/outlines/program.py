"""What `./outlines` prints for two files: request R-10 read from its text, R-9 for the texts, R-8 for the outlines, R-14 for the line of a
refusal. It shares nothing with the crates: sides are compared by fractions, and the matrix is that of the shapes themselves, by the
middles of the walls and of the walls' two sides, not by records."""
from fractions import Fraction as F

NAMES = ['disjoint', 'intersects', 'within', 'contains', 'equal_topo', 'coveredby', 'covers', 'contains_properly', 'touches', 'crosses',
         'overlaps']
WORDS = [b'POINT', b'LINESTRING', b'POLYGON']
FAR = 10 ** 9


class Stuck(Exception):
    pass


class Reader:
    """One byte after the other; `Stuck` has the place at which no text goes on."""

    def __init__(self, text):
        self.text, self.at = text, 0

    def peek(self):
        return self.text[self.at:self.at + 1]

    def spaces(self):
        start = self.at
        while self.peek() == b' ':
            self.at += 1
        return self.at - start

    def need(self, byte):
        if self.peek() != byte:
            raise Stuck(self.at)
        self.at += 1

    def word(self):
        left, k = WORDS, 0
        while True:
            whole = [w for w in left if len(w) == k]
            if whole:
                return whole[0]
            left = [w for w in left if w[k:k + 1] == self.peek().upper() and self.peek().isalpha()]
            if not left:
                raise Stuck(self.at)
            k, self.at = k + 1, self.at + 1

    def number(self):
        sign = -1 if self.peek() == b'-' else 1
        self.at += sign < 0
        start = self.at
        while self.peek().isdigit():
            self.at += 1
        if self.at == start:
            raise Stuck(self.at)
        return sign * int(self.text[start:self.at])

    def pair(self):
        self.spaces()
        x = self.number()
        if not self.spaces():
            raise Stuck(self.at)
        y = self.number()
        self.spaces()
        return x, y

    def shape(self):
        word = self.word()
        self.spaces()
        self.need(b'(')
        if word == b'POLYGON':
            self.spaces()
            self.need(b'(')
        pairs = [self.pair()]
        while word != b'POINT' and self.peek() == b',':
            self.at += 1
            pairs.append(self.pair())
        self.need(b')')
        if word == b'POLYGON':
            self.spaces()
            self.need(b')')
        if self.at != len(self.text):
            raise Stuck(self.at)
        return word, pairs


def outline(file):
    """The corners that a file gives, or the number and the place of its refusal. None: it can't be opened or read."""
    if file is None:
        return None, (23, 0)
    if len(file) > 65536:
        return None, (12, 65536)
    text = file[:-1] if file.endswith(b'\n') else file
    try:
        word, pairs = Reader(text).shape()
    except Stuck as stuck:
        return None, (19, stuck.args[0])
    low, high = {b'POINT': (1, 1), b'LINESTRING': (2, 64), b'POLYGON': (4, 65)}[word]
    if not low <= len(pairs) <= high:
        return None, (16, 0)
    if any(abs(z) > FAR for p in pairs for z in p):
        return None, (17, 0)
    if word != b'POLYGON':
        return None, (16, 0)
    if pairs[0] != pairs[-1]:
        return None, (22, 0)
    return pairs[:-1], None


# --- sides ---


def sides(cs):
    return list(zip(cs, cs[1:] + cs[:1]))


def cross(o, a, b):
    return (a[0] - o[0]) * (b[1] - o[1]) - (a[1] - o[1]) * (b[0] - o[0])


def shared(s, t):
    """The points that two sides share: none, the one point, or 'many'."""
    (p, q), (u, v) = s, t
    d, e = (q[0] - p[0], q[1] - p[1]), (v[0] - u[0], v[1] - u[1])
    det = d[0] * e[1] - d[1] * e[0]
    w = (u[0] - p[0], u[1] - p[1])
    if det:
        a, b = F(w[0] * e[1] - w[1] * e[0], det), F(w[0] * d[1] - w[1] * d[0], det)
        return (p[0] + a * d[0], p[1] + a * d[1]) if 0 <= a <= 1 and 0 <= b <= 1 else None
    if d[0] * w[1] != d[1] * w[0]:
        return None
    n = d[0] ** 2 + d[1] ** 2
    ends = sorted(F((z[0] - p[0]) * d[0] + (z[1] - p[1]) * d[1], n) for z in (u, v))
    low, high = max(ends[0], 0), min(ends[1], 1)
    if low > high:
        return None
    return (p[0] + low * d[0], p[1] + low * d[1]) if low == high else 'many'


def within(cs):
    ss, n = sides(cs), len(cs)
    for i in range(n):
        for j in range(i + 1, n):
            both = shared(ss[i], ss[j])
            near = [ss[j][0]] if j == i + 1 else []
            near += [ss[i][0]] if (j + 1) % n == i else []
            if (both not in near) if near else both is not None:
                return i, j
    return None


def across(a, b):
    for i, s in enumerate(sides(a)):
        for j, t in enumerate(sides(b)):
            both = shared(s, t)
            if both is not None and not (both in s and both in t) and set(s) != set(t):
                return i, j
    return None


# --- the matrix ---


def where(cs, p):
    """1 inside, 0 on the boundary, -1 outside."""
    inside = False
    for a, b in sides(cs):
        if cross(a, b, p) == 0 and min(a[0], b[0]) <= p[0] <= max(a[0], b[0]) and min(a[1], b[1]) <= p[1] <= max(a[1], b[1]):
            return 0
        if (a[1] > p[1]) != (b[1] > p[1]) and (a[0] + F(b[0] - a[0], b[1] - a[1]) * (p[1] - a[1])) > p[0]:
            inside = not inside
    return 1 if inside else -1


def matrix(a, b):
    """Corners are points, open walls lines, and what lies at either side of a wall's middle, nearer than anything else, areas."""
    cells = [0] * 9
    def mark(p, dimension):
        k = (1 - where(a, p)) * 3 + (1 - where(b, p))
        cells[k] = max(cells[k], dimension)
    tiny = F(1, 10 ** 40)
    for p in a + b:
        mark(p, 1)
    for p, q in sides(a) + sides(b):
        m = (F(p[0] + q[0], 2), F(p[1] + q[1], 2))
        mark(m, 2)
        for sign in (1, -1):
            mark((m[0] - sign * tiny * (q[1] - p[1]), m[1] + sign * tiny * (q[0] - p[0])), 3)
    return ''.join('F012'[c] for c in cells)


def fits(m, pattern):
    return all(p == '*' or (p == 'T' and c != 'F') or p == c for c, p in zip(m, pattern))


def answers(m):
    """Document 01's table, for two areas: none crosses, and they overlap by T*T***T**."""
    any_of = lambda *ps: any(fits(m, p) for p in ps)
    meet = any(m[i] != 'F' for i in (0, 1, 3, 4))
    yes = [not meet, meet, any_of('T*F**F***'), any_of('T*****FF*'), any_of('FFFFFFFF2', 'T*F**FFF*'),
           any_of('T*F**F***', '*TF**F***', '**FT*F***', '**F*TF***'), any_of('T*****FF*', '*T****FF*', '***T**FF*', '****T*FF*'),
           any_of('T**FF*FF*'), any_of('FT*******', 'F**T*****', 'F***T****'), False, any_of('T*T***T**')]
    return ''.join(line + '\n' for line in [m] + [f'{n} {"yes" if y else "no"}' for n, y in zip(NAMES, yes)]).encode()


def printed(first, second):
    """The bytes printed."""
    found = []
    for who, file in ((b'A', first), (b'B', second)):
        cs, bad = outline(file)
        if bad:
            return b'refused %s %d at %d\n' % (who, *bad)
        found.append((who, cs))
    for who, cs in found:
        if any(p == q for p, q in sides(cs)):
            return b'refused %s 18 at 0\n' % who
    for who, cs in found:
        bad = within(cs)
        if bad:
            return b'refused %s 20 at %d %d\n' % (who, *bad)
    a, b = (cs for _, cs in found)
    bad = across(a, b)
    if bad:
        return b'refused both 21 at %d %d\n' % bad
    return answers(matrix(a, b))
