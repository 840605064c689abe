"""Request R-10's sentences read on their own: refusals with their pair by exact fractions, the records byte for byte,
and document 01's rules for two boxes."""
import struct

from shapes import LIMIT, MOST, cross, meeting_points


def how_meet(p, q, r, s):
    """Two sides: 'apart', 'end' if they share one end and nothing more, 'same' if they coincide, or 'otherwise'."""
    if {p, q} == {r, s}:
        return "same"
    if (max(p[0], q[0]) < min(r[0], s[0]) or max(r[0], s[0]) < min(p[0], q[0])
            or max(p[1], q[1]) < min(r[1], s[1]) or max(r[1], s[1]) < min(p[1], q[1])):
        return "apart"
    met = set(meeting_points(p, q, r, s)) | set(meeting_points(r, s, p, q))
    if not met:
        return "apart"
    return "end" if len(met) == 1 and met <= {p, q} and met <= {r, s} else "otherwise"


def sides(corners):
    return list(zip(corners, corners[1:] + corners[:1]))


def bad_within(corners):
    """The first pair i, j of sides of one outline that meet as they may not, i below j; or None."""
    all_sides, n = sides(corners), len(corners)
    for i in range(n):
        for j in range(i + 1, n):
            neighbours = j == i + 1 or (i == 0 and j == n - 1)
            if how_meet(*all_sides[i], *all_sides[j]) != ("end" if neighbours else "apart"):
                return i, j
    return None


def bad_across(a, b):
    for i, side in enumerate(sides(a)):
        for j, other in enumerate(sides(b)):
            if how_meet(*side, *other) == "otherwise":
                return i, j
    return None


def fault_alone(numbers):
    """R-8's refusals of an outline that is lent as numbers, x and y of each corner."""
    if len(numbers) % 2 or not 3 <= len(numbers) // 2 <= MOST:
        return 16
    if any(abs(v) > LIMIT for v in numbers):
        return 17
    corners = corners_of(numbers)
    return 18 if any(p == q for p, q in sides(corners)) else 0


def corners_of(numbers):
    return list(zip(numbers[::2], numbers[1::2]))


def fault(a, b):
    """None, or the refusal, which outline (0, 1, or 2 for a pair across) and the pair of sides."""
    for which, numbers in enumerate((a, b)):
        number = fault_alone(numbers)
        if number:
            return number, which, 0, 0
    a, b = corners_of(a), corners_of(b)
    for which, corners in enumerate((a, b)):
        pair = bad_within(corners)
        if pair:
            return (20, which) + pair
    pair = bad_across(a, b)
    return (21, 2) + pair if pair else None


# ---- The records ----


def located(corners, p):
    """R-8's answer: 2 on a side, else 1 if the half line towards positive x crosses an odd number of sides, else 3."""
    odd = False
    for q, r in sides(corners):
        turn = cross(q, r, p)
        if turn == 0 and min(q[0], r[0]) <= p[0] <= max(q[0], r[0]) and min(q[1], r[1]) <= p[1] <= max(q[1], r[1]):
            return 2
        if (q[1] > p[1]) != (r[1] > p[1]) and (turn > 0) == (r[1] > q[1]):
            odd = not odd
    return 1 if odd else 3


def area_doubled(corners):
    """Above 0 if they are walked counterclockwise."""
    return sum(p[0] * q[1] - q[0] * p[1] for p, q in sides(corners))


def end_bytes(which, p, q, inside_left):
    half = bytes([2, 1, 3]) if inside_left else bytes([2, 3, 1])
    halves = half + bytes(3) if which == 0 else bytes(3) + half
    return struct.pack(">ii", q[0] - p[0], q[1] - p[1]) + b"\1" + halves


def ends_at(which, corners, p):
    """Along the two sides at a corner: the one that leaves it, then the one that arrives. Walked counterclockwise the
    inside lies to the left of a side."""
    if p not in corners:
        return []
    k, left = corners.index(p), area_doubled(corners) > 0
    after, before = corners[(k + 1) % len(corners)], corners[k - 1]
    return [end_bytes(which, p, after, left), end_bytes(which, p, before, not left)]


def records(a, b):
    """One node record for each distinct corner, those of A first."""
    out = b""
    for p in a + [q for q in b if q not in a]:
        ends = ends_at(0, a, p) + ends_at(1, b, p)
        at = [located(a, p), located(b, p)]
        body = bytes([1, 1] + at + at + [len(ends)]) + b"".join(ends)
        out += struct.pack(">H", len(body)) + body
    return out


# ---- Two boxes, by document 01 ----


def box_letters(a, b):
    """Boxes as (x, y, u, v), min corner and max corner."""
    axes = [(a[0], a[2], b[0], b[2]), (a[1], a[3], b[1], b[3])]
    ii = all(p < s and r < q for p, q, r, s in axes)
    a_in_b = all(r <= p and q <= s for p, q, r, s in axes)
    b_in_a = all(p <= r and s <= q for p, q, r, s in axes)
    meet = all(p <= s and r <= q for p, q, r, s in axes)
    strictly = all(r < p and q < s for p, q, r, s in axes) or all(p < r and s < q for p, q, r, s in axes)
    stretch = [min(q, s) > max(p, r) for p, q, r, s in axes]
    equal = [bool({p, q} & {r, s}) for p, q, r, s in axes]
    letters = {"II": "2" if ii else "F", "EE": "2"}
    letters["IE"], letters["BE"] = "FF" if a_in_b else "21"
    letters["EI"], letters["EB"] = "FF" if b_in_a else "21"
    letters["IB"] = "1" if ii and not a_in_b else "F"
    letters["BI"] = "1" if ii and not b_in_a else "F"
    along = (equal[0] and stretch[1]) or (equal[1] and stretch[0])
    letters["BB"] = "F" if not meet or strictly else "1" if along else "0"
    return "".join(letters[cell] for cell in "II IB IE BI BB BE EI EB EE".split())
