"""Prints the pairs that bench.c times: a line has the kind, the count of corners of each, then x and y of those of A and
of B. Both have exactly so many corners. `apart` ones lie in each other's bounding boxes."""
import random

from geos import by_geos
import shapes

PAIRS = 64
SIZES = {4: (12, 30), 16: (60, 60), 64: (260, 150)}


def boxes_meet(a, b):
    return all(max(min(p[k] for p in a), min(p[k] for p in b)) < min(max(p[k] for p in a), max(p[k] for p in b)) for k in (0, 1))


def of_mesh(rnd, kind, n):
    """Two thin regions of one mesh."""
    while True:
        of = shapes.mesh(rnd, *SIZES[n])
        a, region = shapes.grown(rnd, of, 40 * n, thin=True, corners=n)
        allowed = None if kind == "overlapping" else shapes.outside_of(of, region, kind == "apart")
        if allowed is not None and not allowed:
            continue
        start = rnd.choice(sorted(allowed)) if allowed else None
        b, _ = shapes.grown(rnd, of, 40 * n, start, allowed, thin=True, corners=n)
        if len(a) == len(b) == n and boxes_meet(a, b):
            said = by_geos(a, b)
            if kind == {"2": "overlapping", "1": "side by side", "F": "apart"}.get(said[0] if said[0] == "2" else said[4]):
                return a, b


def of_centre(rnd, kind, n):
    a = shapes.around(rnd, (0, 0), 10**6, n)
    if kind == "equal":
        return a, list(a)
    if kind == "one in the other":
        return a, shapes.around(rnd, (0, 0), 10**8, n)
    return a, shapes.around(rnd, (10**7, 0), 10**6, n)


def main():
    rnd = random.Random(1)
    for n in SIZES:
        for kind in ("overlapping", "side by side", "one in the other", "equal", "apart", "far apart"):
            for _ in range(PAIRS):
                a, b = (of_mesh if kind in ("overlapping", "side by side", "apart") else of_centre)(rnd, kind, n)
                a, b = shapes.walked(rnd, a), shapes.walked(rnd, b)
                print(kind.replace(" ", "_"), n, *(v for c in a + b for v in c))


main()
