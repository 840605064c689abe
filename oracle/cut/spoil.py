"""Pairs of outlines as numbers, mostly with something wrong, for both readings of the refusals."""
import shapes

SHARES = ["mesh"] * 6 + ["crossed"] * 5 + ["cells"] * 4 + ["around"]
LOW, HIGH = -(2**31), 2**31 - 1


def flat(corners):
    return [v for c in corners for v in c]


def anyhow(rnd):
    """Corners of a small grid, too few, and now and then too many."""
    size, n = rnd.choice([2, 3, 5, 9]), rnd.choice([0, 1, 2, 3, 3, 3, 3, 4, 4, 4, 5, 6, 7, 12, 64, 65, 66])
    return [rnd.randrange(size) for _ in range(2 * n)]


def spoilt(rnd, numbers):
    """One thing wrong, mostly."""
    n, how = list(numbers), rnd.randrange(9)
    k = rnd.randrange(len(n))
    if how == 0:
        n[k] += rnd.choice([-1, 1])
    elif how == 1:
        n[k] = rnd.choice([-1, 1]) * rnd.choice([10**9, 10**9 + 1, HIGH])
    elif how == 2:
        n = n[: k + 1] if rnd.random() < 0.3 else n[:-1]
    elif how == 3:
        n[2 * (k // 2) :] = n[2 * (k // 2) : 2 * (k // 2) + 2] + n[2 * (k // 2) :]
    elif how == 4:
        m = 2 * rnd.randrange(len(n) // 2)
        k = 2 * (k // 2)
        n[k : k + 2], n[m : m + 2] = n[m : m + 2], n[k : k + 2]
    elif how == 5:
        m = 2 * rnd.randrange(len(n) // 2)
        n[2 * (k // 2) : 2 * (k // 2) + 2] = n[m : m + 2]
    elif how == 6:
        del n[2 * (k // 2) : 2 * (k // 2) + 2]
    elif how == 7:
        n = [v + rnd.choice([1, 2]) * (1 - i % 2) for i, v in enumerate(n)]
    return [max(LOW, min(HIGH, v)) for v in n]


def bad_pair(rnd):
    how = rnd.randrange(4)
    if how == 0:
        return anyhow(rnd), anyhow(rnd)
    a, b = [flat(one) for one in shapes.pair(rnd, rnd.choice(SHARES))]
    if how == 1:
        return (a, anyhow(rnd)) if rnd.random() < 0.5 else (anyhow(rnd), b)
    if how == 2 or rnd.random() < 0.5:
        a = spoilt(rnd, a)
    if how == 3:
        b = spoilt(rnd, b)
    return a, b
