"""The library by its C interface, linked for this processor: run.sh makes the shared object."""
import ctypes
import os

OURS = ctypes.CDLL(os.environ["MISONKANDI_SHARED"])
REFUSED = 1 << 31
MOST_BYTES = 8832
for name in ("relate_outlines", "commission", "point_in_outline", "floor", "relate_places"):
    getattr(OURS, "misonkandi_" + name).restype = ctypes.c_uint32
count = ctypes.c_size_t


def lent(numbers):
    return (ctypes.c_int32 * len(numbers))(*numbers), count(len(numbers))


def letters(cells):
    return "".join("F012"[c] if c < 4 else "?" for c in cells)


def related(a, b):
    """The word, the nine cells and the three numbers, which held nines and sevens."""
    cells, answer = (ctypes.c_uint8 * 9)(*[9] * 9), (ctypes.c_uint64 * 3)(7, 7, 7)
    word = OURS.misonkandi_relate_outlines(*lent(a), *lent(b), cells, answer)
    return word, bytes(cells), tuple(answer)


def commissioned(a, b, room=MOST_BYTES, offset=0):
    """The word and the buffer, which held fives."""
    buffer = (ctypes.c_uint8 * room).from_buffer(bytearray(b"\5" * room))
    word = OURS.misonkandi_commission(*lent(a), *lent(b), buffer, count(room), count(offset))
    return word, bytes(buffer)


def position(numbers, x, y):
    return OURS.misonkandi_point_in_outline(*lent(numbers), ctypes.c_int32(x), ctypes.c_int32(y))


def poured(floor):
    """The word, the letters of FFFFFFFF2 with the floor poured, the bytes used and how many records."""
    cells, answer = (ctypes.c_uint8 * 9)(0, 0, 0, 0, 0, 0, 0, 0, 3), (ctypes.c_uint64 * 2)()
    word = OURS.misonkandi_floor(cells, floor, count(len(floor)), answer)
    return word, letters(cells), answer[0], answer[1]


def boxes_related(a, b):
    cells, double = (ctypes.c_uint8 * 9)(), ctypes.c_double
    word = OURS.misonkandi_relate_places(1, *map(double, a), 1, *map(double, b), cells)
    return word, letters(cells)
