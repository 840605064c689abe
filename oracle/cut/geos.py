"""GEOS's matrix of two outlines, by its C interface."""
import ctypes

GEOS = ctypes.CDLL("libgeos_c.so.1")
GEOS.GEOSGeomFromWKT.restype = GEOS.GEOSRelate.restype = ctypes.c_void_p
GEOS.GEOSisValid.restype = ctypes.c_char
GEOS.GEOSversion.restype = ctypes.c_char_p
GEOS.initGEOS(None, None)


def version():
    return GEOS.GEOSversion().decode()


def wkt(corners):
    return "POLYGON((" + ",".join("%d %d" % c for c in corners + corners[:1]) + "))"


def by_geos(a, b):
    """The nine letters; both must be valid polygons."""
    made = [ctypes.c_void_p(GEOS.GEOSGeomFromWKT(wkt(one).encode())) for one in (a, b)]
    valid = all(GEOS.GEOSisValid(one) == b"\1" for one in made)
    said = ctypes.c_void_p(GEOS.GEOSRelate(*made))
    text = ctypes.string_at(said).decode() if said and valid else "not valid"
    GEOS.GEOSFree(said)
    for one in made:
        GEOS.GEOSGeom_destroy(one)
    return text
