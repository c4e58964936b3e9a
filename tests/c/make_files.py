#!/usr/bin/env python3
"""tests/c/make_files.py FOLDER: writes the fixture files of tests/c/files into FOLDER. The standard library alone is used."""
import math
import os
import struct
import sys

BOX, MULTI_BOX, SPHERE, SPHERICAL_SHELL, CYLINDER, CYLINDRICAL_SHELL, POLYGON, EXTRUDED, ROTATED, WIRE = range(0x10, 0x1A)
TRANSLATE, ROTATE_ORIGIN, ROTATE_X, ROTATE_Y, ROTATE_Z, SCALE, SCALE_3, MATRIX = range(1, 9)


def field(tag, payload):
    return struct.pack("<BH", tag, len(payload)) + payload


def options(segments, rings):
    return field(0x01, struct.pack("<HH", segments, rings))


def byte(tag, value):
    return field(tag, bytes([value]))


def floats(numbers):
    return struct.pack("<%dd" % len(numbers), *numbers)


def operation(kind, *numbers):
    return field(0x05, bytes([kind]) + floats(numbers))


def solid(tag, *numbers, directions=()):
    return field(tag, bytes(directions) + floats(numbers))


A_BOX = solid(BOX, 0, 0, 0, 1, 2, 3)
SQUARE = (0, 0, 1, 0, 1, 1, 0, 1)

FILES = {
    "box": A_BOX,
    # A sphere, and a cylinder of the same three segments: its own system is not the default one, and its angle is in degrees.
    "two_solids": options(3, 2) + solid(SPHERE, 0, 0, 0, 1)
    + byte(0x02, 1) + byte(0x03, 0) + byte(0x04, 1) + operation(ROTATE_Z, 90) + operation(TRANSLATE, 4, 5, 6)
    + solid(CYLINDER, 0, 0, 0, 0, 0, 1, 1),
    # Each kind of solid at three segments and two rings.
    "each_solid": options(3, 2) + A_BOX
    + solid(MULTI_BOX, 0, 0, 0, 1, 1, 1, 2, 2, 2, 3, 3, 3)
    + solid(SPHERE, 0, 0, 0, 1)
    + solid(SPHERICAL_SHELL, 0, 0, 0, 1, 0.5)
    + solid(CYLINDER, 0, 0, 0, 0, 0, 1, 1)
    + solid(CYLINDRICAL_SHELL, 0, 0, 0, 0, 0, 1, 1, 0.5)
    + solid(POLYGON, 1, *SQUARE, directions=[2])
    + solid(EXTRUDED, 0, 1, *SQUARE, directions=[2])
    + solid(ROTATED, 0, 0, math.tau, 1, 1, 2, 1, 2, 2, 1, 2, directions=[2, 0])
    + solid(WIRE, 0.25, 0, 0, 0, 1, 0, 0, 1, 1, 0),
    # Accepted, and without a vertex: two solids that draw nothing, and settings that serve no solid.
    "nothing_drawn": solid(SPHERE, 0, 0, 0, 0) + solid(MULTI_BOX) + byte(0x03, 1) + operation(SCALE, 2),
    "refused_01_not_finite": solid(SPHERE, 0, 0, 0, math.nan),
    "refused_02_angle": operation(ROTATE_X, math.nextafter(1000, 2000)) + A_BOX,
    "refused_03_segments": options(1025, 16) + A_BOX,
    "refused_04_operations": operation(SCALE, 1) * 17 + A_BOX,
    "refused_05_point": solid(BOX, -1e308, 0, 0, 1e308, 2, 3),
    "refused_07_solid": options(74, 15) + solid(SPHERE, 0, 0, 0, 1),
    "refused_09_length": A_BOX + field(BOX, floats([0, 0, 0, 1, 2])),
    "refused_09_past_the_end": A_BOX + A_BOX[:-1],
    "refused_10_kind": operation(9, 1) + A_BOX,
    "refused_10_tag": A_BOX + byte(0x06, 0),
    "refused_11_settings_only": options(32, 16) + byte(0x02, 1),
}


def main():
    if len(sys.argv) != 2:
        sys.exit("usage: make_files.py FOLDER")
    for name, content in FILES.items():
        with open(os.path.join(sys.argv[1], name + ".fix"), "wb") as to:
            to.write(content)


main()
