"""Makes the charts of bench/hostile that are drawn and passed by a route: each is as dear to draw or to pass, in one
respect, as a cell of 8 MB can be.
"""
import math
import struct

from cells import FIELD, name
from hostile_files import (CONNECTED_NODE, EDGE, HELD, ISOLATED_NODE, base, ends, feature, packed, shown, spans, texts,
                           vector)

DEPTH_AREAS = b"DEPARE A 1 - CS(DEPARE01)\n"
HAZARDS = b"WRECKS P 4 - CS(WRECKS02)\n"
SOUNDINGS = b"SOUNDG P 6 - CS(SOUNDG02)\n"
DRVAL1, DRVAL2, EXPSOU, WATLEV = 87, 88, 93, 187
SAFE = texts([(DRVAL1, b"40"), (DRVAL2, b"50")])
UNSAFE = texts([(DRVAL1, b"5"), (DRVAL2, b"50")])
SIDE = 6_000_000


def corner(number, x, y):
    return packed(vector(CONNECTED_NODE, number), (b"SG2D", struct.pack("<ii", y, x)))


def edge(number, begin, end, points=()):
    fields = [vector(EDGE, number), ends(begin, end)]
    if points:
        fields.append((b"SG2D", b"".join(struct.pack("<ii", y, x) for x, y in points)))
    return packed(*fields)


def area(number, edges, depths):
    return packed(*feature(number, 3), (b"ATTF", depths), shown(edges))


def wreck(number, node):
    """A wreck of no known depth, at the bottom of what it lies in."""
    identifier = (b"FRID", struct.pack("<BIBBHHB", 100, number, 1, 2, 159, 1, 1))
    return packed(identifier, (b"FOID", struct.pack("<HIH", 550, number, 1)),
                  (b"ATTF", texts([(EXPSOU, b"1"), (WATLEV, b"3")])),
                  (b"FSPT", name(ISOLATED_NODE, node) + b"\xff\xff\xff"))


def place(number, x, y):
    return packed(vector(ISOLATED_NODE, number), (b"SG2D", struct.pack("<ii", y, x)))


def round_points(count, radius=SIDE // 2, wave=SIDE // 20):
    """Points of a ring about the middle of the square, which goes in and out."""
    middle = SIDE // 2
    for at in range(1, count + 1):
        angle = 2 * math.pi * at / (count + 1)
        far = radius - wave * (at % 2)
        yield middle + int(far * math.cos(angle)), middle + int(far * math.sin(angle))


def scattered(count):
    """Places all over the square, in no visible order."""
    number = 1
    for _ in range(count):
        number = (number * 1_103_515_245 + 12_345) % (1 << 31)
        x = number % SIDE
        number = (number * 1_103_515_245 + 12_345) % (1 << 31)
        yield x, number % SIDE


def areas_of_one_edge():
    """50,000 safe areas, all of one closed edge: each is a neighbour of each other along it."""
    square = edge(1, 1, 1, [(0, SIDE), (SIDE, SIDE), (SIDE, 0)])
    return {"base": base([corner(1, 0, 0), square] + [area(number, [1], SAFE) for number in range(1, 50_001)]),
            "table": DEPTH_AREAS}


def long_areas(count, points):
    """So many areas, each of one long edge that all share and of a short one of its own."""
    middle = SIDE // 2
    records = [corner(1, SIDE, middle), corner(2, SIDE, middle - 9), edge(1, 1, 2, list(round_points(points)))]
    records += [edge(number + 1, 2, 1) for number in range(1, count + 1)]
    return records + [area(number, [1, number + 1], UNSAFE) for number in range(1, count + 1)]


def wrecks_among(count, first):
    places = [place(number, x, y) for number, (x, y) in enumerate(scattered(count), 1)]
    return places + [wreck(first + number, number) for number in range(1, count + 1)]


def wrecks_in_long_areas():
    """20,000 wrecks in 2,000 areas of 6,000 points each."""
    return {"base": base(long_areas(2_000, 6_000) + wrecks_among(20_000, 2_000)), "table": DEPTH_AREAS + HAZARDS}


def many_long_areas():
    """A wreck in 20,000 areas of 6,000 points each."""
    return {"base": base(long_areas(20_000, 6_000) + wrecks_among(1, 20_000)), "table": DEPTH_AREAS + HAZARDS}


def wrecks_at_one_place():
    """30,000 wrecks at one place, in a long area."""
    records = long_areas(1, 10_000) + [place(1, SIDE // 2, SIDE // 2)]
    return {"base": base(records + [wreck(number, 1) for number in range(2, 30_002)]),
            "table": DEPTH_AREAS + HAZARDS}


def contour_of_many_edges():
    """50 safe areas of the same 12,000 edges: each has the others for neighbours along each of them."""
    count = 12_000
    places = list(round_points(count))
    records = [corner(number, x, y) for number, (x, y) in enumerate(places, 1)]
    records += [edge(number, number, number % count + 1) for number in range(1, count + 1)]
    records += [area(number, range(1, count + 1), SAFE) for number in range(1, 51)]
    return {"base": base(records), "table": DEPTH_AREAS}


def one_long_ring():
    """An area of 90 edges of 11,000 points each."""
    count, points = 90, 11_000
    every = list(round_points(count * (points + 1)))
    records = [corner(number + 1, *every[number * (points + 1)]) for number in range(count)]
    records += [edge(number + 1, number + 1, (number + 1) % count + 1,
                     every[number * (points + 1) + 1:(number + 1) * (points + 1)]) for number in range(count)]
    return records + [area(1, range(1, count + 1), UNSAFE)]


def long_ring_passed():
    """999 legs to and fro through an area of 990,000 points."""
    legs = b"".join(b"%d %d\n" % (SIDE * (at % 2), SIDE * at // 1_000) for at in range(1_000))
    return {"base": base(one_long_ring()), "passage": b"box 1000 1000\n" + legs}


def soundings_of_three_bytes():
    """2,500,000 soundings of three bytes each, as one field that is named 100 times."""
    identifier = vector(ISOLATED_NODE, 1)[1] + FIELD
    held = b"\x01\x02\x7f" * 25_000 + FIELD
    entries = [(b"VRID", len(identifier), 0)] + [(b"SG3D", len(held), len(identifier))] * 100
    depths = packed((b"FRID", struct.pack("<BIBBHHB", 100, 1, 1, 2, 129, 1, 1)),
                    (b"FOID", struct.pack("<HIH", 550, 1, 1)),
                    (b"FSPT", name(ISOLATED_NODE, 1) + b"\xff\xff\xff"))
    return {"base": base([spans(entries, identifier + held), depths], SG3D=(b"*YCOO!XCOO!VE3D", b"3b11")),
            "table": SOUNDINGS, "passage": b"box 10 10\n0 0\n9 9\n"}


def edge_pointed_to():
    """An edge of 12,000 points that returns to its node."""
    return [corner(1, SIDE, SIDE // 2), edge(1, 1, 1, list(round_points(12_000)))]


def areas_of_many_pointers():
    """80 areas that point 12,000 times each to one edge of 12,000 points."""
    return {"base": base(edge_pointed_to() + [area(number, [1] * 12_000, UNSAFE) for number in range(1, 81)]),
            "passage": b"box 10 10\n0 0\n%d %d\n" % (SIDE, SIDE)}


def hazards_of_many_pointers():
    """A depth area, and 80 wrecks at its bottom, areas that point 12,000 times each to its edge."""
    def hazard(number):
        identifier = (b"FRID", struct.pack("<BIBBHHB", 100, number, 3, 2, 159, 1, 1))
        return packed(identifier, (b"FOID", struct.pack("<HIH", 550, number, 1)),
                      (b"ATTF", texts([(EXPSOU, b"1"), (WATLEV, b"3")])), shown([1] * 12_000))

    records = edge_pointed_to() + [area(1, [1], UNSAFE)] + [hazard(number) for number in range(2, 82)]
    return {"base": base(records), "table": DEPTH_AREAS + b"WRECKS A 4 - CS(WRECKS02)\n"}


def soundings_of_many_pointers():
    """Soundings that point 9,000 times to a node of 8,000 coordinates."""
    depths = b"".join(struct.pack("<iii", at, at, 99) for at in range(8_000))
    pointers = (name(ISOLATED_NODE, 1) + b"\xff\xff\xff") * 9_000
    feature_of_node = packed((b"FRID", struct.pack("<BIBBHHB", 100, 1, 1, 2, 129, 1, 1)),
                             (b"FOID", struct.pack("<HIH", 550, 1, 1)), (b"FSPT", pointers))
    return {"base": base([packed(vector(ISOLATED_NODE, 1), (b"SG3D", depths)), feature_of_node]),
            "table": SOUNDINGS, "passage": b"box 10 10\n0 0\n9 9\n"}


def wrecks_passed():
    """999 legs to and fro past 30,000 wrecks."""
    records = long_areas(1, 100) + wrecks_among(30_000, 1)
    legs = b"".join(b"%d %d\n" % (SIDE * (at % 2), SIDE * at // 1_000) for at in range(1_000))
    return {"base": base(records), "passage": b"box 10000 10000\n" + legs}


def ringed(number, x, y, side, depths):
    """A square area of one edge of its own, with the edge and its node."""
    around = [(x, y + side), (x + side, y + side), (x + side, y)]
    return corner(number, x, y) + edge(number, number, number, around) + area(number, [number], depths)


def areas_of_many_instructions():
    """20,000 areas, for each of which the table calls a procedure 80,000 times."""
    squares = [ringed(number, number * 10, 0, 10, UNSAFE) for number in range(1, 20_001)]
    return {"base": base(squares), "table": b"DEPARE A 1 - " + b";".join([b"CS(DEPARE01)"] * 80_000) + b"\n"}


FULL_CELLS = [b"FULL%d" % number for number in range(1, 33)]


def full_cells():
    """32 cells of 7,000 areas each, in rows one above the other: all that a store takes."""
    cells = {cell.decode(): base([ringed(number, number * 100, row * 1_000, 99, UNSAFE) for number in range(1, 7_001)],
                                 cell=cell) for row, cell in enumerate(FULL_CELLS)}
    legs = b"".join(b"%d %d\n" % (700_000 * (at % 2), 32 * at) for at in range(1_000))
    return cells | {"table": DEPTH_AREAS, "passage": b"box 10 10\n" + legs}


def areas_in_many_buckets():
    """999 legs over 36,000 wrecks and 10,000 areas, each of which covers 8 by 8 buckets of the grid."""
    wide = [ringed(number, number * 500 % (SIDE * 7 // 8), number * 300 % (SIDE * 7 // 8), SIDE // 9, UNSAFE)
            for number in range(1, 10_001)]
    points = [place(number, x, y) + wreck(10_000 + number, number)
              for number, (x, y) in enumerate(scattered(36_000), 1)]
    legs = b"".join(b"%d %d\n" % (SIDE * (at % 2), SIDE * at // 1_000) for at in range(1_000))
    return {"base": base(wide + points), "passage": b"box 1000 1000\n" + legs}


DRAWN = b"load base\ndraw %s\n" % HELD
PASSED = b"load base\nroute passage\n"


def wrecks_in_long_areas_passed():
    return wrecks_in_long_areas() | {"passage": b"box 10 10\n0 0\n%d %d\n" % (SIDE, SIDE)}


CASES = [
    ("50,000 safe areas of one edge, drawn", areas_of_one_edge, DRAWN,
     b"item 1 A 50000 whole AC(DEPDW)"),
    ("20,000 wrecks in 2,000 long areas, drawn", wrecks_in_long_areas, DRAWN),
    ("the same, passed by a leg", wrecks_in_long_areas_passed, PASSED),
    ("a wreck in 20,000 long areas, drawn", many_long_areas, DRAWN),
    ("30,000 wrecks at one place, drawn", wrecks_at_one_place, DRAWN),
    ("50 safe areas of 12,000 edges, drawn", contour_of_many_edges, DRAWN,
     b"item 1 A 50 whole AC(DEPDW)"),
    ("999 legs through 990,000 points", long_ring_passed, PASSED),
    ("999 legs past 30,000 wrecks", wrecks_passed, PASSED),
    ("2,500,000 soundings, drawn", soundings_of_three_bytes, DRAWN),
    ("2,500,000 soundings, passed by a leg", soundings_of_three_bytes, PASSED),
    ("80 areas of 12,000 pointers, passed by a leg", areas_of_many_pointers, PASSED),
    ("80 wrecks of 12,000 pointers, drawn", hazards_of_many_pointers, DRAWN),
    ("soundings of 9,000 pointers, drawn", soundings_of_many_pointers, DRAWN),
    ("soundings of 9,000 pointers, passed by a leg", soundings_of_many_pointers, PASSED),
    ("20,000 areas of 80,000 instructions, drawn", areas_of_many_instructions, DRAWN),
    ("32 full cells, drawn", full_cells, b"".join(b"load %s\n" % cell for cell in FULL_CELLS)
     + b"".join(b"draw %s\n" % cell for cell in FULL_CELLS)),
    ("32 full cells, passed by 999 legs", full_cells, b"".join(b"load %s\n" % cell for cell in FULL_CELLS)
     + b"route passage\n"),
    ("999 legs over areas in many buckets", areas_in_many_buckets, PASSED),
]
