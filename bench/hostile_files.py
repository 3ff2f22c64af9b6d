"""Makes the files of bench/hostile: each is as hard to read, in one respect, as 8 MB of a cell file can be, or has so
many of something that the kernel's code changes its way at a bound.

A case is a name and a function that gives its files by their names. They are loaded in that order, unless the case has
a script of its own; and where it has a last reply, that has to come.
"""
import collections
import struct

from cells import FIELD, UNIT, name, record

# Labels and formats of the fields; a label with `*` begins the repeated group. Labels that nobody looks at are left
# out, but in the cases about labels.
ROWS = {
    b"DSID": (b"DSNM!EDTN!UPDN!ISDT!PROF!AGEN", b"3A,A(8),b11,b12"),
    b"DSPM": (b"CSCL!DUNI!COUN!COMF!SOMF", b"b14,2b11,2b14"),
    b"VRID": (b"RCNM!RCID!RVER!RUIN", b"b11,b14,b12,b11"),
    b"ATTV": (b"*ATTL!ATVL", b"b12,A"),
    b"VRPC": (b"VPUI!VPIX!NVPT", b"b11,2b12"),
    b"VRPT": (b"*NAME!ORNT!USAG!TOPI!MASK", b"B(40),4b11"),
    b"SGCC": (b"CCUI!CCIX!CCNC", b"b11,2b12"),
    b"SG2D": (b"*YCOO!XCOO", b"2b24"),
    b"SG3D": (b"*YCOO!XCOO!VE3D", b"3b24"),
    b"FRID": (b"RCNM!RCID!PRIM!GRUP!OBJL!RVER!RUIN", b"b11,b14,2b11,2b12,b11"),
    b"FOID": (b"AGEN!FIDN!FIDS", b"b12,b14,b12"),
    b"ATTF": (b"*ATTL!ATVL", b"b12,A"),
    b"FFPC": (b"FFUI!FFIX!NFPT", b"b11,2b12"),
    b"FFPT": (b"*LNAM!RIND!COMT", b"B(64),b11,A"),
    b"FSPC": (b"FSUI!FSIX!NSPT", b"b11,2b12"),
    b"FSPT": (b"*NAME!ORNT!USAG!MASK", b"B(40),3b11"),
}

ISOLATED_NODE, CONNECTED_NODE, EDGE = 110, 120, 130
INSERT, DELETE, MODIFY = 1, 2, 3
LARGEST = 8_000_000
# The key of the cell that most cases make.
HELD = b"HOSTILE"


def descriptor(labels, formats, about=b""):
    return b"0000;&   " + about + UNIT + labels + UNIT + b"(" + formats + b")" + FIELD


def descriptive(**rows):
    """The data descriptive record, with other labels and formats for the tags that are given."""
    given = ROWS | {tag.encode(): row for tag, row in rows.items()}
    return record(b"L", [(tag, descriptor(*row)) for tag, row in given.items()])


def spans(entries, area):
    """A data record whose directory names these spans of its field area, each a tag, a length and a position."""
    lengths = max((len(b"%d" % length) for _, length, _ in entries), default=1)
    positions = max((len(b"%d" % position) for _, _, position in entries), default=1)
    entry = b"%%s%%0%dd%%0%dd" % (lengths, positions)
    directory = b"".join(entry % span for span in entries)
    base = 24 + len(directory) + 1
    assert base + len(area) <= 99_999, base + len(area)
    return b"%05d D     %05d   %d%d04" % (base + len(area), base, lengths, positions) + directory + FIELD + area


def packed(*fields):
    """A data record of fields, each a tag and its bytes without the terminator, with the shortest entries."""
    entries, area = [], b""
    for tag, data in fields:
        entries.append((tag, len(data) + 1, len(area)))
        area += data + FIELD
    return spans(entries, area)


def head(update=0, cell=HELD):
    """The first records of a base file of a cell, or of an update with this number."""
    profile = 2 if update else 1
    first = packed((b"DSID", UNIT.join((cell + b".000", b"1", b"%d" % update, b"20240101"))
                    + struct.pack("<BH", profile, 550)))
    scale = packed((b"DSPM", struct.pack("<IBBII", 10_000, 1, 1, 10_000_000, 10)))
    return first + (b"" if update else scale)


def base(records, cell=HELD, **rows):
    return whole(descriptive(**rows) + head(cell=cell) + b"".join(records))


def update(records, number=1, **rows):
    return whole(descriptive(**rows) + head(number) + b"".join(records))


def whole(data):
    assert len(data) <= 8_388_608, len(data)
    return data


def vector(kind, number, version=1, ruin=INSERT):
    return (b"VRID", struct.pack("<BIHB", kind, number, version, ruin))


def feature(number, prim=255, version=1, ruin=INSERT):
    """The identifying fields of a feature."""
    identifier = (b"FRID", struct.pack("<BIBBHHB", 100, number, prim, 1, 42, version, ruin))
    return (identifier, (b"FOID", struct.pack("<HIH", 550, number, 1))) if ruin == INSERT else (identifier,)


def attributes(codes, value=b""):
    return b"".join(struct.pack("<H", code) + value + UNIT for code in codes)


def ends(begin, end):
    """An edge's pointers to its nodes."""
    nodes = name(CONNECTED_NODE, begin), name(CONNECTED_NODE, end)
    return (b"VRPT", b"%s\xff\xff\x01\xff%s\xff\xff\x02\xff" % nodes)


def shown(edges):
    """A feature's pointers to edges, each taken forward."""
    return (b"FSPT", b"".join(name(EDGE, edge) + b"\x01\x01\xff" for edge in edges))


def node(number):
    return packed(vector(CONNECTED_NODE, number), (b"SG2D", struct.pack("<ii", number, number)))


def edit(instruction, index, count):
    return struct.pack("<BHH", instruction, index, count)


def many(make, size, most=LARGEST):
    """As many records of this size, numbered from 1, as a file holds."""
    return [make(number) for number in range(1, most // size + 1)]


# What a file can hold much of.

def falling_attributes():
    """80 features, each with 33,200 attributes in falling order of their codes."""
    falling = (b"ATTF", attributes(range(33_200, 0, -1)))
    return {"base": base(packed(*feature(number), falling) for number in range(1, 81))}


def overlapping_fields():
    """3,500 directory entries, all over one field of 48,000 bytes."""
    identifier, foid = (data + FIELD for _, data in feature(1))
    held = attributes(range(1, 16_001)) + FIELD
    entries = [(b"FRID", len(identifier), 0), (b"FOID", len(foid), len(identifier))]
    entries += [(b"ATTF", len(held), len(identifier) + len(foid))] * 3_500
    return {"base": base([spans(entries, identifier + foid + held)])}


def many_labels():
    """64 labels a group, of which two are looked at, and 122,400 groups."""
    others = b"*" + b"!".join(b"L%03d" % place for place in range(62))
    group = UNIT * 62 + b"\x01\x00" + UNIT
    return {"base": base((packed(*feature(number), (b"ATTF", group * 1_530)) for number in range(1, 81)),
                         ATTF=(others + b"!ATTL!ATVL", b"62A,b12,A"))}


SHORT = (b"*YCOO!XCOO", b"2b11")


def long_edge(number):
    """An edge with 49,800 coordinates of two bytes."""
    return packed(vector(EDGE, number), ends(1, 2), (b"SG2D", b"\x01\x02" * 49_800))


def many_groups():
    """80 such edges."""
    nodes = [packed(vector(CONNECTED_NODE, number), (b"SG2D", b"\x01\x01")) for number in (1, 2)]
    return {"base": base(nodes + [long_edge(number) for number in range(1, 81)], SG2D=SHORT)}


def greatest_descriptors():
    """Descriptors that fill their record, by leading zeros in their counts, and 64 labels in that of the records."""
    def long(formats):
        return b"0" * 5_500 + (b"" if formats[:1].isdigit() else b"1") + formats

    rows = {tag.decode(): (labels, long(formats)) for tag, (labels, formats) in ROWS.items()}
    labels, formats = rows["VRID"]
    rows["VRID"] = (b"!".join(b"L%03d" % place for place in range(60)) + b"!" + labels, b"60A," + formats)

    def node_of(number):
        tag, data = vector(ISOLATED_NODE, number)
        return packed((tag, UNIT * 60 + data))

    return {"base": base(many(node_of, len(node_of(1)), LARGEST - 100_000), **rows)}


def refused_labels():
    """An array descriptor of 19,000 labels."""
    return {"base": base([], ATTF=(b"!".join([b"ATTL"] * 19_000), b"19000A"))}


def most_entries():
    """80 records, each with 16,600 directory entries of empty fields that nobody asks for."""
    return {"base": base([spans([(b"XXXX", 0, 0)] * 16_600, b"") for _ in range(80)])}


def smallest_records():
    """Records without a field: 25 bytes each."""
    return {"base": base([spans([], b"")] * (LARGEST // 25))}


def falling_records():
    """The smallest vector records, 40 bytes each, in falling order of their numbers."""
    return {"base": base(reversed(many(lambda number: packed(vector(ISOLATED_NODE, number)), 40)))}


# Pointers.

def one_edge_often():
    """80 areas, each with 12,000 pointers to one closed edge of 12,000 coordinates."""
    long = packed(vector(EDGE, 1), ends(1, 1), (b"SG2D", struct.pack("<ii", 7, 7) * 12_000))
    areas = (packed(*feature(number, 3), shown([1] * 12_000)) for number in range(1, 81))
    return {"base": base([node(1), long] + list(areas))}


def long_ring():
    """50 areas of the same 12,000 edges, which close at the last."""
    count = 12_000
    edges = [packed(vector(EDGE, number), ends(number, number % count + 1)) for number in range(1, count + 1)]
    areas = [packed(*feature(number, 3), shown(range(1, count + 1))) for number in range(1, 51)]
    return {"base": base([node(number) for number in range(1, count + 1)] + edges + areas)}


def open_ring():
    """The same without the last edge in the last area."""
    last = packed(*feature(51, 3), shown(range(1, 12_000)))
    return {"base": whole(long_ring()["base"] + last)}


# Updates.

SOUNDING = struct.pack("<iii", 1, 2, 3)


def insertions(list_of_soundings, **rows):
    """A base with one node of soundings, and 60,000 insertions at the front of them."""
    sounding = b"\x01\x02\x03" if rows else SOUNDING
    changes = (packed(vector(ISOLATED_NODE, 1, version, MODIFY), (b"SGCC", edit(INSERT, 1, 1)), (b"SG3D", sounding))
               for version in range(2, 60_002))
    return {"base": base([list_of_soundings], **rows), "update": update(changes, **rows)}


def front_insertions():
    """60,000 insertions at the front of a list of 8,000 soundings."""
    return insertions(packed(vector(ISOLATED_NODE, 1), (b"SG3D", SOUNDING * 8_000)))


def front_insertions_of_a_longer_list():
    """60,000 insertions at the front of a list of 2,500,000 soundings, which is one field named 100 times."""
    identifier = vector(ISOLATED_NODE, 1)[1] + FIELD
    held = b"\x01\x02\x03" * 25_000 + FIELD
    entries = [(b"VRID", len(identifier), 0)] + [(b"SG3D", len(held), len(identifier))] * 100
    return insertions(spans(entries, identifier + held), SG3D=(b"*YCOO!XCOO!VE3D", b"3b11"))


def first_attribute():
    """60,000 changes, each of which removes and sets the first of 33,000 attributes."""
    changed = attributes([1], b"\x7f") + attributes([1])
    changes = (packed(*feature(1, 255, version, MODIFY), (b"ATTF", changed)) for version in range(2, 60_002))
    return {"base": base([packed(*feature(1), (b"ATTF", attributes(range(1, 33_001))))]), "update": update(changes)}


def changed_area():
    """60,000 changes of an area of 12,000 edges, which take its first pointer away and put it back in turn."""
    def change(version):
        edits = ((b"FSPC", edit(DELETE, 1, 1)),) if version % 2 == 0 else ((b"FSPC", edit(INSERT, 1, 1)), shown([1]))
        return packed(*feature(1, 3, version, MODIFY), *edits)

    return long_ring() | {"update": update(change(version) for version in range(2, 60_002))}


def replaced_pointer():
    """60,000 changes of an area of 12,000 edges, each of which replaces its first pointer."""
    edits = ((b"FSPC", edit(MODIFY, 1, 1)), shown([1]))
    changes = (packed(*feature(1, 3, version, MODIFY), *edits) for version in range(2, 60_002))
    return long_ring() | {"update": update(changes)}


def smallest_vectors():
    return base(many(lambda number: packed(vector(ISOLATED_NODE, number)), 40))


def every_record():
    """An update that touches each of the smallest vector records."""
    changes = many(lambda number: packed(vector(ISOLATED_NODE, number, 2, MODIFY)), 40)
    return {"base": smallest_vectors(), "update": update(changes)}


def every_record_deleted():
    """An update that deletes each of them."""
    changes = many(lambda number: packed(vector(ISOLATED_NODE, number, 2, DELETE)), 40)
    return {"base": smallest_vectors(), "update": update(changes)}


def last_change_refused():
    """An update that touches each of them but the first, which it inserts at last."""
    changes = many(lambda number: packed(vector(ISOLATED_NODE, number, 2, MODIFY)), 40)
    return {"base": smallest_vectors(), "update": update(changes[1:] + [packed(vector(ISOLATED_NODE, 1))])}


def many_groups_twice():
    """80 edges of 49,800 coordinates of two bytes; an update that deletes one and inserts 79 such."""
    changes = [packed(vector(EDGE, 1, 2, DELETE))] + [long_edge(number) for number in range(81, 160)]
    return many_groups() | {"update": update(changes, SG2D=SHORT)}


# Numbers of things at which the code changes its way.


def placed_node(number=1):
    return packed(vector(ISOLATED_NODE, number), (b"SG2D", struct.pack("<ii", 450, 450)))


def texts(pairs):
    """Attributes with their values."""
    return b"".join(struct.pack("<H", code) + text + UNIT for code, text in pairs)


def point(number, object_class, values, ruin=INSERT, version=1):
    """A point at node 1 with these attributes, or a change of it that sets them."""
    identifier = (b"FRID", struct.pack("<BIBBHHB", 100, number, 1, 2, object_class, version, ruin))
    inserts = ((b"FOID", struct.pack("<HIH", 550, number, 1)),
               (b"FSPT", name(ISOLATED_NODE, 1) + b"\xff\xff\xff")) if ruin == INSERT else ()
    return packed(identifier, *inserts[:1], (b"ATTF", texts(values)), *inserts[1:])


def areas_under_a_wreck():
    """1,000 depth areas over one square, of which the last alone is safe, and a wreck of unknown depth in it."""
    corners = struct.pack("<6i", 0, 900, 900, 900, 900, 0)
    square = packed(vector(EDGE, 1), ends(1, 1), (b"SG2D", corners))
    corner = packed(vector(CONNECTED_NODE, 1), (b"SG2D", struct.pack("<ii", 0, 0)))
    least = [b"%d" % (5 + number % 7) for number in range(1, 1_000)] + [b"40"]
    areas = [packed(*feature(number, 3), (b"ATTF", texts([(87, depth), (88, b"50")])), shown([1]))
             for number, depth in enumerate(least, 1)]
    wreck = point(1_001, 159, [(93, b"1"), (187, b"3")])
    return {"base": base([placed_node(), corner, square, *areas, wreck])}


def settings_in_one_change():
    """A point with 40 attributes, an update of 32 of them in one change, and one of 33, which a table shows."""
    codes = range(1, 41)
    changes = [(32, 1, b"second"), (33, 2, b"third")]
    updates = {"update%d" % number: update([point(1, 42, [(code, text) for code in codes[:count]], MODIFY, number + 1)],
                                           number) for count, number, text in changes}
    conditions = b"+".join(b"ATTR%02d=%s" % (code, b"third" if code <= 33 else b"first") for code in codes)
    return {"base": base([placed_node(), point(1, 42, [(code, b"first") for code in codes])]), **updates,
            "catalogue": b"O 42 DEPARE\n" + b"".join(b"A %d ATTR%02d\n" % (code, code) for code in codes),
            "table": b"DEPARE P 1 %s SY(RIGHT001)\n" % conditions}


def texts_about_their_place():
    """A point with texts of 23, 24 and 65,536 bytes, which a table shows, and which are written and read again."""
    values = [(1, b"a" * 23), (2, b"b" * 24), (3, b"c" * 65_536)]
    conditions = b"+".join(b"ATTR%02d=%s" % value for value in values)
    return {"base": base([placed_node(), point(1, 42, values)]),
            "catalogue": b"O 42 DEPARE\n" + b"".join(b"A %d ATTR%02d\n" % (code, code) for code, _ in values),
            "table": b"DEPARE P 1 %s SY(RIGHT001)\n" % conditions}


SPARSE, SMALL_UPDATES = 100_000, 300


def sparse_records():
    """100,000 records with numbers 64 apart, each with a page of the map to itself, and 300 updates of ten each."""
    records = (packed(vector(ISOLATED_NODE, 64 * number)) for number in range(1, SPARSE + 1))
    files = {"base": base(records)}
    for number in range(1, SMALL_UPDATES + 1):
        touched = range(number, SPARSE, SPARSE // 10)
        changes = (packed(vector(ISOLATED_NODE, 64 * record, 2, MODIFY)) for record in touched)
        files["u%03d" % number] = update(changes, number)
    return files


Case = collections.namedtuple("Case", "name make script said", defaults=(None, None))
SHOWN = b"item 1 P 1 whole SY(RIGHT001)"
UPDATES_OF_SPARSE = b"".join(b"load u%03d\n" % number for number in range(1, SMALL_UPDATES + 1))


CASES = [Case(*case) for case in [
    ("80 features, 33,200 falling attributes each", falling_attributes),
    ("3,500 entries over one field", overlapping_fields),
    ("64 labels a group", many_labels),
    ("4,000,000 coordinates of two bytes", many_groups),
    ("descriptors at their greatest", greatest_descriptors),
    ("19,000 labels", refused_labels),
    ("1,300,000 empty fields", most_entries),
    ("320,000 records of 25 bytes", smallest_records),
    ("200,000 vector records, falling", falling_records),
    ("80 areas, 12,000 times one edge each", one_edge_often),
    ("50 areas of 12,000 edges", long_ring),
    ("the same, and one that stays open", open_ring),
    ("60,000 insertions, 8,000 soundings", front_insertions),
    ("60,000 insertions, 2,500,000 soundings", front_insertions_of_a_longer_list),
    ("60,000 changes, 33,000 attributes", first_attribute),
    ("60,000 changes of an area of 12,000 edges", changed_area),
    ("60,000 replacements, an area of 12,000 edges", replaced_pointer),
    ("an update of each of 200,000 records", every_record),
    ("a deletion of each of them", every_record_deleted),
    ("a refusal at the last of them", last_change_refused),
    ("4,000,000 coordinates, and as many again", many_groups_twice),
    ("1,000 depth areas under a hazard", areas_under_a_wreck, b"load base\ndraw %s\n" % HELD,
     b"item 4 P 1001 whole SY(ISODGR01)"),
    ("32 and 33 settings in one change", settings_in_one_change,
     b"load base\nload update1\nload update2\ndraw %s\n" % HELD, SHOWN),
    ("texts of 23, 24 and 65,536 bytes", texts_about_their_place,
     b"load base\nreissue %s\ndraw %s\n" % (HELD, HELD), SHOWN),
    ("100,000 records 64 apart, and 300 updates", sparse_records,
     b"load base\n" + UPDATES_OF_SPARSE + b"cells\n",
     b"cell %s 1 %d %d %d" % (HELD, SMALL_UPDATES, SMALL_UPDATES + 1, SPARSE)),
]]
