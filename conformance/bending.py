"""Cell files and stores, bent at random from a seed: bytes changed, lengths off, entries overlapping, fields exchanged,
records left out, said twice and exchanged, ends cut off.

What is bent is made of small whole files, so that most of what comes of it is still read to some depth.
"""
import glob, os, random

HERE = os.path.dirname(os.path.abspath(__file__))
LEADER = 24
FIELD = b"\x1e"
# Bytes that mean something in a cell file, and the ends of ranges.
TELLING = b"\x00\x01\x02\x03\x1e\x1f\x2a\x7f\x80\xff 019A!(*),;"


def samples():
    """The whole cell files that lie in the demo and in the cases, each once."""
    places = [os.path.join(HERE, "..", "demo", "*"), os.path.join(HERE, "cases", "*", "files", "*")]
    found = {}
    for path in sorted(sum((glob.glob(place) for place in places), [])):
        if os.path.isfile(path) and os.access(path, os.R_OK):
            with open(path, "rb") as file:
                data = file.read()
            if len(records(data)) > 1:
                found.setdefault(data, os.path.basename(path))
    return list(found)


def number(digits):
    return int(digits) if digits.isdigit() else 0


def records(data):
    """The records of a file by their lengths: none where a length is none."""
    found, at = [], 0
    while at < len(data):
        length = number(data[at:at + 5])
        if length <= LEADER or at + length > len(data):
            return []
        found.append(data[at:at + length])
        at += length
    return found


def entries(record):
    """Where the entries of a record's directory stand, how long each is, and how long its two numbers are."""
    lengths, positions = number(record[20:21]), number(record[21:22])
    size, end = 4 + lengths + positions, number(record[12:17]) - 1
    count = max(0, (end - LEADER) // size)
    return [LEADER + place * size for place in range(count)], size, lengths, positions


def put(data, at, bytes_):
    return data[:at] + bytes_ + data[at + len(bytes_):]


def bytes_changed(dice, data):
    for _ in range(dice.choice((1, 1, 2, 4, 8))):
        at = dice.randrange(len(data))
        data = put(data, at, bytes([dice.choice(TELLING) if dice.random() < 0.5 else dice.randrange(256)]))
    return data


def digits_changed(dice, data):
    """One digit of a leader or of a directory is another one."""
    places, at = [], 0
    for record in records(data):
        ends = at + max(LEADER, number(record[12:17]))
        places += [place for place in range(at, min(ends, len(data))) if data[place:place + 1].isdigit()]
        at += len(record)
    return put(data, dice.choice(places), b"%d" % dice.randrange(10)) if places else data


def in_one_record(change):
    """A change of one record that leaves the others."""
    def changed(dice, data):
        parts = records(data)
        if not parts:
            return data
        place = dice.randrange(len(parts))
        parts[place] = change(dice, parts[place])
        return b"".join(parts)
    return changed


def entry_over_another(dice, record):
    """An entry has the length and the position of another one."""
    places, size, lengths, positions = entries(record)
    if len(places) < 2:
        return record
    one, other = dice.sample(places, 2)
    return put(record, one + 4, record[other + 4:other + 4 + lengths + positions])


def tags_exchanged(dice, record):
    places, _, _, _ = entries(record)
    if len(places) < 2:
        return record
    one, other = dice.sample(places, 2)
    first, second = record[one:one + 4], record[other:other + 4]
    return put(put(record, one, second), other, first)


def terminator_lost(dice, record):
    places = [place for place, byte in enumerate(record) if byte == FIELD[0]]
    return put(record, dice.choice(places), bytes([dice.choice(TELLING)])) if places else record


def bytes_put_in(dice, record):
    """The record has more bytes, or fewer, than its leader says."""
    at = dice.randrange(len(record))
    if dice.random() < 0.5:
        return record[:at] + bytes(dice.choice(TELLING) for _ in range(dice.randint(1, 9))) + record[at:]
    return record[:at] + record[at + dice.randint(1, 9):]


def records_moved(dice, data):
    """A record is left out, said twice, or stands in the place of another one."""
    parts = records(data)
    if len(parts) < 3:
        return data
    place, other = dice.randrange(1, len(parts)), dice.randrange(1, len(parts))
    kind = dice.randrange(3)
    if kind == 0:
        del parts[place]
    elif kind == 1:
        parts.insert(other, parts[place])
    else:
        parts[place], parts[other] = parts[other], parts[place]
    return b"".join(parts)


def records_of_another(dice, data, others):
    """Records of another file stand behind those of this one, or in their place."""
    parts, more = records(data), records(dice.choice(others))
    at = dice.randint(1, max(1, len(parts)))
    return b"".join(parts[:at] + more[1:] + (parts[at:] if dice.random() < 0.5 else []))


def end_cut_off(dice, data):
    return data[:dice.randrange(len(data))]


WAYS = [bytes_changed, bytes_changed, digits_changed, in_one_record(entry_over_another),
        in_one_record(tags_exchanged), in_one_record(terminator_lost), in_one_record(bytes_put_in), records_moved,
        end_cut_off]


def bent_file(seed, whole):
    """The file of this seed: one of the whole files, bent in one to three ways."""
    dice = random.Random(seed)
    data = dice.choice(whole)
    for _ in range(dice.choice((1, 1, 1, 2, 3))):
        if dice.random() < 0.1:
            data = records_of_another(dice, data, whole)
        elif data:
            data = dice.choice(WAYS)(dice, data)
    return data


def bent_bytes(dice, data):
    """A head, a bank or a checkpoint: bytes of it are changed, put in, left out, or its end is cut off."""
    kind = dice.randrange(4)
    if not data or kind == 0:
        return data + bytes(dice.choice(TELLING) for _ in range(dice.randint(1, 20)))
    if kind == 1:
        return bytes_changed(dice, data)
    if kind == 2:
        return bytes_put_in(dice, data)
    return end_cut_off(dice, data)
