"""A plain reading of document 01's module 7, with section 2 of document 02: the text that the program writes of a file, item by item and list by
list, with no thought of speed.

A boundary is (0,) for UnboundedStart, (2,) for UnboundedEnd, and (1, key, rung) for the others, so that Python's order of tuples is the
document's. A range is its two boundaries.
"""

MOST_FILE = 65536
MOST_ITEMS = 2048
HEAD = 11
RECORD = 8
EXCLUSIVE_END, INCLUSIVE, EXCLUSIVE_START = range(3)
LOWEST, HIGHEST = (0,), (2,)

# Each item by its code: its name, and what its start and end are. None is unbounded.
KINDS = (
    ("Key", INCLUSIVE, INCLUSIVE), ("Range", INCLUSIVE, EXCLUSIVE_END), ("RangeInclusive", INCLUSIVE, INCLUSIVE), ("RangeFull", None, None),
    ("RangeFrom", INCLUSIVE, None), ("RangeTo", None, EXCLUSIVE_END), ("RangeToInclusive", None, INCLUSIVE), ("RangeAfter", EXCLUSIVE_START, None),
    ("RangeAfterTo", EXCLUSIVE_START, EXCLUSIVE_END), ("RangeAfterToInclusive", EXCLUSIVE_START, INCLUSIVE),
)
NAMES = {(start, end): name for name, start, end in KINDS[1:]}


class Refused(Exception):
    """A refusal: its number, and its side and index where it has them."""

    def line(self):
        number, *place = self.args
        return f"refused {number}\n" if number in (6, 10) else f"refused {number} {('ours', 'theirs')[place[0]]} {place[1]}\n"


def number(file, at):
    return int.from_bytes(file[at : at + 2], "big")


def well_formed(file):
    """At most 65,536 bytes, with the mark, the version and the length."""
    if len(file) > MOST_FILE or file[:3] != b"KRL" or len(file) < HEAD or number(file, 3) != 1:
        return False
    return len(file) == HEAD + number(file, 5) + RECORD * (number(file, 7) + number(file, 9))


def range_of(pool, record, side, index):
    """The range of a record, or its refusal with 1, 2 or 3."""
    code, wrapper = record[0], record[1]
    keys = [(number(record, at), record[at + 2]) for at in (2, 5)]
    if code > 9 or wrapper > 3:
        raise Refused(1, side, index)
    name, start, end = KINDS[code]
    has = (start is not None, end is not None and name != "Key")
    if any(key != (0, 0) for key, there in zip(keys, has) if not there):
        raise Refused(1, side, index)
    if any(offset + length > len(pool) for (offset, length), there in zip(keys, has) if there):
        raise Refused(2, side, index)
    first, last = (pool[offset : offset + length] for offset, length in keys)
    last = first if name == "Key" else last
    low = LOWEST if start is None else (1, first, start)
    high = HIGHEST if end is None else (1, last, end)
    if low > high:
        raise Refused(3, side, index)
    return low, high


def ranges_of(pool, records, side):
    """The ranges of a list, or its refusal."""
    if len(records) > MOST_ITEMS:
        raise Refused(1, side, 0)
    ranges = [range_of(pool, record, side, index) for index, record in enumerate(records)]
    for index in range(1, len(ranges)):
        if not ranges[index - 1][1] < ranges[index][0]:
            raise Refused(4, side, index)
    return ranges


def inverted(boundary, other):
    """A boundary from the other side: Inclusive becomes the exclusive one of that side, an exclusive one Inclusive."""
    if len(boundary) == 1:
        return boundary
    return (1, boundary[1], other if boundary[2] == INCLUSIVE else INCLUSIVE)


def shared(a, b):
    """What two ranges share: a list of one range or none."""
    return [] if a[1] < b[0] or b[1] < a[0] else [(max(a[0], b[0]), min(a[1], b[1]))]


def cut(a, b):
    """What is left of a without b, ascending."""
    if not shared(a, b):
        return [a]
    left = [(a[0], inverted(b[0], EXCLUSIVE_END))] if a[0] < b[0] else []
    right = [(inverted(b[1], EXCLUSIVE_START), a[1])] if b[1] < a[1] else []
    return left + right


def without(ours, theirs):
    """Each of ours with all of theirs removed."""
    for b in theirs:
        ours = [piece for a in ours for piece in cut(a, b)]
    return ours


def holds_no_key(low, high):
    """Below the empty key, or past a key and below the same one with a zero byte behind it."""
    if low == LOWEST:
        return high == (1, b"", EXCLUSIVE_END)
    return low[2] == EXCLUSIVE_START and high == (1, low[1] + b"\0", EXCLUSIVE_END)


def with_keys(ranges):
    """Those that hold a key: no others stand in a result list."""
    return [r for r in ranges if not holds_no_key(*r)]


def item_line(low, high):
    """The item of two boundaries, by its name and its keys."""
    start, end = (None if len(boundary) == 1 else boundary[2] for boundary in (low, high))
    keys = [boundary[1].hex().upper() or "-" for boundary in (low, high) if len(boundary) > 1]
    if start == end == INCLUSIVE and keys[0] == keys[1]:
        return f"Key {keys[0]}\n"
    return " ".join([NAMES[start, end], *keys]) + "\n"


def text_of(file):
    """What the program writes of a file."""
    try:
        if not well_formed(file):
            raise Refused(10)
        pool = file[HEAD : HEAD + number(file, 5)]
        records = [file[at : at + RECORD] for at in range(HEAD + len(pool), len(file), RECORD)]
        ours = ranges_of(pool, records[: number(file, 7)], 0)
        theirs = ranges_of(pool, records[number(file, 7) :], 1)
        all_shared = [s for a in ours for b in theirs for s in shared(a, b)]
        lists = ("shared", with_keys(all_shared)), ("ours", with_keys(without(ours, theirs))), ("theirs", with_keys(without(theirs, ours)))
        if any(len(ranges) > MOST_ITEMS for _, ranges in lists):
            raise Refused(6)
        return "".join(f"{name} {len(ranges)}\n" + "".join(item_line(*r) for r in ranges) for name, ranges in lists)
    except Refused as refused:
        return refused.line()


def file_of(pool, ours, theirs):
    """A file of a pool and two lists of records: code, wrapper, start and end, each key an offset and a length."""
    records = b"".join(
        bytes((code, wrapper)) + start[0].to_bytes(2, "big") + bytes((start[1],)) + end[0].to_bytes(2, "big") + bytes((end[1],))
        for code, wrapper, start, end in ours + theirs
    )
    head = b"KRL" + b"".join(n.to_bytes(2, "big") for n in (1, len(pool), len(ours), len(theirs)))
    return head + pool + records


def pieces(keys, empty=False):
    """A file of a full range against so many keys of two bytes, which cut it into one piece more. With the empty key before them it is cut once more,
    and what is below that key holds none: as many pieces are left."""
    pool = b"".join(key.to_bytes(2, "big") for key in range(keys))
    first = [(0, 0, (0, 0), (0, 0))] if empty else []
    return file_of(pool, [(3, 0, (0, 0), (0, 0))], first + [(0, 0, (2 * key, 2), (0, 0)) for key in range(keys)])
