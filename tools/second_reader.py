#!/usr/bin/env python3
"""A second reader and maker of ZGY cubes, by docs/FORMAT.md alone.

It shares nothing with the crates: what it reads and makes is what they are compared with. The standard library is enough.

    python3 tools/second_reader.py listings     writes the files that the listing programs are run on, and what they must write
    python3 tools/second_reader.py vectors      the same for the program vectors: cubes, the calls on them, and their answers
"""

import math
import random
import struct
import sys
from dataclasses import dataclass, replace
from pathlib import Path

ROOT = Path(__file__).resolve().parent.parent

# ---------------------------------------------------------------------------------------------------------------------
# The layout of the file

MAGIC = b"VBS\0"
MAGIC_AT, VERSION_AT, INFO_AT, TEXT_AT = 0, 4, 9, 346
INFO_BYTES = 337
HISTOGRAM_BYTES = 2064
ENTRY_BYTES = 8

# Each field that opening reads, by its place in the InfoHeader.
FIELDS = {
    "side": (0, "<3i"),
    "type": (12, "<B"),
    "range": (13, "<2f"),
    "range bits": (13, "<2I"),
    "data id": (21, "16s"),
    "version id": (37, "16s"),
    "previous id": (53, "16s"),
    "source type": (69, "<B"),
    "orig": (70, "<3f"),
    "orig bits": (70, "<3I"),
    "inc": (82, "<3f"),
    "inc bits": (82, "<3I"),
    "size": (94, "<3i"),
    "horizontal kind": (315, "<B"),
    "horizontal factor bits": (316, "<Q"),
    "vertical kind": (324, "<B"),
    "vertical factor bits": (325, "<Q"),
    "text length": (333, "<I"),
}

# Each field that only making writes.
WRITTEN_FIELDS = {
    "cursize": (118, "<3i"),
    "srvorig bits": (162, "<3I"),
    "srvsize bits": (174, "<3I"),
    "gdef": (186, "<B"),
}

INT8, INT16, FLOAT32 = 0, 2, 6
WIDTHS = {INT8: 1, INT16: 2, FLOAT32: 4}

VERSIONS = (2, 3)
SIDES = (4, 8, 16, 32, 64)


def place_of(field):
    """Where a field stands in the file, and its format."""
    at, form = FIELDS.get(field) or WRITTEN_FIELDS[field]
    return INFO_AT + at, form


def field_of(file, field):
    """The values of a field, as a tuple."""
    at, form = place_of(field)
    return struct.unpack_from(form, file, at)


def bits_of(number):
    """The bits of a number as a 32-bit float."""
    return struct.unpack("<I", struct.pack("<f", number))[0]


def float_of(bits):
    """The 32-bit float of these bits."""
    return struct.unpack("<f", struct.pack("<I", bits))[0]


def stored_id(canonical):
    """An id as the file holds it: bytes 0-3, 4-5 and 6-7 each reversed, the rest as they are. It is its own inverse."""
    return canonical[3::-1] + canonical[5:3:-1] + canonical[7:5:-1] + canonical[8:]


# ---------------------------------------------------------------------------------------------------------------------
# The geometry


def divided_up(number, by):
    """number / by, rounded up."""
    return -(-number // by)


def level_counts(size, side):
    """The bricks in each direction of every level: level 0 covers the size, each next has half, to the first with one brick."""
    counts = [tuple(divided_up(n, s) for n, s in zip(size, side))]
    while counts[-1] != (1, 1, 1):
        counts.append(tuple(divided_up(n, 2) for n in counts[-1]))
    return counts


def brick_total(counts):
    """The bricks of all levels."""
    return sum(inline * crossline * vertical for inline, crossline, vertical in counts)


def alpha_total(counts):
    """The alpha tiles of all levels: inline x crossline."""
    return sum(inline * crossline for inline, crossline, _ in counts)


def table_at(text_length, counts):
    """Where the brick table starts: after the text, the histogram and the alpha table."""
    return TEXT_AT + text_length + HISTOGRAM_BYTES + ENTRY_BYTES * alpha_total(counts)


def header_end(text_length, counts):
    """H, where the headers end: after the brick table."""
    return table_at(text_length, counts) + ENTRY_BYTES * brick_total(counts)


# ---------------------------------------------------------------------------------------------------------------------
# Making


@dataclass(frozen=True)
class Description:
    """What a cube is made from. Floats are held as their bits, ids in canonical order."""

    side: tuple = (4, 4, 4)
    type: int = INT8
    range_bits: tuple = (bits_of(-128.0), bits_of(127.0))
    data_id: bytes = bytes(16)
    version_id: bytes = bytes(16)
    previous_id: bytes = bytes(16)
    source_type: int = 0
    orig_bits: tuple = (0, 0, 0)
    inc_bits: tuple = (bits_of(1.0),) * 3
    size: tuple = (3, 4, 2)
    horizontal_kind: int = 0
    horizontal_factor_bits: int = 0
    vertical_kind: int = 0
    vertical_factor_bits: int = 0

    @property
    def counts(self):
        return level_counts(self.size, self.side)

    @property
    def brick_bytes(self):
        return math.prod(self.side) * WIDTHS[self.type]

    def header_end(self, text):
        return header_end(len(text), self.counts)


def product_bits(inc_bits, size):
    """The bits of inc x size, one 32-bit product. The exact product fits a 64-bit float, so packing rounds once."""
    product = float_of(inc_bits) * float(size)
    try:
        return bits_of(product)
    except OverflowError:
        return bits_of(math.copysign(math.inf, product))


def header_of(description, text, version=3):
    """Everything below the brick table, alpha table included."""
    d = description
    header = bytearray(table_at(len(text), d.counts))
    header[MAGIC_AT:MAGIC_AT + len(MAGIC)] = MAGIC
    struct.pack_into("<I", header, VERSION_AT, version)

    def put(field, *values):
        at, form = place_of(field)
        struct.pack_into(form, header, at, *values)

    put("side", *d.side)
    put("type", d.type)
    put("range bits", *d.range_bits)
    put("data id", stored_id(d.data_id))
    put("version id", stored_id(d.version_id))
    put("previous id", stored_id(d.previous_id))
    put("source type", d.source_type)
    put("orig bits", *d.orig_bits)
    put("inc bits", *d.inc_bits)
    put("size", *d.size)
    put("horizontal kind", d.horizontal_kind)
    put("horizontal factor bits", d.horizontal_factor_bits)
    put("vertical kind", d.vertical_kind)
    put("vertical factor bits", d.vertical_factor_bits)
    put("text length", len(text))
    put("cursize", *d.size)
    put("srvorig bits", *d.orig_bits)
    put("srvsize bits", *(product_bits(i, n) for i, n in zip(d.inc_bits, d.size)))
    put("gdef", 3)
    header[TEXT_AT:TEXT_AT + len(text)] = text
    return bytes(header)


TOP_BIT = 1 << 63
MISSING = 0
OLD_CONSTANT_ZERO = 1


def constant(low=0):
    """The entry of a constant brick, by the value in its low bytes."""
    return TOP_BIT | low


def build(description, text, entries, bricks=None, version=3):
    """A cube's bytes: its headers, its entries, and bricks, a dictionary from an offset to the bytes there. Gaps are zero."""
    bricks = bricks or {}
    table = struct.pack(f"<{len(entries)}Q", *entries)
    headers = header_of(description, text, version) + table
    length = max([len(headers)] + [at + len(samples) for at, samples in bricks.items()])
    file = bytearray(length)
    file[:len(headers)] = headers
    for at, samples in bricks.items():
        file[at:at + len(samples)] = samples
    return bytes(file)


def all_constant(description, text):
    """The cube that is made with every brick constant."""
    return build(description, text, [constant()] * brick_total(description.counts))


def all_stored(description, text):
    """The cube that is made with every brick stored and zero filled, from the first multiple of the brick bytes at or after H."""
    step = description.brick_bytes
    first = divided_up(description.header_end(text), step) * step
    offsets = [first + step * entry for entry in range(brick_total(description.counts))]
    return build(description, text, offsets, {at: bytes(step) for at in offsets})


FILLS = {0: all_constant, 1: all_stored}


# ---------------------------------------------------------------------------------------------------------------------
# Damaging


def patched(file, at, new):
    """The file with other bytes from a place on."""
    return file[:at] + new + file[at + len(new):]


def with_field(file, field, *values):
    """The file with other values in a field."""
    at, form = place_of(field)
    return patched(file, at, struct.pack(form, *values))


def with_version(file, version):
    """The file with another version."""
    return patched(file, VERSION_AT, struct.pack("<I", version))


# ---------------------------------------------------------------------------------------------------------------------
# Opening


class Refusal(Exception):
    """A refusal, by its number and its second number."""

    def __init__(self, number, entry=0):
        super().__init__(number, entry)
        self.number = number
        self.entry = entry


@dataclass(frozen=True)
class Brick:
    """What an entry says: missing, constant with the bits of its value, or stored with its offset."""

    kind: str
    value: int = 0


def brick_of(entry, width):
    """The kind of a brick, by its entry and the width of an item."""
    if entry == MISSING:
        return Brick("missing")
    if entry == OLD_CONSTANT_ZERO:
        return Brick("constant", 0)
    if entry & TOP_BIT:
        return Brick("constant", entry % (1 << (8 * width)))
    return Brick("stored", entry)


@dataclass(frozen=True)
class Cube:
    """What opening found in a cube that it took."""

    version: int
    description: Description
    counts: list
    text: bytes
    header: int
    bricks: list


def finite(numbers):
    return all(math.isfinite(n) for n in numbers)


def description_of(file):
    """The description in a file's header."""

    def one(field):
        return field_of(file, field)[0]

    return Description(
        side=field_of(file, "side"),
        type=one("type"),
        range_bits=field_of(file, "range bits"),
        data_id=stored_id(one("data id")),
        version_id=stored_id(one("version id")),
        previous_id=stored_id(one("previous id")),
        source_type=one("source type"),
        orig_bits=field_of(file, "orig bits"),
        inc_bits=field_of(file, "inc bits"),
        size=field_of(file, "size"),
        horizontal_kind=one("horizontal kind"),
        horizontal_factor_bits=one("horizontal factor bits"),
        vertical_kind=one("vertical kind"),
        vertical_factor_bits=one("vertical factor bits"),
    )


def check_start(file):
    """Checks 1 to 3: the length, the magic and the version."""
    if len(file) < TEXT_AT:
        raise Refusal(1)
    if file[MAGIC_AT:MAGIC_AT + len(MAGIC)] != MAGIC:
        raise Refusal(2)
    if struct.unpack_from("<I", file, VERSION_AT)[0] not in VERSIONS:
        raise Refusal(3)


def check_description(description, text_length):
    """Checks 4 to 9: what a cube is made from, and the length of its text."""
    d = description
    if any(side not in SIDES for side in d.side):
        raise Refusal(4)
    if d.type not in WIDTHS:
        raise Refusal(5)
    if any(size < 1 or size > 1048576 for size in d.size):
        raise Refusal(6)
    if not finite(map(float_of, d.orig_bits + d.inc_bits)):
        raise Refusal(7)
    low, high = map(float_of, d.range_bits)
    if d.type != FLOAT32 and not (finite((low, high)) and low < high):
        raise Refusal(7)
    if brick_total(d.counts) > 16384:
        raise Refusal(8)
    if not 5 <= text_length <= 65536:
        raise Refusal(9)


def check_text(text):
    """Check 11: five strings, each with its zero."""
    if text.count(0) != 5 or text[-1] != 0:
        raise Refusal(11)


def check_bricks(bricks, brick_bytes, header, length):
    """Checks 12 and 13: stored bricks lie between the headers and the end, and apart from those of lower entries."""
    for number, brick in enumerate(bricks):
        if brick.kind == "stored" and not (header <= brick.value and brick.value + brick_bytes <= length):
            raise Refusal(12, number)
    lower = []
    for number, brick in enumerate(bricks):
        if brick.kind == "stored":
            if any(abs(brick.value - other) < brick_bytes for other in lower):
                raise Refusal(13, number)
            lower.append(brick.value)


def open_cube(file):
    """The cube in these bytes. Raises the refusal of the first check that applies."""
    check_start(file)
    description = description_of(file)
    (text_length,) = field_of(file, "text length")
    check_description(description, text_length)
    counts = description.counts
    header = header_end(text_length, counts)
    if len(file) < header:
        raise Refusal(10)
    text = file[TEXT_AT:TEXT_AT + text_length]
    check_text(text)
    entries = struct.unpack_from(f"<{brick_total(counts)}Q", file, table_at(text_length, counts))
    bricks = [brick_of(entry, WIDTHS[description.type]) for entry in entries]
    check_bricks(bricks, description.brick_bytes, header, len(file))
    (version,) = struct.unpack_from("<I", file, VERSION_AT)
    return Cube(version, description, counts, text, header, bricks)


# ---------------------------------------------------------------------------------------------------------------------
# The record


@dataclass(frozen=True)
class Record:
    """What opening says of a cube. The grid is held as bits; the coding range of type 6 is 0, 0 there."""

    version: int
    description: Description
    text: int
    grid_orig: tuple
    grid_inc: tuple
    grid_range: tuple
    header: int
    levels: int
    bricks: int
    alphas: int
    length: int


def derived_record(version, description, text_length, length):
    """The record of a cube, every number of it that follows from the others worked out."""
    d = description
    return Record(
        version=version,
        description=d,
        text=text_length,
        grid_orig=d.orig_bits,
        grid_inc=d.inc_bits,
        grid_range=(0, 0) if d.type == FLOAT32 else d.range_bits,
        header=header_end(text_length, d.counts),
        levels=len(d.counts),
        bricks=brick_total(d.counts),
        alphas=alpha_total(d.counts),
        length=length,
    )


def open_record(file):
    """The record of the cube in these bytes. Raises the refusal of the first check that applies."""
    cube = open_cube(file)
    return derived_record(cube.version, cube.description, len(cube.text), len(file))


def check_record(record):
    """Check 14, of a record alone."""
    if record.version not in VERSIONS:
        raise Refusal(14)
    try:
        check_description(record.description, record.text)
    except Refusal:
        raise Refusal(14) from None
    if record != derived_record(record.version, record.description, record.text, record.length):
        raise Refusal(14)
    if record.length < record.header:
        raise Refusal(14)


def check_lent(file, record):
    """Check 14, of a record and the file that is lent with it."""
    check_record(record)
    if len(file) != record.length:
        raise Refusal(14)


# ---------------------------------------------------------------------------------------------------------------------
# Bricks, positions and strings


def widened(bits):
    """A 32-bit float as a 64-bit one; every NaN becomes the one pattern."""
    number = float_of(bits)
    return math.nan if math.isnan(number) else number


def signed(bits, width):
    """The signed number of so many bytes that has these bits."""
    return bits - (1 << (8 * width)) if bits >> (8 * width - 1) else bits


def storage_value(bits, type_number):
    """The storage value of these bits, unscaled, as a 64-bit float."""
    if type_number == FLOAT32:
        return widened(bits)
    return float(signed(bits, WIDTHS[type_number]))


def brick_at(file, record, entry):
    """What an entry of the file names. Check 12 is not made here."""
    (number,) = struct.unpack_from("<Q", file, record.header - ENTRY_BYTES * (record.bricks - entry))
    return brick_of(number, WIDTHS[record.description.type])


def in_range(brick, record):
    """Whether a brick that is stored lies between the headers and the end."""
    return brick.kind != "stored" or (
        record.header <= brick.value and brick.value + record.description.brick_bytes <= record.length)


def check_entry(file, record, entry):
    """Checks 14, 16 and 12, of an entry. Gives its brick."""
    check_lent(file, record)
    if entry >= record.bricks:
        raise Refusal(16)
    brick = brick_at(file, record, entry)
    if not in_range(brick, record):
        raise Refusal(12, entry)
    return brick


def brick_kind(file, record, entry):
    """A brick's kind, with its value as a 64-bit float or its offset."""
    brick = check_entry(file, record, entry)
    if brick.kind == "constant":
        return brick.kind, storage_value(brick.value, record.description.type)
    return brick.kind, brick.value


def brick_view(file, filler, record, entry):
    """The bytes of a brick: a part of the file, or the start of the filler, whose value has to be the brick's."""
    brick = check_entry(file, record, entry)
    length = record.description.brick_bytes
    if brick.kind == "stored":
        return file[brick.value:brick.value + length]
    if len(filler) < length:
        raise Refusal(18)
    width = WIDTHS[record.description.type]
    if filler[:length] != brick.value.to_bytes(width, "little") * (length // width):
        raise Refusal(17)
    return filler[:length]


def position(record, dimension, index):
    """orig + index x inc, one product and one sum."""
    check_record(record)
    if dimension > 2 or index >= record.description.size[dimension]:
        raise Refusal(16)
    return float_of(record.grid_orig[dimension]) + float(index) * float_of(record.grid_inc[dimension])


def five_strings(file, record):
    """The five strings, without their zeros."""
    check_lent(file, record)
    text = file[TEXT_AT:TEXT_AT + record.text]
    check_text(text)
    return text.split(b"\0")[:5]


# ---------------------------------------------------------------------------------------------------------------------
# Regions


@dataclass(frozen=True)
class Region:
    """A box of samples of one level."""

    level: int
    start: tuple
    count: tuple

    def samples(self):
        """The places of the region, vertical fastest, inline slowest."""
        ranges = [range(s, s + c) for s, c in zip(self.start, self.count)]
        return [(i, j, k) for i in ranges[0] for j in ranges[1] for k in ranges[2]]


def extent(description, level):
    """The samples of a level in each direction: size / 2^level, rounded up."""
    return tuple(divided_up(n, 1 << level) for n in description.size)


def entry_number(description, level, brick):
    """The entry of a brick: the highest level first, level 0 last; inside a level inline runs fastest, vertical slowest."""
    counts = description.counts
    inline, crossline, vertical = brick
    across, down, _ = counts[level]
    return brick_total(counts[level + 1:]) + inline + across * (crossline + down * vertical)


def bricks_in_order(counts):
    """The bricks of all levels, each after its level, as the table has them."""
    return [
        (level, (inline, crossline, vertical))
        for level in reversed(range(len(counts)))
        for vertical in range(counts[level][2])
        for crossline in range(counts[level][1])
        for inline in range(counts[level][0])
    ]


def item_number(side, within):
    """The number of a sample in its brick: vertical runs fastest, inline slowest."""
    return (within[0] * side[1] + within[1]) * side[2] + within[2]


def place_in_bricks(description, level, sample):
    """The entry and the item number of a sample."""
    side = description.side
    brick = tuple(n // s for n, s in zip(sample, side))
    within = tuple(n % s for n, s in zip(sample, side))
    return entry_number(description, level, brick), item_number(side, within)


def touched_entries(description, region):
    """The entries of the bricks that a region touches, ascending."""
    spans = [range(s // side, (s + c - 1) // side + 1) for s, c, side in zip(region.start, region.count, description.side)]
    return sorted(
        entry_number(description, region.level, (i, j, k)) for i in spans[0] for j in spans[1] for k in spans[2])


def check_region(file, record, region, room, item, writes=False):
    """Checks 14, 15, 16, 18 and 12, and 19 for writes. Room and item are the buffer's length and what a sample takes of it."""
    check_lent(file, record)
    if region.level >= record.levels:
        raise Refusal(15)
    whole = extent(record.description, region.level)
    if any(c == 0 or s + c > n for s, c, n in zip(region.start, region.count, whole)):
        raise Refusal(16)
    if room < math.prod(region.count) * item:
        raise Refusal(18)
    entries = touched_entries(record.description, region)
    for entry in entries:
        if not in_range(brick_at(file, record, entry), record):
            raise Refusal(12, entry)
    for entry in entries:
        if writes and brick_at(file, record, entry).kind != "stored":
            raise Refusal(19, entry)


def sample_bytes(file, record, level, sample):
    """The bytes of a sample; those of a missing brick are zeros."""
    width = WIDTHS[record.description.type]
    entry, item = place_in_bricks(record.description, level, sample)
    brick = brick_at(file, record, entry)
    if brick.kind == "stored":
        at = brick.value + item * width
        return file[at:at + width]
    return brick.value.to_bytes(width, "little")


def scaled(bits, record):
    """A sample as a 64-bit float, by the float rules in their order."""
    type_number = record.description.type
    if type_number == FLOAT32:
        return widened(bits)
    low, high = {INT8: (-128.0, 127.0), INT16: (-32768.0, 32767.0)}[type_number]
    least, most = map(float_of, record.grid_range)
    number = most - least
    number = number * (storage_value(bits, type_number) - low)
    number = number / (high - low)
    return number + least


def sample_float(file, record, level, sample):
    """A sample as a 64-bit float; that of a missing brick is +0.0."""
    entry, _ = place_in_bricks(record.description, level, sample)
    if brick_at(file, record, entry).kind == "missing":
        return 0.0
    return scaled(int.from_bytes(sample_bytes(file, record, level, sample), "little"), record)


def read_raw(file, record, region, room):
    """The bytes of a region."""
    check_region(file, record, region, room, WIDTHS[record.description.type])
    return b"".join(sample_bytes(file, record, region.level, sample) for sample in region.samples())


def read_float(file, record, region, room):
    """The samples of a region as 64-bit floats."""
    check_region(file, record, region, room, 1)
    return [sample_float(file, record, region.level, sample) for sample in region.samples()]


def write_region(file, source, record, region):
    """The file with a region's samples replaced, and how many bytes that took."""
    width = WIDTHS[record.description.type]
    check_region(file, record, region, len(source), width, writes=True)
    after = bytearray(file)
    samples = region.samples()
    for number, sample in enumerate(samples):
        entry, item = place_in_bricks(record.description, region.level, sample)
        at = brick_at(file, record, entry).value + item * width
        after[at:at + width] = source[number * width:(number + 1) * width]
    return bytes(after), width * len(samples)


def make(description, text, fill, room):
    """A cube of version 3. Checks 4 to 9, 11 and 18."""
    check_description(description, len(text))
    check_text(text)
    length = description.header_end(text)
    if fill == 1:
        step = description.brick_bytes
        length = (divided_up(length, step) + brick_total(description.counts)) * step
    if room < length:
        raise Refusal(18)
    return FILLS[fill](description, text)


# ---------------------------------------------------------------------------------------------------------------------
# The version 1 brick order


def subtiled_number(side, place):
    """The number of a sample in a version 1 brick, which holds subtiles of 8 x 8 x its whole depth."""
    (i, j, k), (_, across, deep) = place, side
    return (i // 8) * 8 * across * deep + (j // 8) * 64 * deep + (i % 8) * 8 * deep + (j % 8) * deep + k


def permuted(brick, side, width, plain, room):
    """A brick's bytes in plain order, or in the version 1 order. Checks 20 and 18."""
    if any(n not in (8, 16, 32, 64) for n in side[:2]) or side[2] not in (4, 8, 16, 32, 64):
        raise Refusal(20)
    if width not in (1, 2, 4):
        raise Refusal(20)
    length = math.prod(side) * width
    if len(brick) < length or room < length:
        raise Refusal(18)
    moved = bytearray(length)
    for place in ((i, j, k) for i in range(side[0]) for j in range(side[1]) for k in range(side[2])):
        numbers = subtiled_number(side, place), item_number(side, place)
        source, target = numbers if plain else numbers[::-1]
        moved[target * width:(target + 1) * width] = brick[source * width:(source + 1) * width]
    return bytes(moved)


# ---------------------------------------------------------------------------------------------------------------------
# Listing

LONGEST_LISTED = 65536


def constant_shown(bits, type_number):
    """A constant as listed: the signed storage value; for floats the 32 bits as an unsigned number."""
    return bits if type_number == FLOAT32 else signed(bits, WIDTHS[type_number])


def brick_line(number, brick, type_number):
    if brick.kind == "missing":
        return f"entry {number} missing"
    if brick.kind == "constant":
        return f"entry {number} constant {constant_shown(brick.value, type_number)}"
    return f"entry {number} stored {brick.value}"


def cube_lines(cube):
    """The seven header lines, and a line for each entry."""
    return [
        f"version {cube.version}",
        f"type {cube.description.type}",
        "brick {} {} {}".format(*cube.description.side),
        "size {} {} {}".format(*cube.description.size),
        f"levels {len(cube.counts)}",
        f"bricks {len(cube.bricks)}",
        f"header {cube.header}",
    ] + [brick_line(number, brick, cube.description.type) for number, brick in enumerate(cube.bricks)]


def listing(file):
    """What the listing program writes for a file."""
    if len(file) > LONGEST_LISTED:
        lines = ["too long"]
    else:
        try:
            lines = cube_lines(open_cube(file))
        except Refusal as refusal:
            lines = [f"refused {refusal.number} {refusal.entry}"]
    return "".join(line + "\n" for line in lines).encode()


# ---------------------------------------------------------------------------------------------------------------------
# The files that the listing programs are run on

NO_STRINGS = bytes(5)
STRINGS = b"survey\0first pass\0local grid\0m\0ms\0"

# Worked number 13, as FORMAT 15 prints it.
WORKED_13 = b"""\
version 3
type 0
brick 4 4 4
size 3 4 2
levels 1
bricks 1
header 2431
entry 0 constant 0
"""

CASE_13 = Description(type=INT8, side=(4, 4, 4), size=(3, 4, 2))

# Seven entries: one brick at level 2, two at level 1, four at level 0.
SEVEN = Description(size=(16, 4, 4))


def seven_entries(type_number, entries, offsets):
    """A cube of seven entries: those given, then one stored brick for each offset from H."""
    description = replace(SEVEN, type=type_number)
    header = description.header_end(STRINGS)
    bricks = {header + at: bytes((i % 251 for i in range(description.brick_bytes))) for at in offsets}
    return build(description, STRINGS, entries + list(bricks), bricks)


def taken_files():
    """Cubes that open, by name."""
    worked = all_constant(CASE_13, NO_STRINGS)
    levels = Description(size=(112, 64, 176), side=(64, 64, 64))
    sides = Description(size=(9, 17, 33), side=(4, 8, 16), type=INT16)
    float_range = Description(type=FLOAT32, range_bits=(bits_of(math.inf), bits_of(-1.0)))
    return {
        "worked_13": worked,
        "version_2": with_version(worked, 2),
        "kinds_int8": seven_entries(
            INT8, [MISSING, OLD_CONSTANT_ZERO, constant(0xFF), constant(0x7F), 0xFFFFFFFFFFFFFF80], [3, 67]),
        "kinds_int16": seven_entries(
            INT16, [constant(0x8000), constant(0x7FFF), MISSING, OLD_CONSTANT_ZERO, 0xFFFFFFFFFFFFFFFF], [200, 1]),
        "kinds_float32": seven_entries(
            FLOAT32, [OLD_CONSTANT_ZERO, constant(0x3F800000), constant(0x80000000), constant(0xFFFFFFFF), MISSING], [0, 257]),
        "three_levels": build(levels, NO_STRINGS, [constant(number) for number in range(9)]),
        "three_sides": all_constant(sides, STRINGS),
        "float32_any_range": all_constant(float_range, NO_STRINGS),
        "longest": worked + bytes(LONGEST_LISTED - len(worked)),
    }


def refused_by_fields():
    """Files that checks 1 to 7 refuse, by name."""
    cube = all_constant(CASE_13, NO_STRINGS)
    infinite, nan = bits_of(math.inf), bits_of(math.nan)
    return {
        "01_empty": b"",
        "01_cut_300": cube[:300],
        "01_cut_345": cube[:345],
        "02_magic": patched(cube, MAGIC_AT, b"VBT"),
        "02_magic_without_zero": patched(cube, MAGIC_AT, b"VBS1"),
        "03_version_1": with_version(cube, 1),
        "03_version_4": with_version(cube, 4),
        "04_side_5": with_field(cube, "side", 4, 5, 4),
        "04_side_128": with_field(cube, "side", 4, 4, 128),
        "05_type_1": with_field(cube, "type", 1),
        "05_type_255": with_field(cube, "type", 255),
        "06_size_0": with_field(cube, "size", 3, 0, 2),
        "06_size_negative": with_field(cube, "size", -3, 4, 2),
        "06_size_1048577": with_field(cube, "size", 3, 4, 1048577),
        "07_orig_infinite": with_field(cube, "orig bits", 0, infinite, 0),
        "07_inc_nan": with_field(cube, "inc bits", 0, 0, nan),
        "07_range_equal": with_field(cube, "range", 1.5, 1.5),
        "07_range_reversed": with_field(cube, "range", 1.0, -1.0),
        "07_range_nan": with_field(cube, "range bits", nan, bits_of(1.0)),
    }


def refused_by_sections():
    """Files that checks 8 to 11 refuse, by name."""
    cube = all_constant(CASE_13, STRINGS)
    return {
        "08_bricks_16398": with_field(cube, "size", 32772, 4, 4),
        "08_size_1048576": with_field(cube, "size", 1048576, 4, 4),
        "09_text_4": with_field(cube, "text length", 4),
        "09_text_65537": with_field(cube, "text length", 65537),
        "10_cut_2000": cube[:2000],
        "10_cut_by_one": cube[:-1],
        "10_bricks_16383": with_field(cube, "size", 32768, 4, 4),
        "10_text_65536": with_field(cube, "text length", 65536),
        "11_four_zeros": all_constant(CASE_13, b"a\0b\0c\0d\0"),
        "11_six_zeros": all_constant(CASE_13, b"a\0b\0\0\0\0\0"),
        "11_last_not_zero": all_constant(CASE_13, b"\0\0\0\0\0a"),
    }


def refused_by_entries():
    """Files that checks 12 and 13 refuse, by name."""
    header = SEVEN.header_end(NO_STRINGS)
    brick = bytes(SEVEN.brick_bytes)

    def cube(*entries, length=4):
        """Seven entries, the last of them missing, with room for this many bricks."""
        missing = [MISSING] * (7 - len(entries))
        return build(SEVEN, NO_STRINGS, list(entries) + missing, {header: brick * length})

    end = header + 4 * len(brick)
    return {
        "12_below_headers": cube(header - 1, header),
        "12_past_end": cube(header, MISSING, end - len(brick) + 1),
        "12_largest_offset": cube(MISSING, TOP_BIT - 1),
        "12_two": cube(header, constant(), end, MISSING, 2),
        "12_before_13": cube(header, header, end),
        "13_same_offset": cube(header, MISSING, constant(), header),
        "13_lower_offset": cube(header + 64, header + 1),
        "13_two": cube(header + 128, MISSING, header, header + 63, header + 191),
    }


def other_files():
    """The order of the checks, and a file past the limit."""
    cube = all_constant(CASE_13, NO_STRINGS)
    return {
        "faults_2_and_3": with_version(patched(cube, MAGIC_AT, b"ZBS"), 1),
        "faults_5_and_6": with_field(with_field(cube, "size", 0, 0, 0), "type", 3),
        "too_long": cube + bytes(LONGEST_LISTED + 1 - len(cube)),
    }


def listed_files():
    """Every file that the listings are run on, by name, in order."""
    return {
        **taken_files(),
        **refused_by_fields(),
        **refused_by_sections(),
        **refused_by_entries(),
        **other_files(),
    }


def expect_numbers(files):
    """A name that starts with a number is refused by it, and every number of opening appears."""
    seen = set()
    for name, file in files.items():
        words = listing(file).decode().split()
        if words[0] == "refused":
            seen.add(int(words[1]))
            if name[:2].isdigit() and int(name[:2]) != int(words[1]):
                raise SystemExit(f"{name}: refused {words[1]}")
        elif name[:2].isdigit():
            raise SystemExit(f"{name}: not refused")
    if seen != set(range(1, 14)):
        raise SystemExit(f"refusals without a file: {sorted(set(range(1, 14)) - seen)}")


def write_listings():
    """Writes what the programs listing and listings are run on, and what they must write."""
    files = listed_files()
    expect_numbers(files)
    if listing(files["worked_13"]) != WORKED_13:
        raise SystemExit("worked number 13 is listed otherwise than FORMAT 15 prints it")
    single = ROOT / "crates" / "listing"
    many = ROOT / "crates" / "listings"
    (many / "data").mkdir(parents=True, exist_ok=True)
    for old in (many / "data").iterdir():
        old.unlink()
    for name, file in files.items():
        (many / "data" / name).write_bytes(file)
    (many / "args").write_text("".join(f"{name}\n" for name in files))
    (many / "stdout").write_bytes(b"".join(name.encode() + b"\n" + listing(file) for name, file in files.items()))
    (single / "stdin").write_bytes(files["worked_13"])
    (single / "stdout").write_bytes(WORKED_13)
    print(f"{len(files)} files")


# ---------------------------------------------------------------------------------------------------------------------
# Calls on a cube, and the lines that say what they answer

# A list of calls is a file too: eight 32-bit numbers for each call, its number first. Each call has a line: its name, its
# arguments, and after a colon its answer.
CALL_WORDS = 8
CALLS = [
    "kind",      # entry
    "view",      # entry, then the filler: value, width, length, and the byte of it that is spoilt
    "raw",       # level, start 3, count 3
    "float",     # level, start 3, count 3
    "write",     # level, start 3, count 3
    "position",  # dimension, index
    "string",    # number
    "plain",     # side 3, width, length of the brick, room for the answer
    "subtiled",  # side 3, width, length of the brick, room for the answer
    "make",      # fill, where the text starts in the file, its length
    "open",      # nothing: opens what is lent, and goes on with its record
    "room",      # how many bytes or floats the buffers of later calls have
    "seed",      # the number that the bytes to write, and the bricks to permute, follow from
    "put",       # where, and the low and the high half of the 8 bytes put there
    "lend",      # how many bytes of the file are lent from now on
    "strings",   # nothing: all strings, by a walker
    "field",     # the field of the record that is changed, its part, and the low and the high half of its value
]

# What a buffer holds before a call.
UNTOUCHED_BYTE = 0xA5
UNTOUCHED_FLOAT = 1.5

# The bytes that are held at most, so that a file can be lent longer than it is.
HELD = 65536

# Answers up to this many bytes are written out, longer ones only as their hash.
SHOWN = 1024

# The fields of a record that a call can change, by number: their name, and whether they are the description's.
RECORD_FIELDS = [
    ("version", False), ("side", True), ("type", True), ("range_bits", True), ("source_type", True), ("orig_bits", True),
    ("inc_bits", True), ("size", True), ("horizontal_kind", True), ("horizontal_factor_bits", True), ("vertical_kind", True),
    ("vertical_factor_bits", True), ("text", False), ("grid_orig", False), ("grid_inc", False), ("grid_range", False),
    ("header", False), ("levels", False), ("bricks", False), ("alphas", False), ("length", False),
]
FIELD_NUMBERS = {name: number for number, (name, _) in enumerate(RECORD_FIELDS)}


def fnv(content):
    """The 64-bit FNV-1a hash."""
    value = 0xCBF29CE484222325
    for byte in content:
        value = (value ^ byte) * 0x100000001B3 % (1 << 64)
    return f"{value:016x}"


def pseudo_random(seed, length):
    """Bytes that follow from a seed."""
    content = bytearray()
    for _ in range(length):
        seed = (seed * 1103515245 + 12345) % (1 << 31)
        content.append(seed >> 16 & 0xFF)
    return bytes(content)


def double_bits(number):
    """The bits of a 64-bit float; of a NaN the one pattern."""
    return 0x7FF8000000000000 if math.isnan(number) else struct.unpack("<Q", struct.pack("<d", number))[0]


def shown_float(number):
    """A 64-bit float as its bits. A proved program sees of a NaN only that it is one: its bits are the host's tests' to compare."""
    return "nan" if math.isnan(number) else f"{double_bits(number):016x}"


def byte_lines(content):
    """Bytes, 32 to a line after the place of the first. Lines of zeros are left out."""
    pieces = [(at, content[at:at + 32]) for at in range(0, len(content), 32)]
    return [f"{at} {piece.hex()}" for at, piece in pieces if any(piece)]


def hash_of_floats(numbers):
    return fnv(b"".join(struct.pack("<Q", double_bits(number)) for number in numbers))


def turn(strings, number):
    """What turn number of the strings says."""
    if number >= len(strings):
        return "done"
    start = sum(len(text) + 1 for text in strings[:number])
    end = start + len(strings[number])
    return f"item {start} {end} {end + 1}"


class Session:
    """A cube that opened, and the calls made on it one after the other."""

    def __init__(self, file):
        self.held = bytearray(file) + bytes(HELD - len(file))
        self.lent = len(file)
        self.record = open_record(file)
        self.size_of_buffers = 2048
        self.start = 1

    @property
    def file(self):
        return bytes(self.held[:self.lent])

    def answer(self, name, arguments):
        """The lines of a call. A refused one leaves its buffer as it was, and that shows in the hash."""
        head = " ".join(map(str, (name, *arguments)))
        first, *rest = getattr(self, name)(*arguments)
        return [f"{head}: {first}" if first else head] + rest

    def opened_line(self):
        r = self.record
        return f"opened {r.version} {r.description.type} {r.levels} {r.bricks} {r.alphas} {r.header} {r.length}"

    def kind(self, entry):
        try:
            kind, value = brick_kind(self.file, self.record, entry)
        except Refusal as refusal:
            return [refused(refusal)]
        if kind == "missing":
            return [kind]
        return [f"{kind} {shown_float(value) if kind == 'constant' else value}"]

    def view(self, entry, value, width, length, spoilt):
        filler = bytearray((value.to_bytes(4, "little")[:width] * length)[:length])
        if spoilt < length:
            filler[spoilt] = 255 - filler[spoilt]
        try:
            shown = brick_view(self.file, bytes(filler), self.record, entry)
            return [f"taken {len(shown)} {fnv(shown)}"]
        except Refusal as refusal:
            return [f"{refused(refusal)} 0 {fnv(b'')}"]

    def raw(self, level, *box):
        buffer = bytearray([UNTOUCHED_BYTE]) * self.size_of_buffers
        try:
            content = read_raw(self.file, self.record, Region(level, box[:3], box[3:]), len(buffer))
        except Refusal as refusal:
            return [f"{refused(refusal)} {fnv(buffer)}"]
        buffer[:len(content)] = content
        return [f"taken {len(content)} {fnv(buffer)}"] + (byte_lines(content) if len(content) <= SHOWN else [])

    def float(self, level, *box):
        buffer = [UNTOUCHED_FLOAT] * self.size_of_buffers
        try:
            numbers = read_float(self.file, self.record, Region(level, box[:3], box[3:]), len(buffer))
        except Refusal as refusal:
            return [f"{refused(refusal)} {hash_of_floats(buffer)}"]
        buffer[:len(numbers)] = numbers
        return [f"taken {len(numbers)} {hash_of_floats(buffer)}"] + (list(map(shown_float, numbers)) if 8 * len(numbers) <= SHOWN else [])

    def write(self, level, *box):
        source = pseudo_random(self.start, self.size_of_buffers)
        try:
            after, count = write_region(self.file, source, self.record, Region(level, box[:3], box[3:]))
        except Refusal as refusal:
            return [f"{refused(refusal)} {fnv(self.file)}"]
        self.held[:self.lent] = after
        return [f"taken {count} {fnv(self.file)}"]

    def position(self, dimension, index):
        try:
            return [f"at {shown_float(position(self.record, dimension, index))}"]
        except Refusal as refusal:
            return [refused(refusal)]

    def string(self, number):
        """Where a string starts and ends in the text, and where the next one starts; past the fifth, done."""
        try:
            strings = five_strings(self.file, self.record)
        except Refusal as refusal:
            return [refused(refusal)]
        return [turn(strings, number)]

    def strings(self):
        """A walk of six turns, each with the verdict: the five strings, and then done; refused, every turn says so."""
        try:
            strings = five_strings(self.file, self.record)
        except Refusal as refusal:
            said = f"{refused(refusal)} {refused(refusal)}"
            return [said] + [f" {said}"] * 5
        walk = [[f" taken {turn(strings, number)}"] + byte_lines(text) for number, text in enumerate(strings + [b""])]
        first, *rest = (line for lines in walk for line in lines)
        return [first.strip()] + rest

    def permuted(self, side, width, length, room, plain):
        buffer = bytearray([UNTOUCHED_BYTE]) * room
        try:
            content = permuted(pseudo_random(self.start, length), side, width, plain, room)
        except Refusal as refusal:
            return [f"{refused(refusal)} {fnv(buffer)}"]
        buffer[:len(content)] = content
        return [f"taken {len(content)} {fnv(buffer)}"] + (byte_lines(content) if len(content) <= SHOWN else [])

    def plain(self, inline, crossline, vertical, width, length, room):
        return self.permuted((inline, crossline, vertical), width, length, room, True)

    def subtiled(self, inline, crossline, vertical, width, length, room):
        return self.permuted((inline, crossline, vertical), width, length, room, False)

    def make(self, fill, at, length):
        """Made from the record's description and a part of the file as its text."""
        buffer = bytearray([UNTOUCHED_BYTE]) * self.size_of_buffers
        try:
            content = make(self.record.description, bytes(self.held[at:at + length]), fill, len(buffer))
        except Refusal as refusal:
            return [f"{refused(refusal)} {fnv(buffer)}"]
        buffer[:len(content)] = content
        return [f"length {len(content)} {fnv(buffer)}"] + byte_lines(content)

    def open(self):
        try:
            self.record = open_record(self.file)
        except Refusal as refusal:
            return [refused(refusal)]
        return [self.opened_line()]

    def room(self, count):
        self.size_of_buffers = count
        return [""]

    def seed(self, start):
        self.start = start
        return [""]

    def put(self, at, low, high):
        self.held[at:at + 8] = struct.pack("<II", low, high)
        return [""]

    def lend(self, count):
        self.lent = count
        return [""]

    def field(self, number, part, low, high):
        name, described = RECORD_FIELDS[number]
        holder = self.record.description if described else self.record
        value = low + (high << 32)
        old = getattr(holder, name)
        new = old[:part] + (value,) + old[part + 1:] if isinstance(old, tuple) else value
        holder = replace(holder, **{name: new})
        self.record = replace(self.record, description=holder) if described else holder
        return [""]


def refused(refusal):
    return f"refused {refusal.number} {refusal.entry}"


def answers(name, file, calls):
    """All lines of a cube: its name, what opening says, and the answers to the calls."""
    lines = [f"cube {name}"]
    try:
        session = Session(file)
    except Refusal as refusal:
        return lines + [refused(refusal)]
    lines.append(session.opened_line())
    for call, *arguments in calls:
        lines += session.answer(call, arguments)
    return lines


def packed_calls(calls):
    """A list of calls as a file."""
    content = b""
    for name, *arguments in calls:
        words = [CALLS.index(name), *arguments]
        content += struct.pack(f"<{CALL_WORDS}I", *words, *[0] * (CALL_WORDS - len(words)))
    return content


# ---------------------------------------------------------------------------------------------------------------------
# The cubes that the program vectors is run on

LARGEST_U32 = (1 << 32) - 1
NO_SPOILT = LARGEST_U32

# 32-bit floats that are no NaN, the ends of every kind among them: zeros, subnormals, ones, largest, infinite.
ODD_FLOATS = [
    0x00000000, 0x80000000, 0x00000001, 0x80000001, 0x007FFFFF, 0x807FFFFF, 0x00800000, 0x80800000, 0x3F800000, 0xBF800000,
    0x3F800001, 0x3F7FFFFF, 0x7F7FFFFF, 0xFF7FFFFF, 0x7F800000, 0xFF800000,
]


# NaNs: quiet, signalling, negative, and with a payload.
NANS = [0x7FC00000, 0xFFC00000, 0x7F800001, 0xFF800001, 0x7FC12345, 0xFFD54321, 0x7FBFFFFF, 0xFFFFFFFF]


def no_nan(bits):
    """The bits, with an exponent of all ones made one less."""
    return bits & 0xFF7FFFFF if bits & 0x7F800000 == 0x7F800000 else bits


def samples_of(description, chance):
    """A brick of samples: for integers any, for floats any but NaNs, with odd ones between."""
    count = math.prod(description.side)
    if description.type != FLOAT32:
        return chance.randbytes(count * WIDTHS[description.type])
    floats = [chance.choice(ODD_FLOATS) if chance.random() < 0.3 else no_nan(chance.getrandbits(32)) for _ in range(count)]
    return struct.pack(f"<{count}I", *floats)


def constant_of(description, chance):
    """A constant entry. Its bytes above the value can be anything."""
    width = WIDTHS[description.type]
    low = no_nan(chance.getrandbits(32)) if description.type == FLOAT32 else chance.getrandbits(8 * width)
    return constant(low) | chance.choice([0, 0, chance.getrandbits(62) >> (8 * width) << (8 * width)])


def shuffled_cube(seed, description, text, stored=0.6, version=3, tail=0):
    """A cube with bricks of every kind in shuffled order, at offsets with gaps of a few bytes. What is not read is random."""
    chance = random.Random(seed)
    count = brick_total(description.counts)
    kinds = [chance.random() < stored for _ in range(count)]
    order = [entry for entry in range(count) if kinds[entry]]
    chance.shuffle(order)
    entries = [chance.choice([MISSING, OLD_CONSTANT_ZERO, constant_of(description, chance)]) for _ in range(count)]
    at = description.header_end(text)
    bricks = {}
    for entry in order:
        at += chance.choice([0, 0, 1, 3, 17])
        entries[entry] = at
        bricks[at] = samples_of(description, chance)
        at += description.brick_bytes
    file = build(description, text, entries, bricks, version) + chance.randbytes(tail)
    ignored = TEXT_AT + len(text), table_at(len(text), description.counts)
    return patched(file, ignored[0], chance.randbytes(ignored[1] - ignored[0]))


def floats_bits(*numbers):
    return tuple(map(bits_of, numbers))


IDS = {
    "data_id": bytes(range(16)),
    "version_id": bytes(range(16, 32)),
    "previous_id": bytes(range(255, 239, -1)),
}
UNITS = {
    "source_type": 6,
    "horizontal_kind": 1,
    "horizontal_factor_bits": 0x3FD381D7DBF487FD,
    "vertical_kind": 2,
    "vertical_factor_bits": 0x3F50624DD2F1A9FC,
}


def vector_descriptions():
    """The shapes of the cubes, by name: every type, sides alike and mixed, sizes that are no multiples, one to four levels."""
    return {
        "int8_side_4": Description(
            size=(9, 5, 6), range_bits=floats_bits(-1.0, 1.0), orig_bits=floats_bits(100.5, -7.25, 0.1),
            inc_bits=floats_bits(0.1, 12.5, 4.0), **IDS, **UNITS),
        "int8_four_levels": Description(
            size=(29, 3, 2), range_bits=floats_bits(0.1, 0.3), orig_bits=floats_bits(-3.4e38, 1e-45, -0.0),
            inc_bits=floats_bits(3.4e38, -1e-45, -0.0)),
        "int16_mixed_sides": Description(
            type=INT16, side=(4, 8, 16), size=(9, 17, 20), range_bits=floats_bits(-32768.0, 32767.0),
            orig_bits=floats_bits(1e10, 0.3, -1e-3), inc_bits=floats_bits(1e-5, 1.1, -3.3)),
        "int16_one_brick": Description(
            type=INT16, side=(16, 4, 8), size=(16, 4, 8), range_bits=floats_bits(-3.4e38, 3.4e38), **UNITS),
        "int16_narrow_range": Description(
            type=INT16, side=(8, 4, 4), size=(7, 6, 5), range_bits=(0x00000001, 0x00000003), **IDS),
        "float32_side_4": Description(type=FLOAT32, size=(5, 6, 7), range_bits=(0x7F800000, 0xFF800000), **IDS, **UNITS),
        "float32_side_8": Description(type=FLOAT32, side=(8, 8, 8), size=(17, 9, 8), orig_bits=(0x80000000,) * 3),
    }


VECTOR_TEXTS = {
    "int8_side_4": STRINGS,
    "float32_side_8": b"\0\0\0\0" + bytes(range(1, 200)) + b"\0",
    "int16_mixed_sides": b"a\0bb\0ccc\0dddd\0eeeee\0",
}


def worked_11():
    """Worked number 11: int8 samples -128, 0, 1 and 127, the range -1280 to 1270."""
    description = Description(size=(1, 1, 4), range_bits=floats_bits(-1280.0, 1270.0))
    header = description.header_end(NO_STRINGS)
    samples = struct.pack("<4b", -128, 0, 1, 127) + bytes(60)
    return build(description, NO_STRINGS, [header], {header: samples})


def worked_12():
    """Worked number 12: orig 16,777,216 and inc 1."""
    return all_constant(Description(orig_bits=floats_bits(16777216.0, 0.0, 0.0), size=(4, 4, 4)), NO_STRINGS)


# Worked numbers 1 to 4.
CASE_1 = Description(size=(112, 64, 176), side=(64, 64, 64), type=INT16)


def case_1():
    """The cube of case 1, each brick a constant of its own, and reads across the faces of its bricks."""
    file = build(CASE_1, NO_STRINGS, [constant(1000 * entry + 1) for entry in range(brick_total(CASE_1.counts))])
    regions = [(0, 70, 5, 130, 1, 1, 1), (0, 60, 62, 120, 6, 2, 12), (0, 63, 0, 175, 2, 1, 1), (1, 0, 0, 60, 2, 1, 8), (2, 27, 15, 43, 1, 1, 1)]
    calls = [("kind", entry) for entry in range(10)]
    for region in regions:
        calls += [("raw", *region), ("float", *region), ("write", *region)]
    return file, calls + [("raw", *whole_level(CASE_1, 0)), ("raw", *whole_level(CASE_1, 2)), ("raw", 3, 0, 0, 0, 1, 1, 1)]


# Bricks of 3 x 2 x 3 at level 0, 2 x 1 x 2 at level 1 and 1 at level 2. The range makes each float its storage value.
HIGHEST_FIRST = Description(type=INT16, size=(9, 5, 9), range_bits=floats_bits(-32768.0, 32767.0))

# A sample of some of these bricks, as level and place, and the constant that the brick holds.
HIGHEST_FIRST_SAMPLES = [
    (2, (0, 0, 0), 200), (2, (2, 1, 2), 200),
    (1, (0, 0, 0), 100), (1, (4, 0, 0), 101), (1, (0, 0, 4), 102), (1, (4, 2, 4), 103),
    (0, (0, 0, 0), 0), (0, (8, 0, 0), 2), (0, (0, 4, 0), 3), (0, (0, 0, 4), 6), (0, (8, 4, 8), 17),
]


def highest_first():
    """A cube with its table written out, and calls that tell its levels apart: the highest level's brick comes first, and each
    brick is the constant 100 x its level + its number in the level."""
    entries = [constant(200), *(constant(100 + number) for number in range(4)), *(constant(number) for number in range(18))]
    file = build(HIGHEST_FIRST, NO_STRINGS, entries)
    record = open_record(file)
    calls = [("kind", entry) for entry in (0, 1, 4, 5, 22, 23)]
    for level in range(3):
        whole = whole_level(HIGHEST_FIRST, level)
        calls += [("raw", *whole), ("float", *whole), ("write", *whole)]
    # Entry 3 is brick (0, 0, 1) of level 1.
    for number in (MISSING, record.header - 1):
        calls += [put_entry(record, 3, number), ("raw", *whole_level(HIGHEST_FIRST, 1)), ("write", 1, 0, 0, 4, 4, 3, 1)]
        calls += [("raw", *whole_level(HIGHEST_FIRST, 2)), ("open",)]
    return file, calls


SPECIALS = Description(type=FLOAT32, size=(4, 4, 8))


def specials():
    """A float cube of NaNs and of floats at the ends of every kind: a stored brick of all, and constant bricks of each in turn."""
    floats = NANS + ODD_FLOATS
    count = math.prod(SPECIALS.side)
    header = SPECIALS.header_end(NO_STRINGS)
    samples = struct.pack(f"<{count}I", *(floats[item % len(floats)] for item in range(count)))
    file = build(SPECIALS, NO_STRINGS, [constant(NANS[3]), header, constant(NANS[0])], {header: samples})
    calls = [(call, *whole_level(SPECIALS, level)) for level in (0, 1) for call in ("raw", "float")] + [("kind", 0)]
    for bits in floats:
        calls += [put_entry(open_record(file), 2, constant(bits)), ("kind", 2), ("float", 0, 3, 3, 3, 1, 1, 2)]
    return file, calls


def expect_specials():
    """The widening of every kind of float, by the bits that FORMAT 11.2 gives or that IEEE 754 does."""
    for bits in NANS:
        expect(double_bits(widened(bits)), 0x7FF8000000000000, "the one pattern of a NaN")
    ends = {0x7F800000: 0x7FF0000000000000, 0xFF800000: 0xFFF0000000000000, 0x80000000: 0x8000000000000000, 0x00000001: 0x36A0000000000000}
    for bits, wide in ends.items():
        expect(double_bits(widened(bits)), wide, "a float widened exactly")


def expect(found, promised, what):
    if found != promised:
        raise SystemExit(f"{what}: {found}, and FORMAT says {promised}")


def expect_order(description):
    """A brick's entry is its place in the table: the highest level's brick comes first, the last brick of level 0 last."""
    counts = description.counts
    order = bricks_in_order(counts)
    expect([entry_number(description, *brick) for brick in order], list(range(brick_total(counts))), "entries in order")
    expect(order[0], (len(counts) - 1, (0, 0, 0)), "the first entry")
    expect(order[-1], (0, tuple(n - 1 for n in counts[0])), "the last entry")


def expect_highest_first():
    """Each level's samples are those of its own bricks."""
    file, _ = highest_first()
    record = open_record(file)
    for level, sample, number in HIGHEST_FIRST_SAMPLES:
        expect(sample_float(file, record, level, sample), float(number), f"sample {sample} of level {level}")


def expect_worked_numbers():
    """The worked numbers, as FORMAT 15 prints them."""
    expect([math.prod(n) for n in CASE_1.counts], [6, 2, 1], "worked number 1, bricks")
    expect([i * j for i, j, _ in CASE_1.counts], [2, 1, 1], "worked number 1, alpha")
    expect(CASE_1.header_end(NO_STRINGS), 2519, "worked number 2")
    expect(entry_number(CASE_1, 0, (1, 0, 2)), 8, "worked number 3")
    expect(entry_number(CASE_1, 1, (0, 0, 1)), 2, "worked number 3")
    expect(place_in_bricks(CASE_1, 0, (70, 5, 130)), (8, 24898), "worked number 4")
    for description in (CASE_1, *vector_descriptions().values()):
        expect_order(description)
    nine = Description(size=(9, 4, 4))
    expect(brick_total(nine.counts), 6, "worked number 5")
    expect(extent(nine, 1), (5, 2, 2), "worked number 5, extent")
    expect([brick_total(level_counts((n,) * 3, (64,) * 3)) for n in (64, 65)], [1, 9], "worked number 6")
    expect(subtiled_number((16, 16, 4), (9, 3, 2)), 558, "worked number 7")
    expect(item_number((16, 16, 4), (9, 3, 2)), 590, "worked number 7")
    expect(storage_value(brick_of(0x80000000000000FF, 1).value, INT8), -1.0, "worked number 8")
    expect(stored_id(bytes(range(16))).hex(), "03020100050407060809" + "0a0b0c0d0e0f", "worked number 10")
    file = worked_11()
    whole = Region(0, (0, 0, 0), (1, 1, 4))
    expect(read_float(file, open_record(file), whole, 4), [-1280.0, 0.0, 10.0, 1270.0], "worked number 11")
    expect(position(open_record(worked_12()), 0, 3), 16777219.0, "worked number 12")


def whole_level(description, level):
    """The region of all samples of a level."""
    return (level, 0, 0, 0, *extent(description, level))


def random_region(description, chance, level):
    """A region inside a level's extent."""
    starts = [chance.randrange(n) for n in extent(description, level)]
    counts = [chance.randint(1, n - s) for n, s in zip(extent(description, level), starts)]
    return (level, *starts, *counts)


def kind_calls(file, record):
    """Every entry and the first that is not there: its kind, and its view with the right filler, short ones and others."""
    width, length = WIDTHS[record.description.type], record.description.brick_bytes
    calls = []
    for entry in range(record.bricks + 1):
        value = brick_at(file, record, entry).value % (1 << 8 * width) if entry < record.bricks else 0
        calls += [
            ("kind", entry),
            ("view", entry, value, width, length + 3, length),
            ("view", entry, value, width, length, length - 1),
        ]
    for entry in range(min(record.bricks, 5)):
        calls += [("view", entry, 0, 1, length, NO_SPOILT), ("view", entry, 0, 1, length - 1, 0)]
    return calls + [("kind", LARGEST_U32), ("view", LARGEST_U32, 0, 1, 0, 0)]


def read_calls(record, chance):
    """Reads: the levels whole, odd regions, and refused ones."""
    d = record.description
    end = extent(d, 0)
    width = WIDTHS[d.type]
    calls = []
    for level in range(record.levels):
        size = math.prod(extent(d, level)) * width
        calls += [("room", size + 5), ("raw", *whole_level(d, level)), ("float", *whole_level(d, level))]
    for _ in range(5):
        region = random_region(d, chance, chance.randrange(record.levels))
        calls += [("raw", *region), ("float", *region)]
    for region in [
            (record.levels, 0, 0, 0, 1, 1, 1),
            (LARGEST_U32, 0, 0, 0, 0, 0, 0),
            (0, 0, 0, 0, 1, 0, 1),
            (0, 0, 0, 0, end[0], end[1], end[2] + 1),
            (0, end[0], 0, 0, 1, 1, 1),
            (0, 0, LARGEST_U32, 0, 1, 1, 1),
            (0, LARGEST_U32, LARGEST_U32, LARGEST_U32, LARGEST_U32, LARGEST_U32, LARGEST_U32)]:
        calls += [("raw", *region), ("float", *region), ("write", *region)]
    one_short = math.prod(end) - 1
    calls += [("room", one_short), ("float", *whole_level(d, 0)), ("raw", *whole_level(d, 0)), ("write", *whole_level(d, 0))]
    return calls + [("room", one_short + 1), ("float", *whole_level(d, 0)), ("raw", *whole_level(d, 0))]


def stored_entries(file, record):
    """The entries whose bricks are stored."""
    return [entry for entry in range(record.bricks) if brick_at(file, record, entry).kind == "stored"]


def region_of_brick(description, entry):
    """The region of a brick's samples inside the extent."""
    level, brick = bricks_in_order(description.counts)[entry]
    starts = [n * side for n, side in zip(brick, description.side)]
    ends = extent(description, level)
    return (level, *starts, *(min(side, n - s) for side, n, s in zip(description.side, ends, starts)))


def write_calls(file, record, chance):
    """Writes of odd regions, each read again; of single bricks; and of whole levels."""
    d = record.description
    stored = stored_entries(file, record)
    calls = [("room", math.prod(d.size) * WIDTHS[d.type] + 9)]
    for _ in range(4):
        region = random_region(d, chance, chance.randrange(record.levels))
        calls += [("seed", chance.getrandbits(31)), ("write", *region), ("raw", *region)]
    # The first stored brick is one of the highest level that has any.
    for entry in sorted({*stored[:1], *chance.sample(stored, min(3, len(stored)))}):
        region = region_of_brick(d, entry)
        calls += [("seed", chance.getrandbits(31)), ("write", *region), ("raw", *whole_level(d, region[0])), ("float", *region)]
    return calls + [("write", *whole_level(d, level)) for level in range(record.levels)] + [("open",)]


def place_calls(record):
    """Positions and strings."""
    calls = []
    for dimension, size in enumerate(record.description.size):
        indices = sorted({0, 1, size // 2, size - 1, size, LARGEST_U32})
        calls += [("position", dimension, index) for index in indices]
    calls += [("position", 3, 0), ("position", LARGEST_U32, 0)]
    return calls + [("string", number) for number in (0, 1, 2, 3, 4, 5, LARGEST_U32)] + [("strings",)]


def text_calls(file, record):
    """A text spoilt after opening: the strings are refused by 11, and by 14 where the file has another length too."""
    spoilt = ("put", TEXT_AT, LARGEST_U32, LARGEST_U32)
    mended = ("put", TEXT_AT, *struct.unpack_from("<II", file, TEXT_AT))
    refused_by_14 = [("lend", record.length - 1), ("strings",), ("string", 0), ("lend", record.length)]
    return [spoilt, ("strings",), ("string", 0), *refused_by_14, mended, ("strings",)]


def halves(number):
    """The low and the high half of a 64-bit number."""
    return number % (1 << 32), number >> 32


def put_entry(record, entry, number):
    """The call that puts another number into an entry."""
    return ("put", record.header - ENTRY_BYTES * (record.bricks - entry), *halves(number))


def damaged_calls(file, record):
    """Entries that go out of range after opening: calls that touch them are refused, and the others are not."""
    d = record.description
    table = record.header - ENTRY_BYTES * record.bricks
    calls = []
    # Entry 0 is of the highest level and the last of level 0, so entry 1 is of one between where there is one.
    between = [(1, record.header - 1)] if record.levels > 2 else []
    for entry, number in [
            (record.bricks - 1, record.header - 1),
            (record.bricks // 2, record.length - d.brick_bytes + 1),
            *between,
            (0, TOP_BIT - 1)]:
        (old,) = struct.unpack_from("<Q", file, table + ENTRY_BYTES * entry)
        region = region_of_brick(d, entry)
        other = record.levels - 1 if region[0] == 0 else 0
        calls += [put_entry(record, entry, number), ("kind", entry), ("view", entry, 0, 1, 0, 0)]
        calls += [("raw", *region), ("float", *region), ("write", *region), ("raw", *whole_level(d, region[0]))]
        calls += [("write", *whole_level(d, region[0])), ("raw", *whole_level(d, other)), ("open",)]
        calls += [put_entry(record, entry, old)]
    (first,) = struct.unpack_from("<Q", file, table)
    (last,) = struct.unpack_from("<Q", file, table + ENTRY_BYTES * (record.bricks - 1))
    calls += [put_entry(record, 0, 2), put_entry(record, record.bricks - 1, 2), ("write", *whole_level(d, 0))]
    calls += [("float", *whole_level(d, record.levels - 1)), ("open",)]
    return calls + [put_entry(record, record.bricks - 1, last), put_entry(record, 0, first), ("open",)]


def overlap_calls(file, record):
    """A brick made to overlap another after opening: only opening judges that, and reads go on."""
    stored = stored_entries(file, record)
    if len(stored) < 2:
        return []
    brick = brick_at(file, record, stored[0])
    number = brick.value + (1 if brick.value + 1 + record.description.brick_bytes <= record.length else -1)
    level = region_of_brick(record.description, stored[-1])[0]
    return [
        put_entry(record, stored[-1], number),
        ("open",),
        ("kind", stored[-1]),
        ("raw", *whole_level(record.description, level)),
        ("float", *region_of_brick(record.description, stored[-1])),
        put_entry(record, stored[-1], brick_at(file, record, stored[-1]).value),
        ("open",),
    ]


def every_call(record):
    """One call of each kind, to be refused by 14."""
    whole = whole_level(record.description, 0)
    return [("kind", 0), ("view", 0, 0, 1, 0, 0), ("raw", *whole), ("float", *whole), ("write", *whole), ("position", 0, 0),
            ("string", 0), ("strings",)]


def misfit_calls(record):
    """A file of another length, and records with a changed field."""
    calls = []
    for length in (record.length - 1, record.length + 1, record.header, 0):
        if length != record.length:
            calls += [("lend", length), *every_call(record)]
    calls += [("lend", record.length), *every_call(record)]
    d = record.description
    changes = [
        ("version", 0, 4), ("side", 1, 5), ("side", 2, 64), ("type", 0, 3), ("range_bits", 1, 0x7F800000), ("source_type", 0, 9),
        ("orig_bits", 0, 0x7F800000), ("inc_bits", 1, d.inc_bits[1] ^ 1), ("size", 2, 0), ("size", 0, 1048577),
        ("vertical_kind", 0, 77), ("horizontal_factor_bits", 0, (1 << 64) - 1), ("text", 0, 4), ("text", 0, record.text + 1),
        ("grid_orig", 2, d.orig_bits[2] ^ 0x80000000), ("grid_inc", 0, d.inc_bits[0] ^ 1), ("grid_range", 0, 1),
        ("header", 0, record.header - 1), ("levels", 0, record.levels + 1), ("bricks", 0, record.bricks - 1),
        ("alphas", 0, record.alphas + 1), ("length", 0, record.header - 1), ("length", 0, (1 << 64) - 1),
    ]
    for name, part, value in changes:
        calls += [("field", FIELD_NUMBERS[name], part, *halves(value)), ("kind", 0), ("position", 2, 0), ("string", 0), ("open",)]
    return calls


def make_calls(record):
    """The description made anew with both fills, and what making refuses."""
    d = record.description
    text = TEXT_AT, record.text
    stored = (divided_up(record.header, d.brick_bytes) + record.bricks) * d.brick_bytes
    calls = [("room", record.header + 3), ("make", 0, *text), ("room", record.header - 1), ("make", 0, *text)]
    calls += [("room", stored), ("make", 1, *text), ("room", stored - 1), ("make", 1, *text), ("room", stored + 100)]
    for name, part, value in [
            ("side", 0, 3), ("type", 0, 1), ("size", 1, 0), ("size", 2, LARGEST_U32), ("inc_bits", 2, 0xFF800000), ("size", 0, 1048576)]:
        calls += [("field", FIELD_NUMBERS[name], part, *halves(value)), ("make", 0, *text), ("make", 1, *text), ("open",)]
    calls += [("field", FIELD_NUMBERS["inc_bits"], 0, 0x7F7FFFFF, 0), ("make", 0, *text), ("open",)]
    calls += [("field", FIELD_NUMBERS["inc_bits"], 1, 0x3EAAAAAB, 0), ("make", 0, *text), ("open",)]
    for start, length in [(TEXT_AT, 4), (TEXT_AT, record.text - 1), (TEXT_AT + 1, record.text), (TEXT_AT, 0)]:
        calls += [("make", 0, start, length)]
    return calls


def permutation_calls():
    """The version 1 brick order both ways, and what it refuses."""
    calls = []
    for number, (side, width) in enumerate([
            ((8, 8, 4), 1), ((16, 8, 4), 1), ((8, 16, 4), 2), ((16, 16, 4), 1), ((16, 16, 4), 4), ((8, 32, 8), 2), ((32, 8, 64), 1)]):
        length = math.prod(side) * width
        calls += [("seed", 1000 + number), ("plain", *side, width, length, length + 2), ("subtiled", *side, width, length + 1, length)]
        calls += [("plain", *side, width, length - 1, length), ("subtiled", *side, width, length, length - 1)]
    for side, width in [((4, 8, 8), 1), ((8, 4, 8), 1), ((8, 8, 2), 1), ((8, 8, 128), 1), ((128, 8, 8), 1), ((8, 8, 8), 3),
                        ((8, 8, 8), 0), ((8, 24, 8), 1), ((LARGEST_U32, 8, 8), 4)]:
        calls += [("plain", *side, width, 100, 100), ("subtiled", *side, width, 100, 0)]
    return calls


def standard_calls(seed, file):
    """Every kind of call on a cube."""
    chance = random.Random(seed)
    record = open_record(file)
    return [
        *kind_calls(file, record),
        *place_calls(record),
        *text_calls(file, record),
        *read_calls(record, chance),
        *write_calls(file, record, chance),
        *damaged_calls(file, record),
        *overlap_calls(file, record),
    ]


def shapes():
    """The cubes of every shape, by name."""
    cubes = {}
    for seed, (name, description) in enumerate(vector_descriptions().items()):
        text = VECTOR_TEXTS.get(name, NO_STRINGS)
        version = 2 if seed % 3 == 1 else 3
        stored = 1.0 if brick_total(description.counts) == 1 else 0.6
        cubes[name] = shuffled_cube(seed, description, text, stored, version, tail=seed)
    return cubes


# A file for each number of opening.
REFUSED_VECTORS = [
    "01_cut_345", "02_magic", "03_version_1", "04_side_5", "05_type_1", "06_size_0", "07_inc_nan", "08_bricks_16398", "09_text_4",
    "10_cut_by_one", "11_six_zeros", "12_past_end", "13_two",
]


def vector_files():
    """Every cube and the calls on it, by name, in order."""
    small = Description(size=(6, 5, 3), range_bits=floats_bits(-2.0, 3.0), inc_bits=floats_bits(0.1, 25.0, 1e30), **IDS, **UNITS)
    constants, zeros, kinds = all_constant(small, STRINGS), all_stored(small, STRINGS), shuffled_cube(77, small, STRINGS)
    files = {
        "case_1": case_1(),
        "highest_first": highest_first(),
        "specials": specials(),
        "worked_11": (worked_11(), [("kind", 0), ("raw", 0, 0, 0, 0, 1, 1, 4), ("float", 0, 0, 0, 0, 1, 1, 4)]),
        "worked_12": (worked_12(), [("position", 0, index) for index in range(5)]),
        "made_constant": (constants, standard_calls(5, constants)),
        "made_stored": (zeros, standard_calls(6, zeros)),
        "misfits": (kinds, misfit_calls(open_record(kinds)) + make_calls(open_record(kinds))),
        "permutations": (all_constant(CASE_13, NO_STRINGS), permutation_calls()),
    }
    for seed, (name, file) in enumerate(shapes().items()):
        files[name] = (file, standard_calls(seed, file) + make_calls(open_record(file)))
    refusals = {**refused_by_fields(), **refused_by_sections(), **refused_by_entries()}
    for name in REFUSED_VECTORS:
        files[name] = (refusals[name], [])
    return files


def expect_numbers_seen(lines):
    """Every number of the table appears."""
    seen = {int(words[words.index("refused") + 1]) for words in map(str.split, lines) if "refused" in words}
    if seen != set(range(1, 21)):
        raise SystemExit(f"refusals without a call: {sorted(set(range(1, 21)) - seen)}")


def expect_levels_named(lines):
    """Refusals 12 and 19 name entries of level 0 and, after the table's first entry, of levels above it."""
    seen = set()
    for words in map(str.split, lines):
        if words[0] in ("raw", "float", "write") and words[8] == "refused" and words[10] != "0":
            seen.add((int(words[9]), words[1] == "0"))
    unseen = {(number, lowest) for number in (12, 19) for lowest in (True, False)} - seen
    if unseen:
        raise SystemExit(f"refusals that no call names an entry for, and whether of level 0: {sorted(unseen)}")


def write_vectors():
    """Writes the cubes and the calls that the program vectors is run on, and the answers that it must write."""
    expect_worked_numbers()
    expect_highest_first()
    expect_specials()
    files = vector_files()
    folder = ROOT / "crates" / "vectors"
    (folder / "data").mkdir(parents=True, exist_ok=True)
    for old in (folder / "data").iterdir():
        old.unlink()
    lines, pairs = [], []
    for name, (file, calls) in files.items():
        list_name = f"{name}.calls" if calls else "no.calls"
        (folder / "data" / name).write_bytes(file)
        (folder / "data" / list_name).write_bytes(packed_calls(calls))
        pairs += [name, list_name]
        lines += answers(name, file, calls)
    expect_numbers_seen(lines)
    expect_levels_named(lines)
    (folder / "args").write_text("".join(f"{name}\n" for name in pairs))
    (folder / "stdout").write_text("".join(f"{line}\n" for line in lines))
    total = sum(len(file) + 4 * CALL_WORDS * len(calls) for file, calls in files.values())
    print(f"{len(files)} cubes, {total} bytes, {sum(len(calls) for _, calls in files.values())} calls, {len(lines)} lines")


# ---------------------------------------------------------------------------------------------------------------------
# Commands

COMMANDS = {"listings": write_listings, "vectors": write_vectors}


def main(words):
    if len(words) != 1 or words[0] not in COMMANDS:
        raise SystemExit("usage: second_reader.py " + " | ".join(COMMANDS))
    COMMANDS[words[0]]()


if __name__ == "__main__":
    main(sys.argv[1:])
