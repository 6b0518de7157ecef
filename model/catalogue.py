"""A model of the catalogue of sizes, written from document 01 and document 02's request L6,
without the code.

    acceptance_number(data)  10, 11, or 0
    decode(data)             the sizes of an accepted catalogue
    read_at(size, flow)      a Reading, or None over the last row

The quoted sentences are those of "The catalogue", "Refused orders" and L6.
"""

import struct
from fractions import Fraction
from typing import NamedTuple, Optional

from demand import up


class Row(NamedTuple):
    flow: int      # ml/s
    velocity: int  # mm/s
    slope: int     # mm per metre


class Size(NamedTuple):
    bore: int   # mm
    price: int  # per metre
    rows: tuple


class Reading(NamedTuple):
    velocity: int
    slope: int


# The layout

HEAD = struct.Struct(">I3B")
SIZE_HEAD = struct.Struct(">2H")
ROW = struct.Struct(">I2H")

VERSION = 1


def size_length(rows):
    return SIZE_HEAD.size + rows * ROW.size


def right_length(sizes, rows):
    """That is "7 + sizes x (4 + 8 x R)"."""
    return HEAD.size + sizes * size_length(rows)


def decode_size(data):
    rows = [Row(*each) for each in ROW.iter_unpack(data[SIZE_HEAD.size:])]
    return Size(*SIZE_HEAD.unpack_from(data), rows=tuple(rows))


def decode(data):
    """The sizes of a catalogue of the right length, size 1 first."""
    _, _, sizes, rows = HEAD.unpack_from(data)
    starts = [right_length(number, rows) for number in range(sizes + 1)]
    return [decode_size(data[start:end]) for start, end in zip(starts, starts[1:])]


# The rules

def shape_fits(data):
    """Else 10: "catalogue under 7 bytes, wrong length, version or counts"."""
    if len(data) < HEAD.size:
        return False
    stated, version, sizes, rows = HEAD.unpack_from(data)
    return (
        version == VERSION
        and 1 <= sizes <= 12
        and 2 <= rows <= 64
        and stated == len(data) == right_length(sizes, rows)
    )


def rise_strictly(values):
    return list(values) == sorted(set(values))


def never_fall(values):
    return list(values) == sorted(values)


def rows_fit(rows):
    """For 11. "Flows rise strictly, 1 to 1,000,000; velocities and slopes are
    at least 1 and don't fall." """
    flows, velocities, slopes = zip(*rows)
    return (
        rise_strictly(flows)
        and 1 <= min(flows)
        and max(flows) <= 1_000_000
        and all(min(column) >= 1 and never_fall(column) for column in (velocities, slopes))
    )


def sizes_fit(sizes):
    """Else 11: "a size or row breaks its rules"."""
    bores = [size.bore for size in sizes]
    return (
        rise_strictly(bores)
        and min(bores) >= 1
        and all(1 <= size.price <= 10_000 and rows_fit(size.rows) for size in sizes)
    )


def acceptance_number(data):
    """A catalogue is accepted "when 10 and 11 don't" find anything."""
    if not shape_fits(data):
        return 10
    return 0 if sizes_fit(decode(data)) else 11


# A size read at a flow

# Where "the straight line from zero" begins.
ZERO = Row(flow=0, velocity=0, slope=0)


def line(flow, left, right):
    """Between two rows, or zero and the first: "the straight line, each up"."""
    part = Fraction(flow - left.flow, right.flow - left.flow)
    return Reading(*(up(low + part * (high - low)) for low, high in zip(left[1:], right[1:])))


def read_at(size, flow) -> Optional[Reading]:
    """"A flow under the first row now takes the straight line from zero: velocity is q x first
    velocity / first flow, up, and slope likewise." "Over the last row the size can't serve." """
    passed = [row for row in (ZERO,) + size.rows if row.flow <= flow]
    ahead = [row for row in size.rows if row.flow >= flow]
    if not ahead:
        return None
    left, right = passed[-1], ahead[0]
    return Reading(*left[1:]) if left == right else line(flow, left, right)
