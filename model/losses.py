"""A model of the losses call, written from document 01 and document 02's request L3,
without the code.

    losses(data, catalogue, sizes, room)  gives (0, result), or (number, None) with 1 to 14
    figures(house, sizes, numbers)        flow, velocity and loss of each section
    number(..., length)                   1 to 14 for a result of this length, or 0

The quoted sentences are those of "Rating and choosing", "Refused orders" and L3.
"""

import struct
from fractions import Fraction

import catalogue
import demand
import job
from demand import up


# The sections

def readings(house, sizes, numbers):
    """Of each section the size that the list names, read at its flow."""
    return [catalogue.read_at(sizes[number - 1], flow)
            for number, flow in zip(numbers, demand.section_flows(house))]


def loss(slope, length, k):
    """In cm: slope in mm per metre, length in decimetres, and k tenths more
    for local losses; up."""
    metres = Fraction(length, 10)
    return up(slope * metres / 10 * (1 + Fraction(k, 10)))


def figures(house, sizes, numbers):
    """Of sizes that serve."""
    found = readings(house, sizes, numbers)
    return [(flow, reading.velocity, loss(reading.slope, section.length, house.k))
            for flow, reading, section in
            zip(demand.section_flows(house), found, job.sections(house))]


# The refusals, rating's too: "The first keeps 1 to 14."

def list_fits(numbers, house, sizes):
    """Else 12: "size list isn't S long or names no size"."""
    return len(numbers) == house.S and set(numbers) <= set(range(1, len(sizes) + 1))


def serves(reading, house):
    """Else 13: "a section over its last row or the limit"."""
    return reading is not None and reading.velocity <= house.limit


def number(data, catalogue_data, numbers, room, length):
    """The order is "1 to 9, 10, 11, 12, 14", then 13; the length of the result is
    that of this house."""
    found = demand.acceptance_number(data) or catalogue.acceptance_number(catalogue_data)
    if found != 0:
        return found
    house, sizes = job.decode(data), catalogue.decode(catalogue_data)
    if not list_fits(numbers, house, sizes):
        return 12
    if room < length(house):
        return 14
    return 0 if all(serves(each, house) for each in readings(house, sizes, numbers)) else 13


# The result: "flow (4), velocity (2) and loss (4) per section"

RESULT_SECTION = struct.Struct(">IHI")


def result_length(house):
    return house.S * RESULT_SECTION.size


def losses(data, catalogue_data, numbers, room):
    found = number(data, catalogue_data, numbers, room, result_length)
    if found != 0:
        return found, None
    each = figures(job.decode(data), catalogue.decode(catalogue_data), numbers)
    return 0, b"".join(RESULT_SECTION.pack(*three) for three in each)


def losses_in(result):
    """The losses of a result, one of a section each."""
    return [lost for _, _, lost in RESULT_SECTION.iter_unpack(result)]
