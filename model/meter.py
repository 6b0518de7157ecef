"""A model of the meter call, written from document 02's request L1, without the code.

    meter(data, meters, room)  gives (0, result), or (number, None) with 1 to 9, 17, 14 or 18

The formula is document 001's formula 4, h = S x q x q, in its own units (m, l/s)
and as exact fractions. The quoted sentences are those of L1.
"""

import struct
from fractions import Fraction
from typing import NamedTuple

import demand
import job
from demand import up


class Meter(NamedTuple):
    type: int
    resistance: int  # ten-thousandths of m per (l/s) squared
    service: int     # l/h


# "A meter takes 5 bytes: type (1), resistance (2), service flow (2)"
METER = struct.Struct(">BHH")

# A loss is "at most 500 cm (vane) or 250 cm (turbine)"; in m, by type.
MOST_LOSS = {1: 5, 2: Fraction(5, 2)}


def decode(meters):
    """The meters of a list, by their places from 1."""
    found = [Meter(*each) for each in METER.iter_unpack(meters)]
    return dict(enumerate(found, start=1))


def list_fits(meters):
    """Else 17: "the list breaks these rules": 1 to 8 meters of 5 bytes, type
    "1 vane, 2 turbine", and "the last two are at least 1"."""
    if len(meters) not in [METER.size * count for count in range(1, 9)]:
        return False
    return all(each.type in MOST_LOSS and each.resistance >= 1 and each.service >= 1
               for each in decode(meters).values())


# What a meter loses, and whether it qualifies

def lost(meter, q):
    """In m at q ml/s, exactly."""
    return Fraction(meter.resistance, 10_000) * Fraction(q, 1000) ** 2


def loss(meter, q):
    """In cm, up."""
    return up(100 * lost(meter, q))


def losses(meters, house):
    """Of each place the loss, "with q the house design flow in ml/s from the house m"."""
    q = demand.house_flow(house)
    return {place: loss(each, q) for place, each in decode(meters).items()}


def qualifying(meters, house):
    """The places of the meters that qualify: "its loss is at most" its type's,
    "and the mean hour is at most its service flow"."""
    found, mean = losses(meters, house), demand.mean_hour(house)
    return [place for place, each in decode(meters).items()
            if Fraction(found[place], 100) <= MOST_LOSS[each.type] and mean <= each.service]


def winner(meters, house):
    """Place and loss: "The least loss wins, then the lower place in the list." """
    found = losses(meters, house)
    place = min(qualifying(meters, house), key=lambda each: (found[each], each))
    return place, found[place]


# The call

def meter_number(data, meters, room):
    """17 comes "after 9", 18 "after 14"."""
    number = demand.acceptance_number(data)
    if number != 0:
        return number
    if not list_fits(meters):
        return 17
    if room < 1 + len(data):
        return 14
    return 0 if qualifying(meters, job.decode(data)) else 18


def metered(data, loss_in_cm):
    """The record "with that meter's loss in its meter loss field and every other
    byte as it was"; "that job is accepted"."""
    record = job.encode(job.decode(data)._replace(meter=loss_in_cm))
    assert record[:8] + record[10:] == data[:8] + data[10:]
    assert demand.acceptance_number(record) == 0
    return record


def meter(data, meters, room):
    """The result is "the meter's place, from 1 (1 byte), then the job record"."""
    number = meter_number(data, meters, room)
    if number != 0:
        return number, None
    place, loss_in_cm = winner(meters, job.decode(data))
    return 0, bytes([place]) + metered(data, loss_in_cm)
