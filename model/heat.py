"""A model of the heat call, written from document 02's request L4, without the code.

    heat(data, t, loss, room)  gives (0, result), or (number, None) with 1 to 9, 20, 21 or 14
    figures(house, t, loss)    watts of the mean hour and of the greatest hour

The formulas are those of SNiP 2.04.01-85, in their own units (kW, m3/h, degrees) and as exact
fractions. The quoted sentences are those of L4.
"""

import struct
from fractions import Fraction

import demand
import job
from demand import up

# Hot water's own temperature, and kWh that warm a m3 by one degree.
HOT_WATER = 55
KWH = Fraction(116, 100)


# The heat flows

def kilowatts(litres, t, loss):
    """Of l/h, with cold water of t degrees and a loss in watts: formulas 10 and 11."""
    return KWH * Fraction(litres, 1000) * (HOT_WATER - t) + Fraction(loss, 1000)


def watts(litres, t, loss):
    """Going up before or after the loss, a whole number of watts, is the same."""
    return up(1000 * kilowatts(litres, t, loss))


def figures(house, t, loss):
    """Those of "formulas 10 (mean hour) and 11 (greatest hour)"."""
    return watts(demand.mean_hour(house), t, loss), watts(demand.hour(house), t, loss)


# The call: "in watts, 4 bytes each"; it "writes the mean hour's first and checks 14 last"

RESULT = struct.Struct(">II")


def in_range(t, loss):
    """Else 21: "temperature or loss out of range". "Cold water temperature t is 0 to 30", the loss
    is "0 to 1,000,000 W"; both are lent without a sign."""
    return t <= 30 and loss <= 1_000_000


def heat_number(data, t, loss, room):
    """20 comes "after 9", 21 "after 20"."""
    number = demand.acceptance_number(data)
    if number != 0:
        return number
    if job.decode(data).service != job.HOT:
        return 20
    if not in_range(t, loss):
        return 21
    return 14 if room < RESULT.size else 0


def heat(data, t, loss, room):
    number = heat_number(data, t, loss, room)
    if number != 0:
        return number, None
    return 0, RESULT.pack(*figures(job.decode(data), t, loss))
