"""A model of design flows, written from document 01 and document 02's requests L2 and
L4, without the code. Every figure is that of the job's service, by its norms.

    alpha(m)          the coefficient, in millionths
    flow(data, room)  gives (0, result), or (number, None) with 1 to 9 or 14
    duty(data, room)  the same of the house's design flow (docs/DECISIONS.md, 62)

The formulas are those of SNiP 2.04.01-85, in their own units (litres, seconds,
hours) and as exact fractions; a figure is rounded only where document 01 says
"up". The quoted sentences are those of "Norms and design flows", "Rating and
choosing", "Refused orders" and L2.
"""

import csv
import pathlib
import struct
from fractions import Fraction

import job
from norms import NORMS

MILLION = 10 ** 6


def up(value):
    """To "the next whole number if not whole"."""
    whole, rest = divmod(value.numerator, value.denominator)
    return whole if rest == 0 else whole + 1


# Table 2 and the coefficient

def table():
    """Table 2 up to key 400, as document 001 prints it, in millionths."""
    path = pathlib.Path(__file__).with_name("table2.csv")
    with open(path, encoding="ascii", newline="") as file:
        return [(int(row["key"]), int(row["value"])) for row in csv.DictReader(file)]


TABLE = table()
UNDER_THE_TABLE = 200_000


def alpha(m):
    """It is "200,000 when m is under 15,000; otherwise from Table 2"; "between
    two keys it is the straight line, rounded up". Past the last key, which 8 lets
    nobody reach, it stays at the last value."""
    passed = [pair for pair in TABLE if pair[0] <= m]
    ahead = [pair for pair in TABLE if pair[0] > m]
    if not passed:
        return UNDER_THE_TABLE
    if not ahead:
        return passed[-1][1]
    (left, low), (right, high) = passed[-1], ahead[0]
    return up(low + Fraction(m - left, right - left) * (high - low))


# What a section serves

def way_up(number, house):
    """A section, its parent, that one's parent, and so on to the pump."""
    way = []
    while number != 0:
        way.append(number)
        number = house.slots[number - 1].parent
    return way


def served_by(number, house):
    """The sections at or below a section: those whose way up passes it."""
    return {each for each in range(1, house.S + 1) if number in way_up(each, house)}


def fixtures_of(kind, numbers, house):
    """The fixtures of a kind at the ends of these sections."""
    ends = [house.slots[number - 1] for number in numbers]
    return sum(end.fixtures for end in ends if end.kind == kind)


def everything(house):
    """All the sections of the house."""
    return set(range(1, house.S + 1))


# Shares, m and the flows

def kinds_served(numbers, house):
    """The kinds that have fixtures at these sections."""
    return [kind for kind in job.KINDS if fixtures_of(kind, numbers, house) > 0]


def kinds_of(house):
    """Those of the house; the others have share 0."""
    return kinds_served(everything(house), house)


def residents(kind, house):
    return house.residents[kind - 1]


def norm(kind, house):
    """The kind's norm for the house's service; it has no part in residents and fixtures."""
    return NORMS[house.service][kind]


def probability(kind, house):
    """P of formula 3: what the kind's residents draw in the greatest hour over
    what its fixtures could give in an hour. It is one for the whole house."""
    drawn = norm(kind, house).hour * residents(kind, house)
    could = norm(kind, house).second * 3600 * fixtures_of(kind, everything(house), house)
    return drawn / could


def shares(numbers, house):
    """Of each kind of the house n x P in millionths, up, with the fixtures n
    at these sections."""
    return {kind: up(MILLION * fixtures_of(kind, numbers, house) * probability(kind, house))
            for kind in kinds_of(house)}


def m_of(numbers, house):
    """Of these sections: "m is the sum of the shares". """
    return sum(shares(numbers, house).values())


def hour_shares(house):
    """Of each kind of the house N x P_hr of formula 7, in millionths, up:
    what its residents draw in the greatest hour over what one fixture gives."""
    return {kind: up(MILLION * norm(kind, house).hour * residents(kind, house)
                     / norm(kind, house).hourly) for kind in kinds_of(house)}


def weighed(shared, rates):
    """A fixture's mean rate: formulas 1 and 6."""
    return sum(Fraction(shared[kind]) * rates[kind] for kind in shared) / sum(shared.values())


def five_rates(shared, rates):
    """Formulas 2 and 8: 5 times the mean rate times the coefficient."""
    return 5 * weighed(shared, rates) * Fraction(alpha(sum(shared.values())), MILLION)


def average_flow(numbers, house):
    """Document 01's value for a pipe that serves these sections, in ml/s."""
    rates = {kind: norm(kind, house).second for kind in job.KINDS}
    return up(1000 * five_rates(shares(numbers, house), rates))


def one_tap(numbers, house):
    """What one fixture draws, of "the largest Z among the kinds it serves", in ml/s:
    a whole number, for Z is in hundredths of l/s."""
    return up(1000 * max(norm(kind, house).second for kind in kinds_served(numbers, house)))


def design_flow(numbers, house):
    """In ml/s: "the larger of document 01's value and 10 x the largest Z among the
    kinds it serves"."""
    return max(average_flow(numbers, house), one_tap(numbers, house))


def hour(house):
    """The greatest hour's flow, in l/h."""
    rates = {kind: norm(kind, house).hourly for kind in job.KINDS}
    return up(five_rates(hour_shares(house), rates))


def day(house):
    """In litres, a whole number: the norms of a day are."""
    return up(sum(norm(kind, house).day * residents(kind, house) for kind in job.KINDS))


def mean_hour(house):
    """Formula 9, in l/h."""
    return up(Fraction(day(house), house.T))


def house_figures(house):
    return hour(house), day(house), mean_hour(house)


def house_flow(house):
    """What the pump set delivers: "The house's m takes n = N". """
    return design_flow(everything(house), house)


def section_flows(house):
    """The flows of sections 1 to S."""
    return [design_flow(served_by(number, house), house) for number in range(1, house.S + 1)]


# Document 01's values of the house and of sections 1 to S, beside which the vectors have the
# flows that one tap sets

def house_average(house):
    return average_flow(everything(house), house)


def section_averages(house):
    return [average_flow(served_by(number, house), house) for number in range(1, house.S + 1)]


# The refusals

MOST = 400_000_000


def house_sums(house):
    """The house's m and its hour sum."""
    return m_of(everything(house), house), sum(hour_shares(house).values())


def over_the_table(house):
    """8: "house m or house hour sum over 400,000,000"."""
    return max(house_sums(house)) > MOST


def crowded(sum_of_shares, numbers, house):
    """For 9: "over 100,000 x fixtures with at most 200 fixtures"."""
    fixtures = sum(fixtures_of(kind, numbers, house) for kind in job.KINDS)
    return fixtures <= 200 and sum_of_shares > 100_000 * fixtures


def too_crowded(house):
    """9: "house, any section, or house hour"."""
    parts = [everything(house)] + [served_by(i, house) for i in everything(house)]
    return (
        any(crowded(m_of(part, house), part, house) for part in parts)
        or crowded(sum(hour_shares(house).values()), everything(house), house)
    )


def acceptance_number(data):
    """1 to 9, the least that applies, or 0. "A job is accepted when 1 to 9
    find nothing." """
    number, house = job.read(data)
    if number != 0:
        return number
    if over_the_table(house):
        return 8
    return 9 if too_crowded(house) else 0


# The results: of flow "hour, day, mean hour, S flows (4 bytes each)", of duty the
# house's flow, in 4 bytes too

def flow_result(house):
    figures = list(house_figures(house)) + section_flows(house)
    return struct.pack(f">{len(figures)}I", *figures)


def duty_result(house):
    return struct.pack(">I", house_flow(house))


def given(data, room, result):
    """14, a "result buffer too short", comes after 1 to 9."""
    number = acceptance_number(data)
    if number != 0:
        return number, None
    found = result(job.decode(data))
    return (14, None) if room < len(found) else (0, found)


def flow(data, room):
    return given(data, room, flow_result)


def duty(data, room):
    return given(data, room, duty_result)
