"""A model of choosing, written from document 01, without the code.

    choose(data, catalogue, work, room)  a Choice with number 0, or with 1 to 11
                                         or 14 to 16 and nothing else
    result(choice)                       the bytes of a result
    every_list(house, offered)           the cheapest of all lists, each rated
    by_fronts(house, offered)            the same without going through them all

The quoted sentences are those of "Rating and choosing" and "Refused orders".
"""

import functools
import itertools
import math
import struct
from typing import NamedTuple, Optional

import catalogue
import demand
import heads
import job
import losses


class Choice(NamedTuple):
    number: int
    cost: Optional[int] = None
    count: Optional[int] = None    # of the lists that suit at this cost
    sizes: Optional[tuple] = None  # one of them


class Option(NamedTuple):
    """A size that serves a section."""
    size: int
    loss: int  # cm
    cost: int  # tenths of the price unit


# The sizes that serve

def option(number, size, section, flow, house):
    """A section's option by this size, or None. "Every section's size serves
    its flow, no velocity passes the limit"; the cost is "price x length"."""
    reading = catalogue.read_at(size, flow)
    if not losses.serves(reading, house):
        return None
    lost = losses.loss(reading.slope, section.length, house.k)
    return Option(number, lost, size.price * section.length)


def offered_to(house, sizes):
    """The options of each section, by rising size."""
    return [[found for number, size in enumerate(sizes, start=1)
             if (found := option(number, size, section, flow, house))]
            for section, flow in zip(job.sections(house), demand.section_flows(house))]


# All lists

def suits(house, chosen):
    """Of sizes that serve: "the required head is at most H"."""
    required, _, _ = heads.figures(house, [each.loss for each in chosen])
    return required <= house.H


def cost_of(chosen):
    return sum(each.cost for each in chosen)


def every_list(house, offered):
    """A Choice by rating every list of sizes that serve."""
    suiting = [chosen for chosen in itertools.product(*offered) if suits(house, chosen)]
    least = min(map(cost_of, suiting), default=None)
    cheapest = [chosen for chosen in suiting if cost_of(chosen) == least]
    if not cheapest:
        return Choice(16)
    return Choice(0, least, len(cheapest), tuple(each.size for each in cheapest[0]))


# Fronts. A front tells what head buys: its steps rise in head, and from a
# step's head on, up to the next step, its least cost can be had in so many ways.
# A step stands only where the cost falls or the ways change.

class Best(NamedTuple):
    cost: int
    ways: int


class Step(NamedTuple):
    head: int
    best: Best


def at(front, head):
    """What this head buys; None where it is too little."""
    passed = [step for step in front if step.head <= head]
    return passed[-1].best if passed else None


def swept(fronts, combine):
    """The front that has at every head what `combine` makes of the others there."""
    changes = sorted((step.head, place, step.best)
                     for place, front in enumerate(fronts) for step in front)
    now, found = [None] * len(fronts), []
    for head, group in itertools.groupby(changes, key=lambda change: change[0]):
        for _, place, best in group:
            now[place] = best
        best = combine(now)
        if best is not None and (not found or found[-1].best != best):
            found.append(Step(head, best))
    return found


def together(bests):
    """All of them, each with a choice of its own."""
    if None in bests:
        return None
    return Best(sum(best.cost for best in bests), math.prod(best.ways for best in bests))


def either(bests):
    """The cheapest one of them, or any of those equally cheap."""
    had = [best for best in bests if best is not None]
    least = min((best.cost for best in had), default=None)
    return Best(least, sum(best.ways for best in had if best.cost == least)) if had else None


def behind(option, front, most):
    """The front at the start of a section, by one option of it. No head over
    `most` is there to be had."""
    return [Step(step.head + option.loss, Best(step.best.cost + option.cost, step.best.ways))
            for step in front if step.head + option.loss <= most]


class Fronts:
    """At the end and at the start of each section, from the last section to the
    first: a section's number is greater than its parent's. The section's own end
    needs elevation and free head, and costs nothing."""

    def __init__(self, house, offered):
        self.house, self.offered = house, offered
        self.most = house.H - house.meter
        self.ends, self.starts = {}, {}
        for number in range(house.S, 0, -1):
            self.add(number)

    def add(self, number):
        section = self.house.slots[number - 1]
        own = [Step(section.elevation + section.free, Best(0, 1))]
        below = [self.starts[child] for child in self.children(number)]
        self.ends[number] = swept([own] + below, together)
        self.starts[number] = swept([behind(each, self.ends[number], self.most)
                                     for each in self.offered[number - 1]], either)

    def children(self, number):
        return [child for child, section in enumerate(job.sections(self.house), start=1)
                if section.parent == number]

    def house_best(self):
        return together([at(self.starts[child], self.most) for child in self.children(0)])

    def chosen(self, number, head):
        """The first option that is cheapest where the section's start has this
        head, and the head that it leaves."""
        best = at(self.starts[number], head)
        for each in self.offered[number - 1]:
            rest = at(self.ends[number], head - each.loss)
            if rest is not None and rest.cost + each.cost == best.cost:
                return each.size, head - each.loss

    def sizes(self):
        """A cheapest list, from the pump down."""
        left, found = {0: self.most}, []
        for number, section in enumerate(job.sections(self.house), start=1):
            size, left[number] = self.chosen(number, left[section.parent])
            found.append(size)
        return tuple(found)


def by_fronts(house, offered):
    fronts = Fronts(house, offered)
    best = fronts.house_best()
    if best is None:
        return Choice(16)
    return Choice(0, best.cost, best.ways, fronts.sizes())


# The call

FEW = 1000  # lists that are rated one by one


def cheapest(house, sizes):
    offered = offered_to(house, sizes)
    if math.prod(len(each) for each in offered) <= FEW:
        return every_list(house, offered)
    return by_fronts(house, offered)


def result_length(house):
    """Of "cost (4), then S size numbers"."""
    return 4 + house.S


def workspace(house):
    """That is "4 x (S + 1) x (H + 1,001) bytes"."""
    return 4 * (house.S + 1) * (house.H + 1001)


@functools.lru_cache(maxsize=None)
def choose(data, catalogue_data, work, room):
    """The order is "1 to 9, 10, 11, [...] 14, 15", then 16."""
    number = demand.acceptance_number(data) or catalogue.acceptance_number(catalogue_data)
    if number != 0:
        return Choice(number)
    house, sizes = job.decode(data), catalogue.decode(catalogue_data)
    if room < result_length(house):
        return Choice(14)
    if work < workspace(house):
        return Choice(15)
    return cheapest(house, sizes)


def result(choice):
    return struct.pack(">I", choice.cost) + bytes(choice.sizes)
