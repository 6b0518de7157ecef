"""Houses that the vectors have in common, as records."""

from edit import OWN, head, house, people, section, serving, stating

# The services, and document 01's own case as a record of version 2 with each of them.
SERVICES = {0: "total", 1: "cold", 2: "hot"}
OWN_TOTAL, OWN_COLD, OWN_HOT = (serving(OWN, service) for service in SERVICES)

# Parts of houses: parent, kind, fixtures, length, elevation, free head.
END = (0, 7, 80, 100, 600, 200)
INNER = (0, 0, 0, 100, 600, 0)


def under(parent, part):
    """The part with another parent."""
    return (parent,) + part[1:]


# A basin on a wide main, of 1 resident: its share is 7,936.5, up to 7,937, under 15,000, so that it
# has 140 ml/s, one tap. By either line's norms the share is 5,556 and one tap 100 ml/s.
BASIN_END = (0, 11, 1, 800, 600, 200)
BASIN = house([BASIN_END], {11: 1})

# Document 01's own section beside the basin, and over it. Over it, m is 1,840,741 + 7,937, between
# the keys 1.80 with 1.350 and 1.85 with 1.372: alpha is 1,371,418.3, up to 1,371,419, and the flow
# (1,840,741 x 30 + 7,937 x 14) x 1,371,419 / (20,000 x 1,848,678) = 2,052.4, up to 2,053 ml/s.
OWN_BESIDE_BASIN = house([END, BASIN_END], {7: 71, 11: 1})
OWN_OVER_BASIN = house([END, under(1, BASIN_END)], {7: 71, 11: 1})

TWO_ENDS = house([END, END], {7: 71})
INNER_AND_END = house([INNER, under(1, END)], {7: 71})


# Houses with one thing wrong or several

# For each number an edit that makes its condition hold and no other one, in
# the order in which the edits are made.
BREAKS = [
    (7, lambda record: people(record, {1: 1})),
    (6, lambda record: section(record, 2, kind=0, fixtures=0, free=0)),
    (5, lambda record: section(record, 1, length=0)),
    (4, lambda record: stating(record + b"\0")),
    (3, lambda record: head(record, k=4)),
    (2, lambda record: head(record, version=3)),
    (1, lambda record: head(record, stated=len(record) + 1)),
]


def broken(numbers, service=None):
    """Two ends, edited so that exactly these numbers' conditions hold; in version 2 where a service
    is given. 2 has no part in that: the sections of another version stand as those of version 1."""
    assert service is None or 2 not in numbers
    record = TWO_ENDS if service is None else serving(TWO_ENDS, service)
    for number, edit in BREAKS:
        record = edit(record) if number in numbers else record
    return record


# Trees and whole houses

def twelve_kinds():
    return house([(0, kind, 256 * kind + 1, 40 * kind, 500 * kind - 1000, 80 * kind)
                  for kind in range(1, 13)],
                 {kind: 258 * kind + 3 for kind in range(1, 13)})


def greedy():
    """The house where widening pipes one by one ends dearer."""
    record = house([(0, 0, 0, 363, 795, 0), (1, 2, 76, 101, 776, 200),
                    (1, 2, 70, 174, 798, 200)], {2: 57})
    return head(record, meter=0, limit=3000, H=2386)


def chain(count):
    """Each section under the one before; only the last has a kind."""
    return house([under(i, INNER) for i in range(count - 1)] + [under(count - 1, END)], {7: 71})


def star(count):
    """Every section at the pump, with the most fixtures."""
    return house([(0, 7, 65535, 5000, -1000, 1000)] * count, {7: 65535})


def comb_part(number, count):
    """Even sections are ends. Each odd one is under the odd one before and
    carries an even one; the last odd one is an end."""
    if number % 2 == 0:
        return under(number - 1, END)
    return under(max(0, number - 2), END if number == count else INNER)


def comb(count):
    return house([comb_part(number, count) for number in range(1, count + 1)], {7: 71})


def halving(count):
    """Section i under section i / 2, every kind in turn, different numbers."""
    return house([(i // 2, 1 + i % 12, 1000 * i + 7, 79 * i, 111 * i - 1000, 15 * i)
                  for i in range(1, count + 1)], {kind: 5000 * kind for kind in range(1, 13)})
