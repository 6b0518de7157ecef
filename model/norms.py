"""The norms of the twelve kinds for each service, from document 004's appendix 3.

    NORMS[service][kind]  a Norm
    check()               the copy of the appendix has what documents 01 and 02 list

norms.csv holds those rows of the appendix that documents 01 and 02 take their norms from, as
printed, with points for commas: columns 3 to 10, where columns 9 and 10 have two numbers each.
The rows are those of a dwelling over 12 storeys; the first and the third of the hostels; the
hotels 3, 4 and 5, the last with three shares of baths; the first of the hospitals; the polyclinics;
the offices, 12; and for schools the teaching institutions, 13. Columns 3 and 4, of a mean day,
are no norms of documents 01 and 02.
"""

import csv
import pathlib
from fractions import Fraction
from typing import NamedTuple

import job


class Norm(NamedTuple):
    day: Fraction     # litres per resident on the greatest day
    hour: Fraction    # litres per resident in the greatest hour
    second: Fraction  # l/s of a fixture
    hourly: Fraction  # l/h of a fixture


def appendix():
    """The rows by kind, each with its numbers by the names of the columns."""
    path = pathlib.Path(__file__).with_name("norms.csv")
    with open(path, encoding="ascii", newline="") as file:
        return {int(row.pop("kind")): {name: Fraction(text) for name, text in row.items()
                                       if name != "row"} for row in csv.DictReader(file)}


def total(row):
    """Columns 5, 7 and 9."""
    return Norm(row["day_total"], row["hour_total"], row["second_total"], row["hourly_total"])


def hot(row):
    """Columns 6, 8 and 10."""
    return Norm(row["day_hot"], row["hour_hot"], row["second_line"], row["hourly_line"])


def cold(row):
    """"Cold is total less hot"; column 10 is of "either line"."""
    return Norm(row["day_total"] - row["day_hot"], row["hour_total"] - row["hour_hot"],
                row["second_line"], row["hourly_line"])


NORMS = {service: {kind: of(row) for kind, row in appendix().items()}
         for service, of in ((job.TOTAL, total), (job.COLD, cold), (job.HOT, hot))}


# The lists of the papers, each from kind 1 to kind 12: D in litres, Q in tenths of a litre, Z in
# hundredths of l/s, O in l/h

# Document 01, "Norms and design flows".
TOTAL_LISTS = [
    (400, 100, 160, 120, 230, 200, 250, 300, 115, 15, 16, 20),
    (200, 104, 120, 125, 190, 224, 280, 300, 84, 26, 40, 27),
    (30, 20, 20, 30, 20, 30, 30, 30, 20, 20, 14, 14),
    (300, 100, 100, 300, 115, 250, 280, 300, 100, 80, 80, 100),
]

# Document 02, L4: "Hot norms for kinds 1 to 12", then what is "for either line".
HOT_LISTS = [
    (130, 60, 90, 70, 140, 100, 150, 180, 75, 6, 7, 8),
    (109, 63, 75, 82, 120, 104, 150, 160, 54, 12, 20, 12),
    (20, 14, 14, 20, 14, 20, 20, 20, 14, 14, 10, 10),
    (200, 60, 60, 200, 80, 180, 190, 200, 60, 60, 60, 60),
]

# Subtracted by hand: 400 - 130, 100 - 60 and so on, then 200 - 109, 104 - 63 and so on.
COLD_LISTS = [
    (270, 40, 70, 50, 90, 100, 100, 120, 40, 9, 9, 12),
    (91, 41, 45, 43, 70, 120, 130, 140, 30, 14, 20, 15),
    *HOT_LISTS[2:],
]


def listed(service):
    """The norms of a service as the papers list them."""
    units = zip(*NORMS[service].values())
    return [tuple(unit * each for each in column) for unit, column in zip((1, 10, 100, 1), units)]


def check():
    """Also that each kind draws something from either line, and on a mean day no more than on the
    greatest one."""
    assert all(list(found) == list(job.KINDS) for found in NORMS.values())
    assert all(row[f"mean_day_{each}"] <= row[f"day_{each}"]
               for row in appendix().values() for each in ("total", "hot"))
    for service, lists in ((job.TOTAL, TOTAL_LISTS), (job.COLD, COLD_LISTS), (job.HOT, HOT_LISTS)):
        assert listed(service) == lists, service
        assert all(each > 0 for column in lists for each in column), service
