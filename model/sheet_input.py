"""The largest input that the sheet program rates, and its sheet.

    python3 model/sheet_input.py STDIN STDOUT

A hot line of 63 sections (671 bytes), 12 sizes of 64 rows (6,199) and 63 size
numbers, 6,933 bytes in all. Each section takes one of the sizes that serve it,
in turn.
"""

import sys

import catalogue
import choosing
import job
import sheet
from choosing_vectors import PIPES, measured
from edit import serving
from flow_vectors import comb_of_kinds


def sizes_in_turn(record, sizes):
    offered = choosing.offered_to(job.decode(record), catalogue.decode(sizes))
    return bytes(some[i % len(some)].size for i, some in enumerate(offered))


def largest():
    record = measured(serving(comb_of_kinds(63), job.HOT), 6000)
    return record + PIPES + sizes_in_turn(record, PIPES)


def main(stdin_path, stdout_path):
    data = largest()
    lines = sheet.sheet(data)
    assert len(data) == 6933 and len(lines) == 65, (len(data), lines)
    with open(stdin_path, "wb") as file:
        file.write(data)
    with open(stdout_path, "w", encoding="ascii", newline="\n") as file:
        file.write("".join(line + "\n" for line in lines))


if __name__ == "__main__":
    main(*sys.argv[1:])
