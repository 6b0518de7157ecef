"""A model of the heads call, written from document 01 and document 02's request L3,
without the code.

    heads(data, losses, room)  gives (0, result), or (number, None) with 1 to 9, 19 or 14
    figures(house, lost)       required head, pump head, dictating section

The quoted sentences are those of "Rating and choosing" and L3.
"""

import struct

import demand
import job


# The heads that losses ask for

def path_loss(number, house, lost):
    """The losses of a section and of all between it and the pump."""
    return sum(lost[each - 1] for each in demand.way_up(number, house))


def reaches(house, lost):
    """Elevation, free head and path loss at the end of each section, kind 0 too."""
    return {number: section.elevation + section.free + path_loss(number, house, lost)
            for number, section in enumerate(job.sections(house), start=1)}


def figures(house, lost):
    """The dictating section is "the lowest number that reaches the greatest"."""
    reached = reaches(house, lost)
    greatest = max(reached.values())
    required = house.meter + greatest
    dictating = min(number for number, reach in reached.items() if reach == greatest)
    return required, max(0, required - house.G), dictating


# The losses: "S losses of 4 bytes each, whoever wrote them, as the sections' own"

LOSS = struct.Struct(">I")

# A loss over this "no table can give".
MOST = 4_259_775


def decode(losses):
    return [each for each, in LOSS.iter_unpack(losses)]


def encode(lost):
    return b"".join(LOSS.pack(each) for each in lost)


def list_fits(losses, house):
    """Else 19: "the losses aren't S long or one is over 4,259,775 cm"."""
    return len(losses) == LOSS.size * house.S and all(each <= MOST for each in decode(losses))


# The call: "required head (4, signed), pump head (4), dictating section (1)"

RESULT = struct.Struct(">iIB")


def heads_number(data, losses, room):
    """19 is "checked after 9"; "the second gives 1 to 9, 19 and 14"."""
    number = demand.acceptance_number(data)
    if number != 0:
        return number
    if not list_fits(losses, job.decode(data)):
        return 19
    return 14 if room < RESULT.size else 0


def result(house, lost):
    return RESULT.pack(*figures(house, lost))


def heads(data, losses, room):
    number = heads_number(data, losses, room)
    if number != 0:
        return number, None
    return 0, result(job.decode(data), decode(losses))
