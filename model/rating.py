"""A model of rating, written from document 01, without the code.

    rate(data, catalogue, sizes, room)  gives (0, result), or (number, None)
                                        with 1 to 14
    figures(data, catalogue, sizes)     the heads, and of each section flow, velocity and loss
    in_turn(data, catalogue, sizes)     the same by the two calls of document 02's request L3

The quoted sentences are those of "Rating and choosing" and L3.
"""

import struct

import catalogue
import heads
import job
import losses

# The result: the heads, "then velocity (2) and loss (4) per section"

RESULT_SECTION = struct.Struct(">HI")


def result_length(house):
    return heads.RESULT.size + house.S * RESULT_SECTION.size


def rate_number(data, catalogue_data, numbers, room):
    return losses.number(data, catalogue_data, numbers, room, result_length)


def figures(data, catalogue_data, numbers):
    house = job.decode(data)
    each = losses.figures(house, catalogue.decode(catalogue_data), numbers)
    return heads.figures(house, [lost for _, _, lost in each]), each


def rate(data, catalogue_data, numbers, room):
    number = rate_number(data, catalogue_data, numbers, room)
    if number != 0:
        return number, None
    head, each = figures(data, catalogue_data, numbers)
    return 0, heads.RESULT.pack(*head) + b"".join(
        RESULT_SECTION.pack(velocity, lost) for _, velocity, lost in each)


# Room for the longest result of any of the three calls.
AMPLE = 10 * job.SLOTS


def in_turn(data, catalogue_data, numbers):
    """Number and result by the two calls in turn, "with enough result space for each": the first
    one's number, or the second one's of the losses that the first one gave."""
    number, first = losses.losses(data, catalogue_data, numbers, AMPLE)
    if number != 0:
        return number, None
    number, second = heads.heads(data, heads.encode(losses.losses_in(first)), AMPLE)
    if number != 0:
        return number, None
    # Without its flow a section stands as in a rating.
    return 0, second + b"".join(
        first[at + 4:at + 10] for at in range(0, len(first), losses.RESULT_SECTION.size))
