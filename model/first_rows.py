"""Sizes read under, at and over their first row, with the figures by hand.

Each of READINGS is read at 140 ml/s, the flow of a basin on a wide main. Over 100 decimetres, with
k 3, a slope of 10 loses 13 cm. The comments have the figures before they are rounded up, and those
of a wrong reading that comes near: the slope from the rounded velocity, or the line through the
first two rows carried on below the first.
"""

from typing import NamedTuple

from edit import section
from houses import BASIN

# With a length of 100 decimetres; meter loss, elevation and free head are 850 cm, and G is 500.
SHORT_BASIN = section(BASIN, 1, length=100)


class Read(NamedTuple):
    name: str
    velocity: int
    loss: int  # over 100 decimetres
    rows: tuple


# The greatest row that a size can have.
LAST = (1_000_000, 65_535, 65_535)

READINGS = [
    # Velocity 141.99, slope 1,558.87, up to 1,559: 2,026.7. From velocity 142 the slope would be
    # 1,559.02, up to 1,560. The line carried on has 142.1 and 1,569.5.
    Read("flow one under the first row", 142, 2027, ((141, 143, 1570), (1000, 900, 2000))),
    Read("flow at the first row", 143, 2041, ((140, 143, 1570), (1000, 900, 2000))),
    # One of the 861 between the rows: velocity 143.88, slope 1,570.5: 2,042.3. From zero they would
    # be 144.03 and 1,581.3.
    Read("flow one over the first row", 144, 2043, ((139, 143, 1570), (1000, 900, 2000))),
    # 140 x 578 is 81 x 999 + 1 and 140 x 421 is 59 x 999 - 1. Slope 59 loses 76.7, slope 82 106.6.
    Read("velocity 1/999 over a whole number, slope 1/999 under one", 82, 77,
         ((999, 578, 421), (2000, 900, 900))),
    Read("velocity 1/999 under a whole number, slope 1/999 over one", 59, 107,
         ((999, 421, 578), (2000, 900, 900))),
    # 140 and 280, which loses 364.
    Read("velocity and slope whole", 140, 364, ((999, 999, 1998), (2000, 1100, 3000))),
    # 466.67, and slope 420, which loses 546. From velocity 467 the slope would be 420.3.
    Read("slope not from the rounded velocity", 467, 546, ((300, 1000, 900), (1000, 1500, 3000))),
    # 0.14, and slope 140, which loses 182. From velocity 1 the slope would be 1,000.
    Read("velocity under 1, slope 140", 1, 182, ((1000, 1, 1000), (2000, 2, 1500))),
    # 140, and slope 0.14, up to 1: 1.3.
    Read("velocity 140, slope under 1", 140, 2, ((1000, 1000, 1), (2000, 1500, 2))),
    # 140 x 7,142 is 999,880 and 140 x 7,143 is 1,000,020. Slope 1 loses 1.3 and slope 2 2.6.
    Read("velocity and slope come to 1", 1, 2, ((999_999, 7142, 7142), LAST)),
    Read("velocity comes to 1, slope just over 1", 1, 3, ((999_999, 7142, 7143), LAST)),
    Read("slope comes to 1, velocity just over 1", 2, 2, ((999_999, 7143, 7142), LAST)),
    Read("the least velocity and slope", 1, 2, ((999_999, 1, 1), LAST)),
    # 9.17, up to 10: 13.
    Read("the greatest first row", 10, 13, ((999_999, 65_535, 65_535), LAST)),
    # 350 and slope 14: 18.2. The line carried on has 380 and 8.
    Read("the line carried on below would be faster and flatter", 350, 19,
         ((200, 500, 20), (400, 900, 60))),
    # 112 and slope 5.6, up to 6: 7.8. The line carried on has 800 and 40.
    Read("the line carried on below would be level", 112, 8, ((1000, 800, 40), (3000, 800, 40))),
    # The same; the line carried on has -1,891,200 and -739,560.
    Read("the line carried on below would be under zero", 112, 8,
         ((1000, 800, 40), (1001, 3000, 900))),
    # 1,400 and slope 6. No limit is as great as the first row's velocity.
    Read("first row over every limit", 1400, 8, ((1000, 10_000, 40), (3000, 10_000, 40))),
    # No flow is under it. 139 of the 999 between the rows: velocity 112.2, slope 6.4, up to 7:
    # 9.1. From zero to the second row they would be 112 and 5.6.
    Read("first row at flow 1", 113, 10, ((1, 1, 1), (1000, 800, 40))),
    Read("first row at flow 1, level", 800, 52, ((1, 800, 40), (1000, 800, 40))),
]
