"""Vectors for the meter call; vectors.py tells their lines."""

import itertools
import random

import demand
import job
import meter
from edit import OWN, head, house, people, section, serving
from flow_vectors import (BATHS_BESIDE_BASINS, BATHS_OVER_BASINS, bath_and, end, flow_broken, inner,
                          random_house)
from houses import OWN_COLD, OWN_HOT, OWN_TOTAL, SERVICES, TWO_ENDS, chain, star
from vector import Call, Vector, buffer_line, lent, listed, room_of, stored_by, words

# Types of meters.
VANE, TURBINE = 1, 2


def meters(*each):
    """A list of meters given as (type, resistance, service flow)."""
    return b"".join(meter.METER.pack(*one) for one in each)


def metering(name, expect, offered, record=OWN, room=None, holds=None, lines=None):
    """A vector for the meter call; the room is that of the result unless given."""
    room = 1 + len(record) if room is None else room
    return Vector(name, (room.to_bytes(2, "big"), record, offered), expect, holds, "m", lines)


def won(name, place, loss, *offered, losses=None, **more):
    """A vector with a meter that wins, by its place and its loss, and where
    given the losses of all."""
    stated = [words("losses", losses)] if losses else []
    return metering(name, 0, meters(*offered), holds=set(),
                    lines=stated + [f"place {place} loss {loss}"], **more)


def refused(name, number, *offered, losses=None, **more):
    """A vector that one condition refuses; of 18, where given, the losses of all."""
    stated = [words("losses", losses)] if losses else None
    return metering(name, number, meters(*offered), holds={number}, lines=stated, **more)


# The own case: q 2,052 ml/s, mean hour 740 l/h. The loss is r x 4,210,704 / 100,000,000,
# up, so that 23 loses 96,846,192 / 100,000,000 and 24 loses 101,056,896 / 100,000,000.

def own(resistance, design=VANE, service=740):
    """A meter for the own case."""
    return design, resistance, service


# 26 of kind 1: q 1,000 ml/s, mean hour 434 l/h; the loss is r / 100, up.
THOUSAND = house([end(1, 100)], {1: 26})

# 9,306 of kind 12: q 10,000 ml/s, mean hour 7,755 l/h; the loss is r.
TEN_THOUSAND = house([end(12, 10_000)], {12: 9306})

# 4,000 of kind 8: the greatest q that a job has, 42,646 ml/s, and mean hour 50,000 l/h. Its
# square is 1,818,681,316: the loss is r x 18.18681316, up.
GREATEST = house([end(8, 4000)], {8: 4000})

# 1 of kind 12: q 140 ml/s, mean hour 1 l/h; the loss is r x 19,600 / 100,000,000, up.
LEAST = house([end(12, 65535)], {12: 1})

# A job whose meter loss, G, H and limit have eight different bytes.
VARIED = head(OWN, k=2, T=24, meter=0x0102, G=0x0304, H=0x0506, limit=0x0708)


# Examples

# Document 001, appendix 6, as far as 5 bytes hold it: bores 20 to 100 mm. Resistances
# 264e-5 and 76.6e-5 m per (l/s) squared are 26.4 and 7.66 ten-thousandths, and go up.
APPENDIX_6 = [
    (VANE, 51_800, 2000), (VANE, 26_400, 2800), (VANE, 13_000, 4000), (VANE, 5000, 6400),
    (TURBINE, 1430, 12_000), (TURBINE, 81, 17_000), (TURBINE, 27, 36_000), (TURBINE, 8, 65_000),
]


def examples():
    """The own case at appendix 6: 0.5 x 2.052 x 2.052 is 2.105 m, and 0.143 is 0.602 m.
    The dwelling of document 004's example 1 has q 2,168 and mean hour 1,817."""
    dwelling = house([end(1, 124)], {1: 109})
    return [
        won("document 01's own case, resistances 2 and 1", 1, 1, own(2), own(1), losses=(1, 1)),
        won("document 001, appendix 6, own case", 8, 1, *APPENDIX_6,
            losses=(2182, 1112, 548, 211, 61, 4, 2, 1)),
        won("document 001, appendix 6, from the last to the first", 1, 1, *APPENDIX_6[::-1]),
        won("document 001, appendix 6, vane meters alone", 4, 211, *APPENDIX_6[:4]),
        won("document 001, appendix 6, up to 50 mm", 5, 61, *APPENDIX_6[:5]),
        refused("document 001, appendix 6, up to 32 mm", 18, *APPENDIX_6[:3],
                losses=(2182, 1112, 548)),
        won("document 001, appendix 6, dwelling of 109", 4, 236, *APPENDIX_6[:4], record=dwelling,
            losses=(2435, 1241, 612, 236)),
        # 42.646 squared is 1,818.68: 0.143 of it is 260.07 m, 0.0081 is 14.73 m, 0.0027 is
        # 4.91 m and 0.0008 is 1.455 m.
        won("document 001, appendix 6, the greatest flow", 8, 146, *APPENDIX_6, record=GREATEST,
            losses=(942_077, 480_132, 236_429, 90_935, 26_008, 1474, 492, 146)),
        # 5,000 x 19,600 is 98,000,000.
        won("document 001, appendix 6, the least flow", 4, 1, *APPENDIX_6, record=LEAST,
            losses=(11, 6, 3, 1, 1, 1, 1, 1)),
    ]


# 17

def list_lengths():
    """Lists of meters that all qualify, cut or lengthened."""
    nine = meters(*[own(1)] * 9)
    whole = [won(f"{count} meters, {5 * count} bytes", 1, 1, *[own(1)] * count)
             for count in range(1, 9)]
    return [metering(f"list of {length} bytes", 17, nine[:length], holds={17})
            for length in (0, 1, 4, 6, 9, 11, 14, 36, 39, 41, 44, 45)] + whole + [
        metering("list of 80 bytes", 17, nine + nine[:35], holds={17}),
        metering("list of 1280 bytes, 256 meters", 17, nine[:5] * 256, holds={17}),
        metering("list of 1285 bytes, 257 meters", 17, nine[:5] * 257, holds={17}),
        metering("list of 1 byte more, a 0", 17, nine[:5] + b"\0", holds={17}),
        metering("own case's job as the list", 17, OWN, holds={17}),
    ]


def list_values():
    """Each field at the ends of its range, in the only meter and in the last of
    eight, where the first one qualifies."""
    before = [own(1)] * 7
    wrong = [("type 0", own(1, 0)), ("type 3", own(1, 3)), ("type 255", own(1, 255)),
             ("type 129", own(1, 129)), ("type 49, the figure 1 in ASCII", own(1, 49)),
             ("resistance 0", own(0)), ("service flow 0", own(1, service=0)),
             ("resistance and service flow 0", own(0, service=0))]
    return [refused(name, 17, each) for name, each in wrong] + [
        refused(f"{name} in the last of eight", 17, *before, each) for name, each in wrong] + [
        refused(f"{name} in the first of two", 17, each, own(1)) for name, each in wrong] + [
        won("type 1", 1, 1, own(1, VANE)),
        won("type 2", 1, 1, own(1, TURBINE)),
        won("resistance 1", 1, 1, own(1)),
        # 256 x 4,210,704 is 1,077,940,224; 5,888 is 0x1700 and loses 247.93 cm.
        won("resistance 256, its low byte 0", 1, 11, own(256)),
        won("resistance 5888, its low byte 0", 1, 248, own(5888, TURBINE)),
        refused("resistance 65535", 18, own(65_535), losses=[2760]),
        won("resistance 65535 at the least flow", 1, 13, own(65_535), record=LEAST),
        refused("service flow 1", 18, own(1, service=1)),
        won("service flow 1 at a mean hour of 1", 1, 1, own(1, service=1), record=LEAST),
        won("service flow 768, its low byte 0", 1, 1, own(1, service=768)),
        refused("service flow 256, its low byte 0", 18, own(1, service=256)),
        won("service flow 65535", 1, 1, own(1, service=65_535)),
    ]


# The limits

def loss_limits():
    """11,874 x 4,210,704 is 49,997,899,296 and 11,875 gives 50,002,110,000; 5,937 gives
    24,998,949,648 and 5,938 gives 25,003,160,352."""
    return [
        won("vane, loss 499.98 up to 500", 1, 500, own(11_874)),
        refused("vane, loss 500.02 up to 501", 18, own(11_875), losses=[501]),
        won("turbine, loss 249.99 up to 250", 1, 250, own(5937, TURBINE)),
        refused("turbine, loss 250.03 up to 251", 18, own(5938, TURBINE), losses=[251]),
        won("vane, loss 251", 1, 251, own(5938, VANE)),
        refused("turbine, loss 500", 18, own(11_874, TURBINE), losses=[500]),
        won("vane, loss of just 500", 1, 500, (VANE, 50_000, 434), record=THOUSAND),
        refused("vane, loss 500.01", 18, (VANE, 50_001, 434), record=THOUSAND, losses=[501]),
        won("turbine, loss of just 250", 1, 250, (TURBINE, 25_000, 434), record=THOUSAND),
        refused("turbine, loss 250.01", 18, (TURBINE, 25_001, 434), record=THOUSAND,
                losses=[251]),
        won("loss of just 1", 1, 1, (VANE, 100, 434), record=THOUSAND),
        won("loss 1.01", 1, 2, (VANE, 101, 434), record=THOUSAND),
        won("vane 500, every loss whole", 1, 500, (VANE, 500, 7755), record=TEN_THOUSAND),
        refused("vane 501, every loss whole", 18, (VANE, 501, 7755), record=TEN_THOUSAND),
        won("turbine 250, every loss whole", 1, 250, (TURBINE, 250, 7755), record=TEN_THOUSAND),
        refused("turbine 251, every loss whole", 18, (TURBINE, 251, 7755), record=TEN_THOUSAND),
    ]


def service_limits():
    """The own case's day is 17,750 l: 739.58 an hour over 24 hours, 1,775 over 10, 772
    over 23 (771.74). Of kind 11 4,096 take 65,536 l a day; of kinds 11 and 10 4,095 and 1
    take 65,535. The greatest hour, 4,542 l/h, has no part."""
    most = head(house([end(11, 4000), end(10, 300)], {11: 4095, 10: 1}), T=1)
    over = head(house([end(11, 4000)], {11: 4096}), T=1)
    far = house([end(1, 4000)], {1: 6000})
    return [
        won("own case, service flow 740", 1, 1, own(1, service=740)),
        refused("own case, service flow 739", 18, own(1, service=739), losses=[1]),
        refused("own case, turbine, service flow 739", 18, own(1, TURBINE, 739)),
        won("own case, service flow 741", 1, 1, own(1, service=741)),
        won("own case, T 10, service flow 1775", 1, 1, own(1, service=1775),
            record=head(OWN, T=10)),
        refused("own case, T 10, service flow 1774", 18, own(1, service=1774),
                record=head(OWN, T=10)),
        won("own case, T 23, service flow 772", 1, 1, own(1, service=772), record=head(OWN, T=23)),
        refused("own case, T 23, service flow 771", 18, own(1, service=771),
                record=head(OWN, T=23)),
        refused("own case, T 1, service flow 17749", 18, own(1, service=17_749),
                record=head(OWN, T=1)),
        won("own case, T 1, service flow 17750", 1, 1, own(1, service=17_750),
            record=head(OWN, T=1)),
        won("mean hour 65535, service flow 65535", 1, 1, (VANE, 1, 65_535), record=most),
        refused("mean hour 65536, service flow 65535", 18, (VANE, 1, 65_535), record=over),
        refused("mean hour 65536, service flow 1", 18, (VANE, 1, 1), record=over),
        # 100,000 - 65,536 is 34,464.
        refused("mean hour 100000, service flow 34464", 18, (VANE, 1, 34_464), record=far),
        refused("mean hour 100000, service flow 65535", 18, (VANE, 1, 65_535), record=far),
    ]


# Which one wins

def ties():
    """In the own case resistances 1 to 23 lose 1 cm, 24 to 47 lose 2."""
    return [
        won("resistances 2 and 1", 1, 1, own(2), own(1), losses=(1, 1)),
        won("resistances 1 and 2", 1, 1, own(1), own(2), losses=(1, 1)),
        won("resistances 23 and 1", 1, 1, own(23), own(1), losses=(1, 1)),
        won("resistances 24 and 23", 2, 1, own(24), own(23), losses=(2, 1)),
        won("resistances 23 and 24", 1, 1, own(23), own(24), losses=(1, 2)),
        won("three lose 1", 1, 1, own(12), own(23), own(1), losses=(1, 1, 1)),
        won("three lose 1, two after a greater loss", 2, 1, own(24), own(23), own(1), own(12)),
        won("the second and the third lose 1, the third with less service flow", 2, 1,
            own(100), own(9, service=60_000), own(9, service=740)),
        won("two equal meters", 1, 1, own(7), own(7)),
        won("turbine, then vane, both lose 1", 1, 1, own(2, TURBINE), own(1, VANE)),
        won("vane, then turbine, both lose 1", 1, 1, own(2, VANE), own(1, TURBINE)),
        won("vane, then turbine, both lose 250", 1, 250, own(5936, VANE), own(5937, TURBINE),
            losses=(250, 250)),
        won("turbine, then vane, both lose 250", 1, 250, own(5937, TURBINE), own(5936, VANE),
            losses=(250, 250)),
        won("turbine, then vane, both lose 251", 2, 251, own(5938, TURBINE), own(5938, VANE),
            losses=(251, 251)),
        won("eight lose 1", 1, 1, *[own(r) for r in (23, 1, 22, 2, 21, 3, 20, 4)]),
        won("two lose 1, the first without the service flow", 2, 1, own(1, service=739), own(2)),
        won("three lose 1, the second with the service flow", 2, 1, own(1, service=739), own(3),
            own(2)),
        won("two lose 500, 499.98 and 499.94", 1, 500, own(11_874), own(11_873),
            losses=(500, 500)),
        won("two lose 2, of just 2 and of 1.01", 1, 2, (VANE, 200, 434), (VANE, 101, 434),
            record=THOUSAND, losses=(2, 2)),
    ]


def least_out():
    """The meter of least loss does not qualify, and another one wins."""
    return [
        won("the least loss without the service flow", 2, 43, own(1, service=739), own(1000)),
        won("the two least losses without the service flow", 3, 11, own(1, service=739),
            own(24, TURBINE, 1), own(256)),
        won("a turbine loses 253, a vane 400", 2, 400, own(6000, TURBINE), own(9480, VANE),
            losses=(253, 400)),
        won("a vane loses 400, a turbine 253", 1, 400, own(9480, VANE), own(6000, TURBINE),
            losses=(400, 253)),
        won("a turbine loses 251, a vane 500", 1, 500, own(11_874, VANE), own(5938, TURBINE)),
        won("a turbine loses 250, a vane 250 and one 249", 3, 249, own(5937, TURBINE),
            own(5937, VANE), own(5900, TURBINE), losses=(250, 250, 249)),
        won("a meter of more service flow than the first loses more", 2, 211,
            own(1430, TURBINE, 700), own(5000, VANE, 6400)),
        refused("the least loss without the service flow, the other loses too much", 18,
                own(1, service=739), own(11_875), losses=(1, 501)),
        refused("a turbine over its limit, a vane without the service flow", 18,
                own(5938, TURBINE, 65_535), own(5938, VANE, 739), losses=(251, 251)),
        refused("eight that break one limit each", 18, own(5938, TURBINE), own(11_875),
                own(1, service=739), own(1, TURBINE, 1), own(65_535), own(65_535, TURBINE),
                own(11_874, TURBINE), own(5938, service=739)),
    ]


def eight_at(place):
    """Eight meters whose losses fall up to the place and rise behind it: 22, 43,
    64 cm and so on, of resistances 500, 1,000, 1,500."""
    return [own(500 + 500 * abs(each - place), TURBINE if each % 2 else VANE)
            for each in range(1, 9)]


def places():
    return [won(f"eight meters, the least loss at place {place}", place, 22, *eight_at(place))
            for place in range(1, 9)] + [
        won(f"eight meters, only place {place} qualifies", place, 500,
            *[own(11_874 if each == place else 11_875) for each in range(1, 9)])
        for place in range(1, 9)] + [
        won(f"eight meters, only place {place} has the service flow", place, 1,
            *[own(1, TURBINE, 740 if each == place else 739) for each in range(1, 9)])
        for place in (1, 4, 8)]


# The house's flow

def pump_sections():
    """The house's flow is no section's where several hang on the pump: 20 and 60 fixtures
    have 979 and 1,739 ml/s, the house 2,052. At 1,739 the resistance 11,875 loses 359.11,
    at 979 113.82, at their sum 877.27."""
    two = house([end(7, 20), end(7, 60)], {7: 71})
    under = house([inner(), end(7, 20, 1), end(7, 60, 1)], {7: 71})
    four = house([end(7, 80), end(3, 90), end(12, 300), end(1, 50)],
                 {1: 40, 3: 60, 7: 71, 12: 500})
    many = house([end(8, 65535)] * 63, {8: 4000})
    return [
        won("20 and 60 fixtures at the pump", 1, 500, own(11_874), record=two),
        refused("20 and 60 fixtures at the pump, loss 501", 18, own(11_875), record=two,
                losses=[501]),
        won("20 and 60 fixtures at the pump, turbine", 1, 250, own(5937, TURBINE), record=two),
        won("the same under a section", 1, 500, own(11_874), record=under),
        # 3,208 squared is 10,291,264: 4,858 gives 499.95 and 4,859 gives 500.05. The sections
        # have 2,052, 969, 1,201 and 1,240 ml/s.
        won("four kinds at the pump", 1, 500, (VANE, 4858, 2223), record=four),
        refused("four kinds at the pump, loss 501", 18, (VANE, 4859, 2223), record=four,
                losses=[501]),
        refused("four kinds at the pump, service flow 2222", 18, (VANE, 4858, 2222), record=four),
        # 27 x 18.18681316 is 491.04, 28 gives 509.23. Each of the sections has 2,002 ml/s.
        won("star of 63 with the most fixtures", 1, 492, (VANE, 27, 50_000), record=many),
        refused("star of 63 with the most fixtures, resistance 28", 18, (VANE, 28, 50_000),
                record=many, losses=[510]),
    ]


def one_tap():
    """Where one tap sets the house's flow, 300 ml/s, the loss is r x 9 / 10,000; by document 01
    alone, 240 ml/s, it would be r x 5.76 / 10,000. No meter fails by its loss there: the greatest
    resistance loses 58.98. The mean hour is 7 l/h whatever the flow is."""
    def won_there(name, place, loss, *offered, record=BATHS_OVER_BASINS, **more):
        return won(name, place, loss, *offered, record=record, **more)
    return [
        # By 240 ml/s both would lose 1, of 0.979 and 0.634.
        won_there("one tap: losses 1.53 and 0.99, the second wins", 2, 1, (VANE, 1700, 7),
                  (VANE, 1100, 7), losses=(2, 1)),
        won_there("one tap: losses 0.99 and 1.53, the first wins", 1, 1, (VANE, 1100, 7),
                  (VANE, 1700, 7), losses=(1, 2)),
        won_there("one tap: losses 1.35, 1.53 and 0.99, the third wins", 3, 1, (VANE, 1500, 7),
                  (TURBINE, 1700, 7), (TURBINE, 1100, 7), losses=(2, 2, 1)),
        won_there("one tap: resistance 1111", 1, 1, (VANE, 1111, 7)),
        won_there("one tap: resistance 1112", 1, 2, (VANE, 1112, 7)),
        won_there("one tap: the greatest resistance", 1, 59, (TURBINE, 65_535, 7)),
        refused("one tap: service flow 6", 18, (VANE, 1100, 6), record=BATHS_OVER_BASINS,
                losses=[1]),
        won_there("one tap in the house and in no section", 2, 1, (VANE, 1700, 7),
                  (VANE, 1100, 7), losses=(2, 1), record=BATHS_BESIDE_BASINS),
        # 358 squared is 128,164: 0.99968 and 1.00096. By section 1, 300 ml/s, both would lose 1.
        won_there("one tap in a section and not in the house", 2, 1, (VANE, 781, 26),
                  (VANE, 780, 26), losses=(2, 1), record=bath_and(40)),
    ]


def wide_losses():
    """Losses that 16 bits don't hold; 32 bits hold resistance x q x q up to 42.94 cm, and
    the greatest is 119,187,280,044,060."""
    return [
        refused("the greatest loss of all", 18, (VANE, 65_535, 65_535), record=GREATEST,
                losses=[1_191_873]),
        # 65,545.28 up is 65,536 + 10; 3,603 x 18.18681316 is 65,527.09.
        refused("loss 65546", 18, (VANE, 3604, 65_535), record=GREATEST, losses=[65_546]),
        refused("loss 65528", 18, (VANE, 3603, 65_535), record=GREATEST, losses=[65_528]),
        won("loss 65546, then 182", 2, 182, (VANE, 3604, 65_535), (VANE, 10, 65_535),
            record=GREATEST),
        # 131,072 is two times 65,536: 7,207 loses 131,072.36, which goes up to 131,073.
        won("loss 131073, then 492", 2, 492, (TURBINE, 7207, 65_535), (VANE, 27, 65_535),
            record=GREATEST, losses=(131_073, 492)),
        # 26 x 18.18681316 is 472.86, 13 gives 236.43.
        won("loss 473", 1, 473, (VANE, 26, 50_000), record=GREATEST),
        refused("turbine, loss 473", 18, (TURBINE, 26, 50_000), record=GREATEST),
        won("loss 237, turbine", 1, 237, (TURBINE, 13, 50_000), record=GREATEST),
        refused("service flow 49999", 18, (VANE, 26, 49_999), record=GREATEST),
        won("turbine, resistance 65535 at the least flow", 1, 13, (TURBINE, 65_535, 1),
            record=LEAST),
        # 12.84, 12.00 and 11.76 cm.
        won("three at the least flow", 3, 12, (VANE, 65_535, 1), (VANE, 61_225, 1),
            (VANE, 60_000, 1), record=LEAST, losses=(13, 13, 12)),
        won("loss 12.00 and less", 1, 12, (VANE, 61_224, 1), (VANE, 60_000, 1), record=LEAST,
            losses=(12, 12)),
    ]


# The record

def own_record(loss):
    """The own case with another meter loss, in hex."""
    return ("0000003201030118" f"{loss:04x}" "01f404b005dc"
            "000000000000000000000000004700000000000000000000000700500064025800c8")


def records():
    """The meter loss that the job has plays no part, and no other byte differs."""
    alike = [metering(f"own case, meter loss {loss}", 0, meters(own(2), own(1)), holds=set(),
                      record=head(OWN, meter=loss), lines=["meter 0 01" + own_record(1)])
             for loss in (0, 1, 49, 50, 255, 256, 500, 999, 1000)]
    lost = [metering(f"own case, resistance {r}", 0, meters(own(65_535), own(r)), holds=set(),
                     lines=["meter 0 02" + own_record(loss)])
            # 6,055 x 4,210,704 is 25,495,812,720 and 6,056 gives 25,500,023,424: the loss passes
            # from one byte to two.
            for r, loss in ((1, 1), (6055, 255), (6056, 256), (6080, 257), (11_874, 500))]
    return alike + lost + [
        won("own case, meter loss 1000, loss 500", 1, 500, own(11_874),
            record=head(OWN, meter=1000)),
        won("own case, meter loss 0, loss 500", 1, 500, own(11_874), record=head(OWN, meter=0)),
        refused("own case, meter loss 1001", 3, own(1), record=head(OWN, meter=1001)),
        refused("own case, meter loss 0, no meter", 18, own(11_875), record=head(OWN, meter=0)),
        refused("own case, meter loss 1000, no meter", 18, own(11_875),
                record=head(OWN, meter=1000)),
        won("own case, eight different bytes from the meter loss on", 1, 1, own(1), record=VARIED),
        won("own case, H 0, G 0, limit 1", 1, 1, own(1), record=head(OWN, H=0, G=0, limit=1)),
        won("own case, H and G 6000, limit 3000", 1, 1, own(1),
            record=head(OWN, H=6000, G=6000, limit=3000)),
        won("own case with another section", 1, 1, own(1),
            record=section(OWN, 1, fixtures=65535, length=1, elevation=-1000, free=0)),
        won("chain of 63", 2, 211, own(65_535), own(5000), record=chain(63)),
    ]


# Rooms

def rooms():
    """The result has 1 byte more than the job."""
    pair, done = (own(2), own(1)), "meter 0 01" + own_record(1)
    return [
        metering("own case, room 51", 0, meters(*pair), room=51, holds=set(), lines=[done]),
        metering("own case, room 50", 14, meters(*pair), room=50, holds={14},
                 lines=["meter 14 " + 50 * "a5"]),
        metering("own case, room 52", 0, meters(*pair), room=52, holds=set(),
                 lines=[done + "a5"]),
        metering("own case, room 60", 0, meters(*pair), room=60, holds=set(),
                 lines=[done + 9 * "a5"]),
        won("own case, room 1000", 1, 1, *pair, room=1000),
        refused("own case, room 49", 14, *pair, room=49),
        refused("own case, room 10", 14, *pair, room=10),
        refused("own case, room 1", 14, *pair, room=1),
        metering("own case, room 0", 14, meters(*pair), room=0, holds={14},
                 lines=["meter 14 "]),
        won("chain of 63, room 671", 1, 1, *pair, record=chain(63), room=671),
        refused("chain of 63, room 670", 14, *pair, record=chain(63), room=670),
        won("chain of 63, room 1000", 1, 1, *pair, record=chain(63), room=1000),
        metering("own case, no meter, room 51", 18, meters(own(11_875)), room=51, holds={18},
                 lines=["meter 18 " + 51 * "a5"]),
        metering("own case, a list of 4 bytes, room 51", 17, meters(own(1))[:4], room=51,
                 holds={17}, lines=["meter 17 " + 51 * "a5"]),
    ]


# Order

def order_list(numbers):
    """A list for which 17 or 18 holds, or neither; 18 is not asked of a list
    that breaks the rules."""
    if 17 in numbers:
        return meters(own(1, 3))
    return meters(own(1, service=1) if 18 in numbers else own(1))


ORDER = {
    1: [{1}, {1, 14}, {1, 17}, {1, 2, 3, 4, 5, 6, 7, 8, 9, 14, 17}],
    2: [{2}, {2, 17}], 3: [{3}, {3, 17}], 4: [{4}, {4, 17}], 5: [{5}, {5, 17}],
    6: [{6}, {6, 17}], 7: [{7}, {7, 17}, {7, 8, 9, 14, 17}],
    8: [{8}, {8, 9}, {8, 17}, {8, 14}],
    9: [{9}, {9, 17}, {9, 14}, {9, 14, 17}],
    17: [{17}, {14, 17}],
    14: [{14}, {14, 18}],
    18: [{18}],
}


def order():
    """17 comes after 9 and before 14, and 18 after 14."""
    return [metering(listed(each), expect, order_list(each), record=flow_broken(each), holds=each,
                     room=60 if 14 in each else 62)
            for expect, sets in ORDER.items() for each in sets] + [
        metering("17 and 14, and no meter would qualify", 17,
                 meters(own(65_535), own(1, 3, 1)), room=50, holds={14, 17}),
        metering("17 and 14, nothing offered", 17, b"", room=0, holds={14, 17}),
        metering("14 and 18, room 0", 14, meters(own(1, service=1)), room=0, holds={14, 18}),
        metering("14 and 18, both limits broken", 14, meters(own(65_535, TURBINE, 1)), room=50,
                 holds={14, 18}),
        metering("nothing lent at all", 1, b"", record=b"", room=0),
    ]


def refusals():
    """8 and 9 are the flow call's, those of the hour and of a section among them."""
    return [
        metering("empty record", 1, meters(own(1)), record=b"", room=51),
        metering("S 64 in its length", 3, meters(own(1)), record=star(64)),
        refused("m 111138889, hour sum 400100000", 8, own(1),
                record=house([end(8, 4001)], {8: 4001})),
        refused("own case, 18 fixtures: m and hour sum over", 9, own(1),
                record=section(OWN, 1, fixtures=18)),
        refused("own case, 70 fixtures: only the hour sum over", 9, own(1),
                record=section(OWN, 1, fixtures=70)),
        won("own case, 71 fixtures", 1, 1, own(1), record=section(OWN, 1, fixtures=71)),
        refused("kind 11 in ends of 50 and 200: only section 1 over", 9, (VANE, 1, 65_535),
                record=house([end(11, 50), end(11, 200)], {11: 3200})),
        refused("residents of another kind", 7, own(1), record=people(OWN, {1: 1})),
        refused("kind 13 in section 2", 5, own(1), record=section(TWO_ENDS, 2, kind=13)),
    ]


# Hot and cold lines

# The own case's lines, as line_vectors.py derives them: hot q 1,206 ml/s, whose square is
# 1,454,436, and mean hour 444 l/h; cold 1,112, 1,236,544 and 296. By the total norms 2,052 and 740.

def line_record(service, loss):
    """The own case in version 2 with another meter loss, in hex."""
    return ("0000003302030118" f"{loss:04x}" "01f404b005dc"
            "000000000000000000000000004700000000000000000000" f"{service:02x}"
            "000700500064025800c8")


def services():
    """The record that is written keeps version and service."""
    found = [metering(f"own case, {name}, in bytes", 0, meters(own(2), own(1)), holds=set(),
                      record=serving(OWN, service), lines=["meter 0 01" + line_record(service, 1)])
             for service, name in SERVICES.items()]
    return found + [
        # 68 x 1,454,436 is 98,901,648 and 69 gives 100,356,084; 34,377 gives 49,999,146,372 and
        # 34,378 gives 50,000,600,808; 17,188 gives 24,998,845,968 and 17,189 gives 25,000,300,404.
        won("own case, hot, loss 0.99", 1, 1, own(68), record=OWN_HOT, losses=[1]),
        won("own case, hot, loss 1.004", 1, 2, own(69), record=OWN_HOT, losses=[2]),
        won("own case, hot, vane, loss 500", 1, 500, own(34_377), record=OWN_HOT),
        refused("own case, hot, vane, loss 501", 18, own(34_378), record=OWN_HOT, losses=[501]),
        won("own case, hot, turbine, loss 250", 1, 250, own(17_188, TURBINE), record=OWN_HOT),
        refused("own case, hot, turbine, loss 251", 18, own(17_189, TURBINE), record=OWN_HOT),
        # 40,435 x 1,236,544 is 49,999,656,640 and 40,436 gives 50,000,893,184.
        won("own case, cold, vane, loss 500", 1, 500, own(40_435), record=OWN_COLD),
        refused("own case, cold, vane, loss 501", 18, own(40_436), record=OWN_COLD, losses=[501]),
        refused("own case, total in version 2, vane, loss 501", 18, own(11_875), record=OWN_TOTAL,
                losses=[501]),
        won("own case, hot, service flow 444", 1, 1, own(1, service=444), record=OWN_HOT),
        refused("own case, hot, service flow 443", 18, own(1, service=443), record=OWN_HOT),
        won("own case, cold, service flow 296", 1, 1, own(1, service=296), record=OWN_COLD),
        refused("own case, cold, service flow 295", 18, own(1, service=295), record=OWN_COLD),
        refused("own case, total in version 2, service flow 739", 18, own(1, service=739),
                record=OWN_TOTAL),
        won("own case, total in version 2, service flow 740", 1, 1, own(1), record=OWN_TOTAL),
        won("document 001, appendix 6, own case, hot", 7, 1, *APPENDIX_6, record=OWN_HOT,
            losses=(754, 384, 190, 73, 21, 2, 1, 1)),
        # 200 ml/s on the hot line: r / 2,500, and a mean hour of 3.5 l/h.
        won("one tap, hot: resistances 2501 and 2500", 2, 1, (VANE, 2501, 4), (VANE, 2500, 4),
            record=serving(BATHS_OVER_BASINS, 2), losses=(2, 1)),
        refused("one tap, hot: service flow 3", 18, (VANE, 2500, 3),
                record=serving(BATHS_OVER_BASINS, 2)),
    ]


def line_rooms():
    """The result has 1 byte more than the job, which has 51 bytes here."""
    pair, done = (own(2), own(1)), "meter 0 01" + line_record(2, 1)
    return [
        metering("own case, hot, room 52", 0, meters(*pair), record=OWN_HOT, room=52, holds=set(),
                 lines=[done]),
        metering("own case, hot, room 51", 14, meters(*pair), record=OWN_HOT, room=51, holds={14},
                 lines=["meter 14 " + 51 * "a5"]),
        metering("own case, hot, room 53", 0, meters(*pair), record=OWN_HOT, room=53, holds=set(),
                 lines=[done + "a5"]),
        won("chain of 63, hot, room 672", 1, 1, *pair, record=serving(chain(63), 2), room=672),
        refused("chain of 63, hot, room 671", 14, *pair, record=serving(chain(63), 2), room=671),
        won("own case, hot, meter loss 1000", 1, 1, *pair, record=head(OWN_HOT, meter=1000)),
        refused("own case, hot, meter loss 1001", 3, *pair, record=head(OWN_HOT, meter=1001)),
    ]


def line_order():
    sets = [(expect, each) for expect, found in ORDER.items() for each in found if 2 not in each]
    return [metering(f"{listed(each)}, {SERVICES[service]}", expect, order_list(each),
                     record=flow_broken(each, service), holds=each, room=61 if 14 in each else 62)
            for (expect, each), service in zip(sets, itertools.cycle(SERVICES))] + [
        refused("service 3", 3, own(1), record=serving(OWN, 3)),
        metering("version 2 in 50 bytes", 4, meters(own(1)), record=head(OWN, version=2)),
        refused("own case, 70 fixtures, version 2", 9, own(1),
                record=section(OWN_TOTAL, 1, fixtures=70)),
        won("own case, 70 fixtures, hot", 1, 1, own(1), record=section(OWN_HOT, 1, fixtures=70)),
        refused("own case, 56 fixtures, hot", 9, own(1), record=section(OWN_HOT, 1, fixtures=56)),
    ]


# Random houses

def random_meter(rng, q, mean, most=600, short=1):
    """A meter that loses about as much as it may, or less, and whose service flow
    is at the mean hour, over it or so much under it."""
    resistance = rng.randint(1, most) * 10 ** 8 // (q * q)
    service = mean + rng.choice((-short, 0, 0, 1000))
    return (rng.randint(1, 2), min(max(resistance, 1), 65_535), min(max(service, 1), 65_535))


def random_meters(rng, record):
    """Up to eight meters, and among them one that qualifies."""
    found = job.decode(record)
    q, mean = demand.house_flow(found), demand.mean_hour(found)
    others = [random_meter(rng, q, mean) for _ in range(rng.randrange(8))]
    others.insert(rng.randrange(len(others) + 1), random_meter(rng, q, mean, 250, 0))
    return meters(*others)


def random_houses():
    """24 hours, so that the mean hour is at most 65,535."""
    rng = random.Random(1)
    counts = [1, 1, 2, 3, 4, 5] + [rng.randint(6, 40) for _ in range(24)]
    records = [head(random_house(rng, count), T=24) for count in counts]
    return [metering(f"random house {i}, {record[6]} sections", 0, random_meters(rng, record),
                     record=record, holds=set())
            for i, record in enumerate(records, start=1)]


def random_lines():
    rng = random.Random(8)
    counts = [1, 2, 3] + [rng.randint(4, 40) for _ in range(9)]
    services_in_turn = zip(counts, itertools.cycle(SERVICES))
    records = [head(serving(random_house(rng, count, service), service), T=24)
               for count, service in services_in_turn]
    return [metering(f"random house {i}, {record[6]} sections, {SERVICES[record[40]]}", 0,
                     random_meters(rng, record), record=record, holds=set())
            for i, record in enumerate(records, start=1)]


GROUPS = [
    ("meter, examples", examples), ("meter, lengths of lists", list_lengths),
    ("meter, values", list_values), ("meter, most losses", loss_limits),
    ("meter, service flows", service_limits), ("meter, ties", ties),
    ("meter, the least loss left out", least_out), ("meter, places", places),
    ("meter, sections at the pump", pump_sections), ("meter, one tap", one_tap),
    ("meter, wide losses", wide_losses),
    ("meter, records", records), ("meter, room", rooms), ("meter, order", order),
    ("meter, refusals", refusals), ("meter, services", services),
    ("meter, version 2, room", line_rooms), ("meter, version 2, order", line_order),
    ("meter, random houses", random_houses), ("meter, random houses of lines", random_lines),
]


# The answers

def figure_lines(record, offered):
    """What each meter loses; of a job and a list that nothing was found in."""
    found = job.decode(record)
    return [words("house", (demand.house_flow(found), demand.mean_hour(found))),
            words("losses", meter.losses(offered, found).values())]


def meter_lines(parts):
    room, record, offered = parts
    number, result = meter.meter(record, offered, room_of(room))
    answer = [buffer_line("meter", (number, result), room_of(room))]
    if number not in (0, 18):
        return answer
    answer += figure_lines(record, offered)
    if number == 18:
        return answer
    place, loss = meter.winner(offered, job.decode(record))
    return answer + [f"place {place} loss {loss}"]


CALLS = {"m": Call("meter", lent, meter_lines, stored_by(meter.meter))}
