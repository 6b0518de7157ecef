"""Edits of job records, by the offsets of document 01 and of document 02's request L4."""

# Document 01's own case: k 3, S 1, T 24, meter 50, G 500, H 1,200,
# limit 1,500, 71 of kind 7; one section.
OWN = bytes.fromhex(
    "0000003201030118003201f404b005dc"
    "00000000000000000000000000470000"
    "0000000000000000"
    "000700500064025800c8"
)

# Offset and size of each field.
HEAD_FIELDS = {
    "stated": (0, 4), "version": (4, 1), "k": (5, 1), "S": (6, 1), "T": (7, 1),
    "meter": (8, 2), "G": (10, 2), "H": (12, 2), "limit": (14, 2),
}
SECTION_FIELDS = {
    "parent": (0, 1), "kind": (1, 1), "fixtures": (2, 2),
    "length": (4, 2), "elevation": (6, 2), "free": (8, 2),
}


def put(record, offset, size, value):
    """The record with one number set; below 0 in two's complement."""
    field = (value % 256 ** size).to_bytes(size, "big")
    return record[:offset] + field + record[offset + size:]


def head(record, **values):
    """The record with head fields set, and nothing else."""
    for name, value in values.items():
        record = put(record, *HEAD_FIELDS[name], value)
    return record


def sections_from(record):
    """Where the sections begin; version 2 has its service at 40."""
    return 41 if record[4] == 2 else 40


def section(record, number, **values):
    """The record with fields of one section set, and nothing else."""
    start = sections_from(record) + 10 * (number - 1)
    for name, value in values.items():
        offset, size = SECTION_FIELDS[name]
        record = put(record, start + offset, size, value)
    return record


def kind_of(record, number):
    """The kind of one section."""
    return record[sections_from(record) + 10 * (number - 1) + 1]


def people(record, residents):
    """The record with residents set, given as {kind: number}."""
    for kind, number in residents.items():
        record = put(record, 14 + 2 * kind, 2, number)
    return record


def stating(record):
    """The record with its length field set to its length."""
    return head(record, stated=len(record))


def house(sections, residents):
    """The own case with other sections, given as tuples in the order of the
    layout, and with only the given residents."""
    record = OWN[:16] + bytes(24 + 10 * len(sections))
    record = head(people(record, residents), S=len(sections))
    for number, values in enumerate(sections, start=1):
        record = section(record, number, **dict(zip(SECTION_FIELDS, values)))
    return stating(record)


def serving(record, service):
    """The record of version 2 with this service, of one of version 1."""
    return stating(head(record[:40] + bytes([service]) + record[40:], version=2))


def fields(record, room, more=b""):
    """The writer's raw fields: the room, version and service, then the record
    from k to its residents, its sections, and bytes of further slots."""
    start = sections_from(record)
    service = record[40:start] or b"\0"
    return room.to_bytes(2, "big") + record[4:5] + service + record[5:40] + record[start:] + more
