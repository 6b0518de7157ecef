"""Test vectors for job records, design flows, duties, heat flows, meters, ratings, losses, heads,
sheets and choices.

    python3 model/vectors.py STDIN STDOUT

writes the input of the test program and the output it must give; with the name
of a module behind them, such as choosing_vectors, only the vectors of that one.
The stored files are compared with fresh ones by

    sh model/check.sh

Input, in lines. `# text` is a comment. Any other line is a letter and bytes in
hex, where spaces do not count: the room of the result buffer (2 bytes), the byte
that fills what is lent (1), a length (4), the lengths of the first and of the
second part (2 each), and the first, second and third part. The room is at most
8,192, and a line has at most 8,191 bytes.
    r   a record to read; the job is written again into the room
    w   fields to write: version, service, k, S, T (1 byte each), meter, G, H,
        limit, twelve residents (2 each), then up to 63 slots of 10 bytes laid
        out as in a record; slots not given are 0
    c   a record to copy
    a   an m (4 bytes) whose coefficient is wanted
    f   a job whose flows are wanted
    d   a job whose duty is wanted, the house's design flow
    t   a job whose heat flows are wanted; the second part is t and the loss (4
        bytes each)
    m   a job and a list of meters to pick from
    p   a job, a catalogue and a size list to rate
    e   the same, where flow, velocity and loss of each section are wanted
    h   a job and its sections' losses, whose heads are wanted
    s   an input whose sheet is wanted: its bytes, and the length is the number
        of zero bytes that follow them, in all at most 131,072
    l   a job and a catalogue to choose sizes for; the length is that of the
        workspace, at most 1,792,256, which is the most that any job needs
    k   the same, where several lists are equally cheap
Output, a line for each line. A comment stands as it is. A number is four bytes,
and a buffer is shown whole, as it is after the call.
    r   the number; when it is 0, the fields laid out as those to write, S
        slots of them, and the number and the buffer of writing
    w, c, f, d, t, m, p, e, h   the number and the buffer
    a   the coefficient in millionths, four bytes
    s   the text
    l   the number and the buffer; where the number is 1 to 15, 01 if the whole
        workspace is still filled as it was, else 00
    k   the same with the first four bytes of the buffer, the cost: which of the
        cheapest lists comes is free, and office/tests/stored.rs judges it

Every vector has its number written by hand: those of `r`, `w` and `c` stand in
job_vectors.py and version_vectors.py, those of `a` and `f` in flow_vectors.py,
those of `d` in duty_vectors.py, of `t` in heat_vectors.py, of `m` in
meter_vectors.py, of `p` in rating_vectors.py, of `e` in losses_vectors.py, of
`h` in heads_vectors.py, of `s` in sheet_vectors.py and of `l` and `k` in
choosing_vectors.py. It is compared with the model (job.py, demand.py, heat.py,
meter.py, catalogue.py, losses.py, heads.py, rating.py, sheet.py, choosing.py).
Where `lines` is given, they stand in the model's answer in words one after
another. Where `holds` is given, these are all the refusals whose condition
holds; they stand in the comment, and office/tests/stored.rs compares them, and
every answer, with the model of office/. Of a record or fields whose version is
neither 1 nor 2 the other conditions are asked as of version 1.
"""

import collections
import functools
import hashlib
import importlib
import struct
import sys

import choosing_vectors
import demand
import duty_vectors
import flow_vectors
import heads_vectors
import heat_vectors
import job
import job_vectors
import line_vectors
import losses_vectors
import meter_vectors
import norms
import rating
import rating_vectors
import sheet
import sheet_vectors
import version_vectors
from vector import digits

# The modules that have vectors, in the order of the files.
MODULES = [job_vectors, version_vectors, flow_vectors, duty_vectors, line_vectors, heat_vectors,
           meter_vectors, rating_vectors, losses_vectors, heads_vectors, sheet_vectors,
           choosing_vectors]
GROUPS = [group for module in MODULES for group in module.GROUPS]
CALLS = {letter: call for module in MODULES for letter, call in module.CALLS.items()}


@functools.lru_cache(maxsize=None)
def in_words(letter, data):
    return CALLS[letter].lines(data)


def answer(vector):
    return in_words(vector.letter, vector.data)


# The checks of the vectors themselves

def model_number(vector):
    return CALLS[vector.letter].number(answer(vector))


# The refusals in the order in which a call that has them gives them back.
IN_ORDER = [1, 2, 3, 4, 5, 6, 7, 8, 9, 17, 19, 20, 21, 10, 11, 12, 14, 15, 13, 16, 18]


def check_number(vector):
    """The number by hand is the model's, and the first of the refusals whose
    condition is said to hold."""
    assert model_number(vector) == vector.expect, (vector.name, model_number(vector))
    if vector.holds is not None:
        first = min(vector.holds, key=IN_ORDER.index, default=0)
        assert first == vector.expect, (vector.name, vector.holds)


def check_lines(vector):
    """The lines by hand stand in the model's answer, one after another."""
    by_hand, lines = vector.lines or [], answer(vector)
    runs = [lines[at:at + len(by_hand)] for at in range(len(lines))]
    assert by_hand in runs, (vector.name, lines)


def check_slots(vector):
    """The protocol's bounds of the writer's fields."""
    if vector.letter == "w":
        slots, rest = divmod(len(vector.data) - job_vectors.RAW.size, 10)
        assert rest == 0 and 0 <= slots <= job.SLOTS, vector.name


def check_parts(vector):
    """The protocol's bounds of a line."""
    parts = CALLS[vector.letter].parts(vector.data)
    most = {"s": 131_072 - len(parts.first), "l": 1_792_256, "k": 1_792_256}
    assert parts.room <= 8192 and parts.length <= most.get(vector.letter, 0), vector.name
    assert 11 + sum(len(each) for each in parts[1:4]) <= 8191, vector.name


def check_in_turn(vector):
    """Of the parts that are rated "the two in turn give the figures or the number that the one
    gave", in the model."""
    if vector.letter == "p":
        _, *parts = vector.data
        assert rating.in_turn(*parts) == rating.rate(*parts, rating.AMPLE), vector.name


def in_version_1(data, record):
    """The data of a vector with this record of version 2 in version 1."""
    older = job.encode(job.decode(record)._replace(version=1))
    if isinstance(data, bytes):
        return data.replace(record, older)
    return tuple(each.replace(record, older) for each in data)


def check_total(vector):
    """"Version 1 still means total": a job of version 2 with service 0 has the figures or the
    number of the same job in version 1, in the model. Reading, writing, copying and the meter give
    a record, which keeps its version."""
    if vector.letter in "rwcma":
        return
    first = CALLS[vector.letter].parts(vector.data).first
    record = sheet.cut(first)[0] if vector.letter == "s" else first
    number, found = job.read(record)
    if number == 0 and found.version == 2 and found.service == job.TOTAL:
        stored, older = CALLS[vector.letter].stored, in_version_1(vector.data, record)
        assert older != vector.data and stored(older) == stored(vector.data), vector.name


def check_table():
    """The digest of document 001's 486 pairs."""
    assert len(demand.TABLE) == 486
    packed = b"".join(struct.pack(">II", *pair) for pair in demand.TABLE)
    digest = "6e2af854ad28b43cab50637e239a8a753c8089890a74f2c3729a65b28d8eeb76"
    assert hashlib.sha256(packed).hexdigest() == digest


def check_all(vectors):
    check_table()
    norms.check()
    for vector in vectors:
        if CALLS[vector.letter].number:
            check_number(vector)
        check_lines(vector)
        check_slots(vector)
        check_parts(vector)
        check_in_turn(vector)
        check_total(vector)


# The two files

def title(vector):
    """The name, and the refusals whose condition holds where they are stated."""
    if vector.holds is None:
        return f"# {vector.name}"
    return f"# {vector.name}; holds {' '.join(map(str, sorted(vector.holds))) or 'nothing'}"


def input_lines(vector):
    parts = CALLS[vector.letter].parts(vector.data)
    return [title(vector), f"{vector.letter} {digits(parts)}"]


def output_lines(vector):
    return [title(vector), CALLS[vector.letter].stored(vector.data)]


def text(groups, lines_of):
    """The groups in turn, each after a line with its title."""
    lines = []
    for heading, group in groups:
        lines.append(f"# == {heading}")
        for vector in group():
            lines += lines_of(vector)
    return "".join(line + "\n" for line in lines)


def store(path, content):
    with open(path, "w", encoding="ascii", newline="\n") as file:
        file.write(content)


def report(vectors):
    counts = collections.Counter((each.letter, each.expect) for each in vectors)
    print(f"{len(vectors)} vectors")
    for (letter, number), count in sorted(counts.items()):
        print(CALLS[letter].word, number, "in", count)


def make(groups, stdin_path, stdout_path):
    """The two files of these groups."""
    vectors = [vector for _, group in groups for vector in group()]
    check_all(vectors)
    store(stdin_path, text(groups, input_lines))
    store(stdout_path, text(groups, output_lines))
    report(vectors)


def main(stdin_path, stdout_path, alone=None):
    make(importlib.import_module(alone).GROUPS if alone else GROUPS, stdin_path, stdout_path)


if __name__ == "__main__":
    main(*sys.argv[1:])
