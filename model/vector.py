"""What the vectors of all calls have in common."""

from typing import Callable, NamedTuple, Optional, Union

from edit import serving


class Vector(NamedTuple):
    name: str
    data: Union[bytes, tuple]  # what the call is given, as its `parts` take it
    expect: int
    holds: Optional[set] = None  # by hand, all the refusals whose condition holds
    letter: str = "r"
    lines: Optional[list] = None  # by hand, lines of the answer that follow one another


class Parts(NamedTuple):
    """What stands in a line of the input."""
    room: int            # the length of the result buffer
    first: bytes         # most often the job
    second: bytes = b""  # the catalogue, the list of meters or the losses
    third: bytes = b""   # the size list
    fill: int = 0xa5     # the byte that fills the buffer, and the workspace
    length: int = 0      # of the workspace, or the zero bytes behind a sheet's input


def first_number(lines):
    """The number behind the word of an answer's first line."""
    return int(lines[0].split(" ")[1])


class Call(NamedTuple):
    word: str
    parts: Callable   # of the data: what stands in the line
    lines: Callable   # of the data: the model's answer in words, for the figures by hand
    stored: Callable  # of the data: the model's answer in bytes
    number: Optional[Callable] = first_number  # that the lines give; None where a call has none


def digits(parts):
    """The hex digits of a line."""
    found = [f"{parts.room:04x}", f"{parts.fill:02x}", f"{parts.length:08x}",
             f"{len(parts.first):04x}", f"{len(parts.second):04x}"]
    return " ".join(found + [each.hex() for each in parts[1:4] if each])


def roomed(raw):
    """The parts of bytes that begin with the room."""
    return Parts(room_of(raw), raw[2:])


def room_of(raw):
    """The room, where a line's bytes begin with it."""
    return int.from_bytes(raw[:2], "big")


def with_room(record, room):
    return room.to_bytes(2, "big") + record


def buffer_after(result, room, fill=0xa5):
    """The buffer afterwards; None is the result of a refusal."""
    result = result or b""
    return result + bytes([fill]) * (room - len(result))


def buffer_line(word, outcome, room):
    """The answer of a call in words, with the buffer."""
    number, result = outcome
    return f"{word} {number} {buffer_after(result, room).hex()}"


def buffer_bytes(outcome, room, fill=0xa5):
    """The same in bytes: the number in four, and the buffer."""
    number, result = outcome
    return f"{number:08x} {buffer_after(result, room, fill).hex()}"


def lent(data):
    """The parts of data whose first is the room, in two bytes."""
    room, *rest = data
    return Parts(room_of(room), *rest)


def stored_by(call):
    """The answer in bytes to such data, by the model's call."""
    def stored(data):
        room, *rest = data
        return buffer_bytes(call(*rest, room_of(room)), room_of(room))
    return stored


def in_total(vectors, place=1):
    """The same jobs in version 2 with service 0, which stand at this place of the data: number,
    refusals and lines by hand are the same."""
    return [each._replace(name=f"{each.name}, version 2", data=each.data[:place]
                          + (serving(each.data[place], 0),) + each.data[place + 1:])
            for each in vectors]


def words(name, values):
    return " ".join([name] + [str(value) for value in values])


def listed(numbers):
    return " and ".join(str(number) for number in sorted(numbers))
