"""A model of the sheet program, written from document 01, without the code.

    sheet(data)    the text that it prints for its standard input, as lines

The quoted sentences are those of "The sheet program".
"""

import demand
import job
import rating

# "Only the first 65,536 bytes of input are read."
READ = 65_536


def record(data):
    """The record at the front, and what follows it: "Each record ends at its
    stated length, or where the input ends". Under four bytes state no length."""
    stated = int.from_bytes(data[:4], "big") if len(data) >= 4 else len(data)
    return data[:stated], data[stated:]


def cut(data):
    """Job, catalogue and size list: "all that follows the catalogue is the size
    list"."""
    first, rest = record(data[:READ])
    second, sizes = record(rest)
    return first, second, sizes


def line(word, *figures):
    return " ".join([word] + [str(figure) for figure in figures])


def lines_of(data, catalogue_data, numbers):
    """Of a job that is rated: "hour, day, mean hour; section, flow, velocity,
    loss; required head, pump head, dictating section"."""
    house = job.decode(data)
    heads, sections = rating.figures(data, catalogue_data, numbers)
    return [line("house", *demand.house_figures(house))] + [
        line("section", i, *each) for i, each in enumerate(sections, start=1)] + [
        line("head", *heads)]


def sheet(data):
    """"A refusal prints one line only". No result is written, so that 14 never applies."""
    parts = cut(data)
    number = rating.rate_number(*parts, rating.AMPLE)
    return [line("refused", number)] if number != 0 else lines_of(*parts)
