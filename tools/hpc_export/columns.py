"""Whole columns at once. A column of numbers is an array; a column of small numbers, or of marks (0 or 1), is bytes.

Python's loops take an object for each number. Here a column is one long integer, on which an operation of the
interpreter works at the memory's speed; places of such a column don't touch one another.
"""
import operator
import sys
from array import array


def numbers(kind, data):
    """The little endian numbers of these bytes, of 4 bytes (`I`) or 8 (`Q`, `q`)."""
    found = array(kind)
    found.frombytes(data)
    if sys.byteorder == "big":
        found.byteswap()
    return found


def packed(column):
    """The numbers of an array as little endian bytes."""
    if sys.byteorder == "big":
        column = array(column.typecode, column)
        column.byteswap()
    return column.tobytes()


def picker(places):
    """What gives the numbers of a column at these places."""
    if len(places) > 1:
        return operator.itemgetter(*places)
    return lambda column: tuple(column[place] for place in places)


def picked(column, places):
    return picker(places)(column)


def whole(data):
    """Bytes as one integer, the first one least."""
    return int.from_bytes(data, "little")


def merged(*columns):
    """The bits of several columns of bytes of one length."""
    found = 0
    for column in columns:
        found |= whole(column)
    return found.to_bytes(len(columns[0]), "little")


def spread(column, size=4):
    """Each byte of a column so many times."""
    found = bytearray(size * len(column))
    for place in range(size):
        found[place::size] = column
    return found


def widened(column):
    """Each byte of a column as a word, in bytes."""
    found = bytearray(4 * len(column))
    found[0::4] = column
    return found


def signed(low, is_none):
    """A column of words as numbers of 8 bytes, with -1 in the places of 255 and the word in those of 0."""
    mask = whole(spread(is_none))
    pairs = array("I", bytes(8 * len(low)))
    words = numbers("I", (whole(packed(low)) | mask).to_bytes(4 * len(low), "little"))
    pairs[0::2], pairs[1::2] = words, numbers("I", mask.to_bytes(4 * len(low), "little"))
    return numbers("q", packed(pairs))


def ascend(words, count):
    """Whether each of so many words is below the next one, and all are below 2^31; the words are one integer."""
    high, one = b"\0\0\0\x80", b"\1\0\0\0"
    most = whole(high * count)
    if words & most:
        return False
    # Where the next word is the greater one, 2^31 stays of what is added. Behind the last word is one of 2^31.
    found = (words >> 32) + most - words - whole(one * count)
    return found & most >> 32 == most >> 32
