"""Bytes that are bent: changed, cut off, doubled or moved, as chance has it."""
import struct

BYTES = (0, 1, 2, 3, 4, 5, 8, 0x0F, 0x10, 0x3F, 0x40, 0x7F, 0x80, 0x81, 0xBF, 0xC0, 0xFE, 0xFF)
WORDS = (0, 1, 2, 4, 0x7FFFFFFF, 0x80000000, 0xFFFFFFEF, 0xFFFFFFF0, 0xFFFFFFFC, 0xFFFFFFFE, 0xFFFFFFFF, 0x10000,
         0xFFFF, 0xF0000000, 0xEFFFFFFF, 512, 513, 1048576, 1048577, 4194304, 4194305)


def byte(random, data):
    at = random.randrange(len(data))
    other = random.choice((random.randrange(256), random.choice(BYTES), data[at] ^ 1 << random.randrange(8),
                           (data[at] + 1) % 256, (data[at] - 1) % 256))
    return data[:at] + bytes([other]) + data[at + 1 :]


def word(random, data):
    at = random.randrange(max(len(data) - 3, 1))
    if random.random() < 0.7:
        at -= at % 4
    old = int.from_bytes(data[at : at + 4], "little")
    other = random.choice((random.choice(WORDS), old + random.randint(-5, 5), len(data), random.randrange(1 << 32)))
    return data[:at] + struct.pack("<I", other % 2**32) + data[at + 4 :]


def cut(random, data):
    return data[: random.randrange(len(data))]


def tail(random, data):
    return data + random.randbytes(random.randint(1, 9))


def removed(random, data):
    at = random.randrange(len(data))
    return data[:at] + data[at + random.choice((1, 2, 4, 8, random.randint(1, 64))) :]


def put_in(random, data):
    at = random.randrange(len(data) + 1)
    size = random.choice((1, 2, 4, 8))
    start = random.randrange(len(data))
    more = random.choice((random.randbytes(size), bytes(size), data[start : start + random.randint(1, 64)]))
    return data[:at] + more + data[at:]


def moved(random, data):
    """A piece stands over another."""
    start, to, size = random.randrange(len(data)), random.randrange(len(data)), random.randint(1, 48)
    piece = data[start : start + size]
    return data[:to] + piece + data[to + len(piece) :]


KINDS = (byte, byte, byte, byte, word, word, cut, tail, removed, put_in, moved)


def bent(random, data, most=4):
    """The bytes, bent once or a few times."""
    for _ in range(random.choice((1, 1, 1, random.randint(1, most)))):
        if data:
            data = random.choice(KINDS)(random, data)
    return data


def bent_within(random, data, ranges):
    """Bytes bent within one of some ranges, which stay as long as they are."""
    ranges = [(start, end) for start, end in ranges if start < end <= len(data)]
    if not ranges:
        return bent(random, data)
    start, end = random.choice(ranges)
    part = data[start:end]
    for _ in range(random.choice((1, 1, 2, random.randint(1, 6)))):
        part = random.choice((byte, byte, word, moved))(random, part)
    return data[:start] + part[: end - start].ljust(end - start, b"\0") + data[end:]
