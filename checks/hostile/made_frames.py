"""Random call frame information, mostly well formed (DWARF 5 section 6.4; LSB, core specification, "Exception
Frames")."""
from row_files import words

RESERVED = (0xFFFFFFF0, 0xFFFFFFFF, 0xFFFFFFEF, 0x10000)


def uleb(number):
    found = bytearray()
    while number >= 128:
        found.append(number % 128 | 128)
        number //= 128
    return bytes(found + bytes([number]))


def sleb(number):
    found = bytearray()
    while not -64 <= number < 64:
        found.append(number % 128 | 128)
        number >>= 7
    return bytes(found + bytes([number % 128]))


def long_uleb(random, number):
    """The number in more bytes than it needs, now and then in too many."""
    short = uleb(number)
    if random.random() > 0.05:
        return short
    more = random.randint(1, 11)
    return short[:-1] + bytes([short[-1] | 128]) + b"\x80" * more + b"\0"


def register(random):
    return random.choice((1, 1, 2, 2, 8, 9, 0, 5, 31, 32, 200, random.randrange(70)))


def block(random):
    size = random.choice((0, 0, 1, 3))
    return uleb(size if random.random() < 0.95 else size + 9) + random.randbytes(size)


def instruction(random):
    kind = random.random()
    if kind < 0.25:
        return bytes([0x40 | random.choice((0, 1, 2, 4, 8, 63))])
    if kind < 0.40:
        return bytes([0x80 | random.choice((1, 1, 8, 2, 0, 33))]) + uleb(random.choice((0, 1, 2, 3, 200)))
    if kind < 0.47:
        return bytes([0xC0 | random.choice((1, 8, 2, 40))])
    code = random.choice((0, 0, 1, 2, 3, 4, 5, 6, 7, 7, 8, 9, 0x0A, 0x0A, 0x0B, 0x0C, 0x0C, 0x0D, 0x0E, 0x0E, 0x0F,
                          0x10, 0x11, 0x12, 0x13, 0x14, 0x15, 0x16, 0x2E, 0x2E))
    if random.random() < 0.01:
        code = random.randrange(64)
    operands = {
        1: lambda: words(random.choice((0x10000, 0x10004, 0x10010, 0x10014, random.randrange(1 << 32)))),
        2: lambda: bytes([random.choice((0, 1, 4, 8, 255))]),
        3: lambda: random.choice((b"\4\0", b"\0\1", b"\xff\xff")),
        4: lambda: words(random.choice((4, 8, 0xFFFFFFFC, 0x80000000))),
    }
    unsigned = {5: 2, 6: 1, 7: 1, 8: 1, 9: 2, 0x0C: 2, 0x0D: 1, 0x0E: 1, 0x14: 2, 0x2E: 1}
    signed = {0x11: 1, 0x12: 1, 0x13: 0, 0x15: 1}
    made = bytes([code])
    if code in operands:
        return made + operands[code]()
    if code in unsigned:
        return made + b"".join(long_uleb(random, register(random)) for _ in range(unsigned[code]))
    if code in signed:
        before = b"".join(uleb(register(random)) for _ in range(signed[code]))
        return made + before + sleb(random.choice((0, 1, -1, -4, 4, 100, -(1 << 40))))
    if code == 0x0F:
        return made + block(random)
    if code in (0x10, 0x16):
        return made + uleb(register(random)) + block(random)
    return made


def instructions(random, most):
    return b"".join(instruction(random) for _ in range(random.randrange(most)))


def usual(random, size):
    """What a compiler says of a procedure of so many bytes that keeps x1 in a frame of 16."""
    last = max(size // 4 - 2, 3) % 64
    return bytes([0x44, 0x0E, 0x10, 0x44, 0x81, 0x01, 0x40 | last, 0xC1, 0x44, 0x0E, 0x00])


def wrapped(random, body, align):
    body += bytes(-len(body) % align) if align else b""
    length = len(body)
    if random.random() < 0.01:
        length = random.choice((*RESERVED, length + 1, length - 1, 0))
    return words(length % 2**32) + body


def cie_fields(random, version, is_plain):
    factors = uleb(random.choice((1, 1, 1, 4, 0, 1 << 33))) + sleb(random.choice((-4, -4, -4, 1, 4, 0, -(1 << 33))))
    number = random.choice((1, 1, 1, 1, 5, 31, 32, 2, 0)) if not is_plain else 1
    return factors + (bytes([number]) if version == 1 else uleb(number))


def debug_cie(random):
    is_plain = random.random() < 0.6
    version = 3 if is_plain else random.choice((1, 3, 4, 4, 2, 5))
    body = words(0xFFFFFFFF) + bytes([version])
    body += b"\0" if is_plain or random.random() < 0.85 else random.choice((b"z\0", b"eh\0", b"zR"))
    if version == 4:
        body += random.choice((b"\4\0", b"\4\0", b"\4\0", b"\x08\0", b"\4\1"))
    body += cie_fields(random, version, is_plain)
    return body + (b"\x0c\x02\0" if random.random() < 0.85 else instructions(random, 5))


def eh_cie(random):
    """The CIE, and whether addresses count from their place, and whether FDEs have data."""
    version = random.choice((1, 1, 1, 3, 3, 1, 1, 1, 4)) if random.random() < 0.3 else 1
    letters = random.choice(("zR", "zR", "zR", "", "zPLR", "zRS", "zRR", "z", "zL", "zP", "eh", "zX"))
    body = words(0) + bytes([version]) + letters.encode() + b"\0"
    body += cie_fields(random, version, random.random() < 0.9)
    relative, data = False, b""
    for letter in letters[1:]:
        if letter == "R":
            encoding = random.choice((0x1B, 0x1B, 0x1B, 0, 3, 0x0B, 0x10, 0x13, 0x1C, 0x20, 0xFF))
            relative, data = encoding & 0x10 != 0, data + bytes([encoding])
        elif letter == "L":
            data += bytes([random.randrange(256)])
        elif letter == "P":
            encoding = random.choice((0, 3, 0x1B, 0x9B, 2, 4, 0x0A, 0x0C, 1, 9, 5, 6))
            size = {0: 4, 3: 4, 11: 4, 2: 2, 10: 2, 4: 8, 12: 8}.get(encoding & 15, 1)
            data += bytes([encoding]) + bytes(size)
    if letters.startswith("z"):
        size = len(data) if random.random() < 0.95 else max(len(data) + random.choice((-1, 1, 40)), 0)
        body += uleb(size) + data + random.choice((b"", b""))
    body += b"\x0c\x02\0" if random.random() < 0.85 else instructions(random, 5)
    return body, relative, letters.startswith("z")


def extent(random, procedures):
    start, size = random.choice(procedures)
    if random.random() < 0.25:
        start, size = start + random.choice((0, 4, -4, 8)), random.choice((size, size + 4, 0, 4, 0xFFFFFFFF, 1 << 20))
    return start % 2**32, size % 2**32


def usual_frames(random, procedures):
    """`.debug_frame` without a fault, with what a compiler says of each procedure."""
    entries = b"".join(wrapped(random, words(0, *one) + usual(random, one[1]), 4) for one in procedures)
    return bytes.fromhex("0c000000ffffffff0300017c010c0200") + entries


def debug_frame(random, procedures):
    """The section of procedures, each with its address and size."""
    cies, found, offset = [], [], 0
    align = random.choice((4, 4, 0))
    for _ in range(random.randint(1, 3) + len(procedures)):
        if not cies or random.random() < 0.15:
            cies.append(offset)
            entry = wrapped(random, debug_cie(random), align)
        else:
            start, size = extent(random, procedures)
            cie = random.choice(cies) if random.random() < 0.97 else random.choice((offset, 4, 0xFFFFFFFE, offset + 20))
            body = usual(random, size) if random.random() < 0.6 else instructions(random, 12)
            entry = wrapped(random, words(cie, start, size) + body, align)
        found.append(entry)
        offset += len(entry)
        if random.random() < 0.03:
            found.append(bytes(4))
            offset += 4
    return b"".join(found)


def eh_frame(random, procedures, address):
    cies, found, offset = [], [], 0
    for _ in range(random.randint(1, 3) + len(procedures)):
        if not cies or random.random() < 0.15:
            body, relative, has_data = eh_cie(random)
            cies.append((offset, relative, has_data))
        else:
            start, size = extent(random, procedures)
            cie, relative, has_data = random.choice(cies)
            distance = offset + 4 - cie if random.random() < 0.97 else random.choice((offset + 4, 4, offset, 1 << 31))
            if relative:
                start = (start - address - offset - 8) % 2**32
            data = b"\0" if random.random() < 0.9 else uleb(random.choice((1, 2, 99))) + b"ab"
            body = words(distance % 2**32, start, size) + (data if has_data else b"")
            body += usual(random, size) if random.random() < 0.6 else instructions(random, 12)
        entry = wrapped(random, body, random.choice((4, 0)))
        found.append(entry)
        offset += len(entry)
    return b"".join(found) + random.choice((b"", bytes(4), bytes(4) + b"\xff" * 7))
