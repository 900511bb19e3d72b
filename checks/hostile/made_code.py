"""Random code: words that are mostly instructions, procedures that call one another, and schedules."""
import re

from row_files import BASE, words

REGISTERS = (0, 1, 2, 5, 6, 8, 9, 10, 10, 11, 12, 17)


def register(random):
    return random.choice(REGISTERS) if random.random() < 0.9 else random.randrange(32)


def i_type(opcode, funct3, rd, rs1, immediate):
    return (immediate & 0xFFF) << 20 | rs1 << 15 | funct3 << 12 | rd << 7 | opcode


def s_type(funct3, rs1, rs2, immediate):
    return (immediate >> 5 & 0x7F) << 25 | rs2 << 20 | rs1 << 15 | funct3 << 12 | (immediate & 31) << 7 | 0x23


def b_type(funct3, rs1, rs2, distance):
    return ((distance >> 12 & 1) << 31 | (distance >> 5 & 63) << 25 | rs2 << 20 | rs1 << 15 | funct3 << 12
            | (distance >> 1 & 15) << 8 | (distance >> 11 & 1) << 7 | 0x63)


def j_type(rd, distance):
    return ((distance >> 20 & 1) << 31 | (distance >> 1 & 1023) << 21 | (distance >> 11 & 1) << 20
            | (distance >> 12 & 255) << 12 | rd << 7 | 0x6F)


def u_type(opcode, rd, upper):
    return (upper & 0xFFFFF) << 12 | rd << 7 | opcode


def computing(random):
    rd, one, other = register(random), register(random), register(random)
    kind = random.randrange(4)
    if kind == 0:
        return random.choice((0, 1, 0x20)) << 25 | other << 20 | one << 15 | random.randrange(8) << 12 | rd << 7 | 0x33
    if kind == 1:
        return i_type(0x13, random.choice((1, 5)), rd, one, random.choice((0, 0x400)) | random.randrange(32))
    if kind == 2:
        upper = random.choice((0xF, 0x10, 0x11, 0, 0xF0000, random.randrange(1 << 20)))
        return u_type(random.choice((0x37, 0x17)), rd, upper)
    return i_type(0x13, random.randrange(8), rd, one, random.choice((0, 1, -1, 4, random.randrange(4096))))


def touching(random):
    offset = random.choice((0, 1, 2, 3, 4, 8, 12, -4, -8, random.randrange(-64, 64), random.randrange(-2048, 2048)))
    base = random.choice((2, 2, 2, register(random)))
    if random.random() < 0.5:
        return i_type(0x03, random.choice((0, 1, 2, 2, 4, 5)), register(random), base, offset)
    return s_type(random.choice((0, 1, 2, 2)), base, register(random), offset)


def jumping(random, place, count):
    distance = 4 * (random.randrange(count) - place)
    if random.random() < 0.05:
        distance += 2
    if random.random() < 0.7:
        return b_type(random.randrange(8), register(random), register(random), max(-4096, min(4094, distance)))
    if random.random() < 0.8:
        return j_type(random.choice((0, 1, 1)), distance)
    return i_type(0x67, 0, random.choice((0, 1)), random.choice((1, 1, register(random))), random.choice((0, 0, 4, 1)))


def calling(random):
    """The words of an environment call, with its number."""
    number = random.choice((63, 64, 64, 93, 94, 0, random.randrange(2048)))
    ready = [i_type(0x13, 0, 17, 0, number)]
    if random.random() < 0.6:
        ready.append(i_type(0x13, 0, 10, 0, random.choice((0, 1, 2, 3))))
        ready.append(i_type(0x13, 0, 11, 2, random.choice((0, -16, -4, 4, 12))))
        ready.append(i_type(0x13, 0, 12, 0, random.choice((0, 1, 4, 100, 2047))))
    return ready + [0x73]


def loose(random, count):
    """So many words or a few more, one after another as chance has it."""
    found = []
    while len(found) < count:
        kind = random.random()
        if kind < 0.45:
            found.append(computing(random))
        elif kind < 0.65:
            found.append(touching(random))
        elif kind < 0.85:
            found.append(jumping(random, len(found), count))
        elif kind < 0.93:
            found += calling(random)
        elif kind < 0.97:
            found.append(random.choice((0x0000000F, 0x00100073, 0x00008067, 0x0FF0000F)))
        else:
            found.append(random.randrange(1 << 32))
    return found


def procedures(random, number):
    """Code whose procedures keep their frames: words, and the address and the size of each. They call later ones, or
    themselves as long as x10 lasts."""
    sizes = [random.randint(10, 16) for _ in range(number)]
    starts = [4 + sum(sizes[:place]) for place in range(number)]
    code = [i_type(0x13, 0, 10, 0, random.randint(0, 9)), j_type(1, 4 * (starts[0] - 1)),
            i_type(0x13, 0, 17, 0, random.choice((93, 94))), 0x73]
    for place, (start, size) in enumerate(zip(starts, sizes)):
        body = [0xFF010113, 0x00112623]
        while len(body) < size - 6:
            body.append(random.choice((computing(random) & ~0xF80 | 5 << 7, touching(random) & ~0xF80 | 6 << 7 | 0x2003)
                        if random.random() < 0.2 else (i_type(0x13, 0, 5, 5, 1),)))
        to = starts[random.randrange(place, number)] if random.random() < 0.5 else starts[min(place + 1, number - 1)]
        body.append(b_type(0, 10, 0, 12))
        body.append(i_type(0x13, 0, 10, 10, -1))
        body.append(j_type(1, 4 * (to - start - len(body))))
        body += [0x00C12083, 0x01010113, 0x00008067]
        code += (body + [0x13] * size)[: size - 3] + [0x00C12083, 0x01010113, 0x00008067] if len(body) > size else \
            body + [0x13] * (size - len(body))
    return code, [(BASE + 4 * start, 4 * size) for start, size in zip(starts, sizes)]


def segments(random, code):
    """The code as one segment, or with data beside it, or as one that may be written."""
    content = words(*[word % 2**32 for word in code])
    rights = random.choice((5, 5, 5, 7, 4, 1))
    extra = random.choice((0, 0, 0, 4, 2, 4096, 1 << 20))
    found = [(BASE, content, len(content) + extra, rights)]
    if random.random() < 0.3:
        start = random.choice((BASE + len(content) + extra, 0x20000, 0x11000, 0xEFFFF000))
        data = random.randbytes(random.choice((0, 4, 64, 4096)))
        found.append((start, data, len(data) + random.choice((0, 1, 4096)), random.choice((6, 6, 4, 5, 7, 2))))
    return found


def schedule(random, most=60000):
    """Harts, and slices of at most so many instructions together."""
    harts = random.choice((1, 1, 1, 2, 3, 4, random.randint(1, 64)))
    lines, left = [f"harts {harts}"], most
    for _ in range(random.choice((1, 1, 2, 5, random.randint(1, 40)))):
        count = min(random.choice((1, 2, 7, 100, 1000, 5000, 50000)), left)
        if count < 1:
            break
        left -= count
        lines.append(f"{random.randrange(harts)} {count}")
        if random.random() < 0.05:
            lines.append(random.choice(("", "#", "# 0 5")))
    return ("\n".join(lines) + random.choice(("\n", ""))).encode()


# The instructions that a schedule may run which a program doesn't end early.
MOST_RUN = 20_000_000


def slices(text):
    """The lines of a schedule that is accepted, each with the instructions of its slice, of other lines 0; of a refused
    one none."""
    lines, harts, found = text.removesuffix(b"\n").split(b"\n"), None, []
    for line in lines:
        head, space, number = line.partition(b" ")
        is_number = re.fullmatch(rb"0|[1-9][0-9]{0,9}", number) is not None
        if line[:1] in (b"", b"#"):
            found.append((line, 0))
        elif harts is None:
            if head != b"harts" or not is_number or not 1 <= int(number) <= 64:
                return []
            harts = int(number)
            found.append((line, 0))
        elif is_number and re.fullmatch(rb"0|[1-9][0-9]?", head) and int(head) < harts and int(number) > 0:
            found.append((line, int(number)))
        else:
            return []
    return found if harts is not None and sum(count for _, count in found) < 1 << 32 else []


def bounded(text, most=MOST_RUN):
    """A schedule whose slices are so many instructions together at most, or that is refused: the later are less."""
    found = slices(text)
    if sum(count for _, count in found) <= most:
        return text
    lines = []
    for line, count in found:
        runs = min(count, most)
        most -= runs
        if runs or not count:
            lines.append(line if runs == count else line.split(b" ")[0] + b" %d" % runs)
    return b"\n".join(lines)


BAD_LINES = (b"harts 0", b"harts 65", b"harts 01", b"harts  1", b"harts 1 ", b"0  1", b"1", b"0 0", b"0 4294967295",
             b"0 4294967296", b"-1 5", b"0 5\r", b"0 5 ", b" 0 5", b"00 5", b"0 05", b"64 1", b"0\t5", b"", b"#",
             b"0 +5", b"harts 99999999999999999999", b"0 99999999999999999999", b"\xff", b"0 5\0")


def bent_schedule(random):
    lines = schedule(random, 3000).split(b"\n")
    for _ in range(random.randint(1, 2)):
        at = random.randrange(len(lines) + 1)
        lines[at : at + random.randrange(2)] = [random.choice(BAD_LINES)]
    return b"\n".join(lines)


def period(random, is_list=True):
    number = str(random.choice((1, 1, 2, 3, 5, 7, 31, 97, 1000, 4294967295)))
    if not is_list or random.random() < 0.6:
        return number
    names = [name for name in ("retired", "loads", "stores", "taken") if random.random() < 0.6] or ["loads"]
    return ",".join(f"{name}:{random.choice((1, 2, 5, 31, 400))}" for name in names)
