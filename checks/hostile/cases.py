"""The cases of checks/fuzz: words and the files that they name, each kind as chance has it."""
import pathlib
import struct
from collections import namedtuple

import made_code
import made_dwarf
import made_frames
import made_kept
from bends import bent, bent_within
from elf_file import HEADER, SECTION, Header, Section
from row_files import BASE, ROW_FILES, program

TOP = pathlib.Path(__file__).resolve().parents[2]
EXAMPLES = TOP / "examples"
REAL = ("primes", "calls", "histogram", "recursion", "straight")
EH_ADDRESS = 0x4000000
STORED = "stored"
TABLES = {"view": ("top", "callers", "flat"), "stats": ("exclusive", "frame", "inclusive")}
# What a run of words stores stands behind these files from before.
KEPT = b"kept before"

Case = namedtuple("Case", "kind words files")


def read(name, part):
    return (EXAMPLES / name / part).read_bytes()


def sections_of(data):
    """Where the sections of a file lie that are read, as far as its headers say."""
    head = Header(*HEADER.unpack_from(data))
    end = head.shoff + SECTION.size * head.shnum
    if end > len(data):
        return []
    table = [Section(*SECTION.unpack_from(data, head.shoff + SECTION.size * i)) for i in range(head.shnum)]
    own = [(s.offset, s.offset + s.size) for s in table if s.type]
    return [(0, 52), (52, 52 + 32 * head.phnum), (head.shoff, end), *own]


def schedules(random):
    """Schedules for programs that may not end."""
    return made_code.schedule(random) if random.random() < 0.97 else made_code.bounded(made_code.bent_schedule(random))


def workers(random):
    return str(random.choice((1, 1, 2, 3, 16)))


def on_program(random, kind, data, text=None, given=b"input of the guest\n"):
    """Words of a command that reads this program, and its files."""
    files = {"program": data, "input": given, "schedule": text or schedules(random)}
    if random.random() < 0.5:
        files[STORED] = KEPT
    names = ["program", "input", "schedule"]
    command = random.choice(("profile", "profile", "profile", "live", "run", "struct", "trace"))
    if command == "struct":
        return Case(kind, ["struct", "program"], files)
    if command == "trace":
        return Case(kind, ["trace", *names, made_code.period(random, False), STORED], files)
    merging = [] if command == "run" else [workers(random)]
    if command == "live":
        merging.append(random.choice(("1024", "1024", "1025", "4096", "1048576")))
    return Case(kind, [command, *names, made_code.period(random), *merging, STORED], files)


# ---- programs

def row_programs(random):
    data = random.choice(list(ROW_FILES.values()))
    return on_program(random, "row files", bent(random, data) if random.random() < 0.95 else data)


def row_sections(random):
    data = random.choice(list(ROW_FILES.values()))
    return on_program(random, "row files, a section", bent_within(random, data, sections_of(data)))


def real_programs(random):
    name = random.choice(REAL)
    data = read(name, "program")
    data = bent_within(random, data, sections_of(data)) if random.random() < 0.8 else bent(random, data)
    return on_program(random, "real programs", data, given=read(name, "input"))


def procedures_with(random, sections):
    """A program of procedures with sections that tell of these; now and then bent."""
    code, procedures = made_code.procedures(random, random.randint(1, 6))
    names = [(b"f%d" % place, *extent) for place, extent in enumerate(procedures) if random.random() < 0.9]
    if random.random() < 0.1:
        names.append((random.choice((b"", b"\x01g")), BASE, random.choice((16, 4, 0, 1 << 20))))
    data = program(made_code.segments(random, code), sections(procedures), names)
    return bent_within(random, data, sections_of(data)) if random.random() < 0.15 else data


def frame_sections(random, procedures):
    kind = random.random()
    found = []
    if kind < 0.6:
        found.append((b".debug_frame", made_frames.debug_frame(random, procedures), 0))
    if kind > 0.4:
        found.append((b".eh_frame", made_frames.eh_frame(random, procedures, EH_ADDRESS), EH_ADDRESS))
    return found


def call_frames(random):
    data = procedures_with(random, lambda procedures: frame_sections(random, procedures))
    return on_program(random, "call frames", data)


def debug_information(random):
    def sections(procedures):
        found = [(name, data, 0) for name, data in made_dwarf.debug_sections(random, procedures)]
        if random.random() < 0.5:
            found.append((b".debug_frame", made_frames.usual_frames(random, procedures), 0))
        return found

    return on_program(random, "debug information", procedures_with(random, sections))


def random_code(random):
    code = made_code.loose(random, random.choice((1, 4, 20, 60)))
    data = program(made_code.segments(random, code), entry=BASE + random.choice((0, 0, 0, 4, 8, 2)))
    return on_program(random, "random code", data, given=random.randbytes(random.randrange(40)))


def bent_schedules(random):
    name = random.choice(("calling", "spinning", "straight", "inlined"))
    text = made_code.bent_schedule(random) if random.random() < 0.7 else bent(random, made_code.schedule(random, 3000))
    return on_program(random, "schedules", ROW_FILES[name], made_code.bounded(text) if name == "spinning" else text)


# ---- kept files

def guest(random):
    """A program, the head of a file that was kept of it, and addresses of its code."""
    name = random.choice(("straight", "calling", "inlined", "lined", "looping", "two units"))
    data = ROW_FILES[name]
    head = len(data), HEADER.unpack_from(data)[4]
    return data, head if random.random() < 0.98 else (head[0] + 4, head[1]), [BASE + 4 * place for place in range(24)]


def measurements(random):
    data, head, code = guest(random)
    kept = [made_kept.measurement(random, head, code) for _ in range(random.choice((1, 1, 2, 3)))]
    kept = [bent(random, one) if random.random() < 0.5 else one for one in kept]
    files = {"program": data, **{f"measurement{place}": one for place, one in enumerate(kept)}}
    names = [f"measurement{place}" for place in range(len(kept))]
    if random.random() < 0.3:
        names *= random.choice((2, 3))
    if len(names) == 1 and random.random() < 0.8:
        return Case("measurements", ["prof", "program", *names, workers(random), STORED], files)
    return Case("measurements", ["merge", "program", workers(random), STORED, *names], files)


def real_measurements(random):
    """Merges of one measurement several times, which are well formed."""
    data, head, code = guest(random)
    kept = made_kept.measurement(random, head, code)
    names = ["measurement"] * random.choice((1, 2, 16))
    words = ["merge", "program", workers(random), STORED, *names]
    return Case("one measurement", words, {"program": data, "measurement": kept})


def traces(random):
    data, head, code = guest(random)
    kept = made_kept.trace(random, head, code)
    if random.random() < 0.6:
        kept = bent(random, kept)
    look = [str(random.choice((1, 2, 3, 64))), str(random.choice((1, 2, 7, 80, 512)))]
    return Case("traces", ["timeline", "program", "trace", *look], {"program": data, "trace": kept})


def databases(random):
    kept = made_kept.database(random)
    if random.random() < 0.7:
        kept = bent(random, kept)
    event = [random.choice(("retired", "loads", "stores", "taken"))] if random.random() < 0.4 else []
    command, kinds = random.choice(list(TABLES.items()))
    return Case("databases", [command, "database", random.choice(kinds), *event], {"database": kept})


# ---- words

WORDS = ("profile", "run", "prof", "struct", "view", "drill", "merge", "live", "trace", "timeline", "stats",
         "program", "input", "schedule", "database", "measurement", "missing", "", "0", "1", "16", "17", "01", "+1",
         "-1", "1 ", "4294967295", "4294967296", "512", "513", "64", "65", "1023", "1024", "1048576", "1048577",
         "top", "callers", "flat", "exclusive", "frame", "inclusive", "retired", "loads", "stores", "taken", "cycles",
         "retired:1", "loads:1,stores:2", "stores:1,loads:2", "retired:0", "loads:", "retired:1,", "--help",
         "Profile", "99999999999999999999", "1" * 300, "./program", "no/folder/stored")
FORMS = ("profile program input schedule 5 1 stored", "live program input schedule 5 1 1024 stored",
         "run program input schedule 5 stored", "prof program measurement 1 stored", "struct program",
         "view database top", "stats database frame retired", "merge program 1 stored measurement measurement",
         "trace program input schedule 5 stored", "timeline program trace 1 7")


def bent_words(random):
    words = random.choice(FORMS).split()
    for _ in range(random.choice((0, 1, 1, 2, 3))):
        at = random.randrange(len(words) + 1)
        words[at : at + random.randrange(2)] = [random.choice(WORDS)] if random.random() < 0.9 else []
    if words[:1] == ["drill"] and len(words) == 3:
        words.append("1")
    data, head, code = guest(random)
    files = {"program": data, "input": b"", "schedule": b"harts 1\n0 100\n", "database": made_kept.database(random),
             "measurement": made_kept.measurement(random, head, code), "trace": made_kept.trace(random, head, code)}
    return Case("words", words, files)


KINDS = ((bent_words, 6), (row_programs, 12), (row_sections, 10), (real_programs, 8), (call_frames, 16),
         (debug_information, 18), (random_code, 10), (bent_schedules, 4), (measurements, 10), (real_measurements, 2),
         (traces, 6), (databases, 8))


def case(random, only=None):
    """A case of any kind, or of the one whose maker has this name."""
    makers, weights = zip(*KINDS)
    maker = random.choices(makers, weights)[0]
    return (next(one for one in makers if one.__name__ == only) if only else maker)(random)


def seed_bytes(seed, number):
    return struct.pack("<QQ", seed % 2**64, number)
