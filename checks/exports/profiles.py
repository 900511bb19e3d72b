"""Profiles as programs have them, for what is looked at without the built program: samples of examples/calls, of a
C++ program with four virtual area(), and of four harts that wait at a barrier (programs/areas.cc, programs/barrier.c)."""

START_S, CALLS_C = (0, 1, b"guest/start.S"), (0, 0, b"examples/calls/calls.c")
AREAS_CC, BARRIER_C = (0, 2, b"checks/exports/programs/areas.cc"), (0, 3, b"checks/exports/programs/barrier.c")
START = 0, 11, b"_start"


def calls():
    """Samples at lines of examples/calls, some of them below others."""
    evaluate, power, main = (0, 40, b"evaluate"), (0, 80, b"power"), (0, 20, b"main")
    file = CALLS_C
    top = ("root", 0), ("proc", main), ("call", (*file, 110)), ("proc", evaluate)
    again = *top, ("call", (*file, 84)), ("proc", evaluate)
    inlined = *again, ("inline", power, (*file, 98)), ("stmt", (*file, 74))
    ends = [(0, 3, (*top, ("stmt", (*file, 86)))), (1, 2, (*again, ("stmt", (*file, 86))))]
    return [*ends, (0, 5, inlined), (0, 1, (*top, ("call", (*file, 84)), ("proc", power), ("stmt", 0x10010)))]


def areas():
    """One call that leads to four procedures of one name, told apart by the offsets of their entries."""
    main = 0, 20, b"main"
    base = ("root", 0), ("proc", START), ("call", (*START_S, 18)), ("proc", main), ("call", (*AREAS_CC, 65))
    samples = []
    for number, line in enumerate((16, 28, 41, 53)):
        area = *base, ("proc", (0, 100 + 40 * number, b"area"))
        samples += [(0, 12 * number + 24, (*area, ("stmt", (*AREAS_CC, line)))),
                    (0, 5 * number + 5, (*area, ("stmt", (*AREAS_CC, line - 1))))]
    return samples


def barrier():
    """Four harts: the later ones work longer, the earlier ones wait longer."""
    main, work, wait = (0, 20, b"main"), (0, 30, b"work"), (0, 40, b"wait_at_barrier")
    base = ("root", 0), ("proc", START), ("call", (*START_S, 18)), ("proc", main)
    samples = []
    for hart in range(4):
        at_work = *base, ("call", (*BARRIER_C, 28)), ("proc", work)
        waits = *base, ("call", (*BARRIER_C, 29)), ("proc", wait)
        samples += [(hart, 9 * hart + 9, (*at_work, ("stmt", (*BARRIER_C, 20)))),
                    (hart, 14 * hart + 14, (*at_work, ("stmt", (*BARRIER_C, 19)))),
                    (hart, 1, (*base, ("stmt", (*BARRIER_C, 27))))]
        if hart < 3:
            samples += [(hart, 69 - 23 * hart, (*waits, ("stmt", (*BARRIER_C, 12)))),
                        (hart, 15 - 5 * hart, (*waits, ("stmt", (*BARRIER_C, 11))))]
    return samples


PROGRAMS = {  # name: profile, period, harts
    "calls": (calls(), 7, 2),
    "areas": (areas(), 499, 1),
    "barrier": (barrier(), 499, 4),
}
