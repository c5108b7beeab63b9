"""Windows for the named inputs of program_cases.py: faults on a line of two to
six ends, by phasors of whole numbers, so that no sample is close to a half and
every machine rounds them alike.
"""
from cases.building import ZERO, of_phases, turned, wave
from model.measuring import length

Three = list[tuple[int, int]]   # phasors of a, b, c


def waves(phasors: Three) -> list[list[int]]:
    return [wave(complex(re, im)) for re, im in phasors]


def by_end(volts: Three, amps: list[Three]) -> list[int]:
    """Voltages, and the currents of each end."""
    return of_phases(waves(volts), list(zip(*map(waves, amps), strict=True)))


def opposite(phasors: Three) -> Three:
    return [(-re, -im) for re, im in phasors]


NONE = [ZERO] * 3
INTERNAL = (120, 160)   # into the line at an end


def through(volts: Three, amps: Three, ends: int = 2) -> list[int]:
    """What comes in at end 1 goes out at the last end."""
    return by_end(volts, [amps, *[NONE] * (ends - 2), opposite(amps)])


def fed(volts: Three, amps: Three, ends: int = 2) -> list[int]:
    """Every end feeds a fault alike."""
    return by_end(volts, [amps] * ends)


def quiet(ends: int = 2) -> list[int]:
    return [0] * length(ends)


# A balanced line with load on it.
HEALTHY = [(2000, 0), (-1000, -1732), (-1000, 1732)]
LOAD = [(200, 0), (-100, -173), (-100, 173)]


def ground_fault(phase: int) -> tuple[Three, Three]:
    """V and I of a fault in front, at 600 thousandths of the replica: with
    k of 667 thousandths I of its loop is 1667 counts."""
    return (turned(phase, (1000, 0), *HEALTHY[1:]),
            turned(phase, (0, -1000)))


def phase_fault(phase: int) -> tuple[Three, Three]:
    """The same between the two other phases: 600 counts of V to 1000 of I."""
    return (turned(phase, (2000, 0), (-1000, -300), (-1000, 300)),
            turned(phase, ZERO, (-500, 0), (500, 0)))


AG = ground_fault(0)
# Each loop with a fault that it alone sees at reach 850.
FAULTS = {'ag': AG, 'bg': ground_fault(1), 'cg': ground_fault(2),
          'ab': phase_fault(2), 'bc': phase_fault(0), 'ca': phase_fault(1)}


def reversed_(fault: tuple[Three, Three]) -> tuple[Three, Three]:
    volts, amps = fault
    return volts, opposite(amps)


def resistive(phase: int, volts: int) -> tuple[Three, Three]:
    """The ground fault at 600 thousandths of the replica with resistance: so
    many counts of V along Ir, of 1000 counts. n is V along Ir times 1667000 and
    q 1000 times 1667000, so that with 1000 counts R has to be 10. The circle
    would need a reach of 720. On the other phases n is 1.732 times q, so that
    they are within the sides from R = 18 on."""
    own = ((1000, -volts), *HEALTHY[1:])
    return turned(phase, *own), turned(phase, (0, -1000))
