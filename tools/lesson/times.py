"""Numbers as the page shows them. Each is kept with what it is, so that a number which is two different times is found."""
import re
from fractions import Fraction

SHOWN = []  # (number, what time it is, or None)
LENGTH = "a length"
LEAST = 10000  # smaller numbers are counts, offsets and parts of rows


def time(ticks, hertz, line):
    """A time shown: where it lies, in seconds on the clock of an STC, or how long it is."""
    SHOWN.append((ticks, (Fraction(ticks, hertz), line)))
    return f"{ticks:,}"


def place45(ticks, stc):
    """A start or an end as the file has it."""
    return time(ticks, 45000, f"on the clock of STC {stc}")


def place90(ticks, stc):
    """A place as the player and the entries have it."""
    return time(ticks, 90000, f"on the clock of STC {stc}")


def length45(ticks):
    """How long something is, in 45 kHz ticks."""
    return time(ticks, 45000, LENGTH)


def length90(ticks):
    """And in 90 kHz ticks."""
    return time(ticks, 90000, LENGTH)


def plain(number):
    """A number that is no time."""
    SHOWN.append((number, None))
    return f"{number:,}"


# ---- what is wrong with what was shown


def collected(make):
    """What is shown while something is made, and what was made."""
    SHOWN.clear()
    result = make()
    return list(SHOWN), result


def clashes(shown):
    """Numbers that are two different times. 0 is the same on every clock."""
    times = {}
    for number, what in shown:
        if what and number:
            times.setdefault(number, set()).add(what)
    for number, whats in sorted(times.items()):
        if len(whats) > 1:
            yield f"{number:,} is " + " and ".join(f"{float(seconds):g} s, {line}" for seconds, line in sorted(whats))


def unknown(shown, text):
    """Numbers of a text that were not shown as anything. Bits are no numbers here."""
    known = {number for number, _ in shown}
    for digits in re.findall(r"(?<![\w.#])\d[\d,]*(?!\w)", text):
        number = int(digits.replace(",", ""))
        if number >= LEAST and number not in known and not re.fullmatch("[01]+", digits):
            yield f"{digits} is not known to be a time or something else"
