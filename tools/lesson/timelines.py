"""The second picture of docs/MINUTES.md: the clock of each STC, the time of the whole, and the figure over both lectures,
right and wrong, drawn from what the readings find."""
from layout import FILL, GREY, INK, LINE, RED, text
from reading import LatestEnd, Reading
from times import place45

WIDTH, HEIGHT = 1000, 650
LEFT, RIGHT = 96, 944  # where the first lecture starts and the last one ends
ROWS = {0: 92, 1: 156}  # the height of each clock
WHOLE = 226  # of the time from the very start
TOP, BOTTOM = 286, 586  # of the greatest figure and of 0
EVERY = {0: 600, 1: 300}  # seconds between the marks of each clock
NEAR = 180  # seconds before an end in which no other mark is set
TICKS = 90000
BLUE = LINE["sequences"]
DASHED = ' stroke-dasharray="6 4"'
NUMBERS = ' font-family="DejaVu Sans Mono, Consolas, monospace"'


class Scale:
    """Where a second from the very start, and a figure, are drawn."""

    def __init__(self, r):
        """From how long the STCs are, in seconds, and the greatest figure."""
        self.longs = [(r.end(k) - r.start(k)) // TICKS for k in range(len(r.stcs))]
        self.whole = sum(self.longs)
        self.most = r.minutes(0, 0)

    def begins(self, stc):
        """The second from the very start at which an STC begins."""
        return sum(self.longs[:stc])

    def x(self, second):
        """From left to right."""
        return LEFT + (RIGHT - LEFT) * second / self.whole

    def y(self, minutes):
        """From below to above."""
        return BOTTOM - (BOTTOM - TOP) * minutes / self.most


# ---- shapes


def words(seconds):
    """Minutes and seconds."""
    return f"{seconds // 60}:{seconds % 60:02}"


def line(x1, y1, x2, y2, colour, more=""):
    """A straight line."""
    return f'<line x1="{x1:.1f}" y1="{y1:.1f}" x2="{x2:.1f}" y2="{y2:.1f}" stroke="{colour}"{more}/>'


def centred(x, y, label, size=10, colour=GREY, more=""):
    """Words in the middle of which x is."""
    return text(round(x, 1), round(y, 1), label, size, colour, ' text-anchor="middle"' + more)


def right_of(x, y, label, size=10, colour=GREY, more=""):
    """Words that end at x."""
    return text(round(x, 1), round(y, 1), label, size, colour, ' text-anchor="end"' + more)


def bar(x1, x2, y, fill, colour):
    """A stretch of time."""
    return f'<rect x="{x1:.1f}" y="{y - 7}" width="{x2 - x1:.1f}" height="14" fill="{fill}" stroke="{colour}"/>'


# ---- the clocks


def clock_row(r, scale, stc):
    """An STC from its start to its end: its own numbers above, its own minutes below."""
    y, first, long = ROWS[stc], r.start(stc) // TICKS, scale.longs[stc]
    x1, x2 = scale.x(scale.begins(stc)), scale.x(scale.begins(stc) + long)
    *_, start, end = r.stcs[stc]
    shapes = [bar(x1, x2, y, FILL["sequences"], BLUE), right_of(x1 - 10, y + 4, f"STC {stc}", 12, INK, ' font-weight="bold"')]
    shapes += [text(round(x1, 1), y - 13, place45(start, stc), 10, INK, NUMBERS), right_of(x2, y - 13, place45(end, stc), 10, INK, NUMBERS)]
    for second in [first, *range(EVERY[stc], first + long - NEAR, EVERY[stc]), first + long]:
        x = scale.x(scale.begins(stc) + second - first)
        shapes += [line(x, y + 7, x, y + 12, BLUE), centred(x, y + 23, words(second))]
    return shapes


def whole_row(scale):
    """The time from the very start."""
    shapes = [right_of(LEFT - 10, WHOLE + 4, "whole", 12, INK, ' font-weight="bold"')]
    for k, long in enumerate(scale.longs):
        shapes.append(bar(scale.x(scale.begins(k)), scale.x(scale.begins(k) + long), WHOLE, FILL["clip"], LINE["clip"]))
    for second in [*range(0, scale.begins(1) - NEAR, EVERY[0]), scale.begins(1), scale.whole]:
        x = scale.x(second)
        shapes += [line(x, WHOLE + 7, x, WHOLE + 12, LINE["clip"]), centred(x, WHOLE + 23, words(second))]
    return shapes


# ---- the figure


def steps(r, scale, reading, stc):
    """The corners of the figure over one STC: half a second into each second it is asked for."""
    begins, points, before = scale.begins(stc), [], None
    for second in range(scale.longs[stc]):
        minutes = reading.minutes(stc, r.start(stc) + second * TICKS + TICKS // 2)
        if minutes != before:
            points += [(begins + second, before)] * (before is not None) + [(begins + second, minutes)]
        before = minutes
    return points + [(begins + scale.longs[stc], before)]


def stairs(points, scale, colour, more=""):
    """A line through the corners of a figure."""
    corners = " ".join(f"{scale.x(second):.1f},{scale.y(minutes):.1f}" for second, minutes in points)
    return f'<polyline points="{corners}" fill="none" stroke="{colour}" stroke-width="1.6"{more}/>'


def axis(scale):
    """The figure's scale, and lines through the borders of the lectures."""
    shapes = [right_of(LEFT - 10, TOP - 12, "minutes")]
    for second in [0, scale.begins(1), scale.whole]:
        shapes.append(line(scale.x(second), WHOLE + 32, scale.x(second), BOTTOM, LINE["header"], ' stroke-dasharray="2 3"'))
    for minutes in range(0, scale.most + 1, 10):
        y = scale.y(minutes)
        shapes += [line(LEFT, y, RIGHT, y, FILL["header"]), right_of(LEFT - 10, y + 3.5, str(minutes))]
    return shapes


def dot(second, minutes, scale, colour, label, dx, dy):
    """A point of the figure, with its number beside it."""
    x, y = scale.x(second), scale.y(minutes)
    circle = f'<circle cx="{x:.1f}" cy="{y:.1f}" r="3" fill="{colour}"/>'
    return [circle, centred(x + dx, y + dy, label, 12, colour, ' font-weight="bold"')]


def figure(r, wrong, scale):
    """The right figure, and the one that is taken off the latest end."""
    border, whole = scale.begins(1), scale.whole
    wrong_steps = steps(r, scale, wrong, 0) + steps(r, scale, wrong, 1)
    shapes = axis(scale) + [stairs(wrong_steps, scale, RED, DASHED)]
    shapes.append(stairs(steps(r, scale, r, 0) + steps(r, scale, r, 1), scale, BLUE))
    at = [(0, 0, r.start(0)), (border, 0, r.end(0)), (border, 1, r.start(1)), (whole, 1, r.end(1))]
    right, jump = [r.minutes(stc, time) for _, stc, time in at], [wrong.minutes(stc, time) for _, stc, time in at]
    shapes += dot(0, right[0], scale, BLUE, str(right[0]), 18, 0) + dot(border, right[1], scale, BLUE, str(right[1]), 16, -4)
    shapes += dot(whole, right[3], scale, BLUE, str(right[3]), 14, 4) + dot(0, jump[0], scale, RED, str(jump[0]), 20, -4)
    shapes += dot(border, jump[1], scale, RED, str(jump[1]), 14, -6) + dot(border, jump[2], scale, RED, str(jump[2]), -14, -6)
    shapes.append(text(round(scale.x(border) + 8, 1), scale.y((jump[1] + jump[2]) / 2), "jump", 11, RED))
    return shapes + dot(whole, jump[3], scale, RED, str(jump[3]), 18, 4)


# ---- the whole

NOTES = [
    (BLUE, "", "the minutes remaining: no jump where the second clock begins"),
    (RED, DASHED, "an error: the time taken off the latest end of all STCs, whatever clock it is on"),
]


def picture(file):
    """The lines of time one below the other, by one scale."""
    r, wrong = Reading(file), LatestEnd(file)
    scale = Scale(r)
    size = f'viewBox="0 0 {WIDTH} {HEIGHT}" width="{WIDTH}" height="{HEIGHT}"'
    shapes = [f'<svg xmlns="http://www.w3.org/2000/svg" {size} font-family="DejaVu Sans, Arial, Helvetica, sans-serif">',
              "<title>The clocks of two lectures, the time of the whole, and the minutes remaining</title>",
              f'<rect width="{WIDTH}" height="{HEIGHT}" fill="#ffffff"/>',
              text(LEFT, 34, "Two lectures, each by a clock of its own", 14, more=' font-weight="bold"'),
              text(LEFT, 54, "above each clock its start and end in 45 kHz ticks, below it its minutes and seconds", 11, GREY),
              right_of(scale.x(scale.begins(1)) - 64, ROWS[1] + 4, "the second clock begins again", 11)]
    shapes += clock_row(r, scale, 0) + clock_row(r, scale, 1) + whole_row(scale) + figure(r, wrong, scale)
    for k, (colour, more, label) in enumerate(NOTES):
        y = HEIGHT - 34 + 18 * k
        shapes += [line(LEFT, y - 4, LEFT + 26, y - 4, colour, ' stroke-width="1.6"' + more), text(LEFT + 34, y, label, colour=GREY)]
    return "\n".join(shapes + ["</svg>"]) + "\n"
