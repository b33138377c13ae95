"""The first picture of docs/MINUTES.md: the three sample files as bars of their bytes, drawn from what the reading finds."""
from html import escape

from times import place45

PIXELS = 4  # a byte's height
TOP = 92  # where byte 0 is
BREAK = (40, 220, 46)  # the ClipInfo is drawn shorter: from, to, height
BAR = 174  # the width of a file
SIDE = {"sequences": 130, "programs": 146, "marks": 112}  # and of what is read a second time
WIDTH, HEIGHT = 1196, 984

INK, GREY, RED = "#1a202c", "#4a5568", "#c53030"
FILL = {"header": "#e9ebee", "clip": "#f6f7f8", "sequences": "#d5e6fa", "programs": "#d6efda", "cpi": "#fde9c8",
        "coarse": "#fbdcaa", "fine": "#fff4e0", "gap": "#ffffff", "marks": "#e9dcf6"}
LINE = {"header": "#6b7480", "clip": "#6b7480", "sequences": "#2b6cb0", "programs": "#2f855a", "cpi": "#b7791f",
        "coarse": "#b7791f", "fine": "#b7791f", "gap": "#b7791f", "marks": "#6b46c1"}
HEADS = ("sequences", "programs", "CPI", "marks")  # the first words of a section, which are bold


def y_of(at):
    """Where a byte's upper edge is drawn."""
    first, behind, height = BREAK
    if at <= first:
        return TOP + PIXELS * at
    if at >= behind:
        return TOP + PIXELS * (first + at - behind) + height
    return TOP + PIXELS * first + height * (at - first) / (behind - first)


# ---- shapes


def text(x, y, words, size=11, colour=INK, more=""):
    return f'<text x="{x:g}" y="{y:g}" font-size="{size}" fill="{colour}"{more}>{escape(words)}</text>'


def offset_text(x, y, at):
    return text(x + 5, y, f"{at:>3}", 10, GREY, ' font-family="DejaVu Sans Mono, Consolas, monospace" xml:space="preserve"')


def arrow(points, colour):
    """A line through the points, with a head at its last one."""
    line = " ".join(f"{x:g},{y:g}" for x, y in points)
    return f'<polyline points="{line}" fill="none" stroke="{colour}" stroke-width="1.4" marker-end="url(#{colour[1:]})"/>'


def box(x, width, part, with_offset=True):
    """A part of the file: the offset of its first byte, and its lines of words."""
    kind, at, length, words = part
    y, height = y_of(at), y_of(at + length) - y_of(at)
    dash = ' stroke-dasharray="3 3"' if kind == "gap" else ""
    shapes = [f'<rect x="{x:g}" y="{y:g}" width="{width}" height="{height:g}" fill="{FILL[kind]}" stroke="{LINE[kind]}"{dash}/>']
    first = y + height / 2 - 6.5 * len(words) + 10.5
    if with_offset:
        shapes.append(offset_text(x, first, at))
    for k, line in enumerate(words):
        bold = ' font-weight="bold"' if k == 0 and line.split(":")[0] in HEADS else ""
        shapes.append(text(x + (30 if with_offset else 7), first + 13 * k, line, more=bold))
    return shapes


# ---- the parts of a file


def header_parts(r):
    names = ("sequences", "programs", "CPI", "marks", "extensions")
    yield "header", 0, 4, [f"letters {r.file[:4].decode()}"]
    yield "header", 4, 4, ["version " + r.file[4:8].hex(" ")]
    for k, name in enumerate(names):
        yield "header", 8 + 4 * k, 4, [f"{name} at {r.number(8 + 4 * k, 4, 1)}"]
    yield "header", 28, 12, ["unused"]
    yield "clip", 40, 180, ["ClipInfo, 180 bytes", "(drawn shorter)"]


def counted(number, word):
    return f"{number} {word}" + ("" if number == 1 else "s")


def sequence_parts(r):
    start = r.starts()[0]
    yield "sequences", start, 6, ["sequences: " + counted(len(r.atcs), "ATC")]
    for k, (at, _, stcs, _) in enumerate(r.atcs):
        yield "sequences", at, 6, [f"ATC {k}: " + counted(stcs, "STC")]
    for k, (at, _, _, first, end) in enumerate(r.stcs):
        yield "sequences", at, 14, [f"STC {k}", f"start {place45(first, k)}", f"end {place45(end, k)}"]


def program_parts(r):
    start = r.starts()[1]
    yield "programs", start, 6, ["programs: " + counted(len(r.programs), "program")]
    for k, (at, _, _, streams) in enumerate(r.programs):
        yield "programs", at, 8, [f"program {k}: " + counted(streams, "stream")]
    for k, (at, pid, size) in enumerate(r.streams):
        yield "programs", at, 3 + size, [f"stream {k}: PID {pid}"]


def cpi_parts(r):
    start = r.starts()[2]
    yield "cpi", start, 8, ["CPI: " + counted(len(r.maps), "map"), f"length {r.number(start, 4, 6)}"]
    for k, m in enumerate(r.maps):
        counts = f"{m['coarse_count']} coarse, {counted(m['fine_count'], 'fine row')}"
        yield "cpi", m["at"], 12, [f"header of map {k}", counts, f"address {m['address']}"]
    m = r.maps[0]
    behind = start + 8 + 12 * len(r.maps)
    yield "gap", behind, m["body"] - behind, ["gap"]
    yield "cpi", m["body"], 4, [f"body: fine address {m['fine_address']}"]
    for k, c in enumerate(m["coarse"]):
        yield "coarse", c["at"], 8, [f"coarse {k}: from fine {c['first']}", f"time {c['time']}"]
    for k, f in enumerate(m["fine"]):
        yield "fine", f["at"], 4, [f"fine {k}: time {f['time']}"]


def mark_parts(r):
    yield "marks", r.starts()[3], 6, [f"marks: count {r.marks}"]


# ---- one file


def overlaps(a, b):
    return a[1] < b[1] + b[2] and b[1] < a[1] + a[2]


def lanes_of(r):
    """The parts that make up the bar, and those that read bytes of the bar a second time."""
    bar, second = [], []
    for parts in (header_parts, cpi_parts, program_parts, sequence_parts, mark_parts):
        for part in parts(r):
            (second if any(overlaps(part, other) for other in bar) else bar).append(part)
    return bar, second


def side_places(second, x):
    """Where the parts stand that are read a second time: the left edge of each section's own lane."""
    kinds = {part[0] for part in second}
    places, right = {}, x + BAR
    if "sequences" in kinds:
        places["sequences"] = x - SIDE["sequences"]
    for kind in ("programs", "marks"):
        if kind in kinds:
            places[kind] = right
            right += SIDE[kind]
    return places, right


def file_picture(r, x, name, words):
    """The bar with its arrows; x is its left edge."""
    bar, second = lanes_of(r)
    places, right = side_places(second, x)
    end = len(r.file)
    shapes = [text(x, 34, name, 14, more=' font-weight="bold"'), text(x, 54, words, 11, GREY)]
    for part in reversed(second):
        shapes += spill(part, bar, x)
    for part in bar:
        shapes += box(x, BAR, part)
    for part in second:
        shapes += box(places[part[0]], SIDE[part[0]], part, False)
    shapes += [offset_text(x, y_of(end) + 15, end), text(x + 30, y_of(end) + 15, "file end", colour=GREY)]
    return shapes + start_arrows(r, x, places, right) + map_arrows(r, x) + cpi_end(r, x)


def spill(part, bar, x):
    """The bytes of a part that nothing of the bar reads: a strip of its colour."""
    kind, at, length, _ = part
    y, height = y_of(at), y_of(at + length) - y_of(at)
    if all(any(b <= k < b + n for _, b, n, _ in bar) for k in range(at, at + length)):
        return []
    return [f'<rect x="{x:g}" y="{y:g}" width="{BAR}" height="{height:g}" fill="{FILL[kind]}" stroke="{LINE[kind]}"/>']


def start_arrows(r, x, places, right):
    """From each start in the header to its section; to one that is read a second time, from above."""
    shapes = []
    for k, (kind, start) in enumerate(zip(("sequences", "programs", "cpi", "marks"), r.starts())):
        y, lane = y_of(10 + 4 * k), right + 12 + 11 * k
        points = [(x + BAR, y), (lane, y)]
        if kind in places:
            middle, above = places[kind] + SIDE[kind] / 2, y_of(start) - (10 if kind == "marks" else 20)
            points += [(lane, above), (middle, above), (middle, y_of(start))]
        else:
            points += [(lane, y_of(start) + 5), (x + BAR + 1, y_of(start) + 5)]
        shapes.append(arrow(points, LINE[kind]))
    return shapes


def map_arrows(r, x):
    """From each map header to its body, from the body to the fine rows, and from coarse rows to their first fine rows."""
    m = r.maps[0]
    fine = [f["at"] for f in m["fine"]]
    hops = [(header["at"] + 6, header["body"] + 1, 40 + 9 * k) for k, header in enumerate(r.maps)]
    hops.append((m["body"] + 3, fine[0] + 1, 40))
    hops += [(c["at"] + 4, fine[c["first"]] + 2, 11 + 9 * k) for k, c in enumerate(m["coarse"])]
    return [arrow([(x, y_of(a)), (x - lane, y_of(a)), (x - lane, y_of(b)), (x - 1, y_of(b))], LINE["cpi"]) for a, b, lane in hops]


def cpi_end(r, x):
    """A line at the CPI end, with words where no arrow runs: right of it where rows pass it, else left."""
    start = r.starts()[2]
    end = start + 4 + r.number(start, 4, 6)
    place, y = x + BAR + 9 if r.maps[0]["fine"][-1]["at"] >= end else x - 50, y_of(end)
    line = f'<line x1="{x - 6}" y1="{y:g}" x2="{x + BAR + 6}" y2="{y:g}" stroke="{RED}" stroke-width="1.6" stroke-dasharray="5 3"/>'
    return [line, text(place, y + 3.5, "CPI end", 10, RED)]


# ---- the whole

NOTES = [
    "What overlaps:",
    "the header is read a second time, as the sequences;",
    "both map headers have the same body;",
    "three fine rows pass the CPI end;",
    "the last of them is also the length, which is ignored,",
    "of the programs and of the marks.",
]
ARROWS = [
    (LINE["cpi"], "on the left: map header to body, body to its first fine row, coarse row to the first fine row that it names"),
    (LINE["header"], "on the right: each start in the header to its section"),
]


def head(colour):
    return (f'<marker id="{colour[1:]}" viewBox="0 0 8 8" refX="7" refY="4" markerWidth="7" markerHeight="7" orient="auto">'
            f'<path d="M0,0.5 L8,4 L0,7.5 z" fill="{colour}"/></marker>')


def picture(readings):
    """The three files side by side: the plain one, the backwards one, the overlapping one."""
    size = f'viewBox="0 0 {WIDTH} {HEIGHT}" width="{WIDTH}" height="{HEIGHT}"'
    shapes = [f'<svg xmlns="http://www.w3.org/2000/svg" {size} font-family="DejaVu Sans, Arial, Helvetica, sans-serif">',
              "<title>The bytes of three clip files: sections, rows, and what points where</title>",
              "<defs>" + "".join(head(c) for c in sorted(set(LINE.values()))) + "</defs>",
              f'<rect width="{WIDTH}" height="{HEIGHT}" fill="#ffffff"/>']
    shapes += file_picture(readings[0], 60, "lecture.clpi", "sections one behind the other")
    shapes += file_picture(readings[1], 340, "lecture_backwards.clpi", "the same sections, the last one first")
    shapes += file_picture(readings[2], 702, "lecture_overlapping.clpi", "sections and rows over one another")
    for k, line in enumerate(NOTES):
        shapes.append(text(702, 812 + 17 * k, line, 12, more=' font-weight="bold"' if k == 0 else ""))
    for k, (colour, words) in enumerate(ARROWS):
        y = HEIGHT - 34 + 18 * k
        shapes += [arrow([(60, y - 4), (86, y - 4)], colour), text(94, y, words, colour=GREY)]
    return "\n".join(shapes + ["</svg>"]) + "\n"
