"""docs/MINUTES.md: the text of page.md with every {{name}} replaced by what is computed from the sample files."""
import re

import errors
import minute
from blocks import binary, bits, block, clock, dump, hexed, table
from minute import atc_fields, line_of, sequences_fields, starts_fields, stc_fields
from reading import Reading
from times import length90, place90, plain

PACKET_BYTES = 192
EXAMPLE = 5  # the entry that is joined in the walk
COARSE, FINE = 524288, 512  # what the coarse and the fine time count, in 90 kHz ticks
PACKETS = 131072  # and the high part of a coarse packet, in packets


# ---- definitions, quoted


def spec(root, file):
    return (root / "crates/format/specs" / f"{file}.antt").read_text()


def definition(root, file, name, part=""):
    """The lines of a definition behind its type; those with a part in them."""
    lines = spec(root, file).splitlines()
    first = next(k for k, line in enumerate(lines) if re.match(rf"\w+ pub {name} :", line)) + 1
    behind = next((k for k in range(first, len(lines)) if not lines[k].strip()), len(lines))
    return [line for line in lines[first:behind] if part in line]


def widths(root, name):
    return [int(w) for w in re.findall(r"\d+", definition(root, "EntryPoints", name)[0])]


# ---- the second walk


def coarse_table(r):
    rows = []
    for k, c in enumerate(r.maps[0]["coarse"]):
        rows.append((k, c["at"], f"`{hexed(c['bytes'])}`", c["first"], c["time"], plain(c["packet"])))
    return table(["coarse row", "offset", "bytes", "first fine row", "time", "packet"], rows)


def fine_table(r):
    rows = []
    for k, f in enumerate(r.maps[0]["fine"]):
        rows.append((k, f["at"], f"`{hexed(f['bytes'])}`", f["angle"], f["i_end"], plain(f["time"]), plain(f["packet"])))
    return table(["fine row", "offset", "bytes", "angle", "I-end", "time", "packet"], rows)


def entry_table(r):
    m, rows = r.maps[0], []
    for e in m["entries"]:
        c, f = m["coarse"][e["coarse"]], m["fine"][e["k"]]
        time = f"{c['time']} × {length90(COARSE)} OR {plain(f['time'])} × {FINE}"
        packet = f"{c['packet'] // PACKETS} × {plain(PACKETS)} + {plain(f['packet'])}"
        rows.append((e["k"], e["coarse"], time, place90(e["time"], 0), clock(e["time"]), packet, plain(e["packet"])))
    return table(["fine row", "coarse row", "joined time", "time", "is", "joined packet", "packet"], rows)


def or_block(c, f):
    """The coarse and the fine time as bits, joined by OR and added, with a mark below the bit that they share."""
    high, low = c["time"] << 19, f["time"] << 9
    lines = [
        ("coarse", f"{c['time']} × {length90(COARSE)}", high, ""), ("fine", f"{plain(f['time'])} × {FINE}", low, ""),
        ("OR", "", high | low, place90(high | low, 0)), ("sum", "", high + low, f"{place90(high + low, 0)}, which is wrong"),
    ]
    rows = [f"{name:<7}{product:>13}  {binary(value, [12, 1, 10, 9])}  {result}" for name, product, value, result in lines]
    return block(rows + [" " * (7 + 13 + 2 + 12 + 1) + "^ bit 19"])


def packet_block(c, f, packet):
    """The coarse packet, the fine packet below its low bits, and the packet of both."""
    lines = [
        ("coarse packet", c["packet"], binary(c["packet"], [15, 17])), ("fine packet", f["packet"], " " * 16 + binary(f["packet"], [17])),
        ("packet", packet, binary(packet, [15, 17])),
    ]
    return block(f"{name:<14}{plain(value):>11}  {digits}" for name, value, digits in lines)


def map_values(r, root):
    """From the CPI to the map's body."""
    file, cpi, m = r.file, r.starts()[2], r.maps[0]
    header, at, body, length = widths(root, "header_widths"), m["at"], m["body"], r.number(cpi, 4, 6)
    return {
        "dump_cpi": dump(file, [(cpi, 4, "length"), (cpi + 4, 2, "type"), (cpi + 6, 1, "spare"), (cpi + 7, 1, "number of maps")]),
        "cpi": cpi, "cpi_length": length, "cpi_end": cpi + 4 + length,
        "dump_header": dump(file, [(at, 2, "PID"), (at + 2, 6, "bit fields"), (at + 8, 4, "address")]), "map_line": line_of(r, "map"),
        "header_width": sum(header), "bits_header": bits(m["word"], header, ["spare", "type", "coarse rows", "fine rows"]),
        "address": m["address"], "body": body, "fine_address": m["fine_address"], "fine_at": m["fine_at"],
        "coarse_at": m["coarse"][0]["at"], "dump_body": dump(file, [(at + 12, body - at - 12, "unused"), (body, 4, "fine address")]),
    }


def row_values(r, root):
    """The coarse rows and the fine rows."""
    m, e = r.maps[0], r.maps[0]["entries"][EXAMPLE]
    c, f = m["coarse"][e["coarse"]], m["fine"][e["k"]]
    return {
        "coarse_example": e["coarse"], "coarse_example_bytes": f"`{hexed(c['bytes'])}` at {c['at']}",
        "bits_coarse": bits(c["word"], widths(root, "coarse_widths"), ["first fine row", "time", "packet"]),
        "fine_example": e["k"], "fine_example_bytes": f"`{hexed(f['bytes'])}` at {f['at']}",
        "bits_fine": bits(f["word"], widths(root, "fine_widths"), ["angle", "I-end", "time", "packet"]),
        "coarse_table": coarse_table(r), "fine_table": fine_table(r),
    }


def entry_values(r):
    """An entry's time and packet."""
    m, e = r.maps[0], r.maps[0]["entries"][EXAMPLE]
    c, f = m["coarse"][e["coarse"]], m["fine"][e["k"]]
    return {
        "coarse_unit": length90(COARSE), "fine_unit": FINE, "shared_bit": 19, "fine_half": plain(1024), "or_block": or_block(c, f),
        "coarse_time_example": c["time"], "fine_time_example": plain(f["time"]),
        "time_example": place90(e["time"], 0), "time_example_words": clock(e["time"]), "ep_line": line_of(r, "ep"),
        "packet_unit": plain(PACKETS), "packet_block": packet_block(c, f, e["packet"]), "packet_high": c["packet"] // PACKETS,
        "coarse_packet_example": plain(c["packet"]), "fine_packet_example": plain(f["packet"]),
        "packet_example": plain(r.seek(e["time"])), "entry_table": entry_table(r), "listing": listing(r),
    }


def listing(r):
    """The listing, whose rate and numbers of packets are no times."""
    plain(r.number(52, 4, 3))
    plain(r.number(56, 4, 3))
    return block(r.listing().splitlines())


def stream_values(r):
    """What the player does with an entry: where it reads, and how far in that is."""
    e, rate = r.maps[0]["entries"][EXAMPLE], r.number(52, 4, 3)
    packets = rate // PACKET_BYTES
    return {
        "packet_bytes": PACKET_BYTES, "byte_example": plain(e["packet"] * PACKET_BYTES), "rate": plain(rate), "rate_packets": plain(packets),
        "seconds_example": plain(e["packet"] // packets), "packet1": plain(r.stcs[1][2]),
    }


# ---- the other layouts

HEADER = [
    (0, 4, "letters"), (4, 4, "version"), (8, 4, "sequences' start"), (12, 4, "programs' start"), (16, 4, "CPI's start"),
    (20, 4, "marks' start"), (24, 4, "extensions' start"), (28, 12, "unused bytes"),
]


def header_as_sequences(r):
    """The fields of sequences that start at 0, each with what the header has in its bytes."""
    fields = sequences_fields(0)
    for k, (at, *_) in enumerate(r.atcs):
        fields += atc_fields(at, k)
    fields += stc_fields(r.stcs[0][0], 0)
    wide = max(len(words) for _, _, words, *_ in fields)
    shared = [", ".join(name for a, m, name in HEADER if a < at + n and at < a + m) for at, n, *_ in fields]
    return [(at, n, f"{words:<{wide}}  in the header: {names}", *shown) for (at, n, words, *shown), names in zip(fields, shared)]


def rewritten_bytes(r):
    """How long the new file is: the front, and each section with its rows."""
    size = 220 + 6 + 6 * len(r.atcs) + 14 * len(r.stcs) + 6 + 8 * len(r.programs) + 8 + 12 * len(r.maps) + 6
    size += sum(3 + body for _, _, body in r.streams)
    for m in r.maps:
        keys = [(e["time"] // 524288, e["packet"] // 131072) for e in m["entries"]]
        size += 4 + 8 * sum(k == 0 or keys[k] != keys[k - 1] for k in range(len(keys))) + 4 * len(keys)
    return size


def layout_values(first, backwards, over):
    cpi, shared = over.starts()[2], over.starts()[1]
    language = first.streams[1][0] + 5
    capitals = first.file[language:language + 3]
    shared_fields = [
        (shared, 4, "fine row 5; the programs' length; the marks' length"),
        (shared + 4, 2, "a spare byte and the number of programs; the number of marks"),
    ]
    return {
        "dump_backwards": dump(backwards.file, starts_fields()), "dump_overlapping": dump(over.file, header_as_sequences(over)),
        "overlap_end": cpi + 4 + over.number(cpi, 4, 6), "dump_shared": dump(over.file, shared_fields),
        "listing_overlapping": listing(over), "minutes_overlapping": over.minutes(0, over.start(0)),
        "rewritten_bytes": rewritten_bytes(first), "rewritten_overlapping_bytes": rewritten_bytes(over),
        "capitals": hexed(capitals), "small": hexed(capitals.lower()),
    }


# ---- the whole


def call(root):
    """The statements of the example that read a file and ask for the minutes."""
    text = (root / "examples/minutes.c").read_text()
    calls = [re.search(rf"^( *)[^\n]*\b{name}\([^;]*;", text, re.M) for name in ("read_clip", "clpi_minutes_remaining")]
    return block(line.removeprefix(match[1]) for match in calls for line in match[0].splitlines())


def values(files, root):
    readings = [Reading(data) for data in files.values()]
    first = readings[0]
    known = {
        **minute.values(first), **map_values(first, root), **row_values(first, root), **entry_values(first), **stream_values(first),
        **layout_values(*readings), **errors.values(files), "call": call(root),
    }
    return {name: str(value) for name, value in known.items()}


def page(files, root):
    known = values(files, root)

    def filled(match):
        words = match[1].split()
        return block(definition(root, *words[1:])) if words[0] == "def" else known[match[1]]

    text = (root / "tools/lesson/page.md").read_text()
    return "<!-- made by tools/lesson/make from tools/lesson/page.md: change it there -->\n" + re.sub(r"\{\{(.+?)\}\}", filled, text)
