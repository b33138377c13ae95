"""The sample files of docs/MINUTES.md: one clip laid out plainly, backwards and overlapping."""

# two lectures, each by a clock of its own: start and end in 45 kHz ticks, 40 min 30 s and 10 min 40 s apart
FIRST = (54 * 45000, (41 * 60 + 24) * 45000)
LATER = (15 * 45000, (10 * 60 + 55) * 45000)
SECOND = 31250  # packets of 192 bytes in a second, at 6,000,000 bytes a second



def entry(second):
    """(time in 90 kHz ticks, packet) at a second of the first clock; times are multiples of 512, so the next one is taken."""
    return -(-90000 * second // 512) * 512, (second - FIRST[0] // 45000) * SECOND


# three pairs of entries of the first lecture: where it begins, a little later, and at minute 40 of its clock
ENTRIES = [entry(second) for second in (54, 55, 61, 62, 2399, 2400)]

CLIP_INFO = 40
SECTIONS = 220  # where the first section stands, behind a ClipInfo of 176 bytes and its length
GAP = bytes(6)  # between the map headers and the body: no rule wants the body right behind them


def be(width, value):
    return value.to_bytes(width, "big")


def section(count, items):
    """The length of what follows, a spare byte, a count, the items."""
    return be(4, 2 + len(items)) + bytes([0, count]) + items


def sequences():
    """One ATC with two STCs: where the second begins, its clock begins again."""
    stcs = [(0x1001, 0, *FIRST), (0x1001, 2430 * SECOND, *LATER)]
    rows = b"".join(be(2, pid) + be(4, packet) + be(4, start) + be(4, end) for pid, packet, start, end in stcs)
    return section(1, be(4, 0) + bytes([len(stcs), 0]) + rows)


def programs():
    """One program: a video stream, and an audio stream with its language in capitals."""
    video = be(2, 0x1011) + bytes([3, 0x1B, 0x61, 0x30])
    audio = be(2, 0x1100) + bytes([5, 0x81, 0x31]) + b"ENG"
    return section(1, be(4, 0) + be(2, 0x0100) + bytes([2, 0]) + video + audio)


def map_header(pid, kind, coarse, fine, address):
    return be(2, pid) + be(6, kind << 34 | coarse << 18 | fine) + be(4, address)


def coarse_rows():
    """Each names its first fine row, and holds that entry's packet in full. The first names row 1, not row 0."""
    return [be(8, first << 46 | ENTRIES[first][0] >> 19 << 32 | ENTRIES[first][1]) for first in (1, 2, 4)]


def fine_rows():
    """The low parts of time and packet, with I-end 1 and, in the last row, the angle bit."""
    return [be(4, (k == 5) << 31 | 1 << 28 | (time >> 9 & 0x7FF) << 17 | packet & 0x1FFFF) for k, (time, packet) in enumerate(ENTRIES)]


def cpi(maps, fine):
    """Map headers that all name one body: (PID, type, coarse rows, fine rows). The fine rows are handed over as bytes."""
    address = 2 + 12 * len(maps) + len(GAP)
    headers = b"".join(map_header(*m, address) for m in maps)
    coarse = b"".join(coarse_rows())
    rest = be(2, 1) + bytes([0, len(maps)]) + headers + GAP + be(4, 4 + len(coarse)) + coarse + fine
    return be(4, len(rest)) + rest


MARKS = be(4, 2) + be(2, 1)
VIDEO_MAP = (0x1011, 1, 3, 6)
AUDIO_MAP = (0x1100, 3, 1, 2)


def front(version, starts, unused=bytes(12)):
    """The header and the ClipInfo. Starts: sequences, programs, CPI, marks, extensions."""
    head = b"HDMV" + version + b"".join(be(4, s) for s in starts) + unused
    info = be(4, 176) + bytes([0, 0, 1, 1]) + bytes(4) + be(4, 192 * SECOND) + be(4, 3070 * SECOND)
    info += bytes(188 - CLIP_INFO - len(info)) + bytes([0x80, 0]) + b"HDMV"
    return head + info + bytes(SECTIONS - len(head) - len(info))


def laid(order):
    """The sections one behind the other, in this order."""
    parts = {"sequences": sequences(), "programs": programs(), "cpi": cpi([VIDEO_MAP], b"".join(fine_rows())), "marks": MARKS}
    places, rest = {}, b""
    for name in order:
        places[name] = SECTIONS + len(rest)
        rest += parts[name]
    return front(b"0200", [places[name] for name in ("sequences", "programs", "cpi", "marks")] + [0]) + rest


def overlapping():
    """The header read as the sequences, with an STC in its unused bytes; two maps with one body, whose last three fine
    rows pass the CPI end; the last of them is also the length, which is ignored, of programs and marks."""
    fine = fine_rows()
    index = cpi([VIDEO_MAP, AUDIO_MAP], b"".join(fine[:3]))
    index += b"".join(fine[3:5])
    shared = SECTIONS + len(index)
    stc = bytes(2) + be(4, FIRST[0]) + be(4, FIRST[1]) + bytes(2)
    return front(bytes([0, 3, 0, 0]), [0, shared, SECTIONS, shared, 0], stc) + index + fine[5] + programs()[4:]


def files():
    """Each sample's name with its bytes."""
    return {
        "lecture": laid(["sequences", "programs", "cpi", "marks"]),
        "lecture_backwards": laid(["marks", "cpi", "programs", "sequences"]),
        "lecture_overlapping": overlapping(),
    }
