"""The first walk of docs/MINUTES.md, from the header's bytes to the minute: its dumps, its tables and its numbers."""
from blocks import by_bytes, clock, dump, from_start, hexed, table, with_minutes
from errors import FORTY, IN, START, answer, command
from reading import MINUTE
from times import length45, length90, place45, place90

BOTH = 5 * MINUTE  # a time that is on either clock

# ---- the fields of dumps


def starts_fields():
    """Of the header: where each section starts."""
    return [(8 + 4 * k, 4, name) for k, name in enumerate(("sequences", "programs", "CPI", "marks", "extensions"))]


def sequences_fields(start):
    """Of what stands before the first ATC."""
    return [(start, 4, "length (ignored)"), (start + 4, 1, "spare"), (start + 5, 1, "number of ATCs")]


def atc_fields(at, k):
    """Of ATC k, before its STCs."""
    return [(at, 4, f"ATC {k}: packet"), (at + 4, 1, "number of STCs"), (at + 5, 1, "offset id")]


def stc_fields(at, k):
    """Of STC k, whose start and end are times on its own clock."""

    def shown(ticks):
        """A time on that clock."""
        return place45(ticks, k)

    return [(at, 2, f"STC {k}: PID"), (at + 2, 4, "packet"), (at + 6, 4, "start", shown), (at + 10, 4, "end", shown)]


# ---- the places asked at


def border_of(r):
    """The first time at which whole minutes are left."""
    return r.start(0) + r.left(0, r.start(0)) % MINUTE


def places(r):
    """The places in the clip for which the minutes are shown, (STC, time, words), in the order in which they are played."""
    start, end, later, last = r.start(0), r.end(0), r.start(1), r.end(1)
    border, near = border_of(r), last - MINUTE
    return [
        (0, start, "the start"), (0, border - 1, "one tick before"), (0, border, ""), (0, border + 1, "one tick after"),
        (0, start + IN, ""), (0, FORTY, ""), (0, start + FORTY, ""), (0, end, "the end"),
        (1, later, "the start"), (1, near - 1, "one tick before"), (1, near, ""), (1, near + 1, "one tick after"), (1, last, "the end"),
    ]


def places_outside(r):
    """Places that are not in the clip."""
    end, last = r.end(0), r.end(1)
    return [
        (0, 0, "before the start"), (1, 0, "before the start"), (0, end + 1, "one tick past the end"),
        (1, last + 1, "one tick past the end"), (0, 2**64 - 1, "the greatest time"),
    ]


def second_of(r, stc, at):
    """A time as ./clip takes it from the STC's start, if it is a whole second in the STC."""
    seconds = (at - r.start(stc)) / 90000
    return from_start(at - r.start(stc)) if seconds == int(seconds) and r.start(stc) <= at <= r.end(stc) else ""


def minutes_table(r, asked):
    """The figure at places, with what it is added up from."""
    rows = []
    for stc, at, words in asked:
        place90(at, stc)
        is_at = f"{clock(at)}, `{second_of(r, stc, at)}`" if second_of(r, stc, at) else ""
        left, later, total = r.left_of(stc, at), sum(r.durations(stc)), r.left(stc, at)
        whole = with_minutes(total) if total else "0"
        is_at = ": ".join(filter(None, (words, is_at)))
        rows.append((stc, f"`{at}`", is_at, length90(left), length90(later), whole, f"`{r.minutes(stc, at)}`"))
    return table(["STC", "TIME", "is", "left of it", "later ones", "sum", "`./clip minutes samples/lecture.clpi STC TIME`"], rows)


def doubled_table(r):
    """Starts and ends by both clocks."""
    rows = []
    for k, (*_, start, end) in enumerate(r.stcs):
        rows.append((f"STC {k}", place45(start, k), place90(r.start(k), k), place45(end, k), place90(r.end(k), k)))
    return table(["", "start", "doubled", "end", "doubled"], rows)


# ---- the numbers of the text


def line_of(r, word):
    """The last line of the listing that begins with a word."""
    return [line for line in r.listing().splitlines() if line.split()[0] == word][-1]


def header_values(r):
    """From the header to the STCs."""
    file, (sequences, programs, _, _) = r.file, r.starts()
    stc0, stc1 = r.stcs[0][0], r.stcs[1][0]
    low, end = file[11], file[stc0 + 10:stc0 + 14]
    return {
        "zero": 0, "one": 1, "four": 4, "six": 6, "file_bytes": len(file),
        "sequences": sequences, "sequences_bytes": programs - sequences, "dump_starts": dump(file, starts_fields()),
        "sequences_low": f"{low:02X}", "sequences_sum": f"{low // 16} × 16 + {low % 16} = {low}",
        "dump_sequences": dump(file, sequences_fields(sequences) + atc_fields(sequences + 6, 0)), "seq_line": line_of(r, "seq"),
        "stc_count": len(r.stcs), "stc0": stc0, "stc1": stc1, "stc_bytes": stc1 - stc0,
        "dump_stcs": dump(file, stc_fields(stc0, 0) + stc_fields(stc1, 1)), "end_bytes": hexed(end),
        "end_sum": by_bytes(end, lambda ticks: place45(ticks, 0)),
    }


def stc_values(r, k):
    """An STC's start, end and duration, in ticks of both clocks and in words."""
    *_, start, end = r.stcs[k]
    long = r.duration(start, end)
    return {
        f"start{k}": place45(start, k), f"start{k}_90": place90(r.start(k), k),
        f"end{k}": place45(end, k), f"end{k}_90": place90(r.end(k), k),
        f"start{k}_words": clock(r.start(k)), f"end{k}_words": clock(r.end(k)), f"long{k}_words": clock(r.doubled(long)),
        f"long{k}": length45(long), f"long{k}_90": length90(r.doubled(long)), f"long{k}_minutes": with_minutes(r.doubled(long)),
    }


def figure_values(r):
    """From the place to the minute: at the first start, and a while later."""
    start, at = r.start(0), r.start(0) + IN
    left, left_in = r.left(0, start), r.left(0, at)
    border = border_of(r)
    return {
        "second45": length45(45000), "second90": length90(90000), "seconds": 60, "minute": length90(MINUTE), "in": IN // MINUTE,
        "both_words": clock(BOTH), "doubled_table": doubled_table(r), "at": place90(at, 0),
        "left_of": length90(r.left_of(0, start)), "left_of_in": length90(r.left_of(0, at)), "from_start_in": from_start(IN),
        "left": length90(left), "left_minutes": with_minutes(left), "minutes": r.minutes(0, start),
        "left_in_minutes": with_minutes(left_in), "minutes_in": r.minutes(0, at),
        "border": place90(border, 0), "minutes_border": r.minutes(0, border + 1),
        "minutes_between": r.minutes(1, r.start(1)), "minutes_end": r.minutes(1, r.end(1)),
        "title_words": clock(left), "missing": len(r.stcs), "refused": answer(r, command(len(r.stcs), START)).split()[1],
        "at_start": START,
        "minutes_table": minutes_table(r, places(r)), "outside_table": minutes_table(r, places_outside(r)),
    }


def forty_values(r):
    """The two places that may be meant by minute 40."""
    by_clock, by_start = FORTY, r.start(0) + FORTY
    return {
        "forty": FORTY // MINUTE, "forty_ticks": place90(by_clock, 0), "forty_digits": by_clock,
        "forty_from_start": clock(by_clock - r.start(0)),
        "forty_minutes": r.minutes(0, by_clock), "forty_in": from_start(FORTY), "forty_in_ticks": place90(by_start, 0),
        "forty_in_minutes": r.minutes(0, by_start),
    }


def values(r):
    """Every name of the walk with what stands for it."""
    return {**header_values(r), **stc_values(r, 0), **stc_values(r, 1), **figure_values(r), **forty_values(r)}
