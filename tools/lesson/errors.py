"""The errors that the page shows, with the numbers that they give, and the changes that it asks the reader to try."""
from collections import namedtuple

import reading
from blocks import clock, from_start, hexed, listed, table, with_minutes
from reading import MINUTE, Reading, Refused
from times import length45, length90, place45, place90, plain

FORTY = 40 * MINUTE  # minute 40 of the first clock, where the last entry is
IN = 25 * MINUTE  # from the first start to the place that the walk asks at
START = from_start(0)  # the start of an STC, as ./clip takes it

# ---- what is asked: words, the answer of a reading, and what ./clip minutes is called with to ask the same, if it can be

Asked = namedtuple("Asked", "words answer arguments")


def minutes_at(stc, at, words):
    """The figure at a place, as the table of errors names it."""
    return Asked(f"minutes at STC {stc}, {place90(at, stc)} ({words})", lambda r: r.minutes(stc, at), (stc, at))


def ticks_of(r, stc, time):
    """The ticks that a time of a command is; an STC that is not there has no start, and is refused at any time."""
    if time == START:
        return r.start(stc) if stc < len(r.stcs) else 0
    return time


def command(*place):
    """The figure of a changed copy at an STC and a time, ticks or START; without them at the start of the first STC."""
    stc, time = place or (0, START)
    if time != START:
        place90(time, stc)
    words = " ".join(map(str, ("./clip minutes copy.clpi", *place)))
    return Asked(f"`{words}`", lambda r: r.minutes(stc, ticks_of(r, stc, time)), place)


def entry(k):
    """The line of the listing."""
    return Asked(f"entry {k}", lambda r: "`ep {time} {packet}`".format(**shown_entry(r.maps[0]["entries"][k])), None)


def shown_entry(e):
    """An entry, right or wrong, whose numbers are shown: all are on the clock of the first STC."""
    place90(e["time"], 0)
    plain(e["packet"])
    return e


def entries(m):
    """How many entries a map has."""
    return Asked(f"entries of map {m}", lambda r: len(r.maps[m]["entries"]) if m < len(r.maps) else "no such map", None)


def seek(at):
    """The packet that is found for a time."""
    return Asked(f"packet to read from at {place90(at, 0)}", lambda r: plain(r.seek(at)), None)


def answer(r, asked):
    """What a reading answers, or by which number it refuses the file or the place."""
    if r.refusal:
        return f"refused {r.refusal}"
    try:
        return str(asked.answer(r))
    except Refused as refused:
        return f"refused {refused.args[0]}"


# ---- changes to try: the byte at an offset, and what is asked then

PLAIN, BACKWARDS, OVERLAPPING, CROSSED = "lecture", "lecture_backwards", "lecture_overlapping", "crossed"
Change = namedtuple("Change", "at byte asked")


def changes():
    """Each change by a name."""
    first, later, forty = command(), command(1, START), command(0, FORTY)
    return {
        "end": Change(242, 0x05, [first, forty]), "start": Change(238, 0x01, [first, forty]),
        "later_end": Change(256, 0x00, [first, later]), CROSSED: Change(252, 0x02, [first, later]),
        "one_stc": Change(230, 0x01, [first, later]), "no_stc": Change(230, 0x00, [first]), "no_atc": Change(225, 0x00, [first]),
        "shared": Change(337, 0x9A, [entry(5)]), "coarse": Change(321, 0x0A, [entry(0)]),
        "first": Change(320, 0x00, [entry(0)]), "i_end": Change(342, 0x0A, [entry(0)]),
        "address": Change(307, 0x48, [entry(0)]), "fine_address": Change(317, 0x35, [entry(0)]),
        "fine_at_end": Change(317, 0x34, [entry(0)]),
    }


def changed(file, change):
    """A file with one byte changed."""
    return file[:change.at] + bytes([change.byte]) + file[change.at + 1:]


def change_rows(old, of):
    """(number, change, what is asked, answer) for all that is asked; the answers are those of a file made from each change."""
    for number, change in enumerate(changes().values(), 1):
        for k, asked in enumerate(change.asked):
            yield "" if k else number, change, asked.words, answer(Reading(of(old, change)), asked)


def change_table(old):
    """What is asked before each change."""
    rows = [(number, change.at, f"`{old[change.at]:02X}`", f"`{change.byte:02X}`", words, before)
            for number, change, words, before in change_rows(old, lambda file, _: file)]
    return table(["", "offset", "from", "to", "what is asked", "before"], rows)


def change_answers(old):
    """And after it."""
    rows = [(number, change.at, f"`{change.byte:02X}`", words, after) for number, change, words, after in change_rows(old, changed)]
    return table(["", "offset", "to", "what is asked", "after"], rows)


def try_answers(old):
    """What the questions behind the changes ask for, and each change's number."""
    after = {name: Reading(changed(old, change)) for name, change in changes().items()}
    r = Reading(old)
    part = r.stcs[0][4] - after["end"].stcs[0][4]
    numbers = {f"change_{name}": number for number, name in enumerate(after, 1)}
    return {
        **numbers, "try_part": length45(part), "try_part90": length90(r.doubled(part)), "try_end": place90(after["end"].end(0), 0),
        "try_start": place90(after["start"].start(0), 0),
        "try_crossed": answer(after[CROSSED], command(1, START)), "try_one": answer(after["one_stc"], command(1, START)),
        "try_sum": place90(reading.TimesAdded(after["shared"].file).maps[0]["entries"][5]["time"], 0),
        "try_or": place90(after["shared"].maps[0]["entries"][5]["time"], 0), **try_addresses(r, after),
    }


def try_addresses(r, after):
    """Where each changed address leads, and by which number the file is refused."""
    m, told = r.maps[0], changes()
    body = r.body_at(r.starts()[2], told["address"].byte)
    past, at_end = (m["body"] + told[name].byte for name in ("fine_address", "fine_at_end"))
    return {
        "try_body": body, "try_past": past, "try_at_end": at_end, "try_rows_end": at_end + 4 * m["fine_count"],
        **{f"try_{name}": answer(after[name], entry(0)) for name in ("address", "fine_address", "fine_at_end")},
    }


# ---- errors: words, the wrong reading, the same error in the code (or none), and where it shows: (file, what is asked)


def figure_errors(r):
    """Errors of the minute."""
    start, end = minutes_at(0, r.start(0), "its start"), minutes_at(0, r.end(0), "its end")
    later_start, later_end = minutes_at(1, r.start(1), "its start"), minutes_at(1, r.end(1), "its end")
    forty, walk = minutes_at(0, FORTY, f"minute {FORTY // MINUTE} of its clock"), minutes_at(0, r.start(0) + IN, clock(IN) + " in")
    return [
        ("45 kHz ticks read as 90 kHz ticks", reading.TicksNotDoubled, "ticks/must-fail/tick_not_doubled",
         [(PLAIN, start), (PLAIN, forty)]),
        ("the later STCs forgotten", reading.LaterForgotten, "sequence_queries/must-fail/later_rows_forgotten",
         [(PLAIN, start), (PLAIN, end)]),
        ("the STCs before counted too", reading.EarlierCounted, None, [(PLAIN, later_start), (PLAIN, later_end)]),
        ("or the durations added from the first STC on", reading.AllCounted, "sequence_queries/must-fail/rows_from_the_first",
         [(PLAIN, later_start)]),
        ("a time before the start not raised to it", reading.TimeNotRaised, "sequence_queries/must-fail/time_not_raised",
         [(PLAIN, minutes_at(0, 0, "before its start"))]),
        ("the time taken off the latest end of all STCs", reading.LatestEnd, "sequence_queries/must-fail/latest_end",
         [(PLAIN, start), (PLAIN, end), (PLAIN, later_start), (PLAIN, later_end)]),
        ("minutes rounded for each STC, then added", reading.RoundedRowByRow, "sequence_queries/must-fail/rounded_row_by_row",
         [(PLAIN, start), (PLAIN, walk)]),
        ("an end before its start counted as negative", reading.NegativeDuration,
         "sequence_queries/must-fail/rows_from_the_first`, `below_zero", [(CROSSED, start)]),
        ("or wrapped to 32 bits", reading.WrappedDuration, "sequence_queries/must-fail/latest_end`, `wrapped_duration",
         [(CROSSED, start)]),
    ]


def index_errors(r):
    """Errors of the entries and of the layout."""
    forty, start = seek(FORTY), minutes_at(0, r.start(0), "its start")
    return [
        ("a coarse time added to a fine time", reading.TimesAdded, "ep_rows/must-fail/times_added", [(PLAIN, entry(5)), (PLAIN, forty)]),
        ("the coarse row's packet taken for the entry's own", reading.CoarsePacket, "ep_entries/must-fail/coarse_packet_for_own",
         [(PLAIN, entry(0)), (PLAIN, forty)]),
        ("the sections taken to stand one behind the other", reading.OneBehindTheOther, None,
         [(BACKWARDS, start), (BACKWARDS, entries(0)), (OVERLAPPING, start)]),
        ("each map taken to have rows of its own", reading.RowsOfItsOwn, None, [(OVERLAPPING, entries(1))]),
        ("a map address counted from the CPI start", reading.AddressFromCpiStart, "cpi/must-fail/address_from_cpi_start",
         [(PLAIN, entry(5)), (PLAIN, forty)]),
        ("rows stopped at the CPI end", reading.RowsStopAtCpiEnd, None, [(OVERLAPPING, entries(0)), (OVERLAPPING, forty)]),
        ("or rows past the CPI end refused", reading.RowsPastCpiEndRefused, "cpi/must-fail/rows_stop_at_cpi_end",
         [(OVERLAPPING, entries(0))]),
        ("fine rows started only at the first coarse reference", reading.FromFirstReference, None,
         [(PLAIN, entries(0)), (PLAIN, seek(r.maps[0]["entries"][0]["time"]))]),
        ("or zeros taken for the coarse row before it", reading.ZerosBeforeFirstReference,
         "ep_entries/must-fail/fine_rows_from_first_reference", [(PLAIN, entry(0))]),
        ("a zero sequence start rejected", reading.ZeroStartRejected, "clip_sections/must-fail/zero_start_refused", [(OVERLAPPING, start)]),
    ]


def with_crossed(files):
    """The sample files, and the one with an end before its start."""
    return {**files, CROSSED: changed(files[PLAIN], changes()[CROSSED])}


def error_rows(files):
    """(number, error, file, what is asked, right, wrong, edit) for each way in which an error shows; an "or" has no number."""
    number, r, files = 0, Reading(files[PLAIN]), with_crossed(files)
    for words, wrong, edit, places in figure_errors(r) + index_errors(r):
        number += not words.startswith("or ")
        for k, (name, asked) in enumerate(places):
            head = ("", "", "") if k else ("" if words.startswith("or ") else number, words, edit or "-")
            right, given = answer(Reading(files[name]), asked), answer(wrong(files[name]), asked)
            yield head[0], head[1], name, asked, right, given, head[2]


def file_words(name):
    """A file as the table names it."""
    change = changes()[CROSSED]
    return f"`{PLAIN}` with `{change.byte:02X}` at {change.at}" if name == CROSSED else f"`{name}`"


def error_table(files):
    """Each error with the right and the wrong number, wherever it shows."""
    rows = [(number, words, file_words(name), asked.words, right, f"**{wrong}**", f"`{edit}`" if len(edit) > 1 else edit)
            for number, words, name, asked, right, wrong, edit in error_rows(files)]
    return table(["", "error", "file", "what is asked", "right", "wrong", "in the code"], rows)


# ---- the numbers with which the page explains the wrong ones


def why_minutes(file, crossed):
    """Of the figure."""
    r, latest, bad = Reading(file), reading.LatestEnd(file), Reading(crossed)
    undoubled = reading.TicksNotDoubled(file).left(0, r.start(0))
    unraised, every = reading.TimeNotRaised(file).left(0, 0), reading.AllCounted(file).left(1, r.start(1))
    jump, over = latest.left(1, r.start(1)), latest.left(1, r.end(1))
    *_, start, end = bad.stcs[1]
    negative, wrapping = reading.NegativeDuration(crossed).left(0, r.start(0)), reading.WrappedDuration(crossed)
    wrapped = wrapping.duration(start, end)
    return {
        "why_undoubled": with_minutes(undoubled), "why_every": with_minutes(every), "why_unraised": with_minutes(unraised),
        "why_jump": with_minutes(jump), "why_over": with_minutes(over), "why_before_jump": latest.minutes(0, r.end(0)),
        "why_after_jump": latest.minutes(1, r.start(1)), "why_at_end": latest.minutes(1, r.end(1)),
        "why_rest0": r.left_of(0, 0) % MINUTE // 90000, "why_rest1": r.left_of(1, 0) % MINUTE // 90000,
        "why_crossed_start": place45(start, 1), "why_crossed_end": place45(end, 1), "why_crossed_by": length45(start - end),
        "why_crossed_by90": length90(r.doubled(start - end)), "why_negative": with_minutes(negative),
        "why_wrap": plain(2**32), "why_wrapped": length45(wrapped), "why_wrapped90": length90(r.doubled(wrapped)),
        "why_wrapped_sum": with_minutes(wrapping.left(0, r.start(0))),
    }


def why_times(file):
    """Of the times added, and of the coarse packets: what is asked for is minute 40 of the clock."""
    right, added = Reading(file), reading.TimesAdded(file)
    m, forty, fallback = right.maps[0], right.found(FORTY), added.found(FORTY)
    late = added.maps[0]["entries"][forty["k"]]["time"] - forty["time"]
    named = m["coarse"][forty["coarse"]]["first"]
    return {
        "why_late": length90(late), "why_late_seconds": f"{late / 90000:.1f}",
        "why_fallback": fallback["k"], "why_fallback_clock": clock(m["entries"][fallback["k"]]["time"]),
        "why_even": listed(e["k"] for e in m["entries"] if m["coarse"][e["coarse"]]["time"] % 2 == 0),
        "why_coarse": forty["coarse"], "why_coarse_first": named, "why_named": listed(c["first"] for c in m["coarse"]),
        "why_early_packets": plain(forty["packet"] - m["entries"][named]["packet"]),
    }


def why_address(file):
    """Of the map address counted from the CPI start."""
    m = reading.AddressFromCpiStart(file).maps[0]
    fine = m["fine"][5]
    return {
        "why_body": m["body"], "why_body_fine": m["fine_address"], "why_fine_at": fine["at"], "why_fine_bytes": hexed(fine["bytes"]),
        "why_fine_time": fine["time"], "why_fine_product": f"{fine['time'] * 512:,}",
    }


def why_places(backwards, over):
    """Of the sections taken to stand one behind the other, and of the rows of a second map."""
    start = reading.OneBehindTheOther(backwards.file).starts()[0]
    m = over.maps[0]
    return {
        "why_start": start, "why_atcs": backwards.number(start + 5, 1, 4),
        "why_stcs_at": start + 10, "why_stcs": backwards.number(start + 10, 1, 4),
        "why_length_at": start + 4 + over.number(start, 4, 4), "why_shared_body": m["body"],
        "why_behind": m["fine_at"] + 4 * m["fine_count"],
    }


# ---- the whole


def values(files):
    """Every name of the errors and the changes with what stands for it."""
    old, example = files[PLAIN], changes()["end"]
    return {
        "error_table": error_table(files), "change_table": change_table(old), "change_answers": change_answers(old),
        "change_example": f"printf '\\x{example.byte:02x}' | dd of=copy.clpi bs=1 seek={example.at} conv=notrunc",
        **why_minutes(old, with_crossed(files)[CROSSED]), **why_times(old), **why_address(old),
        **why_places(Reading(files[BACKWARDS]), Reading(files[OVERLAPPING])), **try_answers(old),
    }
