"""Makes the sample files, the pictures and docs/MINUTES.md, or checks that they are what would be made, that every name in
the page is there, that its numbers are told apart, and that the programs print what the page shows."""
import re
import sys

import errors
import layout
import page
import programs
import sample
import timelines
import times
from blocks import unpacked
from programs import ROOT
from reading import MINUTE, OneBehindTheOther, Reading


def made():
    """Each file that is made, by its path, with its bytes."""
    files = sample.files()
    results = {f"samples/{name}.clpi": data for name, data in files.items()}
    results["docs/layout.svg"] = layout.picture([Reading(data) for data in files.values()]).encode()
    results["docs/timelines.svg"] = timelines.picture(files["lecture"]).encode()
    results["docs/MINUTES.md"] = page.page(files, ROOT).encode()
    return results


# ---- checks: each yields what is wrong


def differences():
    """Files that are not what would be made."""
    for path, data in made().items():
        file = ROOT / path
        if not file.exists() or file.read_bytes() != data:
            yield f"{path} is not what tools/lesson/make makes"


def wrong_numbers():
    """Errors that give the right number or are not explained, and files that are not as alike as the page says."""
    files = sample.files()
    for _, words, name, asked, right, wrong, _ in errors.error_rows(files):
        if right == wrong:
            yield f"an error that does not show: {words}, {name}, {asked.words}: {right}"
    told = re.search(r"^Why these numbers:\n(.+?)^## ", (ROOT / "tools/lesson/page.md").read_text(), re.M | re.S)[1]
    numbers = [row[0] for row in errors.error_rows(files) if row[0]]
    if [int(number) for number in re.findall(r"^(\d+)\. ", told, re.M)] != numbers:
        yield "the numbers of the errors are not those of their explanations"
    plain = Reading(files["lecture"]).listing()
    if OneBehindTheOther(files["lecture"]).listing() != plain:
        yield "sections one behind the other: wrong on the plain file too"
    if Reading(files["lecture_backwards"]).listing() != plain:
        yield "the backwards file has another listing"


def times_apart():
    """Numbers of the page or of a picture that are two different times, or of which it is not known what they are."""
    shown, files = times.collected(made)
    yield from times.clashes(shown)
    for path in ("docs/MINUTES.md", "docs/layout.svg", "docs/timelines.svg"):
        text = re.sub(r"<(?!text|title)[^>]*>|(?<=<text)[^>]*", "", files[path].decode())
        yield from (f"{path}: {words}" for words in times.unknown(shown, text))


def times_test():
    """Whether the check before this one can fail: a minute of 45 kHz is half a minute of 90 kHz, and so on."""
    clashing = [
        [(times.length45, 60), (times.length90, 30)], [(times.place45, 60, 0), (times.place45, 60, 1)],
        [(times.place90, 60, 0), (times.length90, 60)], [(times.place45, 60, 1), (times.place90, 30, 1)],
    ]
    hertz = {times.length45: 45000, times.place45: 45000, times.length90: 90000, times.place90: 90000}
    for pair in clashing:
        shown, _ = times.collected(lambda: [show(seconds * hertz[show], *stc) for show, seconds, *stc in pair])
        if len(list(times.clashes(shown))) != 1 or list(times.clashes(shown[:1] * 2)):
            yield f"a number that is two different times is not found: {shown}"
    shown, _ = times.collected(lambda: times.length90(MINUTE))
    if list(times.unknown(shown, f"{MINUTE:,} {MINUTE}")) or not list(times.unknown(shown, f"{MINUTE + 1:,}")):
        yield "a number of which it is not known what it is is not found"


def source(crate, *module):
    """The text of a crate's module."""
    file = ROOT / "crates" / crate / "src" / ("/".join(module or ("lib",)) + ".rt")
    return file.read_text() if file.exists() else ""


def is_definition(file, name):
    """Whether a file of definitions has one of this name."""
    return re.search(rf"^\w+ pub {name} :", page.spec(ROOT, file), re.M)


def is_function(path):
    """Whether a crate has a function by this path."""
    crate, *module, name = path.split("::")
    return re.search(rf"\bfn {name}[<(]", source(crate, *module))


CONSTANTS = [
    ("Ticks", "doubled", "2 * t.ticks"), ("Ticks", "minutes", f"t.ticks / {MINUTE}"), ("Ticks", "later90", "max a.ticks b.ticks"),
    ("Questions", "left_of", "less90 (doubled (stc_end stc)) (later90 at (doubled (stc_start stc)))"),
    ("Questions", "duration_of", "less45 (stc_end stc) (stc_start stc)"), ("Questions", "durations_of", "plus90 (doubled (duration_of s))"),
    ("Questions", "minutes_left", "minutes (plus90 (left_of stc at) (durations_of later))"),
    ("Questions", "answer", "of_stc c.stcs stc (λ s. number (minutes_left s (drop (suc stc) c.stcs) at))"),
    ("Questions", "unless22", "unless22 false answer = refused 22"), ("EntryPoints", "body_at", "c + 6 +"),
    ("EntryPoints", "address_in", "ltb (body_at f c p) (cpi_end f c)"), ("EntryPoints", "fine_address_in", "leb (fine_start f c p) (cpi_end f c)"),
    ("EntryPoints", "coarse_rows_in", "leb (body_at f c p + 4 + 8 * coarse_count_at f p) (length f)"), ("EntryPoints", "fine_rows_in", "leb (fine_start f c p + 4 * fine_count_at f p) (length f)"),
    ("EntryPoints", "join_time", "coarse * 524288 % 2 ^ 32"), ("EntryPoints", "join_time", "fine * 512"),
    ("EntryPoints", "join_packet", "coarse / 2 ^ 17 * 2 ^ 17 + fine"), ("Questions", "packet_bytes", "4 + 188"),
]
FIELDS = [
    ("header_widths", (None, "type", "coarse_count", "fine_count")), ("coarse_widths", ("first", "time", "packet")),
    ("fine_widths", ("angle", "i_end", "time", "packet")),
]


def rules():
    """Rules that the definitions state in another way than the page."""
    for file, name, words in CONSTANTS:
        if words not in " ".join(page.definition(ROOT, file, name)):
            yield f"{file}: {name} does not have '{words}'"
    for m in Reading(sample.files()["lecture"]).maps:
        for (name, fields), rows in zip(FIELDS, ([m], m["coarse"], m["fine"])):
            for row in rows:
                values = unpacked(row["word"], page.widths(ROOT, name))
                if any(field and row[field] != value for field, value in zip(fields, values)):
                    yield f"EntryPoints: {name} takes a row apart in another way than the page"


def map_faults():
    """Files whose names tell a fault of a map, and which the page's reading refuses by another number."""
    for number in (7, 41, 42):
        files = sorted((ROOT / "crates/listing_test/data").glob(f"refused_{number}_*"))
        if not files:
            yield f"no file that is refused by {number}"
        for file in files:
            given = Reading(file.read_bytes()).refusal
            if given != number:
                yield f"{file.name}: {given} by the page's reading"


def names():
    """Names in the page that are nowhere in the repository."""
    text = page.page(sample.files(), ROOT)
    header = (ROOT / "include/clpi.h").read_text()
    for part in re.findall(r"^\*Definition\* (.+?)(?:\*Code|\*Call|\*Printed|$)", text, re.M):
        file = None
        for name in re.findall(r"`([^`]+)`", part):
            file, name = name.split(": ") if ": " in name else (file, name)
            if not is_definition(file, name):
                yield f"no definition {file}: {name}"
    for path in re.findall(r"`(\w+(?:::\w+)+)`", text):
        if not is_function(path):
            yield f"no function {path}"
    for call in re.findall(r"`(?:struct )?(clpi_\w+)`", text):
        if not re.search(rf"\b{call}\b", header):
            yield f"no {call} in include/clpi.h"
    for path in re.findall(r"`([\w.-]+/[\w./-]+)`|\]\(([\w.-]+)\)", text):
        path = path[0] or f"docs/{path[1]}"
        if "/must-fail/" in path:
            path = f"crates/{path}.edit"
        if not (ROOT / path).exists() and "CRATE" not in path:
            yield f"no file {path}"
    for path, part in re.findall(r"`([\w/-]+/must-fail/\w+)`, `(\w+)`", text):
        if f"\n# {part}: " not in (ROOT / f"crates/{path}.edit").read_text():
            yield f"no part {part} in {path}.edit"


# digits that are words: clocks, names, a list's own numbers
ALLOWED = r"(45|90) kHz|^(#+ )?\d+\. |\btable 2\b|\bSTC [01]\b|\{\{.+?\}\}|[A-Za-z]\w*\d|-t x1"


def numbers():
    """Numbers of the page that are not computed."""
    for line in (ROOT / "tools/lesson/page.md").read_text().splitlines():
        if re.search(r"\d", re.sub(ALLOWED, "", line)):
            yield f"tools/lesson/page.md has a number that is not computed: {line}"


CHECKS = (differences, wrong_numbers, times_apart, times_test, rules, map_faults, names, numbers, *programs.CHECKS)


def main(arguments):
    """Makes or checks, as the one argument says."""
    if arguments == ["make"]:
        for path, data in made().items():
            (ROOT / path).write_bytes(data)
        return 0
    if arguments != ["check"]:
        print("usage: lesson.py make | check", file=sys.stderr)
        return 2
    wrong = [words for check in CHECKS for words in check()]
    for words in wrong:
        print(f"docs/check: {words}", file=sys.stderr)
    if not wrong:
        print(f"docs/MINUTES.md: {len(made())} files are as they are made, and ./clip prints what the page shows")
    return 1 if wrong else 0


if __name__ == "__main__":
    sys.exit(main(sys.argv[1:]))
