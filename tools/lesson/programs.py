"""Checks of docs/MINUTES.md that run ./clip: each yields what it prints otherwise than the page shows."""
import functools
import pathlib
import re
import subprocess
import tempfile

import errors
import minute
import page
import sample
from reading import Reading

ROOT = pathlib.Path(__file__).resolve().parents[2]


def printed(command, folder=ROOT):
    """What a command prints; of a refusal the number, which is on standard error; anything else with its status."""
    run = subprocess.run(command, cwd=folder, stdin=subprocess.DEVNULL, stdout=subprocess.PIPE, stderr=subprocess.PIPE, text=True)
    refused = re.search(r"refused \d+", run.stderr)
    if run.returncode == 1 and refused and run.stdout in ("", refused[0] + "\n"):
        return refused[0] + "\n"
    return run.stdout if run.returncode == 0 else f"status {run.returncode}: {run.stdout}{run.stderr}"


@functools.cache
def built():
    """The program that ./clip runs, once ./clip has built it and the listing program."""
    printed([ROOT / "clip", "list", ROOT / "samples/lecture.clpi"])
    return ROOT / "target/tools/clip"


def clip(*arguments):
    """What ./clip prints."""
    return printed([built(), *map(str, arguments)])


def figure(r, stc, at):
    """What the page says of the minutes at a place."""
    return errors.answer(r, errors.minutes_at(stc, at, "")) + "\n"


def places_asked(files):
    """(file, STC, time, what ./clip is called with) for every place that is shown, asked of each sample."""
    r = Reading(files["lecture"])
    asked = [(stc, at) for stc, at, _ in minute.places(r) + minute.places_outside(r)] + [(len(r.stcs), 0)]
    asked += [question.arguments for _, _, _, question, *_ in errors.error_rows(files) if question.arguments]
    for name in files:
        yield name, 0, 0, ()
        yield name, len(r.stcs), 0, (len(r.stcs), errors.START)
        for stc, at in dict.fromkeys(asked):
            yield name, stc, at, (stc, at)
            if stc < len(r.stcs) and minute.second_of(r, stc, at):
                yield name, stc, at, (stc, minute.second_of(r, stc, at))


def outputs():
    """Programs that print something else than the page shows, on the files that are in the repository."""
    files = sample.files()
    for name in files:
        file = ROOT / "samples" / f"{name}.clpi"
        r = Reading(file.read_bytes())
        if clip("list", file) != r.listing():
            yield f"clip list {file.name}: {clip('list', file)!r}, and by the page {r.listing()!r}"
    for name, stc, at, arguments in places_asked(files):
        file = ROOT / "samples" / f"{name}.clpi"
        given, told = clip("minutes", file, *arguments), figure(Reading(file.read_bytes()), stc, at)
        if given != told:
            yield f"clip minutes {file.name} {' '.join(map(str, arguments))}: {given!r}, and by the page {told!r}"


def commands():
    """Commands of the page that print something else than stands below or beside them, run one after the other."""
    text = (ROOT / "docs/MINUTES.md").read_text()
    below = re.findall(r"^    \$ (.+)\n((?:    (?!\$ ).+\n)*)", text, re.M)
    beside = re.findall(r"`(\./clip [^`]+)`: `([^`]+)`", text)
    if not below or not beside:
        yield "no command is found in the page"
    with tempfile.TemporaryDirectory() as folder:
        for name in ("clip", "samples"):
            pathlib.Path(folder, name).symlink_to(ROOT / name)
        for command, shown in below:
            given = printed(["bash", "-c", command], folder)
            if given.startswith("status ") or shown and given != re.sub("^    ", "", shown, flags=re.M):
                yield f"{command}: {given!r}, and on the page {shown!r}"
        for command, shown in beside:
            given = printed(["bash", "-c", command], folder)
            if shown not in given.splitlines():
                yield f"{command}: {given!r}, and on the page {shown!r}"


def rewritten(data):
    """What rewriting makes of a file with these bytes; nothing where it fails."""
    with tempfile.TemporaryDirectory() as folder:
        old, new = pathlib.Path(folder, "old"), pathlib.Path(folder, "new")
        old.write_bytes(data)
        clip("rewrite", old, new)
        return new.read_bytes() if new.exists() else b""


def rewritings():
    """New files of another length or language than the page says, equal where it says different, or the other way."""
    files = sample.files()
    new = {name: rewritten(data) for name, data in files.items()}
    for name, data in new.items():
        if len(data) != page.rewritten_bytes(Reading(files[name])) or b"eng" not in data or b"ENG" in data:
            yield f"clip rewrite {name}.clpi: another new file than the page tells of"
    same = [data == new["lecture"] for data in new.values()]
    same += [rewritten(errors.changed(files["lecture"], errors.changes()[name])) == new["lecture"] for name in ("shared", "first", "i_end")]
    if same != [True, True, False, True, True, False]:
        yield "the new files are not equal and different as the page says"


def changes():
    """Programs that print something else than the page tells of a changed file."""
    for change in errors.changes().values():
        data = errors.changed(sample.files()[errors.PLAIN], change)
        r = Reading(data)
        with tempfile.NamedTemporaryFile() as file:
            file.write(data)
            file.flush()
            right = clip("list", file.name) == r.listing()
            for asked in change.asked:
                if asked.arguments is not None:
                    right &= clip("minutes", file.name, *asked.arguments) == errors.answer(r, asked) + "\n"
            if not right:
                yield f"byte {change.at} changed to {change.byte}: ./clip prints something else than the page has"


CHECKS = (outputs, commands, rewritings, changes)
