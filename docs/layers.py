#!/usr/bin/env python3
"""Draws the layers of crates.txt as docs/layers.svg, and checks them.

Every crate stands in one box of LAYERS, and depends only on crates of its own box, of its layer, or of a layer below.
Bytes are stored into a slice by the crates of STORES alone, and a time is made of another by `ticks` alone.
Without words it writes the picture; with --check it writes nothing, and fails where the picture is not what it would write.
"""
import html
import re
import sys
from pathlib import Path

HERE = Path(__file__).resolve().parent
KIT = {"anyhow", "itoa", "thiserror"}
# Table cells; the bytes of a new file; text.
STORES = {"cells", "numbers", "text_lines"}

# From the top: the name of a layer, then its boxes, each a title with its crates.
LAYERS = [
    ("programs", [
        ("listing", "list_clip listing_test listing_io clip_listing listing text_lines input"),
        ("a stored sample of the Rust's answers", "replay replay_cases replay_case replay_bytes"),
    ]),
    ("theorems on the calls", [
        ("demand 3, from the calls' own promises", "rewriting_theorems query_theorems exported_theorems"),
        ("both forms of an entry lookup", "entry_theorems"),
    ]),
    ("for C", [
        ("libclpi.a, include/clpi.h", "clpi_c clpi clpi_answers clpi_reading clpi_writing"),
        ("lookups over a row of records", "ep_entry_queries_c ep_entry_queries ep_entry_steps"),
    ]),
    ("whole files", [
        ("reading", "clip_information clip_prepare clip_sections nine_tables"),
        ("writing", "encode encode_measure encode_head"),
        ("rewriting in one go", "rewrite"),
        ("questions", "sequence_queries atc_queries program_queries ep_map_queries ep_map_times cpi_queries clip_info_queries extension_queries"),
    ]),
    ("sections", [
        ("read", "info_sections sequence_info program_info cpi cpi_fill extension extension_entry"),
        ("written from tables", "encode_sections encode_cpi encode_map limits"),
        ("written from a file", "rewrite_sections rewrite_program rewrite_cpi map_runs"),
        ("a row that is looked for", "row_search nearest"),
    ]),
    ("rows", [
        ("tables with their stated rows, and what questions answer", "table_rows queries"),
        ("read", "ep_rows ep_entries stream_coding_info"),
        ("written", "row_limits row_values row_bytes section_heads encode_rows runs entry_runs map_rows"),
    ]),
    ("bytes", [
        ("bytes, bits, cells, ticks", "common numbers entry_rows cells bits ticks stream_coding"),
        ("why something is refused", "refusals"),
    ]),
    ("document 01", [
        ("definitions", "format"),
        ("theorems on them", "theorems"),
    ]),
]

WIDTH, LEFT, GAP, LINE, TITLE, PAD = 1120, 190, 10, 18, 22, 8
CHAR = 7.3


def crates():
    """The crates of crates.txt, each with what it depends on."""
    found = {}
    for line in (HERE.parent / "crates.txt").read_text().splitlines():
        if line.strip() and not line.startswith("#"):
            name, _, behind = line.partition(":")
            found[name.split()[0]] = [d for d in behind.split() if d not in KIT]
    return found


def check(depends):
    """Fails where a crate has no box or two, or depends on one above its layer."""
    layer = {}
    for height, (_, boxes) in enumerate(LAYERS):
        for _, names in boxes:
            for name in names.split():
                if name in layer:
                    sys.exit(f"layers: {name} stands in two boxes")
                layer[name] = height
    for name in sorted(set(depends) ^ set(layer)):
        sys.exit(f"layers: {name} is not both in crates.txt and in a box")
    for name, behind in depends.items():
        for other in behind:
            if layer[other] < layer[name]:
                sys.exit(f"layers: {name} depends on {other}, which stands above it")


def check_stores():
    """No other crate stores into a slice that it is lent; an array of its own it may fill."""
    for source in sorted((HERE.parent / "crates").glob("*/src/**/*.rt")):
        crate, text = source.relative_to(HERE.parent / "crates").parts[0], source.read_text()
        stores = re.findall(r"(?m)^\s*(?:\w+\.)*(\w+)\[[^\]]*\](?: [-+*/|&^]?= |\.(?:copy_from_slice|fill)\()", text)
        if crate not in STORES and any(re.search(rf"\b{name}: &", text) or not re.search(rf"let mut {name} = \[", text) for name in stores):
            sys.exit(f"layers: {crate} stores bytes itself, which {', '.join(sorted(STORES))} do for all")


def check_ticks():
    """No other crate makes a time of another's number, nor, where it has times in 45 kHz ticks, one in 90 of any but 0."""
    for source in sorted((HERE.parent / "crates").glob("*/src/**/*.rt")):
        crate = source.relative_to(HERE.parent / "crates").parts[0]
        words = source.read_text()
        of_time = re.search(r"(?:Ticks45|Ticks90|Pts90)\(.*\.0\b", words)
        of_other = "Ticks45" in words and re.search(r"(?:Ticks90|Pts90)\((?!0\)).*", words)
        if crate != "ticks" and (of_time or of_other):
            sys.exit(f"layers: {crate} makes a time by hand: {(of_time or of_other).group()}")


def wrapped(names, width):
    """The names in lines of at most that width."""
    lines = [""]
    for name in names.split():
        longer = f"{lines[-1]}  {name}".strip()
        if lines[-1] and len(longer) * CHAR > width:
            lines.append(name)
        else:
            lines[-1] = longer
    return lines


def text(x, y, words, style):
    """One line of text."""
    return f'<text x="{x}" y="{y}" class="{style}">{html.escape(words)}</text>'


def drawn():
    """The whole picture."""
    parts, y = [], GAP
    for name, boxes in LAYERS:
        width = (WIDTH - LEFT - GAP * len(boxes)) / len(boxes)
        lines = [wrapped(names, width - 2 * PAD) for _, names in boxes]
        height = TITLE + LINE * max(map(len, lines)) + PAD
        parts.append(text(GAP, y + TITLE - 4, name, "layer"))
        for k, (title, _) in enumerate(boxes):
            x = round(LEFT + k * (width + GAP))
            parts.append(f'<rect x="{x}" y="{y}" width="{round(width)}" height="{height}" rx="4" class="box"/>')
            parts.append(text(x + PAD, y + TITLE - 5, title, "title"))
            parts += [text(x + PAD, y + TITLE + LINE * (n + 1) - 5, line, "crate") for n, line in enumerate(lines[k])]
        y += height + GAP
    return f"""<svg xmlns="http://www.w3.org/2000/svg" viewBox="0 0 {WIDTH} {y}" width="{WIDTH}" height="{y}" role="img">
<title>The layers of the crates; each stands on those below it</title>
<style>
.box {{ fill: #f4f6f8; stroke: #5b6b7a; }}
.layer {{ font: bold 13px sans-serif; fill: #1f2a33; }}
.title {{ font: italic 12px sans-serif; fill: #4a5661; }}
.crate {{ font: 12px monospace; fill: #10161b; }}
</style>
<rect width="{WIDTH}" height="{y}" fill="#ffffff"/>
{chr(10).join(parts)}
</svg>
"""


def main():
    check(crates())
    check_stores()
    check_ticks()
    picture = HERE / "layers.svg"
    if sys.argv[1:] == ["--check"]:
        if not picture.exists() or picture.read_text() != drawn():
            sys.exit("layers: docs/layers.svg is not what docs/layers.py draws")
    elif sys.argv[1:]:
        sys.exit("usage: layers.py [--check]")
    else:
        picture.write_text(drawn())


main()
