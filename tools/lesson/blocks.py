"""Bytes, bits, tables and times as the page shows them."""
from reading import MINUTE
from times import length90, plain


def hexed(data):
    return data.hex(" ").upper()


def block(lines):
    """Lines as Markdown shows them unchanged."""
    return "\n".join(("    " + line).rstrip() for line in lines)


def table(heads, rows):
    lines = ["| " + " | ".join(map(str, row)) + " |" for row in [heads] + rows]
    return "\n".join([lines[0], "|" + "---|" * len(heads)] + lines[1:])


def listed(items):
    """Two or more items in words."""
    *most, last = map(str, items)
    return f"{', '.join(most)} and {last}"


def clock(ticks):
    """90 kHz ticks as minutes and seconds."""
    minutes, rest = divmod(ticks, MINUTE)
    seconds = f"{rest / 90000:.4f}".rstrip("0").rstrip(".")
    return f"{minutes} min {seconds} s"


def from_start(ticks):
    """Whole seconds from an STC's start, as ./clip takes them."""
    minutes, seconds = divmod(ticks // 90000, 60)
    return f"+{minutes:02}:{seconds:02}"


def in_minutes(ticks):
    """A number of ticks as whole minutes and a rest."""
    minutes, rest = divmod(ticks, MINUTE)
    return f"{minutes} × {length90(MINUTE)}" + (f" + {length90(rest)}" if rest else "")


def with_minutes(ticks):
    """A number of ticks, and the same as whole minutes and a rest."""
    return f"{length90(ticks)} = {in_minutes(ticks)}"


def by_bytes(data, shown=plain):
    """A big-endian number as the sum that is done by hand."""
    parts = [f"{byte} × {plain(256**k)}" if k else str(byte) for k, byte in zip(range(len(data) - 1, -1, -1), data) if byte]
    return f"{' + '.join(parts)} = {shown(int.from_bytes(data, 'big'))}"


def dump(file, fields):
    """Fields as (offset, bytes, words, how the number is shown): each a line with its bytes, and the number that they are."""
    rows = [("offset", "bytes", "number", "")]
    for at, n, words, *shown in fields:
        show = shown[0] if shown else plain
        rows.append((str(at), hexed(file[at:at + n]), show(int.from_bytes(file[at:at + n], "big")), words))
    data, number = (max(len(row[k]) for row in rows) for k in (1, 2))
    return block(f"{row[0]:>6}  {row[1]:<{data}}  {row[2]:>{number}}  {row[3]}" for row in rows)


def unpacked(word, widths):
    """The values of a word's bit fields, the first one highest."""
    values, left = [], sum(widths)
    for width in widths:
        left -= width
        values.append(word >> left & (1 << width) - 1)
    return values


def bits(word, widths, names):
    """A word's bits in fields, with each field's name and value below."""
    fields = [(f"{value:0{width}b}", name, plain(value)) for value, width, name in zip(unpacked(word, widths), widths, names)]
    return block(" ".join(f"{f[k]:<{max(map(len, f))}}" for f in fields) for k in range(3))


def binary(value, groups):
    """The bits of a value in groups of these widths."""
    digits, at, parts = f"{value:0{sum(groups)}b}", 0, []
    for width in groups:
        parts.append(digits[at:at + width])
        at += width
    return " ".join(parts)
