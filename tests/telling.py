#!/usr/bin/env python3
"""Makes the clip files that crates/listing_test lists: layouts that a careless reader gets wrong, one file or more for
each refusal, and files at the listing's limits. Run from the repository's root; it writes crates/listing_test/data and args."""
import os

FOLDER = "crates/listing_test"


def be(width, value):
    return value.to_bytes(width, "big")


def sequences(atcs):
    """ATCs as (packet, offset id, STCs), STCs as (PID, packet, start, end)."""
    rows = b"".join(
        be(4, packet) + bytes([len(stcs), offset]) + b"".join(be(2, p) + be(4, q) + be(4, s) + be(4, e) for p, q, s, e in stcs)
        for packet, offset, stcs in atcs)
    return be(4, 2 + len(rows)) + bytes([0, len(atcs)]) + rows


def programs(rows):
    """Programs as (packet, PID, streams), streams as (PID, body)."""
    body = b"".join(
        be(4, packet) + be(2, pid) + bytes([len(streams), 0]) + b"".join(be(2, p) + bytes([len(b)]) + b for p, b in streams)
        for packet, pid, streams in rows)
    return be(4, 2 + len(body)) + bytes([0, len(rows)]) + body


def header(pid, kind, coarse, fine, address):
    return be(2, pid) + be(6, kind << 34 | coarse << 18 | fine) + be(4, address)


def coarse_row(first, time, packet):
    return be(8, first << 46 | time << 32 | packet)


def fine_row(time, packet, angle=0, i_end=1):
    return be(4, angle << 31 | i_end << 28 | time << 17 | packet)


def body(coarse, fine):
    return be(4, 4 + 8 * len(coarse)) + b"".join(coarse) + b"".join(fine)


def cpi(headers, bodies, length=None):
    """Map headers and the bytes behind them; the stated length is that of all of it unless another is given."""
    rest = be(2, 1) + bytes([0, len(headers)]) + b"".join(headers) + bodies
    return be(4, len(rest) if length is None else length) + rest


def clip(sections, order="spcm", letters=b"HDMV", version=b"0200", info=176, tail=b"", starts=None):
    """Sections s, p, c, m and e laid one behind the other in the order given, behind the ClipInfo."""
    places, at, laid = {}, 220, b""
    for name in order:
        places[name] = at
        laid += sections[name]
        at += len(sections[name])
    places.update(starts or {})
    front = letters + version + b"".join(be(4, places.get(name, 0)) for name in "spcme") + bytes(12)
    front += be(4, info) + be(2, 0) + bytes([1, 1]) + bytes(4) + be(4, 6000000) + be(4, 1000)
    front += bytes(188 - len(front)) + bytes([0x80, 0]) + b"HDMV"
    return front + bytes(220 - len(front)) + laid + tail


VIDEO = (0x1011, bytes([0x1B, 0x61, 0x30]))
AUDIO = (0x1100, bytes([0x80, 0x31]) + b"ENG")
SEQ = sequences([(0, 0, [(0x1001, 0, 27000000, 27900000), (0x1001, 600, 0, 90000)]), (900, 2, [(0x1001, 900, 5, 4)])])
PROG = programs([(0, 0x100, [VIDEO, AUDIO]), (500, 0x101, [AUDIO])])
MARK = be(4, 2) + be(2, 3)
ONE = [coarse_row(0, 1, 131072), coarse_row(2, 3, 262144)]
FINE = [fine_row(0, 7), fine_row(1024, 9), fine_row(5, 131071)]
CPI = cpi([header(0x1011, 1, 2, 3, 14)], body(ONE, FINE))
NONE = be(4, 0)
PLAIN = {"s": sequences([]), "p": programs([]), "c": NONE, "m": be(4, 2) + be(2, 0)}
FULL = {"s": SEQ, "p": PROG, "c": CPI, "m": MARK}


def with_cpi(section, **more):
    return clip({**PLAIN, "c": section}, **more)


def extension(entries, data):
    """Entries as (id, id, place in data, length); the data stands behind the entries."""
    first = 12 + 12 * len(entries)
    rows = b"".join(be(2, a) + be(2, b) + be(4, first + p) + be(4, n) for a, b, p, n in entries)
    return be(4, first - 4 + len(data)) + be(4, first) + bytes(3) + bytes([len(entries)]) + rows + data


def many_stcs(n):
    atcs = []
    while n:
        k = min(n, 255)
        atcs.append((0, 0, [(1, 2, 3, 4)] * k))
        n -= k
    return sequences(atcs)


def many_streams(n):
    rows = []
    while n:
        k = min(n, 255)
        rows.append((0, 1, [(2, b"")] * k))
        n -= k
    return programs(rows)


def shared_maps(n, rows):
    """n maps whose headers name one body."""
    return cpi([header(0x1011 + i, 1, 1, rows, 2 + 12 * n) for i in range(n)], body([coarse_row(0, 1, 131072)], [fine_row(k % 2048, k) for k in range(rows)]))


def files():
    conventional = clip(FULL)
    yield "conventional", conventional
    yield "letters_clpi", clip(FULL, letters=b"CLPI")
    yield "backwards", clip(FULL, order="mcps")
    # one section read as sequences, as programs and, two bytes on, as marks; and the header read as sequences
    yield "overlapping", clip({**FULL, "s": sequences([(7, 0, [(0x100, 0, 1, 2)])])}, order="sc", starts={"p": 220, "m": 222})
    yield "zero_start", clip({**FULL}, version=bytes([0, 2, 0, 0]), starts={"s": 0})
    # maps of one body: equal, and one with fewer rows of another type
    yield "shared_rows", with_cpi(cpi([header(0x1011, 1, 2, 3, 38), header(0x1012, 1, 2, 3, 38), header(0x1013, 8, 1, 2, 38)], body(ONE, FINE)))
    yield "maps_backwards", with_cpi(cpi([header(0x1011, 1, 2, 3, 54), header(0x1012, 3, 1, 2, 26)], body([coarse_row(0, 9, 0)], [fine_row(1, 1), fine_row(2, 2)]) + bytes(8) + body(ONE, FINE)))
    # M4, M5 and M6: bit 19 shared by OR, a coarse time's high bit dropped, the coarse packet's low bits replaced
    yield "joined_times", with_cpi(cpi([header(0x1011, 1, 3, 3, 14)], body([coarse_row(0, 1, 0), coarse_row(1, 8192, 0), coarse_row(2, 2, 0x1FFFF)], [fine_row(1024, 0), fine_row(0, 0), fine_row(0, 0)])))
    yield "late_reference", with_cpi(cpi([header(0x1011, 1, 2, 4, 14)], body([coarse_row(3, 7, 131072), coarse_row(3, 8, 0)], [fine_row(k, k) for k in range(4)])))
    yield "references_out_of_order", with_cpi(cpi([header(0x1011, 1, 4, 5, 14)], body([coarse_row(0, 1, 0), coarse_row(4, 2, 0), coarse_row(1, 3, 0), coarse_row(2, 4, 0)], [fine_row(k, k) for k in range(5)])))
    yield "no_coarse_rows", with_cpi(cpi([header(0x1011, 1, 0, 2, 14)], be(4, 4) + fine_row(5, 6) + fine_row(7, 8)))
    # rows beyond the CPI end, and a fine address that equals it
    yield "rows_past_cpi_end", with_cpi(cpi([header(0x1011, 1, 2, 3, 14)], be(4, 4) + b"".join(ONE), length=20))
    yield "fine_address_at_cpi_end", with_cpi(cpi([header(0x1011, 1, 2, 3, 14)], body(ONE, FINE), length=36))
    yield "headers_past_cpi_end", with_cpi(cpi([header(0, 0, 0, 0, 2)] * 2, b"", length=12))
    yield "other_cpi_type", with_cpi(be(4, 4) + be(2, 2) + bytes([0, 9]))
    yield "cpi_of_three_bytes", with_cpi(be(4, 3) + be(2, 1) + bytes([0]))
    yield "marks_past_end", clip(FULL, starts={"m": 65535})
    yield "info_length_zero", clip(FULL, info=0)
    yield "end_on_last_byte", clip(FULL, order="mpcs")
    # refusals, in order
    yield "refused_1_seven_bytes", b"HDMV020"
    yield "refused_1_39_bytes", conventional[:39]
    yield "refused_2_39_bytes", b"MPLS" + conventional[4:39]
    yield "refused_3_193_bytes", conventional[:193]
    yield "refused_3_length", clip(PLAIN, info=len(clip(PLAIN)) - 43)
    yield "refused_4_cut", clip(FULL, order="mcps")[:-1]
    yield "refused_4_start", clip(FULL, starts={"s": 65535})
    yield "refused_5_cut", clip(FULL, order="smcp")[:-1]
    yield "refused_6_length", clip(PLAIN, order="spmc")[:-4] + be(4, 1)
    yield "refused_6_headers", clip({**PLAIN, "c": be(4, 4) + be(2, 1) + bytes([0, 1])}, order="spmc", tail=bytes(11))
    yield "refused_7_address", with_cpi(cpi([header(0x1011, 1, 0, 0, 14)], b""), tail=bytes(20))
    yield "refused_42_four_bytes", clip({**PLAIN, "c": cpi([header(0x1011, 1, 0, 0, 14)], bytes(3))}, order="spmc")
    yield "refused_42_coarse_rows", clip({**PLAIN, "c": cpi([header(0x1011, 1, 2, 0, 14)], be(4, 4) + bytes(15))}, order="spmc")
    yield "refused_41_fine_address", with_cpi(cpi([header(0x1011, 1, 0, 0, 14)], be(4, 5)), tail=bytes(20))
    yield "refused_42_fine_rows", clip({**PLAIN, "c": cpi([header(0x1011, 1, 2, 3, 14)], body(ONE, FINE)[:-1])}, order="spmc")
    yield "refused_8_cut", clip(PLAIN)[:-1]
    # in a map the address, the coarse rows, the fine address, the fine rows; then the next map; all maps before the marks
    yield "refused_7_before_41", clip({**PLAIN, "c": cpi([header(0x1011, 1, 0, 0, 14)], b"")}, order="spmc", tail=be(4, 1))
    yield "refused_42_before_41", clip({**PLAIN, "c": cpi([header(0x1011, 1, 2, 0, 14)], be(4, 20) + bytes(15))}, order="spmc")
    yield "refused_41_before_42", clip({**PLAIN, "c": cpi([header(0x1011, 1, 0, 1, 14)], be(4, 5))}, order="spmc", tail=bytes(4))
    yield "refused_41_of_the_first_map", with_cpi(cpi([header(0x1011, 1, 0, 0, 26), header(0x1012, 1, 0, 0, 30)], be(4, 5)), tail=bytes(20))
    yield "refused_42_of_the_first_map", clip({**PLAIN, "c": cpi([header(0x1011, 1, 2, 3, 26), header(0x1012, 1, 0, 0, 57)], body(ONE, FINE)[:-1])}, order="spmc")
    yield "refused_41_before_8", with_cpi(cpi([header(0x1011, 1, 0, 0, 14)], be(4, 5)))[:-1]
    # all map headers before any map, 4 + N before "no maps", the ClipInfo before the sequences
    yield "refused_6_before_7", clip({**PLAIN, "c": cpi([header(1, 1, 9, 9, 999999)], b"")[:7] + bytes([2]) + header(1, 1, 9, 9, 999999)}, order="spmc")
    yield "refused_6_before_no_maps", clip(PLAIN, order="spmc")[:-4] + be(4, 2) + be(2, 2)[:1]
    yield "refused_3_before_4", clip(FULL, starts={"s": 65535}, info=65535)
    # the listing's limits
    yield "input_65536", conventional + bytes(65536 - len(conventional))
    yield "refused_20_65537", conventional + bytes(65537 - len(conventional))
    yield "stcs_4096", clip({**PLAIN, "s": many_stcs(4096)})
    yield "refused_21_2", clip({**PLAIN, "s": many_stcs(4097)})
    yield "streams_4096", clip({**PLAIN, "p": many_streams(4096)})
    yield "refused_21_4", clip({**PLAIN, "p": many_streams(4097)})
    yield "refused_21_6", with_cpi(shared_maps(17, 241))
    list9 = many_streams(4097)
    yield "refused_21_9", clip({**PLAIN, "e": extension([(2, 5, 0, len(list9))], list9)}, order="spcme")
    yield "list_cut", clip({**PLAIN, "e": extension([(2, 5, 0, len(list9) - 1)], list9)}, order="spcme")


def main():
    data = os.path.join(FOLDER, "data")
    os.makedirs(data, exist_ok=True)
    names = []
    for name, content in files():
        names.append(name)
        with open(os.path.join(data, name), "wb") as f:
            f.write(content)
    with open(os.path.join(FOLDER, "args"), "w") as f:
        f.write("".join(name + "\n" for name in names))


main()
