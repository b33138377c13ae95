"""A plain reading of what docs/MINUTES.md speaks of, and one wrong reading for each error that it shows."""

MINUTE = 5400000  # 90 kHz ticks in a minute


class Refused(Exception):
    """A file that is refused, by its number."""


class Reading:
    """The right reading. Each rule that students get wrong is a method of its own, which a wrong reading replaces."""

    def __init__(self, file):
        self.file = file
        self.atcs, self.stcs, self.programs, self.streams, self.maps, self.marks = [], [], [], [], [], 0
        self.refusal = 0
        try:
            self.read()
        except Refused as refused:
            self.refusal = refused.args[0]

    def number(self, at, width, refusal):
        """A big-endian number; a read past the file's end is refused."""
        if at + width > len(self.file):
            raise Refused(refusal)
        return int.from_bytes(self.file[at:at + width], "big")

    def read(self):
        sequences, programs, cpi, marks = self.starts()
        self.read_sequences(sequences)
        self.read_programs(programs)
        self.read_cpi(cpi)
        if 0 < marks < len(self.file):
            self.marks = self.number(marks + 4, 2, 8)

    # ---- the rules that students get wrong

    def starts(self):
        """The header says where the sections stand."""
        return [self.number(at, 4, 1) for at in (8, 12, 16, 20)]

    def no_sequences_at(self, start):
        """No start is too low for the sequences."""
        return False

    def doubled(self, ticks45):
        """The doubling: 45 kHz ticks as 90 kHz ticks."""
        return 2 * ticks45

    def raised(self, at, start):
        """A time before the start is taken as the start."""
        return max(at, start)

    def duration(self, start, end):
        """How long an STC is, in 45 kHz ticks: an end before its start makes it 0."""
        return max(end - start, 0)

    def others(self, stc):
        """The STCs whose durations are added to what is left of this one."""
        return self.stcs[stc + 1:]

    def left(self, stc, at):
        """90 kHz ticks that are left at a time on the clock of an STC."""
        return self.left_of(stc, at) + sum(self.durations(stc))

    def minutes(self, stc, at):
        """The figure. An STC that is not there is refused."""
        if stc >= len(self.stcs):
            raise Refused(22)
        return self.whole_minutes(stc, at)

    def whole_minutes(self, stc, at):
        """Rounded down once, over the sum."""
        return self.left(stc, at) // MINUTE

    def body_at(self, cpi, address):
        return cpi + 6 + address

    def rows_within(self, at, count, cpi_end):
        """How many of these fine rows are read: all of them, also past the CPI end."""
        return count

    def first_row(self, coarse):
        """The first fine row that is read."""
        return 0

    def join_time(self, coarse, fine):
        return coarse * 524288 % 2**32 | fine * 512

    def join_packet(self, coarse, fine):
        return coarse // 2**17 * 2**17 + fine

    # ---- the sections

    def read_sequences(self, start):
        if self.no_sequences_at(start):
            raise Refused(4)
        at = start + 6
        for _ in range(self.number(start + 5, 1, 4)):
            stcs = self.number(at + 4, 1, 4)
            self.atcs.append((at, self.number(at, 4, 4), stcs, self.number(at + 5, 1, 4)))
            at += 6
            for _ in range(stcs):
                fields = ((0, 2), (2, 4), (6, 4), (10, 4))
                self.stcs.append((at, *(self.number(at + place, width, 4) for place, width in fields)))
                at += 14

    def read_programs(self, start):
        at = start + 6
        for _ in range(self.number(start + 5, 1, 5)):
            streams = self.number(at + 6, 1, 5)
            self.programs.append((at, self.number(at, 4, 5), self.number(at + 4, 2, 5), streams))
            self.number(at + 7, 1, 5)
            at += 8
            for _ in range(streams):
                size = self.number(at + 2, 1, 5)
                self.streams.append((at, self.number(at, 2, 5), size))
                at += 3 + size
                if at > len(self.file):
                    raise Refused(5)

    def read_cpi(self, start):
        if not 0 < start < len(self.file):
            return
        length = self.number(start, 4, 6)
        end = start + 4 + length
        if end > len(self.file):
            raise Refused(6)
        if length < 4 or self.number(start + 4, 2, 6) % 16 != 1:
            return
        count = self.number(start + 7, 1, 6)
        if start + 8 + 12 * count > len(self.file):
            raise Refused(6)
        for k in range(count):
            self.read_map(start, end, start + 8 + 12 * k)

    def read_map(self, cpi, end, at):
        word = self.number(at + 2, 6, 6)
        m = {"at": at, "pid": self.number(at, 2, 6), "word": word, "type": word >> 34 & 15,
             "coarse_count": word >> 18 & 0xFFFF, "fine_count": word & 0x3FFFF, "address": self.number(at + 8, 4, 6)}
        m["body"] = self.body_at(cpi, m["address"])
        if m["body"] >= end:
            raise Refused(7)
        m["fine_address"] = self.number(m["body"], 4, 42)
        m["fine_at"] = m["body"] + m["fine_address"]
        m["coarse"] = [self.coarse_row(m["body"] + 4 + 8 * k) for k in range(m["coarse_count"])]
        if m["fine_at"] > end:
            raise Refused(41)
        count = self.rows_within(m["fine_at"], m["fine_count"], end)
        m["fine"] = [self.fine_row(m["fine_at"] + 4 * k) for k in range(count)]
        m["entries"] = [self.entry(m["coarse"], k, m["fine"][k]) for k in range(self.first_row(m["coarse"]), count)]
        self.maps.append(m)

    def coarse_row(self, at):
        word = self.number(at, 8, 42)
        return {"at": at, "bytes": self.file[at:at + 8], "word": word,
                "first": word >> 46, "time": word >> 32 & 0x3FFF, "packet": word & 0xFFFFFFFF}

    def fine_row(self, at):
        word = self.number(at, 4, 42)
        return {"at": at, "bytes": self.file[at:at + 4], "word": word,
                "angle": word >> 31, "i_end": word >> 28 & 7, "time": word >> 17 & 0x7FF, "packet": word & 0x1FFFF}

    def entry(self, coarse, k, fine):
        """Fine row k joined with the coarse row reached from row 0; its time and packet."""
        c = 0
        while c + 1 < len(coarse) and coarse[c + 1]["first"] <= k:
            c += 1
        used = coarse[c] if coarse else {"time": 0, "packet": 0}
        time, packet = self.join_time(used["time"], fine["time"]), self.join_packet(used["packet"], fine["packet"])
        return {"k": k, "coarse": c, "time": time, "packet": packet}

    # ---- what is asked

    def start(self, stc):
        """An STC's start by the 90 kHz clock."""
        return self.doubled(self.stcs[stc][3])

    def end(self, stc):
        """And its end."""
        return self.doubled(self.stcs[stc][4])

    def left_of(self, stc, at):
        """90 kHz ticks that are left of an STC itself, not below 0."""
        return max(self.end(stc) - self.raised(at, self.start(stc)), 0)

    def durations(self, stc):
        """The durations that are added, in 90 kHz ticks."""
        return [self.doubled(self.duration(start, end)) for *_, start, end in self.others(stc)]

    def found(self, at):
        """The first map's entry with the greatest time not above this one; the first of all if all are later."""
        entries = self.maps[0]["entries"]
        before = [e for e in entries if e["time"] <= at]
        return max(before, key=lambda e: e["time"]) if before else entries[0]

    def seek(self, at):
        """The packet to read from."""
        return self.found(at)["packet"]

    def listing(self):
        """What the listing program prints."""
        if self.refusal:
            return f"refused {self.refusal}\n"
        lines = [("clip", *(self.number(at, width, 3) for at, width in ((46, 1), (47, 1), (52, 4), (56, 4)))),
                 ("seq", len(self.atcs), len(self.stcs)), ("prog", len(self.programs), len(self.streams))]
        for m in self.maps:
            lines.append(("map", m["pid"], m["type"], len(m["entries"])))
            lines += [("ep", e["time"], e["packet"]) for e in m["entries"]]
        return "".join(" ".join(map(str, line)) + "\n" for line in lines + [("mark", self.marks)])


# ---- wrong readings: the right one with one rule replaced


class TicksNotDoubled(Reading):
    def doubled(self, ticks45):
        return ticks45


class LaterForgotten(Reading):
    def others(self, stc):
        return []


class EarlierCounted(Reading):
    def others(self, stc):
        return self.stcs[:stc] + self.stcs[stc + 1:]


class AllCounted(Reading):
    """Adds every duration, that of the STC asked about too."""

    def others(self, stc):
        return self.stcs


class TimeNotRaised(Reading):
    def raised(self, at, start):
        return at


class LatestEnd(Reading):
    """Counts to the latest end of all STCs, whatever clock it is on."""

    def left(self, stc, at):
        return max(max(self.end(k) for k in range(len(self.stcs))) - at, 0)


class RoundedRowByRow(Reading):
    def whole_minutes(self, stc, at):
        return sum(ticks // MINUTE for ticks in [self.left_of(stc, at)] + self.durations(stc))


class NegativeDuration(Reading):
    def duration(self, start, end):
        return end - start


class WrappedDuration(Reading):
    def duration(self, start, end):
        return (end - start) % 2**32


class TimesAdded(Reading):
    def join_time(self, coarse, fine):
        return coarse * 524288 + fine * 512


class CoarsePacket(Reading):
    def join_packet(self, coarse, fine):
        return coarse


class OneBehindTheOther(Reading):
    """Looks for the sequences behind the ClipInfo, and for each later section where the one before ends by its length."""

    def starts(self):
        places = [44 + self.number(40, 4, 3)]
        for refusal in (4, 5, 6):
            places.append(places[-1] + 4 + self.number(places[-1], 4, refusal))
        return places


class RowsOfItsOwn(Reading):
    """Looks for the rows of a later map behind those of the map before."""

    def body_at(self, cpi, address):
        if self.maps:
            return self.maps[-1]["fine_at"] + 4 * self.maps[-1]["fine_count"]
        return super().body_at(cpi, address)


class AddressFromCpiStart(Reading):
    def body_at(self, cpi, address):
        return cpi + address


class RowsStopAtCpiEnd(Reading):
    def rows_within(self, at, count, cpi_end):
        return min(count, (cpi_end - at) // 4)


class RowsPastCpiEndRefused(Reading):
    def rows_within(self, at, count, cpi_end):
        if at + 4 * count > cpi_end:
            raise Refused(42)
        return count


class FromFirstReference(Reading):
    def first_row(self, coarse):
        return coarse[0]["first"]


class ZerosBeforeFirstReference(Reading):
    def entry(self, coarse, k, fine):
        return super().entry(coarse if coarse[0]["first"] <= k else [], k, fine)


class ZeroStartRejected(Reading):
    def no_sequences_at(self, start):
        return start == 0
