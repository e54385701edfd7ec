"""Pages that are worked out from the numbers of page_numbers.py: tables, sentences and pictures, by "The page" in docs/FORMATS.md.

The sizes of pictures, and the places of words in them, are those of the definitions of `flow_page`. Sizes are tenths of a unit of the
picture, and y grows downward.
"""

from __future__ import annotations

from collections import Counter
from dataclasses import dataclass
from fractions import Fraction
from math import floor

from page_numbers import SECOND, Capture, Flow, Media, Run, Type, above

# Each cell, sentence and mark of a page by its place.
Places = dict[str, str]
# The marks of a picture besides its band: the kind of each, and what it is.
Marks = list[tuple[str, str]]
# The left and the right end of each column of a picture.
Edges = list[tuple[int, int]]
Cells = list[object]

SIGNS = {True: "[pass]✓ pass", False: "[fail]✗ fail"}


def ceil_div(a: int, b: int) -> int:
    return -(-a // b)


# --- columns ----------------------------------------------------------------------------------------------------------------------------

# The most columns of a picture: of the packets or the frames of a run, of the places in a frame, around a violation, and for a drift.
RUN_COLUMNS, PLACE_COLUMNS, AROUND_COLUMNS, DRIFT_COLUMNS = 1000, 500, 400, 8
# The packets that are shown behind a violation.
BEHIND = 50
# The line of W's buffer limit is drawn if a fourth of it is reached.
NEAR = 4


def doubled_width(count: int, most: int) -> int:
    """The least power of two that makes no more than `most` columns."""
    width = 1
    while ceil_div(count, width) > most:
        width *= 2
    return width


def columns_of(numbers: list[int], width: int) -> list[list[int]]:
    return [numbers[at:at + width] for at in range(0, len(numbers), width)]


# --- sentences --------------------------------------------------------------------------------------------------------------------------


def counted(count: int, noun: str) -> str:
    return f"{count} {noun}{'' if count == 1 else 's'}"


def epoch(stamp: int, tai: int) -> str:
    """A capture timestamp as the file has it, in seconds of the epoch."""
    seconds, ns = divmod(stamp - tai * SECOND, SECOND)
    return f"{seconds}.{ns:09}"


def in_unit(ns: int, unit: str) -> str:
    """A time, exact. Groups of three decimals that are 0 at the end are left out."""
    digits = {"ms": 6, "µs": 3, "ns": 0}[unit]
    whole, rest = divmod(abs(ns), 10**digits)
    decimals = f"{rest:0{digits}}" if rest else ""
    while decimals.endswith("000"):
        decimals = decimals[:-3]
    return f"{'-' if ns < 0 else ''}{whole}{'.' if decimals else ''}{decimals}"


def span(ns: int) -> str:
    """A time in a sentence."""
    unit = "µs" if abs(ns) < 10**6 else "ms"
    return f"{in_unit(ns, unit)} {unit}"


def peak_words(noun: str, each: int, numbers: list[int]) -> str:
    """The first column that has the greatest number, by the places of its numbers."""
    first = numbers.index(max(numbers)) // each * each
    last = min(first + each, len(numbers)) - 1
    return f", first at {noun} {first}" if first == last else f", first within {noun}s {first} to {last}"


def above_words(what: str, packets: list[int]) -> str:
    if not packets:
        return ""
    return f"; after {counted(len(packets), 'packet')} the {what} is above its limit, first after packet {packets[0]}"


def late_words(t: Type) -> str:
    if not t.late:
        return ""
    return f"; {counted(len(t.late), 'packet')} too late for the reads, first packet {t.late[0]}, at worst {span(-t.slack)} late"


def offset_words(t: Type, media: Media) -> str:
    """The offsets with which the buffer would pass, of a type whose bucket passes."""
    if t.above_bucket:
        return ""
    if t.least is None or t.greatest is None or t.least > t.greatest:
        return " With no offset would its buffer pass."
    own = in_unit(floor(media.offset), "µs")
    return f" With an offset of {t.least} to {t.greatest} µs its buffer would pass; the description's is {own} µs."


def type_sentence(t: Type, media: Media, run: Run, tai: int) -> str:
    """A type in words."""
    peaks = f"{SIGNS[t.passes]} {t.kind}: bucket {t.bucket_peak} of {t.c_max}, buffer {t.buffer_peak} of {t.vrx_full}"
    if t.violation is None:
        return f"{peaks}; each packet may come {span(t.slack)} later."
    last = t.violation["to"]
    packet = run.packets[last]
    breaks = above_words("bucket", t.above_bucket) + above_words("buffer", t.above_buffer) + late_words(t)
    return (f"{peaks}; broken by {t.frames_broken} of {counted(len(run.frames), media.noun)}{breaks}. Packet {last}, with which the"
            f" verdict's fail ends, is record {packet.record}, capture timestamp {epoch(packet.stamp, tai)}.{offset_words(t, media)}")


def run_sentence(run: Run, tai: int) -> str:
    first, last = (epoch(packet.stamp, tai) for packet in (run.packets[0], run.packets[-1]))
    return f"Run {run.run}, from record {run.record}; capture timestamps of judged packets {first} to {last} s."


def steps_sentences(media: Media, run: Run) -> list[str]:
    """How the RTP timestamp goes on, if that isn't as the rate says."""
    ticks = media.period * 90000 / SECOND
    least, most = floor(ticks), -floor(-ticks)
    steps = run.of_frames("step")
    if not steps or least <= min(steps) and max(steps) <= most:
        return []
    made = Fraction(90000 * len(steps), sum(steps) * media.fields)
    return [f"[fail]✗ The RTP timestamp goes on by {min(steps)} to {max(steps)} ticks from {media.noun} to {media.noun}, which makes"
            f" {thousandths(made)} frames per second, where the description's rate of {media.p}/{media.q} makes"
            f" {thousandths(Fraction(media.p, media.q))} frames per second, by {least} to {most} ticks."]


def thousandths(rate: Fraction) -> str:
    """A rate with three decimals, rounded down."""
    return "{}.{:03}".format(*divmod(floor(rate * 1000), 1000))


# --- tables -----------------------------------------------------------------------------------------------------------------------------

MEDIA_HEADS = "Flow|Verdict|Packets|Judged|Class|Declared|N|bucket|buffer|NL|bucket|buffer|W|bucket|buffer".split("|")
NUMBER_HEADS = "of the run|least|greatest|first|last|sum".split("|")
TYPE_HEADS = ("of the type|outcome|{noun}s that break it|bucket at most|peak|packets above|first|buffer at most|peak|packets above|first|"
              "below 0|packets late|first|slack, ns")
RUN_HEADS = ("judged run|record|number|packets|in a {noun}|{noun}s|head|tail|class|bucket|buffer, gapped|buffer, linear")


def table_places(name: str, heads: list[str], rows: list[Cells]) -> Places:
    """The cells of a table by their places."""
    places = {f"{name}, heads": " | ".join(heads)}
    for r, row in enumerate(rows, 1):
        for c, cell in enumerate(row):
            places[f"{name}, row {r}, column {c + 1} ({heads[c] if c < len(heads) else ''})"] = str(cell)
    return places


def media_row(flow: Flow) -> Cells:
    """A verdict takes the row where no run is shown."""
    run, media = flow.shown, flow.media
    name = f"{flow.number} {media.target}"
    if run is None:
        return [name, f"({len(MEDIA_HEADS) - 1}){flow.verdict}"]
    cells: Cells = [name, flow.verdict, f"{run.n} per {media.noun}", counted(len(run.frames), media.noun), run.name_of_class, media.declared or "none"]
    for t in flow.types:
        cells += [SIGNS[t.passes], f"{t.bucket_peak} of {t.c_max}", f"{t.buffer_peak} of {t.vrx_full}"]
    return cells


def number_rows(media: Media, run: Run) -> list[Cells]:
    """The numbers of a run. The bucket, the buffer and the times from packet to packet have no first and last."""
    def extremes(name: str, numbers: list[int]) -> Cells:
        return [name, min(numbers), max(numbers), "", "", sum(numbers)]

    def summary(name: str, numbers: list[int]) -> Cells:
        return [name, min(numbers), max(numbers), numbers[0], numbers[-1], sum(numbers)]

    steps = run.of_frames("step")
    return [
        extremes("packets in the bucket", run.of_packets("bucket")),
        extremes("packets in the buffer, gapped reads", run.of_packets("gapped")),
        extremes("packets in the buffer, linear reads", run.of_packets("linear")),
        summary(f"first packet after the {media.noun} begins, ns", run.of_frames("first")),
        ["target of the first packet (TR_OFFSET), ns", f"(5){floor(media.offset)}"],
        summary(f"last packet after the {media.noun} begins, ns", run.of_frames("last")),
        *([extremes("from packet to packet, ns", run.gaps())] if run.gaps() else []),
        *([["step of the RTP timestamp, ticks", min(steps), max(steps), "", "", ""]] if steps else []),
        summary(f"RTP timestamp after the {media.noun} begins, ticks", run.of_frames("offset")),
        summary("from RTP timestamp to first packet, ticks", run.of_frames("latency")),
    ]


def type_row(t: Type) -> Cells:
    def first(packets: list[int]) -> object:
        return packets[0] if packets else ""

    below = sum(number < 0 for number in t.buffer)
    return [t.kind, SIGNS[t.passes], t.frames_broken, t.c_max, t.bucket_peak, len(t.above_bucket), first(t.above_bucket), t.vrx_full,
            t.buffer_peak, len(t.above_buffer), first(t.above_buffer), below, len(t.late), first(t.late), t.slack]


def run_row(run: Run) -> Cells:
    return [run.run, run.record, run.number, len(run.packets), run.n, len(run.frames), run.judged["head"], run.judged["tail"],
            run.name_of_class, run.peak("bucket"), run.peak("gapped"), run.peak("linear")]


# --- where numbers stand in a picture ---------------------------------------------------------------------------------------------------

TOP, BOTTOM = 200, 1800
RIGHT = {True: 12000, False: 5400}
VIEW_BOX = {True: "0 0 1300 220", False: "0 0 640 220"}
# The width of a digit, and the distance of the names of lines.
DIGIT, LINE = 78, 140
AXIS_END = 2**61


def tenths(number: int) -> str:
    return f"{number // 10}.{number % 10}" if number % 10 else f"{number // 10}"


def path(style: str, *points: tuple[int, int], closed: bool = False) -> str:
    return " ".join([style, *(f"{tenths(x)},{tenths(y)}" for x, y in points)] + ["closed"] * closed)


def words_at(words: object, x: int, y: int, anchor: str = "start", style: str = "") -> str:
    return f"{style} {words!s} at {tenths(x)},{tenths(y)} {anchor}".strip()


def round_up(wanted: int) -> int:
    """The least of 1, 2 and 5 times a power of ten that isn't below what is wanted."""
    power = 1
    while wanted > 5 * power:
        power *= 10
    return next(factor * power for factor in (1, 2, 5) if wanted <= factor * power)


def unit_of(unit: str, step: int) -> tuple[str, int]:
    """The unit at an axis, and how many of its own there are in one. Nanoseconds are whole milliseconds or microseconds where steps are."""
    if unit != "ns":
        return unit, 1
    return ("ms", 10**6) if step % 10**6 == 0 else ("µs", 10**3) if step % 10**3 == 0 else ("ns", 1)


class Plot:
    """The axis of a picture, and what stands side by side: `count` places from `start` on, `each` of them in a column."""

    def __init__(self, wide: bool, unit: str, numbers: list[int], start: int, count: int, each: int) -> None:
        least, greatest = (max(-AXIS_END, min(AXIS_END, number)) for number in (min(numbers), max(numbers)))
        self.step = round_up(ceil_div(greatest - least, 6))
        self.low = least - least % self.step
        self.steps = min(8, max(3, ceil_div(greatest - self.low, self.step)))
        self.unit, self.scale = unit_of(unit, self.step)
        self.start, self.count, self.each = start, count, each
        self.right = RIGHT[wide]
        self.left = 160 + DIGIT * min(40, max(len(str(self.tick(k) // self.scale)) for k in (0, self.steps)))

    def tick(self, k: int) -> int:
        return self.low + self.step * k

    def y(self, number: int) -> int:
        span = self.step * self.steps
        rise = max(0, min(span, number - self.low))
        return TOP + (BOTTOM - TOP) * (span - rise) // span

    def x(self, at: int) -> int:
        return self.left + (self.right - self.left) * min(at, self.count) // self.count

    def edges(self) -> Edges:
        return [(self.x(at), self.x(at + self.each)) for at in range(0, self.count, self.each)]

    def grid(self, across: str) -> Marks:
        """The lines of the axis with their numbers, and the units."""
        marks = []
        for number in map(self.tick, range(self.steps + 1)):
            y = self.y(number)
            marks.append(("line of the axis", path("ax", (self.left, y), (self.right, y))))
            marks.append(("number of the axis", words_at(number // self.scale, self.left - 60, y + 40, "end")))
        marks.append(("unit", words_at(self.unit, 0, 120)))
        return marks + [("number of the axis", words_at(across, self.right, BOTTOM + 310, "end"))]

    def ticks(self) -> Marks:
        """The marks below, with their numbers."""
        step = round_up(ceil_div(self.count, 7))
        marks = []
        for at in range(-self.start % step, self.count + 1, step)[:8]:
            marks.append(("tick", path("ax", (self.x(at), BOTTOM), (self.x(at), BOTTOM + 40))))
            marks.append(("number below", words_at(self.start + at, self.x(at), BOTTOM + 160, "middle")))
        return marks

    def frame_ends(self, n: int) -> Marks:
        """The ends of frames of so many packets, if frames are four units wide or more."""
        if (self.right - self.left) * n < 40 * self.count:
            return []
        return [("end of a frame", path("fr", (self.x(at), TOP), (self.x(at), BOTTOM))) for at in range(n, self.count, n)]

    def limits(self, lines: list[tuple[str, int]]) -> Marks:
        """The lines of limits with their names. A name that isn't clear of those before it stands above all of them."""
        marks, bases = [], []
        for name, number in lines:
            style = "lim w" if name.startswith("W ") else "lim"
            y = self.y(number)
            clear = not bases or y + 40 <= min(bases) - LINE or y + 40 >= max(bases) + LINE
            bases.append(y + 40 if clear else max(0, min(bases) - LINE))
            marks.append(("limit", path(style, (self.left, y), (self.right, y))))
            marks.append(("name of a limit", words_at(name, self.right + 60, bases[-1], style=style)))
        return marks

    def shade(self, first: int, last: int) -> Marks:
        """The packets that a verdict names, as far as they are shown. In the left half their name begins where they begin."""
        first = max(first, self.start)
        left, right = self.x(first - self.start), self.x(last - self.start + 1)
        corners = (left, TOP), (left, BOTTOM), (right, BOTTOM), (right, TOP)
        place, anchor = (right, "end")
        if left - self.left < self.right - left:
            place, anchor = max(left, DIGIT * len(self.unit) + 60), "start"
        named = words_at(f"from {first} to {last}", place, TOP - 40, anchor, "lim")
        return [("shade", path("hit", *corners, closed=True)), ("name of a limit", named)]


# --- pictures ---------------------------------------------------------------------------------------------------------------------------


@dataclass
class Picture:
    """A picture: its words, its marks, the ends of its columns, and the upper and the lower end of the band in each."""

    title: str
    detail: str
    wide: bool
    marks: Marks
    edges: Edges
    band: list[str]

    def places(self, flow: str) -> Places:
        name = f"{flow}, picture {self.title}"
        size = f"wide {VIEW_BOX[True]}" if self.wide else VIEW_BOX[False]
        places = picture_places(name, size, [self.title, self.detail] * 2, self.marks)
        places |= {f"{name}, column {c}": ends for c, ends in enumerate(self.band)}
        if self.edges:
            places[f"{name}, length of the band"] = tenths(2 * (self.edges[-1][1] - self.edges[0][0]))
        return places


def picture_places(name: str, size: str, words: list[str], marks: Marks) -> Places:
    """The size, the words and the marks of a picture by their places. Marks are counted, each kind by itself."""
    places = {f"{name}, size": size}
    places |= {f"{name}, {where}": value for where, value in zip(("caption", "caption's words", "title", "description"), words)}
    counts: Counter[str] = Counter()
    for kind, value in marks:
        counts[kind] += 1
        places[f"{name}, {kind} {counts[kind]}"] = value
    return places


def curve(title: str, detail: str, plot: Plot, across: str, wide: bool, columns: list[list[int]], more: Marks) -> Picture:
    """A picture of columns, each of which has its numbers."""
    band = [f"{tenths(plot.y(max(column)))} to {tenths(plot.y(min(column)))}" for column in columns]
    return Picture(title, detail, wide, plot.grid(across) + plot.ticks() + more, plot.edges(), band)


LEVELS = {
    "bucket": ("Bucket over the capture", "bucket"),
    "gapped": ("Receiver buffer over the capture, gapped reads (N)", "buffer, gapped reads (N)"),
    "linear": ("Receiver buffer over the capture, linear reads (NL, W)", "buffer, linear reads (NL, W)"),
}


def level_limits(level: str, types: list[Type]) -> tuple[list[tuple[str, int]], str]:
    """The limits of the types that are judged by a level: as lines, and in words."""
    lines, words = ([] if level == "bucket" else [("empty", 0)]), ""
    for t in types:
        if level == "bucket":
            limit, packets, near = t.c_max, t.above_bucket, True
        elif (level == "gapped") == (t.kind == "N"):
            limit, packets, near = t.vrx_full, t.above_buffer, t.kind != "W" or t.buffer_peak >= t.vrx_full // NEAR
        else:
            continue
        words += f"; {t.kind} at most {limit}" + (f", above it first after packet {packets[0]}" if packets else "")
        lines += [(f"{t.kind} {limit}", limit)] * near
    return lines, words


def level_picture(media: Media, run: Run, types: list[Type], level: str, overlaid: bool) -> Picture:
    """What the bucket or the buffer holds: over the run, or of all frames overlaid."""
    numbers, n = run.of_packets(level), run.n
    each = ceil_div(n, PLACE_COLUMNS) if overlaid else doubled_width(len(numbers), RUN_COLUMNS)
    lines, words = level_limits(level, types)
    noun, peaks = ("place", [max(numbers[place::n]) for place in range(n)]) if overlaid else ("packet", numbers)
    most = f"{counted(max(numbers), 'packet')}{peak_words(noun, each, peaks)}"
    detail = f"least {min(numbers)}, most {most}; {each} to a mark{words}"
    plot = Plot(not overlaid, "packets", numbers + [at for _, at in lines], 0, n if overlaid else len(numbers), each)
    if overlaid:
        columns = [[number for place in range(at, min(at + each, n)) for number in numbers[place::n]] for at in range(0, n, each)]
        title = f"One {media.noun}, all over each other: {LEVELS[level][1]}"
        return curve(title, detail, plot, f"place in the {media.noun}", False, columns, plot.limits(lines))
    more = plot.frame_ends(n) + plot.limits(lines)
    return curve(LEVELS[level][0], detail, plot, "judged packet", True, columns_of(numbers, each), more)


def drift_words(media: Media, numbers: list[int]) -> str:
    """The drift of eight first packets or more: from the least of the first of at most eight columns to the least of the last full one, if
    these differ by more than the numbers in one of them."""
    if len(numbers) < DRIFT_COLUMNS:
        return ""
    width = doubled_width(len(numbers), DRIFT_COLUMNS)
    full = [column for column in columns_of(numbers, width) if len(column) == width]
    scatter = max(max(column) - min(column) for column in (full[0], full[-1]))
    change = min(full[-1]) - min(full[0])
    if abs(change) <= scatter:
        return f"; no drift above the scatter of {in_unit(scatter, 'µs')} µs"
    drift = floor(abs(change) * 10**7 / ((len(full) - 1) * width * media.period))
    return f"; drift {'-' if change < 0 and drift else ''}{tenths(drift)} ppm"


def timing_picture(media: Media, run: Run, column: str, title: str, lines: list[tuple[str, int]]) -> Picture:
    """A number of each frame, over the run: times in the unit of the axis if there is a line, else ticks."""
    numbers = run.of_frames(column)
    each = doubled_width(len(numbers), RUN_COLUMNS)
    plot = Plot(False, "ns" if lines else "ticks of 90 kHz", numbers + [at for _, at in lines], 0, len(numbers), each)
    peak = peak_words(media.noun, each, numbers)
    if lines:
        words = (f"least {in_unit(min(numbers), plot.unit)}, most {in_unit(max(numbers), plot.unit)} {plot.unit} after the {media.noun}"
                 f" begins{peak}" + "".join(f"; {name} {in_unit(at, plot.unit)} {plot.unit}" for name, at in lines))
    else:
        words = f"least {min(numbers)}, most {counted(max(numbers), 'tick')} of 90 kHz{peak}"
    if column == "first":
        words += drift_words(media, numbers)
    return curve(title, words, plot, media.noun, False, columns_of(numbers, each), plot.limits(lines))


def timing_pictures(media: Media, run: Run) -> list[Picture]:
    """When the first and the last packet of each frame come, and its RTP timestamp."""
    noun = media.noun
    return [
        timing_picture(media, run, "first", f"First packet of each {noun}", [("TR_OFFSET", floor(media.offset))]),
        timing_picture(media, run, "last", f"Last packet of each {noun}", [("T_GROUP", floor(media.period))]),
        timing_picture(media, run, "offset", f"RTP timestamp of each {noun}, after it begins", []),
        timing_picture(media, run, "latency", f"From the RTP timestamp of each {noun} to its first packet", []),
    ]


def around_picture(run: Run, t: Type, violation: dict) -> Picture:
    """The packets around the violation of a type, and the limit of the model that breaks."""
    first, last, model = violation["from"], violation["to"], violation["model"]
    start = max(0, last + BEHIND + 1 - AROUND_COLUMNS)
    numbers = (run.of_packets("bucket") if model == "Bucket" else t.buffer)[start:last + BEHIND + 1]
    limits = {"Bucket": (f"{t.kind} {t.c_max}", t.c_max), "Over": (f"{t.kind} {t.vrx_full}", t.vrx_full), "Empty": ("empty", 0)}
    name, limit = limits[model]
    plot = Plot(False, "packets", numbers + [limit], start, len(numbers), doubled_width(len(numbers), AROUND_COLUMNS))
    detail = f"packets {first} to {last}: count {violation['count']}, limit {violation['limit']}"
    if start > first:
        detail += f"; the first {start - first} of them come before the picture"
    more = plot.shade(first, last) + plot.limits([(name, limit)])
    return curve(f"Around the fail: {t.kind}, {model}", detail, plot, "judged packet", False, columns_of(numbers, plot.each), more)


# --- histograms -------------------------------------------------------------------------------------------------------------------------


def bar_marks(plot: Plot, k: int, name: str, count: int, total: int, label_step: int) -> Marks:
    """A bar, its share above it, its name below it, and the line of the limit before what is above it. It takes the middle eight tenths
    of its place."""
    begin, left, middle, right = (plot.left + (plot.right - plot.left) * (10 * k + part) // (10 * plot.count) for part in (0, 1, 5, 9))
    marks: Marks = []
    if count:
        y, style = plot.y(count), "bar" if name.isdigit() else "bar over"
        corners = (left, BOTTOM), (left, y), (right, y), (right, BOTTOM)
        marks.append(("bar", f"{path(style, *corners, closed=True)} {name}: {count}"))
        if label_step == 1:
            share = count * 1000 // total
            marks.append(("number below", words_at(f"{tenths(share)} %" if share else "<0.1 %", middle, y - 40, "middle")))
    behind = plot.count - 1 - k
    if k == 0 or behind == 0 or k % label_step == 0 and behind >= label_step:
        marks.append(("number below", words_at(name, middle, BOTTOM + 160, "middle")))
    if name.startswith("above"):
        marks.append(("limit", path("lim", (begin, TOP), (begin, BOTTOM))))
        marks.append(("name of a limit", words_at(name.replace("above", "limit"), begin - 40, TOP + 100, "end", "lim")))
    return marks


def bars_picture(title: str, detail: str, across: str, bars: list[tuple[str, int]]) -> Picture:
    """A picture of bars with their names and counts. Sixty units are room for a name."""
    total = sum(count for _, count in bars)
    plot = Plot(False, "packets", [0, max(count for _, count in bars)], 0, len(bars), 1)
    label_step = max(1, ceil_div(600 * len(bars), plot.right - plot.left))
    marks = plot.grid(across)
    for k, (name, count) in enumerate(bars):
        marks += bar_marks(plot, k, name, count, total, label_step)
    return Picture(title, detail, False, marks, [], [])


def level_bars(what: str, t: Type, numbers: list[int], limit: int) -> Picture:
    """The histogram of what the bucket or the buffer holds just after each packet: at most 64 bins up to the limit."""
    width = ceil_div(limit + 1, 64)
    over, below = len(above(numbers, limit)), sum(number < 0 for number in numbers)
    bins = Counter(number // width for number in numbers if 0 <= number <= limit)
    bars = [(str(b * width), bins[b]) for b in range(limit // width + 1)] + [(f"above {limit}", over)]
    packets = above(numbers, limit)
    detail = f"most {max(numbers)}, limit {limit}; {over} of {counted(len(numbers), 'packet')} above"
    detail += f", first after packet {packets[0]}" if packets else ""
    detail += f", {below} below 0" if what == "buffer" else ""
    first = [("below 0", below)] if what == "buffer" else []
    return bars_picture(f"How often: {what}, {t.kind}", detail, f"packets in the {what}", first + bars)


def gap_bars(gaps: list[int]) -> Picture:
    """The histogram of the times from packet to packet: the zeros, and then classes that go up to the double of where they begin."""
    classes = Counter(gap.bit_length() for gap in gaps)
    bars = [(str(1 << c >> 1), classes[c]) for c in range(max(classes) + 1)]
    detail = f"least {min(gaps)}, most {max(gaps)} ns; each bar goes up to the double of where it begins"
    return bars_picture("Time from packet to packet", detail, "ns from packet to packet", bars)


def pictures_of(flow: Flow) -> list[Picture]:
    """All pictures of a flow, in their order."""
    run, types = flow.shown, flow.types
    pictures = [level_picture(flow.media, run, types, level, overlaid) for overlaid in (False, True) for level in LEVELS]
    pictures += timing_pictures(flow.media, run)
    for t in types:
        pictures += [level_bars("bucket", t, run.of_packets("bucket"), t.c_max), level_bars("buffer", t, t.buffer, t.vrx_full)]
    pictures += [gap_bars(run.gaps())] if run.gaps() else []
    return pictures + [around_picture(run, t, t.violation) for t in types if t.violation]


# --- the page ---------------------------------------------------------------------------------------------------------------------------

LEGEND = ("[legend]In the curves each mark spans the least and the greatest number of its packets, frames or fields [band: M2 3H26V9H2Z],"
          " so no peak is hidden. Limits are lines with their names at the right: those of N and NL are dashed [lim: M0 6H28], those of W"
          " dotted [lim w: M0 6H28]; faint uprights are the ends of frames or fields. In the bars what is beyond a limit stands behind the"
          " limit's line, or before 0, and is named so. Packets, frames and fields count from 0, records from 1.")
# The strokes of limits: the legend calls the first dashed, the second dotted.
STROKES = {"path.lim": "stroke-dasharray:7 4", "path.w": "stroke-dasharray:2 3"}
# The elements of the page, of a flow and of what the capture holds, in their order.
ORDERS = {"page": "h1 p div p", "flow": "h2 p ul div h3 div div div", "flow with steps": "h2 p ul p div h3 div div div", "last": "h2 div"}


def flow_places(flow: Flow, tai: int, pictures: list[Picture]) -> Places:
    """The part of a flow with a run that is shown."""
    name, run = f"flow {flow.number}", flow.shown
    steps = steps_sentences(flow.media, run)
    sentences = [run_sentence(run, tai)] + [type_sentence(t, flow.media, run, tai) for t in flow.types] + steps
    places = {f"{name}, elements": ORDERS["flow with steps" if steps else "flow"],
              f"{name}, heading": f"Flow {flow.number}, {flow.media.target}",
              f"{name}, heading of the tables": "Numbers",
              f"{name}, pictures": "; ".join(picture.title for picture in pictures)}
    places |= {f"{name}, sentence {k}": sentence for k, sentence in enumerate(sentences, 1)}
    for picture in pictures:
        places |= picture.places(name)
    places |= table_places(f"{name}, table of numbers", NUMBER_HEADS, number_rows(flow.media, run))
    heads = [text.format(noun=flow.media.noun).split("|") for text in (TYPE_HEADS, RUN_HEADS)]
    places |= table_places(f"{name}, table of types", heads[0], [type_row(t) for t in flow.types])
    return places | table_places(f"{name}, table of runs", heads[1], [run_row(each) for each in flow.runs])


def worked_places(capture: Capture) -> tuple[Places, dict[str, Edges]]:
    """The whole page of a capture, and the ends of the columns of each picture."""
    places = {"elements": ORDERS["page"], "title": f"{capture.name}: sender timing", "heading": f"Sender timing: {capture.name}",
              "end of the capture": f"By SMPTE ST 2110-21. How the capture ends: {capture.end}.", "legend": LEGEND}
    places |= {f"stroke of {style}": stroke for style, stroke in STROKES.items()}
    places |= table_places("table of media", MEDIA_HEADS, [media_row(flow) for flow in capture.flows])
    shown = [flow for flow in capture.flows if flow.shown]
    places["flows"] = "; ".join(f"Flow {flow.number}, {flow.media.target}" for flow in shown)
    edges: dict[str, Edges] = {}
    for flow in shown:
        pictures = pictures_of(flow)
        edges |= {f"flow {flow.number}, picture {picture.title}": picture.edges for picture in pictures}
        places |= flow_places(flow, capture.tai, pictures)
    places |= {"last elements": ORDERS["last"], "last heading": "What the capture holds", "what the capture holds": capture.contents}
    return places, edges
