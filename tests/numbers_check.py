"""Works out the numbers of captures by itself, and compares them with what `series` and `measure` print.

    python3 numbers_check.py PROGRAM COUNT

The captures are those of explain_check.py: COUNT of one video each, by numbers from a seed. Rows and numbers are worked out from their
packets, by "The numbers of a flow" and "Models" in docs/FORMATS.md. Of `check --json` come the verdict, where a flow is refused, and the
violation of each type that fails. The script prints each capture of which the rows or a number differ, and last `N passed, M failed`. The
exit status is 1 if one failed.
"""

from __future__ import annotations

import json
import sys
import tempfile
from bisect import bisect_right
from collections import Counter
from dataclasses import dataclass
from fractions import Fraction
from functools import cached_property
from itertools import groupby
from math import floor, lcm
from pathlib import Path

from explain_check import NS, TYPES, Made, bucket_of, call, make
from page_numbers import MOST_TROFF, Media

HALF_TURN, TURN = 2**31, 2**32
KINDS = ("N", "NL", "W")
BINS = 64
Summary = dict[str, int]


@dataclass
class Kept:
    """A packet of the flow: its packet record, its capture timestamp with the options of the call, and its number as it is counted."""

    record: int
    at: int
    number: int
    ticks: int
    marker: bool


def kept_packets(made: Made) -> list[Kept]:
    """The packets of a capture. With --seq16 the sequence numbers alone are counted on."""
    kept: list[Kept] = []
    for record, packet in enumerate(made.packets, 1):
        number = packet.number
        if made.seq16:
            number %= 2**16
            if kept:
                number = (kept[-1].number + (number - kept[-1].number) % 2**16) % TURN
        at = max(0, packet.at + made.tai * NS - made.delay)
        kept.append(Kept(record, at, number, packet.ticks % TURN, packet.marker))
    return kept


def runs_of(packets: list[Kept]) -> list[list[Kept]]:
    """The packets of each run: a run ends where a number isn't the next one."""
    places = range(len(packets))
    return [[packets[i] for i in run] for _, run in groupby(places, lambda i: (packets[i].number - i) % TURN)]


def signed(ticks: int) -> int:
    """Ticks modulo 2^32, from minus half a turn on."""
    return (ticks + HALF_TURN) % TURN - HALF_TURN


class Reads:
    """The reads of a run, gapped or linear ones, in whole parts of a nanosecond, of which `parts` make one: at least one read for each
    packet, and all up to the last packet. `held` is what the buffer holds just after each packet, the reads at that instant done."""

    def __init__(self, run: Judged, gapped: bool) -> None:
        media = run.media
        step = media.frame_ns * (media.active if gapped else 1) / (run.n * media.fields)
        begin = run.begin * media.period + media.offset
        self.parts = lcm(step.denominator, begin.denominator, media.period.denominator, media.offset.denominator)
        step, begin, period = (int(time * self.parts) for time in (step, begin, media.period))
        self.offset = int(media.offset * self.parts)
        self.stamps = [at * self.parts for at in run.stamps]
        self.at: list[int] = []
        while len(self.at) < len(self.stamps) or self.at[-1] <= self.stamps[-1]:
            group, place = divmod(len(self.at), run.n)
            self.at.append(begin + group * period + place * step)
        self.held = [i + 1 - bisect_right(self.at, at) for i, at in enumerate(self.stamps)]

    def margins(self) -> list[int]:
        """By how much each packet comes before its own read."""
        return [read - at for read, at in zip(self.at, self.stamps)]

    def troff(self, limit: int) -> Summary:
        """The offsets in whole microseconds with which no packet comes after its own read, and none before the read that makes room for it."""
        micro = 1000 * self.parts
        least = max(0, *(-((margin - self.offset) // micro) for margin in self.margins()))
        most = min(MOST_TROFF, *((at - read + self.offset) // micro for at, read in zip(self.stamps[limit:], self.at)), MOST_TROFF)
        return ({"greatest": most} if most >= 0 else {}) | ({"least": least} if least <= MOST_TROFF else {})


@dataclass
class Judged:
    """A judged run: its number, all its packets, and the judged ones: behind the first marker, up to the last."""

    media: Media
    run: int
    packets: list[Kept]

    def __post_init__(self) -> None:
        markers = [i for i, packet in enumerate(self.packets) if packet.marker]
        self.head, self.n, self.frames = markers[0] + 1, markers[1] - markers[0], len(markers) - 1
        self.judged = self.packets[self.head : markers[-1] + 1]
        self.stamps = [packet.at for packet in self.judged]
        media = self.media
        self.begin = floor((self.stamps[0] - media.offset) / media.period + Fraction(1, 2))
        self.bucket = bucket_of(self.stamps, media.period / self.n * Fraction(10, 11))
        self.reads = {gapped: Reads(self, gapped) for gapped in (True, False)}

    def groups(self) -> list[range]:
        """The places of the packets of each frame or field."""
        return [range(k * self.n, (k + 1) * self.n) for k in range(self.frames)]

    def frame(self, k: int) -> Fraction:
        """The instant with which a frame or field begins by the epoch."""
        return (self.begin + k) * self.media.period

    def packet_rows(self) -> list[list[object]]:
        """The rows of `series`."""
        return [
            [self.run, i, packet.record, packet.at, i // self.n, i % self.n, self.bucket[i], self.reads[True].held[i], self.reads[False].held[i]]
            for i, packet in enumerate(self.judged)
        ]

    @cached_property
    def frame_rows(self) -> list[dict[str, object]]:
        """The rows of `series --frames`, by the names of their columns, in order."""
        rows = []
        for k, places in enumerate(self.groups()):
            one, last, at = self.judged[places[0]], self.judged[places[-1]], self.frame(k)
            bucket, gapped, linear = ([levels[i] for i in places] for levels in (self.bucket, self.reads[True].held, self.reads[False].held))
            rows.append({
                "run": self.run, "group": k, "record": one.record, "stamp": one.at, "first": floor(one.at - at), "last": floor(last.at - at),
                "timestamp": one.ticks, "step": (one.ticks - self.judged[places[0] - self.n].ticks) % TURN if k else "",
                "offset": signed(one.ticks - floor(at * 9 / 10**5)), "latency": signed(floor(Fraction(one.at * 9, 10**5)) - one.ticks),
                "bucket": max(bucket), "gapped_least": min(gapped), "gapped": max(gapped), "linear_least": min(linear), "linear": max(linear),
            })
        return rows

    def column(self, name: str) -> list[int]:
        return [row[name] for row in self.frame_rows if row[name] != ""]


def level_summary(numbers: list[int]) -> Summary:
    return {"greatest": max(numbers), "least": min(numbers), "sum": sum(numbers)}


def summary(numbers: list[int]) -> Summary:
    return level_summary(numbers) | {"first": numbers[0], "last": numbers[-1]}


def bins(numbers: list[int], limit: int) -> dict[str, object]:
    """The counts of numbers up to a limit, in at most 64 bins."""
    width = -(-(limit + 1) // BINS)
    bin_of = Counter(number // width for number in numbers if 0 <= number <= limit)
    counts = [bin_of[b] for b in range(limit // width + 1)]
    return {"above": sum(number > limit for number in numbers), "counts": counts, "limit": limit, "width": width}


def classes(gaps: list[int]) -> list[int]:
    """The counts of times: of zeros, and then each class up to the double of where it begins."""
    edges = [0, 1]
    while edges[-1] <= max(gaps):
        edges.append(2 * edges[-1])
    return [sum(low <= gap < high for gap in gaps) for low, high in zip(edges, edges[1:])]


def kind_of(run: Judged, kind: str, violation: dict | None) -> dict:
    """The numbers of a sender type."""
    reads = run.reads[kind == "N"]
    c_max, vrx_full = run.media.c_max(kind, run.n), run.media.vrx_full(kind, run.n)
    places = range(len(run.stamps))
    broken = {
        "first_bucket": [i for i in places if run.bucket[i] > c_max],
        "first_over": [i for i in places if reads.held[i] > vrx_full],
        "first_empty": [i for i, margin in enumerate(reads.margins()) if margin < 0],
    }
    every = sorted({i for found in broken.values() for i in found})
    out = {"type": kind, "pass": not every, "frames_broken": len({i // run.n for i in every}), "bucket": bins(run.bucket, c_max)}
    out |= {"buffer": bins(reads.held, vrx_full) | {"below": sum(level < 0 for level in reads.held)}, "troff": reads.troff(vrx_full)}
    out |= {name: found[0] for name, found in broken.items() if found}
    if every:
        named = run.judged[every[0]]
        out["proof"] = (violation or {}) | {"to": every[0], "record": named.record, "stamp": named.at}
    return out


def buffer_of(reads: Reads) -> Summary:
    """The numbers of the buffer by one kind of reads."""
    margins = reads.margins()
    return level_summary(reads.held) | {"late": sum(margin < 0 for margin in margins), "slack": min(margins) // reads.parts}


def run_of(run: Judged, judged: dict) -> dict:
    """The numbers of a judged run. `judged` is the run in the report."""
    media, steps = run.media, run.column("step")
    gaps = [after - before for before, after in zip(run.stamps, run.stamps[1:])]
    violations = {kind["type"]: kind.get("proof") for kind in judged["types"]}
    out = {"run": run.run, "record": run.packets[0].record, "number": run.packets[0].number, "n": run.n, "frames": run.frames}
    out |= {"packets": len(run.stamps), "head": run.head, "tail": len(run.packets) - run.head - len(run.stamps), "interlaced": media.interlaced}
    out |= {"bucket": level_summary(run.bucket), "gapped": buffer_of(run.reads[True]), "linear": buffer_of(run.reads[False])}
    out |= {name: summary(run.column(name)) for name in ("first", "last", "offset", "latency")}
    out["first"]["target"] = floor(media.offset)
    out["types"] = [kind_of(run, kind, violations[kind]) for kind in KINDS]
    if steps:
        out["step"] = {"greatest": max(steps), "least": min(steps)}
    if gaps:
        out["gap"] = level_summary(gaps) | {"classes": classes(gaps)}
    return out


def media_of(made: Made) -> Media:
    video = made.video
    return Media("239.0.0.1", 50000, video.p, video.q, video.height, video.interlaced, TYPES[video.tp], video.troff, None)


def judged_runs(made: Made, flow: dict) -> list[Judged]:
    """The judged runs of a flow, up to its first fault."""
    packets = kept_packets(made)
    if "record" in flow and flow["verdict"] in ("refused", "gap"):
        packets = packets[: flow["record"] - 1]
    runs = enumerate(runs_of(packets), 1)
    return [Judged(media_of(made), number, run) for number, run in runs if sum(packet.marker for packet in run) > 1]


def series_of(runs: list[Judged]) -> list[list[str]]:
    """The output of `series`, and with `--frames`, by lines. Of a flow without rows it is left out."""
    if not runs:
        return []
    packets = ["run,packet,record,stamp,group,place,bucket,gapped,linear"]
    packets += [",".join(map(str, row)) for run in runs for row in run.packet_rows()]
    rows = [row for run in runs for row in run.frame_rows]
    return [packets, [",".join(rows[0])] + [",".join(map(str, row.values())) for row in rows]]


def measure_of(made: Made, runs: list[Judged], flow: dict) -> dict:
    """The flow in the output of `measure`. Of a flow that is refused no run is judged."""
    out = {"media": 1, "packets": len(made.packets), "ssrc": "00000001", "target": "239.0.0.1:50000", "verdict": flow["verdict"]}
    if runs and ("types" in flow or "runs" in flow):
        return out | {"runs": [run_of(run, flow["runs"][run.run - 1] if "runs" in flow else flow) for run in runs]}
    return out | {key: value for key, value in flow.items() if key in ("record", "fault", "expected", "got")}


def differences(wanted: object, found: object, where: str = "") -> list[str]:
    """What differs, by its place."""
    if isinstance(wanted, dict) and isinstance(found, dict):
        return [line for key in wanted | found for line in differences(wanted.get(key), found.get(key), f"{where}.{key}")]
    if isinstance(wanted, list) and isinstance(found, list) and len(wanted) == len(found):
        return [line for k, (one, other) in enumerate(zip(wanted, found)) for line in differences(one, other, f"{where}[{k}]")]
    return [] if wanted == found else [f"{where}: wanted {wanted}, found {found}"]


def main() -> int:
    program, count = sys.argv[1], int(sys.argv[2])
    failed = 0
    with tempfile.TemporaryDirectory() as folder:
        sdp, capture = Path(folder, "p.sdp"), Path(folder, "a.pcap")
        for seed in range(count):
            made = make(seed)
            sdp.write_text(made.video.sdp())
            capture.write_bytes(made.pcap())
            words = [*made.options(), "--sdp", str(sdp), str(capture)]
            flow = json.loads(call(program, "check", "--json", *words)[1])["flows"][0]
            runs = judged_runs(made, flow)
            wrong = differences(measure_of(made, runs, flow), json.loads(call(program, "measure", *words)[1])["flows"][0], "measure")
            for option, lines in zip(([], ["--frames"]), series_of(runs)):
                found = call(program, "series", "--media", "1", *option, *words)[1].splitlines()
                wrong += differences(lines, found, " ".join(["series", *option]))
            failed += wrong != []
            for line in wrong[:10]:
                print(f"capture {seed} {' '.join(made.options())}: {line}")
    print(f"{count - failed} passed, {failed} failed")
    return int(failed != 0)


if __name__ == "__main__":
    sys.exit(main())
