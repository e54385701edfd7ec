"""The numbers of judged runs, from which page_worked.py makes pages.

The numbers of packets and frames are those of `series`, the verdicts those of `check`, and what a capture holds is printed by `scan`: these
commands have cases of their own. The limits, the reads and the packets that break a model are worked out, by "Models" in docs/FORMATS.md.
The first packet of a flow is read from the capture.
"""

from __future__ import annotations

import csv
import json
import re
import struct
import subprocess
import sys
from collections.abc import Iterator
from dataclasses import dataclass
from fractions import Fraction
from math import floor, lcm
from typing import NamedTuple

TYPES = ("N", "NL", "W")
CLASSES = {"N": "narrow", "NL": "narrow linear", "W": "wide"}
SECOND = 10**9
# The greatest offset that TROFF gives, in microseconds.
MOST_TROFF = 10**6
ACTIVE_OF_FIELDS = (Fraction(1080, 1125), Fraction(576, 625), Fraction(487, 525))
OFFSET_OF_FIELDS = (Fraction(22, 1125), Fraction(26, 625), Fraction(20, 525))
# A row of `series`.
Row = dict[str, "int | None"]


# --- the session description ------------------------------------------------------------------------------------------------------------


@dataclass
class Media:
    """A video of the session description. Times are nanoseconds: `period` is T_GROUP, `active` is R_ACTIVE, `offset` is TR_OFFSET."""

    address: str
    port: int
    p: int
    q: int
    height: int
    interlaced: bool
    declared: str | None
    troff: int | None
    cmax: int | None

    def __post_init__(self) -> None:
        self.target = f"{self.address}:{self.port}"
        self.noun, self.fields = ("field", 2) if self.interlaced else ("frame", 1)
        self.frame_ns = Fraction(self.q * SECOND, self.p)
        self.period = self.frame_ns / self.fields
        by_height = 0 if self.height >= 1080 else 1 if self.height >= 576 else 2
        self.active = ACTIVE_OF_FIELDS[by_height] if self.interlaced else Fraction(1080, 1125)
        of_frame = Fraction(43, 1125) if self.height >= 1080 else Fraction(28, 750)
        self.offset = self.frame_ns * (OFFSET_OF_FIELDS[by_height] if self.interlaced else of_frame)
        if self.troff is not None:
            self.offset = Fraction(self.troff * 1000)

    def rate(self, n: int) -> Fraction:
        """The packets of a second, of so many per frame or field."""
        return Fraction(n * self.fields * self.p, self.q)

    def c_max(self, kind: str, n: int) -> int:
        if self.cmax is not None and kind == self.declared:
            return self.cmax
        least, divisor = {"N": (4, 43200 * self.active), "NL": (4, 43200), "W": (16, 21600)}[kind]
        return max(least, floor(self.rate(n) / divisor))

    def vrx_full(self, kind: str, n: int) -> int:
        least, divisor = (720, 300) if kind == "W" else (8, 27000)
        return max(least, floor(self.rate(n) / divisor))


def media_of(part: str, session: str) -> Media | None:
    """The video of a part of a session description that is valid, if it is a raw one."""
    head = re.match(r"m=video (\d+) RTP/AVP (\d+)", part)
    if head is None or not re.search(rf"^a=rtpmap:{head[2]} raw/90000\s*$", part, re.MULTILINE | re.IGNORECASE):
        return None
    lists = re.findall(rf"^a=fmtp:{head[2]} (.*)$", part, re.MULTILINE)
    items = [item.strip().partition("=") for item in ";".join(lists).split(";")]
    values = {name.lower(): value for name, _, value in items}
    p, _, q = values["exactframerate"].partition("/")
    declared = values["tp"].removeprefix("2110TP") if "tp" in values else None
    troff, cmax = (int(values[name]) if name in values else None for name in ("troff", "cmax"))
    address = re.findall(r"^c=IN IP4 ([\d.]+)", part + session, re.MULTILINE)[0]
    return Media(address, int(head[1]), int(p), int(q or 1), int(values["height"]), "interlace" in values, declared, troff, cmax)


def read_sdp(name: str) -> list[Media]:
    """The videos of a session description, in order."""
    with open(name, encoding="ascii") as file:
        session, *parts = re.split(r"^(?=m=)", file.read(), flags=re.MULTILINE)
    return [media for part in parts if (media := media_of(part, session))]


# --- the capture ------------------------------------------------------------------------------------------------------------------------


def records_of(capture: str) -> Iterator[bytes]:
    """The captured bytes of each packet record of a classic capture."""
    with open(capture, "rb") as file:
        data = file.read()
    order = {b"\xa1\xb2": ">", b"\xd4\xc3": "<", b"\x4d\x3c": "<"}.get(data[:2])
    if order is None:
        sys.exit(f"page_check: {capture} isn't a classic capture")
    at = 24
    while at + 16 <= len(data):
        length = struct.unpack_from(order + "I", data, at + 8)[0]
        yield data[at + 16:at + 16 + length]
        at += 16 + length


def first_packet(capture: str, media: Media) -> tuple[int, int]:
    """The record of the first packet of a flow, and its number."""
    address = bytes(map(int, media.address.split(".")))
    for record, data in enumerate(records_of(capture), 1):
        ip = 18 if data[12:14] == b"\x81\x00" else 14
        if data[ip - 2:ip] + data[ip + 9:ip + 10] + data[ip + 16:ip + 20] != b"\x08\x00\x11" + address:
            continue
        udp = ip + 4 * (data[ip] & 15)
        if struct.unpack_from(">H", data, udp + 2)[0] == media.port:
            return record, packet_number(data[udp + 8:])
    raise LookupError(f"{capture} has no packet to {media.target}")


def packet_number(rtp: bytes) -> int:
    """The number of a packet: its extended sequence number stands behind sources and an extension."""
    at = 12 + 4 * (rtp[0] & 15)
    if rtp[0] & 16:
        at += 4 + 4 * struct.unpack_from(">H", rtp, at + 2)[0]
    return struct.unpack_from(">H", rtp, at)[0] * 65536 + struct.unpack_from(">H", rtp, 2)[0]


# --- what the program prints ------------------------------------------------------------------------------------------------------------


class Program(NamedTuple):
    """The program, the session description and the seconds of `--tai`."""

    path: str
    sdp: str
    tai: int

    def output(self, command: str, *arguments: str) -> str:
        done = subprocess.run([self.path, *command.split(), *arguments], capture_output=True, check=False)
        if done.returncode not in (0, 1, 4):
            sys.exit(f"page_check: {command} {' '.join(arguments)}: exit status {done.returncode}\n{done.stderr.decode()}")
        return done.stdout.decode()

    def of_capture(self, command: str, capture: str) -> str:
        return self.output(command, "--sdp", self.sdp, "--tai", str(self.tai), capture)


class Packet(NamedTuple):
    """A judged packet: a row of `series`, without its run and its number."""

    record: int
    stamp: int
    group: int
    place: int
    bucket: int
    gapped: int
    linear: int


@dataclass
class Run:
    """A judged run: its verdict by `check`, the record and the number of its first packet, its packets and its frames or fields."""

    run: int
    record: int
    number: int
    judged: dict
    packets: list[Packet]
    frames: list[Row]

    def __post_init__(self) -> None:
        self.n = max(packet.place for packet in self.packets) + 1
        self.name_of_class = next((CLASSES[t["type"]] for t in self.judged["types"] if t["pass"]), "none")

    def of_packets(self, name: str) -> list[int]:
        """A column of `series`."""
        return [getattr(packet, name) for packet in self.packets]

    def of_frames(self, name: str) -> list[int]:
        """A column of `series --frames`, without empty fields."""
        return [frame[name] for frame in self.frames if frame[name] is not None]

    def gaps(self) -> list[int]:
        """The nanoseconds from each packet to the next."""
        stamps = self.of_packets("stamp")
        return [after - before for before, after in zip(stamps, stamps[1:])]

    def peak(self, name: str) -> int:
        """The most packets that the bucket or the buffer held."""
        return max(0, *self.of_packets(name))


def rows_by_run(text: str) -> dict[int, list[Row]]:
    """The rows of `series` by runs. There are none if it prints that nothing is judged."""
    runs: dict[int, list[Row]] = {}
    if text.startswith("run,"):
        for row in csv.DictReader(text.splitlines()):
            numbers = {name: int(value) if value else None for name, value in row.items()}
            runs.setdefault(numbers["run"], []).append(numbers)
    return runs


def runs_of(program: Program, capture: str, media: Media, flow: dict) -> list[Run]:
    """The judged runs of a flow. A flow without gaps has one, which begins with its first packet. Of a flow that is refused `series` has the rows
    before the fault, and a page nothing."""
    if "types" not in flow and "runs" not in flow:
        return []
    series = f"series --media {flow['media']}"
    packets = rows_by_run(program.of_capture(series, capture))
    frames = rows_by_run(program.of_capture(series + " --frames", capture))
    runs = []
    for run, rows in packets.items():
        judged = flow["runs"][run - 1] if "runs" in flow else flow
        begin = (judged["record"], judged["number"]) if "runs" in flow else first_packet(capture, media)
        runs.append(Run(run, *begin, judged, [Packet(**{name: row[name] for name in Packet._fields}) for row in rows], frames[run]))
    return runs


# --- the types --------------------------------------------------------------------------------------------------------------------------


@dataclass
class Type:
    """A sender type and a run: its limits, the violation that `check` names, the packets that break each model, the slack, and the offsets
    in microseconds with which its packets would keep the buffer."""

    kind: str
    c_max: int
    vrx_full: int
    violation: dict | None
    bucket_peak: int
    buffer_peak: int
    buffer: list[int]
    above_bucket: list[int]
    above_buffer: list[int]
    late: list[int]
    slack: int
    frames_broken: int
    least: int | None
    greatest: int | None

    def __post_init__(self) -> None:
        self.passes = not self.frames_broken
        first = min(self.above_bucket + self.above_buffer + self.late, default=None)
        if (self.violation or {"to": None})["to"] != first:
            sys.exit(f"page_check: {self.kind}: `check` prints the violation {self.violation}, and by `series` it is at packet {first}")


def reads_of(media: Media, run: Run, gapped: bool) -> tuple[list[int], int]:
    """The instant of each packet's own read, in parts of a nanosecond, and the number of parts in one."""
    step = media.frame_ns * (media.active if gapped else 1) / (run.n * media.fields)
    periods = floor((run.packets[0].stamp - media.offset) / media.period + Fraction(1, 2))
    begin = periods * media.period + media.offset
    parts = lcm(begin.denominator, media.period.denominator, step.denominator)
    begin, period, step = int(begin * parts), int(media.period * parts), int(step * parts)
    return [begin + i // run.n * period + i % run.n * step for i in range(len(run.packets))], parts


def offsets(media: Media, run: Run, reads: list[int], parts: int, vrx_full: int) -> tuple[int | None, int | None]:
    """The least and the greatest offset from 0 to 1,000,000 us with which no packet comes after its own read, and none before the read that
    makes room for it."""
    stamps = [packet.stamp * parts for packet in run.packets]
    own, micro = int(media.offset * parts), 1000 * parts
    least = max(0, *(-((read - own - stamp) // micro) for read, stamp in zip(reads, stamps)))
    greatest = min(MOST_TROFF, *((stamp - (read - own)) // micro for stamp, read in zip(stamps[vrx_full:], reads)), MOST_TROFF)
    return least if least <= MOST_TROFF else None, greatest if greatest >= 0 else None


def above(numbers: list[int], limit: int) -> list[int]:
    """The packets with a number above a limit."""
    return [i for i, number in enumerate(numbers) if number > limit]


def type_of(media: Media, run: Run, kind: str) -> Type:
    """A type, by its reads: N has gapped ones, the others linear ones."""
    reads = "gapped" if kind == "N" else "linear"
    c_max, vrx_full = media.c_max(kind, run.n), media.vrx_full(kind, run.n)
    own_reads, parts = reads_of(media, run, kind == "N")
    margin = [read - packet.stamp * parts for read, packet in zip(own_reads, run.packets)]
    bucket, buffer = above(run.of_packets("bucket"), c_max), above(run.of_packets(reads), vrx_full)
    late = [i for i, before in enumerate(margin) if before < 0]
    broken = {i // run.n for i in bucket + buffer + late}
    violation = run.judged["types"][TYPES.index(kind)].get("proof")
    return Type(kind, c_max, vrx_full, violation, run.peak("bucket"), run.peak(reads), run.of_packets(reads), bucket, buffer, late,
                min(margin) // parts, len(broken), *offsets(media, run, own_reads, parts, vrx_full))


# --- a capture --------------------------------------------------------------------------------------------------------------------------


@dataclass
class Flow:
    """A video of the session description: its verdict, its judged runs, and the types of the run that is shown."""

    number: int
    media: Media
    verdict: str
    runs: list[Run]

    def __post_init__(self) -> None:
        self.shown = max(self.runs, key=lambda run: len(run.packets), default=None)
        self.types = [type_of(self.media, self.shown, kind) for kind in TYPES] if self.shown else []


@dataclass
class Capture:
    """A capture: its name, how it ends, its flows, and what it holds in the lines of `scan`."""

    name: str
    end: str
    flows: list[Flow]
    contents: str
    tai: int


def read_capture(program: Program, name: str) -> Capture:
    report = json.loads(program.of_capture("check --json", name))
    verdicts = re.findall(r"^flow \S+ \S+ (.*)$", program.of_capture("check", name), re.MULTILINE)
    flows = []
    for media, flow, verdict in zip(read_sdp(program.sdp), report["flows"], verdicts):
        short = "judged" if verdict.startswith("judged:") else verdict
        flows.append(Flow(flow["media"], media, short, runs_of(program, name, media, flow)))
    return Capture(name, report["files"][0]["end"], flows, program.output("scan", name), program.tai)
