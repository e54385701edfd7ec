"""Works out the findings on captures by itself, and compares them with what `explain --json` prints.

    python3 explain_check.py PROGRAM COUNT

It makes COUNT captures of one video by numbers from a seed: paced, late, bursty, drifting or jittering senders, clocks that are 37 s apart,
RTP timestamps of another rate, packets that are missing, repeated or swapped, and runs of packet numbers that wrap. The findings are those
of docs/FORMATS.md, "What is wrong with a flow". Verdicts, limits, and the numbers of each sender type are those that `check --json` and
`measure` print; all others are worked out from the packets, by fractions. The script prints each capture of which the findings, the class,
the runs or the exit status differ, and last `N passed, M failed`. The exit status is 1 if one failed.
"""

from __future__ import annotations

import json
import math
import random
import struct
import subprocess
import sys
import tempfile
from dataclasses import dataclass, field
from fractions import Fraction
from pathlib import Path

NS = 10**9
# By how many seconds TAI is ahead of UTC.
LEAP = 37
LEAP_TICKS = LEAP * 90000
TYPES = {None: None, "2110TPN": "N", "2110TPNL": "NL", "2110TPW": "W"}
RATES = [(25, 1), (50, 1), (60000, 1001), (30000, 1001), (24, 1), (60, 1), (24000, 1001), (100, 1)]


@dataclass
class Packet:
    """A packet: its capture timestamp in nanoseconds, number, RTP timestamp, and whether it has the marker."""

    at: int
    number: int
    ticks: int
    marker: bool


@dataclass
class Video:
    """A video as its description has it."""

    p: int
    q: int
    interlaced: bool
    height: int
    tp: str | None
    troff: int | None

    @property
    def groups(self) -> int:
        """The frames or fields of a picture."""
        return 2 if self.interlaced else 1

    @property
    def period(self) -> Fraction:
        """The nanoseconds of a frame or field."""
        return Fraction(self.q * NS, self.p * self.groups)

    @property
    def tr_offset(self) -> Fraction:
        """TR_OFFSET, in nanoseconds."""
        if self.troff is not None:
            return Fraction(1000 * self.troff)
        part = Fraction(22, 1125) if self.interlaced else Fraction(43, 1125) if self.height >= 1080 else Fraction(28, 750)
        return part * self.period * self.groups

    @property
    def tpf(self) -> Fraction:
        """The ticks of a frame or field."""
        return Fraction(90000 * self.q, self.p * self.groups)

    @property
    def rate(self) -> str:
        return str(self.p) if self.q == 1 else f"{self.p}/{self.q}"

    def sdp(self) -> str:
        words = ["sampling=YCbCr-4:2:2", "width=1920", f"height={self.height}", f"exactframerate={self.rate}", "depth=10", "TCS=SDR"]
        words += ["colorimetry=BT709", "PM=2110GPM", "SSN=ST2110-20:2017"]
        words += ["interlace"] * self.interlaced
        words += [f"TP={self.tp}"] * (self.tp is not None)
        words += [f"TROFF={self.troff}"] * (self.troff is not None)
        lines = ["v=0", "o=- 1 1 IN IP4 192.0.2.1", "s=test", "t=0 0", "m=video 50000 RTP/AVP 96", "c=IN IP4 239.0.0.1/32", "a=rtpmap:96 raw/90000"]
        lines += ["a=fmtp:96 " + "".join(word + "; " for word in words), "a=mediaclk:direct=0"]
        lines += ["a=ts-refclk:ptp=IEEE1588-2008:39-A7-94-FF-FE-07-CB-D0:37"]
        return "".join(line + "\n" for line in lines)


@dataclass
class Made:
    """A capture that is made, and the options for it."""

    video: Video
    packets: list[Packet] = field(default_factory=list)
    seq16: bool = False
    tai: int = 0
    delay: int = 0

    def options(self) -> list[str]:
        words = []
        if self.tai:
            words += ["--tai", str(self.tai)]
        if self.delay:
            words += ["--delay", str(self.delay)]
        if self.seq16:
            words += ["--seq16"]
        return words

    def pcap(self) -> bytes:
        out = struct.pack("<IHHiIII", 0xA1B23C4D, 2, 4, 0, 0, 65535, 1)
        for packet in self.packets:
            rtp = struct.pack(">BBHII", 0x80, (0x80 if packet.marker else 0) | 96, packet.number & 0xFFFF, packet.ticks & 0xFFFFFFFF, 1)
            rtp += struct.pack(">H", packet.number >> 16 & 0xFFFF)
            udp = struct.pack(">HHHH", 50000, 50000, 8 + len(rtp), 0) + rtp
            addresses = bytes([192, 0, 2, 1, 239, 0, 0, 1])
            frame = bytes(12) + b"\x08\x00" + struct.pack(">BBHHHBBH", 0x45, 0, 28 + len(rtp), 0, 0, 64, 17, 0) + addresses + udp
            out += struct.pack("<IIII", packet.at // NS, packet.at % NS, len(frame), len(frame)) + frame
        return out


def spoil(r: random.Random, made: Made) -> None:
    """Loses, swaps, repeats or renumbers packets, or changes markers; or nothing of that."""
    packets, kind = made.packets, r.random()
    if kind < 0.12 and len(packets) > 4:
        for _ in range(r.choice([1, 1, 2, 5])):
            if len(packets) > 2:
                first = r.randrange(1, len(packets) - 1)
                del packets[first : first + r.choice([1, 1, 3])]
    elif kind < 0.18:
        first = r.randrange(len(packets) - 1)
        one, other = packets[first : first + 2]
        one.at, other.at = other.at, one.at
        packets[first : first + 2] = [other, one]
    elif kind < 0.24:
        for packet in packets:
            packet.number &= 0xFFFF
        made.seq16 = r.random() < 0.5
    elif kind < 0.28:
        first = r.randrange(len(packets))
        packets.insert(first, Packet(**vars(packets[first])))
    elif kind < 0.31:
        made.seq16 = True
    elif kind < 0.34:
        for packet in packets:
            packet.marker = False
    elif kind < 0.36:
        r.choice(packets).marker ^= True


def make(seed: int) -> Made:
    """Makes a capture from a seed."""
    r = random.Random(seed)
    p, q = r.choice(RATES)
    interlaced = r.random() < 0.25
    tp = r.choice([None, "2110TPN", "2110TPN", "2110TPN", "2110TPNL", "2110TPW"])
    height = 1080 if interlaced else r.choice([1080, 1080, 1080, 720])
    troff = r.choice([0, 500, 1000, 5000]) if r.random() < 0.2 else None
    video = Video(p, q, interlaced, height, tp, troff)
    count, groups = r.choice([3, 5, 8, 20, 40]), r.choice([1, 2, 3, 8, 10, 16, 30])
    if r.random() < 0.1:
        count, groups = r.choice([2, 3, 5]), 120
    gapped = tp in ("2110TPN", None) if r.random() < 0.8 else r.random() < 0.5
    period, space = video.period, video.period * (Fraction(1080, 1125) if gapped else 1) / count
    first = math.ceil(Fraction(r.choice([1000000000, 1600000000, 1700000000]) * NS) / period)
    shift = r.choice([0] * 5 + [LEAP, -LEAP, 1, 36]) * NS
    ticks = r.choice([0] * 6 + [1, 1800, 3600, -3600, 2999, 10**6, -1500, 3003])
    early = r.choice([0, 1, 500, 1000, 1000, 100000, -1000, -200000, 3 * 10**6, -3 * 10**6, int(period / 2), int(period)])
    ppm = r.choice([0] * 6 + [1, 2, 5, 20, 100, 499, 501, 1000, -1, -3, -50, -600])
    jitter = r.choice([0] * 4 + [10, 1000, 50000, 10**6])
    more_ticks = r.choice([0] * 7 + [1, -1, 30])
    bursts = {r.randrange(groups) for _ in range(r.choice([0] * 4 + [1, 2, 3]))}
    at_once = r.choice([4, 5, 6, 9, 20])
    stall = groups // 2 if r.random() < 0.15 else -1
    made = Made(video)
    number = r.choice([0, 65530, 4294967290, 100])

    def add(at: Fraction | int, group: int, marker: bool) -> None:
        at = max(int(at), made.packets[-1].at if made.packets else 0)
        stamp = math.floor((first + group) * period * 9 / 10**5) + ticks + more_ticks * group
        made.packets.append(Packet(at, (number + len(made.packets)) & 0xFFFFFFFF, stamp, marker))

    start = first * period + video.tr_offset - early + shift
    add(start - period + (count - 1) * space, -1, True)
    for group in range(groups):
        for place in range(count):
            at = start + group * period + place * space + Fraction((group * count + place) * ppm, 10**6) * period / count
            if group in bursts and place < at_once:
                at -= place * space
            if group == stall:
                at += 10**7
            add(at + r.randint(0, jitter), group, place == count - 1)
    if r.random() < 0.3:
        add(made.packets[-1].at + 100, groups, False)
    if r.random() < 0.25:
        for packet in made.packets:
            packet.at -= packet.at % 1000
    spoil(r, made)
    made.tai = r.choice([0] * 5 + [LEAP])
    made.delay = r.choice([0] * 6 + [1000, 637000])
    return made


def slope_of(numbers: list[int]) -> tuple[int, int] | None:
    """The rise of numbers, and over how many of them; none if it isn't above their scatter."""
    if len(numbers) < 8:
        return None
    width = 1
    while -(-len(numbers) // width) > 8:
        width *= 2
    last = len(numbers) // width - 1
    a, b = numbers[:width], numbers[last * width : (last + 1) * width]
    rise = min(b) - min(a)
    return (rise, last * width) if abs(rise) > max(max(a) - min(a), max(b) - min(b)) else None


def bucket_of(stamps: list[int], drain: Fraction) -> list[int]:
    """What the bucket holds after each packet."""
    held, out = 0, []
    for i, at in enumerate(stamps):
        if i:
            held = max(0, held - (math.floor((at - stamps[0]) / drain) - math.floor((stamps[i - 1] - stamps[0]) / drain)))
        held += 1
        out.append(held)
    return out


def of_gaps(gaps: list[tuple[int, int]], seq16: bool) -> list[dict]:
    """The findings on gaps, each by the number expected and that which came."""
    turn = 2**16 if seq16 else 2**32
    wraps = [gap for gap in gaps if gap == (65536, 0) and not seq16]
    missing = [(got - expected) % turn for expected, got in gaps if (expected, got) not in wraps]
    losses = [count for count in missing if count < turn // 2]
    out = [{"finding": "wrap", "gaps": len(wraps)}] * (wraps != [])
    out += [{"finding": "loss", "gaps": len(losses), "missing": sum(losses)}] * (losses != [])
    return out + [{"finding": "order", "gaps": len(missing) - len(losses)}] * (len(losses) < len(missing))


def of_run(made: Made, run: dict, kind: dict) -> list[dict]:
    """The findings on a judged run, by its measurements, and by those of the type that they are about."""
    video, n, groups = made.video, run["n"], run["frames"]
    begin = run["record"] - 1 + run["head"]
    stamps = [packet.at + made.tai * NS - made.delay for packet in made.packets[begin : begin + run["packets"]]]
    first = math.floor((stamps[0] - video.tr_offset) / video.period + Fraction(1, 2))
    slope = slope_of([math.floor(stamps[k * n] - (first + k) * video.period) for k in range(groups)])
    ppm10 = int(Fraction(slope[0]) / (slope[1] * video.period) * 10**7) if slope else 0
    drain = video.period / n * Fraction(10, 11)
    offset, step, limits = run["offset"]["first"], run.get("step"), kind["bucket"]["limit"]
    reads = run["gapped" if kind["type"] == "N" else "linear"]
    utc, twice = -video.tpf < offset - LEAP_TICKS < 2 * video.tpf, -2 * video.tpf < offset + LEAP_TICKS < video.tpf
    out = []
    if step and (step["least"] < math.floor(video.tpf) or step["greatest"] > math.ceil(video.tpf)) or abs(ppm10) >= 5000:
        rate = {"finding": "rate", "described": video.rate}
        if step:
            rate |= {"step_least": step["least"], "step_greatest": step["greatest"], "period": (stamps[(groups - 1) * n] - stamps[0]) // (groups - 1)}
        out.append(rate)
    out += [{"finding": "utc", "offset": offset}] * utc + [{"finding": "tai_twice", "offset": offset}] * twice
    bucket = bucket_of(stamps, drain)
    above = [i for i, held in enumerate(bucket) if held > limits]
    if above:
        burst = {"finding": "burst", "greatest": max(bucket), "limit": limits, "packets": len(above), "groups": len({i // n for i in above})}
        burst |= {"record": begin + 1 + above[0], "stamp": stamps[above[0]], "period": math.floor(video.period)}
        out.append(burst | {"span": max(stamps[k * n + n - 1] - stamps[k * n] for k in range(groups))})
    if kind["buffer"]["above"] or reads["late"]:
        offsets = kind["troff"]
        serves = "least" in offsets and "greatest" in offsets and offsets["least"] <= offsets["greatest"]
        broken = {"finding": "phase" if serves else "pacing", "late": reads["late"], "above": kind["buffer"]["above"], "slack": reads["slack"]}
        out.append(broken | {"troff": offsets, "target": math.floor(video.tr_offset)})
    if 10 <= abs(ppm10) < 5000:
        out.append({"finding": "drift", "ppm10": ppm10})
    if 1 <= kind["frames_broken"] <= groups / 100:
        out.append({"finding": "rare", "broken": kind["frames_broken"], "groups": groups, "first": kind["proof"]["to"] // n + 1})
    if kind["pass"]:
        passes = {"finding": "pass", "bucket": max(bucket), "bucket_limit": limits, "buffer": max(0, reads["greatest"])}
        out.append(passes | {"buffer_limit": kind["buffer"]["limit"], "slack": reads["slack"]})
    if len(made.packets) >= 100 and all(packet.at % 1000 == 0 for packet in made.packets):
        out.append({"finding": "microseconds", "drain": math.floor(drain)})
    if not utc and not twice and abs(offset) >= 2 * video.tpf:
        out.append({"finding": "unlocked", "offset": offset})
    return out


def passes_of(run: dict) -> dict[str, bool]:
    return {kind["type"]: kind["pass"] for kind in run["types"]}


def class_of(run: dict) -> str:
    named = {"N": "narrow", "NL": "narrow linear", "W": "wide"}
    return next((named[kind] for kind, passes in passes_of(run).items() if passes), "none")


def worked(made: Made, flow: dict, row: dict) -> tuple[dict, int]:
    """The flow as `explain --json` has it and the exit status, by what `measure` and `check --json` have."""
    declared = TYPES[made.video.tp]
    runs, gaps, findings, counts = flow.get("runs", []), [], [], {"all": 1, "judged": 1}
    out = {"declared": declared or "none", "media": 1, "target": flow["target"]}
    if flow["verdict"] == "refused":
        findings.append({"finding": "refused", "record": flow["record"], "fault": flow["fault"]})
    elif flow["verdict"] == "gap":
        findings.append({"finding": "refused", "record": flow["record"], "expected": flow["expected"], "got": flow["got"]})
        gaps = [(flow["expected"], flow["got"])]
    elif flow["verdict"] == "no whole frame":
        findings.append({"finding": "unmarked", "packets": len(made.packets), "markers": sum(packet.marker for packet in made.packets)})
    elif flow["verdict"] == "runs":
        gaps = [(run["expected"], run["number"]) for run in row["runs"][1:]]
    counts["all"] = len(row["runs"]) if "runs" in row else 0 if flow["verdict"] in ("gap", "refused") else 1
    counts["judged"] = len(runs)
    findings += of_gaps(gaps, made.seq16)
    if runs:
        longest = max(run["packets"] for run in runs)
        run = next(run for run in runs if run["packets"] == longest)
        out["class"] = class_of(run)
        shown = declared or {"narrow": "N", "narrow linear": "NL"}.get(class_of(run), "W")
        findings += of_run(made, run, next(kind for kind in run["types"] if kind["type"] == shown))
    fails = [not (passes_of(run)[declared] if declared else any(passes_of(run).values())) for run in runs]
    return out | {"findings": findings, "runs": counts}, 4 if not runs else int(any(fails))


def call(program: str, *words: str) -> tuple[int, str]:
    done = subprocess.run([program, *words], capture_output=True, text=True, check=False)
    return done.returncode, done.stdout


def main() -> int:
    program, count = sys.argv[1], int(sys.argv[2])
    failed = 0
    with tempfile.TemporaryDirectory() as folder:
        sdp, capture = Path(folder, "p.sdp"), Path(folder, "a.pcap")
        for seed in range(count):
            made = make(seed)
            sdp.write_text(made.video.sdp())
            capture.write_bytes(made.pcap())
            words = [*made.options(), "--sdp", str(sdp), str(capture)]
            measured, checked = json.loads(call(program, "measure", *words)[1]), json.loads(call(program, "check", "--json", *words)[1])
            flow, status = worked(made, measured["flows"][0], checked["flows"][0])
            said = call(program, "explain", "--json", *words)
            found = json.loads(said[1])["flows"][0] if said[1] else {}
            if (found, said[0]) != (flow, status):
                failed += 1
                print(f"capture {seed}: explain {' '.join(made.options())}")
                print(f"  wanted {json.dumps(flow, sort_keys=True)}, exit status {status}")
                print(f"  found  {json.dumps(found, sort_keys=True)}, exit status {said[0]}")
    print(f"{count - failed} passed, {failed} failed")
    return int(failed != 0)


if __name__ == "__main__":
    sys.exit(main())
