"""Validates JSON of the program against the schemas of docs/schema. tests/schema.sh calls it.

It validates the expected output of the cases, and what the program prints for the examples. Each schema also has to refuse wrong
documents: right ones of the examples, with one change each.
"""

import copy
import json
import os
import pathlib
import subprocess
import sys
import tempfile
from concurrent.futures import ThreadPoolExecutor

from jsonschema import Draft202012Validator
from jsonschema.exceptions import best_match

TOP = pathlib.Path(__file__).resolve().parent.parent
EXAMPLES = TOP / "examples"

# Each SDP of the examples, and the captures that it describes. README.md and docs/GUIDE.md have the same pairs.
PAIRS = {
    "plain.sdp": "plain.pcap plain.pcapng burst.pcap gap.pcap cut.pcap linear.pcap any.pcap gst_restart.pcap",
    "linear.sdp": "linear.pcap",
    "interlaced.sdp": "plain.pcap",
    "uhd.sdp": "utc.pcap",
    "utc.sdp": "utc.pcap",
    "two.sdp": "two.pcap",
    "gst.sdp": "gst_wrap.pcap gst_two.pcap gst_restart.pcap gst_kept.pcap gst_steady.pcap mirror.pcap any.pcap gst_path1.pcap",
    "gst_fields.sdp": "gst_fields.pcap",
    "gst_pair.sdp": "gst_path1.pcap gst_path2.pcap",
    "gst_server.sdp": "gst_two.pcap",
    "ffmpeg.sdp": "ffmpeg_wrap.pcap ffmpeg_rtcp.pcap ffmpeg_fields.pcap",
}
# What the guide writes into two of them: as they are, the program refuses them.
MISSING = {
    "gst_server.sdp": [("video 0", "video 50000"), ("0.0.0.0", "239.0.0.1"), ("width=", "exactframerate=50;TROFF=2500;width=")],
    "ffmpeg.sdp": [("width=", "exactframerate=50; width=")],
}

# Wrong documents: what is wrong, the arguments that print the right one, where it is changed, and to what. REMOVED takes the key away. Of
# `watch` the lines are a list, in which the first step of the place is the number of the line, from 0.
REMOVED = object()
PLAIN = "check --json --sdp plain.sdp plain.pcap"
BURST = "check --json --sdp plain.sdp burst.pcap"
GAP = "check --json --sdp plain.sdp gap.pcap"
FAULT = "check --json --sdp ffmpeg.sdp ffmpeg_rtcp.pcap"
ABSENT = "check --json --sdp plain.sdp any.pcap"
MEASURED = "measure --sdp plain.sdp plain.pcap"
MEASURED_BURST = "measure --sdp plain.sdp burst.pcap"
MEASURED_LINEAR = "measure --sdp plain.sdp linear.pcap"
MEASURED_GAP = "measure --sdp plain.sdp gap.pcap"
MEASURED_ABSENT = "measure --sdp plain.sdp any.pcap"
SCANNED = "scan --json plain.pcap"
SCANNED_LINES = "scan --json gst_two.pcap"
WATCHED = "watch --json --every 1 --sdp plain.sdp burst.pcap"
WATCHED_GAP = "watch --json --sdp plain.sdp gap.pcap"
WATCHED_FAULT = "watch --json --sdp ffmpeg.sdp ffmpeg_rtcp.pcap"
DESCRIBED = "sdp --json plain.sdp"
EXPLAINED = "explain --json --sdp plain.sdp plain.pcap"
EXPLAINED_BURST = "explain --json --sdp plain.sdp burst.pcap"
EXPLAINED_LINEAR = "explain --json --sdp plain.sdp linear.pcap"
EXPLAINED_FAULT = "explain --json --sdp ffmpeg.sdp ffmpeg_rtcp.pcap"
EXPLAINED_GAP = "explain --json --sdp plain.sdp gap.pcap"
DESCRIBED_FIELDS = "sdp --json interlaced.sdp"
WRONG = [
    ("the status is missing", PLAIN, "status", REMOVED),
    ("status 2, with which nothing is printed", PLAIN, "status", 2),
    ("status 1, and each flow passes", PLAIN, "status", 1),
    ("status 0, and a flow fails", BURST, "status", 0),
    ("status 4, and each flow is judged", BURST, "status", 4),
    ("status 0, and a flow isn't judged as one run", GAP, "status", 0),
    ("an unknown key", PLAIN, "version", 1),
    ("an unknown key of a flow", PLAIN, "flows 0 speed", 1),
    ("an unknown end of a capture", PLAIN, "files 0 end", "cut"),
    ("a capture without a name", PLAIN, "files 0 name", ""),
    ("a capture counted from 0", PLAIN, "flows 0 file", 0),
    ("a 65th video", PLAIN, "flows 0 media", 65),
    ("a target without a port", PLAIN, "flows 0 target", "239.0.0.1"),
    ("a target with an octet above 255", PLAIN, "flows 0 target", "239.0.0.256:50000"),
    ("a target with a port above 65,535", PLAIN, "flows 0 target", "239.0.0.1:65536"),
    ("an unknown verdict", PLAIN, "flows 0 verdict", "passed"),
    ("a negative count", PLAIN, "flows 0 tail", -1),
    ("a count with a fraction", PLAIN, "flows 0 packets", 40.5),
    ("a count as a string", PLAIN, "flows 0 packets", "40"),
    ("a frame without packets", PLAIN, "flows 0 n", 0),
    ("a judged flow without its types", PLAIN, "flows 0 types", REMOVED),
    ("a class that isn't that of the first type that passes", PLAIN, "flows 0 class", "wide"),
    ("a progressive video with interlaced", PLAIN, "flows 0 interlaced", False),
    ("an unknown type", PLAIN, "flows 0 types 0 type", "NN"),
    ("two types, and not three", PLAIN, "flows 0 types 2", REMOVED),
    ("the types in another order", PLAIN, "flows 0 types 0 type", "W"),
    ("a pass with a proof", BURST, "flows 0 types 0 pass", True),
    ("a fail without a proof", BURST, "flows 0 types 0 proof", REMOVED),
    ("an unknown model", BURST, "flows 0 types 0 proof model", "Full"),
    ("a violation by one packet", BURST, "flows 0 types 0 proof count", 1),
    ("a violation beyond 64 bits", BURST, "flows 0 types 0 proof to", 2**64),
    ("the record of packet `to`, which only measure has", BURST, "flows 0 types 0 proof record", 2),
    ("an absent flow with packets", ABSENT, "flows 0 packets", 1),
    ("a refused flow without its fault", FAULT, "flows 0 fault", REMOVED),
    ("an unknown fault", FAULT, "flows 0 fault", "Late"),
    ("a fault without its values", FAULT, "flows 0 fault", "FrameSize"),
    ("a flow with gaps that has one run", GAP, "flows 0 runs 1", REMOVED),
    ("a first run that another number was expected of", GAP, "flows 0 runs 0 expected", 1),
    ("a second run without the expected number", GAP, "flows 0 runs 1 expected", REMOVED),
    ("a packet number beyond 32 bits", GAP, "flows 0 runs 1 number", 2**32),
    ("an absent run", GAP, "flows 0 runs 1 verdict", "absent"),
    ("the name is missing", MEASURED, "name", REMOVED),
    ("a status, which only check has", MEASURED, "status", 0),
    ("a judged flow without its SSRC", MEASURED, "flows 0 ssrc", REMOVED),
    ("an SSRC of seven digits", MEASURED, "flows 0 ssrc", "0000001"),
    ("a judged flow without its run", MEASURED, "flows 0 runs", REMOVED),
    ("a judged flow whose run isn't the first", MEASURED, "flows 0 runs 0 run", 2),
    ("an absent flow with packets", MEASURED_ABSENT, "flows 0 packets", 1),
    ("an absent flow with an SSRC", MEASURED_ABSENT, "flows 0 ssrc", "00000001"),
    ("an empty list of runs", MEASURED_GAP, "flows 0 runs", []),
    ("a run counted from 0", MEASURED_GAP, "flows 0 runs 0 run", 0),
    ("a negative count", MEASURED, "flows 0 runs 0 tail", -1),
    ("an unknown key of a run", MEASURED, "flows 0 runs 0 class", "narrow"),
    ("interlaced as a string", MEASURED, "flows 0 runs 0 interlaced", "false"),
    ("a bucket that is empty just after a packet", MEASURED, "flows 0 runs 0 bucket least", 0),
    ("a sum with a fraction", MEASURED, "flows 0 runs 0 bucket sum", 40.5),
    ("late packets, and a slack above 0", MEASURED, "flows 0 runs 0 gapped late", 1),
    ("no late packet, and a slack below 0", MEASURED, "flows 0 runs 0 gapped slack", -1),
    ("an offset beyond 32 bits", MEASURED, "flows 0 runs 0 offset least", -(2**31) - 1),
    ("two frames without a step", MEASURED, "flows 0 runs 0 step", REMOVED),
    ("one frame with a step", MEASURED, "flows 0 runs 0 frames", 1),
    ("one capture without its end", MEASURED, "end", REMOVED),
    ("a capture and a list of captures", MEASURED, "files", [{"end": "end", "name": "a.pcap"}, {"end": "end", "name": "b.pcap"}]),
    ("40 packets without a gap", MEASURED, "flows 0 runs 0 gap", REMOVED),
    ("a target of the last packets", MEASURED, "flows 0 runs 0 last target", 764444),
    ("a type of another name", MEASURED, "flows 0 runs 0 types 2 type", "WW"),
    ("a peak, which only check has", MEASURED, "flows 0 runs 0 types 0 bucket_peak", 1),
    ("65 bins", MEASURED, "flows 0 runs 0 types 0 bucket counts", [0] * 65),
    ("a bucket that counts what is below 0", MEASURED, "flows 0 runs 0 types 0 bucket below", 0),
    ("a pass, and a frame that breaks", MEASURED, "flows 0 runs 0 types 0 frames_broken", 1),
    ("a pass, and a packet above the limit", MEASURED, "flows 0 runs 0 types 0 bucket above", 1),
    ("a type without offsets", MEASURED, "flows 0 runs 0 types 0 troff", REMOVED),
    ("an offset above a second", MEASURED, "flows 0 runs 0 types 2 troff greatest", 1000001),
    ("a pass with a proof", MEASURED_BURST, "flows 0 runs 0 types 0 pass", True),
    ("a fail without a proof", MEASURED_BURST, "flows 0 runs 0 types 0 proof", REMOVED),
    ("a proof without the record of packet `to`", MEASURED_BURST, "flows 0 runs 0 types 0 proof record", REMOVED),
    ("packets above C_MAX without the first of them", MEASURED_BURST, "flows 0 runs 0 types 0 first_bucket", REMOVED),
    ("a violation of a model without the first packet", MEASURED_LINEAR, "flows 0 runs 0 types 0 first_empty", REMOVED),
    ("the end is missing", SCANNED, "end", REMOVED),
    ("an unknown key", SCANNED, "flows", []),
    ("no records, and streams", SCANNED, "records", 0),
    ("records without a first timestamp", SCANNED, "first", REMOVED),
    ("a negative count", SCANNED, "more", -1),
    ("a class that is missing", SCANNED, "passed_over ipv6", REMOVED),
    ("an unknown class", SCANNED, "passed_over arp", 0),
    ("a stream without packets", SCANNED, "streams 0 packets", 0),
    ("a payload type above 127", SCANNED, "streams 0 pt", 128),
    ("an SSRC in upper case", SCANNED, "streams 0 ssrc", "0000000A"),
    ("a source as a name", SCANNED, "streams 0 source", "camera:50000"),
    ("three markers without a frame", SCANNED, "streams 0 frame", REMOVED),
    ("one marker with a frame", SCANNED, "streams 0 markers", 1),
    ("a first packet in record 0", SCANNED, "streams 0 first record", 0),
    ("a timestamp beyond 32 bits of seconds", SCANNED, "streams 0 last stamp", 2**32 * 10**9),
    ("a line without second_field", SCANNED_LINES, "streams 0 second_field", REMOVED),
    ("a line above 32,767", SCANNED_LINES, "streams 0 line", 32768),
    ("second_field as a number", SCANNED_LINES, "streams 0 second_field", 0),
    ("a stretch without its run", WATCHED, "0 run", REMOVED),
    ("a stretch from frame 0", WATCHED, "0 from", 0),
    ("a bucket that is empty just after a packet", WATCHED, "0 bucket", 0),
    ("C_MAX of two types", WATCHED, "0 c_max", [4, 4]),
    ("C_MAX by the names of the types", WATCHED, "0 c_max", {"N": 4, "NL": 4, "W": 16}),
    ("no count of W", WATCHED, "0 broken W", REMOVED),
    ("a timestamp in seconds", WATCHED, "0 stamp", 1600000000.5),
    ("a buffer without its late packets", WATCHED, "0 gapped late", REMOVED),
    ("an unknown event", WATCHED, "0 event", "fields"),
    ("a stretch as a gap", WATCHED, "0 event", "gap"),
    ("an end without the report", WATCHED, "2 report", REMOVED),
    ("a report as text", WATCHED, "2 report", "status 1"),
    ("a gap without the expected number", WATCHED_GAP, "1 expected", REMOVED),
    ("a gap at record 0", WATCHED_GAP, "1 record", 0),
    ("a packet number beyond 32 bits", WATCHED_GAP, "1 got", 2**32),
    ("a refused flow without its fault", WATCHED_FAULT, "0 fault", REMOVED),
    ("a 65th video", WATCHED_FAULT, "0 media", 65),
    ("no video and no fault", DESCRIBED, "media", []),
    ("an unknown key", DESCRIBED, "status", 0),
    ("a video without its times", DESCRIBED, "media 0 frame", REMOVED),
    ("a rate as a number", DESCRIBED, "media 0 rate", 50),
    ("a progressive video with interlaced", DESCRIBED, "media 0 interlaced", False),
    ("an interlaced video without the time of a field", DESCRIBED_FIELDS, "media 0 field", REMOVED),
    ("a TROFF that is absent as null", DESCRIBED, "media 0 troff", None),
    ("a note on line 0", DESCRIBED, "notes 0 line", 0),
    ("a note of another kind", DESCRIBED, "notes 0 what", "near"),
    ("a note without a name", DESCRIBED, "notes 0 names", []),
    ("a name with a quote", DESCRIBED, "notes 0 names 0", '"'),
    ("an unknown cause", DESCRIBED, "fault", {"cause": "Late", "line": 1}),
    ("no finding", EXPLAINED, "flows 0 findings", []),
    ("an unknown finding", EXPLAINED, "flows 0 findings 0 finding", "late"),
    ("a judged flow without its class", EXPLAINED, "flows 0 class", REMOVED),
    ("a judged flow without its runs", EXPLAINED, "flows 0 runs", REMOVED),
    ("a run that is judged of none", EXPLAINED, "flows 0 runs judged", 0),
    ("a declared type as a class", EXPLAINED, "flows 0 declared", "narrow"),
    ("a pass with a late packet", EXPLAINED, "flows 0 findings 0 slack", -1),
    ("a pass and a burst", EXPLAINED_BURST, "flows 0 findings 1", {
        "bucket": 1, "bucket_limit": 4, "buffer": 1, "buffer_limit": 8, "finding": "pass", "slack": 444}),
    ("a burst without its first packet", EXPLAINED_BURST, "flows 0 findings 0 record", REMOVED),
    ("a burst without a packet above the limit", EXPLAINED_BURST, "flows 0 findings 0 packets", 0),
    ("a fail without its cause", EXPLAINED_BURST, "flows 0 findings 0", REMOVED),
    ("a phase for which no offset serves", EXPLAINED_LINEAR, "flows 0 findings 0 troff least", REMOVED),
    ("an offset above a second", EXPLAINED_LINEAR, "flows 0 findings 0 troff greatest", 1000001),
    ("a loss without its packets", EXPLAINED_GAP, "flows 0 findings 0 missing", REMOVED),
    ("a flow that is refused without a cause", EXPLAINED_FAULT, "flows 0 findings 0 fault", REMOVED),
    ("a flow that is refused with a class", EXPLAINED_FAULT, "flows 0 class", "none"),
    ("an offset beyond 32 bits", EXPLAINED, "flows 0 findings 1 offset", 2**31),
    ("the verdict, which only check and measure have", EXPLAINED, "flows 0 verdict", "judged"),
]

passed = failed = 0


def count(name, what):
    """Counts a test. `what` says what is wrong, or is None."""
    global passed, failed
    if what is None:
        passed += 1
    else:
        failed += 1
        print(f"failed: {name}\n    {what}")


def schema_of(arguments):
    """Returns the name of the schema for a command line, or None."""
    command = arguments[0]
    if command == "measure" or command in ("check", "scan", "sdp", "explain", "watch") and "--json" in arguments:
        return command
    return None


def documents_of(schema, text):
    """Returns the documents of an output: of `watch` each line, and of others the whole."""
    return text.splitlines() if schema == "watch" else [text]


def fault_of(validator, text):
    """Returns what is wrong with a document, or None."""
    try:
        document = json.loads(text)
    except ValueError as error:
        return f"it is no JSON: {error}"
    if validator.is_valid(document):
        return None
    error = best_match(validator.iter_errors(document))
    return f"{error.json_path}: {error.message[:300]}"


def fault_of_output(validators, schema, text):
    """Returns what is wrong with an output, or None. The report at the end of `watch` also has to be one of `check`."""
    for document in documents_of(schema, text):
        what = fault_of(validators[schema], document)
        if what is None and schema == "watch" and "report" in json.loads(document):
            what = fault_of(validators["check"], json.dumps(json.loads(document)["report"]))
        if what is not None:
            return what
    return None


def validate_cases(validators):
    """Validates the expected output of each case that prints JSON. Of a media that the description lacks there is none."""
    for case in sorted((TOP / "tests" / "cases").iterdir()):
        if not (case / "args").exists() or not (case / "stdout").exists():
            continue
        if (case / "stdout").read_bytes() == b"no such media\n":
            continue
        status = (case / "status").read_text().strip() if (case / "status").exists() else "0"
        for line in (case / "args").read_text().splitlines():
            schema = schema_of(line.split())
            if schema and (status in ("0", "1", "4") or status == "3" and schema == "sdp"):
                count(f"{case.name}: {line}", fault_of_output(validators, schema, (case / "stdout").read_text()))


def write_descriptions(folder):
    """Writes the SDPs into a folder, with what the guide adds to them."""
    for name in PAIRS:
        text = (EXAMPLES / name).read_text()
        for old, new in MISSING.get(name, []):
            text = text.replace(old, new)
        (folder / name).write_text(text)


def example_commands():
    """Returns the command lines for the examples."""
    commands = []
    for sdp, captures in PAIRS.items():
        commands.append(f"check --json --sdp {sdp} {captures}")
        commands += [f"measure --sdp {sdp} {capture}" for capture in captures.split()]
        commands += [f"explain --json --sdp {sdp} {capture}" for capture in captures.split()]
    commands.append("check --json --joined --tai 37 --sdp gst_pair.sdp gst_path1.pcap gst_path2.pcap")
    commands.append("measure --tai 37 --sdp utc.sdp utc.pcap")
    commands.append("explain --json --joined --sdp gst_pair.sdp gst_path1.pcap gst_path2.pcap")
    captures = sorted({capture for captures in PAIRS.values() for capture in captures.split()})
    commands += [f"scan --json {capture}" for capture in captures]
    commands += [f"watch --json --every {every} --sdp {sdp} {captures.split()[0]}" for sdp, captures in PAIRS.items() for every in (1, 2)]
    commands += [WATCHED, WATCHED_GAP, WATCHED_FAULT]
    commands += [f"sdp --json {sdp}" for sdp in PAIRS]
    return commands + [command for command in (PLAIN, BURST, GAP, FAULT, ABSENT) if command not in commands]


def run_all(program, commands, folder):
    """Runs the commands, some at once, and returns the finished processes."""

    def run(command):
        arguments = command.split()
        for place, name in enumerate(arguments):
            if name.endswith(".sdp"):
                arguments[place] = str(folder / name)
        return subprocess.run([program, *arguments], cwd=EXAMPLES, stdin=subprocess.DEVNULL, capture_output=True, text=True, timeout=60)

    with ThreadPoolExecutor(int(os.environ.get("JOBS") or os.cpu_count() or 1)) as threads:
        return dict(zip(commands, threads.map(run, commands)))


def validate_examples(validators, printed):
    """Validates what the program printed for the examples. The report of `check` also has to have the exit status."""
    for command, process in printed.items():
        schema = schema_of(command.split())
        if process.returncode not in (0, 1, 4):
            what = f"exit status {process.returncode}: {process.stderr.strip()}"
        else:
            what = fault_of_output(validators, schema, process.stdout)
        if what is None and schema == "check" and json.loads(process.stdout)["status"] != process.returncode:
            what = f"exit status {process.returncode}, and the report has another"
        count(f"examples: {command}", what)


def find_unlisted():
    """Counts whether PAIRS has each SDP and capture of the examples."""
    listed = {name for sdp, captures in PAIRS.items() for name in [sdp, *captures.split()]}
    for file in sorted(EXAMPLES.iterdir()):
        if file.suffix in (".sdp", ".pcap", ".pcapng"):
            count(f"examples: {file.name}", None if file.name in listed else "the list of this script hasn't it")


def changed(document, path, value):
    """Returns a copy of a document in which the value at a path is another one, or removed."""
    document = copy.deepcopy(document)
    place = document
    *steps, last = [int(step) if step.isdigit() else step for step in path.split()]
    for step in steps:
        place = place[step]
    if value is REMOVED:
        del place[last]
    else:
        place[last] = value
    return document


def refuse_wrong(validators, printed):
    """Counts whether each wrong document is refused."""
    for name, command, path, value in WRONG:
        schema = schema_of(command.split())
        try:
            lines = documents_of(schema, printed[command].stdout)
            line, _, place = path.partition(" ") if schema == "watch" else ("0", "", path)
            document = changed(json.loads(lines[int(line)]), place, value)
        except (ValueError, LookupError) as error:
            what = f"it can't be made from `{command}`: {error!r}"
        else:
            what = "it isn't refused" if validators[schema].is_valid(document) else None
        count(f"{schema}.json: {name} ({path})", what)


def main():
    validators = {}
    for name in ("check", "measure", "scan", "sdp", "explain", "watch"):
        schema = json.loads((TOP / "docs" / "schema" / f"{name}.json").read_text())
        Draft202012Validator.check_schema(schema)
        validators[name] = Draft202012Validator(schema)
    validate_cases(validators)
    with tempfile.TemporaryDirectory() as folder:
        write_descriptions(pathlib.Path(folder))
        printed = run_all(sys.argv[1], example_commands(), pathlib.Path(folder))
    validate_examples(validators, printed)
    find_unlisted()
    refuse_wrong(validators, printed)
    print(f"schema: {passed} passed, {failed} failed")
    return 1 if failed else 0


sys.exit(main())
