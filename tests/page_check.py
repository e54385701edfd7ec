"""Works out the pages of captures by itself, and compares them with what `page` prints, cell by cell and mark by mark.

    python3 page_check.py [--tai N] [--page FILE] [--wrong] PROGRAM SDP CAPTURE..

page_numbers.py has the numbers of judged runs, and page_worked.py the pages that are worked out from them. This script reads the page
that is printed: its tables, its sentences, and the paths and words of its pictures.

`--page FILE` compares FILE, and not what the program prints. `--wrong` also changes each page in the ways of WRONG: each change has to be
found. A capture is a classic one, not pcapng. The script prints what differs, as

    page of a.pcap: table of media, row 1, column 8 (bucket): wanted 5 of 4, found 4 of 5

and last `N passed, M failed`: a page counts as one, and so does a change. The exit status is 1 if one failed.
"""

from __future__ import annotations

import argparse
import re
import sys
from html.parser import HTMLParser

from page_numbers import Capture, Program, read_capture
from page_worked import STROKES, Edges, Places, path, picture_places, table_places, tenths, words_at, worked_places

# The most differences that are printed of a page.
PRINTED = 20

# Wrong pages: what is wrong, a pattern, and its replacement. The first match in the pictures or behind them is replaced, or else the first
# match of the page.
WRONG = [
    ("peak and limit swapped in the table of media", r"<td>(\d+) of (\d+)</td>", r"<td>\2 of \1</td>"),
    ("another class", r"<td>narrow linear</td>|<td>wide</td>", "<td>narrow</td>"),
    ("pass in the place of fail", r"<td><span class=\"fail\">&#10007; fail", '<td><span class="pass">&#10003; pass'),
    ("a pass with the colour of fail", r"class=\"pass\">", 'class="fail">'),
    ("another declared type", r"<td>NL</td>", "<td>N</td>"),
    ("the frames of another run", r"(per frame</td>)<td>\d+ frames?</td>", r"\1<td>2 frames</td>"),
    ("a row is missing", r"<tr><th>NL</th>.*?</tr>\n", ""),
    ("peak and limit swapped in a sentence", r"bucket (\d+) of (\d+),", r"bucket \2 of \1,"),
    ("another first packet above the limit", r"first after packet (\d+)", r"first after packet 1\1"),
    ("another number of packets above the limit", r"after (\d+) packet", r"after 1\1 packet"),
    ("another number of late packets", r"(\d+) packets? too late", r"1\1 packets too late"),
    ("ms in the place of us", r"at worst ([\d.]+) &#181;s late", r"at worst \1 ms late"),
    ("another record", r"is record (\d+)", r"is record 1\1"),
    ("a capture timestamp with 37 seconds too many", r"(capture timestamp \d+)00\.", r"\g<1>37."),
    ("a drift", r"(TR_OFFSET [^<]*)</span>", r"\1; drift 1 ppm</span>"),
    ("TR_OFFSET in another unit", r"(TR_OFFSET [\d.]+) (?:&#181;s|ns)", r"\1 ms"),
    ("another place of the greatest", r"first at packet (\d+)", r"first at packet 1\1"),
    ("the target of the first packet is missing", r"<tr><th>target of the first packet.*?</tr>\n", ""),
    ("gapped and linear pictures swapped", r"(<figure[^\n]*gapped reads[^\n]*\n)(<figure[^\n]*linear reads[^\n]*\n)", r"\2\1"),
    ("gapped and linear titles swapped", r"gapped reads \(N\) <span>", "linear reads (NL, W) <span>"),
    ("gapped and linear rows swapped", r"gapped(?= reads</th>)", "linear"),
    ("first and last packets swapped", r"<figcaption>First packet", "<figcaption>Last packet"),
    ("RTP timestamp and latency swapped", r"<th>RTP timestamp after the frame begins,", "<th>from RTP timestamp to first packet,"),
    ("least and greatest swapped", r"(<th>from packet to packet, ns</th>)<td>(\d+)</td><td>(\d+)</td>", r"\1<td>\3</td><td>\2</td>"),
    ("ms in the place of us", r"y=\"12\">&#181;s<", 'y="12">ms<'),
    ("ns in the place of us", r"y=\"12\">&#181;s<", 'y="12">ns<'),
    ("a column that is too low", r"(class=\"band\" d=\"M[\d.]+ [\d.]+H[\d.]+V)\d+", r"\g<1>177"),
    ("a column that is too wide", r"(class=\"band\" d=\"M[\d.]+ [\d.]+H)[\d.]+", r"\g<1>99.9"),
    ("the least of the columns isn't shown", r"(class=\"band\" d=\"M[^Z]*H[\d.]+V)([\d.]+)(H[\d.]+Z)", r"\g<1>99.9\3"),
    ("a band that is moved", r"<path class=\"band\"", '<path transform="translate(9)" class="band"'),
    ("a band with the numbers of another picture", r"(class=\"band\" d=\")[^\"]*(.*?class=\"band\" d=\")([^\"]*)", r"\1\3\2\3"),
    ("a limit's line at another place", r"(<path class=\"lim\" d=\"M[\d.]+) [\d.]+", r"\1 99.9"),
    ("a limit with the name of another type", r">N (\d+)</text>", r">NL \1</text>"),
    ("W's limit is dashed", r"(path.w\{[^}]*stroke-dasharray:)2 3", r"\g<1>7 4"),
    ("the line of an axis at another place", r"(<path class=\"ax\" d=\"M[\d.]+ )[\d.]+H", r"\g<1>99.9H"),
    ("another number at an axis", r"(text-anchor=\"end\">)(\d+)</text>", r"\g<1>1\2</text>"),
    ("another number below", r"(text-anchor=\"middle\">)(\d+)</text>", r"\g<1>1\2</text>"),
    ("the end of a frame at another place", r"(<path class=\"fr\" d=\"M)[\d.]+", r"\g<1>99.9"),
    ("another height of a bar", r"(<path class=\"bar\" d=\"M[\d.]+ [\d.]+V)[\d.]+", r"\g<1>99.9"),
    ("count and name of a bar swapped", r"<title>(\d+): (\d+)</title>", r"<title>\2: \1</title>"),
    ("another share", r">[\d.]+ %</text>", ">12.3 %</text>"),
    ("another packet shaded", r"(<path class=\"hit\" d=\"M)[\d.]+", r"\g<1>99.9"),
    ("another packet named", r">from (\d+) to (\d+)</text>", r">from \1 to 1\2</text>"),
    ("bucket in the place of buffer", r"<figcaption>How often: bucket, N ", "<figcaption>How often: buffer, N "),
    ("a picture is missing", r"<figure>.*?</figure>\n", ""),
    ("a picture of another size", r"viewBox=\"0 0 640 220\"", 'viewBox="0 0 320 110"'),
    ("other words for those who can't see it", r"<desc>least ", "<desc>most "),
    ("another number of a run", r"(<tr><th>\d+</th><td>\d+</td><td>)(\d+)", r"\g<1>1\2"),
    ("a sentence too many", r"(?=<div class=\"grid\">)", "<p>Each type passes.</p>\n"),
    ("another end of the capture", r"ends: end", "ends: cut at 24"),
    ("another SSRC", r"ssrc [0-9a-f]+", "ssrc 00000009"),
]


# --- the page that is printed -----------------------------------------------------------------------------------------------------------


class Node:
    """An element with what stands in it: elements and text."""

    def __init__(self, tag: str, attributes: dict[str, str]) -> None:
        self.tag, self.attributes = tag, attributes
        self.children: list[Node | str] = []

    def nodes(self) -> list[Node]:
        return [child for child in self.children if isinstance(child, Node)]

    def all(self, tag: str) -> list[Node]:
        """All elements of this name in it, in order."""
        found = []
        for node in self.nodes():
            found += [node] * (node.tag == tag)
            if node.children:
                found += node.all(tag)
        return found

    def text(self) -> str:
        """Its text. The class of a sentence or a sign stands before it, and so does the width of a wide cell; of a key it is the path."""
        if self.tag == "svg":
            return f"[{self.all('path')[0].attributes['class']}: {self.all('path')[0].attributes['d']}]"
        style = self.attributes.get("class") if self.tag in ("p", "span") else None
        width = self.attributes.get("colspan")
        text = "".join(child if isinstance(child, str) else child.text() for child in self.children)
        return (f"[{style}]" if style else "") + (f"({width})" if width else "") + text


class Tree(HTMLParser):
    """The elements of a page, of which each that isn't empty has to be closed."""

    def __init__(self, page: str) -> None:
        super().__init__()
        self.root = Node("page", {})
        self.open = [self.root]
        self.feed(page)
        self.close()
        if len(self.open) > 1:
            raise ValueError(f"{self.open[-1].tag} isn't closed")

    def handle_startendtag(self, tag: str, attrs: list[tuple[str, str | None]]) -> None:
        self.open[-1].children.append(Node(tag, {name: value or "" for name, value in attrs}))

    def handle_starttag(self, tag: str, attrs: list[tuple[str, str | None]]) -> None:
        self.handle_startendtag(tag, attrs)
        if tag != "meta":
            self.open.append(self.open[-1].nodes()[-1])

    def handle_endtag(self, tag: str) -> None:
        if self.open[-1].tag != tag:
            raise ValueError(f"</{tag}> in {self.open[-1].tag}")
        self.open.pop()

    def handle_data(self, data: str) -> None:
        self.open[-1].children.append(data)


def in_tenths(number: str) -> int:
    if not re.fullmatch(r"\d+(\.\d)?", number):
        raise ValueError(f"{number} isn't in tenths")
    return int(number.replace(".", "") if "." in number else number + "0")


def points_of(drawn: str) -> tuple[list[tuple[int, int]], bool]:
    """The corners of a path of upright and level lines, and whether it is closed."""
    x = y = 0
    points, closed = [], False
    for command, numbers in re.findall(r"([A-Za-z])([^A-Za-z]*)", drawn):
        values = [in_tenths(number) for number in numbers.split()]
        if closed or (command, len(values)) not in (("M", 2), ("H", 1), ("V", 1), ("v", 1), ("Z", 0)):
            raise ValueError(f"the path {drawn}")
        if command in "MH":
            x = values[0]
        if command in "MVv":
            y = values[-1] + y * (command == "v")
        closed = command == "Z"
        points += [(x, y)] * (not closed)
    return points, closed


def path_mark(node: Node, style: str, drawn: str) -> tuple[str, str]:
    """A path: its kind, and its corners with its title."""
    points, closed = points_of(drawn)
    kinds = {"fr": "end of a frame", "hit": "shade", "lim": "limit", "lim w": "limit", "bar": "bar", "bar over": "bar"}
    level = points[0][1] == points[-1][1]
    kind = ("line of the axis" if level else "tick") if style == "ax" else kinds.get(style, "path")
    return kind, " ".join([path(style, *points, closed=closed)] + [title.text() for title in node.all("title")])


def text_mark(node: Node, style: str, x: str, y: str, anchor: str) -> tuple[str, str]:
    """Words in a picture: their kind, and what stands where."""
    kinds = {"end": "number of the axis", "middle": "number below", "start": "unit"}
    return "name of a limit" if style else kinds.get(anchor, "words"), words_at(node.text(), in_tenths(x), in_tenths(y), anchor, style)


def mark_of(node: Node) -> tuple[str, str]:
    """A mark of a picture, with what else it has."""
    more = dict(node.attributes)
    style = more.pop("class", "")
    if node.tag == "path":
        kind, value = path_mark(node, style, more.pop("d"))
    elif node.tag == "text":
        kind, value = text_mark(node, style, more.pop("x"), more.pop("y"), more.pop("text-anchor", "start"))
    else:
        kind, value = "mark", node.tag
    return kind, value + (f" with {more}" if more else "")


def band_places(name: str, band: Node, edges: Edges) -> Places:
    """The band of each column: the upper and the lower line from its left to its right end."""
    points, closed = points_of(band.attributes["d"])
    lines = [(min(x, to), max(x, to), y) for (x, y), (to, below) in zip(points, points[1:]) if y == below]
    length = sum(right - left for left, right, _ in lines)
    places = {f"{name}, length of the band": tenths(length) + ("" if closed and len(band.attributes) == 2 else f" with {band.attributes}")}
    for c, (left, right) in enumerate(edges):
        ends = [y for begin, end, y in lines if begin <= left and right <= end]
        places[f"{name}, column {c}"] = f"{tenths(min(ends))} to {tenths(max(ends))}" if len(ends) == 2 else f"{len(ends)} lines, not 2"
    return places


def figure_places(flow: str, figure: Node, edges: dict[str, Edges]) -> Places:
    """A picture. Its band is read between the ends of the columns that are worked out."""
    caption, svg = figure.all("figcaption")[0], figure.all("svg")[0]
    detail = caption.all("span")[0].text()
    title = caption.text().removesuffix(f" {detail}")
    name = f"{flow}, picture {title}"
    drawn = [node for node in svg.nodes() if node.tag not in ("title", "desc")]
    bands = [node for node in drawn if node.attributes.get("class") == "band"]
    size = " ".join(filter(None, [svg.attributes.get("class"), svg.attributes["viewbox"]]))
    words = [title, detail, svg.all("title")[0].text(), svg.all("desc")[0].text()]
    places = picture_places(name, size, words, [mark_of(node) for node in drawn if node not in bands])
    for band in bands:
        places |= band_places(name, band, edges.get(name, []))
    return places | ({f"{name}, bands": str(len(bands))} if len(bands) > 1 else {})


def found_table(name: str, node: Node) -> Places:
    heads, *rows = [[cell.text() for cell in row.nodes()] for row in node.all("tr")]
    return table_places(name, heads, rows)


def flow_places(name: str, heading: Node, nodes: list[Node], edges: dict[str, Edges]) -> Places:
    """The part of a flow."""
    inside = Node("flow", {})
    inside.children = list(nodes)
    sentences = [found for node in nodes for found in ([node] if node.tag == "p" else node.all("li"))]
    figures = inside.all("figure")
    places = {f"{name}, heading": heading.text(), f"{name}, elements": " ".join(node.tag for node in [heading, *nodes]),
              f"{name}, heading of the tables": "".join(node.text() for node in inside.all("h3")),
              f"{name}, pictures": "; ".join(figure.all("title")[0].text() for figure in figures)}
    places |= {f"{name}, sentence {k}": node.text() for k, node in enumerate(sentences, 1)}
    for figure in figures:
        places |= figure_places(name, figure, edges)
    for what, table in zip(("numbers", "types", "runs"), inside.all("table")):
        places |= found_table(f"{name}, table of {what}", table)
    return places


def sections(body: Node) -> list[list[Node]]:
    """The elements of a page, in parts that begin with a heading. Text between elements counts as one."""
    parts: list[list[Node]] = [[]]
    for child in body.children:
        if isinstance(child, str) and not child.strip():
            continue
        node = child if isinstance(child, Node) else Node("text", {})
        parts += [[]] * (node.tag == "h2")
        parts[-1].append(node)
    return parts


def found_places(page: str, edges: dict[str, Edges]) -> Places:
    """The whole page that is printed."""
    root = Tree(page).root
    styles = root.all("style")[0].text()
    top, *flows, last = sections(root.all("body")[0])
    heading, note, table, legend = top[:4]
    places = {"elements": " ".join(node.tag for node in top), "title": root.all("title")[0].text(), "heading": heading.text(),
              "end of the capture": note.text(), "legend": legend.text()}
    for style, stroke in STROKES.items():
        found = re.search(re.escape(style) + r"\{[^}]*(stroke-dasharray:[^;}]*)", styles)
        places[f"stroke of {style}"] = found[1] if found else "none"
    places |= found_table("table of media", table)
    places["flows"] = "; ".join(heading.text() for heading, *_ in flows)
    for heading, *nodes in flows:
        places |= flow_places(heading.text().partition(",")[0].lower(), heading, nodes, edges)
    places |= {"last elements": " ".join(node.tag for node in last), "last heading": last[0].text()}
    return places | {"what the capture holds": last[1].text()}


# --- comparing --------------------------------------------------------------------------------------------------------------------------


class Checker:
    """A capture, and its page as it is worked out."""

    def __init__(self, capture: Capture) -> None:
        self.name = capture.name
        self.worked, self.edges = worked_places(capture)

    def differences(self, page: str) -> list[str]:
        """What differs on a page."""
        try:
            found = found_places(page, self.edges)
        except (ValueError, LookupError) as error:
            return [f"the page isn't read: {error!r}"]
        return [f"{place}: wanted {self.worked.get(place, 'nothing')}, found {found.get(place, 'nothing')}"
                for place in self.worked | found if self.worked.get(place) != found.get(place)]

    def passes(self, page: str) -> bool:
        """Whether nothing differs. If something does, it is printed."""
        wrong = self.differences(page)
        for line in wrong[:PRINTED]:
            print(f"page of {self.name}: {line}")
        if len(wrong) > PRINTED:
            print(f"page of {self.name}: {len(wrong) - PRINTED} more")
        return not wrong

    def finds(self, what: str, pattern: str, replacement: str, page: str) -> bool:
        """Whether something differs on a page that is changed. If nothing does, this is printed."""
        pictures = page.index('<div class="grid">')
        at = re.compile(pattern, re.DOTALL).search(page, pictures) or re.search(pattern, page, re.DOTALL)
        wrong = page[:at.start()] + at.expand(replacement) + page[at.end():] if at else page
        if wrong == page:
            print(f"page of {self.name}: it has nothing to change for: {what}")
        elif not self.differences(wrong):
            print(f"page of {self.name}: not found: {what}")
        else:
            return True
        return False


def read_arguments() -> argparse.Namespace:
    parser = argparse.ArgumentParser()
    parser.add_argument("--tai", type=int, default=0)
    parser.add_argument("--page")
    parser.add_argument("--wrong", action="store_true")
    parser.add_argument("program")
    parser.add_argument("sdp")
    parser.add_argument("captures", nargs="+")
    return parser.parse_args()


def main() -> int:
    arguments = read_arguments()
    program = Program(arguments.program, arguments.sdp, arguments.tai)
    results = []
    for name in arguments.captures:
        if arguments.page:
            with open(arguments.page, encoding="utf-8") as file:
                page = file.read()
        else:
            page = program.of_capture("page", name)
        checker = Checker(read_capture(program, name))
        results.append(checker.passes(page))
        if arguments.wrong:
            results += [checker.finds(*wrong, page) for wrong in WRONG]
    failed = results.count(False)
    print(f"{len(results) - failed} passed, {failed} failed")
    return 1 if failed else 0


if __name__ == "__main__":
    sys.exit(main())
