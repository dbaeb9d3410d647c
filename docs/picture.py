#!/usr/bin/env python3
"""Draws the cartridge in an image file as an SVG picture: a row for each track, a cell for each segment.

    docs/picture.py IMAGE > PICTURE.svg

What a segment is for gives the cell its ground; lost sectors and defects are drawn over it, from the bottom up, each as high
as its share of the 32 sectors. A segment of header, table or volumes with more than three lost usable sectors can't be read,
and gets a cross. Above stands the label, and below each volume with its number, name and segments.

The image is read alone, in either version of its layout (FORMATS.md). Label and volumes are those that the program tells: its
commands `info` and `list`, called on a copy, since they may write. The program is `tape` on the path, or the one that `make`
built.
"""

import shutil
import struct
import subprocess
import sys
import tempfile
from pathlib import Path
from xml.sax.saxutils import escape

TRACKS = 28
SECTORS = 32
HEAD = 64
MOST_LOST = 3
CELL_HEIGHT = 18

DEFECT, BLANK, HOLDS, LOST = range(4)

COLOURS = {
    "header or table": "#5b4a8a",
    "volume": "#3f7fbf",
    "next volume": "#7fb2dd",
    "free": "#e4e4e0",
    "never formatted": "#ffffff",
    "lost": "#d23b2f",
    "defect": "#222222",
}


class Image:
    """The sectors of the cartridge in an image file."""

    def __init__(self, data):
        self.data = data
        if data[:8] != b"QIC80IMG" or len(data) < HEAD:
            sys.exit("picture: no cartridge")
        self.per_track = struct.unpack_from("<H", data, 10)[0]
        self.count = TRACKS * SECTORS * self.per_track
        self.cells = data[14] == 0x5A
        self.base = struct.unpack_from("<Q", data, 16)[0] if self.cells else HEAD
        if len(data) < self.base + 1027 * self.count:
            sys.exit("picture: the image is shorter than its cartridge")

    def place(self, part, sector):
        """Where a part of a sector stands: 0 to 2 its state bytes, 3 its bytes."""
        if self.cells:
            return self.base + 1027 * sector + part
        if part < 3:
            return HEAD + self.count * part + sector
        return HEAD + 3 * self.count + 1024 * sector

    def state(self, sector):
        gate, formed, defect = (self.data[self.place(part, sector)] for part in range(3))
        if defect == 0xBD:
            return DEFECT
        if formed != 0xF0:
            return BLANK
        return HOLDS if gate == 0x5A else LOST

    def states(self, segment):
        return [self.state(SECTORS * segment + index) for index in range(SECTORS)]


class Told:
    """What the program tells of the cartridge in an image: its label and volumes, or why it tells none."""

    def __init__(self, data):
        self.label, self.volumes, self.refusal = "", [], ""
        program = shutil.which("tape") or str(Path(__file__).resolve().parent.parent / "out/bin/tape")
        with tempfile.NamedTemporaryFile(suffix=".img") as copy:
            copy.write(data)
            copy.flush()
            for command in ("info", "list"):
                try:
                    ran = subprocess.run([program, copy.name, command], capture_output=True, check=False)
                except OSError as error:
                    sys.exit(f"picture: {program}: {error.strerror}; build it by make")
                if ran.returncode != 0:
                    self.refusal = ran.stderr.decode("ascii", "replace").partition("\n")[0]
                    return
                self.take(command, ran.stdout.decode("ascii", "replace").splitlines())

    def take(self, command, lines):
        if command == "info":
            self.label = lines[0].partition(" ")[2]
            return
        for line in lines[:-1]:
            number, first, last, length, _, name = line.split(" ", 5)
            self.volumes.append((int(number), int(first), int(last), int(length), name))


def grounds(image, told):
    """What each segment is for: a key of COLOURS."""
    segments = TRACKS * image.per_track
    kinds = ["free"] * segments
    kinds[0:3] = ["header or table"] * 3
    for number, first, last, _, _ in told.volumes:
        for segment in range(first, min(last, segments - 1) + 1):
            kinds[segment] = "volume" if number % 2 else "next volume"
    return kinds


def cell(x, y, width, kind, states):
    """The drawing of a segment."""
    blank, lost, defect = (states.count(state) for state in (BLANK, LOST, DEFECT))
    ground = "never formatted" if blank == SECTORS - defect else kind
    parts = [f'<rect x="{x}" y="{y}" width="{width}" height="{CELL_HEIGHT}" fill="{COLOURS[ground]}"/>']
    bottom = y + CELL_HEIGHT
    for name, number in (("defect", defect), ("lost", lost)):
        if number:
            # one sector is seen, too
            height = max(2, round(CELL_HEIGHT * number / SECTORS))
            bottom -= height
            parts.append(f'<rect x="{x}" y="{bottom}" width="{width}" height="{height}" fill="{COLOURS[name]}"/>')
    if lost > MOST_LOST and kind != "free":
        parts.append(cross(x, y, width, CELL_HEIGHT))
    return parts


def cross(x, y, width, height):
    return f'<path d="M{x} {y}l{width} {height}m0 -{height}l-{width} {height}" stroke="{COLOURS["defect"]}"/>'


def picture(image, told):
    """The lines of the SVG file."""
    width = max(4, min(24, 960 // image.per_track))
    left, top = 70, 40
    right = left + (width + 1) * image.per_track
    bottom = top + (CELL_HEIGHT + 1) * TRACKS
    lines = [f'<text x="{left}" y="24" font-size="14">{escape(told.refusal or told.label)}</text>']
    kinds = grounds(image, told)
    for track in range(TRACKS):
        y = top + (CELL_HEIGHT + 1) * track
        lines.append(f'<text x="{left - 8}" y="{y + 13}" text-anchor="end">track {track}</text>')
        for position in range(image.per_track):
            segment = image.per_track * track + position
            lines += cell(left + (width + 1) * position, y, width, kinds[segment], image.states(segment))
    x = left
    for name, colour in COLOURS.items():
        lines.append(f'<rect x="{x}" y="{bottom + 12}" width="12" height="12" fill="{colour}" stroke="#888"/>')
        lines.append(f'<text x="{x + 17}" y="{bottom + 22}">{name}</text>')
        x += 30 + 7 * len(name)
    lines.append(cross(x, bottom + 12, 12, 12))
    lines.append(f'<text x="{x + 17}" y="{bottom + 22}">can\'t be read</text>')
    x += 30 + 7 * len("can't be read")
    below = bottom + 36
    for number, first, last, length, name in told.volumes:
        below += 16
        where = f"segments {first} to {last}" if first != last else f"segment {first}"
        lines.append(f'<text x="{left}" y="{below}">{number} {escape(name)}: {length} bytes, {where}</text>')
    size = f'width="{max(right, x) + 10}" height="{below + 20}"'
    style = 'font-family="sans-serif" font-size="11"'
    return [f'<svg xmlns="http://www.w3.org/2000/svg" {size} {style}>', *lines, "</svg>"]


def main():
    if len(sys.argv) != 2:
        sys.exit("usage: picture.py IMAGE")
    try:
        data = Path(sys.argv[1]).read_bytes()
    except OSError as error:
        sys.exit(f"picture: {sys.argv[1]}: {error.strerror}")
    image = Image(data)
    print("\n".join(picture(image, Told(data))))


if __name__ == "__main__":
    main()
