"""The forms of a capture and the rules of a layout.

Written from docs/FORMATS.md and docs/MANUAL.md, by somebody who had not read the program.

A capture is here its bytes in the order of recording, and for each of them a mark: 1 says that
the byte is an erasure. Both are whole blocks, or one recording frame of 13 rows.
"""

from typing import Callable, List, NamedTuple, Optional, Tuple

from decoding import Received
from ecma267 import DATA_FIRST, OPPOSITE, PARALLEL, RECORDING_ORDER, SINGLE, Layout, padded

ROW = 182
BLOCK = 208 * ROW
FRAME = 13 * ROW
STORED_ROW = {"plain": ROW, "marked": ROW + 23}  # 23 bytes of mark bits after each row
MOST_RUNS = 18_928
SIGNATURE = b"DVDECC\x00\x02"  # a listed capture begins with these bytes
SHAPES = [SINGLE, PARALLEL, OPPOSITE]
ZONES = ["data", "all"]


class Capture(NamedTuple):
    data: bytes
    marks: bytes


def received(capture: Capture) -> Received:
    """The rows of a captured block in the order of the block, each with its set of erasures."""
    rows, marks = [b""] * 208, [frozenset()] * 208
    for m, i in enumerate(RECORDING_ORDER):
        rows[i] = capture.data[ROW * m:ROW * (m + 1)]
        marks_of_row = capture.marks[ROW * m:ROW * (m + 1)]
        marks[i] = frozenset(j for j in range(ROW) if marks_of_row[j])
    return Received(rows, marks)


def from_stored(form: str, stored: bytes) -> Capture:
    """The plain form is the rows alone. In the marked form byte j of a row has bit 7 - (j mod 8)
    of mark byte j/8."""
    if form == "plain":
        return Capture(stored, bytes(len(stored)))
    data, marks = b"", b""
    for at in range(0, len(stored), STORED_ROW["marked"]):
        bits = stored[at + ROW:at + STORED_ROW["marked"]]
        data += stored[at:at + ROW]
        marks += bytes(bits[j // 8] >> 7 - j % 8 & 1 for j in range(ROW))
    return Capture(data, marks)


def to_marked(capture: Capture) -> bytes:
    """The marked form of a capture. The two lowest bits of the last mark byte are 0."""
    stored = b""
    for at in range(0, len(capture.data), ROW):
        bits = "".join("1" if mark else "0" for mark in capture.marks[at:at + ROW]) + "00"
        stored += capture.data[at:at + ROW] + int(bits, 2).to_bytes(23, "big")
    return stored


def to_listed(capture: Capture) -> bytes:
    """The unit of a block in the listed form: its rows, the number of runs, and the runs."""
    numbers: List[int] = []
    at = capture.marks.find(1)
    while at != -1:
        end = capture.marks.find(0, at)
        end = BLOCK if end == -1 else end
        numbers += [at, end - at]
        at = capture.marks.find(1, end)
    numbers = [len(numbers) // 2] + numbers
    return capture.data + b"".join(number.to_bytes(2, "big") for number in numbers)


class BrokenRule(Exception):
    """A header or a unit of the listed form breaks a rule, first in the field at this byte."""

    def __init__(self, at: int) -> None:
        self.at = at


def from_listed(next_bytes: Callable[[int], bytes]) -> Capture:
    """The listed form of a block. Each field is tested as soon as it is read."""
    at = BLOCK

    def field(least: int, most: int) -> int:
        nonlocal at
        number = int.from_bytes(next_bytes(2), "big")
        if not least <= number <= most:
            raise BrokenRule(at)
        at += 2
        return number

    data, marks, after = next_bytes(BLOCK), bytearray(BLOCK), 0
    for _ in range(field(0, MOST_RUNS)):
        start = field(after, BLOCK - 1)
        length = field(1, BLOCK - start)
        marks[start:start + length] = b"\1" * length
        after = start + length + 1  # two runs never touch
    return Capture(data, bytes(marks))


def to_header(layout: Layout, zones: str) -> bytes:
    """The header of a listed capture, 32 bytes."""
    numbers = [layout.sectors0, layout.sectors1, layout.initial, layout.tail]
    return (SIGNATURE + bytes([SHAPES.index(layout.shape), ZONES.index(zones), 0, 0])
            + b"".join(number.to_bytes(4, "big") for number in numbers) + bytes(4))


def from_header(header: bytes) -> Tuple[Layout, str]:
    """The layout and the zones that a header states."""
    any_byte = range(256)
    possible = (
        [[byte] for byte in SIGNATURE] + [range(3), range(2), [0], [0]]
        + [any_byte] * 16 + [[0]] * 4)
    for at, bytes_here in enumerate(possible):
        if header[at] not in bytes_here:
            raise BrokenRule(at)
    numbers = [int.from_bytes(header[at:at + 4], "big") for at in (12, 16, 20, 24)]
    layout = Layout(SHAPES[header[8]], *numbers)
    fault = layout_fault(layout)
    if fault is not None:
        raise BrokenRule(fault.at)
    return layout, ZONES[header[9]]


class Fault(NamedTuple):
    """A broken rule of a layout: its text, and where the header has the field."""
    text: str
    at: int


def layout_fault(layout: Layout) -> Optional[Fault]:
    """The first rule that a layout breaks."""
    sectors = [layout.sectors0, layout.sectors1] if layout.two_layers else [layout.sectors0]
    for layer, count in enumerate(sectors):
        if count == 0:
            return Fault(f"empty layer {layer}", 12 + 4 * layer)
    if layout.two_layers and layout.sectors0 % 16 != 0:
        return Fault(f"odd layer {layout.sectors0}", 12)
    if not layout.two_layers and layout.sectors1 != 0:
        return Fault(f"second layer {layout.sectors1}", 16)
    if layout.shape == OPPOSITE and padded(layout.sectors1) > padded(layout.sectors0):
        return Fault(f"layer longer {layout.sectors1}", 16)
    if layout.initial > 12_031:
        return Fault(f"initial too long {layout.initial}", 20)
    if layout.tail > 12_288:
        return Fault(f"tail too long {layout.tail}", 24)
    for layer, count in enumerate(sectors):
        end = DATA_FIRST + padded(count) + 16 * layout.tail
        if end > 0x800000:
            return Fault(f"layer {layer} too long {end}", 12 + 4 * layer)
    return None
