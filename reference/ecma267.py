"""The data format of ECMA-267, 3rd edition (DVD read-only disk), for reading and for running.

Written from the standard's clauses and this project's texts on its formats, by somebody who had
not read the program: README.md, beside this file, says how. It follows the standard's order:
clauses 16 to 19 by their numbers, and the clauses of Section 5, Format of the Information Zone(s),
by their titles. "Own" says that the standard leaves a choice, and that this is the project's;
"textbook", that a function is of coding theory, and which clause needs it.

A sector is 2,048 bytes of an image, the user's data, and becomes the Main Data of one data frame.
Sixteen frames and their parity are an ECC block: the product of two Reed-Solomon codes, (182, 172)
for rows and (208, 192) for columns. Modulation and what comes after it (from clause 20 on) is left
out. What corrects a damaged block is in decoding.py, which uses the syndromes and the mask of an
ID below; dvdecc.py uses the reading of a physical format. Rows, bytes and frames are counted from
0.
"""

from functools import lru_cache
from typing import Iterator, List, NamedTuple, Optional, Sequence

# The field of clauses 16.2 and 18: the 256 bytes. Their sum, and their difference, is exclusive or.

ALPHA = 0x02  # the primitive element


def times_x(a: int) -> int:
    """Clauses 16.2 and 18: the polynomial a (bit k is the coefficient of x^k) times x, modulo
    x^8 + x^4 + x^3 + x^2 + 1."""
    a = a << 1
    return a ^ 0b1_0001_1101 if a & 0b1_0000_0000 else a


def product(a: int, b: int) -> int:
    """Textbook, for clause 18: the product of two elements; each power of x in b adds a times that
    power."""
    total = 0
    for k in range(8):
        if b >> k & 1:
            total ^= a
        a = times_x(a)
    return total


# TIMES[a][b] is product(a, b): kept, because one block takes a million products.
TIMES = [[product(a, b) for b in range(256)] for a in range(256)]


@lru_cache(maxsize=None)
def power(a: int, k: int) -> int:
    """Textbook, for clause 18: a to the power k. Kept, as the table is."""
    return 1 if k == 0 else TIMES[power(a, k - 1)][a]


# The codes of clauses 16.2 and 18. Byte j of a word of n bytes is the coefficient of x^(n-1-j).


def polynomial_product(p: Sequence[int], q: Sequence[int]) -> List[int]:
    """Textbook, for clause 18: the product of two polynomials over the field, the highest power
    first."""
    total = [0] * (len(p) + len(q) - 1)
    for i, a in enumerate(p):
        for j, b in enumerate(q):
            total[i + j] ^= TIMES[a][b]
    return total


def with_roots(roots: Sequence[int]) -> List[int]:
    """Textbook, for clause 18: the product of (x - root) over some roots."""
    total = [1]
    for root in roots:
        total = polynomial_product(total, [1, root])
    return total


@lru_cache(maxsize=None)
def generator(parity: int) -> List[int]:
    """Clauses 16.2 and 18: the product of (x - alpha^i) for i from 0 to parity - 1."""
    return with_roots([power(ALPHA, i) for i in range(parity)])


def parity_bytes(data: Sequence[int], parity: int) -> bytes:
    """Clauses 16.2 and 18: the remainder of data times x^parity, divided by the generator."""
    rest = list(data) + [0] * parity
    divisor = generator(parity)
    for k in range(len(data)):
        times = TIMES[rest[k]]
        for j, coefficient in enumerate(divisor, k):
            rest[j] ^= times[coefficient]
    return bytes(rest[len(data):])


def value(word: Sequence[int], x: int) -> int:
    """Textbook, for clause 18: the value of a word's polynomial at x, by Horner's rule."""
    times, total = TIMES[x], 0
    for byte in word:
        total = times[total] ^ byte
    return total


def syndromes(word: Sequence[int], parity: int) -> List[int]:
    """Textbook, for clauses 16.2 and 18: the values at the roots of the generator. All are 0 for a
    codeword."""
    return [value(word, power(ALPHA, i)) for i in range(parity)]


def is_codeword(word: Sequence[int], parity: int) -> bool:
    """Clauses 16.2 and 18: the generator divides the word."""
    return not any(syndromes(word, parity))


# Clause 16: Data Frames, 2,064 bytes each.

DATA, LEAD_IN, LEAD_OUT, MIDDLE = 0, 1, 2, 3  # clause 16.1: the areas, bits 27 and 26 of the ID
SAME_PLACE = 0x0DFFFFFF  # own: the bits that say a frame's place: area, layer, sector number


def identification(area: int, layer: int, two_layers: bool, number: int) -> int:
    """Clause 16.1: the ID. Bit 29 is the reflectivity; own: 1 on each layer of two. Bits
    31, 30, 28 and 25, such as the format type and the tracking method, are 0 here."""
    return two_layers << 29 | area << 26 | layer << 24 | number


def id_bytes(identity: int) -> bytes:
    """Clause 16.1: the ID in four bytes, the most significant first."""
    return identity.to_bytes(4, "big")


def ied(id_of_frame: bytes) -> bytes:
    """Clause 16.2: the two parity bytes of the ID."""
    return parity_bytes(id_of_frame, 2)


NO_CPR_MAI = bytes(6)  # clause 16.3: copyright management information; own: zeros


def bit_remainder(number: int, divisor: int) -> int:
    """Textbook, for clause 16.4: the remainder of two polynomials over bits, bit k being the
    coefficient of x^k. Each step brings the next bit down, and subtracts the divisor where it
    goes in."""
    rest, top = 0, 1 << (divisor.bit_length() - 1)
    for bit in f"{number:b}":
        rest = rest << 1 | (bit == "1")
        if rest & top:
            rest ^= divisor
    return rest


def edc(covered: bytes) -> bytes:
    """Clause 16.4: the covered bytes times x^32 are divided by x^32 + x^31 + x^4 + 1; the remainder
    is the EDC."""
    rest = bit_remainder(int.from_bytes(covered, "big") << 32, 1 << 32 | 1 << 31 | 1 << 4 | 1)
    return rest.to_bytes(4, "big")


def data_frame(identity: int, cpr_mai: bytes, main_data: bytes) -> bytes:
    """Clause 16: ID, IED, CPR_MAI, 2,048 bytes of Main Data, EDC."""
    head = id_bytes(identity)
    covered = head + ied(head) + cpr_mai + main_data
    return covered + edc(covered)


# Clause 17: Scrambled Frames.

PRESETS = [  # clause 17, the table of initial presets
    0x0001, 0x5500, 0x0002, 0x2A00, 0x0004, 0x5400, 0x0008, 0x2800,
    0x0010, 0x5000, 0x0020, 0x2001, 0x0040, 0x4002, 0x0080, 0x0005,
]


@lru_cache(maxsize=None)  # there are sixteen results
def scrambling_bytes(preset: int) -> bytes:
    """Clause 17: the register r14 to r0 gives the byte r7 to r0, then shifts eight times. A shift
    moves each bit towards r14, and r14 + r10 into r0."""
    register, result = preset, []
    for _ in range(2048):
        result.append(register & 0xFF)
        for _ in range(8):
            register = (register << 1 | (register >> 14 ^ register >> 10) & 1) & 0x7FFF
    return bytes(result)


def scrambled(frame: bytes, identity: int, count: int = 2048) -> bytes:
    """Clause 17: the frame with scrambling bytes added to its first count bytes of Main Data. Bits
    7 to 4 of the ID select the preset. Applied twice it gives the frame again."""
    key = scrambling_bytes(PRESETS[identity >> 4 & 0xF])[:count]
    changed = bytes(a ^ b for a, b in zip(frame[12:], key))
    return frame[:12] + changed + frame[12 + count:]


# Clause 18: ECC Blocks, 208 rows of 182 bytes.

PI, PO = 10, 16  # the parity bytes of a row, and of a column


def ecc_block(frames: Sequence[bytes]) -> List[bytes]:
    """Clause 18: sixteen scrambled frames, twelve rows of 172 bytes each; below them sixteen rows
    of PO, which make codewords of the columns; then at the end of all 208 rows PI."""
    rows = [frame[172 * q:172 * (q + 1)] for frame in frames for q in range(12)]
    outer = [parity_bytes(column, PO) for column in zip(*rows)]
    rows += [bytes(row) for row in zip(*outer)]
    return [row + parity_bytes(row, PI) for row in rows]


def frame_in(block: Sequence[bytes], f: int) -> bytes:
    """Clause 18: frame f of a block, its rows 12f to 12f + 11 without PI."""
    return b"".join(row[:172] for row in block[12 * f:12 * f + 12])


# Clause 19: Recording Frames, thirteen rows each.


def recorded_rows(f: int) -> List[int]:
    """Clause 19: the rows of recording frame f: the twelve of the data frame, then one of PO."""
    return [12 * f + q for q in range(12)] + [192 + f]


RECORDING_ORDER = [row for f in range(16) for row in recorded_rows(f)]


def recording(block: Sequence[bytes]) -> bytes:
    """Clause 19: the sixteen recording frames of a block, 37,856 bytes."""
    return b"".join(block[row] for row in RECORDING_ORDER)


# Section 5, Layout of the Information Zone. Lengths are counted in blocks of sixteen sectors.
# A layer is recorded along a spiral. On the parallel track path both layers are read from the
# inside to the outside, each with a lead-in before and a lead-out after its data. On the opposite
# track path layer 0 is, and then layer 1 from the outside back in: a Middle Zone is at the turn on
# both layers.

SINGLE, PARALLEL, OPPOSITE = "single", "parallel", "opposite"
ZERO, REFERENCE, CONTROL, IMAGE = "zero", "reference", "control", "image"
DATA_FIRST = 0x030000  # Section 5, Physical sector numbering: the Data Zone begins here


class Layout(NamedTuple):
    """One layer, or two by their track path, with the sectors of the image on each. Own: the
    lengths of the Initial Zone and of the zones after the data."""
    shape: str
    sectors0: int
    sectors1: int = 0
    initial: int = 0
    tail: int = 16

    @property
    def two_layers(self) -> bool:
        return self.shape != SINGLE


class Zone(NamedTuple):
    """A zone, or one block of it: first sector, blocks, area, layer, what its Main Data are, and
    for data the number of the first sector in the image."""
    first: int
    blocks: int
    area: int
    layer: int
    content: str
    image: int = 0


def padded(sectors: int) -> int:
    """Own: the data of a layer are filled with zero sectors to whole blocks."""
    return (sectors + 15) // 16 * 16


def lead_in(layout: Layout, layer: int) -> List[Zone]:
    """Section 5, Lead-in Zone: the sectors up to the Data Zone."""
    return [
        Zone(0x02F000 - 16 * layout.initial, layout.initial, LEAD_IN, layer, ZERO),  # Initial
        Zone(0x02F000, 2, LEAD_IN, layer, REFERENCE),  # Reference Code Zone
        Zone(0x02F020, 30, LEAD_IN, layer, ZERO),      # Buffer Zone 1
        Zone(0x02F200, 192, LEAD_IN, layer, CONTROL),  # Control Data Zone
        Zone(0x02FE00, 32, LEAD_IN, layer, ZERO),      # Buffer Zone 2
    ]


def inside_out(layout: Layout, layer: int) -> List[Zone]:
    """Section 5, Physical sector numbering: a layer that is read from its inside. On the opposite
    track path the Middle Zone is after its data, and else the Lead-out Zone."""
    sectors, image = [(layout.sectors0, 0), (layout.sectors1, layout.sectors0)][layer]
    after = MIDDLE if layout.shape == OPPOSITE else LEAD_OUT
    data = Zone(DATA_FIRST, padded(sectors) // 16, DATA, layer, IMAGE, image)
    end = Zone(DATA_FIRST + padded(sectors), layout.tail, after, layer, ZERO)
    return lead_in(layout, layer) + [data, end]


def complement(number: int) -> int:
    """Section 5, Physical sector numbering: on the opposite track path the sector of layer 1 over
    a sector of layer 0 has the number with all 24 bits inverted."""
    return 0xFFFFFF - number


def outside_in(layout: Layout) -> List[Zone]:
    """Section 5, Physical sector numbering: layer 1 on the opposite track path. Its data begin at
    the complement of the last data sector of layer 0."""
    data = complement(last_data_sector(layout, 0))
    return [
        Zone(data - 16 * layout.tail, layout.tail, MIDDLE, 1, ZERO),
        Zone(data, padded(layout.sectors1) // 16, DATA, 1, IMAGE, layout.sectors0),
        Zone(data + padded(layout.sectors1), layout.tail, LEAD_OUT, 1, ZERO),
    ]


def information_zone(layout: Layout) -> List[Zone]:
    """Section 5, Layout of the Information Zone: all zones in the order in which they are read."""
    if layout.shape == SINGLE:
        return inside_out(layout, 0)
    if layout.shape == PARALLEL:
        return inside_out(layout, 0) + inside_out(layout, 1)
    return inside_out(layout, 0) + outside_in(layout)


def blocks_of(zones: Sequence[Zone]) -> Iterator[Zone]:
    """Section 5, Physical sector numbering: the blocks of some zones, each of sixteen sectors that
    follow each other. The first sector in the image counts for data alone."""
    for zone in zones:
        for b in range(zone.blocks):
            yield zone._replace(first=zone.first + 16 * b, blocks=1, image=zone.image + 16 * b)


def last_data_sector(layout: Layout, layer: int) -> int:
    """Section 5, Physical sector numbering: the last sector of the Data Zone of a layer."""
    if layer == 0:
        return DATA_FIRST + padded(layout.sectors0) - 1
    first = DATA_FIRST
    if layout.shape == OPPOSITE:
        first = complement(last_data_sector(layout, 0))
    return first + padded(layout.sectors1) - 1


# Section 5, Lead-in Zone: what its zones hold.


def scrambled_count(block: Zone, f: int) -> int:
    """Section 5, Reference Code Zone: of it only the first 160 Main Data bytes of the first frame
    of each block are scrambled. Elsewhere all 2,048 are (clause 17)."""
    if block.content != REFERENCE:
        return 2048
    return 160 if f == 0 else 0


def main_data(layout: Layout, block: Zone, f: int) -> bytes:
    """Section 5, Lead-in, Middle and Lead-out Zone: the Main Data of frame f of a block without
    image: the reference code AC, the control data, or zeros. Own: of the control data the sectors
    1 to 15 of a block (disk manufacturing and content provider information) are zeros."""
    if block.content == REFERENCE:
        return b"\xAC" * 2048
    if block.content == CONTROL and f == 0:
        return physical_format(layout, block.layer)
    return bytes(2048)


def physical_format(layout: Layout, layer: int) -> bytes:
    """Section 5, Control Data Zone, Physical format information: sector 0 of each block. The last
    sector is that of the layer, and on the opposite track path that of layer 1; there the last one
    of layer 0 is stated too, else it is 0."""
    opposite = layout.shape == OPPOSITE
    last_of_disk = last_data_sector(layout, 1 if opposite else layer)
    last_of_layer_0 = last_data_sector(layout, 0) if opposite else 0
    head = [
        0 << 4 | 1,                                        # read-only; own: version 1
        0 << 4 | 2,                                        # own: 120 mm; rate 10.08 Mbit/s
        layout.two_layers << 5 | opposite << 4 | 1,        # layers; track path; embossed data
        layout.two_layers << 4 | 0,                        # channel bit length; track pitch
        0, *DATA_FIRST.to_bytes(3, "big"),
        0, *last_of_disk.to_bytes(3, "big"),
        0, *last_of_layer_0.to_bytes(3, "big"),
        0 << 7,                                            # own: no burst cutting area
    ]
    return bytes(head) + bytes(2048 - len(head))


class PhysicalFormat(NamedTuple):
    """Section 5, Physical format information: the fields that are read."""
    version: int
    rate: int
    layers: int
    path: str
    kind: int
    density: int
    pitch: int
    first: int
    last: int
    layer0: int
    bca: int


def read_physical_format(sector: bytes) -> Optional[PhysicalFormat]:
    """Section 5, Physical format information: the fields of a sector. None for another disk
    category or size, layers that aren't 1 or 2, or a Data Zone that doesn't begin at 030000 or has
    a last sector below that. A disk of one layer has the bit of the parallel track path. Own: the
    other bits aren't looked at."""
    layers = (sector[2] >> 5 & 3) + 1
    first, last, layer0 = (int.from_bytes(sector[k:k + 3], "big") for k in (5, 9, 13))
    if sector[0] >> 4 != 0 or sector[1] >> 4 != 0 or layers > 2:
        return None
    if first != DATA_FIRST or last < first:
        return None
    return PhysicalFormat(
        version=sector[0] & 0xF, rate=sector[1] & 0xF,
        layers=layers, path=OPPOSITE if sector[2] >> 4 & 1 else PARALLEL, kind=sector[2] & 0xF,
        density=sector[3] >> 4, pitch=sector[3] & 0xF,
        first=first, last=last, layer0=layer0, bca=sector[16] >> 7)


# A whole block of a disk.


def identity_of(layout: Layout, block: Zone, f: int) -> int:
    """Clause 16.1: the ID of frame f of a block."""
    return identification(block.area, block.layer, layout.two_layers, block.first + f)


def toggled(frame: bytes, layout: Layout, block: Zone, f: int) -> bytes:
    """Clause 17: frame f of a block with its scrambling put on or taken off."""
    return scrambled(frame, identity_of(layout, block, f), scrambled_count(block, f))


def disk_block(
        layout: Layout, block: Zone, cpr_mai: bytes, sectors: Sequence[bytes]) -> List[bytes]:
    """Clauses 16 to 18: the ECC block of sixteen sectors of Main Data. Own: outside of the Data
    Zone CPR_MAI is zeros."""
    cpr_mai = cpr_mai if block.area == DATA else NO_CPR_MAI
    frames = [
        data_frame(identity_of(layout, block, f), cpr_mai, sector)
        for f, sector in enumerate(sectors)]
    return ecc_block([toggled(frame, layout, block, f) for f, frame in enumerate(frames)])
