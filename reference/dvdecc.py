"""The commands of dvdecc with the same arguments, output, report and exit status, slow and plain.

Written from docs/MANUAL.md, docs/FORMATS.md and this project's texts on its commands, by somebody
who had not read the program (README.md). Run it so:

    python3 reference/dvdecc.py COMMAND [OPTION VALUE].. < input > output 2> report
"""

import os
import re
import signal
import sys
from typing import Any, BinaryIO, Callable, Dict, Iterator, List, Optional, Tuple

import ecma130
import ecma267
from decoding import (
    Received, block_cause, block_sectors, deep_block, frames_cause, near_codeword, pi_errors,
    salvage, two_passes)
from ecma267 import (
    CONTROL, DATA, IMAGE, LEAD_IN, OPPOSITE, PARALLEL, PI, SAME_PLACE, SINGLE, Layout, Zone)
from forms import (
    BLOCK, FRAME, STORED_ROW, BrokenRule, Capture, from_header, from_listed, from_stored,
    layout_fault, received, to_header, to_listed, to_marked)


Settings = Dict[str, Any]  # the value of each option, and of `command`


class End(Exception):
    """The end of a run: the exit status and the closing line."""

    def __init__(self, status: int, line: str) -> None:
        self.status, self.line = status, line


class Streams:
    """Input, output and report. A fault ends the run and isn't tried again."""

    def __init__(self, stdin: BinaryIO, stdout: BinaryIO, stderr: BinaryIO) -> None:
        self.stdin, self.stdout, self.stderr = stdin, stdout, stderr

    def read(self, size: int) -> bytes:
        """The next bytes of the input; fewer than size only at its end."""
        data = b""
        try:
            while len(data) < size:
                piece = self.stdin.read(size - len(data))
                if not piece:
                    break
                data += piece
        except OSError:
            raise End(3, "read fault") from None
        return data

    def read_unit(self, size: int, unit: str) -> bytes:
        """The next unit, which is named as in `block 3`."""
        data = self.read(size)
        if len(data) < size:
            raise End(5, f"short: {unit}, {len(data)} bytes")
        return data

    def write(self, data: bytes) -> None:
        try:
            self.stdout.write(data)
            self.stdout.flush()
        except OSError:
            raise End(4, "write fault") from None

    def write_line(self, line: str) -> None:
        self.write(line.encode() + b"\n")

    def report(self, line: str) -> None:
        try:
            self.stderr.write(line.encode() + b"\n")
            self.stderr.flush()
        except OSError:
            raise End(9, "") from None

    def finish(self, damaged: int = 0, unit: str = "blocks") -> None:
        """After the last unit: the input has to end, and no unit may have been refused."""
        if self.read(1):
            raise End(6, "long")
        if damaged:
            raise End(7, f"damaged: {damaged} {unit}")


# The arguments.


def require(condition: bool) -> None:
    """Other arguments are none of the program."""
    if not condition:
        raise End(1, "usage")


def number(least: int = 0, most: int = 4_294_967_295) -> Callable[[str], int]:
    """Reads one to ten decimal digits, in a range."""
    def read(text: str) -> int:
        require(re.fullmatch("[0-9]{1,10}", text) is not None and least <= int(text) <= most)
        return int(text)
    return read


def hexadecimal(digits: int) -> Callable[[str], bytes]:
    """Reads a number of hexadecimal digits, of either case."""
    def read(text: str) -> bytes:
        require(re.fullmatch("[0-9A-Fa-f]{%d}" % digits, text) is not None)
        return bytes.fromhex(text)
    return read


def one_of(*words: str) -> Callable[[str], str]:
    """Reads one of some words."""
    def read(text: str) -> str:
        require(text in words)
        return text
    return read


VALUES: Dict[str, Callable[[str], Any]] = {
    "--first": hexadecimal(6), "--cpr": hexadecimal(12),
    "--sectors": number(), "--sectors1": number(), "--initial": number(), "--tail": number(),
    "--shape": one_of(SINGLE, PARALLEL, OPPOSITE), "--zones": one_of("data", "all"),
    "--form": one_of("plain", "marked", "listed"), "--workers": number(1, 16),
    "--captures": number(2, 16), "--frames": number(1), "--address": number(),
    "--seed": number(), "--blocks": number(1, 4096),
}
DEFAULTS: Settings = {
    "--sectors1": 0, "--shape": SINGLE, "--zones": "data", "--initial": 0, "--tail": 16,
    "--cpr": bytes(6), "--form": "plain", "--workers": 1,
}
LAYOUT = ["--sectors1", "--shape", "--zones", "--initial", "--tail"]


def read_arguments(arguments: List[str]) -> Settings:
    """The command and its options, in any order, each at most once."""
    require(len(arguments) > 0 and arguments[0] in COMMANDS)
    command, rest = arguments[0], list(arguments[1:])
    _, needed, optional = COMMANDS[command]
    given: Settings = {}
    if rest[-1:] == ["--"]:
        rest.pop()
    while rest:
        option, equals, text = rest.pop(0).partition("=")
        require(option in needed + optional and option not in given)
        require(equals == "=" or len(rest) > 0)
        given[option] = VALUES[option](text if equals else rest.pop(0))
    if given.get("--form") == "listed":
        require(command in ("recover", "deep", "survey", "info"))
        require(not any(option in given for option in ["--sectors"] + LAYOUT))
    else:
        require(all(option in given for option in needed))
    settings = {**DEFAULTS, **given, "command": command}
    check_sums(settings)
    return settings


def check_sums(settings: Settings) -> None:
    """The rules of some commands about several numbers."""
    command, sectors = settings["command"], settings.get("--sectors", 0)
    if command == "frames":
        first = int.from_bytes(settings["--first"], "big")
        require(sectors >= 1 and first + sectors <= 0x1000000)
    if command in ("cdmake", "cdread"):
        require(sectors >= 1 and settings["--address"] + sectors <= 450_000)
    if command == "assemble":
        require(sectors + settings["--sectors1"] <= 16_384)


def stated_layout(settings: Settings) -> Layout:
    """The layout that the options state. Where the command has no `--sectors`, it counts for
    nothing how many there are."""
    return Layout(
        settings["--shape"], settings.get("--sectors", 1), settings["--sectors1"],
        settings["--initial"], settings["--tail"])


def check_layout(settings: Settings) -> None:
    """The rules of the layout, for a command with options of it; a header is tested later."""
    _, _, optional = COMMANDS[settings["command"]]
    if settings["--form"] == "listed" or not set(LAYOUT) & set(optional):
        return
    fault = layout_fault(stated_layout(settings))
    if fault is not None:
        raise End(2, f"setting: {fault.text}")


# Streams of blocks.


def plan(layout: Layout, zones: str) -> Iterator[Tuple[int, Zone]]:
    """The numbered blocks of a stream."""
    listed = ecma267.information_zone(layout)
    if zones == "data":
        listed = [zone for zone in listed if zone.content == IMAGE]
    return enumerate(ecma267.blocks_of(listed))


def image_sectors(layout: Layout, block: Zone) -> int:
    """How many of the sixteen sectors of a block are the image's, and no padding."""
    return min(16, layout.sectors0 + layout.sectors1 - block.image)


def name(k: int, block: Zone) -> str:
    return f"block {k} sector {block.first:06X} layer {block.layer}"


def open_capture(settings: Settings, streams: Streams) -> Tuple[Layout, str]:
    """The layout and the zones of a capture: by its header in the listed form, else by options."""
    if settings["--form"] != "listed":
        return stated_layout(settings), settings["--zones"]
    try:
        return from_header(streams.read_unit(32, "header"))
    except BrokenRule as broken:
        raise End(11, f"bad header: byte {broken.at}") from None


def read_capture(settings: Settings, streams: Streams, k: int) -> Capture:
    """Captured block k."""
    form, held = settings["--form"], 0
    if form != "listed":
        return from_stored(form, streams.read_unit(208 * STORED_ROW[form], f"block {k}"))

    def next_bytes(size: int) -> bytes:
        nonlocal held
        data = streams.read(size)
        held += len(data)
        if len(data) < size:
            raise End(5, f"short: block {k}, {held} bytes")
        return data

    try:
        return from_listed(next_bytes)
    except BrokenRule as broken:
        raise End(12, f"bad marks: block {k}, byte {broken.at}") from None


# The commands.


def frames(settings: Settings, streams: Streams) -> None:
    first = int.from_bytes(settings["--first"], "big")
    for k in range(settings["--sectors"]):
        sector = streams.read_unit(2048, f"sector {k}")
        identity = ecma267.identification(DATA, 0, False, first + k)
        frame = ecma267.data_frame(identity, ecma267.NO_CPR_MAI, sector)
        streams.write(ecma267.scrambled(frame, identity))
    streams.finish()


def master(settings: Settings, streams: Streams) -> None:
    layout = stated_layout(settings)
    for k, block in plan(layout, settings["--zones"]):
        if block.content == IMAGE:
            data = streams.read_unit(2048 * image_sectors(layout, block), f"block {k}")
            sectors = in_sectors(data.ljust(16 * 2048, b"\0"))
        else:
            sectors = [ecma267.main_data(layout, block, f) for f in range(16)]
        rows = ecma267.disk_block(layout, block, settings["--cpr"], sectors)
        streams.write(ecma267.recording(rows))
    streams.finish()


def in_sectors(data: bytes) -> List[bytes]:
    return [data[at:at + 2048] for at in range(0, len(data), 2048)]


def recover(settings: Settings, streams: Streams) -> None:
    layout, zones = open_capture(settings, streams)
    damaged = 0
    for k, block in plan(layout, zones):
        capture = read_capture(settings, streams, k)
        if block.content != IMAGE:
            continue
        passes = two_passes(received(capture))
        cause = block_cause(passes, layout, block)
        rows, line = passes.block, None
        if passes.block is None and settings["command"] == "deep":
            found = deep_block(received(capture))
            if found is not None:
                rows, line = found[0], f"round {found[1]}"
                cause = frames_cause(rows, layout, block)
        if cause is None:
            sectors = block_sectors(rows, layout, block)
        else:
            sectors, saved = salvage(passes, layout, block)
            line = f"{cause} saved {saved}"
            damaged += 1
        if line is not None:
            streams.report(f"{name(k, block)}: {line}")
        for sector in sectors[:image_sectors(layout, block)]:
            streams.write(sector)
    streams.finish(damaged)


def survey(settings: Settings, streams: Streams) -> None:
    layout, zones = open_capture(settings, streams)
    pi, sums, all_failed, damaged = [], [], 0, 0
    for k, block in plan(layout, zones):
        captured = received(read_capture(settings, streams, k))
        passes = two_passes(captured)
        cause = block_cause(passes, layout, block)
        failed = len(passes.failed)
        pi.append(pi_errors(captured))
        sums.append(sum(pi[-8:]))  # of the block and the seven before it
        all_failed += failed
        if cause is not None:
            damaged += 1
        streams.write_line(
            f"{name(k, block)} pi {pi[-1]} failed {failed} sum8 {sums[-1]}: {cause or 'whole'}")
    peak, over = max(sums), sum(sum8 > 280 for sum8 in sums)  # ECMA-267 allows 280
    streams.write_line(
        f"blocks {len(pi)} pi {sum(pi)} failed {all_failed} damaged {damaged} "
        f"peak {peak} at {sums.index(peak)} over {over}")
    streams.finish(damaged)


def info(settings: Settings, streams: Streams) -> None:
    initial = settings["--initial"]
    if settings["--form"] == "listed":
        initial = open_capture(settings, streams)[0].initial
    any_disk = Layout(SINGLE, 16)  # the lead-in of layer 0 is at the same place on each disk
    for k in range(initial + 32):
        read_capture(settings, streams, k)
    for c in range(192):
        capture = read_capture(settings, streams, initial + 32 + c)
        block = Zone(0x02F200 + 16 * c, 1, LEAD_IN, 0, CONTROL)
        passes = two_passes(received(capture))
        if block_cause(passes, any_disk, block) is None:
            control = block_sectors(passes.block, any_disk, block)[0]
            found = ecma267.read_physical_format(control)
            if found is not None:
                write_format(found, streams)
                return
    raise End(10, "no control block")


def write_format(found: ecma267.PhysicalFormat, streams: Streams) -> None:
    """The lines of a physical format. Sector numbers have six hexadecimal digits."""
    for field, content in found._asdict().items():
        if field in ("first", "last", "layer0"):
            content = f"{content:06X}"
        streams.write_line(f"{field} {content}")


# Captures joined place by place. A place is UNSEEN, CONFLICT or the value of a byte.

UNSEEN, CONFLICT = -1, -2


def seen(capture: Capture) -> List[int]:
    return [UNSEEN if mark else byte for byte, mark in zip(capture.data, capture.marks)]


def join(one: int, other: int) -> int:
    if one == UNSEEN or one == other:
        return other
    return one if other == UNSEEN else CONFLICT


def joined(one: List[int], other: List[int]) -> List[int]:
    return [join(a, b) for a, b in zip(one, other)]


def marked_places(places: List[int]) -> bytes:
    """The marked form of joined places: zeros with a mark where there is no value."""
    return to_marked(Capture(
        bytes(max(place, 0) for place in places), bytes(place < 0 for place in places)))


def merge(settings: Settings, streams: Streams) -> None:
    form = settings["--form"]
    size = 208 * STORED_ROW[form]
    for k, _ in plan(stated_layout(settings), settings["--zones"]):
        units = streams.read_unit(size * settings["--captures"], f"block {k}")
        places = [UNSEEN] * BLOCK
        for at in range(0, len(units), size):
            places = joined(places, seen(from_stored(form, units[at:at + size])))
        streams.write(marked_places(places))
    streams.finish()


def assemble(settings: Settings, streams: Streams) -> None:
    blocks = [block for _, block in plan(stated_layout(settings), "data")]
    shelf: Dict[int, List[int]] = {}  # the joined places of each recording frame that came
    placed, form = 0, settings["--form"]
    for k in range(settings["--frames"]):
        capture = from_stored(form, streams.read_unit(13 * STORED_ROW[form], f"frame {k}"))
        home = frame_home(blocks, capture)
        if home is not None:
            shelf[home] = joined(shelf.get(home, [UNSEEN] * FRAME), seen(capture))
            placed += 1
    for home in range(16 * len(blocks)):
        streams.write(marked_places(shelf.get(home, [UNSEEN] * FRAME)))
    streams.report(f"placed {placed} strays {settings['--frames'] - placed}")
    streams.finish()


def frame_home(blocks: List[Zone], capture: Capture) -> Optional[int]:
    """Which recording frame of the Data Zones this is by its first row, once that is corrected."""
    erasures = [j for j in range(182) if capture.marks[j]]
    row = near_codeword(capture.data[:182], erasures, PI)
    if row is None or row[4:6] != ecma267.ied(row[:4]):
        return None
    found = int.from_bytes(row[:4], "big") & SAME_PLACE
    for k, block in enumerate(blocks):
        f = found - ecma267.identification(DATA, block.layer, False, block.first)
        if 0 <= f < 16:
            return 16 * k + f
    return None


def convert(settings: Settings, streams: Streams) -> None:
    layout = stated_layout(settings)
    streams.write(to_header(layout, settings["--zones"]))
    for k, _ in plan(layout, settings["--zones"]):
        streams.write(to_listed(read_capture(settings, streams, k)))
    streams.finish()


def cdmake(settings: Settings, streams: Streams) -> None:
    for k in range(settings["--sectors"]):
        user_data = streams.read_unit(2048, f"sector {k}")
        streams.write(ecma130.make_sector(settings["--address"] + k, user_data))
    streams.finish()


def cdread(settings: Settings, streams: Streams) -> None:
    damaged = 0
    for k in range(settings["--sectors"]):
        sector = ecma130.repaired(streams.read_unit(2352, f"sector {k}"))
        cause = ecma130.sector_cause(sector, settings["--address"] + k)
        if cause is not None:
            streams.report(f"sector {k}: {cause}")
            damaged += 1
        streams.write(sector[16:2064] if cause is None else bytes(2048))
    streams.finish(damaged, "sectors")


# The command exercise.


class Draw:
    """Numbers of 64 bits, each from the one before by three shifts."""

    def __init__(self, seed: int) -> None:
        self.state = seed + 1

    def word(self) -> int:
        x = self.state
        x ^= x << 13 & 0xFFFFFFFFFFFFFFFF
        x ^= x >> 7
        x ^= x << 17 & 0xFFFFFFFFFFFFFFFF
        self.state = x
        return x

    def byte(self) -> int:
        return self.word() >> 56


def damaged_block(block: List[bytes], draw: Draw) -> Received:
    """Damages a block within the bound: bad rows, lost rows, and up to five errors in each other
    row."""
    rows, marks = [bytearray(row) for row in block], [frozenset()] * 208
    bad = draw.word() % 9
    lost = draw.word() % (17 - 2 * bad)
    start = draw.word() % 208
    chosen = [(start + 5 * t) % 208 for t in range(bad + lost)]
    for i in chosen[:bad]:
        for j in range(182):
            rows[i][j] ^= draw.byte()
    for i in chosen[bad:]:
        rows[i], marks[i] = bytearray(182), frozenset(range(182))
    for i in range(208):
        if i not in chosen:
            errors, place = draw.word() % 6, draw.word() % 182
            for u in range(errors):
                rows[i][(place + 31 * u) % 182] ^= draw.byte() | 1
    return Received([bytes(row) for row in rows], marks)


def exercise(settings: Settings, streams: Streams) -> None:
    draw = Draw(settings["--seed"])
    layout = Layout(SINGLE, 16 * settings["--blocks"])
    whole = fixed = failed = 0
    for _, block in plan(layout, "data"):
        sectors = in_sectors(bytes(draw.byte() for _ in range(16 * 2048)))
        made = ecma267.disk_block(layout, block, ecma267.NO_CPR_MAI, sectors)
        damaged = damaged_block(made, draw)
        passes = two_passes(damaged)
        if passes.block is not None:
            right = frames_cause(passes.block, layout, block) is None
            whole += right and block_sectors(passes.block, layout, block) == sectors
            fixed += sum(a != b for a, b in zip(b"".join(passes.block), b"".join(damaged.rows)))
            failed += len(passes.failed)
    streams.write_line(
        f"exercise seed {settings['--seed']} blocks {settings['--blocks']} "
        f"whole {whole} fixed {fixed} failed {failed}")


COMMANDS: Dict[str, Tuple[Callable[[Settings, Streams], None], List[str], List[str]]] = {
    "frames": (frames, ["--first", "--sectors"], []),
    "master": (master, ["--sectors"], LAYOUT + ["--cpr", "--workers"]),
    "recover": (recover, ["--sectors"], LAYOUT + ["--form", "--workers"]),
    "deep": (recover, ["--sectors"], LAYOUT + ["--form"]),
    "survey": (survey, ["--sectors"], LAYOUT + ["--form", "--workers"]),
    "info": (info, [], ["--initial", "--form"]),
    "merge": (merge, ["--sectors", "--captures"], LAYOUT + ["--form"]),
    "assemble": (assemble, ["--sectors", "--frames"], ["--sectors1", "--shape", "--form"]),
    "convert": (convert, ["--sectors"], LAYOUT + ["--form"]),
    "cdmake": (cdmake, ["--address", "--sectors"], []),
    "cdread": (cdread, ["--address", "--sectors"], []),
    "exercise": (exercise, ["--seed", "--blocks"], ["--workers"]),
}


def run(arguments: List[str], stdin: BinaryIO, stdout: BinaryIO, stderr: BinaryIO) -> int:
    """A whole run. Its answer is the exit status."""
    streams = Streams(stdin, stdout, stderr)
    try:
        settings = read_arguments(arguments)
        check_layout(settings)
        command, _, _ = COMMANDS[settings["command"]]
        command(settings, streams)
        end = End(0, "done")
    except End as reached:
        end = reached
    except MemoryError:
        end = End(8, "no memory")
    try:
        if end.status != 9:
            streams.report(end.line)
    except End as fault:
        end = fault
    return end.status


class Closed:
    """A stream that the caller has closed: each call is a fault."""

    def __getattr__(self, call: str) -> Any:
        raise OSError(call)


def main() -> None:
    signal.signal(signal.SIGINT, signal.SIG_DFL)
    stdin = sys.stdin.buffer.raw if sys.stdin else Closed()  # no byte is read ahead
    stdout, stderr = (
        stream.buffer if stream else Closed() for stream in (sys.stdout, sys.stderr))
    # Everything is flushed; after a fault nothing may be written once more, as exit would try.
    os._exit(run(sys.argv[1:], stdin, stdout, stderr))


if __name__ == "__main__":
    main()
