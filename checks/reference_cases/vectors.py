"""Digests of the tests, made anew by the reference.

Each line of the table has a digest's place and the call of the reference that makes its bytes. A digest has to be in
the file that is named there, and to be that of these bytes. Where a test draws its words, they are drawn here too.
"""

import hashlib
import io
import multiprocessing
import os
import re
from functools import partial
from typing import Callable, List, NamedTuple

import dvdecc
import ecma267
from decoding import near_codeword

TOP = os.path.dirname(os.path.dirname(os.path.dirname(os.path.realpath(__file__))))
RUNS = "crates/dvd_vectors/src/tests/runs.rt"
REAL = "checks/real_runs"
CPR = "--cpr 0102030405ab"
LAYERS = "--sectors 32 --sectors1 17"
MASK = (1 << 64) - 1


def test_of(crate: str) -> str:
    return f"crates/{crate}/src/tests.rt"


def sample() -> bytes:
    """The image of samples/README.md."""
    return bytes((k * k + k // 7) % 256 for k in range(4096))


def long_image() -> bytes:
    """The first 1,500 sectors of the numbers from 1 on, one a line."""
    return b"".join(b"%d\n" % k for k in range(1, 450000))[:1500 * 2048]


def drawn_image(sectors: int) -> bytes:
    """The image of dvd_vectors: the top eight bits of what a register of 64 bits draws from 8 on."""
    drawn, result = 8, bytearray()
    for _ in range(2048 * sectors):
        drawn = (drawn ^ drawn << 13) & (1 << 64) - 1
        drawn ^= drawn >> 7
        drawn = (drawn ^ drawn << 17) & (1 << 64) - 1
        result.append(drawn >> 56)
    return bytes(result)


def counted_sector() -> bytes:
    """Byte i is (7i + [i / 256]) mod 256."""
    return bytes((7 * i + i // 256) % 256 for i in range(2048))


def recorded(sectors: int) -> bytes:
    """The recording of the drawn image."""
    return made(f"master --sectors {sectors}", drawn_image(sectors))


def made(words: str, data: bytes) -> bytes:
    """What the reference writes by these arguments over these bytes."""
    output, report = io.BytesIO(), io.BytesIO()
    status = dvdecc.run(words.split(), io.BytesIO(data), output, report)
    assert status == 0, (words, status, report.getvalue())
    return output.getvalue()


class SplitMix:
    """SplitMix64, from which the tests of rs_code and rs_decode draw."""

    def __init__(self, seed: int) -> None:
        self.state = seed

    def word(self) -> int:
        self.state = self.state + 0x9E3779B97F4A7C15 & MASK
        z = self.state
        z = (z ^ z >> 30) * 0xBF58476D1CE4E5B9 & MASK
        z = (z ^ z >> 27) * 0x94D049BB133111EB & MASK
        return z ^ z >> 31

    def bytes(self, count: int) -> bytes:
        return b"".join(self.word().to_bytes(8, "little") for _ in range((count + 7) // 8))[:count]

    def byte(self) -> int:
        return self.word() >> 56


def drawn_parity(length: int, parity: int, seed: int) -> bytes:
    """The parity bytes of 100 drawn words."""
    draw = SplitMix(seed)
    return b"".join(ecma267.parity_bytes(draw.bytes(length - parity), parity) for _ in range(100))


def drawn_answers(length: int, parity: int, seed: int) -> bytes:
    """What is answered for 300 codewords, damaged up to one byte beyond what is corrected, and the words after it."""
    draw, result = SplitMix(seed), bytearray()
    for _ in range(300):
        data = draw.bytes(length - parity)
        sent = data + ecma267.parity_bytes(data, parity)
        word, erasures = bytearray(sent), set()
        marked, wrong, first = draw.word() % (parity + 2), draw.word() % (parity // 2 + 2), draw.word() % length
        for k in range(marked + wrong):
            place = (first + 31 * k) % length
            if k < marked:
                erasures.add(place)
            word[place] ^= draw.byte() | (k >= marked)
        near = near_codeword(word, erasures, parity)
        if near is None:
            result += b"\0" + word
        else:
            errors = sum(a != b and j not in erasures for j, (a, b) in enumerate(zip(word, near)))
            result += bytes([1, errors, len(erasures)]) + near
    return bytes(result)


def all_answers() -> bytes:
    """Those of rows, of columns and of IDs, one after the other."""
    return drawn_answers(182, 10, 4) + drawn_answers(208, 16, 5) + drawn_answers(6, 2, 6)


def recorded_frames() -> bytes:
    """The recording of sixteen frames: byte k of frame f is 59f + 7k + [k / 172] modulo 256."""
    frames = [bytes((59 * f + 7 * k + k // 172) % 256 for k in range(2064)) for f in range(16)]
    return ecma267.recording(ecma267.ecc_block(frames))


def last_cd_sector() -> bytes:
    """The last sector of a CD-ROM, of counted bytes."""
    return made("cdmake --address 449999 --sectors 1", counted_sector())


def drawn_piece(seed: int) -> bytes:
    """What `exercise` draws for a block."""
    draw = dvdecc.Draw(seed)
    return bytes(draw.byte() for _ in range(16 * 2048))


def damaged(times: int) -> bytes:
    """The rows and marks of a block of zeros that `exercise` has damaged so often."""
    draw = dvdecc.Draw(3)
    rows, marked = [bytes(182)] * 208, [frozenset()] * 208
    for _ in range(times):
        hurt = dvdecc.damaged_block(rows, draw)
        rows = hurt.rows
        marked = [old | new for old, new in zip(marked, hurt.marks)]
    marks = b"".join(bytes(j in row for j in range(182)) for row in marked)
    return b"".join(rows) + marks


class Vector(NamedTuple):
    """A digest: where it is, by the name that a shell gives it or the words of its line, and what it is of."""

    file: str
    digest: str
    words: str
    data: Callable[[], bytes]


VECTORS = [
    Vector(REAL, "image_sum", "", sample),
    Vector(REAL, "long_image_sum", "", long_image),
    Vector(REAL, "frames_sum", "frames --first 030000 --sectors 2", sample),
    Vector(REAL, "last_frames_sum", "frames --first FFFFFE --sectors 2", sample),
    Vector(REAL, "long_frames_sum", "frames --first 030000 --sectors 1500", long_image),
    Vector(REAL, "recording_sum", "master --sectors 2", sample),
    Vector(REAL, "long_recording_sum", "master --sectors 1500", long_image),
    Vector(REAL, "raw_sum", "cdmake --address 150 --sectors 2", sample),
    Vector(RUNS, "7593F9F751D356A4", f"master --sectors 17 --zones all {CPR}", partial(drawn_image, 17)),
    Vector(RUNS, "37269FF702DAA0B3", f"master {LAYERS} --shape parallel --zones all {CPR}", partial(drawn_image, 49)),
    Vector(RUNS, "BA11D72746029954", f"master {LAYERS} --shape opposite --zones all {CPR}", partial(drawn_image, 49)),
    Vector(RUNS, "B4F18AB66709C9B3", "cdmake --address 150 --sectors 1", partial(bytes, 2048)),
    Vector(RUNS, "535D2B4AE3C6B5DC", "cdmake --address 150 --sectors 1", counted_sector),
    Vector(RUNS, "E72C18C8A280B741", "master --sectors 17", partial(drawn_image, 17)),
    Vector(RUNS, "821668C219648D76", "recover --sectors 17", partial(recorded, 17)),
    Vector(RUNS, "E5FA46EFBFA66147", "frames --first 030000 --sectors 2", partial(drawn_image, 2)),
    Vector(RUNS, "F0FA618E2827769A", "cdmake --address 150 --sectors 2", partial(drawn_image, 2)),
    Vector(RUNS, "E6D85C77DF15C8CA", "merge --sectors 16 --captures 2", partial(recorded, 17)),
    Vector(RUNS, "3788D212632361880B", "convert --sectors 17", partial(recorded, 17)),
    Vector(test_of("rs_code"), "A1CBB559879C77DD", "", partial(drawn_parity, 182, 10, 2)),
    Vector(test_of("rs_code"), "1A954CBE5A3CB688", "", partial(drawn_parity, 208, 16, 3)),
    Vector(test_of("rs_decode"), "33E6A480C270FF25", "", all_answers),
    Vector(test_of("dvd_block"), "2BA543D326303246", "", recorded_frames),
    Vector(test_of("dvd_exercise"), "3FE6513FC0D63720", "", partial(drawn_piece, 7)),
    Vector(test_of("dvd_exercise"), "1ECA4D3FEB67214C", "", partial(damaged, 1)),
    Vector(test_of("dvd_exercise"), "74ED2460A542CC72", "", partial(damaged, 2)),
    Vector(test_of("cd_sector"), "B4F18AB66709C9B3", "cdmake --address 150 --sectors 1", partial(bytes, 2048)),
    Vector(test_of("cd_sector"), "8AA498E526E22108", "", last_cd_sector),
]


def digests_in(file: str, begins: str) -> List[str]:
    """The digests of a file that have this name or begin so, whether as one number, as a text or as a list of bytes."""
    with open(os.path.join(TOP, file), encoding="utf-8") as text:
        plain = re.sub(r"\\x|\b0x|,\s*(?=0x)", "", text.read())
    found = re.findall(r"(?:\b(\w+)=)?(?<![0-9A-Fa-f])([0-9A-Fa-f]{64})(?![0-9A-Fa-f])", plain)
    return [digest.lower() for name, digest in found if begins in (name, digest[:len(begins)].upper())]


def differs(vector: Vector) -> str:
    """Why a digest isn't that of the reference, or nothing."""
    data = vector.data()
    wanted = hashlib.sha256(made(vector.words, data) if vector.words else data).hexdigest()
    found = digests_in(vector.file, vector.digest)
    return "" if found == [wanted] else f"FAILED: {vector.file}: {vector.digest}: {found}, the reference {wanted}"


def try_all(jobs: int, word: str) -> int:
    """Makes all digests anew whose call has this word."""
    asked = [vector for vector in VECTORS if word in f"{vector.digest} {vector.words}"]
    with multiprocessing.Pool(jobs) as pool:
        said = pool.map(differs, asked, chunksize=1)
    failed = [line for line in said if line]
    print(*failed, f"{len(asked) - len(failed)} passed, {len(failed)} failed", sep="\n")
    return int(bool(failed))
