"""Correction of damaged words and blocks of ECMA-267, by the rules of this project.

Written from docs/MANUAL.md and this project's texts on its commands, by somebody who had not read
the program (README.md). The standard says which words are codewords, and not how to correct. Here
a word is corrected in Peterson's way: by two systems of linear equations, one for the locations of
the errors and one for their values. Whether the result is near the word is tested at the end.
"""

from typing import Collection, List, NamedTuple, Optional, Sequence, Tuple

from ecma267 import (
    ALPHA, PI, PO, SAME_PLACE, TIMES, Layout, Zone, edc, frame_in, identity_of, ied, is_codeword,
    power, syndromes, toggled, value, with_roots)


def inverse(a: int) -> int:
    """1 / a in the field."""
    return power(a, 254)


def solution(equations: List[List[int]]) -> Optional[List[int]]:
    """The unknowns of n linear equations, or None where they don't determine them. An equation
    is its n coefficients and then its sum. By elimination: each unknown from one equation."""
    n = len(equations)
    for k in range(n):
        pivot = next((i for i in range(k, n) if equations[i][k]), None)
        if pivot is None:
            return None
        equations[k], equations[pivot] = equations[pivot], equations[k]
        scale = TIMES[inverse(equations[k][k])]
        equations[k] = [scale[a] for a in equations[k]]
        for i in range(n):
            if i != k and equations[i][k]:
                times = TIMES[equations[i][k]]
                equations[i] = [a ^ times[b] for a, b in zip(equations[i], equations[k])]
    return [equation[n] for equation in equations]


# Byte j of a word of n bytes has the location X = alpha^(n-1-j). There a wrong byte with the error
# e adds e X^k to syndrome k. So the syndromes are sums over the wrong bytes, from which locations
# and then errors are found: S[k] = e1 X1^k + e2 X2^k + ..


def without_erasures(sums: List[int], erased: Sequence[int]) -> List[int]:
    """The sums S[k] without their parts of the erased locations. The polynomial with these as
    roots, c0 x^s + .. + cs, makes c0 S[k+s] + .. + cs S[k], and an erased part of it is e X^k
    times the polynomial's value at X: 0. The other parts have other errors and the same X."""
    coefficients, sums_left = with_roots(erased), []
    for k in range(len(sums) - len(erased)):
        total = 0
        for c, s in zip(coefficients, reversed(sums[k:k + len(coefficients)])):
            total ^= TIMES[c][s]
        sums_left.append(total)
    return sums_left


def error_locator(sums: List[int]) -> List[int]:
    """The polynomial x^t + c1 x^(t-1) + .. + ct whose roots are the locations of the t errors.
    By the same rule S[k+t] + c1 S[k+t-1] + .. + ct S[k] = 0 for each k below t. The number t is
    the greatest for which these equations have one solution (Peterson)."""
    for t in range(len(sums) // 2, 0, -1):
        found = solution([sums[k:k + t][::-1] + [sums[k + t]] for k in range(t)])
        if found is not None:
            return [1] + found
    return [1]


def near_codeword(word: Sequence[int], erasures: Collection[int], parity: int) -> Optional[bytes]:
    """The codeword near a word: twice the errors plus the erasures is at most parity. There is at
    most one, as two codewords differ in more than parity bytes."""
    if len(erasures) > parity:
        return None
    sums = syndromes(word, parity)
    if not any(sums):
        return bytes(word)
    locations = [power(ALPHA, len(word) - 1 - j) for j in range(len(word))]
    locator = error_locator(without_erasures(sums, [locations[j] for j in erasures]))
    errors = {j for j, x in enumerate(locations) if value(locator, x) == 0}
    wrong = sorted(errors | set(erasures))
    if len(wrong) > parity:
        return None
    values = solution(
        [[power(locations[j], k) for j in wrong] + [sums[k]] for k in range(len(wrong))])
    answer = bytearray(word)
    for j, error in zip(wrong, values):
        answer[j] ^= error
    changed = sum(answer[j] != word[j] for j in wrong if j not in erasures)
    cost = 2 * changed + len(erasures)
    return bytes(answer) if cost <= parity and is_codeword(answer, parity) else None


class Received(NamedTuple):
    """A captured block: its 208 rows, and of each row the set of its erasures."""
    rows: List[bytes]
    marks: List[Collection[int]]


class Passes(NamedTuple):
    """What two passes make of a block: the answer of each row, the failed rows, the cause for
    which they refuse it, and else the block."""
    answers: List[Optional[bytes]]
    failed: List[int]
    cause: Optional[str]
    block: Optional[List[bytes]]


def two_passes(received: Received) -> Passes:
    """The first pass corrects the rows. The second corrects the columns of the answers, with the
    failed rows as erasures. Then each row has to be a codeword."""
    answers = [near_codeword(row, marks, PI) for row, marks in zip(*received)]
    failed = [i for i, answer in enumerate(answers) if answer is None]
    if len(failed) > PO:
        return Passes(answers, failed, f"rows {len(failed)}", None)
    columns = []
    for j, column in enumerate(zip(*[answer or bytes(182) for answer in answers])):
        corrected = near_codeword(column, failed, PO)
        if corrected is None:
            return Passes(answers, failed, f"column {j}", None)
        columns.append(corrected)
    block = [bytes(row) for row in zip(*columns)]
    for i, row in enumerate(block):
        if not is_codeword(row, PI):
            return Passes(answers, failed, f"row {i}", None)
    return Passes(answers, failed, None, block)


def frame_cause(frame: bytes, layout: Layout, block: Zone, f: int) -> Optional[str]:
    """Why the frame isn't right as frame f of the block: its IED, its ID or its EDC. None if it
    is right."""
    found = int.from_bytes(frame[:4], "big")
    if frame[4:6] != ied(frame[:4]):
        return f"ied {f}"
    if (found ^ identity_of(layout, block, f)) & SAME_PLACE:
        return f"address {f} found {found:08X}"
    plain = toggled(frame, layout, block, f)
    return f"edc {f}" if plain[2060:] != edc(plain[:2060]) else None


def frames_cause(rows: List[bytes], layout: Layout, block: Zone) -> Optional[str]:
    """The cause of the first frame that isn't right."""
    causes = (frame_cause(frame_in(rows, f), layout, block, f) for f in range(16))
    return next((cause for cause in causes if cause is not None), None)


def block_cause(passes: Passes, layout: Layout, block: Zone) -> Optional[str]:
    """The first cause for which a block is refused, or None where it is accepted."""
    return passes.cause or frames_cause(passes.block, layout, block)


def block_sectors(rows: List[bytes], layout: Layout, block: Zone) -> List[bytes]:
    """The Main Data of the sixteen frames."""
    return [toggled(frame_in(rows, f), layout, block, f)[12:2060] for f in range(16)]


def salvage(passes: Passes, layout: Layout, block: Zone) -> Tuple[List[bytes], int]:
    """The sectors of a refused block: each frame that is right by itself, else zeros, and how many
    are salvaged. Where two passes refuse the block, all twelve rows of the frame need answers."""
    sectors, saved = [], 0
    rows = passes.block or passes.answers
    for f in range(16):
        sector = bytes(2048)
        if None not in rows[12 * f:12 * f + 12]:
            frame = frame_in(rows, f)
            if frame_cause(frame, layout, block, f) is None:
                sector = toggled(frame, layout, block, f)[12:2060]
                saved += 1
        sectors.append(sector)
    return sectors, saved


def deep_block(received: Received) -> Optional[Tuple[List[bytes], int]]:
    """The block that one of four rounds gives back, and the number of the round."""
    rows = [bytearray(row) for row in received.rows]
    marks = [set(marks_of_row) for marks_of_row in received.marks]
    for number in range(1, 5):
        if one_round(rows, marks) and all(is_codeword(row, PI) for row in rows):
            return [bytes(row) for row in rows], number
    return None


def one_round(rows: List[bytearray], marks: List[set]) -> bool:
    """A round corrects each row that it can, then each column: first with the failed rows as
    erasures, and where that fails with the erasures that are left. What is corrected loses its
    erasures. True if every column is corrected."""
    failed = []
    for i, row in enumerate(rows):
        answer = near_codeword(row, marks[i], PI)
        if answer is None:
            failed.append(i)
        else:
            rows[i], marks[i] = bytearray(answer), set()
    whole = True
    for j in range(182):
        column = bytes(row[j] for row in rows)
        left = [i for i in range(208) if j in marks[i]]
        answer = near_codeword(column, failed, PO) or near_codeword(column, left, PO)
        if answer is None:
            whole = False
            continue
        for i in range(208):
            rows[i][j] = answer[i]
            marks[i].discard(j)
    return whole


def pi_errors(received: Received) -> int:
    """The rows with an erasure, or that are no codeword as they were captured."""
    return sum(bool(marks) or not is_codeword(row, PI) for row, marks in zip(*received))
