"""CD-ROM sectors of Mode 1 by ECMA-130, 2nd edition, for reading and for running.

Written from the standard's clauses and this project's texts on its formats, by
somebody who had not read the program (README.md). Sectors are 2,352 bytes from their sync on,
unscrambled, as image files keep them. The field is that of ecma267.py; both codes have two parity
bytes.
"""

from typing import List, Optional

from decoding import near_codeword
from ecma267 import bit_remainder, is_codeword, parity_bytes

SYNC = b"\x00" + b"\xFF" * 10 + b"\x00"  # clause 14.1
MODE = 1


def header(address: int) -> bytes:
    """Clause 14.2: minute, second and frame, two decimal digits each, and the mode."""
    numbers = address // 4500, address // 75 % 60, address % 75
    return bytes(number // 10 << 4 | number % 10 for number in numbers) + bytes([MODE])


def reflected(data: bytes) -> bytes:
    """The bits of each byte in the opposite order."""
    return bytes(int(f"{byte:08b}"[::-1], 2) for byte in data)


def bit_product(p: int, q: int) -> int:
    """The product of two polynomials over bits."""
    total = 0
    for k in range(q.bit_length()):
        if q >> k & 1:
            total ^= p << k
    return total


EDC_POLYNOMIAL = bit_product(  # clause 14.3
    1 << 16 | 1 << 15 | 1 << 2 | 1,
    1 << 16 | 1 << 2 | 1 << 1 | 1)


def edc(covered: bytes) -> bytes:
    """Clause 14.3: the remainder of the covered bytes times x^32, of bytes 0 to 2063. The least
    significant bit of each byte is first, in the result too."""
    rest = bit_remainder(int.from_bytes(reflected(covered), "big") << 32, EDC_POLYNOMIAL)
    return reflected(rest.to_bytes(4, "big"))


# Annex A: bytes 12 to 2351 are 1,170 pairs. The first bytes of the pairs and the second bytes are
# coded apart. The last two pairs of a word are its parity.


def p_word(n: int) -> List[int]:
    """Annex A: the pairs of P word n, one of 43: a column of 26 rows of 43 pairs."""
    return [43 * m + n for m in range(26)]


def q_word(n: int) -> List[int]:
    """Annex A: the pairs of Q word n, one of 26: a diagonal of these rows, and two pairs more."""
    return [(44 * m + 43 * n) % 1118 for m in range(43)] + [1118 + n, 1144 + n]


def places(pairs: List[int], second: int) -> List[int]:
    """Annex A: where a sector has the bytes of a word, the first or the second of each pair."""
    return [12 + 2 * pair + second for pair in pairs]


P_WORDS = [places(p_word(n), second) for n in range(43) for second in range(2)]
Q_WORDS = [places(q_word(n), second) for n in range(26) for second in range(2)]


def make_sector(address: int, user_data: bytes) -> bytes:
    """Clause 14: sync, header, user data, EDC, eight zeros, P parity and Q parity."""
    covered = SYNC + header(address) + user_data
    sector = bytearray(covered + edc(covered) + bytes(8) + bytes(172 + 104))
    for word in P_WORDS + Q_WORDS:
        parity = parity_bytes([sector[place] for place in word[:-2]], 2)
        sector[word[-2]], sector[word[-1]] = parity
    return bytes(sector)


def repaired(sector: bytes) -> bytes:
    """Own: each P word is corrected, then each Q word, with its bytes in P words that have no
    codeword near them as erasures. The sync is put in."""
    result = bytearray(sector)
    lost = set()
    for word in P_WORDS:
        if not corrected(result, word, []):
            lost |= set(word)
    for word in Q_WORDS:
        corrected(result, word, [k for k, place in enumerate(word) if place in lost])
    result[:12] = SYNC
    return bytes(result)


def corrected(sector: bytearray, word: List[int], erasures: List[int]) -> bool:
    """Puts the codeword near a word in its place, and says whether there is one."""
    answer = near_codeword([sector[place] for place in word], erasures, 2)
    for place, byte in zip(word, answer or []):
        sector[place] = byte
    return answer is not None


def sector_cause(sector: bytes, address: int) -> Optional[str]:
    """Own: the first cause for which a repaired sector is wrong, or None."""
    for w, word in enumerate(P_WORDS + Q_WORDS):
        if not is_codeword([sector[place] for place in word], 2):
            return f"parity {w}"
    if sector[15] != MODE:
        return f"mode {sector[15]}"
    if sector[12:15] != header(address)[:3]:
        return f"address found {sector[12:15].hex().upper()}"
    return "edc" if sector[2064:2068] != edc(sector[:2064]) else None
