#!/usr/bin/env python3
"""Writes bindings/c/tests/vectors.h: what other means than the codec give for fixed bytes.

usage: bindings/c/tests/vectors.py >bindings/c/tests/vectors.h

Nothing here is taken from the codec: products are made bit by bit, parity by solving no equation but by dividing by the
product of (x + alpha^k), EDCs by dividing bit by bit, scrambling by the circuit of ECMA-267, 17.
"""


def times(a, b):
    product = 0
    while b:
        product ^= a * (b & 1)
        a, b = (a << 1) ^ (0x11D if a & 0x80 else 0), b >> 1
    return product


def generator(r):
    poly, root = [1], 1
    for _ in range(r):
        poly = [a ^ times(root, b) for a, b in zip(poly + [0], [0] + poly)]
        root = times(root, 2)
    return poly


def parity(message, r):
    divisor, rest = generator(r), list(message) + [0] * r
    for k in range(len(message)):
        factor = rest[k]
        for i, coefficient in enumerate(divisor):
            rest[k + i] ^= times(factor, coefficient)
    return rest[-r:]


def counted(n, step, start):
    """The bytes that the tests begin with."""
    return [(step * k + start + k // 256) % 256 for k in range(n)]


def edc(data):
    register = 0
    for byte in data:
        register ^= byte << 24
        for _ in range(8):
            register = (register << 1) ^ (0x180000011 if register & 0x80000000 else 0)
    return list(register.to_bytes(4, "big"))


def cd_edc(data):
    register = 0
    for byte in data:
        register ^= byte
        for _ in range(8):
            register = (register >> 1) ^ (0xD8018001 if register & 1 else 0)
    return list(register.to_bytes(4, "little"))


def scrambling(preset, n):
    register, out = preset, []
    for _ in range(n):
        out.append(register & 0xFF)
        for _ in range(8):
            register = (register << 1 | (register >> 14 ^ register >> 10) & 1) & 0x7FFF
    return out


def digest(data):
    """A number of 64 bits for many bytes, which the tests compute in C: FNV-1a."""
    number = 0xCBF29CE484222325
    for byte in data:
        number = (number ^ byte) * 0x100000001B3 % 2**64
    return number


def frame(word, cpr, main):
    ident = list(word.to_bytes(4, "big"))
    head = ident + parity(ident, 2) + cpr
    presets = [1, 0x5500, 2, 0x2A00, 4, 0x5400, 8, 0x2800, 16, 0x5000, 32, 0x2001, 64, 0x4002, 128, 5]
    mask = scrambling(presets[word >> 4 & 15], 2048)
    return head + [a ^ b for a, b in zip(main, mask)] + edc(head + main)


def block():
    rows = [counted(172, 7, 11 * i) for i in range(192)]
    rows = [row + parity(row, 10) for row in rows]
    ends = [parity([row[j] for row in rows], 16) for j in range(182)]
    return rows + [[end[t] for end in ends] for t in range(16)]


def cd_sector(address, user):
    bcd = lambda number: number // 10 * 16 + number % 10
    out = [0] + [255] * 10 + [0, bcd(address // 4500), bcd(address // 75 % 60), bcd(address % 75), 1] + user
    out += cd_edc(out) + [0] * 8
    body = out[12:] + [0] * 276
    for k in range(43):
        for half in (0, 1):
            places = [2 * (k + 43 * m) + half for m in range(24)]
            ends = parity([body[p] for p in places], 2)
            body[2 * (k + 43 * 24) + half], body[2 * (k + 43 * 25) + half] = ends
    for k in range(26):
        for half in (0, 1):
            places = [2 * ((44 * m + 43 * k) % 1118) + half for m in range(43)]
            ends = parity([body[p] for p in places], 2)
            body[2 * (1118 + k) + half], body[2 * (1144 + k) + half] = ends
    return out[:12] + body


def listed(name, data):
    print(f"static const uint8_t {name}[] = {{{', '.join(map(str, data))}}};")


def main():
    print("/* Written by bindings/c/tests/vectors.py: what other means than the codec give for fixed bytes. */")
    listed("row_parity", parity(counted(172, 5, 3), 10))
    listed("column_parity", parity(counted(192, 9, 1), 16))
    listed("edc_of_counted", edc(counted(2060, 3, 8)))
    listed("cd_edc_of_counted", cd_edc(counted(2064, 3, 8)))
    listed("ied_of_030010", parity([0, 3, 0, 0x10], 2))
    main_data = counted(2048, 13, 6)
    print(f"static const uint64_t frame_digest = {digest(frame(0x030010, [1, 2, 3, 4, 5, 6], main_data))}u;")
    print(f"static const uint64_t block_digest = {digest(sum(block(), []))}u;")
    print(f"static const uint64_t cd_digest = {digest(cd_sector(123456, counted(2048, 7, 0)))}u;")


if __name__ == "__main__":
    main()
