"""Decodes a damaged row: three wrong bytes and one lost byte."""

import dvdecc

sent = dvdecc.row_parity(b"a row of 172 bytes, and ten bytes of inner parity after them".ljust(182, b"\0"))

damaged = bytearray(sent)
damaged[2] ^= 0x55
damaged[100] = ord("x")
damaged[181] ^= 1
damaged[40] = 0

decoded = dvdecc.row_decode(damaged, lost=[40])
print(decoded.word.rstrip(b"\0")[:60].decode())
print(f"{decoded.errors} errors, {decoded.erasures} erasures, {'as it was sent' if decoded.word == sent else 'another row'}")
