"""Measures how many rows a minute the module decodes: many at once, and one by one. Nothing is tried."""

import random
import time

import dvdecc

COUNT = 200_000


def rate(what: str, count: int, seconds: float) -> None:
    print(f"{what}: {60e-6 * count / seconds:.1f} million rows a minute")


def main() -> None:
    drawn = random.Random(1)
    sent = bytearray(drawn.randbytes(182) * COUNT)
    dvdecc.rows_parity(sent)
    for errors in 0, 1, 5:
        rows = bytearray(sent)
        for first in range(0, len(rows), 182):
            for place in drawn.sample(range(182), errors):
                rows[first + place] ^= 0x55
        start = time.perf_counter()
        answers = dvdecc.rows_decode(rows)
        rate(f"many rows, {errors} wrong bytes", COUNT, time.perf_counter() - start)
        assert rows == sent and sum(answers.errors) == errors * COUNT
    row = bytes(sent[:182])
    start = time.perf_counter()
    for _ in range(20_000):
        dvdecc.row_decode(row)
    rate("single rows, 0 wrong bytes", 20_000, time.perf_counter() - start)


if __name__ == "__main__":
    main()
