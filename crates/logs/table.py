#!/usr/bin/env python3
"""Prints src/entries.rt, the table of L(n) for n from 1 to 4,096.

    python3 crates/logs/table.py > crates/logs/src/entries.rt

L(n) is the greatest whole number with 2^L(n) not above n^64, so one less than the number of binary
digits of n^64. The proof of `logs::log` tests every entry by that rule, whatever printed them.
"""

import textwrap

COUNT = 4096

print("// L(n) at index n - 1. Printed by table.py.")
print(f"pub const LOGARITHMS: [u16; {COUNT}] = [")
numbers = ", ".join(str((n ** 64).bit_length() - 1) for n in range(1, COUNT + 1)) + ","
for line in textwrap.wrap(numbers, width=95):
    print(f"    {line}")
print("];")
