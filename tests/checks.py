#!/usr/bin/env python3
"""Prints the rows of the tables in crates/vectors: bits of numbers, checks of frames, and lines.

The checks are remainders of polynomials over two elements, worked out by long division, and not bit by bit as the
definitions have it. The lines are those that console.py expects of the program.
usage: python3 tests/checks.py"""
import random

from console import wire_line

POLYNOMIAL = 0xC599  # x^15 + x^14 + x^10 + x^8 + x^7 + x^4 + x^3 + 1


def remainder(row):
    """What is left of a row of bits, with fifteen noughts behind it, by the polynomial."""
    left = int('0' + row, 2) << 15
    while left.bit_length() >= 16:
        left ^= POLYNOMIAL << (left.bit_length() - 16)
    return left


def frame_row(name, data):
    return format(name, '011b') + format(len(data), '04b') + ''.join(format(byte, '08b') for byte in data)


def main():
    chance = random.Random(15)
    for number, width in [(0, 0), (0, 1), (1, 1), (5, 3), (5, 11), (2047, 11), (2048, 11), (255, 8), (256, 8), (11229, 15), (2**64 - 1, 64), (2**63, 65), (6, 70)]:
        print(f'    ({number}, "{format(number, "b").zfill(width)[-width:] if width else ""}"),')
    frames = [(0, []), (5, [1]), (2047, [255] * 8), (1007, [120, 120, 120, 120, 120, 3, 195, 194]), (1, []), (1024, [0])]
    frames += [(chance.randrange(2048), [chance.randrange(256) for _ in range(chance.randrange(9))]) for _ in range(14)]
    for name, data in frames:
        listed = ', '.join(map(str, data))
        print(f'    ({name}, &[{listed}], {remainder(frame_row(name, data))}),')
    lines = [(0, []), (99, []), (147, []), (5, [1]), (1024, [0]), (148, [122, 8]), (1410, [105, 181, 160]), (915, [215, 118, 233, 214])]
    lines += [(479, [238, 182, 143, 200, 134]), (1211, [118, 91, 181, 40, 120, 158]), (1474, [161, 230, 207, 33, 251, 9, 100])]
    lines += [(2047, [255] * 8), (0, [0] * 8), (1007, [120, 120, 120, 120, 120, 3, 195, 194])]
    for name, data in lines:
        listed = ', '.join(map(str, data))
        print(f'    ({name}, &[{listed}], "{wire_line(name, data)}"),')
    print(hex(remainder(''.join(format(byte, '08b') for byte in b'123456789'))))


main()
