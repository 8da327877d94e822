#!/usr/bin/env python3
"""Writes what the program is run on by the gate, and what it must answer: crates/wire/stdin and crates/wire/stdout.

The answers are worked out here once more, by a regular expression, Python's own numbers and a division of polynomials, and
not by the program.
usage: python3 tests/console.py        at the top of the repository"""
import random
import re

LETTER = re.compile(rb'letter ([0-9]+):((?: [0-9]+)*)')

# x^15 + x^14 + x^10 + x^8 + x^7 + x^4 + x^3 + 1
POLYNOMIAL = 0b1100010110011001


def check(digits):
    """The check of a row of digits: what is left of it, with 15 noughts behind it, by the polynomial."""
    left = int(digits + '0' * 15, 2)
    for place in range(len(digits) - 1, -1, -1):
        if left >> (place + 15) & 1:
            left ^= POLYNOMIAL << place
    return left


def wire_line(name, data):
    """The line of a letter, as digits."""
    covered = f'{name:011b}{len(data):04b}' + ''.join(f'{byte:08b}' for byte in data)
    # The low bit in front counts as any other bit.
    line = ''
    for digit in '0' + covered + f'{check(covered):015b}':
        line += digit
        if line[-5:] in ('00000', '11111'):
            line += '1' if digit == '0' else '0'
    return line + '1' * 7


class Console:
    """What the program keeps from line to line, and what it answers."""

    def __init__(self):
        self.current = None

    def answer(self, line, place):
        """What is printed in answer to the line with that place."""
        if line == b'':
            return b''
        if line == b'line' and self.current:
            return wire_line(*self.current).encode() + b'\n'
        found = LETTER.fullmatch(line)
        if not found:
            return b'refused 4 at %d\n' % place
        return self.letter(int(found[1]), [int(word) for word in found[2].split()])

    def letter(self, name, data):
        """What is answered to a letter, which is the current one from then on if it is good."""
        if name > 2047:
            return b'refused 1 at 0\n'
        if len(data) > 8:
            return b'refused 1 at %d\n' % len(data)
        for at, byte in enumerate(data):
            if byte > 255:
                return b'refused 1 at %d\n' % at
        self.current = (name, data)
        return b''


def lines():
    """The lines: good letters and their lines, each refusal, and texts that are almost commands."""
    # Before any letter, and after one that isn't good, there is no line; afterwards a refused letter leaves it as it was.
    yield from [b'line', b'letter 2048:', b'line', b'letter 5: 1', b'line', b'letter 0:', b'line', b'letter 7: 256', b'line']
    yield from [b'letter 1007: 120 120 120 120 120 3 195 194', b'line', b'line', b'line ', b' line', b'line 1007', b'lines', b'Line']
    yield from [b'lin', b'line\r', b'line\0', b'line line', b'letter 5:', b'', b'line']
    yield from [b'letter 5: 1', b'letter 0:', b'letter 2047: 255 255 255 255 255 255 255 255', b'letter 0005: 007', b'']
    yield from [b'letter 2048:', b'letter 5: 256', b'letter 5: 1 2 3 4 5 6 7 8 9', b'letter 5: 0 0 0 0 0 0 0 256 0']
    yield from [b'letter 2048: 256 0 0 0 0 0 0 0 0', b'letter 2047: 256 0 0 0 0 0 0 0 0', b'letter 0: 255 256 257']
    yield from [b'read 0101', b'begin 5 4 9', b'row 2: 5 4 9', b'rounds 0010', b'show 5 4 9', b'help', b'exit']
    yield from [b'letter', b'letter ', b'letter :', b'letter 5', b'letter 5 1', b'letter5: 1', b'letter 5:1', b'letter 5 : 1']
    yield from [b'letter  5: 1', b'letter 5:  1', b' letter 5: 1', b'letter 5: 1 ', b'letter 5: ', b'letter 5:1 2', b' ', b'  ']
    yield from [b'Letter 5: 1', b'letters 5: 1', b'letter 5;', b'letter 5::', b'letter 5: 1:', b'letter -5: 1', b'letter +5: 1']
    yield from [b'letter 5: 0x1', b'letter 5: 1,2', b'letter 5: 1.0', b'letter 5: a', b'letter five:', b'letter\t5: 1', b'letter 5:\t1']
    yield from [b'letter 5: 1\r', b'\r', b'\xff\xfe', b'letter 5: \xff', b'letter \xd9\xa5: 1', b'letter 5: \xc0\xb1', b'\0', b'letter 5:\0']
    # A number that is cut to 64 bits would look small.
    for large in (2**64 - 1, 2**64, 2**64 + 5, 2**65, 2**128 + 5, 10**39 + 5):
        yield b'letter %d: 1' % large
        yield b'letter 5: 1 %d' % large
    for digits in range(1, 41):
        yield b'letter ' + b'1' * digits + b': 1'
        yield b'letter 5: ' + b'2' * digits
        yield b'letter ' + b'0' * digits + b': ' + b'0' * digits
        yield b'letter ' + b'2047'.rjust(digits, b'0') + b': ' + b'255'.rjust(digits, b'0')
    yield b'letter 5:' + b' 7' * 10000
    chance = random.Random(15)
    # Lines of all lengths, with bytes that put long runs together.
    for turn in range(270):
        data = [chance.choice([0, 255, 15, 240, 120, 135, chance.randrange(256)]) for _ in range(turn % 9)]
        yield b'letter %d:' % chance.randrange(2048) + b''.join(b' %d' % byte for byte in data)
        yield b'line'
    # Letters of which some bytes of text were changed.
    for _ in range(300):
        text = bytearray(b'letter %d:' % chance.choice([0, 5, 2047, 2048, 99999]))
        for _ in range(chance.randrange(11)):
            text += b' %d' % chance.choice([0, 1, 17, 255, 256, 1000])
        for _ in range(chance.choice([0, 0, 1])):
            text[chance.randrange(len(text))] = chance.choice(b' :0129lx\xe9')
        yield bytes(text)


def main():
    given = list(lines())
    console = Console()
    told = b''.join(console.answer(line, place) for place, line in enumerate(given + [b'letter 3000:']))
    with open('crates/wire/stdin', 'wb') as stdin:
        stdin.write(b'\n'.join(given) + b'\nletter 3000:')
    with open('crates/wire/stdout', 'wb') as stdout:
        stdout.write(told)


if __name__ == '__main__':
    main()
