#!/usr/bin/env python3
"""Writes the cases that the program `calc` is tested on and the answers it must give: crates/calc/stdin and stdout.

The answers come from Python's own integers, by which a remainder of a positive divisor is never negative, and a reading of
document 01, Arithmetic, and document 02, Seven; nothing here calls the crates.
"""
import os
import re

SMALLEST, LARGEST = -2147483648, 2147483647

NUMBERS = [
    b'0', b'-0', b'+0', b'1', b'-1', b'2', b'-2', b'7', b'-7', b'10', b'-10', b'+99', b'46340', b'46341', b'-46341',
    b'65536', b'2147483646', b'2147483647', b'+2147483647', b'-2147483647', b'-2147483648',
    b'0' * 30 + b'7', b'-' + b'0' * 30 + b'2147483648',
]
WHEELS = [b'8', b'-8']
WRONG = [
    b'', b'+', b'-', b'--1', b'+-1', b'-+1', b'1-', b'1+2', b' 1', b'1 ', b' ', b'1a', b'a', b'/', b':', b'1:', b'/1',
    b'\x80', b'\xff1', b'1\xb1', b'\x00', b'2147483648', b'-2147483649', b'4294967297', b'99999999999', b'-99999999999',
    b'18446744073709551617', b'0' * 30 + b'2147483648', b'0x1', b'1.0', b'1e1',
]
PARTNERS = [b'7', b'0', b'']


def operand(text):
    if not re.fullmatch(rb'[+-]?[0-9]+', text):
        return None
    value = int(text)
    return value if SMALLEST <= value <= LARGEST else None


def answer(name, left, right):
    a, b = operand(left), operand(right)
    if a is None or b is None:
        return 22, ''
    if name in ('Quot', 'Rem') and b == 0:
        return 23, ''
    if name == '+':
        value = a + b
    elif name == '-':
        value = a - b
    elif name == '*':
        value = a * b
    elif name == 'Quot':
        value = (a - a % abs(b)) // b
    else:
        value = a % abs(b)
    if not SMALLEST <= value <= LARGEST:
        return 24, ''
    return 0, str(value)


def cases():
    for name in ('+', '-', '*', 'Quot', 'Rem'):
        numbers = NUMBERS + WHEELS if name in ('Quot', 'Rem') else NUMBERS
        for left in numbers:
            for right in numbers:
                yield name, left, right
        for wrong in WRONG:
            for partner in PARTNERS:
                yield name, wrong, partner
                yield name, partner, wrong


def main():
    folder = os.path.join(os.path.dirname(os.path.abspath(__file__)), '..', 'crates', 'calc')
    with open(os.path.join(folder, 'stdin'), 'wb') as given, open(os.path.join(folder, 'stdout'), 'wb') as wanted:
        for name, left, right in cases():
            given.write(name.encode() + b',' + left + b',' + right + b'\n')
            wanted.write(b'%d %s\n' % (answer(name, left, right)[0], answer(name, left, right)[1].encode()))
        for line in (b'', b'+', b'+,1', b'Mod,1,2', b'quot,1,2', b'Quot'):
            given.write(line + b'\n')
            wanted.write(b'?\n')


if __name__ == '__main__':
    main()
