#!/usr/bin/env python3
"""Puts mixed blocks back from their sheet, by docs/RULE.md and nothing else. The sections below are that page's.

  rule.py SHEET MIXED > BLOCKS
"""
import sys


class Damaged(ValueError):
    """A sign of a damaged sheet."""


# 1. Read the numbers of the sheet

def read_number(sheet, at):
    """The number at a place of the sheet, and the place after it."""
    if at >= len(sheet):
        raise Damaged('the sheet ends inside a number')
    first = sheet[at]
    if first < 128:
        return first, at + 1
    if at + 1 >= len(sheet):
        raise Damaged('the sheet ends inside a number')
    second = sheet[at + 1]
    if not 1 <= second <= 127:
        raise Damaged('a second byte is 0 or over 127')
    return (first - 128) + 128 * second, at + 2


# 2. Write out the bits

def fourteen_bits(number):
    bits = []
    for _ in range(14):
        bits.append(number % 2)
        number //= 2
    return bits


# 3. List the switches

def switches(m, o):
    if m < 2:
        return []
    k = (m + 1) // 2
    first = [(o + i, o + k + i) for i in range(k - 1)]
    last = [(o + i, o + k + i) for i in range(m - k)]
    return first + switches(k, o) + switches(m - k, o + k) + last


def read_sheet(sheet):
    """n, and each switch with its bit, in their sequence."""
    form, at = read_number(sheet, 0)
    if form != 1:
        raise Damaged('the form number is not 1')
    n, at = read_number(sheet, at)
    if n > 1024:
        raise Damaged('n is over 1,024')
    listed = switches(n, 0)
    row = []
    while len(row) < len(listed):
        number, at = read_number(sheet, at)
        row += fourteen_bits(number)
    if at != len(sheet):
        raise Damaged('the sheet goes on after the last fourteen')
    if any(row[len(listed):]):
        raise Damaged('a bit behind the setting is 1')
    return n, list(zip(listed, row))


# 4. Go through the list backwards

def exchange(blocks, steps):
    blocks = list(blocks)
    for (a, b), bit in steps:
        if bit == 1:
            blocks[a], blocks[b] = blocks[b], blocks[a]
    return blocks


def put_back(sheet, mixed):
    """The blocks, a list, as they were before they were mixed."""
    n, steps = read_sheet(sheet)
    if len(mixed) != n:
        raise ValueError(f'{len(mixed)} blocks, and the sheet is of {n}')
    return exchange(mixed, reversed(steps))


def mix(sheet, blocks):
    """The same list forwards."""
    return exchange(blocks, read_sheet(sheet)[1])


# Blocks of the bought archive

def neighbour_switches(m, o, d):
    if m < 2:
        return []
    k = (m + 1) // 2
    pairs = [(o + 2 * i * d, o + 2 * i * d + d) for i in range(k)]
    return pairs[:k - 1] + neighbour_switches(k, o, 2 * d) + neighbour_switches(m - k, o + d, 2 * d) + pairs[:m - k]


def bought_steps(n, bits):
    """Each switch of the neighbour wiring with its bit, in their sequence."""
    listed = neighbour_switches(n, 0, 1)
    if len(bits) != len(listed):
        raise ValueError(f'{len(bits)} bits, and {n} places have {len(listed)} switches')
    return list(zip(listed, bits))


def put_back_bought(bits, mixed):
    return exchange(mixed, reversed(bought_steps(len(mixed), bits)))


def mix_bought(bits, blocks):
    return exchange(blocks, bought_steps(len(blocks), bits))


def cut(data, n):
    """n blocks of one width."""
    if n == 0 and data or n and len(data) % n:
        raise ValueError(f'{len(data)} bytes are not {n} blocks')
    width = len(data) // n if n else 0
    return [data[i * width:(i + 1) * width] for i in range(n)]


def main():
    if len(sys.argv) != 3:
        sys.exit(__doc__)
    with open(sys.argv[1], 'rb') as sheet, open(sys.argv[2], 'rb') as mixed:
        sheet, data = sheet.read(), mixed.read()
    sys.stdout.buffer.write(b''.join(put_back(sheet, cut(data, read_sheet(sheet)[0]))))


if __name__ == '__main__':
    main()
