#!/usr/bin/env python3
"""The reader that is written from docs/RULE.md (rule.py) against the page's worked cases, against blocks that the library mixed in
each wiring, and against the library's own reading of damaged sheets. Settings of the neighbour wiring are setter.py's.

  check_rule.py ARCHIVE BOUGHT    (the Rust package's examples, compiled)
"""
import hashlib
import os
import pathlib
import random
import re
import subprocess
import sys
import tempfile

import rule
import setter
from compare import ended, same

SIZES = [0, 1, 2, 3, 4, 5, 7, 8, 9, 16, 17, 31, 33, 64, 100, 255, 256, 257, 511, 513, 777, 1000, 1023, 1024]
DAMAGED = ['', '01', '02 00', '01 81 00', '01 81 80', '01 81 08', '01 00 00', '01 03', '01 03 86', '01 03 86 00', '01 03 0e', '01 03 06 00']


def damaged(sheet):
    try:
        rule.read_sheet(sheet)
        return False
    except rule.Damaged:
        return True


class Archive:
    """The library, through files."""

    def __init__(self, program, folder):
        self.program = program
        self.path = {name: os.path.join(folder, name) for name in ('blocks', 'mixed', 'sheet', 'digits', 'back')}

    def write(self, name, data):
        with open(self.path[name], 'wb') as f:
            f.write(data)

    def read(self, name):
        with open(self.path[name], 'rb') as f:
            return f.read()

    def run(self, word, width, *names):
        """One call, which makes new files, in the place of what is there; `once` leaves that."""
        for name in names[1 if word != 'return' else 2:]:
            if os.path.exists(self.path[name]):
                os.remove(self.path[name])
        return self.once(word, width, *names)

    def once(self, word, width, *names):
        done = subprocess.run([self.program, word, str(width), *(self.path[name] for name in names)], stderr=subprocess.PIPE)
        return done.returncode == 0


def worked_through():
    sheet = bytes.fromhex('01 09 88 2f 1d')
    same(''.join(rule.put_back(sheet, 'hfbcieadg')), 'abcdefghi', 'the worked case, returned')
    same(''.join(rule.mix(sheet, 'abcdefghi')), 'hfbcieadg', 'the worked case, mixed')
    same(''.join(str(bit) for _, bit in rule.read_sheet(sheet)[1]), '000100011110101011100', 'its bits')
    for text in DAMAGED:
        same(damaged(bytes.fromhex(text)), True, f'damaged sheet {text}')


def page():
    """The tables of the page's two worked cases, of the sheet and of the bought blocks, are what the rule makes."""
    text = (pathlib.Path(__file__).resolve().parents[2] / 'docs/RULE.md').read_text(encoding='utf-8')
    parts = text.split('## Blocks of the bought archive')
    for part, listed in zip(parts, (rule.switches(9, 0), rule.neighbour_switches(9, 0, 1))):
        bits = [int(bit) for bit in re.search(r'`([01]{21})`', part)[1]]
        numbered = [tuple(map(int, found)) for found in re.findall(r'(\d+) \((\d+),(\d+)\)', part)]
        same(numbered, [(i, a, b) for i, (a, b) in enumerate(listed)], 'the switches on the page')
        blocks = list('hfbcieadg')
        must = []
        for i, (a, b) in reversed(list(enumerate(listed))):
            if bits[i]:
                blocks = rule.exchange(blocks, [((a, b), 1)])
                must.append((str(i), str(a), str(b), ' '.join(blocks)))
        same(re.findall(r'\| (\d+) \| (\d+) and (\d+) \| ([a-i ]+) \|', part), must, 'the exchanges on the page')
        same(blocks, list('abcdefghi'), 'the blocks at home')
        same(re.search(r'from the last: ([\d, ]+)\.', part)[1], ', '.join(i for i, *_ in must), 'the bits that are 1')
    for key, data in ('month', b'abcdefghi'), ('mixed', b'hfbcieadg'), ('sheet', bytes.fromhex('01 09 88 2f 1d')):
        same(f'    {key}-sha256 {hashlib.sha256(data).hexdigest()}\n' in text, True, f'the digest of the {key} on the page')


def mixed_by_the_library(archive, rng):
    for n in SIZES:
        for width in (1, rng.randint(2, 40), 256):
            data = rng.randbytes(n * width)
            archive.write('blocks', data)
            same(archive.run('mix', width, 'blocks', 'mixed', 'sheet'), True, f'mix of {n}')
            sheet, mixed = archive.read('sheet'), archive.read('mixed')
            same(rule.read_sheet(sheet)[0], n, 'n of the sheet')
            same(b''.join(rule.put_back(sheet, rule.cut(mixed, n))), data, f'{n} blocks of {width} put back by the rule')
            same(b''.join(rule.mix(sheet, rule.cut(data, n))), mixed, f'{n} blocks of {width} mixed by the rule')
            if n > 30 and width > 1:
                same(mixed == data, False, f'{n} blocks left as they were')


def nothing_replaced(archive, sheet):
    """What exists is left as it is, and then nothing is made; what is made can be read by its owner alone."""
    archive.write('blocks', b'abcdefghi')
    for made in (('mixed', sheet), ('back',)):
        call = ('mix', 1, 'blocks', 'mixed', sheet) if len(made) == 2 else ('return', 1, 'mixed', sheet, 'back')
        same(archive.run(*call), True, f'{call[0]} into new files')
        for name in made:
            same(os.stat(archive.path[name]).st_mode & 0o777, 0o600, f'{call[0]}: the permissions of {name}')
            archive.write(name, b'kept')
            for other in set(made) - {name}:
                os.remove(archive.path[other])
            same(archive.once(*call), False, f'{call[0]} over {name}')
            same((archive.read(name), [os.path.exists(archive.path[n]) for n in set(made) - {name}]), (b'kept', [False] * (len(made) - 1)),
                 f'{call[0]} over {name}: files')
            archive.run('mix', 1, 'blocks', 'mixed', sheet)


def damaged_for_both(archive, rng):
    refused = 0
    for _ in range(300):
        n = rng.choice(SIZES[:-8])
        archive.write('blocks', rng.randbytes(n))
        archive.run('mix', 1, 'blocks', 'mixed', 'sheet')
        sheet = bytearray(archive.read('sheet'))
        at = rng.randrange(2, len(sheet) + 1) if len(sheet) > 2 and rng.random() < 0.8 else rng.randrange(len(sheet))
        kind = rng.randrange(4)
        if kind == 0:
            del sheet[at:]
        elif kind == 1:
            sheet.insert(at, rng.randrange(256))
        elif at < len(sheet):
            sheet[at] ^= 1 << rng.randrange(8)
        archive.write('sheet', sheet)
        try:
            must = b''.join(rule.put_back(sheet, rule.cut(archive.read('mixed'), n)))
        except ValueError:
            must, refused = None, refused + 1
        done = archive.run('return', 1, 'mixed', 'sheet', 'back')
        same(archive.read('back') if done else None, must, f'sheet {sheet.hex(" ")}')
    same(20 < refused < 280, True, f'{refused} of 300 sheets refused: some are, and some are not')


# ---- the bought archive: the neighbour wiring

HOUSE = {(1, 0): '1', (1, 2, 0): '110', (1, 3, 0, 2): '11001', (1, 2, 3, 4, 0): '11110000', (0, 2, 1, 3, 4): '01000101',
         (0, 3, 2, 1, 4): '00000100', (6, 2, 3, 7, 5, 1, 8, 0, 4): '001011111110001101100'}


def order_of(n, bits):
    """The order that a setting of the neighbour wiring carries: where the block at each place goes."""
    left = rule.mix_bought(bits, range(n))
    return [left.index(i) for i in range(n)]


def small_settings():
    """Of all settings of up to 6 places in the neighbour wiring, as many are house settings as there are orders."""
    for order, must in HOUSE.items():
        same(''.join(map(str, setter.setting(order, setter.Neighbour))), must, f'the house setting of {order}')
    settings = house = 0
    for n in range(7):
        count = len(rule.neighbour_switches(n, 0, 1))
        for number in range(1 << count):
            bits = [number >> i & 1 for i in range(count)]
            settings += 1
            house += setter.setting(order_of(n, bits), setter.Neighbour) == bits
    same((settings, house), (2348, 874), 'settings, and house settings among them')


def sheet_of(archive, n, bits):
    """The library's sheet, of the paper's wiring, for a setting of the neighbour wiring."""
    archive.write('digits', ''.join(map(str, bits)).encode())
    same(archive.run('sheet', n, 'digits', 'sheet'), True, f'the sheet of a bought setting of {n}')
    return archive.read('sheet')


def bought_blocks(archive, rng):
    for n in SIZES:
        width = rng.choice((1, 6, rng.randint(2, 40), 256)) if n else 1
        data = rng.randbytes(n * width)
        archive.write('blocks', data)
        same(archive.run('mix', width, 'blocks', 'mixed', 'digits'), True, f'mix of {n}')
        bits, mixed = [int(digit) for digit in archive.read('digits').decode()], archive.read('mixed')
        same(b''.join(rule.put_back_bought(bits, rule.cut(mixed, n))), data, f'{n} bought blocks of {width} put back by the rule')
        same(bits, setter.setting(order_of(n, bits), setter.Neighbour), f'the house setting of {n} in the neighbour wiring')
        for given in (bits, [rng.randrange(2) for _ in bits]):  # the house setting, and any other
            order = order_of(n, given)
            sheet = sheet_of(archive, n, given)
            same([bit for _, bit in rule.read_sheet(sheet)[1]], setter.setting(order), f'the sheet of {n} has the house setting')
            moved = rule.mix_bought(given, rule.cut(data, n))
            same(rule.put_back(sheet, moved), rule.cut(data, n), f'{n} bought blocks put back by a sheet')
            archive.write('mixed', b''.join(moved))
            same(archive.run('return', width, 'mixed', 'digits', 'back'), True, f'return of {n}')
            same(archive.read('back'), data, f'{n} bought blocks of {width} put back by the library')


def bought_refused(archive):
    archive.write('mixed', b'abc')
    for digits, must in (('110', True), ('120', False), ('11', False), ('1100', False), ('11\n', False)):
        archive.write('digits', digits.encode())
        same(archive.run('return', 1, 'mixed', 'digits', 'back'), must, f'return by the digits {digits!r}')
        same(os.path.exists(archive.path['back']), must, f'blocks returned by the digits {digits!r}')
        same(archive.read('back') if must else b'bca', b'bca', f'blocks returned by the digits {digits!r}')


def main():
    rng = random.Random(31)
    worked_through()
    page()
    small_settings()
    with tempfile.TemporaryDirectory() as folder:
        archive = Archive(sys.argv[1], folder)
        mixed_by_the_library(archive, rng)
        nothing_replaced(archive, 'sheet')
        damaged_for_both(archive, rng)
        bought = Archive(sys.argv[2], folder)
        nothing_replaced(bought, 'digits')
        bought_blocks(bought, rng)
        bought_refused(bought)
    return ended('results with the reader in Python')


sys.exit(main())
