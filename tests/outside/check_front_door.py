#!/usr/bin/env python3
"""The script `lomuveran`, under each shell that is named: what it says, its status, and after each call exactly the files that should be
there, with their permissions. What it mixed is put back by rule.py.

  check_front_door.py ROOT SHELL..    (the project's root, with its programs built; dash, bash, 'busybox sh')
"""
import os
import pty
import subprocess
import sys
import tempfile

import door_guard
import door_labels
import door_trouble
import rule
import setter
from compare import ended, same
from door import MADE, Door, made, rng, sheet_of
from door import left_out as not_tried


# ---- the whole job

def whole_job(door):
    for n, width in (0, 6), (1, 1), (2, 3), (9, 6), (1000, 64), (1024, 1), (1024, 256):
        data = rng.randbytes(n * width)
        door.fresh(month=data)
        before = os.stat(door.path('month'))
        files = {'month': 0o644} | made('month')
        door.call(0, 'mix', str(width), 'month', files=files, err='' if n else 'month: it is empty; its sheet will be that of 0 blocks',
                  out=f'month: {n} blocks of {width} bytes, mixed, put back and compared: month.mixed, month.sheet and month.label\n')
        after = os.stat(door.path('month'))
        same((after.st_mtime_ns, after.st_ino, door.read('month')), (before.st_mtime_ns, before.st_ino, data), 'the month is untouched')
        sheet, mixed = door.read('month.sheet'), door.read('month.mixed')
        same(b''.join(rule.put_back(sheet, rule.cut(mixed, n))), data, f'{n} blocks put back by the rule')
        same(n > 30 and mixed == data, False, f'{n} blocks left as they were')
        door.call(0, 'return', str(width), 'month.mixed', 'month.sheet', 'back', files=files | {'back': MADE}, err='')
        same(door.read('back'), data, f'{n} blocks put back')
        door.call(0, 'show', 'month.sheet', files=files | {'back': MADE}, err='', out=f'places {n}\nsetting ')
    door.fresh(month=b'abcdef')
    door.call(0, 'mix', '003', 'month', files=made('month') | {'month': 0o644}, out='month: 2 blocks')
    orders = set()
    for _ in range(8):
        door.fresh(month=bytes(range(64)))
        door.run('mix', '1', 'month')
        orders.add(door.read('month.mixed'))
    same(len(orders), 8, 'eight orders are eight')


def names(door):
    # ('\udce9' is the byte e9, which is not UTF-8)
    for name in 'a month', '-month', '--', '-', '-n', 'a\nmonth', 'month\n', ' ', '*', '$(x)', 'a\\nb', "'", '"', 'é', '\udce9', 'x' * 249:
        door.fresh()
        door.write(name, b'abcdef')
        files = {name: 0o644} | made(name)
        door.call(0, 'mix', '2', name, files=files, err='')
        files['-o'] = MADE
        door.call(0, 'return', name + '.mixed', name + '.sheet', '-o', files=files, err='')
        same(door.read('-o'), b'abcdef', f'{name!r} put back')
        door.call(0, 'verify', name + '.sheet', files=files, err='')
        door.call(0, 'show', name + '.sheet', files=files, err='', out='places 3\n')
        door.call(0, 'chart', name, files=files, err='', out='25185 1 ')  # ab, low byte first
        files['-c'] = MADE
        door.call(0, 'card', name + '.sheet', '-c', files=files, err='')
        files |= {'-s': MADE, '-s.label': MADE}
        door.call(0, 'type', '-c', '-s', files=files, err='')
        for kind in 'sheet', 'label':
            same(door.read('-s' + '.label' * (kind == 'label')), door.read(f'{name}.{kind}'), f'{name!r}: the {kind} typed')
    for folder in '-d', 'a folder\n', '\udce9', '.', '..', '/':
        door.fresh()
        os.makedirs(door.path('in/-d'))
        os.makedirs(door.path('in/a folder\n'))
        os.makedirs(door.path('in/\udce9'))
        name = door.path('in/month') if folder == '/' else f'{folder}/month'
        door.write(os.path.normpath(os.path.join('in', name)), b'abcdef')
        status, _, err = door.run('mix', '2', name, cwd=door.path('in'))
        same((status, err), (0, ''), f'a month in {folder!r}')
        same(sum(f.endswith(tuple(made('month'))) for f in door.files()), 3, f'a month in {folder!r}: results')
        same(len(door.files()), 8, f'a month in {folder!r}: nothing more')
    door.fresh()
    door.write('x' * 250, b'abcdef')
    door.call(3, 'mix', '2', 'x' * 250, files={'x' * 250: 0o644}, err='x' * 250 + '.sheet: File name too long')


def by_links(door):
    for _ in range(2):
        door.fresh(month=b'abcdef')
        os.symlink(door.script, door.path('one'))
        os.symlink('one', door.path('two'))
        done = subprocess.run([*door.shell.split(), 'two', 'mix', '2', 'month'], cwd=door.at, capture_output=True)
        same((done.returncode, done.stderr), (0, b''), 'called through two links')
    done = subprocess.run(['two', 'help'], cwd='/', capture_output=True, env={'PATH': door.at + ':' + os.environ['PATH']})
    same((done.returncode, done.stderr), (0, b''), 'called by the path')


# ---- refusals

def refusals(door):
    door.fresh(month=b'x' * 301, wide=b'y' * 1025 * 2, mixed=b'z' * 18, sheet=sheet_of(9))
    os.mkdir(door.path('folder'))
    os.mkfifo(door.path('pipe'))
    at_first = door.files()

    def no(status, err, *args):
        door.call(status, *args, files=at_first, err=err, out='')

    no(1, 'month: 301 bytes are not a whole number of 6-byte blocks (question 3)', 'mix', '6', 'month')
    no(1, 'wide: it has 1025 blocks of 2 bytes, and 1024 blocks are the most (question 1)', 'mix', '2', 'wide')
    for width in '0', '257', '000', '99999', '9' * 40:
        no(1, f'width {width}: a block has 1 to 256 bytes (question 2)', 'mix', width, 'month')
        no(1, f'width {width}: a block has 1 to 256 bytes (question 2)', 'return', width, 'mixed', 'sheet', 'out')
    for width in '', 'x', '-1', '6x', ' 6', '+6', '0x10', '\u0663':
        no(2, f"WIDTH is the number of bytes in a block, and not '{width}'", 'mix', width, 'month')
    for name, why in ('none', 'there is no such file'), ('folder', 'this is a folder, not a file'), ('pipe', 'this is not a plain file'):
        for args in ('mix', '1', name), ('return', '1', name, 'sheet', 'out'), ('return', '1', 'mixed', name, 'out'), ('show', name), \
                ('settings', name), ('chart', name), ('card', name), ('type', name, 'out'):
            no(3, f'{name}: {why}', *args)
    no(3, 'none/out: no file can be made in its folder: No such file or directory', 'return', '2', 'mixed', 'sheet', 'none/out')
    no(3, 'month/out: no file can be made in its folder: Not a directory', 'return', '2', 'mixed', 'sheet', 'month/out')
    for name in 'mixed', 'sheet', 'folder', 'pipe':
        no(3, f'{name}: this exists already, and nothing is put over it', 'return', '2', 'mixed', 'sheet', name)
        no(3, f'{name}: this exists already, and nothing is put over it', 'type', 'month', name)
    no(1, 'month: it has 301 bytes, and sheet is a sheet of 9 blocks, which at width 2 are 18 bytes (question 3)',
       'return', '2', 'month', 'sheet', 'out')
    usage_lines(no)


RETURN = 'return MIXED SHEET OUT [LABEL]\nusage: lomuveran return WIDTH MIXED SHEET OUT [LABEL]'
VERIFY = 'verify [FOLDER] SHEET..'


def usage_lines(no):
    for args, line in (['mix'], 'mix WIDTH MONTH..'), (['mix', '6'], 'mix WIDTH MONTH..'), (['show'], 'show SHEET'), \
            (['show', 'a', 'b'], 'show SHEET'), (['return', 'a', 'b'], RETURN), (['return', '6', 'a', 'b', 'c', 'd', 'e'], RETURN), \
            (['verify'], VERIFY), (['verify', 'folder'], VERIFY), (['help', 'a', 'b'], 'help [COMMAND]'), \
            (['settings'], 'settings ORDER'), \
            (['orders'], 'orders LENGTH'), (['orders', '1', '2'], 'orders LENGTH'), \
            (['chart'], 'chart BLOCKS'), (['chart', 'a', 'b'], 'chart BLOCKS'), \
            (['card'], 'card SHEET [CARD]'), (['type', 'a'], 'type CARD SHEET'), (['demo', 'a'], 'demo'):
        no(2, 'usage: lomuveran ' + line, *args)
    no(2, "lomuveran: there is no command 'remix'; lomuveran help lists them", 'remix')
    no(2, "lomuveran: there is no command '--'; lomuveran help lists them", '--')


def damaged_sheets(door):
    cases = [
        (b'', 'it ends after 0 bytes, where another byte must follow (question 8)'),
        (b'\1', 'it ends after 1 bytes, where another byte must follow (question 8)'),
        (b'\2\0', 'its form number is 2 and not 1: this is no sheet (question 10)'),
        (b'\x90\x4e\0', 'its form number is 10000 and not 1: this is no sheet (question 10)'),
        (b'\1\x81\x08', 'it is a sheet of 1025 blocks, and 1024 are the most (question 1)'),
        (b'\1\x03\x86\0', 'the number that begins at byte 3 is not in its shortest form of one or two bytes (question 9)'),
        (b'\1\x03\x86\x80', 'the number that begins at byte 3 is not in its shortest form of one or two bytes (question 9)'),
        (b'\1\x03\x0e', 'the last number, at byte 3, has a 1 behind the last bit of the setting (question 11)'),
        (b'\1\0\0', 'it goes on at byte 3, where it must be at its end (question 12)'),
        (b'\1\x09\x88\x2f\x1d' + b'\0' * 3000, 'it goes on at byte 6, where it must be at its end (question 12)'),
    ]
    for sheet, why in cases:
        door.fresh(sheet=sheet, mixed=b'z' * 3)
        at_first = door.files()
        for args in ('show', 'sheet'), ('card', 'sheet'), ('return', '1', 'mixed', 'sheet', 'out'):
            door.call(1, *args, files=at_first, err='sheet: ' + why, out='')


def orders(door):
    door.fresh(order=bytes([9, 6, 2, 3, 7, 5, 1, 8, 0, 4]))
    said = door.call(0, 'settings', 'order', files={'order': 0o644}, err='')
    same(said, 'places 9\nsetting 000100011110101011100\nentries 56\n', 'settings of case g')
    for order, why in [
            (b'', 'it ends after 0 bytes, where another byte must follow (question 8)'),
            (b'\x02\0', 'it ends after 2 bytes, where another byte must follow (question 8)'),
            (b'\x81\0', 'the number that begins at byte 1 is not in its shortest form of one or two bytes (question 9)'),
            (b'\x81\x08', 'it is an order of 1025 places, and 1024 are the most (question 1)'),
            (b'\x02\0\1\1', 'it goes on at byte 4, where it must be at its end (question 12)'),
            (b'\x02\0\0', 'entry 1, counted from 0, is 0, which stands there already (question 6)'),
            (b'\x02\xac\x02\0', 'entry 0, counted from 0, is 300, which is not below 2 (question 6)')]:
        door.fresh(order=order)
        door.call(1, 'settings', 'order', files={'order': 0o644}, err='order: ' + why, out='')


def listings(door):
    door.fresh()
    for length in '0', '1', '2', '3', '4', '5', '6', '006', '00':
        same(door.call(0, 'orders', length, files={}, err=''), setter.listing(int(length)), f'orders {length}')
    for length in '7', '07', '8', '10', '16', '1024', '9' * 40:
        door.call(1, 'orders', length, files={}, err=f'length {length}: only orders of at most 6 places are listed (question 17)', out='')
    for length in '', 'x', '-1', ' 3', '3x', '+3', '0x3', '3\n', '\u0663':
        shown = length.replace('\n', '')
        door.call(2, 'orders', length, files={}, err=f"LENGTH is the number of places of an order, and not '{shown}'", out='')


def charts(door):
    blocks = b'\1\2\xf9\xff\xff\xff' + b'\7\0\0\0\0\x80' + b'\1\2\5\0\0\0'  # gauge 513 reads -7 and 5, gauge 7 the least
    must = '7 1 -2147483648 -2147483648 -2147483648 -2147483648 0\n513 2 -7 5 -2 -1 0\n'
    door.fresh(blocks=blocks)
    same(door.call(0, 'chart', 'blocks', files={'blocks': 0o644}, err=''), must, 'a chart')
    door.run('mix', '6', 'blocks')
    same(door.call(0, 'chart', 'blocks.mixed', files=door.files(), err=''), must, 'the chart of the mixed blocks')
    for size, why in (6145, 'it has 6145 bytes, and 1024 blocks of 6 bytes are the most, which are 6144 bytes (question 1)'), \
            (12000, 'it has 12000 bytes, and 1024 blocks of 6 bytes are the most, which are 6144 bytes (question 1)'), \
            (7, '7 bytes are not a whole number of 6-byte blocks (question 3)'), \
            (6143, '6143 bytes are not a whole number of 6-byte blocks (question 3)'):
        door.fresh(blocks=bytes(size))
        door.call(1, 'chart', 'blocks', files={'blocks': 0o644}, err='blocks: ' + why, out='')
    door.fresh(blocks=bytes(6144), none=b'')
    same(door.call(0, 'chart', 'blocks', files=door.files(), err=''), '0 1024 0 0 0 0 0\n', 'a chart of 1024 blocks')
    same(door.call(0, 'chart', 'none', files=door.files(), err='none: it is empty, and so is its chart'), '', 'a chart of no blocks')


# ---- several months

def several(door):
    door.fresh(a=b'abcdef', b=b'abcde', c=b'abcdefgh', d=b'ab')
    at_first = door.files()
    both = made('a', 'c')
    said = door.call(1, 'mix', '2', 'a', 'b', 'c', files=at_first | both,
                     err='b: 5 bytes are not a whole number of 2-byte blocks (question 3)\n1 of 3 months were not mixed:\n  b')
    same([line.split(':')[0] for line in said.splitlines()[:2]], ['a', 'c'], 'a line for each month')
    door.call(3, 'mix', '2', 'a', 'b', 'none', 'd', files=at_first | both | made('d'), err='\n'.join([
        'a.sheet: this exists already, and nothing is put over it', 'b: 5 bytes are not a whole number of 2-byte blocks (question 3)',
        'none: there is no such file', '3 of 4 months were not mixed:', '  a', '  b', '  none']))
    door.fresh(a=b'abcdef', b=b'abcdef')
    main, end = pty.openpty()
    status = door.run('mix', '2', 'a', 'b', stdout=end)[0]
    os.close(end)
    said = [line[:14] for line in os.read(main, 4096).decode().splitlines()[:2]]
    os.close(main)
    same((status, said), (0, ['1 of 2: a: 3 b', '2 of 2: b: 3 b']), 'the counter on a terminal')


# ---- cards

def no_check(count):
    """What is said of that many lines without a check, the first of the file."""
    lines = ', '.join(str(line + 1) for line in range(min(count, 8))) + (f' and {count - 8} more' if count > 8 else '')
    return f'card: line{"s" * (count > 1)} {lines} {"have" if count > 1 else "has"} no check: an error of typing there may go unseen'


def cards(door):
    door.fresh(sheet=bytes.fromhex('0109882f1d'))
    by_hand = '   1: 01 09 88 2F 1D                 = 247'  # 1 + 1 + 18 + 408 + 188 + 145 = 761 = 2 * 257 + 247
    same(door.run('card', 'sheet')[1].splitlines()[-1], by_hand, 'a card by hand')
    for n in 0, 1, 2, 9, 24, 100, 1000, 1024:
        sheet = sheet_of(n)
        door.fresh(sheet=sheet)
        card = door.call(0, 'card', 'sheet', files={'sheet': 0o644}, err='')
        lines = [line for line in card.splitlines() if not line.startswith('#')]
        same(f'Blocks (n): {n}. Bytes of this sheet: {len(sheet)}.' in card, True, 'the heading of a card')
        for i, line in enumerate(lines):
            part = sheet[10 * i:10 * i + 10]
            check = (i + 1 + sum((j + 1) * b for j, b in enumerate(part))) % 257
            same(line, f'{i + 1:4}: {part.hex(" ").upper()}'.ljust(35) + f'  = {check:03}', f'line {i + 1} of a card')
        bare = '\n'.join(line.split(':')[1].split('=')[0].strip() for line in lines)
        forms = [card, card.lower(), '\n'.join(lines), card.replace('\n', '\r\n'), '\n\n'.join(lines), '\n'.join(lines).replace(' ', '\t')]
        for text in forms + [card.replace(' ', '  '), bare, bare.replace('\n', ' ')]:
            door.fresh(card=text.encode())
            said = no_check(text.count('\n') + 1) if '=' not in text else ''
            door.call(0, 'type', 'card', 'sheet', files={'card': 0o644, 'sheet': MADE}, err=said,
                      out=f'sheet: the sheet of {n} blocks\n')
            same(door.read('sheet'), sheet, f'a sheet of {n} typed')


def typing_errors(door):
    door.fresh(sheet=sheet_of(300))
    card = door.call(0, 'card', 'sheet', files={'sheet': 0o644}, err='').splitlines()
    head = sum(line.startswith('#') for line in card)

    def no(lines, err, status=1):
        door.fresh(card='\n'.join(lines).encode())
        door.call(status, 'type', 'card', 'sheet', files={'card': 0o644}, err=err and 'card: ' + err, out='')

    for _ in range(25):
        k = rng.randrange(head, len(card))
        line = card[k]
        at = rng.choice([i for i in range(6, line.index('=') - 2) if line[i] != ' '])
        other = rng.choice([c for c in '0123456789ABCDEF' if c != line[at]])
        no(card[:k] + [line[:at] + other + line[at + 1:]] + card[k + 1:], None)  # one digit for another
        column = len(line) - len(line.lstrip()) + 1
        if k + 1 < len(card) and len(str(k + 2 - head)) == len(str(k + 1 - head)):  # a line left out
            no(card[:k] + card[k + 1:], f'line {k + 1}, column {column}: number {k + 2 - head} where number {k + 1 - head} must follow')
        start = at - (at - 6) % 3
        bad = line[:start] + rng.choice(['O0', '0', '000', 'G1', '1l', 'é']) + line[start + 2:]
        token = bad[start:].split()[0]
        no(card[:k] + [bad] + card[k + 1:], f'line {k + 1}, column {start + 1}: "{token}" is no byte, which is two of 0-9 and A-F')
        i, j = rng.sample(range(len(line.split()[1:-2])), 2) if len(line.split()) > 4 else (0, 0)
        words = line.split()
        words[1 + i], words[1 + j] = words[1 + j], words[1 + i]
        if words != line.split():
            no(card[:k] + [' '.join(words)] + card[k + 1:], None)  # two bytes exchanged
    for text, why in [
            ('1: 01 03 0E = 050', 'the last number, at byte 3 (line 1, byte 3), has a 1 behind the last bit of the setting (question 11)'),
            ('# x\n01 03\n86 00', 'the number that begins at byte 3 (line 3, byte 1) is not in its shortest form of one or two bytes '
             '(question 9)'),
            ('01\n00\n\n02', 'it goes on at byte 3 (line 4, byte 1), where it must be at its end (question 12)'),
            ('02 00', 'its form number is 2 and not 1: this is no sheet, at byte 1 (line 1, byte 1) (question 10)'),
            ('01\n81 08', 'it is a sheet of 1025 blocks, and 1024 are the most, at byte 2 (line 2, byte 1) (question 1)'),
            ('01 03', 'it ends after 2 bytes, where another byte must follow (question 8)'),
            ('# nothing', 'it ends after 0 bytes, where another byte must follow (question 8)'),
            ('', 'it ends after 0 bytes, where another byte must follow (question 8)'),
            ('1: 01 03 06 = 99', 'line 1, column 13: the check is 99, and the bytes of this line give 26'),
            ('01 03 06 = x', 'line 1, column 10: "=" is no byte, which is two of 0-9 and A-F')]:
        no(text.split('\n'), why)
    door.fresh(card=b'01 00')
    os.mkdir(door.path('sheet'))
    door.call(3, 'type', 'card', 'sheet', files=door.files(), err='sheet: this exists already, and nothing is put over it')


# ---- the demonstration

def demo(door):
    door.fresh()
    said = door.call(0, 'demo', files={}, env=os.environ | {'TMPDIR': door.at})
    for text in 'month.back is month, to the byte.', '$ lomuveran card month.sheet', '$ lomuveran verify month.sheet', '(status 1)':
        same(text in said, True, f'the demonstration says: {text}')
    same(said.count('\n12 4 -261 96 -345 -87 3\n'), 2, 'the demonstration has the chart at home and mixed')
    help_ = door.call(0, 'help', files={}, err='')
    same(door.run()[::2], (2, help_), 'without an argument')


def main():
    root, shells = sys.argv[1], sys.argv[2:]
    tried = [whole_job, names, by_links, refusals, damaged_sheets, orders, listings, charts, several, cards, typing_errors, demo,
             *door_labels.TRIED, *door_guard.TRIED, *door_trouble.TRIED]
    for shell in shells:
        with tempfile.TemporaryDirectory() as scratch:
            os.chmod(scratch, 0o755)
            door = Door(root, scratch, shell)
            for case in tried + door_guard.WITH_STAND_INS * (not door.own_tools):
                case(door)
    left_out = ''.join(f'; not tried here: {what}' for what in dict.fromkeys(not_tried))
    return ended(f'results of the script under {" and ".join(shells)}', left_out)


sys.exit(main())
