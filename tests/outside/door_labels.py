"""The labels of the script `lomuveran`: no month is mistaken for another. Digests are computed by Python."""
import hashlib
import os

from compare import same
from door import MADE, made, rng, sheet_of


def digest(data):
    return hashlib.sha256(data).hexdigest()


def label_text(month, n, width, data, mixed, sheet):
    return (f'month {month}\nblocks {n}\nwidth {width}\nmonth-sha256 {digest(data)}\nmixed-sha256 {digest(mixed)}\n'
            f'sheet-sha256 {digest(sheet)}\n').encode()


def two_months(door, n=24, width=4):
    """Two months of as many blocks, mixed."""
    data = {month: rng.randbytes(n * width) for month in ('june', 'july')}
    door.fresh(**data)
    door.run('mix', str(width), 'june', 'july')
    same(door.files(), dict.fromkeys(data, 0o644) | made(*data), 'two months mixed')
    return data, door.files()


def of(month, label):
    return f"of the month '{month}', for which {label} was made"


def not_mixed(name, month, label):
    return f"{name}: these are not the mixed blocks {of(month, label)}: they were changed, or they are another month's"


def not_sheet(name, month, label):
    return f"{name}: this is not the sheet {of(month, label)}: it was changed, or it is another month's"


def labels(door):
    """A label is what it should be; a month is put back by it alone, and by no other."""
    for n, width in (0, 6), (1, 1), (9, 6), (1024, 256):
        data = rng.randbytes(n * width)
        door.fresh(month=data)
        door.run('mix', str(width), 'month')
        mixed, sheet = door.read('month.mixed'), door.read('month.sheet')
        same(door.read('month.label'), label_text('month', n, width, data, mixed, sheet), f'the label of {n} blocks of {width}')
        files = door.files() | {'back': MADE}
        for args in ('month.mixed', 'month.sheet', 'back'), (str(width), 'month.mixed', 'month.sheet', 'back'), \
                ('month.mixed', 'month.sheet', 'back', 'month.label'), (str(width), 'month.mixed', 'month.sheet', 'back', 'month.label'):
            said = f"back: {n} blocks of {width} bytes put back, and by month.label they are the month 'month', to the byte\n"
            same(door.call(0, 'return', *args, files=files, err=''), said, f'return {args}')
            same(door.read('back'), data, f'{n} blocks put back by {args}')
            os.remove(door.path('back'))


def another_months(door):
    data, files = two_months(door)
    for args in ('june.mixed', 'july.sheet', 'out'), ('4', 'june.mixed', 'july.sheet', 'out'):
        door.call(1, 'return', *args, files=files, err=not_mixed('june.mixed', 'july', 'july.label'), out='')
    door.call(1, 'return', 'june.mixed', 'june.sheet', 'out', 'july.label', files=files, out='',
              err=not_sheet('june.sheet', 'july', 'july.label') + '\n' + not_mixed('june.mixed', 'july', 'july.label'))
    door.call(1, 'return', 'july.mixed', 'june.sheet', 'out', 'july.label', files=files, out='',
              err=not_sheet('june.sheet', 'july', 'july.label'))
    door.call(1, 'return', '8', 'june.mixed', 'june.sheet', 'out', files=files, out='',
              err="width 8: the blocks of the month 'june' have 4 bytes, by june.label")
    door.call(0, 'return', 'june.mixed', 'june.sheet', 'out', files=files | {'out': MADE}, err='')
    same(door.read('out'), data['june'], 'june put back')


def flipped(door):
    """One bit of the sheet, of the mixed blocks or of a digest of the label is another one: nothing is put back."""
    data, files = two_months(door, 9, 2)
    whole = {kind: door.read(f'june.{kind}') for kind in ('sheet', 'mixed', 'label')}
    for kind, times in ('sheet', 8 * len(whole['sheet'])), ('mixed', 40):
        for bit in range(times) if kind == 'sheet' else rng.sample(range(8 * len(whole[kind])), times):
            damaged = bytearray(whole[kind])
            damaged[bit // 8] ^= 1 << bit % 8
            door.write(f'june.{kind}', damaged, MADE)
            words = (not_sheet if kind == 'sheet' else not_mixed)(f'june.{kind}', 'june', 'june.label')
            door.call(1, 'return', 'june.mixed', 'june.sheet', 'out', files=files, err=words, out='')
        door.write(f'june.{kind}', whole[kind], MADE)
    lines = whole['label'].decode().splitlines()
    for at in 3, 4, 5:
        other = lines[at][:-1] + ('0' if lines[at][-1] != '0' else '1')
        door.write('june.label', '\n'.join(lines[:at] + [other] + lines[at + 1:]).encode(), MADE)
        words = ["out: put back, the blocks are not the month 'june', for which june.label was made",
                 not_mixed('june.mixed', 'june', 'june.label'), not_sheet('june.sheet', 'june', 'june.label')][at - 3]
        door.call(1, 'return', 'june.mixed', 'june.sheet', 'out', files=files, err=words, out='')
        door.call(1, 'verify', 'june.sheet', files=files, out='')


def bad_labels(door):
    data, files = two_months(door, 9, 2)
    lines = door.read('june.label').decode().splitlines()
    digit = "must stand 64 of 0-9 and a-f"
    for text, why in [
            ('', 'it has no line month: this is no whole label'),
            ('\n'.join(lines[:2] + lines[3:]), 'it has no line width: this is no whole label'),
            ('\n'.join(lines + lines[1:2]), 'line 7: there are two lines blocks'),
            ('\n'.join(lines + ['colour red']),
             'line 7: this is no line of a label, which has month, blocks, width and three digests (SHA-256)'),
            ('\n'.join(lines[:1] + ['blocks 1025'] + lines[2:]), 'line 2: behind blocks must stand a number from 0 to 1024'),
            ('\n'.join(lines[:2] + ['width 0'] + lines[3:]), 'line 3: behind width must stand a number from 1 to 256'),
            ('\n'.join(lines[:2] + ['width 99999999999999999999'] + lines[3:]), 'line 3: behind width must stand a number from 1 to 256'),
            ('\n'.join(lines[:3] + [lines[3][:-1]] + lines[4:]), f'line 4: behind month-sha256 {digit}'),
            ('\n'.join(lines[:3] + [lines[3][:-1] + 'g'] + lines[4:]), f'line 4: behind month-sha256 {digit}')]:
        door.write('june.label', text.encode(), MADE)
        for args in ('return', 'june.mixed', 'june.sheet', 'out'), ('card', 'june.sheet'), ('verify', 'june.sheet'):
            door.call(1, *args, files=files, err='june.label: ' + why, out='')
    for text in '\r\n'.join(lines), '# kept with the sheet\n\n' + '\n'.join(lines), '\n'.join(lines[::-1]), '\n'.join(lines[:3]) + '\n' + \
            '\n'.join(line.upper() for line in lines[3:]):
        door.write('june.label', text.encode(), MADE)
        door.call(0, 'verify', 'june.label', files=files, err='')
    door.write('june.label', door.read('june.sheet'), MADE)
    door.call(1, 'return', 'june.mixed', 'june.sheet', 'out', files=files, out='')


def no_label(door):
    data, files = two_months(door)
    os.remove(door.path('june.label'))
    del files['june.label']
    door.call(3, 'return', 'june.mixed', 'june.sheet', 'out', files=files, out='', err='june.label: there is no such file, so the width is '
              'not known. Without a label: lomuveran return WIDTH MIXED SHEET OUT')
    door.call(3, 'return', 'june.mixed', 'june.sheet', 'out', 'none', files=files, err='none: there is no such file', out='')
    door.call(3, 'verify', 'june.sheet', files=files, err='june.label: there is no such file', out='')
    said = door.call(0, 'return', '4', 'june.mixed', 'june.sheet', 'out', files=files | {'out': MADE}, err='')
    same(said, "out: 24 blocks of 4 bytes put back; there is no june.label, so nothing could be checked: they may be another month's, or "
         'out of order\n', 'put back without a label')
    same(door.read('out'), data['june'], 'june put back without a label')
    for word in '6x', '-1', ' 4':  # no width, and no file of that name
        door.call(2, 'return', word, 'june.mixed', 'june.sheet', 'more', files=door.files(), out='',
                  err=f"WIDTH is the number of bytes in a block, and not '{word}'")


def verified(door):
    data, files = two_months(door)
    line = "{0}.mixed, {0}.sheet and {0}.label belong together: 24 blocks of 4 bytes, the month '{0}'\n"
    for args in ('june.sheet', 'july.sheet'), ('june.label', 'july.label'), ('june', 'july.mixed'):
        same(door.call(0, 'verify', *args, files=files, err=''), line.format('june') + line.format('july'), f'verify {args}')
    damaged = bytearray(door.read('june.mixed'))
    damaged[5] ^= 4
    door.write('june.mixed', damaged, MADE)
    said = door.call(1, 'verify', 'june.sheet', 'july.sheet', files=files, err=not_mixed('june.mixed', 'june', 'june.label') +
                     '\n1 of 2 months are not as they were mixed:\n  june.sheet')
    same(said, line.format('july'), 'verify goes on')
    os.mkdir(door.path('apart'))
    for month in data:
        os.rename(door.path(month + '.mixed'), door.path(f'apart/{month}.mixed'))
    files = door.files()
    said = door.call(0, 'verify', 'apart', 'july.sheet', files=files, err='')
    same(said, line.format('july').replace('july.mixed', 'apart/july.mixed'), 'mixed blocks in another folder')
    door.call(3, 'verify', 'july.sheet', files=files, err='july.mixed: there is no such file', out='')
    with open('/dev/full', 'wb') as full:
        door.call(3, 'verify', 'apart', 'july.sheet', files=files, stdout=full)


def labels_on_cards(door):
    """A card has its label; typed in, both are made again, or what was mistyped is told."""
    data, files = two_months(door)
    card = door.call(0, 'card', 'june.sheet', files=files, err='')
    same('# month june ' in card and 'bytes in a block 4\n' in card, True, 'what is known is filled in')
    lines = card.splitlines()
    listed = [line.split() for line in lines if '-sha256' in line]
    for key, data_of in ('month', data['june']), ('mixed', door.read('june.mixed')), ('sheet', door.read('june.sheet')):
        halves = [line for line in listed if line[0] == key + '-sha256']
        same(''.join(byte for half in halves for byte in half[1:17]).lower(), digest(data_of), f'{key}-sha256 on the card')
        for number, half in enumerate(halves):
            check = (number + 1 + sum((i + 1) * int(byte, 16) for i, byte in enumerate(half[1:17]))) % 257
            same(half[17:], ['=', f'{check:03}'], f'the check of {key}-sha256')
    for text in card, card.lower(), card.replace('\n', '\r\n'), '\n'.join(line for line in lines if line[:1] != '#'):
        door.write('card', text.encode())
        door.call(0, 'type', 'card', 'new.sheet', files=files | {'card': 0o644, 'new.sheet': MADE, 'new.label': MADE}, err='',
                  out='new.sheet and new.label: the sheet of 24 blocks, and its label\n')
        same((door.read('new.sheet'), door.read('new.label')), (door.read('june.sheet'), door.read('june.label')), 'sheet and label typed')
        os.remove(door.path('new.sheet'))
        os.remove(door.path('new.label'))
    first = next(i for i, line in enumerate(lines) if line.startswith('month-sha256'))
    sheet = next(i for i, line in enumerate(lines) if line.startswith('   1:'))
    other = '1' if lines[first][13] != '1' else '2'
    mistyped = "the typed sheet is not that of the card's label (blocks, sheet-sha256): one of them was mistyped"
    for at, line, why in [
            (first, lines[first][:13] + other + lines[first][14:], None),
            (first, lines[first].replace('= ', '= 9'), None),
            (first, lines[first].replace(' ', ' X', 1), None),
            (first, '', None),
            (first + 1, '', 'line 4: behind month-sha256 must stand 64 of 0-9 and a-f'),
            (sheet - 2, '', None),
            (first - 2, 'blocks 23', mistyped),
            (first - 2, '', 'it has no line blocks: this is no whole label')]:
        door.write('card', '\n'.join(lines[:at] + [line] + lines[at + 1:]).encode())
        door.call(1, 'type', 'card', 'new.sheet', files=files | {'card': 0o644}, out='', err=why and 'card: ' + why)
    door.write('june.label', door.read('july.label'), MADE)
    door.call(1, 'card', 'june.sheet', files=files | {'card': 0o644}, out='',
              err="june.sheet: this is not the sheet of the month 'july', for which june.label was made")
    door.fresh(card=card.encode(), label=b'kept')
    os.rename(door.path('label'), door.path('new.label'))
    door.call(3, 'type', 'card', 'new.sheet', files=door.files(), err='new.label: this exists already, and nothing is put over it')


def cards_as_files(door):
    door.fresh(sheet=sheet_of(100))
    card = door.call(0, 'card', 'sheet', files={'sheet': 0o644}, err='')
    door.call(0, 'card', 'sheet', 'card', files={'sheet': 0o644, 'card': MADE}, err='',
              out='card: the card of sheet, a sheet of 100 blocks, to be printed\n', umask=0)
    same(door.read('card').decode(), card, 'the card in a file')
    door.call(3, 'card', 'sheet', 'card', files=door.files(), err='card: this exists already, and nothing is put over it', out='')


def typed_lines(door):
    """What a typist may do, and a check does not show."""
    sheet = sheet_of(300)
    door.fresh(sheet=sheet)
    card = [line for line in door.call(0, 'card', 'sheet', files={'sheet': 0o644}, err='').splitlines() if line[:1] != '#']

    def no(lines, why, first=b''):
        door.fresh(card=first + '\n'.join(lines).encode())
        door.call(1, 'type', 'card', 'new', files={'card': 0o644}, err='card: ' + why, out='')

    fifth = card[4].split('=')[0].rstrip()
    surplus = fifth + ' 00' + card[4][len(fifth):]
    no(card[:4] + [surplus] + card[5:], f'line 5, column {len(fifth) + 2}: a byte too many: such a line has no more than 10')
    bytes_ = bytes(10 * [1]) + bytes(10)
    short = [f'1: {bytes_[:10].hex(" ")} = {(1 + 55) % 257}', '2: 00 00 00 00 00 00 00 00 00 = 2', '3: 00 = 3']
    no(short, 'line 2, column 1: it has 9 bytes, and each line but the last has ten')
    no(card, 'line 1, column 1: a byte order mark, which some editors put first: save this as plain text, without one', b'\xef\xbb\xbf')
    no(card[:2] + [card[2].replace(': ', ':\u00a0')] + card[3:], 'line 3, column 6: a no-break space: type a plain one')
    no(card[:2] + [card[2].replace(':', '.')] + card[3:], 'line 3, column 4: behind the number of a line stands a colon, as in "3:"')
    door.fresh(card='\n'.join(card[:2] + [card[2].split('=')[0]] + card[3:]).encode())
    door.call(0, 'type', 'card', 'new', files={'card': 0o644, 'new': MADE},
              err='card: line 3 has no check: an error of typing there may go unseen')
    same(door.read('new'), sheet, 'a line without its check')


TRIED = [labels, another_months, flipped, bad_labels, no_label, verified, labels_on_cards, cards_as_files, typed_lines]
