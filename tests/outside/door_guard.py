"""What the script `lomuveran` guards against: names that are empty, others in the folder, bytes that are not random, disks without links,
runs that were cut off, files that are something else."""
import os
import re
import shutil
import signal
import subprocess
import time

from compare import same
from door import MADE, left_out, made, rng, sheet_of

NOBODY = {'user': 65534, 'group': 65534, 'extra_groups': []}


def empty_names(door):
    """An empty name is wrong usage, for every file of every command."""
    door.fresh(month=b'abcdef', sheet=sheet_of(3), card=b'01 00', order=b'\2\1\0')
    at_first = door.files()
    for args in ('mix', '2', ''), ('mix', '2', 'month', ''), ('return', '2', '', 'sheet', 'out'), ('return', '2', 'month', '', 'out'), \
            ('return', '2', 'month', 'sheet', ''), ('return', 'month', 'sheet', ''), ('return', '2', 'month', 'sheet', 'out', ''), \
            ('verify', ''), ('verify', 'sheet', ''), ('show', ''), ('settings', ''), ('chart', ''), ('card', ''), ('card', 'sheet', ''), \
            ('type', 'card', ''), ('type', '', 'out'):
        status, out, err = door.run(*args)
        same((status, out, door.files()), (2, '', at_first), f'an empty name: {args}')
        same(err.startswith(f'lomuveran {args[0]}: the name of a file is empty\nusage: lomuveran {args[0]} '), True, f'{args}: {err}')


def lying_tools(door):
    """A result is told of only where its name leads to the very file that was made."""
    for text in 'exit 0\n', 'shift; cp "$@"\n', 'shift; : >"$2"\n':
        with door.stand_in(link=text) as env:
            door.fresh(month=b'abcdef')
            status, out, err = door.run('mix', '2', 'month', env=env)
            same((status, out), (3, ''), f'a link that lies ({text}): {err}')
            same('did not get its name, so nothing was made' in err, True, f'a link that lies ({text}): {err}')
            kept = {'month.sheet': MADE, 'month.label': MADE, 'month.mixed': MADE} if 'exit' not in text else {}
            same(set(door.files()) <= {'month'} | set(kept), True, f'a link that lies ({text}): files')


def folder_left(door):
    """Where the work folder cannot be removed that is told: it has a link to the sheet."""
    with door.stand_in(rm='exit 1\n') as env:
        door.fresh(month=b'abcdef')
        status, out, err = door.run('mix', '2', 'month', env=env)
    left = [name for name in door.files() if re.fullmatch(r'\.lomuveran-\w{6}/', name)]
    same((status, len(left), set(made('month')) <= set(door.files())), (3, 1, True), 'rm that fails')
    same(err, f'./{left[0][:-1]}: this folder could not be removed, and the sheet is in it: remove it\n', 'rm that fails: words')


# ---- others in the folder

def unmixed(door):
    for name in set(made('month')) & set(door.files()):
        os.remove(door.path(name))


def others(door):
    """A folder in which somebody else could exchange what is made is refused."""
    if os.getuid() != 0:
        left_out.append('folders that others may write')
        return
    door.fresh(month=b'abcdef')
    os.chmod(door.path('month'), 0o666)
    may_write = ': others may write this folder (it has no sticky bit), and could exchange what is made in it: use one of your own'
    owned = ': another user owns this folder, and could exchange what is made in it: use one of your own'
    for mode, owner, why in (0o777, 0, may_write), (0o757, 65534, may_write), (0o775, 0, may_write), (0o1777, 65534, None), \
            (0o1777, 1, owned), (0o755, 65534, None), (0o777, 1, owned):
        os.chown(door.at, owner, 65534)
        os.chmod(door.at, mode)
        unmixed(door)
        at_first = door.files()
        status, _, err = door.run('mix', '2', 'month', **NOBODY)
        if why:
            same((status, err, door.files()), (3, './' + why + '\n', at_first), f'a folder of mode {mode:o} of user {owner}')
        else:
            same((status, err, door.files()), (0, '', at_first | made('month')), f'a folder of mode {mode:o} of user {owner}')
    os.chown(door.at, 0, 0)
    os.chmod(door.at, 0o775)  # the group root is root's own
    unmixed(door)
    door.call(0, 'mix', '2', 'month', files=door.files() | made('month'), err='')
    os.mkdir(door.path('in'), 0o755)
    os.chown(door.path('in'), 65534, 65534)
    os.chmod(door.at, 0o777)
    door.write('in/month', b'abcdef')
    door.call(3, 'mix', '2', 'in/month', files=door.files(), err=os.path.realpath(door.at) + '/' + may_write, **NOBODY)


def exchanged(door):
    """The work folder is not as it was made: nothing is written into it."""
    for text in 'made=$(REAL "$@"); chmod 777 "$made"; echo "$made"\n', 'made=$(REAL "$@"); chown 1 "$made"; echo "$made"\n':
        if 'chown' in text and os.getuid() != 0:
            continue
        with door.stand_in(mktemp=text) as env:
            door.fresh(month=b'abcdef')
            status, out, err = door.run('mix', '2', 'month', env=env)
        same((status, out, door.files()), (3, '', {'month': 0o644}), f'a work folder that was exchanged: {err}')
        same('this folder is not as it was made, so nothing was written into it' in err, True, err)
    with door.stand_in(mktemp='made=$(REAL "$@"); : >"$made/sheet"; echo "$made"\n') as env:
        door.fresh(month=b'abcdef')
        status, out, _ = door.run('mix', '2', 'month', env=env)
        same((status, out, door.files()), (3, '', {'month': 0o644}), 'a file that is in the work folder already')


# ---- random bytes

def randomness(door):
    """What gives the same bytes again, or none, is no source of an order."""
    words = '/dev/urandom: this gives no random bytes, so no secret order can be drawn, and nothing was made'
    door.fresh(month=b'abcdef', source=b'x' * 64)
    at_first = door.files()
    for source in '/dev/zero', '/dev/null', door.path('source'):
        bound = ['unshare', '-m', 'sh', '-c', 'mount --bind "$0" /dev/urandom && exec "$@"', source]
        if subprocess.run([*bound, 'true'], capture_output=True).returncode:
            left_out.append('other things in the place of /dev/urandom')
            return
        done = subprocess.run([*bound, *door.shell.split(), door.script, 'mix', '2', 'month'], cwd=door.at, capture_output=True, text=True)
        same((done.returncode, done.stdout, done.stderr, door.files()), (3, '', words + '\n', at_first), f'{source} for /dev/urandom')


# ---- results, and what a run that was cut off leaves

def results_again(door):
    """What mixing made is not mixed again."""
    door.fresh(june=b'abcdef')
    door.run('mix', '1', 'june')
    status, out, err = door.run('mix', '1', *sorted(made('june')))
    same((status, out, door.files()), (1, '', {'june': 0o644} | made('june')), 'results mixed again')
    for name in made('june'):
        beside = 'june.mixed' if name == 'june.sheet' else 'june.sheet'
        words = f'{name}: by its name, and {beside} beside it, this was made by mixing: it is not mixed again\n'
        same(words in err, True, f'{name}: {err}')
    os.remove(door.path('june.sheet'))
    os.remove(door.path('june.label'))  # kept elsewhere
    door.call(1, 'mix', '1', 'june.mixed', files={'june': 0o644, 'june.mixed': MADE}, out='',
              err='june.mixed: by its name, and june beside it, this was made by mixing: it is not mixed again')
    door.fresh()
    door.write('a.mixed', b'abcdef')  # a month of such a name
    door.call(0, 'mix', '1', 'a.mixed', files={'a.mixed': 0o644} | made('a.mixed'), err='')


def cut_off(door):
    """kill -9 between the names: the next run says what is left, and what to do."""
    reached = door.home + '/reached'
    with door.stand_in(link=f"REAL \"$@\"; cd . >'{reached}'; sleep 9\n") as env:
        door.fresh(month=b'abcdef')
        process = door.start('mix', '2', 'month', env=env, start_new_session=True)
        while not os.path.exists(reached) and process.poll() is None:
            time.sleep(0.01)
        os.killpg(process.pid, signal.SIGKILL)
        process.communicate()
    os.remove(reached)
    files = door.files()
    left = [name for name in files if name.startswith('.lomuveran') and name.endswith('/')][0][:-1]
    same('month.sheet' in files and 'month.mixed' not in files, True, 'the sheet alone is left')
    door.call(3, 'mix', '2', 'month', files=files, out='', err='month.sheet: a run is at work on this month, or was cut off and left this '
              f'and the folder ./{left}. If none is at work, remove that folder, month.sheet and month.label, and mix the month again.')
    shutil.rmtree(door.path(left))
    door.call(3, 'mix', '2', 'month', files=door.files(), out='', err='month.sheet: this exists already, and month.mixed does not. If the '
              'mixed blocks are kept elsewhere, this is their sheet: keep it. If a run was cut off before it told of this month, it '
              'belongs to nothing: remove month.sheet and month.label, and mix the month again.')
    os.remove(door.path('month.sheet'))
    door.call(0, 'mix', '2', 'month', files={'month': 0o644} | made('month'), err='')


# ---- disks without links

NO_LINK = 'echo "link: cannot create link: Operation not permitted" >&2; exit 1\n'


def without_links(door):
    with door.stand_in(link=NO_LINK) as env:
        jobs(door, env)
        for name in made('month'):  # a name that is taken meanwhile
            for make in ': >', 'mkdir ', 'ln -s . ', 'ln -s nothing ':
                door.put_aside('unmix', f"{make}'{door.path(name)}'; exec REAL \"$@\"\n")
                door.fresh(month=b'abcdef')
                status, out, err = door.run('mix', '2', 'month', env=env)
                same((status, out, bool(err)), (3, '', True), f'{name} appears, {make}, without links')
                must = sorted(['month', name + '/' * (make == 'mkdir ')])
                same(sorted(door.files()), must, f'{name} appears, {make}, without links: files')
                door.put_back('unmix')
        for _ in range(4):
            data = rng.randbytes(600)
            door.fresh(month=data)
            running = [door.start('mix', '6', 'month', env=env) for _ in range(4)]
            ends = [process.communicate() for process in running]
            same(sorted(p.returncode for p in running), [0, 3, 3, 3], f'four at once without links: {ends}')
            same(door.files(), {'month': 0o644} | made('month'), 'four at once without links: files')
            door.call(0, 'verify', 'month.sheet', files=door.files(), err='')
    for tool in 'mv', 'sync':
        with door.stand_in(link=NO_LINK, **{tool: 'exit 1\n'}) as env:
            door.fresh(month=b'abcdef')
            door.call(3, 'mix', '2', 'month', files={'month': 0o644}, out='', env=env)
        with door.stand_in(link=NO_LINK, **{tool: 'REAL "$@"; kill -s TERM $PPID; sleep 0.2\n'}) as env:
            door.fresh(month=b'abcdef')
            status = door.run('mix', '2', 'month', env=env)[0]  # in bash the signal reaches what called the tool, and not the script
            same((status in (-signal.SIGTERM, 3), door.files()), (True, {'month': 0o644}), f'a signal in {tool}, status {status}')


def jobs(door, env):
    data = rng.randbytes(600)
    door.fresh(month=data)
    files = {'month': 0o644} | made('month')
    door.call(0, 'mix', '6', 'month', files=files, err='', env=env)
    door.call(0, 'return', 'month.mixed', 'month.sheet', 'back', files=files | {'back': MADE}, err='', env=env)
    same(door.read('back'), data, 'put back without links')
    door.call(3, 'return', 'month.mixed', 'month.sheet', 'back', files=files | {'back': MADE}, env=env,
              err='back: this exists already, and nothing is put over it')


def on_exfat(door):
    """A disk that has neither links nor permissions, where this machine has one."""
    image, disk = door.home + '/image', door.path('disk')
    door.fresh()
    os.mkdir(disk)
    with open(image, 'wb') as f:
        f.truncate(1 << 24)
    loop = ''
    if shutil.which('mkfs.exfat') and shutil.which('losetup'):
        loop = subprocess.run(['losetup', '-f', '--show', image], capture_output=True, text=True).stdout.strip()
    mounts = [['mount', '-t', 'exfat', '-o', 'umask=022'], ['mount.exfat-fuse', '-o', 'umask=022']]
    try:
        if not loop or subprocess.run(['mkfs.exfat', loop], capture_output=True).returncode or not any(
                shutil.which(mount[0]) and subprocess.run([*mount, loop, disk], capture_output=True).returncode == 0 for mount in mounts):
            left_out.append('an exFAT disk')
            return
        data = rng.randbytes(600)
        door.write('disk/month', data)
        status, out, err = door.run('mix', '6', 'disk/month')
        same((status, err), (0, './disk/: this disk keeps no permissions, so others may read what is made there\n'), 'exFAT')
        same(sorted(os.listdir(disk)), sorted(['month', *made('month')]), 'exFAT: files')
        same(door.run('verify', 'disk/month.sheet')[0], 0, 'exFAT: verify')
        same(door.run('return', 'disk/month.mixed', 'disk/month.sheet', 'disk/back')[0], 0, 'exFAT: return')
        same(door.read('disk/back'), data, 'exFAT: put back')
        same(door.run('mix', '6', 'disk/month')[0], 3, 'exFAT: nothing is put over a file')
    finally:
        subprocess.run(['umount', disk], capture_output=True)
        if loop:
            subprocess.run(['losetup', '-d', loop], capture_output=True)
        os.remove(image)


# ---- files that are something else, names that are commands to a terminal, help

def large(door):
    """What is larger than any sheet, order, card or label is refused at once."""
    door.fresh(month=b'abcdef', small=sheet_of(3))
    with open(door.path('large'), 'wb') as f:
        f.truncate(1 << 30)
    os.rename(door.path('large'), door.path('large.label'))
    os.link(door.path('large.label'), door.path('large'))
    at_first = door.files()
    start = time.time()
    for args, kind, name in (('show', 'large'), 'sheet', 'large'), (('settings', 'large'), 'order', 'large'), \
            (('card', 'large'), 'sheet', 'large'), (('type', 'large', 'out'), 'card', 'large'), \
            (('return', '2', 'month', 'large', 'out'), 'sheet', 'large'), \
            (('return', 'month', 'small', 'out', 'large'), 'label', 'large'), (('verify', 'large.label'), 'label', 'large.label'):
        door.call(1, *args, files=at_first, out='', err=f'{name}: it has {1 << 30} bytes, and no {kind} has more than 65536')
    for args in ('mix', '2', 'large'), ('chart', 'large'), ('return', '2', 'large', 'small', 'out'):
        door.call(1, *args, files=at_first, out='')
    same(time.time() - start < 20, True, f'{time.time() - start} s for large files')


def escapes(door):
    """No name and no text that was read reaches the terminal as a command to it."""
    name = 'a\x1b[31m\x07\x7f\u009b2Jb\n'
    shown = 'a[31m2Jb'
    door.fresh()
    door.write(name, b'abcdef')
    door.write('label', f'month {name[:-1]}\ncolour \x1b[2J\n'.encode())
    door.write('card', b'01 \x1b[2J\n')
    calls = [('mix', '4', name), ('mix', '2', name), ('mix', '2', name), ('return', name + '.mixed', name + '.sheet', 'out'),
             ('verify', name + '.sheet'), ('show', name), ('settings', name), ('chart', name), ('chart', name + '.mixed'),
             ('type', 'card', 'x'), ('card', name + '.sheet'), ('card', name + '.sheet', name + '.card'), ('type', name, 'x'),
             ('return', '9', name, name, name),
             ('return', name + '.mixed', name + '.sheet', 'y', 'label'), (name,), ('help', name), ('orders', name), ('mix', name, 'x'),
             ('mix', '2', 'none', name), ('return', '2', 'none/' + name, 'x', 'y'), ('return', '2', 'card', 'card', 'none/' + name)]
    for args in calls:
        status, out, err = door.run(*args)
        bad = [c for c in out + err if c != '\n' and (ord(c) < 32 or 127 <= ord(c) < 160)]
        same(bad, [], f'{args}: {status}, {out}{err}')
    same(f'month {shown}\n' in door.read(name + '.label').decode(), True, 'the name on a label')


def help_and_version(door):
    door.fresh()
    with open(os.path.join(os.path.dirname(__file__), '../../rust/Cargo.toml')) as f:
        version = re.search(r'^version = "(.*)"', f.read(), re.M)[1]
    same(door.call(0, '--version', files={}, err=''), f'lomuveran {version}\n', 'the version is that of the package')
    usage = door.call(0, 'help', files={}, err='')
    commands = dict.fromkeys(re.findall(r'^  lomuveran (\S+)', usage, re.M))
    same(len(commands), 12, f'the commands {list(commands)}')
    for command in commands:
        said = door.call(0, 'help', command, files={}, err='')
        same(said.startswith(f'usage: lomuveran {command}'), True, f'help {command}: {said}')
    door.call(2, 'help', 'remix', files={}, err="lomuveran: there is no command 'remix'; lomuveran help lists them", out='')
    for args in ('help',), ('help', 'mix'), ('--version',):
        with open('/dev/full', 'wb') as full:
            door.call(3, *args, files={}, stdout=full)


TRIED = [empty_names, others, randomness, results_again, on_exfat, large, escapes, help_and_version]
WITH_STAND_INS = [lying_tools, folder_left, exchanged, cut_off, without_links]
