"""The script `lomuveran` in trouble: names that are taken, several at once, signals, full disks, programs that fail, no programs."""
import os
import re
import shutil
import signal
import stat
import subprocess
import time

import rule
from compare import same
from door import MADE, left_out, made, rng, sheet_of

NOBODY = 65534


# ---- names that are taken, and several at once

def existing(door):
    """A result's name that is taken, by whatever: it stays as it is."""
    for name in made('month'):
        for kind in 'file', 'folder', 'link to nothing', 'link to a folder':
            door.fresh(month=b'abcdef')
            if kind == 'file':
                door.write(name, b'kept', 0o640)
            elif kind == 'folder':
                os.mkdir(door.path(name))
            else:
                os.symlink('nothing' if kind == 'link to nothing' else '.', door.path(name))
            at_first = door.files()
            words = None if (name, kind) == ('month.sheet', 'file') else f'{name}: this exists already, and nothing is put over it'
            door.call(3, 'mix', '2', 'month', files=at_first, err=words, out='')
            same(door.read(name) if kind == 'file' else b'kept', b'kept', f'{name}, {kind}')
    for name in made('month'):  # one that appears while the month is mixed
        for make in ': >', 'mkdir ', 'ln -s . ', 'ln -s nothing ':
            door.put_aside('unmix', f"{make}'{door.path(name)}'; exec REAL \"$@\"\n")
            door.fresh(month=b'abcdef')
            status, out, err = door.run('mix', '2', 'month')
            same((status, out, err), (3, '', f'{name}: File exists\n'), f'{name} appears, {make}')
            same(sorted(door.files()), sorted(['month', name + '/' * (make == 'mkdir ')]), f'{name} appears, {make}: files')
            door.put_back('unmix')


def at_once(door):
    for _ in range(6):
        data = rng.randbytes(600)
        door.fresh(month=data)
        running = [door.start('mix', '6', 'month') for _ in range(4)]
        for process in running:
            process.communicate()
        same(sorted(p.returncode for p in running), [0, 3, 3, 3], 'four at once on one month')
        same(door.files(), {'month': 0o644} | made('month'), 'four at once: files')
        same(b''.join(rule.put_back(door.read('month.sheet'), rule.cut(door.read('month.mixed'), 100))), data, 'four at once: one pair')
        running = [door.start('return', 'month.mixed', 'month.sheet', 'out') for _ in range(3)]
        for process in running:
            process.communicate()
        same((sorted(p.returncode for p in running), door.read('out')), ([0, 3, 3], data), 'three returns at once')
        same(len(door.files()), 5, 'three returns at once: files')


# ---- signals

def interrupted(door, process, number, to_group, what):
    """After a signal: all of it, and told, or nothing."""
    try:
        (os.killpg if to_group else os.kill)(process.pid, number)
    except ProcessLookupError:
        pass
    told = process.communicate()[0]
    must = {'month': 0o644} | (made('month') if told or process.returncode == 0 else {})
    same((process.returncode in (0, -number, 3), door.files()), (True, must), f'{door.shell} {what}, status {process.returncode}, {told}')
    return process.returncode


def signals(door):
    numbers = [signal.SIGINT, signal.SIGTERM, signal.SIGHUP, signal.SIGQUIT]
    for number in numbers:  # in the middle: a program takes its time
        for program in 'draw', 'mix', 'unmix':
            for to_group in True, False:
                end = interrupted_in(door, program, number, to_group)
                quit_ = number == signal.SIGQUIT and door.shell != 'dash'  # bash and busybox cannot be quit
                same(end, 3 if quit_ else -number, 'ended by the signal')
    for tool in () if door.own_tools else ('link', 'sync', 'rm'):  # while the results get their names, and after it
        interrupted_at(door, tool, rng.choice(numbers))
    for _ in range(60):
        number = rng.choice(numbers)
        door.fresh(month=rng.randbytes(6000))
        process = door.start('mix', '6', 'month', start_new_session=True)
        time.sleep(rng.random() * 0.08)
        interrupted(door, process, number, rng.random() < 0.5, f'signal {number} at random')


def interrupted_at(door, tool, number):
    """A signal while a tool of the system, which takes its time, is at work: before the month is told of nothing stays, then all does."""
    reached = door.home + '/reached'
    with door.stand_in(**{tool: f"REAL \"$@\"; status=$?; cd . >'{reached}'; sleep 0.2; exit $status\n"}) as env:
        door.fresh(month=b'abcdef')
        process = door.start('mix', '2', 'month', env=env)
        while not os.path.exists(reached) and process.poll() is None:
            time.sleep(0.01)
        same(set(door.files()) >= {'month', 'month.sheet'}, True, f'{tool} was reached')
        process.send_signal(number)
        told = process.communicate()[0]
    must = {'month': 0o644} | (made('month') if tool == 'rm' else {})
    same((bool(told), door.files()), (tool == 'rm', must), f'signal {number} in {tool}')
    os.remove(reached)


def interrupted_in(door, program, number, to_group):
    """A signal while a program, which takes its time, is at work."""
    reached = door.home + '/reached'
    door.put_aside(program, f"cd . >'{reached}'; sleep 0.2; exec REAL \"$@\"\n")
    door.fresh(month=b'abcdef')
    process = door.start('mix', '2', 'month', start_new_session=True)
    while not os.path.exists(reached) and process.poll() is None:
        time.sleep(0.01)
    same(os.path.exists(reached), True, f'{program} was reached')
    end = interrupted(door, process, number, to_group, f'signal {number} in {program}')
    door.put_back(program)
    if os.path.exists(reached):
        os.remove(reached)
    return end


def deaf_reader(door):
    """Standard output is a pipe that nobody reads: what was made and not told of is taken back."""
    door.fresh(month=b'abcdef')
    reading, writing = os.pipe()
    os.close(reading)
    process = door.start('mix', '2', 'month', stdout=writing)
    os.close(writing)
    process.communicate()
    same((process.returncode, door.files()), (3, {'month': 0o644}), 'nobody reads')


# ---- disks and folders

def full_outputs(door):
    door.fresh(month=b'abcdef', sheet=sheet_of(9), order=b'\x02\1\0')
    at_first = door.files()
    for args in ('mix', '2', 'month'), ('show', 'sheet'), ('settings', 'order'), ('orders', '3'), ('chart', 'month'), ('card', 'sheet'):
        with open('/dev/full', 'wb') as full:
            door.call(3, *args, files=at_first, stdout=full)


def full_disk(door):
    """A file system of 64 KiB, filled up to some room."""
    small = door.path('small')
    door.fresh()
    os.mkdir(small)
    if subprocess.run(['mount', '-t', 'tmpfs', '-o', 'size=64k', 'tmpfs', small], capture_output=True).returncode:
        left_out.append('a full disk, but for /dev/full')
        return
    try:
        data = rng.randbytes(16384)
        ends = []
        for room in range(13):
            for name in os.listdir(small):
                os.remove(os.path.join(small, name))
            door.write('small/month', data)
            door.write('small/fill', b'x' * (4096 * (16 - 4 - room)))
            status, _, err = door.run('mix', '16', 'small/month')
            ends.append(status)
            must = {'small/', 'small/month', 'small/fill'} | (set(made('small/month')) if status == 0 else set())
            same((set(door.files()), door.read('small/month') == data), (must, True), f'room for {room} pages, status {status}')
            same(status == 0 or 'No space left on device' in err, True, f'room for {room} pages: {err}')
        same((sorted(set(ends)), ends[0], ends[-1]), ([0, 3], 3, 0), f'full disk: {ends}')
    finally:
        subprocess.run(['umount', small], check=True)


def folders_of_others(door):
    """As nobody: a folder that cannot be written, a month that cannot be read."""
    if os.getuid() != 0:
        left_out.append('folders and files of others')
        return
    nobody = {'user': NOBODY, 'group': NOBODY, 'extra_groups': []}
    door.fresh(month=b'abcdef', sheet=sheet_of(3), closed=b'abcdef')
    os.chmod(door.path('closed'), 0o600)
    at_first = door.files()
    for args, name in (('mix', '2', 'month'), 'month'), (('return', '2', 'month', 'sheet', 'out'), 'out'):
        door.call(3, *args, files=at_first, err=f'{name}: no file can be made in its folder: Permission denied', **nobody)
    os.chmod(door.at, 0o1777)
    for args in ('mix', '2', 'closed'), ('chart', 'closed'):
        door.call(3, *args, files=at_first, err='closed: it cannot be read: Permission denied', **nobody)
    door.call(0, 'mix', '2', 'month', files=at_first | made('month'), err='', umask=0, **nobody)


def programs_that_fail(door):
    """Whatever a program does, nothing wrong is kept."""
    other = 'month: put back, the mixed blocks are not this month'
    for program, text, words in [
            ('mix', ': nothing, and without a word\n', other + ' (refused 3 at 0)\n'),
            ('mix', 'REAL "$@" | tr a b\n', other + '\n'),
            ('unmix', 'cat\n', other + '\n'),
            ('unmix', 'REAL "$@" | head -c 5\n', other + '\n'),
            ('unmix', f"printf 0 >>'{door.path('month')}'; REAL \"$@\"\n", other + '\n'),
            ('mix', f"printf 0 >>'{door.path('month')}'; REAL \"$@\"\n", 'month: it could not be mixed (refused 3 at 0)\n'),
            ('mix', 'echo "mix: standard input: Input/output error" >&2\n', 'mix: standard input: Input/output error\n'),
            ('draw', 'head -c 20 /dev/zero\n', 'month: no order could be drawn (refused 12 at 1)\n'),
            ('draw', "printf '\\002\\001\\000'\n", 'month: it could not be mixed (refused 3 at 0)\n'),
            *((program, 'kill -9 $$\n', None) for program in ('draw', 'sheet', 'mix', 'unmix'))]:
        door.put_aside(program, text)
        door.fresh(month=bytes(range(97, 121)))
        status, out, err = door.run('mix', '1', 'month')
        same((status, out, door.files()), (3, '', {'month': 0o644}), f'{program}: {text}')
        same(err if words else bool(err), words or True, f'{program}: {text} (words)')
        door.put_back(program)
    for program, text in ('unmix', 'REAL "$@" | tr a b\n'), ('unmix', ': nothing\n'), ('mix', 'REAL "$@" | tr a b\n'):
        door.put_aside(program, text)
        door.fresh(month=b'abc', sheet=sheet_of(3))
        door.call(3, 'return', '1', 'month', 'sheet', 'out', files=door.files(), out='')
        door.put_back(program)


def printing_that_fails(door):
    for program, args, name in ('chart', ('chart', 'month'), 'month'), ('list', ('orders', '3'), 'length 3'):
        for text, words in (': nothing\n', f'{name}: a program ended before its work was done'), ('REAL; kill -9 $$\n', None), \
                (f'echo "{program}: standard input: Input/output error" >&2\n', f'{program}: standard input: Input/output error'):
            door.put_aside(program, text)
            door.fresh(month=b'abcdef')
            door.call(3, *args, files={'month': 0o644}, err=words, out='')
            door.put_back(program)


# ---- the build

PROGRAMS = ('draw', 'sheet', 'mix', 'unmix', 'show', 'settings', 'chart', 'list')
# It runs the program that it has built, and ends with that program's status.
RT = '''#!/bin/sh
p=${PWD##*/}
echo "$p: rt $*" >>'LOG'
echo "rt: chose --jobs 2 for $p" >&2
echo "fn $p::main: proved" >&2
echo "crate $p: modules loaded=0 checked=40" >&2
sleep 0.2
[ "$p" != "${RT_FAILS:-}" ] || { echo "fn $p::read: not proved" >&2; exit 1; }
echo "logic=proved functions=7" >&2
mkdir -p out
cp -p 'BIN'/$p out/$p
echo "rt: running out/$p; to give it other input, run that file yourself" >&2
echo "usage: $p" >&2
echo "what $p made"
exit 7
'''


def build(door):
    door.fresh(month=b'abcdef')
    away, log, kit = door.home + '/away', door.home + '/log', door.home + '/kit'
    os.rename(door.bin, away)
    path = os.environ['PATH']
    plain = ':'.join(p for p in path.split(':') if not os.path.exists(os.path.join(p, 'rt')))
    shown = f'The programs are not in {door.bin}, and '
    door.call(3, 'mix', '2', 'month', files={'month': 0o644}, err=shown + 'there are no crates to build them from.')
    open(door.home + '/crates.txt', 'w').close()
    for program in PROGRAMS:
        os.makedirs(f'{door.home}/crates/{program}')
    door.call(3, 'mix', '2', 'month', files={'month': 0o644}, env={'PATH': plain},
              err=shown + 'the Rattle kit (rt), which builds them, is not on the path.')
    os.mkdir(kit)
    with open(kit + '/rt', 'w') as f:
        f.write(RT.replace('LOG', log).replace('BIN', away))
    os.chmod(kit + '/rt', 0o755)
    env = {'PATH': kit + ':' + plain}
    status, out, err = door.run('mix', '2', 'month', env=env | {'RT_FAILS': 'mix'})
    same((status, out, re.sub(r'[0-9]+ s', 'N s', err).splitlines()[1:]), (3, '', ['  draw proved (N s)', '  sheet proved (N s)',
         'The programs could not be built: tools/programs tells why.']), 'a build that fails')
    same(door.files(), {'month': 0o644}, 'a build that fails: files')
    os.remove(log)
    running = [door.start('mix', '2', 'month', env=env), door.start('help', env=env), door.start('mix', '1', 'month', env=env)]
    errs = [process.communicate()[1] for process in running]
    same(sorted(p.returncode for p in running), [0, 0, 3], f'two at once that build {errs}')
    with open(log) as f:
        same(f.read(), ''.join(f'{program}: rt run\n' for program in PROGRAMS), 'built once')
    same(os.path.exists(door.home + '/target/building'), False, 'the mark of the build')
    same(stat.S_IMODE(os.stat(door.bin).st_mode) & 0o055, 0o055, 'the programs are for everybody')
    for name in away, kit, door.home + '/crates':
        shutil.rmtree(name)
    os.remove(door.home + '/crates.txt')


TRIED = [existing, at_once, signals, deaf_reader, full_outputs, full_disk, folders_of_others, programs_that_fail, printing_that_fails,
         build]
