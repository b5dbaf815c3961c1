"""What the tests of the script `lomuveran` share: a copy of it to call, and the comparing of what it left."""
import contextlib
import os
import random
import shutil
import stat
import subprocess

import rule
from compare import same

MADE = 0o600  # the permissions of what the script makes
rng = random.Random(14)
left_out = []  # what cannot be tried on this machine


def made(*months):
    """What mixing makes of each month."""
    return {f'{month}.{kind}': MADE for month in months for kind in ('mixed', 'sheet', 'label')}


class Door:
    """A copy of the script and its programs, and an empty folder in which it is called."""

    def __init__(self, root, scratch, shell):
        self.shell, self.home, self.at = shell, os.path.join(scratch, 'home'), os.path.join(scratch, 'here')
        self.own_tools = shell.startswith('busybox')  # it has its own, and takes no stand-in from the path
        for name in 'lomuveran', 'examples', 'tools/programs', 'target/bin':
            source, copy = os.path.join(root, name), os.path.join(self.home, name)
            os.makedirs(os.path.dirname(copy), exist_ok=True)
            (shutil.copytree if os.path.isdir(source) else shutil.copy)(source, copy)
        self.script, self.bin = os.path.join(self.home, 'lomuveran'), os.path.join(self.home, 'target/bin')
        self.fresh()

    def fresh(self, **files):
        """Empties the folder, and puts the files into it."""
        shutil.rmtree(self.at, ignore_errors=True)
        os.mkdir(self.at)
        for name, data in files.items():
            self.write(name, data)

    def path(self, name):
        return os.path.join(self.at, name)

    def write(self, name, data, mode=0o644):
        with open(self.path(name), 'wb') as f:
            f.write(data)
        os.chmod(self.path(name), mode)

    def read(self, name):
        with open(self.path(name), 'rb') as f:
            return f.read()

    def start(self, *args, **options):
        options = {'stdin': subprocess.DEVNULL, 'stdout': subprocess.PIPE, 'stderr': subprocess.PIPE, 'cwd': self.at} | options
        return subprocess.Popen([*self.shell.split(), self.script, *args], **options)

    def run(self, *args, **options):
        process = self.start(*args, **options)
        out, err = process.communicate()
        return process.returncode, (out or b'').decode(errors='replace'), err.decode(errors='replace')

    def files(self):
        """Each file under the folder, with its permissions."""
        found = {}
        for at, folders, files in os.walk(self.at):
            for name in files + folders:
                path = os.path.join(at, name)
                mode = os.lstat(path).st_mode
                found[os.path.relpath(path, self.at) + '/' * stat.S_ISDIR(mode)] = stat.S_IMODE(mode)
        return found

    def call(self, status, *args, files, err=None, out=None, **options):
        """One call: its status, the files after it, what it said (whole, or the start of it)."""
        what = f'{self.shell} lomuveran {" ".join(args)[:200]}'
        is_, said, complained = self.run(*args, **options)
        same(is_, status, f'{what}: status ({complained})')
        same(self.files(), files, f'{what}: files')
        if err is not None:
            same(complained, err and err + '\n', f'{what}: standard error')
        if out is not None:
            same(said[:len(out)] if out else said, out, f'{what}: standard output')
        return said

    def put_aside(self, program, text):
        """A stand-in for a program; the program itself is REAL."""
        real = os.path.join(self.bin, program)
        os.rename(real, real + '.real')
        with open(real, 'w') as f:
            f.write('#!/bin/sh\n' + text.replace('REAL', f"'{real}.real'"))
        os.chmod(real, 0o755)

    def put_back(self, program):
        real = os.path.join(self.bin, program)
        os.rename(real + '.real', real)

    @contextlib.contextmanager
    def stand_in(self, **tools):
        """The environment in which each of these tools of the system is a script; the tool itself is REAL."""
        folder = os.path.join(self.home, 'stand-ins')
        os.mkdir(folder)
        try:
            for tool, text in tools.items():
                path = os.path.join(folder, tool)
                with open(path, 'w') as f:
                    f.write('#!/bin/sh\n' + text.replace('REAL', f"'{shutil.which(tool)}'"))
                os.chmod(path, 0o755)
            yield os.environ | {'PATH': f'{folder}:{os.environ["PATH"]}'}
        finally:
            shutil.rmtree(folder)


def sheet_of(n, damage=lambda s: s):
    """Some sheet of n places."""
    bits = len(rule.switches(n, 0))
    numbers = [rng.randrange(2 ** min(14, bits - at)) for at in range(0, bits, 14)]
    return bytes(damage([b for v in [1, n, *numbers] for b in ([v] if v < 128 else [v % 128 + 128, v // 128])]))
