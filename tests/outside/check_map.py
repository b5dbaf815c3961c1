#!/usr/bin/env python3
"""Every name in docs/MAP.md exists: a definition or law in the crate's specs/ or proofs/, a function in its src/, an edit in its
must-fail/. A name belongs to the crate named last before it in its cell; one before any crate may stand anywhere. In `File.Record.field`,
and in `File.Name` (`field`, ..), the field is one of that record, or, where Name is a theorem, of a record of that file. The files
of the reading list have as many lines as it says."""
import pathlib
import re
import sys

root = pathlib.Path(__file__).resolve().parents[2]
crates = {p.name for p in (root / 'crates').iterdir() if (p / 'src').is_dir()}
texts = {}


def files(crate, part, ending):
    return sorted((root / 'crates' / crate / part).rglob('*' + ending))


def text(path):
    if path not in texts:
        texts[path] = path.read_text(encoding='utf-8')
    return texts[path]


def said_in(paths, name):
    """Whether some file defines the name: at the start of a line, behind keywords, or as a field."""
    keywords = r'(?:(?:abbrev|unfoldable|pub|record|data|fn|struct|enum|const|extern "C")\s+)*'
    form = re.compile(r'^\s*' + keywords + re.escape(name) + r'(?![\w-])', re.M)
    return any(form.search(text(p)) for p in paths)


def has_field(paths, record, field):
    """Whether the record, or where it is none some record, of these files has the field (of a data type: the case)."""
    blocks = {}
    for path in paths:
        for name, block in re.findall(r'^(?:pub )?(?:record|data) ([\w-]+).*\n((?:[ \t].*\n|\n)*)', text(path), re.M):
            blocks[name] = block
    return any(re.search(rf'^\s+(?:pub )?{re.escape(field)} :', block, re.M)
               for name, block in blocks.items() if name == record or record not in blocks)


def exists(crate, name):
    name = name.removesuffix(' ..')
    if name.startswith('src/') or name.endswith('.rt'):
        return (root / 'crates' / crate / 'src' / name.removeprefix('src/')).is_file()
    if (root / 'crates' / crate / 'must-fail' / f'{name}.edit').is_file():
        return True
    logic = files(crate, 'specs', '.antt') + files(crate, 'proofs', '.antt')
    parts = name.split('.')
    if len(parts) > 1:
        logic = [p for p in logic if p.stem == parts[0]]
        return bool(logic) and said_in(logic, parts[1]) and all(has_field(logic, parts[1], part) for part in parts[2:])
    code = files(crate, 'src', '.rt')
    if name.endswith('_*'):
        return any(name[:-1] in text(p) for p in code)
    if '::' in name:
        name = name.split('::')[-1]
    return any(p.stem == name for p in logic) or said_in(logic + code, name)


def main():
    missing, seen = [], 0
    for number, line in enumerate((root / 'docs/MAP.md').read_text(encoding='utf-8').splitlines(), 1):
        if not line.startswith('|') or set(line) <= set('|- '):
            continue
        for cell in line.strip('|').split('|')[1:]:
            for name, lines in re.findall(r'`(\w+/specs/\w+\.antt)` (\d+)', cell):
                seen += 1
                path = root / 'crates' / name
                if not path.is_file() or len(text(path).splitlines()) != int(lines):
                    missing.append((number, f'{name} with {lines} lines'))
            cell = re.sub(r'`\w+/specs/\w+\.antt` \d+', '', cell)
            for crate, file, name, fields in re.findall(r'\b(\w+) `(\w+)\.([\w-]+)` \((?:field )?((?:`[\w-]+`(?:, )?)+)\)', cell):
                for field in re.findall(r'`([^`]+)`', fields):
                    paths = [p for part in ('specs', 'proofs') for p in files(crate, part, '.antt') if p.stem == file]
                    if crate in crates and not has_field(paths, name, field):
                        missing.append((number, f'{crate} {file}.{name} with the field {field}'))
            crate = None
            for token in re.findall(r'`[^`]+`|[A-Za-z_]\w*', cell):
                name = token.strip('`')
                if name in crates:
                    crate = name
                elif token[0] != '`':
                    continue
                elif re.fullmatch(r'(check_\w+|docs/.*|tests/.*|include/|rust/|&mut .*)', name):
                    if name.startswith(('docs/', 'tests/')) and not (root / name).exists():
                        missing.append((number, name))
                else:
                    seen += 1
                    where = [crate] if crate else sorted(crates)
                    if not any(exists(c, name) for c in where):
                        missing.append((number, f'{crate or "any crate"} {name}'))
    for number, name in missing:
        print(f'docs/MAP.md:{number}: {name} does not exist')
    print(f'map: {seen} names, {len(missing)} missing')
    return 1 if missing else 0


sys.exit(main())
