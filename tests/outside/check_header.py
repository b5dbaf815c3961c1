#!/usr/bin/env python3
"""The three hand-kept lists of the exports against each other and the library: crates/capi/src/lib.rt (its structs:
crates/capi_values and answers), include/lomuveran.h, rust/src/ffi.rs, and the names that libcapi.a defines. Parameters are compared by type
and by name, so that no two of one type can change places.

  check_header.py ROOT LIBRARY
"""
import re
import subprocess
import sys

NUMBERS = {'u8': 'uint8_t', 'u16': 'uint16_t', 'u32': 'uint32_t', 'usize': 'size_t', 'i64': 'int64_t'}
STRUCTS = {f'{of}{name}': f'lomuveran_{name.lower()}' for name in ('Answer', 'Number', 'Drawn', 'Report', 'Record')
           for of in ('C', '')}  # capi's and the Rust package's names


def bare(text):
    """Without comments, and each row of blanks as one."""
    return re.sub(r'\s+', ' ', re.sub(r'//[^\n]*|/\*.*?\*/', ' ', text, flags=re.S))


def as_c(name, kind):
    """The C parameters of a parameter of capi or of the Rust package, by type and name: a slice is a pointer and a length."""
    if kind in NUMBERS:
        return [(NUMBERS[kind], name)]
    if slice_ := re.fullmatch(r'&(mut )?\[(\w+)\]', kind):
        return [(('' if slice_[1] else 'const ') + NUMBERS[slice_[2]] + ' *', name), ('size_t', length_of(name))]
    if pointer := re.fullmatch(r'\*(mut|const) (\w+)', kind):
        return [(('' if pointer[1] == 'mut' else 'const ') + NUMBERS[pointer[2]] + ' *', name)]
    raise SystemExit(f'no C type for {kind}')


def length_of(name):
    return f'length of {name}'


def lengths_named(params):
    """Where capi has a slice, C has a pointer and a length, called `len` or by the slice's name (bits, bit_count)."""
    for i in range(1, len(params)):
        (before, slice_), (kind, name) = params[i - 1:i + 1]
        if before.endswith('*') and kind == 'size_t' and (name == 'len' or name.startswith(slice_.removesuffix('s') + '_')):
            params[i] = (kind, length_of(slice_))
    return params


def from_rust(text, pattern):
    """Name to (result, parameters), of `fn NAME(a: T, ..) -> R`."""
    return {name: (STRUCTS[result], lengths_named([c for p in params.split(',') if p.strip() for c in as_c(*p.strip().split(': '))]))
            for name, params, result in re.findall(pattern + r' fn (lomuveran_\w+)\(([^)]*)\) -> (\w+)', bare(text))}


def from_header(text):
    found = re.findall(r'(lomuveran_\w+) (lomuveran_\w+)\(([^)]*)\);', bare(text))
    return {name: (result, lengths_named([(kind.strip(), param) for kind, param in re.findall(r'([^,]*?)(\w+)\s*(?:,|$)', params)]))
            for result, name, params in found}


def fields(text, pattern):
    """The fields of the structs that cross, by name and type, in their sequence."""
    found = {}
    for name, body in re.findall(pattern, bare(text)):
        pairs = re.findall(r'pub (\w+): (\w+)', body) or [(f, t) for t, f in re.findall(r'(\w+) (\w+);', body)]
        found[STRUCTS.get(name, name)] = [(f, NUMBERS.get(t, STRUCTS.get(t, t))) for f, t in pairs]
    return found


def main():
    root, library = sys.argv[1:]
    read = {name: open(f'{root}/{name}', encoding='utf-8').read()
            for name in ('crates/capi/src/lib.rt', 'crates/capi_values/src/lib.rt', 'crates/answers/src/lib.rt', 'include/lomuveran.h', 'rust/src/ffi.rs')}
    lib, values, answers, header, ffi = read.values()
    calls = from_rust(lib, r'pub extern "C"')
    structs = fields(values + answers, r'#\[repr\(C\)\] #\[derive\([^)]*\)\] pub struct (\w+) \{([^}]*)\}')
    defined = subprocess.run(['nm', '--defined-only', '--extern-only', library], check=True, capture_output=True, text=True).stdout
    wrong = []
    compared = 0

    def same(what, must, other):
        nonlocal compared
        for name in sorted(set(must) | set(other)):
            compared += 1
            if must.get(name) != other.get(name):
                wrong.append(f'{what}: {name}\n  capi {must.get(name)}\n  here {other.get(name)}')

    same('header', calls, from_header(header))
    same('Rust package', calls, from_rust(ffi, 'pub'))
    same('header', structs, fields(header, r'typedef struct (\w+) \{([^}]*)\} \w+;'))
    same('Rust package', structs, fields(ffi, r'#\[repr\(C\)\] pub struct (\w+) \{([^}]*)\}'))
    same('library', dict.fromkeys(calls, 'T'), {n: t for t, n in re.findall(r' ([TDBR]) (\w+)$', defined, re.M)})
    print('\n'.join(wrong + [f'compared {compared} declarations of {len(calls)} exports, {len(wrong)} wrong']))
    return bool(wrong) or len(calls) == 0


sys.exit(main())
