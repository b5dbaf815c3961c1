#!/usr/bin/env python3
"""Turns this repository's own names to the spelling of its Rattle, once: words in snake case, a dash only between two names.

usage: tools/respell.py [--check] [FOLDER]

It reads the names that the .antt files of crates/ declare, and turns each whole word that is one of them: in .antt files, in the
clauses and comments of .rt files, and in code spans of .md files. A lemma that would have its function's name gets `_lem`. What Rattle
makes of a function (the names
behind `goal.`, `tie.`, `lts.`, `reads.`) stays, and so do names that only a proof of one function declares with a dash. docs/CHANGES.md
keeps the names that it tells of.
--check writes nothing and prints the table. It stops where two names would fall together.
"""

import collections
import os
import re
import sys

WORD = re.compile(r"[^\s(){}\[\].;,@\"«»`|/]+")
DECLARED = re.compile(r"^\s*(?:(?:pub|abbrev|unfoldable|private)\s+)*([^\s:(){}.,;]+)\s*:(?=\s|$)", re.M)
DEFINED = re.compile(r"^\s*(?:pub\s+)?(?:abbrev|unfoldable)\s+(?:pub\s+)?([^\s:(){}.,;]+)\s*:", re.M)
TYPES = re.compile(r"^\s*(?:(?:pub|abbrev|unfoldable)\s+)*(?:record|data)\s+([A-Z][\w']*)", re.M)
CAMEL = re.compile(r"^[a-z][A-Za-z0-9_'₀-₉′-]*[A-Z][A-Za-z0-9_'₀-₉′-]*$")
LIBRARY = set(
    "length take drop append get_or set map reverse add sub mul div mod pow le lt eq nil cons zero suc not eqb leb ltb cond "
    "bit_and bit_or shl shr min max and or sum slice_index".split()
)
# Words of the papers, which their readers know by the capital; and words that a rule of spelling alone would spoil.
KEEP = {"W", "E", "L"}
APART = {"halfAt", "inTop", "oneMore"}  # their new names stand in other crates, as names of a proof alone
EXTRA = {"goOn": "walk_on", "Looked": "looked_up", "one_byte": "one_byte_lem", "rows_in": "rows_in_lem",
         "input-bits": "input_are_bits", "output-bits": "output_are_bits"}


def snake(word):
    word = re.sub(r"(?<=[a-z0-9'])([A-Z])", r"_\1", word)
    return re.sub(r"[A-Z]", lambda m: m[0].lower(), word)


def files(root, ends):
    for folder, dirs, names in os.walk(root):
        dirs[:] = sorted(d for d in dirs if d not in ("out", ".git", "target"))
        for name in sorted(names):
            if name.endswith(ends):
                yield os.path.join(folder, name)


def read(path):
    with open(path, encoding="utf-8") as f:
        return f.read()


def uncommented(text):
    return re.sub(r"(?m)(^|\s)--.*$", "", text)


class Names:
    def __init__(self, root):
        self.declared, self.defined, self.words = set(), set(LIBRARY), set()
        for path in files(os.path.join(root, "crates"), ".antt"):
            text = uncommented(read(path))
            base = os.path.basename(path)
            self.words |= set(WORD.findall(text))
            if base not in ("Proof.antt", "Answers.antt", "Invariants.antt"):
                self.declared |= set(DECLARED.findall(text))
            self.defined |= set(DEFINED.findall(text)) | set(TYPES.findall(text))
        for path in files(os.path.join(root, "crates"), ".rt"):
            self.words |= set(WORD.findall(read(path)))
        self.fields = set()
        for path in files(os.path.join(root, "crates"), ".antt"):
            self.fields |= fields(uncommented(read(path)))
        self.defined = {w for w in self.defined if "-" not in w}

    def dashed(self, name):
        if name in self.fields:
            return "_".join(snake(p) if CAMEL.match(p) else p for p in name.split("-"))
        parts = name.split("-")
        out = snake(parts[0]) if CAMEL.match(parts[0]) else parts[0]
        for left, right in zip(parts, parts[1:]):
            both = left in self.defined and right in self.defined
            out += ("-" if both else "_") + (snake(right) if CAMEL.match(right) else right)
        return out

    def table(self):
        table = {}
        for word in self.words | self.declared:
            if CAMEL.match(word) and "-" not in word:
                table[word] = snake(word)
        for word in self.declared:
            if "-" in word and re.match(r"^[^\W\d][\w'₀-₉-]*$", word) and not word.startswith("-"):
                new = self.dashed(word)
                if new != word:
                    table[word] = new
        table = {a: b for a, b in (table | EXTRA).items() if a not in KEEP and a != b}
        # a lemma that would have its function's name gets `_lem`; a record's field may share the name of a function
        taken = {b for a, b in table.items() if "-" not in a} | {w for w in self.declared if w not in table}
        lemma = lambda a, b: "-" in a and b in taken and a not in self.fields
        return {a: b + "_lem" if lemma(a, b) else b for a, b in table.items()}


def fields(text):
    """The names of records' fields and of data's constructors."""
    out, inside = set(), None
    for line in text.splitlines():
        head = re.match(r"^(\s*)(?:(?:pub|abbrev|unfoldable)\s+)*(?:record|data)\s", line)
        if head:
            inside = len(head[1])
            continue
        if inside is not None and line.strip():
            depth = len(line) - len(line.lstrip())
            if depth <= inside:
                inside = None
            else:
                m = DECLARED.match(line)
                if m:
                    out.add(m[1])
    return out


def turned(text, table, made=True):
    def one(m):
        word = m[0]
        before = text[max(0, m.start() - 12) : m.start()]
        if re.search(r"(?<![\w-])(?:goal|tie|lts|reads|[\w-]+-(?:reads|lts|kinds))\.$", before):
            return word
        return table.get(word, word)

    return WORD.sub(one, text)


def clauses(text, table):
    """A .rt file: everything but strings; the code has no name of the table, since it is in snake case already."""
    parts = re.split(r'(b?"(?:\\.|[^"\\])*")', text)
    return "".join(p if i % 2 else turned(p, table) for i, p in enumerate(parts))


def spans(text, table):
    return re.sub(r"`[^`\n]+`", lambda m: turned(m[0], table), text)


def main(args):
    check = "--check" in args
    rest = [a for a in args if not a.startswith("--")]
    root = rest[0] if rest else os.path.dirname(os.path.dirname(os.path.realpath(__file__)))
    names = Names(root)
    table = names.table()
    new = collections.defaultdict(set)
    for a, b in table.items():
        new[b].add(a)
    there = names.declared
    bad = [(b, olds) for b, olds in sorted(new.items()) if len(olds) > 1 or (b in there and b not in table and not olds <= APART)]
    bad = [(b, olds) for b, olds in bad if sum(o not in names.fields for o in olds) > 1 or not olds & names.fields]
    for b, olds in bad:
        print("fall together:", ", ".join(sorted(olds)), "->", b, "(stands already)" if b in there else "")
    if check:
        for a, b in sorted(table.items()):
            print(a, b)
        return 0
    if bad and "--force" not in args:
        return 1
    count = 0
    for path in files(root, (".antt", ".rt", ".md")):
        if "/tools/" in path or path.endswith("CHANGES.md"):  # history keeps the names that it tells of
            continue
        text = read(path)
        if path.endswith(".rt"):
            out = clauses(text, table)
        elif path.endswith(".md"):
            out = spans(text, table)
        else:
            out = turned(text, table)
        if out != text:
            count += 1
            with open(path, "w", encoding="utf-8") as f:
                f.write(out)
    print(f"respell: {len(table)} names, {count} files")
    return 0


if __name__ == "__main__":
    raise SystemExit(main(sys.argv[1:]))
