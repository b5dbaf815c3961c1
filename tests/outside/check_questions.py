#!/usr/bin/env python3
"""Each question of 01 and 02 has one number everywhere: the table of docs/API.md, the header's names, the Rust package's texts and the script's
words name the same numbers, the calls in that page and in the header ask the same lists, and the definitions in specs/ ask no other number.

  check_questions.py ROOT
"""
import pathlib
import re
import sys

from compare import ended, same


def page_questions(text):
    """The table of questions in docs/API.md: those that are asked, and those that are withdrawn."""
    table = text[text.index('The questions:'):]
    rows = re.findall(r'^\| (\d+) \| (.*?) \|', table, re.M)
    withdrawn = {int(n) for n, words in rows if words.startswith('withdrawn')}
    return {int(n): words for n, words in rows if int(n) not in withdrawn}, withdrawn


def sequence(words):
    """The numbers of a list of questions, as 1, 4 of the given one, 4 of out; 8, 9."""
    return [int(n) for n in re.findall(r'\b(\d+)\b', re.sub(r'\(.*?\)', '', words))]


def page_calls(text):
    """What each exported call asks, by the table of calls in docs/API.md."""
    calls = {}
    table = text[text.index('| call | 01'):text.index('The questions:')]
    for row in table.splitlines():
        cells = row.strip('| ').split(' | ')
        for name in re.findall(r'`(?:\w+::)?(\w+)\(', cells[0]):
            if len(cells) == 4 and re.match(r'\d', cells[3]):
                calls[name] = sequence(cells[3])
    return calls


def header_calls(text):
    """What each declared call asks, by the comment before it."""
    calls = {}
    for comment, names in re.findall(r'/\*((?:(?!\*/).)*)\*/\n((?:(?!/\*).)*)', text, re.S):
        found = re.search(r'Questions? ((?:\d+|[ ,;]|of (?:each number|given|out)|\(.*?\))+)', re.sub(r'\s*\n \* ?', ' ', comment))
        like = re.search(r'As lomuveran_(\w+)\.', comment)
        for name in re.findall(r'\blomuveran_(\w+)\(', names):
            if found or like:
                calls[name] = sequence(found[1]) if found else calls[like[1]]
    return calls


def main():
    root = pathlib.Path(sys.argv[1])
    page = (root / 'docs/API.md').read_text(encoding='utf-8')
    header = (root / 'include/lomuveran.h').read_text(encoding='utf-8')
    script = (root / 'lomuveran').read_text(encoding='utf-8')
    asked, withdrawn = page_questions(page)
    same(sorted(asked.keys() | withdrawn), list(range(1, max(asked) + 1)), 'docs/API.md: every number up to the last')
    enum = {int(n) for n in re.findall(r'^\s*LOMUVERAN_\w+\s*=\s*(\d+)', header, re.M)} - {0}
    same(enum, set(asked), 'the header names the questions of docs/API.md')
    texts = {int(n): words for n, words in re.findall(r'^\s*(\d+) => "(.*)"', (root / 'rust/src/refusal.rs').read_text(encoding='utf-8'), re.M)}
    same(set(texts), set(asked), 'the Rust package has words for the questions of docs/API.md')
    same(len(set(texts.values())), len(texts), 'the Rust package has other words for each')
    last = re.search(r'/// 1 to (\d+)', (root / 'rust/src/refusal.rs').read_text(encoding='utf-8'))
    same(int(last[1]), max(asked), 'the last number in the Rust package')
    worded = {int(n) for n in re.findall(r'^\s+(?:\w+|\*)\.(\d+)\)', script, re.M)} | {int(n) for n in re.findall(r'\(question (\d+)\)', script)}
    same(worded - set(asked), set(), 'the script has words for questions of docs/API.md only')
    # what its commands can meet: reading a sheet, an order, blocks and a length
    same({1, 2, 3, 6, 8, 9, 10, 11, 12, 17} - worded, set(), 'the script has words for what a user can get')
    by_page, by_header = page_calls(page), header_calls(header)
    for name in 'control_bits', 'apply', 'apply_inverse', 'shuffle', 'write_sheet', 'read_sheet', 'read_number', 'ranked_order', 'gauge_report':
        same(by_header.get(name), by_page.get(name), f'the questions of {name}')
    for name in 'to_neighbour', 'to_paper':
        same(by_header.get(name), by_page.get('convert'), f'the questions of {name}')
    numbers = set()
    for path in (root / 'crates').glob('*/specs/*.antt'):
        numbers |= {int(n) for n in re.findall(r'\bask(?:_each)? (\d+)\b', path.read_text(encoding='utf-8'))}
    same(numbers, set(asked), 'the definitions ask the questions of docs/API.md')
    return ended('lists of questions')


sys.exit(main())
