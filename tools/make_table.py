#!/usr/bin/env python3
"""Writes the crates' tables of the two grammars and of what their productions and words mean.

  make_table.py                         writes each generated file
  make_table.py --check                 says which of them differ from what would be written; exit 1 where one does
  make_table.py --report                prints counts and conflicts of both grammars; exit 1 where there is one
  make_table.py --numbers kerml|sysml   prints the productions with their numbers and names

grammar_tables.py says how the grammars are read, and action_tables.py how the tables of meanings are.
"""
import argparse
import os
import sys
import textwrap

sys.dont_write_bytecode = True

from action_tables import action_files, named_productions
from grammar_tables import (END, END_OF_TEXT, HERE, LANGUAGES, VALUED, conflicts, lists, predictions, table_of, terminals,
                            text_of)
from module_text import head, listed, numbers, rows

SPANS = """
macro_rules! spans {
    ($($from:literal..$upto:literal,)*) => { [$(Span { from: $from, upto: $upto }),*] };
}
"""


def symbols_module(language):
    table, number = table_of(language), terminals(language)
    inner = {s: i for i, s in enumerate(table.symbols)}
    lines, count = [], 0
    for p in table.productions:
        items = [f'Terminal {number[v]},' if k == 'terminal' else f'Inner {inner[v]},' for k, v in p.right]
        count += len(items)
        if items:
            lines.append((text_of(p), ' '.join(items)))
    return '\n'.join([
        head(),
        'use ll_core::Symbol;',
        """
macro_rules! symbols {
    ($($sort:ident $number:literal,)*) => { [$(Symbol::$sort($number)),*] };
}
""",
        listed('The right sides of all productions, one after another.', f'SYMBOLS: [Symbol; {count}]', 'symbols', lines)])


def productions_module(language):
    table = table_of(language)
    inner = {s: i for i, s in enumerate(table.symbols)}
    lines, count = [], 0
    for p in table.productions:
        lines.append((text_of(p), '%d: %d..%d,' % (inner[p.left], count, count + len(p.right))))
        count += len(p.right)
    return '\n'.join([
        head(),
        'use ll_core::{Production, Span};',
        """
macro_rules! productions {
    ($($left:literal: $from:literal..$upto:literal,)*) => {
        [$(Production { left: $left, right: Span { from: $from, upto: $upto } }),*]
    };
}
""",
        listed('The productions, ordered by their left symbols.', f'PRODUCTIONS: [Production; {len(lines)}]', 'productions', lines)])


def claims_module(language):
    table, number = table_of(language), terminals(language)
    number[END_OF_TEXT] = END
    flat, spans = [], {}

    def part(names):
        found = tuple(sorted(number[n] for n in names))
        if found not in spans:
            spans[found] = (len(flat), len(flat) + len(found))
            flat.extend(found)
        return '%d..%d,' % spans[found]

    def by_symbol(note, name, claim):
        return listed(note, f'{name}: [Span; {len(table.symbols)}]', 'spans', [(s, part(claim[s])) for s in table.symbols])

    def plain(note, name, kind, claim):
        return numbers(note, f'{name}: [{kind}; {len(table.symbols)}]', [str(claim[s]).lower() for s in table.symbols])

    first = by_symbol('What begins each inner symbol, as parts of `TERMINALS`.', 'FIRST', table.first)
    follow = by_symbol('What follows each inner symbol, as parts of `TERMINALS`.', 'FOLLOW', table.follow)
    return '\n'.join([
        head(), 'use ll_core::Span;', SPANS, first, follow,
        numbers('The sets of terminals, each once.', f'TERMINALS: [u16; {len(flat)}]', map(str, flat)),
        plain('Whether each inner symbol may derive no token.', 'EMPTY', 'bool', table.empty),
        plain('A number that falls along a derivation of each inner symbol.', 'HEIGHT', 'u16', table.height),
        plain('A number that falls to each symbol that may begin an inner one.', 'RANK', 'u16', table.rank)])


def predictions_module(language):
    table, number = table_of(language), terminals(language)
    number[END_OF_TEXT] = END
    found = predictions(table, number)
    spans, lines, count = [], [], 0
    for symbol in table.symbols:
        looks = found[symbol]
        spans.append((symbol, '%d..%d,' % (count, count + len(looks))))
        lines.append((symbol, rows(f'{look} {production},' for look, production in looks)))
        count += len(looks)
    return '\n'.join([
        head(), 'use ll_core::{Prediction, Span};', SPANS,
        """macro_rules! predictions {
    ($($look:literal $production:literal,)*) => {
        [$(Prediction { look: $look, production: $production }),*]
    };
}
""",
        listed('The predictions of each inner symbol, as parts of `PREDICTIONS`.', f'PREDICTED: [Span; {len(spans)}]', 'spans', spans),
        listed('For each inner symbol its look-aheads in rising order, each with its production.',
               f'PREDICTIONS: [Prediction; {count}]', 'predictions', lines)])


def rules_module(language):
    """The productions as a definition, with the names of the inner symbols and the spellings of the terminals."""
    table, signs = table_of(language), lists()['signs']

    def item(kind, value):
        if kind == 'inner':
            return f'Inner {value}'
        if value in VALUED:
            return f'Terminal {VALUED.index(value)}'
        return f'{"sign" if value in signs else "word"} "{value}"'

    names = ''.join(f'abbrev pub {s} : ℕ\n{s} = {i}\n\n' for i, s in enumerate(table.symbols))
    rules = ''
    for p in table.productions:
        right = ''.join(f'{item(k, v)} ∷ ' for k, v in p.right) + '[]'
        lines = textwrap.wrap(f'rule {p.left} ({right}) ∷', 114, break_long_words=False)
        rules += ''.join(f'    {line}\n' for line in lines)
    return f'''-- Made by `tools/make_table.py`: change tools/grammars, not this file.
use Rattle.std.specs.Prelude.{{ℕ, List, [], ◌∷◌}}
use Rattle.ll_core.specs.declared.grammar.Symbol.TheVariants.{{Terminal, Inner}}
use Rattle.ll_core.specs.Table.{{Rule}}
use Rattle.{language}_grammar.specs.Terms.{{rule, word, sign}}

-- the inner symbols

{names}-- the productions; NAME, INT, STRING and COMMENT are the terminals 0 to 3
unfoldable pub {language}_rules : List Rule
{language}_rules =
{rules}    []
'''


def names_module(language):
    """The numbers of the productions that tools/actions names."""
    named = named_productions(language)
    lines = [f'/// {text_of(p)}\npub const {p.name}: u16 = {i};\n'
             for i, p in enumerate(table_of(language).productions) if p.name in named]
    return head() + '//! These are the numbers of the productions that mean something by themselves.\n\n' + '\n'.join(lines)


GRAMMAR_FILES = {'symbols': symbols_module, 'productions': productions_module, 'claims': claims_module,
                 'predictions': predictions_module, 'names': names_module}


def generated():
    """Each generated file with its text."""
    for language in LANGUAGES:
        for part, module in GRAMMAR_FILES.items():
            yield f'{language}_grammar/src/{part}.rt', module(language)
        yield f'{language}_grammar/specs/Rules.antt', rules_module(language)
    for path, text in action_files():
        yield 'text_model/' + path, text


def report():
    bad = 0
    for language in LANGUAGES:
        table = table_of(language)
        found = conflicts(table)
        used = {v for p in table.productions for k, v in p.right if k == 'terminal'}
        print(f'{language}: {len(table.symbols)} inner symbols, {len(table.productions)} productions, '
              f'{len(used)} terminals, {sum(len(p.right) for p in table.productions)} symbols on the right, '
              f'height {max(table.height.values())}, rank {max(table.rank.values())}, {len(found)} conflicts')
        for one, other, look in found:
            print(f'  {one} and {other} at {look}')
        bad += len(found)
    return 1 if bad else 0


def write(check):
    """Writes each file that isn't as it would be written, or names it."""
    differ = 0
    for path, text in generated():
        path = os.path.join(HERE, '..', 'crates', path)
        now = open(path).read() if os.path.exists(path) else None
        if now == text:
            continue
        differ += 1
        print(os.path.normpath(path))
        if not check:
            os.makedirs(os.path.dirname(path), exist_ok=True)
            with open(path, 'w') as file:
                file.write(text)
    return 1 if check and differ else 0


def main():
    words = argparse.ArgumentParser(description=__doc__, formatter_class=argparse.RawDescriptionHelpFormatter)
    words.add_argument('--check', action='store_true')
    words.add_argument('--report', action='store_true')
    words.add_argument('--numbers', choices=LANGUAGES)
    given = words.parse_args()
    if given.report:
        sys.exit(report())
    if given.numbers:
        for i, p in enumerate(table_of(given.numbers).productions):
            print(i, p.name, ':', text_of(p))
        return
    sys.exit(write(given.check))


if __name__ == '__main__':
    main()
