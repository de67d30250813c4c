#!/usr/bin/env python3
"""Writes what `build_examples` reads and must write: texts, and the model or fault that another program gives them.

  make_build_examples.py           writes the two files
  make_build_examples.py --check   fails where they differ from what would be written

The texts are those of the worked scripts and of the library; for each language 500 texts derived from the grammar so
that every production is met, and 500 with one token left out, doubled or changed; and some at the edges of the limits.
The other program stands beside the repository, in ../shared/oracle; where it isn't, nothing is checked.
"""
import os
import random
import re
import sys

sys.dont_write_bytecode = True

from example_texts import HAS_OTHER, STAGE, changed, costs, derived, on_one_line, worked_texts

CRATE = os.path.join(os.path.dirname(os.path.abspath(__file__)), '..', 'crates', 'build_examples')
if HAS_OTHER:
    from oracle.grammar import grammar_for
    from oracle.model import Import, build

ROLES = {'subclass': 'Subclass', 'typing': 'Typing', 'subset': 'Subsetting', 'redefine': 'Redefinition',
         'reference': 'ReferenceSubsetting', 'import': 'Import', 'alias': 'Alias', 'about': 'About', 'value': 'Value',
         'bound': 'Bound'}
MARKS = ('library', 'standard', 'end', 'derived', 'abstract', 'composite', 'constant', 'ref', 'ordered', 'nonunique',
         'default')
SIGNS_BEFORE = {'-': 'Minus', '+': 'Plus', 'not': 'Not'}
SIGNS_BETWEEN = {'implies': 'Implies', 'or': 'Or', '|': 'Bar', 'xor': 'Xor', 'and': 'And', '&': 'Amp', '==': 'Equal',
                 '!=': 'NotEqual', '<': 'Less', '>': 'Greater', '<=': 'AtMost', '>=': 'AtLeast', '+': 'Add',
                 '-': 'Subtract', '*': 'Multiply', '/': 'Divide', '%': 'Remainder'}
FAULTS = {'Encoding': 'encoding', 'Token': 'token', 'TooDeep': 'deep', 'Syntax': 'syntax', 'Limit': 'limit'}
# Texts at the edges of the limits: how often a piece stands between a beginning and an end.
LONG = [
    ('sysml', 1000000, 'attribute a = ', 'not ', 'true;'), ('kerml', 100000, 'feature a = ', 'not ', 'true;'),
    ('sysml', 999, 'attribute a = ', 'not ', 'true;'), ('sysml', 1000, 'attribute a = ', 'not ', 'true;'),
    ('sysml', 64, '', 'package a { ', '}' * 64), ('sysml', 65, '', 'package a { ', '}' * 65),
    ('kerml', 64, '', 'namespace { ', '}' * 64), ('kerml', 65, '', 'namespace { ', '}' * 65),
    ('sysml', 64, 'attribute a = ', '(', '1' + ')' * 64 + ';'), ('sysml', 65, 'attribute a = ', '(', '1' + ')' * 65 + ';'),
    ('sysml', 999, 'attribute a = 1', ' + 1', ';'), ('sysml', 1000, 'attribute a = 1', ' + 1', ';'),
    ('sysml', 998, 'attribute a = 1', ' + 1', ' + 9223372036854775808;'),
    ('sysml', 1000, 'attribute a = (1', ' + 1', ') + 9223372036854775808;'),
    ('sysml', 0, '', '', ''), ('kerml', 0, '', '', ''), ('sysml', 3, '', '/* note */ ', ''),
    ('kerml', 3, ' ', '/* note */ ', ''), ('sysml', 3, '//* a note of the writer */ ', ' ', ''),
    ('sysml', 262145, 'part a;', ' part b : a;', ''),
]
LITERALS = ['attribute a = 9223372036854775807;', 'attribute a = 9223372036854775808;',
            'part b [9223372036854775808..*]; attribute a = 99999999999999999999;',
            'attribute a = 1 + 9223372036854775808 + 9223372036854775809;', 'part a', '}', 'part \'', 'part "', '/* a', 'part #;']


def spelt(open_mark, name, close):
    return '' if name is None else open_mark + name.decode() + close


def limit(one):
    if one is None:
        return '-'
    return {'named': lambda: f'r{one[1].index}', 'number': lambda: str(one[1]), 'star': lambda: '*'}[one[0]]()


def node(one):
    kind, what, place = one
    said = {'integer': lambda: str(what), 'boolean': lambda: 'true' if what else 'false', 'null': lambda: 'null',
            'text': lambda: '"' + what.decode() + '"', 'named': lambda: f'r{what.index}',
            'unary': lambda: SIGNS_BEFORE[what], 'binary': lambda: SIGNS_BETWEEN[what], 'if': lambda: 'If'}[kind]()
    return f' {said}@{place}'


def element(one):
    said = f' | {one.kind}' + ('' if one.owner is None else f' ^{one.owner.index}')
    said += spelt(' <', one.short, '>') + spelt(" '", one.name, "'")
    said += ''.join(f' {mark}' for mark in MARKS if mark in one.marks)
    said += ''.join(f' {word}' for word in (one.direction, one.part_of) if word)
    said += spelt(' /*', one.body, '*/') + spelt(' locale "', one.locale, '"')
    if one.bounds:
        said += f' [{limit(one.bounds[0])}..{limit(one.bounds[1])}]'
    for word, nodes in ((' =', one.value), (' gives', one.result)):
        if nodes is not None:
            said += word + ''.join(node(n) for n in nodes)
    return said + ' {' + ''.join(f' i{i.index}' if isinstance(i, Import) else f' m{i.index}' for i in one.items) + ' }'


def member(one):
    target = f'e{one.element.index}' if one.element is not None else f'r{one.alias.index}'
    names = spelt(' <', one.short, '>') + spelt(" '", one.name, "'")
    return f' | member of {one.owner.index} {target}{names} {one.visibility} @{one.place}'


def reference(one):
    said = f' | {ROLES[one.role]} of {one.context.index}' + (' $' if one.absolute else '')
    return said + ''.join(f' {s.decode()}' for s in one.path) + ''.join(f' .{s.decode()}' for s in one.chain) + f' @{one.place}'


def imported(one):
    words = ''.join(f' {word}' for word, is_set in (('*', one.star), ('**', one.recursive), ('all', one.all)) if is_set)
    return f' | import of {one.owner.index} r{one.ref.index}{words} {one.visibility}'


def answer(language, text):
    """The model of the text, or its fault, on a line."""
    model, fault = build(text, language, STAGE)
    if fault:
        return f'{FAULTS[fault[0]]} {fault[1]}'
    return ('model' + ''.join(map(element, model.elements)) + ''.join(map(member, model.members))
            + ''.join(map(reference, model.refs)) + ''.join(map(imported, model.imports)))


def derived_texts(chance, language, met):
    """500 texts of the grammar that meet every production, and 500 with one token changed."""
    grammar = grammar_for(language, STAGE)
    least, found = costs(grammar), {}
    while len(found) < 500:
        found[derived(chance, grammar, least, met)] = None
    whole = {(name, i) for name, rights in grammar.productions.items() for i in range(len(rights))}
    lost = {pair for pair in whole - met if pair[0] not in grammar.unused}
    if lost:
        raise SystemExit(f'these productions of {language} were not met: {sorted(lost)}')
    made = list(found)
    while len(found) < 1000:
        found[changed(chance, language, chance.choice(made))] = None
    return list(found)


def lines():
    """Each line that is read, and what is written for it."""
    chance, found = random.Random(15), {}
    texts = list(worked_texts()) + [('sysml', text.encode()) for text in LITERALS]
    for language in ('kerml', 'sysml'):
        texts += [(language, text) for text in derived_texts(chance, language, set())]
    for language, text in texts:
        text = on_one_line(text)
        if text is not None and not re.match(rb'[0-9]+\|', text):
            found[language.encode() + b' ' + text] = answer(language, text)
    for language, count, begin, piece, end in LONG:
        text = (begin + piece * count + end).encode()
        said = answer(language, text)
        if len(said) < 100000:
            found[f'{language} {count}|{begin}|{piece}|{end}'.encode()] = said
    return found


def main():
    check = sys.argv[1:] == ['--check']
    found, differ = lines(), 0
    kinds = [said.split()[0] for said in found.values()]
    print(f'{len(found)} texts: {sorted((kind, kinds.count(kind)) for kind in set(kinds))}')
    for name, text in (('stdin', b''.join(line + b'\n' for line in found)),
                       ('stdout', ('\n'.join(found.values()) + '\n').encode())):
        path = os.path.join(CRATE, name)
        now = open(path, 'rb').read() if os.path.exists(path) else None
        if now != text:
            differ += 1
            print(os.path.normpath(path))
            if not check:
                open(path, 'wb').write(text)
    return 1 if check and differ else 0


if __name__ == '__main__':
    sys.exit(main() if HAS_OTHER else 0)
