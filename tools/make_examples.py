#!/usr/bin/env python3
"""Writes what `grammar_examples` reads and must write: texts, and what another program says of them.

  make_examples.py           writes the two files
  make_examples.py --check   fails where they differ from what would be written

The texts are those of the worked scripts and of the library, each of them with one token left out, doubled or changed,
texts derived from the grammar so that every production is met, and these changed likewise. The other program stands
beside the repository, in ../shared/oracle; where it isn't, nothing is checked.
"""
import os
import random
import sys

sys.dont_write_bytecode = True

from example_texts import HAS_OTHER, STAGE, changed, costs, derived, on_one_line, worked_texts

CRATE = os.path.join(os.path.dirname(os.path.abspath(__file__)), '..', 'crates', 'grammar_examples')
if HAS_OTHER:
    from grammar_tables import table_of
    from oracle.grammar import grammar_for
    from oracle.lexer import lex


def verdict(language, text):
    """What the other program says of the text, or None where its pieces are at fault."""
    lexed = lex(text, language)
    if lexed.fault:
        return None
    _, place = grammar_for(language, STAGE).parse(lexed.tokens)
    if place is None:
        return f'accepted {len(lexed.tokens)}'
    return f'syntax {lexed.tokens[place].start if place < len(lexed.tokens) else len(text)}'


def cases():
    """The texts, 400 in all, each with its language and what the other program says."""
    chance = random.Random(14)
    found = {}

    def take(language, text, most):
        text = on_one_line(text)
        if text and len(found) < most and (language, text) not in found:
            said = verdict(language, text)
            if said:
                found[language, text] = said

    worked = list(worked_texts())
    for language, text in worked:
        take(language, text, 120)
    while len(found) < 200:
        language, text = chance.choice(worked)
        take(language, changed(chance, language, text), 200)
    for language, most in (('kerml', 265), ('sysml', 330)):
        grammar, met = grammar_for(language, STAGE), set()
        least = costs(grammar)
        while len(found) < most:
            take(language, derived(chance, grammar, least, met), most)
        whole = {(name, i) for name, rights in grammar.productions.items() for i in range(len(rights))}
        lost = {pair for pair in whole - met if pair[0] not in grammar.unused}
        if lost:
            raise SystemExit(f'these productions of {language} were not met: {sorted(lost)}')
    made = list(found)[200:]
    while len(found) < 400:
        language, text = chance.choice(made)
        take(language, changed(chance, language, text), 400)
    return found


def files():
    found = cases()
    count = {language: len([l for l, _ in found if l == language]) for language in ('kerml', 'sysml')}
    kinds = sorted({said.split()[0] for said in found.values()})
    print(f'{len(found)} texts, {count}, {[(k, len([s for s in found.values() if s.startswith(k)])) for k in kinds]}')
    head = []
    for language in ('kerml', 'sysml'):
        table = table_of(language)
        used = {v for p in table.productions for k, v in p.right if k == 'terminal'}
        head.append(f'{language}: {len(table.productions)} productions, {len(table.symbols)} inner symbols, '
                    f'{len(used)} terminals, checked true')
    yield 'stdin', b''.join(language.encode() + b' ' + text + b'\n' for language, text in found)
    yield 'stdout', ('\n'.join(head + list(found.values())) + '\n').encode()


def main():
    check = sys.argv[1:] == ['--check']
    differ = 0
    for name, text in files():
        path = os.path.join(CRATE, name)
        now = open(path, 'rb').read() if os.path.exists(path) else None
        if now != text:
            differ += 1
            print(os.path.normpath(path))
            if not check:
                open(path, 'wb').write(text)
    return 1 if check and differ else 0


if __name__ == '__main__':
    sys.exit(main() if HAS_OTHER else 0)
