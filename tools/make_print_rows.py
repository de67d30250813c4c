#!/usr/bin/env python3
"""Writes what `print_rows` reads and must write: texts, and the canonical text that another program gives of each.

  make_print_rows.py           writes the two files
  make_print_rows.py --check   fails where they differ from what would be written

The texts are those of the worked scripts and of the library; for each language texts derived from the grammar so that
every production is met; each pair of operators, one as a part of the other, at both sides; and names, notes, ends and
marks of each kind. The other program stands beside the repository, in ../shared/oracle; where it isn't, nothing is checked.
"""
import os
import random
import sys

sys.dont_write_bytecode = True

from example_texts import HAS_OTHER, STAGE, costs, derived, on_one_line, worked_texts

CRATE = os.path.join(os.path.dirname(os.path.abspath(__file__)), '..', 'crates', 'print_rows')
SEED, DERIVED = 20261202, 200
if HAS_OTHER:
    from oracle.grammar import grammar_for
    from oracle.model import build
    from oracle.printer import print_text

OPERATORS = ['implies', 'or', '|', 'xor', 'and', '&', '==', '!=', '<', '>', '<=', '>=', '+', '-', '*', '/', '%']
TEXTS = [
    ('sysml', "part 'in'; part 'two words'; part 'a''b'; part 'it\\'s'; part <'x y'> 'line\\nfeed'; part def 'feature';"),
    ('kerml', "feature 'in'; feature part; class 'class'; feature 'not'; feature <s> n; feature 'part';"),
    ('sysml', 'connection c connect a to b; connection d connect (x ::> a, y ::> b.c, [2] z ::> e); bind a = b.c; interface i connect p to q;'),
    ('sysml', 'doc /* a note */ comment c about A, B locale "en" /* on both */ package A { comment /* inner */ } part B;'),
    ('sysml', 'package P { private import Q::*; public import R::**; protected import all S::T; import U::*::**; private alias <a> b for c::d; }'),
    ('sysml', 'part a[1..*] ordered nonunique :> b, c : D, E :>> f, g ::> h; attribute d default = 1 + 2; attribute e [n..m] = "t\\"q";'),
    ('sysml', 'requirement r { subject s : S; assume constraint { a > 1 } require c; require constraint x { y } }'),
    ('sysml', 'calc f { in x : I; return y : J; x + y } abstract part def Q; ref part r; end part q; derived constant attribute z;'),
    ('kerml', 'abstract class A :> B, C; composite feature x : A :>> y.z; const feature k = - (- 1); in feature i; inout feature j; end feature e;'),
    ('kerml', 'function f { in feature a; if a ? 1 else if b ? 2 else (c or d) } standard library package L { namespace N; }'),
    ('kerml', '', ), ('sysml', ''),
]


def pairs_of_operators(language):
    """Each operator as the left and as the right part of each, with brackets; and unary ones around and inside each."""
    word = 'attribute' if language == 'sysml' else 'feature'
    texts = []
    for outer in OPERATORS:
        items = ['%s (a %s b) %s c' % ('', inner, outer) for inner in OPERATORS] + ['a %s (b %s c)' % (outer, inner) for inner in OPERATORS]
        items += ['%s (a %s b)' % (sign, outer) for sign in ('not', '-', '+')] + ['(%s a) %s b' % (sign, outer) for sign in ('not', '-', '+')]
        items += ['(if a ? b else c) %s d' % outer, 'a %s (if b ? c else d)' % outer, 'if a %s b ? c else d' % outer]
        texts.append((language, ' '.join('%s x = %s;' % (word, item) for item in items)))
    return texts


def derived_texts(language):
    """Texts in the profile, so many and more until every production was met."""
    grammar, chance, met, found = grammar_for(language, STAGE), random.Random(SEED), set(), []
    least = costs(grammar)
    for tried in range(20 * DERIVED):
        if len(found) >= DERIVED:
            break
        text = on_one_line(derived(chance, grammar, least, met))
        if text is not None and build(text, language, STAGE)[1] is None:
            found.append((language, text.decode()))
    return found


def answer(language, text):
    """The canonical text of a text's model, which reads back."""
    model, fault = build(text.encode(), language, STAGE)
    return 'no model\n' if fault is not None else print_text(model).decode() + 'again the same\n'


def rows():
    """Each line that is read, with what is written for it."""
    texts = list(TEXTS)
    for language, text in worked_texts():
        text = on_one_line(text)
        if text is not None:
            texts.append((language, text.decode()))
    for language in ('kerml', 'sysml'):
        texts += pairs_of_operators(language) + derived_texts(language)
    return {'%s %s\n' % pair: answer(*pair) for pair in texts}


def main():
    found, differ = rows(), 0
    kinds = [said.endswith('again the same\n') for said in found.values()]
    print('%d texts, %d of them with a model' % (len(kinds), sum(kinds)))
    for name, text in (('stdin', ''.join(found)), ('stdout', ''.join(found.values()))):
        path = os.path.join(CRATE, name)
        now = open(path, 'rb').read() if os.path.exists(path) else None
        if now != text.encode():
            differ += 1
            print(os.path.normpath(path))
            if '--check' not in sys.argv:
                open(path, 'wb').write(text.encode())
    return 1 if '--check' in sys.argv and differ else 0


if __name__ == '__main__':
    sys.exit(main() if HAS_OTHER else 0)
