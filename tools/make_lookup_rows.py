#!/usr/bin/env python3
"""Writes what `lookup_rows` reads and must write: small books, links that are told, lookups, and what each gives.

  make_lookup_rows.py           writes the two files
  make_lookup_rows.py --check   fails where they differ from what would be written

The books are those of the worked scripts, 300 random ones of which the outcomes of all references are asked, and some for what lookups meet: generals in a circle, a diamond with a private
redefinition, aliases of refused references, recursive imports with private packages, imports in a circle, an import of
itself. Each is asked over its least links, over no link, and with references left open. The other program stands beside
the repository, in ../shared/oracle; where it isn't, nothing is checked.
"""
import glob
import os
import random
import re
import sys

sys.dont_write_bytecode = True

from example_texts import HAS_OTHER, SHARED, STAGE, on_one_line
from random_books import book as random_book

CRATE = os.path.join(os.path.dirname(os.path.abspath(__file__)), '..', 'crates', 'lookup_rows')
SEED = 20261201
LEAST_OF_WORKED = 40
RANDOM_BOOKS = 300
BOOKS_OVER_THE_LIBRARY = 8
VALUE_BOOKS = 40
LIBRARY = os.path.join(os.path.dirname(os.path.abspath(__file__)), 'library')
if HAS_OTHER:
    from oracle.implied import implied
    from oracle.linking import Files, Linker, Links, Trail
    from oracle.model import build
    from oracle.values import Values

# Books of one file or more: what each is about, and its files in the order in which they arrive.
BOOKS = [
    ('generals in a circle', [('a.sysml', 'part def U :> V { part p; } part def V :> U { part q; } part def W :> U;')]),
    ('a type of its own', [('a.sysml', 'part def A :> A { part x; }')]),
    ('a diamond with a private redefinition', [(
        'a.kerml', 'classifier A { feature x; } classifier B :> A; classifier C :> A { private feature y :>> x; } '
        'classifier D :> B, C;')]),
    ('a diamond with a redefinition', [(
        'a.kerml', 'classifier A { feature x; protected feature z; private feature w; } classifier B :> A; '
        'classifier C :> A { feature x :>> A::x; } classifier D :> B, C { feature :>> z; }')]),
    ('names that come from redefinitions', [(
        'a.kerml', 'classifier A { feature <s> x; } classifier B :> A { feature :>> x { feature k; } } '
        'classifier C :> B { feature :>> x; feature :>> s; }')]),
    ('aliases of refused references', [(
        'a.sysml', 'package P { alias a for Nowhere; alias b for a; alias c for Q; private package Q; '
        'public import a::*; part def R :> b; }')]),
    ('recursive imports with private packages', [(
        'a.sysml', 'package P { package Q { part def A; private package H { part def B; } } private package S { part def A; } } '
        'package I { public import P::**; } package J { public import all P::*::**; } package K { private import I::*; }')]),
    ('imports in a circle', [
        ('b.sysml', 'package B { public import A::*; public import C::*; part def b; }'),
        ('a.sysml', 'package A { public import B::*; public import C::*; part def a; }'),
        ('c.sysml', 'package C { public import A::*; public import B::*; private import A::a; protected part def c; }')]),
    ('an import of itself', [('a.sysml', 'package P { public import P::*; public import P::Q; package Q { public import P::**; } }')]),
    ('plain imports and one that is not', [(
        'a.sysml', 'package A { public import B::*; } package B { public import A::*; public import C::*::**; } '
        'package C { public import B::*; package D { part def x; } part def y; }')]),
    ('a library', [
        ('$lib/L.kerml', 'library package Base { abstract classifier Anything { feature self; } }'),
        ('u.sysml', 'part def T; part t : T;')]),
]

# Books whose implied specialisations over the library are asked.
OVER_THE_LIBRARY = [
    [('a.sysml', 'part def A; part def B :> A; part def C :> Parts::Part; part def D :> C;')],
    [('n.sysml', 'enum def Color { red; green; } attribute c : Color = Color::red;')],
    [('b.sysml', 'package P { item def A; port p; action def B { action b; } } requirement r { require constraint { true } }'),
     ('a.kerml', 'class A; classifier B :> Base::Anything; struct S { feature f; feature g :> Base::things; } assoc T; datatype D :> S;')],
]


def language_of(name):
    return 'kerml' if name.endswith('.kerml') else 'sysml'


def worked_books():
    """The books that the worked scripts leave, as far as each text can be read."""
    for path in sorted(glob.glob(os.path.join(SHARED, 'oracle', 'rows', '*.in'))):
        script, files = open(path, 'rb').read(), {}
        for found in re.finditer(rb'^put (\S+) (\d+)\n', script, re.M):
            text = on_one_line(script[found.end():found.end() + int(found.group(2))])
            name = found.group(1).decode('latin-1')
            if re.fullmatch(r'[a-z]+\.(sysml|kerml)', name) and text and len(text) < 600:
                files[name] = text.decode()
        if 0 < len(files) < 6:
            yield os.path.basename(path)[:-3], list(files.items())


class Book:
    """A book of files, each with its number in the order of arrival."""

    def __init__(self, files):
        self.files = files
        models = {}
        for name, text in files:
            model, fault = build(text.encode(), language_of(name), STAGE)
            models[name.encode()] = None if fault else (text.encode(), model)
        self.whole = all(models.values())
        if not self.whole:
            return
        project = {n: m for n, m in models.items() if not n.startswith(b'$')}
        library = {n: m for n, m in models.items() if n.startswith(b'$')}
        self.over = Files(project, library)
        self.links = Links(self.over, STAGE)
        numbers = {name.encode(): number for number, (name, text) in enumerate(files)}
        self.number = [numbers[name] for name in self.over.names]

    def place(self, pair):
        return '%d:%d' % (self.number[pair[0]], pair[1])

    def names(self):
        found = set()
        for model in self.over.models:
            for member in model.members:
                found |= set(member.declared())
        return sorted(n.decode() for n in found if re.fullmatch(rb'[A-Za-z]+', n))

    def elements(self):
        return [(rank, i) for rank, model in enumerate(self.over.models) for i in range(len(model.elements))]

    def decided(self, left_open):
        """The lines that decide all references but these, and the table of them."""
        lines, table = [], {}
        for key in self.over.keys():
            outcome = self.links.table.get(key)
            if outcome is None or key in left_open:
                continue
            if outcome[0] == 'linked':
                table[key] = outcome
                lines.append('link %s %s' % (self.place(key), self.place(outcome[2])))
            else:
                table[key] = ('absent', 1)
                lines.append('refuse %s' % self.place(key))
        return lines, table


def look_words(book, looks):
    words = set()
    for kind, what in looks:
        words.add('name' if kind == 'root' else str(book.number[what]) if kind == 'file' else book.place(what))
    return sorted(words)


def line_of(head, words):
    return ' '.join([head] + sorted(set(words)))


def answer_of(book, res, words):
    if res.done:
        head = line_of('found', words(res.value))
    else:
        head = line_of('waits', [book.place(r) for r in res.waits])
    return ' '.join([head, 'looks'] + look_words(book, res.looks))


def hit_words(book):
    return lambda hits: ['%s>%s' % (book.place(m), book.place(e)) for m, e in hits]


def element_words(book):
    return lambda elements: [book.place(e) for e in elements]


def explicit(settled, e):
    """The types that are reached from e by what it and they specialise explicitly."""
    found, todo = set(), [e]
    while todo:
        for other in settled.explicit_generals(todo.pop()):
            if other not in found:
                found.add(other)
                todo.append(other)
    return found


def led(over, member):
    """Where a member leads."""
    trail, hits = Trail(), []
    over.hit(trail, hits, member)
    return trail.res(frozenset(e for m, e in hits))


def asked(book, table):
    """Each lookup over that table with its answer."""
    over = Linker(book.over, table, STAGE)
    settled = Linker(book.over, table, STAGE, settled=True, looks=False)
    hits, elements = hit_words(book), element_words(book)
    for e in book.elements():
        at = book.place(e)
        kind = book.over.element(e)
        yield 'generals ' + at, answer_of(book, over.generals(e), elements)
        yield 'settled-generals ' + at, line_of('found', elements(settled.generals(e).value))
        above = explicit(settled, e)
        for other in book.elements()[1:]:
            if kind.is_type() and book.over.element(other).is_type():
                yield 'specialises %s %s' % (at, book.place(other)), 'true' if other in above else 'false'
        if kind.is_feature():
            yield 'redefined ' + at, answer_of(book, over.all_redefined(e), elements)
            yield 'settled-redefined ' + at, line_of('found', elements(settled.all_redefined(e).value))
        for name in book.names():
            x = name.encode()
            yield 'declared %s %s' % (at, name), answer_of(book, over.tier1(e, x), hits)
            yield 'effective %s %s' % (at, name), answer_of(book, over.tier2(e, x), hits)
            if kind.is_type():
                yield 'inherited %s %s' % (at, name), answer_of(book, over.inherited(e, x), hits)
                yield 'raw %s %s' % (at, name), answer_of(book, over.inherited(e, x, True), hits)
            for mode, recursive, every in (('plain', False, False), ('recursive', True, False), ('all', False, True), ('both', True, True)):
                got = over.visible(e, x, frozenset(), recursive, every)
                yield 'visible %s %s %s ' % (at, mode, name), answer_of(book, got, hits)
            other = book.elements()[1 + (e[1] % (len(book.elements()) - 1))] if len(book.elements()) > 1 else e
            if other != e:
                got = over.visible(e, x, frozenset([other]), False, False)
                yield 'visible %s plain %s %s' % (at, name, book.place(other)), answer_of(book, got, hits)
    for rank, model in enumerate(book.over.models):
        for member in range(len(model.members)):
            yield 'member ' + book.place((rank, member)), answer_of(book, led(over, (rank, member)), elements)
        for made in range(len(model.imports)):
            owner = (rank, model.imports[made].owner.index) if hasattr(model.imports[made], 'owner') else None
            for name in book.names():
                for excluded in [()] + ([(owner,)] if owner else []):
                    got = over.imported((rank, made), name.encode(), frozenset(excluded))
                    words = ' '.join(book.place(e) for e in excluded)
                    yield 'imported %s %s %s' % (book.place((rank, made)), name, words), answer_of(book, got, hits)


def outcome_words(book, key):
    """What becomes of a reference."""
    kind, *rest = book.links.outcome(key)
    if kind == 'linked':
        steps, element = rest
        return ' '.join(['linked'] + [book.place(e) for e in list(steps) + [element]])
    if kind == 'absent':
        return 'absent %d' % rest[0]
    if kind == 'ambiguous':
        return 'ambiguous %d %s %s' % (rest[0], book.place(rest[1]), book.place(rest[2]))
    return 'hidden %d %s' % (rest[0], book.place(rest[1])) if kind == 'hidden' else 'cyclic ' + book.place(rest[0])


def rounds_of(book):
    """What becomes of all references, in the order of files by arrival and of numbers."""
    places = [(book.place(key), key) for key in book.over.keys()]
    numbered = sorted((tuple(int(n) for n in place.split(':')), place, key) for place, key in places)
    return ['%s %s' % (place, outcome_words(book, key)) for number, place, key in numbered]


def random_books(chance):
    """Random books: each a list of files, now and then one of them of the library."""
    for made in range(RANDOM_BOOKS):
        files = [('%s.%s' % (letter, language), text) for letter, (language, text) in zip('dbac', random_book(chance))]
        yield [(('$' + name if chance.random() < 0.15 else name), text) for name, text in files]


def library_files():
    """The library's texts, each on one line."""
    for path in sorted(glob.glob(os.path.join(LIBRARY, '*'))):
        yield '$lib/' + os.path.basename(path), on_one_line(open(path, 'rb').read()).decode()


def implied_rows(book):
    """The implied specialisations: of each the type, the member that owns it, and the base."""
    return ['%s %s %s' % (book.place(of), book.place(book.over.owning_member(of)), book.place(base)) for of, base in implied(book.links)]


OPERATORS = ['implies', 'or', '|', 'xor', 'and', '&', '==', '!=', '<', '>', '<=', '>=', '+', '-', '*', '/', '%']
OPERANDS = ['7', 'true', '"text"', 'E::red', 'null']
GREATEST = 9223372036854775807


def pairs_of_kinds():
    """Each operator over operands of each pair of kinds, and each unary one over each kind."""
    texts = ['%s %s %s' % (left, operator, right) for operator in OPERATORS for left in OPERANDS for right in OPERANDS]
    return texts + ['%s %s' % (operator, part) for operator in ('not', '-', '+') for part in OPERANDS]


def edges():
    """Results at the edges of 64 bits, refusals in both orders, and branches that aren't read."""
    least = '(- %d - 1)' % GREATEST
    texts = ['%d + 1' % GREATEST, '%d + 0' % GREATEST, '%s - 1' % least, '- %s' % least, '%s * 1' % least, '%s * (- 1)' % least,
             '%s / (- 1)' % least, '%s %% (- 1)' % least, '%d * %d' % (GREATEST, GREATEST), '7 / 2', '8 / 2', '(- 8) / 2', '(- 7) % 2',
             '7 % (- 2)', '7 / 0', '7 % 0', '0 / 7', '(7 / 0) + (true + 1)', '(true + 1) + (7 / 0)', '(7 / 2) + (7 / 0)', '(7 / 0) + (7 / 2)',
             'true or 7 / 0 == 1', '7 / 0 == 1 or true', 'false and 7', 'true and 7', 'false implies 7', 'true implies 7', 'true or 7',
             'false or 7', 'if true ? 1 else 7 / 0', 'if false ? 7 / 0 else 2', 'if 1 ? 2 else 3', 'if 7 / 0 == 1 ? 2 else 3',
             'if true ? 7 / 0 else 1', 'not (1 == 2) and 3 < 4', '1 + 2 * 3 - 4', '(1 + 2) * 3', '"a" + "b" == "ab"', '"a" < "b"']
    return texts + ['if true ? 1 else a0', 'nowhere', '1 + nowhere', 'false and nowhere', 'D', 'E::red == E::red', 'E::red == E::green']


def random_expression(chance, depth, names):
    """An expression over small numbers, truth values and names."""
    kind = chance.random()
    if depth == 0 or kind < 0.15:
        return chance.choice(['0', '1', '2', '7', 'true', 'false', '"t"', 'null', 'E::red'] + names)
    part = lambda: random_expression(chance, depth - 1, names)
    if kind < 0.25:
        return '(%s %s)' % (chance.choice(['not', '-', '+']), part())
    if kind < 0.35:
        return '(if %s ? %s else %s)' % (part(), part(), part())
    return '(%s %s %s)' % (part(), chance.choice(OPERATORS), part())


def value_books(chance):
    """Books of attributes with expressions, some of which name one another, and redefine one another."""
    head = 'enum def E { red; green; } part def D; '
    for texts in (pairs_of_kinds(), edges()):
        yield [('v.sysml', head + ' '.join('attribute a%d = %s;' % pair for pair in enumerate(texts)))]
    for made in range(VALUE_BOOKS):
        names = ['a%d' % k for k in range(12)]
        items = ['attribute %s = %s;' % (name, random_expression(chance, 3, names)) for name in names]
        items += ['attribute b%d :>> %s;' % (k, chance.choice(names + ['b%d' % j for j in range(4)])) for k in range(4)] + ['attribute c;']
        yield [('v.sysml', head + ' '.join(items))]


def answer_words(book, answer):
    """What a feature is worth, or why there is no value."""
    kind, *rest = answer
    if kind in ('integer', 'null'):
        return ' '.join([kind] + [str(x) for x in rest])
    if kind == 'boolean':
        return 'boolean ' + ('true' if rest[0] else 'false')
    return 'text of %d' % len(rest[0]) if kind == 'text' else '%s %s' % (kind, book.place(rest[0]))


def asked_values(book):
    """Each feature with its value."""
    values = Values(book.links)
    for e in book.elements():
        if book.over.element(e).is_feature():
            yield 'value ' + book.place(e), answer_words(book, values.value((e, None)))


def tables_of(book):
    """Which references are left open: none, each alone, two, all."""
    keys = [k for k in book.over.keys() if k in book.links.table]
    yield ()
    for key in keys[:6]:
        yield (key,)
    if len(keys) > 1:
        yield tuple(keys[:2])
        yield tuple(keys)


def written():
    chance = random.Random(SEED)
    lines, answers = [], []

    def add(files, tables, most):
        book = Book(files)
        if not book.whole:
            return
        for left_open in tables(book):
            decided, table = book.decided(left_open)
            pairs = list(asked(book, table))
            if len(pairs) > most:
                pairs = chance.sample(pairs, most)
            for name, text in files:
                lines.append('%s %s %s' % (language_of(name), name, text))
            lines.extend(decided)
            for question, answer in pairs:
                lines.append(question)
                answers.append(answer)
            lines.append('end')
            answers.append('end')

    def add_rounds(files):
        book = Book(files)
        if not book.whole:
            return
        lines.extend('%s %s %s' % (language_of(name), name, text) for name, text in files)
        lines.extend(['rounds', 'end'])
        answers.extend(rounds_of(book) + ['end'])

    def add_implied(files):
        book = Book(list(library_files()) + files)
        if not book.whole:
            return
        lines.extend('%s %s %s' % (language_of(name), name, text) for name, text in book.files)
        lines.extend(book.decided(())[0] + ['implied', 'end'])
        answers.extend(implied_rows(book) + ['end'])

    def add_values(files):
        book = Book(files)
        if not book.whole:
            raise ValueError(files)
        asked_of = list(asked_values(book))
        lines.extend('%s %s %s' % (language_of(name), name, text) for name, text in files)
        lines.extend(book.decided(())[0] + [question for question, answer in asked_of] + ['end'])
        answers.extend([answer for question, answer in asked_of] + ['end'])

    for files in value_books(random.Random(SEED + 3)):
        add_values(files)
    for files in OVER_THE_LIBRARY + list(random_books(random.Random(SEED + 2)))[:BOOKS_OVER_THE_LIBRARY]:
        add_implied([(name.lstrip('$'), text) for name, text in files])
    for about, files in BOOKS + list(worked_books()):
        add_rounds(files)
    for files in random_books(random.Random(SEED + 1)):
        add_rounds(files)
    for about, files in BOOKS:
        add(files, tables_of, 60)
    for about, files in worked_books():
        add(files, lambda book: [()], LEAST_OF_WORKED)
    return '\n'.join(lines) + '\n', '\n'.join(answers) + '\n'


def main():
    if not HAS_OTHER:
        return
    stdin, stdout = written()
    for name, text in (('stdin', stdin), ('stdout', stdout)):
        path = os.path.join(CRATE, name)
        if '--check' in sys.argv:
            if open(path).read() != text:
                sys.exit('%s differs from what another program gives' % path)
        else:
            open(path, 'w').write(text)


main()
