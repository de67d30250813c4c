"""The grammars as tables, with their claims.

The grammars stand in grammars/: common.grammar, and the file of the language. In them NAME, INT, STRING
and COMMENT are tokens, and other terminals stand in quotes. `[ X ]` is an inner symbol with the
productions X and nothing; `{ X }` is one with X followed by itself, and nothing; alternatives in round
brackets are an inner symbol of their own. Equal ones are one symbol. File is the start symbol.

A terminal's number is that of the lexer: Name 0, Integer 1, Quote 2, Comment 3, then 4 and a sign's place in
the list of signs, or 260 and a word's place in its language's list. A production's number is its place among the
productions, which are ordered by their left symbols; those of a rule come in the order of its alternatives. A
production is named after its left symbol and its place there, as SPEC_2 for the third alternative of Spec; a rule
with one alternative gives the bare name.
"""
import os
import re
from dataclasses import dataclass, field

HERE = os.path.dirname(os.path.abspath(__file__))
VALUED = ['NAME', 'INT', 'STRING', 'COMMENT']  # in the order of their numbers
END = 65535
END_OF_TEXT = 'the end of the text'
LANGUAGES = ('kerml', 'sysml')
CLOSING = {'(': ')', '[': ']', '{': '}'}
SIGN_NAMES = dict(zip('{}[]()<>;,.:=!+-*/%&|~^@#$?', (
    'Brace Brace Bracket Bracket Round Round Less Greater Semicolon Comma Dot Colon Equals Not Plus Minus '
    'Star Slash Percent And Bar Tilde Caret At Hash Dollar Question').split()))
TOKEN = re.compile(r"\s*(?:'([^']+)'|([A-Za-z][A-Za-z0-9]*)|(\S))")


# A grammar's text

def read_rules(text):
    """Maps each rule's name to its alternatives. An item is ('terminal', text), ('rule', name), or
    (bracket, alternatives)."""
    tokens = [m.groups() for m in TOKEN.finditer(text.strip())]
    at = 0

    def sign(expected=None):
        found = tokens[at][2] if at < len(tokens) else None
        return found is not None and (expected is None or found == expected)

    def alternatives():
        nonlocal at
        found = [sequence()]
        while sign('|'):
            at += 1
            found.append(sequence())
        return tuple(found)

    def sequence():
        nonlocal at
        items = []
        while not sign() or tokens[at][2] in CLOSING:
            quoted, word, bracket = tokens[at]
            at += 1
            if bracket:
                items.append((bracket, alternatives()))
                if not sign(CLOSING[bracket]):
                    raise SystemExit(f'no {CLOSING[bracket]} before token {at}')
                at += 1
            elif quoted or word in VALUED:
                items.append(('terminal', quoted or word))
            else:
                items.append(('rule', word))
        return tuple(items)

    rules = {}
    while at < len(tokens):
        name = tokens[at][1]
        at += 1
        if not sign('='):
            raise SystemExit(f'no = after {name}')
        at += 1
        rules[name] = alternatives()
        if not sign('.'):
            raise SystemExit(f'no . after {name}')
        at += 1
    return rules


def rules_of(language):
    rules = {}
    for name in ('common', language):
        with open(os.path.join(HERE, 'grammars', name + '.grammar')) as text:
            for rule, found in read_rules(text.read()).items():
                if rule in rules:
                    raise SystemExit(f'{rule} stands twice')
                rules[rule] = found
    return rules


def terminals_in(alternatives, found):
    for items in alternatives:
        for kind, value in items:
            if kind == 'terminal':
                found.add(value)
            elif kind != 'rule':
                terminals_in(value, found)


def lists():
    """The lexer's lists of signs and of each language's reserved words, as its definitions have them."""
    with open(os.path.join(HERE, '..', 'crates', 'token_core', 'specs', 'Words.antt')) as text:
        parts = re.split(r'^(signs|words Kerml|words Sysml) =$', text.read(), flags=re.M)
    return {name: ''.join(re.findall(r'codes "([^"]*)"', rest)).split() for name, rest in zip(parts[1::2], parts[2::2])}


def terminals(language):
    """The number of each terminal that may stand in a text of the language: as token_core's terminal_of has it."""
    signs, words = lists()['signs'], lists()['words ' + language.title()]
    numbers = {t: i for i, t in enumerate(VALUED)}
    numbers.update({t: 4 + i for i, t in enumerate(signs)})
    numbers.update({t: 260 + i for i, t in enumerate(words)})
    return numbers


# Productions without brackets

@dataclass
class Production:
    left: str
    right: list          # of ('terminal', text) and ('inner', symbol)
    name: str = ''


@dataclass
class Table:
    symbols: list
    productions: list
    empty: dict = field(default_factory=dict)
    first: dict = field(default_factory=dict)
    follow: dict = field(default_factory=dict)
    height: dict = field(default_factory=dict)
    rank: dict = field(default_factory=dict)


def word_of(terminal):
    return ''.join(SIGN_NAMES.get(c, c) for c in terminal)


def bracket_name(bracket, alternatives):
    """A name for the inner symbol that the brackets make, after the first things that they hold."""
    def held(items):
        for kind, value in items:
            if kind == 'terminal':
                yield word_of(value)
            elif kind == 'rule':
                yield value
            else:
                yield from held(value[0])

    words = [w for items in alternatives for w in held(items)]
    prefix = {'[': 'Maybe', '{': 'Many', '(': 'One'}[bracket]
    return prefix + ''.join(w[:1].upper() + (w[1:].lower() if w.isupper() else w[1:]) for w in words[:3])


def unused(name, names):
    """The name, with a number behind it where it is taken."""
    if name not in names:
        return name
    number = 2
    while f'{name}{number}' in names:
        number += 1
    return f'{name}{number}'


def expand(rules):
    symbols = list(rules)
    productions = []
    made = {}

    def symbol(item):
        kind, value = item
        if kind == 'terminal':
            return item
        if kind == 'rule':
            if value not in rules:
                raise SystemExit(f'there is no rule {value}')
            return ('inner', value)
        if item not in made:
            name = unused(bracket_name(kind, value), symbols)
            made[item] = name
            symbols.append(name)
            inside = [symbol(i) for i in value[0]] if len(value) == 1 else [symbol(('(', value))]
            if kind == '(':
                for items in value:
                    productions.append(Production(name, [symbol(i) for i in items]))
            else:
                productions.append(Production(name, inside + ([('inner', name)] if kind == '{' else [])))
                productions.append(Production(name, []))
        return ('inner', made[item])

    for rule, alternatives in rules.items():
        for items in alternatives:
            productions.append(Production(rule, [symbol(i) for i in items]))
    order = {name: i for i, name in enumerate(symbols)}
    productions.sort(key=lambda p: order[p.left])
    for p in productions:
        those = [q for q in productions if q.left == p.left]
        name = re.sub(r'(?<=[a-z0-9])(?=[A-Z])', '_', p.left).upper()
        p.name = name if len(those) == 1 else f'{name}_{those.index(p)}'
    return Table(symbols, productions)


# The claims

def begins(table, symbols):
    """The terminals that begin these symbols, and whether they may derive nothing."""
    found = set()
    for kind, value in symbols:
        if kind == 'terminal':
            return found | {value}, False
        found |= table.first[value]
        if not table.empty[value]:
            return found, False
    return found, True


def grow(table, step):
    """Repeats a step over all productions until none changes the claims."""
    while any([step(p) for p in table.productions]):
        pass


def add_claims(table):
    table.empty = {s: False for s in table.symbols}
    table.first = {s: set() for s in table.symbols}
    table.follow = {s: set() for s in table.symbols}
    table.follow['File'].add(END_OF_TEXT)

    def grow_first(p):
        found, empty = begins(table, p.right)
        changed = not found <= table.first[p.left] or empty and not table.empty[p.left]
        table.first[p.left] |= found
        table.empty[p.left] |= empty
        return changed

    def grow_follow(p):
        changed = False
        for i, (kind, value) in enumerate(p.right):
            if kind == 'inner':
                found, empty = begins(table, p.right[i + 1:])
                found = found | table.follow[p.left] if empty else found
                changed |= not found <= table.follow[value]
                table.follow[value] |= found
        return changed

    def grow_height(p):
        below = [value for kind, value in p.right if kind == 'inner']
        if not all(b in table.height for b in below):
            return False
        height = max([table.height[b] + 1 for b in below], default=0)
        changed = height < table.height.get(p.left, END)
        if changed:
            table.height[p.left] = height
        return changed

    grow(table, grow_first)
    grow(table, grow_follow)
    grow(table, grow_height)
    add_ranks(table)


def add_ranks(table):
    leading = {s: set() for s in table.symbols}
    for p in table.productions:
        for kind, value in p.right:
            if kind == 'terminal':
                break
            leading[p.left].add(value)
            if not table.empty[value]:
                break

    def rank(symbol, above):
        if symbol in above:
            raise SystemExit(f'{symbol} is left recursive')
        if symbol not in table.rank:
            table.rank[symbol] = max([rank(s, above | {symbol}) + 1 for s in leading[symbol]], default=0)
        return table.rank[symbol]

    for symbol in table.symbols:
        rank(symbol, frozenset())


def predictions(table, number):
    """For each inner symbol the numbers of its look-aheads, in rising order, each with its production's number."""
    found = {s: {} for s in table.symbols}
    for i, p in enumerate(table.productions):
        looks, empty = begins(table, p.right)
        for look in looks | (table.follow[p.left] if empty else set()):
            found[p.left][number[look]] = i
    return {s: sorted(looks.items()) for s, looks in found.items()}


def conflicts(table):
    """Pairs of productions of one symbol with a look-ahead in common."""
    found, taken = [], {}
    for p in table.productions:
        looks, empty = begins(table, p.right)
        for look in looks | (table.follow[p.left] if empty else set()):
            other = taken.setdefault((p.left, look), p)
            if other is not p:
                found.append((other.name, p.name, look))
    return found


def table_of(language):
    table = expand(rules_of(language))
    add_claims(table)
    lost = [s for s in table.symbols if s not in table.height]
    if lost:
        raise SystemExit(f'these derive nothing: {lost}')
    return table


def text_of(p):
    right = ' '.join(f"'{v}'" if k == 'terminal' and v not in VALUED else v for k, v in p.right)
    return f'{p.left} = {right or "nothing"}'
