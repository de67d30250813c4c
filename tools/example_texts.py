"""Texts of both languages: those of the worked scripts and of the library, and texts derived from a grammar so that
every production is met; each with one token left out, doubled or changed. They need another program, which stands
beside the repository in ../shared/oracle.
"""
import glob
import os
import re
import sys

HERE = os.path.dirname(os.path.abspath(__file__))
SHARED = os.path.join(HERE, '..', '..', 'shared')
STAGE = 15
SPELLINGS = {'NAME': ['a', 'Engine', "'two words'"], 'INT': ['7', '1000'], 'STRING': ['"text"'], 'COMMENT': ['/* note */']}

HAS_OTHER = os.path.isdir(os.path.join(SHARED, 'oracle'))
if HAS_OTHER:
    sys.path[:0] = [SHARED, HERE]
    from oracle.lexer import lex
    from oracle.library import library


def worked_texts():
    """The texts that the worked scripts put, and those of the library, each with its language."""
    for path in sorted(glob.glob(os.path.join(SHARED, 'oracle', 'rows', '*.in'))):
        script = open(path, 'rb').read()
        for found in re.finditer(rb'^put (\S+) (\d+)\n', script, re.M):
            text = script[found.end():found.end() + int(found.group(2))]
            if 0 < len(text) < 600:
                yield ('kerml' if found.group(1).endswith(b'.kerml') else 'sysml'), text
    for name, text in library(STAGE):
        yield ('kerml' if name.endswith(b'.kerml') else 'sysml'), text


def on_one_line(text):
    """The text on one line, or None where its bytes or notes don't allow it."""
    try:
        text.decode()
    except UnicodeDecodeError:
        return None
    return None if b'//' in text or b'\r' in text else text.replace(b'\n', b' ')


def changed(chance, language, text):
    """The text with one token left out, doubled, or changed to another's spelling."""
    tokens = lex(text, language).tokens
    if not tokens:
        return text
    token = chance.choice(tokens)
    spelt = text[token.start:token.stop]
    other = chance.choice(sorted({text[t.start:t.stop] for t in tokens}) + [b'part', b'feature', b'{', b'}', b';', b'::', b'=', b'a'])
    put = chance.choice([b'', spelt + b' ' + spelt, other])
    return text[:token.start] + put + text[token.stop:]


def costs(grammar):
    """The least number of tokens that each inner symbol derives."""
    least = {name: 1 << 30 for name in grammar.productions}

    def cost(right):
        return sum(1 if kind == 't' else least[what] for kind, what in right)

    while any(cost(right) < least[name] for name in least for right in grammar.productions[name]):
        for name in least:
            least[name] = min(cost(right) for right in grammar.productions[name])
    return least


def steps_to(grammar, met):
    """For each inner symbol how many steps lead to a production that wasn't met."""
    far = 1 << 20
    steps = {name: 0 if any((name, i) not in met for i in range(len(rights))) else far
             for name, rights in grammar.productions.items() if name not in grammar.unused}

    def next_to(right):
        return min([steps[what] for kind, what in right if kind == 'n'], default=far) + 1

    changing = True
    while changing:
        changing = False
        for name in steps:
            least = min(next_to(right) for right in grammar.productions[name])
            if least < steps[name]:
                steps[name], changing = least, True
    return steps, next_to


def derived(chance, grammar, least, met):
    """A text that the grammar derives, on the way to a production that wasn't met, as long as it isn't long."""
    steps, next_to = steps_to(grammar, met)
    spelt, stack, found = [], [('n', grammar.start)], False
    while stack:
        kind, what = stack.pop()
        if kind == 't':
            spelt.append(chance.choice(SPELLINGS.get(what, [what])))
            continue
        rights = list(enumerate(grammar.productions[what]))
        fresh = [pair for pair in rights if (what, pair[0]) not in met]
        near = [pair for pair in rights if next_to(pair[1]) <= steps[what] < 1 << 20]
        short = min(rights, key=lambda pair: sum(1 if k == 't' else least[w] for k, w in pair[1]))
        room = len(stack) + len(spelt) < 40
        number, right = chance.choice(fresh or (not found and near) or (room and rights) or [short])
        found = found or bool(fresh)
        met.add((what, number))
        stack.extend(reversed(right))
    return ' '.join(spelt).encode()
