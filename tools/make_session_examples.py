#!/usr/bin/env python3
"""Writes the script that the program `sysml` is run on and what it must answer, as another program answers it.

  make_session_examples.py           writes the two files
  make_session_examples.py --check   fails where they differ from what would be written

The script has the worked scripts, as far as their commands stand by now, and 300 random books of one to four files, each
put, checked and listed with what is implied, with two names that are asked for and a file that is printed, a quarter of them changed in one file and checked again. The other program stands beside the repository, in ../shared/oracle;
where it isn't, nothing is checked.
"""
import glob
import os
import random
import re
import sys

sys.dont_write_bytecode = True

from example_texts import HAS_OTHER, SHARED
from random_books import book, text

STAGE = 9
SEED = 20261201
BOOKS = 300
COMMANDS = (b'put', b'drop', b'links', b'check', b'find', b'implied', b'print')
WORD = re.compile(rb"[A-Za-z_]\w*|'[^'\n]*'")
CRATE = os.path.join(os.path.dirname(os.path.abspath(__file__)), '..', 'crates', 'sysml')
if HAS_OTHER:
    from oracle.lexer import lex
    from oracle.script import run


def put(name, written):
    return b'put %s %d\n%s\n' % (name, len(written), written)


def commands_of(script):
    """The commands of a worked script that stand by now, and the names that are present in the end."""
    at, taken, present = 0, [], []
    while at < len(script):
        stop = script.index(b'\n', at) if b'\n' in script[at:] else len(script)
        line = script[at:stop]
        words = line.split(b' ')
        at = stop + 1
        if words[0] == b'put' and len(words) == 3 and words[2].isdigit():
            written = script[at:at + int(words[2])]
            at += int(words[2]) + 1
            taken.append(put(words[1], written))
            present.append(words[1])
        elif words[0] in COMMANDS:
            taken.append(line + b'\n')
    return b''.join(taken) + b''.join(b'drop %s\n' % name for name in dict.fromkeys(present))


def worked():
    """The worked scripts that come to their end, one after the other."""
    for path in sorted(glob.glob(os.path.join(SHARED, 'oracle', 'rows', '*.in'))):
        script = open(path, 'rb').read()
        if script.endswith(b'\nend\n') and b'splice' not in script and len(script) < 4096:
            yield commands_of(script)


def is_name(word):
    """Whether it is one name in SysML."""
    return [token.kind for token in lex(word, 'sysml').tokens] == ['NAME']


def finding(chance, files):
    """A name of words of these files, with `$::` before it or not, seldom a bad one."""
    words = sorted({word for _, written in files for word in WORD.findall(written) if is_name(word)}) or [b'A']
    path = [chance.choice(words) for _ in range(chance.randint(1, 3))]
    ending = chance.choice([b''] * 12 + [b' // x', b'::', b' \r', b'.a'])
    return b'find ' + chance.choice([b'', b'', b'$::']) + chance.choice([b'::', b' :: ']).join(path) + ending + b'\n'


def random_book(chance, asking, changes):
    """A book that is put, checked, listed and asked for names, and then maybe changed in one file and checked again."""
    files = [(b'm%d.%s' % (i, language.encode()), written.encode()) for i, (language, written) in enumerate(book(chance))]
    said = b''.join(put(name, written) for name, written in files)
    said += b'check\nimplied\n' + b''.join(b'links %s\n' % name for name, _ in files)
    said += b''.join(finding(asking, files) for _ in range(2)) + b'print %s\n' % files[0][0]
    name = chance.choice(files)[0]
    if not changes:
        return said + b''.join(b'drop %s\n' % name for name, _ in files)
    said += b'drop %s\ncheck\n' % name
    if chance.random() < 0.5:
        said += put(name, text(chance, name[-5:].decode()).encode()) + b'check\n'
    return said + b''.join(b'drop %s\n' % name for name, _ in files)


def script():
    chance, asking = random.Random(SEED), random.Random(SEED)
    books = (random_book(chance, asking, number % 4 == 0) for number in range(BOOKS))
    return b''.join(worked()) + b''.join(books) + b'end\n'


def main():
    if not HAS_OTHER:
        return 0
    asked = script()
    output, errors, status = run([b'session'], None, lambda: asked, STAGE)
    assert (errors, status) == (b'', 0), errors
    wrong = 0
    for name, wanted in (('stdin', asked), ('stdout', output)):
        path = os.path.join(CRATE, name)
        if '--check' not in sys.argv:
            open(path, 'wb').write(wanted)
        elif open(path, 'rb').read() != wanted:
            print(f'{path} is not what tools/make_session_examples.py writes', file=sys.stderr)
            wrong = 1
    return wrong


if __name__ == '__main__':
    sys.exit(main())
