#!/usr/bin/env python3
"""Writes what `edit_rows` reads and must write: edits of small books, and what another program counts after each.

  make_edit_rows.py           writes the two files
  make_edit_rows.py --check   fails where they differ from what would be written

First come books of a few edits that each show one thing, then random edits of a book of five files. The other program
stands beside the repository, in ../shared/oracle; where it isn't, nothing is checked.
"""
import os
import random
import subprocess
import sys

sys.dont_write_bytecode = True

from example_texts import HAS_OTHER, SHARED, STAGE
from random_books import text

CRATE = os.path.join(os.path.dirname(os.path.abspath(__file__)), '..', 'crates', 'edit_rows')
SEED, RANDOM_EDITS, NAMES = 20261203, 200, ['a.sysml', 'b.kerml', 'c.sysml', 'd.kerml', 'e.sysml']

LEFT = 'package L { public import R::*; part def A :> B; part x : C; }'
RIGHT = 'package R { public import L::*; part def B; part def C :> A; }'
USE = 'part p : Q::T; part q :> Q::u;'
TYPES = 'package Q { part def T; part u : T; }'
BOOKS = {
    'two files that import each other, in one order of arrival': [('a.sysml', LEFT), ('b.sysml', RIGHT)],
    'and in the other': [('b.sysml', RIGHT), ('a.sysml', LEFT)],
    'a file that is dropped and comes back': [('a.sysml', USE), ('b.sysml', TYPES), ('b.sysml', None), ('b.sysml', TYPES)],
    'a circle of aliases that another file mends': [
        ('a.sysml', 'package A { public import B::*; alias x for y; part p : x; }'),
        ('b.sysml', 'package B { public import A::*; alias y for x; }'),
        ('b.sysml', 'package B { public import A::*; part def y; }')],
    'a name that protected and private members hide': [
        ('a.sysml', 'part p : P::A; part q : P::B; part r : P::C;'),
        ('b.sysml', 'package P { protected part def A; private part def B; part def C; }'),
        ('b.sysml', 'package P { part def A; part def B; private part def C; }')],
    'names of the library behind names of the project': [
        ('a.sysml', 'part p : Parts::Part; attribute n : ScalarValues::Integer;'),
        ('b.sysml', 'package Parts { item def Other; }'),
        ('c.kerml', 'package ScalarValues { datatype Integer; }'),
        ('b.sysml', None), ('c.kerml', None)],
}


def random_edits():
    """Edits of a book of five files, most of them puts."""
    chance, present, edits = random.Random(SEED), set(), []
    for _ in range(RANDOM_EDITS):
        name = chance.choice(NAMES)
        if name in present and chance.random() < 0.15:
            present.discard(name)
            edits.append((name, None))
        else:
            present.add(name)
            edits.append((name, text(chance, name.split('.')[1])))
    return edits


def line(edit):
    """The line of an edit."""
    name, put = edit
    return 'drop %s\n' % name if put is None else 'put %s %s\n' % (name, put)


def command(edit):
    """The command of a session that does the edit, and counts afterwards."""
    name, put = edit
    return ('drop %s\n' % name if put is None else 'put %s %d\n%s\n' % (name, len(put), put)) + 'check\n'


def counted(edits):
    """What the other program counts after each edit."""
    script = ''.join(map(command, edits)) + 'end\n'
    said = subprocess.run([sys.executable, '-m', 'oracle', '--stage', str(STAGE), 'session'], cwd=SHARED, input=script.encode(),
                          capture_output=True).stdout.decode()
    found = [row[len('check '):] for row in said.split('\n') if row.startswith('check ')]
    assert len(found) == len(edits), said[-300:]
    return ''.join('%s the same\n' % row for row in found)


def main():
    books, differ = list(BOOKS.values()) + [random_edits()], 0
    print('%d edits of %d books' % (sum(map(len, books)), len(books)))
    read = ''.join(''.join(map(line, edits)) + 'end\n' for edits in books)
    written = ''.join(counted(edits) + 'end\n' for edits in books)
    for name, said in (('stdin', read), ('stdout', written)):
        path = os.path.join(CRATE, name)
        now = open(path, 'rb').read() if os.path.exists(path) else None
        if now != said.encode():
            differ += 1
            print(os.path.normpath(path))
            if '--check' not in sys.argv:
                open(path, 'wb').write(said.encode())
    return 1 if '--check' in sys.argv and differ else 0


if __name__ == '__main__':
    sys.exit(main() if HAS_OTHER else 0)
