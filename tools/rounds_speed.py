#!/usr/bin/env python3
"""Has `lookup_rows` decide all references of books by plain rounds, and prints how often one is asked and how long it takes.

The books are chains of files, each of which needs the one before, put in the order that plain rounds like best and in the
one that they like least; and the library's texts with 20 small files. The program is crates/lookup_rows/out/lookup_rows.
"""
import glob
import os
import resource
import subprocess

from example_texts import on_one_line

HERE = os.path.dirname(os.path.abspath(__file__))
PROGRAM = os.path.join(HERE, '..', 'crates', 'lookup_rows', 'out', 'lookup_rows')


def link(number):
    """A file of a chain: an alias for the one in the file before."""
    item = b'alias A for P%d::A;' % (number - 1) if number else b'class A;'
    return b'kerml f%04d.kerml package P%d { %s class B :> A; }' % (number, number, item)


def small(number):
    """A file over the library."""
    return (b'sysml s%02d.sysml package S%d { private import ScalarValues::*; part def V { attribute m : Real; part w : W; } '
            b'part def W :> V { attribute :>> m = 1; } part v : V { part :>> w { attribute n : Natural; } } }' % (number, number))


def library():
    texts = sorted(glob.glob(os.path.join(HERE, 'library', '*')))
    return [b'%s $%s %s' % (path.rsplit('.', 1)[1].encode(), os.path.basename(path).encode(), on_one_line(open(path, 'rb').read()))
            for path in texts]


def timed(name, lines):
    before = resource.getrusage(resource.RUSAGE_CHILDREN).ru_utime
    done = subprocess.run([PROGRAM], input=b'\n'.join(lines + [b'askings', b'end']) + b'\n', capture_output=True, check=True)
    spent = resource.getrusage(resource.RUSAGE_CHILDREN).ru_utime - before
    print('%s: references %s, %.0f ms' % (name, done.stdout.split(b'\n')[0].decode(), spent * 1000))


def main():
    for count in (50, 100, 200):
        chain = [link(number) for number in range(count)]
        timed('a chain of %d files, each behind the one that it needs' % count, chain)
        timed('a chain of %d files, each before the one that it needs' % count, chain[::-1])
    timed('the library', library())
    timed('the library with 20 small files', library() + [small(number) for number in range(20)])


main()
