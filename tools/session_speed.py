#!/usr/bin/env python3
"""Runs the built program on scripts that are doubled twice, and prints the processor time and the peak of memory of each.

  session_speed.py [NAME..]     the scripts with these names, or all

The program is crates/sysml/out/sysml, which `rt run` in its folder builds.
"""
import os
import sys
import tempfile

HERE = os.path.dirname(os.path.abspath(__file__))
PROGRAM = os.path.join(HERE, '..', 'crates', 'sysml', 'out', 'sysml')


def put(name, text):
    return b'put %s %d\n%s\n' % (name, len(text), text)


def ambiguous(count):
    """A file whose references are all ambiguous, and its rows."""
    text = b'class A; class A; ' + b''.join(b'class :> A; ' for _ in range(count))
    return put(b'a.kerml', text) + b'links a.kerml\nend\n'


def small_files(count):
    """Small files with a reference each, and then the rows of each."""
    names = [b'f%04d.kerml' % k for k in range(count)]
    files = b''.join(put(name, b'package P%d { class A; class B :> A; }' % k) for k, name in enumerate(names))
    return files + b''.join(b'links %s\n' % name for name in names) + b'end\n'


def small_files_each(count):
    """Small files with a reference each, each put and then asked for its rows."""
    names = [b'f%04d.kerml' % k for k in range(count)]
    return b''.join(put(name, b'package P%d { class A; class B :> A; }' % k) + b'links %s\n' % name
                    for k, name in enumerate(names)) + b'end\n'


def checked(count):
    """Files of 24 KB, and then what is wrong with them."""
    def text(k):
        body = b''.join(b'class A%d :> P%d::A%d; ' % (j + 1, max(k - 1, 0), j) for j in range(900))
        return b'package P%d { class A0; %s}' % (k, body)
    return b''.join(put(b'f%04d.kerml' % k, text(k)) for k in range(count)) + b'check\nend\n'


def asked_again(count):
    """The rows of a small file, again and again."""
    return put(b'a.kerml', b'class A; class B :> A;') + b'links a.kerml\n' * count + b'end\n'


def one_more(count):
    """One file put into a book of so many, which was asked before, and asked again."""
    files = b''.join(put(b'f%04d.kerml' % k, b'package P%d { class A; class B :> A; }' % k) for k in range(count))
    return files + b'check\n' + put(b'f0000.kerml', b'class X;') + b'check\nend\n'


def generals(count):
    """A chain of types that each redefine one feature, and a reference to it at the end."""
    text = b'class C0 { feature f; } ' + b''.join(
        b'class C%d :> C%d { feature g :>> f; alias f for g; } ' % (k, k - 1) for k in range(1, count))
    return put(b'a.kerml', text + b'feature x : C%d; feature y :> x.f;' % (count - 1)) + b'check\nend\n'


def importing(count):
    """Packages that all import one another publicly, and a name that none of them has."""
    each = b''.join(b'package P%d { %s} ' % (k, b''.join(b'public import P%d::*; ' % j for j in range(count) if j != k))
                    for k in range(count))
    return put(b'a.kerml', each + b'class Q :> P0::missing;') + b'check\nend\n'


def members(count):
    """A namespace of so many members, each asked for."""
    text = b'package P { ' + b''.join(b'class A%d; ' % k for k in range(count)) + b'} ' + b''.join(
        b'class :> P::A%d; ' % k for k in range(count))
    return put(b'a.kerml', text) + b'check\nend\n'


def link_of(k):
    """A file of a chain, whose class specialises that of the file before."""
    return b'package P%d { class A; class C :> P%d::C; }' % (k, max(k - 1, 0))


def chain(count):
    """A chain of files, each put and then asked for its rows."""
    return b''.join(put(b'f%04d.kerml' % k, link_of(k)) + b'links f%04d.kerml\n' % k for k in range(count)) + b'end\n'


def chain_edited(where):
    """A chain of files, and then a thousand edits of one of them, each asked."""
    def script(count):
        k = where(count)
        edit = put(b'f%04d.kerml' % k, link_of(k)) + b'links f%04d.kerml\n' % min(k + 1, count - 1)
        other = put(b'other.kerml', b'package Q { class A; class B :> A; }') + b'links other.kerml\n'
        return chain(count)[:-4] + 1_000 * (edit if k >= 0 else other) + b'end\n'
    return script


SCRIPTS = {
    'ambiguous rows of a file': (ambiguous, (10_000, 20_000, 40_000)),
    'small files, then the rows of each': (small_files, (256, 512, 1_024)),
    'small files, each put and asked': (small_files_each, (256, 512, 1_024)),
    'a chain of files, each put and asked': (chain, (250, 500, 1_000)),
    'and then 1,000 edits of its last file': (chain_edited(lambda count: count - 1), (250, 500, 1_000)),
    'and then 1,000 edits of its middle file': (chain_edited(lambda count: count // 2), (250, 500, 1_000)),
    'and then 1,000 edits of a file that none meets': (chain_edited(lambda count: -1), (250, 500, 1_000)),
    'files of 24 KB, then check': (checked, (250, 500, 1_000)),
    'rows of a small file again and again': (asked_again, (25_000, 50_000, 100_000)),
    'one file put into a book': (one_more, (250, 500, 1_000)),
    'generals that each redefine a feature': (generals, (500, 1_000, 2_000)),
    'packages that import one another': (importing, (32, 64, 128)),
    'members of a namespace, each asked for': (members, (2_500, 5_000, 10_000)),
}


def measured(script):
    with tempfile.TemporaryFile() as given, tempfile.TemporaryFile() as answers:
        given.write(script)
        given.seek(0)
        child = os.fork()
        if child == 0:
            os.dup2(given.fileno(), 0)
            os.dup2(answers.fileno(), 1)
            os.execv(PROGRAM, [PROGRAM, 'session'])
        _, status, used = os.wait4(child, 0)
        return os.waitstatus_to_exitcode(status), used.ru_utime + used.ru_stime, used.ru_maxrss / 1024


def main():
    print('| Script | Size | Input, MB | Seconds | Peak, MB |\n|---|---|---|---|---|')
    for name, (make, sizes) in SCRIPTS.items():
        if sys.argv[1:] and name not in sys.argv[1:]:
            continue
        for size in sizes:
            script = make(size)
            status, seconds, peak = measured(script)
            said = '' if status == 0 else f' (status {status})'
            print(f'| {name} | {size:,}{said} | {len(script) / 1e6:.2f} | {seconds:.2f} | {peak:.1f} |', flush=True)


if __name__ == '__main__':
    main()
