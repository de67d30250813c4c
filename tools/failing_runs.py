#!/usr/bin/env python3
"""Runs the built program with one read, one write or one allocation of its process failing, each in turn, and checks what
each run leaves: its status, a front of the answers, and one line on the errors.

  failing_runs.py               a script with each command, and a book that is full
  failing_runs.py SCRIPT..      these scripts

The program is crates/sysml/out/sysml. After a failed read the answers are those of the commands that are whole in the bytes
taken; after a failed write or a refused allocation they are a front of all answers. As many runs go at once as there are
processors.
"""
import multiprocessing
import os
import subprocess
import sys
import tempfile

import call_shim

HERE = os.path.dirname(os.path.abspath(__file__))
PROGRAM = os.path.join(HERE, '..', 'crates', 'sysml', 'out', 'sysml')
RUNS_AT_ONCE = 100
READ_FAULT, WRITE_FAULT, NO_MEMORY, NO_WORDS = 3, 4, 5, 8
SAID = {READ_FAULT: b'read fault\n', WRITE_FAULT: b'', NO_MEMORY: b'no memory\n'}


def put(name, text):
    return b'put %s %d\n%s\n' % (name, len(text), text)


def with_each_command():
    return (put(b'a.sysml', b"package A { part def B; part b : B; part c : 'no name'; }")
            + put(b'b.kerml', b'class K :> A::B; class L :> L; }') + b'links a.sysml\nlinks b.kerml\ncheck\nfind A::b\nfind A::\n'
            + put(b'b.kerml', b'class K :> A::B; class L :> L;') + b'check\ndrop a.sysml\ndrop a.sysml\nlinks b.kerml\ncheck\nend\n')


def full_book():
    """As many files as a book may have, all of them empty, a drop, and one more name, which is refused."""
    files = b''.join(put(b'f%04d.kerml' % k, b'') for k in range(1024))
    return files + b'check\ndrop f0007.kerml\n' + put(b'one_more.kerml', b'class X;') + b'check\nend\n'


def run(shim, script, **variables):
    done = subprocess.run([PROGRAM, 'session'], input=script, capture_output=True, env={'LD_PRELOAD': shim, **variables})
    return done.returncode, done.stdout, done.stderr


def is_right(whole, left, allowed):
    status, output, errors = left
    if status == whole[0]:
        return output == whole[1] and errors == whole[2]
    return status in allowed and whole[1].startswith(output) and errors == SAID.get(status, errors) and (
        status != NO_WORDS or output == b'')


def tried(work):
    """Runs with these numbers of a kind of call failing: how often each status came, and which runs are wrong."""
    shim, script, whole, variable, allowed, numbers = work
    statuses, wrong = {}, []
    for number in numbers:
        left = run(shim, script, **{variable: str(number)})
        statuses[left[0]] = statuses.get(left[0], 0) + 1
        if not is_right(whole, left, allowed):
            wrong.append((number, left[0], len(left[1]), left[2][:60]))
    return statuses, wrong


def check(pool, folder, shim, script):
    told = os.path.join(folder, 'calls')
    whole = run(shim, script, CALLS_TOLD=told)
    calls = [int(n) for n in open(told).read().split()]
    all_wrong = 0
    for kind, count, variable, allowed in (('reads', calls[0], 'FAILED_READ', [READ_FAULT]),
                                           ('writes', calls[1], 'FAILED_WRITE', [WRITE_FAULT]),
                                           ('allocations', calls[2], 'REFUSED_ALLOCATION', [NO_MEMORY, NO_WORDS])):
        parts = [range(first, min(first + RUNS_AT_ONCE, count + 1)) for first in range(1, count + 1, RUNS_AT_ONCE)]
        statuses = {}
        for found, wrong in pool.imap(tried, [(shim, script, whole, variable, allowed, part) for part in parts]):
            for status, times in found.items():
                statuses[status] = statuses.get(status, 0) + times
            for number, status, size, errors in wrong:
                print('%d: number %d of %s: status %d, %d bytes of output, %r' % (len(script), number, kind, status, size, errors))
            all_wrong += len(wrong)
        print('%d bytes of script, status %d: %d %s: %s' % (len(script), whole[0], count, kind, ', '.join(
            'status %d %d times' % pair for pair in sorted(statuses.items()))))
    return all_wrong


def main():
    scripts = [open(path, 'rb').read() for path in sys.argv[1:]] or [with_each_command(), full_book()]
    with tempfile.TemporaryDirectory() as folder:
        shim = call_shim.built(folder)
        with multiprocessing.Pool() as pool:
            wrong = sum(check(pool, folder, shim, script) for script in scripts)
    print('%d wrong' % wrong)
    sys.exit(1 if wrong else 0)


if __name__ == '__main__':
    main()
