#!/usr/bin/env python3
"""Runs the worked rows over the built program with reads and writes of 1 byte and of 7 bytes each.

  rows_in_pieces.py STAGE

The rows and their checker stand beside the repository, in ../shared/oracle; where they aren't, nothing is run.
"""
import os
import subprocess
import sys
import tempfile

import call_shim

HERE = os.path.dirname(os.path.abspath(__file__))
PROGRAM = os.path.join(HERE, '..', 'crates', 'sysml', 'out', 'sysml')
ROWS = os.path.join(HERE, '..', '..', 'shared', 'oracle', 'check_rows.py')


def main():
    if not os.path.exists(ROWS):
        return
    with tempfile.TemporaryDirectory() as folder:
        shim = call_shim.built(folder)
        for size in (1, 7):
            words = ['env', 'LD_PRELOAD=' + shim, 'BYTES_A_CALL=%d' % size, PROGRAM]
            print('in pieces of %d:' % size, flush=True)
            done = subprocess.run([sys.executable, ROWS, '--stage', sys.argv[1], '--'] + words)
            if done.returncode != 0:
                sys.exit(1)


main()
