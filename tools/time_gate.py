#!/usr/bin/env python3
"""Passes each crate through `rt ci NAME`, lowest first, and notes the processor time that each took.

    tools/time_gate.py [WORKERS] [NAME ..]      WORKERS crates side by side (2); all crates, or those named

What passes is kept on the machine, so a crate's time is that of its own proof, tests and edits. A crate that was kept before
is quick: its time is then that of its tests alone, and docs/times.tsv keeps the greater figure, unless the crate changed. With
nothing kept, as on a new machine, the times are those of a gate from nothing. The gate itself is `rt ci` with no names.
"""
import hashlib
import os
import pathlib
import re
import subprocess
import sys
import threading

TOP = pathlib.Path(__file__).resolve().parent.parent
TIMES = pathlib.Path(os.environ.get("TIMES", TOP / "docs" / "times.tsv"))
LOGS = TOP / ".git" / "gate"


def crates():
    """Each crate with the crates of the repository that it stands on."""
    rows = [line.split("#")[0] for line in (TOP / "crates.txt").read_text().split("\n")]
    found = {row.split(":")[0].split()[0]: row.split(":")[1].split() for row in rows if ":" in row}
    return {name: [dep for dep in deps if dep in found] for name, deps in found.items()}


def checksum(name, below):
    """A checksum of all that a crate's time hangs on: its own files and those of the crates below it."""
    total = hashlib.sha256()
    for crate in sorted({name} | below):
        for path in sorted((TOP / "crates" / crate).rglob("*")):
            if path.is_file() and "out" not in path.relative_to(TOP / "crates" / crate).parts[:1]:
                total.update(str(path.relative_to(TOP)).encode())
                total.update(path.read_bytes())
    return total.hexdigest()[:16]


def all_below(name, needs):
    below = set()
    todo = list(needs[name])
    while todo:
        crate = todo.pop()
        if crate not in below:
            below.add(crate)
            todo += needs[crate]
    return below


def noted():
    rows = [line.split("\t") for line in TIMES.read_text().split("\n")] if TIMES.is_file() else []
    return {row[0]: (row[1], int(row[2])) for row in rows if len(row) == 3 and not row[0].startswith("#")}


def run(name):
    """The processor seconds of one run, and whether it passed."""
    LOGS.mkdir(exist_ok=True)
    with open(LOGS / f"{name}.log", "w") as log:
        process = subprocess.Popen(["rt", "ci", name], cwd=TOP, stdin=subprocess.DEVNULL, stdout=log, stderr=subprocess.STDOUT)
        _, status, usage = os.wait4(process.pid, 0)
    last = [line for line in (LOGS / f"{name}.log").read_text().split("\n") if re.match(r"\d+ passed, \d+ failed", line)]
    return int(usage.ru_utime + usage.ru_stime), status == 0 and bool(last) and ", 0 failed" in last[-1]


def main():
    workers = int(sys.argv[1]) if len(sys.argv) > 1 else 2
    needs = crates()
    wanted = sys.argv[2:] or list(needs)
    todo = set(wanted)
    done, failed, running = set(needs) - todo, set(), set()
    turn = threading.Condition()
    times = noted()

    def work():
        while True:
            with turn:
                while True:
                    ready = sorted(name for name in todo if all(dep in done for dep in needs[name]))
                    if ready or not (todo or running):
                        break
                    if not running and todo:
                        return
                    turn.wait()
                if not ready:
                    return
                name = max(ready, key=lambda crate: sum(crate in all_below(other, needs) for other in needs))
                todo.discard(name)
                running.add(name)
            seconds, passed = run(name)
            with turn:
                running.discard(name)
                (done if passed else failed).add(name)
                if not passed:
                    todo.difference_update({other for other in todo if name in all_below(other, needs)})
                mark = checksum(name, all_below(name, needs))
                if passed and (times.get(name, ("", 0))[0] != mark or times[name][1] < seconds):
                    times[name] = (mark, seconds)
                print(f"{name}: {seconds} s of processor time, {'passed' if passed else 'FAILED'}", flush=True)
                rows = [f"{crate}\t{times[crate][0]}\t{times[crate][1]}" for crate in sorted(times) if crate in needs]
                TIMES.write_text("\n".join(["# Processor seconds of `rt ci NAME`, by tools/time_gate.py: crate, checksum of what was read, seconds."] + rows) + "\n")
                turn.notify_all()

    threads = [threading.Thread(target=work) for _ in range(workers)]
    for thread in threads:
        thread.start()
    for thread in threads:
        thread.join()
    if failed:
        print("failed: " + " ".join(sorted(failed)))
    return 1 if failed or todo else 0


if __name__ == "__main__":
    sys.exit(main())
