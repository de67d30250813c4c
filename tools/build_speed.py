#!/usr/bin/env python3
"""Measures lexing, parsing and building on the built program `build_speed`, and prints a table for docs/FIGURES.md.

    tools/build_speed.py            after `rt run` in crates/build_speed; texts of 0.25, 0.5 and 1 MiB of each language

Times are medians of five runs of a whole process less those of one that only reads, and memory is the peak less the same.
"""
import os
import pathlib
import statistics
import subprocess
import sys

TOP = pathlib.Path(__file__).resolve().parent.parent
PROGRAM = TOP / "crates" / "build_speed" / "out" / "build_speed"
PIECES = {
    "sysml": """package Car%d {
    import Parts::*;
    part def Engine%d :> Machine { attribute power : Real [1] = 2 * (base + %d); port inlet [0..*]; doc /* Drives. */ }
    part engine : Engine%d { attribute redefines power = 100; part cylinder : Cylinder [4] ordered; }
    requirement def Limit { subject e : Engine%d; require constraint { e.power <= 500 } }
    connect engine.inlet to tank.outlet;
}
""",
    "kerml": """package Car%d {
    private import Parts::*;
    class Engine%d specializes Machine { feature power : Real [1] = 2 * (base + %d); feature inlet [0..*]; doc /* Drives. */ }
    feature engine : Engine%d { feature redefines power = 100; feature cylinder : Cylinder [4] ordered; }
    step run : Engine%d { in feature e : Engine; }
    alias Motor for Engine%d;
}
""",
}
STAGES = ("read", "lex", "draft", "build")


def text_of(language, size):
    """A text of about this size in bytes."""
    found, length, number = [], 0, 0
    while length < size:
        found.append(PIECES[language] % ((number,) * PIECES[language].count("%d")))
        length += len(found[-1])
        number += 1
    return "".join(found).encode()


def run(stage, language, text):
    """Seconds of processor time, the peak of memory in bytes, and what was written."""
    path = TOP / "crates" / "build_speed" / "out" / "text"
    path.write_bytes(text)
    # The peak is that of a child of a small process: one of this process would begin with its own.
    words = ["/usr/bin/time", "-f", "%M", PROGRAM, stage, language]
    with open(path, "rb") as file:
        process = subprocess.Popen(words, stdin=file, stdout=subprocess.PIPE, stderr=subprocess.PIPE)
        said = process.stdout.read().decode().strip()
        peak = process.stderr.read().decode().strip()
        _, status, used = os.wait4(process.pid, 0)
    if status or not said.isdigit():
        raise SystemExit(f"{stage} {language}: status {status}, {said}")
    return used.ru_utime + used.ru_stime, int(peak) * 1024, said


def measured(stage, language, text):
    runs = [run(stage, language, text) for _ in range(5)]
    return statistics.median(r[0] for r in runs), statistics.median(r[1] for r in runs), runs[0][2]


def main():
    print("| Language | Bytes | Tokens | Elements | Lexing | Parsing and walking | Numbering | All | Peak memory a byte |")
    print("|---|---|---|---|---|---|---|---|---|")
    for language in PIECES:
        for size in (1 << 18, 1 << 19, 1 << 20):
            text = text_of(language, size)
            took = {stage: measured(stage, language, text) for stage in STAGES}
            times = [took[stage][0] - took["read"][0] for stage in STAGES]
            mega = len(text) / 1e6

            def rate(seconds):
                return f"{seconds * 1e3:.1f} ms ({mega / max(seconds, 1e-6):.0f} MB/s)"

            memory = (took["build"][1] - took["read"][1]) / len(text)
            print(f"| {language} | {len(text):,} | {int(took['lex'][2]):,} | {int(took['build'][2]):,} | {rate(times[1])} "
                  f"| {rate(times[2] - times[1])} | {rate(times[3] - times[2])} | {rate(times[3])} | {memory:.1f} |")
    return 0


if __name__ == "__main__":
    sys.exit(main())
