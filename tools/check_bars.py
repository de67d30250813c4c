#!/usr/bin/env python3
"""Checks the bars of style, and fails on what passes them.

    tools/check_bars.py            says what passes a bar, and fails
    tools/check_bars.py --shrink   writes tools/bars.tsv anew, where it only shrinks

The bars: a clause has lines of at most 100 columns, at most 200 characters and fewer than four premises (a longer one
is one named word); a line of a definition has at most 120 columns, one of a proof 160; a function has under 40 lines,
a file at most 800, a crate at most 100 functions. Imports and the test tables' lines of data aren't counted as lines
of code. `tools/bars.tsv` lists what stood before the bars: for each file and bar, how many places pass it. A number may
only fall, and then the list has to fall with it.
"""
import pathlib
import re
import subprocess
import sys

TOP = pathlib.Path(__file__).resolve().parent.parent
LIST = TOP / "tools" / "bars.tsv"
CLAUSE = re.compile(r"^\s*(requires|ensures|ghost)\b[^={]*=?\s*\{")
FUNCTION = re.compile(r"^\s*(pub(\([a-z]+\))? )?(const )?(final )?(unsafe )?fn ([A-Za-z_0-9]+)")


def files():
    """The sources that git knows or would add, each with its crate."""
    names = subprocess.run(
        ["git", "ls-files", "--cached", "--others", "--exclude-standard", "crates"],
        cwd=TOP, capture_output=True, text=True, check=True).stdout.split("\n")
    for name in sorted(set(names)):
        path = TOP / name
        if name.endswith((".rt", ".antt")) and path.is_file():
            yield name, path.read_text().split("\n")


def clauses(lines):
    """Each clause of a source: its first line's number and its lines."""
    at = 0
    while at < len(lines):
        if CLAUSE.match(lines[at]) and not lines[at].lstrip().startswith("ghost use"):
            end = clause_end(lines, at)
            yield at + 1, lines[at:end + 1]
            at = end
        at += 1


def functions(lines):
    """Each function of a source that has a body: its name, its first line's number and the lines of its body."""
    for at, line in enumerate(lines):
        found = FUNCTION.match(line)
        if not found:
            continue
        margin = " " * (len(line) - len(line.lstrip()))
        begin = at
        while begin < len(lines):
            text = lines[begin].rstrip()
            if text.endswith(";") or text == margin + "{" or text.endswith("{") and not CLAUSE.match(text):
                break
            begin = clause_end(lines, begin) + 1
        if begin >= len(lines) or lines[begin].rstrip().endswith(";"):
            continue
        end = begin
        while end < len(lines) and lines[end] != margin + "}":
            end += 1
        yield found.group(6), at + 1, lines[begin + 1:end]


def clause_end(lines, at):
    """The last line of the clause that begins at a line, or that line itself."""
    if not CLAUSE.match(lines[at]):
        return at
    depth, end = 0, at
    while True:
        depth += lines[end].count("{") - lines[end].count("}")
        if depth <= 0 or end + 1 == len(lines):
            return end
        end += 1


def premises(text):
    """How many premises the clause has: the arrows that stand outside parentheses."""
    depth, count = 0, 0
    for mark in text:
        depth += (mark in "([") - (mark in ")]")
        count += mark == "→" and depth == 0
    return count


def code_lines(body):
    """The lines of a body that are code: neither empty nor comments."""
    return [line for line in body if line.strip() and not line.strip().startswith("//")]


def passed():
    """All places that pass a bar: file, bar, line and what is there."""
    found = []
    counts = {}
    for name, lines in files():
        code = [line for line in lines if not line.startswith(("use ", "ghost use "))]
        if len(code) > 800:
            found.append((name, "file of 800 lines", 1, f"{len(code)} lines"))
        if name.endswith(".rt"):
            for at, clause in clauses(lines):
                text = " ".join(line.strip() for line in clause)
                inner = text[text.index("{") + 1:text.rindex("}")].strip() if "}" in text else text
                for further, line in enumerate(clause):
                    if len(line) > 100:
                        found.append((name, "clause line of 100 columns", at + further, f"{len(line)} columns"))
                if len(inner) > 200:
                    found.append((name, "clause of 200 characters", at, f"{len(inner)} characters"))
                if premises(inner) >= 4:
                    found.append((name, "clause with four premises", at, f"{premises(inner)} premises"))
            for function, at, body in functions(lines):
                crate = name.split("/")[1]
                counts[crate] = counts.get(crate, 0) + 1
                if len(code_lines(body)) >= 40:
                    found.append((name, "function of 40 lines", at, f"{function}: {len(code_lines(body))} lines"))
        else:
            limit, bar = (120, "definition line of 120 columns") if "/specs/" in name else (160, "proof line of 160 columns")
            for at, line in enumerate(lines, 1):
                if len(line) > limit and not line.startswith(("use ", "pub use ")):
                    found.append((name, bar, at, f"{len(line)} columns"))
    for crate, count in sorted(counts.items()):
        if count > 100:
            found.append((f"crates/{crate}", "crate of 100 functions", 1, f"{count} functions"))
    return found


def listed():
    """The list of exceptions: how many places of a file may pass a bar."""
    if not LIST.is_file():
        return {}
    rows = [line.split("\t") for line in LIST.read_text().split("\n") if line and not line.startswith("#")]
    return {(name, bar): int(count) for name, bar, count in rows}


def main():
    found = passed()
    counts = {}
    for name, bar, _, _ in found:
        counts[name, bar] = counts.get((name, bar), 0) + 1
    allowed = listed()
    if "--shrink" in sys.argv[1:]:
        kept = {key: min(count, allowed.get(key, count)) for key, count in counts.items()
                if not LIST.is_file() or key in allowed}
        rows = [f"{name}\t{bar}\t{count}" for (name, bar), count in sorted(kept.items())]
        LIST.write_text("\n".join(["# What stood before the bars of style: file, bar, places. A number may only fall."] + rows) + "\n")
        return 0
    bad = 0
    for name, bar, at, what in found:
        if counts[name, bar] > allowed.get((name, bar), 0):
            print(f"{name}:{at}: {bar}: {what}")
            bad += 1
    for (name, bar), count in sorted(allowed.items()):
        if counts.get((name, bar), 0) < count:
            print(f"{name}: {bar}: {counts.get((name, bar), 0)} places, listed are {count}: run tools/check_bars.py --shrink")
            bad += 1
    print(f"bars: {len(found)} places in the list of exceptions, {bad} beyond it or to be taken off it")
    return 1 if bad else 0


if __name__ == "__main__":
    sys.exit(main())
