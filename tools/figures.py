#!/usr/bin/env python3
"""Writes the table of crates in docs/FIGURES.md: lines, functions, edits, and the processor time of each crate's gate.

    tools/figures.py            between the two marks of docs/FIGURES.md; what stands around them stays

Lines are neither empty nor comments nor imports. Times are those that tools/time_gate.py noted in docs/times.tsv.
"""
import pathlib
import re
import sys

TOP = pathlib.Path(__file__).resolve().parent.parent
PAGE = TOP / "docs" / "FIGURES.md"
BEGIN, END = "<!-- tools/figures.py writes from here -->", "<!-- to here -->"
sys.path.insert(0, str(TOP / "tools"))
import check_bars  # noqa: E402
import time_gate  # noqa: E402


def lines_of(paths, comment, imports):
    count = 0
    for path in paths:
        for line in path.read_text().split("\n"):
            text = line.strip()
            count += bool(text) and not text.startswith(comment) and not text.startswith(imports)
    return count


def row(name, times):
    crate = TOP / "crates" / name
    sources = sorted((crate / "src").rglob("*.rt"))
    code = lines_of(sources, "//", ("use ", "ghost use ", "pub use "))
    specs = lines_of((crate / "specs").rglob("*.antt"), "--", ("use ", "pub mod "))
    proofs = lines_of((crate / "proofs").rglob("*.antt"), "--", ("use ", "pub mod ", "mod "))
    functions = sum(1 for path in sources for _ in check_bars.functions(path.read_text().split("\n")))
    edits = len(list((crate / "must-fail").glob("*.edit")))
    seconds = times.get(name, ("", 0))[1]
    return [code, specs, proofs, functions, edits, seconds]


def main():
    times = time_gate.noted()
    rows = [(name, row(name, times)) for name in time_gate.crates()]
    out = ["| Crate | Code | Definitions | Proofs | Functions | Edits | Processor minutes |", "|---|---|---|---|---|---|---|"]
    for name, cells in rows:
        minutes = f"{cells[5] / 60:.1f}" if cells[5] else "-"
        out.append(f"| `{name}` | " + " | ".join(str(cell) for cell in cells[:5]) + f" | {minutes} |")
    sums = [sum(cells[i] for _, cells in rows) for i in range(6)]
    out.append("| all | " + " | ".join(str(cell) for cell in sums[:5]) + f" | {sums[5] / 60:.0f} |")
    page = PAGE.read_text()
    page = re.sub(re.escape(BEGIN) + r".*?" + re.escape(END), lambda _: BEGIN + "\n\n" + "\n".join(out) + "\n\n" + END, page, flags=re.S)
    PAGE.write_text(page)
    return 0


if __name__ == "__main__":
    sys.exit(main())
