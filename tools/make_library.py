#!/usr/bin/env python3
"""Writes the library's texts as the crate `library_texts` has them, from the files of tools/library.

  make_library.py           writes the static list and the definition that it is shown to be
  make_library.py --check   fails where they differ from what would be written, or where the listing that stands beside
                            the repository, in ../shared, has other texts
"""
import pathlib
import re
import sys

TOP = pathlib.Path(__file__).resolve().parent.parent
CRATE = TOP / "crates" / "library_texts"
# Comes with metadata, which no text can have yet.
LATER = ("$lib/Metadata.sysml",)
NOTE = "Made by `tools/make_library.py`: change tools/library, not this file."


def texts():
    """The names and texts of the library, in byte order of names."""
    found = [("$lib/" + path.name, path.read_text()) for path in (TOP / "tools" / "library").iterdir()]
    return sorted(found, key=lambda pair: pair[0].encode())


def word(name):
    """The name of the definition of a file's text."""
    return re.sub(r"(?<=[a-z])(?=[A-Z])", "_", name[5:].split(".")[0]).lower()


def statics():
    out = [f"// {NOTE}", "use crate::file::LibraryFile;", "", "/// The library's files, in byte order of names.",
           "#[rattlefmt::skip]", "pub static FILES: [LibraryFile; %d] = [" % len(texts())]
    for name, text in texts():
        out += ["    LibraryFile {", f'        name: "{name}",', '        text: b"' + text + '",', "    },"]
    return "\n".join(out + ["];"]) + "\n"


def definitions():
    out = [f"-- {NOTE}", "use Rattle.std.specs.Prelude.{ℕ, List, [], ◌∷◌, ◌++◌, codes}", "",
           "-- lines, each ended by a line feed", "abbrev pub lines : List (List ℕ) → List ℕ", "lines [] = []",
           "lines (l ∷ ls) = l ++ (10 ∷ lines ls)", ""]
    for name, text in texts():
        out += [f"-- {name}", f"unfoldable pub {word(name)} : List ℕ", f"{word(name)} = lines ("]
        out += [f'    codes "{line}" ∷' for line in text.split("\n")[:-1]] + ["    [])", ""]
    out += ["-- THE LIBRARY: its names and texts, in byte order of names", "unfoldable pub library : List (List ℕ × List ℕ)", "library ="]
    out += [f'    (codes "{name}", {word(name)}) ∷' for name, _ in texts()]
    return "\n".join(out + ["    []"]) + "\n"


def listing_differs():
    """Whether the listing beside the repository has other texts; where there is none, it doesn't."""
    pages = [page.read_text() for page in (TOP.parent / "shared" / "papers").glob("*.md")]
    found = [pair for page in pages for pair in re.findall(r"^`(\$lib/[^`]+)`\n```\n(.*?)^```", page, re.M | re.S)]
    return bool(found) and sorted(pair for pair in found if pair[0] not in LATER) != sorted(texts())


def main():
    check = sys.argv[1:] == ["--check"]
    differ = 0
    for path, text in ((CRATE / "src" / "texts.rt", statics()), (CRATE / "specs" / "Texts.antt", definitions())):
        if not path.exists() or path.read_text() != text:
            differ += 1
            print(path.relative_to(TOP))
            if not check:
                path.write_text(text)
    if listing_differs():
        print("the listing beside the repository has other texts")
        return 1
    return 1 if check and differ else 0


if __name__ == "__main__":
    sys.exit(main())
