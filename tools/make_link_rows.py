#!/usr/bin/env python3
"""Writes the worked rows of links as models that the checker evaluates: crates/link_examples/specs/{Names,Ways}.antt.

    tools/make_link_rows.py [--check] [--oracle FOLDER]

With --check nothing is written, and what a file would change fails. FOLDER holds the package `oracle`, an independent plain implementation of the rules (../shared beside the repository). A row is a
small book of texts. Its models, its least linking, what its cyclic references wait on, what names are found, and for one
reference what its asking waits on over the empty table and what it looks at over the least linking, are the oracle's; the
checker evaluates the definitions and compares. Running the script again changes nothing.
"""
import os
import re
import sys

TOP = os.path.dirname(os.path.dirname(os.path.abspath(__file__)))
ORACLE = sys.argv[-1] if "--oracle" in sys.argv else os.path.join(os.path.dirname(TOP), "shared")
sys.path.insert(0, ORACLE)
from oracle.linking import Files, Linker, Links  # noqa: E402
from oracle.model import build  # noqa: E402

STAGE = 15
ROLES = {"subclass": "Subclass", "typing": "Typing", "subset": "Subsetting", "redefine": "Redefinition",
         "reference": "ReferenceSubsetting", "import": "Import", "alias": "Alias", "about": "About", "value": "Value",
         "bound": "Bound"}
OPENED = "unfolding least stage gather names_from visible_from"
TYPES = "List StoredFile"


def code(name):
    return '(codes "%s")' % name.decode()


def chain(items):
    return "(" + " ∷ ".join(items + ["[]"]) + ")" if items else "[]"


def column(items):
    return "[]" if not items else "(" + "\n    ∷ ".join(items) + "\n    ∷ [])"


def some(name):
    return "None" if name is None else "(Some %s)" % code(name)


def changed(base, fields):
    return "record (%s) { %s }" % (base, "; ".join(fields)) if fields else base


def element_text(e):
    if e.short is not None:
        return changed("nameless kind.%s %d" % (e.kind, e.owner.index), ["short = Some %s" % code(e.short), "name = %s" % some(e.name)])
    if e.name is None:
        return "nameless kind.%s %d" % (e.kind, e.owner.index)
    return "thing kind.%s %d %s" % (e.kind, e.owner.index, code(e.name))


def member_text(m):
    visibility = m.visibility.capitalize()
    if m.element is None:
        fields = (["visibility = %s" % visibility] if visibility != "Public" else []) + (["name = None"] if m.name is None else []) \
            + (["short = Some %s" % code(m.short)] if m.short is not None else [])
        return changed("alias %d %d %s" % (m.owner.index, m.alias.index, code(m.name) if m.name is not None else "[]"), fields)
    if visibility == "Public" and m.short is None and m.name is not None:
        return "owned %d %d %s" % (m.owner.index, m.element.index, code(m.name))
    base = "owned_as %s %d %d %s" % (visibility, m.owner.index, m.element.index, some(m.name))
    return changed(base, ["short = Some %s" % code(m.short)] if m.short is not None else [])


def reference_text(r):
    base = "refers role.%s %d %s" % (ROLES[r.role], r.context.index, chain([code(p) for p in r.path]))
    return changed(base, (["chain = %s" % chain([code(p) for p in r.chain])] if r.chain else [])
                   + (["absolute = true"] if r.absolute else []))


def import_text(i):
    base = "brings %s %d %d %s" % (i.visibility.capitalize(), i.owner.index, i.ref.index, "true" if i.star else "false")
    return changed(base, [word + " = true" for word, is_so in (("recursive", i.recursive), ("all", i.all)) if is_so])


def model_text(model, number):
    return "(data_of %d\n    %s\n    %s\n    %s\n    %s)" % (
        number, column(["root_element"] + [element_text(e) for e in model.elements[1:]]),
        column([member_text(m) for m in model.members]), column([reference_text(r) for r in model.refs]),
        column([import_text(i) for i in model.imports]))


class Book:
    """A row's files, as the oracle has them and as the definitions number them."""

    def __init__(self, texts):
        self.texts = texts
        models = {}
        for name, text in texts:
            if text is not None:
                models[name], fault = build(text.encode(), "sysml", STAGE)
                assert fault is None, (text, fault)
        library = {n.encode(): (t.encode(), models[n]) for n, t in texts if n.startswith("$") and t is not None}
        project = {n.encode(): (t.encode(), models[n]) for n, t in texts if not n.startswith("$") and t is not None}
        self.models = models
        self.files = Files(project, library)
        self.links = Links(self.files, STAGE, plain=True, looks=True, marked=False)
        self.number = {name.encode(): i for i, (name, _) in enumerate(texts)}

    def keys(self):
        return [(self.files.rank[n.encode()], i) for n, t in self.texts if t is not None for i in range(len(self.models[n].refs))]

    def at(self, pair):
        return (self.number[self.files.names[pair[0]]], pair[1])

    def outcome(self, o):
        def member(p):
            return "(by_member %d %d)" % self.at(p)
        if o[0] == "linked" and not o[1]:
            return "to %d %d" % self.at(o[2])
        if o[0] == "linked":
            return "Linked %s (element %d %d)" % ((chain(["element %d %d" % self.at(e) for e in o[1]]),) + self.at(o[2]))
        if o[0] == "absent":
            return "Absent %d" % o[1]
        if o[0] == "ambiguous":
            return "Ambiguous %d %s %s" % (o[1], member(o[2]), member(o[3]))
        if o[0] == "hidden":
            return "Hidden %d %s" % (o[1], member(o[2]))
        return "Cyclic (reference %d %d).0" % self.at(o[1])

    def fact(self, f):
        if f[0] == "file":
            return "of_file %d" % self.number[self.files.names[f[1]]]
        return "of_name %s" % code(f[1]) if f[0] == "root" else "of_key %d %d" % self.at(f[1])


def claim(name, left, right):
    return "pub %s : %s\n    ≡ %s\n%s\n%s = refl\n" % (name, left, right, OPENED, name)


def shown(name, comment, book):
    """The models of a book, with its texts in front."""
    out = ["-- " + comment]
    for file, text in book.texts:
        line = "--   %s: %s" % (file, "no text" if text is None else text)
        while len(line) > 118:
            cut = max(line.rfind(" package ", 40, 118), line.rfind(" part ", 40, 118))
            out.append(line[:cut])
            line = "--     " + line[cut + 1:]
        out.append(line)
    parts = []
    for number, (file, text) in enumerate(book.texts):
        part = "gone_file %s" % code(file.encode()) if text is None else \
            "file_of %s %s" % (code(file.encode()), model_text(book.models[file], number))
        parts.append("library_file (%s)" % part if file.startswith("$") else part)
    out.append("abbrev pub %s : %s" % (name, TYPES))
    out.append("%s = %s\n    ∷ []\n" % (name, "\n    ∷ ".join(parts)))
    return "\n".join(out)


def row(name, comment, texts, finds=(), over=()):
    """A book with its least linking, its kept keys, what is found in it, and one asking with its waits and looks."""
    book = Book(texts)
    keys = book.keys()
    table = book.links.table
    out = [shown(name, comment, book)]
    outcomes = ["Some (%s)" % book.outcome(table[k]) if k in table else "None" for k in keys]
    out.append(claim("%s_links" % name, "links_of %s" % name, "\n    ∷ ".join(outcomes + ["[]"])))
    for k in keys:
        if k not in table:
            out.append(claim("%s_%d_%d_is_cyclic" % ((name,) + book.at(k)),
                             "cyclic_on same_key (link_meaning %s) (reference %d %d)" % ((name,) + book.at(k)),
                             "Some (reference %d %d)" % book.at(book.links.outcome(k)[1])))
    for path in finds:
        segments = path.encode().split(b"::")
        out.append(claim("%s_finds_%s" % (name, path.replace("::", "_")),
                         "found %s %s" % (name, chain([code(s) for s in segments])), book.outcome(book.links.find(segments))))
    k = keys[-1]
    first = Linker(book.files, {}, STAGE, looks=True).ask(k)
    step = "Done (%s)" % book.outcome(first.value[0]) if first.done else \
        "Waits %s" % chain(["reference %d %d" % book.at(w) for w in sorted(first.waits)])
    ask = "reference %d %d" % book.at(k)
    out.append("-- over the empty table that reference %s" % ("is decided" if first.done else "waits"))
    out.append(claim("%s_first_asking" % name, "(asked %s (λ k. None) (%s)).step" % (name, ask), step))
    facts = [book.fact(f) for f in sorted(book.links.looks_of(k), key=str)]
    out.append("-- over the least linking it looks at these")
    out.append(claim("%s_looks" % name, "sees %s (%s)\n    (%s)" % (name, ask, "\n    ∷ ".join(facts + ["[]"])), "true"))
    if over:
        decided = {(book.files.rank[f.encode()], i): book.links.table[book.files.rank[f.encode()], i] for f, i in over}
        then = Linker(book.files, decided, STAGE, looks=True).ask(k)
        table = "None"
        for d in reversed(sorted(decided)):
            table = "(cond (same_key k (reference %d %d)) (Some (%s))\n    %s)" % (book.at(d) + (book.outcome(decided[d]), table))
        out.append("-- once some are decided, it waits on these, the least first")
        out.append(claim("%s_later_asking" % name, "(asked %s\n    (λ k. %s) (%s)).step" % (name, table.strip("()") + ")", ask),
                         "Waits %s" % chain(["reference %d %d" % book.at(w) for w in sorted(then.waits)])))
    return "\n".join(out)


NAMES = [
    ("circular", "A type that specialises itself, and two that specialise each other",
     [("a.sysml", "part def A :> A;"), ("b.sysml", "part def B :> C { part x; } part def C :> B;")], ["C::x"]),
    ("names_in_a_circle", "Names that wait on each other",
     [("a.sysml", "package P { part def A :> B::X; part def B :> A::Y; }")], ["P::A::Z"]),
    ("mended", "The same with a member that ends the circle",
     [("a.sysml", "package P { part def A :> B::X; part def B :> A::Y { part def X; } }")]),
    ("ambiguous", "Two members under one name by two imports, and one member by two imports",
     [("a.sysml", "package A { part x; } package B { part x; } package C { private import A::*; private import B::*; "
       "part p :> x; } package D { private import A::*; private import A::x; part q :> x; }")]),
    ("hidden", "A private member that is hidden, and a protected one that is inherited",
     [("a.sysml", "package P { private part x; part def T { protected part y; } } part a :> P::x; "
       "package Q { private import P::T; part def U :> T { part z :> y; } }")]),
    ("private_member", "A private member isn't inherited", [("a.sysml", "part def A { private part x; } part def B :> A { part y :> x; }")]),
    ("elsewhere", "A member of one file that leads to an element of another: what is named is looked at",
     [("a.sysml", "part a;"), ("b.sysml", "alias x for a;"), ("c.sysml", "part p :> x;")]),
    ("effective", "Effective names",
     [("a.sysml", "part def V { part <e> engine; } part def C :> V { part :>> engine; }")], ["C::engine", "C::e"]),
    ("aliases", "Aliases in a circle over two files", [("a.sysml", "alias a for b;"), ("b.sysml", "alias b for a;")]),
    ("several", "Two open aliases under one name: the least is that of the file whose name comes first",
     [("c.sysml", "alias x for z;"), ("a.sysml", "alias x for z;"), ("b.sysml", "part p :> x;")]),
    ("met_later", "Waits that are met in another order than that of the references",
     [("a.sysml", "part def A { part :>> u; }"), ("b.sysml", "part def B :> A { part :>> u; }"),
      ("c.sysml", "part def C :> B { part y :> x; }")], [], [("b.sysml", 0), ("c.sysml", 0)]),
    ("inner", "A name that an inner tier has: the project tier isn't reached",
     [("a.sysml", "package P { part x; part y :> x; }"), ("b.sysml", "part x;")]),
]
WAYS = [
    ("redefined", "Inherited features and their redefinitions",
     [("a.sysml", "part def A { part x; } part def B :> A { part y :>> x; } part def D :> B { part z :>> A::x; }")],
     ["B::y", "D::y", "D::z"]),
    ("diamond", "A redefinition on one of two ways",
     [("a.sysml", "part def A { part x; } part def B :> A; part def C :> A { part :>> x; } part def D :> B, C { part y :> x; }")],
     ["D::x"]),
    ("private_redefinition", "A private redefinition in C leaves D the feature of A by B",
     [("a.sysml", "part def A { part x; } part def B :> A; part def C :> A { private part :>> x; } part def D :> B, C;")],
     ["D::x"]),
    ("mutual_imports", "Packages that import each other",
     [("a.sysml", "package P { public import Q::*; part a; } package Q { public import P::*; part b; }")],
     ["P::b", "Q::a", "P::c"]),
    ("import_order", "The order of imports",
     [("a.sysml", "package A { package B { part x; } } package C { private import A::*; private import B::*; part p :> x; } "
       "package D { private import B::*; private import A::*; part q :> x; }")]),
    ("recursive", "Recursive imports, and with all",
     [("a.sysml", "package P { part a; package Q { part b; private package R { part c; } } } "
       "package S { private import P::**; part u :> b; part v :> c; } package T { private import all P::**; part w :> c; }")]),
    ("all_members", "An import with all brings private members, one without it doesn't",
     [("a.sysml", "package P { private part x; } package T { private import all P::*; part w :> x; } "
       "package U { private import P::*; part v :> x; }")]),
    ("by_name", "Roots of two files under one name: the order is that of the files' names, not of their numbers",
     [("c.sysml", "package A { part x; }"), ("b.sysml", "part p :> A::x;"), ("a.sysml", "package A { part x; }")]),
    ("chained", "A chain: the outcome carries the element of the path and that of the first step",
     [("a.sysml", "part def E { part p; } part def V { part e : E; } part v : V; part q :> v.e.p;")]),
    ("based", "A name that is inherited from the base alone, and one that the library's roots have",
     [("$lib/Parts.sysml", "package Parts { part def Part { part inner; } private part def Other; }"),
      ("a.sysml", "part def A; part b :> A::inner; part c : Parts::Other;")]),
    ("comes", "A root of another file, before it is gone", [("a.sysml", "package A { part x; }"), ("b.sysml", "part p :> A::x;")]),
    ("goes", "and after: the lookup that finds nothing looks at its own file and at the name, and at no other file",
     [("a.sysml", None), ("b.sysml", "part p :> A::x;")]),
]
PATH = '''pub chained_path : path_of chained (least same_key (link_meaning chained)) (reference 0 2).0
    ≡ element 0 5 ∷ element 0 4 ∷ element 0 2 ∷ []
%s
chained_path = refl
''' % OPENED


USES = """
use Rattle.std.specs.Prelude.{◌≡◌, true, false, cond, List, [], ◌∷◌, None, Some, codes, refl}
use Rattle.demand_core.specs.Least.{least, stage, cyclic_on}
use Rattle.demand_core.specs.Gather.{gather}
use Rattle.demand_core.specs.declared.step.Step.TheVariants.{Done, Waits}
use Rattle.element_store.specs.declared.outcome.Role.TheVariants as role
use Rattle.element_store.specs.declared.outcome.Outcome.TheVariants.{Linked, Absent, Ambiguous, Hidden, Cyclic}
use Rattle.element_store.specs.declared.kind.Kind.TheVariants as kind
use Rattle.element_store.specs.declared.kind.Visibility.TheVariants.{Public, Private, Protected}
use Rattle.element_store.specs.declared.models.StoredFile.{StoredFile}
use Rattle.element_store.specs.Model.{root_element}
use Rattle.link_model.specs.Keys.{same_key}
use Rattle.link_model.specs.Names.{names_from}
use Rattle.link_model.specs.Imports.{visible_from}
use Rattle.link_model.specs.Linking.{link_meaning}
use Rattle.link_model.specs.Written.{WRITTEN}
use Rattle.link_examples.specs.Words.{WORDS}
""".strip()


def head(title, body):
    """The imports of a file of rows: the names that its text has."""
    uses = USES
    for mark, path in (("WRITTEN", "link_model/specs/Written"), ("WORDS", "link_examples/specs/Words")):
        words = open(os.path.join(TOP, "crates", path + ".antt")).read().split("\n")
        uses = uses.replace(mark, ", ".join(sorted({line.split()[2] for line in words if line.startswith("abbrev pub ")})))
    code_lines = "\n".join(line for line in body.split("\n") if not line.startswith("--"))
    marks = set(re.findall(r"[A-Za-z_][A-Za-z_0-9]*|[^\sA-Za-z_0-9()]+", code_lines))
    out = ["-- " + title]
    for line in uses.split("\n"):
        if " as " not in line:
            module, names = line.rstrip("}").split(".{")
            kept = [n for n in names.split(", ") if n.strip("◌") in marks]
            line = "%s.{%s}" % (module, ", ".join(kept)) if kept else None
        if line:
            out.append(line)
    return "\n".join(out) + "\n"


def main():
    for name, title, rows, more in (("Names", "Worked rows: names, effective names, circles, ambiguous and hidden ones.", NAMES, ""),
                                    ("Ways", "Worked rows: imports, inheritance on several ways, roots, chains.", WAYS, PATH)):
        body = "\n".join(row(*r) for r in rows)
        rows_text = body + ("\n" + more if more else "")
        text = head(title, rows_text) + "\n" + rows_text
        path = os.path.join(TOP, "crates/link_examples/specs/%s.antt" % name)
        if "--check" in sys.argv:
            if open(path).read() != text:
                sys.exit("%s isn't what tools/make_link_rows.py writes" % path)
        else:
            with open(path, "w") as out:
                out.write(text)


if __name__ == "__main__":
    main()
