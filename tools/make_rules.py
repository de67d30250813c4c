#!/usr/bin/env python3
"""Writes the lemmas on the productions that printing stands on: which productions there are, with their symbols and actions.

  make_rules.py            writes crates/print_model/proofs/Rules.antt
  make_rules.py --check    says whether it differs from what would be written; exit 1 where it does

Each lemma holds in both languages by evaluation. Where the numbers of symbols differ, they are functions of the language.
"""
import os
import sys
import textwrap

sys.dont_write_bytecode = True

from grammar_tables import HERE, LANGUAGES, table_of, terminals, text_of

PATH = os.path.join(HERE, '..', 'crates', 'print_model', 'proofs', 'Rules.antt')
TITLES = {'kerml': 'Kerml', 'sysml': 'Sysml'}

# the repetitions of the levels of operators, from loose to tight
REPETITIONS = ('ManyImpliesOr ManyOrXor ManyXorAnd ManyAndEq ManyEqualsEqualsRel ManyLessSum ManyPlusTerm '
               'ManyStarUnary').split()

# each operator between two operands: its variant, its level, its spelling
BETWEEN = [line.split() for line in """Implies 1 implies
Or 2 or
Bar 2 |
Xor 3 xor
And 4 and
Amp 4 &
Equal 5 ==
NotEqual 5 !=
Less 6 <
Greater 6 >
AtMost 6 <=
AtLeast 6 >=
Add 7 +
Subtract 7 -
Multiply 8 *
Divide 8 /
Remainder 8 %""".split('\n')]
BEFORE = [('Minus', '-'), ('Plus', '+'), ('Not', 'not')]

# symbols whose numbers differ between the languages: the name of the function, the symbol
SYMBOLS = [('root', 'MaybeDollarColonColon'), ('segments', 'ManyColonColonName'), ('steps', 'ManyDotName'),
           ('sign_before', 'OneMinusPlusNot')]

IMPORTS = """use Rattle.std.proofs.Common.{◌≡◌, ℕ, ◌+◌, [], ◌∷◌, refl}
use Rattle.std.specs.Prelude.{slice_index_or}
use Rattle.element_store.specs.declared.outcome.Language.{Language}
use Rattle.element_store.specs.declared.outcome.Language.TheVariants.{Kerml, Sysml}
use Rattle.element_store.specs.declared.expression.UnaryOp.{UnaryOp}
use Rattle.element_store.specs.declared.expression.UnaryOp.TheVariants as unary
use Rattle.element_store.specs.declared.expression.BinaryOp.{BinaryOp}
use Rattle.element_store.specs.declared.expression.BinaryOp.TheVariants as binary
use Rattle.token_core.specs.Terminals.{terminal}
use Rattle.token_core.specs.Words.{signs, words}
use Rattle.ll_core.specs.declared.grammar.Symbol.TheVariants.{Terminal, Inner}
use Rattle.kerml_grammar.specs.Terms as kerml
use Rattle.kerml_grammar.specs.Rules.{kerml_rules}
use Rattle.kerml_grammar.specs.Grammar.{kerml_table}
use Rattle.sysml_grammar.specs.Terms as sysml
use Rattle.sysml_grammar.specs.Rules.{sysml_rules}
use Rattle.sysml_grammar.specs.Grammar.{sysml_table}
use Rattle.text_model.specs.declared.action.Action.TheVariants.{Group, Level, Tail}
use Rattle.text_model.specs.declared.action.Operator.{Operator}
use Rattle.text_model.specs.declared.action.Operator.TheVariants as operator
use Rattle.text_model.specs.declared.action.Meaning.TheVariants as meaning
use Rattle.text_model.specs.KermlActions.{kerml_actions}
use Rattle.text_model.specs.SysmlActions.{sysml_actions}
use Rattle.text_model.specs.SignMeanings.{sign_meanings}
use Rattle.text_model.specs.KermlMeanings.{kerml_meanings}
use Rattle.text_model.specs.SysmlMeanings.{sysml_meanings}
use Rattle.text_model.specs.Languages.{grammar_of}
use Rattle.text_model.specs.Tables.{tables, meaning_of}
use Rattle.print_model.specs.Printed.{Printed}
use Rattle.print_model.specs.Trees.{level_between, token_between, token_before}
use Rattle.print_model.proofs.Readings.{IsRule}
"""

RECORDS = """-- a level stands for the next one and a repetition
pub record LevelRules (l : Language) (k : ℕ) : Type 0 where
  pub rule : IsRule l (49 + k) (28 + k) (Inner (29 + k) ∷ Inner (many l k) ∷ []) Level
  pub ended : IsRule l (none l k) (many l k) [] Tail

-- a symbol may stand for this sign alone, which means the operator
pub record IsSign (l : Language) (s : ℕ) (p : Printed) (o : Operator) : Type 0 where
  pub n : ℕ
  pub t : ℕ
  pub rule : IsRule l n s (Terminal t ∷ []) Group
  pub kind : terminal p.kind ≡ t
  pub means : meaning_of (tables l) p.kind ≡ meaning.Operator o

-- the repetition goes on with this operator, an operand and itself
pub data IsMore (l : Language) (k : ℕ) (p : Printed) (o : Operator) : Type 0 where
  Direct : (n t : ℕ) (rule : IsRule l n (many l k) (Terminal t ∷ Inner (29 + k) ∷ Inner (many l k) ∷ []) Tail)
      (kind : terminal p.kind ≡ t) (means : meaning_of (tables l) p.kind ≡ meaning.Operator o) → IsMore l k p o
  Through : (n s : ℕ) (rule : IsRule l n (many l k) (Inner s ∷ Inner (29 + k) ∷ Inner (many l k) ∷ []) Tail)
      (sign : IsSign l s p o) → IsMore l k p o

-- what a sign before an operand is where it waits
abbrev pub sign_of : UnaryOp → Operator
sign_of unary.Minus = operator.Binary binary.Subtract
sign_of unary.Plus = operator.Binary binary.Add
sign_of unary.Not = operator.Not
"""

UNFOLDING = '\n'.join(textwrap.wrap(
    'unfolding grammar_of kerml_table kerml_rules kerml.sign kerml.word sysml_table sysml_rules sysml.sign sysml.word signs '
    'words tables kerml_actions sysml_actions sign_meanings kerml_meanings sysml_meanings', 150, subsequent_indent='    '))


class Grammar:
    """A language's productions and symbols by their texts, with their numbers."""

    def __init__(self, language):
        table, number = table_of(language), terminals(language)
        self.title = TITLES[language]
        self.inner = {s: i for i, s in enumerate(table.symbols)}
        self.rule = {text_of(p): i for i, p in enumerate(table.productions)}
        self.right = {text_of(p): [number[v] if k == 'terminal' else self.inner[v] for k, v in p.right]
                      for p in table.productions}
        self.kinds = {text_of(p): [k for k, _ in p.right] for p in table.productions}

    def going_on(self, repetition):
        """The text of the production by which a repetition goes on."""
        found = [t for t in self.rule if t.startswith(repetition + ' = ') and not t.endswith(' = nothing')]
        assert len(found) == 1, found
        return found[0]


GRAMMARS = [Grammar(language) for language in LANGUAGES]


def by_level(name, note, number):
    lines = [f'-- {note}', f'abbrev pub {name} : Language → ℕ → ℕ']
    for g in GRAMMARS:
        listed = ' ∷ '.join(str(number(g, r)) for r in REPETITIONS)
        lines.append(f'{name} {g.title} k = slice_index_or (0 ∷ {listed} ∷ []) k 0')
    return '\n'.join(lines) + '\n'


def by_language(name, note, number):
    lines = [f'-- {note}', f'abbrev pub {name} : Language → ℕ']
    return '\n'.join(lines + [f'{name} {g.title} = {number(g)}' for g in GRAMMARS]) + '\n'


def lemma(name, kind, cases):
    return f'pub {name} : {kind}\n{UNFOLDING}\n' + ''.join(f'{name} {case}\n' for case in cases)


def sign_record(g, symbol, spelling):
    text = f"{symbol} = '{spelling}'"
    return f'record {{ n = {g.rule[text]}; t = {g.right[text][0]}; rule = (refl, refl); kind = refl; means = refl }}'


def between(g, variant, level, spelling):
    more = g.going_on(REPETITIONS[int(level) - 1])
    first = g.right[more][0]
    if g.kinds[more][0] == 'terminal':
        return f'{g.title} binary.{variant} = Direct {g.rule[more]} {first} (refl, refl) refl refl'
    symbol = more.split(' = ')[1].split()[0]
    return f'{g.title} binary.{variant} = Through {g.rule[more]} {first} (refl, refl) ({sign_record(g, symbol, spelling)})'


def module():
    parts = ['-- Made by `tools/make_rules.py`: the productions of expressions in both languages, by evaluation.\n' + IMPORTS]
    parts.append(by_level('many', 'the symbol of the repetition at a level', lambda g, r: g.inner[r]))
    parts.append(by_level('none', 'the production that ends it', lambda g, r: g.rule[r + ' = nothing']))
    for name, symbol in SYMBOLS:
        parts.append(by_language(name, f'the number of {symbol}', lambda g: g.inner[symbol]))
    parts.append(RECORDS)
    for k in range(1, len(REPETITIONS) + 1):
        cases = [f'{g.title} = record {{ rule = (refl, refl); ended = (refl, refl) }}' for g in GRAMMARS]
        parts.append(f'-- the productions of level {k}\n' + lemma(f'level_rules_{k}', f'(l : Language) → LevelRules l {k}', cases))
    parts.append('-- the repetition of each operator\n' + lemma(
        'rule_between', '(l : Language) (o : BinaryOp) → IsMore l (level_between o) (token_between l o) (operator.Binary o)',
        [between(g, *line) for g in GRAMMARS for line in BETWEEN]))
    parts.append('-- the signs before an operand\n' + lemma(
        'rule_before', '(l : Language) (o : UnaryOp) → IsSign l (sign_before l) (token_before l o) (sign_of o)',
        [f"{g.title} unary.{v} = {sign_record(g, 'OneMinusPlusNot', s)}" for g in GRAMMARS for v, s in BEFORE]))
    return '\n'.join(parts)


def main():
    text = module()
    now = open(PATH).read() if os.path.exists(PATH) else None
    if now == text:
        return
    print(os.path.normpath(PATH))
    if '--check' in sys.argv[1:]:
        sys.exit(1)
    with open(PATH, 'w') as file:
        file.write(text)


if __name__ == '__main__':
    main()
