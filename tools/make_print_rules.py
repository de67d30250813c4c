#!/usr/bin/env python3
"""Writes what the proofs that printed items are read back know of the grammars: each production with its right side and its
action, and what each sign and word means.

  make_print_rules.py            writes Symbols, the three Productions and Meanings of crates/print_laws/proofs
  make_print_rules.py --check    says which of them differ from what would be written; exit 1 where one does

What both languages have alike is said once, for a language that is a variable; numbers are functions of it.
"""
import os
import re
import sys
import textwrap

sys.dont_write_bytecode = True

from action_tables import actions_of, meanings_of, term_of
from grammar_tables import HERE, LANGUAGES, VALUED, lists, table_of, text_of, word_of

FOLDER = os.path.join(HERE, '..', 'crates', 'print_laws', 'proofs')
TITLES = {'kerml': 'Kerml', 'sysml': 'Sysml'}
SPELT = {'kerml': 'KerML', 'sysml': 'SysML'}
HEAD = '-- Made by `tools/make_print_rules.py`: '

# symbols that the proofs on names have under other names
BELOW = {'MaybeDollarColonColon': 'root', 'ManyColonColonName': 'segments', 'ManyDotName': 'steps'}

SYMBOL_IMPORTS = """use Rattle.std.specs.Prelude.{ℕ}
use Rattle.element_store.specs.declared.outcome.Language.{Language}
use Rattle.element_store.specs.declared.outcome.Language.TheVariants.{Kerml, Sysml}
use Rattle.print_model.proofs.Rules.{root, segments, steps}
"""
COMMON_IMPORTS = """use Rattle.element_store.specs.declared.outcome.Language.{Language}
use Rattle.element_store.specs.declared.outcome.Language.TheVariants.{Kerml, Sysml}
use Rattle.token_core.specs.Terminals.{terminal}
use Rattle.token_core.specs.Words.{signs, words}
"""
PRODUCTION_IMPORTS = """use Rattle.std.proofs.Common.{ℕ, List, [], ◌∷◌, refl}
use Rattle.std.specs.Prelude.{codes}
use Rattle.element_store.specs.declared.kind.Kind.TheVariants as kind
""" + COMMON_IMPORTS + """use Rattle.ll_core.specs.declared.grammar.Symbol.{Symbol}
use Rattle.ll_core.specs.declared.grammar.Symbol.TheVariants.{Terminal, Inner}
use Rattle.kerml_grammar.specs.Terms as kerml
use Rattle.kerml_grammar.specs.Rules.{kerml_rules}
use Rattle.kerml_grammar.specs.Grammar.{kerml_table}
use Rattle.sysml_grammar.specs.Terms as sysml
use Rattle.sysml_grammar.specs.Rules.{sysml_rules}
use Rattle.sysml_grammar.specs.Grammar.{sysml_table}
use Rattle.text_model.specs.declared.action.Action.{Action}
use Rattle.text_model.specs.declared.action.Action.TheVariants as action
use Rattle.text_model.specs.declared.action.Taking.TheVariants as taking
use Rattle.text_model.specs.KermlActions.{kerml_actions}
use Rattle.text_model.specs.SysmlActions.{sysml_actions}
use Rattle.text_model.specs.Languages.{grammar_of}
use Rattle.text_model.specs.Tables.{tables}
use Rattle.print_model.specs.Printed.{sign, word}
use Rattle.print_model.proofs.Readings.{IsRule}
use Rattle.print_laws.proofs.Symbols as symbol
"""
RULE_RECORD = """
-- a production of a symbol: its right side and its action, whatever its number
pub record Rule (l : Language) (s : ℕ) (rs : List Symbol) (a : Action) : Type 0 where
  pub n : ℕ
  pub rule : IsRule l n s rs a
"""
MEANING_IMPORTS = """use Rattle.std.proofs.Common.{◌≡◌, refl}
use Rattle.std.specs.Prelude.{codes, true, false}
use Rattle.element_store.specs.declared.kind.Kind.TheVariants as kind
use Rattle.element_store.specs.declared.kind.Visibility.TheVariants as visibility
use Rattle.element_store.specs.declared.kind.Direction.TheVariants as direction
use Rattle.element_store.specs.declared.kind.PartOf.TheVariants as part
use Rattle.element_store.specs.declared.expression.BinaryOp.TheVariants as binary
""" + COMMON_IMPORTS.replace('use Rattle.token_core.specs.Terminals.{terminal}\n', '') + """use Rattle.text_model.specs.declared.action.Leaf.TheVariants as leaf
use Rattle.text_model.specs.declared.action.Mark.TheVariants as mark
use Rattle.text_model.specs.declared.action.Operator.TheVariants as operator
use Rattle.text_model.specs.declared.action.Meaning.TheVariants as meaning
use Rattle.text_model.specs.SignMeanings.{sign_meanings}
use Rattle.text_model.specs.KermlMeanings.{kerml_meanings}
use Rattle.text_model.specs.SysmlMeanings.{sysml_meanings}
use Rattle.text_model.specs.Tables.{tables, meaning_of}
use Rattle.print_model.specs.Printed.{sign, word}
"""


def unfolding(words):
    return '\n'.join(textwrap.wrap('unfolding ' + words, 160, subsequent_indent='    '))


RULE_UNFOLDING = unfolding('grammar_of kerml_table kerml_rules kerml.sign kerml.word sysml_table sysml_rules sysml.sign '
                           'sysml.word signs words tables kerml_actions sysml_actions')


def own_unfolding(language):
    return unfolding(f'grammar_of {language}_table {language}_rules {language}.sign {language}.word signs words tables {language}_actions')


def own_imports(language):
    title, other = TITLES[language], [l for l in LANGUAGES if l != language][0]
    kept = [line for line in PRODUCTION_IMPORTS.split('\n')
            if other not in line.lower() or 'TheVariants.{Kerml, Sysml}' in line]
    text = '\n'.join(kept).replace('{Kerml, Sysml}', f'{{{title}}}').replace('{ℕ, List, [], ◌∷◌, refl}', '{[], ◌∷◌, refl}')
    dropped = ('Language.{Language}', 'Symbol.{Symbol}', 'Action.{Action}', 'Readings.{IsRule}') + (('Taking.TheVariants as taking',) if language == 'kerml' else ())
    lines = [line for line in text.split('\n') if not line.endswith(dropped)]
    return '\n'.join(lines) + 'use Rattle.print_laws.proofs.Productions.{Rule}\n'


MEANING_UNFOLDING = unfolding('signs words tables sign_meanings kerml_meanings sysml_meanings')


def small(name):
    """A name in small letters with low lines."""
    return re.sub(r'(?<=[a-z0-9])(?=[A-Z])', '_', name).lower()


TABLES = {l: table_of(l) for l in LANGUAGES}
NUMBERS = {l: {s: i for i, s in enumerate(TABLES[l].symbols)} for l in LANGUAGES}
BOTH = [s for s in TABLES['kerml'].symbols if s in NUMBERS['sysml']]
SPELLINGS = lists()


def symbols_module():
    parts = [HEAD + 'the numbers of the inner symbols.\n' + SYMBOL_IMPORTS]
    for s in BOTH:
        name, numbers = small(s), [NUMBERS[l][s] for l in LANGUAGES]
        if s in BELOW:
            cases = f'{name} l = {BELOW[s]} l\n'
        elif numbers[0] == numbers[1]:
            cases = f'{name} l = {numbers[0]}\n'
        else:
            cases = ''.join(f'{name} {TITLES[l]} = {NUMBERS[l][s]}\n' for l in LANGUAGES)
        parts.append(f'abbrev pub {name} : Language → ℕ\n{cases}')
    for l in LANGUAGES:
        for s in TABLES[l].symbols:
            if s not in BOTH:
                parts.append(f'abbrev pub {small(s)} : ℕ\n{small(s)} = {NUMBERS[l][s]}\n')
    return '\n'.join(parts)


def symbol_term(item, language):
    kind, value = item
    if kind == 'terminal':
        if value in VALUED:
            return f'Terminal {VALUED.index(value)}'
        if value in SPELLINGS['signs']:
            return f'Terminal (terminal (sign (codes "{value}")).kind)'
        return f'Terminal (terminal (word {language} (codes "{value}")).kind)'
    if value in BOTH:
        return f'Inner (symbol.{small(value)} {language})'
    return f'Inner symbol.{small(value)}'


def rule_type(p, action, language):
    right = ' ∷ '.join([symbol_term(i, language) for i in p.right] + ['[]'])
    sort = re.match(r'(\S+)(.*)', term_of(action))
    term = f'action.{sort.group(1)}{sort.group(2)}'
    term = f'({term})' if sort.group(2) else term
    left = f'(symbol.{small(p.left)} {language})' if p.left in BOTH else f'symbol.{small(p.left)}'
    return f'Rule {language} {left} ({right}) {term}'


def wrapped(line):
    return '\n'.join(textwrap.wrap(line, 150, subsequent_indent='    ', break_long_words=False, break_on_hyphens=False))


def productions():
    """Each production by what it says: its numbers, and how it is named in both languages or in one."""
    found = {}
    for l in LANGUAGES:
        for n, (p, action) in enumerate(actions_of(l)):
            found.setdefault((text_of(p), action), {})[l] = (n, p)
    return found


def left_out(p):
    return re.match(r'(Expr|Imp|Or|Xor|And|Eq|Rel|Sum|Term|Unary|Prim)$|Many(ImpliesOr|OrXor|XorAnd|AndEq|EqualsEqualsRel'
                    r'|LessSum|PlusTerm|StarUnary)$|One(OrBar|AndAnd|EqualsEqualsNotEquals|LessGreaterLessEquals|PlusMinus'
                    r'|StarSlashPercent|MinusPlusNot)$|ManyColonColonName$|ManyDotName$|QName$|Chain$', p.left)


def is_common(numbers):
    return len(numbers) == 2 and len({p.name for _, p in numbers.values()}) == 1


def productions_module():
    parts = [HEAD + 'the productions that both languages have, by evaluation.\n' + PRODUCTION_IMPORTS + RULE_RECORD]
    for (text, action), numbers in productions().items():
        p = next(iter(numbers.values()))[1]
        if is_common(numbers) and not left_out(p):
            name = p.name.lower()
            parts.append(f'-- {text}\n' + wrapped(f'pub {name} : (l : Language) → {rule_type(p, action, "l")}') + '\n'
                         + RULE_UNFOLDING + '\n'
                         + ''.join(f'{name} {TITLES[l]} = record {{ n = {numbers[l][0]}; rule = (refl, refl) }}\n' for l in LANGUAGES))
    return '\n'.join(parts)


def productions_of(language):
    title = TITLES[language]
    parts = [HEAD + f'the productions that {SPELT[language]} alone has, by evaluation.\n' + own_imports(language)]
    for (text, action), numbers in productions().items():
        if language in numbers and not is_common(numbers) and not left_out(numbers[language][1]):
            n, p = numbers[language]
            name = p.name.lower()
            parts.append(f'-- {text}\n' + wrapped(f'pub {name} : {rule_type(p, action, title)}') + '\n'
                         + own_unfolding(language) + f'\n{name} = record {{ n = {n}; rule = (refl, refl) }}\n')
    return '\n'.join(parts)


def meaning_term(text):
    sort = re.match(r'(\S+)(.*)', term_of(text))
    return f'meaning.{sort.group(1)}{sort.group(2)}'


def used(language):
    return {v for p in TABLES[language].productions for k, v in p.right if k == 'terminal' and v not in VALUED}


OPEN = {'{': 'open_brace', '}': 'close_brace', '[': 'open_bracket', ']': 'close_bracket', '(': 'open_round', ')': 'close_round'}


def spelt_name(text):
    return OPEN.get(text) or small(word_of(text))


def meanings_module():
    parts = [HEAD + 'what signs and words mean, by evaluation.\n' + MEANING_IMPORTS]
    everywhere = set.union(*[used(l) for l in LANGUAGES])
    for text, meant in meanings_of('signs'):
        if text in everywhere:
            name = f'sign_{spelt_name(text)}'
            parts.append(f'pub {name} : (l : Language) → meaning_of (tables l) (sign (codes "{text}")).kind ≡ {meaning_term(meant)}\n'
                         + MEANING_UNFOLDING + '\n' + ''.join(f'{name} {TITLES[l]} = refl\n' for l in LANGUAGES))
    meant = {l: dict(meanings_of(f'words {TITLES[l]}')) for l in LANGUAGES}
    for text in sorted(everywhere):
        has = [l for l in LANGUAGES if text in meant[l] and text in used(l)]
        if not has:
            continue
        if len(has) == 2 and meant['kerml'][text] == meant['sysml'][text]:
            name = f'word_{text}'
            parts.append(f'pub {name} : (l : Language) → meaning_of (tables l) (word l (codes "{text}")).kind ≡ {meaning_term(meant["kerml"][text])}\n'
                         + MEANING_UNFOLDING + '\n' + ''.join(f'{name} {TITLES[l]} = refl\n' for l in LANGUAGES))
            continue
        for l in has:
            name = f'word_{text}' if len(has) == 1 else f'{l}_word_{text}'
            parts.append(f'pub {name} : meaning_of (tables {TITLES[l]}) (word {TITLES[l]} (codes "{text}")).kind ≡ {meaning_term(meant[l][text])}\n'
                         + MEANING_UNFOLDING + f'\n{name} = refl\n')
    return '\n'.join(parts)


MODULES = {
    'Symbols': symbols_module, 'Productions': productions_module, 'KermlProductions': lambda: productions_of('kerml'),
    'SysmlProductions': lambda: productions_of('sysml'), 'Meanings': meanings_module,
}


def main():
    status = 0
    for name, module in MODULES.items():
        path = os.path.join(FOLDER, name + '.antt')
        text = module()
        if os.path.exists(path) and open(path).read() == text:
            continue
        print(os.path.normpath(path))
        status = 1
        if '--check' not in sys.argv[1:]:
            with open(path, 'w') as file:
                file.write(text)
    sys.exit(status if '--check' in sys.argv[1:] else 0)


if __name__ == '__main__':
    main()
