"""What the productions and words mean, and the claims about it, as statics and as definitions.

actions/common.actions and actions/LANGUAGE.actions name productions and what they mean; what no line names is a Group.
actions/meanings says the same of signs and reserved words; what no line names means nothing.
"""
import os
import re

from claim_tables import mode_claims, role_claims, slack_claims, whole_claims
from grammar_tables import HERE, LANGUAGES, lists, table_of, text_of
from module_text import definition, head, listed

BINARY = ('Implies Or Bar Xor And Amp Equal NotEqual Less Greater AtMost AtLeast Add Subtract Multiply Divide '
          'Remainder').split()
OWNERS = {'Element': 'Kind', 'Take': 'Taking'}
OURS = ('Action', 'Leaf', 'Mark', 'Meaning', 'Operator', 'Taking')
SOURCE = 'tools/actions'


def pairs_in(name):
    """The lines of a file of tools/actions: a production or word, and what it means."""
    with open(os.path.join(HERE, 'actions', name)) as text:
        return dict(line.split(None, 1) for line in text.read().strip().split('\n'))


def named_productions(language):
    found = {**pairs_in('common.actions'), **pairs_in(language + '.actions')}
    lost = set(found) - {p.name for p in table_of(language).productions}
    if lost:
        raise SystemExit(f'there are no productions {lost}')
    return found


def actions_of(language):
    """The action of each production, with the production."""
    found = named_productions(language)
    return [(p, found.get(p.name, 'Group').strip()) for p in table_of(language).productions]


def meanings_of(part):
    """The meaning of each sign, or of each word of a language."""
    meanings = pairs_in('meanings')
    lost = set(meanings) - {word for words in lists().values() for word in words}
    if lost:
        raise SystemExit(f'there are no words {lost}')
    return [(word, meanings.get(word, 'Nothing').strip()) for word in lists()[part]]


def value_of(text):
    """The action or meaning as a value of its type."""
    sort, *rest = text.split()
    if not rest:
        return sort
    if rest[0] in BINARY:
        return f'Operator(Operator::Binary(BinaryOp::{rest[0]}))'
    return f'{sort}({OWNERS.get(sort, sort)}::{rest[0]})'


def term_of(text):
    """The same as a term."""
    sort, *rest = text.split()
    if not rest:
        return sort
    if rest[0] in BINARY:
        return f'Operator (operator.Binary binary.{rest[0]})'
    found = re.match(r'(\w+)(?:\((\w+)\))?$', rest[0])
    inner = f'{OWNERS.get(sort, sort).lower()}.{found.group(1)}'.replace('partof.', 'part.')
    return f'{sort} ({inner} {found.group(2)})' if found.group(2) else f'{sort} {inner}'


def static_module(name, kind, lines, note):
    """A module with one static of actions or meanings."""
    owners = sorted(set(re.findall(r'(\w+)::', ' '.join(items for _, items in lines))) | {kind})

    def used(crate, names):
        return f'use {crate}::{names[0]};' if len(names) == 1 else f'use {crate}::{{{", ".join(names)}}};'

    theirs = [o for o in owners if o not in OURS]
    return '\n'.join([
        head(SOURCE), used('crate::action', [o for o in owners if o in OURS]),
        *([used('element_store', theirs)] if theirs else []),
        '\nmacro_rules! items {\n    ($($item:expr,)*) => { [$($item),*] };\n}\n',
        listed(note, f'{name}: [{kind}; {len(lines)}]', 'items', lines)])


def actions_module(language):
    lines = [(text_of(p), f'Action::{value_of(a)},') for p, a in actions_of(language)]
    return static_module(language.upper() + '_ACTIONS', 'Action', lines, 'What each production means, by its number.')


def meanings_module(part, name):
    lines = [(word, f'Meaning::{value_of(m)},') for word, m in meanings_of(part)]
    return static_module(name, 'Meaning', lines, 'What each means, by its number in its list.')


VARIANTS = {'kind': ('element_store', 'kind.Kind'), 'direction': ('element_store', 'kind.Direction'),
            'part': ('element_store', 'kind.PartOf'), 'visibility': ('element_store', 'kind.Visibility'),
            'binary': ('element_store', 'expression.BinaryOp'), 'taking': ('text_model', 'action.Taking'),
            'mark': ('text_model', 'action.Mark'), 'leaf': ('text_model', 'action.Leaf'),
            'operator': ('text_model', 'action.Operator')}


def used_terms(lines, kind):
    """The imports of terms: the variants by their own names, or under the word that stands before them."""
    text = ' '.join(items for items, _ in lines)
    own = sorted(set(re.findall(r'(?:^|[ (])([A-Z]\w+)', text)))
    found = f'use Rattle.text_model.specs.declared.action.{kind}.{{{kind}}}\n'
    found += f'use Rattle.text_model.specs.declared.action.{kind}.TheVariants.{{{", ".join(own)}}}\n'
    for word in sorted(set(re.findall(r'\b([a-z]+)\.', text))):
        crate, path = VARIANTS[word]
        found += f'use Rattle.{crate}.specs.declared.{path}.TheVariants as {word}\n'
    flags = sorted(set(re.findall(r'\b(true|false)\b', text)), reverse=True)
    return f'use Rattle.std.specs.Prelude.{{{", ".join(flags + ["List", "[]", "◌∷◌"])}}}\n' + found


def actions_definition(language):
    lines = [(term_of(a), text_of(p)) for p, a in actions_of(language)]
    return definition(used_terms(lines, 'Action'), 'what each production means, by its number',
                      f'{language}_actions', 'Action', lines, SOURCE)


def meanings_definition(part, name):
    lines = [(term_of(m), word) for word, m in meanings_of(part)]
    return definition(used_terms(lines, 'Meaning'), 'what each means, by its number in its list', name, 'Meaning', lines, SOURCE)


def claims_definition(language, part, kind, names, note, claims):
    lines = [(claim, s) for claim, s in zip(claims, table_of(language).symbols)]
    own = f'use Rattle.text_model.specs.{part.title()}.{{{names}}}\n' if names else ''
    flags = sorted(set(re.findall(r'\b(true|false|None|Some)\b', ' '.join(claims))), key='true false None Some'.split().index)
    more = ['ℕ'] if kind == 'ℕ' else []
    uses = f'use Rattle.std.specs.Prelude.{{{", ".join(more + flags + ["List", "[]", "◌∷◌"])}}}\n' + own
    return definition(uses, note, f'{language}_{part}', kind, lines, 'tools/claim_tables.py')


def claim_files(language):
    actions = [a for _, a in actions_of(language)]
    meanings = {**dict(meanings_of('signs')), **dict(meanings_of('words ' + language.title()))}
    title = language.title()
    given = (table_of(language), actions, meanings)
    yield f'{title}Wholes', claims_definition(
        language, 'wholes', 'Claim', 'Claim, Whole, Tail, Between, BeforeOne, Silent, Other',
        'what each inner symbol does to the values of the expression around it', whole_claims(*given))
    yield f'{title}Roles', claims_definition(
        language, 'roles', 'RoleClaim', 'AnyKind, TypeKind, FeatureKind, RoleClaim, role_claim',
        'what each inner symbol needs and leaves, and whether it has words of kinds, takes names for a role, leaves names',
        role_claims(*given))
    yield f'{title}Slacks', claims_definition(
        language, 'slacks', 'ℕ', '', 'how many tokens each inner symbol derives at least beyond its items', slack_claims(*given))
    yield f'{title}Modes', claims_definition(
        language, 'modes', 'ModeClaim', 'ModeClaim, mode_claim',
        'whether an item may begin at the first token of each inner symbol, whether it takes a token, and whether it is quiet',
        mode_claims(*given))


def action_files():
    """Each generated file of text_model with its text."""
    for language in LANGUAGES:
        title = language.title()
        yield f'src/{language}_actions.rt', actions_module(language)
        yield f'src/{language}_meanings.rt', meanings_module('words ' + title, language.upper() + '_MEANINGS')
        yield f'specs/{title}Actions.antt', actions_definition(language)
        yield f'specs/{title}Meanings.antt', meanings_definition('words ' + title, language + '_meanings')
        for name, text in claim_files(language):
            yield f'specs/{name}.antt', text
    yield 'src/sign_meanings.rt', meanings_module('signs', 'SIGN_MEANINGS')
    yield 'specs/SignMeanings.antt', meanings_definition('signs', 'sign_meanings')
