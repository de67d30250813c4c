"""Random books of small files in both languages, in which names are few, so that they meet, hide, remove and wait on one
another. The texts need another program, which stands beside the repository in ../shared/oracle.
"""
from example_texts import HAS_OTHER, STAGE

if HAS_OTHER:
    from oracle.model import build

NAMES = 'ABCDEF'
MOST_REFERENCES = 40


def qualified(chance, deepest=3):
    """A name of a few segments, now and then from the global scope."""
    written = '::'.join(chance.choice(NAMES) for _ in range(chance.randint(1, deepest)))
    return '$::' + written if chance.random() < 0.07 else written


def visibility(chance):
    return chance.choice(['', '', '', 'private ', 'protected ', 'public '])


def imported(chance):
    """An import, of a member or of members, recursive or not, maybe of all."""
    return (chance.choice(['private ', 'public ', 'protected ']) + 'import ' + chance.choice(['', '', 'all '])
            + qualified(chance, 2) + chance.choice(['', '::*', '::*', '::**', '::*::**']) + '; ')


def body(chance, depth, language):
    if depth == 0 or chance.random() < 0.25:
        return '; '
    return '{ ' + ''.join(item(chance, depth - 1, language) for _ in range(chance.randint(0, 4))) + '} '


def feature(chance, depth, language):
    """A feature with typings, subsettings and redefinitions."""
    word = chance.choice(['part', 'attribute', 'item', 'ref part']) if language == 'sysml' else 'feature'
    said = visibility(chance) + word + ' '
    if chance.random() < 0.15:
        said += f'<{chance.choice(NAMES)}> {chance.choice(NAMES)} '
    elif chance.random() < 0.8:
        said += chance.choice(NAMES) + ' '
    for sign, share in ((':', 0.4), (':>', 0.3), (':>>', 0.35), ('::>', 0.08)):
        if chance.random() < share:
            name = qualified(chance)
            step = '.' + chance.choice(NAMES) if chance.random() < 0.15 and sign != ':' else ''
            said += f'{sign} {name}{step} '
    return said + body(chance, depth, language)


def definition(chance, depth, language):
    """A type with generals."""
    words = ['part def', 'item def', 'attribute def'] if language == 'sysml' else ['classifier', 'class', 'datatype']
    said = visibility(chance) + chance.choice(words) + ' ' + chance.choice(NAMES) + ' '
    if chance.random() < 0.6:
        said += ':> ' + ', '.join(qualified(chance) for _ in range(chance.randint(1, 2))) + ' '
    return said + body(chance, depth, language)


def item(chance, depth, language):
    """A member or an import."""
    kind = chance.random()
    if kind < 0.18:
        return imported(chance)
    if kind < 0.26:
        return f'{visibility(chance)}alias {chance.choice(NAMES)} for {qualified(chance)}; '
    if kind < 0.40:
        return f'{visibility(chance)}package {chance.choice(NAMES)} ' + body(chance, depth, language)
    if kind < 0.62:
        return definition(chance, depth, language)
    return feature(chance, depth, language)


def text(chance, language):
    """A text in the profile with some references, and not too many."""
    while True:
        written = ''.join(item(chance, 3, language) for _ in range(chance.randint(1, 4))).strip()
        model, fault = build(written.encode(), language, STAGE)
        if fault is None and 0 < len(model.refs) < MOST_REFERENCES:
            return written


def book(chance):
    """One to four files: each with its language and its text."""
    languages = [chance.choice(['sysml', 'kerml']) for _ in range(chance.randint(1, 4))]
    return [(language, text(chance, language)) for language in languages]
