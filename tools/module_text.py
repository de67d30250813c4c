"""The text of generated modules."""
import textwrap


def head(source='tools/grammars'):
    return f'//! Made by `tools/make_table.py`: change {source}, not this file.\n'


def rows(items, margin=4):
    """The items in lines of at most 100 columns."""
    return textwrap.wrap(' '.join(items), 100 - margin, break_long_words=False, break_on_hyphens=False)


def listed(note, static, macro, lines):
    """A static by a macro: lines, each below what it stands for."""
    inside = ''
    for text, items in lines:
        inside += f'    // {text}\n'
        inside += ''.join(f'    {row}\n' for row in ([items] if isinstance(items, str) else items))
    return f'/// {note}\npub static {static} = {macro}! {{\n{inside}}};\n'


def numbers(note, static, items):
    """A static of numbers, in lines."""
    inside = ''.join(f'    {row}\n' for row in rows(f'{item},' for item in items))
    return f'/// {note}\n#[rattlefmt::skip]\npub static {static} = [\n{inside}];\n'


def definition(uses, note, name, kind, lines, source):
    """A list as a definition, each item with what it stands for."""
    inside = ''.join(f'    {item} ∷  -- {text}\n' for item, text in lines)
    return (f'-- Made by `tools/make_table.py`: change {source}, not this file.\n{uses}\n-- {note}\n'
            f'unfoldable pub {name} : List {kind}\n{name} =\n{inside}    []\n')
