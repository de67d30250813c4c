"""Claims about what the inner symbols do to a model, which the checker tests on the tables."""

WHOLE = 'Expr Imp Or Xor And Eq Rel Sum Term Unary Prim Chain QName'.split()
SILENT = 'ManyColonColonName ManyDotName MaybeDollarColonColon MaybeEquals'.split()


def whole_claims(table, actions, meanings):
    """What each inner symbol does to the values of the expression around it."""
    actions = dict(zip([p.name for p in table.productions], actions))
    claims = []
    for symbol in table.symbols:
        those = [p for p in table.productions if p.left == symbol]
        signs = [meanings.get(p.right[0][1], '') if len(p.right) == 1 else '' for p in those]
        if symbol in WHOLE:
            claims.append('Whole')
        elif symbol in SILENT:
            claims.append('Silent')
        elif all(actions[p.name] == 'Tail' for p in those):
            claims.append('Tail')
        elif all(s.startswith('Operator') for s in signs):
            claims.append('BeforeOne' if 'Operator Not' in signs else 'Between')
        else:
            claims.append('Other')
    return claims


NEEDS = {'Subclass': 1, 'Typing': 1, 'Subsetting': 1, 'Redefinition': 2, 'ReferenceSubsetting': 1}
FEATURES = ('Feature Step Attribute Enumeration Occurrence Item Part Port Connection Interface Action Calc Constraint '
            'Requirement Reference ConnectorEnd Binding').split()
NO_TYPES = 'Root Namespace Package Comment Documentation'.split()


def class_of(kind):
    return 2 if kind in FEATURES else 0 if kind in NO_TYPES else 1


def role_claims(table, actions, meanings):
    """What each inner symbol needs of the kind of the element that is open and leaves, whether it has words of kinds, takes
    names for a role, and leaves names behind."""
    meanings = {**meanings, 'NAME': 'Name'}
    needs = dict.fromkeys(table.symbols, 0)
    leaves = dict.fromkeys(table.symbols)
    kinds, takes, loose = set(), set(), set()

    def step(p, action):
        sort, *rest = action.split()
        if sort == 'Element':
            return False
        asked, now = 0, None
        found = set()
        for kind, value in p.right:
            want, after = 0, None
            if kind == 'inner':
                want, after = needs[value], leaves[value]
                found |= {name for name, those in (('kinds', kinds), ('takes', takes), ('loose', loose)) if value in those}
            else:
                word = meanings.get(value, 'Nothing').split()
                if word[0] == 'Kind':
                    after = class_of(word[1])
                    found.add('kinds')
                elif word[0] == 'Def':
                    want, after = 1, 1
                    found.add('kinds')
                elif word[0] == 'Name' and sort not in ('Name', 'Short', 'Segment', 'Step'):
                    found.add('loose')
            if now is None:
                asked = max(asked, want)
            now = now if after is None else after
        if sort == 'Take':
            asked = max(asked, NEEDS.get(rest[0], 0))
            found.discard('loose')
            if rest[0] in NEEDS:
                found.add('takes')
        changed = asked > needs[p.left]
        needs[p.left] = max(asked, needs[p.left])
        if now is not None and (leaves[p.left] is None or now < leaves[p.left]):
            leaves[p.left], changed = now, True
        for name, those in (('kinds', kinds), ('takes', takes), ('loose', loose)):
            if name in found and p.left not in those:
                those.add(p.left)
                changed = True
        return changed

    while any([step(p, a) for p, a in zip(table.productions, actions)]):
        pass
    names = ('AnyKind', 'TypeKind', 'FeatureKind')
    return [f'role_claim {names[needs[s]]} {"None" if leaves[s] is None else f"(Some {names[leaves[s]]})"} '
            + ' '.join(str(s in those).lower() for those in (kinds, takes, loose)) for s in table.symbols]


def slack_claims(table, actions, meanings):
    """How many tokens each inner symbol derives at least beyond its items; a comment counts twice."""
    slack = dict.fromkeys(table.symbols, 3)

    def step(p, action):
        item = action.startswith('Element') or action in ('Take Alias', 'Take Import')
        more = sum(slack[v] if k == 'inner' else 2 if v == 'COMMENT' else 1 for k, v in p.right) - item
        changed = more < slack[p.left]
        slack[p.left] = min(more, slack[p.left])
        return changed

    while any([step(p, a) for p, a in zip(table.productions, actions)]):
        pass
    return [str(slack[s]) for s in table.symbols]


def mode_claims(table, actions, meanings):
    """Whether an item may begin at the first token of what each inner symbol derives, whether it takes a token, and whether
    it has no items and no visibility words."""
    needs, loud = set(), set()
    takes = {s: not table.empty[s] for s in table.symbols}

    def step(p, action):
        item = action.startswith('Element') or action in ('Take Alias', 'Take Import')
        first = item
        noisy = item
        for kind, value in p.right:
            if kind == 'inner':
                noisy |= value in loud
                first |= value in needs
                if takes[value]:
                    break
            else:
                first |= meanings.get(value, '').startswith('Visibility')
                break
        for kind, value in p.right:
            noisy |= value in loud if kind == 'inner' else meanings.get(value, '').startswith('Visibility')
        changed = first and p.left not in needs or noisy and p.left not in loud
        if first:
            needs.add(p.left)
        if noisy:
            loud.add(p.left)
        return changed

    while any([step(p, a) for p, a in zip(table.productions, actions)]):
        pass
    return ['mode_claim ' + ' '.join(str(f).lower() for f in (s in needs, takes[s], s not in loud)) for s in table.symbols]
