"""What both runs compute with: values, builtin operations, and what a module says of members, classes and calls.

A value is ('int', n), ('ref', object), ('group', values), ('case', name, payload or None), ('function', name), or an address:
('slot', slot, steps) or ('field', object, index, steps), where each step is the index of a member.
"""
import re

TURNS, FRAMES = 100000, 1024
UNIT = ('group', ())
UNSET, SET = ('int', 0), ('int', -1)
STORED = ('weak', 'unowned')


class Fault(Exception):
    """The fault of a run: a word, and what it is about, if anything."""

    def __init__(self, word, about=None):
        super().__init__(word, about)
        self.word, self.about = word, about


class Ends(Exception):
    """The end of a run: ('returned', value), ('trap', word) or ('trap', 'cond_fail', message), ('out of turns',), ('fault', word, about)."""

    def __init__(self, *ending):
        super().__init__(*ending)
        self.ending = ending


class Outcome:
    """events: ('call', function, integers) and ('deinit', class, object). left: after a return (object, class, is live, strong, unowned, weak).

    balance: after a return the number of allocations, and the sum of all strong numbers. watched: the numbers of all objects at each turn.
    """

    def __init__(self, events, ending, retains, releases, turns, left, balance, watched):
        self.events, self.ending, self.retains, self.releases, self.turns, self.left = events, ending, retains, releases, turns, left
        self.balance, self.watched = balance, watched

    def same(self, other):
        return all(getattr(self, x) == getattr(other, x) for x in ('events', 'ending', 'retains', 'releases', 'turns', 'left', 'watched'))

    def is_balanced(self):
        """Whether after a return the allocations and retains without the releases are the sum of all strong numbers."""
        return self.balance is None or self.balance[0] + self.retains - self.releases == self.balance[1]


def references(value):
    """The objects that a value names as references, in leaf order."""
    if value[0] == 'ref':
        return [value[1]]
    if value[0] == 'group':
        return [o for x in value[1] for o in references(x)]
    if value[0] == 'case' and value[2] is not None:
        return references(value[2])
    return []


def named(value):
    """The objects that a value names, also as the address of a field."""
    return [value[1]] if value[0] == 'field' else references(value)


def residue(n, width):
    """The signed residue."""
    n %= 1 << width
    return n - (1 << width) if n >> (width - 1) else n


def builtin(name, numbers):
    operation, width = re.fullmatch(r'(\w+)_Int(\d+)', name).groups()
    width, a, b = int(width), numbers[0], numbers[1]
    if operation.endswith('_with_overflow'):
        exact = {'sadd': a + b, 'ssub': a - b, 'smul': a * b}[operation[:4]]
        kept = residue(exact, width)
        return ('group', (('int', kept), SET if kept != exact else UNSET))
    if operation.startswith('cmp_'):
        return SET if {'eq': a == b, 'ne': a != b, 'slt': a < b, 'sle': a <= b, 'sgt': a > b, 'sge': a >= b}[operation[4:]] else UNSET
    return ('int', residue({'and': a & b, 'or': a | b, 'xor': a ^ b}[operation], width))


def literal(inst):
    return ('int', residue(inst.number, inst.ty[1] if inst.ty[0] == 'int' else 64))


def ancestry(module, name):
    """A class and its ancestors, the most derived first."""
    classes = [name]
    while module.above.get(classes[-1]):
        classes.append(module.above[classes[-1]])
    return classes


def deinitialisers(module, name):
    """The names of the deinitialisers of a class and its ancestors, the most derived first."""
    entries = {c: entry[1] for c, entry in module.vtables if entry is not None}
    return [entries[c] for c in ancestry(module, name) if c in entries]


def field_index(module, owner, field):
    """The place of a field that a class declares among all fields of the class, those of its root first."""
    inherited = module.above.get(owner)
    return (len(module.all_fields(inherited)) if inherited else 0) + module.member(owner, field)[0]


def members(module, t):
    """The types of the members of a struct or tuple; None for another type."""
    if t[0] == 'tuple':
        return list(t[1])
    if t[0] == 'name' and module.decls[t[1]][0] == 'struct':
        return [m[2] for m in module.decls[t[1]][1]]
    return None


def step_of(module, inst):
    """The index of the member that an instruction names."""
    return inst.number if inst.member is None else module.member(*inst.member)[0]


def function_named(module, name):
    return next((f for f in module.functions if f.name == name), None)


def entry_of(module, name):
    """The function that a run may start with this name; None where there is none."""
    f = function_named(module, name)
    return f if f is not None and f.blocks and not f.sig.entry() else None
