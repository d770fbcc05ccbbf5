"""Random programs that keep the rules, all of which is run: `@main` takes nothing, and calls other functions by all conventions.

`Declared` makes the declarations: classes with ancestors and with weak and unowned fields, structs, enums, output functions. `bodies.py`
makes a body along with the state of its values and places. Each class may have a deinitialiser, which makes no object of a class that is
declared behind its own, so that no program runs on and on.
"""
import random

import text
from bodies import Body
from lower import signature_text, type_text

WIDTHS = (1, 8, 16, 32, 64)
INT = ('int', 64)
LEAVES = 12


class Declared:
    """The declarations of a program. A class, a struct or an enum names those before it; in an Optional, weak or unowned also itself."""

    def __init__(self, r):
        self.r, self.m = r, text.Module()
        self.m.builtin = self.m.swift = True
        self.m.decls['Int'] = ('struct', [('_value', 'strong', INT)])
        self.m.decls['Bool'] = ('struct', [('_value', 'strong', ('int', 1))])
        self.classes, self.structs, self.enums = [], [], []
        kinds = ['class'] * r.randrange(2, 5) + ['struct'] * r.randrange(3) + ['enum'] * r.randrange(3)
        r.shuffle(kinds)
        for kind in kinds:
            getattr(self, 'add_' + kind)()

    def declare(self, name, kind, members, above=None):
        self.m.decls[name], self.m.above[name] = (kind, members), above
        self.m.order.append(name)

    def add_class(self):
        r, name = self.r, 'ABCDEFGH'[len(self.classes)]
        above = r.choice(self.classes) if self.classes and r.random() < 0.35 else None
        own, fields = self.classes + [name], []
        for n in range(r.choice((0, 1, 1, 2, 2, 3))):
            x = r.random()
            if x < 0.3:
                fields.append((f'f{n}', 'strong', ('opt', ('name', r.choice(own)))))
            elif x < 0.4:
                fields.append((f'f{n}', 'weak', ('opt', ('name', r.choice(own)))))
            elif x < 0.5 and self.classes:
                fields.append((f'f{n}', 'unowned', ('name', r.choice(self.classes))))
            else:
                fields.append((f'f{n}', 'strong', self.type()))
        self.declare(name, 'class', fields, above)
        self.classes.append(name)

    def add_struct(self):
        name = f'S{len(self.structs)}'
        self.declare(name, 'struct', [(f's{n}', 'strong', self.type()) for n in range(self.r.choice((0, 1, 2, 2, 3)))])
        self.structs.append(name)

    def add_enum(self):
        name = f'E{len(self.enums)}'
        payloads = [self.type() if self.r.random() < 0.65 else None for _ in range(self.r.choice((1, 2, 2, 3)))]
        self.declare(name, 'enum', [(f'c{n}', None, t) for n, t in enumerate(payloads)])
        self.enums.append(name)

    def type(self, depth=0):
        """A type of few leaves, of what is declared so far."""
        r = self.r
        kind = r.choice(('int', 'int', 'class', 'class', 'class', 'opt', 'struct', 'enum', 'tuple', 'swift'))
        t = ('int', r.choice(WIDTHS + (64, 64)))
        if kind == 'class' and self.classes:
            t = ('name', r.choice(self.classes))
        elif kind == 'opt' and depth < 3:
            t = ('opt', self.type(depth + 1))
        elif kind == 'struct' and self.structs:
            t = ('name', r.choice(self.structs))
        elif kind == 'enum' and self.enums:
            t = ('name', r.choice(self.enums))
        elif kind == 'tuple' and depth < 2:
            t = ('tuple', tuple(self.type(depth + 1) for _ in range(r.choice((0, 2, 2, 3)))))
        elif kind == 'swift':
            t = ('name', r.choice(('Int', 'Bool')))
        return t if self.leaves(t) <= LEAVES else INT

    def leaves(self, t):
        if t[0] == 'opt':
            return 1 + self.leaves(t[1])
        if t[0] == 'tuple':
            return sum(map(self.leaves, t[1]))
        if t[0] == 'name' and self.m.decls[t[1]][0] == 'struct':
            return sum(self.leaves(f[2]) for f in self.m.decls[t[1]][1])
        if t[0] == 'name' and self.m.decls[t[1]][0] == 'enum':
            return 1 + max([self.leaves(c[2]) for c in self.m.decls[t[1]][1] if c[2] is not None], default=0)
        return 1

    # ---- what bodies ask
    def trivial(self, t):
        return self.m.trivial(t)

    def chain(self, name):
        """A class and its ancestors, the most derived first."""
        above = self.m.above[name]
        return [name] + (self.chain(above) if above else [])

    def is_makeable(self, t, count):
        """Whether a value can be made with the first so many classes alone."""
        if t[0] == 'name' and t[1] in self.classes:
            return self.classes.index(t[1]) < count
        if t[0] == 'tuple':
            return all(self.is_makeable(x, count) for x in t[1])
        if t[0] == 'name':
            kind, members = self.m.decls[t[1]]
            return (all if kind == 'struct' else any)(x[2] is None or self.is_makeable(x[2], count) for x in members)
        return True


def direct(results):
    """The type of what a function returns."""
    ts = [t for word, t in results if word != '@out']
    return ts[0] if len(ts) == 1 else ('tuple', tuple(ts))


class Program:
    def __init__(self, r):
        self.r, self.d = r, Declared(r)
        self.functions, self.externals = [], []     # (name, signature, how many classes it makes)
        self.texts, self.vtables = [], []
        for n in range(2):
            widths = [r.choice(WIDTHS) for _ in range(n)] if r.random() < 0.3 else [64] * n
            sig = text.Sig('thin', [('', ('int', w)) for w in widths], [])
            self.externals.append((f'show{n}', sig))
            self.texts.append(f'sil @show{n} : {signature_text(sig)}')
        for n in range(r.randrange(4)):
            self.function(f'g{n}')
        for n, name in enumerate(self.d.classes):
            if r.random() < 0.65:
                self.deinitialiser(n, name)
        self.body('main', text.Sig('thin', [], self.results(len(self.d.classes))), len(self.d.classes), r.randrange(8, 24))

    def given(self, word, t):
        return (word if word else '' if self.d.trivial(t) else '@owned'), t

    def results(self, count):
        ts = [self.d.type() for _ in range(self.r.choice((0, 1, 1, 2)))]
        return [self.given('', t) for t in ts if self.d.is_makeable(t, count)]

    def function(self, name):
        r, count = self.r, self.r.randrange(len(self.d.classes) + 1)
        params, results = [], self.results(count)
        for _ in range(r.choice((0, 1, 1, 2, 3))):
            t, word = self.d.type(), r.choice(('', '', '@inout', '@in', '@in_guaranteed', '@out'))
            if word and not self.d.is_makeable(t, count):
                word = '@in_guaranteed'
            if not word and not self.d.trivial(t):
                word = r.choice(('@owned', '@guaranteed'))
            (results if word == '@out' else params).append((word, t))
        sig = text.Sig('thin', params, results)
        self.body(name, sig, count, r.randrange(2, 10))
        self.functions.append((name, sig, count))

    def deinitialiser(self, n, name):
        sig = text.Sig('method', [('@guaranteed', ('name', name))], [])
        self.body(f'{name}_deinit', sig, n, self.r.randrange(1, 7))
        self.functions.append((f'{name}_deinit', sig, n))
        self.vtables.append(f'sil_vtable {name} {{\n  #{name}.deinit!destroyer: @{name}_deinit\n}}')

    def body(self, name, sig, count, steps):
        callees = [(callee, s) for callee, s, made in self.functions if made <= count]
        lines = Body(self.d, self.r, count, callees, self.externals).function(sig, direct(sig.results), steps)
        self.texts.append('\n'.join([f'sil [ossa] @{name} : {signature_text(sig)} {{'] + lines + ['}']))

    def text(self):
        lines = ['sil_stage canonical', 'import Builtin', 'import Swift']
        for name in self.d.m.order:
            kind, members = self.d.m.decls[name]
            above = self.d.m.above[name]
            lines.append(f'{kind} {name}' + (f' : {above}' if above else '') + ' {')
            for member, storage, t in members:
                if kind == 'enum':
                    lines.append(f'  case {member}' + ('' if t is None else f'({type_text(t)})'))
                else:
                    lines.append('  ' + (storage + ' ' if storage != 'strong' else '') + f'var {member}: {type_text(t)}')
            lines.append('}')
        return '\n'.join(lines + self.texts + self.vtables) + '\n'


def one(number):
    """The text of the program for which a number stands."""
    return Program(random.Random(number)).text()


if __name__ == '__main__':
    import sys
    sys.stdout.write(one(int(sys.argv[1])))
