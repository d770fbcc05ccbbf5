"""The values and places of a random body, and new values of any type."""
from lower import type_text

OWNED, NONE, LENT = 'owned', 'none', 'lent'
INT, BIT, UNIT = ('int', 64), ('int', 1), ('tuple', ())
EDGES = {1: (0, -1), 8: (-128, 127, 16, 255), 16: (-32768, 32767), 32: (-2147483648, 2147483647), 64: (-2 ** 63, 2 ** 63 - 1)}


class Value:
    """A value that is there. A lent one has the scopes that are its bases. `borrows` counts the open borrows of it, and `kept` the branches
    around that may not end it."""

    def __init__(self, name, ty, kind=NONE, bases=()):
        self.name, self.ty, self.kind, self.bases = name, ty, kind, list(bases)
        self.borrows = self.kept = 0
        self.lenders, self.place = [], None        # of a scope: what it borrows from

    def is_free(self):
        return not self.borrows and not self.kept


class Place:
    """A whole place, or the address of a field. kind: slot, field, or an address convention. `loans` counts the open load_borrows of it."""

    def __init__(self, name, ty, kind, full, bases=()):
        self.name, self.ty, self.kind, self.full, self.bases = name, ty, kind, full, list(bases)
        self.loans = 0

    def is_stored(self):
        return self.ty[0] in ('weak', 'unowned')


class Making:
    """The text of a body so far, and what is there where it stands: values, open borrows, places. New values of any type are made here."""

    def __init__(self, declared, r, count, callees, externals):
        self.d, self.m, self.r, self.count = declared, declared.m, r, count
        self.callees, self.externals = callees, externals
        self.made = self.labels = self.depth = 0
        self.blocks = []                           # [label, arguments, lines]
        self.owned, self.lent, self.plain = [], [], []
        self.scopes, self.places, self.slots, self.fields = [], [], [], []

    # ---- text
    def name(self):
        self.made += 1
        return f'%v{self.made}'

    def emit(self, line):
        self.blocks[-1][2].append('  ' + line)

    def result(self, line):
        v = self.name()
        self.emit(f'{v} = {line}')
        return v

    def label(self):
        self.labels += 1
        return f'b{self.labels}'

    def open(self, label, args=()):
        self.blocks.append([label, list(args), []])

    def typed(self, v, ty=None):
        return f'{v.name} : ${type_text(v.ty if ty is None else ty)}'

    # ---- values
    def keep(self, name, ty, kind, bases=()):
        """A new value takes its place among those that are there."""
        is_trivial = self.d.trivial(ty)
        v = Value(name, ty, NONE if is_trivial else kind, () if is_trivial else bases)
        (self.plain if is_trivial else self.lent if kind == LENT else self.owned).append(v)
        return v

    def forwarded(self, name, ty, operands):
        """What a forwarding instruction makes of values that it was given; it isn't kept."""
        return Value(name, ty, OWNED if any(v.kind == OWNED for v in operands) else NONE)

    def is_makeable(self, ty):
        return self.d.is_makeable(ty, self.count)

    def give(self, ty):
        """A value of the type to be consumed: one that is held, a copy, or a new one."""
        r = self.r
        if self.d.trivial(ty):
            known = [v for v in self.plain if v.ty == ty]
            return r.choice(known) if known and r.random() < 0.6 else self.make(ty)
        held = [v for v in self.owned if v.ty == ty and v.is_free()]
        if held and r.random() < 0.6:
            v = r.choice(held)
            self.owned.remove(v)
            return v
        known = [v for v in self.owned + self.lent if v.ty == ty]
        if known and (r.random() < 0.4 or not self.is_makeable(ty)):
            return Value(self.result(f'copy_value {self.typed(r.choice(known))}'), ty, OWNED)
        return self.make(ty)

    def can_give(self, ty):
        return self.d.trivial(ty) or self.is_makeable(ty) or any(v.ty == ty for v in self.owned + self.lent)

    def make(self, ty):
        self.depth += 1
        v = getattr(self, 'make_' + {'int': 'integer', 'opt': 'optional', 'tuple': 'tuple'}.get(ty[0], 'named'))(ty)
        self.depth -= 1
        return v

    def make_integer(self, ty):
        r, width = self.r, ty[1]
        known = [v for v in self.plain if v.ty == ty]
        if known and r.random() < 0.25:
            a, b = r.choice(known), r.choice(known)
            return Value(self.result(f'builtin "{r.choice(("and", "or", "xor"))}_Int{width}"({self.typed(a)}, {self.typed(b)}) : ${type_text(ty)}'), ty)
        n = r.choice(EDGES[width]) if r.random() < 0.25 else r.choice((0, -1)) if width == 1 else r.randrange(-3, 10)
        return Value(self.result(f'integer_literal ${type_text(ty)}, {n}'), ty)

    def make_optional(self, ty):
        if self.depth > 3 or not self.can_give(ty[1]) or self.r.random() < 0.3:
            return Value(self.result(f'enum ${type_text(ty)}, #Optional.none!enumelt'), ty)
        x = self.give(ty[1])
        return self.forwarded(self.result(f'enum ${type_text(ty)}, #Optional.some!enumelt, {self.typed(x)}'), ty, [x])

    def make_tuple(self, ty):
        xs = [self.give(t) for t in ty[1]]
        return self.forwarded(self.result(f'tuple ({", ".join(map(self.typed, xs))})'), ty, xs)

    def make_named(self, ty):
        kind, members = self.m.decls[ty[1]]
        if kind == 'class':
            return self.make_object(ty)
        if kind == 'struct':
            xs = [self.give(t) for _, _, t in members]
            return self.forwarded(self.result(f'struct ${ty[1]} ({", ".join(map(self.typed, xs))})'), ty, xs)
        case, _, payload = self.r.choice([c for c in members if c[2] is None or self.can_give(c[2])])
        if payload is None:
            return Value(self.result(f'enum ${ty[1]}, #{ty[1]}.{case}!enumelt'), ty)
        x = self.give(payload)
        return self.forwarded(self.result(f'enum ${ty[1]}, #{ty[1]}.{case}!enumelt, {self.typed(x)}'), ty, [x])

    def make_object(self, ty):
        """A new object of the class or of a descendant, built and cast up."""
        r = self.r
        derived = [c for c in self.d.classes[:self.count] if ty[1] in self.d.chain(c)]
        name = r.choice(derived) if r.random() < 0.4 else ty[1]
        written = [(owner, f, storage, t, self.field_value(storage, t)) for owner, f, storage, t in self.m.all_fields(name)]
        for _, _, storage, _, x in written:
            x.kept -= storage != 'strong'
        o = Value(self.result(f'alloc_ref ${name}'), ('name', name), OWNED)
        if written:
            self.build(o, name, written)
        while o.ty != ty:
            above = r.choice([c for c in self.d.chain(o.ty[1])[1:] if ty[1] in self.d.chain(c)])
            o = Value(self.result(f'upcast {self.typed(o)} to ${above}'), ('name', above), OWNED)
        return o

    def build(self, o, name, written):
        self.r.shuffle(written)
        seen = {name: Value(self.result(f'begin_borrow {self.typed(o)}'), o.ty)}
        for owner, f, storage, t, x in written:
            if owner not in seen:
                seen[owner] = Value(self.result(f'upcast {self.typed(seen[name])} to ${owner}'), ('name', owner))
            a = self.result(f'ref_element_addr {self.typed(seen[owner])}, #{owner}.{f}')
            if storage == 'strong':
                self.emit(f'store {x.name} to [{"trivial" if self.d.trivial(t) else "init"}] {a} : $*{type_text(t)}')
            else:
                self.emit(f'store_{storage} {x.name} to [init] {a} : $*@sil_{storage} {type_text(t)}')
        self.emit(f'end_borrow {self.typed(seen[name])}')

    def field_value(self, storage, t):
        """What a new field is written with. Weak and unowned ones only name it, so it is kept until they do."""
        if storage == 'strong':
            return self.give(t)
        x = self.named(t)
        x.kept += 1
        return x

    def named(self, t):
        """A value that a weak or unowned place can name: one that is there, also in an Optional that is made of a lent one, or a new one."""
        r, optional = self.r, t[0] == 'opt'
        there = [v for v in self.owned + self.lent if v.ty == t]
        if there and r.random() < 0.5:
            return r.choice(there)
        if optional:
            objects = [v for v in self.lent if v.ty == t[1]]
            if objects and r.random() < 0.7:
                x = r.choice(objects)
                return self.keep(self.result(f'enum ${type_text(t)}, #Optional.some!enumelt, {self.typed(x)}'), t, LENT, x.bases)
            if r.random() < 0.3 or not self.can_give(t):
                return Value(self.result(f'enum ${type_text(t)}, #Optional.none!enumelt'), t)
        v = self.give(t)
        self.owned.append(v)
        return v
