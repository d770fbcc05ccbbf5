"""Random steps of a body that keep the rules, at values and at places. Each does nothing where there is nothing for it to do."""
from lower import signature_text, type_text
from making import BIT, INT, LENT, NONE, OWNED, Making, Place, Value

ARITHMETIC = ('sadd_with_overflow', 'ssub_with_overflow', 'smul_with_overflow')
COMPARED = ('cmp_eq', 'cmp_ne', 'cmp_slt', 'cmp_sle', 'cmp_sgt', 'cmp_sge')


class Steps(Making):
    # ---- values
    def step_make(self):
        t = self.d.type()
        if self.can_give(t):
            v = self.give(t)
            (self.plain if self.d.trivial(t) else self.owned).append(v)

    def free(self):
        return [v for v in self.owned if v.is_free()]

    def step_destroy(self):
        if self.free():
            v = self.r.choice(self.free())
            self.owned.remove(v)
            self.emit(f'destroy_value {self.typed(v)}')

    def step_copy(self):
        if self.owned + self.lent:
            v = self.r.choice(self.owned + self.lent)
            self.keep(self.result(f'copy_value {self.typed(v)}'), v.ty, OWNED)

    def step_move(self):
        if self.free():
            v = self.r.choice(self.free())
            self.owned.remove(v)
            self.keep(self.result(f'move_value {self.r.choice(("", "[lexical] "))}{self.typed(v)}'), v.ty, OWNED)

    def step_borrow(self):
        known = self.owned + self.lent
        if known:
            v = self.r.choice(known)
            self.scope(self.result(f'begin_borrow {self.r.choice(("", "[lexical] "))}{self.typed(v)}'), v.ty, [v] if v.kind != LENT else v.bases)

    def scope(self, name, ty, lenders, place=None):
        s = self.keep(name, ty, LENT)
        s.bases, s.lenders, s.place = [s], list(lenders), place
        for v in s.lenders:
            v.borrows += 1
        if place is not None:
            place.loans += 1
        self.scopes.append(s)
        return s

    def step_end(self):
        free = [s for s in self.scopes if s.is_free()]
        if free:
            self.close(self.r.choice(free))

    def close(self, s):
        """Ends a borrow, and what was forwarded from it goes out of sight."""
        self.emit(f'end_borrow {self.typed(s)}')
        self.scopes.remove(s)
        for v in s.lenders:
            v.borrows -= 1
        if s.place is not None:
            s.place.loans -= 1
        self.lent = [v for v in self.lent if s not in v.bases]
        self.fields = [p for p in self.fields if s not in p.bases]

    def step_debug(self):
        known = self.owned + self.lent + self.plain
        if known:
            self.emit(f'debug_value {self.typed(self.r.choice(known))}')

    def step_arithmetic(self):
        r = self.r
        known = [v for v in self.plain if v.ty[0] == 'int']
        if not known:
            return
        a = r.choice(known)
        b, width = self.give(a.ty), a.ty[1]
        if r.random() < 0.5:
            self.keep(self.result(f'builtin "{r.choice(COMPARED)}_Int{width}"({self.typed(a)}, {self.typed(b)}) : $Builtin.Int1'), BIT, NONE)
            return
        flag = self.give(BIT)
        pair = ('tuple', (a.ty, BIT))
        operands = ', '.join(map(self.typed, (a, b, flag)))
        v = self.keep(self.result(f'builtin "{r.choice(ARITHMETIC)}_Int{width}"({operands}) : ${type_text(pair)}'), pair, NONE)
        for n in range(2):
            self.keep(self.result(f'tuple_extract {self.typed(v)}, {n}'), pair[1][n], NONE)

    def step_fail(self):
        bit = Value(self.result('integer_literal $Builtin.Int1, 0'), BIT) if self.r.random() < 0.9 else self.give(BIT)
        self.emit(f'cond_fail {self.typed(bit)}, "failed {self.made}"')

    def step_show(self):
        name, sig = self.r.choice(self.externals)
        known = [v for v in self.plain if v.ty[0] == 'int']
        f = self.result(f'function_ref @{name} : {signature_text(sig)}')
        xs = [self.r.choice([v for v in known if v.ty == t] or [self.make(t)]) for _, t in sig.params]
        self.emit(f'{self.name()} = apply {f}({", ".join(x.name for x in xs)}) : {signature_text(sig)}')

    def step_take_apart(self):
        """A struct or tuple is taken apart: destructured, or its members extracted from a lent or trivial one."""
        def members(t):
            return list(t[1]) if t[0] == 'tuple' else [x[2] for x in self.m.decls[t[1]][1]] if t[0] == 'name' and self.m.decls[t[1]][0] == 'struct' else None
        known = [v for v in self.free() + self.lent + self.plain if members(v.ty)]
        if not known:
            return
        v = self.r.choice(known)
        ts, word = members(v.ty), 'tuple' if v.ty[0] == 'tuple' else 'struct'
        if v in self.owned or self.r.random() < 0.4:
            if v in self.owned:
                self.owned.remove(v)
            names = [self.name() for _ in ts]
            self.emit(f'({", ".join(names)}) = destructure_{word} {self.typed(v)}')
            for name, t in zip(names, ts):
                self.keep(name, t, v.kind if not self.d.trivial(t) else NONE, v.bases)
            return
        n = self.r.randrange(len(ts))
        member = n if word == 'tuple' else f'#{v.ty[1]}.{self.m.decls[v.ty[1]][1][n][0]}'
        self.keep(self.result(f'{word}_extract {self.typed(v)}, {member}'), ts[n], v.kind if not self.d.trivial(ts[n]) else NONE, v.bases)

    def step_forward_lent(self):
        """A lent value goes into an Optional or a tuple, or is cast up."""
        if not self.lent:
            return
        v, r = self.r.choice(self.lent), self.r
        above = self.d.chain(v.ty[1])[1:] if self.m.is_class(v.ty) else []
        if above:
            t = ('name', r.choice(above))
            line = f'upcast {self.typed(v)} to ${t[1]}'
        elif r.random() < 0.5:
            t = ('opt', v.ty)
            line = f'enum ${type_text(t)}, #Optional.some!enumelt, {self.typed(v)}'
        else:
            n = self.give(INT)
            t = ('tuple', (INT, v.ty))
            line = f'tuple ({self.typed(n)}, {self.typed(v)})'
        if self.d.leaves(t) < 24:
            self.keep(self.result(line), t, LENT, v.bases)

    # ---- places
    def step_alloc(self):
        r, t = self.r, self.d.type()
        if len(self.slots) > 4:
            return
        if r.random() < 0.35:
            storage = r.choice(('weak', 'unowned'))
            t = (storage, ('opt', ('name', r.choice(self.d.classes))) if storage == 'weak' else ('name', r.choice(self.d.classes)))
        p = Place(self.result(f'alloc_stack ${type_text(t)}'), t, 'slot', False)
        self.slots.append(p)
        self.places.append(p)
        if r.random() < 0.8:
            self.fill(p)

    def step_dealloc(self, kept=0):
        if len(self.slots) > kept and not self.slots[-1].loans:
            p = self.slots.pop()
            self.places.remove(p)
            self.empty(p)
            self.emit(f'dealloc_stack {p.name} : $*{type_text(p.ty)}')

    def fill(self, p):
        """The first write of an empty place, where there is a value for it."""
        if p.is_stored():
            if p.ty[0] == 'weak' or self.can_give(p.ty[1]):
                x = self.named(p.ty[1])
                self.emit(f'store_{p.ty[0]} {x.name} to [init] {p.name} : $*{type_text(p.ty)}')
                p.full = True
        elif self.can_give(p.ty):
            x = self.give(p.ty)
            self.emit(f'store {x.name} to [{"trivial" if self.d.trivial(p.ty) else "init"}] {p.name} : $*{type_text(p.ty)}')
            p.full = True

    def empty(self, p):
        """A full place is emptied, where it isn't trivial."""
        if not p.full or self.d.trivial(p.ty):
            return
        if self.r.random() < (0.8 if p.ty[0] == 'unowned' else 0.5):
            self.emit(f'destroy_addr {p.name} : $*{type_text(p.ty)}')
        else:
            word, t = (f'load_{p.ty[0]}', p.ty[1]) if p.is_stored() else ('load', p.ty)
            self.keep(self.result(f'{word} [take] {p.name} : $*{type_text(p.ty)}'), t, OWNED)
        p.full = False

    def step_change(self):
        """A place is filled or emptied, where it could be filled again."""
        free = [p for p in self.places if not p.loans and p.kind != '@in_guaranteed' and self.is_makeable(p.ty[1] if p.is_stored() else p.ty)]
        if free:
            p = self.r.choice(free)
            (self.empty if p.full else self.fill)(p)

    def step_field(self):
        """The address of a field of a lent object that is built."""
        lent = [v for v in self.lent if self.m.is_class(v.ty) and self.m.decls[v.ty[1]][1]]
        if lent:
            v = self.r.choice(lent)
            f, storage, t = self.r.choice(self.m.decls[v.ty[1]][1])
            t = t if storage == 'strong' else (storage, t)
            self.fields.append(Place(self.result(f'ref_element_addr {self.typed(v)}, #{v.ty[1]}.{f}'), t, 'field', True, v.bases))

    def part(self, p):
        """The address and type of a part of a place."""
        a, t = p.name, p.ty
        for _ in range(self.r.randrange(1, 3)):
            if t[0] == 'tuple' and t[1]:
                n = self.r.randrange(len(t[1]))
                a, t = self.result(f'tuple_element_addr {a} : $*{type_text(t)}, {n}'), t[1][n]
            elif t[0] == 'name' and self.m.decls[t[1]][0] == 'struct' and self.m.decls[t[1]][1]:
                f, _, u = self.r.choice(self.m.decls[t[1]][1])
                a, t = self.result(f'struct_element_addr {a} : $*{t[1]}, #{t[1]}.{f}'), u
        return a, t

    def step_read(self):
        full = [p for p in self.places + self.fields if p.full]
        if not full:
            return
        p, r = self.r.choice(full), self.r
        if p.is_stored():
            if p.ty[0] == 'weak' or r.random() < 0.5:
                self.keep(self.result(f'load_{p.ty[0]} {p.name} : $*{type_text(p.ty)}'), p.ty[1], OWNED)
            return
        a, t = (p.name, p.ty) if r.random() < 0.5 else self.part(p)
        if self.d.trivial(t):
            self.keep(self.result(f'load [trivial] {a} : $*{type_text(t)}'), t, NONE)
        elif p.kind == 'field' or r.random() < 0.5:
            self.keep(self.result(f'load [copy] {a} : $*{type_text(t)}'), t, OWNED)
        else:
            self.scope(self.result(f'load_borrow {a} : $*{type_text(t)}'), t, [], p)

    def step_write(self):
        full = [p for p in self.places + self.fields if p.full and not p.loans and p.kind != '@in_guaranteed']
        if not full:
            return
        p = self.r.choice(full)
        if p.is_stored():
            if p.ty[0] == 'weak' or self.can_give(p.ty[1]):
                self.emit(f'store_{p.ty[0]} {self.named(p.ty[1]).name} to {p.name} : $*{type_text(p.ty)}')
            return
        a, t = (p.name, p.ty) if self.r.random() < 0.5 else self.part(p)
        if self.can_give(t):
            self.emit(f'store {self.give(t).name} to [{"trivial" if self.d.trivial(t) else "assign"}] {a} : $*{type_text(t)}')

    def step_tie(self):
        """An object comes to own a copy of what is there, which may own it."""
        owners = [(v, f, t[1]) for v in self.lent if self.m.is_class(v.ty)
                  for f, storage, t in self.m.decls[v.ty[1]][1] if storage == 'strong' and t[0] == 'opt' and self.m.is_class(t[1])]
        if not owners:
            return
        owner, f, c = self.r.choice(owners)
        known = [v for v in self.owned + self.lent if self.m.is_class(v.ty) and c[1] in self.d.chain(v.ty[1])]
        if known:
            v, t = self.r.choice(known), ('opt', c)
            x = Value(self.result(f'copy_value {self.typed(v)}'), v.ty, OWNED)
            if x.ty != c:
                x = Value(self.result(f'upcast {self.typed(x)} to ${c[1]}'), c, OWNED)
            x = Value(self.result(f'enum ${type_text(t)}, #Optional.some!enumelt, {self.typed(x)}'), t, OWNED)
            a = self.result(f'ref_element_addr {self.typed(owner)}, #{owner.ty[1]}.{f}')
            self.emit(f'store {x.name} to [assign] {a} : $*{type_text(t)}')
