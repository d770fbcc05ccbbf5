"""A random body of a function that keeps the rules: steps, calls and branches, made along with the state of its values and places."""
from lower import signature_text, type_text
from making import BIT, INT, LENT, NONE, OWNED, Place, Value
from model import CONVENTIONS
from steps import Steps
from values import members


class Body(Steps):
    # ---- calls
    def step_call(self):
        if not self.callees:
            return
        name, sig = self.r.choice(self.callees)
        operands, used, lent = [], [], []
        for word, t in sig.entry():
            x = self.address(word, t, used) if word in CONVENTIONS else self.operand(word, t, lent)
            if x is None:
                break
            operands.append(x)
        for v in lent:
            v.kept -= 1
        if len(operands) < len(sig.entry()):
            # no value is there for an operand, so those that were taken for it come back
            self.owned += [x for x in operands if isinstance(x, Value) and not self.d.trivial(x.ty) and x not in self.owned + self.lent]
            return
        f = self.result(f'function_ref @{name} : {signature_text(sig)}')
        v = self.result(f'apply {f}({", ".join(x.name for x in operands)}) : {signature_text(sig)}')
        for p, word in used:
            p.full = CONVENTIONS[word][3] == 'full' or self.d.trivial(p.ty)
        self.keep(v, sig.direct(), OWNED)

    def operand(self, word, t, lent):
        """An operand by value. One that is lent to the call stays, and no other operand consumes it."""
        if word != '@guaranteed':
            return self.give(t) if self.can_give(t) else None
        known = [v for v in self.owned + self.lent if v.ty == t]
        if not known:
            if not self.can_give(t):
                return None
            known = [self.give(t)]
            self.owned.append(known[0])
        v = self.r.choice(known)
        v.kept += 1
        lent.append(v)
        return v

    def address(self, word, t, used):
        """A place that fits the convention, and that no operand before it overlaps; a part of one where that may be lent."""
        def fits(p):
            if p.kind == 'field' or any(q is p for q, _ in used):
                return False
            if word == '@in_guaranteed':
                return p.full
            if p.loans or p.kind == '@in_guaranteed':
                return False
            return p.full if word != '@out' else not p.full or self.d.trivial(t)
        known = [p for p in self.places if p.ty == t and fits(p)]
        parts = [(p, n) for p in self.places for n, u in enumerate(members(self.m, p.ty) or ()) if u == t and fits(p)]
        if parts and word in ('@inout', '@in_guaranteed') and (not known or self.r.random() < 0.5):
            p, n = self.r.choice(parts)
            used.append((p, word))
            return Place(self.part_at(p, n), t, p.kind, True)
        if not known:
            p = Place(self.result(f'alloc_stack ${type_text(t)}'), t, 'slot', False)
            self.slots.append(p)
            self.places.append(p)
            if word != '@out':
                self.fill(p)
                if not p.full:
                    return None
            known = [p]
        p = self.r.choice(known)
        used.append((p, word))
        return p

    def part_at(self, p, n):
        """The address of a member of a place."""
        if p.ty[0] == 'tuple':
            return self.result(f'tuple_element_addr {p.name} : $*{type_text(p.ty)}, {n}')
        return self.result(f'struct_element_addr {p.name} : $*{p.ty[1]}, #{p.ty[1]}.{self.m.decls[p.ty[1]][1][n][0]}')

    # ---- branches
    def saved(self):
        return [list(x) for x in (self.owned, self.lent, self.plain, self.scopes, self.places, self.slots, self.fields)] + [[(p, p.full) for p in self.places]]

    def restore(self, saved):
        self.owned, self.lent, self.plain, self.scopes, self.places, self.slots, self.fields = [list(x) for x in saved[:-1]]
        for p, full in saved[-1]:
            p.full = full

    def settle(self, saved, spent=()):
        """Brings the state back to a saved one, without the values that are to be ended besides."""
        while len(self.scopes) > len(saved[3]):
            inner = [s for s in self.scopes if s not in saved[3] and s.is_free()]
            self.close(inner[-1])
        while len(self.slots) > len(saved[5]):
            self.step_dealloc()
        for p, full in saved[-1]:
            if p.full != full and not (p.full and self.d.trivial(p.ty)):
                (self.fill if full else self.empty)(p)
        for v in list(self.owned):
            if v not in saved[0] or v in spent:
                self.owned.remove(v)
                self.emit(f'destroy_value {self.typed(v)}')

    def arm(self, saved, spent, depth, join, t, extra=None):
        """One side of a branch, up to its jump to the block behind, with a value of the type if there is one."""
        self.restore(saved)
        if extra is not None:
            (self.plain if self.d.trivial(extra.ty) else self.lent if extra.kind == LENT else self.owned).append(extra)
        for v in saved[0]:
            v.kept += v not in spent
        for s in saved[3]:
            s.kept += 1
        self.steps(self.r.randrange(0, 4), depth + 1, len(saved[5]))
        x = self.give(t) if t is not None else None
        self.settle(saved, spent)
        for v in saved[0]:
            v.kept -= v not in spent
        for s in saved[3]:
            s.kept -= 1
        if self.r.random() < 0.06:
            self.emit('unreachable')
        else:
            self.emit(f'br {join}' + (f'({self.typed(x)})' if x is not None else ''))

    def joined(self, saved, spent, join, t):
        self.restore(saved)
        self.owned = [v for v in self.owned if v not in spent]
        if t is None:
            self.open(join)
            return
        v = self.name()
        self.open(join, [f'{v} : {"" if self.d.trivial(t) else "@owned "}${type_text(t)}'])
        self.keep(v, t, OWNED)

    def chosen(self):
        """The values that all sides of a branch end, and the type of what they hand on."""
        spent = [v for v in self.free() if self.r.random() < 0.3]
        t = self.d.type()
        return spent, t if self.r.random() < 0.5 and self.is_makeable(t) else None

    def step_if(self, depth):
        spent, t = self.chosen()
        one, two, join = self.label(), self.label(), self.label()
        self.emit(f'cond_br {self.give(BIT).name}, {one}, {two}')
        saved = self.saved()
        for label in (one, two):
            self.open(label)
            self.arm(saved, spent, depth, join, t)
        self.joined(saved, spent, join, t)

    def step_switch(self, depth):
        def cases(t):
            return [('none', None), ('some', t[1])] if t[0] == 'opt' else [(c, p) for c, _, p in self.m.decls[t[1]][1]]
        known = [v for v in self.free() + self.lent + self.plain if v.ty[0] == 'opt' or v.ty[0] == 'name' and self.m.decls[v.ty[1]][0] == 'enum']
        if not known:
            return
        v, r = self.r.choice(known), self.r
        if v in self.owned:
            self.owned.remove(v)
        spent, t = self.chosen()
        owner, all_cases, join = 'Optional' if v.ty[0] == 'opt' else v.ty[1], cases(v.ty), self.label()
        r.shuffle(all_cases)
        cut = r.randrange(len(all_cases)) if r.random() < 0.4 else len(all_cases)
        labels = [self.label() for _ in all_cases[:cut]] + ([self.label()] if cut < len(all_cases) else [])
        words = [f'case #{owner}.{c}!enumelt: {label}' for (c, _), label in zip(all_cases[:cut], labels)]
        self.emit(f'switch_enum {self.typed(v)}, ' + ', '.join(words + ([f'default {labels[-1]}'] if cut < len(all_cases) else [])))
        saved = self.saved()
        for n, label in enumerate(labels):
            payload = all_cases[n][1] if n < cut else v.ty if v.kind != NONE else None
            extra, args = None, []
            if payload is not None:
                kind = NONE if self.d.trivial(payload) else LENT if v.kind == LENT else OWNED
                extra = Value(self.name(), payload, kind, v.bases if kind == LENT else ())
                args = [f'{extra.name} : ' + {NONE: '', LENT: '@guaranteed ', OWNED: '@owned '}[kind] + f'${type_text(payload)}']
            self.open(label, args)
            self.arm(saved, spent, depth, join, t, extra)
        self.joined(saved, spent, join, t)

    def step_loop(self, depth):
        """A loop of a few rounds, which hands an integer and another value on to itself."""
        r, t = self.r, self.d.type()
        if not self.is_makeable(t):
            return
        x, zero = self.give(t), Value(self.result('integer_literal $Builtin.Int64, 0'), INT)
        head, out, n, v = self.label(), self.label(), self.name(), self.name()
        word = '' if self.d.trivial(t) else '@owned '
        self.emit(f'br {head}({self.typed(zero)}, {self.typed(x)})')
        saved = self.saved()
        self.open(head, [f'{n} : $Builtin.Int64', f'{v} : {word}${type_text(t)}'])
        self.plain.append(Value(n, INT))
        self.keep(v, t, OWNED)
        for y in saved[0] + saved[3]:
            y.kept += 1
        self.steps(r.randrange(0, 4), depth + 1, len(saved[5]))
        y = self.give(t)
        self.settle(saved)
        for z in saved[0] + saved[3]:
            z.kept -= 1
        one = self.result('integer_literal $Builtin.Int64, 1')
        flag = self.result('integer_literal $Builtin.Int1, 0')
        pair = '$(Builtin.Int64, Builtin.Int1)'
        sum_ = self.result(f'builtin "sadd_with_overflow_Int64"({n} : $Builtin.Int64, {one} : $Builtin.Int64, {flag} : $Builtin.Int1) : {pair}')
        more = self.result(f'tuple_extract {sum_} : {pair}, 0')
        last = self.result(f'integer_literal $Builtin.Int64, {r.randrange(1, 4)}')
        goes = self.result(f'builtin "cmp_slt_Int64"({more} : $Builtin.Int64, {last} : $Builtin.Int64) : $Builtin.Int1')
        self.emit(f'cond_br {goes}, {head}({more} : $Builtin.Int64, {self.typed(y)}), {out}({self.typed(y)})')
        self.restore(saved)
        z = self.name()
        self.open(out, [f'{z} : {word}${type_text(t)}'])
        self.keep(z, t, OWNED)

    # ---- the whole
    STEPS = {'make': 10, 'destroy': 6, 'copy': 5, 'move': 2, 'borrow': 8, 'end': 4, 'debug': 1, 'arithmetic': 4, 'fail': 2, 'show': 3, 'take_apart': 6,
             'forward_lent': 3, 'alloc': 6, 'dealloc': 3, 'change': 4, 'field': 9, 'read': 9, 'write': 9, 'tie': 5, 'call': 8, 'if': 3, 'switch': 6, 'loop': 2}

    def steps(self, count, depth, kept):
        names = list(self.STEPS)
        for name in self.r.choices(names, [self.STEPS[n] for n in names], k=count):
            if name in ('if', 'switch', 'loop'):
                if depth < 2:
                    getattr(self, 'step_' + name)(depth)
            elif name == 'dealloc':
                self.step_dealloc(kept)
            else:
                getattr(self, 'step_' + name)()

    def function(self, sig, direct, count):
        """The lines of the blocks of a function with this signature, which returns a value of the type."""
        args = []
        for word, t in sig.entry():
            name = self.name()
            if word in CONVENTIONS:
                self.places.append(Place(name, t, word, CONVENTIONS[word][0] == 'full'))
                args.append(f'{name} : $*{type_text(t)}')
            else:
                v = self.keep(name, t, LENT if word == '@guaranteed' else OWNED)
                if v.kind == LENT:
                    v.bases = [v]
                args.append(f'{name} : {word + " " if word else ""}${type_text(t)}')
        self.open('entry', args)
        self.steps(count, 0, 0)
        x = self.give(direct)
        while self.scopes:
            self.close([s for s in self.scopes if s.is_free()][-1])
        while self.slots:
            self.step_dealloc()
        for p in self.places:
            if CONVENTIONS[p.kind][1] == 'full' and not p.full:
                self.fill(p)
            elif CONVENTIONS[p.kind][1] == 'empty':
                self.empty(p)
        for v in self.owned:
            self.emit(f'destroy_value {self.typed(v)}')
        self.emit(f'return {self.typed(x)}')
        lines = []
        for label, arguments, body in self.blocks:
            lines += [label + (f'({", ".join(arguments)})' if arguments else '') + ':'] + body
        return lines
