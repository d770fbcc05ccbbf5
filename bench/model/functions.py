"""Random functions near the border of acceptance: a function that keeps the rules is built along with the state of its places, and then
changed in a few spots. Every function is typed."""
import random

HEAD = '''sil_stage canonical
import Builtin
import Swift
class C {
}
class K {
  var c: C
  var n: Builtin.Int64
  var p: P
}
class L : K {
  var c: C
  var m: Builtin.Int64
}
class N : L {
}
class M : N {
  var d: C
}
struct P {
  var c: C
  var n: Builtin.Int64
}
struct Q {
  var p: P
  var c: C
}
struct I {
  var a: Builtin.Int64
  var b: Builtin.Int64
}
'''
INT = 'Builtin.Int64'
BIT = 'Builtin.Int1'
PAIR = '(C, Builtin.Int64)'
FIELDS = {'P': [('c', 'C'), ('n', INT)], 'Q': [('p', 'P'), ('c', 'C')], 'I': [('a', INT), ('b', INT)],
          'K': [('c', 'C'), ('n', INT), ('p', 'P')]}
# of classes that inherit: their own fields, and from which they inherit
OWN = {'K': FIELDS['K'], 'L': [('c', 'C'), ('m', INT)], 'N': [], 'M': [('d', 'C')]}
ABOVE = {'K': None, 'L': 'K', 'N': 'L', 'M': 'N'}
TYPES = ['C', 'C', 'P', 'Q', 'I', INT, PAIR]
TRIVIAL = {'I', INT, BIT}
ADDRESS = ('@inout', '@in', '@in_guaranteed', '@out')


class Call:
    """args: [conv, value, type]; conv '' '@owned' '@guaranteed' or an address convention."""

    def __init__(self, result, args):
        self.result, self.args = result, args

    def copy(self):
        return Call(self.result, [list(a) for a in self.args])


class Place:
    def __init__(self, addr, ty, root, full, kind):
        self.addr, self.ty, self.root, self.full, self.kind = addr, ty, root, full, kind


class Gen:
    def __init__(self, rng, conventions=ADDRESS):
        self.r, self.conv = rng, conventions
        self.n = 0
        self.blocks = []           # [label, [items], terminator text]
        self.addresses = {}        # name -> type
        self.places = []           # live roots
        self.slots = []            # stack
        self.owned = []            # (name, type)
        self.lent = []             # roots with an open loan, or parts of them: (root, scope, ty)
        self.parts = {}            # (root addr) -> [(addr, ty)]
        self.open = []             # scopes to be closed in order: (scope, ty, root)

    def name(self, p='v'):
        self.n += 1
        return f'%{p}{self.n}'

    def emit(self, line):
        self.blocks[-1][1].append(line)

    def block(self):
        label = f'b{len(self.blocks)}'
        self.blocks.append([label, [], None])
        return label

    # values
    def value(self, ty):
        """A value of the type, Owned or None, made now or held."""
        r = self.r
        if ty not in TRIVIAL:
            held = [o for o in self.owned if o[1] == ty]
            if held and r.random() < 0.6:
                o = r.choice(held)
                self.owned.remove(o)
                return o[0]
        v = self.name()
        if ty == INT or ty == BIT:
            self.emit(f'{v} = integer_literal ${ty}, {r.randrange(2)}')
        elif ty == 'C':
            self.emit(f'{v} = alloc_ref $C')
        elif ty == PAIR:
            a, b = self.value('C'), self.value(INT)
            self.emit(f'{v} = tuple ({a} : $C, {b} : ${INT})')
        elif ty == 'K':
            return self.object()
        else:
            vs = [(self.value(t), t) for _, t in FIELDS[ty]]
            self.emit(f'{v} = struct ${ty} (' + ', '.join(f'{a} : ${t}' for a, t in vs) + ')')
        return v

    def object(self):
        r = self.r
        cls = r.choice(('K', 'K', 'L', 'N', 'M'))
        chain = self.chain(cls)
        vals = [(c, f, t, self.value(t)) for c in chain for f, t in OWN[c]]
        o, b = self.name('o'), self.name('s')
        self.emit(f'{o} = alloc_ref ${cls}')
        self.emit(f'{b} = begin_borrow {o} : ${cls}')
        borrows = {cls: [b]}
        r.shuffle(vals)
        for c, f, t, v in vals:
            a, seen = self.name('a'), self.seen_as(borrows, c)
            self.addresses[a] = t
            self.emit(f'{a} = ref_element_addr {seen} : ${c}, #{c}.{f}')
            self.emit(f'store {v} to [{"trivial" if t in TRIVIAL else "init"}] {a} : $*{t}')
        self.emit(f'end_borrow {b} : ${cls}')
        while cls != 'K':
            above = r.choice(self.chain(cls)[1:])
            v = self.name('o')
            self.emit(f'{v} = upcast {o} : ${cls} to ${above}')
            o, cls = v, above
        return o

    @staticmethod
    def chain(cls):
        """A class and its ancestors."""
        return [cls] + (Gen.chain(ABOVE[cls]) if ABOVE[cls] else [])

    def seen_as(self, borrows, cls):
        """The borrow as one of this class: one that is there, or an upcast of one."""
        if cls in borrows and self.r.random() < 0.7:
            return self.r.choice(borrows[cls])
        below = [(c, v) for c, vs in borrows.items() for v in vs if c != cls and cls in self.chain(c)]
        if not below:
            return self.r.choice(borrows[cls])
        c, v = self.r.choice(below)
        w = self.name('u')
        self.emit(f'{w} = upcast {v} : ${c} to ${cls}')
        borrows.setdefault(cls, []).append(w)
        return w

    def destroy(self, v, ty):
        self.emit(f'destroy_value {v} : ${ty}')

    # places
    def lent_root(self, root):
        return any(x[2] == root for x in self.open)

    def free(self, full=None, nontrivial=None, writable=True):
        return [p for p in self.places if (full is None or p.full == full) and (nontrivial is None or (p.ty not in TRIVIAL) == nontrivial)
                and not (writable and self.lent_root(p.root)) and not (writable and p.kind == '@in_guaranteed')]

    def fill(self, p):
        q = 'trivial' if p.ty in TRIVIAL else 'init'
        v = self.value(p.ty)
        self.emit(f'store {v} to [{q}] {p.addr} : $*{p.ty}')
        p.full = True

    def empty(self, p):
        if self.r.random() < 0.5:
            self.emit(f'destroy_addr {p.addr} : $*{p.ty}')
        else:
            v = self.name()
            self.emit(f'{v} = load [take] {p.addr} : $*{p.ty}')
            self.owned.append((v, p.ty))
        p.full = False

    def part(self, p):
        """An address of a part of a place, or the place's own."""
        r = self.r
        known = self.parts.setdefault(p.addr, [])
        if known and r.random() < 0.4:
            return r.choice(known)
        a, ty = p.addr, p.ty
        steps = r.randrange(1, 3)
        for _ in range(steps):
            if ty in ('P', 'Q', 'I'):
                f, t = r.choice(FIELDS[ty])
                b = self.name('a')
                self.emit(f'{b} = struct_element_addr {a} : $*{ty}, #{ty}.{f}')
            elif ty == PAIR:
                k = r.randrange(2)
                t = ('C', INT)[k]
                b = self.name('a')
                self.emit(f'{b} = tuple_element_addr {a} : $*{ty}, {k}')
            else:
                break
            a, ty = b, t
            self.addresses[a] = ty
        if a != p.addr:
            known.append((a, ty))
        return a, ty

    def alloc(self):
        ty = self.r.choice(TYPES)
        a = self.name('a')
        self.emit(f'{a} = alloc_stack ${ty}')
        self.addresses[a] = ty
        p = Place(a, ty, a, False, 'slot')
        self.places.append(p)
        self.slots.append(p)
        if self.r.random() < 0.6:
            self.fill(p)

    def dealloc(self):
        p = self.slots[-1]
        if self.lent_root(p.root):
            return
        if p.full and p.ty not in TRIVIAL:
            self.empty(p)
        self.emit(f'dealloc_stack {p.addr} : $*{p.ty}')
        self.slots.pop()
        self.places.remove(p)

    def read(self):
        ps = self.free(full=True, writable=False)
        if not ps:
            return
        p = self.r.choice(ps)
        a, ty = (p.addr, p.ty) if self.r.random() < 0.5 else self.part(p)
        v = self.name()
        if ty in TRIVIAL:
            self.emit(f'{v} = load [trivial] {a} : $*{ty}')
        elif self.r.random() < 0.5:
            self.emit(f'{v} = load [copy] {a} : $*{ty}')
            self.owned.append((v, ty))
        else:
            self.emit(f'{v} = load_borrow {a} : $*{ty}')
            self.open.append((v, ty, p.root))

    def close(self):
        if self.open:
            k = self.r.randrange(len(self.open))
            v, ty, _ = self.open.pop(k)
            self.emit(f'end_borrow {v} : ${ty}')

    def write(self):
        ps = self.free(full=True)
        if not ps:
            return
        p = self.r.choice(ps)
        a, ty = (p.addr, p.ty) if self.r.random() < 0.4 else self.part(p)
        v = self.value(ty)
        self.emit(f'store {v} to [{"trivial" if ty in TRIVIAL else "assign"}] {a} : $*{ty}')

    def change(self):
        """Fills an empty place or empties a full one."""
        ps = [p for p in self.free() if p.kind != '@in_guaranteed']
        if not ps:
            return
        p = self.r.choice(ps)
        if not p.full:
            self.fill(p)
        elif p.ty not in TRIVIAL:
            self.empty(p)

    def call(self):
        r = self.r
        args, used = [], []
        for _ in range(r.choice((1, 1, 2, 2, 3))):
            c = r.choice(self.conv)
            ps = []
            for p in self.places:
                if any(q is p and not (c == d == '@in_guaranteed') for q, d in used):
                    continue
                if p.kind == '@in_guaranteed' and c != '@in_guaranteed':
                    continue
                if self.lent_root(p.root) and c != '@in_guaranteed':
                    continue
                if c == '@out' and p.full and p.ty not in TRIVIAL or c != '@out' and not p.full:
                    continue
                ps.append(p)
            if not ps:
                continue
            p = r.choice(ps)
            a, ty = p.addr, p.ty
            if c in ('@inout', '@in_guaranteed') and r.random() < 0.4:
                a, ty = self.part(p)
            args.append([c, a, ty])
            used.append((p, c))
        if self.owned and r.random() < 0.3:
            v, ty = self.owned[-1]
            if r.random() < 0.5:
                self.owned.pop()
                args.append(['@owned', v, ty])
            else:
                args.append(['@guaranteed', v, ty])
        if not args:
            return
        for p, c in used:
            if c == '@out':
                p.full = True
            if c == '@in' and p.ty not in TRIVIAL:
                p.full = False
        res = self.name('r')
        self.emit(Call(res, args))

    def field(self):
        """An access of a built object's field."""
        os = [o for o in self.owned if o[1] == 'K']
        r = self.r
        if not os:
            if r.random() < 0.5:
                self.owned.append((self.object(), 'K'))
            return
        o, _ = r.choice(os)
        b, a = self.name('s'), self.name('a')
        self.emit(f'{b} = begin_borrow {o} : $K')
        f, t = r.choice(FIELDS['K'])
        self.emit(f'{a} = ref_element_addr {b} : $K, #K.{f}')
        self.addresses[a] = t
        if t == 'P' and r.random() < 0.5:
            f, u = r.choice(FIELDS['P'])
            d = self.name('a')
            self.emit(f'{d} = struct_element_addr {a} : $*P, #P.{f}')
            self.addresses[d] = u
            a, t = d, u
        if r.random() < 0.5:
            v = self.name()
            self.emit(f'{v} = load [{"trivial" if t in TRIVIAL else "copy"}] {a} : $*{t}')
            if t not in TRIVIAL:
                self.owned.append((v, t))
        else:
            v = self.value(t)
            self.emit(f'store {v} to [{"trivial" if t in TRIVIAL else "assign"}] {a} : $*{t}')
        self.emit(f'end_borrow {b} : $K')

    def debug(self):
        if self.places:
            p = self.r.choice(self.places)
            self.emit(f'debug_value {p.addr} : $*{p.ty}')

    def settle(self, owned, opened, slots, full):
        """Brings the state back to a given one."""
        while len(self.open) > len(opened):
            v, ty, root = next(x for x in reversed(self.open) if x not in opened)
            self.emit(f'end_borrow {v} : ${ty}')
            self.open.remove((v, ty, root))
        while len(self.slots) > slots:
            self.dealloc()
        for p in self.places:
            if p in full and p.full != full[p] and not self.lent_root(p.root):
                if full[p]:
                    self.fill(p)
                elif p.ty not in TRIVIAL:
                    self.empty(p)
        for o in list(self.owned):
            if o not in owned:
                self.destroy(*o)
                self.owned.remove(o)

    def run(self, count, depth=0, keep=0, shut=0):
        """Some steps; those slots, values and scopes that stood before aren't taken away where `keep` of them have to stay."""
        r = self.r
        for _ in range(count):
            x = r.random()
            if x < 0.10 and len(self.slots) < 5:
                self.alloc()
            elif x < 0.16 and len(self.slots) > keep:
                self.dealloc()
            elif x < 0.32:
                self.change()
            elif x < 0.44:
                self.read()
            elif x < 0.50 and len(self.open) > shut:
                v, ty, root = self.open.pop()
                self.emit(f'end_borrow {v} : ${ty}')
            elif x < 0.62:
                self.write()
            elif x < 0.84:
                self.call()
            elif x < 0.89:
                self.field()
            elif x < 0.91:
                self.debug()
            elif depth < 2:
                self.branch(depth)

    def branch(self, depth):
        r = self.r
        kind = r.choice(('if', 'if', 'else', 'loop', 'trap'))
        owned, opened, slots = list(self.owned), list(self.open), len(self.slots)
        full = {p: p.full for p in self.places}
        c = self.name('c')
        before = self.blocks[-1]
        if kind == 'loop':
            head = self.block()
            before[2] = f'br {head}'
            self.fixed_run(owned, r.randrange(1, 4), depth, slots, len(opened))
            self.settle(owned, opened, slots, full)
            self.emit(f'{c} = integer_literal ${BIT}, 0')
            last = self.blocks[-1]
            out = self.block()
            last[2] = f'cond_br {c}, {head}, {out}' if r.random() < 0.5 else f'cond_br {c}, {out}, {head}'
            if last[0] == self.blocks[-1][0]:
                raise AssertionError
            # a critical edge is no fault here
            return
        self.emit(f'{c} = integer_literal ${BIT}, 0')
        one = self.block()
        self.fixed_run(owned, r.randrange(1, 4), depth, slots, len(opened))
        if kind == 'trap':
            self.blocks[-1][2] = 'unreachable'
            # the other side goes on in the state before
            self.owned, self.open = list(owned), list(opened)
            while len(self.slots) > slots:
                self.places.remove(self.slots.pop())
            for p in self.places:
                p.full = full[p]
            two = self.block()
            before[2] = f'cond_br {c}, {one}, {two}'
            return
        # the state that both sides reach
        target = {p: (p.full if r.random() < 0.7 or self.lent_root(p.root) or p.kind == '@in_guaranteed' or p.ty in TRIVIAL else not p.full)
                  for p in full}
        self.settle(owned, opened, slots, target)
        end_one = self.blocks[-1]
        after = {p: p.full for p in full}
        for p in full:
            p.full = full[p]
        self.owned, self.open = list(owned), list(opened)
        two = self.block()
        if kind == 'if':
            self.fixed_run(owned, r.randrange(1, 4), depth, slots, len(opened))
        self.settle(owned, opened, slots, after)
        end_two = self.blocks[-1]
        join = self.block()
        before[2] = f'cond_br {c}, {one}, {two}'
        end_one[2] = end_two[2] = f'br {join}'

    def fixed_run(self, owned, count, depth, slots, shut):
        """Steps that leave the values that were held before in place."""
        hidden, self.owned = self.owned, []
        self.run(count, depth + 1, slots, shut)
        self.owned = hidden + self.owned

    def function(self):
        r = self.r
        self.args, self.outs = [], []
        for _ in range(r.choice((0, 1, 1, 2))):
            if '@out' in self.conv and r.random() < 0.5:
                ty = r.choice(TYPES)
                a = self.name('p')
                self.outs.append(['@out', a, ty])
                self.addresses[a] = ty
                self.places.append(Place(a, ty, a, False, '@out'))
        for _ in range(r.choice((0, 1, 2, 3))):
            c = r.choice([w for w in self.conv if w != '@out'] + ['@owned', '@guaranteed'])
            ty = r.choice(TYPES) if c in ADDRESS else r.choice(['C', 'P', 'K'])
            a = self.name('p')
            self.args.append([c, a, ty])
            if c in ADDRESS:
                self.addresses[a] = ty
                self.places.append(Place(a, ty, a, True, c))
            elif c == '@owned':
                self.owned.append((a, ty))
        self.block()
        self.run(r.randrange(4, 14))
        # the end
        while self.open:
            v, ty, _ = self.open.pop()
            self.emit(f'end_borrow {v} : ${ty}')
        while self.slots:
            self.dealloc()
        for p in self.places:
            if p.kind in ('@inout', '@out') and not p.full:
                self.fill(p)
            if p.kind == '@in' and p.full and p.ty not in TRIVIAL:
                self.empty(p)
        for o in self.owned:
            self.destroy(*o)
        u = self.name('t')
        self.emit(f'{u} = tuple ()')
        self.blocks[-1][2] = f'return {u} : $()'
        return self

    # ---- changes
    def change_some(self, count):
        for _ in range(count):
            self.change_one()

    def spots(self, test):
        return [(b, n) for b in self.blocks for n, x in enumerate(b[1]) if test(x)]

    def known(self, block, at):
        """The addresses that are defined above a spot in the text, or as arguments."""
        made = []
        for b in self.blocks:
            for n, x in enumerate(b[1]):
                if b is block and n >= at:
                    break
                if not isinstance(x, Call) and x.split()[0] in self.addresses:
                    made.append(x.split()[0])
            if b is block:
                break
        made += [a[1] for a in self.args + self.outs if a[0] in ADDRESS]
        if self.r.random() < 0.1:
            made = list(self.addresses)
        return [(a, self.addresses[a]) for a in made]

    def change_one(self):
        r = self.r
        silent = lambda x: isinstance(x, Call) or x.split()[0] in (
            'store', 'destroy_addr', 'destroy_value', 'end_borrow', 'dealloc_stack', 'debug_value')
        kind = r.choice(('drop', 'drop', 'twice', 'move', 'move', 'address', 'address', 'address', 'word', 'word', 'convention', 'convention',
                         'own', 'target', 'insert', 'insert', 'loan', 'loan', 'loan', 'pair', 'class', 'class'))
        if kind in ('drop', 'twice', 'move'):
            spots = self.spots(silent)
            if not spots:
                return
            b, n = r.choice(spots)
            x = b[1][n]
            if kind != 'twice':
                del b[1][n]
            else:
                x = Call(self.name('r'), [list(a) for a in x.args]) if isinstance(x, Call) else x
            if kind != 'drop':
                c = b if r.random() < 0.85 else r.choice(self.blocks)
                lo = 0 if c is not b else max(0, n - 4)
                hi = len(c[1]) if c is not b else min(len(c[1]), n + 4)
                c[1].insert(r.randrange(lo, hi + 1), x)
        elif kind == 'address':
            spots = self.spots(lambda x: isinstance(x, Call) and any(a[0] in ADDRESS for a in x.args) or not isinstance(x, Call) and ': $*' in x)
            if not spots:
                return
            b, n = r.choice(spots)
            x = b[1][n]
            if isinstance(x, Call):
                a = r.choice([a for a in x.args if a[0] in ADDRESS])
                same = [v for v, t in self.known(b, n) if t == a[2]]
                if same:
                    a[1] = r.choice(same)
            else:
                head, _, ty = x.rpartition(' : $*')
                words = head.rsplit(' ', 1)
                tail = ''
                if ', #' in ty or ty.endswith((', 0', ', 1')):
                    ty, _, tail = ty.rpartition(', ')
                    tail = ', ' + tail
                same = [v for v, t in self.known(b, n) if t == ty and v != x.split()[0]]
                if same:
                    b[1][n] = f'{words[0]} {r.choice(same)} : $*{ty}{tail}'
        elif kind == 'word':
            spots = self.spots(lambda x: not isinstance(x, Call) and any(w in x for w in ('[init]', '[assign]', '[copy]', '[take]')))
            if not spots:
                return
            b, n = r.choice(spots)
            for one, two in (('[init]', '[assign]'), ('[assign]', '[init]'), ('[copy]', '[take]'), ('[take]', '[copy]')):
                if one in b[1][n]:
                    b[1][n] = b[1][n].replace(one, two)
                    break
        elif kind == 'convention':
            spots = self.spots(lambda x: isinstance(x, Call) and any(a[0] in ADDRESS for a in x.args))
            if not spots:
                return
            b, n = r.choice(spots)
            a = r.choice([a for a in b[1][n].args if a[0] in ADDRESS])
            a[0] = r.choice(self.conv)
        elif kind == 'own':
            some = [a for a in self.args + self.outs if a[0] in ADDRESS]
            if not some:
                return
            a = r.choice(some)
            c = r.choice(self.conv)
            for where in (self.args, self.outs):
                if a in where:
                    where.remove(a)
            a[0] = c
            (self.outs if c == '@out' else self.args).append(a)
        elif kind == 'class':
            # a value of a class is used in the place of another one of that class, or once more
            spots = self.spots(lambda x: not isinstance(x, Call) and any(f' : ${c}' in x for c in OWN))
            if not spots:
                return
            b, n = r.choice(spots)
            x = b[1][n]
            cls = next(c for c in OWN if f' : ${c}' in x)
            made = []
            for c in self.blocks:
                for k, y in enumerate(c[1]):
                    if c is b and k >= n:
                        break
                    if not isinstance(y, Call) and (y.endswith(f' to ${cls}') or y.endswith(f'alloc_ref ${cls}') or f'begin_borrow' in y and y.endswith(f' : ${cls}')):
                        made.append(y.split()[0])
                if c is b:
                    break
            if not made:
                return
            v, use = r.choice(made), r.random()
            if use < 0.5:
                head, _, tail = x.partition(f' : ${cls}')
                b[1][n] = f'{head.rsplit(" ", 1)[0]} {v} : ${cls}{tail}'
            elif use < 0.7:
                b[1].insert(n, f'debug_value {v} : ${cls}')
            elif use < 0.85 and ABOVE[cls]:
                w = self.name('u')
                b[1].insert(n, f'{w} = upcast {v} : ${cls} to ${r.choice(self.chain(cls)[1:])}')
            elif OWN[cls]:
                f, t = r.choice(OWN[cls])
                a = self.name('a')
                self.addresses[a] = t
                b[1].insert(n, f'{a} = ref_element_addr {v} : ${cls}, #{cls}.{f}')
        elif kind == 'target':
            some = [b for b in self.blocks if b[2].startswith('cond_br')]
            if not some:
                return
            b = r.choice(some)
            words = b[2].split()
            labels = [x[0] for x in self.blocks[1:]]
            words[r.choice((2, 3))] = r.choice(labels)
            b[2] = f'{words[0]} {words[1].rstrip(",")}, {words[2].rstrip(",")}, {words[3]}'
        elif kind == 'loan':
            # an access put between a load_borrow of what it accesses, or of a place beside it, and its end
            spots = self.spots(lambda x: isinstance(x, Call) and any(a[0] in ADDRESS for a in x.args) or not isinstance(x, Call) and ': $*' in x)
            if not spots:
                return
            b, n = r.choice(spots)
            x = b[1][n]
            used = [a[1] for a in x.args if a[0] in ADDRESS] if isinstance(x, Call) else [w for w in x.replace(',', ' ').split() if w in self.addresses]
            there = dict(self.known(b, n))
            near = [a for a in there if there[a] not in TRIVIAL and (a in used or r.random() < 0.15)]
            if not near:
                return
            a = r.choice(near)
            v = self.name()
            b[1].insert(n, f'{v} = load_borrow {a} : $*{there[a]}')
            b[1].insert(r.randrange(n + 2, min(len(b[1]), n + 5) + 1), f'end_borrow {v} : ${there[a]}')
        elif kind == 'pair':
            # one more operand of a call: an address that it has already, or another one
            spots = self.spots(lambda x: isinstance(x, Call))
            if not spots:
                return
            b, n = r.choice(spots)
            x = b[1][n]
            some = [(a[1], a[2]) for a in x.args if a[0] in ADDRESS]
            there = self.known(b, n)
            if r.random() < 0.5 and there or not some:
                some = there
            if some:
                a, ty = r.choice(some)
                x.args.insert(r.randrange(len(x.args) + 1), [r.choice(self.conv), a, ty])
        elif kind == 'insert':
            b = r.choice(self.blocks)
            at = r.randrange(len(b[1]) + 1)
            there = self.known(b, at)
            if not there:
                return
            a, ty = r.choice(there)
            trivial = ty in TRIVIAL
            x = r.choice(('read', 'take', 'lend', 'lend', 'lend', 'fill', 'assign', 'call', 'call', 'call', 'free'))
            v = self.name()
            held = self.blocks[-1]
            new = []
            if x == 'read' or trivial and x in ('take', 'lend'):
                new = [f'{v} = load [{"trivial" if trivial else "copy"}] {a} : $*{ty}'] + ([] if trivial else [f'destroy_value {v} : ${ty}'])
            elif x == 'take':
                new = [f'{v} = load [take] {a} : $*{ty}', f'destroy_value {v} : ${ty}'] if r.random() < 0.5 else [f'destroy_addr {a} : $*{ty}']
            elif x == 'lend':
                new = [f'{v} = load_borrow {a} : $*{ty}', f'end_borrow {v} : ${ty}']
                if r.random() < 0.6:
                    b[1].insert(at, new[0])
                    b[1].insert(r.randrange(at + 1, len(b[1]) + 1), new[1])
                    return
            elif x in ('fill', 'assign') and ty in ('C', INT):
                made = f'{v} = alloc_ref $C' if ty == 'C' else f'{v} = integer_literal ${INT}, 1'
                q = 'trivial' if trivial else 'init' if x == 'fill' else 'assign'
                new = [made, f'store {v} to [{q}] {a} : $*{ty}']
            elif x == 'call':
                args = [[r.choice(self.conv), a, ty]]
                if r.random() < 0.5:
                    c, tc = r.choice(there)
                    args.append([r.choice(self.conv), c, tc])
                new = [Call(self.name('r'), args)]
            elif x == 'free':
                new = [f'dealloc_stack {a} : $*{ty}']
            b[1][at:at] = new

    # ---- text
    def text(self):
        callees, lines = {}, []

        def signature(args):
            ins = [a for a in args if a[0] != '@out']
            outs = [a for a in args if a[0] == '@out']
            params = ', '.join((f'{c} {t}' if c else t) for c, _, t in ins)
            res = ', '.join(f'@out {t}' for _, _, t in outs)
            return f'$@convention(thin) ({params}) -> ' + (f'({res})' if len(outs) != 1 else res), outs + ins

        self.refs = 0
        for k, (label, items, end) in enumerate(self.blocks):
            if k == 0:
                sig, args = signature(self.args + self.outs)
                inside = ', '.join(f'{v} : {"" if c in ADDRESS else c + " "}${"*" if c in ADDRESS else ""}{t}' for c, v, t in args)
                lines.append(f'sil [ossa] @main : {sig} {{')
                lines.append(f'{label}({inside}):' if args else f'{label}:')
            else:
                lines.append(f'{label}:')
            for x in items:
                if isinstance(x, Call):
                    s, args = signature(x.args)
                    f = callees.setdefault(s, (f'f{len(callees)}', args))[0]
                    self.refs += 1
                    lines.append(f'  %f{self.refs} = function_ref @{f} : {s}')
                    lines.append(f'  {x.result} = apply %f{self.refs}(' + ', '.join(a[1] for a in args) + f') : {s}')
                else:
                    lines.append('  ' + x)
            lines.append('  ' + end)
        lines.append('}')
        out = []
        for s, (f, args) in callees.items():
            inside = ', '.join(f'%{n} : {"" if c in ADDRESS else c + " "}${"*" if c in ADDRESS else ""}{t}' for n, (c, _, t) in enumerate(args))
            out += [f'sil [ossa] @{f} : {s} {{', f'bb0({inside}):' if args else 'bb0:', '  unreachable', '}']
        return HEAD + '\n'.join(out + lines) + '\n'


def one(seed, conventions=ADDRESS):
    rng = random.Random(seed)
    g = Gen(rng, conventions).function()
    g.change_some(rng.choice((0, 1, 1, 1, 2, 2, 3, 4)))
    return g.text()
