"""What `check` answers to the functions of a typed module, from the rules alone: 301 to 305, 401 to 404, 501 to 505, 601 to 611.

Each rule on walks is said of *parts*: an automaton with explicit states, moved item by item. A breadth-first search over pairs of a
block and a state finds each rule that is shown, with the fewest edges, and all points and other values at which so few edges show it.
"""
from collections import deque
from itertools import product

NONE, OWNED, GUARANTEED, ADDRESS, UNKNOWN = 'None', 'Owned', 'Guaranteed', 'address', 'unknown'

# convention: (state at the callee's entry, at its return, before the call, after it, counts as)
CONVENTIONS = {
    '@inout': ('full', 'full', 'full', 'full', 'write'),
    '@in': ('full', 'empty', 'full', 'empty', 'take'),
    '@in_guaranteed': ('full', 'full', 'full', 'full', 'read'),
    '@out': ('empty', 'full', 'empty', 'full', 'write'),
}

FORWARDING = ('struct', 'tuple', 'enum', 'destructure_struct', 'destructure_tuple', 'switch_enum', 'upcast')
EXTRACTS = ('struct_extract', 'tuple_extract')
STEPS = ('struct_element_addr', 'tuple_element_addr', 'ref_element_addr')
RENAMES = ('copy_value', 'move_value', 'begin_borrow')


class Fault:
    """A refusal: with the fewest edges, and the pairs of point and other value that so few edges show (None edges: no walk)."""

    def __init__(self, rule, function, subject, length, shown, parts):
        self.rule, self.function, self.subject, self.length, self.shown, self.parts = rule, function, subject, length, shown, parts

    def __repr__(self):
        return f'{self.rule} @{self.function} %{self.subject} edges {self.length} {sorted(self.shown, key=str)}'


class Item:
    """kind: entry, inst, edge, exit. ops: [(value, role)], begins: values that begin, reads/writes of memory: [(address, operation)]."""

    def __init__(self, kind, point):
        self.kind, self.point = kind, point
        self.inst = None
        self.ops, self.begins, self.accesses = [], [], []
        self.target, self.returns = None, False


class Part:
    def __init__(self, rules, subject, start, step, at_return=None):
        self.rules, self.subject, self.start, self.step, self.at_return = rules, subject, start, step, at_return


class Checker:
    def __init__(self, module, function):
        self.m, self.f = module, function
        self.types, self.defs = {}, {}
        self.define()
        self.items()

    # ---- values
    def define(self):
        f, m = self.f, self.m
        entry = f.sig.entry()
        self.incoming = {}
        for bn, b in enumerate(f.blocks):
            t = b.insts[-1]
            if t.op == 'switch_enum':
                for n, (target, _, kind) in enumerate(t.edges):
                    self.incoming.setdefault(target, (t.operands[0][0], kind, bn))
        for bn, b in enumerate(f.blocks):
            for k, (v, word, ty) in enumerate(b.args):
                self.types[v] = ty
                self.defs[v] = ('entry', entry[k][0], k) if bn == 0 else ('arg', bn, word)
            for n, i in enumerate(b.insts):
                for v, ty in zip(i.results, self.result_types(i)):
                    self.types[v] = ty
                    self.defs[v] = ('inst', i, (bn, n))

    def result_types(self, i):
        m, t = self.m, (i.operands[0][1] if i.operands else None)
        op = i.op
        if op in ('integer_literal', 'alloc_ref', 'builtin', 'struct', 'enum', 'upcast'):
            return [i.ty]
        if op == 'function_ref':
            return [None]
        if op == 'alloc_stack':
            return [('addr', i.ty)]
        if op in ('copy_value', 'move_value', 'begin_borrow'):
            return [t]
        if op in ('load', 'load_borrow'):
            return [t[1]]
        if op in ('load_weak', 'load_unowned'):
            return [t[1][1]]
        if op == 'tuple':
            return [('tuple', tuple(o[1] for o in i.operands))]
        if op == 'struct_extract':
            return [m.member(*i.member)[1][2]]
        if op == 'tuple_extract':
            return [t[1][i.number]]
        if op == 'destructure_struct':
            return [x[2] for x in m.decls[t[1]][1]]
        if op == 'destructure_tuple':
            return list(t[1])
        if op == 'struct_element_addr':
            return [('addr', m.member(*i.member)[1][2])]
        if op == 'tuple_element_addr':
            return [('addr', t[1][1][i.number])]
        if op == 'ref_element_addr':
            _, s, ty = m.member(*i.member)[1]
            return [('addr', ty if s == 'strong' else (s, ty))]
        if op == 'apply':
            return [i.sig.direct()]
        return []

    def trivial(self, v):
        ty = self.types[v]
        return ty is None or (ty[0] != 'addr' and self.m.trivial(ty))

    def is_address(self, v):
        return self.types[v] is not None and self.types[v][0] == 'addr'

    # ---- 302: chains
    def first_chain(self, v):
        d = self.defs[v]
        if d[0] == 'inst' and d[1].op in FORWARDING + EXTRACTS + STEPS:
            return [o[0] for o in d[1].operands]
        if d[0] == 'arg' and d[2] == '@guaranteed' and d[1] in self.incoming:
            return [self.incoming[d[1]][0]]
        return []

    def second_chain(self, v):
        d = self.defs[v]
        if d[0] == 'inst' and d[1].op in RENAMES:
            return [d[1].operands[0][0]]
        if d[0] == 'arg' and d[1] in self.incoming and self.incoming[d[1]][1] == 'default':
            return [self.incoming[d[1]][0]]
        return []

    def on_ring(self, v, chain):
        seen, todo = set(), list(chain(v))
        while todo:
            x = todo.pop()
            if x == v:
                return True
            if x not in seen:
                seen.add(x)
                todo += chain(x)
        return False

    def ends(self, v):
        """Whether each chain of the first kind from v ends."""
        seen, todo = set(), [v]
        while todo:
            x = todo.pop()
            if x in seen:
                continue
            seen.add(x)
            if self.on_ring(x, self.first_chain):
                return False
            todo += self.first_chain(x)
        return True

    def kind_and_bases(self, v, known={}):
        key = (id(self), v)
        if v not in self.kb:
            self.kb[v] = self.find_kind(v) if self.ends(v) else (UNKNOWN, [])
        return self.kb[v]

    def find_kind(self, v):
        d = self.defs[v]
        if self.is_address(v):
            if d[0] == 'inst' and d[1].op == 'ref_element_addr':
                return ADDRESS, self.kind_and_bases(d[1].operands[0][0])[1]
            if d[0] == 'inst' and d[1].op in STEPS:
                return ADDRESS, self.kind_and_bases(d[1].operands[0][0])[1]
            return ADDRESS, []
        if self.trivial(v):
            return NONE, []
        if d[0] == 'entry':
            return {'@owned': (OWNED, [v]), '@guaranteed': (GUARANTEED, [v])}.get(d[1], (NONE, []))
        if d[0] == 'arg':
            if d[2] == '@owned':
                return OWNED, [v]
            if d[2] == '@guaranteed':
                return GUARANTEED, (self.kind_and_bases(self.incoming[d[1]][0])[1] if d[1] in self.incoming else [])
            return NONE, []
        i = d[1]
        if i.op in ('alloc_ref', 'copy_value', 'move_value', 'load', 'load_weak', 'load_unowned', 'apply'):
            return OWNED, [v]
        if i.op in ('begin_borrow', 'load_borrow'):
            return GUARANTEED, [v]
        if i.op in EXTRACTS:
            k, bases = self.kind_and_bases(i.operands[0][0])
            return k, (bases if k == GUARANTEED else [v] if k == OWNED else [])
        if i.op in FORWARDING:
            ks = [self.kind_and_bases(o[0]) for o in i.operands]
            if any(k == OWNED for k, _ in ks):
                return OWNED, [v]
            if any(k == GUARANTEED for k, _ in ks):
                bases = []
                for k, bs in ks:
                    if k == GUARANTEED:
                        bases += [b for b in bs if b not in bases]
                return GUARANTEED, bases
            return NONE, []
        return NONE, []

    def kind(self, v):
        return self.kind_and_bases(v)[0]

    def bases(self, v):
        return self.kind_and_bases(v)[1]

    def is_scope(self, v):
        d = self.defs[v]
        return d[0] == 'inst' and d[1].op in ('begin_borrow', 'load_borrow') and not self.trivial(v)

    # ---- items
    def roles(self, i):
        """The operands of an instruction, each with what is done to it."""
        op, vs = i.op, [o[0] for o in i.operands]
        if op in ('builtin', 'cond_fail', 'copy_value', 'begin_borrow', 'cond_br'):
            return [(v, 'u') for v in vs]
        if op in ('destroy_value', 'move_value', 'return'):
            return [(v, 'c') for v in vs]
        if op == 'end_borrow':
            return [(vs[0], 'end')]
        if op == 'store':
            return [(vs[0], 'c'), (vs[1], 'a')]
        if op in ('store_weak', 'store_unowned'):
            return [(vs[0], 'u'), (vs[1], 'a')]
        if op in ('dealloc_stack', 'load', 'load_borrow', 'destroy_addr', 'load_weak', 'load_unowned', 'struct_element_addr', 'tuple_element_addr'):
            return [(vs[0], 'a')]
        if op in FORWARDING:
            return [(v, 'f') for v in vs]
        if op in EXTRACTS + ('ref_element_addr',):
            return [(vs[0], 'g')]
        if op == 'debug_value':
            return [(vs[0], 'a' if self.is_address(vs[0]) else 'u')]
        if op == 'apply':
            words = [w for w, _ in i.sig.entry()]
            return [(vs[0], 'u')] + [(v, 'c' if w == '@owned' else 'a' if w in CONVENTIONS else 'u') for v, w in zip(vs[1:], words)]
        return []

    def operations(self, i):
        """What an instruction does to memory, in operand order."""
        op, vs = i.op, [o[0] for o in i.operands]
        if op == 'load':
            return [(vs[0], 'take' if i.q == 'take' else 'read')]
        if op == 'load_borrow':
            return [(vs[0], 'lend')]
        if op in ('load_weak', 'load_unowned'):
            return [(vs[0], 'take' if i.q == 'take' else 'read')]
        if op == 'store':
            return [(vs[1], {'init': 'init', 'assign': 'assign', 'trivial': 'tstore'}[i.q])]
        if op in ('store_weak', 'store_unowned'):
            return [(vs[1], 'init' if i.q == 'init' else 'assign')]
        if op == 'destroy_addr':
            return [(vs[0], 'take')]
        if op == 'dealloc_stack':
            return [(vs[0], 'dealloc')]
        if op == 'apply':
            words = [w for w, _ in i.sig.entry()]
            return [(v, w) for v, w in zip(vs[1:], words) if w in CONVENTIONS]
        return []

    def items(self):
        self.kb = {}
        f = self.f
        self.block_items, self.exits = [], []
        for bn, b in enumerate(f.blocks):
            own = []
            if bn == 0:
                e = Item('entry', (0, 0))
                e.begins = [a[0] for a in b.args]
                own.append(e)
            for n, i in enumerate(b.insts[:-1]):
                x = Item('inst', (bn, n))
                x.inst, x.ops, x.begins, x.accesses = i, self.roles(i), list(i.results), self.operations(i)
                own.append(x)
            t, point = b.insts[-1], (bn, len(b.insts) - 1)
            edges = []
            for target, args, kind in t.edges:
                x = Item('edge', point)
                x.inst, x.target = t, target
                x.ops = self.roles(t) + [(v, 'c') for v, _ in args]
                x.begins = [a[0] for a in f.blocks[target].args]
                edges.append(x)
            if not t.edges:
                x = Item('exit', point)
                x.inst, x.ops, x.returns = t, self.roles(t), t.op == 'return'
                own.append(x)
            self.block_items.append(own)
            self.exits.append(edges)

    # ---- searching
    def move(self, part, state, item):
        """The state behind an item, or the break (rule, other)."""
        state, broken = part.step(state, item)
        if broken is None and item.returns and part.at_return is not None:
            broken = part.at_return(state)
        return state, broken

    def search(self, part):
        """Of each rule that is shown the number of edges, and the points and other values."""
        found = {}

        def note(broken, length, point):
            rule, other = broken
            best = found.get(rule)
            if best is None or length < best[0]:
                found[rule] = (length, {(point, other)})
            elif best[0] == length:
                best[1].add((point, other))

        seen, todo = {(0, part.start)}, deque([(0, part.start, 0)])
        while todo:
            block, state, length = todo.popleft()
            for item in self.block_items[block]:
                state, broken = self.move(part, state, item)
                if broken is not None:
                    note(broken, length, item.point)
                    break
            else:
                for item in self.exits[block]:
                    after, broken = self.move(part, state, item)
                    if broken is not None:
                        note(broken, length + 1, item.point)
                    elif (item.target, after) not in seen:
                        seen.add((item.target, after))
                        todo.append((item.target, after, length + 1))
        return found

    def replay(self, part, walk):
        """The breaks (rule, other, point) that trails along exactly this list of blocks show in their last item."""
        shown = set()

        def go(at, state):
            block = walk[at]
            last = at == len(walk) - 1
            for item in self.block_items[block]:
                state, broken = self.move(part, state, item)
                if broken is not None:
                    if last:
                        shown.add((broken[0], broken[1], item.point))
                    return
            if last:
                return
            for item in self.exits[block]:
                if item.target == walk[at + 1]:
                    after, broken = self.move(part, state, item)
                    if broken is None:
                        go(at + 1, after)
                    elif at + 1 == len(walk) - 1:
                        shown.add((broken[0], broken[1], item.point))

        go(0, part.start)
        return shown

    def first_of(self, parts, statics=()):
        """The first fault of a group: by subject, then by rule."""
        best = {}
        for part in parts:
            for rule, (length, shown) in self.search(part).items():
                key = (part.subject, rule)
                old = best.get(key)
                if old is None or length < old[0]:
                    best[key] = (length, set(shown), [part])
                elif length == old[0]:
                    old[1].update(shown)
                    old[2].append(part)
        for rule, subject, point, other in statics:
            key = (subject, rule)
            old = best.get(key)
            if old is None or point < min(p for p, _ in old[1]):
                best[key] = (None, {(point, other)}, [])
        if not best:
            return None
        subject, rule = min(best)
        length, shown, its = best[(subject, rule)]
        return Fault(rule, self.f.name, subject, length, shown, its)

    # ---- 301
    def definitions(self):
        for v in range(self.f.values):
            def step(state, item, v=v):
                if not state and any(o == v for o, _ in item.ops):
                    return state, (301, None)
                return state or v in item.begins, None
            yield Part([301], v, False, step)

    # ---- 302 to 305
    def kind_faults(self):
        f = self.f
        for v in range(f.values):
            if self.on_ring(v, self.first_chain) or self.on_ring(v, self.second_chain):
                d = self.defs[v]
                yield 302, v, (d[2] if d[0] == 'inst' else (d[1] if d[0] == 'arg' else 0, 0)), None
        for bn, b in enumerate(f.blocks):
            if bn > 0:
                for v, word, ty in b.args:
                    due = self.due(bn, ty)
                    if due is not None and due != word:
                        yield 305, v, (bn, 0), None
            for n, i in enumerate(b.insts):
                ops = self.roles(i) + [(v, 'c') for _, args, _ in i.edges for v, _ in args]
                kinds = [self.kind(v) for v, _ in ops]
                if i.op in FORWARDING and OWNED in kinds and GUARANTEED in kinds:
                    yield 303, ops[kinds.index(GUARANTEED)][0], (bn, n), None
                for (v, role), k in zip(ops, kinds):
                    if role == 'c' and k == GUARANTEED or role == 'g' and k == OWNED or role == 'end' and not self.is_borrow(v):
                        yield 304, v, (bn, n), None
                if i.op == 'switch_enum' and kinds[0] in (OWNED, GUARANTEED):
                    for target, _, kind in i.edges:
                        if kind == 'default' and not f.blocks[target].args:
                            yield 305, ops[0][0], (bn, n), None

    def is_borrow(self, v):
        d = self.defs[v]
        return d[0] == 'inst' and d[1].op in ('begin_borrow', 'load_borrow')

    def due(self, bn, ty):
        """The annotation that an argument of a block has to carry; None where it can't be told; '-' where no argument may stand."""
        trivial = self.m.trivial(ty)
        if bn not in self.incoming:
            return '' if trivial else '@owned'
        operand, kind, _ = self.incoming[bn]
        k = self.kind(operand)
        if kind == 'default':
            if k == UNKNOWN:
                return None
            return {OWNED: '@owned', GUARANTEED: '@guaranteed'}.get(k, '-')
        if trivial:
            return ''
        return {OWNED: '@owned', NONE: '@owned', GUARANTEED: '@guaranteed'}.get(k)

    # ---- 401 to 404
    def lives(self):
        for v in range(self.f.values):
            if self.kind(v) != OWNED:
                continue

            def step(held, item, v=v):
                mine = [r for o, r in item.ops if o == v]
                for r in mine:
                    if r in ('c', 'f'):
                        if not held:
                            return held, (402, None)
                        held = False
                for r in mine:
                    if r not in ('c', 'f') and not held:
                        return held, (401, None)
                if v in item.begins:
                    if held:
                        return held, (404, None)
                    held = True
                return held, None
            yield Part([401, 402, 403, 404], v, False, step, lambda held: (403, None) if held else None)

    # ---- 501 to 505
    def scopes(self):
        for s in range(self.f.values):
            if not self.is_scope(s):
                continue
            i = self.defs[s][1]
            lends = self.bases(i.operands[0][0]) if i.op == 'begin_borrow' else []

            def step(is_open, item, s=s, lends=lends):
                for o, r in item.ops:
                    if o == s and r == 'end':
                        if not is_open:
                            return is_open, (502, None)
                        is_open = False
                if is_open:
                    for o, r in item.ops:
                        if o in lends and self.ends_value(o, r):
                            return is_open, (504, o)
                for o, r in item.ops:
                    if r != 'end' and not is_open and not self.is_address(o) and s in self.bases(o):
                        return is_open, (501, o)
                if s in item.begins:
                    if is_open:
                        return is_open, (505, None)
                    is_open = True
                return is_open, None
            yield Part([501, 502, 503, 504, 505], s, False, step, lambda o: (503, None) if o else None)

    def ends_value(self, o, r):
        k = self.kind(o)
        return k == OWNED and r in ('c', 'f') or self.is_scope(o) and r == 'end'

    # ---- memory
    def place(self, a):
        """The root and the steps of an address."""
        steps = []
        while True:
            d = self.defs[a]
            if d[0] == 'inst' and d[1].op in ('struct_element_addr', 'tuple_element_addr'):
                steps.append(d[1].member[1] if d[1].member else d[1].number)
                a = d[1].operands[0][0]
            else:
                return a, tuple(reversed(steps))

    def root_kind(self, r):
        d = self.defs[r]
        if d[0] == 'entry':
            return d[1]
        return {'alloc_stack': 'slot', 'ref_element_addr': 'field'}.get(d[1].op)

    def fresh(self, v):
        """The alloc_ref of which this is a building borrow."""
        d = self.defs[v]
        if d[0] == 'inst' and d[1].op == 'upcast':
            return self.fresh(d[1].operands[0][0])
        if d[0] == 'inst' and d[1].op == 'begin_borrow':
            o = d[1].operands[0][0]
            e = self.defs[o]
            if e[0] == 'inst' and e[1].op == 'alloc_ref':
                return o
        return None

    def cell(self, r):
        """Whose contents are at a root: a slot, an argument, or the field of a fresh object; nothing for a built object's field."""
        if self.root_kind(r) != 'field':
            return (r, None)
        i = self.defs[r][1]
        o = self.fresh(i.operands[0][0])
        return None if o is None else (o, tuple(i.member))

    def shown_root(self, r):
        """The value by which a root is shown: of a fresh object's field the object."""
        c = self.cell(r)
        return r if c is None else c[0]

    @staticmethod
    def overlap(p, q):
        n = min(len(p[1]), len(q[1]))
        return p[0] == q[0] and p[1][:n] == q[1][:n]

    def has_operation(self, a, o):
        root, steps = self.place(a)
        kind, part = self.root_kind(root), bool(steps)
        if o == 'dealloc':
            return kind == 'slot' and not part
        if kind == '@in_guaranteed':
            return o in ('read', 'lend', '@in_guaranteed')
        if kind == 'field':
            if part:
                return o in ('read', 'assign', 'tstore')
            building = self.cell(root) is not None
            return o in ('read', 'assign', 'tstore') or o == 'init' and building
        if part:
            return o in ('read', 'lend', 'assign', 'tstore', '@inout', '@in_guaranteed')
        return True

    def memory_faults(self):
        """608 and 611."""
        for bn, b in enumerate(self.f.blocks):
            for n, i in enumerate(b.insts):
                done = self.operations(i)
                for v, o in done:
                    if not self.has_operation(v, o):
                        yield 611, v, (bn, n), None
                passed = [(v, o) for v, o in done if o in CONVENTIONS]
                told = set()
                for x, (v, o) in enumerate(passed):
                    for w, p in passed[x + 1:]:
                        if (o, p) != ('@in_guaranteed', '@in_guaranteed') and self.overlap(self.place(v), self.place(w)) and v not in told:
                            told.add(v)
                            yield 608, v, (bn, n), w

    def contents(self):
        for v in range(self.f.values):
            d = self.defs[v]
            if d[0] == 'inst' and d[1].op == 'alloc_stack':
                yield self.content((v, None), self.m.trivial(d[1].ty), False, None)
            elif d[0] == 'entry' and self.is_address(v) and d[1] != '@in_guaranteed':
                yield self.content((v, None), self.m.trivial(self.types[v][1]), CONVENTIONS[d[1]][0] == 'full', CONVENTIONS[d[1]][1])
            elif d[0] == 'inst' and d[1].op == 'alloc_ref':
                for owner, name, storage, ty in self.m.all_fields(d[1].ty[1]):
                    yield self.content((v, (owner, name)), storage == 'strong' and self.m.trivial(ty), False, None)

    def content(self, cell, trivial, full_at_entry, due):
        def step(full, item):
            for a, o in item.accesses:
                root, steps = self.place(a)
                if self.cell(root) != cell:
                    continue
                if o == 'dealloc':
                    if steps or self.root_kind(root) != 'slot':
                        continue
                    if full and not trivial:
                        return full, (603, None)
                    full = False
                    continue
                if o in CONVENTIONS:
                    before, after = CONVENTIONS[o][2:4]
                elif o in ('read', 'lend', 'assign'):
                    before, after = 'full', 'full'
                elif o == 'take':
                    before, after = 'full', 'empty'
                elif o == 'init':
                    before, after = 'empty', 'full'
                else:
                    before, after = ('full' if steps else None), 'full'
                if before == 'full' and not full:
                    return full, (601, None)
                if before == 'empty' and full and not trivial:
                    return full, (602, None)
                if after == 'full':
                    full = True
                elif not trivial or o not in CONVENTIONS:
                    full = False
            if cell[0] in item.begins and item.kind != 'entry':
                full = False
            return full, None

        def at_return(full):
            if due == 'full' and not full:
                return 609, None
            if due == 'empty' and full and not trivial:
                return 603, None
        return Part([601, 602, 603, 609], cell[0], full_at_entry, step, at_return if due else None)

    def slots(self):
        return [v for v in range(self.f.values) if self.defs[v][0] == 'inst' and self.defs[v][1].op == 'alloc_stack']

    def stacks(self):
        slots = self.slots()
        for a in slots:
            def step(allocated, item, a=a):
                if any(v == a and o == 'dealloc' for v, o in item.accesses):
                    if not allocated:
                        return allocated, (604, None)
                    allocated = False
                if a in item.begins:
                    if allocated:
                        return allocated, (604, None)
                    allocated = True
                return allocated, None
            yield Part([604, 605], a, False, step, lambda x: (605, None) if x else None)
            others = [b for b in slots if b != a]
            for b in others:
                # 0: not allocated, 1: allocated, 2: allocated after the first slot was
                def pair(state, item, a=a, b=b, others=others):
                    first, rest = state[0], list(state[1:])
                    for v, o in item.accesses:
                        if o != 'dealloc':
                            continue
                        if v == a and first:
                            if rest[others.index(b)] == 2:
                                return state, (604, min(c for c, s in zip(others, rest) if s == 2))
                            first, rest = 0, [min(s, 1) for s in rest]
                        elif v in others:
                            rest[others.index(v)] = 0
                    for v in item.begins:
                        if v == a and not first:
                            first, rest = 1, [min(s, 1) for s in rest]
                        elif v in others and rest[others.index(v)] == 0:
                            rest[others.index(v)] = 2 if first else 1
                    return (first, *rest), None
                yield Part([604], a, (0,) * (1 + len(others)), pair)

    def loans(self):
        for s in range(self.f.values):
            d = self.defs[s]
            if not (d[0] == 'inst' and d[1].op == 'load_borrow'):
                continue
            place = self.place(d[1].operands[0][0])

            def step(is_open, item, s=s, place=place):
                if any(v == s and r == 'end' for v, r in item.ops):
                    is_open = False
                if is_open:
                    for a, o in item.accesses:
                        if o in ('assign', 'take', 'dealloc', 'tstore', '@inout', '@in', '@out') and self.overlap(self.place(a), place):
                            return is_open, (606, self.shown_root(self.place(a)[0]))
                return is_open or s in item.begins, None
            yield Part([606], s, False, step)

    def buildings(self):
        for o in range(self.f.values):
            d = self.defs[o]
            if not (d[0] == 'inst' and d[1].op == 'alloc_ref'):
                continue
            borrows = {b for b in range(self.f.values) if self.defs[b][0] == 'inst' and self.fresh(b) == o}
            forwarded = {v for v in range(self.f.values)
                         if v not in borrows and self.kind(v) == GUARANTEED and any(b in borrows for b in self.bases(v))}
            for owner, name, storage, ty in self.m.all_fields(d[1].ty[1]):
                def step(building, item, o=o, borrows=borrows, forwarded=forwarded, name=(owner, name)):
                    if building:
                        op = item.inst.op if item.inst is not None else None
                        for v, r in item.ops:
                            if v == o and op not in ('begin_borrow', 'debug_value') or v in forwarded \
                                    or v in borrows and op not in ('upcast', 'ref_element_addr', 'debug_value', 'end_borrow'):
                                return building, (607, None)
                    for a, q in item.accesses:
                        root, steps = self.place(a)
                        if self.cell(root) == (o, name) and (q in ('init', '@out') or q == 'tstore' and not steps):
                            building = False
                    if o in item.begins:
                        building = True
                    return building, None
                yield Part([607], o, False, step)

    def addresses(self):
        for a in range(self.f.values):
            if not self.is_address(a):
                continue
            root = self.place(a)[0]
            marks = [(b, lambda item, b=b: any(v == b and r == 'end' for v, r in item.ops)) for b in self.bases(a) if self.is_scope(b)]
            if self.root_kind(root) == 'slot':
                marks.append((root, lambda item, b=root: any(v == b and o == 'dealloc' for v, o in item.accesses)))
            for b, ended in marks:
                def step(is_open, item, a=a, b=b, ended=ended):
                    if not is_open and any(v == a for v, _ in item.ops) and item.inst.op != 'dealloc_stack':
                        return is_open, (610, None)
                    if ended(item):
                        is_open = False
                    return is_open or b in item.begins, None
                yield Part([610], a, False, step)

    # ---- the answer
    def check(self):
        for group in ((list(self.definitions()), ()), ((), self.kind_faults), (self.lives, ()), (self.scopes, ()), (self.memory, self.memory_faults)):
            parts, statics = group
            parts = list(parts()) if callable(parts) else parts
            statics = list(statics()) if callable(statics) else statics
            fault = self.first_of(parts, statics)
            if fault is not None:
                return fault
        return None

    def memory(self):
        for make in (self.contents, self.stacks, self.loans, self.buildings, self.addresses):
            yield from make()


def check(module):
    """The first refusal from 301 on, or None."""
    for f in module.functions:
        if f.blocks:
            c = Checker(module, f)
            fault = c.check()
            if fault is not None:
                fault.checker = c
                return fault
    return None


def agrees(fault, answer):
    """Whether an answer of the program (its lines) is what the model allows; and if not, why."""
    lines = answer.split('\n')
    if fault is None:
        return (lines[0] == 'accepted', 'model accepts')
    words = lines[0].split()
    if words[0] != 'refused' or not words[3].startswith('@') or len(words) < 5:
        return False, f'model: {fault}'
    block, index = words[4][2:].split(':')
    point = (int(block), int(index))
    subject = other = walk = None
    for line in lines[1:]:
        if line.startswith('subject %'):
            subject = int(line[9:])
        if line.startswith('other %'):
            other = int(line[7:])
        if line.startswith('walk '):
            walk = [int(w[2:]) for w in line.split()[1:]]
    if (int(words[1]), words[3][1:], subject) != (fault.rule, fault.function, fault.subject):
        return False, f'model: {fault}'
    if (point, other) not in fault.shown:
        return False, f'point or other; model: {fault}'
    if fault.length is None:
        return walk is None, 'walk'
    if walk is None or len(walk) - 1 != fault.length or walk[0] != 0:
        return False, f'walk; model: {fault}'
    for part in fault.parts:
        if (fault.rule, other, point) in fault.checker.replay(part, walk):
            return True, ''
    return False, f'no such walk; model: {fault}'
