"""Reads a module of textual SIL into plain Python data. It takes typed modules for granted."""
import re

TOKEN = re.compile(r'\s+|//[^\n]*|(->|"[^"\n]*"|[@%][\w$]+|-?\d+|[A-Za-z_][\w$]*|[{}()\[\]<>,:.?*=!$#])')


def tokens(text):
    at, out = 0, []
    while at < len(text):
        m = TOKEN.match(text, at)
        if m is None:
            raise SyntaxError(f'byte {at}: {text[at:at+20]!r}')
        if m.group(1):
            out.append(m.group(1))
        at = m.end()
    return out


class Inst:
    def __init__(self, op):
        self.op = op
        self.names = None          # results as written
        self.results = []          # their numbers
        self.operands = []         # [name or number, type or None]
        self.q = None              # word in brackets
        self.ty = None
        self.sig = None
        self.member = None
        self.number = None
        self.callee = None
        self.text = None           # a builtin's name, or the message of cond_fail
        self.flags = []            # 'lexical', 'var_decl'
        self.debug = []            # ('let',), ('name', text), ('argno', number), ('expr', 'op_deref')
        self.edges = []            # (label, [operand], 'br' | ('case', c) | 'default')


class Block:
    def __init__(self, label):
        self.label, self.args, self.insts = label, [], []


class Func:
    def __init__(self):
        self.name, self.linkage, self.attrs, self.sig, self.blocks = None, None, [], None, []

    def form(self):
        return 'External' if not self.blocks else 'Ossa' if 'ossa' in self.attrs else 'Lowered'


class Sig:
    def __init__(self, convention, params, results):
        self.convention, self.params, self.results = convention, params, results   # (word, type) lists

    def direct(self):
        ts = [t for w, t in self.results if w != '@out']
        return ts[0] if len(ts) == 1 else ('tuple', tuple(ts))

    def entry(self):
        """(convention, type) of each entry argument: the @out results and then the parameters."""
        return [(w, t) for w, t in self.results if w == '@out'] + self.params


class Reader:
    def __init__(self, text):
        self.t, self.at = tokens(text), 0

    def peek(self, k=0):
        return self.t[self.at + k] if self.at + k < len(self.t) else ''

    def take(self, *want):
        x = self.peek()
        if want and x not in want:
            raise SyntaxError(f'{x!r} for {want} after {self.t[max(0, self.at-12):self.at]}')
        self.at += 1
        return x

    def eat(self, x):
        if self.peek() == x:
            self.at += 1
            return True
        return False

    # types
    def type(self):
        if self.peek() in ('@sil_weak', '@sil_unowned'):
            w = self.take()
            return ('weak' if w == '@sil_weak' else 'unowned', self.type())
        t = self.base()
        while self.eat('?'):
            t = ('opt', t)
        return t

    def base(self):
        if self.peek() == 'Builtin' and self.peek(1) == '.':
            self.take(); self.take()
            return ('int', int(self.take()[3:]))
        if self.eat('('):
            ts = []
            if not self.eat(')'):
                ts.append(self.type())
                while self.eat(','):
                    ts.append(self.type())
                self.take(')')
            return ts[0] if len(ts) == 1 else ('tuple', tuple(ts))
        w = self.take()
        if w == 'Optional' and self.eat('<'):
            t = self.type()
            self.take('>')
            return ('opt', t)
        return ('name', w)

    def valtype(self):
        self.take('$')
        return ('addr', self.type()) if self.eat('*') else self.type()

    # declarations
    def accessors(self):
        if self.eat('{'):
            while not self.eat('}'):
                self.take()

    def decl(self):
        kind, name = self.take('class', 'struct', 'enum'), self.take()
        members = []
        above = self.take() if self.eat(':') else None
        self.take('{')
        while not self.eat('}'):
            if kind == 'enum':
                self.take('case')
                case = self.take()
                payload = None
                if self.eat('('):
                    ts = [self.type()]
                    while self.eat(','):
                        ts.append(self.type())
                    self.take(')')
                    payload = ts[0] if len(ts) == 1 else ('tuple', tuple(ts))
                members.append((case, None, payload))
                continue
            if self.peek() == 'deinit' :
                self.take()
                continue
            if self.peek() == 'init':
                self.take(); self.take('('); self.take(')')
                continue
            while self.peek() in ('@_hasStorage', 'final'):
                self.take()
            storage = 'strong'
            if self.peek() in ('weak', 'unowned') and self.peek(1) in ('var', 'let'):
                storage = self.take()
            self.take('var', 'let')
            f = self.take()
            self.take(':')
            members.append((f, storage, self.type()))
            self.accessors()
        return kind, name, members, above

    # functions
    def ftype(self):
        self.take('@convention'); self.take('(')
        c = self.take()
        self.take(')'); self.take('(')
        params = []
        if not self.eat(')'):
            while True:
                params.append(self.given())
                if not self.eat(','):
                    break
            self.take(')')
        self.take('->')
        results = []
        if self.eat('('):
            if not self.eat(')'):
                while True:
                    results.append(self.given())
                    if not self.eat(','):
                        break
                self.take(')')
        else:
            results.append(self.given())
        return Sig(c, params, results)

    def given(self):
        w = ''
        if self.peek() in ('@owned', '@guaranteed', '@inout', '@in', '@in_guaranteed', '@out'):
            w = self.take()
        return (w, self.type())

    def function(self):
        f = Func()
        self.take('sil')
        if self.peek() in ('hidden', 'private', 'shared', 'public'):
            f.linkage = self.take()
        while self.eat('['):
            f.attrs.append(self.take())
            self.take(']')
        f.name = self.take()[1:]
        self.take(':'); self.take('$')
        f.sig = self.ftype()
        if self.eat('{'):
            while not self.eat('}'):
                f.blocks.append(self.block())
        return f

    def block(self):
        b = Block(self.take())
        if self.eat('('):
            while True:
                v = self.take()
                self.take(':')
                w = self.take() if self.peek() in ('@owned', '@guaranteed') else ''
                b.args.append([v, w, self.valtype()])
                if not self.eat(','):
                    break
            self.take(')')
        self.take(':')
        while True:
            i = self.inst()
            b.insts.append(i)
            if i.op in TERMINATORS:
                return b

    def vtable(self):
        self.take('sil_vtable')
        name, entry = self.take(), None
        self.take('{')
        if self.eat('#'):
            owner = self.take()
            for mark in ('.', 'deinit', '!', 'destroyer', ':'):
                self.take(mark)
            entry = (owner, self.take()[1:])
        self.take('}')
        return name, entry

    def typed(self):
        v = self.take()
        self.take(':')
        return [v, self.valtype()]

    def bare_list(self):
        self.take('(')
        out = []
        if not self.eat(')'):
            while True:
                out.append([self.take(), None])
                if not self.eat(','):
                    break
            self.take(')')
        return out

    def typed_list(self):
        self.take('(')
        out = []
        if not self.eat(')'):
            while True:
                out.append(self.typed())
                if not self.eat(','):
                    break
            self.take(')')
        return out

    def debug(self):
        parts = []
        while self.peek() == ',' and self.peek(1) in ('let', 'var', 'name', 'argno', 'expr'):
            self.take()
            word = self.take()
            if word in ('let', 'var'):
                parts.append((word,))
            elif word == 'name':
                parts.append((word, self.take()[1:-1]))
            else:
                parts.append((word, int(self.take()) if word == 'argno' else self.take()))
        return parts

    def mem(self):
        self.take('#')
        o = self.take()
        self.take('.')
        return o, self.take()

    def element(self):
        m = self.mem()
        self.take('!'); self.take('enumelt')
        if self.peek() == '.' and re.fullmatch(r'-?\d+', self.peek(1)):
            self.take(); self.take()
        return m

    def flags(self):
        words = []
        while self.peek() == '[' and self.peek(1) in ('lexical', 'var_decl'):
            self.take()
            words.append(self.take())
            self.take(']')
        return words

    def word(self):
        if self.eat('['):
            w = self.take()
            self.take(']')
            return 'init' if w == 'initialization' else w
        return None

    def edge(self):
        label = self.take()
        return (label, self.typed_list() if self.peek() == '(' else [], 'br')

    def inst(self):
        names = None
        if self.peek() == '(' or self.peek(1) == '=':
            if self.eat('('):
                names = []
                while not self.eat(')'):
                    names.append(self.take())
                    self.eat(',')
            else:
                names = [self.take()]
            self.take('=')
        op = self.take()
        i = Inst(op)
        i.names = names
        if op == 'integer_literal':
            i.ty = self.valtype(); self.take(','); i.number = int(self.take())
        elif op == 'function_ref':
            i.callee = self.take()[1:]; self.take(':'); self.take('$'); i.sig = self.ftype()
        elif op == 'builtin':
            i.text = self.take()[1:-1]; i.operands = self.typed_list(); self.take(':'); i.ty = self.valtype()
        elif op == 'cond_fail':
            i.operands = [self.typed()]; self.take(','); i.text = self.take()[1:-1]
        elif op == 'upcast':
            i.operands = [self.typed()]; self.take('to'); i.ty = self.valtype()
        elif op == 'alloc_ref':
            i.ty = self.valtype()
        elif op == 'alloc_stack':
            i.flags = self.flags(); i.ty = self.valtype(); i.debug = self.debug()
        elif op in ('dealloc_stack', 'copy_value', 'destroy_value', 'end_borrow', 'load_borrow', 'destroy_addr', 'destructure_struct',
                    'destructure_tuple', 'return', 'strong_retain', 'strong_release', 'retain_value', 'release_value'):
            i.operands = [self.typed()]
        elif op in ('move_value', 'begin_borrow'):
            i.flags = self.flags(); i.operands = [self.typed()]
        elif op in ('load', 'load_weak', 'load_unowned'):
            i.q = self.word(); i.operands = [self.typed()]
        elif op in ('store', 'store_weak', 'store_unowned'):
            v = [self.take(), None]
            self.take('to')
            i.q = self.word()
            i.operands = [v, self.typed()]
        elif op == 'struct':
            i.ty = self.valtype(); i.operands = self.typed_list()
        elif op == 'tuple':
            i.operands = self.typed_list()
        elif op == 'enum':
            i.ty = self.valtype(); self.take(','); i.member = self.element()
            if self.eat(','):
                i.operands = [self.typed()]
        elif op in ('struct_extract', 'struct_element_addr', 'ref_element_addr'):
            i.operands = [self.typed()]; self.take(','); i.member = self.mem()
        elif op in ('tuple_extract', 'tuple_element_addr'):
            i.operands = [self.typed()]; self.take(','); i.number = int(self.take())
        elif op == 'apply':
            f = [self.take(), None]
            i.operands = [f] + self.bare_list(); self.take(':'); self.take('$'); i.sig = self.ftype()
        elif op == 'debug_value':
            i.operands = [self.typed()]; i.debug = self.debug()
        elif op == 'br':
            i.edges = [self.edge()]
        elif op == 'cond_br':
            i.operands = [[self.take(), None]]; self.take(','); i.edges = [self.edge()]; self.take(','); i.edges.append(self.edge())
        elif op == 'switch_enum':
            i.operands = [self.typed()]
            while self.eat(','):
                if self.eat('case'):
                    c = self.element(); self.take(':'); i.edges.append((self.take(), [], ('case', c)))
                else:
                    self.take('default'); i.edges.append((self.take(), [], 'default'))
        elif op == 'unreachable':
            pass
        else:
            raise SyntaxError(f'no row {op}')
        return i


TERMINATORS = ('br', 'cond_br', 'switch_enum', 'return', 'unreachable')
ONE_RESULT = {'integer_literal', 'function_ref', 'builtin', 'alloc_ref', 'alloc_stack', 'copy_value', 'move_value', 'begin_borrow', 'load',
              'load_borrow', 'load_weak', 'load_unowned', 'struct', 'tuple', 'enum', 'struct_extract', 'tuple_extract',
              'struct_element_addr', 'tuple_element_addr', 'ref_element_addr', 'apply', 'upcast'}


class Module:
    def __init__(self):
        self.stage, self.builtin, self.swift = 'canonical', False, False
        self.decls, self.order, self.above = {}, [], {}
        self.functions, self.vtables = [], []     # a vtable: its class, and None or (owner, function)

    def trivial(self, t):
        k = t[0]
        if k == 'int':
            return True
        if k == 'tuple':
            return all(self.trivial(x) for x in t[1])
        if k == 'opt':
            return self.trivial(t[1])
        if k == 'name':
            kind, members = self.decls[t[1]]
            if kind == 'class':
                return False
            return all(m[2] is None or self.trivial(m[2]) for m in members)
        return False

    def is_class(self, t):
        return t[0] == 'name' and self.decls[t[1]][0] == 'class'

    def all_fields(self, name):
        """The fields of a class, each with the class that declares it: those of its ancestors first."""
        above = self.above.get(name)
        return (self.all_fields(above) if above else []) + [(name,) + tuple(f) for f in self.decls[name][1]]

    def member(self, owner, name):
        kind, members = self.decls[owner]
        return next(n for n, m in enumerate(members) if m[0] == name), next(m for m in members if m[0] == name)


def number(f):
    """Puts numbers for names, in order of definition."""
    blocks = {b.label: n for n, b in enumerate(f.blocks)}
    values, count = {}, 0
    for b in f.blocks:
        for a in b.args:
            values[a[0]] = count
            a[0] = count
            count += 1
        for i in b.insts:
            names = i.names
            if names is None or names == []:
                names = [None] if i.op in ONE_RESULT else []
            for n in names:
                if n is not None:
                    values[n] = count
                i.results.append(count)
                count += 1
    f.values = count
    for b in f.blocks:
        for i in b.insts:
            for o in i.operands:
                o[0] = values[o[0]]
            i.edges = [(blocks[l], [[values[v], t] for v, t in args], k) for l, args, k in i.edges]


def read(text):
    r, m = Reader(text), Module()
    if r.eat('sil_stage'):
        m.stage = r.take('raw', 'canonical')
    while r.eat('import'):
        name = r.take()
        m.swift |= name == 'Swift'
        m.builtin |= name == 'Builtin'
    if m.swift:
        m.decls['Int'] = ('struct', [('_value', 'strong', ('int', 64))])
        m.decls['Bool'] = ('struct', [('_value', 'strong', ('int', 1))])
    while r.at < len(r.t):
        w = r.peek()
        if w == 'final':
            r.take()
        elif w in ('class', 'struct', 'enum'):
            kind, name, members, above = r.decl()
            m.decls[name] = (kind, members)
            m.above[name] = above
            m.order.append(name)
        elif w == 'sil':
            m.functions.append(r.function())
        elif w == 'sil_vtable':
            m.vtables.append(r.vtable())
        else:
            raise SyntaxError(w)
    for f in m.functions:
        number(f)
    return m
