"""Lowering: the ownership form turned into retains, releases and plain loads and stores. And the canonical text of a module."""
import copy

from text import Func, Inst, Module
from values import STORED


class Lowering:
    def __init__(self, module, f):
        self.m, self.f = module, f
        self.stands_for, self.extra = {}, 0

    def name(self, v):
        """The value for which a name stands, through any number of steps. A chain that returns to a name (302) has no such value."""
        seen = set()
        while v in self.stands_for:
            if v in seen:
                raise ValueError(f'a chain of names returns to %{v}')
            seen.add(v)
            v = self.stands_for[v]
        return v

    def new(self):
        """A value that the function doesn't have yet."""
        self.extra += 1
        return self.f.values + self.extra - 1

    def is_class(self, t):
        return t[0] == 'name' and self.m.is_class(t)

    def counted(self, word, v, t):
        i = Inst(('strong_' if self.is_class(t) else '') + word + ('' if self.is_class(t) else '_value'))
        i.operands = [[v, t]]
        return i

    def made(self, op, operands, results=(), **parts):
        i = Inst(op)
        i.operands, i.results = operands, list(results)
        for part, x in parts.items():
            setattr(i, part, x)
        return i

    def lowered(self, i):
        """The instructions that stand for one."""
        op = i.op
        v, t = i.operands[0] if i.operands else (None, None)
        if op == 'copy_value':
            self.stands_for[i.results[0]] = v
            return [self.counted('retain', v, t)]
        if op == 'destroy_value':
            return [self.counted('release', v, t)]
        if op in ('move_value', 'begin_borrow'):
            self.stands_for[i.results[0]] = v
            return []
        if op == 'end_borrow':
            return []
        if op == 'load':
            return [self.made('load', i.operands, i.results)] + ([self.counted('retain', i.results[0], t[1])] if i.q == 'copy' else [])
        if op == 'load_borrow':
            return [self.made('load', i.operands, i.results)]
        if op == 'store':
            place = i.operands[1]
            store = self.made('store', i.operands)
            if i.q != 'assign':
                return [store]
            old = self.new()
            return [self.made('load', [list(place)], [old]), store, self.counted('release', old, place[1][1])]
        if op == 'destroy_addr' and t[1][0] not in STORED:
            old = self.new()
            return [self.made('load', i.operands, [old]), self.counted('release', old, t[1])]
        if op == 'destructure_struct':
            return [self.made('struct_extract', [[v, t]], [r], member=(t[1], m[0])) for r, m in zip(i.results, self.m.decls[t[1]][1])]
        if op == 'destructure_tuple':
            return [self.made('tuple_extract', [[v, t]], [r], number=n) for n, r in enumerate(i.results)]
        if op == 'switch_enum':
            for target, _, kind in i.edges:
                if kind == 'default' and self.f.blocks[target].args:
                    self.stands_for[self.f.blocks[target].args[0][0]] = v
        return [i]

    def function(self):
        """The lowered function, its values numbered anew."""
        f = self.f
        f.attrs = [a for a in f.attrs if a != 'ossa']
        for b in f.blocks:
            b.insts = [x for i in b.insts for x in self.lowered(i)]
        numbers = {}
        for b in f.blocks:
            b.args = [[v, '', t] for v, _, t in b.args if v not in self.stands_for]
            for v in [a[0] for a in b.args] + [r for i in b.insts for r in i.results]:
                numbers[v] = len(numbers)
        for b in f.blocks:
            for a in b.args:
                a[0] = numbers[a[0]]
            for i in b.insts:
                i.operands = [[numbers[self.name(v)], t] for v, t in i.operands]
                i.edges = [(target, [[numbers[self.name(v)], t] for v, t in args], kind) for target, args, kind in i.edges]
                i.results = [numbers[r] for r in i.results]
        f.values = len(numbers)
        return f


def lower(module):
    """The lowered module. All else stays."""
    m = copy.deepcopy(module)
    for f in m.functions:
        if f.form() == 'Ossa':
            Lowering(m, f).function()
    return m


# ---- the canonical text

def type_text(t):
    kind = t[0]
    if kind == 'int':
        return f'Builtin.Int{t[1]}'
    if kind == 'name':
        return t[1]
    if kind == 'opt':
        return f'Optional<{type_text(t[1])}>'
    if kind == 'tuple':
        return '(' + ', '.join(map(type_text, t[1])) + ')'
    if kind == 'addr':
        return '*' + type_text(t[1])
    return f'@sil_{kind} {type_text(t[1])}'


def signature_text(sig):
    def given(x):
        return (x[0] + ' ' if x[0] else '') + type_text(x[1])
    results = [given(r) for r in sig.results]
    alone = len(results) == 1 and not results[0].startswith('(')
    return f'$@convention({sig.convention}) (' + ', '.join(map(given, sig.params)) + ') -> ' + (results[0] if alone else '(' + ', '.join(results) + ')')


def typed_text(o):
    return f'%{o[0]} : ${type_text(o[1])}'


def list_text(operands, text=typed_text):
    return '(' + ', '.join(map(text, operands)) + ')'


def edge_text(edge):
    target, args, _ = edge
    return f'bb{target}' + (list_text(args) if args else '')


def member_text(member):
    return '#' + '.'.join(member)


def debug_text(parts):
    return ''.join(', ' + ' '.join(f'"{x}"' if k and p[0] == 'name' else str(x) for k, x in enumerate(p)) for p in parts)


def body_text(i):
    op, o = i.op, i.operands
    flags = ''.join(f'[{w}] ' for w in ('lexical', 'var_decl') if w in i.flags)
    word = f'[{i.q}] ' if i.q else ''
    if op == 'integer_literal':
        return f'{op} ${type_text(i.ty)}, {literal_text(i)}'
    if op == 'function_ref':
        return f'{op} @{i.callee} : {signature_text(i.sig)}'
    if op == 'builtin':
        return f'{op} "{i.text}"{list_text(o)} : ${type_text(i.ty)}'
    if op == 'cond_fail':
        return f'{op} {typed_text(o[0])}, "{i.text}"'
    if op == 'alloc_ref':
        return f'{op} ${type_text(i.ty)}'
    if op == 'alloc_stack':
        return f'{op} {flags}${type_text(i.ty)}{debug_text(i.debug)}'
    if op in ('store', 'store_weak', 'store_unowned'):
        return f'{op} %{o[0][0]} to {word}{typed_text(o[1])}'
    if op == 'struct':
        return f'{op} ${type_text(i.ty)} {list_text(o)}'
    if op == 'tuple':
        return f'{op} {list_text(o)}'
    if op == 'enum':
        return f'{op} ${type_text(i.ty)}, {member_text(i.member)}!enumelt' + (f', {typed_text(o[0])}' if o else '')
    if op in ('struct_extract', 'struct_element_addr', 'ref_element_addr'):
        return f'{op} {typed_text(o[0])}, {member_text(i.member)}'
    if op in ('tuple_extract', 'tuple_element_addr'):
        return f'{op} {typed_text(o[0])}, {i.number}'
    if op == 'apply':
        return f'{op} %{o[0][0]}' + list_text(o[1:], lambda x: f'%{x[0]}') + f' : {signature_text(i.sig)}'
    if op == 'upcast':
        return f'{op} {typed_text(o[0])} to ${type_text(i.ty)}'
    if op == 'br':
        return f'{op} {edge_text(i.edges[0])}'
    if op == 'cond_br':
        return f'{op} %{o[0][0]}, {edge_text(i.edges[0])}, {edge_text(i.edges[1])}'
    if op == 'switch_enum':
        cases = [f'default bb{t}' if k == 'default' else f'case {member_text(k[1])}!enumelt: bb{t}' for t, _, k in i.edges]
        return ', '.join([f'{op} {typed_text(o[0])}'] + cases)
    if op == 'unreachable':
        return op
    return f'{op} {flags}{word}{typed_text(o[0])}' + debug_text(i.debug)


def literal_text(i):
    width = i.ty[1] if i.ty[0] == 'int' else 64
    n = i.number % (1 << width)
    return n - (1 << width) if n >> (width - 1) else n


RESULT_LISTS = ('destructure_struct', 'destructure_tuple')


def inst_text(i):
    names = [f'%{r}' for r in i.results]
    if i.op in RESULT_LISTS and names or len(names) > 1:
        return '(' + ', '.join(names) + ') = ' + body_text(i)
    return (names[0] + ' = ' if names else '') + body_text(i)


def function_text(f):
    words = ['sil'] + ([f.linkage] if f.linkage else []) + [f'[{a}]' for a in f.attrs if a != 'ossa']
    head = ' '.join(words + (['[ossa]'] if f.form() == 'Ossa' else []) + [f'@{f.name}', ':', signature_text(f.sig)])
    if not f.blocks:
        return [head]
    lines = [head + ' {']
    for n, b in enumerate(f.blocks):
        args = [f'%{v} : ' + (word + ' ' if word else '') + '$' + type_text(t) for v, word, t in b.args]
        lines += ([''] if n else []) + [f'bb{n}' + ('(' + ', '.join(args) + ')' if args else '') + ':'] + ['  ' + inst_text(i) for i in b.insts]
    return lines + ['}']


def case_text(name, payload):
    if payload is None:
        return f'  case {name}'
    text = type_text(payload)
    return f'  case {name}{text}' if payload[0] == 'tuple' and len(payload[1]) > 1 else f'  case {name}({text})'


def declaration_text(m, name):
    kind, members = m.decls[name]
    above = m.above.get(name)
    lines = [f'{kind} {name}' + (f' : {above}' if above else '') + ' {']
    for member, storage, t in members:
        if kind == 'enum':
            lines.append(case_text(member, t))
        else:
            lines.append('  ' + (storage + ' ' if storage in STORED else '') + f'var {member}: {type_text(t)}')
    return lines + ['}']


def canonical(m):
    lines = [f'sil_stage {m.stage}']
    imports = [f'import {name}' for name, is_set in (('Builtin', m.builtin), ('Swift', m.swift)) if is_set]
    if imports:
        lines += [''] + imports
    for name in m.order:
        lines += [''] + declaration_text(m, name)
    for f in m.functions:
        lines += [''] + function_text(f)
    for name, entry in m.vtables:
        lines += ['', f'sil_vtable {name} {{'] + ([f'  #{entry[0]}.deinit!destroyer: @{entry[1]}'] if entry else []) + ['}']
    return ''.join(line + '\n' for line in lines)
