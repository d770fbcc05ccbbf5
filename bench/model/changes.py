"""Random changes of a module, after which it may still be accepted."""
import copy

import model

OTHER_WORD = {'copy': 'take', 'take': 'copy', 'init': 'assign', 'assign': 'init'}


def change(module, r):
    """An instruction goes, moves or is doubled, or an operand becomes another value of its type, or a word in brackets, a literal or the
    target of a branch changes."""
    f = r.choice([f for f in module.functions if f.blocks])
    insts = r.choice(f.blocks).insts
    at = r.randrange(len(insts))
    kind = r.choice(['leave out', 'move', 'double', 'operand', 'operand', 'word', 'number', 'target'])
    if kind in ('leave out', 'move', 'double') and at + 1 == len(insts):
        return
    if kind == 'leave out':
        insts.pop(at)
    elif kind == 'move':
        i = insts.pop(at)
        insts.insert(r.randrange(len(insts)), i)
    elif kind == 'double':
        i = copy.deepcopy(insts[at])
        i.results = [f.values + n for n in range(len(i.results))]
        f.values += len(i.results)
        insts.insert(r.randrange(len(insts)), i)
    elif kind == 'operand':
        operands = insts[at].operands + [o for _, args, _ in insts[at].edges for o in args]
        types = model.Checker(module, f).types
        if operands:
            o = r.choice(operands)
            o[0] = r.choice([v for v in sorted(types) if types[v] == types.get(o[0])] or [o[0]])
    elif kind == 'word':
        i = insts[at]
        if i.op in ('load', 'store'):
            i.q = OTHER_WORD.get(i.q, i.q)
        elif i.op in ('load_weak', 'load_unowned', 'store_weak', 'store_unowned'):
            i.q = None if i.q else 'take' if i.op.startswith('load') else 'init'
    elif kind == 'number' and insts[at].op == 'integer_literal':
        insts[at].number = r.choice([0, 1, -1])
    elif kind == 'target' and insts[-1].op in ('br', 'cond_br') and len(f.blocks) > 1:
        n = r.randrange(len(insts[-1].edges))
        insts[-1].edges[n] = (r.randrange(1, len(f.blocks)),) + insts[-1].edges[n][1:]
