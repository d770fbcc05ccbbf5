#!/usr/bin/env python3
"""Which copies of an accepted module can go, and the module without them, from the description alone.

    bench/model/optimise.py removals < FILE
    bench/model/optimise.py check [--from A] [--count N] [--modules FOLDER..]

`removals` writes of each copy how it can go. `check` makes random modules, by `functions.py` and by changes of cases and examples of runs, and asks of
each one that is accepted and has a copy to go: the module without the copy is accepted by `model.py`; the other copies can go as
[docs/OPTIMISER.md](../../docs/OPTIMISER.md) says, so that one pass in text order is enough; and the runs of the optimised module are those of the
module, with no more retains and releases.
"""
import argparse
import collections
import copy
import random
import sys

import functions
import holders
import lower
import model
import text

NO, BORROW, MOVE = 'No', 'Borrow', 'Move'
CONSUMING = ('c', 'f')


class Copies:
    """The copies of a function: each `copy_value` is told by its block and index."""

    def __init__(self, module, f):
        self.f, self.checker = f, model.Checker(module, f)

    def points(self):
        return [(b, n) for b, block in enumerate(self.f.blocks) for n, i in enumerate(block.insts) if i.op == 'copy_value']

    def removal(self, point):
        """How the copy can go, and with a move the index of the destroy that goes too."""
        b, n = point
        inst = self.f.blocks[b].insts[n]
        c, v = inst.results[0], inst.operands[0][0]
        if self.is_only_destroyed(c) and not self.ends_while_held(c, self.checker.bases(v)):
            return BORROW, None
        last = self.destroyed_next(b, n, c, v)
        if self.checker.kind(v) == model.OWNED and last is not None and not self.is_lent_at(inst, v):
            return MOVE, last
        return NO, None

    def all_items(self):
        for items, exits in zip(self.checker.block_items, self.checker.exits):
            yield from items
            yield from exits

    def is_only_destroyed(self, c):
        return all(item.inst.op == 'destroy_value' for item in self.all_items() for v, role in item.ops if v == c and role in CONSUMING)

    def ended_by(self, item):
        """The values that an item ends, in operand order."""
        for v, role in item.ops:
            if self.checker.kind(v) == model.OWNED and role in CONSUMING or self.checker.is_scope(v) and role == 'end':
                yield v

    def is_found(self, step):
        return bool(self.checker.search(model.Part([0], 0, False, step)))

    def ends_while_held(self, c, bases):
        """Whether on some walk one of the bases ends while the copy is held."""
        def step(held, item):
            for v in self.ended_by(item):
                if held and v in bases:
                    return held, (0, None)
                held = held and v != c
            return held or c in item.begins, None
        return self.is_found(step)

    def is_lent_at(self, inst, v):
        """Whether on some walk a scope that lends a value with base v is open at the copy."""
        for s in range(self.f.values):
            d = self.checker.defs[s]
            if d[0] == 'inst' and d[1].op == 'begin_borrow' and v in self.checker.bases(d[1].operands[0][0]):
                def step(is_open, item, s=s):
                    if is_open and item.inst is inst:
                        return is_open, (0, None)
                    if s in self.ended_by(item):
                        is_open = False
                    return is_open or s in item.begins, None
                if self.is_found(step):
                    return True
        return False

    def marks(self, item):
        """The values of which an instruction has a mark, and those that it ends."""
        ended = list(self.ended_by(item))
        marked = set(ended)
        for v, role in item.ops:
            if v in ended:
                continue
            if self.checker.kind(v) == model.OWNED:
                marked.add(v)
            elif self.checker.kind(v) == model.GUARANTEED:
                marked.update(self.checker.bases(v))
        marked.update(v for v in item.begins if v in self.checker.bases(v))
        return marked, ended

    def destroyed_next(self, b, n, c, v):
        """The index of the `destroy_value` of v that is the first instruction behind the copy with a mark of v or an end of c."""
        items = {item.point: item for item in self.checker.block_items[b] if item.kind == 'inst'}
        for k in range(n + 1, len(self.f.blocks[b].insts) - 1):
            item = items[(b, k)]
            marked, ended = self.marks(item)
            if v in marked or c in ended:
                return k if item.inst.op == 'destroy_value' and item.inst.operands[0][0] == v else None
        return None


def rewrite(f, point, removal, last):
    """The function with the copy at the point gone."""
    b, n = point
    inst = f.blocks[b].insts[n]
    if removal == MOVE:
        inst.op = 'move_value'
        f.blocks[b].insts.pop(last)
        return
    inst.op = 'begin_borrow'
    for block in f.blocks:
        for i in block.insts:
            if i.op == 'destroy_value' and i.operands[0][0] == inst.results[0]:
                i.op = 'end_borrow'


def removals(module):
    """Of each copy, by function and point, how it can go."""
    return {(n, p): found for n, f in enumerate(module.functions) if f.blocks for copies in [Copies(module, f)]
            for p in copies.points() for found in [copies.removal(p)]}


def step(module):
    """The module with its first removable copy gone, or None."""
    for n, (removal, last) in sorted(removals(module).items()):
        if removal != NO:
            m = copy.deepcopy(module)
            rewrite(m.functions[n[0]], n[1], removal, last)
            return m
    return None


def optimised(module):
    """The module without removable copies."""
    while True:
        smaller = step(module)
        if smaller is None:
            return module
        module = smaller


# ---- random modules

def copies_in(module):
    return sum(i.op == 'copy_value' for f in module.functions for b in f.blocks for i in b.insts)


def shown(outcome):
    """All that a report shows but for the totals."""
    return outcome.events, outcome.ending, outcome.left


def unlike(module, entries, counts):
    """What is wrong with the optimised module, step by step and at the end; None where all is well."""
    original, passed = module, 0
    while True:
        before = removals(module)
        smaller = step(module)
        if smaller is None:
            break
        first = min(p for p, (r, _) in before.items() if r != NO)
        removal = before[first][0]
        counts[removal] += 1
        if model.check(smaller) is not None:
            return f'{removal} at {first}: refused {model.check(smaller)}'
        if copies_in(smaller) != copies_in(module) - 1:
            return f'{removal} at {first}: copies'
        after = removals(smaller)
        for p, (r, _) in after.items():
            if p < first and r != NO:
                return f'{removal} at {first} makes the earlier {p} removable'
        module, passed = smaller, passed + 1
    for entry in entries:
        for turns in (3, 300):
            one, other = holders.run(original, entry, turns), holders.run(module, entry, turns)
            if one.ending[0] == 'fault':
                counts['untyped'] += 1        # a change left it so, and the model takes typing for granted
                break
            counts['runs'] += 1
            if shown(one) != shown(other):
                return f'run of {entry}: {shown(one)} and {shown(other)}'
            if other.retains > one.retains or other.releases > one.releases:
                return f'run of {entry}: totals'
    return None


def check(words):
    import compare_runs
    examples = compare_runs.examples(words.modules or compare_runs.MODULES)
    counts, wrong = collections.Counter(), 0
    for number in range(words.first, words.first + words.count):
        try:
            module = text.read(functions.one(number) if number % 2 else compare_runs.one(number, examples)[0])
        except KeyError:
            continue                      # a value is used that a change took away
        counts['made'] += 1
        module = accepted(module, random.Random(number))
        if module is None:
            continue
        counts['accepted'] += 1
        counts['copies'] += copies_in(module)
        entries = [f.name for f in module.functions if f.blocks and not f.sig.entry()]
        found = unlike(module, entries, counts)
        if found is not None:
            wrong += 1
            print(f'{number}: {found}', flush=True)
    print(', '.join(f'{n} {word}' for word, n in counts.items()) + f', {wrong} wrong')
    return 1 if wrong or not counts['accepted'] else 0


def accepted(module, r):
    """An accepted module with more copies, made of a module that may be accepted itself; None where no try is."""
    if model.check(module) is not None:
        return None
    for _ in range(6):
        more = copy.deepcopy(module)
        add_copies(more, r)
        if model.check(more) is None:
            module = more
    return module


def add_copies(module, r):
    """Puts some copies in, each with a destroy at a random place of the same block, and perhaps uses of it in the places of its operand."""
    for f in module.functions:
        if not f.blocks:
            continue
        types = model.Checker(module, f).types
        values = [v for v, t in types.items() if t is not None and t[0] != 'addr' and not module.trivial(t)]
        for _ in range(r.choice((0, 1, 1, 2, 3))):
            if not values:
                break
            v, insts = r.choice(values), r.choice(f.blocks).insts
            at = r.randrange(len(insts))
            made = text.Inst('copy_value')
            made.results, made.operands = [f.values], [[v, types[v]]]
            ended = text.Inst('destroy_value')
            ended.operands = [[r.choice((f.values, v)), types[v]]]
            types[f.values] = types[v]
            insts.insert(at, made)
            behind = r.randrange(at + 1, len(insts))
            if r.random() < 0.4:
                for i in insts[behind:]:
                    for o in i.operands:
                        o[0] = f.values if o[0] == v else o[0]
            if r.random() < 0.8:
                insts.insert(behind, ended)
            if r.random() < 0.3:
                values.append(f.values)
            f.values += 1


def main():
    if sys.argv[1:] == ['removals']:
        module = text.read(sys.stdin.read())
        for (n, (b, k)), (removal, _) in sorted(removals(module).items()):
            print(f'@{module.functions[n].name} bb{b}:{k} {removal}')
        return 0
    words = argparse.ArgumentParser()
    words.add_argument('mode', choices=['check'])
    words.add_argument('--from', dest='first', type=int, default=0)
    words.add_argument('--count', type=int, default=1000)
    words.add_argument('--modules', nargs='+')
    return check(words.parse_args())


if __name__ == '__main__':
    sys.exit(main())
