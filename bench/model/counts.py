"""The run of a lowered module by stored numbers: a retain raises an object's strong number, and a release lowers it.

Entries are plain values, and a place is empty or full as a whole. The faults, of which the first in this order comes:

    Missing    a name without a value
    Slot       a slot that is gone, or not the whole last one of its own frame where it is deallocated, or open at a `return`
    Dead       an operation on a dead object
    Empty      a read of an empty place, a store to a part of one, and what takes a stored name away from one
    Underflow  a number of 0 that is lowered
"""
from values import (FRAMES, STORED, UNIT, UNSET, Ends, Fault, Outcome, builtin, deinitialisers, field_index, function_named, literal, references,
                    step_of)


class Cell:
    def __init__(self, ty):
        self.ty, self.contents = ty, None


class Object:
    def __init__(self, name, cells):
        self.name, self.phase, self.cells = name, 'live', cells
        self.numbers = {'strong': 1, 'unowned': 0, 'weak': 0}


class Frame:
    def __init__(self, f):
        self.f, self.block, self.at = f, 0, 0
        self.values, self.slots = {}, []


class Counts:
    def __init__(self, module, turns, is_watched):
        self.m, self.bound, self.watched = module, turns, [] if is_watched else None
        self.tasks = []                # frames, ('drops', references), ('deinits', names, object), ('finish', object)
        self.objects, self.slots, self.slot_count, self.events = [], {}, 0, []
        self.turns = self.retains = self.releases = 0
        self.returned = None

    def run(self, f):
        try:
            self.call(f, [])
            while self.tasks:
                task = self.tasks[-1]
                if isinstance(task, Frame):
                    i = task.f.blocks[task.block].insts[task.at]
                    task.at += 1
                    self.execute(task, i)
                else:
                    self.go_on(task)
            ending = ('returned', self.returned)
        except Ends as end:
            ending = end.ending
        except Fault as fault:
            ending = ('fault', fault.word, fault.about)
        left, balance = [], None
        if ending[0] == 'returned':
            for n, (o, numbers) in enumerate(zip(self.objects, self.numbers())):
                if o.phase != 'dead' or numbers[1] or numbers[2]:
                    left.append((n, o.name, o.phase != 'dead') + numbers)
            balance = len(self.objects), sum(numbers[0] for numbers in self.numbers())
        return Outcome(self.events, ending, self.retains, self.releases, self.turns, left, balance, self.watched)

    def numbers(self):
        """The three numbers of each object, as they are stored."""
        return [(o.numbers['strong'], o.numbers['unowned'], o.numbers['weak']) for o in self.objects]

    def turn(self):
        if self.turns == self.bound:
            raise Ends('out of turns')
        self.turns += 1
        if self.watched is not None:
            self.watched.append(self.numbers())

    # ---- numbers
    def lower(self, word, n):
        numbers = self.objects[n].numbers
        if numbers[word] == 0:
            raise Fault('Underflow', n)
        numbers[word] -= 1

    def alive(self, n):
        if self.objects[n].phase == 'dead':
            raise Fault('Dead', n)

    def retain(self, n):
        self.alive(n)
        self.objects[n].numbers['strong'] += 1
        self.retains += 1

    def release(self, n):
        self.alive(n)
        self.lower('strong', n)
        self.releases += 1
        o = self.objects[n]
        if o.numbers['strong'] == 0 and o.phase == 'live':
            self.turn()
            o.phase = 'deiniting'
            self.events.append(('deinit', o.name, n))
            self.tasks += [('finish', n), ('deinits', deinitialisers(self.m, o.name), n)]

    def go_on(self, task):
        """One drop, one call of a deinitialiser or one finish."""
        if task[0] == 'finish':
            o = self.objects[task[1]]
            if o.numbers['strong'] > 0:
                raise Ends('trap', 'escaped')
            o.phase = 'dead'
            self.tasks.pop()
            strong = []
            for cell in o.cells:
                if cell.contents is not None:
                    for n in references(cell.contents):
                        if cell.ty[0] in STORED:
                            self.lower(cell.ty[0], n)
                        else:
                            strong.append(n)
            self.tasks.append(('drops', strong))
        elif not task[1]:
            self.tasks.pop()
        elif task[0] == 'drops':
            self.release(task[1].pop(0))
        else:
            self.call(function_named(self.m, task[1].pop(0)), [('ref', task[2])])

    # ---- calls
    def call(self, f, args):
        if sum(isinstance(task, Frame) for task in self.tasks) == FRAMES:
            raise Ends('trap', 'depth')
        self.turn()
        frame = Frame(f)
        frame.values = {v: x for (v, _, _), x in zip(f.blocks[0].args, args)}
        self.tasks.append(frame)

    def enter(self, frame, edge, xs):
        self.turn()
        frame.block, frame.at = edge[0], 0
        frame.values.update({v: x for (v, _, _), x in zip(frame.f.blocks[edge[0]].args, xs)})

    # ---- places
    def value(self, frame, v):
        if v not in frame.values:
            raise Fault('Missing', v)
        return frame.values[v]

    def cell(self, address):
        """The cell of an access: its slot is there, and its object isn't dead."""
        if address[0] == 'field':
            self.alive(address[1])
            return self.objects[address[1]].cells[address[2]]
        if address[1] not in self.slots:
            raise Fault('Slot')
        return self.slots[address[1]]

    def there(self, address):
        """An access to a slot that is gone comes before a dead operand."""
        if address[0] == 'slot':
            self.cell(address)

    @staticmethod
    def full(cell):
        if cell.contents is None:
            raise Fault('Empty')
        return cell.contents

    def read(self, address):
        x = self.full(self.cell(address))
        for s in address[-1]:
            x = x[1][s]
        return x

    @staticmethod
    def with_part(x, steps, new):
        if not steps:
            return new
        parts = list(x[1])
        parts[steps[0]] = Counts.with_part(parts[steps[0]], steps[1:], new)
        return ('group', tuple(parts))

    def store(self, address, x):
        cell = self.cell(address)
        cell.contents = self.with_part(self.full(cell), address[-1], x) if address[-1] else x

    def take_name(self, cell):
        """A weak or unowned place becomes empty, and the number of what it named is lowered."""
        for n in references(self.full(cell)):
            self.lower(cell.ty[0], n)
        cell.contents = None

    # ---- instructions
    def execute(self, frame, i):
        op = i.op
        values = [self.value(frame, v) for v, _ in i.operands]
        x = values[0] if values else None
        edges = i.edges
        if op == 'cond_br':
            edges = [i.edges[0 if x != UNSET else 1]]
        elif op == 'switch_enum':
            edges = [next(e for e in i.edges if e[2] == 'default' or e[2][1][1] == x[1])]
        passed = [self.value(frame, v) for _, args, _ in edges for v, _ in args]

        def gives(y):
            frame.values[i.results[0]] = y

        if op == 'integer_literal':
            gives(literal(i))
        elif op == 'function_ref':
            gives(('function', i.callee))
        elif op == 'builtin':
            gives(builtin(i.text, [y[1] for y in values]))
        elif op == 'cond_fail':
            if x != UNSET:
                raise Ends('trap', 'cond_fail', i.text)
        elif op == 'alloc_ref':
            self.objects.append(Object(i.ty[1], [Cell(t if storage == 'strong' else (storage, t)) for _, _, storage, t in self.m.all_fields(i.ty[1])]))
            gives(('ref', len(self.objects) - 1))
        elif op == 'alloc_stack':
            self.slots[self.slot_count] = Cell(i.ty)
            frame.slots.append(self.slot_count)
            gives(('slot', self.slot_count, ()))
            self.slot_count += 1
        elif op == 'dealloc_stack':
            if not frame.slots or x != ('slot', frame.slots[-1], ()):
                raise Fault('Slot')
            del self.slots[frame.slots.pop()]
        elif op == 'load':
            gives(self.read(x))
        elif op == 'store':
            self.store(values[1], x)
        elif op == 'destroy_addr':
            self.take_name(self.cell(x))
        elif op in ('load_weak', 'load_unowned'):
            cell = self.cell(x)
            y = self.full(cell)
            if i.q == 'take':
                self.take_name(cell)
            is_live = all(self.objects[n].phase == 'live' for n in references(y))
            if op == 'load_unowned' and not is_live:
                raise Ends('trap', 'unowned')
            for n in references(y) if is_live else []:
                self.retain(n)
            gives(y if is_live else ('case', 'none', None))
        elif op in ('store_weak', 'store_unowned'):
            self.there(values[1])
            for n in references(x):
                self.alive(n)
            cell = self.cell(values[1])
            if i.q != 'init':
                self.take_name(cell)
            for n in references(x):
                self.objects[n].numbers[cell.ty[0]] += 1
            cell.contents = x
        elif op in ('struct', 'tuple'):
            gives(('group', tuple(values)))
        elif op == 'enum':
            gives(('case', i.member[1], x))
        elif op in ('struct_extract', 'tuple_extract'):
            gives(x[1][step_of(self.m, i)])
        elif op in ('struct_element_addr', 'tuple_element_addr'):
            gives(x[:-1] + (x[-1] + (step_of(self.m, i),),))
        elif op == 'ref_element_addr':
            self.alive(x[1])
            gives(('field', x[1], field_index(self.m, *i.member), ()))
        elif op == 'apply':
            f = function_named(self.m, x[1])
            if f.blocks:
                self.call(f, values[1:])
            else:
                self.turn()
                self.events.append(('call', f.name, [y[1] for y in values[1:]]))
                gives(UNIT)
        elif op == 'debug_value':
            pass
        elif op == 'upcast':
            gives(x)
        elif op in ('strong_retain', 'retain_value'):
            for n in references(x):
                self.retain(n)
        elif op in ('strong_release', 'release_value'):
            self.tasks.append(('drops', references(x)))
        elif op in ('br', 'cond_br'):
            self.enter(frame, edges[0], passed)
        elif op == 'switch_enum':
            self.enter(frame, edges[0], [] if edges[0][2] == 'default' or x[2] is None else [x[2]])
        elif op == 'return':
            if frame.slots:
                raise Fault('Slot')
            self.tasks.pop()
            if not self.tasks:
                for n in references(x):
                    self.alive(n)
                self.returned = x
            elif isinstance(self.tasks[-1], Frame):
                caller = self.tasks[-1]
                caller.values[caller.f.blocks[caller.block].insts[caller.at - 1].results[0]] = x
        elif op == 'unreachable':
            raise Ends('trap', 'unreachable')
        else:
            raise ValueError(op)


def run(module, name, turns, is_watched=False):
    """The outcome of a run of a lowered module from the function with this name. A watched one has each object's numbers at each turn."""
    return Counts(module, turns, is_watched).run(function_named(module, name))
