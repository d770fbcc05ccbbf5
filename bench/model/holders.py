"""The run by holders: the ownership form itself is run, and no part of the state stores a count.

A frame has an entry for each value that it holds: Held for an owned value, Lent for a guaranteed one, Plain for any other. All strong
holders of an object are counted anew at each drop. What no accepted module does is a fault, each kind with a name of its own:

    NoEntry         an operand has no entry
    ConsumesLent    a Lent entry is consumed
    NamesDead       an operand names a dead object
    EmptyPlace      a read, write or take of a place that isn't full
    FullPlace       `[init]` of a place that isn't empty, or `dealloc_stack` of a nontrivial one
    PlaceNotAsAsked a place that is handed over isn't in the state that its convention needs at the call
    NotLastSlot     a slot that is gone, or that isn't the last one
    OverwritesHeld  a Held entry gets a new value
    LeavesHeld      a Held entry at a `return`
    LeavesSlot      a slot at a `return`
    LeavesPlace     an argument's place isn't in the state that its convention needs at the `return`
    WrongShape      a value of another shape than the row needs, or a reference in a Plain entry
"""
from model import CONVENTIONS, GUARANTEED, OWNED, Checker
from values import (FRAMES, STORED, UNIT, UNSET, Ends, Fault, Outcome, builtin, deinitialisers, field_index, function_named, literal, members, named,
                    references, step_of)

HELD, LENT, PLAIN = 'Held', 'Lent', 'Plain'


def parts_of(f):
    """The values of a function that are addresses of members: to the function an argument's place is a whole one."""
    if not hasattr(f, 'parts'):
        f.parts = {v for b in f.blocks for i in b.insts if i.op in ('struct_element_addr', 'tuple_element_addr') for v in i.results}
    return f.parts


class Cell:
    """A slot or a field: contents are None, a value, or a group of which some members are None."""

    def __init__(self, ty):
        self.ty, self.contents = ty, None


class Object:
    def __init__(self, name, cells):
        self.name, self.phase, self.cells = name, 'live', cells


class Frame:
    def __init__(self, f, kinds):
        self.f, self.kinds = f, kinds
        self.block, self.at = 0, 0
        self.entries, self.slots = {}, []     # slots: (number, Cell) in order of allocation


class Drops:
    """References that wait to be dropped."""

    def __init__(self, waiting):
        self.waiting = list(waiting)


class Deinits:
    """Deinitialisers that wait to be called."""

    def __init__(self, waiting, o):
        self.waiting, self.o = list(waiting), o


class Finish:
    """The finish of a deinitialisation."""

    def __init__(self, o):
        self.o = o


def is_full(x):
    return x is not None and (x[0] != 'group' or all(map(is_full, x[1])))


def is_empty(x):
    return x is None or x[0] == 'group' and x[1] != () and all(map(is_empty, x[1]))


def kept(x):
    """The references in contents, without those of empty parts."""
    if x is None:
        return []
    return [o for y in x[1] for o in kept(y)] if x[0] == 'group' else references(x)


class Holders:
    def __init__(self, module, turns, is_watched):
        self.m, self.bound, self.watched = module, turns, [] if is_watched else None
        self.tasks, self.objects, self.events = [], [], []
        self.turns = self.retains = self.releases = 0
        self.slot_count, self.returned, self.checkers = 0, None, {}

    # ---- holders
    def cells(self):
        """All cells that are there: those of slots, and the fields of objects that aren't dead."""
        for task in self.tasks:
            if isinstance(task, Frame):
                yield from (cell for _, cell in task.slots)
        for o in self.objects:
            if o.phase != 'dead':
                yield from o.cells

    def strong(self, o):
        n = 0
        for task in self.tasks:
            if isinstance(task, Frame):
                n += sum(references(x).count(o) for mode, x in task.entries.values() if mode == HELD)
            elif isinstance(task, Drops):
                n += task.waiting.count(o)
        n += sum(kept(cell.contents).count(o) for cell in self.cells() if cell.ty[0] not in STORED)
        return n + (references(self.returned).count(o) if self.returned is not None else 0)

    def stored(self, word, o):
        return sum(kept(cell.contents).count(o) for cell in self.cells() if cell.ty[0] == word)

    # ---- a run
    def numbers(self):
        """The three numbers of each object, counted."""
        return [(self.strong(n), self.stored('unowned', n), self.stored('weak', n)) for n in range(len(self.objects))]

    def turn(self):
        if self.turns == self.bound:
            raise Ends('out of turns')
        self.turns += 1
        if self.watched is not None:
            self.watched.append(self.numbers())

    def run(self, f):
        try:
            self.call(f, [])
            while self.tasks:
                self.step()
            ending = ('returned', self.returned)
        except Ends as end:
            ending = end.ending
        except Fault as fault:
            ending = ('fault', fault.word, fault.about)
        left, balance = [], None
        if ending[0] == 'returned':
            for n, (o, numbers) in enumerate(zip(self.objects, self.numbers())):
                if o.phase != 'dead' or numbers[1] or numbers[2]:
                    left.append((n, o.name, o.phase != 'dead') + numbers)
            balance = len(self.objects), sum(numbers[0] for numbers in self.numbers())
        return Outcome(self.events, ending, self.retains, self.releases, self.turns, left, balance, self.watched)

    def step(self):
        task = self.tasks[-1]
        if isinstance(task, Drops):
            self.drop(task)
        elif isinstance(task, Deinits):
            if task.waiting:
                self.call(function_named(self.m, task.waiting.pop(0)), [(LENT, ('ref', task.o))])
            else:
                self.tasks.pop()
        elif isinstance(task, Finish):
            self.finish(task)
        else:
            i = task.f.blocks[task.block].insts[task.at]
            if task.at + 1 < len(task.f.blocks[task.block].insts):
                task.at += 1
                self.instruction(task, i)
            else:
                self.terminator(task, i)

    def drop(self, task):
        if not task.waiting:
            self.tasks.pop()
            return
        n = task.waiting.pop(0)
        self.releases += 1
        o = self.objects[n]
        if self.strong(n) == 0 and o.phase == 'live':
            self.turn()
            o.phase = 'deiniting'
            self.events.append(('deinit', o.name, n))
            self.tasks += [Finish(n), Deinits(deinitialisers(self.m, o.name), n)]

    def finish(self, task):
        o = self.objects[task.o]
        if self.strong(task.o) > 0:
            raise Ends('trap', 'escaped')
        o.phase = 'dead'
        self.tasks[-1] = Drops(x for cell in o.cells if cell.ty[0] not in STORED for x in kept(cell.contents))

    # ---- calls
    def call(self, f, args):
        """Enters a function with entries for its arguments."""
        if sum(isinstance(task, Frame) for task in self.tasks) == FRAMES:
            raise Ends('trap', 'depth')
        if f.name not in self.checkers:
            self.checkers[f.name] = Checker(self.m, f)
        frame = Frame(f, self.checkers[f.name])
        for (v, _, _), (mode, x) in zip(f.blocks[0].args, args):
            self.put(frame, v, x)
        self.tasks.append(frame)
        self.turn()

    def apply(self, frame, i, values):
        f, args = function_named(self.m, values[0][1]), values[1:]
        if not f.blocks:
            self.turn()
            self.events.append(('call', f.name, [self.shape(x, 'int')[1] for x in args]))
            self.put(frame, i.results[0], UNIT)
            return
        places = [(word, ty, x) for (word, ty), x in zip(f.sig.entry(), args) if word in CONVENTIONS]
        for word, ty, x in places:
            contents = self.contents(x)
            if CONVENTIONS[word][2] == 'full' and not is_full(contents):
                raise Fault('PlaceNotAsAsked')
            if CONVENTIONS[word][2] == 'empty' and not is_empty(contents) and not self.m.trivial(ty):
                raise Fault('PlaceNotAsAsked')
        for word, ty, x in places:
            if word == '@out':
                self.write(x, None)
        self.call(f, [(None, x) for x in args])

    def returns(self, frame, x):
        """Leaves a frame whose result has been taken away from it."""
        if any(mode == HELD for mode, _ in frame.entries.values()):
            raise Fault('LeavesHeld')
        if frame.slots:
            raise Fault('LeavesSlot')
        for (word, ty), (v, _, _) in zip(frame.f.sig.entry(), frame.f.blocks[0].args):
            if word in CONVENTIONS:
                contents = self.contents(frame.entries[v][1])
                if CONVENTIONS[word][1] == 'full' and not is_full(contents):
                    raise Fault('LeavesPlace')
                if CONVENTIONS[word][1] == 'empty' and not is_empty(contents) and not self.m.trivial(ty):
                    raise Fault('LeavesPlace')
        self.tasks.pop()
        if not self.tasks:
            self.returned = x
        elif isinstance(self.tasks[-1], Frame):
            caller = self.tasks[-1]
            self.put(caller, caller.f.blocks[caller.block].insts[caller.at - 1].results[0], x)

    # ---- entries
    def put(self, frame, v, x):
        """Gives a value its entry."""
        if frame.entries.get(v, (None,))[0] == HELD:
            raise Fault('OverwritesHeld', v)
        mode = {OWNED: HELD, GUARANTEED: LENT}.get(frame.kinds.kind(v), PLAIN)
        if mode == PLAIN and references(x):
            raise Fault('WrongShape', v)
        frame.entries[v] = mode, x

    def put_all(self, frame, values, xs):
        if len(values) != len(xs):
            raise Fault('WrongShape')
        for v, x in zip(values, xs):
            self.put(frame, v, x)

    def take(self, frame, operands):
        """The values of operands (value, role). Ends come first, in operand order, and take entries away."""
        found = {}
        for end in (True, False):
            for k, (v, role) in enumerate(operands):
                if k in found:
                    continue
                if v not in frame.entries:
                    if end and role not in ('c', 'f', 'end'):
                        continue
                    raise Fault('NoEntry', v)
                mode, x = frame.entries[v]
                is_end = role == 'end' or role in ('c', 'f') and mode == HELD
                if end and role == 'c' and mode == LENT:
                    raise Fault('ConsumesLent', v)
                if is_end != end:
                    continue
                if role == 'end' and mode != LENT:
                    raise Fault('WrongShape', v)
                found[k] = x
                if end:
                    del frame.entries[v]
        values = [found[k] for k in range(len(operands))]
        for x in values:
            for o in named(x):
                if self.objects[o].phase == 'dead':
                    raise Fault('NamesDead', o)
        return values

    @staticmethod
    def shape(x, *shapes):
        if x[0] not in shapes:
            raise Fault('WrongShape')
        return x

    # ---- places
    def cell(self, address):
        """The cell in which a place lies."""
        self.shape(address, 'slot', 'field')
        if address[0] == 'field':
            return self.objects[address[1]].cells[address[2]]
        for task in self.tasks:
            if isinstance(task, Frame):
                for number, cell in task.slots:
                    if number == address[1]:
                        return cell
        raise Fault('NotLastSlot')

    def contents(self, address):
        x = self.cell(address).contents
        for s in address[-1]:
            x = None if x is None else self.shape(x, 'group')[1][s]
        return x

    def write(self, address, new):
        cell = self.cell(address)
        cell.contents = self.with_part(cell.ty, cell.contents, address[-1], new)

    def with_part(self, ty, x, steps, new):
        if not steps:
            return new
        types = members(self.m, ty)
        parts = list(x[1]) if x is not None else [None] * len(types)
        parts[steps[0]] = self.with_part(types[steps[0]], parts[steps[0]], steps[1:], new)
        return ('group', tuple(parts))

    def full(self, address):
        """What is in a full place."""
        x = self.contents(address)
        if not is_full(x):
            raise Fault('EmptyPlace')
        return x

    def first(self, address, x):
        """The first write of an empty place."""
        if not is_empty(self.contents(address)):
            raise Fault('FullPlace')
        self.write(address, x)

    # ---- instructions
    def instruction(self, frame, i):
        op = i.op
        values = self.take(frame, frame.kinds.roles(i))
        x = values[0] if values else None

        def gives(*results):
            self.put_all(frame, i.results, results)

        if op == 'integer_literal':
            gives(literal(i))
        elif op == 'function_ref':
            gives(('function', i.callee))
        elif op == 'builtin':
            gives(builtin(i.text, [self.shape(y, 'int')[1] for y in values]))
        elif op == 'cond_fail':
            if self.shape(x, 'int') != UNSET:
                raise Ends('trap', 'cond_fail', i.text)
        elif op == 'alloc_ref':
            self.objects.append(Object(i.ty[1], [Cell(t if storage == 'strong' else (storage, t)) for _, _, storage, t in self.m.all_fields(i.ty[1])]))
            gives(('ref', len(self.objects) - 1))
        elif op == 'alloc_stack':
            gives(('slot', self.slot_count, ()))
            frame.slots.append((self.slot_count, Cell(i.ty)))
            self.slot_count += 1
        elif op == 'dealloc_stack':
            if not frame.slots or x != ('slot', frame.slots[-1][0], ()):
                raise Fault('NotLastSlot')
            if not self.m.trivial(frame.slots[-1][1].ty) and not is_empty(frame.slots[-1][1].contents):
                raise Fault('FullPlace')
            frame.slots.pop()
        elif op == 'copy_value':
            self.retains += len(references(x))
            gives(x)
        elif op in ('move_value', 'begin_borrow', 'upcast'):
            gives(x)
        elif op == 'destroy_value':
            self.tasks.append(Drops(references(x)))
        elif op in ('end_borrow', 'debug_value'):
            pass
        elif op == 'load':
            y = self.full(x)
            if i.q == 'take':
                self.write(x, None)
            if i.q == 'copy':
                self.retains += len(references(y))
            gives(y)
        elif op == 'load_borrow':
            gives(self.full(x))
        elif op == 'store':
            if i.q == 'init':
                self.first(values[1], x)
            elif i.q == 'trivial':
                if i.operands[1][0] in parts_of(frame.f):
                    self.full(values[1])
                else:
                    self.cell(values[1])
                self.write(values[1], x)
            else:
                old = self.full(values[1])
                self.write(values[1], x)
                self.tasks.append(Drops(references(old)))
        elif op == 'destroy_addr':
            y = self.full(x)
            stored = self.cell(x).ty[0] in STORED
            self.write(x, None)
            if not stored:
                self.tasks.append(Drops(references(y)))
        elif op in ('load_weak', 'load_unowned'):
            y = self.full(x)
            if i.q == 'take':
                self.write(x, None)
            is_live = all(self.objects[o].phase == 'live' for o in references(y))
            if not is_live and op == 'load_unowned':
                raise Ends('trap', 'unowned')
            self.retains += len(references(y)) if is_live else 0
            gives(y if is_live else ('case', 'none', None))
        elif op in ('store_weak', 'store_unowned'):
            if i.q == 'init':
                self.first(values[1], x)
            else:
                self.full(values[1])
                self.write(values[1], x)
        elif op in ('struct', 'tuple'):
            gives(('group', tuple(values)))
        elif op == 'enum':
            gives(('case', i.member[1], x))
        elif op in ('struct_extract', 'tuple_extract'):
            gives(self.shape(x, 'group')[1][step_of(self.m, i)])
        elif op in ('destructure_struct', 'destructure_tuple'):
            gives(*self.shape(x, 'group')[1])
        elif op in ('struct_element_addr', 'tuple_element_addr'):
            gives(self.shape(x, 'slot', 'field')[:-1] + (x[-1] + (step_of(self.m, i),),))
        elif op == 'ref_element_addr':
            gives(('field', self.shape(x, 'ref')[1], field_index(self.m, *i.member), ()))
        elif op == 'apply':
            self.shape(x, 'function')
            self.apply(frame, i, values)
        else:
            raise Fault('WrongShape')

    # ---- terminators
    def terminator(self, frame, i):
        op = i.op
        if op == 'unreachable':
            raise Ends('trap', 'unreachable')
        if op == 'return':
            self.returns(frame, self.take(frame, frame.kinds.roles(i))[0])
            return
        if op == 'cond_br':
            # the condition says which edge is taken; all operands are taken together
            v = i.operands[0][0]
            if v not in frame.entries:
                raise Fault('NoEntry', v)
            edge = i.edges[0 if self.shape(frame.entries[v][1], 'int') != UNSET else 1]
        elif op == 'br':
            edge = i.edges[0]
        else:
            edge = None
        if edge is not None:
            roles = frame.kinds.roles(i)
            xs = self.take(frame, roles + [(v, 'c') for v, _ in edge[1]])[len(roles):]
        else:
            x = self.shape(self.take(frame, frame.kinds.roles(i))[0], 'case')
            edge = next(e for e in i.edges if e[2] == 'default' or e[2][1][1] == x[1])
            takes = len(frame.f.blocks[edge[0]].args) > 0
            xs = ([x] if takes else []) if edge[2] == 'default' else [] if x[2] is None else [x[2]]
        frame.block, frame.at = edge[0], 0
        self.put_all(frame, [v for v, _, _ in frame.f.blocks[edge[0]].args], xs)
        self.turn()


def run(module, name, turns, is_watched=False):
    """The outcome of a run by holders from the function with this name. A watched one has each object's numbers at each turn."""
    return Holders(module, turns, is_watched).run(function_named(module, name))
