"""The lines of a report: the events, how the run ended, what is left of objects, and the totals."""

LOWERED_FAULTS = ('Missing', 'Slot', 'Dead', 'Empty', 'Underflow')


class Report:
    def __init__(self, module, outcome, result_type):
        self.m, self.outcome, self.result_type = module, outcome, result_type
        self.classes = {}

    def value(self, x, t):
        """A value as one of its type."""
        if x[0] == 'int':
            return str(x[1])
        if x[0] == 'ref':
            return f'{self.classes[x[1]]}#{x[1]}'
        if x[0] == 'group' and t[0] == 'tuple':
            return '(' + ', '.join(self.value(y, u) for y, u in zip(x[1], t[1])) + ')'
        if x[0] == 'group':
            return t[1] + '(' + ', '.join(self.value(y, m[2]) for y, m in zip(x[1], self.m.decls[t[1]][1])) + ')'
        name = 'Optional' if t[0] == 'opt' else t[1]
        if x[2] is None:
            return f'{name}.{x[1]}'
        payload = t[1] if t[0] == 'opt' else self.m.member(t[1], x[1])[1][2]
        return f'{name}.{x[1]}({self.value(x[2], payload)})'

    def ending(self):
        e = self.outcome.ending
        if e[0] == 'returned':
            return [f'returned {self.value(e[1], self.result_type)}']
        if e[0] == 'trap':
            return [f'trap {e[1]}' + (f' "{e[2]}"' if e[1] == 'cond_fail' else '')]
        if e[0] == 'fault':
            about = {'Underflow': f' #{e[2]} count 0', 'Dead': f' #{e[2]}', 'Missing': f' %{e[2]}'}
            return ['fault ' + (e[1].lower() + about.get(e[1], '') if e[1] in LOWERED_FAULTS else e[1])]
        return [e[0]]

    def lines(self):
        o = self.outcome
        self.classes = {n: name for n, name, *_ in o.left}
        lines = [f'call @{e[1]}(' + ', '.join(map(str, e[2])) + ')' if e[0] == 'call' else f'deinit {e[1]}#{e[2]}' for e in o.events]
        lines += self.ending()
        if o.ending[0] == 'returned':
            lines.append(f'objects {len(o.left)}')
            for n, name, is_live, strong, unowned, weak in o.left:
                lines.append(f'object {name}#{n} ' + ('live' if is_live else 'dead') + f' strong {strong} unowned {unowned} weak {weak}')
        return lines + [f'retains {o.retains} releases {o.releases}']


def lines(module, outcome, result_type):
    return Report(module, outcome, result_type).lines()


STATUS = {'returned': 0, 'trap': 6, 'out of turns': 7, 'fault': 12}


def status(outcome):
    return STATUS[outcome.ending[0]]
