"""The grammar of docs/GRAMMAR.md with the rows of the table of instructions, and what follows from its productions.

A symbol of a body is a pair: `part` and a name, or one kind of token and its name in the code.
"""
import pathlib
import re
import sys

ROOT = pathlib.Path(__file__).resolve().parent.parent
CRATES = ROOT / 'crates'
DOCUMENT = ROOT / 'docs' / 'GRAMMAR.md'

# the document's words for tokens of which any will do: terminals of `grammar.rt`, and classes of `classes.rt`
ANY = {'word': 'AnyWord', 'type-word': 'TypeWord', '@name': 'AnyAt', 'text': 'AnyText'}
CLASS = {'%value': 'Percent', 'number': 'Number', 'operation': 'BuiltinText'}

# the columns of the table of instructions on which parts of rows depend
COLUMN = {'Typed': 'OPTIONAL_OPERANDS', 'Qualifier': 'WORDS', 'Member': 'DETAILS', 'Text': 'DETAILS', 'Edges': 'ENDINGS'}
LEFT_OUT = 'may be left out'
ENTRY = {'true': LEFT_OUT, 'false': None}


class Instructions:
    """What the table of instructions says of the form of rows."""

    def __init__(self):
        source = CRATES / 'instruction_table' / 'src'
        columns = (source / 'columns.rt').read_text()
        self.ops = re.findall(r'Op::(\w+),', (source / 'op.rt').read_text())
        self.mnemonics = re.findall(r'b"(\w+)"', columns)
        self.parts = [re.findall(r'Part::(\w+)', row) for row in re.findall(r'&\[([^\]]*)\], //', columns)]
        self.columns = {name: re.findall(r'(\w+), //', rows) for name, rows in re.findall(r'static (\w+):[^=]*= \[(.*?)\n\];', columns, re.S)}
        items = re.search(r'is_item.*?match self \{(.*?)=> true', (source / 'forms.rt').read_text(), re.S)
        self.items = re.findall(r'Part::(\w+)', items[1])

    def ends_block(self, op):
        return self.columns['ENDINGS'][self.ops.index(op)] != 'Inside'

    def row(self, op):
        """The parts of a row, each with the entry of the column on which it depends."""
        number = self.ops.index(op)
        for part in self.parts[number]:
            entry = self.columns[COLUMN[part]][number] if part in COLUMN else None
            yield part, ENTRY.get(entry, entry)


class Words:
    """The classes of tokens: their names in the code by spelling, and which of them a terminal stands for."""

    def __init__(self, table):
        text = (CRATES / 'sil_grammar_classes' / 'specs' / 'Spelling.antt').read_text()
        self.named = {}
        for letter, kind, sign in ('k', 'word', ''), ('a', 'at', '@'), ('m', 'mark', ''):
            for name, spelled in re.findall(rf'spelling {letter}\.(\w+) = codes "(.*)"', text):
                self.named[f'"{sign}{spelled}"'] = kind, name
        self.named.update((f'"{mnemonic}"', ('mnemonic', op)) for op, mnemonic in zip(table.ops, table.mnemonics))
        of = lambda kind: [name for name in self.named.values() if name[0] == kind]
        words = [('word', 'Other')] + of('word') + of('mnemonic')
        names = [('at', 'Other')] + of('at')
        texts = [('class', 'BuiltinText'), ('class', 'OtherText')]
        self.any = {
            'AnyWord': words,
            'TypeWord': [word for word in words if word not in (('word', 'Builtin'), ('word', 'Optional'))],
            'RowWord': [word for word in of('mnemonic') if not table.ends_block(word[1])],
            'EndWord': [word for word in of('mnemonic') if table.ends_block(word[1])],
            'AnyAt': names,
            'AnyText': texts,
        }
        self.all = words + names + [('class', 'Percent'), ('class', 'Number')] + texts + of('mark')

    def classes(self, terminals):
        """The classes that some terminals stand for."""
        return frozenset(one for kind, name in terminals for one in (self.any[name] if kind == 'any' else [(kind, name)]))

    def terminals(self, classes):
        """The fewest terminals that stand for these classes."""
        left, found = set(classes), []
        for name, those in self.any.items():
            if left.issuperset(those):
                found.append(('any', name))
                left.difference_update(those)
        return found + [one for one in self.all if one in left]


class Grammar:
    """The productions that the document lists, and those of rows."""

    def __init__(self):
        self.table = Instructions()
        self.words = Words(self.table)
        self.productions, self.bodies, self.row_parts = {}, {}, {}
        self.read([line for block in re.findall(r'```\n(.*?)```', DOCUMENT.read_text(), re.S) for line in block.rstrip().split('\n')])
        self.written = {production: part for part, productions in self.productions.items() for production in productions}
        # with the rows, which are written as `Row Load`
        self.every = [(self.written[production], production, body) for production, body in self.bodies.items()]
        self.every += [('Terminator' if self.table.ends_block(op) else 'Row', 'Row ' + op, self.row_body(op)) for op in self.table.ops]

    def read(self, lines):
        self.parts = [line for line in lines if re.fullmatch(r'\w+', line)]
        for line in lines:
            row_part = re.fullmatch(r'(\w+)(?: \(([\w ]+)\))?  +(\S.*)', line)
            if row_part:
                self.row_parts[row_part[1], row_part[2]] = self.symbols(row_part[3])
            elif not line.startswith(' '):
                part = self.productions[line] = []
            elif not line.strip().startswith('each instruction'):
                production, body = line.split(None, 1)
                part.append(production)
                self.bodies[production] = self.symbols(body)

    def symbols(self, text):
        return [] if text == 'nothing' else [self.symbol(word) for word in text.split()]

    def symbol(self, word):
        for kind, names in ('part', dict(zip(self.parts, self.parts))), ('any', ANY), ('class', CLASS):
            if word in names:
                return kind, names[word]
        if word not in self.words.named:
            sys.exit(f'{DOCUMENT}: {word} is no part and no token')
        return self.words.named[word]

    def row_body(self, op):
        """An instruction's mnemonic and its parts, with a comma between one item and the next."""
        body, before = [('mnemonic', op)], None
        for part, entry in self.table.row(op):
            if before in self.table.items and part in self.table.items and entry != LEFT_OUT:
                body.append(('mark', 'Comma'))
            body += self.row_parts[(part, entry) if (part, entry) in self.row_parts else (part, None)]
            before = part
        return body


class Sets:
    """What follows from the productions, by part."""

    def __init__(self, grammar):
        self.grammar = grammar
        self.nullable = self.least(False, lambda now, value, body: value or all(kind == 'part' and now[name] for kind, name in body))
        self.first = self.least(frozenset(), lambda now, value, body: value | self.begin(body, now))
        self.weight = self.least(1, lambda now, value, body: max(value, 1 + self.lead(body, now)))
        self.follow, self.ends = self.follows()
        self.shortest, self.needed = self.shortest_ways()

    def least(self, start, step):
        """The least values of parts that no body makes greater."""
        values = {part: start for part in self.grammar.parts}
        for _ in self.grammar.every:
            before = dict(values)
            for part, _, body in self.grammar.every:
                values[part] = step(values, values[part], body)
            if values == before:
                return values
        sys.exit(f'{DOCUMENT}: a part begins with itself')

    def leading(self, body):
        """The symbols of a body up to the first that can't be empty, and whether there is none."""
        for at, (kind, name) in enumerate(body):
            if kind != 'part' or not self.nullable[name]:
                return body[:at + 1], False
        return body, True

    def begin(self, body, first):
        """The classes with which a text of these symbols may begin."""
        return frozenset().union(*(first[name] if kind == 'part' else self.grammar.words.classes([(kind, name)]) for kind, name in self.leading(body)[0]))

    def lead(self, body, weight):
        return sum(weight[name] for kind, name in self.leading(body)[0] if kind == 'part')

    def follows(self):
        follow = {part: frozenset(['end'] if part == 'Module' else []) for part in self.grammar.parts}
        before = None
        while follow != before:
            before = dict(follow)
            for part, _, body in self.grammar.every:
                for at, (kind, name) in enumerate(body):
                    if kind == 'part':
                        rest = body[at + 1:]
                        follow[name] |= self.begin(rest, self.first) | (follow[part] if self.leading(rest)[1] else frozenset())
        return {part: those - {'end'} for part, those in follow.items()}, {part: 'end' in those for part, those in follow.items()}

    def shortest_ways(self):
        """Of each part the production with the fewest tokens, then the fewest steps, then the first; and its steps."""
        far = (1 << 30, 1 << 30)
        def cost(body, now):
            costs = [now[name] if kind == 'part' else (1, 1) for kind, name in body]
            return min(far, (sum(tokens for tokens, _ in costs), 1 + sum(steps for _, steps in costs)))
        costs = self.least(far, lambda now, value, body: min(value, cost(body, now)))
        ways = {}
        for part, production, body in self.grammar.every:
            if cost(body, costs) == costs[part]:
                ways.setdefault(part, production)
        return {part: ways[part] for part in self.grammar.parts}, {part: steps for part, (_, steps) in costs.items()}

    def empty_choice(self):
        """The production by which a part may be empty."""
        empty = {part: production for part, production, body in self.grammar.every if self.leading(body)[1]}
        return {part: empty.get(part) for part in self.grammar.parts}
