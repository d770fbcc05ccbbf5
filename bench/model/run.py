#!/usr/bin/env python3
"""Runs a module in two ways, by holders and lowered by stored numbers, and writes the report or the lowered module.

    bench/model/run.py run [--turns N] [--entry NAME] [--optimize] < FILE
    bench/model/run.py lower [--optimize] < FILE
    bench/model/run.py optimize < FILE
    bench/model/run.py audit [--turns N] [--entry NAME] < FILE

The words, answers and statuses are those of `sil`; no rule is checked. Where the two runs differ, both reports are written and the
status is 99. A fault of the run by holders has one of the names in `holders.py`, one of the lowered run one of those in `counts.py`.

    bench/model/run.py cases FOLDER..
    bench/model/run.py files FOLDER..
    bench/model/run.py lowered FOLDER..
    bench/model/run.py examples FOLDER..

`cases` compares with the files `stdin`, `args`, `stdout` and `status` in the folders below FOLDER, and `files` with the heads of case files
(docs/CASES.md), both as far as their words are these modes; of a run the three numbers of each object have to be the same at each turn, by
both ways to run. `lowered` compares with the case files there that run a lowered text. `examples` compares with the comments at the heads of
the modules in FOLDER, which are faults or reports of lowered texts, and says which rule refuses a module.
"""
import pathlib
import re
import sys

import counts
import holders
import lower
import model
import optimise
import report
import text
import values

DIFFERENT = 99


def words_of(words):
    """The mode, turns, entry and whether to optimise of a command line; None where it isn't one."""
    mode, options = None, {}
    words = list(words)
    while words:
        word = words.pop(0)
        if word.startswith('--') and '=' in word:
            word, *words = word.split('=', 1) + words
        if word == '--optimize':
            if word in options:
                return None
            options[word] = word
        elif word in ('--turns', '--entry'):
            if not words or word in options:
                return None
            options[word] = words.pop(0)
        elif mode is None:
            mode = word
        else:
            return None
    allowed = {'run': {'--turns', '--entry', '--optimize'}, 'audit': {'--turns', '--entry'}, 'lower': {'--optimize'}, 'optimize': set()}
    if mode not in allowed or set(options) - allowed[mode]:
        return None
    turns = options.get('--turns', str(values.TURNS))
    if not re.fullmatch(r'\d{1,7}', turns) or not 1 <= int(turns) <= 1000000:
        return None
    return mode, int(turns), options.get('--entry', 'main'), '--optimize' in options or mode == 'optimize'


def both(module, entry, turns, is_watched=False):
    """The outcomes of a module of the ownership form: by holders, and lowered."""
    return holders.run(module, entry, turns, is_watched), counts.run(lower.lower(module), entry, turns, is_watched)


def told(module, entry, outcome):
    return report.lines(module, outcome, values.function_named(module, entry).sig.direct())


def answer(words, source, is_watched=False):
    """The text and the status of a command line. Runs that are watched are compared at each turn."""
    asked = words_of(words)
    if asked is None:
        return None, 2
    mode, turns, entry, is_optimised = asked
    module = text.read(source)
    if is_optimised:
        module = optimise.optimised(module)
    if mode == 'optimize':
        return lower.canonical(module), 0
    if mode == 'audit':
        for f in module.functions:
            if f.form() == 'Ossa':
                return f'refused 207 MixedForms @{f.name}\n', 1
    if mode == 'lower':
        return lower.canonical(lower.lower(module)), 0
    if values.entry_of(module, entry) is None:
        return f'no entry {entry}\n', 10
    if mode == 'audit':
        outcome = counts.run(module, entry, turns)
        return '\n'.join(told(module, entry, outcome)) + '\n', report.status(outcome)
    return compared_runs(module, entry, *both(module, entry, turns, is_watched))


def compared_runs(module, entry, by_holders, by_counts):
    """The text and the status of a run, whose two outcomes have to be the same, and balanced."""
    lines = told(module, entry, by_holders)
    if not by_holders.same(by_counts) or not by_holders.is_balanced():
        return '\n'.join(['by holders:'] + lines + ['lowered:'] + told(module, entry, by_counts)) + '\n', DIFFERENT
    return '\n'.join(lines) + '\n', report.status(by_holders)


# ---- cases

def case_folders(folder):
    """The cases that are folders: name, words, text, answer and status. Those of a mode that was to come are left out."""
    for args in sorted(pathlib.Path(folder).rglob('args')):
        case = args.parent
        words = args.read_text().split('\n')
        words = words[:-1] if words[-1] == '' else words
        until = case / 'until'
        if not until.exists() or int(until.read_text()) >= 20:
            yield case.name, words, (case / 'stdin').read_text(), (case / 'stdout').read_text(), int((case / 'status').read_text())


HEAD = re.compile(r'(?://.*\n)+?// words:(.*)\n// status: (\d+)\n// answer:\n((?://.*\n)*)')


def case_files(folder):
    """The cases that are files."""
    for file in sorted(pathlib.Path(folder).rglob('*.sil')):
        source = file.read_bytes().decode(errors='replace')
        head = HEAD.match(source)
        lines = ''.join(line[3:] + '\n' for line in head.group(3).splitlines())
        yield file.name, ['' if word == '""' else word for word in head.group(1).split(' ')[1:]], source, lines, int(head.group(2))


def run_told(source):
    """The entry of the run that a head tells, of a case or of an example. None where a case tells none."""
    head = HEAD.match(source)
    if head is None:
        return Head(source).entry
    asked = words_of(['' if word == '""' else word for word in head.group(1).split(' ')[1:]])
    return asked[2] if asked is not None and asked[0] == 'run' and int(head.group(2)) in (0, 6, 7) else None


def compared(cases):
    agree = differ = left_out = 0
    for name, words, source, *wanted in cases:
        if words[:1] not in (['run'], ['lower'], ['audit'], ['optimize']):
            left_out += 1
            continue
        got = answer(words, source, True)
        if got == tuple(wanted) or got == (None, 2) and wanted[1] == 2:
            agree += 1
        else:
            differ += 1
            print(f'{name}: wanted {wanted}, got {got}')
    print(f'{agree} agree, {differ} differ, {left_out} left out')
    return 1 if differ or not agree else 0


def told_without_events(written):
    return ''.join(line for line in written.splitlines(True) if not line.startswith(('call ', 'deinit ')))


def lowered(folders):
    agree = differ = left_out = 0
    for file in sorted(file for folder in folders for file in pathlib.Path(folder).rglob('*.sil')):
        source = file.read_text()
        words, status, answered = re.match(r'// .*\n// words: (.*)\n// status: (.*)\n// answer:\n((?:// .*\n)*)', source).groups()
        call, turns = words.split()
        if status == '1':
            left_out += 1
            continue
        wanted = ''.join(line[3:] for line in answered.splitlines(True))
        got, ended = answer(['audit', '--turns', turns], source)
        got = told_without_events(got) if call == 'lowered-end' else got
        if (got, ended) == (wanted, int(status)):
            agree += 1
        else:
            differ += 1
            print(f'{file}: wanted\n{wanted}{status}, got\n{got}{ended}')
    print(f'{agree} agree, {differ} differ, {left_out} left out')
    return 1 if differ or not agree else 0


# ---- examples

class Head:
    """The comments at the head of an example: what it shows, turns, entry, the faults, and the answer of a lowered run without one."""

    def __init__(self, source):
        lines = []
        for line in source.split('\n'):
            if not line.startswith('//'):
                break
            lines.append(line[3:])
        self.shows, self.turns, self.entry, self.holders, self.lowered, self.answer = lines[0], values.TURNS, 'main', None, None, []
        for line in lines[1:]:
            for key, word in (('turns', 'turns'), ('entry', 'entry'), ('holders', 'fault by holders'), ('lowered', 'lowered fault')):
                if line.startswith(word + ':'):
                    setattr(self, key, line[len(word) + 1:].strip())
                    break
            else:
                self.answer.append(line)
        self.turns = int(self.turns)


def example(file):
    """What is wrong with an example, and the rule that refuses it."""
    source = file.read_text()
    head, module = Head(source), text.read(source)
    wrong = []
    refused = model.check(module) if any(f.form() == 'Ossa' for f in module.functions) else None
    rule = refused.rule if refused is not None else None
    if any(f.form() == 'Ossa' for f in module.functions):
        by_holders, by_counts = both(module, head.entry, head.turns)
    else:
        by_holders, by_counts = None, counts.run(module, head.entry, head.turns)
    for name, outcome, fault in (('holders', by_holders, head.holders), ('lowered', by_counts, head.lowered)):
        if outcome is None:
            continue
        got = told(module, head.entry, outcome)
        word = outcome.ending[1] if outcome.ending[0] == 'fault' else None
        if word != fault or fault is None and got != head.answer:
            wrong.append(f'{name}: ' + ' / '.join(got))
    if by_holders is not None and rule is None:
        wrong.append('accepted')
    return wrong, rule


def examples(folders):
    agree = differ = 0
    for folder in folders:
        for file in sorted(pathlib.Path(folder).rglob('*.sil')):
            wrong, rule = example(file)
            agree, differ = agree + (not wrong), differ + bool(wrong)
            print(f'{file.name}: ' + ('no rule is asked' if rule is None else f'refused by {rule}') + ''.join(f'; {w}' for w in wrong))
    print(f'{agree} agree, {differ} differ')
    return 1 if differ or not agree else 0


def main():
    readers = {'cases': case_folders, 'files': case_files}
    whole = {'lowered': lowered, 'examples': examples}
    if sys.argv[1:2] and sys.argv[1] in whole:
        sys.exit(whole[sys.argv[1]](sys.argv[2:]))
    if sys.argv[1:2] and sys.argv[1] in readers:
        sys.exit(compared(case for folder in sys.argv[2:] for case in readers[sys.argv[1]](folder)))
    written, status = answer(sys.argv[1:], sys.stdin.read())
    sys.stdout.write(written if written is not None else 'not a command line\n')
    sys.exit(status)


if __name__ == '__main__':
    main()
