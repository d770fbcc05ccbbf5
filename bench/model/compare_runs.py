#!/usr/bin/env python3
"""Compares the runs and the lowering of a built program with those of the model, on random modules.

    bench/model/compare_runs.py PATH-TO-SIL [--optimize] [--from A] [--accepted N] [--processes P] [--modules FOLDER..]
    bench/model/compare_runs.py [--optimize] --show NUMBER

Each number from A on stands for one module, which `--show` writes: every fourth a case or an example below FOLDER with one to four
changes (`changes.py`), each other one a random program (`programs.py`), half of them with a change or two. The program's `check` says which of them
are accepted; it goes on until so many are. Of an accepted module `run` with five bounds on turns (the number of turns that the whole run
takes, up to 2,000, those beside it, one, and one between) and `lower` have to answer as the model does, whose two runs have to be the same.
Of a refused one `run` and `lower` have to answer as `check` does. Each answer that differs is printed. The last lines count the modules, and
how often an accepted one ended in each way.

With `--optimize` copies are put into the modules (`optimise.py`), and `optimize`, `lower --optimize` and `run --optimize` are compared.
"""
import argparse
import collections
import copy
import itertools
import multiprocessing
import pathlib
import random
import subprocess
import sys

import changes
import counts
import holders
import lower
import optimise
import programs
import run
import text

CRATES = pathlib.Path(__file__).resolve().parent.parent.parent / 'crates'
MODULES = [CRATES / 'cases' / 'data' / 'running', CRATES / 'module_runner_examples' / 'modules']
TURNS, BATCH, SECONDS = 2000, 100, 60


def examples(folders):
    """The cases of runs and the examples of the ownership form, each with its entry."""
    found = []
    for file in sorted(file for folder in folders for file in pathlib.Path(folder).rglob('*.sil')):
        source = file.read_bytes().decode(errors='replace')
        entry = run.run_told(source)
        if entry is not None:
            module = text.read(source)
            if all(f.form() != 'Lowered' for f in module.functions):
                found.append((module, entry))
    return found


def one(number, known, with_copies=False):
    """The text and the entry of the module for which a number stands, with more copies if it is asked for and the model accepts the module."""
    r = random.Random(number)
    if number % 4 == 0:
        module, entry = r.choice(known)
        module, count = copy.deepcopy(module), r.choice([1, 1, 2, 3, 4])
    else:
        module, entry = text.read(programs.one(number)), 'main'
        count = r.choice([0, 0, 1, 2])
    for _ in range(count):
        changes.change(module, r)
    source = lower.canonical(module)
    if with_copies:
        more = optimise.accepted(text.read(source), r)
        source = source if more is None else lower.canonical(more)
    return source, entry


def bounds(turns, r):
    """Five bounds on turns."""
    wanted = [TURNS, turns, turns - 1, 1, r.randrange(1, turns + 1), turns + 1, turns + 2, turns + 3, turns + 4]
    return list(dict.fromkeys(n for n in wanted if 1 <= n <= TURNS))[:5]


class Comparison:
    """Asks one program of modules by their numbers."""

    def __init__(self, program, known, is_optimising):
        self.program, self.known, self.is_optimising = program, known, is_optimising
        self.option = ['--optimize'] if is_optimising else []

    def asked(self, words, source):
        try:
            got = subprocess.run([self.program] + words, input=source, capture_output=True, text=True, timeout=SECONDS)
        except subprocess.TimeoutExpired:
            return f'no answer in {SECONDS} seconds', None
        return got.stdout, got.returncode

    def __call__(self, number):
        """What becomes of a module, and the lines that tell the answers that differ."""
        try:
            source, entry = one(number, self.known, self.is_optimising)
        except (KeyError, RecursionError):
            return 'left out', []         # a value is used that the change before took away, or values are made of one another without end
        checked = self.asked(['check'], source)
        modes = ['optimize'] * self.is_optimising
        if checked[1] != 0:
            asked = [[mode] for mode in modes] + [['lower'] + self.option, ['run', '--entry', entry] + self.option]
            return 'refused', self.differing(number, source, [(words, checked) for words in asked])
        module = text.read(source)
        if self.is_optimising:
            module = optimise.optimised(module)
        lowered = lower.lower(module)
        whole = holders.run(module, entry, TURNS)
        wanted = [([mode], (lower.canonical(module), 0)) for mode in modes]
        wanted.append((['lower'] + self.option, (lower.canonical(lowered), 0)))
        for n in bounds(whole.turns, random.Random(number)):
            answer = run.compared_runs(module, entry, holders.run(module, entry, n), counts.run(lowered, entry, n))
            wanted.append((['run', '--turns', str(n), '--entry', entry] + self.option, answer))
        return ended(whole.ending), self.differing(number, source, wanted)

    def differing(self, number, source, wanted):
        told = []
        for words, answer in wanted:
            got = self.asked(words, source)
            if got != answer:
                told.append(f'{number}: {" ".join(words)}: ' + difference(answer, got))
        return told


def difference(wanted, got):
    """The first line that differs in two answers, and their statuses."""
    lines = itertools.zip_longest(wanted[0].split('\n'), got[0].split('\n'))
    place, pair = next(((n, pair) for n, pair in enumerate(lines, 1) if pair[0] != pair[1]), (0, ('', '')))
    return f'line {place}: wanted {pair[0]!r} and status {wanted[1]}, the program wrote {pair[1]!r} and status {got[1]}'


def ended(ending):
    """The name of an ending: with the trap or fault, without a message or value."""
    return ' '.join(ending[:2]) if ending[0] in ('trap', 'fault') else ending[0]


def begin(program, folders, is_optimising):
    """Makes a process ready to compare: the examples are read in each of them."""
    global comparison
    comparison = Comparison(program, examples(folders), is_optimising)


def compare(number):
    return comparison(number)


def main():
    words = argparse.ArgumentParser()
    words.add_argument('program', nargs='?')
    words.add_argument('--from', dest='first', type=int, default=0)
    words.add_argument('--accepted', type=int, default=1000)
    words.add_argument('--processes', type=int, default=1)
    words.add_argument('--modules', nargs='+', default=MODULES)
    words.add_argument('--show', type=int)
    words.add_argument('--optimize', action='store_true')
    words = words.parse_args()
    if words.show is not None:
        print(one(words.show, examples(words.modules), words.optimize)[0], end='')
        return

    kinds, differ = collections.Counter(), 0
    with multiprocessing.Pool(words.processes, begin, (words.program, words.modules, words.optimize)) as pool:
        for first in itertools.count(words.first, BATCH):
            for kind, lines in pool.imap(compare, range(first, first + BATCH), 10):
                kinds[kind] += 1
                differ += len(lines)
                for line in lines:
                    print(line, flush=True)
            accepted = kinds.total() - kinds['refused'] - kinds['left out']
            if accepted >= words.accepted:
                break
    print(f'{kinds.total()} made, {accepted} accepted, {kinds["refused"]} refused, {differ} answers differ')
    print(', '.join(f'{kind} {count}' for kind, count in kinds.most_common() if kind not in ('refused', 'left out')))
    sys.exit(1 if differ or not accepted else 0)


if __name__ == '__main__':
    main()
