#!/usr/bin/env python3
"""Compares the answers of a built program with those of the model on random functions.

    bench/model/compare.py PATH-TO-SIL [--from A] [--count N] [--conventions WORD,..]

Each number from A on stands for one module. Its functions take and hand over addresses by these conventions alone, by
`@inout` where none is named. Each answer that differs is printed. The last line counts the answers by rule.
"""
import argparse
import collections
import subprocess
import sys

import functions
import model
import text


def main():
    words = argparse.ArgumentParser()
    words.add_argument('program')
    words.add_argument('--from', dest='first', type=int, default=0)
    words.add_argument('--count', type=int, default=1000)
    words.add_argument('--conventions', default='@inout')
    words = words.parse_args()
    conventions = tuple(words.conventions.split(','))
    answers, differ = collections.Counter(), 0
    for number in range(words.first, words.first + words.count):
        source = functions.one(number, conventions)
        answer = subprocess.run([words.program, 'check'], input=source, capture_output=True, text=True).stdout
        fault = model.check(text.read(source))
        agrees, why = model.agrees(fault, answer)
        answers['accepted' if fault is None else fault.rule] += 1
        if not agrees:
            differ += 1
            print(f'{number}: {answer.rstrip()} | {why}', flush=True)
    counts = ', '.join(f'{what}: {answers[what]}' for what in sorted(answers, key=str))
    print(f'{words.count} compared, {differ} differ; {counts}')
    sys.exit(1 if differ else 0)


main()
