#!/usr/bin/env python3
"""Compares the answers in files that have the form of a case with those of the model.

    bench/model/cases.py FOLDER..

Cases of `check` alone count, whose answer is `accepted` or a rule from 301 on. The last line is `N agree, M differ, K left out`.
"""
import pathlib
import sys

import model
import text


def head_of(source):
    """The words and the answer in the comments at the head of a case."""
    words, answer, is_answer = '', [], False
    for line in source.split('\n'):
        if not line.startswith('//'):
            break
        if is_answer:
            answer.append(line[3:])
        if line.startswith('// words:'):
            words = line[9:].strip()
        is_answer = is_answer or line == '// answer:'
    return words, '\n'.join(answer)


def is_judged(words, answer):
    first = answer.split('\n')[0].split()
    return words == 'check' and (first[:1] == ['accepted'] or first[:1] == ['refused'] and int(first[1]) > 300)


def main():
    agree = differ = left_out = 0
    for folder in sys.argv[1:]:
        for file in sorted(pathlib.Path(folder).rglob('*.sil')):
            source = file.read_text(errors='replace')
            words, answer = head_of(source)
            if not is_judged(words, answer):
                left_out += 1
                continue
            agrees, why = model.agrees(model.check(text.read(source)), answer)
            agree, differ = agree + bool(agrees), differ + (not agrees)
            if not agrees:
                print(f'{file}: {why}')
    print(f'{agree} agree, {differ} differ, {left_out} left out')
    sys.exit(1 if differ or not agree else 0)


main()
