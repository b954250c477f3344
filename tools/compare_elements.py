#!/usr/bin/env python3
"""Compares collation elements with those of another program, on random records and random texts.

  compare_elements.py READING [TEXTS [SETS [SEED]]]

READING is a folder with an independent reading of the definitions (tools/answers.py). There are 3,000 texts over 60 sets of records
unless TEXTS and SETS say otherwise, half of them with numbers read by value. The records have contractions to eight characters, prefixes of one to
three, digits, dots above, jamo, ranges and tailorings. crates/tests_collation_rows compiles each set, with fast and with small tries,
and answers the elements of each text, as the reader of elements reads them (`read`) and as they are read slowly by the rules
alone (`plain`); it has to be built (`rt run` in its folder; tools/answers.py). What differs is printed, and the status is then 1.
"""
import random
import sys

from answers import answers, ask, load
from random_weights import random_characters, random_weights, words as words_of

CALLS = ('read', 'plain')


def differences(script, oracle, done):
    """Where the answers to a script differ: the line, and what was expected."""
    shown, wanted = ask(script), answers(script, oracle)
    for line in wanted:
        call = line.split(' ')[0]
        done[call] = done.get(call, 0) + 1
    if len(shown) != len(wanted):
        return [(f'{len(shown)} lines of {len(wanted)}', *shown[-1:])]
    return [pair for pair in zip(shown, wanted) if pair[0] != pair[1]]


def compare_set(source, oracle, count, done):
    """Compares so many texts over one random set of records; what differs."""
    lines, *characters = random_weights(source, oracle.read, lambda said: isinstance(said, oracle.Fault))
    for name in ('w', 't'):
        done[f'records {name}'] = done.get(f'records {name}', 0) + sum(line.startswith(f'{name} ') for line in lines)
    script = ['records', *lines, '', 'tables']
    for place in range(count):
        text = words_of(random_characters(source, lines, *characters))
        script += [f"{call}{'_numbers' if place % 2 else ''} {text}" for call in CALLS]
    return [(*fault, *lines) for fault in differences('\n'.join([*script, '']), oracle, done)]


def main(words):
    if not 1 <= len(words) <= 4 or not all(map(str.isdigit, words[1:])):
        sys.stderr.write(__doc__)
        return 2
    oracle = load(words[0])
    texts, sets, seed = [int(words[k]) if len(words) > k else other for k, other in ((1, 3000), (2, 60), (3, 1))]
    source = random.Random(seed)
    done, faults = {}, []
    for _ in range(sets):
        faults += compare_set(source, oracle, texts // sets, done)
    for name, made in done.items():
        print(f'{name:28} {made:7}')
    for fault in faults[:5]:
        print(*fault, sep='\n  ')
    print(f'{len(faults)} differ')
    return 1 if faults else 0


if __name__ == '__main__':
    sys.exit(main(sys.argv[1:]))
