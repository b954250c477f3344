#!/usr/bin/env python3
"""Compares what is answered to pairs of records files with another program: what they say differently, and what texts reach.

  compare_changes.py READING [PAIRS [SEED [PROCESSES]]]

READING is a folder with an independent reading of the format in Python, as tools/reading: a module `records`
(`read`, `Fault`). There are 5,000 pairs unless PAIRS says otherwise, of accepted files most of which differ in a few lines
(tools/random_changes.py), with some 50 questions each. crates/tests_collation_rows has to be built (`rt run` in its folder;
COLLATION_ROWS names another executable, and `none` none: then the answers are only counted). How often each answer is right is
printed, and each that differs with its files; the status is then 1.
"""
import collections
import multiprocessing
import random
import sys

from answers import PROGRAM, ask
from compare_records import data_of
from random_changes import questions, random_pair
from record_questions import answer_of

PAIRS_A_SCRIPT = 250


def asked_pairs(oracle, source, count):
    """Random pairs of files, with questions and their answers."""
    def is_accepted(lines):
        return not isinstance(oracle.read(data_of(lines, False)), oracle.Fault)
    made = []
    for _ in range(count):
        first, second = random_pair(source, is_accepted)
        read = [oracle.read(data_of(lines, False)) for lines in (first, second)]
        made.append((first, second, [(asked, answer_of(*read, asked)) for asked in questions(source, first, second)]))
    return made


def paragraphs_of(number, first, second, answers):
    """Two files and their questions as the program's script has them."""
    files = [''.join(f'\t{line}\n' for line in lines) for lines in (first, second)]
    return f'{number}\n{files[0]}\n? {number}\n{files[1]}' + ''.join(f'{asked}\n' for asked, _ in answers)


def compared(asked):
    """How often each answer is right to the questions of a seed, and the answers that differ, with their files."""
    folder, seed, count = asked
    sys.path.insert(0, folder)
    import records as oracle
    made = asked_pairs(oracle, random.Random(seed), count)
    counts = collections.Counter(answer for _, _, answers in made for _, answer in answers)
    if PROGRAM == 'none':
        return counts, []
    given = iter(ask('\n'.join(['files\n', *(paragraphs_of(number, *pair) for number, pair in enumerate(made))])))
    differing = []
    for number, (first, second, answers) in enumerate(made):
        right = [f'{number}: accepted', *(f'? {number}, {question}: {answer}' for question, answer in answers)]
        differing += [(first, second, one, other) for one, other in zip(right, [next(given, '') for _ in right]) if one != other]
    return counts, differing


def main(words):
    if not 1 <= len(words) <= 4:
        sys.stderr.write(__doc__)
        return 2
    folder, pairs, seed, processes = [*words, *['5000', '1', '2'][len(words) - 1:]]
    asked = [(folder, f'{seed} {start}', min(PAIRS_A_SCRIPT, int(pairs) - start)) for start in range(0, int(pairs),
                                                                                                     PAIRS_A_SCRIPT)]
    counts, different = collections.Counter(), 0
    with multiprocessing.Pool(int(processes)) as pool:
        for found, differing in pool.imap(compared, asked):
            counts += found
            different += len(differing)
            for first, second, right, given in differing:
                print(f'{right} by {folder}, {given} by the program:', *first, '? and', *second, '', sep='\n')
    for answer, count in counts.most_common():
        print(f'{answer}: {count}')
    print(f'{pairs} pairs, {sum(counts.values())} answers, {different} differ')
    return different != 0


if __name__ == '__main__':
    sys.exit(main(sys.argv[1:]))
