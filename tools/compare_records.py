#!/usr/bin/env python3
"""Compares what is answered to records files with another program, on random files of the whole format.

  compare_records.py READING [FILES [SEED [PROCESSES]]]

READING is a folder with an independent reading of the format in Python, as tools/reading: a module `records`
(`read`, `Fault`). There are 50,000 files unless FILES says otherwise, most of them near to a rule on either side
(tools/random_files.py). Each is accepted, or refused with a line and a rule, by both. crates/tests_collation_rows has to be built
(`rt run` in its folder; COLLATION_ROWS names another executable, and `none` none: then the files are only counted). How often
each rule is the first fault is printed, and each file that differs; the status is then 1.
"""
import collections
import multiprocessing
import random
import sys

from answers import PROGRAM, ask
from random_files import random_file

FILES_A_SCRIPT = 250


def data_of(lines, is_cut):
    """The bytes of a file."""
    return ('\n'.join(lines) + ('' if is_cut and lines else '\n')).encode()


def paragraph_of(number, lines, is_cut):
    """A file as the program's script has it."""
    last = len(lines) - 1
    return f'{number}\n' + ''.join(f'{"-" if is_cut and place == last else ""}\t{line}\n' for place, line in enumerate(lines))


def answer_of(oracle, data):
    found = oracle.read(data)
    return f'{found.line} {found.rule}' if isinstance(found, oracle.Fault) else 'accepted'


def compared(asked):
    """How often each answer is given to the files of a seed, and the files whose answers differ."""
    folder, seed, count = asked
    sys.path.insert(0, folder)
    import records as oracle
    source = random.Random(seed)
    files = [random_file(source) for _ in range(count)]
    files = [(lines or [''], is_cut) for lines, is_cut in files]
    right = [answer_of(oracle, data_of(*file)) for file in files]
    counts = collections.Counter(answer.split(' ')[-1] for answer in right)
    if PROGRAM == 'none':
        return counts, []
    given = ask('\n'.join(['files\n', *(paragraph_of(number, *file) for number, file in enumerate(files))]))
    given = [line.partition(': ')[2] for line in given] + ['nothing'] * (count - len(given))
    return counts, [(data_of(*file), one, other) for file, one, other in zip(files, right, given) if one != other]


def main(words):
    if not 1 <= len(words) <= 4:
        sys.stderr.write(__doc__)
        return 2
    folder, files, seed, processes = [*words, *['50000', '1', '2'][len(words) - 1:]]
    asked = [(folder, f'{seed} {start}', min(FILES_A_SCRIPT, int(files) - start)) for start in range(0, int(files),
                                                                                                     FILES_A_SCRIPT)]
    counts, different = collections.Counter(), 0
    with multiprocessing.Pool(int(processes)) as pool:
        for found, differing in pool.imap(compared, asked):
            counts += found
            different += len(differing)
            for data, right, given in differing:
                print(f'{right} by {folder}, {given} by the program:\n{data.decode()}')
    for answer, count in counts.most_common():
        print(f'{answer}: {count}')
    print(f'{sum(counts.values())} files, {different} differ')
    return different != 0


if __name__ == '__main__':
    sys.exit(main(sys.argv[1:]))
