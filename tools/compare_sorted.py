#!/usr/bin/env python3
"""Compares what `sort_names` writes with the order that another program gives.

  compare_sorted.py READING [RUNS [SEED]]

READING is a folder with an independent reading of the definitions in Python, as tools/reading: a module
`model` (`read`, `Fault`, `choice`, `decode_utf8`, `key`). There are 100 runs unless RUNS says otherwise, over random records
files and words (tools/random_runs.py) and names with damaged bytes, TABs and NUL bytes: names in order, in memory or in
parts, with their keys or without, and files in order that are merged. The program is built first where it has to be
(SORT_NAMES names another executable than ./sort_names). Prints how many runs were sorted or refused, and each that differs;
the status is then 1.
"""
import collections
import os
import random
import subprocess
import sys
import tempfile

from random_runs import random_names, random_records, random_words

ROOT = os.path.dirname(os.path.dirname(os.path.realpath(__file__)))
PROGRAM = os.environ.get('SORT_NAMES', os.path.join(ROOT, 'sort_names'))


def sort_names(words, names=b''):
    """What the program writes, what it says is wrong, and its status."""
    run = subprocess.run([PROGRAM, '--quiet', *words], input=names, stdout=subprocess.PIPE, stderr=subprocess.PIPE, check=False)
    return run.stdout, run.stderr.decode('utf-8', 'replace'), run.returncode


def write(place, name, data):
    path = os.path.join(place, name)
    with open(path, 'wb') as file:
        file.write(data)
    return path


def many_names(source, texts, is_large):
    """Names with their like, in any order, some of them twice; hundreds where they are to be many."""
    names = [name for _ in range(4) for name in random_names(source, texts)]
    names += [source.choice(names).replace(b'a', source.choice([b'\0', b'\t', b'\r'])) + source.choice([b'', b'\0', b'\t']) for _ in range(4)]
    if is_large:
        names += [source.choice(names) + source.choice(names)[:9] + b'\0' * source.randint(0, 900) for _ in range(240)]
    source.shuffle(names)
    return names


def in_order(oracle, records, options, names, with_keys):
    """The lines of names in order of their keys, equal ones as they came."""
    keys = {name: oracle.key(records, options, oracle.decode_utf8(name)) for name in set(names)}
    return b''.join((keys[name].hex().encode() + b'\t' if with_keys else b'') + name + b'\n' for name in sorted(names, key=keys.get))


def merged(place, words, names, cuts):
    """What merging gives of the names, sorted in as many pieces."""
    files = []
    for at in range(cuts):
        out, fault, status = sort_names(words, b''.join(name + b'\n' for name in names[at::cuts]))
        if status:
            return out, fault, status
        files.append(write(place, f'sorted {at}', out))
    return sort_names([*words, '-m', *files])


def is_usage(given):
    """Whether words are refused by one line."""
    out, said, status = given
    return (out, status, said.count('\n')) == (b'', 2, 1) and said.startswith('sort_names: ')


def run(oracle, source, is_large):
    """Whether names were sorted or refused, and what differs from the other program's answer."""
    lines, is_cut, texts = random_records(source, oracle.read, lambda said: isinstance(said, oracle.Fault))
    words, names = random_words(source), many_names(source, texts, is_large)
    data = b'\n'.join(names) + (b'\n' if source.random() < 0.7 or not names[-1] else b'')
    with tempfile.TemporaryDirectory() as place:
        said = ('\n'.join(lines) + ('' if is_cut else '\n')).encode('utf-8', 'surrogateescape')
        path, with_keys = write(place, 'records', said), source.random() < 0.5
        size = source.choice([[], ['-S', '1b'], ['-S', '4K'], ['-S', '1G']])
        given = sort_names([*['--keys'] * with_keys, *size, '--records', path, *words], data)
        chosen, records = oracle.choice([path, *words]), oracle.read(said)
        if chosen is None:
            return 'usage', [] if is_usage(given) else [(words, given)]
        if isinstance(records, oracle.Fault):
            if records.rule == 'limit' and given[2] == 0:
                return 'within the limits of Unicode', []
            right = b'', f'sort_names: refused {records.line} {records.rule} {path}\n', 2
            return 'refused', [] if given == right else [(lines, given, right)]
        right = in_order(oracle, records, chosen[1], names, with_keys), '', 0
        differing = [] if given == right else [(lines, words, names, given, right)]
        cuts = source.randint(1, 3)
        pieces = [name for at in range(cuts) for name in names[at::cuts]]
        given = merged(place, ['--records', path, *words], names, cuts)
        right = in_order(oracle, records, chosen[1], pieces, False), '', 0
        return 'sorted', differing + ([] if given == right else [(words, names, given, right)])


def main(words):
    if not 1 <= len(words) <= 3 or not all(map(str.isdigit, words[1:])):
        sys.stderr.write(__doc__)
        return 2
    folder, runs, seed = [*words, *['100', '1'][len(words) - 1:]]
    sys.path.insert(0, folder)
    import model as oracle
    counts, differing = collections.Counter(), []
    for number in range(int(runs)):
        kind, found = run(oracle, random.Random(f'{seed} {number}'), number % 10 == 9)
        counts[kind] += 1
        differing += found
    for found in differing[:3]:
        print(*(str(part)[:2000] for part in found), sep='\n  ')
    print(', '.join(f'{kind}: {count}' for kind, count in counts.items()), f'differ: {len(differing)}', sep='; ')
    return bool(differing)


if __name__ == '__main__':
    sys.exit(main(sys.argv[1:]))
