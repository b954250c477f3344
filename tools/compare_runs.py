#!/usr/bin/env python3
"""Compares whole runs of the program `collate` with another program: what it writes, what it says is wrong, and its status.

  compare_runs.py READING [RUNS [SEED [PROCESSES]]]

READING is a folder with an independent reading of the definitions in Python, as tools/reading: a module
`model` (`read`, `Fault`, `choice`, `serve`, `decode_utf8`, `Index`). There are 10,000 runs unless RUNS says otherwise, over random records files, words
and commands (tools/random_runs.py), ten over each file. crates/collate has to be built (`./collate` at the top; COLLATE names
another executable). How often each reply was given is printed, and what reloads did: whether a setting changed, and by how
many mapping steps a touched name reaches the nearest changed character. So is each run that differs; the status is then 1.
"""
import collections
import multiprocessing
import os
import random
import subprocess
import sys
import tempfile

from random_runs import random_commands, random_names, random_records, random_words

ROOT = os.path.dirname(os.path.dirname(os.path.realpath(__file__)))
PROGRAM = os.environ.get('COLLATE', os.path.join(ROOT, 'crates/collate/out/collate'))
FILE_LIMIT = 1048577
RUNS_A_FILE = 10


def right_answer(oracle, path, words, commands):
    """What a run writes, what it says is wrong, and its status, by the other program."""
    chosen = oracle.choice([path, *words])
    data = None
    if chosen and os.path.exists(path):
        with open(path, 'rb') as file:
            data = file.read(FILE_LIMIT)
    out, fault, status = oracle.serve(chosen, data, commands)
    return out, fault.encode() + b'\n' if fault else b'', status


def given_answer(path, words, commands):
    run = subprocess.run([PROGRAM, path, *words], input=commands, stdout=subprocess.PIPE, stderr=subprocess.PIPE, check=False)
    return run.stdout, run.stderr, run.returncode


def kinds(answer):
    """What kinds of lines an answer has."""
    out, fault, status = answer
    yield f'status {status}'
    if fault:
        yield ' '.join(word for word in fault.decode('utf-8', 'replace').split() if not word.isdigit() and '/' not in word)
    for line in out.split(b'\n'):
        word = line.split(b' ')[0]
        if word in (b'added', b'duplicate', b'removed', b'absent', b'names', b'bad', b'memory', b'refused'):
            yield word.decode()
        elif word == b'reloaded':
            yield 'reloaded no name' if line == b'reloaded 0' else 'reloaded names'
        elif len(line) > 3 and set(line) <= set(b'0123456789abcdef'):
            yield 'a key'


def steps_to_a_change(old, new, characters):
    """How many mapping steps of old records bring the nearest changed character into a text; None where none does."""
    seen, here, steps = set(), set(characters), 0
    while here:
        if any(old.changed(new, character) for character in here):
            return steps
        seen |= here
        here = {next_one for character in here for next_one in old.step(character) or ()} - seen
        steps += 1
    return None


def watch_reloads(oracle, counts):
    """Counts what the other program's reloads do, from now on."""
    reload = oracle.Index.reload

    def watched(index, data, *more):
        old, names = index.records, index.list()
        made = reload(index, data, *more)
        if isinstance(made, oracle.Fault):
            return made
        if not old.settings_equal(index.records):
            counts['reload that changes a setting'] += 1
            return made
        counts['reload that changes no setting'] += 1
        for name in names:
            steps = steps_to_a_change(old, index.records, oracle.decode_utf8(name))
            counts['name that is not touched' if steps is None else f'name touched by {steps} steps'] += 1
        return made
    oracle.Index.reload = watched


def compared(asked):
    """How often each kind of line is given to the runs of a seed, and the runs whose answers differ."""
    folder, seed, count = asked
    sys.path.insert(0, folder)
    import model as oracle
    source, counts, different = random.Random(seed), collections.Counter(), []
    reload = oracle.Index.reload
    watch_reloads(oracle, counts)
    lines, is_cut, texts = random_records(source, oracle.read, lambda said: isinstance(said, oracle.Fault))
    with tempfile.TemporaryDirectory() as place:
        path = os.path.join(place, 'records')
        with open(path, 'wb') as file:
            file.write(('\n'.join(lines) + ('' if is_cut else '\n')).encode('utf-8', 'surrogateescape'))
        for _ in range(count):
            words, commands = random_words(source), random_commands(source, random_names(source, texts), lines)
            named = path if source.random() < 0.99 else path + '.none'
            right, given = right_answer(oracle, named, words, commands), given_answer(named, words, commands)
            counts.update(kinds(right))
            if right != given:
                different.append((lines, words, commands, right, given))
    oracle.Index.reload = reload
    return counts, different


def main(words):
    if not 1 <= len(words) <= 4 or not all(map(str.isdigit, words[1:])):
        sys.stderr.write(__doc__)
        return 2
    folder, runs, seed, processes = [*words, *['10000', '1', '2'][len(words) - 1:]]
    asked = [(folder, f'{seed} {start}', min(RUNS_A_FILE, int(runs) - start)) for start in range(0, int(runs), RUNS_A_FILE)]
    counts, different = collections.Counter(), 0
    with multiprocessing.Pool(int(processes)) as pool:
        for found, differing in pool.imap(compared, asked):
            counts += found
            different += len(differing)
            for fault in differing[:3] if different < 10 else []:
                print(*fault, sep='\n  ')
    for kind, count in counts.most_common(40):
        print(f'{kind}: {count}')
    print(f'{runs} runs, {different} differ')
    return different != 0


if __name__ == '__main__':
    sys.exit(main(sys.argv[1:]))
