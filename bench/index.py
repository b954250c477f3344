#!/usr/bin/env python3
"""Times `collate` and ICU4C's sort keys in a std::multimap on the same adds and finds, in turn:
index.py [NAMES..] [--instructions]

For each number of names (100,000 and 1,000,000 unless NAMES says otherwise) both programs get that many adds of random names of
5 to 30 characters, and then as many finds of the same names in another order. Printed are seconds of a processor, system calls
included, the least of three rounds, those of the adds alone first, and how many times ours ICU4C's are; what starting takes is
in them. With --instructions the same of millions of instructions, by callgrind, in place of times. The records are those of
bench/sets.py. `collate` is crates/collate/out/collate, or what COLLATE names; index.cpp is built first (g++, libicu-dev).
What both print must be the same number of lines.
"""
import os
import random
import re
import resource
import subprocess
import sys
import tempfile

from sets import latin as random_names, latin_records as records

ROOT = os.path.dirname(os.path.dirname(os.path.realpath(__file__)))
COLLATE = os.environ.get('COLLATE', os.path.join(ROOT, 'crates/collate/out/collate'))


def spent(command, commands_path, room):
    """Seconds of a processor that a program takes over commands, and how many lines it prints."""
    before = resource.getrusage(resource.RUSAGE_CHILDREN)
    replies = os.path.join(room, 'replies')
    with open(commands_path, 'rb') as commands, open(replies, 'wb') as out:
        subprocess.run(command, stdin=commands, stdout=out, check=True)
    after = resource.getrusage(resource.RUSAGE_CHILDREN)
    with open(replies, 'rb') as out:
        lines = out.read().count(b'\n')
    return after.ru_utime + after.ru_stime - before.ru_utime - before.ru_stime, lines


def write_commands(path, words, names):
    with open(path, 'w', encoding='utf-8') as out:
        for word, some in zip(words, names):
            out.writelines(f'{word} {name}\n' for name in some)


def counted(command, commands_path, room):
    """Millions of instructions that a program executes over commands."""
    line = ['valgrind', '--tool=callgrind', f'--callgrind-out-file={os.path.join(room, "callgrind")}', *command]
    with open(commands_path, 'rb') as commands:
        shown = subprocess.run(line, stdin=commands, stdout=subprocess.DEVNULL, stderr=subprocess.PIPE, check=True)
    return int(re.search(rb'Collected : (\d+)', shown.stderr).group(1)) / 1e6


def least_times(path, room, programs):
    """The least seconds of each program in three rounds, and the numbers of lines that they print."""
    least, printed = {}, set()
    for _ in range(3):
        for program, command in programs.items():
            seconds, lines = spent(command, path, room)
            least[program] = min(seconds, least.get(program, seconds))
            printed.add(lines)
    return least, printed


def show(count, title, found, unit):
    cells = ', '.join(f'{program} {number:.2f} {unit}' for program, number in found.items())
    print(f'{count} {title}: {cells}, ratio {found["ICU4C"] / found["collate"]:.2f}', flush=True)


def measure(count, room, programs, counts_instructions):
    names = random_names(count)
    sought = random.Random(7).sample(names, count)
    adds, both = os.path.join(room, 'adds'), os.path.join(room, 'both')
    write_commands(adds, ['add'], [names])
    write_commands(both, ['add', 'find'], [names, sought])
    for title, path in (('adds', adds), ('adds and finds', both)):
        if counts_instructions:
            found = {program: counted(command, path, room) for program, command in programs.items()}
            show(count, title, found, 'million instructions')
            continue
        least, printed = least_times(path, room, programs)
        show(count, title, least, 's')
        if title == 'adds' and len(printed) != 1:
            sys.exit(f'index.py: other numbers of lines: {sorted(printed)}')


def main(words):
    with tempfile.TemporaryDirectory() as room:
        peer, file = os.path.join(room, 'index'), os.path.join(room, 'records')
        subprocess.run(['g++', '-O2', os.path.join(ROOT, 'bench/index.cpp'), '-o', peer, '-licui18n', '-licuuc'], check=True)
        with open(file, 'w', encoding='utf-8') as out:
            out.writelines(line + '\n' for line in records())
        programs = {'collate': [COLLATE, file], 'ICU4C': [peer]}
        counts = [int(word) for word in words if word.isdigit()]
        for count in counts or [100000, 1000000]:
            measure(count, room, programs, '--instructions' in words)


if __name__ == '__main__':
    main(sys.argv[1:])
