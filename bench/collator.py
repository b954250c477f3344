#!/usr/bin/env python3
"""Measures sort keys and comparisons beside ICU4C's: collator.py [NAMES..] [--instructions] [--requests] [SET..]

Printed is a row for each set of bench/sets.py, or of those that are named: keys, keys beside those that ICU4C makes of
names that are in UTF-16 already, comparisons of random pairs, and of neighbours. ICU4C's other keys count the conversion
from UTF-8.

With --instructions: instructions of each, by callgrind over 2,000 names, in the second of two rounds, ours:ICU4C's =
ICU4C's by ours. Else millions a second of a processor, ours:ICU4C's = ours by ICU4C's, of 200,000 names unless NAMES
says otherwise (fewer where the set has no more): the program of crates/speed and ICU4C (bench/icu4c.cpp) take
turns, five times, each with ten rounds over 200,000 names and more over fewer; the best round of a turn counts, since on a
host with other guests most rounds are slow, and of the turns the median. Above 1 is ahead in both.

With --requests: how often a round of keys and comparisons asks for memory, as valgrind counts: eleven rounds less one, over
2,000 Latin names of 5 to 30 characters, and, so that it is seen to count, over as many of 100 characters.

The program is built first where it has to be, but where SPEED names one, as tools/build_hinted.sh makes it;
ICU4C's by g++, with libicu-dev.
"""
import glob
import itertools
import os
import re
import statistics
import subprocess
import sys
import tempfile

from sets import ROOT, SETS, latin, latin_records, root_records

FOLDER = os.path.join(ROOT, 'crates/speed')
PROGRAM = os.environ.get('SPEED', os.path.join(FOLDER, 'out/speed'))
TASKS = ['keys', 'cmp_random', 'cmp_near']
TITLES = ['keys', 'keys, from UTF-16', 'random pairs', 'neighbours']
# The functions that are a round of ours and of ICU4C's, and what both call before and after one.
OUR_ROUNDS, THEIR_ROUNDS = ['*speed::write_keys*', '*speed::compare_pairs*'], ['*work_a_round*']
CLOCK = '*clock_gettime*'
# The columns of a row: its name, and a cell for each title.
WIDTHS = [30, 20, 20, 19, 19]
TURNS = 5
ROUNDS_OF_NAMES = 2_000_000
COUNTED_NAMES = 2000
COUNTED_ROUNDS = 10


def write(folder, name, lines, encoding='utf-8'):
    path = os.path.join(folder, name)
    with open(path, 'wb') as file:
        file.write(''.join(f'{line}\n' for line in lines).encode(encoding))
    return path


def by_list(said, lists):
    """What is said of tasks, a dictionary for each of so many lists of names."""
    size = len(said) // lists
    return [dict(said[at:at + size]) for at in range(0, len(said), size)]


class Measured:
    """Sets over the same records, whose names and records stand in files: ours measures them all over the same tables."""

    def __init__(self, folder, peer, chosen, count):
        self.chosen, self.peer, first = chosen, peer, chosen[0]
        self.count = min(count, first.most)
        names = [one.names(self.count) for one in chosen]
        self.peers_names = [write(folder, f'{one.title}.{self.count}', some) for one, some in zip(chosen, names)]
        encoding = 'utf-16-le' if first.task.endswith('16') else 'utf-8'
        self.names = write(folder, 'names', ['\n\n'.join('\n'.join(some) for some in names)], encoding)
        self.records = write(folder, 'records', first.records())

    def commands(self, rounds):
        """What measures the sets: ours, and ICU4C's for each."""
        first = self.chosen[0]
        return ([PROGRAM, 'collator', self.records, self.names, first.task, str(rounds), *first.options],
                [[self.peer, names, one.locale, one.task, str(rounds), *one.peer_options]
                 for one, names in zip(self.chosen, self.peers_names)])

    def said(self, rounds):
        """What ours and ICU4C's say of each set: how many a second of each task."""
        ours, peers = self.commands(rounds)
        return by_list(speeds(ours), len(peers)), [dict(speeds(peer)) for peer in peers]

    def timed(self):
        """What each does in a second, in millions, for each set."""
        turns = [self.said(max(3, ROUNDS_OF_NAMES // self.count)) for _ in range(TURNS)]
        return [[{task: statistics.median(turn[who][at][task] for turn in turns) / 1e6 for task in turns[0][who][at]}
                 for who in range(2)]
                for at in range(len(self.chosen))]

    def counted(self, folder):
        """Instructions of each task by each, a name or pair, for each set."""
        ours, peers = self.commands(2)
        own = by_list(instructions(folder, ours, OUR_ROUNDS), len(peers))
        return [[{task: number / (self.count - (task == 'cmp_near')) for task, number in one.items()} for one in both]
                for both in zip(own, [dict(instructions(folder, peer, THEIR_ROUNDS)) for peer in peers])]


def speeds(command):
    """What a program says of its tasks, in their order."""
    said = subprocess.run(command, stdout=subprocess.PIPE, check=True).stdout.decode()
    return [(line.split()[0], int(line.split()[1])) for line in said.splitlines()]


def instructions(folder, command, rounds):
    """The instructions of a program in the second round of each of its tasks."""
    with tempfile.TemporaryDirectory(dir=folder) as counts:
        words = [f'--callgrind-out-file={counts}/of', f'--dump-after={CLOCK}', *(f'--toggle-collect={one}' for one in rounds)]
        line = ['valgrind', '--tool=callgrind', *words, *command]
        ran = subprocess.run(line, stdout=subprocess.PIPE, stderr=subprocess.PIPE, check=True)
        tasks = [said.split()[0] for said in ran.stdout.decode().splitlines()]
        dumps = sorted(glob.glob(f'{counts}/of.*'), key=lambda path: int(path.rsplit('.', 1)[1]))
        found = [count for count in map(total, dumps) if count]
        if len(found) != 2 * len(tasks):
            sys.exit(f'{command[0]}: {len(found)} rounds seen of {len(tasks)} tasks')
        return list(zip(tasks, found[1::2]))


def total(dump):
    """How many instructions a file of callgrind counts."""
    with open(dump, encoding='utf-8', errors='replace') as file:
        return int(re.search(r'^(?:totals|summary): (\d+)', file.read(), re.M).group(1))


def show_row(title, cells):
    print('    ' + '  '.join(f'{cell:{width}}' for cell, width in zip([title, *cells], WIDTHS)).rstrip(), flush=True)


def pairs(ours, peers):
    """Ours and ICU4C's of each column."""
    return [(ours['keys'], peers['keys']), (ours['keys'], peers.get('keys_units', peers['keys'])),
            *((ours[task], peers[task]) for task in TASKS[1:])]


def show_times(measured):
    """Prints the rows of the sets' times."""
    for one, found in zip(measured.chosen, measured.timed()):
        cells = [f'{own:.3g}:{theirs:.3g} = {own / theirs:.2f}' for own, theirs in pairs(*found)]
        show_row(f'{one.title}, {measured.count:,} names', cells)


def show_instructions(folder, measured):
    """Prints the rows of the sets' instructions."""
    for one, found in zip(measured.chosen, measured.counted(folder)):
        cells = [f'{own:,.0f}:{theirs:,.0f} = {theirs / own:.2f}' for own, theirs in pairs(*found)]
        show_row(one.told, cells)


def requests(said, given, rounds):
    """How often the program asks for memory in so many rounds."""
    line = ['valgrind', PROGRAM, 'collator', said, given, 'names', str(rounds)]
    shown = subprocess.run(line, stdout=subprocess.DEVNULL, stderr=subprocess.PIPE, check=True).stderr.decode()
    return int(re.search(r'total heap usage: ([\d,]+) allocs', shown).group(1).replace(',', ''))


def show_requests(said, given):
    """Prints how often a round asks for memory."""
    added = requests(said, given, 1 + COUNTED_ROUNDS) - requests(said, given, 1)
    print(f'{os.path.basename(given)} allocations a round: {added / COUNTED_ROUNDS:g}')


def measure(folder, counts, chosen, counts_instructions):
    """Prints the table of the chosen sets."""
    peer = os.path.join(folder, 'icu4c')
    subprocess.run(['g++', '-O2', os.path.join(ROOT, 'bench/icu4c.cpp'), '-o', peer, '-licui18n', '-licuuc'], check=True)
    show_row('Names', TITLES)
    for _, alike in itertools.groupby(chosen, lambda one: one.records if one.records is root_records else one):
        alike = list(alike)
        if counts_instructions:
            show_instructions(folder, Measured(folder, peer, alike, COUNTED_NAMES))
            continue
        for count in counts:
            show_times(Measured(folder, peer, alike, count))


def main(words):
    counts = [int(word) for word in words if word.isdigit()]
    options = [word for word in words if word.startswith('--')]
    titles = [word for word in words if not word.isdigit() and word not in options]
    chosen = [one for one in SETS if one.title in titles] if titles else SETS
    is_good = set(options) <= {'--instructions', '--requests'}
    if not is_good or not set(titles) <= {one.title for one in SETS}:
        sys.stderr.write(__doc__)
        return 2
    if PROGRAM.startswith(FOLDER):
        subprocess.run(['rt', 'run'], cwd=FOLDER, stdout=subprocess.DEVNULL, stderr=subprocess.DEVNULL)
    with tempfile.TemporaryDirectory() as folder:
        if '--requests' in options:
            said = write(folder, 'records', latin_records())
            show_requests(said, write(folder, 'short', latin(COUNTED_NAMES)))
            show_requests(said, write(folder, 'long', latin(COUNTED_NAMES, 100, 100)))
        else:
            measure(folder, counts or [200000], chosen, '--instructions' in options)
    return 0


if __name__ == '__main__':
    sys.exit(main(sys.argv[1:]))
