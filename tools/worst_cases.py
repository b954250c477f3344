#!/usr/bin/env python3
"""Tries runs of the program `collate` whose names, commands and records someone chose so that they cost more than they weigh.

  worst_cases.py PROGRAM [ATTACK..]

Each attack is two runs of PROGRAM, an executable of crates/collate, and the second weighs at most twice what the first does.
Printed are what both cost and how many times the first the second costs; past 2.4 the attack has succeeded, and the status is
then 1. A run costs the instructions that it takes (callgrind), less those of the same run without its names: in millions. The
last attack costs memory, and its second run may need no more than its first: the most that is held, in KB. A run has to do
what the attack is for: where PROGRAM refuses the records or replies otherwise, the attack is none, and the status is 1 too.
With no ATTACK all are tried; a wrong word lists them.
"""
import os
import re
import subprocess
import sys
import tempfile

ROOT = os.path.dirname(os.path.dirname(os.path.realpath(__file__)))
MOST = 2.4
FILE_LIMIT, LINE_LIMIT = 1 << 20, 65536
LETTERS = 'abcdefghijklmnopqrstuvwxyz'
MARKS = {0x300: 230, 0x301: 230, 0x316: 220, 0x327: 202, 0x345: 240}
NAMED = (b'add ', b'find ', b'remove ', b'between ', b'key ')
OTHER_REPLIES = (b'bad', b'duplicate', b'absent', b'memory', b'refused')


def other_reply(out):
    """The first reply of a run that an attack is not to have, or None; the names that are listed behind a count are none."""
    lines, place = out.split(b'\n'), 0
    while place < len(lines):
        word, _, rest = lines[place].partition(b' ')
        if word in OTHER_REPLIES:
            return lines[place].decode()
        place += 1 + (int(rest) if word == b'names' else 0)
    return None


def records(*more):
    """Records of letters, digits and marks of several classes, with further lines."""
    lines = [f'class {c:04X} {n}' for c, n in MARKS.items() if c > 0x301]
    lines += [f'w {ord(c):04X} ; [{0x2A04 + 8 * place:04X}0000.0500.0.0500.0]' for place, c in enumerate(LETTERS)]
    lines += [f'w {c:04X} ; [0.{0x8600 + 0x200 * place:04X}.0.0500.0]' for place, c in enumerate(MARKS)]
    for n in range(10):
        lines += [f'w {0x30 + n:04X} ; [{0x2004 + 8 * n:04X}0000.0500.0.0500.0]', f'digit {0x30 + n:04X} {n}']
    return [*lines, *more]


def reload(lines):
    return '\n'.join([f'reload {len(lines)}', *lines])


def spelled(number, letters, width):
    """A number, written by letters."""
    digits = []
    for _ in range(width):
        number, digit = divmod(number, len(letters))
        digits.append(letters[digit])
    return ''.join(reversed(digits))


def scattered(count):
    """Different names of letters, in no order."""
    return [spelled(k * 7919 * 104729 % 26 ** 6, LETTERS, 6) for k in range(count)]


# Names of one hash, by what the hash is multiplied by for each byte: a short vector of the lattice of all vectors whose
# value at that factor is 0 gives two blocks of letters that stand for each other in any name.

def reduced(rows):
    """A basis of the same lattice whose vectors are short (Lenstra, Lenstra and Lovász; in whole numbers, after de Weger)."""
    rows, count = [list(row) for row in rows], len(rows)
    d, mu = [1] + [0] * count, [[0] * count for _ in range(count)]
    for i in range(count):
        for j in range(i + 1):
            value = sum(x * y for x, y in zip(rows[i], rows[j]))
            for k in range(j):
                value = (d[k + 1] * value - mu[i][k] * mu[j][k]) // d[k]
            if j < i:
                mu[i][j] = value
            else:
                d[i + 1] = value

    def take_off(i, j):
        times = (2 * mu[i][j] + d[j + 1]) // (2 * d[j + 1])
        if times:
            rows[i] = [x - times * y for x, y in zip(rows[i], rows[j])]
            mu[i][:j] = [x - times * y for x, y in zip(mu[i][:j], mu[j][:j])]
            mu[i][j] -= times * d[j + 1]

    at = 1
    while at < count:
        take_off(at, at - 1)
        if 4 * (d[at + 1] * d[at - 1] + mu[at][at - 1] ** 2) >= 3 * d[at] ** 2:
            for j in range(at - 2, -1, -1):
                take_off(at, j)
            at += 1
            continue
        rows[at], rows[at - 1] = rows[at - 1], rows[at]
        mu[at][:at - 1], mu[at - 1][:at - 1] = mu[at - 1][:at - 1], mu[at][:at - 1]
        lead, middle = mu[at][at - 1], (d[at - 1] * d[at + 1] + mu[at][at - 1] ** 2) // d[at]
        for i in range(at + 1, count):
            below = mu[i][at]
            mu[i][at] = (d[at + 1] * mu[i][at - 1] - lead * below) // d[at]
            mu[i][at - 1] = (middle * below + lead * mu[i][at]) // d[at + 1]
        d[at], at = middle, max(at - 1, 1)
    return rows


def fixed():
    """The point and the prime of the hash of a name, where no seed is chosen."""
    with open(os.path.join(ROOT, 'crates/collate_lists/src/hashing.rt'), encoding='utf-8') as file:
        text = file.read()
    prime, seed = (int(re.search(fr'{name}: u64 = ([0-9_]+);', text).group(1)) for name in ('PRIME', 'FIXED_SEED'))
    return seed % prime, prime


def blocks(by, modulus, length=12):
    """Two blocks of letters that change no hash where one stands in the place of the other."""
    rows = [[modulus] + [0] * (length - 1)] + [[-pow(by, i, modulus)] + [int(j == i) for j in range(1, length)] for i in range(1, length)]
    short = min(reduced(rows), key=lambda row: max(map(abs, row)))
    assert max(map(abs, short)) < len(LETTERS) and sum(x * by ** i for i, x in enumerate(short)) % modulus == 0
    return [''.join(LETTERS[max(0, sign * x)] for x in reversed(short)) for sign in (1, -1)]


def all_of(pair, count):
    """Adds, finds and removals of names that are made of two blocks."""
    names = [pair[0] * 5 + spelled(k, pair, 11) for k in range(count)]
    return records(), [], [f'{word} {name}' for word in ('add', 'find', 'remove') for name in names]


# The attacks: for each scale, 1 or 2, the records, the words of the command line, and the commands.

def one_hash(scale):
    return all_of(blocks(*fixed()), 300 * scale)


def one_fnv_hash(scale):
    """Of one hash where the bytes are multiplied by powers of FNV's factor, modulo 2^64."""
    return all_of(blocks(1_099_511_628_211, 1 << 64), 300 * scale)


def equal_keys(scale):
    names = ['e' + spelled(k, '\u0300\u0301', 12) for k in range(1000 * scale)]
    return records(), ['strength=primary'], [*(f'add {name}' for name in names), 'find e', *(f'remove {name}' for name in names)]


def shared_beginnings(scale):
    names = ['a' * 500 + spelled(k * 7919 % 1000003, LETTERS, 5) for k in range(300 * scale)]
    return records(), [], [f'{word} {name}' for word in ('add', 'find', 'remove') for name in names]


def classes_of_marks(scale):
    name = 'e' + ''.join(chr(c) for c in sorted(MARKS, key=lambda c: -MARKS[c])) * 3000 * scale
    return records(), [], [f'add {name}', f'find {name}', f'key {name}', f'between {name}\tz']


def digits(scale):
    names = ['1' * 30000 * scale, '0' * 30000 * scale + '1']
    return records(), ['numeric=on'], [f'{word} {name}' for word in ('add', 'find', 'key') for name in names]


def from_the_front(scale):
    names = scattered(3000 * scale)
    return records(), [], [*(f'add {name}' for name in names), *(f'remove {name}' for name in sorted(names))]


def as_they_arrived(scale):
    names = scattered(3000 * scale)
    return records(), [], [*(f'add {name}' for name in names), *(f'remove {name}' for name in names)]


def expansions(scale):
    elements = ' '.join(f'[{0x5004 + 8 * k:04X}0000.0500.0.0500.0]' for k in range(8))
    names = [letter + '\u2460' * 10000 * scale for letter in 'ab']
    return records(f'w 2460 ; {elements}'), [], [f'{word} {name}' for word in ('add', 'find', 'key') for name in names]


def full_lists(scale):
    """A character whose full list has eight others, in seven steps."""
    steps = [f'map {0x2461 + k:04X} {0x2462 + k:04X} 0300' for k in range(6)] + ['map 2467 0061 0300']
    names = [letter + '\u2461' * 10000 * scale for letter in 'ab']
    return records(*steps), [], [f'{word} {name}' for word in ('add', 'find', 'key') for name in names]


def over_all(scale):
    names = scattered(2000 * scale)
    return records(), [], [*(f'add {name}' for name in names), *['between a\tzzzzzzzz'] * 20, *['list'] * 20]


def chain_lines(first, length):
    return [f'map {first + k:04X} {first + k + 1:04X}' for k in range(length)]


CHANGED = 'w 0021 ; [0.F800.0.0500.0]'


def chain(scale):
    """A name of a character that a chain of mappings leads on from, and a reload that changes another character."""
    lines = records(*chain_lines(0x1000, 40 * scale))
    return lines, [], [f'add {chr(0x1000) * 2000 * scale}', reload([*lines, CHANGED])]


def chain_past_the_first_plane(scale):
    lines = records(*chain_lines(0x10400, 40 * scale))
    return lines, [], [f'add {chr(0x10400) * 2000 * scale}', reload([*lines, CHANGED])]


def chain_of_named(scale):
    """Names of each character of a chain, and a reload that changes another character."""
    length = 45 * scale
    lines = records(*chain_lines(0x1000, length))
    names = [chr(0x1000 + k) * 40 for k in range(length)]
    return lines, [], [*(f'add {name}' for name in names), reload([*lines, CHANGED])]


def contractions_of_named(scale):
    """Names of the letters of contractions, and a reload that leaves one of these out."""
    texts = [' '.join(f'{ord(c):04X}' for c in spelled(k, LETTERS, 3)) for k in range(450 * scale)]
    lines = records(*(f'w {text} ; [2A040000.0500.0.0500.0]' for text in texts))
    return lines, [], [*(f'add {name}' for name in scattered(300 * scale)), reload(lines[:-1])]


def unchanged(scale):
    """Reloads of the same records, after the names have arrived; they weigh little beside the names."""
    lines = records()
    return lines, [], [*(f'add {name}' for name in scattered(10000)), *[reload(lines)] * (10 * (scale - 1))]


def unnamed_changed(scale):
    """The same, where each reload changes a character that no name has."""
    lines = records()
    loads = [reload([*lines, CHANGED]), reload(lines)] * (5 * (scale - 1))
    return lines, [], [*(f'add {name}' for name in scattered(10000)), *loads]


def all_touched(scale):
    """A reload that gives each name another key."""
    lines = records()
    return lines, [], [*(f'add {name}' for name in scattered(2000 * scale)), reload([*lines, 'set backward on'])]


def long_file(scale):
    """A reload of as many bytes as a file may have, and of forty times as many."""
    line = '#' * (LINE_LIMIT - 1)
    return records(), [], [reload([line] * (FILE_LIMIT // LINE_LIMIT * (1 if scale == 1 else 40)))]


ATTACKS = [one_hash, one_fnv_hash, equal_keys, shared_beginnings, classes_of_marks, digits, from_the_front, as_they_arrived, expansions, full_lists,
           over_all, chain, chain_past_the_first_plane, chain_of_named, contractions_of_named, unchanged, unnamed_changed, all_touched, long_file]


class NoAttack(Exception):
    """Why a run isn't what its attack is for."""


class Trial:
    """A program that is tried, and a folder for what it reads."""

    def __init__(self, program, room):
        self.program, self.file = program, os.path.join(room, 'records')
        self.commands, self.counts = os.path.join(room, 'commands'), os.path.join(room, 'counts')
        self.bare = {}

    def line(self, lines, words, commands):
        """The command line of a run, whose files are written."""
        with open(self.file, 'w', encoding='utf-8') as out:
            out.writelines(f'{line}\n' for line in lines)
        with open(self.commands, 'w', encoding='utf-8') as out:
            out.writelines(f'{command}\n' for command in commands)
        return [self.program, self.file, *words]

    def instructions(self, lines, words, commands):
        line = ['valgrind', '--tool=callgrind', f'--callgrind-out-file={self.counts}', *self.line(lines, words, commands)]
        with open(self.commands, 'rb') as given:
            run = subprocess.run(line, stdin=given, stdout=subprocess.PIPE, stderr=subprocess.PIPE, check=False)
        if run.returncode:
            raise NoAttack(run.stderr.decode().splitlines()[-1])
        if other := other_reply(run.stdout):
            raise NoAttack(f'the reply {other}')
        return int(re.search(rb'Collected : (\d+)', run.stderr).group(1)) / 1e6

    def most_memory(self, lines, words, commands):
        """The most bytes, in KB, that a run requests and hasn't freed (tools/count_memory.c)."""
        library, counted = self.counts + '.so', self.counts + '.held'
        source = os.path.join(ROOT, 'tools/count_memory.c')
        subprocess.run(['cc', '-O2', '-Wall', '-shared', '-fPIC', '-o', library, source], check=True)
        line = self.line(lines, words, [*commands, '?'])
        with open(self.commands, 'rb') as given:
            environment = {**os.environ, 'LD_PRELOAD': library, 'COUNTED': counted}
            subprocess.run(line, stdin=given, stdout=subprocess.DEVNULL, env=environment, check=True)
        with open(counted, encoding='ascii') as counts:
            return int(counts.read().split()[-1]) / 1e3

    def cost(self, attack, scale):
        lines, words, commands = attack(scale)
        if attack is long_file:
            return self.most_memory(lines, words, commands)
        bare = [command for command in commands if not command.encode().startswith(NAMED)]
        given = tuple(map(tuple, (lines, words, bare)))
        if given not in self.bare:
            self.bare[given] = self.instructions(*given)
        return self.instructions(lines, words, commands) - self.bare[given]


def main(words):
    known = {attack.__name__: attack for attack in ATTACKS}
    if not words or not set(words[1:]) <= set(known):
        sys.stderr.write(f'{__doc__}\nattacks: {" ".join(known)}\n')
        return 2
    successes = failures = 0
    with tempfile.TemporaryDirectory() as room:
        trial = Trial(words[0], room)
        for name in words[1:] or known:
            try:
                first, second = (trial.cost(known[name], scale) for scale in (1, 2))
            except NoAttack as other:
                failures += 1
                print(f'{name:28}it is no attack: {other}', flush=True)
                continue
            ratio = second / first
            successes += ratio > MOST
            print(f'{name:28}{first:10.1f}{second:10.1f}{ratio:7.2f}{"  it costs more than it weighs" if ratio > MOST else ""}', flush=True)
    print(f'{successes} attacks of {len(words[1:] or known)} succeed, {failures} are none')
    return successes + failures > 0


if __name__ == '__main__':
    sys.exit(main(sys.argv[1:]))
