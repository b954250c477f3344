#!/usr/bin/env python3
"""How what one long name costs grows with its length, by instructions, where an enemy chose the name and the records.

    tools/hostile_texts.py COLLATE [SPEED] [--only SHAPE..] [--seconds N]

COLLATE is an executable of `collate`: a name of 16, 32 and 64 KB is asked for its key. SPEED is one of `speed`: two
such names are compared, alike but for their last character (`alike`), and with an ignorable character before one of them, so
that both are read from there on (`apart`); and the elements of one are read. It fails where a name twice as long takes more
than 2.4 times the instructions, or a run more than N seconds (100) under valgrind, or answers otherwise than with a key, an
order or elements. Needs valgrind.
"""
import argparse
import os
import re
import subprocess
import sys
import tempfile

MOST = 2.4
KILOBYTES = (16, 32, 64)
ROUNDS = (1, 3)
IGNORED = 'w 0078 ;'
# What SPEED is asked: the task, the lines that it does it over, of a name, and how its answer begins.
TASKS = {
    'alike': ('random', lambda name: [f'{name}a', f'{name}b'], b'cmp_random '),
    'apart': ('random', lambda name: [f'{name}a', f'x{name}b'], b'cmp_random '),
    'elements': ('elements', lambda name: [f'{name}a'], b'elements '),
}
MARKS = [chr(c) for c in range(0x1AB0, 0x1AB0 + 128)]
LETTERS = ['w 0061 ; [2A100000.0500.0.0500.0]', 'w 0062 ; [2A200000.0500.0.0500.0]', 'w 0063 ; [2A300000.0500.0.0500.0]']


def hexadecimal(text):
    return ' '.join(f'{ord(c):04X}' for c in text)


def ignored(*texts):
    return [f'w {hexadecimal(text)} ;' for text in texts]


def classes(marks):
    """Marks of classes that rise from 1 on, each with a weight."""
    return [f'class {ord(c):04X} {i + 1}' for i, c in enumerate(marks)] + [
        f'w {ord(c):04X} ; [0.{0x8802 + i:04X}.0.0500.0]' for i, c in enumerate(marks)]


def repeated(text):
    """So many characters, those of a text one after another."""
    return lambda n: (text * (n // len(text) + 1))[:n]


def in_turn(text):
    """As many of each character of a text, all of one before those of the next."""
    return lambda n: ''.join(c * (n // len(text)) for c in text)


def runs(letter, marks):
    """Letters with so many marks behind each."""
    return repeated(letter + marks)


GRAVE, ACUTE, TILDE, DOT = '\u0300', '\u0301', '\u0303', '\u0307'
ONE = ['class 0303 230', 'w 0303 ; [0.8800.0.0500.0]', 'w 0301 ; [0.9000.0.0500.0]'] + LETTERS
MANY = classes(MARKS)
EIGHT = MARKS[:8]
A, B = MARKS[0], MARKS[1]

# Records, and the name of so many characters; those of marks take two bytes each, or three, so that it has as many bytes.
SHAPES = {
    'one class, none joins': (ONE + ignored(TILDE + ACUTE), repeated(TILDE)),
    'one class, each joins': (ONE + ignored(TILDE + TILDE), repeated(TILDE)),
    'one class, eight join': (ONE + ignored(*(TILDE * n for n in range(2, 9))), repeated(TILDE)),
    'one class, in turn': (ONE + ignored(TILDE + ACUTE), repeated(TILDE + ACUTE)),
    'two classes, each joins': (classes([A, B]) + ignored(A + B), in_turn(A + B)),
    'two classes, not in order': (classes([A, B]) + ignored(A + B), repeated(B + A)),
    'two classes, letters between': (classes([A, B]) + LETTERS + ignored(A + B), runs('a', A * 40 + B * 40)),
    'many classes, the next joins': (MANY + ignored(*(a + b for a, b in zip(MARKS, MARKS[1:]))), in_turn(''.join(MARKS))),
    'many classes, the last joins': (MANY + ignored(*(a + MARKS[-1] for a in MARKS[:-1])), in_turn(''.join(MARKS))),
    'many classes, none joins': (MANY + ignored(*(a + MARKS[-1] for a in MARKS[:-1])), in_turn(''.join(MARKS[:-1]))),
    'eight classes, all join': (classes(EIGHT) + ignored(*(''.join(EIGHT[:n]) for n in range(2, 9))), in_turn(''.join(EIGHT))),
    'a letter before the run': (ONE + ignored('a' + ACUTE, 'a' + TILDE, TILDE + ACUTE), lambda n: 'a' + TILDE * (n - 1)),
    'letters with marks': (ONE + ignored('a' + ACUTE, TILDE + ACUTE), runs('a', TILDE * 31)),
    'letters with more marks': (ONE + ignored('a' + ACUTE, TILDE + ACUTE), runs('a', TILDE * 33)),
    'special marks': (ONE + ['class FFFE 230'] + ignored(TILDE + ACUTE), repeated(TILDE + '\ufffe')),
    'dots above': ([f'class {c:04X} 230' for c in range(0x302, 0x308)] + [
        f'w {c:04X} ; [0.{0x8800 + (c - 0x300) * 0x100:04X}.0.0500.0]' for c in range(0x300, 0x308)] + [
        'set dotabove on', 'w 0308 0301 ;'], repeated('\u0308' + DOT)),
    'letters that join': (LETTERS + ignored(*('a' * n for n in range(2, 9))), repeated('a')),
    'letters that nearly join': (LETTERS + ignored('aaaaaaab'), repeated('a')),
    'prefixes': (LETTERS + ['w 0062 0062 0062 | 0061 ; [2A400000.0500.0.0500.0]'], repeated('bbba')),
}


def name_of(make, kilobytes):
    """A name of so many bytes, or a few less."""
    width = len(make(4096).encode()) / len(make(4096))
    return make(int((kilobytes * 1024 - 16) / width))


class Measured:
    """Programs, and how often they are asked."""

    def __init__(self, given, folder):
        self.given, self.folder = given, folder

    def write(self, name, text):
        path = os.path.join(self.folder, name)
        with open(path, 'w', encoding='utf-8') as file:
            file.write(text)
        return path

    def instructions(self, words, lines, answer):
        """What a run takes whose answer is of a form; None where it takes too long."""
        try:
            run = subprocess.run(['valgrind', '--tool=callgrind', '--callgrind-out-file=/dev/null', *words],
                                 input=lines.encode(), capture_output=True, timeout=self.given.seconds)
        except subprocess.TimeoutExpired:
            return None
        found = re.search(rb'Collected : (\d+)', run.stderr)
        if found is None or run.returncode or not re.fullmatch(answer, run.stdout):
            sys.exit(f'hostile_texts: {words}: {run.stdout[:200]} {run.stderr[-400:]}')
        return int(found.group(1))

    def key(self, records, name):
        """What the key of a name takes, less that of a name of one character."""
        asked = [self.instructions([self.given.collate, records], f'key {text}\n', rb'[0-9a-f]+\n') for text in ('a', name)]
        return None if None in asked else asked[1] - asked[0]

    def task(self, records, name, title):
        """What one round of a task takes."""
        task, lines, answer = TASKS[title]
        names = self.write('names', ''.join(f'{line}\n' for line in lines(name)))
        asked = [self.instructions([self.given.speed, 'collator', records, names, task, str(n)], '', answer + rb'.*\n') for n in ROUNDS]
        return None if None in asked else (asked[1] - asked[0]) / (ROUNDS[1] - ROUNDS[0])

    def grows(self, title, ask):
        """Prints what lengths take, and tells whether each is within what it may be."""
        last, row, good = None, [], True
        for kilobytes in KILOBYTES:
            count = ask(kilobytes)
            if count is None:
                row.append(f'{kilobytes} KB: over {self.given.seconds} s')
                good = False
                break
            row.append(f'{kilobytes} KB: {count / 1e6:.1f} M' + (f' ({count / last:.2f})' if last else ''))
            good = good and (last is None or count <= MOST * last)
            last = count
            if not good:
                break
        print(f'{title:40} {"" if good else "PAST 2.4  "}{"  ".join(row)}', flush=True)
        return good

    def shape(self, title):
        lines, make = SHAPES[title]
        records = self.write('records', '\n'.join([*lines, IGNORED]) + '\n')
        good = self.grows(f'{title}: key', lambda kilobytes: self.key(records, name_of(make, kilobytes)))
        for task in TASKS if self.given.speed else []:
            good = self.grows(f'{title}: {task}', lambda kilobytes: self.task(records, name_of(make, kilobytes), task)) and good
        return good


def main():
    parser = argparse.ArgumentParser()
    parser.add_argument('collate')
    parser.add_argument('speed', nargs='?')
    parser.add_argument('--only', choices=SHAPES, nargs='+', default=SHAPES, metavar='SHAPE')
    parser.add_argument('--seconds', type=int, default=100)
    given = parser.parse_args()
    with tempfile.TemporaryDirectory() as folder:
        measured = Measured(given, folder)
        good = [measured.shape(title) for title in given.only]
    sys.exit(0 if all(good) else 1)


main()
