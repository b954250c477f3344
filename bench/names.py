#!/usr/bin/env python3
"""Writes the input of a measurement to standard output.

  names.py adds COUNT    COUNT lines `add NAME`, each NAME of 20 random characters
  names.py bad COUNT     COUNT lines that are no command
  names.py marks COUNT   one line `add NAME`, NAME a letter and COUNT marks of two classes in turn
  names.py records       the classes and mappings of 150 Latin letters and marks, as Python's unicodedata has them
  names.py texts BYTES   lines of 5 to 30 random ones of these 150 characters, BYTES bytes in all at least
  names.py ascii BYTES   one line of so many ASCII letters and spaces

The names are the same at each call. Those of `adds` are of letters of examples/latin.records, small and capital, with
and without marks, the marks in the letter or behind it.
"""
import random
import sys
import unicodedata

LETTERS = 'abcdefghijklmnopqrstuvwxyz' * 4 + 'ABCDEFGHIJKLMNOPQRSTUVWXYZ' + 'àáâãäåçèéêëìíîïñòóôõöùúûü'
MARKS = '\u0300\u0301\u0302\u0308'
LENGTH = 20

ASCII = 'abcdefghijklmnopqrstuvwxyz'
LATIN_MARKS = '\u0300\u0301\u0302\u0303\u0304\u0306\u0307\u0308\u0309\u030A\u030B\u030C\u031B\u0323\u0327\u0328'


def is_marked(character):
    form = unicodedata.normalize('NFD', character)
    return len(form) > 1 and form[0] in ASCII and all(mark in LATIN_MARKS for mark in form[1:])


MARKED = [c for c in map(chr, range(0xE0, 0x180)) if is_marked(c)][:61] + ['\u01A1', '\u01B0']
MARKED += [c for c in map(chr, range(0x1EA0, 0x1F00)) if is_marked(c)]
LATIN = list(ASCII + LATIN_MARKS) + MARKED


def name(random_source):
    characters = []
    while len(characters) < LENGTH:
        characters.append(random_source.choice(LETTERS))
        if len(characters) < LENGTH and random_source.random() < 0.05:
            characters.append(random_source.choice(MARKS))
    return ''.join(characters)


def latin_names(random_source, size):
    while size > 0:
        line = ''.join(random_source.choices(LATIN, k=random_source.randint(5, 30)))
        size -= len(line.encode()) + 1
        yield line


def records():
    for mark in LATIN_MARKS:
        yield f'class {ord(mark):04X} {unicodedata.combining(mark)}'
    for letter in MARKED:
        yield f'map {ord(letter):04X} {unicodedata.decomposition(letter)}'


def lines(task, count):
    random_source = random.Random(20)
    if task == 'records':
        return records()
    if task == 'ascii':
        return [''.join(random_source.choices(ASCII + ' ', k=count))]
    if task == 'texts':
        return latin_names(random_source, count)
    if task == 'marks':
        return ['add a' + ('\u0301\u0327' * count)[:count]]
    return ('add ' + name(random_source) if task == 'adds' else 'bad line' for _ in range(count))


def main(words):
    tasks = ('adds', 'bad', 'marks', 'texts', 'ascii')
    is_good = words == ['records'] or len(words) == 2 and words[0] in tasks and words[1].isdigit()
    if not is_good:
        sys.stderr.write(__doc__)
        return 2
    count = int(words[1]) if len(words) == 2 else 0
    for line in lines(words[0], count):
        sys.stdout.buffer.write(line.encode() + b'\n')
    return 0


if __name__ == '__main__':
    sys.exit(main(sys.argv[1:]))
