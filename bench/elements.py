#!/usr/bin/env python3
"""Times the reading of collation elements and the check of tables, by the program of crates/speed: elements.py [NAMES]

The elements are read over the letters of the worked rows: 200,000 random names unless NAMES says otherwise, of 5 to 30
characters each, eight letters with weights, other Latin letters, and marks in and behind letters. The tables that are
checked name 150 characters: letters, marks, and contractions and prefixes of letters. Each is the best of so many rounds, by
processor time; the program is built first where it has to be.

Then how often a round of reading asks for memory, as valgrind counts: eleven rounds less one, over 2,000 names of 5 to 30
characters, and, so that it is seen to count, over as many of 100.
"""
import os
import random
import re
import subprocess
import sys
import tempfile

ROOT = os.path.dirname(os.path.dirname(os.path.realpath(__file__)))
FOLDER = os.path.join(ROOT, 'crates/speed')
PROGRAM = os.environ.get('SPEED', os.path.join(FOLDER, 'out/speed'))
LETTERS = [('0061', '2A10'), ('0062', '2A20'), ('0063', '2A30'), ('0065', '2A50'), ('0068', '2A80'), ('006C', '2AC0'),
           ('006F', '2AF0'), ('0074', '2B40')]
MARKS = [('0301', '8800', 230), ('0302', '8A00', 230), ('0323', '8C00', 220)]
MAPPED = ['map 00E1 0061 0301', 'map 1EA1 0061 0323']
ROUNDS = 20
COUNTED_NAMES = 2000
COUNTED_ROUNDS = 10


def letters():
    """The records of the worked rows."""
    return ['class 0302 230', 'class 0323 220', *MAPPED, *(f'w {c} ; [{p}0000.0500.0.0500.0]' for c, p in LETTERS),
            *(f'w {c} ; [0.{s}.0.0500.0]' for c, s, _ in MARKS)]


def many():
    """Records that name 150 characters."""
    source = random.Random(1)
    chars = [*range(0x41, 0x5B), *range(0x61, 0x7B), *range(0x391, 0x3C1), *range(0x410, 0x410 + 41)]
    marks = range(0x300, 0x300 + 150 - len([c for c in chars if c != 0x3A2]))
    chars = [c for c in chars if c != 0x3A2]
    lines = [f'class {c:04X} 230' for c in marks]
    lines += [f'w {c:04X} ; [{0x2A04 + i:04X}0000.0500.0.0500.0]' for i, c in enumerate(chars)]
    lines += [f'w {c:04X} ; [0.{0x80 + i:02X}00.0.0500.0]' for i, c in enumerate(marks)]
    for i in range(150):
        text = source.sample(chars, 2)
        lines.append(f'w {text[0]:04X} {text[1]:04X} ; [2B{4 + i:02X}0000.0500.0.0500.0] [0.9000.0.0500.0]')
    for i in range(60):
        before, c = source.sample(chars, 2)
        lines.append(f'w {before:04X} | {c:04X} ; [2C{4 + i:02X}0000.0500.0.0500.0]')
    return list(dict((line.split(' ;')[0], line) for line in lines).values())


def names(count, shortest=5, longest=30):
    """Random names, the same each time."""
    source = random.Random(1)
    plain = [chr(int(c, 16)) for c, _ in LETTERS] * 3 + list('dfgikmnprs')
    accented = ['\u00E1', '\u1EA1']
    marks = [chr(int(c, 16)) for c, _, _ in MARKS]
    everything = plain * 3 + accented * 4 + marks * 4
    return [''.join(source.choices(everything, k=source.randint(shortest, longest))) for _ in range(count)]


def write(folder, name, lines):
    with open(os.path.join(folder, name), 'w') as file:
        file.write(''.join(f'{line}\n' for line in lines))


def requests(folder, file, rounds):
    """How often the program asks for memory while it reads elements."""
    line = [os.path.join(folder, 'letters'), os.path.join(folder, file), 'elements', str(rounds)]
    shown = subprocess.run(['valgrind', PROGRAM, 'collator', *line], stdout=subprocess.DEVNULL, stderr=subprocess.PIPE, check=True).stderr.decode()
    return int(re.search(r'total heap usage: ([\d,]+) allocs', shown).group(1).replace(',', ''))


def show_requests(folder, file):
    """Prints how often a round asks for memory."""
    added = requests(folder, file, 1 + COUNTED_ROUNDS) - requests(folder, file, 1)
    print(f'{file} allocations a round: {added / COUNTED_ROUNDS:g}')


def main(words):
    if len(words) > 1 or not all(map(str.isdigit, words)):
        sys.stderr.write(__doc__)
        return 2
    if PROGRAM.startswith(FOLDER):
        subprocess.run(['rt', 'run'], cwd=FOLDER, stdout=subprocess.DEVNULL, stderr=subprocess.DEVNULL)
    with tempfile.TemporaryDirectory() as folder:
        write(folder, 'letters', letters())
        write(folder, 'many', many())
        write(folder, 'names', names(int(words[0]) if words else 200000))
        for records, task in (('letters', 'elements'), ('letters', 'numeric_elements'), ('letters', 'try_new'), ('many', 'try_new')):
            line = [os.path.join(folder, records), os.path.join(folder, 'names'), task, str(ROUNDS)]
            shown = subprocess.run([PROGRAM, 'collator', *line], stdout=subprocess.PIPE, check=True).stdout.decode()
            print(records, shown.strip())
        write(folder, 'short_names', names(COUNTED_NAMES))
        write(folder, 'long_names', names(COUNTED_NAMES, 100, 100))
        for file in ('short_names', 'long_names'):
            show_requests(folder, file)
    return 0


if __name__ == '__main__':
    sys.exit(main(sys.argv[1:]))
