#!/usr/bin/env python3
"""Compares the order by records that tools/make_records.py makes with Perl's Unicode::Collate over the same table, by hand.

  compare_perl.py [NAMES [SEED [CHARACTERS]]]

There are 2,000 random names of letters, marks, digits and what stands between words, from CHARACTERS, or those of the alphabet
`latin`; nothing is shifted. Each has a key by `collate` (crates/collate/out/collate, or the executable that COLLATE names) and
one by Perl, both of three levels; neighbours in Perl's order have to be below or equal by the keys of `collate` alike. What
differs is printed; the status is then 1.
"""
import os
import random
import subprocess
import sys
import tempfile

import make_records
from alphabets import ALPHABETS
from unicode_tables import FOLDER

ROOT = os.path.dirname(os.path.dirname(os.path.realpath(__file__)))
PROGRAM = os.environ.get('COLLATE', os.path.join(ROOT, 'crates/collate/out/collate'))
PERL = r"""
use Unicode::Collate;
binmode STDIN, ':encoding(UTF-8)';
my $collator = Unicode::Collate->new(table => 'allkeys.txt', level => 3, variable => 'non-ignorable');
while (<STDIN>) { chomp; print unpack('H*', $collator->getSortKey($_)), "\n"; }
"""


def random_names(characters, count, seed):
    """Different names, some of a few characters that come again and again."""
    source = random.Random(seed)
    names = {}
    while len(names) < count:
        pool = source.choice([characters, source.sample(characters, 4)])
        names[''.join(source.choice(pool) for _ in range(source.randint(1, 6)))] = None
    return list(names)


def keys_by_program(records, names):
    """The keys of the names by records."""
    with tempfile.NamedTemporaryFile('w', suffix='.records') as file:
        file.write(records)
        file.flush()
        commands = ''.join(f'key {name}\n' for name in names)
        try:
            answer = subprocess.run([PROGRAM, file.name], input=commands, stdout=subprocess.PIPE, text=True, check=True)
        except FileNotFoundError:
            sys.exit(f'{os.path.basename(sys.argv[0])}: there is no {PROGRAM}: ./collate builds it')
    return [bytes.fromhex(key) for key in answer.stdout.split('\n')[:-1]]


def keys_by_perl(names):
    """The keys of the names by Unicode::Collate, over the table of Debian's unicode-data."""
    with tempfile.TemporaryDirectory() as folder:
        os.makedirs(f'{folder}/Unicode/Collate')
        os.symlink(os.path.join(FOLDER, 'allkeys.txt'), f'{folder}/Unicode/Collate/allkeys.txt')
        answer = subprocess.run(['perl', f'-I{folder}', '-e', PERL], input=''.join(f'{name}\n' for name in names),
                                stdout=subprocess.PIPE, text=True, check=True)
    return [bytes.fromhex(key) for key in answer.stdout.split('\n')[:-1]]


def records_of(characters):
    """A records file of characters alone."""
    answer = subprocess.run([f'{ROOT}/tools/make_records.py', characters], stdout=subprocess.PIPE, text=True, check=True)
    return answer.stdout


def is_below(keys, one, other):
    """Whether a key is below another, and whether it is equal."""
    return keys[one] < keys[other], keys[one] == keys[other]


def are_alike(title, names, ours, theirs):
    """Whether neighbours in the order of their keys are so by ours; what differs is printed."""
    order = sorted(range(len(names)), key=theirs.__getitem__)
    pairs = list(zip(order, order[1:]))
    wrong = [(one, other) for one, other in pairs if is_below(ours, one, other) != is_below(theirs, one, other)]
    for one, other in wrong:
        print('differ:', ascii(names[one]), ascii(names[other]))
    equal = sum(theirs[one] == theirs[other] for one, other in pairs)
    print(f'{title}: {len(names)} names, {equal} neighbours equal, {len(wrong)} differ')
    return not wrong


def main(words):
    count, seed = (int(word) for word in (words + ['2000', '1'][len(words):])[:2])
    text = words[2] if len(words) > 2 else ALPHABETS['latin'].characters
    tables = make_records.Tables()
    named = make_records.Choice(tables, make_records.chosen(text)).named
    marks = [chr(character) for character in named if tables.classes.get(character)]
    names = random_names([*map(chr, named), *marks * 3], count, seed)
    ours, perls = keys_by_program(records_of(text), names), keys_by_perl(names)
    if not len(ours) == len(perls) == count:
        sys.exit('not a key for each name')
    sys.exit(not are_alike('perl', names, ours, perls))


if __name__ == '__main__':
    main(sys.argv[1:])
