#!/usr/bin/env python3
"""Compares the mapper of domain names with another program, on random canonical records, mapper tables and texts.

  compare_mapper.py READING [TABLES [SEED]]

READING is what compare_forms.py takes; of its module `norm` `uts46_map` and `uts46_validate` are called. There are 1,000
tables unless TABLES says otherwise, each over records of its own and with 20 texts. What `map_normalize` and
`normalize_validate` give of each text is compared. crates/speed has to be built (`rt run -- collator` in its folder).
What differs is printed, and the status is then 1.
"""
import os
import random
import sys
import tempfile

from compare_forms import load, run
from random_records import BUILT_IN, any_character, pairs_of, random_characters, random_records, word

TEXTS_A_TABLE = 20


def random_table(source, targets):
    """What is done with some characters, and what with all others: None, a kind or a list of characters."""
    characters = [*targets, *BUILT_IN, *(any_character(source) for _ in range(4)), *b'abcdefghijklmnopqrstuvwxyz']
    said = {}
    for c in source.sample(characters, source.randint(0, len(characters) // 2)):
        length = source.choice([1, 1, 1, 2, 2, 3, 8, 31])
        mapped = [source.choice(characters) for _ in range(length)]
        said[c] = source.choice([None, 'ignored', 'disallowed', mapped, mapped])
    return said, source.choice([None, None, None, 'ignored', 'disallowed'])


def table_lines(said, others):
    """A line for each character of which something is said, and one for all others."""
    for c, kind in said.items():
        kind = ' '.join(['mapped', *map(word, kind)]) if isinstance(kind, list) else kind or 'valid'
        yield f'uts46 {word(c)} {kind}'
    if others or len(said) % 2:
        yield f'uts46 others {others or "valid"}'


def compare_table(folder, source, oracle):
    """Compares the texts of one random table; how many answers were compared, and what differs."""
    lines, targets = random_records(source, oracle.read, lambda said: isinstance(said, oracle.Fault))
    records = oracle.read('\n'.join([*lines, '']).encode())
    pairs = pairs_of(lines)
    said, others = random_table(source, targets)
    lines += table_lines(said, others)
    texts = [random_characters(source, [*targets, *said], pairs) for _ in range(TEXTS_A_TABLE)]
    for name, rows in (('records', lines), ('texts', [''.join(map(chr, text)) for text in texts])):
        with open(os.path.join(folder, name), 'wb') as file:
            file.write(''.join(row + '\n' for row in rows).encode())
    wanted = []
    for text in texts:
        for call in (oracle.uts46_map, oracle.uts46_validate):
            wanted.append(''.join(map(chr, call(records, lambda c: said.get(c, others), text))).encode())
    given = run(folder, 'uts46')
    if given is None or len(given) != len(wanted):
        return 0, [('lines', '\n'.join(lines))]
    return len(wanted), [(texts[place // 2], ('map_normalize', 'normalize_validate')[place % 2], '\n'.join(lines))
                         for place in range(len(wanted)) if given[place] != wanted[place]]


def main(words):
    if not 1 <= len(words) <= 3 or not all(map(str.isdigit, words[1:])):
        sys.stderr.write(__doc__)
        return 2
    oracle = load(words[0])
    source = random.Random(int(words[2]) if len(words) > 2 else 1)
    tables = int(words[1]) if len(words) > 1 else 1000
    made, faults = 0, []
    with tempfile.TemporaryDirectory() as folder:
        for _ in range(tables):
            answers, found = compare_table(folder, source, oracle)
            made += answers
            faults += found
    for fault in faults[:10]:
        print(*fault, sep='\n  ')
    print(f'{tables} tables, {made} answers compared, {len(faults)} differ')
    return 1 if faults else 0


if __name__ == '__main__':
    sys.exit(main(sys.argv[1:]))
