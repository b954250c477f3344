#!/usr/bin/env python3
"""Compares orders of texts and sort keys with those of another program, on random records, options and texts.

  compare_orders.py READING [PAIRS [SETS [SEED [KIND]]]]

READING is a folder with an independent reading of the definitions (tools/answers.py). There are 20,000 pairs over 100 sets of
records unless PAIRS and SETS say otherwise, each set with eight choices of options. KIND is one of (tools/random_pairs.py)

  near      two of three pairs nearly equal: but for a mark, a variant of a letter, a space or stop, an ignorable character, zeros
            before a number, or in another normal form; some begin with the same long text; the KIND where none is said
  numbers   numbers of all lengths, in digits of several scripts, beside variable characters, always numeric
  scripts   as `near`, over lines of the root and of languages
  parted    texts with long beginnings that part within a contraction, marks, a syllable, a number, or at an end of a range
  prefixes  names of a few kana, over lines of the root and those of Japanese that have prefixes

Each pair is asked in all five encodings, its bytes and units damaged at times, and for both keys. crates/tests_collation_rows
compiles each set, with fast and with small tries, and answers; it has to be built (`rt run` in its folder; tools/answers.py). What
differs is printed, and the status is then 1, as it is where a level decides less than one pair of a hundred that are `near`. How many
pairs each level decided is printed, how many had numbers to be read by value, and how many sets had lines of each kind.
"""
import random
import sys

from answers import SIDES, characters, load, options_of
from compare_elements import differences
from random_pairs import KINDS, choose, random_pairs

CHOICES = 8
LEVELS = ('primary', 'secondary', 'case', 'tertiary', 'quaternary', 'characters', 'none')


def damaged(source, data, width):
    """Bytes or units, at times with one of them lost or another in its place."""
    data = list(data)
    if data and source.random() < 0.3:
        place = source.randrange(len(data))
        if source.random() < 0.5:
            del data[place]
        else:
            data[place] = source.choice([0x80, 0xC3, 0xE2, 0xF0, 0xFF, 0x41] if width == 1 else [0xD800, 0xDBFF, 0xDC00, 0x41])
    return data


def to_units(text):
    data = ''.join(map(chr, text)).encode('utf-16-be')
    return [data[i] << 8 | data[i + 1] for i in range(0, len(data), 2)]


def shown(items, width):
    return b''.join(item.to_bytes(width, 'big') for item in items).hex() or '-'


def encoded(source, side, text, is_whole):
    """A text in an encoding, at times damaged: its word on a line."""
    if side == 'utf8':
        data = ''.join(map(chr, text)).encode()
        return shown(data if is_whole else damaged(source, data, 1), 1)
    if side == 'utf16':
        return shown(damaged(source, to_units(text), 2), 2)
    return shown(bytes(c & 0xFF for c in text), 1)


def order_questions(source, left, right):
    """Questions how two texts order, in each encoding. Latin-1 has of each character the lower byte."""
    for encoding, sides in SIDES.items():
        words = [encoded(source, side, text, encoding == 'text') for side, text in zip(sides, (left, right))]
        yield ' '.join(['compare', encoding, *words])


def key_question(source, text):
    """A question for a key, in some encoding."""
    encoding = source.choice(['text', 'utf8', 'utf16'])
    return f"key {encoding} {encoded(source, SIDES[encoding][0], text, encoding == 'text')}"


def count_level(said, options, question, oracle, done):
    """Counts the level that decides a question."""
    _, encoding, *words = question.split(' ')
    a, b = (oracle.levels(said, options, characters(word, side, oracle)) for word, side in zip(words, SIDES[encoding]))
    level = next((name for (name, left), (_, right) in zip(a, b) if left != right), 'none')
    done[f'decided by {level}'] = done.get(f'decided by {level}', 0) + 1


def count_numbers(said, text, done):
    """Counts the longest run of digits that is read as a number."""
    longest = max(map(len, ''.join('0' if c in said.digits else ' ' for c in text).split()), default=0)
    most = next((most for most in (0, 7, 253, 254, 508) if longest <= most), 'more')
    done[f'numbers of digits up to {most}'] = done.get(f'numbers of digits up to {most}', 0) + 1


def count_features(said, lines, done):
    """Counts what a set of records has."""
    records = [line.split(' ;') for line in lines if line[:2] in ('w ', 't ')]
    keys = [key.split(' ') for key, _ in records]
    prefixes = {key.index('|') - 1 for key in keys if '|' in key}
    had = {f'a prefix of {count}' for count in prefixes}
    had |= {'a text of eight characters'} if any(len(key) == 9 for key in keys if '|' not in key) else set()
    had |= {'a text that ends in a mark'} if any(len(key) > 2 and said.cls(int(key[-1], 16)) for key in keys) else set()
    had |= {'eight elements'} if any(elements.count('[') == 8 for _, elements in records) else set()
    had |= {'a record of a jamo'} if any(len(key) == 2 and 0x1100 <= int(key[1], 16) <= 0x11FF for key in keys) else set()
    had |= {f'{line.split(" ")[0]} lines' for line in lines if line[:4] != 'set '}
    had |= {' '.join(line.split(' ')[:2]) for line in lines if line[:4] == 'set '}
    for name in sorted(had):
        done[f'sets with {name}'] = done.get(f'sets with {name}', 0) + 1


def compare_set(source, oracle, kind, count, done):
    """Compares so many pairs of a kind over one random set of records; what differs."""
    lines, said, pair = random_pairs(source, oracle.read, lambda said: isinstance(said, oracle.Fault), kind)
    count_features(said, lines, done)
    script = ['records', *lines, '', 'collators']
    for _ in range(CHOICES):
        words = choose(source, kind)
        script.append(f'options {words}')
        for _ in range(-(-count // CHOICES)):
            left, right = pair()
            questions = list(order_questions(source, left, right))
            count_level(said, options_of(words, oracle), questions[0], oracle, done)
            if 'numeric' in words:
                count_numbers(said, left, done)
            script += [*questions, key_question(source, left), key_question(source, right)]
    return [(*fault, *lines) for fault in differences('\n'.join([*script, '']), oracle, done)]


def main(words):
    kind = words[4] if len(words) == 5 else 'near'
    if not 1 <= len(words) <= 5 or not all(map(str.isdigit, words[1:4])) or kind not in KINDS:
        sys.stderr.write(__doc__)
        return 2
    oracle = load(words[0])
    pairs, sets, seed = [int(words[k]) if len(words) > k else other for k, other in ((1, 20000), (2, 100), (3, 1))]
    source = random.Random(seed)
    done, faults = {}, []
    for _ in range(sets):
        faults += compare_set(source, oracle, kind, -(-pairs // sets), done)
    for name, made in sorted(done.items()):
        print(f'{name:40} {made:7}')
    for fault in faults[:5]:
        print(*fault, sep='\n  ')
    few = [level for level in LEVELS if kind == 'near' and done.get(f'decided by {level}', 0) < pairs // 100]
    print(f'{len(faults)} differ' + ''.join(f', few pairs decided by {level}' for level in few))
    return 1 if faults or few else 0


if __name__ == '__main__':
    sys.exit(main(sys.argv[1:]))
