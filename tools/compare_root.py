#!/usr/bin/python3
"""Compares records/root.records with what CLDR, Unicode and ICU4C say, by hand: docs/ROOT.md has what it printed.

  compare_root.py conformance               both files of CLDR's conformance test, whole, and all Han characters in the order
                                            of FractionalUCA.txt, by keys of `collate_unicode`
  compare_root.py pairs [COUNT [SEED]]      200,000 random pairs of texts of all scripts but Han, by keys of `collate_unicode` and by
                                            ICU4C (python3-icu), under each of OPTIONS at each of five strengths
  compare_root.py forms                     NormalizationTest.txt in four normal forms, by crates/speed

COLLATE and SPEED name other executables, RECORDS another file. What is set aside is counted and named; what differs
otherwise is printed, and the status is then 1. Where a file or a program lacks it is named, and the status is 2.
"""
import bz2
import os
import random
import subprocess
import sys
import tempfile

import ask_collate
from root_data import (BUILT_IN_CLASSES, BUILT_IN_COMPATIBLE, BUILT_IN_MAPPINGS, CLDR, UNICODE, Characters, Fault, Fractional, at, lines_of,
                       run, scripts, show)

ROOT = os.path.dirname(os.path.dirname(os.path.realpath(__file__)))
RECORDS = os.environ.get('RECORDS', os.path.join(ROOT, 'records/root.records'))
SPEED = os.environ.get('SPEED', os.path.join(ROOT, 'crates/speed/out/speed'))
BUILT_IN = BUILT_IN_CLASSES | BUILT_IN_MAPPINGS | BUILT_IN_COMPATIBLE
STRENGTHS = ('primary', 'secondary', 'tertiary', 'quaternary', 'identical')
# options of `collate`, and the settings that say the same to ICU4C
OPTIONS = {
    (): '',
    ('alternate=shifted', 'maxvariable=space'): '[alternate shifted][maxVariable space]',
    ('alternate=shifted',): '[alternate shifted]',
    ('alternate=shifted', 'maxvariable=symbol'): '[alternate shifted][maxVariable symbol]',
    ('alternate=shifted', 'maxvariable=currency'): '[alternate shifted][maxVariable currency]',
    ('caselevel=on',): '[caseLevel on]',
    ('casefirst=lower',): '[caseFirst lower]',
    ('casefirst=upper',): '[caseFirst upper]',
    ('caselevel=on', 'casefirst=upper'): '[caseLevel on][caseFirst upper]',
    ('caselevel=on', 'casefirst=lower'): '[caseLevel on][caseFirst lower]',
    ('numeric=on',): '[numericOrdering on]',
    ('numeric=on', 'alternate=shifted'): '[numericOrdering on][alternate shifted]',
    ('numeric=on', 'alternate=shifted', 'caselevel=on', 'casefirst=upper'):
        '[numericOrdering on][alternate shifted][caseLevel on][caseFirst upper]',
}
# What the root cannot tell: 18 elements
UNTOLD = 0xFDFA
# What CLDR 42, the data of ICU 72, orders otherwise than CLDR 41: two Tibetan marks count, a mark of the Phaistos disc has
# another secondary weight, and a letter with a hook stands elsewhere
CHANGED = {0xF82, 0xF83, 0x101FD, 0x1D89}
CONFORMANCE = (('NON_IGNORABLE', ()), ('SHIFTED', ('alternate=shifted', 'strength=quaternary')))
FORMS = ('nfc', 'nfd', 'nfkc', 'nfkd')


def said_in(path):
    """The fields of the lines of a records file, by their first word."""
    found = {}
    for _, line in lines_of(path):
        if line and not line.startswith('#'):
            field = line.split(' ')
            found.setdefault(field[0], []).append(field[1:])
    return found


# ---- the conformance test

def conformance_lines(name):
    """The texts of a file of the conformance test, and how many lines have characters that no name has."""
    path = os.path.join(CLDR, f'uca/CollationTest_CLDR_{name}_SHORT.txt')
    texts, aside = [], 0
    for number, line in lines_of(path, 'unicode-cldr-core'):
        if not line or line.startswith('#'):
            continue
        try:
            characters = [int(word, 16) for word in line.split('#')[0].split(';')[0].split()]
        except ValueError as error:
            raise Fault(at(path, number), f'no text: {line[:60]!r}') from error
        if any(character == 0xA or 0xD800 <= character < 0xE000 for character in characters):
            aside += 1
        else:
            texts.append(''.join(map(chr, characters)))
    return texts, aside


def conformance(_):
    """Whether the lines of each file rise."""
    differ = 0
    for name, options in CONFORMANCE:
        texts, aside = conformance_lines(name)
        keys = ask_collate.keys(RECORDS, texts, options)
        wrong = [place for place in range(1, len(texts)) if keys[place] < keys[place - 1]]
        known = [place for place in wrong if chr(UNTOLD) in texts[place] + texts[place - 1]]
        print(f'{name}: {len(texts)} lines in order but {len(wrong)}, {len(known)} of them with {show([UNTOLD])};'
              f' {aside} lines aside, with surrogates or a line feed')
        for place in sorted(set(wrong) - set(known))[:10]:
            print('  not in order:', show(map(ord, texts[place - 1])), '|', show(map(ord, texts[place])))
        differ += len(wrong) - len(known)
    return 1 if differ + han_differs() else 0


def han_differs():
    """How many Han characters are not above the one before in FractionalUCA's order."""
    han = [chr(character) for part in Fractional().ideographs for character in part]
    keys = ask_collate.keys(RECORDS, han)
    wrong = [place for place in range(1, len(han)) if keys[place] <= keys[place - 1]]
    print(f'Han: {len(han)} characters in order but {len(wrong)}')
    for place in wrong[:10]:
        print('  not in order:', show(map(ord, han[place - 1])), '|', show(map(ord, han[place])))
    return len(wrong)


# ---- pairs

class Texts:
    """Random texts of the characters that the root has, those of Han aside."""

    def __init__(self, seed):
        said = said_in(RECORDS)
        letters = scripts()
        named = {int(word, 16) for kind in ('w', 'map', 'kmap', 'digit') for field in said.get(kind, ())
                 for word in field[:1] if field[1:2] != ['|']}
        self.pools = {}
        for character in sorted(named - {0xA, UNTOLD}):
            if letters.get(character) != 'Hani':
                self.pools.setdefault(letters.get(character, 'Zzzz'), []).append(character)
        self.pools['Hang'] = [*self.pools.get('Hang', []), *range(0xAC00, 0xD7A4, 7)]
        self.source = random.Random(seed)
        self.common = [*map(ord, ' -.,\'/_!?()0123456789aAbBzZ'), 0x300, 0x301, 0x308, 0x323, 0x327, 0x3099]
        self.names = sorted(self.pools)

    def character(self, pool):
        return self.source.choice(pool if self.source.random() < 0.7 else self.common)

    def pair(self):
        """Two texts that are mostly near each other."""
        source = self.source
        pool = self.pools[source.choice(self.names)]
        if source.random() < 0.2:
            pool = pool + self.pools[source.choice(self.names)]
        few = source.sample(pool, min(len(pool), source.choice([2, 4, 12])))
        one = [self.character(few) for _ in range(source.randint(1, 6))]
        other = list(one) if source.random() < 0.8 else [self.character(few) for _ in range(source.randint(1, 6))]
        for _ in range(source.choice([1, 1, 2])):
            self.change(other, few)
        return ''.join(map(chr, one)), ''.join(map(chr, other))

    def change(self, text, pool):
        """Puts in, takes out or exchanges a character."""
        place = self.source.randrange(len(text) + 1)
        kind = self.source.random()
        if kind < 0.3 or place == len(text):
            text.insert(place, self.character(pool))
        elif kind < 0.5 and len(text) > 1:
            del text[place]
        else:
            text[place] = self.character(pool)


def collator_of(settings, strength):
    """ICU4C's collator of the root with settings."""
    import icu
    collator = icu.RuleBasedCollator(settings) if settings else icu.Collator.createInstance(icu.Locale.getRoot())
    collator.setAttribute(icu.UCollAttribute.NORMALIZATION_MODE, icu.UCollAttributeValue.ON)
    collator.setAttribute(icu.UCollAttribute.STRENGTH, getattr(icu.UCollAttributeValue, strength.upper()))
    return collator


def sign(one, other):
    return (one > other) - (one < other)


def differing(pairs, settings, options, strength):
    """The pairs that `collate` and ICU4C order in two ways, and how many more ICU4C compares in another way than its keys."""
    keys = ask_collate.keys(RECORDS, [text for pair in pairs for text in pair], [*options, f'strength={strength}'])
    collator = collator_of(settings, strength)
    wrong, at_odds = [], 0
    for place, pair in enumerate(pairs):
        ours = sign(keys[2 * place], keys[2 * place + 1])
        if ours != collator.compare(*pair):
            if ours == sign(*map(collator.getSortKey, pair)):
                at_odds += 1
            else:
                wrong.append(pair)
    return wrong, at_odds


def pairs_alike(words):
    """Whether random pairs are ordered alike."""
    count, seed = (int(word) for word in [*words, '200000', '1'][:1] + [*words[1:], '1'][:1])
    texts = Texts(seed)
    pairs = [texts.pair() for _ in range(count)]
    kept = [pair for pair in pairs if CHANGED.isdisjoint(map(ord, pair[0] + pair[1]))]
    print(f'{len(kept)} pairs of {count}; the others have one of {show(sorted(CHANGED))}, which CLDR 42 orders otherwise')
    differ = 0
    for options, settings in OPTIONS.items():
        for strength in STRENGTHS:
            wrong, at_odds = differing(kept, settings, options, strength)
            more = f'; {at_odds} more by the comparison of ICU4C, but not by its keys' if at_odds else ''
            print(f'{" ".join(options) or "no options"}, {strength}: {len(wrong)} differ{more}', flush=True)
            for one, other in wrong[:5]:
                print('  ', show(map(ord, one)), '|', show(map(ord, other)))
            differ += len(wrong)
    return 1 if differ else 0


# ---- normal forms

def forms_of(texts, form):
    """The normal forms of texts, by crates/speed."""
    with tempfile.NamedTemporaryFile('w', encoding='utf-8', newline='') as file:
        file.write(''.join(f'{text}\n' for text in texts))
        file.flush()
        try:
            answer = subprocess.run([SPEED, 'normal', RECORDS, file.name, f'show_{form}', '1'], stdout=subprocess.PIPE, check=True)
        except (OSError, subprocess.CalledProcessError) as error:
            raise Fault(SPEED, f'{error} (`rt run -- collator` in crates/speed builds it)') from error
    lines = answer.stdout.decode('utf-8').split('\n')[:-2]
    if len(lines) != len(texts):
        raise Fault(SPEED, f'{len(lines)} forms of {len(texts)} texts')
    return lines


def normalization_rows():
    """The five columns of each line of NormalizationTest.txt."""
    path = os.path.join(UNICODE, 'NormalizationTest.txt')
    if os.path.exists(path):
        lines = [line for _, line in lines_of(path, 'unicode-data')]
    else:
        try:
            lines = bz2.open(f'{path}.bz2', 'rt', encoding='utf-8').read().split('\n')
        except OSError as error:
            raise Fault(f'{path}.bz2', f'{error.strerror} (Debian has it in the package unicode-data)') from error
    for number, line in enumerate(lines, 1):
        columns = line.split('#')[0].strip().split(';')
        if len(columns) == 6:
            yield [''.join(chr(int(word, 16)) for word in column.split()) for column in columns[:5]]
        elif columns != [''] and not columns[0].startswith('@'):
            raise Fault(at(path, number), f'no five columns: {line[:60]!r}')


def forms(_):
    """Whether the invariants of the test hold, and characters outside of it are their own forms."""
    said, characters = said_in(RECORDS), Characters()
    named = {int(word, 16) for kind in ('class', 'map', 'kmap', 'w') for field in said.get(kind, ()) for word in field[:1]}
    changing = {*characters.classes, *characters.canonical, *characters.compatible}
    newer = changing - named - BUILT_IN - {UNTOLD}
    told = {int(field[0], 16) for field in said['kmap']} | BUILT_IN_COMPATIBLE
    untold = {c for c in characters.compatible if c not in told} - newer
    rows = list(normalization_rows())
    differ = 0
    for form in FORMS:
        differ += form_differs(form, rows, newer, untold if form.startswith('nfk') else set())
    listed = {ord(row[0]) for row in rows if len(row[0]) == 1}
    # speed reads lines, which a line feed ends, or a carriage return and one
    others = [chr(c) for c in sorted(named - listed - newer - untold - {0xA, 0xD})]
    for form in FORMS:
        wrong = [text for text, made in zip(others, forms_of(others, form)) if text != made]
        print(f'{form}: {len(others)} other characters of the root, {len(wrong)} not their own form')
        differ += len(wrong)
    return 1 if differ else 0


def form_differs(form, rows, newer, untold):
    """How many invariants of a form do not hold."""
    kept = [row for row in rows if newer.isdisjoint(map(ord, row[0])) and untold.isdisjoint(map(ord, row[0]))]
    aside = sum(not newer.isdisjoint(map(ord, row[0])) for row in rows)
    goal = {'nfc': (1, 1, 1, 3, 3), 'nfd': (2, 2, 2, 4, 4), 'nfkc': (3,) * 5, 'nfkd': (4,) * 5}[form]
    wrong = []
    for column in range(5):
        made = forms_of([row[column] for row in kept], form)
        wrong += [(column + 1, row) for row, text in zip(kept, made) if text != row[goal[column]]]
    print(f'{form}: {len(kept)} lines, {len(wrong)} of {5 * len(kept)} invariants do not hold; aside: {aside} lines with'
          f' characters newer than the root, {len(rows) - aside - len(kept)} with mappings that a file cannot tell')
    for column, row in wrong[:10]:
        print(f'  column {column}:', '; '.join(show(map(ord, text)) for text in row))
    return len(wrong)


def main(words):
    tasks = {'conformance': conformance, 'pairs': pairs_alike, 'forms': forms}
    if not words or words[0] not in tasks or len(words) > 3 or not all(map(str.isdigit, words[1:])):
        print(__doc__, file=sys.stderr)
        return 2
    try:
        return tasks[words[0]](words[1:])
    except ask_collate.Refused as refused:
        raise Fault('collate_unicode', str(refused)) from refused


if __name__ == '__main__':
    sys.exit(run('compare_root.py', main))
