#!/usr/bin/python3
"""Compares the order by the files of `records` with ICU4C's collators of the same languages, by hand.

  compare_icu.py [NAMES [SEED [LANGUAGE..]]]

There are 3,000 random names of each language, of the characters that its file names, as tools/compare_perl.py makes and
compares them (COLLATE names another executable of `collate`). Of `han`, whose order is another in ICU4C, only the count is told.
"""
import sys

import make_records
from alphabets import ALPHABETS
from compare_perl import ROOT, are_alike, keys_by_program, random_names
from sort_alphabets import collator_of

SYLLABLES = '가각간갈나낙닭달다라마값까깡꽃'


def is_alike(language, count, seed):
    """Whether the names of a language are in one order by both."""
    alphabet = ALPHABETS[language]
    tables = make_records.Tables(make_records.chosen(alphabet.whole))
    choice = make_records.Choice(tables, make_records.chosen(alphabet.characters))
    characters = [*map(chr, choice.named), *(chr(character) for part in choice.ranges for character in part)]
    if language == 'korean':
        characters += SYLLABLES
    names = [name for name in random_names(characters, count, seed) if name.strip(' ') == name]
    collator = collator_of(alphabet)
    with open(f'{ROOT}/records/{language}.records') as file:
        ours = keys_by_program(file.read(), names)
    return are_alike(language, names, ours, [collator.getSortKey(name) for name in names])


def main(words):
    count, seed = (int(word) for word in (words + ['3000', '1'][len(words):])[:2])
    alike = [is_alike(language, count, seed) or language == 'han' for language in words[2:] or ALPHABETS]
    sys.exit(not all(alike))


if __name__ == '__main__':
    main(sys.argv[1:])
