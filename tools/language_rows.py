#!/usr/bin/python3
"""Writes the languages of crates/examples_alphabets: names in 25 of 15 scripts, in the order of ICU4C's collators.

  language_rows.py [--check] [FOLDER]     FOLDER is data/languages of the crate; --check compares what would be written

Of each language it takes 40 names of countries, languages and currencies in it (Debian's iso-codes), those with a text of its
tailoring first; no two are equal, and ICU4C's own collator of the language and the rules of CLDR 41 have to order them alike
(python3-icu). TAG.names has the names, far from their order, TAG.sorted ICU4C's order, TAG.records the tailoring, as
records/languages has it, and root.records the lines of the root that are about their characters. tools/sort_alphabets.py
writes then what the crate is run on. What lacks or differs is told, and the status is 2; nothing is written then.
"""
import os
import random
import sys
import unicodedata

import icu

import compare_languages
from alphabets import LANGUAGES
from join_records import ROOT as ROOT_RECORDS
from make_language import FOLDER, all_names, tag_of
from root_data import Characters, Fault, lines_of, run

PLACE = os.path.join(os.path.dirname(os.path.dirname(os.path.realpath(__file__))), 'crates/examples_alphabets/data/languages')
COUNT = 40


def names_of(tag, name, kind):
    """Names in a language, in the order of ICU4C."""
    path = os.path.join(FOLDER, f'{tag}.records')
    own = [unicodedata.normalize('NFD', text) for text in compare_languages.said_in(path, 't ')]
    source = random.Random(tag)
    found = [text for text in compare_languages.names_in(name) if not compare_languages.NO_NAME.search(text)]
    source.shuffle(found)
    found.sort(key=lambda text: not any(part in unicodedata.normalize('NFD', text) for part in own))
    theirs, by_rules = compare_languages.collators(name, kind)
    if theirs is None and tag == name:
        theirs = icu.Collator.createInstance(icu.Locale(name))
    if theirs is None:
        raise Fault(tag, 'ICU4C has no such collator')
    chosen = {}
    for text in [*found[:COUNT // 2], *source.sample(found, len(found))]:
        if len(chosen) < COUNT and len(text) < 40:
            chosen.setdefault(theirs.getSortKey(text), text)
    if len(chosen) < COUNT:
        raise Fault(tag, f'{len(chosen)} names')
    names = [text for _, text in sorted(chosen.items())]
    if names != sorted(names, key=by_rules.getSortKey):
        raise Fault(tag, 'ICU4C orders otherwise than the rules of CLDR 41')
    return names


def made():
    """What is written, by path."""
    known = {tag_of(*name): name for name in all_names()}
    orders = {tag: names_of(tag, *known[tag]) for tag in LANGUAGES}
    files = {}
    texts = [text for names in orders.values() for text in names]
    for tag in LANGUAGES:
        path = os.path.join(FOLDER, f'{tag}.records')
        texts += [*compare_languages.said_in(path, 't '), *compare_languages.said_in(path, '# without ')]
        files[f'{tag}.records'] = '\n'.join(line for _, line in lines_of(path))
    root = [line for _, line in lines_of(ROOT_RECORDS)]
    head = root[:root.index('')] if '' in root else []
    licence = [line for line in head if not line.startswith('# lead')]
    files['root.records'] = '\n'.join([*licence, *compare_languages.cut(root, texts, Characters()), ''])
    source = random.Random(len(texts))
    for tag in LANGUAGES:
        files[f'{tag}.names'] = '\n'.join([*source.sample(orders[tag], COUNT), ''])
        files[f'{tag}.sorted'] = '\n'.join([*orders[tag], ''])
    return files


def main(words):
    checks = words[:1] == ['--check']
    folders = words[checks:]
    if len(folders) > 1 or any(word.startswith('-') for word in folders):
        print(__doc__, file=sys.stderr)
        return 2
    folder = folders[0] if folders else PLACE
    differ = []
    for path, text in made().items():
        path = os.path.join(folder, path)
        if checks:
            try:
                with open(path, encoding='utf-8') as file:
                    same = file.read() == text
            except OSError:
                same = False
            differ += [] if same else [path]
        else:
            os.makedirs(os.path.dirname(path), exist_ok=True)
            with open(path, 'w', encoding='utf-8') as file:
                file.write(text)
    for path in differ:
        print(f'{path}: not what is made')
    return 1 if differ else 0


if __name__ == '__main__':
    sys.exit(run('language_rows.py', main))
