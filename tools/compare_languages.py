#!/usr/bin/python3
"""Compares the orders of records/languages, put over the root, with ICU4C's collators, by hand: docs/LANGUAGES.md.

  compare_languages.py [NAME..]     all files, or sv, de-phonebook ..

Of each language it takes the characters of its alphabet (exemplar characters of Debian's unicode-cldr-core), one by one and in
pairs, the texts of its tailoring, alone and before and behind letters, and the names of countries, languages and currencies in
the language, with some of each other language (iso-codes). They are sorted by keys of `collate_unicode` (COLLATE names another
executable) and by those of ICU4C (python3-icu) from the rules of CLDR 41, and neighbours in both lists have to compare alike.
The program reads of the joined records the lines about characters of these texts alone. Pairs with a text that is left out are
counted by themselves, as are those with Han that the language does not order, and those that ICU4C's own collator of the
language orders otherwise than the rules. It prints a row for each language, and what else differs; the status is then 1, and
2 where a file or a program lacks.
"""
import functools
import gettext
import glob
import os
import random
import re
import sys
import tempfile
import unicodedata
import xml.etree.ElementTree as xml

import icu

import ask_collate
import cldr_rules
from join_records import ROOT as ROOT_RECORDS
from join_records import joined
from make_language import FOLDER, all_names, tag_of
from root_data import CLDR, Characters, Fault, run, show

MOST_PAIRS = 3000
NAMES = ('iso_3166-1', 'iso_639-3', 'iso_4217')
IDEOGRAPHS = re.compile('[\u3400-\u9fff\uf900-\ufaff\U00020000-\U0003134f]')
# what no name has
NO_NAME = re.compile('[\n\ud800-\udfff]')


def exemplars(name):
    """The characters of a language's alphabet, small and capital."""
    found = []
    while name and not found:
        path = os.path.join(CLDR, f'main/{name}.xml')
        if os.path.exists(path):
            for part in xml.parse(path).getroot().iter('exemplarCharacters'):
                if part.get('type') in (None, 'auxiliary', 'index'):
                    text = re.sub('[↑]+', '', part.text or '')
                    found += list(icu.UnicodeSet(text)) if text else []
        name = name.rpartition('_')[0]
    return sorted({case for text in found for case in (text, text.upper(), text.title())})


def names_in(name):
    """Names of countries, languages and currencies in a language."""
    found = set()
    for domain in NAMES:
        try:
            catalogue = gettext.translation(domain, '/usr/share/locale', [name])
        except OSError:
            continue
        found |= {text for text in catalogue._catalog.values() if text and '\n' not in text}
    return sorted(found)


@functools.lru_cache(None)
def mixed():
    """Three names of countries in each language that iso-codes has, so in all scripts."""
    found = set()
    for path in sorted(glob.glob('/usr/share/locale/*/LC_MESSAGES/iso_3166-1.mo')):
        with open(path, 'rb') as file:
            names = sorted(name for name in gettext.GNUTranslations(file)._catalog.values() if name and '\n' not in name)
        found.update(names[::max(len(names) // 3, 1)])
    return sorted(found)


def said_in(path, start):
    """The texts of lines of a file that begin so, behind their prefixes."""
    with open(path, encoding='ascii') as file:
        keys = [line[len(start):].split(' ;')[0] for line in file if line.startswith(start)]
    return [''.join(chr(int(word, 16)) for word in key.split() if word != '|') for key in keys]


def texts_of(name, path, source):
    """What is sorted."""
    letters, own = exemplars(name), said_in(path, 't ')
    own = source.sample(own, min(len(own), MOST_PAIRS))
    if len(letters) ** 2 <= MOST_PAIRS:
        pairs = [one + other for one in letters for other in letters]
    else:
        pairs = [source.choice(letters) + source.choice(letters) for _ in range(MOST_PAIRS)]
    few = letters[:1] + ['a', 'z']
    beside = [text for one in own for text in (one, one + source.choice(few), source.choice(few) + one, one + source.choice(own))]
    texts = {*letters, *pairs, *beside, *names_in(name), *mixed()}
    return sorted(text for text in texts if not NO_NAME.search(text))


def cut(lines, texts, characters):
    """The lines of records that name no other characters than those of texts and what they decompose to."""
    needed = set()
    todo = [ord(character) for text in texts for character in text]
    while todo:
        character = todo.pop()
        if character not in needed:
            needed.add(character)
            todo += [*characters.canonical.get(character, ()), *characters.parts(character)]
    words = {f'{character:04X}' for character in needed} | {'|', 'x', ''}
    kept = []
    for line in lines:
        kind, _, said = line.partition(' ')
        if kind in ('w', 't'):
            is_kept = words.issuperset(said.split(' ;')[0].split(' '))
        else:
            is_kept = kind in ('range', 'set') or kind in ('class', 'digit', 'map', 'kmap') and said.split(' ')[0] in words
        if is_kept and kind != 'kmap':
            kept.append(line)
    return kept


def collators(name, kind):
    """ICU4C's collator of the language, if it has one of this type, and that of the rules of CLDR 41."""
    locale = icu.Locale(f'{"" if name == "root" else name}@collation={kind}')
    rules = cldr_rules.unescaped(cldr_rules.collations(name)[1][kind], name)
    found = [icu.Collator.createInstance(locale), icu.RuleBasedCollator(rules)]
    known = kind in {*icu.Collator.getKeywordValuesForLocale('collation', locale, False)}
    for collator in found:
        collator.setAttribute(icu.UCollAttribute.NORMALIZATION_MODE, icu.UCollAttributeValue.ON)
    return found[0] if known else None, found[1]


def sign(one, other):
    return (one > other) - (one < other)


def differences(texts, ours, collator):
    """Pairs of neighbours in one of the lists that are ordered in two ways."""
    theirs = [collator.getSortKey(text) for text in texts]
    wrong = set()
    for keys in (ours, theirs):
        order = sorted(range(len(texts)), key=lambda place: (keys[place], place))
        wrong |= {(one, other) for one, other in zip(order, order[1:])
                  if sign(ours[one], ours[other]) != sign(theirs[one], theirs[other])}
    return wrong


def compare(name, kind, characters):
    """Compares a collation; prints its row, and answers how much differs unexplained."""
    tag = tag_of(name, kind)
    path = os.path.join(FOLDER, f'{tag}.records')
    texts = texts_of(name, path, random.Random(tag))
    with tempfile.NamedTemporaryFile('w', suffix='.records') as file:
        file.write('\n'.join(cut(joined(ROOT_RECORDS, path), texts, characters)))
        file.flush()
        ours = ask_collate.keys(file.name, texts)
    theirs, by_rules = collators(name, kind)
    wrong = differences(texts, ours, by_rules)
    apart = len(differences(texts, ours, theirs) - wrong) if theirs else 0
    left = [unicodedata.normalize('NFD', text) for text in said_in(path, '# left out ')]
    touched = {pair for pair in wrong if any(text in unicodedata.normalize('NFD', texts[place]) for text in left for place in pair)}
    wrong -= touched
    untold = set(IDEOGRAPHS.findall(''.join(texts))) - set(''.join(said_in(path, 't ')))
    radicals = {pair for pair in wrong if any(untold & set(texts[place]) for place in pair)}
    wrong -= radicals
    said = [f'{len(touched)} with a text that is left out'] if touched else []
    said += [f'{len(radicals)} with Han that the language does not order, and ICU4C does by radicals'] if radicals else []
    said += [f'{apart} otherwise by ICU4C\'s collator of CLDR 42'] if apart else [] if theirs else ['ICU4C has no such collator']
    print('; '.join([f'{tag}: {len(texts)} texts, {len(wrong)} neighbours differ', *said]), flush=True)
    for one, other in sorted(wrong)[:5]:
        print('  ', show(map(ord, texts[one])), '|', show(map(ord, texts[other])))
    return len(wrong)


def main(words):
    names = {tag_of(*name): name for name in all_names()}
    unknown = [word for word in words if word not in names or word.startswith('-')]
    if unknown:
        raise Fault(FOLDER, f'no such file: {" ".join(unknown)}')
    characters = Characters()
    try:
        differ = sum(compare(*names[tag], characters) for tag in words or names)
    except ask_collate.Refused as refused:
        raise Fault('collate_unicode', str(refused)) from refused
    return 1 if differ else 0


if __name__ == '__main__':
    sys.exit(run('compare_languages.py', main))
