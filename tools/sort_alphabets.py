#!/usr/bin/python3
"""Writes what the program crate `examples_alphabets` is run on, and what it must print: by ICU4C, never by a program of this repository.

  sort_alphabets.py            crates/examples_alphabets/data/LANGUAGE.sorted, and stdin and stdout of the crate
  sort_alphabets.py --check    says where those that stand there are others

LANGUAGE.sorted has the names of LANGUAGE.names in the order of ICU4C's collator for the language (Debian's python3-icu), equal
ones as they stood; LANGUAGE.records is the file of the same name in `records`, which tools/make_records.py writes. Those of
data/languages are tools/language_rows.py's.
"""
import os
import sys

try:
    import icu
except ImportError as error:
    sys.exit(f'{os.path.basename(sys.argv[0])}: {error} (Debian has it in the package python3-icu)')

from alphabets import ALPHABETS, LANGUAGES

ROOT = os.path.dirname(os.path.dirname(os.path.realpath(__file__)))
FOLDER = os.path.join(ROOT, 'crates/examples_alphabets')


def collator_of(alphabet):
    """ICU4C's collator, which decomposes whatever it is given."""
    collator = icu.Collator.createInstance(icu.Locale('' if alphabet.locale == 'root' else alphabet.locale))
    collator.setAttribute(icu.UCollAttribute.NORMALIZATION_MODE, icu.UCollAttributeValue.ON)
    return collator


def sorted_names(language, alphabet):
    """The names of a language in order."""
    with open(f'{FOLDER}/data/{language}.names', encoding='utf-8') as file:
        names = file.read().split('\n')[:-1]
    return ''.join(f'{name}\n' for name in sorted(names, key=collator_of(alphabet).getSortKey))


def main(is_check):
    texts = {'stdin': ''.join(f'{language}\n' for language in ALPHABETS), 'stdout': ''}
    for language, alphabet in ALPHABETS.items():
        names = sorted_names(language, alphabet)
        texts[f'data/{language}.sorted'] = names
        texts[f'data/{language}.records'] = open(f'{ROOT}/records/{language}.records', encoding='utf-8').read()
        texts['stdout'] += f'{language}: in order\n{names}\n'
    for tag in LANGUAGES:
        line = f'languages/{tag} over languages/root'
        with open(f'{FOLDER}/data/languages/{tag}.sorted', encoding='utf-8') as file:
            names = file.read()
        texts['stdin'] += f'{line}\n'
        texts['stdout'] += f'{line}: in order\n{names}\n'
    for name, text in texts.items():
        path = f'{FOLDER}/{name}'
        if not is_check:
            open(path, 'w', encoding='utf-8').write(text)
        elif not os.path.exists(path) or open(path, encoding='utf-8').read() != text:
            print(f'{path}: not what ICU4C says' if name[-7:] != 'records' else f'{path}: not as in records')
            is_check = 'failed'
    sys.exit(is_check == 'failed')


if __name__ == '__main__':
    main(sys.argv[1:] == ['--check'])
