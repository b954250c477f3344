"""Real names, "Surname, Given", from the lists of Debian's package python3-fake-factory (licence MIT): twelve languages of
western Europe. FAKER is where its folder `faker` stands, if not where the package puts it.
"""
import ast
import os
import random
import sys
import unicodedata

FAKER = os.environ.get('FAKER', '/usr/lib/python3/dist-packages/faker')
LANGUAGES = ['en_US', 'en_GB', 'de_DE', 'fr_FR', 'es_ES', 'it_IT', 'pt_BR', 'nl_NL', 'sv_SE', 'no_NO', 'dk_DK', 'fi_FI']
LETTERS = set("abcdefghijklmnopqrstuvwxyzæœøðþß '\u2019.-\u0300\u0301\u0302\u0303\u0308\u030a\u0327")


def listed(language, kind):
    """The names of a language whose letters records/latin.records names: `first_names` or `last_names`."""
    path = os.path.join(FAKER, 'providers/person', language, '__init__.py')
    if not os.path.exists(path):
        sys.exit(f'{path} is not there: install python3-fake-factory, or say FAKER')
    with open(path, encoding='utf-8') as file:
        tree = ast.parse(file.read())
    values = [node.value for node in ast.walk(tree) if isinstance(node, ast.Assign)
              and isinstance(node.targets[0], ast.Name) and node.targets[0].id.startswith(kind)]
    found = {part.value for value in values for part in ast.walk(value)
             if isinstance(part, ast.Constant) and isinstance(part.value, str)}
    return sorted(name for name in found if set(unicodedata.normalize('NFD', name.lower())) <= LETTERS)


def people(count):
    """So many different people: a surname and a given name of one language, each language alike often."""
    source, found = random.Random(9), {}
    lists = [(listed(language, 'last_names'), listed(language, 'first_names')) for language in LANGUAGES]
    while len(found) < count:
        surnames, given = source.choice(lists)
        found[f'{source.choice(surnames)}, {source.choice(given)}'] = True
    return list(found)
