"""Rules of a language, as CLDR writes them: what tools/make_records.py knows of that form.

    &C<č<<<Č            č behind C, and Č behind č at the third level
    &[before 1]i<ı      ı before i
    &t<<<þ/h            þ as t and h, but for the third level
    &[before 3]ぁ<<<あ|ー   behind あ, ー as a form of ぁ
    [backwards 2] [caseFirst upper] [alternate shifted] [reorder Cyrl]
    [dotAbove on]       no rule of CLDR's: the setting `dotabove` of a records file

Any number of rules may follow one another. A text between apostrophes stands for itself.
"""
import re

from unicode_tables import COMMON_SECONDARY, COMMON_TERTIARY, Element

SCRIPTS = {'Grek': 'GREEK', 'Cyrl': 'CYRILLIC', 'Hebr': 'HEBREW', 'Thai': 'THAI'}
SETTINGS = {'backwards 2': 'backward on', 'alternate shifted': 'alternate shifted', 'dotAbove on': 'dotabove on',
            'caseFirst upper': 'casefirst upper', 'caseFirst lower': 'casefirst lower', 'normalization on': None}
TOKEN = re.compile(r"\s*(?:(&\s*(?:\[before ([123])\])?|<<<(?![<*])|<<(?![<*])|<(?![<*])|=(?!\*)|\[[^\]]*\])"
                   r"|((?:'[^']*'|[^&<=\[\s'])+))")


class Tailoring:
    """What rules say: records by prefix and text, in the order in which they stand, settings, and the script that is first."""

    def __init__(self, tables, rules):
        self.tables = tables
        self.records, self.settings, self.script = {}, [], None
        self.used = {}
        self.base, self.before = [], None
        self.read(rules)

    def read(self, rules):
        """Reads the rules: signs and texts by turns, and settings between them."""
        sign, place, rules = None, 0, rules.rstrip()
        while place < len(rules):
            found = TOKEN.match(rules, place)
            if not found or bool(found[3]) != bool(sign) or sign not in (None, 'reset') and not self.base:
                raise ValueError(f'rules that are not understood: {rules[place:place + 20]}')
            place = found.end()
            if found[3]:
                self.put(sign, unquoted(found[3]))
                sign = None
            elif found[1].startswith('&'):
                sign, self.before = 'reset', int(found[2] or 0)
            elif found[1].startswith('['):
                self.set(found[1][1:-1])
            else:
                sign = '=' if found[1] == '=' else len(found[1])
        if sign:
            raise ValueError('rules that end too soon')

    def set(self, words):
        """A setting."""
        name, _, value = words.partition(' ')
        if name == 'reorder' and value in SCRIPTS:
            self.script = self.tables.script(SCRIPTS[value])
        elif words not in SETTINGS:
            raise ValueError(f'rules that are not understood: [{words}]')
        elif SETTINGS[words]:
            self.settings.append(SETTINGS[words])

    def put(self, strength, said):
        """A reset, or a text that stands behind what was read last."""
        if strength == 'reset':
            self.base = self.tables.elements(points(said))
            return
        prefix, bar, rest = said.rpartition('|')
        text, _, more = rest.partition('/')
        if strength != '=':
            self.base = self.moved(self.base, strength)
        self.before = 0
        text = self.tables.decomposed(points(text))
        elements = self.cased(self.base, text)
        if more:
            elements = elements + self.tables.elements(points(more))
        self.records[self.tables.decomposed(points(prefix)), text] = elements
        if not bar:
            self.tables.entries[text] = elements

    def moved(self, elements, strength):
        """Elements just behind those, at the level that strength says, or just before."""
        level = strength - 1
        place = max(place for place, element in enumerate(elements) if any(element[:strength]) and element[level])
        kept, last = elements[:place], elements[place]
        above = (tuple(kept), last[:level])
        weight = self.weight_beside(above, level, last[level])
        weights = [*last[:level], weight, *[(), COMMON_SECONDARY, COMMON_TERTIARY][strength:]]
        return kept + [Element(*weights, 0)]

    def weight_beside(self, above, level, weight):
        """A new weight just behind another, or just before it."""
        step = -0.5 if self.before else 1
        while True:
            found = (*weight[:-1], weight[-1] + step) if self.before else (*weight, step)
            if (above, level, found) not in self.used:
                self.used[above, level, found] = True
                return found
            step /= 2

    def cased(self, elements, text):
        """The elements with the cases of the characters of a text; what is left over counts to the last letter."""
        cases = [self.tables.case(character) for character in text if not self.tables.classes.get(character)]
        letters = [place for place, element in enumerate(elements) if element.primary]
        elements = [element._replace(case=0) for element in elements]
        for count, place in enumerate(letters):
            left = cases[count:] if place == letters[-1] else cases[count:count + 1]
            left = [case for case in left if case is not None]
            case = 0 if not any(left) else 2 if all(case == 2 for case in left) else 1
            elements[place] = elements[place]._replace(case=case)
        return elements


def points(text):
    """The code points of a text."""
    return tuple(map(ord, text))


def unquoted(said):
    """A text without the apostrophes about it; two are one."""
    return re.sub(r"'([^']*)'", lambda found: found[1] or "'", said)
