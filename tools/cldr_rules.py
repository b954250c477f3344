"""The collations of CLDR (common/collation/*.xml of Debian's package unicode-cldr-core) and the rules in them, read whole.

`rules_of` gives what a collation says, in its order, with imports put in: Reset, Relation, Setting and Suppress. A rule that
isn't understood is a Fault, which names the file, the collation and the place (root_data.py).
"""
import collections
import functools
import glob
import os
import re
import xml.etree.ElementTree as xml

from root_data import CLDR, Fault

FOLDER = os.path.join(CLDR, 'collation')
# types by their short names in tags
SHORT = {'phonebk': 'phonebook', 'trad': 'traditional', 'dict': 'dictionary', 'gb2312': 'gb2312han', 'digitsaft': 'digits-after'}
# what behind & and [before N] stands in brackets
POSITIONS = {f'{end} {kind}' for end in ('first', 'last') for kind in
             ('tertiary ignorable', 'secondary ignorable', 'primary ignorable', 'variable', 'regular', 'implicit', 'trailing')}
SWITCH = {'on', 'off'}
SETTINGS = {'alternate': {'shifted', 'non-ignorable'}, 'backwards': {'2'}, 'caseFirst': {'upper', 'lower', 'off'},
            'caseLevel': SWITCH, 'maxVariable': {'space', 'punct', 'symbol', 'currency'}, 'normalization': SWITCH,
            'numericOrdering': SWITCH, 'strength': set('1234I'), 'hiraganaQ': SWITCH, 'reorder': None}
SPACE = '\t\n\v\f\r \x85\u200E\u200F\u2028\u2029'
SKIPPED = re.compile(f'(?:[{SPACE}]|#[^\n]*)*')
STRENGTHS = {'<': 1, '<<': 2, '<<<': 3, '<<<<': 4, ';': 2, ',': 3, '=': 5}

# A reset: the strength of [before N] or None, a text or the words of a position
Reset = collections.namedtuple('Reset', 'before text position')
# A relation: its strength (5 for =), what stands before the text, the text, and what it is expanded by
Relation = collections.namedtuple('Relation', 'strength prefix text extension')
Setting = collections.namedtuple('Setting', 'name value')
Suppress = collections.namedtuple('Suppress', 'characters')


def is_syntax(character):
    """Whether a character of a rule has to be quoted to stand for itself."""
    return character.isascii() and not character.isalnum() and ord(character) > 0x20


class Parser:
    """Reads the rules of one collation."""

    def __init__(self, text, where, load):
        self.text = unescaped(text, where)
        self.place, self.where, self.load = 0, where, load
        self.said = []

    def fault(self, words):
        near = self.text[self.place:self.place + 20].split('\n')[0]
        return Fault(self.where, f'rule {self.text.count(chr(10), 0, self.place) + 1}: {words} at {near!r}')

    def peek(self):
        """The next character that is no space and in no comment; '' at the end."""
        self.place = SKIPPED.match(self.text, self.place).end()
        return self.text[self.place:self.place + 1]

    def parse(self):
        while self.peek():
            character = self.peek()
            if character == '&':
                self.parse_chain()
            elif character == '[':
                self.parse_setting()
            else:
                raise self.fault('not understood')
        return self.said

    def parse_chain(self):
        """A reset and its relations."""
        self.place += 1
        before = None
        self.peek()
        found = re.compile(r'\[before +([123])\]').match(self.text, self.place)
        if found:
            before, self.place = int(found[1]), found.end()
        if self.peek() == '[':
            words = self.bracket()
            if words not in POSITIONS:
                raise self.fault(f'no position: [{words}]')
            self.said.append(Reset(before, '', words))
        else:
            self.said.append(Reset(before, self.string(), None))
        while self.peek() and self.peek() in '<=;,':
            self.parse_relation()

    def parse_relation(self):
        found = re.compile('(<{1,4}|[=;,])(\\*?)').match(self.text, self.place)
        self.place = found.end()
        strength = STRENGTHS[found[1]]
        if found[2]:
            self.parse_list(strength)
            return
        prefix, text, extension = '', self.string(), ''
        if self.peek() == '|':
            self.place += 1
            prefix, text = text, self.string()
        if self.peek() == '/':
            self.place += 1
            extension = self.string()
        self.said.append(Relation(strength, prefix, text, extension))

    def parse_list(self, strength):
        """Characters behind a star, each by itself, and ranges of them."""
        last = None
        while True:
            for character in self.string():
                self.said.append(Relation(strength, '', character, ''))
                last = character
            if self.peek() != '-':
                return
            self.place += 1
            rest = self.string()
            if ord(rest[0]) <= ord(last):
                raise self.fault('a range that does not rise')
            for character in [*map(chr, range(ord(last) + 1, ord(rest[0]) + 1)), *rest[1:]]:
                self.said.append(Relation(strength, '', character, ''))
            last = rest[-1]
            if self.peek() != '-':
                return

    def string(self):
        """A text, some of it perhaps quoted."""
        self.peek()
        found = []
        while self.place < len(self.text):
            character = self.text[self.place]
            if character == "'":
                found.append(self.quoted())
            elif character == '\\' and self.place + 1 < len(self.text):
                found.append(self.text[self.place + 1])
                self.place += 2
            elif character in SPACE or is_syntax(character):
                break
            else:
                found.append(character)
                self.place += 1
        if not found:
            raise self.fault('no text')
        return ''.join(found)

    def quoted(self):
        """What stands between apostrophes; two of them are one."""
        if self.text[self.place:self.place + 2] == "''":
            self.place += 2
            return "'"
        found, place = [], self.place + 1
        while True:
            end = self.text.find("'", place)
            if end < 0:
                raise self.fault('an apostrophe that is not closed')
            found.append(self.text[place:end])
            if self.text[end:end + 2] != "''":
                self.place = end + 1
                return ''.join(found)
            found.append("'")
            place = end + 2

    def bracket(self):
        """The words between brackets, in which there may be others."""
        depth, place = 0, self.place
        while place < len(self.text):
            depth += {'[': 1, ']': -1}.get(self.text[place], 0)
            place += 1
            if not depth:
                words = ' '.join(self.text[self.place + 1:place - 1].split())
                self.place = place
                return words
        raise self.fault('a bracket that is not closed')

    def parse_setting(self):
        start = self.place
        name, _, value = self.bracket().partition(' ')
        if name == 'import':
            said = self.load(value)
            if said is None:
                self.place = start
                raise self.fault('an import of what is not there')
            self.said += said
        elif name == 'suppressContractions':
            self.said.append(Suppress(self.characters(value)))
        elif name in SETTINGS and (SETTINGS[name] is None or value in SETTINGS[name]):
            self.said.append(Setting(name, value))
        elif name != 'optimize':
            self.place = start
            raise self.fault('a setting that is not understood')

    def characters(self, words):
        """The characters of a set: single ones and ranges."""
        inner = re.fullmatch(r'\[([^\[\]]*)\]', words)
        if not inner:
            raise self.fault(f'a set that is not understood: {words[:40]!r}')
        found = set()
        for first, last in re.findall(r'([^\s-])(?:-([^\s-]))?', inner[1]):
            found.update(range(ord(first), ord(last or first) + 1))
        return frozenset(found)


def unescaped(text, where):
    """The text with \\uXXXX and \\UXXXXXXXX exchanged for characters."""
    def character(found):
        number = int(found[1] or found[2], 16)
        if number > 0x10FFFF:
            raise Fault(where, f'no character: {found[0]}')
        return chr(number)
    return re.sub(r'\\u([0-9A-Fa-f]{4})|\\U([0-9A-Fa-f]{8})', character, text)


@functools.lru_cache(None)
def collations(name):
    """The default type of a language's file, and the rules of each type; the name is that of the file."""
    path = os.path.join(FOLDER, f'{name}.xml')
    try:
        root = xml.parse(path).getroot()
    except OSError as error:
        raise Fault(path, f'{error.strerror} (Debian has it in the package unicode-cldr-core)') from error
    except xml.ParseError as error:
        raise Fault(path, f'no whole xml: {error}') from error
    default = root.findtext('collations/defaultCollation', '').strip()
    rules = {}
    for collation in root.iter('collation'):
        kind = collation.get('type', 'standard')
        if collation.find('alias') is not None:
            raise Fault(f'{path}, collation {kind}', 'an alias, which is not understood')
        # the file may have a type twice, a proposal behind what holds
        rules.setdefault(kind, ''.join(part.text or '' for part in collation.iter('cr')))
    return default or 'standard', rules


def languages():
    """The names of the files, and so of the languages."""
    found = sorted(os.path.basename(path)[:-4] for path in glob.glob(os.path.join(FOLDER, '*.xml')))
    if not found:
        raise Fault(FOLDER, 'no xml files (Debian has them in the package unicode-cldr-core)')
    return found


def imported(tag):
    """What an imported collation says: a tag, with the type behind -u-co-. None where there is no such collation."""
    name, _, kind = tag.partition('-u-co-')
    name = 'root' if name == 'und' else name.replace('-', '_')
    if name not in languages():
        return None
    default, rules = collations(name)
    kind = SHORT.get(kind, kind) or default
    return rules_of(name, kind) if kind in rules else None


def place_of(name, kind):
    """How a fault calls the place of a collation."""
    return f'{os.path.join(FOLDER, name)}.xml, collation {kind}'


def rules_of(name, kind):
    """What the rules of a collation say."""
    where = place_of(name, kind)
    rules = collations(name)[1]
    if kind not in rules:
        raise Fault(where, 'there is no such collation')
    return Parser(rules[kind], where, imported).parse()
