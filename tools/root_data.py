"""What the files of Debian's packages unicode-data and unicode-cldr-core say, as far as tools/make_root.py and
tools/make_language.py ask.

The files are read where the packages put them, or in the folders that UNICODE_DATA and CLDR_DATA name. A file that lacks and
a line that isn't understood are a Fault, which says file, line and words; `run` ends a tool by it with status 2.
"""
import collections
import os
import re
import sys

UNICODE = os.environ.get('UNICODE_DATA', '/usr/share/unicode')
CLDR = os.environ.get('CLDR_DATA', '/usr/share/unicode/cldr/common')
FRACTIONAL = os.path.join(CLDR, 'uca/FractionalUCA.txt')
JAMO = range(0x1100, 0x1200)
SYLLABLES = range(0xAC00, 0xD7A4)
SURROGATES = range(0xD800, 0xE000)
SPECIAL = {0xFFFD, 0xFFFE, 0xFFFF}
# the characters that stand before the first one of a group or an index: no text has them
INTERNAL = {0xFDD0, 0xFDD1}
# what the program knows of itself (docs/RECORDS.md)
BUILT_IN_CLASSES = {0x300, 0x301, 0x308, 0x313, 0x340, 0x341, 0x343, 0x344, 0xF71, 0xF72, 0xF74, 0xF80, 0x3099, 0x309A}
BUILT_IN_MAPPINGS = {0x340, 0x341, 0x343, 0x344, 0xF73, 0xF75, 0xF81}
BUILT_IN_COMPATIBLE = {0xFF9E, 0xFF9F}

# An element of FractionalUCA: weights as tuples of bytes, () where there is none, the case from 0 to 2, and of an
# element that takes the primary weight of an ideograph this one, else None
Element = collections.namedtuple('Element', 'primary secondary case tertiary ideograph')
# A line of weights: its number, prefix, text and elements
Line = collections.namedtuple('Line', 'number prefix text elements')


class Fault(Exception):
    """What a file says wrong: `at` names the file and the line."""

    def __init__(self, at, words):
        super().__init__(f'{at}: {words}')


def run(tool, main):
    """Runs `main` on the words; a fault goes to standard error, and the status is 2."""
    try:
        return main(sys.argv[1:])
    except Fault as fault:
        print(f'{tool}: {printable(str(fault))}', file=sys.stderr)
        return 2


def printable(text):
    """A text as it may be printed: what is no printable character of it, as a control character, as \\x1b or \\n."""
    return ''.join(c if c.isprintable() else c.encode('unicode_escape', 'surrogatepass').decode('ascii') for c in text)


def lines_of(path, package=None):
    """The lines of a file, with their numbers from 1."""
    try:
        with open(path, encoding='utf-8') as file:
            return list(enumerate(file.read().split('\n'), 1))
    except OSError as error:
        where = f' (Debian has it in the package {package})' if package else ''
        raise Fault(path, f'{error.strerror}{where}') from error
    except UnicodeDecodeError as error:
        raise Fault(path, f'no UTF-8: {error.reason}') from error


def at(path, number):
    return f'{path}, line {number}'


def show(text):
    """Characters as messages name them."""
    return ' '.join(f'U+{character:04X}' for character in text)


def ranges(characters):
    """Characters as ranges, to be named shortly."""
    found = []
    for character in sorted(characters):
        if found and found[-1][1] == character - 1:
            found[-1][1] = character
        else:
            found.append([character, character])
    return ' '.join(f'U+{first:04X}' + (f'..{last:04X}' if last > first else '') for first, last in found)


def code_points(words, place):
    """The code points of words with spaces between."""
    if not re.fullmatch(r'[0-9A-F]{4,6}( [0-9A-F]{4,6})*', words.strip()):
        raise Fault(place, f'no code points: {words.strip()[:60]!r}')
    return tuple(int(word, 16) for word in words.split())


class Characters:
    """Classes, mappings, digits and scripts of characters."""

    def __init__(self):
        self.classes, self.canonical, self.compatible, self.digits, self.categories = {}, {}, {}, {}, {}
        self.excluded = set()
        self._lists = {}
        path = os.path.join(UNICODE, 'UnicodeData.txt')
        for number, line in lines_of(path, 'unicode-data'):
            if line:
                self.read(line.split(';'), at(path, number))
        for part, value in properties('DerivedNormalizationProps.txt'):
            if value == 'Full_Composition_Exclusion':
                self.excluded.update(part)

    def read(self, field, place):
        """Takes a line of UnicodeData.txt."""
        if len(field) != 15 or not re.fullmatch(r'[0-9A-F]{4,6}', field[0]) or not field[3].isdigit():
            raise Fault(place, f'no character with 15 fields: {";".join(field)[:60]!r}')
        character = int(field[0], 16)
        self.categories[character] = field[2]
        if field[3] != '0':
            self.classes[character] = int(field[3])
        if field[5].startswith('<'):
            self.compatible[character] = code_points(field[5].split('>', 1)[-1], place)
        elif field[5]:
            self.canonical[character] = code_points(field[5], place)
        if field[2] == 'Nd':
            if not field[6].isdigit():
                raise Fault(place, f'a digit without a value: {field[6]!r}')
            self.digits[character] = int(field[6])

    def parts(self, character):
        """What a character decomposes to canonically."""
        found = self._lists.get(character)
        if found is None:
            if character in SYLLABLES:
                found = jamo_of(character)
            else:
                found = tuple(part for step in self.canonical.get(character, ()) for part in self.parts(step)) or (character,)
            self._lists[character] = found
        return found

    def decomposed(self, text):
        """The text with each character in its canonical parts, and the marks in order."""
        parts = [part for character in text for part in self.parts(character)]
        place = 0
        while place < len(parts):
            end = place
            while end < len(parts) and self.classes.get(parts[end]):
                end += 1
            parts[place:end] = sorted(parts[place:end], key=self.classes.get)
            place = end + 1
        return tuple(parts)

    def compatible_parts(self, character):
        """What a character decomposes to by mappings of both kinds."""
        step = self.compatible.get(character) or self.canonical.get(character)
        return tuple(part for half in step for part in self.compatible_parts(half)) if step else self.parts(character)


def properties(name):
    """The ranges of a file of properties, with the first value of each."""
    path = os.path.join(UNICODE, name)
    for number, line in lines_of(path, 'unicode-data'):
        said = [word.strip() for word in line.split('#')[0].split(';')]
        if said == ['']:
            continue
        found = re.fullmatch(r'([0-9A-F]{4,6})(?:\.\.([0-9A-F]{4,6}))?', said[0])
        if not found or len(said) < 2:
            raise Fault(at(path, number), f'no range with a property: {line[:60]!r}')
        yield range(int(found[1], 16), int(found[2] or found[1], 16) + 1), said[1]


def jamo_of(syllable):
    place = syllable - SYLLABLES[0]
    last = (0x11A7 + place % 28,) if place % 28 else ()
    return (0x1100 + place // 588, 0x1161 + place % 588 // 28, *last)


def scripts():
    """The four letters of the script of each character that has one."""
    path = os.path.join(UNICODE, 'PropertyValueAliases.txt')
    short = {}
    for number, line in lines_of(path, 'unicode-data'):
        field = [word.strip() for word in line.split('#')[0].split(';')]
        if field[0] == 'sc':
            if len(field) < 3:
                raise Fault(at(path, number), f'no script with two names: {line[:60]!r}')
            short[field[2]] = field[1]
    found = {}
    for part, name in properties('Scripts.txt'):
        if name not in short:
            raise Fault(os.path.join(UNICODE, 'Scripts.txt'), f'a script without letters: {name}')
        found.update(dict.fromkeys(part, short[name]))
    return found


class Fractional:
    """FractionalUCA.txt: the lines of weights, where groups and scripts begin, and the ideographs in their order."""

    def __init__(self):
        self.lines, self.starts, self.ideographs, self.version = [], [], [], None
        self.internal = 0
        for number, line in lines_of(FRACTIONAL, 'unicode-cldr-core'):
            self.read(line, number)
        if not self.ideographs or not self.lines or not self.starts:
            raise Fault(FRACTIONAL, 'no ideographs, no weights or no scripts')

    def read(self, line, number):
        said = line.split('#')[0].strip()
        if not said:
            return
        if said.startswith('['):
            self.read_bracket(said, at(FRACTIONAL, number))
        elif ';' in said:
            self.read_weights(said, line.partition('#')[2].strip(), number)
        else:
            raise Fault(at(FRACTIONAL, number), f'not understood: {said[:60]!r}')

    def read_bracket(self, said, place):
        """A line in brackets: the version, the ideographs, or one that says nothing here."""
        word = re.match(r'\[([A-Za-z_]+)', said)
        known = {'UCA', 'Unified_Ideograph', 'radical', 'top_byte', 'reorderingTokens', 'categories', 'first', 'last', 'variable',
                 'fixed'}
        if not word or word[1] not in known or not said.endswith(']'):
            raise Fault(place, f'not understood: {said[:60]!r}')
        if word[1] == 'UCA':
            self.version = said.strip('[]').split('=')[-1].strip()
        elif word[1] == 'Unified_Ideograph':
            for part in said.strip('[]').split()[1:]:
                first, _, last = part.partition('..')
                first, last = code_points(first, place)[0], code_points(last or first, place)[0]
                self.ideographs.append(range(first, last + 1))

    def read_weights(self, said, comment, number):
        """A line of weights; one of U+FDD0 or U+FDD1 says where something begins."""
        place = at(FRACTIONAL, number)
        key, _, weights = said.partition(';')
        prefix, bar, text = key.rpartition('|')
        prefix = code_points(prefix, place) if bar else ()
        text = code_points(text, place)
        elements = self.elements(weights, place)
        if INTERNAL.isdisjoint(prefix + text):
            self.lines.append(Line(number, prefix, text, elements))
            return
        self.internal += 1
        if 'first primary' in comment or 'numeric' in comment:
            self.starts.append((elements[0].primary, text, comment))

    @staticmethod
    def elements(words, place):
        """The elements in brackets."""
        found = re.findall(r'\[([^\[\]]*)\]', words)
        if not found or re.sub(r'\[[^\[\]]*\]', '', words).strip():
            raise Fault(place, f'no elements in brackets: {words.strip()[:60]!r}')
        return [element for element in (element_of(word, place) for word in found) if element]


def weight(word, place):
    """The bytes of a weight."""
    if not re.fullmatch(r'([0-9A-F]{2}( [0-9A-F]{2})*)?', word):
        raise Fault(place, f'no weight: {word[:60]!r}')
    return tuple(int(byte, 16) for byte in word.split())


def element_of(words, place):
    """The element of words with commas between; None where all weights lack."""
    field = [word.strip() for word in words.split(',')]
    ideograph = None
    if field[0].startswith('U+'):
        ideograph = code_points(field[0][2:], place)[0]
        field = {1: ['', '05', '05'], 2: ['', '05', field[-1]], 3: ['', *field[1:]]}.get(len(field), [])
    if len(field) != 3:
        raise Fault(place, f'no element: {words[:60]!r}')
    primary, secondary, tertiary = (weight(word, place) for word in field)
    if not (ideograph or primary or secondary or tertiary):
        return None
    case = tertiary[0] >> 6 if tertiary else 0
    if case > 2 or len(primary) > 4 or len(secondary) > 2 or len(tertiary) > 2:
        raise Fault(place, f'no element: {words[:60]!r}')
    return Element(primary, secondary, case, tuple(byte & 0x3F for byte in tertiary), ideograph)
