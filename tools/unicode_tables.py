"""What the files of Debian's package unicode-data say of characters, as far as tools/make_records.py asks.

The files are read where the package puts them, or in the folder that UNICODE_DATA names. None of them is part of this
repository.

A weight of a level is a tuple: of one number in the default table, and of more where tools/tailoring.py puts it behind
another. Tuples order as the weights do, and () is no weight.
"""
import collections
import os
import re

FOLDER = os.environ.get('UNICODE_DATA', '/usr/share/unicode')
COMMON_SECONDARY = (0x20,)
COMMON_TERTIARY = (2,)
# the secondary weights of variants in the default table
VARIANTS = [(weight,) for weight in range(0x11C, 0x121)]
# the tertiary weights of the default table that say that a character is upper case (UTS 10, on case first)
UPPER_TERTIARIES = {8, 9, 0xA, 0xB, 0xC, 0xE, 0x11, 0x12, 0x1D}
JAMO = range(0x1100, 0x1200)
SYLLABLES = range(0xAC00, 0xD7A4)
# what the program knows of itself
BUILT_IN_CLASSES = {0x300: 230, 0x301: 230, 0x308: 230, 0x313: 230, 0x3099: 8, 0x309A: 8}
BUILT_IN_MAPPINGS = {0x340, 0x341, 0x343, 0x344, 0xF73, 0xF75, 0xF81, 0xFF9E, 0xFF9F}
SPECIAL = {0xFFFD, 0xFFFE, 0xFFFF}

# An element: its weights, its case (0 to 2)
Element = collections.namedtuple('Element', 'primary secondary tertiary case')


def show(characters):
    """Characters as messages name them."""
    return ' '.join(f'U+{character:04X}' for character in characters)


class Tables:
    """The tables; those in whole are characters that are taken as they stand, whatever they decompose to."""

    def __init__(self, whole=()):
        self.whole = set(whole)
        self.names, self.categories, self.classes, self.digits = {}, {}, {}, {}
        self.canonical, self.compatible, self.excluded = {}, {}, set()
        self.ideographs = []
        self.read_characters()
        self.read_exclusions()
        self.entries = {}
        self.read_weights()

    def read_characters(self):
        """UnicodeData.txt: names, categories, classes, mappings and digits."""
        for line in open(os.path.join(FOLDER, 'UnicodeData.txt'), encoding='utf-8'):
            field = line.split(';')
            character = int(field[0], 16)
            self.names[character], self.categories[character] = field[1], field[2]
            if field[1].startswith('<CJK Ideograph'):
                self.ideographs.append(character)
            if field[3] != '0':
                self.classes[character] = int(field[3])
            parts = field[5].split(' ')
            if field[5].startswith('<'):
                self.compatible[character] = tuple(int(part, 16) for part in parts[1:])
            elif field[5]:
                self.canonical[character] = tuple(int(part, 16) for part in parts)
            if field[6]:
                self.digits[character] = int(field[6])
        self.ideographs = [range(first, last + 1) for first, last in zip(self.ideographs[::2], self.ideographs[1::2])]

    def read_exclusions(self):
        """DerivedNormalizationProps.txt: mappings that are not composed again."""
        for line in open(os.path.join(FOLDER, 'DerivedNormalizationProps.txt'), encoding='utf-8'):
            found = re.match(r'([0-9A-F]+)(?:\.\.([0-9A-F]+))?\s*; Full_Composition_Exclusion', line)
            if found:
                self.excluded.update(range(int(found[1], 16), int(found[2] or found[1], 16) + 1))

    def read_weights(self):
        """allkeys.txt: the elements of characters and of contractions, by their decomposed texts."""
        composed = []
        for line in open(os.path.join(FOLDER, 'allkeys.txt'), encoding='utf-8'):
            found = re.match(r'([0-9A-F ]+?) *; ((?:\[[.*][0-9A-F.]+\])+)', line)
            if not found:
                continue
            text = tuple(int(character, 16) for character in found[1].split())
            elements = merged([element_of(weights) for weights in re.findall(r'\[[.*]([0-9A-F.]+)\]', found[2])])
            if self.decomposed(text) == text:
                self.entries[text] = elements
            else:
                composed.append((text, elements))
        for text, elements in composed:
            text = self.decomposed(text)
            if all((part,) in self.entries for part in text) and elements != self.elements(text):
                self.entries[text] = elements
        for character in self.whole:
            parts = self.decomposed(self.canonical[character])
            self.entries[character,] = self.entries[parts] = self.elements(parts)

    def decomposed(self, text):
        """The text with each character in its canonical parts, and the marks in order."""
        parts = []
        for character in text:
            parts.extend(self.parts(character))
        place = 0
        while place < len(parts):
            end = place
            while end < len(parts) and self.classes.get(parts[end]):
                end += 1
            parts[place:end] = sorted(parts[place:end], key=lambda mark: self.classes[mark])
            place = end + 1
        return tuple(parts)

    def parts(self, character):
        """What a character decomposes to."""
        if character in self.whole or character not in self.canonical:
            return jamo_of(character) if character in SYLLABLES else (character,)
        return tuple(part for half in self.canonical[character] for part in self.parts(half))

    def elements(self, text):
        """The elements of a text, whose contractions stand together."""
        text, place, elements = self.decomposed(text), 0, []
        while place < len(text):
            end = next((end for end in range(min(len(text), place + 4), place, -1) if text[place:end] in self.entries), None)
            if end is None:
                raise ValueError(f'{show(text[place:place + 1])}: no weights in allkeys.txt')
            elements += self.entries[text[place:end]]
            place = end
        return elements

    def is_ideograph(self, character):
        """Whether the default table has it in a range."""
        return any(character in ideographs for ideographs in self.ideographs)

    def case(self, character):
        """0 for lower or none, 1 for title, 2 for upper case; None where it has no case."""
        return {'Lu': 2, 'Lt': 1, 'Ll': 0}.get(self.categories.get(character))

    def first_primary(self, character):
        """The primary weight of a character."""
        return self.entries[ord(character),][0].primary

    def script(self, word):
        """The lowest and the highest primary weight of the letters whose names begin with a word."""
        kinds = tuple(f'{word} {kind}' for kind in ('LETTER', 'SMALL', 'CAPITAL', 'CHARACTER'))
        lowest = self.first_primary('a')
        weights = [elements[0].primary for text, elements in self.entries.items()
                   if len(text) == 1 and elements and elements[0].primary >= lowest
                   and self.names.get(text[0], '').startswith(kinds)]
        return min(weights), max(weights)


def element_of(weights):
    """The element of an entry; None for one of no weight."""
    primary, secondary, tertiary = (int(weight, 16) for weight in weights.split('.'))
    if not primary and not secondary and not tertiary:
        return None
    case = 2 if primary and tertiary in UPPER_TERTIARIES else 0
    return Element(*((weight,) if weight else () for weight in (primary, secondary, tertiary)), case)


def merged(elements):
    """The elements of an entry, without those of no weight. A variant, as of the letters of a ligature, becomes the second
    weight of the letter before it, as in the root collation: between none and the marks."""
    kept = []
    for element in elements:
        if element and not element.primary and element.secondary in VARIANTS and element.tertiary == (4,):
            kept[-1] = kept[-1]._replace(secondary=COMMON_SECONDARY + element.secondary)
        elif element:
            kept.append(element)
    return kept


def jamo_of(syllable):
    """The jamo of a Hangul syllable."""
    place = syllable - SYLLABLES.start
    jamo = (0x1100 + place // 588, 0x1161 + place % 588 // 28)
    return jamo + (0x11A7 + place % 28,) if place % 28 else jamo
