"""Random pairs of texts that differ in little, for compare_orders.py, over the weights of random_weights.py, more digits, or lines
of the root and of languages, and over more characters: variants of letters, each of which differs from its letter in one weight,
variable and ignorable ones."""
import functools
import glob
import os
import unicodedata

from random_weights import piece, random_weights, range_characters, recorded_texts

FOLDER = os.path.join(os.path.dirname(os.path.dirname(os.path.realpath(__file__))), 'records')

# characters that random_weights.py leaves alone: some below 0100, and some by one and by two units
FRESH = [*range(0x41, 0x5B), *range(0xD0, 0xD7), *range(0x411, 0x430), *range(0xE000, 0xE008), *range(0x10411, 0x10430)]
VARIABLE = ['w 0020 ; [03040000.0500.0.0500.0]', 'w 002E ; [03080000.0500.0.0500.0]', 'w 002C ; [03090000.0500.0.0500.0]',
            'w 002B ; [030B0000.0500.0.0500.0]', 'w 0024 ; [030E0000.0500.0.0500.0]']
IGNORABLE = ['w 00AD ;', 'w 0001 ;', 'w 200B ;', 'w 00AF ; [0.0000.2.0900.0]']
GROUPS = ['0306 030A 030C 0310', '0306 030A 030C 0310', '2A40 2A80 2AC0 6000', '0300 2A01 2B00 FFFF']
REORDERED = ['2A 2B 2B 2A', '60 29 29 60', '2A 60 60 2B 2B 2A', '29 2A 2A 29 60 61 61 60', '03 2A 2A 03', '61 2B 2B 61']
STRENGTHS = [None, 'primary', 'secondary', *['tertiary'] * 2, *['quaternary'] * 3, *['identical'] * 3]
WEIGHTS = ('twin', 'secondary', 'case', 'case', 'case bits', 'tertiary', 'quaternary')
# zeros of scripts: of one, two, three and four bytes in UTF-8
ZEROS = [0x30, 0x660, 0x966, 0xE50, 0xFF10, 0x1D7CE]
# how many digits numbers have: parts of a number have 254 at most, and up to 7 are read by their value
COUNTS = [*[1, 1, 2, 3, 4, 5, 6, 7, 7, 8, 9, 16, 60] * 2, 253, 254, 255, 256, 300, 507, 508, 509, 762, 763]
EDGES = [0, 9, 10, 73, 74, 327, 328, 10233, 10234, 10235, 1042489, 1042490, 1042491, 9999999, 10**7, 10**8]
# characters of the root, some of each group in a set
SCRIPTS = [[*range(0x61, 0x7B)], [*range(0x41, 0x5B), *range(0xC0, 0x180)], [*range(0x1EA0, 0x1EFA)], [*range(0x300, 0x329)],
           [*range(0xE01, 0xE4C)], [*range(0x3041, 0x3097), 0x3099, 0x309A, 0x309D, 0x309E],
           [*range(0x30A1, 0x30FF), *range(0xFF66, 0xFFA0)], [*range(0x4E00, 0x4E30), *range(0xF900, 0xF910)],
           [*range(0x1100, 0x1113), *range(0x1161, 0x1176), *range(0x11A8, 0x11C3)],
           [*range(0x20, 0x30), *range(0x3A, 0x41), *range(0xA0, 0xC0), *range(0x2010, 0x2045), *range(0x20A0, 0x20C0)],
           [zero + value for zero in ZEROS for value in range(10)],
           [*range(0x3B1, 0x3CF), *range(0x430, 0x460), *range(0x5D0, 0x5EB), *range(0x621, 0x64B)],
           [*range(0x905, 0x94E), *range(0xF40, 0xF85), *range(0x1F600, 0x1F610)]]
KANA = SCRIPTS[5:7]
MOST_NAMED = 135
LENGTHS = [*[1, 2, 5, 9, 14, 15, 16, 17, 18, 31, 40] * 3, *[62, 63, 64, 65, 66] * 2, 90, 130, 218, 222, 240, 260, 515]


def setting_lines(source):
    """Lines that set what options resolve to and how primaries are written, and records of variable and ignorable characters."""
    lines = [f"set alternate {source.choice(['nonignorable', 'shifted'])}"] if source.random() < 0.4 else []
    lines += ['set backward on'] if source.random() < 0.3 else []
    lines += [f"set casefirst {source.choice(['lower', 'upper'])}"] if source.random() < 0.3 else []
    lines += [f"set maxvariable {source.choice(['punctuation', 'symbol', 'currency'])}"] if source.random() < 0.5 else []
    lines += [f'set groups {source.choice(GROUPS)}'] if source.random() < 0.8 else []
    lines += [f'set reorder {source.choice(REORDERED)}'] if source.random() < 0.5 else []
    lines += [f"set compress {source.choice(['10 2A', '03 2B', '60 61'])}"] if source.random() < 0.4 else []
    lines += VARIABLE if source.random() < 0.8 else []
    return lines + [line for line in IGNORABLE if source.random() < 0.7]


def choose(source, kind):
    """Options by chance, as words; over numbers always numeric, and mostly shifted."""
    has_numbers = kind == 'numbers'
    given = [source.choice(STRENGTHS), source.choice([None, 'shifted', 'shifted' if has_numbers else 'nonignorable']),
             source.choice([None, None, 'space', 'punctuation', 'symbol', 'currency']), source.choice([None, 'caselevel']),
             source.choice([None, None, 'off', 'lower', 'upper']), source.choice(['numeric' if has_numbers else None, 'numeric'])]
    return ','.join(filter(None, given)) or 'none'


def spelled(elements):
    """Elements as a line has them."""
    return ' '.join(f"[{f'{p:08X}' if p else '0'}.{s:04X}.{c}.{t:04X}.{q}]" for p, s, c, t, q in elements)


def changed_elements(source, elements, weight):
    """Elements of which the first with a primary has another weight of one kind; None where there is none."""
    place = next((i for i, element in enumerate(elements) if element[0]), None)
    if place is None:
        return None
    p, s, c, t, q = elements[place]
    if weight == 'secondary':
        s = source.choice([other for other in (0x500, 0x8800, 0x8A00, 0x9003) if other != s])
    elif weight.startswith('case'):
        c = source.choice([other for other in (0, 1, 2, 2) if other != c])
        t = t if weight == 'case bits' else source.choice([0x500, 0x900, 0x900])
    elif weight == 'tertiary':
        t = source.choice([other for other in (0x500, 0x900, 0x3F00, 0xC03) if other != t])
    elif weight == 'quaternary':
        q = source.choice([other for other in range(4) if other != q])
    return [*elements[:place], (p, s, c, t, q), *elements[place + 1:]]


def variant_lines(source, said, letters):
    """Records of variants of letters, alone and in the place of the letter in longer texts; and of each variant its letter."""
    lines, variants, fresh = [], {}, source.sample(FRESH, len(FRESH))
    known = [c for c in letters if (c,) in said.texts.get(c, ())]
    for letter in source.sample(known, min(4, len(known))):
        for weight in source.sample(WEIGHTS, 5):
            elements = changed_elements(source, said.texts[letter][letter,], weight)
            if elements:
                variant = fresh.pop()
                variants[variant] = letter
                lines.append(f'w {variant:04X} ; {spelled(elements)}')
                lines += longer_lines(source, said, letter, variant, weight)
    return lines, variants


def longer_lines(source, said, letter, variant, weight):
    """Records of a few longer texts that begin with a letter, with the variant in its place."""
    longer = sorted(text for text in said.texts[letter] if len(text) > 1)[:source.choice([0, 0, 2, 4])]
    for text in longer:
        elements = changed_elements(source, said.texts[letter][text], weight)
        if elements:
            yield f"w {' '.join(f'{c:04X}' for c in (variant, *text[1:]))} ; {spelled(elements)}"


def kept_lines(lines, more, read, is_fault):
    """Lines and those of others that a reader takes with them."""
    for line in more:
        if not is_fault(read('\n'.join([*lines, line, '']).encode())):
            lines = [*lines, line]
    return lines


def digit_weights(source, read, is_fault):
    """As random_weights, with the digits of several scripts."""
    lines, *characters = random_weights(source, read, is_fault)
    more = []
    for zero in source.sample(ZEROS, source.randint(1, 4)):
        tertiary = source.choice(['0500', '0900', '3F00'])
        for value in range(10):
            more += [f'w {zero + value:04X} ; [29{16 + value}0000.0500.0.{tertiary}.0]', f'digit {zero + value:04X} {value}']
    return kept_lines(lines, more, read, is_fault), *characters


def named(line):
    """The characters that a line names, other than one of a range or a setting."""
    return frozenset(int(word, 16) for word in line.split(' ;')[0].split(' ')[1:] if len(word) >= 4)


def said_in(name):
    """The lines of a file of records, but for comments."""
    with open(os.path.join(FOLDER, name), encoding='ascii') as file:
        return [line for line in file.read().split('\n') if line and not line.startswith('#')]


@functools.lru_cache(None)
def root_lines():
    """The lines of the root: settings and ranges, the characters that others name with them, and what characters map to."""
    lines = said_in('root.records')
    whole = [line for line in lines if line.startswith(('set ', 'range '))]
    others = [(named(line), line) for line in lines if not line.startswith(('set ', 'range '))]
    mapped = {int(line.split(' ')[1], 16): names for names, line in others if line.startswith('map ')}
    return whole, others, mapped


@functools.lru_cache(None)
def tailorings():
    """The lines of each language over the root, Czech more than once; those of many lines only behind prefixes."""
    names = [os.path.relpath(path, FOLDER) for path in sorted(glob.glob(os.path.join(FOLDER, 'languages/*.records')))]
    found = [said_in(name) for name in [*names, *['languages/cs.records'] * 20]]
    return [lines if len(lines) < 600 else [line for line in lines if '|' in line] for lines in found]


def tailored_lines(source):
    """Some lines of a language, and its settings."""
    lines = source.choice(tailorings())
    records = [line for line in lines if line.startswith('t ') and 'FFF' not in line]
    first = source.randint(0, max(0, len(records) - 24))
    return [line for line in lines if line.startswith('set ')], records[first:first + source.choice([0, 8, 24])]


def without_faults(lines, read, is_fault):
    """Lines without those that a reader refuses."""
    while is_fault(found := read('\n'.join([*lines, '']).encode())):
        lines = [*lines[:found.line - 1], *lines[found.line:]]
    return lines


def script_weights(source, read, is_fault):
    """As random_weights, by lines of the root about characters of some scripts, and of a language."""
    return weights_of(source, read, is_fault, tailored_lines(source), source.sample(SCRIPTS, source.randint(3, 7)))


def prefix_weights(source, read, is_fault):
    """The same about kana, and of Japanese about such behind others."""
    lines = [line for line in said_in('languages/ja.records') if '|' in line]
    return weights_of(source, read, is_fault, ([], source.sample(lines, 40)), KANA)


def weights_of(source, read, is_fault, tailoring, groups):
    """Lines of the root about characters of groups, and of a language, with its settings at times."""
    whole, others, mapped = root_lines()
    settings, tailored = tailoring
    chosen = set().union(*map(named, tailored))
    pools = [source.sample(group, min(len(group), MOST_NAMED // len(groups))) for group in groups]
    for c in source.sample(sum(pools, []), sum(map(len, pools))):
        parts = {c, *mapped.get(c, ()), *(d for part in mapped.get(c, ()) for d in mapped.get(part, ()))}
        chosen |= parts if len(chosen | parts) <= MOST_NAMED else set()
    lines = settings if source.random() < 0.5 else []
    lines += [line for line in whole if source.random() < (0.4 if line.startswith('range') else 0.9)]
    lines += [line for names, line in others if names <= chosen]
    lines = without_faults([*lines, *tailored], read, is_fault)
    marks = sorted(c for line in lines if line.startswith('class ') for c in named(line))
    maps = sorted(chosen & {*mapped})
    letters = sorted(chosen - {*marks, *maps})
    return lines, letters or [0x61], marks or [0x301], maps


def any_weights(source, read, is_fault):
    """Those of one kind or the other."""
    return source.choice([random_weights, script_weights])(source, read, is_fault)


class Pairs:
    """Pairs of texts over records."""

    def __init__(self, source, said, lines, speaks_of, variants):
        self.source, self.said, self.speaks_of = source, said, speaks_of
        letters, self.marks, _ = speaks_of
        self.twins = {}
        for variant, letter in variants.items():
            self.twins.setdefault(variant, []).append(letter)
            self.twins.setdefault(letter, []).append(variant)
        self.letters = [c for c in letters if c in self.twins]
        self.small = [c for c in (0x20, 0x2E, 0x2C, 0x2B, 0x24, 0xFFFE) if c in said.texts or c == 0xFFFE]
        self.empty = [c for c in (0xAD, 1, 0x200B, 0xAF) if c in said.texts]
        self.digits = [c for c in said.digits if said.digits[c] == 0]
        self.texts, self.ends = recorded_texts(lines), range_characters(lines)
        self.recorded = [text for text in self.texts if len(text) > 1] or [[0x61, 0x62]]
        self.near_ends = self.ends or [0x4E00, 0x9FFF]

    def text(self):
        count = self.source.randint(1, 8)
        parts = [piece(self.source, self.texts, self.ends, *self.speaks_of) for _ in range(count)]
        return [c for part in parts for c in part]

    def put(self, left, right, part, other):
        """Both texts with a part at one place, which differs in them."""
        place = self.source.randint(0, min(len(left), len(right)))
        return left[:place] + part + left[place:], right[:place] + other + right[place:]

    def varied(self, text):
        """A text and one with a variant in a character's place, or two with two variants."""
        places = [i for i, c in enumerate(text) if c in self.twins]
        if not places and self.letters:
            text.insert(self.source.randint(0, len(text)), self.source.choice(self.letters))
            places = [i for i, c in enumerate(text) if c in self.twins]
        left, right = list(text), list(text)
        for side in (left, right)[self.source.choice([0, 1, 1]):]:
            if places:
                place = self.source.choice(places)
                side[place] = self.source.choice(self.twins[text[place]])
        return left, right

    def numbered(self, text):
        """A text with a number, and with zeros before that."""
        digits = [c for c in self.said.digits if self.said.digits[c]]
        if not digits or not self.digits:
            return text, list(text)
        number = self.source.choices(digits, k=self.source.choice([1, 2, 3, 8]))
        zeros = self.source.choices(self.digits, k=self.source.randint(1, 3))
        return self.put(text, list(text), number, zeros + number)

    def formed(self, text):
        """A text, and its characters in another form: a mapping done or undone, or two marks exchanged."""
        mappings = [(c, mapping) for c, (mapping, _) in self.said.maps.items()]
        c, mapping = self.source.choice([*mappings, (0xAC01, (0x1100, 0x1161, 0x11A8))])
        if self.source.random() < 0.4:
            a, b = self.source.choice(self.marks), self.source.choice(self.marks)
            letter = self.source.choice(self.letters or [0x61])
            return self.put(text, list(text), [letter, a, b], [letter, b, a])
        return self.put(text, list(text), [c], list(mapping))

    def other_form(self, text):
        form = self.source.choice(['NFC', 'NFD'])
        return text, [ord(c) for c in unicodedata.normalize(form, ''.join(map(chr, text)))]

    def edited(self, text):
        """A text, and that without a character, with two exchanged, or with letters of the other case."""
        other, kind = list(text), self.source.random()
        if kind < 0.4 and text:
            del other[self.source.randrange(len(text))]
        elif kind < 0.7 and len(text) > 1:
            i = self.source.randrange(len(text) - 1)
            other[i], other[i + 1] = other[i + 1], other[i]
        else:
            other = [ord(c) for c in ''.join(map(chr, text)).swapcase()]
        return text, other

    def near(self):
        """Two texts that differ in little."""
        text, kind = self.text(), self.source.random()
        if kind < 0.12:
            return self.put(text, list(text), [], [self.source.choice(self.marks)])
        if kind < 0.22:
            return self.put(text, list(text), [], [self.source.choice(self.small)])
        if kind < 0.32 and self.empty:
            return self.put(text, list(text), [], [self.source.choice(self.empty)])
        if kind < 0.42:
            return self.numbered(text)
        if kind < 0.5:
            return self.formed(text)
        if kind < 0.54:
            return self.other_form(text)
        return self.edited(text) if kind < 0.62 else self.varied(text)

    def pair(self):
        """Two texts, two of three times nearly equal ones; at times with a common beginning."""
        left, right = self.near() if self.source.random() < 0.67 else (self.text(), self.text())
        front = self.text() if self.source.random() < 0.3 else []
        front = front * self.source.choice([1, 1, 2, 20])
        return front + left, front + right

    def value(self):
        """The digits of a number, of any length: by chance, near an edge, with many zeros or nines, or nothing but zeros."""
        source, count = self.source, self.source.choice(COUNTS)
        kind = source.random()
        if kind < 0.2:
            return [int(digit) for digit in str(source.choice(EDGES))]
        if kind < 0.3:
            return [source.choice([0, 0, 1, 9])] + [source.choice([0, 9])] * (count - 1)
        digits = source.choices(range(10), k=count)
        if kind < 0.5:
            place = source.choice([1, min(count, 253), min(count, 254), source.randint(0, count)])
            zeros = source.choice([1, 2, 3, 250, 254, 255])
            digits = digits[:place] + [0] * zeros + digits[place:source.choice([place, count])]
        return digits

    def near_value(self, digits):
        """The digits of a number near another: with more zeros before it, or with one digit changed, more or less."""
        source, kind = self.source, self.source.random()
        other, place = list(digits), self.source.randrange(len(digits))
        if kind < 0.35:
            return [0] * source.choice([1, 2, 7, 100, 253, 254, 255, 300]) + other
        if kind < 0.6:
            other[place] = source.randrange(10)
        elif kind < 0.75:
            other.insert(place, source.choice([0, 0, 5]))
        elif kind < 0.9:
            other = other + [source.randrange(10)] if source.random() < 0.5 else other[:-1] or [0]
        return other

    def written(self, digits):
        """Digits in characters: of one script, or of several."""
        by_value = {}
        for c, value in sorted(self.said.digits.items()):
            by_value.setdefault(value, []).append(c)
        if self.source.random() < 0.5:
            place = self.source.randrange(8)
            return [by_value[value][place % len(by_value[value])] for value in digits if value in by_value]
        return [self.source.choice(by_value[value]) for value in digits if value in by_value]

    def joint(self):
        """What stands beside a number: nothing, some variable or ignorable characters, letters and marks, or a text."""
        source = self.source
        parts = [source.choice(self.small + self.empty), source.choice(self.small), source.choice(self.marks),
                 source.choice(self.letters or [0x61])]
        if source.random() < 0.1:
            return self.text()
        return source.sample(parts, source.choice([0, 0, 1, 1, 2, 3]))

    def numbers(self):
        """Two texts with numbers near one another."""
        one = self.value()
        other = self.near_value(one) if self.source.random() < 0.9 else self.value()
        front, back = self.joint(), self.joint()
        front += self.written(self.value()) + self.joint() if self.source.random() < 0.2 else []
        left, right = front + self.written(one) + back, front + self.written(other) + back
        if self.source.random() < 0.2:
            place = self.source.randint(0, len(right))
            right[place:place] = [self.source.choice(self.small + self.empty + self.marks)]
        return self.source.choice([(left, right), (right, left)])

    def front(self):
        """A long text of a kind: of one letter or all, recorded texts, low letters, syllables, characters of ranges, a mixture."""
        source, length = self.source, self.source.choice(LENGTHS)
        letters = self.speaks_of[0]
        low = [c for c in letters if c < 0x80] or letters
        pools = [letters, low, low, [source.choice(letters)], source.sample(letters, min(3, len(letters))), self.near_ends,
                 source.choices(range(0xAC00, 0xD7A4), k=20), [*self.small, *letters], [*letters, *self.marks]]
        if source.random() < 0.25:
            texts = source.choices(self.recorded, k=length)
            return [c for text in texts for c in text][:length]
        if source.random() < 0.1:
            text = self.text()
            return [text[place % len(text)] for place in range(length)]
        return source.choices(source.choice(pools), k=length)

    def part_in_text(self):
        """Two texts that part within what is recorded together."""
        text, other = self.source.choice(self.recorded), self.source.choice(self.recorded)
        place = self.source.randint(1, len(text) - 1)
        end = [self.source.choice(self.speaks_of[0])]
        return list(text), text[:place] + self.source.choice([[], end, other[place:], other, [self.source.choice(self.marks)] + text[place:]])

    def part_in_marks(self):
        """Two letters with marks, one more, one less, another, or in another order."""
        letter = [self.source.choice([*self.speaks_of[0], *self.speaks_of[2]])]
        marks = self.source.choices(self.marks, k=self.source.choice([1, 1, 2, 3, 5]))
        other = self.source.choice([marks[:-1], marks[1:], marks + marks[:1], marks[::-1], marks[:-1] + [self.source.choice(self.marks)]])
        return letter + marks, letter + other

    def part_in_syllable(self):
        """Two syllables of which one letter differs or lacks, or one syllable and its letters."""
        leading, vowel, trailing = [self.source.randrange(count) for count in (19, 21, 28)]
        others = [(self.source.randrange(19), vowel, trailing), (leading, self.source.randrange(21), trailing),
                  (leading, vowel, self.source.choice([0, self.source.randrange(28)]))]
        left, right = (0xAC00 + (one * 21 + two) * 28 + three for one, two, three in ((leading, vowel, trailing), self.source.choice(others)))
        spelled_out = [0x1100 + leading, 0x1161 + vowel] + ([0x11A7 + trailing] if trailing else [])
        return [left], self.source.choice([[right], [right], spelled_out, [left - trailing, *spelled_out[2:]]])

    def part_in_number(self):
        """Two numbers that begin alike, or one and a letter."""
        digits = self.written(self.source.choices(range(10), k=self.source.choice([1, 2, 7, 8, 254])))
        ends = [self.written([self.source.randrange(10)]) for _ in range(2)]
        return digits + ends[0], digits + self.source.choice([[], ends[1], [self.source.choice(self.speaks_of[0])]])

    def part_at_end(self):
        """Two characters at the ends of ranges."""
        return [self.source.choice(self.near_ends)], [self.source.choice(self.near_ends)]

    def part_in_letter(self):
        """Two variants of a letter, or a variable or ignorable character and none."""
        if self.source.random() < 0.5:
            return self.varied([])
        return [self.source.choice(self.small + self.empty)], self.source.choice([[], [self.source.choice(self.small)]])

    def parted(self):
        """Two texts with a long beginning in common that part within what is read together; what follows is the same, or not."""
        parts = [self.part_in_text, self.part_in_text, self.part_in_marks, self.part_in_syllable, self.part_in_number, self.part_at_end,
                 self.part_in_letter]
        left, right = self.source.choice(parts)()
        front, kind = self.front(), self.source.random()
        tails = [self.text(), self.text()] if kind < 0.1 else [self.source.choice([[], [], self.text(), self.front()])] * 2
        left, right = front + left + tails[0], front + right + tails[1]
        return self.source.choice([(left, right), (right, left)])

    def name(self):
        """A few letters and recorded texts."""
        letters = [[c] for c in self.speaks_of[0]]
        parts = [self.source.choice(self.source.choice([self.recorded, letters])) for _ in range(self.source.randint(1, 5))]
        return [c for part in parts for c in part]

    def names(self):
        """Two names, most of which begin alike."""
        front = self.name() if self.source.random() < 0.7 else []
        return front + self.name(), front + self.name()


KINDS = {'near': (random_weights, Pairs.pair), 'numbers': (digit_weights, Pairs.numbers), 'scripts': (script_weights, Pairs.pair),
         'parted': (any_weights, Pairs.parted), 'prefixes': (prefix_weights, Pairs.names)}


def random_pairs(source, read, is_fault, kind):
    """Records that a reader takes, and what gives pairs of texts of a kind over them."""
    weights, pair = KINDS[kind]
    lines, *speaks_of = weights(source, read, is_fault)
    lines = kept_lines(lines, setting_lines(source), read, is_fault)
    more, variants = variant_lines(source, read('\n'.join([*lines, '']).encode()), speaks_of[0])
    lines = kept_lines(lines, more, read, is_fault)
    said = read('\n'.join([*lines, '']).encode())
    variants = {variant: letter for variant, letter in variants.items() if variant in said.texts}
    return lines, said, functools.partial(pair, Pairs(source, said, lines, speaks_of, variants))
