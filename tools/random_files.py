"""Random records files of the whole format, most of them accepted or near to a rule on either side: compare_records.py."""

from random_edges import any_edit
from random_near import NEAR

LETTERS = [*range(0x61, 0x7B), 0x391, 0x3B1, 0x3B2, 0x5D0, 0x915, 0x3046, 0x4E00, 0x4E01, 0xE000, 0x10400, 0x1F600]
MARKS = [0x302, 0x303, 0x304, 0x307, 0x309, 0x323, 0x328, 0x345, 0x350, 0x351, 0x5B0, 0x93C, 0x1D165, 0x1E944]
BUILT_IN_MARKS = {0x300: 230, 0x301: 230, 0x308: 230, 0x313: 230, 0xF71: 129, 0xF72: 130, 0xF74: 132, 0xF80: 130, 0x3099: 8}
LOW = [*range(0xC0, 0x180)]
COMPOSED = [0x1E00, 0x1E01, 0x1E63, 0x1EA1, 0x1EA4, 0x212B, 0x2126, 0xF900, 0x1D15E, 0x2F800]
COMPATIBLE = [0xA0, 0xAA, 0xB2, 0xBD, 0x2460, 0xFB01, 0xFDFA, 0xFF21, 0x1D400]
DIGITS = [*range(0x30, 0x3A), 0x661, 0x662, 0x966, 0x303, 0x307, 0x1D7CE]
JAMO = [0x1100, 0x1112, 0x1113, 0x1161, 0x1175, 0x11A7, 0x11A8, 0x11C2, 0x11FF]
PLACES = [(0x3400, 0x4DB5), (0x4E80, 0x9FFF), (0x20000, 0x2A6D6), (0x1200, 0x1380), (0xD000, 0xE0FF), (0x2000, 0x2100),
          (0xFFF0, 0xFFFC),
          (0x1000, 0x10FF), (0x10FF00, 0x10FFFF)]
CHOICES = {'alternate': ['nonignorable', 'shifted'], 'backward': ['off', 'on'], 'casefirst': ['off', 'lower', 'upper'],
           'maxvariable': ['space', 'punctuation', 'symbol', 'currency'], 'dotabove': ['off', 'off', 'on']}


def word(c):
    return f'{c:04X}'


def words(text):
    return ' '.join(map(word, text))


def primary_word(weight):
    return weight.hex().upper().ljust(8, '0')


class Weights:
    """Weights of which none begins another of its level."""

    def __init__(self, random, leads, compressed):
        self.random, self.leads, self.compressed = random, leads, compressed
        self.primaries = []
        self.secondaries = ['0500', '0500', *self.plain([3, 4, *range(0x46, 0x100)], 0xFF)]
        self.tertiaries = ['0500', '0500', *self.plain([2, 3, 4, *range(6, 0x40)], 0x3F)]

    def plain(self, leads, last):
        """Some weights of two bytes with leads of their own."""
        seconds = [0, 0, 2, last, self.random.randint(2, last)]
        return [f'{lead:02X}{self.random.choice(seconds):02X}' for lead in self.random.sample(leads, 5)]

    def primary(self):
        """A primary weight, a new one or one that is there."""
        while True:
            lead = self.random.choice(self.leads)
            low, high = (4, 0xFE) if lead in self.compressed else (2, 0xFF)
            tail = [self.random.choice([low, high, self.random.randint(low, high)])]
            tail += [self.random.choice([2, 0xFF, self.random.randint(2, 0xFF)]) for _ in range(self.random.choice([0, 0, 1,
                                                                                                                    2]))]
            made = bytes([lead, *tail])
            if not any(made != w and (made.startswith(w) or w.startswith(made)) for w in self.primaries):
                self.primaries.append(made)
                return primary_word(made)
            if self.random.random() < 0.3:
                return primary_word(self.random.choice(self.primaries))

    def element(self):
        """A primary, secondary or tertiary element."""
        kind, random = self.random.random(), self.random
        secondary, tertiary = random.choice(self.secondaries), random.choice(self.tertiaries)
        case, quaternary = random.choice('00012'), random.choice('00003')
        if kind < 0.75:
            return f'[{self.primary()}.{secondary}.{case}.{tertiary}.{quaternary}]'
        if kind < 0.94 or tertiary < '0600':
            return f'[{random.choice(["0", "00000000"])}.{secondary}.{case}.{tertiary}.{quaternary}]'
        return f'[0.0000.2.{tertiary}.{quaternary}]'

    def elements(self, most=3):
        count = 8 if self.random.random() < 0.02 else self.random.randint(0, most)
        return ''.join(f' {self.element()}' for _ in range(count))

    def mark(self):
        """The one element of a mark with plain weights beside its secondary."""
        return f' [0.{self.random.choice(self.secondaries)}.0.0500.0]'

    def lone(self):
        """One element that fits one word."""
        short = [w for w in self.secondaries if w.endswith('00')]
        primary = self.primary()
        if primary[4:] != '0000':
            return self.mark()
        return f' [{primary}.{self.random.choice(short)}.{self.random.choice("012")}.0500.0]'


class Draft:
    """A file in the making, which keeps the rules: its lines, and what they use."""

    def __init__(self, random):
        self.random = random
        self.lines = []
        self.records = {}
        self.classes = dict(BUILT_IN_MARKS)
        self.digits, self.mapped = [], []
        self.set_leads()
        self.set_others()
        self.give_classes()
        self.give_mappings()
        self.give_records()
        self.give_ranges()

    def set_leads(self):
        """The leads of numbers, those that are compressible or reordered, groups."""
        random = self.random
        self.numeric = random.choice([0x10, 0x10, 0x10, 3, 0xFC, random.randint(3, 0xFC)])
        leads = [lead for lead in range(3, 0xFD) if lead != self.numeric]
        chosen = random.sample(leads, 12)
        self.range_leads, self.leads = chosen[:3], chosen[3:9]
        if random.random() < 0.2:
            self.leads[:2] = [lead for lead in (3, 0xFC) if lead not in (self.numeric, *self.range_leads)]
        self.compressed = [lead for lead in chosen if random.random() < 0.3] if random.random() < 0.5 else []
        if self.numeric != 0x10 or random.random() < 0.1:
            self.lines.append(f'set numeric {self.numeric:02X}')
        if self.compressed:
            self.lines.append('set compress ' + ' '.join(f'{lead:02X}' for lead in self.compressed))
        alike = [lead for lead in chosen if (lead in self.compressed) == (chosen[-1] in self.compressed)]
        if random.random() < 0.3:
            targets = random.sample(alike, len(alike))
            self.lines.append('set reorder ' + ' '.join(f'{a:02X} {b:02X}' for a, b in zip(alike, targets)))
        if random.random() < 0.3:
            groups = sorted(random.choice([0x300, 0xFFFF, self.numeric << 8, random.randint(0x300, 0xFFFF)]) for _ in range(4))
            if not any(g < 0x300 or g >> 8 == self.numeric and g & 0xFF for g in groups):
                self.lines.append('set groups ' + ' '.join(map(word, groups)))
        self.weights = Weights(random, self.leads, self.compressed)

    def set_others(self):
        self.drops_dots = False
        for name, values in CHOICES.items():
            if self.random.random() < 0.3:
                value = self.random.choice(values)
                self.drops_dots |= (name, value) == ('dotabove', 'on')
                self.lines.append(f'set {name} {value}')

    def give_classes(self):
        for c in self.random.sample(MARKS, self.random.randint(1, 6)):
            self.classes[c] = self.random.choice([1, 9, 129, 202, 220, 220, 230, 230, 230, 240, 254])
            self.lines.append(f'class {word(c)} {self.classes[c]}')
        self.marks = list(self.classes)
        self.letters = self.random.sample([c for c in LETTERS + MARKS if c not in self.classes], self.random.randint(4, 14))

    def give_mappings(self):
        """Mappings of characters that no record names."""
        random, pairs = self.random, set()
        for c in random.sample(LOW + COMPOSED, random.randint(0, 5)):
            first, second = random.choice(self.letters + (self.mapped if c > 0x300 else [])), random.choice(self.marks)
            if (first, second) not in pairs and c not in LETTERS:
                pairs.add((first, second))
                tail = random.choice(['', '', ' x']) if c >= 0x300 else ''
                self.lines.append(f'map {words([c, first, second])}{tail}')
                self.mapped.append(c)
        if random.random() < 0.3:
            self.lines.append(f'map 2127 {word(random.choice(self.letters))}')
        for c in random.sample(COMPATIBLE, random.choice([0, 0, 1, 2])):
            tail = random.choices(self.letters + self.marks, k=random.randint(0, 4))
            self.lines.append(f'kmap {words([c, random.choice(self.letters), *tail])}')
        if random.random() < 0.2:
            self.lines.append(random.choice(['class 0301 230', 'map 0344 0308 0301 x', 'map AC00 1100 1161', 'kmap FF9E 3099',
                                             'class 0F73 0', 'map 0340 0300', 'class AC01 0']))

    def record(self, prefix, text, elements):
        """A record in one of the layers, or in both."""
        if (tuple(prefix), tuple(text)) in self.records:
            return
        self.records[tuple(prefix), tuple(text)] = True
        head = f'{words(prefix)} | {words(text)} ;' if prefix else f'{words(text)} ;'
        layers = self.random.choice(['w', 'w', 'w', 't', 'wt'])
        for layer in layers:
            self.lines.append(f'{layer} {head}{elements()}')

    def give_records(self):
        random, weights = self.random, self.weights
        dots = range(0x300, 0x308) if self.drops_dots else []
        for c in dots:
            self.record([], [c], weights.mark)
        self.letters = [c for c in self.letters if c not in dots]
        self.digits = random.sample([c for c in DIGITS if c not in (*self.classes, *dots, *self.letters)],
                                    random.choice([0, 0, 2, 5]))
        for c in self.digits:
            self.record([], [c], weights.elements)
            self.lines.append(f'digit {word(c)} {random.randint(0, 9)}')
        for c in random.sample(JAMO, random.choice([0, 0, 1, 2])):
            self.record([], [c], weights.lone)
        for c in random.sample(self.letters + self.marks, random.randint(1, 6)):
            if c not in dots:
                self.record([], [c], weights.mark if c in self.classes else weights.elements)
        self.give_texts([c for c in self.marks if c not in dots])
        self.give_prefixes()

    def give_texts(self, beginnings):
        """Longer texts, each with the shorter ones that it needs."""
        random = self.random
        for _ in range(random.choice([0, 1, 1, 2, 4])):
            starters = [random.choice(self.letters + self.digits) for _ in range(random.choice([0, 1, 1, 2, 3, 7]))]
            if starters[:1] and starters[0] in self.digits:
                starters[0] = random.choice(self.letters)
            marks = random.choices(self.marks if starters else beginnings, k=random.choice([0, 1, 1, 2, 3]))
            text = (starters + sorted(marks, key=lambda c: self.classes[c]))[:8] or [random.choice(self.letters)]
            n = len(text)
            self.record([], text, self.weights.elements)
            while n > 2 and text[n - 1] in self.classes:
                n -= 1
                self.record([], text[:n], self.weights.elements)

    def give_prefixes(self):
        random = self.random
        for _ in range(random.choice([0, 0, 1, 3])):
            c = random.choice(self.letters)
            prefix = [random.choice(self.letters) for _ in range(random.randint(1, 3))]
            self.record([], [c], self.weights.elements)
            self.record(prefix, [c], self.weights.elements)

    def give_ranges(self):
        random = self.random
        for first, last in random.sample(PLACES, random.choice([0, 0, 1, 2])):
            lead = random.choice(self.range_leads)
            low = 4 if lead in self.compressed else 2
            size = 251 if lead in self.compressed else 254
            place = random.choice([0, 0, 1, 253, 254, random.randint(0, 4000)])
            room = (size * 254 - 1 - place) // max(1, last - first)
            step = random.choice([1, random.randint(1, max(1, min(127, room))), max(1, min(127, room))])
            last = min(last, first + (size * 254 - 1 - place) // step)
            primary = bytes([lead, low + place // 254, 2 + place % 254])
            self.lines.append(f'range {words([first, last])} {primary_word(primary)} {step}')


def with_others(random, lines):
    """Lines with comments and empty lines among them."""
    if random.random() < 0.3:
        for _ in range(random.randint(1, 5)):
            lines.insert(random.randint(0, len(lines)), random.choice(['', '#', '# x', '#' + 'y' * random.choice([9, 1023])]))
    return lines


def random_file(random):
    """The lines of a file, and whether the last lacks its LF."""
    draft = Draft(random)
    lines = draft.lines
    if random.random() < 0.4:
        random.shuffle(lines)
    count = random.choices([0, 1, 2], [0.2, 0.62, 0.18])[0]
    for _ in range(count):
        near = random.choice(NEAR)
        added = near(draft)
        if random.random() < 0.3:
            random.shuffle(added)
        places = sorted(random.choices([random.randint(0, len(lines)), len(lines)], k=len(added)))
        for shift, (place, line) in enumerate(zip(places, added)):
            lines.insert(place + shift, line)
    lines = with_others(random, lines)
    if random.random() < 0.04:
        lines = any_edit(random, lines)
    return lines, random.random() < 0.1
