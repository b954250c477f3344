"""Random weights over random classes and mappings, and random texts over them, for compare_elements.py and compare_orders.py."""

LETTERS = [*range(0x61, 0x7B), 0x391, 0x3B1, 0x5D0, 0x915, 0x3046, 0x4E00, 0x10400, 0x1F600]
MARKS = [*range(0x300, 0x318), 0x323, 0x328, 0x345, 0x350, 0x93C, 0xF71, 0xF72, 0xF74, 0x3099, 0x309A, 0x1D165]
COMPOSED = [0xE0, 0xE1, 0xE2, 0xE4, 0xF2, 0x1EA1, 0x1EA3, 0x1EA5, 0x1E00, 0x212B, 0xF900]
DIGITS = [*range(0x30, 0x3A), 0x661, 0x662]
RANGES = [(0x4E01, 0x9FFF), (0x3400, 0x4DB5), (0x20000, 0x2A6D6), (0x1200, 0x1380), (0x61, 0x7A), (0x2000, 0x2100), (0xD000, 0xE100)]
JAMO = [0x1100, 0x1112, 0x1113, 0x1161, 0x1175, 0x1176, 0x11A7, 0x11A8, 0x11C2, 0x11FF]
SYLLABLES = [0xAC00, 0xAC01, 0xAC1C, 0xD7A3]
SPECIAL = [0xFFFD, 0xFFFE, 0xFFFF]
BUILT_IN = [0x340, 0x341, 0x343, 0x344, 0xF73, 0xF75, 0xF81, 0xFF9E]
ABOVE = [0x300, 0x301, 0x303, 0x307, 0x307]


def word(c):
    return f'{c:04X}'


def words(text):
    return ' '.join(map(word, text))


class Weights:
    """Weights of which none begins another, in any order."""

    def __init__(self, random):
        self.random, self.given = random, 0

    def primary(self):
        """A primary of two, three or four bytes; the number of bytes goes by the lead."""
        self.given += 1
        lead = self.random.choice([0x29, 0x2A, 0x2A, 0x2B, 0x60, 0x61])
        count = {0x29: 2, 0x2A: 2, 0x2B: 3, 0x60: 4, 0x61: 3}[lead]
        tail = [self.random.randint(4, 0xFE) for _ in range(count - 1)]
        return ''.join(f'{byte:02X}' for byte in [lead, *tail, 0, 0, 0][:4])

    def element(self):
        """A primary, secondary or tertiary element."""
        kind = self.random.random()
        secondary = self.random.choice(['0500', '0500', '8800', '8A00', '8C02', '9003', '0300'])
        tertiary = self.random.choice(['0500', '0500', '0900', '3F00', '0C03', '0300'])
        case, quaternary = self.random.choice('00012'), self.random.choice('000003')
        if kind < 0.7:
            return f'[{self.primary()}.{secondary}.{case}.{tertiary}.{quaternary}]'
        if kind < 0.95:
            return f'[0.{secondary}.{case}.{tertiary}.{quaternary}]'
        return f"[0.0000.2.{self.random.choice(['0900', '3F00', '0C03'])}.{quaternary}]"

    def elements(self, most=4):
        """Elements of a text; mostly a common one, sometimes none."""
        if self.random.random() < 0.35:
            return f'[{self.primary()}.0500.0.0500.0]'
        if self.random.random() < 0.04:
            return ' '.join(self.element() for _ in range(8))
        return ' '.join(self.element() for _ in range(self.random.randint(0, most)))

    def mark(self):
        """The one element of a mark with common weights beside its secondary."""
        return f"[0.{self.random.choice(['8600', '8800', '8A00', '8C02', '9003'])}.0.0500.0]"

    def lone(self):
        """One element that fits one word."""
        return self.random.choice([f'[{self.primary()[:4]}0000.0500.0.0500.0]', self.mark(), '[2A300000.8800.2.0900.0]'])


def canonical_lines(random):
    """Classes of marks and mappings to letters with them."""
    marks = random.sample(MARKS, random.randint(3, 9))
    lines = [f'class {word(c)} {random.choice([1, 8, 202, 220, 220, 230, 230, 230, 240])}' for c in marks]
    bases, mapped = LETTERS[:6], []
    for c in random.sample(COMPOSED, random.randint(1, 6)):
        tail = [random.choice(marks)] if random.random() < 0.85 else []
        lines.append(f'map {words([c, random.choice(bases + mapped), *tail])}' + (' x' if tail and random.random() < 0.2 else ''))
        mapped.append(c)
    return lines, marks, mapped


def random_text(random, letters, marks, most):
    """What a record may name: starters, then marks."""
    starters = random.choice([1, 1, 1, 2, 2, 3, 3, 4, 6, 8])
    behind = random.choice([0, 0, 1, 1, 2, 3])
    text = [random.choice(letters) for _ in range(min(starters, most))]
    return text + [random.choice(marks) for _ in range(min(behind, most - len(text)))]


def record_lines(random, weights, letters, marks, kind):
    """Records of letters, of marks and of longer texts."""
    lines = [f'{kind} {word(c)} ; {weights.elements()}' for c in letters if random.random() < 0.75]
    lines += [f'{kind} {word(c)} ; {weights.mark() if random.random() < 0.7 else weights.elements(2)}' for c in marks]
    texts = [random_text(random, letters, marks, 8) for _ in range(random.randint(2, 14))]
    texts += [text[:n] + [random.choice(marks + letters)] for text in texts for n in [random.randint(1, len(text))] if len(text) < 8]
    # marks in front, and those that may join one by one
    texts += [[c, *random.choices(marks, k=n)] for c in random.choices(letters, k=2) for n in (1, 1, 2, 3)]
    texts += [random.choices(marks, k=2) for _ in range(random.randint(0, 2))]
    lines += [f'{kind} {words(text[:n])} ; {weights.elements()}' for text in texts for n in range(2, len(text) + 1)]
    return lines


def prefix_lines(random, weights, letters, kind):
    """Records of letters behind one to three others, shorter and longer ones of the same end."""
    lines = []
    for _ in range(random.randint(0, 6)):
        c, prefix = random.choice(letters), [random.choice(letters) for _ in range(3)]
        lines += [f'{kind} {words(prefix[3 - n:])} | {word(c)} ; {weights.elements()}' for n in range(1, 4) if random.random() < 0.7]
    return lines


def digit_lines(random, weights):
    lines = []
    for place, c in enumerate(DIGITS):
        value = place % 10
        if random.random() < 0.93:
            lines += [f"w {word(c)} ; {weights.elements(2) or '[29100000.0500.0.0500.0]'}", f'digit {word(c)} {value}']
    return lines


def range_lines(random):
    lines = []
    for first, last in random.sample(RANGES, random.randint(0, 3)):
        lead = random.choice(['E0', 'E1', 'D0'])
        second, third = random.choice(['04', '20', '80']), random.choice(['02', 'FF', '80'])
        lines.append(f"range {word(first)} {word(last)} {lead}{second}{third}00 {random.choice([1, 1, 1, 2, 3, 7, 127])}")
    return lines


def setting_lines(random):
    lines = [f"set dotabove {random.choice(['on', 'off'])}"] if random.random() < 0.6 else []
    if random.random() < 0.5:
        lines.append(f"set numeric {random.choice(['0F', '11', '3C'])}")
    if random.random() < 0.5:
        lines.append(f"set compress {random.choice(['61', '61 E0', 'E0 E1', '60 D0'])}")
    return lines


def random_lines(random):
    """Lines most of which fit together, the letters and the marks that they speak of, and the mapped characters."""
    weights = Weights(random)
    lines, marks, mapped = canonical_lines(random)
    letters = random.sample(LETTERS, random.randint(3, 8))
    has_dot = random.random() < 0.4
    if has_dot:
        marks = sorted({*marks, *range(0x300, 0x308)})
        lines += [f'class {word(c)} 230' for c in range(0x300, 0x308)]
        lines += [f'w {word(c)} ; {weights.mark()}' for c in range(0x300, 0x308)]
    lines += setting_lines(random)
    if has_dot:
        lines.append('set dotabove on')
    lines += record_lines(random, weights, letters, marks, 'w')
    lines += prefix_lines(random, weights, letters, 'w')
    lines += digit_lines(random, weights) if random.random() < 0.7 else []
    lines += [f'w {word(c)} ; {weights.lone()}' for c in random.sample(JAMO, random.randint(0, 4))]
    lines += range_lines(random)
    if random.random() < 0.35:
        tailored = random.sample(letters, random.randint(1, 3))
        lines += record_lines(random, weights, tailored, marks, 't')[:20]
        lines += prefix_lines(random, weights, tailored, 't')
    return lines, letters, marks, mapped


def random_weights(random, read, is_fault):
    """Records that a reader takes, and the characters that they speak of. A line that it refuses is left out."""
    lines, *characters = random_lines(random)
    kept = []
    for line in lines:
        if not is_fault(read('\n'.join([*kept, line, '']).encode())):
            kept.append(line)
    return kept, *characters


def recorded_texts(lines):
    """The texts of records, each with its prefix before it."""
    keys = [line[2:].split(' ;')[0] for line in lines if line[:2] in ('w ', 't ')]
    return [[int(c, 16) for c in key.replace('|', ' ').split()] for key in keys]


def range_characters(lines):
    """The ends of ranges, and characters near them."""
    said = [line.split() for line in lines if line.startswith('range')]
    near = [end + step for words in said for end in (int(words[1], 16), int(words[2], 16)) for step in (-1, 0, 1)]
    return [c for c in near if not 0xD800 <= c <= 0xDFFF]


def any_character(random):
    """A scalar value, small ones as often as large ones."""
    while True:
        c = random.randrange(1 << random.randint(7, 21))
        if c <= 0x10FFFF and not 0xD800 <= c <= 0xDFFF:
            return c


def number(random):
    """The digits of a number, sometimes a long one."""
    count = random.choice([1, 1, 2, 3, 5, 6, 7, 7, 8, 9, 16, 253, 254, 255, 300])
    zeros = random.choice([0, 0, 0, 1, 4])
    kind = random.random()
    digits = [random.choice(DIGITS) if kind < 0.1 else random.choice(DIGITS[:10]) for _ in range(count)]
    if kind > 0.8:
        digits = digits[:1] + [0x30] * (count - 1)
    return [0x30] * zeros + digits


def piece(random, texts, near, letters, marks, mapped):
    """A part of a text, by chance of a kind."""
    kind = random.random()
    if kind < 0.35 and texts:
        text = list(random.choice(texts))
        # marks among those of a recorded text, or behind it
        for _ in range(random.choice([0, 0, 1, 2])):
            text.insert(random.randint(1, len(text)), random.choice(marks))
        return text[:random.randint(1, len(text))] if random.random() < 0.25 else text
    if kind < 0.5:
        return [random.choice(letters), *random.choices(marks, k=random.choice([0, 0, 1, 2, 3, 5]))]
    if kind < 0.6:
        return [random.choice(mapped or letters), *random.choices(marks, k=random.choice([0, 1]))]
    if kind < 0.68:
        return random.choices(ABOVE, k=random.randint(1, 5))
    if kind < 0.76:
        return number(random)
    if kind < 0.82:
        return [random.choice(JAMO + SYLLABLES)]
    if kind < 0.86:
        return [random.choice(SPECIAL)]
    if kind < 0.92:
        return [random.choice(near or letters)]
    return [random.choice(BUILT_IN) if kind < 0.95 else any_character(random)]


def random_characters(random, lines, letters, marks, mapped):
    """A text over records."""
    texts, near = recorded_texts(lines), range_characters(lines)
    parts = [piece(random, texts, near, letters, marks, mapped) for _ in range(random.randint(1, 8))]
    return [c for part in parts for c in part]
