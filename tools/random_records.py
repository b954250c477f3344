"""Random canonical and compatibility records, and random texts over them, for compare_forms.py and compare_mapper.py."""

MARKS = [*range(0x300, 0x330), *range(0x5B0, 0x5C0), 0x93C, 0xF39, 0x3099, 0x1D165, 0x1E944]
STARTERS = [*range(0x41, 0x5B), *range(0x61, 0x7B), 0x391, 0x3B1, 0x5D0, 0x915, 0x3046, 0x4E00, 0xE000, 0x10400, 0x1F600]
MAPPED = [*range(0xC0, 0x180), *range(0x1E00, 0x1F00), 0x212B, 0x2126, 0x958, 0xF900, 0x1D15E, 0x2F800]
COMPATIBLE = [0xA0, 0xAA, 0xB2, 0xB9, 0xBD, 0x2460, 0xFB01, 0xFDFA, 0xFF21, 0x1D400]
BUILT_IN = [0x340, 0x341, 0x343, 0x344, 0xF71, 0xF72, 0xF73, 0xF74, 0xF75, 0xF80, 0xF81, 0x3099, 0xFF9E, 0xFF9F,
            0x1100, 0x1112, 0x1113, 0x1161, 0x1175, 0x1176, 0x11A7, 0x11A8, 0x11C2, 0x11C3,
            0xAC00, 0xAC01, 0xAC1B, 0xAC1C, 0xD788, 0xD7A3, 0xFFFD]
EDGES = [0, 0x20, 0x7F, 0x80, 0x9F, 0xA0, 0xBF, 0x2FF, 0x7FF, 0x800, 0xD7FF, 0xFFFE, 0xFFFF, 0x10000, 0x10FFFF]
# newlines part the texts of a file, and a bar the two parts of a text
RESERVED = (0xA, 0xD, 0x7C)


def word(c):
    return f'{c:04X}'


def any_character(random):
    """A scalar value, small ones as often as large ones."""
    while True:
        c = random.randrange(1 << random.randint(7, 21))
        if c <= 0x10FFFF and not 0xD800 <= c <= 0xDFFF and c not in RESERVED:
            return c


def random_lines(random):
    """Lines of classes and mappings, most of which fit together; the characters that they speak of."""
    marks = random.sample(MARKS, random.randint(2, 8))
    starters = random.sample(STARTERS, random.randint(2, 10))
    targets = starters + marks + random.sample(BUILT_IN, 2)
    lines = [f'class {word(c)} {random.choice([1, 8, 9, 202, 220, 220, 230, 230, 230, 240, 254])}' for c in marks]
    for c in random.sample(MAPPED, random.randint(1, 14)):
        first = random.choice(targets)
        second = random.choice([[], marks, marks, marks, marks, targets])
        tail = [random.choice(second)] if second else []
        lines.append(' '.join(['map', word(c), word(first), *map(word, tail), *(['x'] if random.random() < 0.15 else [])]))
        targets.append(c)
    for c in random.sample(COMPATIBLE + MAPPED, random.randint(0, 5)):
        lines.append(' '.join(['kmap', word(c), *(word(random.choice(targets)) for _ in range(random.randint(1, 4)))]))
        targets.append(c)
    return lines, targets


def random_records(random, read, is_fault):
    """Records that a reader takes, and characters that they speak of. A line that it refuses is left out."""
    lines, targets = random_lines(random)
    kept = []
    for line in lines:
        if not is_fault(read('\n'.join([*kept, line, '']).encode())):
            kept.append(line)
    return kept, targets


def pairs_of(lines):
    """The two characters of each mapping to two."""
    said = [line.split() for line in lines if line.startswith('map')]
    return [(int(words[2], 16), int(words[3], 16)) for words in said if words[3:] and words[3] != 'x']


def random_characters(random, targets, pairs):
    """A text: characters of the records, the two of a mapping with marks between or behind them, some of all these in
    long runs, built-in characters and any others."""
    text = []
    for _ in range(random.randint(0, 14)):
        kind = random.random()
        if kind < 0.2 and pairs:
            first, second = random.choice(pairs)
            marks = [c for c in targets + MARKS[:6] if c in MARKS]
            text += [first, *random.choices(marks, k=random.choice([0, 0, 1, 1, 2]))]
            text += [second, *random.choices(marks, k=random.choice([0, 0, 0, 1]))]
        elif kind < 0.55:
            text.append(random.choice(targets))
        elif kind < 0.65:
            text.append(random.choice(STARTERS))
        elif kind < 0.75:
            text.append(random.choice(MARKS))
        elif kind < 0.88:
            text.append(random.choice(BUILT_IN))
        elif kind < 0.94:
            text.append(random.choice(EDGES))
        else:
            text.append(any_character(random))
    if random.random() < 0.08:
        place = random.randint(0, len(text))
        text[place:place] = [random.choice(targets) for _ in range(random.randint(5, 24))]
    return text
