"""Lines that put a random records file near to a rule, on either side: random_files.py.

Each function is given a draft of a file (`random_files.Draft`), and answers lines for it; some change its own."""

BUILT_IN_LINES = ['class 0301 230', 'class 0301 220', 'class 0F73 0', 'class FF9F 9', 'class 1100 0', 'class 11FF 9',
                  'class AC00 0', 'class D7A3 9',
                  'class FFFD 0', 'class FFFD 9', 'class FFFE 9', 'class 3099 8', 'class 0344 230', 'map 0340 0300',
                  'map 0340 0300 x', 'map 0341 0300',
                  'map 0344 0308 0301', 'map 0344 0308 0301 x', 'map 0F73 0F71 0F72 x', 'map 0F75 0F71 0F72 x',
                  'map AC00 1100 1161', 'map AC01 AC00 11A8',
                  'map AC00 1100 1161 x', 'map AC01 AC00 11A9', 'map D7A3 D788 11C2', 'map FF9E 3099', 'kmap FF9E 3099',
                  'kmap FF9F 3099', 'kmap 0340 0300',
                  'kmap AC00 1100 1161', 'map 1100 0061', 'kmap 11FF 0061', 'map FFFD 003F', 'map FFFE 003F', 'kmap FFFF 003F']
EDGES = ['10FF', '1100', '1160', '1161', '1175', '11A7', '11FF', '1200', 'ABFF', 'AC00', 'AC01', 'D7A3', 'D7A4', '02FF', '0300']
ALPHABET = '0123456789ABCDEFabfwx;|[]. -#\té\r'


def fresh(draft, count):
    """Code points that nothing else names."""
    return [f'{c:04X}' for c in draft.random.sample(range(0xA000, 0xA0C0), count)]


def letter(draft):
    return f'{draft.random.choice(draft.letters):04X}'


def mark(draft):
    return f'{draft.random.choice(draft.marks):04X}'


def some(draft, lines, low, high):
    return draft.random.sample(lines, draft.random.randint(low, min(high, len(lines))))


def without(draft, beginning):
    """Drops the lines that begin so."""
    draft.lines[:] = [line for line in draft.lines if not line.startswith(beginning)]


def any_edit(random, lines):
    """Lines of which one is edited somewhere."""
    if not lines:
        return lines
    place = random.randrange(len(lines))
    line = lines[place]
    at = random.randint(0, len(line))
    kind = random.randrange(5)
    if kind == 0:
        line = line[:at] + random.choice(ALPHABET) + line[at:]
    elif kind == 1:
        line = line[:at] + line[at + 1:]
    elif kind == 2:
        line = line[:at] + random.choice(ALPHABET) + line[at + 1:]
    elif kind == 3:
        fields = line.split(' ')
        field = random.randrange(len(fields))
        fields[field:field + 1] = random.choice([[], [fields[field]] * 2, [''], [fields[field].lower()], ['0' + fields[field]]])
        line = ' '.join(fields)
    else:
        line = line + ' ' * (1 if not line.startswith('#') else random.choice([1, max(0, 1024 - len(line)),
                                                                               1025 - min(1025, len(line))]))
    return [*lines[:place], line, *lines[place + 1:]]


def grammar(draft):
    draft.lines[:] = any_edit(draft.random, draft.lines)
    return []


def c1(draft):
    a, b = fresh(draft, 2)
    return some(draft, [f'class {a} 9', f'map {a} {letter(draft)}', f'kmap {a} {letter(draft)}', f'class {b} 220',
                        f'map {b} {letter(draft)} x',
                        f'map {mark(draft)} {letter(draft)}'], 2, 3)


def c2(draft):
    names = fresh(draft, 5)
    chain = [f'{draft.random.choice(["map", "kmap"])} {a} {b}' for a, b in zip(names, names[1:])]
    back = draft.random.choice([f'kmap {names[4]} {letter(draft)} {draft.random.choice(names)}',
                                f'map {names[4]} {draft.random.choice(names)}'])
    return some(draft, [*chain, back, back], 3, 6) if draft.random.random() < 0.3 else [*chain, back]


def c3(draft):
    where = draft.random.choice([*fresh(draft, 2), *fresh(draft, 2), '0F73', 'FF9E', 'AC00', '0F71'])
    return [f'class {where} {draft.random.choice([0, 1, 254, 255, 256, 999, 0, 255])}']


def c4(draft):
    a, b, c, d, e = fresh(draft, 5)
    if draft.random.random() < 0.5:
        top = draft.random.choice([f'map {e} {a} {letter(draft)} x', f'kmap {e} {a} {letter(draft)}', f'kmap {e} {b} {b}',
                                   f'map {e} {a}'])
        return [f'map {a} {b} {b} x', f'map {b} {c} {c} x', f'{draft.random.choice(["map", "kmap"])} {c} {d} {letter(draft)}',
                top]
    first = draft.random.choice([mark(draft), b, b, '0344', 'FF9E', 'FF9F'])
    lines = [f'{draft.random.choice(["map", "kmap"])} {a} {first} {letter(draft)}' + draft.random.choice(['', ' 0350'])]
    return [*lines, *some(draft, [f'class {b} 9', f'kmap {c} {a}', f'class {d} 9'], 1, 3)]


def c5(draft):
    a, b, c = fresh(draft, 3)
    first, second = letter(draft), mark(draft)
    pairs = [(first, second), (first, second), (letter(draft), second), (first, c), (c, first)]
    return [f'map {name} {" ".join(draft.random.choice(pairs))}{draft.random.choice(["", "", "", " x"])}' for name in (a, b)]


def c6(draft):
    a, b = fresh(draft, 2)
    second = draft.random.choice(['0000', '0061', '00FF', '02FF', '0300', '1161', '1175', '11A8', '11FF', '1200', b])
    return [f'map {a} {letter(draft)} {second}{draft.random.choice(["", "", "", " x"])}']


def c7(draft):
    a, b = fresh(draft, 2)
    return draft.random.choice([
        [f'class {draft.random.choice(["0000", "02FF", "0300", "00FF"])} 230'],
        [f'map {draft.random.choice(["00BF", "00BE", "01C0", "01C1"])} {letter(draft)} {a}{draft.random.choice(["", " x"])}'],
        [f'map {draft.random.choice(["02FF", "0300"])} {letter(draft)}'],
        [f'kmap {draft.random.choice(["009F", "009E", "00A8", "0020"])} {letter(draft)}'],
        [f'map 01C0 {letter(draft)} {a}', f'map 01C1 01C0 {b}', f'class {a} 230',
         f'class {b} {draft.random.choice([220, 230, 240])}'],
        [f'map 01C0 {letter(draft)} {a}', f'map {draft.random.choice([a, b])} {letter(draft)}']])


def c8(draft):
    return some(draft, BUILT_IN_LINES, 1, 2)


def c9(draft):
    a = fresh(draft, 1)[0]
    edge = draft.random.choice(EDGES)
    return [draft.random.choice([f'map {a} {edge}', f'kmap {a} {letter(draft)} {edge}', f'map {a} {letter(draft)} {edge} x',
                                 f'kmap {a} {edge} {letter(draft)}'])]


def element_line(draft, primary, secondary, case, tertiary, quaternary='0'):
    """A record with an element, maybe behind or before a sound one."""
    elements = [f'[{primary}.{secondary}.{case}.{tertiary}.{quaternary}]', draft.weights.element()]
    draft.random.shuffle(elements)
    if draft.random.random() < 0.6:
        elements = [e for e in elements if e.startswith(f'[{primary}.{secondary}.')]
    return f'{draft.random.choice("wt")} {fresh(draft, 1)[0]} ; {" ".join(elements)}'


def v1(draft):
    random = draft.random
    return [element_line(draft, random.choice(['0', draft.weights.primary()]), random.choice(['0000', '0500']),
                         random.choice('0122'),
                         random.choice(['0000', '0500', '0600', '3F00', '0400']))]


def v2(draft):
    random = draft.random
    lead = random.choice([2, 3, 0xFC, 0xFD, 0xFE, draft.numeric, *draft.leads, *draft.leads, *draft.compressed])
    tail = [random.choice([0, 1, 2, 3, 4, 0xFE, 0xFF, random.randint(4, 0xFE)]) for _ in range(random.choice([1, 1, 2, 3]))]
    primary = bytes([lead, *tail, 0, 0, 0][:4])
    lines = [element_line(draft, primary.hex().upper(), '0500', '0', '0500')]
    if random.random() < 0.25:
        without(draft, 'set numeric')
        lines.append(f'set numeric {random.choice([lead, draft.numeric, 16]):02X}')
    elif random.random() < 0.25:
        without(draft, 'set compress')
        lines.append(f'set compress {random.choice([lead, draft.leads[0]]):02X}')
    return lines


def v3(draft):
    secondary = draft.random.choice([0x200, 0x2FF, 0x300, 0x301, 0x4FF, 0x501, 0x5FF, 0x600, 0x45FF, 0x4600, 0x4601, 0x4602,
                                     0xFF00, 0xFF01, 0xFFFF, 1, 0x100])
    return [element_line(draft, draft.random.choice(['0', draft.weights.primary()]), f'{secondary:04X}', '0', '0500')]


def v4(draft):
    tertiary = draft.random.choice([1, 0x100, 0x1FF, 0x200, 0x201, 0x43F, 0x440, 0x501, 0x502, 0x53F, 0x600, 0x601, 0x63F,
                                    0x640, 0x3F3F, 0x3F40, 0x4000, 0xFF00])
    if draft.random.random() < 0.2:
        return [element_line(draft, '0', '0000', '2', f'{tertiary:04X}')]
    return [element_line(draft, draft.random.choice(['0', draft.weights.primary()]), '0500', draft.random.choice('012'),
                         f'{tertiary:04X}')]


def v5(draft):
    random, weights = draft.random, draft.weights
    kind = random.randrange(4)
    if kind < 2:
        weight = bytes.fromhex(weights.primary()).rstrip(b'\0')
        other = random.choice([weight[:-1], weight + bytes([random.randint(4, 0xFE)]),
                               weight[:-1] + bytes([random.randint(4, 0xFE)])])
        if len(other) < 2 or len(other) > 4:
            other = weight[:2]
        return [element_line(draft, other.hex().upper().ljust(8, '0'), '0500', '0', '0500')]
    pool = [w for w in (weights.secondaries if kind == 2 else weights.tertiaries) if w != '0500']
    weight = random.choice(pool)
    last = 0xFF if kind == 2 else 0x3F
    other = weight[:2] + random.choice(['00', weight[2:], f'{random.randint(2, last):02X}'])
    lines = [element_line(draft, '0', other, '0', '0500') if kind == 2 else element_line(draft, '0', '0500',
                                                                                         random.choice('012'), other)]
    return lines + ([element_line(draft, '0', weight, '0', '0500') if kind == 2 else element_line(draft, '0', '0500', '1',
                                                                                                  weight)]
                    if random.random() < 0.7 else [])


def range_line(draft, first, last, primary, step):
    return f'range {first:04X} {last:04X} {bytes(primary).hex().upper():0<8} {step}'


def v6(draft):
    random = draft.random
    lead = random.choice([*draft.range_leads, *draft.range_leads, draft.numeric, 2, 3, 0xFC, 0xFD, *draft.leads[:1],
                          *draft.compressed[:1]])
    kind = random.randrange(7)
    first = 0x30000 + 0x100 * random.randrange(16)
    if kind == 0:
        primary = [lead, random.choice([0, 1, 2, 3, 4, 5, 0xFE, 0xFF]), random.choice([0, 1, 2, 0xFF]),
                   random.choice([0, 0, 0, 2])]
        return [range_line(draft, first, first, primary, random.choice([0, 1, 127, 128, 999]))]
    if kind == 1:
        return [range_line(draft, first, first + random.choice([-1, 0, 1]), [lead, 4, 2], random.choice([0, 1, 127, 128, 200]))]
    if kind == 2:
        return [range_line(draft, first, first + 1, [lead, random.choice([0xFE, 0xFF]), random.choice([0xFE, 0xFF])],
                           random.choice([1, 2]))]
    if kind == 3:
        low, high = random.choice([(0x10F0, 0x10FF), (0x10F0, 0x1100), (0x11FF, 0x1210), (0x1200, 0x1210), (0x1150, 0x1151),
                                   (0x1000, 0x1300)])
        return [range_line(draft, low, high, [lead, 4, 2], 1)]
    if kind == 4:
        others = [draft.range_leads[0], 4, 2]
        shift = random.choice([-2, -1, 0, 1, 2])
        return [range_line(draft, first, first + 1, [lead, 4, 2], 1),
                range_line(draft, first + shift, first + shift + random.choice([0, 1, 5]), others, 1)]
    if kind == 5:
        plain = lead not in draft.compressed
        room = (254 if plain else 251) * 254 // (step := random.choice([1, 2, 127]))
        return [range_line(draft, first, first + room - random.choice([0, 1, 2]), [lead, 2 if plain else 4, 2], step)]
    without(draft, 'set compress')
    return [range_line(draft, first, first + 1, [lead, random.choice([3, 4, 0xFE, 0xFF]), random.choice([2, 0xFE, 0xFF])],
                       random.choice([1, 2])),
            f'set compress {random.choice([lead, draft.leads[0]]):02X}']


NEAR_BELOW = [grammar, c1, c2, c3, c4, c5, c6, c7, c8, c9, v1, v2, v3, v4, v5, v6]
