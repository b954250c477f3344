"""More lines that put a random records file near to a rule: those of texts, prefixes, digits, settings and limits."""

from random_edges import NEAR_BELOW, c5, fresh, letter, mark, some, v4, v5, without

JAMO = ['1100', '1160', '1161', '11A8', '11FF']


def by_class(draft, marks):
    """Marks in the order of their classes."""
    return sorted(marks, key=lambda c: draft.classes[int(c, 16)])


def two_marks(draft):
    """Two marks of different classes, the lower one first."""
    while True:
        a, b = by_class(draft, [mark(draft), mark(draft)])
        if draft.classes[int(a, 16)] != draft.classes[int(b, 16)]:
            return a, b


def v7(draft):
    a, b = fresh(draft, 2)
    low, high = two_marks(draft)
    starter = letter(draft)
    shorter = [f'w {a} {low} ;', f'w {a} {high} ;']
    return draft.random.choice([
        [f'w {a} ;', f'map {draft.random.choice([a, b])} {starter}'],
        [f'w {draft.random.choice(["ABFF", "AC00", "D7A3", "D7A4", "0340", "0344", "FF9E", "0F73"])} ;'],
        [f'w {a} {low} {high} ;', *shorter], [f'w {a} {high} {low} ;', *shorter], [f'w {a} {low} {high} ;', *shorter],
        [f'w {a} {high} {low} ;', *shorter],
        [f'w {a} ;', f'w {starter} {b} | {a} ;', f'map {b} {starter}'],
        [f'w {a} {low} {b} ;', f'w {a} {low} ;', f'class {b} {draft.random.choice([1, 230, 254])}'],
        [f't {starter} {draft.random.choice(draft.mapped or [0xAC00]):04X} ;'],
        [f'w {a} ;', f'kmap {a} {starter}']])


def v8(draft):
    a, b, c = fresh(draft, 3)
    low, high = by_class(draft, [mark(draft), mark(draft)])
    return draft.random.choice([
        [f'w {a} {low} {b} ;'], [f'w {a} {b} {low} ;', f'w {a} {b} ;'], [f'w {low} {a} ;'],
        [f'w {a} {low} {high} {b} ;', f'w {a} {low} ;'],
        [f'w {a} {b} {c} ;', f'class {draft.random.choice([b, c])} 230'],
        [f'w {a} {b} ;', f'class {draft.random.choice([a, b])} 230'],
        [f't {a} {low} {b} {low} ;', f'w {a} {low} {b} ;']])


def v9(draft):
    a, b, c, d = fresh(draft, 4)
    low, high = by_class(draft, [mark(draft), mark(draft)])
    layer = draft.random.choice('wt')
    text = draft.random.choice([[a, b, low], [a, b, c, low], [a, low, high], [a, b, low, high], [a, b, c, d, low, high]])
    ends = [n for n in range(1, len(text)) if draft.random.random() < 0.8]
    lines = [f'{draft.random.choice("wwt")} {" ".join(text[:n])} ;' for n in ends] + [f'{layer} {" ".join(text)} ;']
    if draft.random.random() < 0.2:
        lines += [f'w {a} {b} {c} ;', f'class {c} 9']
    return lines


def v10(draft):
    a, b, c, d = fresh(draft, 4)
    m, jamo = mark(draft), draft.random.choice(JAMO)
    digit = f'{draft.random.choice(draft.digits):04X}' if draft.digits else c
    prefix = draft.random.choices([b, letter(draft), letter(draft)], k=draft.random.randint(1, 3))
    if draft.random.random() < 0.6:
        prefix[draft.random.randrange(len(prefix))] = draft.random.choice([m, jamo, digit, '0000', '0001', d, b, letter(draft)])
    text = draft.random.choice([a, a, a, a, a, m, digit, f'{a} {b}', d, jamo])
    lines = [f'{draft.random.choice("wt")} {" ".join(prefix)} | {text} ;']
    if draft.random.random() < 0.8:
        lines.append(f'{draft.random.choice("wt")} {draft.random.choice([a, a, a, a, text])} ;')
    return lines + draft.random.choice([[], [], [f'class {d} 9'], [f'w {d} ;', f'digit {d} 3']])


def v11(draft):
    a, b, c = fresh(draft, 3)
    lines = [f'digit {a} {draft.random.randint(0, 9)}']
    lines += some(draft, [f'w {a} ;', f't {a} ;'], 0, 2) + some(draft,
                                                                [f'w {a} {b} ;', f't {a} {b} ;', f'w {b} {a} ;', f'w {c} ;',
                                                                 f't {c} ;'], 0, 2)
    return lines + draft.random.choice([[], [], [], [f'class {draft.random.choice([a, b])} 9'],
                                        [f'digit {draft.random.choice([mark(draft), "1110"])} 0'],
                                        [f'digit {letter(draft)} 1']])


def v12(draft):
    a = fresh(draft, 1)[0]
    random, weights = draft.random, draft.weights
    jamo = random.choice(['1110', '116F', '11FE', '10FF', '1200'])
    primary = weights.primary()
    odd = random.choice([f'[{primary}.0500.0.0500.0]', f'[{primary}.0500.1.0500.0]', f'[{primary}.0500.0.0500.3]',
                         weights.element(), '[0.0500.0.0500.0]'])
    return random.choice([
        [f'w {jamo} ;'], [f'w {jamo} ; {odd}'], [f'w {jamo} ; {odd}'], [f'w {jamo} ; {odd}'], [f'w {jamo} ; {odd} {odd}'],
        [f'w {jamo} ;', f't {jamo} ; {odd}'],
        [f'w {jamo} ; {odd}', f't {jamo} ;'], [f'w {jamo} {a} ;'], [f'w {a} {jamo} ;'],
        [f'w {jamo} ; {odd}', f't {jamo} ; {odd}']])


def v13(draft):
    a, b = fresh(draft, 2)
    special = draft.random.choice(['FFFC', 'FFFD', 'FFFE', 'FFFF', '10000'])
    lead = draft.range_leads[0]
    first = draft.random.choice([0x10000, 0xFFFE, 0xFFFF, 0xFFFD])
    return draft.random.choice([
        [f'w {special} ;'], [f't {a} {special} ;'], [f'w {a} ;', f'w {special} {b} | {a} ;'],
        [f'digit {special} 0', f'w {special} ;'],
        [f'class {special} 9'], [f'kmap {a} {special}'], [f'range {first:04X} 10001 {lead:02X}040200 1']])


def v14(draft):
    random = draft.random
    known = [line for line in draft.lines if not line.startswith(('range', '#'))]
    if not known:
        return []
    fields = random.choice(known).split(' ')
    if random.random() < 0.5:
        return [' '.join(fields)]
    if fields[0] in 'wt':
        end = fields.index(';')
        kind = random.choice([fields[0], 'w' if fields[0] == 't' else 't'])
        text = fields[1:end]
        if random.random() < 0.3 and '|' not in text:
            text = [letter(draft), '|', *text]
        return [' '.join([kind, *text, ';'])]
    if fields[0] in ('class', 'digit'):
        return [' '.join([fields[0], fields[1], random.choice(['1', '2', fields[2]])])]
    if fields[0] in ('map', 'kmap'):
        return [' '.join([random.choice(['map', 'kmap', fields[0]]), fields[1], letter(draft)])]
    return [random.choice(['set backward off', 'set numeric 10', 'set alternate shifted', 'set dotabove off'])]


def v15(draft):
    random = draft.random
    present = {text for prefix, text in draft.records if not prefix and 0x300 <= text[0] <= 0x307}
    if draft.drops_dots:
        c = f'{random.randint(0x300, 0x309):04X}'
        return random.choice([[f't {c} ;{draft.weights.mark()}'], [f't {c} ;{draft.weights.elements()}'],
                              [f'w {c} {mark(draft)} ;'],
                              [f'w {letter(draft)} {c} ;'], [f'w {letter(draft)} | {c} ;']])
    if present or any(line.startswith('digit 030') for line in draft.lines):
        return v15_off(draft)
    without(draft, 'set dotabove')
    lines = [f'w {c:04X} ;{draft.weights.mark()}' for c in range(0x300, 0x308)]
    kind = random.randrange(6)
    if kind < 3:
        place = random.randrange(8)
        lines[place] = random.choice([f'w 030{place} ;', f'w 030{place} ;{draft.weights.elements(1)}',
                                      f't 030{place} ;{draft.weights.mark()}',
                                      f'w 030{place} ;{draft.weights.mark()}{draft.weights.mark()}', 'set dotabove on',
                                      f'w 030{place} ; [0.0500.1.0500.0]'])
    elif kind == 3:
        lines.append(random.choice(['w 0308 ;', 'w 0304 0061 ;', 't 0303 ;', f'w {letter(draft)} 0307 ;',
                                    f't 0305 ;{draft.weights.mark()}']))
    return lines + ['set dotabove on' if random.random() < 0.9 else 'set dotabove off']


def v15_off(draft):
    without(draft, 'set dotabove')
    return [f'set dotabove {draft.random.choice(["off", "on", "on"])}']


def settings(draft):
    random = draft.random
    name = random.choice(['numeric', 'compress', 'groups', 'groups', 'reorder', 'reorder'])
    without(draft, f'set {name}')
    lead = random.choice([2, 3, 0xFC, 0xFD, draft.numeric, draft.range_leads[0], *draft.leads[:2]])
    if name == 'numeric':
        return [f'set numeric {random.choice([0, 2, 3, 0xFC, 0xFD, 0xFE, 0xFF]):02X}']
    if name == 'compress':
        others = [*draft.compressed, random.choice([0, 2, 3, 0xFC, 0xFD, 0xFE, 0xFF])]
        return ['set compress ' + ' '.join(f'{other:02X}' for other in others)]
    if name == 'groups':
        edge = [0x300, 0x2FF, 0x400, 0xFFFF, draft.numeric << 8, draft.numeric << 8 | 1, draft.numeric << 8 | 0xFF,
                draft.numeric + 1 << 8]
        groups = random.choices(edge, k=4)
        return ['set groups ' + ' '.join(f'{g:04X}' for g in (sorted(groups) if random.random() < 0.8 else groups))]
    leads = random.sample([lead, *draft.leads[:3], *draft.compressed[:2]],
                          random.choice([1, 2, 3, 4]) if draft.compressed else random.randint(1, 4))
    targets = random.sample(leads, len(leads)) if random.random() < 0.7 else random.choices(leads, k=len(leads))
    return ['set reorder ' + ' '.join(f'{a:02X} {b:02X}' for a, b in zip(leads, targets))]


def limits(draft):
    random = draft.random
    kind = random.randrange(20)
    a, b = fresh(draft, 2)
    if kind < 3:
        return [f'{random.choice("wt")} {" ".join([a] * random.choice([7, 8, 9, 10]))} ;']
    if kind < 6:
        return [f'w {a} ;' + random.choice([7, 8, 9, 10]) * ' [0.0500.0.0500.0]']
    if kind < 8:
        return [f'kmap {a}' + random.choice([7, 8, 9, 10]) * f' {letter(draft)}']
    if kind == 8 and random.random() < 0.3:
        count = random.choice([1000, 1001]) - sum(bool(line) and not line.startswith('#') for line in draft.lines)
        return [f'w {0xA100 + n // 40:04X} {0xA140 + n % 40:04X} ;' for n in range(count)]
    named = set()
    for line in draft.lines:
        fields = line.split(' ;')[0].split(' ')
        if fields[0] not in ('set', 'range', 'digit', 'class'):
            named.update(field for field in fields[1:] if len(field) >= 4)
        elif fields[0] in ('digit', 'class'):
            named.add(fields[1])
    count = 150 - len(named) - sum(line.startswith('range') for line in draft.lines) + random.choice([-1, 0, 0, 1, 2])
    lines = [f'w {0xA100 + n:04X} ;' for n in range(max(0, count - 1))]
    return lines + [random.choice([f'w {0xA100 + count:04X} ;', f'range 30000 30001 {draft.range_leads[0]:02X}040200 1',
                                   f'kmap {a} {a[:-1]}F', 'w A100 A101 ;'])]


# those that more often keep than break a rule stand twice
NEAR = [*NEAR_BELOW, c5, c5, v4, v5, v5, v7, v8, v9, v9, v10, v11, v12, v12, v13, v13, v14, v15, v15, settings, settings,
        limits]
