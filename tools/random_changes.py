"""Random pairs of accepted records files that differ in a few lines, and questions on them: compare_changes.py."""

from random_files import random_file

ELEMENTS = [' [2A100000.0500.0.0500.0]', ' [0.8800.0.0500.0]', '']


def replaced(random, lines, word, field, values):
    """Lines with another field in one line of a word."""
    places = [place for place, line in enumerate(lines) if line.startswith(f'{word} ') and len(line.split(' ')) > field]
    if places:
        place = random.choice(places)
        fields = lines[place].split(' ')
        fields[field] = random.choice(values)
        lines[place] = ' '.join(fields)
    return lines


def shuffled(random, lines):
    random.shuffle(lines)
    return lines


def without_line(random, lines):
    del lines[random.randrange(len(lines))]
    return lines


def without_word(random, lines):
    """Lines without one of a word that is chosen first."""
    words = sorted({line.partition(' ')[0] for line in lines})
    word = random.choice(words)
    del lines[random.choice([place for place, line in enumerate(lines) if line.partition(' ')[0] == word])]
    return lines


def excluded(random, lines):
    """Lines with one mapping to two excluded that wasn't, or the other way round."""
    places = [place for place, line in enumerate(lines) if line.startswith('map ') and len(line.split(' ')) > 3 and line[4:8] >= '0300']
    if places:
        place = random.choice(places)
        lines[place] = lines[place][:-2] if lines[place].endswith(' x') else f'{lines[place]} x'
    return lines


def other_layer(random, lines):
    """Lines with one of weights in the other layer, or in both."""
    places = [place for place, line in enumerate(lines) if line[:2] in ('w ', 't ')]
    if places:
        place = random.choice(places)
        line = lines[place]
        lines[place:place + 1] = random.choice([[], [line]]) + ['wt'[line[0] == 'w'] + line[1:]]
    return lines


def other_elements(random, lines):
    """Lines with other elements in one of weights: none, those of another line, or some fixed ones."""
    places = [place for place, line in enumerate(lines) if line[:2] in ('w ', 't ')]
    if places:
        place = random.choice(places)
        elements = random.choice([*ELEMENTS, *(lines[other].partition(';')[2] for other in places)])
        lines[place] = lines[place].partition(';')[0] + ';' + elements
    return lines


def other_prefix(random, lines):
    """Lines with another prefix of one of weights, or one more behind a prefix."""
    places = [place for place, line in enumerate(lines) if line[:2] in ('w ', 't ')]
    if places:
        line = lines[random.choice(places)]
        head, _, text = line[2:].rpartition('| ')
        prefix = ' '.join(reversed(head.split())) or random.choice(['0061', '4E00', '0391 0061'])
        lines.append(f'{line[:2]}{prefix} | {text}')
    return lines


def other_compress(random, lines):
    """Lines with the compressible leads in another order, one twice, one less or one more."""
    for place, line in enumerate(lines):
        if line.startswith('set compress '):
            leads = line.split(' ')[2:]
            leads += random.choice([[], [random.choice(leads)], [f'{random.randint(3, 0xFC):02X}']])
            random.shuffle(leads)
            lines[place] = 'set compress ' + ' '.join(leads[random.random() < 0.2 and len(leads) > 1:])
    return lines


def other_reorder(random, lines):
    """Lines with the pairs of reordering in another order, with one of equal leads, or turned round."""
    for place, line in enumerate(lines):
        if line.startswith('set reorder '):
            leads = line.split(' ')[2:]
            pairs = list(zip(leads[::2], leads[1::2]))
            lead = f'{random.randint(3, 0xFC):02X}'
            pairs += random.choice([[], [(lead, lead)] if lead not in leads else []])
            random.shuffle(pairs)
            turned = random.random() < 0.3
            lines[place] = 'set reorder ' + ' '.join(f'{b} {a}' if turned else f'{a} {b}' for a, b in pairs)
    return lines


def other_setting(random, lines):
    """Lines with one setting more, mostly in place of the one of its name."""
    added = random.choice(['set alternate shifted', 'set alternate nonignorable', 'set backward on', 'set backward off',
                           'set casefirst upper', 'set casefirst off', 'set maxvariable space', 'set maxvariable symbol',
                           'set dotabove off', 'set numeric 10', 'set numeric FC', 'set groups 0300 0300 0300 0300',
                           'set groups 0300 0400 0500 0600', 'set reorder E0 E0', 'set compress E0', 'set reorder 10 11 11 10'])
    name = added.rpartition('set ')[2].split(' ')[0]
    return [line for line in lines if not line.startswith(f'set {name} ')] + [added]


def other_number(random, lines):
    """Lines with another class, digit, step, or end of a range."""
    word, field, values = random.choice([('class', 2, ['1', '9', '230']), ('digit', 2, '0123456789'),
                                         ('range', 4, ['1', '2', '003', '127']), ('range', 2, ['4DB4', '9FFE', '2100', '20F0']),
                                         ('map', 2, ['0061', '0062', '0391']), ('kmap', 2, ['0061', '0062', '0391'])])
    return replaced(random, lines, word, field, values)


def said_again(random, lines):
    """Lines with one of what is built in."""
    return lines + [random.choice(['class 0301 230', 'map 0344 0308 0301 x', 'map AC00 1100 1161', 'map 0340 0300',
                                   'kmap FF9E 3099', 'class AC01 0', 'class 0F73 0'])]


CHANGES = [shuffled, without_line, without_word, excluded, other_layer, other_elements, other_prefix, other_compress,
           other_reorder, other_setting, other_number, said_again]


def accepted_file(random, is_accepted):
    """The lines of an accepted file that says something."""
    while True:
        lines = [line for line in random_file(random)[0] if line]
        if lines and is_accepted(lines):
            return lines


def random_pair(random, is_accepted):
    """The lines of two accepted files: a few changes apart, or now and then by no means alike."""
    first = accepted_file(random, is_accepted)
    if random.random() < 0.03:
        return first, accepted_file(random, is_accepted)
    second, wanted = first, random.choice([1, 1, 1, 2, 3])
    for _ in range(40):
        changed = random.choice(CHANGES)(random, list(second))
        if changed != second and changed and is_accepted(changed):
            second, wanted = changed, wanted - 1
            if not wanted:
                break
    return first, second


def named(lines):
    """The characters that lines name, those beside the ends of ranges among them."""
    found = set()
    for line in lines:
        word, *fields = line.partition(';')[0].split(' ')
        if word in ('map', 'kmap', 'w', 't'):
            found.update(int(field, 16) for field in fields if len(field) >= 4)
        elif word in ('class', 'digit'):
            found.add(int(fields[0], 16))
        elif word == 'range':
            found.update(int(field, 16) + beside for field in fields[:2] for beside in (-1, 0, 1))
    return sorted(c for c in found if 0 <= c <= 0x10FFFF and not 0xD800 <= c <= 0xDFFF)


def some_text(random, characters):
    """The bytes of a text, now and then with a damaged one."""
    pieces = [chr(random.choice(characters)).encode() for _ in range(random.choice([0, 1, 1, 2, 3]))]
    if random.random() < 0.15:
        pieces.insert(random.randint(0, len(pieces)), bytes([random.choice([0xFF, 0x80, 0xC3, 0xE1])]))
    return b''.join(pieces)


def questions(random, first, second):
    """Questions on two files."""
    characters = named(first + second) or [0x61]
    mapped = named([line for line in first if line.startswith('map ')]) or characters
    others = [0x61, 0x300, 0x344, 0xAC01, 0x1100, 0xFFFD, random.randint(0, 0xD7FF)]
    asked = ['settings', *(f'changed {c:04X}' for c in characters + others)]
    for _ in range(12):
        text = some_text(random, random.choice([mapped, characters + others]))
        some = random.choices(random.choice([mapped, characters + others]), k=random.choice([1, 1, 1, 2, 3]))
        asked.append(f'reaches {text.hex() or "-"} ' + ' '.join(f'{c:04X}' for c in some))
    return asked
