"""Random runs of the program: records files of every form, words of the command line, and commands; for compare_runs.py."""
import unicodedata

from random_changes import CHANGES, other_elements, other_setting
from random_files import Draft, random_file
from random_pairs import setting_lines
from random_weights import random_characters, random_weights

OPTIONS = {'strength': ['primary', 'secondary', 'tertiary', 'quaternary', 'identical'], 'alternate': ['nonignorable', 'shifted'],
           'maxvariable': ['space', 'punctuation', 'symbol', 'currency'], 'caselevel': ['off', 'on'],
           'casefirst': ['off', 'lower', 'upper'], 'numeric': ['off', 'on']}
WRONG_WORDS = ['', 'strength', 'strength=', 'strength=loud', 'numeric=true', 'Numeric=on', 'caselevel=On', 'numeric=on ', 'help']
OTHER_LINES = [b'', b'add', b'find', b'key', b'remove', b'between', b'between ', b'between a', b'between a b', b'list ', b' list',
               b'List', b'add\tb', b'adda', b'reload', b'reload ', b'reload 01', b'reload x', b'reload 12345678', b'names 1']
LINE_LIMIT = 65536


def texts_of(source, lines, characters):
    """Texts of characters that a file speaks of."""
    found = [int(word, 16) for line in lines for word in line.split() if 4 <= len(word) <= 6 and set(word) <= set('0123456789ABCDEF')]
    found = [c for c in found if c < 0xD800 or 0xE000 <= c < 0x110000] or [0x61]
    chosen = source.choices(found + characters, k=12) + [0x20, 0x30, 0x37, 0x41, 0x61]
    return [source.choices(chosen, k=source.choice([0, 1, 1, 2, 2, 3, 5])) for _ in range(6)]


def random_records(source, read, is_fault):
    """The lines of a file, whether the last lacks its LF, and texts over them."""
    kind = source.random()
    if kind < 0.3:
        lines, is_cut = random_file(source)
        return lines, is_cut, texts_of(source, lines, [])
    if kind < 0.6:
        lines = Draft(source).lines
        return lines, False, texts_of(source, lines, [])
    lines, letters, marks, mapped = random_weights(source, read, is_fault)
    for line in setting_lines(source):
        if not is_fault(read('\n'.join([*lines, line, '']).encode())):
            lines.append(line)
    texts = [random_characters(source, lines, letters, marks, mapped) for _ in range(5)]
    return lines, False, texts + texts_of(source, lines, letters + marks)


def variant(source, text):
    """Another spelling of a text, or its bytes with one lost or changed."""
    kind, spelled = source.random(), ''.join(map(chr, text))
    if kind < 0.3:
        return unicodedata.normalize(source.choice(['NFC', 'NFD']), spelled).encode()
    if kind < 0.45:
        return spelled.swapcase().encode('utf-8', 'replace')
    data = bytearray(spelled.encode())
    if data:
        place = source.randrange(len(data))
        if kind < 0.7:
            del data[place]
        else:
            data[place] = source.choice([0x80, 0xC3, 0xE2, 0xF0, 0xFF, 0x41, 0x09])
    return bytes(data)


def random_names(source, texts):
    """Some names, few enough that a run often names one twice."""
    names = [''.join(map(chr, text)).encode() for text in texts]
    names += [variant(source, source.choice(texts)) for _ in range(4)]
    return [name.replace(b'\n', b'') for name in source.sample(names, min(len(names), source.randint(2, 9)))]


def random_command(source, names):
    """A line."""
    name, kind = source.choice(names), source.random()
    if kind < 0.38:
        return b'add ' + name
    if kind < 0.5:
        return b'remove ' + name
    if kind < 0.62:
        return b'find ' + name
    if kind < 0.75:
        return b'between ' + name + b'\t' + source.choice(names)
    if kind < 0.84:
        return b'key ' + name
    if kind < 0.92:
        return b'list'
    return source.choice(OTHER_LINES)


def beneath_a_mapping(source, records):
    """A character that has a mapping, and one that its mapping steps bring in, mostly by two steps where there are two; None for
    both where no character has one."""
    steps = {fields[1]: [word for word in fields[2:] if word != 'x'] for line in records
             if (fields := line.split(' '))[0] == 'map' and len(fields) > 2}
    if not steps:
        return None, None
    deep = [c for c in steps if any(part in steps for part in steps[c])]
    whole = source.choice(deep if deep and source.random() < 0.7 else [*steps])
    part = source.choice(steps[whole])
    for further in [c for c in steps[whole] if c in steps and source.random() < 0.8][:1]:
        part = source.choice(steps[further])
    return whole, part


def touching_reload(source, records):
    """A reload that gives other elements to a character which a name reaches by its mapping steps, and the name's arrival."""
    whole, part = beneath_a_mapping(source, records)
    if not whole or not part or not 0 < int(whole, 16) < 0x110000 or 0xD800 <= int(whole, 16) < 0xE000:
        return records, []
    elements = source.choice([line.partition(';')[2] for line in records if line[:2] == 'w '] or [' [2A100000.0500.0.0500.0]'])
    records = [line for line in records if not line.startswith(f'w {part} ;')] + [f'w {part} ;{elements}']
    return records, [b'add ' + chr(int(whole, 16)).encode().replace(b'\n', b''), *reload_lines(records, len(records))]


def reload_lines(records, count):
    """The command that loads a file's lines, and these."""
    return [b'reload %d' % max(count, 0), *(line.encode('utf-8', 'surrogateescape') for line in records)]


def random_reload(source, records):
    """The lines of a file: a file's own, mostly a few changes apart, or of another; and the command that loads them, by a count
    that now and then is wrong."""
    records, kind = list(records), source.random()
    if kind < 0.8:
        for _ in range(source.choice([1, 1, 1, 2, 4])):
            change = source.choice([other_elements, other_setting, *CHANGES])
            records = change(source, records) if records else records
    elif kind < 0.9:
        records = random_file(source)[0]
    count = len(records) + (source.choice([-1, 1, 2, 40]) if source.random() < 0.03 else 0)
    return records, reload_lines(records, count)


def removals_in_bulk(source, names):
    """Many names that are added, of which most are removed, and some more added then. The most are more than stand in one list
    of the index, so that lists are parted, joined and let go of."""
    many = [*{source.choice(names) + source.choice(names) + b'%d' % place for place in range(source.choice([40, 150, 400, 1300]))}]
    gone = source.sample(many, len(many) * source.choice([8, 9, 10]) // 10)
    if source.random() < 0.5:
        gone.sort()
    return [*(b'add ' + name for name in many), *(b'remove ' + name for name in gone), *(b'add ' + name for name in gone[:5]), b'list']


def keys_behind(source, before, after, names):
    """Questions for keys, by which it shows whether a reload counts for names that aren't in the index: of two names, and of
    characters that lines speak of which the reload changes."""
    texts = texts_of(source, [line for line in after if line not in before], [])
    asked = [*source.sample(names, 2), *(''.join(map(chr, text)).encode() for text in texts)]
    return [b'key ' + name.replace(b'\n', b'') for name in asked]


def random_lines(source, names, records):
    """Commands, each a line, or a reload with its record lines, by a file's lines."""
    lines = [b'add ' + name for name in names if source.random() < 0.5]
    if source.random() < 0.1:
        lines += removals_in_bulk(source, names)
    for _ in range(source.randint(0, 24)):
        if source.random() < 0.93:
            lines.append(random_command(source, names))
            continue
        changed, reload = source.choice([random_reload, random_reload, touching_reload])(source, records)
        lines += [*reload, b'list', *keys_behind(source, records, changed, names)]
        records = changed if source.random() < 0.5 else records
    return lines


def random_commands(source, names, records):
    """The bytes of the standard input."""
    lines = random_lines(source, names, records)
    if source.random() < 0.03:
        lines += random_reload(source, records)[1][:source.randint(1, 30)]
    if source.random() < 0.004:
        lines.insert(source.randint(0, len(lines)), b'add ' + b'x' * (LINE_LIMIT - 4 + source.randint(0, 1)))
    return b'\n'.join(lines) + (b'' if source.random() < 0.1 else b'\n')


def random_words(source):
    """Words that give options, some of them wrong or given twice."""
    words = [f'{name}={source.choice(values)}' for name, values in OPTIONS.items() if source.random() < 0.35]
    source.shuffle(words)
    if source.random() < 0.02:
        words.insert(source.randint(0, len(words)), source.choice(WRONG_WORDS))
    if source.random() < 0.02:
        name = source.choice([*OPTIONS])
        words += [f'{name}={source.choice(OPTIONS[name])}' for _ in range(2)]
    return words
