"""What a script of crates/tests_collation_rows is answered by an independent reading of the definitions in Python, as
tools/reading: a folder with modules `records` (`read`, `Fault`), `decode` (`decode_utf8`, `decode_utf16`, `decode_latin1`),
`norm` (`composed`, `decomposed`) and `collate` (`Options`, `resolve`, `levels`, `compare`, `key`, `elements_of_list`). The
program is `out/tests_collation_rows` of the crate's folder, where `rt run` puts it, or the one that the environment variable
`COLLATION_ROWS` names."""
import functools
import os
import subprocess
import sys

ROOT = os.path.dirname(os.path.dirname(os.path.realpath(__file__)))
FOLDER = os.path.join(ROOT, 'crates/tests_collation_rows')
PROGRAM = os.environ.get('COLLATION_ROWS', os.path.join(FOLDER, 'out/tests_collation_rows'))
ORDERS = {-1: 'Less', 0: 'Equal', 1: 'Greater'}
WORDS = {'strength': ['primary', 'secondary', 'tertiary', 'quaternary', 'identical'], 'alternate': ['nonignorable', 'shifted'],
         'maxvariable': ['space', 'punctuation', 'symbol', 'currency'], 'casefirst': ['off', 'lower', 'upper']}
SIDES = {'text': ('utf8', 'utf8'), 'utf8': ('utf8', 'utf8'), 'utf16': ('utf16', 'utf16'), 'latin1': ('latin1', 'latin1'),
         'mixed': ('latin1', 'utf16')}
STRENGTHS = {0: 'Primary', 1: 'Secondary', 2: 'Tertiary', 3: 'Quaternary', 7: 'Identical'}
SHOWN = {'nonignorable': 'NonIgnorable', 'shifted': 'Shifted', 'off': 'False', 'lower': 'Lower', 'upper': 'Upper'}


def remembered(levels):
    """The same function, which keeps its last answers: a text is asked about in each encoding, and for its key."""
    kept = functools.lru_cache(maxsize=256)(levels)
    return lambda said, options, text: kept(said, options, tuple(text))


def load(folder):
    """The functions of the other reading."""
    sys.path.insert(0, folder)
    import collate
    import decode
    import norm
    import records
    collate.levels = remembered(collate.levels)
    names = {'read': records.read, 'levels': collate.levels, 'key': collate.key, 'compare': collate.compare,
             'resolve': collate.resolve, 'elements_of_list': collate.elements_of_list, 'decomposed': norm.decomposed,
             'composed': norm.composed,
             'utf8': decode.decode_utf8, 'utf16': decode.decode_utf16, 'latin1': decode.decode_latin1}
    oracle = type('Oracle', (), {name: staticmethod(made) for name, made in names.items()})
    oracle.Fault, oracle.Options = records.Fault, collate.Options
    return oracle


def ask(script):
    """The lines that the program answers a script with."""
    return subprocess.run([PROGRAM], input=script.encode(), stdout=subprocess.PIPE, check=True).stdout.decode().split('\n')[:-1]


def options_of(words, oracle):
    """The options that words with commas between them are."""
    given = {name: word for word in words.split(',') for name, known in WORDS.items() if word in known}
    given.update({name: 'on' for name in ('caselevel', 'numeric') if name in words.split(',')})
    return oracle.Options(**given)


def characters(word, encoding, oracle):
    """The characters of a text in hexadecimal."""
    data = bytes.fromhex('' if word == '-' else word)
    if encoding == 'utf16':
        return oracle.utf16([data[i] << 8 | data[i + 1] for i in range(0, len(data), 2)])
    return getattr(oracle, encoding)(data)


def shown_options(said, options, oracle):
    """The options that count, as the program prints them."""
    r = oracle.resolve(said, options)
    return (f'ResolvedCollatorOptions {{ strength: {STRENGTHS[r.strength]}, alternate_handling: {SHOWN[r.alternate]}, case_first: '
            f'{SHOWN[r.casefirst]}, max_variable: {r.maxvariable.capitalize()}, case_level: {"On" if r.caselevel else "Off"}, '
            f'numeric: {r.numeric} }}')


def place(said, options, left, right, oracle):
    """What is promised of the place from which texts are read, in which at least 10 characters may be left out, or none."""
    r = oracle.resolve(said, options)
    common = 0
    while common < min(len(left), len(right)) and left[common] == right[common]:
        common += 1
    may_skip = r.alternate != 'shifted' and not r.numeric and said.backward != 'on' and said.dotabove != 'on'
    places = [p for p in range(1, common + 1) if not any(said.is_unsafe(c) for c in left[p:p + 1] + right[p:p + 1])]
    if not may_skip or not places:
        return '0'
    assert places[-1] >= 14, 'the place may be any'
    return 'at least 10'


def collator_answer(said, options, line, oracle):
    """The answer to a question to a collator."""
    call, *words = line.split(' ')
    if call == 'compare':
        sides = [characters(word, side, oracle) for word, side in zip(words[1:], SIDES[words[0]])]
        return ORDERS[oracle.compare(said, options, *sides)]
    if call == 'options?':
        return shown_options(said, options, oracle)
    if call == 'place':
        return place(said, options, *(characters(word, 'utf8', oracle) for word in words), oracle)
    key = oracle.key(said, options, characters(words[1], 'utf16' if words[0] == 'utf16' else 'utf8', oracle))
    if call == 'sink' and words[0].isdigit():
        length = int(words[0])
        return f'TooSmall {{ length: {len(key)} }}' if length < len(key) else f'Ok({len(key)}) {key.hex()}'
    return key.hex() or '-'


def bits(element):
    """The 64 bits of an element."""
    primary, secondary, case, tertiary, quaternary = element
    return f'{primary << 32 | secondary << 16 | case << 14 | tertiary | quaternary << 6:016x}'


def tables_answer(said, line, oracle):
    """The answer to a question to tables."""
    call, *words = line.split(' ')
    text = [int(word, 16) for word in words if word]
    if call == 'unsafe':
        return ' '.join(str(said.is_unsafe(c)).lower() for c in text)
    if call == 'compose':
        composed = said.compose_pair(*text)
        return '-' if composed is None else f'{composed:04X}'
    elements = oracle.elements_of_list(said, oracle.decomposed(said, text), call.endswith('_numbers'))
    return ' '.join(map(bits, elements)) or '-'


def form_answer(said, line, oracle):
    """The answer to a question to a normaliser."""
    form, encoding, word = line.split(' ')
    made = {'nfc': oracle.composed, 'nfd': oracle.decomposed}[form]
    text = ''.join(map(chr, made(said, characters(word, SIDES[encoding][0], oracle))))
    return text.encode('utf-16-be' if encoding == 'utf16' else 'utf8').hex() or '-'


def file_answer(said, oracle):
    """The answer of the reader of records."""
    return f'{said.line} {said.rule}' if isinstance(said, oracle.Fault) else 'accepted'


def collator_answers(said, lines, oracle):
    """The answers to the lines of a paragraph of collators."""
    options = None
    for line in lines:
        if line.startswith('options '):
            options = options_of(line[len('options '):], oracle)
            yield line
        else:
            yield f'{line}: {collator_answer(said, options, line, oracle)}'


def paragraph_answers(said, kind, lines, oracle):
    """The answers to a paragraph's lines; None for one that the other reading can't answer."""
    if kind == 'file':
        return [f'{line}: {file_answer(said, oracle)}' for line in lines]
    assert not isinstance(said, oracle.Fault), said
    if kind == 'tables':
        return ['accepted', *(f'{line}: {tables_answer(said, line, oracle)}' for line in lines)]
    if kind == 'normalisers':
        return [f'{line}: {form_answer(said, line, oracle)}' for line in lines]
    if kind == 'provider':
        return [None for _ in lines]
    return list(collator_answers(said, lines, oracle))


def answers(script, oracle):
    """The answers to a script, a line each; None for one that the other reading can't answer."""
    file, more, shown = [], [], []
    for paragraph in script.split('\n\n'):
        kind, *lines = paragraph.strip('\n').split('\n')
        if kind == 'records':
            file, more = lines, []
        elif kind == 'more':
            more = lines
        elif not kind.startswith('#'):
            said = oracle.read('\n'.join([*file, *more, '']).encode())
            asked = [line for line in lines if not line.startswith('#')]
            shown += [kind, *paragraph_answers(said, kind, asked, oracle)]
    return shown
