"""The runs of crates/tests_collation_rows: sections of a title, records behind the letters or in their place, and runs. A run is the option
words, its commands, and what is worked out of its replies, a line each. Keys are hexadecimal; an answer that begins with `..`
is worked out in its end alone, and None stands for a line that the definitions alone give (tools/run_rows.py)."""

from row_tables import CAPITAL, DIGITS, LETTERS, at, without

SERVED = 'status 0'
USAGE = 'usage: collate FILE [OPTION=VALUE]..'
SIGNS = ['set groups 0306 030A 030E 0312', at(' ', '0304'), at('.', '0308'), at('+', '030C'), at('$', '0310'), at('1', '1111'),
         CAPITAL, at('a', '2A10'), 'digit 0031 1', 'set casefirst lower']


def said(text):
    """A text as the bytes of a name."""
    return text if isinstance(text, bytes) else text.encode()


def listing(*names):
    """The lines that list names."""
    return [f'names {len(names)}', *names]


def keys(words, *rows):
    """A run that asks for keys: texts and answers."""
    return words, [(b'key ' + said(text), [answer]) for text, answer in rows]


def order(left, right, answer):
    """Commands by which two names are put into the index, looked for and taken out again: the second is put in first."""
    one, other = said(left), said(right)
    names = {'Less': [one, other], 'Equal': [other, one], 'Greater': [other, one]}[answer]
    equal, above, below = (names, names, names) if answer == 'Equal' else ([one], names, [])
    if answer == 'Greater':
        above, below = below, above
    return [(b'add ' + other, ['added']), (b'add ' + one, ['added']), (b'list', listing(*names)), (b'find ' + one, listing(*equal)),
            (b'between ' + one + b'\t' + other, listing(*above)), (b'between ' + other + b'\t' + one, listing(*below)),
            (b'remove ' + one, ['removed']), (b'remove ' + other, ['removed'])]


def reload(lines, answer):
    """A command that puts other records in the place of those that count."""
    return '\n'.join([f'reload {len(lines)}', *lines]).encode(), [answer]


def orders(words, *rows):
    """A run that asks how pairs of texts order."""
    return words, [command for row in rows for command in order(*row)]


def refused(words, line):
    """A run that isn't served."""
    return words, [(b'list', [line])]


THREE = [(b'add ch', ['added']), (b'add cl', ['added']), (b'add ab', ['added'])]
RUNS = [
    ('The letters', LETTERS, [], [
        keys('strength=tertiary', ('a', '2a10010501010501'), ('', '01010101'), ('\u00e1', '2a1001458801010601'),
             ('a\u0301', '2a1001458801010601')),
        keys('strength=identical', ('a', '2a1001050101050101010192'), ('\u9fffa', '..01fca4950688a8'),
             ('\ua000a', '..01fca496065e2e'), (b'\xf0\x90', None), ('\ufffd', None)),
        keys('strength=primary', ('z', 'fe0408d4'), ('zz', 'fe0408d40408d4'), ('za', 'fe0408d4032a10'),
             ('\ufffe\0\0', '02fe040210040210'), ('\0\ufffe\0', 'fe04021002fe040210'), ('\uac00', 'fd0402fd0463'),
             ('\u1100\u1161', 'fd0402fd0463')),
        orders('strength=primary', ('\ufffe\0\0', '\0\ufffe\0', 'Less'), ('\uac00', '\u1100\u1161', 'Equal')),
        orders('', ('\u00e1', 'a\u0301', 'Equal'), ('cote\u0301', 'co\u0302te', 'Less')),
        orders('strength=identical', (b'a\xff', b'a\xef\xbf\xbd', 'Equal'), (b'\xf0\x90', b'\xef\xbf\xbd', 'Equal'),
               ('\u1ea1\u0301', '\u00e1\u0323', 'Equal')),
        ('strength=primary', [(b'add ch', ['added']), (b'add cl', ['added']), (b'add ab', ['added']),
                              (b'list', listing(b'ab', b'ch', b'cl')), (b'add ab', ['duplicate']),
                              (b'between a\tch', listing(b'ab', b'ch')), (b'between ch\ta', listing()),
                              (b'remove x', ['absent']), (b'add', ['bad'])]),
        ('strength=tertiary', [(b'add b', ['added']), (b'add \xc3\xa1', ['added']), (b'add a', ['added']),
                               (b'list', listing(b'a', b'\xc3\xa1', b'b'))]),
        ('strength=primary', [(b'add b', ['added']), (b'add \xc3\xa1', ['added']), (b'add a', ['added']),
                              (b'find a', listing(b'\xc3\xa1', b'a'))]),
    ]),
    ('Upper case first, with the level of case', LETTERS, [CAPITAL], [
        orders('strength=secondary caselevel=on casefirst=upper', ('a' * 13 + 'A', 'a' * 14, 'Less')),
        keys('strength=secondary caselevel=on casefirst=upper', ('a' * 13 + 'A', '2a10' * 14 + '01120101f1'),
             ('a' * 14, '2a10' * 14 + '01120101f3')),
    ]),
    ('Secondaries read backward', LETTERS, ['set backward on'], [
        keys('strength=secondary', ('', '0101')), orders('', ('cote\u0301', 'co\u0302te', 'Greater')),
    ]),
    ('Three letters together', LETTERS, [at('abc', '2B80')], [orders('', ('abc', 'abe', 'Greater'))]),
    ('A letter behind two others', LETTERS, ['w 0061 0062 | 0063 ; [2A600000.0500.0.0500.0]'], [
        orders('', ('abc', 'abe', 'Greater')),
    ]),
    ('A letter behind three others', LETTERS, ['w 0061 0062 0063 | 0065 ; [2AA00000.0500.0.0500.0]'], [
        orders('', ('abce', 'abch', 'Greater')), keys('strength=primary', ('abce', '2a102a202a302aa0')),
    ]),
    ('Marks do not join across a letter', LETTERS, [at('c\u0301', '2A70'), at('cha', '2B90')], [
        orders('strength=primary', ('ch\u0323\u0301', 'ch', 'Equal')),
    ]),
    ('Marks without elements', [*without('\u0301', '\u0323'), 'class 0350 230', 'w 0301 ;', 'w 0323 ;', 'w 0350 ;'], [], [
        orders('strength=identical', ('a\u0350\u0323', 'a\u0350\u0301', 'Less')),
    ]),
    ('A tertiary element', [*without('t'), 'w 0074 ; [0.0000.2.0900.0]'], [], [
        orders('strength=tertiary caselevel=on casefirst=upper', ('a', 'ta', 'Less')),
    ]),
    ('A mark joins past a lower one, and not past its own class', LETTERS, [at('a\u0301', '2A18')], [
        orders('strength=primary', ('a\u0323', 'a\u0323\u0301', 'Less'), ('a\u0302\u0301', 'a', 'Equal')),
    ]),
    ('Numbers', LETTERS, DIGITS, [
        orders('', ('a2', 'a10', 'Greater')), orders('numeric=on', ('a2', 'a10', 'Less'), ('a99', 'a100', 'Less')),
        orders('strength=primary numeric=on', ('0007', '7', 'Equal')),
        orders('strength=quaternary numeric=on', ('a007b', 'a7b', 'Equal')),
        orders('strength=identical numeric=on', ('a007b', 'a7b', 'Less')),
        keys('strength=primary numeric=on', ('73', '104b'), ('74', '104c02'), ('10233', '1073ff'), ('10234', '10740202'),
             ('1042489', '1083ffff'), ('1042490', '10840d13103bbe'), ('9999999', '10841dd110d1d0'), ('10000000', '10841e'),
             ('100000000', '10850c'), ('0', '1002'), ('000', '1002')),
        ('strength=primary numeric=on', [(b'add a10', ['added']), (b'add a9', ['added']), (b'add a010', ['added']),
                                         (b'list', listing(b'a9', b'a10', b'a010'))]),
    ]),
    ('A range', LETTERS, ['range 4E00 9FFF E0020200 1'], [
        keys('strength=primary', ('\u4e00', 'e00202'), ('\u4efe', 'e00302')),
    ]),
    ('Letters with marks, and cases', LETTERS, [CAPITAL, 'w 0300 ; [0.8600.0.0500.0]', at('s', '2B10'), 'map 00E0 0061 0300',
                                                'map 00F2 006F 0300'], [
        orders('strength=secondary', ('as', '\u00e0s', 'Less'), ('ao', 'Ao', 'Equal'), ('Ao', 'a\u00f2', 'Less')),
    ]),
    ('Shifted spaces and stops', LETTERS, [at(' ', '0304'), at('.', '0308'), 'set groups 0306 030A 030A 030A',
                                           'set maxvariable punctuation'], [
        orders('strength=tertiary alternate=shifted', ('a c', 'ac', 'Equal'), ('a.c.', 'ac', 'Equal')),
        orders('strength=quaternary alternate=shifted', ('a c', 'ac', 'Less'), ('a.c.', 'ac', 'Less')),
        keys('strength=quaternary alternate=shifted', ('a c', '2a102a30010601010601011c03041c01'),
             ('ac', '2a102a30010601010601011d01')),
        keys('alternate=shifted maxvariable=space', ('a c', '2a102a30010601010601'), ('a.c', None)),
    ]),
    ('Each word alone, over characters on which each tells', SIGNS, [], [
        keys(words, ('a A.+$1', answer)) for words, answer in (
            ('', '2a1003042a100308030c03101111010b010144c90801'), ('strength=primary', '2a1003042a100308030c03101111'),
            ('strength=secondary', '2a1003042a100308030c03101111010b01'),
            ('strength=tertiary', '2a1003042a100308030c03101111010b010144c90801'),
            ('strength=quaternary', '2a1003042a100308030c03101111010b010144c908010101'),
            ('strength=identical', '2a1003042a100308030c03101111010b010144c908010101019251725f5c5562'),
            ('alternate=shifted', '2a102a100308030c03101111010a010145c90801'),
            ('alternate=nonignorable', '2a1003042a100308030c03101111010b010144c90801'),
            ('caselevel=on', '2a1003042a100308030c03101111010b0101cf4001c4c90801'),
            ('caselevel=off', '2a1003042a100308030c03101111010b010144c90801'),
            ('casefirst=off', '2a1003042a100308030c03101111010b0101c4c90801'),
            ('casefirst=lower', '2a1003042a100308030c03101111010b010144c90801'),
            ('casefirst=upper', '2a1003042a100308030c03101111010b010186098801'),
            ('numeric=on', '2a1003042a100308030c03101003010b010144c90801'),
            ('numeric=off', '2a1003042a100308030c03101111010b010144c90801'))
    ]),
    ('Each word alone, over a file that sets something else', SIGNS, ['set alternate shifted', 'set maxvariable symbol'], [
        keys(words, ('a A.+$1', answer)) for words, answer in (
            ('', '2a102a10031011110108010145c90601'), ('maxvariable=space', '2a102a100308030c03101111010a010145c90801'),
            ('maxvariable=punctuation', '2a102a10030c031011110109010145c90701'),
            ('maxvariable=symbol', '2a102a10031011110108010145c90601'),
            ('maxvariable=currency', '2a102a1011110107010145c90501'),
            ('alternate=nonignorable', '2a1003042a100308030c03101111010b010144c90801'),
            ('alternate=shifted', '2a102a10031011110108010145c90601'))
    ]),
    ('Words in any order', SIGNS, [], [
        keys(words, ('a A.+$1', None)) for words in (
            'numeric=on casefirst=upper strength=identical maxvariable=currency caselevel=on alternate=shifted',
            'alternate=shifted caselevel=on maxvariable=currency strength=identical casefirst=upper numeric=on')
    ]),
    ('Other records', LETTERS, [], [
        ('strength=primary', [*THREE, (b'list', listing(b'ab', b'ch', b'cl')), (b'add ab', ['duplicate']),
                              (b'between a\tch', listing(b'ab', b'ch')), (b'between ch\ta', listing()),
                              reload([*LETTERS, at('ch', '2A40')], 'reloaded 2'), (b'list', listing(b'ab', b'cl', b'ch')),
                              reload(['w 61 ;'], 'refused 1 grammar'), (b'list', listing(b'ab', b'cl', b'ch')),
                              (b'remove x', ['absent']), (b'add', ['bad']), (b'reload 2\nw 0061 ;', ['collate: reload cut'])]),
        ('strength=primary', [*THREE, (b'reload 01', ['bad']), (b'reload 10000000', ['bad']), (b'reload', ['bad']),
                              (b'reload ', ['bad']), reload([], 'reloaded 3'), (b'list', listing(b'ab', b'ch', b'cl')),
                              (b'reload 9999999\nadd x', ['collate: reload cut'])]),
        ('strength=primary', [(b'add abce', ['added']), (b'add abch', ['added']), (b'list', listing(b'abce', b'abch')),
                              reload([*LETTERS, 'w 0061 0062 0063 | 0065 ; [2AA00000.0500.0.0500.0]'], 'reloaded 1'),
                              (b'list', listing(b'abch', b'abce'))]),
        ('', [*THREE, reload([*LETTERS, 'set backward on'], 'reloaded 3'), (b'list', listing(b'ab', b'ch', b'cl')),
              reload([*LETTERS, 'class 0301 220'], 'refused 16 C8'), reload([*LETTERS, 'set backward on'], 'reloaded 0')]),
    ]),
    ('What ends before the first command', LETTERS, ['class 0301 220'], [
        refused('', 'collate: refused 16 C8'), *(refused(words, USAGE) for words in (
            'strength=loud', 'strength', 'Strength=primary', 'numeric=true', 'letters.records', 'numeric=on numeric=on',
            'casefirst=off numeric=on casefirst=upper'))
    ]),
]
