"""The rows of crates/tests_collation_rows: sections of a title, records, and paragraphs of questions. A question is a call, texts and
the worked answer, which is None where the definitions alone give it (tools/answers.py), and begins with `..` where only its
end is worked out. Weights, and bytes of keys, are hexadecimal."""

LETTERS = ['class 0302 230', 'class 0323 220', 'map 00E1 0061 0301', 'map 1EA1 0061 0323',
           *(f'w {c} ; [{p}0000.0500.0.0500.0]' for c, p in (
               ('0061', '2A10'), ('0062', '2A20'), ('0063', '2A30'), ('0065', '2A50'), ('0068', '2A80'), ('006C', '2AC0'),
               ('006F', '2AF0'), ('0074', '2B40'))),
           *(f'w {c} ; [0.{s}.0.0500.0]' for c, s in (('0301', '8800'), ('0302', '8A00'), ('0323', '8C00')))]
CAPITAL = 'w 0041 ; [2A100000.0500.2.0900.0]'
DIGITS = [line for i in range(10) for line in (f'digit {0x30 + i:04X} {i}', f'w {0x30 + i:04X} ; [111{i}0000.0500.0.0500.0]')]
MARKS = ['class 0303 230', 'class 0304 230', 'class 0305 230', 'class 0306 230', 'class 0307 230',
         *(f'w {c} ; [0.{s}.0.0500.0]' for c, s in (('0300', '8600'), ('0303', '8B00'), ('0304', '8D00'), ('0305', '8E00'),
                                                    ('0306', '8F00'), ('0307', '9000')))]
TILDE_DIGIT = [*(said for said in MARKS if said != 'class 0303 230'), *DIGITS, 'digit 0303 5']
STRENGTHS = ('primary', 'secondary', 'tertiary', 'quaternary', 'identical')
LOADS = ('nfd', 'nfd_tables', 'pairs', 'root', 'jamo', 'special_primaries', 'metadata', 'diacritics')


def key(text, answer=None):
    return 'key', text, answer


def compare(left, right, answer=None):
    return 'compare', left, right, answer


def place(left, right, answer):
    return 'place', left, right, answer


def line(text, answer=None):
    return 'line', text, answer


def lines(*texts):
    return [line(text) for text in texts]


def at(text, primary):
    """The record of a text with a primary, and a common rest."""
    return f'w {" ".join(f"{ord(c):04X}" for c in text)} ; [{primary}0000.0500.0.0500.0]'


def without(*texts):
    """The letters without the records of some characters."""
    return [said for said in LETTERS if not any(said.startswith(f'w {ord(c):04X} ;') for c in texts)]


def section(title, more, *paragraphs):
    return title, [('more', more)], paragraphs


def form(name, text, normal):
    """Questions for a normal form of a text in each encoding."""
    asked = []
    for encoding, coded in (('text', 'utf8'), ('utf8', 'utf8'), ('utf16', 'utf-16-be')):
        said, answer = (given.encode(coded).hex() or '-' for given in (text, normal))
        asked.append(line(f'{name} {encoding} {said}', answer))
    return asked


def read(title, more, answer):
    """A section of what the reader answers where the last file has more lines."""
    return section(title, more, ('file', [line('read', answer)]))


def sinks(text, length):
    """Questions on a key of so many bytes in each sink: as many slices as it has bytes, and two more."""
    hexed = text.encode().hex()
    short = [line(f'sink {n} {hexed}', f'TooSmall {{ length: {length} }}') for n in range(length)]
    return [*short, *lines(f'sink {length} {hexed}', f'sink {length + 1} {hexed}', f'sink deque {hexed}', f'sink small {hexed}')]


def numbers(*rows):
    return [key(text, answer) for text, answer in rows]


def elements(*rows):
    """Questions on the elements of texts, by the reader and read slowly; behind `n` digits are read as numbers."""
    asked = []
    for kind, text, answer in rows:
        said = ' '.join(f'{ord(c):X}' for c in text)
        asked += [line(f'{call}{"_numbers" if kind == "n" else ""} {said}', answer) for call in ('read', 'plain')]
    return asked


def rest(*primaries):
    """Elements of primaries with a common rest."""
    return ' '.join(f'{primary:0<8}05000500' for primary in primaries)


def marks(*secondaries):
    """Elements of secondaries with a common tertiary, behind others."""
    return ''.join(f' 00000000{secondary}0500' for secondary in secondaries)


WORKED = [
    ('The letters', [('records', LETTERS)], [
        ('options tertiary', [key('a', '2a10010501010501'), key('', '01010101'), key('\u00e1', '2a1001458801010601'),
                               key('a\u0301', '2a1001458801010601'), compare('cote\u0301', 'co\u0302te', 'Less'),
                               *sinks('a', 8), *sinks('\u00e1', 9)]),
        ('options identical', [key('a', '2a1001050101050101010192'), *sinks('a', 12), key('\u9fffa', '..01fca4950688a8'),
                                key('\ua000a', '..01fca496065e2e'), compare('\u1ea1\u0301', '\u00e1\u0323', 'Equal'),
                                compare('\ue000', '\U00010000', 'Less')]),
        ('options primary', [key('z', 'fe0408d4'), key('zz', 'fe0408d40408d4'), key('za', 'fe0408d4032a10'),
                              key('\ufffe\0\0', '02fe040210040210'), key('\0\ufffe\0', 'fe04021002fe040210'),
                              compare('\ufffe\0\0', '\0\ufffe\0', 'Less'), key('\uac00', 'fd0402fd0463'),
                              key('\u1100\u1161', 'fd0402fd0463')]),
        ('tables', elements((' ', '\u1ea1\u0301', rest('2a10') + marks('8c00', '8800')),
                            (' ', '\u00e1\u0323', rest('2a10') + marks('8c00', '8800')), (' ', '', '-'))),
        ('normalisers', [*form('nfc', 'a\u0301\u0323', '\u1ea1\u0301'), *form('nfd', '\u1ea1\u0301', 'a\u0323\u0301'),
                         *form('nfd', '\u0344', '\u0308\u0301'), *form('nfc', '\u0344', '\u0308\u0301'),
                         *form('nfc', '\u1100\u1161\u11a8', '\uac01'), *form('nfd', '', '')]),
    ]),
    section('Upper case first, with the level of case', [CAPITAL],
            ('options secondary,caselevel,upper', [compare('a' * 13 + 'A', 'a' * 14, 'Less'),
                                                    key('a' * 13 + 'A', '2a10' * 14 + '01120101f1'),
                                                    key('a' * 14, '2a10' * 14 + '01120101f3')])),
    section('Secondaries read backward', ['set backward on'],
            ('options secondary', [key('', '0101')]), ('options tertiary', [compare('cote\u0301', 'co\u0302te', 'Greater')])),
    section('Three letters together', [at('abc', '2B80')],
            ('options tertiary', [compare('abc', 'abe', 'Greater')]),
            ('tables', [line('unsafe 61 E1 AC00', 'false false false'), line('unsafe 62 301 344', 'true true true'),
                        line('unsafe 61 E1 AC00 62 301 344', 'false false false true true true')])),
    section('A letter behind two others', ['w 0061 0062 | 0063 ; [2A600000.0500.0.0500.0]'],
            ('options tertiary', [compare('abc', 'abe', 'Greater'), compare('bbc', 'bbe', 'Less')]),
            ('tables', elements((' ', 'abc', rest('2a10', '2a20', '2a60')), (' ', 'bbc', rest('2a20', '2a20', '2a30'))))),
    section('A letter behind three others', ['w 0061 0062 0063 | 0065 ; [2AA00000.0500.0.0500.0]'],
            ('options primary', [compare('abce', 'abch', 'Greater'), key('abce', '2a102a202a302aa0')]),
            ('options none', [compare('abce', 'abch', 'Greater')])),
    section('The longest of two prefixes', ['w 0061 0062 0063 | 0065 ; [2AA00000.0500.0.0500.0]',
                                            'w 0063 | 0065 ; [2A700000.0500.0.0500.0]'],
            ('options primary', [compare('abce', 'abch', 'Greater'), key('abce', '2a102a202a302aa0'),
                                  compare('bce', 'bch', 'Less'), key('bce', '2a202a302a70')]),
            ('options none', [compare('abce', 'abch', 'Greater'), compare('bce', 'bch', 'Less')])),
    section('Long runs of marks: each takes the first of the higher classes, and none that a mark left between blocks', [
        'w 0323 0301 ; [0.9000.0.0500.0]', 'w 0323 0301 0302 ; [0.9200.0.0500.0]', 'w 0301 0302 ; [0.9400.0.0500.0]'],
            ('tables', elements((' ', 'a' + '\u0323' * 40 + '\u0301' * 40, rest('2a10') + marks(*['9000'] * 40)),
                                (' ', 'a' + '\u0323' * 40 + '\u0301\u0302' * 20 + 'b',
                                 rest('2a10') + marks(*['9200'] * 20, *['8c00'] * 20) + ' ' + rest('2a20')),
                                (' ', 'a' + '\u0301' * 40 + '\u0302' * 40, rest('2a10') + marks(*['8800'] * 39, '9400', *['8a00'] * 39)),
                                (' ', '\u0301\u0323\u0302' * 30, None), (' ', '\u0302' + '\u0323' * 33 + '\u0301', None))),
            ('options tertiary', [key('\u0323' * 20 + '\u0301\u0302' * 17, None)])),
    section('Marks do not join across a letter', [at('c\u0301', '2A70'), at('cha', '2B90')],
            ('options primary', [compare('ch\u0323\u0301', 'ch', 'Equal')]),
            ('tables', elements((' ', 'ch', rest('2a30', '2a80')),
                                (' ', 'ch\u0323\u0301', rest('2a30', '2a80') + marks('8c00', '8800'))))),
    section('A mark joins past a lower one, and not past its own class', [at('a\u0301', '2A18')],
            ('options primary', [compare('a\u0323', 'a\u0323\u0301', 'Less'), compare('a\u0302\u0301', 'a', 'Equal')]),
            ('tables', elements((' ', 'a\u0323', rest('2a10') + marks('8c00')),
                                (' ', 'a\u0323\u0301', rest('2a18') + marks('8c00')),
                                (' ', 'a\u0302\u0301', rest('2a10') + marks('8a00', '8800'))))),
    section('Numbers', DIGITS,
            ('options tertiary', [compare('a2', 'a10', 'Greater')]),
            ('options tertiary,numeric', [compare('a2', 'a10', 'Less'), compare('a99', 'a100', 'Less')]),
            ('options quaternary,numeric', [compare('a007b', 'a7b', 'Equal'), key('a007b', '2a1010092a200107010107010101'),
                                            key('a7b', '2a1010092a200107010107010101')]),
            ('options identical,numeric', [compare('a007b', 'a7b', 'Less')]),
            ('options primary,numeric', [
                compare('0007', '7', 'Equal'), compare('9' * 254, '1' + '0' * 253, 'Greater'),
                compare('9' * 254, '0001' + '0' * 253, 'Greater'),
                *numbers(('73', '104b'), ('74', '104c02'), ('10233', '1073ff'), ('10234', '10740202'), ('1042489', '1083ffff'),
                         ('1042490', '10840d13103bbe'), ('9999999', '10841dd110d1d0'), ('10000000', '10841e'),
                         ('100000000', '10850c'), ('0', '1002'), ('000', '1002')),
                key('9' * 254, '10ffd1d1' + '10d1d1d1' * 41 + '10d1d0'), key('1' + '0' * 253, '10ff1e'),
                key('0001' + '0' * 253, '10ff1e'), key('a' + '12' * 130 + 'b')]),
            ('tables', elements(
                ('n', '73', rest('104b')), ('n', '74', rest('104c02')), ('n', '10233', rest('1073ff')),
                ('n', '10234', rest('10740202')), ('n', '1042489', rest('1083ffff')),
                ('n', '1042490', rest('10840d13', '103bbe')), ('n', '0007', rest('1009')), ('n', 'a2', rest('2a10', '1004')),
                ('n', 'a10', rest('2a10', '100c')), (' ', 'a10', rest('2a10', '1111', '1110'))))),
    section('A dot above goes before a tilde that begins a number', [*TILDE_DIGIT, 'set dotabove on'],
            ('options primary,numeric', [compare('a\u0307\u0303', 'a\u03070\u0303', 'Equal')]),
            ('options secondary,numeric', [compare('a\u0307\u0303', 'a\u03070\u0303', 'Less')])),
    section('It stays where no dot above goes', [*TILDE_DIGIT, 'set dotabove off'],
            ('options quaternary,numeric', [compare('a\u0307\u0303', 'a\u03070\u0303', 'Equal'),
                                            compare('a\u0307\u0303', 'a\u03071', 'Greater')])),
    section('A range', ['range 4E00 9FFF E0020200 1'],
            ('options primary', [key('\u4e00', 'e00202'), key('\u4efe', 'e00302')]),
            ('tables', elements((' ', '\u4e00', rest('e00202')), (' ', '\u4efe', rest('e00302')),
                                (' ', '\uac00', rest('fd0402', 'fd0463')), (' ', '\u1100\u1161', rest('fd0402', 'fd0463')),
                                (' ', 'z', rest('fe0408d4')), (' ', '\ufffe\ufffd\uffff', rest('02', 'fffd', 'ffff'))))),
    section('Letters with marks, and cases', [CAPITAL, 'w 0300 ; [0.8600.0.0500.0]', at('s', '2B10'), 'map 00E0 0061 0300',
                                              'map 00F2 006F 0300'],
            ('options secondary', [compare('as', '\u00e0s', 'Less'), compare('ao', 'Ao', 'Equal'),
                                    compare('Ao', 'a\u00f2', 'Less')])),
    section('Shifted spaces and stops', [at(' ', '0304'), at('.', '0308'), 'set groups 0306 030A 030A 030A',
                                         'set maxvariable punctuation'],
            ('options tertiary,shifted', [compare('a c', 'ac', 'Equal'), compare('a.c.', 'ac', 'Equal')]),
            ('options quaternary,shifted', [compare('a c', 'ac', 'Less'), compare('a.c.', 'ac', 'Less'),
                                             key('a c', '2a102a30010601010601011c03041c01'),
                                             key('ac', '2a102a30010601010601011d01')])),
    section('A letter with two dots', ['map 00E4 0061 0308'],
            ('normalisers', [line('nfc utf8 ff61cc88ff', 'efbfbdc3a4efbfbd'), *form('nfc', '\ufffda\u0308\ufffd', '\ufffd\u00e4\ufffd'),
                             line('nfc utf16 dc000061030800610308d800', 'fffd00e400e4fffd'), *form('nfd', '\u00e4', 'a\u0308')]),
            ('tables', [line('compose 61 308', '00E4'), line('compose 61 301', '00E1'), line('compose 61 302', '-'),
                        line('compose 1100 1161', 'AC00')])),
]

REFUSED = [
    read('The letters are accepted', [], 'accepted'),
    read('Another class of what has one', ['class 0301 220'], '16 C8'),
    read('A text that ends in a mark, and not the text before that', [at('ch\u0301', '2A40')], '16 V9'),
    read('A text that begins with U+FFFF', [at('\uffffa', '2A40')], '16 V13'),
    read('A second record of a letter', ['w 0061 ;'], '16 V14'),
    read('Groups inside the lead of numbers', ['set groups 1051 1051 1051 1051'], '16 set'),
    read('A prefix of four letters', ['w 0061 0062 0063 0065 | 0068 ;'], '16 grammar'),
    read('A prefix that begins with a mark', ['w 0301 0061 0062 | 0063 ;'], '16 V10'),
]

REPLACED = [
    ('Marks without elements', [('records', [*without('\u0301', '\u0323'), 'class 0350 230', 'w 0301 ;', 'w 0323 ;', 'w 0350 ;'])], [
        ('options identical', [compare('a\u0350\u0323', 'a\u0350\u0301', 'Less')]),
        ('tables', lines('read 301', 'plain 301', 'read 61 350 323'))]),
    ('A tertiary element', [('records', [*without('t'), 'w 0074 ; [0.0000.2.0900.0]', 'w 0042 ; [2A200000.0500.0.0900.0]'])], [
        ('options tertiary,caselevel,upper', [compare('a', 'ta', 'Less')]),
        ('options tertiary,upper', [compare('atb', 'aB', 'Greater')])]),
]

DAMAGED = [('utf8', text, count) for text, count in (
    ('f090', 1), ('eda080', 3), ('c0af', 2), ('f4908080', 4), ('ff', 1), ('80', 1), ('c3', 1), ('e282', 1), ('e08080', 3),
    ('f09f98', 1), ('f8888080', 4))] + [('utf16', 'dc00d800', 2), ('utf16', 'd800', 1), ('utf16', 'dc00', 1), ('utf16', 'd83dd83d', 2)]


def damaged(encoding, text, count):
    """Questions on a damaged text: alone, and between letters. It orders as that many U+FFFD do, and has the same key."""
    asked = []
    front, back, mark = ('0061', '0062', 'fffd') if encoding == 'utf16' else ('61', '62', 'efbfbd')
    for broken, whole in ((text, mark * count), (front + text + back, front + mark * count + back)):
        asked += [line(f'compare {encoding} {broken} {whole}', 'Equal'), line(f'compare {encoding} {whole} {broken}', 'Equal')]
        asked += lines(f'key {encoding} {broken}', f'key {encoding} {whole}')
    return asked


TWENTY = 'a' * 20
BEHIND = (TWENTY + 'c', TWENTY + 'e')
TIED = [('abcl', 'abco'), ('abc', 'abe'), ('ablcl', 'ablco'), ('ablc', 'able'), ('ehl', 'eho'), ('eh', 'ec'), ('hhhhl', 'hhhho')]
MARKED = ('\u00e1' * 20, 'a\u0301' * 20, 'a\u0323\u0301' * 20, '\uac00' * 20, 'e\u0301\uac01\u00e1' * 20)
ENDS = [('c', 'e'), ('tc', 'te'), ('\u0323', 'e'), ('', 'c')]
JAMO = [at('\u1100', '3A10'), at('\u1101', '3A20'), at('\u1161', '3B40'), at('\u1162', '3B30'), 'w 1163 ; [0.9200.0.0500.0]',
        at('\u11a8', '3C20'), at('\u11a9', '3C10')]
TEXTS = ('', 'a', 'A', 'ab', 'a b', 'a.b', 'Ab', 'aB', '\u00e1b', 'a\u0301B', 'b', 'a2', 'a10', 'A\u0323c')
NEAR = list(zip(TEXTS, TEXTS[1:])) + [('ab', 'Ab'), ('a b', 'ab'), ('a.b', 'ab'), ('a b', 'a.b'), ('\u00e1b', 'a\u0301b')]


def syllable(leading, vowel, trailing=0):
    """The Hangul syllable of three letters by their numbers; trailing 0 is none."""
    return chr(0xac00 + (leading * 21 + vowel) * 28 + trailing)


FIRST = syllable(0, 0)
SYLLABLES = [compare(syllable(0, 0, 1), syllable(1, 1), 'Less'), compare(syllable(0, 1), syllable(1, 0), 'Less'),
             compare(FIRST, syllable(0, 1), 'Greater'), compare(syllable(0, 0, 1), syllable(0, 1, 2), 'Greater'),
             compare(syllable(0, 0, 1), syllable(0, 0, 2), 'Greater'), compare(FIRST, syllable(0, 0, 1), 'Less'),
             compare(FIRST + 'b', syllable(0, 0, 1) + 'a', 'Less'), compare(FIRST + '\u11a8', syllable(0, 0, 2), 'Greater'),
             compare(FIRST + '\u11a8', syllable(0, 0, 1), 'Equal'), compare('\u1100\u1161', FIRST, 'Equal'),
             compare('\u1100\u1162', FIRST, 'Less'), compare(syllable(0, 2, 1), syllable(0, 0, 2), 'Greater'),
             compare(syllable(0, 2), syllable(0, 3)), compare(syllable(0, 0, 3), syllable(0, 0, 4)),
             compare(syllable(5, 0), syllable(6, 0)), compare(syllable(0, 0, 3), syllable(0, 0, 1)),
             compare('\ud7a3', syllable(18, 20, 26)), compare('\ud7a3', '\ud7a4'), compare(FIRST, '\uabff'),
             compare(FIRST, 'a', 'Greater'), compare('a' + syllable(0, 1) + 'b', 'a' + FIRST + 'a', 'Less'),
             compare(FIRST * 20 + syllable(1, 0), FIRST * 20 + syllable(0, 1), 'Greater')]


def option_paragraphs():
    """Questions at each strength with each option."""
    for strength in STRENGTHS:
        for words in ('', ',shifted', ',shifted,space', ',shifted,currency', ',caselevel', ',lower', ',upper',
                      ',caselevel,lower', ',caselevel,upper', ',numeric'):
            asked = [line('options?')]
            asked += [line(f'compare text {a.encode().hex() or "-"} {b.encode().hex() or "-"}') for a, b in NEAR]
            asked += [line(f'key utf8 {a.encode().hex() or "-"}') for a in TEXTS[1:]]
            yield f'options {strength}{words}', asked


OTHERS = [
    section('Damaged texts', [],
            ('options identical', [
                line('compare utf8 61ff 61efbfbd', 'Equal'), line('compare utf16 0061d800 0061fffd', 'Equal'),
                line('compare mixed e1 00610301', 'Equal'), line('compare mixed 61 0061d800', 'Less'),
                *(question for row in DAMAGED for question in damaged(*row))]),
            ('options primary', [question for row in DAMAGED for question in damaged(*row)])),
    section('From where texts are read: at least ten letters are left out, but with numbers and with shifting', [],
            ('options none', [place(*BEHIND, 'at least 10')]), ('options numeric', [place(*BEHIND, '0')]),
            ('options shifted', [place(*BEHIND, '0')])),
    section('From where texts are read: secondaries backward', ['set backward on'], ('options none', [place(*BEHIND, '0')])),
    section('From where texts are read: a dot above that may go', [*MARKS, 'set dotabove on'],
            ('options none', [place(*BEHIND, '0')])),
    section('From where texts are read: a dot above that stays', [*MARKS, 'set dotabove off'],
            ('options none', [place(*BEHIND, 'at least 10')])),
    section('From where texts are read: prefixes, and letters together', [
        'w 0061 0062 | 0063 ; [2A600000.0500.0.0500.0]', 'w 0061 0062 006C | 0063 ; [2A900000.0500.0.0500.0]', at('eh', '2A70')],
            ('options none', [*(place('t' * 20 + a, 't' * 20 + b, 'at least 10') for a, b in TIED),
                               place('h' * 21, 'h' * 20 + 'l', '0'),
                               *(compare('t' * 20 + a, 't' * 20 + b) for a, b in TIED)])),
    section('From where texts are read: letters with marks, and syllables', [at('a\u0301', '2A60'), 'w 0074 | 0063 ; [2A900000.0500.0.0500.0]'],
            ('options none', [*(place(front + a, front + b, 'at least 10') for front in MARKED for a, b in ENDS),
                               *(compare(front + a, front + b) for front in MARKED for a, b in ENDS)])),
    section('Texts that first differ in syllables: the letters decide', JAMO,
            *((f'options {words}', SYLLABLES) for words in ('primary', 'tertiary', 'identical'))),
    section('Leads in the place of others', ['set reorder 2A 2B 2B 2A'],
            ('options tertiary', [compare('t', 'a', 'Less'), key('t', '2a40010501010501'), key('a', '2b10010501010501')])),
    section('Settings of a file count where nothing else is given', [
        'set alternate shifted', 'set casefirst upper', 'set maxvariable symbol'],
            *((f'options {words}', lines('options?')) for words in (
                'none', 'quaternary', 'currency,lower', 'space,off,nonignorable', 'caselevel,numeric'))),
    section('Each strength with each option', [
        CAPITAL, 'w 0042 ; [2A200000.0500.1.0900.0]', at(' ', '0304'), at('.', '0308'), 'set groups 0306 030A 030C 2B48',
        'set maxvariable punctuation', *DIGITS], *option_paragraphs()),
]

ACCEPTED = ('file', [line('read', 'accepted')])
EIGHTFOLD = ['map 4E10 4E11 4E11 x', 'map 4E11 4E12 4E12 x', 'map 4E12 4E13 4E13 x']
LARGE = [
    ('The empty file', [('records', [])], [
        ACCEPTED, ('options primary', [key('z', 'fe0408d4'), compare('a', 'b', 'Less')]), ('normalisers', form('nfc', 'a\u0301', 'a\u0301'))]),
    ('As many code points as may be', [('records', [f'w {c:04X} ;' for c in range(0x4E00, 0x4E96)])], [
        ACCEPTED, ('options tertiary', [key('\u4e00', '01010101'), key('\u4e00\u4e01\u4e95', '01010101'), key('\u4e96'),
                                        key('\u4e95\u4e96'), compare('\u4e00', '\u4e95', 'Equal'), compare('\u4e95', '\u4e96', 'Less'),
                                        compare('a\u4e44', 'a', 'Equal')]),
        ('options identical', [compare('\u4e00', '\u4e95', 'Less'), compare('\u4e94\u4e95', '\u4e95\u4e94', 'Less')]),
        ('tables', elements((' ', '\u4e00', '-'), (' ', '\u4e95', '-'), (' ', '\u4e96', None), (' ', '\u4dff', None)))]),
    read('A code point more', ['w 4E96 ;'], '151 limit'),
    ('As many records as may be', [('records', [f'w {x:04X} {y:04X} ;' for x in range(0x4E00, 0x4E28) for y in range(0x4E00, 0x4E19)])], [
        ACCEPTED, ('options tertiary', [key('\u4e00\u4e00', '01010101'), key('\u4e27\u4e18', '01010101'), key('\u4e27\u4e19'),
                                        key('\u4e00'), compare('\u4e27\u4e18', '', 'Equal'), compare('\u4e27\u4e19', '', 'Greater'),
                                        compare('\u4e00\u4e00\u4e01', '\u4e01', 'Equal'), compare('\u4e13\u4e14', '\u4e14\u4e13', 'Equal'),
                                        compare('a' * 20 + '\u4e05\u4e06', 'a' * 20, 'Equal')]),
        ('options identical', [compare('\u4e13\u4e14', '\u4e14\u4e13', 'Less')]),
        ('tables', [*elements((' ', '\u4e00\u4e18', '-'), (' ', '\u4e27\u4e00', '-'), (' ', '\u4e27\u4e19', None),
                              (' ', 'a\u4e00\u4e01\u4e02', None)),
                    line('unsafe 4E00 4E18 4E19 4E27', 'true true false false')])]),
    read('A record more', ['w 4E28 ;'], '1001 limit'),
    ('As long a text as may be', [('records', [f'w{" 4E00" * 8} ; [2A900000.0500.0.0500.0]'])], [
        ACCEPTED, ('options primary', [key('\u4e00' * 8, '2a90'), key('\u4e00' * 16, '2a902a90'), key('\u4e00' * 7),
                                       compare('\u4e00' * 8, '\u4e00' * 7, 'Less')]),
        ('tables', elements((' ', '\u4e00' * 8, rest('2a90')), (' ', '\u4e00' * 7, None)))]),
    ('A character more in a text', [('records', [f'w{" 4E00" * 9} ;'])], [('file', [line('read', '1 limit')])]),
    ('As long a list of a character as may be', [('records', EIGHTFOLD)], [
        ACCEPTED, ('normalisers', [*form('nfd', '\u4e10', '\u4e13' * 8), *form('nfc', '\u4e10', '\u4e13' * 8)]),
        ('options identical', [compare('\u4e10', '\u4e13' * 8, 'Equal'), compare('\u4e10', '\u4e13' * 7, 'Greater')])]),
    ('A character more in a list', [('records', [*EIGHTFOLD, 'map 4E0F 4E10 4E14 x'])], [('file', [line('read', '4 C4')])]),
]

SECTIONS = [*WORKED, *OTHERS, *REFUSED, *REPLACED, *LARGE]


def missing(table):
    return f'Data(Missing({"".join(word.capitalize() for word in table.split("_"))}))'


def provider(*rows):
    return 'provider', [line(*row) for row in rows]


RANGES = '2A800000 2B000001 2B800000 2C0000FF'
EXCHANGED = '61000000 6200004F B0000000 B10000B1'
ONLY_B0 = f'groups{" 300" * 4}{" 0" * 11} 1{" 0" * 4}'
CHANGES = [
    ('What is loaded first is missed first', [('records', LETTERS)], [
        provider(*((f'lacks {" ".join(LOADS[i:])}', missing(table)) for i, table in enumerate(LOADS)), ('lacks', 'made'),
                 ('metadata 38', missing('tailoring')), ('lacks diacritics', missing('diacritics')),
                 ('lacks', missing('tailoring')), ('metadata 30', missing('reordering')), ('metadata 10', 'made'))]),
    section('Loads come first, then canonical tables, then the others', [],
            provider(('root 61 C3', "Table(Word('a'))"), ('nfd E1 D8FF', "Data(Canonical(BadValue('\u00e1')))"),
                     ('metadata 30', missing('reordering')), ('lacks pairs', missing('pairs')),
                     ('lacks', missing('reordering')), ('metadata 10', "Data(Canonical(BadValue('\u00e1')))"),
                     ('nfd E1 1808061', "Table(Word('a'))"), ('root 61 2A100505', 'made'))),
    section('A change at a time', [],
            provider(('nfd E1 D8FF', "Data(Canonical(BadValue('\u00e1')))")),
            provider(('nfd E1 0', "Data(Canonical(BadList('\u00e1')))")),
            provider(('steps 61 E1 110000 E1 61 301 1EA1 61 323', "Data(Canonical(Loop('a')))")),
            provider(('nfd AC00 0', "Data(Canonical(BuiltIn('\uac00')))")),
            provider(('root 61 C3', "Table(Word('a'))")),
            provider(('root 61 FFFFE1C6', "Table(Index('a'))"), ('root 61 C6', "Table(Index('a'))")),
            provider(('root 61 01000505', "Table(Weight('a'))")),
            provider(('root 62 2A1020C1', 'Table(PrefixOfWeight)')),
            provider((f'secondaries{" 8000" * 78}', 'made'), ('metadata 0', 'Table(Diacritics)')),
            provider(('jamo FF', 'Table(Jamo(255))')),
            provider(('metadata 30', missing('reordering')), ('reordering FF 0', 'Table(Reordering)'),
                     ('reordering 100 0', 'made')),
            provider(('groups 300 300 300', 'Table(SpecialPrimaries)')),
            provider(('numeric 2', 'Table(SpecialPrimaries)'))),
    section('Primaries moved by ranges: the upper halves of two leads are exchanged, and what no range is above stays', [
        at('s', '3010')],
            provider(('metadata 30', missing('reordering')), (f'reordering 100 60000000 {RANGES}', 'made'),
                     ('? key text 61', '2a10010501010501'), ('? key text 68', '2b80010501010501'),
                     ('? key text 74', '2b40010501010501'), ('? key text 73', '3010010501010501'),
                     ('? compare text 68 74', 'Greater'), ('? compare text 61 74', 'Less'), ('? compare text 68 73', 'Less'),
                     (f'reordering 100 2B800000 {RANGES}', 'Table(Reordering)'))),
    section('Two leads are exchanged, and one is compressible: the leads of x and y before that say what is left out', [
        at('x', '6110'), at('y', '6120')],
            provider((ONLY_B0, 'made'), ('? key text 7879', '61106120010601010601'),
                     ('metadata 30', missing('reordering')), ('exchange 61 B0', 'made'),
                     ('? key text 7879', 'b010b020010601010601'), (f'reordering 100 C0000000 {EXCHANGED}', 'made'),
                     ('? key text 7879', 'b010b020010601010601'))),
    section('The same with the other lead', [at('x', 'B010'), at('y', 'B020')],
            provider((ONLY_B0, 'made'), ('? key text 7879', 'b01020010601010601'),
                     ('metadata 30', missing('reordering')), ('exchange 61 B0', 'made'),
                     ('? key text 7879', '611020010601010601'), (f'reordering 100 C0000000 {EXCHANGED}', 'made'),
                     ('? key text 7879', '611020010601010601'))),
]
