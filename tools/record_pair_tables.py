"""Pairs of records files and what they say differently, worked out by hand (docs/RECORDS.md): tools/record_rows.py.

A group has a title, the lines of the first file, and rows: a title, the lines of a second file, and questions with their
answers, or the first fault. Lines and elements stand as in tools/record_tables.py, questions as in crates/tests_collation_rows."""

from record_rule_tables import MARKS

ACCENTS = '''class 0302 230
map 00E1 0061 0301
map 1EA5 00E1 0302
kmap 00B2 0032
w 0061 ; {2A10}
w 0062 ; {2A20}
w 0301 ; {0.8800}
w 0302 ; {0.8A00}'''

REORDERED = '''# the same lines
w 0302 ; {0.8A00}
w 0301 ; {0.8800}

w 0062 ; {2A20}
w 0061 ; {2A10}
kmap 00B2 0032
map 1EA5 00E1 0302
map 00E1 0061 0301
class 0302 230'''

TWO_RANGES = 'range 4E00 4E07 E0020200 1\nrange 4E08 4E0F E0020A00 1'
DEFAULTS = '''set alternate nonignorable
set backward off
set casefirst off
set maxvariable space
set dotabove off
set numeric 10
set groups 0300 0300 0300 0300
set reorder 2A 2A'''


def same(*characters):
    """No setting changed, and none of these characters did."""
    return [('settings', 'equal'), *((f'changed {c}', 'same') for c in characters)]


def changed(c, *others):
    """This character changed, these others didn't."""
    return [(f'changed {c}', 'changed'), *((f'changed {other}', 'same') for other in others)]


REACHED = [
    ('reaches 61 0061', 'reaches'),
    ('reaches c3a1 00E1', 'reaches'),
    ('reaches c3a1 0061', 'reaches'),
    ('reaches c3a1 0301', 'reaches'),
    ('reaches e1baa5 00E1', 'reaches'),
    ('reaches e1baa5 0061', 'reaches'),
    ('reaches e1baa5 0301', 'reaches'),
    ('reaches 62e1baa5 0302', 'reaches'),
    ('reaches e1baa5 0062', 'not'),
    ('reaches e1baa5 0062 0301', 'reaches'),
    ('reaches 61cc81 00E1', 'not'),
    ('reaches 61 00E1 1EA5 0301', 'not'),
    ('reaches - 0061', 'not'),
    ('reaches c2b2 0032', 'not'),
    ('reaches c2b2 00B2', 'reaches'),
    ('reaches 62ff62 FFFD', 'reaches'),
    ('reaches 62ff62 0061 00FF', 'not'),
    ('reaches cd84 0301', 'reaches'),
    ('reaches eab080 1100', 'reaches'),
    ('reaches eab081 AC00', 'reaches'),
    ('reaches eab081 1161', 'reaches'),
    ('reaches eab081 11A7 11A9', 'not'),
]

SAID = [
    ('accents', ACCENTS, [
        ('a text reaches characters', ACCENTS, REACHED),
        ('the first file has the mappings', '', [('reaches e1baa5 0061', 'reaches')]),
        ('lines in another order', REORDERED, same('0061', '00E1', '1EA5', '0302', '00B2')),
        ('with another weight of a letter', ACCENTS.replace('2A10', '2A30'), changed('0061', '00E1', '1EA5', '0062', '0301')),
        ('with another weight of a mark', ACCENTS.replace('8A00', '8C00'), changed('0302', '1EA5', '0061')),
        ('with another class', ACCENTS.replace('0302 230', '0302 220'), changed('0302', '0301', '1EA5')),
        ('with no class', ACCENTS.replace('class 0302 230\n', ''), changed('0302', '1EA5')),
        ('without compatibility mapping', ACCENTS.replace('kmap 00B2 0032\n', ''), same('00B2', '0032')),
        ('without the second mapping', ACCENTS.replace('map 1EA5 00E1 0302\n', ''), changed('1EA5', '00E1', '0061')),
        ('without the first mapping', ACCENTS.replace('map 00E1 0061 0301\n', ''), changed('00E1', '1EA5', '0061')),
        ('with what is built in',
         ACCENTS + '\nclass 0301 230\nclass 0344 230\nmap 0344 0308 0301 x\nmap 0340 0300\nmap AC00 1100 1161',
         same('0301', '0344', '0340', 'AC00')),
    ]),
    ('a mapping of a letter', 'map 0400 0410 0350', [
        ('a mapping that is excluded', 'map 0400 0410 0350 x', same('0400', '0410', '0350')),
        ('a mapping to another second', 'map 0400 0410 0351', changed('0400', '0410', '0350', '0351')),
        ('a mapping to the first alone', 'map 0400 0410', changed('0400', '0410')),
        ('a mapping by compatibility', 'kmap 0400 0410 0350', changed('0400', '0410')),
        ('a mapping of another', 'map 0401 0410 0350', changed('0400', '0410') + changed('0401')),
    ]),
    ('two letters', 'w 0061 ; {2A10}\nw 0062 ; {2A20}', [
        ('a tailoring that repeats', 'w 0061 ; {2A10}\nt 0061 ; {2A10}\nw 0062 ; {2A20}', same('0061', '0062')),
        ('a tailoring alone', 't 0061 ; {2A10}\nw 0062 ; {2A20}', same('0061', '0062')),
        ('a tailoring with another weight', 'w 0061 ; {2A10}\nt 0061 ; {2A30}\nw 0062 ; {2A20}', changed('0061', '0062')),
        ('a tailoring of no elements', 'w 0061 ; {2A10}\nt 0061 ;\nw 0062 ; {2A20}', changed('0061', '0062')),
        ('another case', 'w 0061 ; [2A100000.0500.1.0500.0]\nw 0062 ; {2A20}', changed('0061', '0062')),
        ('another quaternary', 'w 0061 ; [2A100000.0500.0.0500.3]\nw 0062 ; {2A20}', changed('0061', '0062')),
        ('one more element', 'w 0061 ; {2A10} {2A20}\nw 0062 ; {2A20}', changed('0061', '0062')),
        ('a text of both', 'w 0061 ; {2A10}\nw 0062 ; {2A20}\nw 0061 0062 ; {2A30}', changed('0061', '0062')),
        ('a prefix', 'w 0061 ; {2A10}\nw 0062 ; {2A20}\nw 0062 | 0061 ; {2A30}', changed('0061', '0062')),
        ('a letter less', 'w 0062 ; {2A20}', changed('0061', '0062', '0063')),
        ('a letter more', 'w 0061 ; {2A10}\nw 0062 ; {2A20}\nw 0063 ;', changed('0063', '0061', '0062')),
    ]),
    ('a tailored letter and prefixes', 'w 0061 ; {2A10}\nt 0061 ; {2A20}\nw 0062 0063 | 0061 ; {2A30}', [
        ('another weight below the tailoring', 'w 0061 ; {2A40}\nt 0061 ; {2A20}\nw 0062 0063 | 0061 ; {2A30}',
         same('0061', '0062', '0063')),
        ('without tailoring', 'w 0061 ; {2A10}\nw 0062 0063 | 0061 ; {2A30}', changed('0061', '0062', '0063')),
        ('another prefix', 'w 0061 ; {2A10}\nt 0061 ; {2A20}\nw 0063 0062 | 0061 ; {2A30}', changed('0061', '0062', '0063')),
        ('another weight behind a prefix', 'w 0061 ; {2A10}\nt 0061 ; {2A20}\nw 0062 0063 | 0061 ; {2A40}',
         changed('0061', '0062', '0063')),
    ]),
    ('a text of two elements', 'w 0061 0062 ; {2A10} {2A20}', [
        ('elements in another order', 'w 0061 0062 ; {2A20} {2A10}', changed('0061', '0062')),
        ('a text in another order', 'w 0062 0061 ; {2A10} {2A20}', changed('0061') + changed('0062')),
    ]),
    ('a range of 16', 'range 4E00 4E0F E0020200 1', [
        ('a step of 2', 'range 4E00 4E0F E0020200 2', changed('4E00', '4DFF', '4E10') + changed('4E0F')),
        ('a step of 1 in three digits', 'range 4E00 4E0F E0020200 001', same('4E00', '4E0F', '4E10')),
        ('another primary weight', 'range 4E00 4E0F E0020300 1', changed('4E08', '4DFF', '4E10')),
        ('a later end', 'range 4E00 4E10 E0020200 1', changed('4E00', '4E11') + changed('4E10')),
        ('a later beginning', 'range 4E01 4E0F E0020200 1', changed('4E00', '4DFF') + changed('4E01')),
        ('the same weights by two ranges', TWO_RANGES, changed('4E00', '4E10') + changed('4E0F')),
        ('no range', '', changed('4E00', '4E10')),
        ('a range more', 'range 4E00 4E0F E0020200 1\nrange 5000 5001 E1020200 1', changed('5001', '4E00', '4FFF', '5002')),
    ]),
    ('a digit of 0', 'w 0030 ; {1110}\ndigit 0030 0', [
        ('another value', 'w 0030 ; {1110}\ndigit 0030 1', changed('0030', '0031')),
        ('no digit', 'w 0030 ; {1110}', changed('0030', '0031')),
        ('a digit more', 'w 0030 ; {1110}\ndigit 0030 0\nw 0031 ; {1111}\ndigit 0031 1', changed('0031', '0030')),
    ]),
]

SET = [
    ('no settings', '', [
        ('the defaults', DEFAULTS, same('0061')),
        ('weights alone', 'w 0061 ;', [('settings', 'equal'), *changed('0061')]),
        *((f'set {value}', f'set {value}', [('settings', 'different'), ('changed 0061', 'same')]) for value in (
            'alternate shifted', 'backward on', 'casefirst lower', 'casefirst upper', 'maxvariable punctuation',
            'maxvariable symbol', 'maxvariable currency', 'numeric 11', 'groups 0300 0300 0300 0301', 'compress 2A',
            'reorder 2A 2B 2B 2A')),
        ('set dotabove on', MARKS + '\nset dotabove on', [('settings', 'different')]),
    ]),
    ('two compressible leads', 'set compress 2A 2B', [
        ('compressible leads in another order', 'set compress 2B 2A', same('0061')),
        ('with a repeat', 'set compress 2A 2B 2A', same('0061')),
        ('one alone', 'set compress 2A', [('settings', 'different')]),
        ('another', 'set compress 2A 2C', [('settings', 'different')]),
        ('one more', 'set compress 2A 2B 2C', [('settings', 'different')]),
        ('none', '', [('settings', 'different')]),
    ]),
    ('three leads reordered', 'set reorder 2A 2B 2B 2C 2C 2A', [
        ('pairs in another order', 'set reorder 2C 2A 2A 2B 2B 2C', same('0061')),
        ('a pair of equal leads', 'set reorder 2A 2B 2D 2D 2B 2C 2C 2A', same('0061')),
        ('the other way round', 'set reorder 2B 2A 2C 2B 2A 2C', [('settings', 'different')]),
        ('two alone', 'set reorder 2A 2B 2B 2A', [('settings', 'different')]),
        ('equal leads alone', 'set reorder 2A 2A 2B 2B 2C 2C', [('settings', 'different')]),
        ('not reordered', '', [('settings', 'different')]),
    ]),
    ('two values', 'set numeric 11\nset alternate shifted', [
        ('two values in another order', 'set alternate shifted\nset numeric 11', same('0061')),
        ('one value less', 'set numeric 11', [('settings', 'different')]),
        ('a second file with a fault', 'w 0061 ;\nset numeric 02', '2 set'),
    ]),
    ('groups', 'set groups 0304 0308 030C 0310', [
        ('the same groups', 'set groups 0304 0308 030C 0310', same('0061')),
        ('another group', 'set groups 0304 0308 030D 0310', [('settings', 'different')]),
    ]),
]

PAIRS = [('characters of two files', SAID), ('settings of two files', SET)]
