#!/usr/bin/env python3
"""How much of each number that bounds a records file the languages of CLDR take, put over the root: tools/count_room.py

Counts the root alone, and each file of records/languages over it (tools/join_records.py), by docs/RECORDS.md ("Limits"):
the numbers are read there. A line for each number: the most that may be, the most that a file takes, how many times that
may be, and the file; then the next three. The status is 1 where less than 1.5 times as much may be.
"""
import glob
import os
import re
import sys

from join_records import ROOT, joined
from root_data import BUILT_IN_COMPATIBLE, BUILT_IN_MAPPINGS, SYLLABLES, run

HERE = os.path.dirname(os.path.dirname(os.path.realpath(__file__)))
# How docs/RECORDS.md says each number
SAID = {
    'bytes': r'`Limits::UNICODE`: ([\d,]+) bytes',
    'code points': r'([\d,]+) code points and as many lines',
    'lines that say something': r'([\d,]+) code points and as many lines',
    'blocks of 512': r'([\d,]+) aligned blocks of 512',
    'blocks of 16': r'([\d,]+) of 16 from U',
    'elements': r'([\d,]+) elements: each',
    'texts beside': r'([\d,]+) texts beside',
    'full lists by map': r'([\d,]+) characters of full lists',
    'full lists by map and kmap': r'([\d,]+) characters of full lists',
}


def limits():
    """The numbers, by their names."""
    with open(os.path.join(HERE, 'docs/RECORDS.md'), encoding='utf-8') as file:
        page = ' '.join(file.read().split())
    return {name: int(re.search(form, page)[1].replace(',', '')) for name, form in SAID.items()}


def numbers(field):
    """The code points of a field."""
    return [int(one, 16) for one in field.split()]


def list_room(listed, mapped):
    """How many characters the full list of a character takes that maps to these."""
    if any(c in mapped or c in SYLLABLES for c in listed):
        return 8
    return 0 if len(listed) == 1 and 2 <= listed[0] <= 0xFFFF else len(listed)


class Counted:
    """What is counted of lines."""

    def __init__(self, lines):
        self.names, self.ranges, self.elements, self.beside, self.says = set(), 0, 0, 0, 0
        self.maps, self.kmaps = {}, {}
        for line in lines:
            if line and not line.startswith('#'):
                self.add(line)
        self.bytes = len('\n'.join(lines).encode())

    def add(self, line):
        """Counts one line more."""
        kind, rest = line.split(' ', 1)
        self.says += 1
        if kind in ('w', 't'):
            key, elements = rest.split(';')
            prefix, text = map(numbers, key.split('|') if '|' in key else ('', key))
            self.names.update(prefix, text)
            self.elements += 1 + elements.count('[') + elements.count('{')
            self.beside += bool(prefix) or len(text) > 1
        elif kind in ('map', 'kmap'):
            c, *listed = numbers(rest.removesuffix(' x'))
            self.names.update([c, *listed])
            (self.maps if kind == 'map' else self.kmaps)[c] = listed
        elif kind in ('class', 'digit'):
            self.names.add(int(rest.split(' ')[0], 16))
            self.elements += kind == 'digit'
        elif kind == 'range':
            self.ranges += 1
            self.elements += 1

    def taken(self):
        """What is taken of each number."""
        canonical = {*self.maps, *BUILT_IN_MAPPINGS}
        both = {*canonical, *self.kmaps, *BUILT_IN_COMPATIBLE}
        by_map = sum(list_room(listed, canonical) for listed in self.maps.values())
        by_both = sum(list_room(listed, both) for maps in (self.maps, self.kmaps) for listed in maps.values())
        return {
            'bytes': self.bytes,
            'code points': len(self.names) + self.ranges,
            'lines that say something': self.says,
            'blocks of 512': len({c // 512 for c in self.names}) + 3 * self.ranges,
            'blocks of 16': len({max(0, c - 0x10000) // 16 for c in self.names}) + 3 * self.ranges,
            'elements': self.elements,
            'texts beside': self.beside,
            'full lists by map': by_map,
            'full lists by map and kmap': by_both,
        }


def main(words):
    if words:
        print(__doc__, file=sys.stderr)
        return 2
    with open(ROOT, encoding='utf-8') as file:
        taken = {'root': Counted(file.read().split('\n')).taken()}
    for path in sorted(glob.glob(os.path.join(HERE, 'records/languages/*.records'))):
        taken[os.path.basename(path).removesuffix('.records')] = Counted(joined(ROOT, path)).taken()
    print(f'{len(taken) - 1} languages over the root')
    status = 0
    for name, most in limits().items():
        order = sorted(taken, key=lambda file: -taken[file][name])
        first = taken[order[0]][name]
        others = ', '.join(f'{file} {taken[file][name]:,}' for file in order[1:4])
        print(f'{name}: {most:,} may be, {first:,} are taken by {order[0]} ({most / first:.2f} times); then {others}')
        status |= 2 * most < 3 * first
    return status


if __name__ == '__main__':
    sys.exit(run('count_room.py', main))
