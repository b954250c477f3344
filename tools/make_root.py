#!/usr/bin/env python3
"""Writes records/root.records, the order of CLDR's root for all characters that it names: docs/ROOT.md.

  make_root.py [FILE]              writes FILE (records/root.records)
  make_root.py --check [FILE]      compares FILE with what would be written; the status is 1 where they differ

It reads FractionalUCA.txt of Debian's package unicode-cldr-core and UnicodeData.txt, Scripts.txt and other files of the
package unicode-data (or in the folders that CLDR_DATA and UNICODE_DATA name). What a records file can't say is left out and
named on standard error. Where a file lacks or a line isn't understood, file, line and words stand there, the status is 2,
and nothing is written.
"""
import os
import sys

from root_data import (BUILT_IN_CLASSES, BUILT_IN_COMPATIBLE, BUILT_IN_MAPPINGS, FRACTIONAL, JAMO, SPECIAL, SURROGATES, SYLLABLES,
                       Characters, Element, Fault, Fractional, at, ranges, run, scripts, show)
from root_leads import NUMERIC, Plan

ROOT = os.path.dirname(os.path.dirname(os.path.realpath(__file__)))
FILE = os.path.join(ROOT, 'records/root.records')
LONGEST = 8
COMMON = (5,)
# ideographs of the core stand some third bytes apart, so that a language can put others between
HAN_STEP, HAN_ROW = 3, 84


class Left:
    """What is left out, by the reason."""

    def __init__(self):
        self.reasons = {}

    def out(self, text, why):
        self.reasons.setdefault(why, []).append(text)

    def tell(self):
        for why, texts in self.reasons.items():
            single = {text[0] for text in texts if len(text) == 1}
            words = [ranges(single)] if single else []
            words += [show(text) for text in texts if len(text) > 1]
            print(f'left out: {len(texts)}: {why}: {", ".join(words)}', file=sys.stderr)


class Root:
    """The records of the root."""

    def __init__(self):
        self.characters, self.fractional = Characters(), Fractional()
        self.plan = Plan(self.fractional, scripts())
        self.left = Left()
        self.core = self.ideographs_of_core()
        self.records, composed = {}, []
        for line in self.fractional.lines:
            self.take(line, composed)
        for ideograph, primary in self.core.items():
            self.records[(), (ideograph,)] = (element(primary, COMMON, COMMON),)
        self.named = {character for _, text in self.records for character in text}
        self.named |= {line.text[0] for line in composed if len(line.text) == 1}
        self.keep_rules()
        for line in composed:
            self.compare_with_parts(line)

    def ideographs_of_core(self):
        """The primary weights of the ideographs that stand before 3400 in the order: those that records use."""
        found = {}
        for part in self.fractional.ideographs:
            if part[0] == 0x3400:
                break
            for ideograph in part:
                place = len(found)
                found[ideograph] = (self.plan.han, 2 + place // HAN_ROW, 2 + HAN_STEP * (place % HAN_ROW))
        if not found or found[ideograph][1] > 0xFF:
            raise Fault(FRACTIONAL, 'the ideographs of the core do not fit one lead')
        return found

    def take(self, line, composed):
        """Takes a line of weights, if its text is decomposed."""
        text = line.prefix + line.text
        if SPECIAL & set(text):
            self.left.out(text, 'built in')
        elif any(character in SURROGATES for character in text):
            self.left.out(text, 'no text has surrogates')
        elif self.characters.decomposed(line.text) != line.text or self.characters.decomposed(line.prefix) != line.prefix:
            composed.append(line)
        elif len(line.elements) > LONGEST:
            self.left.out(text, f'{len(line.elements)} elements, and a file can tell {LONGEST}')
        else:
            self.records[line.prefix, line.text] = self.elements_of(line)

    def elements_of(self, line):
        """The elements of a line as the file has them."""
        place = at(FRACTIONAL, line.number)
        made = []
        for given in line.elements:
            primary = given.primary
            if given.ideograph is not None:
                if given.ideograph not in self.core:
                    raise Fault(place, f'the weight of an ideograph that is not in the core: {show([given.ideograph])}')
                primary = self.core[given.ideograph]
            elif primary:
                primary = self.plan.weight(primary, place)
            made.append(element(primary, given.secondary, given.tertiary, given.case))
        return tuple(made)

    def keep_rules(self):
        """Leaves out what the rules V8 to V12 refuse."""
        for key in sorted(self.records, key=lambda key: len(key[1])):
            why = self.refusal(*key)
            if why:
                self.left.out(key[0] + key[1], why)
                del self.records[key]

    def refusal(self, prefix, text):
        """Why a file may not have such a record; None where it may."""
        is_mark = self.characters.classes.get
        marks = [bool(is_mark(character)) for character in text]
        if marks != sorted(marks):
            return 'a letter behind a mark (V8)'
        if len(text) > 2 and marks[-1] and ((), text[:-1]) not in self.records:
            return 'a longer text with a mark (V9)'
        if prefix and (len(text) > 1 or ((), text) not in self.records or any(map(is_mark, prefix + text))):
            return 'a prefix with a mark, or of more than a letter (V10)'
        if len(text) > 1 and text[0] in self.characters.digits:
            return 'a longer text that begins with a digit (V11)'
        if len(text) > 1 and any(character in JAMO for character in text):
            return 'a longer text with a jamo (V12)'
        return None

    def compare_with_parts(self, line):
        """Names a composed text that FractionalUCA gives other elements than its parts have."""
        whole = self.characters.decomposed(line.prefix + line.text)
        if any(part in SYLLABLES for part in line.text):
            return
        parts = whole[len(self.characters.decomposed(line.prefix)):]
        if line.prefix and (line.prefix, parts) in self.records:
            read = self.records[line.prefix, parts]
        else:
            read = self.read(whole)
        given = [element.ideograph for element in line.elements]
        if any(ideograph and ideograph not in self.core for ideograph in given):
            if tuple(given) != whole:
                self.left.out(line.text, 'other elements than its parts have')
        elif self.elements_of(line) != read:
            self.left.out(line.text, 'other elements than its parts have')

    def read(self, parts):
        """The elements of decomposed characters, of which contractions are read as they stand together."""
        found, place = [], 0
        while place < len(parts):
            end = next((end for end in range(len(parts), place, -1) if ((), parts[place:end]) in self.records), None)
            if end is None:
                return None
            found += self.records[(), parts[place:end]]
            place = end
        return tuple(found)

    # ---- the lines of the file

    def lines(self):
        yield from self.head()
        yield from self.settings()
        yield from ('', '# Classes of the marks', *self.class_lines())
        yield from ('', '# What decomposes', *self.map_lines())
        yield from ('', '# What decomposes by compatibility', *self.kmap_lines())
        yield from ('', '# Digits', *self.digit_lines())
        yield from self.record_lines()
        yield from ('', '# Han characters that are not in the core, by code points', *self.range_lines())

    def head(self):
        yield f'# The order of all characters that CLDR 41 (Unicode {self.fractional.version}) names, in its root: docs/ROOT.md.'
        yield '# Made by tools/make_root.py from data files of Unicode, Inc., under the licence of LICENSE-UNICODE.txt:'
        yield '# Copyright (c) 1991-2022 Unicode, Inc. All rights reserved.'
        yield '#'
        yield '# The leads of primary weights, the first bytes: who has them, and whether a key leaves them out where they repeat.'
        yield from self.plan.comments()

    def settings(self):
        groups = ' '.join(f'{first:02X}{second:02X}' for first, second in self.plan.groups())
        yield from ('', '# Settings', 'set maxvariable punctuation', f'set groups {groups}', f'set numeric {NUMERIC:02X}')
        yield f'set compress {" ".join(f"{lead:02X}" for lead in self.plan.compressed())}'

    def class_lines(self):
        classes = self.characters.classes
        return [f'class {mark:04X} {classes[mark]}' for mark in sorted(self.named) if mark in classes and mark not in BUILT_IN_CLASSES]

    def map_lines(self):
        for character in sorted(self.named):
            parts = self.characters.canonical.get(character)
            if parts and character not in BUILT_IN_MAPPINGS:
                mark = ' x' if len(parts) > 1 and character in self.characters.excluded else ''
                yield f'map {character:04X} {spell(parts)}{mark}'

    def kmap_lines(self):
        for character in sorted(self.named):
            parts = self.characters.compatible.get(character)
            if parts and character not in BUILT_IN_COMPATIBLE:
                why = self.mapping_refusal(character)
                if why:
                    self.left.out((character,), why)
                else:
                    yield f'kmap {character:04X} {spell(parts)}'

    def mapping_refusal(self, character):
        """Why a file may not map a character by compatibility."""
        whole = self.characters.compatible_parts(character)
        if any(part in JAMO or part in SYLLABLES for part in self.characters.compatible[character]):
            return 'compatibility mapping that names jamo or syllables (C9)'
        if any(part in JAMO for part in whole):
            return 'compatibility mapping to a character with such a one'
        if len(whole) > LONGEST or self.characters.classes.get(whole[0]):
            return f'compatibility mapping to over {LONGEST} characters, or to a mark (C4)'
        if self.characters.classes.get(character):
            return 'compatibility mapping of a mark (C1)'
        return None

    def digit_lines(self):
        digits = self.characters.digits
        for character in sorted(self.named & set(digits)):
            if ((), (character,)) in self.records:
                yield f'digit {character:04X} {digits[character]}'

    def record_lines(self):
        """The lines of weights in their order, with a comment where the lead changes."""
        names = {lead: ' '.join(leads.names) for leads in self.plan.leads for lead in range(leads.first, leads.last + 1)}
        last = None
        for (prefix, text), elements in sorted(self.records.items(), key=order):
            first = elements[0].primary[:1] if elements else ()
            if first != last:
                title = f'Lead {first[0]:02X}: {names[first[0]]}' if first else 'Marks' if elements else 'Ignorable characters'
                yield from ('', f'# {title}')
                last = first
            yield f'w {spell(prefix) + " | " if prefix else ""}{spell(text)} ;' + ''.join(f' {word_of(part)}' for part in elements)

    def range_lines(self):
        for part, primary in self.ranges():
            yield f'range {part[0]:04X} {part[-1]:04X} {padded(primary, 4)} 1'

    def ranges(self):
        """The ideographs outside of the core, with the weight of the first of each range: one behind the other."""
        leads, place = iter(self.plan.ranges), 254 * 254
        for part in self.fractional.ideographs:
            if part[0] in self.core:
                continue
            if place + len(part) > 254 * 254:
                lead, place = next(leads, None), 0
                if lead is None:
                    raise Fault(FRACTIONAL, 'the ideographs do not fit the leads of ranges')
            yield part, (lead, 2 + place // 254, 2 + place % 254)
            place += len(part)


def element(primary, secondary, tertiary, case=0):
    return Element(primary, secondary, case, tertiary, None)


def order(record):
    """Lines stand in the order of their elements."""
    (prefix, text), elements = record
    return [part[:2] + part[3:1:-1] for part in elements], len(text), prefix, text


def spell(characters):
    return ' '.join(f'{character:04X}' for character in characters)


def padded(weight, size):
    return (''.join(f'{byte:02X}' for byte in weight) + '00' * size)[:2 * size]


def word_of(part):
    """An element as a line has it."""
    return f'[{padded(part.primary, 4) if part.primary else "0"}.{padded(part.secondary, 2)}.{part.case}.{padded(part.tertiary, 2)}.0]'


def compare(path, text):
    """Whether a file is what would be written; a difference is told."""
    try:
        with open(path, encoding='ascii') as file:
            there = file.read()
    except (OSError, UnicodeDecodeError) as error:
        raise Fault(path, str(error)) from error
    if there == text:
        return 0
    lines = zip(there.split('\n'), text.split('\n'))
    number = next((number for number, (a, b) in enumerate(lines, 1) if a != b), min(there.count('\n'), text.count('\n')) + 1)
    print(f'make_root.py: {path}, line {number}: not what would be written', file=sys.stderr)
    return 1


def main(words):
    checks = words[:1] == ['--check']
    words = words[checks:]
    if len(words) > 1 or words and words[0].startswith('-'):
        print(__doc__, file=sys.stderr)
        return 2
    path = words[0] if words else FILE
    root = Root()
    text = '\n'.join(root.lines()) + '\n'
    root.left.out((0xFDD0, 0xFDD1), f'{root.fractional.internal} lines that no text has')
    root.left.tell()
    if checks:
        return compare(path, text)
    try:
        with open(path, 'w', encoding='ascii') as file:
            file.write(text)
    except OSError as error:
        raise Fault(path, error.strerror) from error
    return 0


if __name__ == '__main__':
    sys.exit(run('make_root.py', main))
