#!/usr/bin/env python3
"""Writes a records file (docs/RECORDS.md) for chosen characters, by the files of Debian's package unicode-data.

  make_records.py LANGUAGE               an alphabet of tools/alphabets.py, with the rules of its language
  make_records.py CHARACTERS [RULES]     these characters, with rules as CLDR writes them (tools/tailoring.py)

A word of three letters a to z or more, in either case, is taken for a LANGUAGE. CHARACTERS is a text: a-z is a range, U+0061
or U+0061-U+007A a character or a range by code points; anything else, and a hyphen at either end, stands for itself. What a character decomposes to is taken with it. A file names at most 150 characters; a run of Han
characters counts as one, and a Hangul syllable as its jamo.

The order is that of the default table (allkeys.txt) but for the rules; the weights are new ones, in bytes. What is left out
is named on standard error. A language that isn't there, rules that aren't understood and files that lack are told there, the
status is 2, and nothing is printed.
"""
import difflib
import os
import re
import sys

import alphabets
from record_weights import Weights
from tailoring import Tailoring
from unicode_tables import BUILT_IN_CLASSES, BUILT_IN_MAPPINGS, JAMO, SPECIAL, SYLLABLES, Tables, show

MOST_CHARACTERS = 150
LONGEST = 8


def leave_out(what, why):
    print(f'left out: {what}: {why}', file=sys.stderr)


def chosen(text):
    """The code points that CHARACTERS names."""
    characters = [int(word[2:], 16) if len(word) > 1 else ord(word) for word in re.findall(r'U\+[0-9A-F]{4,6}|.', text)]
    words = re.findall(r'U\+[0-9A-F]{4,6}|.', text)
    named, place = [], 0
    while place < len(characters):
        if words[place + 1:place + 2] == ['-'] and place + 2 < len(words):
            named += range(characters[place], characters[place + 2] + 1)
            place += 3
        else:
            named.append(characters[place])
            place += 1
    return list(dict.fromkeys(named))


class Choice:
    """The characters of a file, with all that they decompose to, and its ranges."""

    def __init__(self, tables, characters):
        self.tables = tables
        self.named, self.ranges = {}, []
        self.count = 0
        for character in characters:
            self.take(character)

    def take(self, character):
        """Takes a character with its parts, if there is room and it has weights."""
        if character in SPECIAL or character in range(0xD800, 0xE000):
            leave_out(show([character]), 'built in, or no character')
        elif self.tables.is_ideograph(character):
            self.take_ideograph(character)
        else:
            taken = [part for part in self.needed(character) if part not in self.named]
            weightless = [part for part in self.tables.parts(character) if (part,) not in self.tables.entries]
            if weightless:
                leave_out(show([character]), 'no weights in allkeys.txt')
            elif self.count + len(taken) > MOST_CHARACTERS:
                leave_out(show([character]), f'over {MOST_CHARACTERS} characters')
            else:
                self.named.update(dict.fromkeys(taken))
                self.count += len(taken)

    def take_ideograph(self, character):
        """Puts a Han character behind the last range, or begins one."""
        if self.ranges and self.ranges[-1].stop == character:
            self.ranges[-1] = range(self.ranges[-1].start, character + 1)
        elif self.count == MOST_CHARACTERS:
            leave_out(show([character]), f'over {MOST_CHARACTERS} characters')
        else:
            self.ranges.append(range(character, character + 1))
            self.count += 1

    def needed(self, character):
        """The characters that lines on a character name: it and its parts, a syllable's jamo alone."""
        if character in SYLLABLES:
            return list(self.tables.parts(character))
        halves = () if character in self.tables.whole else self.tables.canonical.get(character, ())
        if character in self.tables.whole:
            halves = self.tables.canonical[character]
        return [part for half in halves for part in self.needed(half)] + [character]


class File:
    """The lines of a records file."""

    def __init__(self, tables, choice, rules):
        self.tables, self.choice = tables, choice
        self.named = choice.named
        roots = {((), text): elements for text, elements in self.texts()}
        self.tailoring = Tailoring(tables, rules)
        tailored = {key: elements for key, elements in self.tailoring.records.items() if self.is_kept(*key)}
        roots = {key: elements for key, elements in roots.items() if key not in tailored}
        self.records = {'w': self.sound(roots), 't': self.sound(tailored)}
        elements = [element for kind in self.records.values() for record in kind.values() for element in record]
        self.weights = Weights(tables, elements, self.tailoring.script)

    def texts(self):
        """The chosen characters that have weights of their own, and the contractions of them."""
        for text, elements in sorted(self.tables.entries.items(), key=lambda entry: ([e[:3] for e in entry[1]], entry[0])):
            if all(character in self.named for character in text) and self.is_kept((), text):
                yield text, elements

    def is_kept(self, prefix, text):
        """Whether a records file may have the text behind the prefix; what it may not is named."""
        tables = self.tables
        if any(character not in self.named for character in prefix + text):
            return False
        marks = [bool(tables.classes.get(character)) for character in text]
        why = None
        if len(text) > 1 and any(character in JAMO for character in text):
            why = 'a contraction of jamo'
        elif len(text) > 1 and text[0] in tables.digits:
            why = 'a contraction that begins with a digit'
        elif marks != sorted(marks):
            why = 'a letter behind a mark'
        elif len(text) > 2 and marks[-1] and text[:-1] not in tables.entries:
            why = 'a longer contraction with a mark'
        elif prefix and (len(text) > 1 or marks[0] or any(tables.classes.get(character) for character in prefix)):
            why = 'a prefix with a mark, or one of more than a letter'
        if why:
            leave_out(show(prefix + text), why)
        return not why

    def sound(self, records):
        """The records whose elements a file can say; the others are named."""
        kept = {}
        for (prefix, text), elements in records.items():
            if len(elements) > LONGEST or any(not element.tertiary or element.primary and not element.secondary
                                              or not element.secondary for element in elements):
                leave_out(show(prefix + text), 'elements that a file cannot say')
            elif text[0] in JAMO and len(elements) != 1:
                leave_out(show(text), 'a jamo with more than one element')
            else:
                kept[prefix, text] = elements
        return kept

    def lines(self):
        return [*self.settings(), *self.class_lines(), *self.record_lines('w'), *self.range_lines(),
                *self.record_lines('t'), *self.digit_lines(), *self.mapping_lines()]

    def settings(self):
        yield '# Settings'
        yield 'set maxvariable punctuation'
        yield f'set groups {self.weights.groups()}'
        if self.weights.compressible():
            yield f'set compress {self.weights.compressible()}'
        for setting in self.tailoring.settings:
            yield f'set {setting}'

    def class_lines(self):
        lines = [f'class {mark:04X} {self.tables.classes[mark]}' for mark in sorted(self.named)
                 if self.tables.classes.get(mark) and mark not in BUILT_IN_CLASSES]
        return ['', '# Classes of the marks', *lines] if lines else []

    def record_lines(self, kind):
        """The lines of a kind of records, with a comment where the letter changes."""
        if kind == 't' and self.records[kind]:
            yield from ('', '# What the language orders otherwise')
        last = None
        for (prefix, text), elements in self.records[kind].items():
            letters = [element.primary for element in elements if element.primary][:1 if kind == 'w' else None]
            if letters != last:
                yield from ('', f'# {self.said(prefix, text) if letters else "Marks"}')
            last = letters
            behind = ''.join(f'{character:04X} ' for character in prefix) + ('| ' if prefix else '')
            words = [f'{character:04X}' for character in text] + [';'] + [self.weights.word(element) for element in elements]
            yield f'{kind} {behind}{" ".join(words)}'

    def said(self, prefix, text):
        """The names of the characters of a text, and of those that it stands behind."""
        texts = [', '.join(self.tables.names[character].lower() for character in part) for part in (text, prefix) if part]
        return ', behind '.join(texts).replace('latin small letter ', '')

    def range_lines(self):
        if self.choice.ranges:
            yield from ('', '# Han characters, by code points')
        for place, characters in enumerate(self.choice.ranges):
            yield f'range {characters[0]:04X} {characters[-1]:04X} {0xE0 + place:02X}020200 1'

    def digit_lines(self):
        digits = [character for character in sorted(self.named) if character in self.tables.digits]
        return ['', '# Digits', *(f'digit {digit:04X} {self.tables.digits[digit]}' for digit in digits)] if digits else []

    def mapping_lines(self):
        lines = []
        for character in sorted(self.named):
            if character in self.tables.canonical and character not in self.tables.whole | BUILT_IN_MAPPINGS:
                parts = ' '.join(f'{part:04X}' for part in self.tables.canonical[character])
                mark = ' x' if ' ' in parts and character in self.tables.excluded else ''
                lines.append(f'map {character:04X} {parts}{mark}')
            elif character in self.tables.compatible and character not in BUILT_IN_MAPPINGS:
                lines += self.compatibility_line(character)
        return ['', '# What decomposes', *lines] if lines else []

    def compatibility_line(self, character):
        """The line of a compatibility mapping to characters that are there."""
        parts = self.tables.compatible[character]
        why = None
        if any(part not in self.named for part in parts):
            why = 'its parts are not chosen'
        elif any(part in JAMO for part in parts):
            why = 'it names jamo'
        elif character < 0xA0 or len(parts) > LONGEST or self.tables.classes.get(parts[0]) or self.tables.classes.get(character):
            why = 'no such mapping may stand in a file'
        if why:
            leave_out(f'the compatibility mapping of {show([character])}', why)
            return []
        return [f'kmap {character:04X} {" ".join(f"{part:04X}" for part in parts)}']


def unknown(choice):
    """What the head of an alphabet says of characters that the file does not name."""
    absent = ' '.join(character for character in alphabets.FURTHER if ord(character) not in choice.named)
    among = f'\nAmong these are {absent}, for which there is no room.' if absent else ''
    return f'\nA character that no line names sorts behind all that lines name, by its code point.{among}'


def fail(why):
    print(f'make_records.py: {why}', file=sys.stderr)
    sys.exit(2)


def main(words):
    if words and words[0] in ('-h', '--help'):
        print(__doc__)
        return
    if len(words) not in (1, 2):
        print(__doc__, file=sys.stderr)
        sys.exit(2)
    alphabet = alphabets.ALPHABETS.get(words[0])
    if len(words) == 1 and re.fullmatch('[A-Za-z_]{3,}', words[0]) and not alphabet:
        near = difflib.get_close_matches(words[0].lower(), alphabets.ALPHABETS, 1)
        fail(f'no language of tools/alphabets.py: {words[0]}' + (f' (there is {near[0]})' if near else ''))
    if alphabet and len(words) == 1:
        whole, rules, header = alphabet.whole, alphabet.rules, alphabet.header
        characters = alphabet.characters + alphabets.FURTHER
    else:
        whole, characters, rules = '', words[0], words[1] if len(words) == 2 else ''
        header = 'Characters that were chosen, in the order of the default table' + (', with rules' if rules else '') + '.'
    header += f'\nMade by tools/make_records.py{" " + words[0] if alphabet else ""}.'
    try:
        tables = Tables(chosen(whole))
        choice = Choice(tables, chosen(characters))
        file = File(tables, choice, rules)
    except OSError as error:
        fail(f'{error} (Debian has it in the package unicode-data)')
    except ValueError as error:
        fail(error)
    if alphabet:
        header += unknown(choice)
    lines = [*(f'# {line}' for line in header.split('\n')), '', *file.lines()]
    try:
        print('\n'.join(lines), flush=True)
    except BrokenPipeError:  # the reader has enough
        os.dup2(os.open(os.devnull, os.O_WRONLY), sys.stdout.fileno())
        sys.exit(1)


if __name__ == '__main__':
    main(sys.argv[1:])
