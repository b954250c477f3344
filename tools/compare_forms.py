#!/usr/bin/env python3
"""Compares normal forms with those of another program, on random records and random texts in three encodings.

  compare_forms.py READING [TEXTS [SEED]]

READING is a folder with an independent reading of the definitions in Python, as tools/reading: modules
`records` (`read`, `Fault`), `norm` (`form`) and `decode` (`decode_utf8`, `decode_utf16`). There are 5,000 texts unless
TEXTS says otherwise, 100 over each records file; as UTF-8 and as UTF-16 most of them are damaged. For each text, form and
encoding the form is compared, whether the text is in the form, and the two parts that it is split in: the prefix is
undamaged, the two parts are the text, the prefix and the form of the rest are the form of the text, the rest is empty
exactly where the text is undamaged and in the form, and the prefix holds what stands before the last low character at or
before the first difference. crates/speed has to be built (`rt run -- collator` in its folder). What differs is
printed, and the status is then 1.
"""
import json
import os
import random
import struct
import subprocess
import sys
import tempfile

from random_records import RESERVED, pairs_of, random_characters, random_records

ROOT = os.path.dirname(os.path.dirname(os.path.realpath(__file__)))
PROGRAM = os.path.join(ROOT, 'crates/speed/out/speed')
FORMS = ('nfd', 'nfc', 'nfkd', 'nfkc')
# below these characters none is changed by any text before it
LOW = {'nfd': 0xC0, 'nfc': 0x300, 'nfkd': 0xA0, 'nfkc': 0xA0}
TEXTS_A_FILE = 100


def damage_utf8(source):
    """Bytes of one kind of damage."""
    long = chr(source.choice([0x80, 0x7FF, 0x800, 0x301, 0x1EA1, 0xFFFD, 0x10000, 0x1F600, 0x10FFFF])).encode()
    kinds = [
        bytes([source.randint(0x80, 0xBF)]),  # a continuation that is alone
        long[:source.randint(1, len(long) - 1)],  # a sequence that is cut
        source.choice([b'\xC0\x80', b'\xC1\xBF', b'\xE0\x80\x80', b'\xE0\x9F\xBF', b'\xF0\x80\x80\x80', b'\xF0\x8F\xBF\xBF']),
        source.choice([b'\xED\xA0\x80', b'\xED\xAF\xBF', b'\xED\xB0\x80', b'\xED\xBF\xBF', b'\xED\xA0\xBD\xED\xB8\x80']),
        source.choice([b'\xF4\x90\x80\x80', b'\xF5\x80\x80\x80', b'\xF8\x88\x80\x80\x80', b'\xFE', b'\xFF']),
        bytes(b for b in source.randbytes(3) if b not in RESERVED),
    ]
    return source.choice(kinds)


def damage_utf16(source):
    """Units of one kind of damage."""
    high, low = source.randint(0xD800, 0xDBFF), source.randint(0xDC00, 0xDFFF)
    return source.choice([[high], [low], [low, high], [high, high, low], [high, low, low]])


def with_damage(source, pieces, damage):
    """Pieces with damage among them: mostly at the beginning, at the end or at any place, or none."""
    pieces = list(pieces)
    for _ in range(source.choice([0, 1, 1, 1, 2, 3])):
        pieces.insert(source.choice([0, len(pieces), source.randint(0, len(pieces))]), damage(source))
    return [unit for piece in pieces for unit in piece]


def utf16_units(c):
    data = chr(c).encode('utf-16-le')
    return list(struct.unpack(f'<{len(data) // 2}H', data))


class Encoding:
    """How texts are written to a file, read from what the program prints, and decoded by the oracle."""

    def __init__(self, suffix, decode, encode, damage, pack):
        self.suffix, self.decode, self.encode, self.damage, self.pack = suffix, decode, encode, damage, pack

    def units(self, chars):
        return [unit for c in chars for unit in self.encode(c)]

    def texts(self, source, texts):
        """The texts, as units, with damage where there may be some."""
        if self.damage is None:
            return [self.units(text) for text in texts]
        return [with_damage(source, [self.encode(c) for c in text], self.damage) for text in texts]

    def shown(self, line):
        """The units of a form that is printed."""
        return json.loads(line) if self.suffix == '_utf16' else list(line)

    def parts(self, line):
        prefix, rest = line.split(b'|')
        return (list(prefix), list(rest)) if self.suffix == '' else (json.loads(prefix), json.loads(rest))


def decode_utf8_as(oracle):
    """The oracle's decoding, which has to be Python's too."""
    def decode(units):
        chars = oracle.decode_utf8(bytes(units))
        assert ''.join(map(chr, chars)) == bytes(units).decode('utf-8', 'replace'), bytes(units)
        return chars
    return decode


def encodings(oracle):
    bytes_of, decode = (lambda c: chr(c).encode()), decode_utf8_as(oracle)
    return [Encoding('', decode, bytes_of, None, bytes),
            Encoding('_utf8', decode, bytes_of, damage_utf8, bytes),
            Encoding('_utf16', oracle.decode_utf16, utf16_units, damage_utf16,
                     lambda units: struct.pack(f'<{len(units)}H', *units))]


def run(folder, task):
    """The lines that a task prints, without the last, which counts; None where there is no such task."""
    words = [PROGRAM, 'normal', os.path.join(folder, 'records'), os.path.join(folder, 'texts'), task, '1']
    out = subprocess.run(words, stdout=subprocess.PIPE, check=True).stdout
    return None if out.startswith(b'usage') else out.split(b'\n')[:-2]


def first_difference(text, form):
    """The place of the first character at which a text and its form differ, or one of them has ended."""
    same = 0
    while same < min(len(text), len(form)) and text[same] == form[same]:
        same += 1
    return same


def reach(encoding, units, chars, form, low):
    """How many characters the prefix has at least."""
    stop = first_difference(chars, form)
    at = damaged = 0
    while damaged < stop and units[at:at + len(encoding.encode(chars[damaged]))] == list(encoding.encode(chars[damaged])):
        at += len(encoding.encode(chars[damaged]))
        damaged += 1
    return max((place for place, c in enumerate(chars[:damaged + 1]) if c < low), default=0)


def split_fault(encoding, units, form_of, low, parts):
    """What is wrong with two parts of a text; None where nothing is."""
    prefix, rest = parts
    chars, front = encoding.decode(units), encoding.decode(prefix)
    form = form_of(chars)
    is_own = form == chars and encoding.units(chars) == units
    if prefix + rest != units:
        return 'whole'
    if encoding.units(front) != prefix:
        return 'damaged prefix'
    if front + form_of(encoding.decode(rest)) != form:
        return 'normal'
    if (rest == []) != is_own:
        return 'empty'
    return 'far' if len(front) < reach(encoding, units, chars, form, low) else None


def compare_task(folder, encoding, name, texts, form_of):
    """How many comparisons of a form in an encoding were made, and what differs."""
    prints = [run(folder, action + name + encoding.suffix) for action in ('show_', 'tell_', 'split_')]
    if None in prints:
        return 0, []
    faults = [] if all(len(lines) == len(texts) for lines in prints) else [(name + encoding.suffix, 'lines')]
    for units, shown, told, split in zip(texts, *prints):
        chars = encoding.decode(units)
        form = form_of(chars)
        is_own = form == chars and encoding.units(chars) == units
        found = [('form', encoding.shown(shown) != encoding.units(form)), ('is', told != str(is_own).lower().encode()),
                 (split_fault(encoding, units, form_of, LOW[name], encoding.parts(split)), True)]
        faults += [(name + encoding.suffix, what, encoding.pack(units).hex()) for what, wrong in found if what and wrong]
    return 3 * len(texts), faults


def compare_file(folder, source, oracle, count, done):
    """Compares so many texts over one random records file, in each form and encoding; what differs."""
    lines, targets = random_records(source, oracle.read, lambda said: isinstance(said, oracle.Fault))
    records = '\n'.join([*lines, '']).encode()
    said = oracle.read(records)
    with open(os.path.join(folder, 'records'), 'wb') as file:
        file.write(records)
    characters = [random_characters(source, targets, pairs_of(lines)) for _ in range(count)]
    faults = []
    for encoding in encodings(oracle):
        texts = encoding.texts(source, characters)
        with open(os.path.join(folder, 'texts'), 'wb') as file:
            newline = encoding.pack([0xA])
            file.write(newline.join(encoding.pack(text) for text in texts) + (newline if encoding.suffix == '' else b''))
        for name in FORMS:
            made, found = compare_task(folder, encoding, name, texts, lambda chars: oracle.form(said, chars, name.upper()))
            done[name + encoding.suffix] = done.get(name + encoding.suffix, 0) + made
            faults += found
    return [(*fault, records.decode()) for fault in faults]


def load(folder):
    """The oracle's functions."""
    sys.path.insert(0, folder)
    import decode
    import norm
    import records
    return type('Oracle', (), {name: staticmethod(call) if callable(call) else call for name, call in [
        ('read', records.read), ('Fault', records.Fault), ('form', norm.form), ('uts46_map', norm.uts46_map),
        ('uts46_validate', norm.uts46_validate), ('decode_utf8', decode.decode_utf8), ('decode_utf16', decode.decode_utf16)]})


def main(words):
    if not 1 <= len(words) <= 3 or not all(map(str.isdigit, words[1:])):
        sys.stderr.write(__doc__)
        return 2
    oracle = load(words[0])
    left = int(words[1]) if len(words) > 1 else 5000
    source = random.Random(int(words[2]) if len(words) > 2 else 1)
    done, faults = {}, []
    with tempfile.TemporaryDirectory() as folder:
        while left > 0:
            faults += compare_file(folder, source, oracle, min(left, TEXTS_A_FILE), done)
            left -= TEXTS_A_FILE
    for name, made in done.items():
        print(f'{name:12} {made:7} comparisons' if made else f'{name:12} no such task')
    for fault in faults[:10]:
        print(*fault, sep='\n  ')
    print(f'{len(faults)} differ')
    return 1 if faults else 0


if __name__ == '__main__':
    sys.exit(main(sys.argv[1:]))
