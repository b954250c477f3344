#!/usr/bin/env python3
"""Writes a run of `collate_unicode` over records/root.records, and what it must reply, by CLDR's conformance test.

  root_rows.py FOLDER              writes the end of FOLDER/stdin and FOLDER/stdout, behind their last removal
  root_rows.py --check FOLDER      compares them with what would be written; the status is 1 where they differ

2,000 lines of CollationTest_CLDR_NON_IGNORABLE.txt (Debian's unicode-cldr-core), taken evenly of those with another sort key
than the line before, are added far from their order, and listed: the reply is the order of the test. The program is
run without options. What stands before, up to the last name removed, is kept: it has to leave no name. Where a file lacks or
a line isn't understood, file, line and words stand on standard error, the status is 2, and nothing is written.
"""
import os
import re
import sys

from root_data import CLDR, Fault, at, lines_of, run

COUNT = 2000
# names are added by this stride, which has no divisor with COUNT
STRIDE = 1237
# what the root cannot tell, and what no name has
UNTOLD, LINE_FEED = 0xFDFA, 0xA


def test_lines():
    """The texts of the test that names may have, with their sort keys."""
    path = os.path.join(CLDR, 'uca/CollationTest_CLDR_NON_IGNORABLE.txt')
    for number, line in lines_of(path, 'unicode-cldr-core'):
        if not line or line.startswith('#'):
            continue
        found = re.fullmatch(r'([0-9A-F]{4,6}(?: [0-9A-F]{4,6})*);.*\[([0-9A-F |]*)\]\s*', line)
        if not found:
            raise Fault(at(path, number), f'no text with a sort key: {line[:60]!r}')
        characters = [int(word, 16) for word in found[1].split()]
        if not any(c in (UNTOLD, LINE_FEED) or 0xD800 <= c < 0xE000 for c in characters):
            yield ''.join(map(chr, characters)), found[2]


def chosen():
    """COUNT texts, evenly from the first to the last of those with another sort key than the one before."""
    texts, last = [], None
    for text, key in test_lines():
        if key != last:
            texts.append(text)
        last = key
    return [texts[number * (len(texts) - 1) // (COUNT - 1)] for number in range(COUNT)]


def kept(path, word):
    """The bytes of a stored file up to the last line that begins with the word; none where there is no file."""
    if not os.path.exists(path):
        return b''
    lines = open(path, 'rb').read().split(b'\n')
    count = max((number for number, line in enumerate(lines, 1) if line.startswith(word)), default=0)
    return b''.join(line + b'\n' for line in lines[:count])


def main(words):
    checks = words[:1] == ['--check']
    words = words[checks:]
    if len(words) != 1 or words[0].startswith('-'):
        print(__doc__, file=sys.stderr)
        return 2
    texts = chosen()
    added = ''.join(f'add {texts[number * STRIDE % COUNT]}\n' for number in range(COUNT))
    listed = COUNT * 'added\n' + f'names {COUNT}\n' + ''.join(f'{text}\n' for text in texts)
    status = 0
    for name, word, text in [('stdin', b'remove ', f'{added}list\n'), ('stdout', b'removed', listed)]:
        path = os.path.join(words[0], name)
        try:
            written = kept(path, word) + text.encode()
            if not checks:
                with open(path, 'wb') as file:
                    file.write(written)
            elif open(path, 'rb').read() != written:
                print(f'root_rows.py: {path}: not what would be written', file=sys.stderr)
                status = 1
        except OSError as error:
            raise Fault(path, error.strerror) from error
    return status


if __name__ == '__main__':
    sys.exit(run('root_rows.py', main))
