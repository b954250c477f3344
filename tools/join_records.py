#!/usr/bin/env python3
"""Joins a tailoring to the root, and prints the records file of a language, as collate_join does: docs/LANGUAGES.md.

  join_records.py TAILORING [ROOT]     ROOT is records/root.records unless it is named

The lines of the root come first, but those whose key a line of the tailoring has, as `set alternate`, and the records that
lines `# without CP .. [| CP ..]` of the tailoring name; then those of the tailoring. A file that can't be read, a line that
is no line of records and a `# without` that names no record of the root are told with file and line; the status is 2, and
nothing is printed.
"""
import os
import re
import sys

from root_data import Fault, at, lines_of, run

ROOT = os.path.join(os.path.dirname(os.path.dirname(os.path.realpath(__file__))), 'records/root.records')
CP = '[0-9A-F]{4,6}'
KEY = re.compile(f'(?:{CP} )*(?:\\| )?(?:{CP} )*{CP}')
LINE = re.compile(r'|#.*|(?:class|map|kmap|w|t|range|digit|set) [ -~]+')


def left_out(path, lines):
    """What lines of a tailoring leave out: prefix and text, with the line that says so."""
    found = {}
    for number, line in lines:
        if line.startswith('# without'):
            key = line[len('# without '):]
            if not line.startswith('# without ') or not KEY.fullmatch(key):
                raise Fault(at(path, number), f'no key: {line[:60]!r}')
            found.setdefault(key, number)
    return found


def weighed(line):
    """The prefix and the text of a line of weights of the root; None of another line."""
    return line[2:].split(' ;')[0] if line.startswith('w ') else None


def key_of(line):
    """What a line is for: its kind with prefix and text, or with the field behind it; None where it is for nothing."""
    if line.startswith(('w ', 't ')):
        return line.split(';')[0]
    return None if not line or line.startswith(('#', 'range ')) else ' '.join(line.split(' ')[:2])


def joined(root_path, tailoring_path):
    """The lines of both files as one."""
    root, tailoring = lines_of(root_path), lines_of(tailoring_path)
    for path, lines in ((root_path, root), (tailoring_path, tailoring)):
        for number, line in lines:
            if not LINE.fullmatch(line):
                raise Fault(at(path, number), f'no line of records: {line[:60]!r}')
    without = left_out(tailoring_path, tailoring)
    there = {weighed(line) for _, line in root}
    for key, number in without.items():
        if key not in there:
            raise Fault(at(tailoring_path, number), f'the root has no such record: {key}')
    keys = {key_of(line) for _, line in tailoring} - {None}
    kept = [line for _, line in root if weighed(line) not in without and key_of(line) not in keys]
    return [*kept, *(line for _, line in tailoring)]


def main(words):
    if not 1 <= len(words) <= 2 or words[0].startswith('-'):
        print(__doc__, file=sys.stderr)
        return 2
    sys.stdout.write('\n'.join(joined(words[1] if len(words) > 1 else ROOT, words[0])))
    return 0


if __name__ == '__main__':
    sys.exit(run('join_records.py', main))
