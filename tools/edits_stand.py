#!/usr/bin/env python3
"""Complains of each edit of must-fail and wrong-bodies that can't be applied: edits_stand.py

An edit names files of its crate, and after each has pairs of an old and a new text, a line each: an old text has to stand once in
its file, as the pairs before left it. A line for each edit that doesn't, and the status is 0 only where there is none.
"""
import pathlib
import sys

CRATES = pathlib.Path(__file__).resolve().parent.parent / 'crates'


def fault(edit):
    """What is wrong with an edit, or nothing."""
    crate, texts, path, old = edit.parent.parent, {}, None, None
    for line in edit.read_text(encoding='utf-8').splitlines():
        kind, _, text = line.partition(': ')
        if kind == 'file':
            path = crate / text
            if not path.is_file():
                return f'no file {text}'
            texts.setdefault(path, path.read_text(encoding='utf-8'))
        elif kind == 'old':
            old = text
        elif line.startswith('new:'):
            found = texts[path].count(old)
            if found != 1:
                return f'{found} times in {path.relative_to(crate)}: {old.strip()}'
            texts[path] = texts[path].replace(old, text)
    return None


def main():
    edits = sorted(it for folder in ('must-fail', 'wrong-bodies') for it in CRATES.glob(f'*/{folder}/*.edit'))
    faults = [f'{edit.relative_to(CRATES.parent)}: {said}' for edit in edits if (said := fault(edit))]
    print('\n'.join(faults) if faults else f'{len(edits)} edits stand')
    return 1 if faults else 0


if __name__ == '__main__':
    sys.exit(main())
