#!/usr/bin/env python3
"""Draws the libraries and the program as crates.txt has them, into crates/crates.svg: tools/draw_crates.py [--check]

A crate stands above all that it uses; a line is left out where a longer way says the same. With --check nothing is
written: the status is 0 only where the picture is that of crates.txt, no library and no part of the program stands on a
crate of tests or measurement, and crates/README.md names each crate under the heading of its group, and no other; those
of tests and examples have a line each in CONTRIBUTING.md.
"""
import os
import re
import sys

ROOT = os.path.join(os.path.dirname(os.path.abspath(__file__)), '..')
PICTURE = os.path.join(ROOT, 'crates/crates.svg')
PAGE = os.path.join(ROOT, 'crates/README.md')
TABLE, TESTS = os.path.join(ROOT, 'CONTRIBUTING.md'), 'tests and examples'
DRAWN = ('libraries', 'program')
BOX_HEIGHT, LAYER_HEIGHT, LETTER, GAP, EDGE = 24, 62, 6.7, 16, 12


def read_crates():
    """The names of each group in order, and what each crate uses of this repository."""
    groups, uses, group = {}, {}, None
    for line in open(os.path.join(ROOT, 'crates.txt'), encoding='utf-8'):
        heading = re.fullmatch(r'# ([a-z ]+)\n', line)
        if heading:
            group = groups.setdefault(heading[1], [])
        elif line.strip() and not line.startswith('#'):
            name, used = line.split(':')
            group.append(name)
            uses[name] = used.split()
    return groups, {name: [it for it in used if it in uses] for name, used in uses.items()}


def below(name, uses):
    """All crates below one."""
    found = set()
    for used in uses[name]:
        found |= {used} | below(used, uses)
    return found


def lines_of(names, uses):
    """What each crate stands on directly: not by way of another."""
    found = {}
    for name in names:
        used = [it for it in uses[name] if it in names]
        found[name] = [it for it in used if not any(it in below(other, uses) for other in used)]
    return found


def layers_of(names, lines):
    """The crates by height: each above those that it stands on."""
    height = {}

    def of(name):
        if name not in height:
            height[name] = 1 + max((of(it) for it in lines[name]), default=-1)
        return height[name]

    layers = [[] for _ in range(1 + max(map(of, names)))]
    for name in names:
        layers[of(name)].append(name)
    return layers


def places_of(layers, lines):
    """The middle of each box, lowest layer first; a box goes where those that it stands on are."""
    width = max(sum(LETTER * len(it) + 2 * GAP for it in layer) for layer in layers) + 2 * EDGE
    places = {}
    for height, layer in enumerate(layers):
        wanted = {it: sum(places[on][0] for on in lines[it]) / len(lines[it]) if lines[it] else width / 2 for it in layer}
        layer.sort(key=wanted.get)
        left, room = EDGE, width - 2 * EDGE - sum(LETTER * len(it) + GAP for it in layer)
        for it in layer:
            half = (LETTER * len(it) + GAP) / 2
            left += room / (len(layer) + 1)
            places[it] = (round(left + half), (len(layers) - height) * LAYER_HEIGHT - LAYER_HEIGHT // 2)
            left += 2 * half
    return places, round(width), len(layers) * LAYER_HEIGHT


def picture(groups, uses):
    """The picture, as SVG."""
    names = [it for group in DRAWN for it in groups[group]]
    lines = lines_of(names, uses)
    places, width, height = places_of(layers_of(names, lines), lines)
    out = [f'<svg xmlns="http://www.w3.org/2000/svg" width="{width}" height="{height}" '
           f'viewBox="0 0 {width} {height}" font-family="monospace" font-size="11">',
           f'<rect width="{width}" height="{height}" fill="white"/>']
    for name in names:
        x, y = places[name]
        for it in lines[name]:
            to_x, to_y = places[it]
            middle = (y + to_y) // 2
            out.append(f'<path d="M{x} {y} C{x} {middle} {to_x} {middle} {to_x} {to_y}" fill="none" stroke="#999"/>')
    for name in names:
        x, y = places[name]
        box = round(LETTER * len(name) + GAP)
        fill = '#dbe8f6' if name in groups['libraries'] else '#f6e7c8'
        out.append(f'<rect x="{x - box // 2}" y="{y - BOX_HEIGHT // 2}" width="{box}" height="{BOX_HEIGHT}" '
                   f'rx="4" fill="{fill}" stroke="#555"/>')
        out.append(f'<text x="{x}" y="{y + 4}" text-anchor="middle">{name}</text>')
    return '\n'.join(out) + '\n</svg>\n'


def faults(groups, uses):
    """What isn't so, a line each."""
    if not os.path.exists(PICTURE) or open(PICTURE, encoding='utf-8').read() != picture(groups, uses):
        yield 'crates/crates.svg is not the picture of crates.txt: run tools/draw_crates.py'
    drawn = {it for group in DRAWN for it in groups[group]}
    for name in sorted(drawn):
        for it in uses[name]:
            if it not in drawn:
                yield f'crates.txt: {name} stands on {it}, which is of tests or measurement'
    parts = re.split(r'^## (.*)$', open(PAGE, encoding='utf-8').read(), flags=re.M)
    sections = {title.lower(): text for title, text in zip(parts[1::2], parts[2::2])}
    for group, names in groups.items():
        items = re.findall(r'^- ((?:`[a-z0-9_]+`(?:,\s+(?=`))?)+)', sections.get(group, ''), flags=re.M)
        page, named = 'crates/README.md', re.findall(r'`([a-z0-9_]+)`', ' '.join(items))
        if group == TESTS:
            page = 'CONTRIBUTING.md'
            named = re.findall(r'^    ((?:tests|samples|examples)_[a-z0-9_]+|assertions)\b', open(TABLE, encoding='utf-8').read(), flags=re.M)
        for it in names:
            if it not in named:
                yield f'{page}: {it} is not under "{group}"'
        for it in named:
            if it not in names:
                yield f'{page}: {it} is under "{group}", and not so in crates.txt'


def main():
    groups, uses = read_crates()
    if sys.argv[1:] == ['--check']:
        found = list(faults(groups, uses))
        for fault in found:
            print(fault)
        return 1 if found else 0
    with open(PICTURE, 'w', encoding='utf-8') as file:
        file.write(picture(groups, uses))
    return 0


if __name__ == '__main__':
    sys.exit(main())
