#!/usr/bin/env python3
"""How what a records file costs grows with its length, by instructions.

    tools/measure_growth.py PROGRAM [--only KIND].. [--largest N] [--rules | --places | --reloads]
    tools/measure_growth.py PROGRAM --table [FILE]..

PROGRAM is an executable of `collate_unicode`. For each kind of line files of 2,000, 4,000 .. lines are read and
compiled, up to N (64,000; fewer where tables have room for fewer); with --rules files are read instead that a rule
refuses at their end, up to 8,000, and with --places those that a rule refuses elsewhere, which looks at beginnings of a
file. What an empty file costs is taken off, or a short one that is refused so. With --reloads the last line of a file of up
to 32,000 is left out by a reload, over 10,000 names of the file's characters; what the same run without the reload costs is
taken off. It fails where a file twice as long takes more than 2.3 times the instructions, from 2,000 lines on, or at the
most lines that tables have room for. Of places it only prints the two at which the most beginnings are looked at, and
chains, which are never as long.

With --table it prints what reading, compiling and checking take of files of weights, of 0 to 64,000 lines, and of each
FILE: instructions, memory and time of a processor, the best of ten runs, the start in it. A call that a build has no
function for counts 0: with inline hints compiling has none, and what is said of checking counts both. Needs valgrind.
"""
import argparse
import os
import random
import re
import subprocess
import sys
import tempfile

MOST = 2.3
SMALLEST = 2_000
FEW = 2
NAMES = 10_000
COMMON = '0500.0.0500.0'


def characters(count, first=0x4E00):
    """So many code points that nothing is built in of."""
    found, c = [], first
    while len(found) < count:
        if not (0xAC00 <= c < 0xE000 or 0xF900 <= c < 0x10000):
            found.append(c)
        c += 1
    return found


def primary(i):
    """The i-th of many primary weights of three bytes, none of which begins another."""
    return f'{0x2A + i // 60_000:02X}{2 + i // 250 % 240:02X}{2 + i % 250:02X}00'


def weight(text, i, layer='w'):
    return f'{layer} {" ".join(f"{c:04X}" for c in text)} ; [{primary(i)}.{COMMON}]'


def weights(n):
    return [weight([c], i) for i, c in enumerate(characters(n))]


def alike(n):
    return [f'w {c:04X} ; [2A020200.{COMMON}]' for c in characters(n)]


def contractions_on_one(n):
    return [weight([0x61], 0)] + [weight([0x61, c], i + 1) for i, c in enumerate(characters(n - 1))]


def contractions(n):
    cs = characters(n)
    return [weight([c], i) for i, c in enumerate(cs[:n // 2])] + [
        weight([c, cs[0]], n + i) for i, c in enumerate(cs[:n - n // 2])]


def prefixes(n):
    cs = characters(n)
    return [weight([0x61], 0)] + [f'w {c:04X} | 0061 ; [{primary(i + 1)}.{COMMON}]' for i, c in enumerate(cs[:n - 1])]


def ranges(n):
    return [f'range {c:04X} {c + 1:04X} {primary(4 * i)} 1' for i, c in enumerate(characters(4 * n)[::4])]


def maps(n):
    cs = characters(2 * n, 0x3400)
    return [f'map {c:04X} {d:04X}' for c, d in zip(cs[:n], cs[n:])]


def pairs(n):
    cs = characters(n)
    return [f'class 0301 230'] + [f'map {c:04X} {c + 0x10000:04X} 0301' for c in cs[:n - 1]]


def chain(n):
    cs = characters(n + 1)
    return [f'map {c:04X} {d:04X}' for c, d in zip(cs, cs[1:])]


def chain_upwards(n):
    return chain(n)[::-1]


def kmaps(n):
    cs = characters(2 * n, 0x3400)
    return [f'kmap {c:04X} {d:04X}' for c, d in zip(cs[:n], cs[n:])]


def chain_of_kmaps(n):
    return [f'k{line}' for line in chain(n)]


def chain_of_kmaps_upwards(n):
    return chain_of_kmaps(n)[::-1]


def classes(n):
    return [f'class {c:04X} {1 + i % 254}' for i, c in enumerate(characters(n))]


def digits(n):
    cs = characters(n - n // 2)
    return [weight([c], i) for i, c in enumerate(cs)] + [f'digit {c:04X} {i % 10}' for i, c in enumerate(cs[:n // 2])]


def replaced(n):
    cs = characters(n - n // 2)
    return [weight([c], i) for i, c in enumerate(cs)] + [weight([c], n + i, 't') for i, c in enumerate(cs[:n // 2])]


def comments(n):
    return [f'# {i}' for i in range(n)]


# Each kind of line, and the most of them that tables have room for.
KINDS = {
    'weights': (weights, 64_000), 'alike': (alike, 64_000), 'contractions on one': (contractions_on_one, 3_600),
    'contractions': (contractions, 7_200), 'prefixes': (prefixes, 3_600), 'ranges': (ranges, 230),
    'maps': (maps, 16_000), 'pairs': (pairs, 7_900), 'chain': (chain, 1_900), 'chain upwards': (chain_upwards, 1_900),
    'kmaps': (kmaps, 16_000), 'chain of kmaps': (chain_of_kmaps, 1_900),
    'chain of kmaps upwards': (chain_of_kmaps_upwards, 1_900), 'classes': (classes, 64_000),
    'digits': (digits, 64_000), 'replaced': (replaced, 64_000),
    'comments': (comments, 64_000),
}

# Kinds whose characters can't stand in names, or of which the last line can't be left out.
NO_RELOADS = (comments,)

# What stands behind many lines of a kind, the rule that it breaks, and how many lines from the end on the fault stands.
REFUSED = {
    'grammar': ('grammar', weights, ['nothing'], 0), 'V14': ('V14', weights, ['w 4E00 ;'], 0),
    'limit': ('limit', weights, ['w' + ' 0061' * 9 + ' ;'], 0),
    'C1': ('C1', maps, ['class 3400 230'], 0), 'C2': ('C2', chain, ['map {last} 4E00'], 0),
    'C3': ('C3', classes, ['class 0061 255'], 0), 'C4': ('C4', maps, ['map 0061 0301', 'class 0301 230'], 1),
    'C4, all lists': ('C4', chain, ['class {last} 230'], 0),
    'C5': ('C5', pairs, ['map 2FA1D 14E00 0301'], 0), 'C6': ('C6', pairs, ['map 2FA1D 0061 0062'], 0),
    'C7': ('C7', maps, ['map 00E1 0061 0301 x'], 0), 'C8': ('C8', maps, ['class 0300 1'], 0),
    'C9': ('C9', maps, ['map 2FA1D AC00'], 0),
    'V1': ('V1', weights, ['w 0061 ; [0.0500.0.0000.0]'], 0),
    'V2': ('V2', weights, ['w 0061 ; [2A000000.0500.0.0500.0]'], 0),
    'V2, all weights': ('V2', weights, ['set compress 2A'], 0),
    'V3': ('V3', weights, ['w 0061 ; [0.0501.0.0500.0]'], 0),
    'V4': ('V4', weights, ['w 0061 ; [2B030300.0500.0.0501.0]'], 0),
    'V5': ('V5', weights, ['w 0061 ; [2A020000.0500.0.0500.0]'], 0),
    'V6': ('V6', ranges, ['range 4E00 4E01 7A020200 1'], 0),
    'V6, all weights': ('V6', weights, ['range E000 E001 2A020200 1'], 0),
    'V7': ('V7', weights, ['w 00E1 ;', 'map 00E1 0061 0301'], 0),
    'V7, first text': ('V7', contractions, ['map 4E00 0061'], 0),
    'V8': ('V8', weights, ['w 0061 0301 0062 ;', 'class 0301 230'], 1),
    'V8, first text': ('V8', contractions, ['class 4E00 230', 'w 0061 ;', 'w 0061 4E00 0062 ;'], 0),
    'V9': ('V9', weights, ['class 0301 230', 'w 0061 0062 0301 ;'], 0),
    'V10': ('V10', weights, ['w 0062 | 0061 ;'], 0), 'V10, first prefix': ('V10', prefixes, ['class 4E00 230'], 0),
    'V11': ('V11', weights, ['digit 0061 1'], 0), 'V11, first digit': ('V11', digits, ['w 4E00 0061 ;'], 0),
    'V12': ('V12', weights, ['w 1100 1161 ;'], 0), 'V13': ('V13', weights, ['w FFFD ;'], 0),
    'V15': ('V15', weights, ['set dotabove on'], 0), 'set': ('set', weights, ['set numeric 02'], 0),
}

# What breaks a rule wherever it stands among lines of a kind, and how many lines behind its first the fault stands.
PLACED = {
    'C1': ('C1', maps, ['class 3400 230'], 0), 'C2': ('C2', maps, ['map 2FA1C 2FA1D', 'map 2FA1D 2FA1C'], 1),
    'C2, chain': ('C2', chain, ['map 2FA1C 2FA1D', 'map 2FA1D 2FA1C'], 1),
    'C4': ('C4', maps, ['map 0061 0301'], 0), 'C4, chain': ('C4', chain, ['map 0061 0301'], 0),
    'C7': ('C7', maps, ['map 00E1 0061 0301 x'], 0), 'V2': ('V2', weights, ['w 0061 ; [2A000000.0500.0.0500.0]'], 0),
    'V5': ('V5', weights, ['w 0061 ; [2A020000.0500.0.0500.0]'], 0),
    'V6': ('V6', weights, ['range E000 E001 2A020200 1'], 0), 'V7': ('V7', weights, ['map 00E1 0061 0301', 'w 00E1 ;'], 1),
    'V8': ('V8', weights, ['class 0301 230', 'w 0061 0301 0062 ;'], 1),
    'V10': ('V10', weights, ['w 0062 | 0061 ;'], 0), 'V11': ('V11', weights, ['digit 0061 1'], 0),
    'V15': ('V15', weights, ['set dotabove on'], 0),
}

# Where it stands in a file of n lines of the kind, and whether growth is judged there.
PLACES = {
    'front': (lambda n: 1, True), 'middle': (lambda n: n // 2, True), 'behind 15 of 16': (lambda n: n // 16 * 15, False),
    '50 before the end': (lambda n: n - 50, False),
}


def instructions(program, lines, folder, commands=()):
    """Instructions of a run over a file, and all that it says."""
    name = os.path.join(folder, 'file.records')
    with open(name, 'w') as file:
        file.writelines(line + '\n' for line in lines)
    run = subprocess.run(['valgrind', '--tool=callgrind', '--callgrind-out-file=/dev/null', program, name],
                         input=''.join(command + '\n' for command in commands), capture_output=True, text=True)
    found = re.search(r'Collected : (\d+)', run.stderr)
    if found is None:
        sys.exit(f'measure_growth: no count of instructions: {run.stderr[-300:]}')
    said = ' '.join((run.stdout + re.sub(r'==.*', '', run.stderr)).split())
    return int(found.group(1)), said


def sizes(least, most):
    n = least
    while n <= most:
        yield n
        n *= 2


def grow(program, folder, name, make, most, base, answer=lambda n: '', is_judged=True):
    """Prints a row, and tells whether each step is within what it may be, and the program says of n lines what it should."""
    least = SMALLEST if most >= 2 * SMALLEST else most // 8
    last, row, good = None, [], True
    for n in sizes(least, most):
        lines = make(n)
        count, said = instructions(program, lines, folder)
        if said != answer(n):
            print(f'{name}: {n} lines: {said!r} in place of {answer(n)!r}', flush=True)
            return False
        count -= base
        ratio = count / last if last else 0
        row.append(f'{n}: {count / 1e6:.1f} M' + (f' ({ratio:.2f})' if last else ''))
        good = good and (ratio <= MOST or not is_judged or n < 2 * SMALLEST and 2 * n <= most)
        last = count
        if ratio > 2 * MOST:
            good = False
            break
    print(f'{name:22} {"" if good else "PAST 2.3  "}{"  ".join(row)}', flush=True)
    return good


def names_of(lines):
    """So many different names of six characters each, all of which stand in lines."""
    cs = sorted({int(c, 16) for line in lines for c in re.split('[;[]', line)[0].split()[1:] if re.fullmatch('[0-9A-F]{4,6}', c)})
    source = random.Random(1)
    return list(dict.fromkeys(''.join(chr(source.choice(cs)) for _ in range(6)) for _ in range(NAMES)))


def grow_reloads(program, folder, name, make, most):
    """Prints a row of reloads, and tells whether each step is within what it may be."""
    least = SMALLEST if most >= 2 * SMALLEST else most // 8
    last, row, good = None, [], True
    for n in sizes(least, most):
        lines = make(n)
        adds = [f'add {name}' for name in names_of(lines)]
        before, _ = instructions(program, lines, folder, adds)
        after, said = instructions(program, lines, folder, [*adds, f'reload {n - 1}', *lines[:-1]])
        if not re.fullmatch('(added )+reloaded [0-9]+', said):
            print(f'{name}: {n} lines: {said[-60:]!r}', flush=True)
            return False
        count = after - before
        ratio = count / last if last else 0
        row.append(f'{n}: {count / 1e6:.1f} M' + (f' ({ratio:.2f})' if last else ''))
        good = good and (ratio <= MOST or n < 2 * SMALLEST and 2 * n <= most)
        last = count
        if ratio > MOST and not good:
            break
    print(f'{name:22} {"" if good else "PAST 2.3  "}{"  ".join(row)}', flush=True)
    return good


# What calls of a run take, by the names of their functions: a part of the last is the one before.
PARTS = {'read': 'collate_records::records::Records::read_within', 'compile': 'collate_records::compile::compile',
         'made': 'collate_index::collators::collator_of'}


def parts_of(program, name, folder):
    """Instructions of a run over a file that adds nothing: whole, read, compiled, checked."""
    out = os.path.join(folder, 'callgrind.out')
    subprocess.run(['valgrind', '--tool=callgrind', f'--callgrind-out-file={out}', program, name], stdin=subprocess.DEVNULL,
                   capture_output=True, check=True)
    said = subprocess.run(['callgrind_annotate', '--inclusive=yes', '--threshold=100', out], capture_output=True, text=True,
                          check=True).stdout
    rows = re.findall(r'^ *([0-9,]+) \([^)]*\) +[^:\s]+:(\S+)', said, re.M)
    counts = {function: int(count.replace(',', '')) for count, function in rows}
    read, compiled, made = (counts.get(function, 0) for function in PARTS.values())
    return int(re.search(r'([0-9,]+) \([^)]*\) +PROGRAM TOTALS', said)[1].replace(',', '')), read, compiled, made - compiled


def spent(program, name):
    """Seconds of a processor that a run over a file takes that adds nothing, and the most KB that it held."""
    run = subprocess.Popen([program, name], stdin=subprocess.PIPE, stdout=subprocess.PIPE)
    run.stdin.write(b'list\n')
    run.stdin.flush()
    run.stdout.readline()
    with open(f'/proc/{run.pid}/status') as file:
        held = int(re.search(r'VmHWM:\s*(\d+) kB', file.read())[1])
    run.stdin.close()
    _, status, used = os.wait4(run.pid, 0)
    run.returncode = status
    return used.ru_utime + used.ru_stime, held


def table(program, folder, files):
    """Prints what reading, compiling and checking take."""
    print('lines: instructions whole, read, compile, check (M); KB; ms')
    made = []
    for n in (0, 150, 2_000, 8_000, 32_000, 64_000):
        made.append((f'{n} weights', os.path.join(folder, f'{n}.records')))
        with open(made[-1][1], 'w') as file:
            file.writelines(line + '\n' for line in weights(n))
    for title, name in made + [(name, name) for name in files]:
        counts = ', '.join(f'{count / 1e6:.1f}' for count in parts_of(program, name, folder))
        runs = [spent(program, name) for _ in range(10)]
        print(f'{title:24} {counts}; {max(kb for _, kb in runs)}; {1000 * min(time for time, _ in runs):.1f}', flush=True)


def refused(title, n):
    """The lines of a file that is refused at its end."""
    _, make, end, _ = REFUSED[title]
    last = f'{characters(n + 1)[-1]:04X}'
    return make(n) + [line.format(last=last) for line in end]


def placed(title, place, n):
    """The lines of a file that is refused at a place."""
    _, make, lines, _ = PLACED[title]
    first, whole = place_in(place, n), make(n)
    return whole[:first] + lines + whole[first:]


def place_in(place, n):
    return min(max(PLACES[place][0](n), 1), n)


def grow_at_places(program, folder, given):
    """Prints a row for each rule and place, and tells whether each step is within what it may be."""
    good = True
    for title, (rule, make, _, behind) in PLACED.items():
        most = min(next(m for f, m in KINDS.values() if f is make), given.largest, 8_000)
        for place, (_, is_judged) in PLACES.items() if given.only is None or title in given.only else []:
            base, _ = instructions(program, placed(title, place, FEW), folder)
            wanted = lambda n: f'collate: refused {place_in(place, n) + behind + 1} {rule}'
            lines = lambda n: placed(title, place, n)
            is_judged = is_judged and most >= 2 * SMALLEST
            good = grow(program, folder, f'{title}, {place}', lines, most, base, wanted, is_judged) and good
    return good


def main():
    parser = argparse.ArgumentParser()
    parser.add_argument('program')
    parser.add_argument('--only', action='append', metavar='KIND')
    parser.add_argument('--largest', type=int, default=64_000)
    parser.add_argument('--rules', action='store_true')
    parser.add_argument('--places', action='store_true')
    parser.add_argument('--reloads', action='store_true')
    parser.add_argument('--table', nargs='*', metavar='FILE')
    given = parser.parse_args()
    good = True
    with tempfile.TemporaryDirectory() as folder:
        if given.table is not None:
            table(given.program, folder, given.table)
            return
        for name, (make, most) in KINDS.items() if given.reloads else []:
            if make not in NO_RELOADS and (given.only is None or name in given.only):
                good = grow_reloads(given.program, folder, name, make, min(most, given.largest, 32_000)) and good
        if given.reloads:
            sys.exit(0 if good else 1)
        if given.places:
            sys.exit(0 if grow_at_places(given.program, folder, given) else 1)
        base, _ = instructions(given.program, [], folder)
        print(f'an empty file: {base / 1e6:.1f} M instructions')
        for name, (make, most) in {} if given.rules else KINDS.items():
            if given.only is None or name in given.only:
                good = grow(given.program, folder, name, make, min(most, given.largest), base) and good
        for title, (rule, make, _, place) in REFUSED.items() if given.rules else []:
            if given.only is None or title in given.only:
                most = min(next(m for f, m in KINDS.values() if f is make), given.largest, 8_000)
                base, _ = instructions(given.program, refused(title, FEW), folder)
                wanted = lambda n: f'collate: refused {len(refused(title, n)) - place} {rule}'
                good = grow(given.program, folder, title, lambda n: refused(title, n), most, base, wanted) and good
    sys.exit(0 if good else 1)


main()
