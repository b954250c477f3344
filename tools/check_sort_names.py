#!/usr/bin/env python3
"""Checks what the program `sort_names` writes, over random lists and words.

  check_sort_names.py PROGRAM COLLATE [CALLS [SEED]]

PROGRAM is an executable of `sort_names`, COLLATE one of `collate` or `collate_unicode`, which is asked for the keys of
texts: of the order this script knows no more. It makes CALLS random calls (2,000) of all words over random lists: empty
ones, of one line, without a last line end, with NULs, damaged bytes, CRs, equal names in several spellings. What is
written has to be the lines read, in order, equal ones as they came, or the first of them; what `-c` and `-C` say has to
be true; and GNU `sort` over lines behind their keys has to write the same. Then fields: over a file whose order of single
bytes is that of ASCII, `sort` itself by the same `-k` and `-t`. Then CSV files by a column, as Python reads them, thousands of
parts, what is said on the way, a reader that goes away, and words that are refused. Prints each difference; the status is
then 1.
"""
import collections
import csv
import io
import os
import random
import re
import subprocess
import sys
import tempfile

ROOT = os.path.dirname(os.path.dirname(os.path.realpath(__file__)))
RECORDS = [os.path.join(ROOT, 'records', name) for name in ('latin.records', 'swedish.records', 'german.records')]
OPTIONS = [(), ('numeric=on',), ('strength=primary',), ('alternate=shifted',), ('casefirst=upper',), ('strength=identical',),
           ('strength=secondary', 'caselevel=on'), ('alternate=shifted', 'strength=quaternary', 'maxvariable=punctuation')]
PARTS = ['a', 'A', 'b', 'z', 'Z', 'é', 'e\u0301', 'É', 'E\u0301', 'å', 'a\u030a', 'ö', 'o\u0308', 'c\u0327\u0301', 'c\u0301\u0327', 'ss', 'ß',
         '1', '2', '10', '007', ' ', '-', "'", '\u2019', ',', '\t', '\0', '\r', 'ж', '中', '\U0001f600']
DAMAGED = [b'\xff', b'\xc3', b'\xe2\x82', b'\xed\xa0\x80', b'\xf4\x90\x80\x80', b'\x80']
PARTS_FOLDER = 'kept parts'
Call = collections.namedtuple('Call', 'records options reverse unique zero crlf keys check merge size column separator cut lines form')


def random_name(source):
    if source.random() < 0.04:
        return b''
    parts = [source.choice(PARTS).encode() for _ in range(source.randint(1, 4))]
    if source.random() < 0.1:
        parts.insert(source.randrange(len(parts) + 1), source.choice(DAMAGED))
    return b''.join(parts)


def random_lines(source, end, separator):
    """Lines without the byte that ends them, of which some are alike."""
    pool = [random_name(source) for _ in range(source.randint(1, 12))]
    between = [separator or b' ', separator or source.choice([b' ', b'\t', b'  ']), separator or b' ']
    lines = []
    for _ in range(source.choice([0, 1, 2, 3, 10, 30])):
        line = b''.join(source.choice(pool) + source.choice([b'', *between]) for _ in range(source.randint(1, 4)))
        lines.append(line + source.choice([b'', b'', b'', b'\r']))
    if end == b'\0' and separator:
        lines = [line + separator * 3 + b'\n' if source.random() < 0.2 else line for line in lines]
    return [line.replace(end, b'') for line in lines]


def random_call(source):
    zero, task = source.random() < 0.25, source.random()
    check, merge = task < 0.2, task > 0.75
    # the memory of a list past which there are parts: those of a line each, of some, of all
    size = source.choice(['0', '1b', '300b', '1', '2K', '3M', '1G']) if not check and source.random() < 0.4 else None
    column = separator = None
    if source.random() < 0.4:
        first = source.randint(1, 3)
        column = (first, source.choice([None, first, first + 1]))
        separator = source.choice([None, b',', b'\t', b'-', b'a'])
        if zero:
            separator, column = b',', (first, first)
    lines = random_lines(source, b'\0' if zero else b'\n', separator)
    return Call(source.choice(RECORDS), source.choice(OPTIONS), source.random() < 0.3, source.random() < 0.3, zero, source.random() < 0.2,
                not check and not merge and size is None and source.random() < 0.3, source.choice(['-c', '-C', '--check', '--check=silent']) if check else None,
                merge, size, column, separator, source.random() < 0.3, lines, source.random())


def field_spans(line, separator):
    """Where the fields of a line begin and end, as `sort` counts them."""
    if separator is None:
        return [match.span() for match in re.finditer(rb'[ \t\n]*[^ \t\n]+|[ \t\n]+$', line)]
    spans, start = [], 0
    for part in line.split(separator):
        spans.append((start, start + len(part)))
        start += len(part) + 1
    return spans


def compared(call, line):
    """What of a line is compared."""
    if call.crlf and line.endswith(b'\r'):
        line = line[:-1]
    if call.column is None:
        return line
    first, last = call.column
    spans = field_spans(line, call.separator)
    if first > len(spans):
        return b''
    return line[spans[first - 1][0]:len(line) if last is None or last > len(spans) else spans[last - 1][1]]


def ask_keys(collate, wanted):
    """The key of each text, by records and options."""
    keys = {}
    for (records, options), texts in wanted.items():
        texts = sorted(texts)
        run = subprocess.run([collate, records, *options], input=b''.join(b'key ' + text + b'\n' for text in texts), stdout=subprocess.PIPE,
                             check=True)
        answers = run.stdout.split(b'\n')[:-1]
        if len(answers) != len(texts):
            sys.exit(f'{collate}: {len(answers)} keys of {len(texts)} texts')
        keys.update({(records, options, text): key for text, key in zip(texts, answers)})
    return keys


def option_words(source, option):
    """One of the forms in which an option is given."""
    name, value = option.split('=')
    return source.choice([[f'--{name}', value] if name != 'numeric' else ['--numeric'], [f'--{option}'], [option]])


def words_of(call, source, files):
    """The words of a call, in any order and form."""
    words = [source.choice([['--records', call.records], [f'--records={call.records}']])]
    words += [option_words(source, option) for option in call.options]
    flags = ''.join(letter for letter, is_given in zip('ruzs', [call.reverse, call.unique, call.zero, call.form < 0.1]) if is_given)
    words += [[f'-{flags}']] if flags and call.form < 0.5 else [[f'-{letter}'] for letter in flags]
    words += [['--crlf']] * call.crlf + [['--keys']] * call.keys + [['--quiet']]
    words += [[source.choice(['-m', '--merge'])]] * call.merge
    if call.size:
        words.append(source.choice([['-S', call.size], [f'-S{call.size}'], [f'--buffer-size={call.size}']]))
        words += source.choice([[], [['-T', PARTS_FOLDER]], [[f'--temporary-directory={PARTS_FOLDER}']]])
    if call.check:
        words.append([call.check])
    if call.column:
        first, last = call.column
        fields = f'{first}' if last is None else f'{first},{last}'
        words.append(source.choice([['-k', fields], [f'-k{fields}'], [f'--key={fields}']]))
    if call.separator:
        sign = call.separator.decode()
        words.append(source.choice([['-t', sign], [f'-t{sign}'], [f'--field-separator={sign}']]))
    words += [[file] for file in files]
    source.shuffle(words)
    return [word for group in words for word in group]


def place_order(call, keys, places):
    """Places of a call's lines, in order of their keys."""
    places = sorted(places, key=keys.__getitem__, reverse=call.reverse)
    if call.unique:
        places = [place for at, place in enumerate(places) if at == 0 or keys[place] != keys[places[at - 1]]]
    return places


def first_disorder(call, keys):
    for at in range(1, len(keys)):
        before, here = (keys[at], keys[at - 1]) if call.reverse else (keys[at - 1], keys[at])
        if here < before or (call.unique and here == before):
            return at
    return None


def by_sort(call, keys):
    """What GNU `sort` makes of the lines behind their keys."""
    flags = ['-' + letter for letter, is_given in zip('ruz', [call.reverse, call.unique, call.zero]) if is_given]
    end = b'\0' if call.zero else b'\n'
    data = b''.join(key + b'\t' + line + end for key, line in zip(keys, call.lines))
    run = subprocess.run(['sort', '-s', '-t', '\t', '-k', '1,1', *flags], input=data, stdout=subprocess.PIPE, check=True,
                         env={**os.environ, 'LC_ALL': 'C'})
    return run.stdout if call.keys else b''.join(line.split(b'\t', 1)[1] + end for line in run.stdout.split(end)[:-1])


def by_sort_merged(call, keys, pieces, folder):
    """What `sort -m` makes of pieces of places, each in order, behind their keys."""
    end, names = b'\0' if call.zero else b'\n', []
    for at, piece in enumerate(pieces):
        names.append(os.path.join(folder, f'keyed {at}'))
        with open(names[-1], 'wb') as file:
            file.write(b''.join(keys[place] + b'\t' + call.lines[place] + end for place in piece))
    flags = ['-' + letter for letter, is_given in zip('ruz', [call.reverse, call.unique, call.zero]) if is_given]
    run = subprocess.run(['sort', '-m', '-s', '-t', '\t', '-k', '1,1', *flags, *names], stdout=subprocess.PIPE, check=True,
                         env={**os.environ, 'LC_ALL': 'C'})
    for name in names:
        os.remove(name)
    return run.stdout if call.keys else b''.join(line.split(b'\t', 1)[1] + end for line in run.stdout.split(end)[:-1])


def disorder_by_sort(call, keys):
    """Which line `sort -c` finds out of order, by the keys, counted from 0; `None` where none is."""
    flags = ['-' + letter for letter, is_given in zip('ru', [call.reverse, call.unique]) if is_given]
    run = subprocess.run(['sort', '-c', '-s', '-t', '\t', '-k', '1,1', *flags], input=b''.join(key + b'\t\n' for key in keys), check=False,
                         stderr=subprocess.PIPE, env={**os.environ, 'LC_ALL': 'C'})
    return int(re.match(rb'sort: -:([0-9]+): disorder', run.stderr)[1]) - 1 if run.returncode else None


def run_program(program, words, data, cwd):
    run = subprocess.run([program, *words], input=data, stdout=subprocess.PIPE, stderr=subprocess.PIPE, check=False, cwd=cwd,
                         env={**os.environ, 'TMPDIR': cwd})
    return run.stdout, run.stderr, run.returncode


def pieces_of(call, keys, source):
    """The places of a call's lines, in as many pieces as there are files; in order, as a merge wants them, or now and then not."""
    count = 1 if call.check else source.randint(1, 3)
    cuts = [0, *sorted(source.randint(0, len(call.lines)) for _ in range(count - 1)), len(call.lines)]
    pieces = [list(range(start, stop)) for start, stop in zip(cuts, cuts[1:])]
    if call.merge:
        pieces = [sorted(piece, key=keys.__getitem__, reverse=call.reverse) if source.random() < 0.9 else piece for piece in pieces]
    return pieces


def lists_of(call, source, pieces, folder):
    """The call's pieces as the files of a folder and standard input: the operands, and the input."""
    end = b'\0' if call.zero else b'\n'
    operands, data, has_input = [], b'', False
    for at, piece in enumerate(pieces):
        text = b''.join(call.lines[place] + end for place in piece)
        if call.cut and piece and call.lines[piece[-1]]:
            text = text[:-1]
        if not has_input and source.random() < 0.5:
            operands, data, has_input = operands + ['-'], text, True
        else:
            with open(os.path.join(folder, f'list {at}'), 'wb') as file:
                file.write(text)
            operands.append(f'list {at}')
    if operands == ['-'] and source.random() < 0.7:
        operands = []
    return operands, data


def disorder_of(call, keys, piece):
    """Where a piece of places is first below what stands before it; `None` where it is in order."""
    return first_disorder(call._replace(unique=False), [keys[place] for place in piece])


def written_of(call, keys, places):
    """The lines at places as they are written."""
    end = b'\0' if call.zero else b'\n'
    return b''.join((keys[place] + b'\t' if call.keys else b'') + call.lines[place] + end for place in places)


def fault_of_disorder(call, keys, pieces, operands, answer, words):
    """What is wrong with the answer to a merge of pieces of which one isn't in order; `None` where nothing is."""
    out, said, status = answer
    at = [disorder_of(call, keys, piece) for piece in pieces]
    told = [f'sort_names: cannot merge {path}: line {first + 1} isn\'t in order\n'.encode()
            for path, first in zip(operands, at) if first is not None]
    places = place_order(call, keys, [place for piece, first in zip(pieces, at) for place in piece[:first]])
    if said in told and status == 2 and written_of(call, keys, places).startswith(out) and not ('-o' in words and out):
        return None
    return words, b'', answer, told


def left_files(words, folder):
    """What is wrong where files of the program are left; `None` where none is."""
    left = [name for name in os.listdir(folder) if name.startswith('.')] + os.listdir(os.path.join(folder, PARTS_FOLDER))
    return (words, b'', left, 'no file is left') if left else None


def fault_of(call, program, keys, source, folder):
    """What is wrong with the answer to a call; `None` where nothing is."""
    end = b'\0' if call.zero else b'\n'
    os.mkdir(os.path.join(folder, PARTS_FOLDER))
    pieces = pieces_of(call, keys, source)
    operands, data = lists_of(call, source, pieces, folder)
    # operands keep their order
    words = words_of(call, source, [])
    words[len(words):] = operands
    output = None
    if not call.check and source.random() < 0.3:
        output = source.choice(['written', *[operand for operand in operands if operand != '-']])
        words = [source.choice(['-o', '--output']), output, *words]
    out, said, status = run_program(program, words, data, folder)
    if call.check:
        at = first_disorder(call, keys)
        path = (operands or ['-'])[0].encode()
        line = b'' if at is None or call.check in ('-C', '--check=silent') else b'sort_names: %s:%d: disorder: %s\n' % (path, at + 1, call.lines[at])
        wanted = (b'', line, 0 if at is None else 1)
        if at != disorder_by_sort(call, keys):
            return words, data, disorder_by_sort(call, keys), at
        return None if (out, said, status) == wanted else (words, data, (out, said, status), wanted)
    if call.merge and any(disorder_of(call, keys, piece) is not None for piece in pieces):
        return fault_of_disorder(call, keys, pieces, operands or ['-'], (out, said, status), words) or left_files(words, folder)
    if output:
        if status or not os.path.exists(os.path.join(folder, output)):
            return words, data, (out, said, status), 'a file'
        with open(os.path.join(folder, output), 'rb') as file:
            written = file.read()
        if out:
            return words, data, out, 'written to standard output'
        out = written
    places = place_order(call, keys, [place for piece in pieces for place in piece])
    wanted = b''.join((keys[place] + b'\t' if call.keys else b'') + call.lines[place] + end for place in places)
    if (out, said, status) != (wanted, b'', 0):
        return words, data, (out, said, status), wanted
    answered = by_sort_merged(call, keys, pieces, folder) if call.merge else by_sort(call, keys)
    if wanted != answered:
        return words, data, answered, wanted
    return left_files(words, folder)


def ascii_records(folder):
    """A records file by which texts of one byte each compare as in ASCII."""
    path = os.path.join(folder, 'ascii.records')
    with open(path, 'w', encoding='ascii') as file:
        for byte in [9, *range(32, 127)]:
            file.write(f'w {byte:04X} ; [2A{byte:02X}1000.0500.0.0500.0]\n')
    return path


def check_fields(program, source, count, folder):
    """How many lists differ from what `sort` makes of them by the same fields."""
    records, faults = ascii_records(folder), 0
    for _ in range(count):
        separator = source.choice([None, ',', '\t', 'b', ' '])
        alphabet = 'abc' + source.choice([' ', '  ', '\t', ' \t']) + (separator or ' ') * 2
        lines = [''.join(source.choice(alphabet) for _ in range(source.randint(0, 9))) for _ in range(source.randint(0, 20))]
        first = source.randint(1, 4)
        fields = source.choice([f'{first}', f'{first},{first}', f'{first},{first + 1}', f'{first},{first + 3}'])
        words = ['-k', fields, *(['-t', separator] if separator else []), *source.choice([[], ['-r'], ['-u'], ['-ru']])]
        data = ''.join(line + '\n' for line in lines).encode()
        wanted = subprocess.run(['sort', '-s', *words], input=data, stdout=subprocess.PIPE, check=True, env={**os.environ, 'LC_ALL': 'C'}).stdout
        got = run_program(program, ['--records', records, '--quiet', *words], data, folder)
        if got != (wanted, b'', 0):
            faults += 1
            print(f'{words} {data}: {got}, not {wanted}')
    return faults


def check_refused(program, folder):
    """How many bad calls aren't refused by one line, status 2 and nothing written."""
    records, faults = RECORDS[0], 0
    with open(os.path.join(folder, 'names'), 'wb') as file:
        file.write(b'b\na\n')
    given = ['--records', records]
    default = ['--default-records', records]
    calls = [['-k', '0'], ['-k', '3,2'], ['-k', ''], ['-k', '1,0'], ['-k', 'x'], ['-k', '1.2'], ['-k', '1', '-k', '1'], ['-k', '99999999999999999999999'],
             ['-t', 'ab'], ['-t', ''], ['-t', 'é'], ['-c', 'names', 'names'], ['-c', '-C'], ['-c', '-o', 'other'], ['--frob'], ['-x'], ['-rx'], ['-o'],
             ['strength=none'], ['--strength', 'none'], ['--strength'], ['numeric=on', 'numeric=off'], ['--numeric', '--numeric=off'], ['nothing'],
             ['names', 'nothing'], ['.'], ['-S', 'x'], ['-S', ''], ['-S', '1Q'], ['-S', '-1'], ['-S', '99999999999999999999'], ['-S', '9999999T', '-S', '1'],
             ['-T', 'nothing'], ['-T', 'names'], ['-S', '1', '-T', 'nothing'], ['-T', '.', '-T', '.'], ['-m', '-c'], ['-C', '-m'], ['-m', '--unknown'],
             ['-m', '--keys', 'names'], ['-S', '1b', '--keys', 'names'], ['-m', 'names', 'nothing'], ['-m', 'names', '.'], ['-m', 'names', '-o', 'other'], ['-S', '1b', 'names', 'nothing'],
             ['-S', '1b', 'names', '.'], ['-S', '1b', 'names', '-o', 'no/folder'], ['--progress', 'nothing'], ['--records', records], ['--over', records], [b'\xff'], ['-o', 'no/folder', 'names'], ['--records']]
    for call in [given + call for call in calls] + [default + ['latin.records'], default + ['numeric=on'], default * 2, [], ['names'], ['latin.records'], ['numeric=on'], ['names', 'strength=primary'], ['--records', 'nothing'],
                                                  ['--records', 'names'], ['--over', records, 'names'], ['--over', records, records, '--records', records]]:
        out, said, status = run_program(program, call, b'b\na\n', folder)
        if out or status != 2 or said.count(b'\n') != 1 or not said.startswith(b'sort_names: ') or 'other' in os.listdir(folder):
            faults += 1
            print(f'{call}: {out}, {said}, {status}')
    with open('/dev/full', 'wb') as full:
        run = subprocess.run([program, *given, 'names'], stdout=full, stderr=subprocess.PIPE, check=False, cwd=folder)
        if run.returncode != 2 or run.stderr.count(b'\n') != 1:
            faults += 1
            print(f'full disk: {run}')
    for word, said in (('--help', b'usage: sort_names'), ('-h', b'usage: sort_names'), ('--version', b'sort_names ')):
        if not run_program(program, [word], b'', folder)[0].startswith(said):
            faults += 1
            print(f'{word}: another text')
    return faults


def csv_text(rows, source):
    """Records as some program may have written them."""
    text = io.StringIO(newline='')
    csv.writer(text, lineterminator=source.choice(['\n', '\r\n']), quoting=source.choice([csv.QUOTE_MINIMAL, csv.QUOTE_ALL])).writerows(rows)
    return text.getvalue().encode()


def check_csv(program, collate, source, count, folder):
    """How many CSV files aren't sorted by a column, or are where they are refused."""
    faults, parts = 0, [part for part in PARTS if part not in '\0\r']
    for _ in range(count):
        width, place = source.randint(1, 4), source.randint(0, 3)
        rows = [[''.join(source.choice(parts + ['"', '']) for _ in range(source.randint(0, 3))) for _ in range(width)] for _ in range(source.randint(0, 12))]
        rows = [[field if at == place % width else field + source.choice(['', '\n', 'x\ny']) for at, field in enumerate(row)] for row in rows]
        header, cut = [f'column {at}' for at in range(width)], source.randint(0, len(rows))
        with open(os.path.join(folder, 'more.csv'), 'wb') as file:
            file.write(csv_text([header, *rows[cut:]], source))
        reverse, unique = source.random() < 0.3, source.random() < 0.3
        words = ['--records', RECORDS[0], '--quiet', f'--csv=column {place % width}', *['-r'] * reverse, *['-u'] * unique, '-', 'more.csv']
        keys = ask_keys(collate, {(RECORDS[0], ()): {row[place % width].encode() for row in rows}}) if rows else {}
        own = [keys[RECORDS[0], (), row[place % width].encode()] for row in rows]
        places = sorted(range(len(rows)), key=own.__getitem__, reverse=reverse)
        places = [at for n, at in enumerate(places) if not unique or n == 0 or own[at] != own[places[n - 1]]]
        out, said, status = run_program(program, words, csv_text([header, *rows[:cut]], source), folder)
        got = list(csv.reader(io.StringIO(out.decode(), newline='')))
        if (got, said, status) != ([header, *[rows[at] for at in places]], b'', 0):
            faults += 1
            print(f'{words} {header} {rows}: {out}, {said}, {status}')
    with open(os.path.join(folder, 'more.csv'), 'wb') as file:
        file.write(b'a,b\n')
    for words, data, told in ((['c'], b'a,b\n1,2\n', b'no column c'), (['a'], b'a,b\n"1\n",2\n3\n', b'-:4: '), (['a', '-', 'more.csv'], b'a\n', b'more.csv: '),
                              (['a', '-z'], b'a\n', b'-z'), (['a', '-k', '1'], b'a\n', b'-k'), (['a', '-c'], b'a\n', b'-c'), (['a', '-m'], b'a\n', b'-m'),
                              (['a', '-S', '1'], b'a\n', b'-S'), (['a', '--keys'], b'a\n', b'--keys'), (['a', '--csv', 'b'], b'a\n', b'--csv')):
        out, said, status = run_program(program, ['--records', RECORDS[0], '--csv', *words], data, folder)
        if out or status != 2 or said.count(b'\n') != 1 or told not in said:
            faults += 1
            print(f'{words}: {out}, {said}, {status}')
    return faults


def check_parts(program, source, folder):
    """How many lists differ that are sorted in thousands of parts, or leave a file behind."""
    faults, data = 0, b''.join(random_name(source).replace(b'\n', b'') + b'\n' for _ in range(3000))
    for words in ([], ['-u'], ['-r'], ['-o', 'sorted'], ['--progress']):
        answers = []
        for size in (['-S', '1b'], []):
            out, said, status = run_program(program, ['--records', RECORDS[1], '--quiet', *words, *size], data, folder)
            if '-o' in words:
                with open(os.path.join(folder, 'sorted'), 'rb') as file:
                    out += file.read()
            answers.append((out, status))
            if bool(said) != ('--progress' in words) or not all(line.startswith(b'sort_names: ') for line in said.splitlines()):
                faults += 1
                print(f'{words}: says {said}')
        if answers[0] != answers[1] or answers[0][1] or not answers[0][0]:
            faults += 1
            print(f'{words}: in parts another answer')
    found = [run_program(program, ['--records', RECORDS[1], *size], 'ж中\nb\nж\n'.encode(), folder)[1] for size in ([], ['-S', '1b'])]
    if found[0] != found[1] or found[0].count(b'\n') != 1:
        faults += 1
        print(f'unnamed characters: {found}')
    if os.listdir(folder) != ['sorted']:
        faults += 1
        print(f'left behind: {os.listdir(folder)}')
    return faults


def check_reader_away(program):
    """How many calls say something, or end otherwise than well, where nobody reads on."""
    faults, data = 0, b'a\n' * 200000
    for words in ([], ['-m'], ['-S', '1K'], ['--keys']):
        with subprocess.Popen([program, '--records', RECORDS[0], *words], stdin=subprocess.PIPE, stdout=subprocess.PIPE, stderr=subprocess.PIPE) as run:
            run.stdout.close()
            try:
                run.stdin.write(data)
                run.stdin.close()
            except BrokenPipeError:
                pass
            said = run.stderr.read()
            if run.wait() or said:
                faults += 1
                print(f'{words}: {said}, {run.returncode}, where nobody reads')
    return faults


def main(program, collate, count=2000, seed=1):
    source = random.Random(seed)
    calls = [random_call(source) for _ in range(count)]
    calls = [call for call in calls if call.zero is False or all(b'\n' not in compared(call, line) for line in call.lines)]
    wanted = collections.defaultdict(set)
    for call in calls:
        wanted[call.records, call.options].update(compared(call, line) for line in call.lines)
    keys, faults = ask_keys(collate, wanted), 0
    for call in calls:
        with tempfile.TemporaryDirectory() as folder:
            own = [keys[call.records, call.options, compared(call, line)] for line in call.lines]
            fault = fault_of(call, program, own, source, folder)
        if fault:
            faults += 1
            print('{}\n  over {}\n  answers {}\n  wanted  {}'.format(*fault))
    with tempfile.TemporaryDirectory() as folder:
        faults += check_csv(program, collate, source, count // 10, folder)
    with tempfile.TemporaryDirectory() as folder:
        faults += check_parts(program, source, folder)
    with tempfile.TemporaryDirectory() as folder:
        faults += check_fields(program, source, count // 4, folder) + check_refused(program, folder) + check_reader_away(program)
    print(f'{len(calls)} calls, {count // 4} lists by fields, {count // 10} CSV files, parts and the bad words: {faults} faults')
    return 1 if faults else 0


if __name__ == '__main__':
    if len(sys.argv) not in (3, 4, 5):
        sys.exit(__doc__)
    sys.exit(main(os.path.realpath(sys.argv[1]), os.path.realpath(sys.argv[2]), *map(int, sys.argv[3:])))
