#!/usr/bin/env python3
"""Writes the stored script of crates/tests_collation_rows and its answers: rows.py READING [--check]

READING is a folder with an independent reading of the definitions (tools/answers.py), of the program (tools/run_rows.py) and of
the format of records (tools/record_rows.py), which gives the answers. Those of worked rows and of files, and all of what a
provider's changed tables are refused for, stand here, and are compared with it. With --check nothing is written: the two files
have to be what they are, and the program, which has to be built (`rt run` in its folder), has to answer so.
"""
import os
import sys

from answers import FOLDER, answers, ask, load
from record_rows import files_and_answers
from row_tables import CHANGES, SECTIONS
from run_rows import script_and_replies

ENCODED = {'text': lambda text: text.encode().hex(), 'utf8': lambda text: text.encode().hex(),
           'utf16': lambda text: text.encode('utf-16-be').hex(), 'latin1': lambda text: text.encode('latin-1').hex()}
PAIRS = {'text': ('text', 'text'), 'utf8': ('utf8', 'utf8'), 'utf16': ('utf16', 'utf16'), 'latin1': ('latin1', 'latin1'),
         'mixed': ('latin1', 'utf16')}
TURNED = {'Less': 'Greater', 'Equal': 'Equal', 'Greater': 'Less', None: None}


def encoded(encoding, text):
    return ENCODED[encoding](text) or '-'


def holds(encoding, text):
    """Whether an encoding can hold a text."""
    return encoding != 'latin1' or all(ord(c) < 0x100 for c in text)


def lines_of(asked):
    """The lines of a question, in each encoding that can hold its texts, with the worked answer or None."""
    call, *texts, answer = asked
    if call == 'line':
        return [(texts[0], answer)]
    if call == 'key':
        return [(f'key {encoding} {encoded(encoding, texts[0])}', answer) for encoding in ('text', 'utf8', 'utf16')]
    if call == 'place':
        return [(f'place {encoded("text", texts[0])} {encoded("text", texts[1])}', answer)]
    lines = []
    for (left, right), worked in ((texts, answer), (texts[::-1], TURNED[answer])):
        for name, (one, other) in PAIRS.items():
            if holds(one, left) and holds(other, right):
                lines.append((f'compare {name} {encoded(one, left)} {encoded(other, right)}', worked))
    return lines


def written(section):
    """The paragraphs of a section, with the worked answers of their lines. Those of collators are one."""
    title, records, paragraphs = section
    made = [f'# {title}\n']
    made += [f'{heading}\n' + ''.join(f'{line}\n' for line in lines) for heading, lines in records]
    worked, before = [], None
    for heading, asked in paragraphs:
        lines = [line for question in asked for line in lines_of(question)]
        is_collator = heading.startswith('options')
        text = f'{heading}\n' + ''.join(f'{line}\n' for line, _ in lines)
        if is_collator and before:
            made[-1] += text
        else:
            made.append(f'collators\n{text}' if is_collator else text)
        is_longer = is_collator and not before or heading == 'tables'
        worked += [None] * (2 if is_longer else 1) + [answer for _, answer in lines]
        before = is_collator
    return made, worked


def agrees(shown, worked):
    """Whether a line's answer is the worked one, or ends as that does."""
    answer = shown.partition(': ')[2]
    return worked is None or answer == worked or worked.startswith('..') and answer.endswith(worked[2:])


def script_and_answers(oracle):
    """The script, and its answers."""
    made, worked = [], []
    for section in [*SECTIONS, *CHANGES]:
        paragraphs, others = written(section)
        made += paragraphs
        worked += others
    script = '\n'.join(made)
    given = answers(script, oracle)
    assert len(given) == len(worked), (len(given), len(worked))
    lines = asked_lines(script)
    shown = []
    for line, answer, other in zip(lines, given, worked):
        if answer is None:
            assert other is not None, line
            answer = f'{line.removeprefix("? ")}: {other}'
        assert agrees(answer, other), (answer, other)
        shown.append(answer)
    return script, ''.join(f'{answer}\n' for answer in shown)


def asked_lines(script):
    """The lines of a script that are printed with an answer, and those before them."""
    lines = []
    for paragraph in script.split('\n\n'):
        heading, *asked = paragraph.strip('\n').split('\n')
        if heading not in ('records', 'more') and not heading.startswith('#'):
            lines += [heading, *(['accepted'] if heading == 'tables' else []), *asked]
    return lines


def main(words):
    if len(words) not in (1, 2) or words[1:] not in ([], ['--check']):
        sys.stderr.write(__doc__)
        return 2
    questions, answered = script_and_answers(load(words[0]))
    import model
    import records
    runs, replies, other_runs = script_and_replies(model)
    files, found, other_files = files_and_answers(records)
    script, shown, differ = f'{questions}\n{runs}\n{files}', answered + replies + found, other_runs + other_files
    print(f'{len(shown.splitlines())} answers, {other_runs} runs and {other_files} answers on files differ from what is worked out')
    for name, text in (('stdin', script), ('stdout', shown)):
        path = os.path.join(FOLDER, name)
        if words[1:]:
            differ += open(path, newline='').read() != text
        else:
            with open(path, 'w', newline='') as file:
                file.write(text)
    if words[1:]:
        differ += sum(one != other for one, other in zip(ask(script) + [''], shown.split('\n')))
        print(f'{differ} differ')
    return 1 if differ else 0


if __name__ == '__main__':
    sys.exit(main(sys.argv[1:]))
