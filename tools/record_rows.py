"""The files of records among the rows of tools/rows.py, behind a paragraph `files`. They and their answers stand in
tools/record_tables.py and, the fewest lines that break each rule, in tools/fewest_lines.tsv; pairs of files, with questions and
answers, in tools/record_pair_tables.py. The other reading, a module `records` (`read`, `Fault`), has to answer the same."""
import os
import re

from record_pair_tables import PAIRS
from record_questions import answer_of
from record_tables import SECTIONS

FEWEST = os.path.join(os.path.dirname(os.path.realpath(__file__)), 'fewest_lines.tsv')


def spelled(line):
    """A line with its elements in full."""
    line = re.sub(r'\{0\.([0-9A-F]{4})\}', r'[0.\1.0.0500.0]', line)
    return re.sub(r'\{([0-9A-F]{2,8})\}', lambda weight: f'[{weight[1]:0<8}.0500.0.0500.0]', line)


def script_lines(lines):
    """The lines of a file as the program's script has them."""
    if isinstance(lines, str):
        lines = [('', line) for line in lines.split('\n')] if lines else []
    return [f'{count}\t{spelled(line)}' for count, line in lines]


def file_of(lines):
    """The bytes of the file that lines of a script are."""
    data = []
    for line in lines:
        count, _, text = line.partition('\t')
        data.append(text if count == '-' else int(count or 1) * f'{text}\n')
    return ''.join(data).encode()


def fewest_rows():
    """The fewest lines that break each rule; each is refused in the last of them."""
    rows = [line.split('\t') for line in open(FEWEST, encoding='utf-8').read().splitlines()]
    assert len(rows) == 27, f'{len(rows)} rules in {FEWEST}'
    return [(f'the fewest lines that break {rule}', '\n'.join(lines), f'{len(lines)} {rule}') for rule, *lines in rows]


def fault_of(found):
    """The line and rule of a fault, as the program prints it."""
    return f'{found.line} {found.rule}'


def read_answer(oracle, data):
    """What the other reading answers to a file."""
    found = oracle.read(data)
    return fault_of(found) if isinstance(found, oracle.Fault) else 'accepted'


def file_paragraphs(oracle):
    """The paragraphs of single files: a heading, the lines behind it, and what is printed with both answers."""
    for title, base, rows in [('rules, one by one', '', fewest_rows()), *SECTIONS]:
        below = script_lines(base)
        yield f'# {title}', [], []
        if base:
            yield title, below, [(title, 'accepted', read_answer(oracle, file_of(below)))]
        for row, lines, answer in rows:
            above, heading = script_lines(lines), f'+ {row}' if base else row
            yield heading, above, [(heading, answer, read_answer(oracle, file_of(below + above)))]


def pair_answers(oracle, heading, files, answers):
    """What is printed for two files, with both answers: for each question, or once for the first fault."""
    read = [oracle.read(file_of(lines)) for lines in files]
    faults = [fault_of(found) for found in read if isinstance(found, oracle.Fault)]
    if faults or isinstance(answers, str):
        return [(heading, answers, (faults or ['accepted'])[0])]
    return [(f'{heading}, {question}', answer, answer_of(*read, question)) for question, answer in answers]


def pair_paragraphs(oracle):
    """The paragraphs of pairs of files, as those of single files."""
    for title, groups in PAIRS:
        yield f'# {title}', [], []
        for group, base, rows in groups:
            first = script_lines(base)
            yield group, first, [(group, 'accepted', read_answer(oracle, file_of(first)))]
            for row, lines, answers in rows:
                second, heading = script_lines(lines), f'? {row}'
                questions = [] if isinstance(answers, str) else [question for question, _ in answers]
                yield heading, second + questions, pair_answers(oracle, heading, (first, second), answers)


def files_and_answers(oracle):
    """The script, its answers, and how many differ from the other reading's."""
    made = [('files', [], []), *file_paragraphs(oracle), *pair_paragraphs(oracle)]
    answers = [answer for _, _, answers in made for answer in answers]
    differing = [answer for answer in answers if answer[1] != answer[2]]
    for what, answer, given in differing:
        print(f'{what}: {answer} by hand, {given} by the other reading')
    shown = [f'{what}: {answer}\n' for what, answer, _ in answers]
    assert len(set(shown)) == len(shown), 'a title twice'
    script = '\n'.join(''.join(f'{line}\n' for line in [heading, *lines]) for heading, lines, _ in made)
    return script, ''.join(shown), len(differing)
