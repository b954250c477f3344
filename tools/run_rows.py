"""The runs among the rows of tools/rows.py. They and what is worked out of their replies stand in tools/run_tables.py; the other
reading, a module `model` (`choice`, `serve`), gives all replies and has to agree."""
from run_tables import RUNS, SERVED

SHORT = {'\0': '\\0', '\t': '\\t', '\r': '\\r', '\n': '\\n', '\\': '\\\\'}


def escaped(line):
    """A line of bytes as the program prints it, and as its script has it."""
    text = line.decode('utf-8', 'surrogateescape')
    return ''.join(SHORT.get(c) or (f'\\x{ord(c) & 0xFF:02X}' if '\udc80' <= c <= '\udcff' or c < ' ' or c == '\x7f' else c)
                   for c in text)


def heading(words):
    """The first line of a run, whose file is called so."""
    return ' '.join(['run', 'letters.records', *words.split()])


def served(oracle, file, words, commands):
    """The lines of a run by the other reading."""
    chosen = oracle.choice(['letters.records', *words.split()])
    out, fault, status = oracle.serve(chosen, file, commands)
    errors = [fault.encode()] if fault else []
    return [escaped(line) for line in out.split(b'\n')[:-1] + errors] + [f'status {status}']


def worked(answers, end):
    """The lines that are worked out, and the status."""
    lines = [answer for _, replies in answers for answer in replies]
    return [line if line is None or isinstance(line, str) else escaped(line) for line in lines] + [end]


def agrees(line, other):
    """Whether a line is the worked one, or ends as that does."""
    return other is None or line == other or other.startswith('..') and line.endswith(other[2:])


def end_of(answers):
    """The status that a run ends with whose last line is worked out."""
    last = answers[-1][1][-1]
    if isinstance(last, str) and last.startswith('usage'):
        return 'status 2'
    return 'status 1' if isinstance(last, str) and last.startswith('collate: ') else SERVED


def script_and_replies(oracle):
    """The script, its replies, and how many runs differ from the worked ones."""
    made, shown, differ = [], [], 0
    for title, below, more, runs in RUNS:
        made += [f'# {title}', '\n'.join(['records', *below])] + (['\n'.join(['more', *more])] if more else [])
        file = ''.join(f'{line}\n' for line in [*below, *more]).encode()
        for words, asked in runs:
            commands = b'\n'.join(command for command, _ in asked)
            made.append('\n'.join([heading(words), *map(escaped, commands.split(b'\n'))]))
            lines = served(oracle, file, words, commands)
            others = worked(asked, end_of(asked))
            if len(lines) != len(others) or not all(map(agrees, lines, others)):
                print(heading(words), lines, others, sep='\n  ')
                differ += 1
            shown += [heading(words), *lines]
    return '\n\n'.join(made) + '\n', ''.join(f'{line}\n' for line in shown), differ
