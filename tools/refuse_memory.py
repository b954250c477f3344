#!/usr/bin/env python3
"""Refuses two programs their requests for memory, and looks at what they answer then.

  refuse_memory.py [--every N] [READING]

crates/collate and crates/tests_refused_memory have to be built (`rt run` in their folders; COLLATE and REFUSED_MEMORY name other
executables), and a C compiler has to be there (`cc`), for tools/refuse_memory.c, which is preloaded. READING is a folder with an
independent reading of `collate`, a module `model` (`choice`, `serve`); without it `tests_refused_memory` alone is asked. Each run
is refused one request, of all that it makes each in turn; then one and all that follow it; then two at random (SEED). With --every N
only each Nth is tried alone, and as few others.

For each refusal it is known at which line of the input it came, within the line or behind it, and how many lines had been written.
`collate` reads a byte at a time, and then, in runs of their own, a line at a time, where a line that is being read is one that is
there. A run of `collate` that is refused one before the first line, or while it reads a line, either ends there with `collate: memory`,
behind the replies to the commands before, or replies to all. One that is refused while it answers a command either replies
`memory` to this command, where that is one that takes memory, and to the others as if it weren't there; or replies to it. A run of
`tests_refused_memory`, which makes each call of the libraries that takes memory, prints for each call what is stored in its
folder; where a call was refused memory it may print the refusal, and a first part of the answer or, of an index, the names as they
were; then the same call is made again. What was refused twice is not there for what follows. At the end no run holds memory. How
often each was so is printed, and each other answer; the status is then 1.
"""
import collections
import concurrent.futures
import functools
import os
import random
import re
import subprocess
import sys
import tempfile

from row_tables import LETTERS, at

ROOT = os.path.dirname(os.path.dirname(os.path.realpath(__file__)))
PROGRAM = os.environ.get('COLLATE', os.path.join(ROOT, 'crates/collate/out/collate'))
CALLS = os.environ.get('REFUSED_MEMORY', os.path.join(ROOT, 'crates/tests_refused_memory/out/tests_refused_memory'))
MEMORY = b'collate: memory\n'
SIDE_BY_SIDE = int(os.environ.get('RT_JOBS') or os.cpu_count() or 1)
SEED, PAIRS = 1, 1000
CHANGED = [*LETTERS, at('ch', '2A40')]
NAMES = ['add ch', 'add cl', 'add ab', 'list', 'add ab', 'between a\tch', 'between ch\ta', 'find ab', 'remove cl', 'list', 'add cl',
         'key a', 'list']
RELOADS = [f'reload {len(CHANGED)}\n' + '\n'.join(CHANGED), 'list', 'reload 1\nw 61 ;', 'list', 'find ch']
OTHERS = ['remove x', 'add', 'add \u00e1b', 'find a\u0301b', 'key \u1ea1\u0301', 'list']
RUNS = [(['strength=primary'], NAMES + OTHERS), (['strength=identical', 'numeric=on', 'alternate=shifted'], NAMES + RELOADS + OTHERS)]
STORED = ['collate']
TAKING = ('add ', 'find ', 'between ', 'key ', 'list', 'reload ')
REFUSALS = {'Err(Memory)', 'Err(AllocError)', 'Err(Sink(AllocError))'}


# Where a request was refused: lines read whole before, bytes of the next one, lines written before.
Refusal = collections.namedtuple('Refusal', 'lines bytes written')
# What a run wrote, where it was refused memory, how many requests it made, and how many blocks it holds at its end.
Answer = collections.namedtuple('Answer', 'out errors status refusals requests held')


def stored_run(name):
    """The file, the words and the commands of a run that the gate makes."""
    folder = os.path.join(ROOT, 'crates', name)
    with open(os.path.join(folder, 'args'), encoding='utf-8') as lines:
        file, *words = lines.read().splitlines()
    with open(os.path.join(folder, 'data', file), 'rb') as records, open(os.path.join(folder, 'stdin'), encoding='utf-8') as lines:
        commands = re.findall(r'reload \d+(?:\n(?:w|class|map|x).*)*|.+', lines.read())
        return records.read(), words, commands


class Commands:
    """A run of `collate`, and what the other reading answers to it."""

    def __init__(self, oracle, file, words, commands, is_by_line):
        self.is_by_line = is_by_line
        self.commands, self.data = commands, ''.join(f'{command}\n' for command in commands).encode()
        served = functools.lru_cache(maxsize=None)(
            lambda asked: oracle.serve(oracle.choice(['records', *words]), file, ''.join(f'{c}\n' for c in asked).encode()))
        self.served = lambda last, left_out: served(tuple(c for i, c in enumerate(commands[:last]) if i not in left_out))
        ends = [0]
        for command in commands:
            ends.append(ends[-1] + command.count('\n') + 1)
        # the command that each line belongs to
        self.command_of = [place for place in range(len(commands)) for _ in range(ends[place], ends[place + 1])]

    def places(self, refusals):
        """The commands in whose lines memory was refused, those in whose answers, and whether it was before the first line."""
        reading, answering, opening = set(), set(), False
        for refusal in refusals:
            if refusal.bytes:
                reading.add(self.command_of[min(refusal.lines, len(self.command_of) - 1)])
            elif refusal.lines:
                answering.add(self.command_of[min(refusal.lines, len(self.command_of)) - 1])
            else:
                opening = True
        return reading, answering, opening

    def kind(self, answer):
        """What a run did with its refusals; None where it is none of what it may do."""
        reading, answering, opening = self.places(answer.refusals)
        has_ended = (answer.errors, answer.status) == (MEMORY, 1)
        if has_ended and not answer.out and opening and not reading and not answering:
            return 'ended before the first line'
        place, left_out = 0, []
        ending = answering if self.is_by_line else reading
        for number, command in enumerate(self.commands):
            if has_ended and place == len(answer.out) and number in ending and max(reading | answering) == number:
                return f'ended at a line, {len(left_out)} times replied memory'
            before, through = self.served(number, left_out)[0], self.served(number + 1, left_out)[0]
            reply = through[len(before):]
            takes_memory = command.startswith(TAKING) and reply != b'bad\n'
            if takes_memory and number in answering and answer.out.startswith(b'memory\n', place):
                left_out.append(number)
                place += len(b'memory\n')
            elif (reply or number + 1 == len(self.commands)) and answer.out.startswith(reply, place):
                place += len(reply)
            else:
                return None
        out, fault, status = self.served(len(self.commands), left_out)
        errors = f'{fault}\n'.encode() if fault else b''
        if len(answer.out) != place or (answer.errors, answer.status) != (errors, status):
            return None
        return f'replied memory to {len(left_out)} commands' if left_out else 'replied to all'


def parts(line):
    """The name of a call, what it left, as a list, and what it answered."""
    name, left, answer = re.fullmatch(r'(.*?) \|(.*)\| (.*)', line).groups()
    left = left.strip()
    if left.startswith('"'):
        return name, re.findall(r'\\u\{.*?\}|.', left.strip('"')), answer
    return name, re.findall(r'[^][, ]+', left), answer


def is_refused_line(line, whole):
    """Whether a line says that a call was refused memory which, made with ample memory, prints the line `whole`."""
    if '|' not in line or '|' not in whole:
        return False
    (name, left, answer), (same, all_left, _) = parts(line), parts(whole)
    return name == same and answer in REFUSALS and left == all_left[:len(left)]


# What isn't printed where a call makes nothing: the lines up to the next one with one of these names.
BEHIND = {'Records::read': ['a provider'], 'compile': ['compile', 'a provider'], 'Collator::try_new_unstable': ['try_new_nfd_unstable'],
          'a provider': ['Index::new'], 'Uts46Mapper::try_new': ['Index::new'], 'Index::new': ['end'],
          **{f'try_new_{form}_unstable': ['try_new_nfkd_unstable', 'try_new_nfc_unstable', 'try_new_nfkc_unstable', 'a provider']
             for form in ('nfd', 'nfkd', 'nfc', 'nfkc')}}


def next_place(lines, place):
    """The line that follows one whose call was refused twice."""
    name = lines[place].split(' |')[0]
    wanted = BEHIND.get(name)
    place += 1
    while wanted and lines[place].split(' |')[0] not in wanted:
        place += 1
    return place


class Names:
    """The calls that `tests_refused_memory` makes of an index: what each prints, with the names that are there by then."""
    BEFORE, AFTER = 't a ab \u00e1b b cl ch l'.split(), 't a ab \u00e1b cl ch b l'.split()
    ASKED = [('find', 'ch'), ('find', 'marked'), ('between', 'a cl')]
    CALLS = [*(('add', name) for name in 'ch cl ab b ab \u00e1b l t'.split()), *ASKED, ('remove', 'cl'), ('reload', 'b'), *ASKED,
             ('reload', ''), ('add', 'cl'), ('add', 'a')]
    REFUSED = {'add': 'Err(Memory)', 'reload': 'Err(Memory)', 'find': 'Err(AllocError)', 'between': 'Err(AllocError)'}

    def __init__(self):
        self.order, self.held, self.place = self.BEFORE, set(), 0

    def listed(self):
        """The names that are there, in order."""
        return [name for name in self.order if name in self.held]

    def line(self, call, answer):
        """The line of a call that gave an answer."""
        names = ''.join(f' {list(name.encode())}' for name in self.listed())
        return f'{call} |{names} | {answer}'

    def between(self, first, last):
        """The places of the names between two."""
        held = [place for place, name in enumerate(self.listed())
                if self.order.index(first) <= self.order.index(name) <= self.order.index(last)]
        return f'Ok({held[0]}..{held[-1] + 1})' if held else 'Ok(0..0)'

    def made(self, call, words):
        """What a call answers with ample memory, and it is made."""
        if call == 'find':
            return self.between(words, words) if words in self.order else 'Ok(0..0)'
        if call == 'between':
            return self.between(*words.split())
        if call == 'reload' and not words:
            return 'Err(Record(RecordFault { line: 1, rule: Grammar }))'
        if call == 'reload':
            self.order = self.AFTER
            return f'Ok({sum(words in name for name in self.held)})'
        if (call == 'add') == (words in self.held):
            return 'Err(Duplicate)' if call == 'add' else 'Err(Absent)'
        self.held ^= {words}
        return 'Ok(())'

    def lines(self, given):
        """Takes the lines of all calls from the front of those that a run printed, each with whether memory was refused before it;
        False where they are others."""
        for call, words in self.CALLS:
            for _ in range(2):
                if not given:
                    return False
                line, is_refused = given.pop(0)
                if not (is_refused and line == self.line(call, self.REFUSED.get(call))):
                    answer = self.made(call, words)
                    if line != self.line(call, answer):
                        return False
                    break
        return True


def kind_of_lines(wanted, answer):
    """What a run of `tests_refused_memory` did with its refusals; None where it is none of what it may do."""
    lines = answer.out.decode().splitlines()
    where = {refusal.written for refusal in answer.refusals}
    given = [(line, place in where) for place, line in enumerate(lines)]
    place, again = 0, 0
    while given and place < len(wanted):
        line, is_refused = given.pop(0)
        if line == wanted[place]:
            place, again = place + 1, 0
            if line.startswith('Index::new'):
                if not Names().lines(given):
                    return None
                place = len(wanted) - 1
        elif is_refused and is_refused_line(line, wanted[place]):
            again += 1
            if again == 2:
                place, again = next_place(wanted, place), 0
        else:
            return None
    if given or place != len(wanted) or answer.errors or answer.status:
        return None
    return 'made each call once' if lines == wanted else 'made calls again'


class Refusing:
    """Runs of a program in a folder of their own."""

    def __init__(self, folder, step):
        self.folder, self.library, self.step = folder, os.path.join(folder, 'refuse_memory.so'), step
        source = os.path.join(ROOT, 'tools/refuse_memory.c')
        subprocess.run(['cc', '-O2', '-Wall', '-shared', '-fPIC', '-o', self.library, source], check=True)

    def put(self, file):
        """Puts a records file where runs find it."""
        with open(os.path.join(self.folder, 'records'), 'wb') as records:
            records.write(file)

    def answer(self, command, data, refused, is_by_line=False):
        """What a run answers that is refused these requests, and reads a line at a time or a byte."""
        told = os.path.join(self.folder, f'told{refused}')
        environment = {**os.environ, 'LD_PRELOAD': self.library, 'REFUSED': refused, 'REFUSALS': told}
        if is_by_line:
            environment['BY_LINE'] = '1'
        run = subprocess.run(command, input=data, cwd=self.folder, env=environment, capture_output=True, check=False)
        with open(told, encoding='ascii') as lines:
            words = [line.split() for line in lines]
        os.remove(told)
        refusals = [Refusal(*map(int, line[2:])) for line in words if line[0] == 'refused']
        requests, held = next((map(int, line[1:]) for line in words if line[0] == 'ended'), (0, 'unknown'))
        return Answer(run.stdout, run.stderr, run.returncode, refusals, requests, held)


def refused_runs(refusing, command, data, kind_of, title, is_by_line=False):
    """Refuses a program its requests, prints how often each kind of answer is given, and how many answers are others."""
    whole = refusing.answer(command, data, '0', is_by_line)
    counts, others = collections.Counter(), []
    draw = random.Random(SEED)
    some, each = range(1, whole.requests + 1, refusing.step), range(1, whole.requests + 1)
    ways = {'alone': map(str, some), 'from then on': (f'{request}+' for request in some),
            'two': (','.join(map(str, sorted(draw.sample(each, 2)))) for _ in range(PAIRS // refusing.step))}
    print(f'{title}, {whole.requests} requests', flush=True)
    with concurrent.futures.ThreadPoolExecutor(SIDE_BY_SIDE) as pool:
        for way, refused in {'none': ['0'], **ways}.items():
            counts.clear()
            for numbers, answer in pool.map(lambda numbers: (numbers, refusing.answer(command, data, numbers, is_by_line)), refused):
                kind = kind_of(answer) if answer.held == 0 and (answer.refusals or numbers == '0') else None
                counts[kind or 'ANOTHER ANSWER'] += 1
                if not kind:
                    others.append((numbers, answer))
            print(f'  {way}:', ', '.join(f'{count} {kind}' for kind, count in sorted(counts.items())), flush=True)
    for numbers, answer in others[:3]:
        print(f'  refused {numbers}: status {answer.status}, {answer.held} blocks held', answer.out, answer.errors, sep='\n    ')
    return len(others)


def refuse_commands(oracle, refusing):
    """Refuses `collate` its requests; how many runs answered otherwise."""
    file, differ = ''.join(f'{line}\n' for line in LETTERS).encode(), 0
    for records, options, commands in [*map(stored_run, STORED), *((file, *run) for run in RUNS)]:
        refusing.put(records)
        for is_by_line in (False, True):
            asked = Commands(oracle, records, options, commands, is_by_line)
            title = f'collate, {len(commands)} commands {" ".join(options)}, by {"line" if is_by_line else "byte"}'
            differ += refused_runs(refusing, [PROGRAM, 'records', *options], asked.data, asked.kind, title, is_by_line)
    return differ


def refuse_calls(refusing):
    """Refuses `tests_refused_memory` its requests; how many runs printed otherwise."""
    with open(os.path.join(ROOT, 'crates/tests_refused_memory/stdout'), encoding='utf-8') as lines:
        wanted = lines.read().splitlines()
    return refused_runs(refusing, [CALLS], b'', lambda answer: kind_of_lines(wanted, answer), 'tests_refused_memory')


def main(words):
    step = int(words[1]) if words[:1] == ['--every'] and len(words) > 1 and words[1].isdigit() else 1
    words = words[2:] if step > 1 else words
    if len(words) > 1 or words and not os.path.isdir(words[0]):
        sys.stderr.write(__doc__)
        return 2
    with tempfile.TemporaryDirectory() as folder:
        refusing = Refusing(folder, step)
        differ = refuse_calls(refusing)
        if words:
            sys.path.insert(0, words[0])
            import model as oracle
            differ += refuse_commands(oracle, refusing)
    print(f'{differ} runs answered otherwise')
    return differ != 0


if __name__ == '__main__':
    sys.exit(main(sys.argv[1:]))
