"""The name list, its replies, `run` and `serve`."""
import re
from bisect import bisect_left, bisect_right
from collate import Options, condition_n, key, sort_value
from decode import decode_utf8
from records import Fault, read

COMMAND_LIMIT = 65536
INPUT_LIMIT = 4294967295
COUNT_RE = re.compile(rb'0|[1-9][0-9]{0,6}')


class Index:
    """The name list: names in collation order (by key where plain leads fail), equal ones by arrival."""

    def __init__(self, records, options):
        self.records, self.options = records, options
        self.arrival = []          # names in order of arrival
        self.sorted = []           # [(value, number of arrival, name)]
        self.held = set()
        self.next = 0
        self._by()

    def _by(self):
        self.by = sort_value if condition_n(self.records, self.options) else key

    def value(self, name):
        return self.by(self.records, self.options, decode_utf8(name))

    def add(self, name):
        if name in self.held:
            return 'duplicate'
        v = self.value(name)
        self.sorted.insert(bisect_right(self.sorted, (v, self.next)), (v, self.next, name))
        self.arrival.append((self.next, name))
        self.held.add(name)
        self.next += 1
        return 'added'

    def remove(self, name):
        if name not in self.held:
            return 'absent'
        self.held.remove(name)
        self.sorted = [e for e in self.sorted if e[2] != name]
        self.arrival = [e for e in self.arrival if e[1] != name]
        return 'removed'

    def find(self, name):
        """The range of names that compare Equal; an empty answer is 0..0."""
        v = self.value(name)
        a = bisect_left(self.sorted, (v, -1))
        b = bisect_left(self.sorted, (v, self.next))
        return (a, b) if a < b else (0, 0)

    def between(self, low, high):
        v, w = self.value(low), self.value(high)
        if v > w:
            return (0, 0)
        a = bisect_left(self.sorted, (v, -1))
        b = bisect_left(self.sorted, (w, self.next))
        return (a, b) if a < b else (0, 0)

    def list(self):
        return [e[2] for e in self.sorted]

    def reload(self, data, prefix_limit=3):
        """The number of keys made, one a touched name, or a Fault."""
        new = read(data, prefix_limit)
        if isinstance(new, Fault):
            return new
        if self.records.settings_equal(new):
            memo = {}

            def changed(c):
                if c not in memo:
                    memo[c] = self.records.changed(new, c)
                return memo[c]
            made = sum(any(changed(c) for c in self.records.reached(decode_utf8(name)))
                       for _, name in self.arrival)
        else:
            made = len(self.arrival)
        self.records = new
        self._by()
        self.sorted = sorted((self.value(name), k, name) for k, name in self.arrival)
        return made


def names_reply(names):
    return b'names %d\n' % len(names) + b''.join(n + b'\n' for n in names)


class RunFault(Exception):
    """CutReload, LineTooLong, InputTooLong (Memory, Read and Write can't be had here)."""


def run(records, options, data, prefix_limit=3):
    """Replies, and None or the name of the fault."""
    index = Index(records, options)
    out = []
    place = 0

    def line():
        nonlocal place
        if place >= len(data):
            return None
        end = data.find(b'\n', place)
        stop = len(data) if end < 0 else end
        got = data[place:stop]
        if stop > INPUT_LIMIT:
            raise RunFault('InputTooLong')
        if len(got) > COMMAND_LIMIT:
            raise RunFault('LineTooLong')
        place = stop + 1
        return got
    try:
        while True:
            got = line()
            if got is None:
                return b''.join(out), None
            word, space, rest = got.partition(b' ')
            if got == b'list':
                out.append(names_reply(index.list()))
            elif not space:
                out.append(b'bad\n')
            elif word == b'add':
                out.append(index.add(rest).encode() + b'\n')
            elif word == b'remove':
                out.append(index.remove(rest).encode() + b'\n')
            elif word == b'find':
                a, b = index.find(rest)
                out.append(names_reply(index.list()[a:b]))
            elif word == b'between' and b'\t' in rest:
                low, _, high = rest.partition(b'\t')
                a, b = index.between(low, high)
                out.append(names_reply(index.list()[a:b]))
            elif word == b'key':
                out.append(key(index.records, options, decode_utf8(rest)).hex().encode() + b'\n')
            elif word == b'reload' and COUNT_RE.fullmatch(rest):
                lines = []
                for _ in range(int(rest)):
                    got = line()
                    if got is None:
                        raise RunFault('CutReload')
                    lines.append(got + b'\n')
                made = index.reload(b''.join(lines), prefix_limit)
                if isinstance(made, Fault):
                    out.append(b'refused %d %s\n' % (made.line, made.rule.encode()))
                else:
                    out.append(b'reloaded %d\n' % made)
            else:
                out.append(b'bad\n')
    except RunFault as f:
        return b''.join(out), f.args[0]


def run_bytes(records_bytes, options, data, prefix_limit=3):
    """run over a records file's bytes: (output, fault); the fault of the file is a Fault."""
    records = read(records_bytes, prefix_limit)
    if isinstance(records, Fault):
        return b'', records
    return run(records, options, data, prefix_limit)


# -- the program's words
WORDS = {'strength': ('primary', 'secondary', 'tertiary', 'quaternary', 'identical'),
         'alternate': ('nonignorable', 'shifted'),
         'maxvariable': ('space', 'punctuation', 'symbol', 'currency'),
         'caselevel': ('off', 'on'), 'casefirst': ('off', 'lower', 'upper'),
         'numeric': ('off', 'on')}
USAGE = 'usage: collate FILE [OPTION=VALUE]..'
FAULTS = {'LineTooLong': 'line too long', 'InputTooLong': 'input too long',
          'CutReload': 'reload cut'}


def read_options(words):
    """Options of OPTION=VALUE words, or None where one is another word or a second one."""
    got = {}
    for w in words:
        name, eq, value = w.partition('=')
        if not eq or name not in WORDS or value not in WORDS[name] or name in got:
            return None
        got[name] = value
    return Options(**got)


def choice(words):
    """Choice::read: (file, options) or None."""
    if not words:
        return None
    options = read_options(words[1:])
    return None if options is None else (words[0], options)


def serve(chosen, file_bytes, data, prefix_limit=3):
    """Output, error line or '', and status; file_bytes None where unreadable."""
    if chosen is None:
        return b'', USAGE, 2
    name, options = chosen
    if file_bytes is None:
        return b'', 'collate: cannot read ' + name, 1
    records = read(file_bytes, prefix_limit)
    if isinstance(records, Fault):
        return b'', 'collate: refused %d %s' % records, 1
    out, fault = run(records, options, data, prefix_limit)
    if fault:
        return out, 'collate: ' + FAULTS[fault], 1
    return out, '', 0
