"""The records file, its rules and the order of faults (docs/RECORDS.md).

read(data, prefix_limit=3) answers Records or Fault(line, rule).
"""
import re
from collections import namedtuple

Fault = namedtuple('Fault', 'line rule')

FILE_LIMIT = 1048576
LINE_LIMIT = 1024
CP_LIMIT = 150
SAYING_LIMIT = 1000
LIST_LIMIT = 8

# Reading: the rule that `class CP 0` breaks, 'grammar' or 'C3'.
CLASS_ZERO = 'C3'
# Reading: HH, HHHH and PRIMARY take upper-case hexadecimal digits alone.
HEX = '[0-9A-F]'
# Reading: a digit or dot above whose record is not lone because of a further record:
# 'needs' = the line that needs the lone record; 'latest' = the latest line of those that clash.
LONE = 'latest'

# -- built-ins
S_BASE, S_END = 0xAC00, 0xD7A3
BUILTIN_MAP = {0x340: (0x300,), 0x341: (0x301,), 0x343: (0x313,), 0x344: (0x308, 0x301),
               0xF73: (0xF71, 0xF72), 0xF75: (0xF71, 0xF74), 0xF81: (0xF71, 0xF80)}
BUILTIN_KMAP = {0xFF9E: (0x3099,), 0xFF9F: (0x309A,)}
BUILTIN_CLASS = {0x300: 230, 0x301: 230, 0x308: 230, 0x313: 230, 0x340: 230, 0x341: 230,
                 0x343: 230, 0x344: 230, 0xF71: 129, 0xF72: 130, 0xF80: 130, 0xF74: 132,
                 0x3099: 8, 0x309A: 8, 0xF73: 0, 0xF75: 0, 0xF81: 0, 0xFF9E: 0, 0xFF9F: 0}
SPECIAL = (0xFFFD, 0xFFFE, 0xFFFF)


def is_jamo(c):
    return 0x1100 <= c <= 0x11FF


def is_syllable(c):
    return S_BASE <= c <= S_END


def hangul_step(c):
    """The built-in canonical mapping of a syllable."""
    i = c - S_BASE
    if i % 28 == 0:
        return (0x1100 + i // 588, 0x1161 + (i % 588) // 28)
    return (c - i % 28, 0x11A7 + i % 28)


def hangul_compose(a, b):
    """The built-in composed pairs: L and V, LV and T."""
    if 0x1100 <= a <= 0x1112 and 0x1161 <= b <= 0x1175:
        return S_BASE + ((a - 0x1100) * 21 + b - 0x1161) * 28
    if is_syllable(a) and (a - S_BASE) % 28 == 0 and 0x11A8 <= b <= 0x11C2:
        return a + b - 0x11A7
    return None


def builtin_step(c):
    if is_syllable(c):
        return hangul_step(c)
    return BUILTIN_MAP.get(c)


# -- the line grammar
CP_RE = re.compile(r'[0-9A-F]{4}|[1-9A-F][0-9A-F]{4}|10[0-9A-F]{4}')
E_RE = re.compile(r'\[(0|[0-9A-F]{8})\.([0-9A-F]{4})\.([0-2])\.([0-9A-F]{4})\.([0-3])\]')
CLASS_RE = re.compile(r'[1-9][0-9]{0,2}' if CLASS_ZERO == 'grammar' else r'0|[1-9][0-9]{0,2}')
STEP_RE = re.compile(r'[0-9]{1,3}')
PRIMARY_RE = re.compile(HEX + '{8}')
HH_RE = re.compile(HEX + '{2}')
HHHH_RE = re.compile(HEX + '{4}')
CHOICES = {'alternate': ('nonignorable', 'shifted'), 'backward': ('off', 'on'),
           'casefirst': ('off', 'lower', 'upper'),
           'maxvariable': ('space', 'punctuation', 'symbol', 'currency'), 'dotabove': ('off', 'on')}


class Bad(Exception):
    """The line breaks the grammar."""


def _cp(field):
    if not CP_RE.fullmatch(field):
        raise Bad
    c = int(field, 16)
    if 0xD800 <= c <= 0xDFFF:
        raise Bad
    return c


def _need(ok):
    if not ok:
        raise Bad


def _match(regex, field, base):
    if not regex.fullmatch(field):
        raise Bad
    return int(field, base)


def parse_line(raw, prefix_limit=3):
    """One line without LF: None where it says nothing, else a tuple; Bad where no form fits."""
    if len(raw) > LINE_LIMIT:
        raise Bad
    if not raw:
        return None
    if not raw.isascii():
        raise Bad
    if raw[0] == 0x23:
        return None
    f = raw.decode('ascii').split(' ')
    word = f[0]
    if word == 'class':
        _need(len(f) == 3)
        return ('class', _cp(f[1]), _match(CLASS_RE, f[2], 10))
    if word == 'map':
        rest = f[1:]
        x = len(rest) > 2 and rest[-1] == 'x'
        if x:
            rest = rest[:-1]
        _need(2 <= len(rest) <= 3)
        cps = [_cp(g) for g in rest]
        return ('map', cps[0], tuple(cps[1:]), len(cps) == 3 and not x)
    if word == 'kmap':
        _need(len(f) >= 3)
        cps = [_cp(g) for g in f[1:]]
        return ('kmap', cps[0], tuple(cps[1:]))
    if word in ('w', 't'):
        prefix = ()
        if ';' not in f:
            raise Bad
        k = f.index(';')
        head = f[1:k]
        if '|' in head:
            j = head.index('|')
            prefix = tuple(_cp(g) for g in head[:j])
            _need(1 <= len(prefix) <= prefix_limit)
            head = head[j + 1:]
        text = tuple(_cp(g) for g in head)
        _need(text)
        els = []
        for g in f[k + 1:]:
            m = E_RE.fullmatch(g)
            _need(m)
            els.append((int(m[1], 16), int(m[2], 16), int(m[3]), int(m[4], 16), int(m[5])))
        return (word, prefix, text, tuple(els))
    if word == 'range':
        _need(len(f) == 5)
        return ('range', _cp(f[1]), _cp(f[2]), _match(PRIMARY_RE, f[3], 16), _match(STEP_RE, f[4], 10))
    if word == 'digit':
        _need(len(f) == 3 and len(f[2]) == 1 and f[2] in '0123456789')
        return ('digit', _cp(f[1]), int(f[2]))
    if word == 'set':
        _need(len(f) >= 3)
        name, values = f[1], f[2:]
        if name in CHOICES:
            _need(len(values) == 1 and values[0] in CHOICES[name])
            return ('set', name, values[0])
        if name == 'numeric':
            _need(len(values) == 1)
            return ('set', name, _match(HH_RE, values[0], 16))
        if name == 'groups':
            _need(len(values) == 4)
            return ('set', name, tuple(_match(HHHH_RE, v, 16) for v in values))
        if name == 'compress':
            return ('set', name, tuple(_match(HH_RE, v, 16) for v in values))
        if name == 'reorder':
            _need(len(values) % 2 == 0)
            v = [_match(HH_RE, v, 16) for v in values]
            return ('set', name, tuple(zip(v[::2], v[1::2])))
    raise Bad


def _v14_key(says):
    """V14: what a second line may not be for."""
    kind = says[0]
    if kind in ('w', 't'):
        return says[:3]
    if kind == 'range':
        return None
    return says[:2]


def _named(says):
    """Code points named in a line other than `range`."""
    kind = says[0]
    if kind in ('class', 'digit'):
        return (says[1],)
    if kind in ('map', 'kmap'):
        return (says[1],) + says[2]
    if kind in ('w', 't'):
        return says[1] + says[2]
    return ()


class Records:
    """What an accepted file says: the record set."""

    def __init__(self):
        self.classes = {}     # file's lines alone
        self.maps = {}        # c -> (characters, composed)
        self.kmaps = {}
        self.layers = {'w': {}, 't': {}}  # (prefix, text) -> elements
        self.ranges = []
        self.digits = {}
        self.alternate = 'nonignorable'
        self.backward = 'off'
        self.casefirst = 'off'
        self.maxvariable = 'space'
        self.dotabove = 'off'
        self.numeric = 0x10
        self.groups = (0x300,) * 4
        self.compress = ()
        self.reorder = ()

    def _finish(self):
        self.effective = dict(self.layers['w'])
        self.effective.update(self.layers['t'])
        self.compressible = frozenset(self.compress) | {0xFE}
        self.reorder_map = dict(self.reorder)
        self.pairs = {m[0]: c for c, m in self.maps.items() if m[1]}
        self.texts = {}        # first character -> {text: elements}, without prefix
        self.prefixed = {}     # character -> {prefix: elements}
        self.longest = {}
        for (prefix, text), els in self.effective.items():
            if prefix:
                self.prefixed.setdefault(text[0], {})[prefix] = els
            else:
                self.texts.setdefault(text[0], {})[text] = els
                self.longest[text[0]] = max(self.longest.get(text[0], 1), len(text))
        self._full = {}
        self._kfull = {}

    def add(self, says):
        kind = says[0]
        if kind == 'class':
            self.classes[says[1]] = says[2]
        elif kind == 'map':
            self.maps[says[1]] = (says[2], says[3])
        elif kind == 'kmap':
            self.kmaps[says[1]] = says[2]
        elif kind in ('w', 't'):
            self.layers[kind][says[1], says[2]] = says[3]
        elif kind == 'range':
            self.ranges.append(says[1:])
        elif kind == 'digit':
            self.digits[says[1]] = says[2]
        else:
            setattr(self, says[1], says[2])

    # -- class, mapping step and full list of one character
    def cls(self, c):
        """Class of a character, 0 if none is given."""
        if c in BUILTIN_CLASS:
            return BUILTIN_CLASS[c]
        return 0 if is_jamo(c) or is_syllable(c) or c == 0xFFFD else self.classes.get(c, 0)

    def step(self, c):
        """The mapping step: characters of the canonical mapping, or None (a built-in one before what a line says)."""
        m = builtin_step(c)
        if m is None and c in self.maps and not (c in BUILTIN_KMAP or is_jamo(c) or c == 0xFFFD):
            m = self.maps[c][0]
        return m

    def kstep(self, c):
        """A mapping of either kind (compatibility forms)."""
        if builtin_step(c) is not None or c in BUILTIN_KMAP:
            return BUILTIN_KMAP.get(c) or self.step(c)
        return None if is_jamo(c) or c == 0xFFFD else self.step(c) or self.kmaps.get(c)

    def full(self, c):
        """The full list of a character."""
        r = self._full.get(c)
        if r is None:
            m = self.step(c)
            r = (c,) if m is None else tuple(x for d in m for x in self.full(d))
            self._full[c] = r
        return r

    def kfull(self, c):
        """The full list by both kinds of mapping."""
        r = self._kfull.get(c)
        if r is None:
            m = self.kstep(c)
            r = (c,) if m is None else tuple(x for d in m for x in self.kfull(d))
            self._kfull[c] = r
        return r

    def compose_pair(self, a, b):
        """Composed pairs, Hangul included."""
        return self.pairs.get((a, b)) or hangul_compose(a, b)

    def range_of(self, c):
        for r in self.ranges:
            if r[0] <= c <= r[1]:
                return r
        return None

    def settings(self):
        """Settings by value (compress as a set, reorder as a function)."""
        return (self.alternate, self.backward, self.casefirst, self.maxvariable, self.dotabove,
                self.numeric, self.groups, frozenset(self.compress),
                frozenset(p for p in self.reorder if p[0] != p[1]))

    def settings_equal(self, other):
        """Whether all settings have equal values."""
        return self.settings() == other.settings()

    def describe(self, c):
        """What of a character makes it a changed one where it differs."""
        return (self.cls(c), self.step(c), self.range_of(c), self.digits.get(c),
                self.texts.get(c, {}), self.prefixed.get(c, {}))

    def changed(self, other, c):
        """Whether a character is changed."""
        return self.describe(c) != other.describe(c)

    def reached(self, chars):
        """What a text reaches: every character that steps, none included, bring into the text."""
        seen = set()
        todo = list(chars)
        while todo:
            c = todo.pop()
            if c not in seen:
                seen.add(c)
                todo.extend(self.step(c) or ())
        return seen

    def is_unsafe(self, c):
        """Unsafe characters: marks, what stands second or later in a text, what has a prefix, and what begins so."""
        if not hasattr(self, '_unsafe'):
            later = {x for _, text in self.effective for x in text[1:]}
            self._unsafe = later | set(self.prefixed)
        f = self.full(c)[0]
        return bool(self.cls(c) or c in self._unsafe or self.cls(f) or f in self._unsafe)

    def touched(self, other, chars):
        """A touched text reaches a changed character under the old records (self)."""
        return any(self.changed(other, c) for c in self.reached(chars))


# -- weights
def primary_bytes(p):
    """A primary's bytes without trailing 00."""
    return p.to_bytes(4, 'big').rstrip(b'\0')


def weight_bytes(w):
    """A secondary's or tertiary's bytes without trailing 00."""
    return w.to_bytes(2, 'big').rstrip(b'\0')


def fits_word(e):
    """An element that one word holds."""
    p, s, c, t, q = e
    if q:
        return False
    if p & 0xFFFF == 0 and s & 0xFF == 0 and t & 0xFF == 0:
        return True
    if p and p & 0xFF == 0 and (s, c, t) == (0x500, 0, 0x500):
        return True
    return p == 0 and t & 0xFF == 0


def range_room(primary, compressible):
    """V6: (place of a three-byte primary in its lead, number of places)."""
    b2, b3 = primary >> 16 & 0xFF, primary >> 8 & 0xFF
    low, size = (4, 251) if compressible else (2, 254)
    return (b2 - low) * 254 + b3 - 2, size * 254


# -- the rules
class _Checker:
    """Rules over lines that are grammatical; each rule yields its offending lines."""

    def __init__(self, said, prefix_limit):
        self.said = said                       # [(line, says)]
        self.r = r = Records()
        self.line = line = {}                  # V14 key -> line
        for n, says in said:
            r.add(says)
            key = _v14_key(says)
            if key:
                line[key] = n
        r._finish()

    def of(self, *kinds):
        return [(n, s) for n, s in self.said if s[0] in kinds]

    def class_line(self, c):
        """The line that makes c a mark; 0 where a built-in does, for a line that says it again adds nothing."""
        return 0 if c in BUILTIN_CLASS else self.line.get(('class', c), 0)

    def set_line(self, name):
        return self.line.get(('set', name), 0)

    def numeric_line(self):
        """The line that makes the numeric lead what it is; 0 where that is the default."""
        return 0 if self.r.numeric == 0x10 else self.set_line('numeric')

    def prefix_state(self, n):
        """The records that lines up to n say."""
        r = Records()
        for k, says in self.said:
            if k <= n:
                r.add(says)
        r._finish()
        return r

    # limit
    def limit(self):
        cps, ranges, saying = set(), 0, 0
        for n, s in self.said:
            saying += 1
            cps.update(_named(s))
            ranges += s[0] == 'range'
            if saying > SAYING_LIMIT or len(cps) + ranges > CP_LIMIT:
                yield n
                return
            if s[0] == 'kmap' and len(s[2]) > LIST_LIMIT:
                yield n
            if s[0] in ('w', 't') and (len(s[2]) > LIST_LIMIT or len(s[3]) > LIST_LIMIT):
                yield n

    @staticmethod
    def restated(s):
        """A mapping line whose characters are the built-in mapping's."""
        if s[0] == 'map':
            return builtin_step(s[1]) == s[2]
        return BUILTIN_KMAP.get(s[1]) == s[2]

    @staticmethod
    def aside(s):
        """Built-ins aside: what a line says of a character with a built-in mapping is C8's alone."""
        return builtin_step(s[1]) is not None or s[1] in BUILTIN_KMAP or is_jamo(s[1]) or s[1] == 0xFFFD

    @staticmethod
    def said_again(s):
        """A line that says exactly what is built in: accepted (C8), whatever other rules say of such a line."""
        c = s[1]
        if s[0] == 'class':
            return BUILTIN_CLASS.get(c, 0 if is_jamo(c) or is_syllable(c) or c == 0xFFFD else None) == s[2]
        if s[0] == 'map':
            return builtin_step(c) == s[2] and s[3] == is_syllable(c)
        return BUILTIN_KMAP.get(c) == s[2]

    def c1(self):
        for n, s in self.of('map', 'kmap'):
            if self.aside(s):
                continue
            c = s[1]
            if self.r.cls(c):
                yield max(n, self.class_line(c))
            other = self.line.get(('kmap' if s[0] == 'map' else 'map', c))
            if other:
                yield max(n, other)

    def c2(self):
        graph = {}

        def after(c):
            out = set(graph.get(c, ()))
            out.update(builtin_step(c) or ())
            out.update(BUILTIN_KMAP.get(c, ()))
            return out
        for n, s in self.of('map', 'kmap'):
            if self.aside(s):
                continue
            graph.setdefault(s[1], set()).update(s[2])
            seen, todo = set(), list(s[2])
            while todo:
                c = todo.pop()
                if c not in seen:
                    seen.add(c)
                    todo.extend(after(c))
            if s[1] in seen:
                yield n
                return

    def c3(self):
        for n, s in self.of('class'):
            if not 1 <= s[2] <= 254 and not self.said_again(s):
                yield n

    @staticmethod
    def _c4_broken(r):
        """C4 over the mapped characters of r, built-ins aside."""
        mapped = set(r.maps) | set(r.kmaps)
        for kind in (r.step, r.kstep):
            length, first = {}, {}

            def walk(c):
                if c not in length:
                    m = kind(c)
                    if m is None:
                        length[c], first[c] = 1, c
                    else:
                        for d in m:
                            walk(d)
                        length[c] = sum(length[d] for d in m)
                        first[c] = first[m[0]]
            for c in mapped:
                walk(c)
                if _Checker.aside(('map', c)):
                    continue
                if length[c] > LIST_LIMIT or r.cls(first[c]):
                    return True
        return False

    def c4(self):
        if self._c4_broken(self.r):
            for n, s in self.of('map', 'kmap', 'class'):
                if self._c4_broken(self.prefix_state(n)):
                    yield n
                    return

    def c5(self):
        seen = {}
        for n, s in self.of('map'):
            if s[3] and not self.aside(s):
                if s[2] in seen:
                    yield n
                seen[s[2]] = n

    def c6(self):
        for n, s in self.of('map'):
            if s[3] and not self.aside(s) and (s[2][1] < 0x300 or 0x1161 <= s[2][1] <= 0x11FF):
                yield n

    def c7(self):
        for n, s in self.of('class', 'map', 'kmap'):
            if s[0] == 'class' and s[1] < 0x300:
                yield n
            if s[0] == 'map' and s[1] < 0xC0 or s[0] == 'kmap' and s[1] < 0xA0:
                yield n
        from norm import composed
        low = [c for c in self.r.maps if c < 0x300]
        bad = [c for c in low if composed(self.r, [c]) != [c]]
        if bad:
            least = {}
            for n, s in reversed(self.of('class', 'map')):
                r = self.prefix_state(n)
                still = [c for c in bad if composed(r, [c]) != [c]]
                for c in still:
                    least[c] = n
                bad = still
                if not bad:
                    break
            yield from least.values()

    def c8(self):
        for n, s in self.of('class', 'map', 'kmap'):
            c = s[1]
            unmapped = is_jamo(c) or c == 0xFFFD
            if s[0] == 'class':
                if c in BUILTIN_CLASS and BUILTIN_CLASS[c] != s[2]:
                    yield n
                elif (unmapped or is_syllable(c)) and s[2] != 0:
                    yield n
            elif unmapped:
                yield n
            elif s[0] == 'map':
                b = builtin_step(c)
                if c in BUILTIN_KMAP:
                    yield n
                elif b is not None and (b != s[2] or s[3] != is_syllable(c)):
                    yield n
            else:
                if builtin_step(c) is not None or BUILTIN_KMAP.get(c, s[2]) != s[2]:
                    yield n

    def c9(self):
        for n, s in self.of('map', 'kmap'):
            if not self.said_again(s) and any(is_jamo(c) or is_syllable(c) for c in (s[1],) + s[2]):
                yield n

    # V rules
    def elements(self):
        for n, s in self.of('w', 't'):
            for e in s[3]:
                yield n, e

    def v1(self):
        for n, (p, s, c, t, q) in self.elements():
            primary = p and s and t
            secondary = p == 0 and s and t
            tertiary = p == 0 and s == 0 and c == 2 and t >> 8 >= 6
            if not (primary or secondary or tertiary):
                yield n

    def primary_faults(self, n, p):
        """V2 on one primary: its offending lines."""
        lead = p >> 24
        b = primary_bytes(p)
        if not 3 <= lead <= 0xFC or len(b) < 2 or any(x < 2 for x in b[1:]):
            yield n
        if lead == self.r.numeric:
            yield max(n, self.numeric_line())
        if lead in self.r.compressible and len(b) > 1 and not 4 <= b[1] <= 0xFE:
            yield max(n, self.set_line('compress'))

    def v2(self):
        for n, e in self.elements():
            if e[0]:
                yield from self.primary_faults(n, e[0])

    def v3(self):
        for n, e in self.elements():
            s = e[1]
            if s and s != 0x500:
                if not (s >> 8 in (3, 4) or s >> 8 >= 0x46) or s & 0xFF == 1:
                    yield n

    def v4(self):
        for n, e in self.elements():
            t = e[3]
            if t != 0x500:
                lead, low = t >> 8, t & 0xFF
                if not (2 <= lead <= 4 or 6 <= lead <= 0x3F) or low > 0x3F or low == 1:
                    yield n

    def v5(self):
        for level, f in ((0, primary_bytes), (1, weight_bytes), (3, weight_bytes)):
            whole, begun = set(), set()
            for n, e in self.elements():
                if e[level]:
                    b = f(e[level])
                    heads = [b[:k] for k in range(1, len(b))]
                    if b in begun or any(h in whole for h in heads):
                        yield n
                        break
                    whole.add(b)
                    begun.update(heads)

    def v6(self):
        ranges = self.of('range')
        for i, (n, (_, first, last, p, step)) in enumerate(ranges):
            b2, b3 = p >> 16 & 0xFF, p >> 8 & 0xFF
            lead = p >> 24
            sound = first <= last and 1 <= step <= 127 and p & 0xFF == 0 and b2 >= 2 and b3 >= 2
            if not sound:
                yield n
            yield from self.primary_faults(n, p)
            if first <= 0x11FF and last >= 0x1100 and first <= last:
                yield n
            if sound:
                comp = lead in self.r.compressible
                place, room = range_room(p, comp)
                if place + (last - first) * step >= room:
                    plain, whole = range_room(p, False)
                    alone = plain + (last - first) * step >= whole
                    yield n if alone or not comp else max(n, self.set_line('compress'))
            for m, s in ranges[:i]:
                if s[1] <= last and first <= s[2]:
                    yield n
            for m, e in self.elements():
                if e[0] and e[0] >> 24 == lead:
                    yield max(n, m)

    def v7(self):
        cls = self.r.cls
        for n, s in self.of('w', 't'):
            for part in (s[1], s[2]):
                for i, c in enumerate(part):
                    if builtin_step(c) is not None:
                        yield n
                    elif self.r.step(c) is not None:
                        yield max(n, self.line['map', c])
                    if i and cls(part[i - 1]) > cls(c) > 0:
                        yield max(n, self.class_line(c), self.class_line(part[i - 1]))

    def v8(self):
        cls = self.r.cls
        for n, s in self.of('w', 't'):
            text = s[2]
            for j, b in enumerate(text):
                if not cls(b):
                    for a in text[:j]:
                        if cls(a):
                            yield max(n, self.class_line(a))

    def v9(self):
        for n, s in self.of('w', 't'):
            text = s[2]
            if len(text) > 2 and self.r.cls(text[-1]) and ((), text[:-1]) not in self.r.effective:
                yield n

    def v10(self):
        for n, s in self.of('w', 't'):
            prefix, text = s[1], s[2]
            if not prefix:
                continue
            if len(text) != 1 or ((), text) not in self.r.effective or 0 in prefix:
                yield n
            for c in prefix + text[:1]:
                if self.r.cls(c):
                    yield max(n, self.class_line(c))
                if is_jamo(c):
                    yield n
                if c in self.r.digits:
                    yield max(n, self.line['digit', c])

    def record_line(self, prefix, text):
        return self.line.get(('t', prefix, text)) or self.line.get(('w', prefix, text), 0)

    def lone_fault(self, c, n):
        """The offending line where c has no lone record needed in line n, else None."""
        own = self.r.texts.get(c, {})
        if (c,) not in own:
            return n
        others = [((), t) for t in own if t != (c,)]
        others += [(p, (c,)) for p in self.r.prefixed.get(c, ())]
        if not others:
            return None
        if LONE == 'needs':
            return n
        return max(n, min(self.record_line(*k) for k in others))

    def v11(self):
        for n, s in self.of('digit'):
            c = s[1]
            if self.r.cls(c):
                yield max(n, self.class_line(c))
            if is_jamo(c):
                yield n
            f = self.lone_fault(c, n)
            if f is not None:
                yield f

    def v12(self):
        for n, s in self.of('w', 't'):
            prefix, text = s[1], s[2]
            if not any(is_jamo(c) for c in text):
                continue
            if len(text) > 1 or prefix:
                yield n
            elif self.record_line(prefix, text) == n and (len(s[3]) != 1 or not fits_word(s[3][0])):
                yield n

    def v13(self):
        for n, s in self.of('w', 't', 'digit', 'range'):
            if s[0] == 'range':
                hit = any(s[1] <= c <= s[2] for c in SPECIAL)
            else:
                hit = any(c in SPECIAL for c in _named(s))
            if hit:
                yield n

    def v15(self):
        if self.r.dotabove == 'on':
            n = self.set_line('dotabove')
            for c in range(0x300, 0x308):
                f = self.lone_fault(c, n)
                if f is not None:
                    yield f
                els = self.r.texts.get(c, {}).get((c,))
                if els is None:
                    continue
                if len(els) != 1 or (els[0][0], els[0][2], els[0][3], els[0][4]) != (0, 0, 0x500, 0):
                    yield n if LONE == 'needs' else max(n, self.record_line((), (c,)))

    def set(self):
        r = self.r
        if not 3 <= r.numeric <= 0xFC:
            yield self.set_line('numeric')
        if any(not 3 <= h <= 0xFC for h in r.compress):
            yield self.set_line('compress')
        g = r.groups
        if any(a > b for a, b in zip(g, g[1:])) or g[0] < 0x300 or min(g) < 0x300:
            yield self.set_line('groups')
        if any(x >> 8 == r.numeric and x & 0xFF for x in g):
            yield max(self.set_line('groups'), self.numeric_line())
        left = [a for a, b in r.reorder]
        right = [b for a, b in r.reorder]
        if (any(not 3 <= h <= 0xFC for h in left + right) or len(set(left)) != len(left)
                or len(set(right)) != len(right) or set(left) != set(right)):
            yield self.set_line('reorder')
        if any((a in r.compressible) != (b in r.compressible) for a, b in r.reorder):
            yield max(self.set_line('reorder'), self.set_line('compress'))


ORDER = (['limit'] + ['C%d' % i for i in range(1, 10)]
         + ['V%d' % i for i in range(1, 16) if i != 14] + ['set'])


def _lines(data):
    """Lines without LF, and the number of the line that passes the file's size, or None."""
    over = None
    if len(data) > FILE_LIMIT:
        over = data.count(b'\n', 0, FILE_LIMIT) + 1
    lines = data.split(b'\n')
    if lines[-1] == b'':
        lines.pop()
    return lines, over


def read(data, prefix_limit=3):
    """Records of an accepted file, or its first fault."""
    data = bytes(data)
    lines, over = _lines(data)
    said, keys = [], set()
    for n, raw in enumerate(lines, 1):
        if n == over:
            return Fault(n, 'grammar')
        if not raw:
            continue
        try:
            says = parse_line(raw, prefix_limit)
        except Bad:
            return Fault(n, 'grammar')
        if says is None:
            continue
        key = _v14_key(says)
        if key is not None:
            if key in keys:
                return Fault(n, 'V14')
            keys.add(key)
        said.append((n, says))
    checker = _Checker(said, prefix_limit)
    for rule in ORDER:
        offending = list(getattr(checker, rule.lower())())
        if offending:
            return Fault(min(offending), rule)
    return checker.r
