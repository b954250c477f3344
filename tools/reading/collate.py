"""Elements, levels, order and keys, over Records.

An element is a tuple of primary, secondary, case, tertiary and quaternary, and, behind `shift`, of whether it is shifted.
"""
from collections import namedtuple
from norm import decomposed

COMMON = (0x500, 0, 0x500, 0)     # S, C, T, Q of the common rest
SPECIALS = {0xFFFE: 0x02000000, 0xFFFD: 0xFFFD0000, 0xFFFF: 0xFFFF0000}
STRENGTHS = {'primary': 0, 'secondary': 1, 'tertiary': 2, 'quaternary': 3, 'identical': 7}
VARIABLES = ('space', 'punctuation', 'symbol', 'currency')

# What a caller asks for: each None where not given; numeric and caselevel 'on' or 'off'.
Options = namedtuple('Options', 'strength alternate maxvariable caselevel casefirst numeric',
                     defaults=(None,) * 6)
Resolved = namedtuple('Resolved', 'strength alternate maxvariable caselevel casefirst numeric')


def resolve(r, o):
    """Resolved options."""
    return Resolved(STRENGTHS[o.strength or 'tertiary'], o.alternate or r.alternate,
                    o.maxvariable or r.maxvariable, (o.caselevel or 'off') == 'on',
                    o.casefirst or r.casefirst, (o.numeric or 'off') == 'on')


def condition_n(r, o):
    """Plain leads: numeric ordering is off, or its lead isn't compressible."""
    return not (resolve(r, o).numeric and r.numeric in r.compress)


# -- default elements
def implicit_primary(c):
    x = c + 1
    return 0xFE << 24 | (4 + x // 18 // 254 % 251) << 16 | (2 + x // 18 % 254) << 8 | 2 + x % 18 * 14


def jamo_primary(c):
    i = c - 0x1100
    return 0xFD << 24 | (4 + i // 128) << 16 | (2 + i % 128) << 8


def range_primary(r, rng, c):
    """The primary of a range, moved by (c - first) steps."""
    first, _, p, step = rng
    low, size = (4, 251) if p >> 24 in r.compressible else (2, 254)
    third = (p >> 8 & 0xFF) - 2 + (c - first) * step
    second = (p >> 16 & 0xFF) - low + third // 254
    return p & 0xFF000000 | (low + second % size) << 16 | (2 + third % 254) << 8


def own_elements(r, c):
    """Default elements: those of a character without record."""
    if c in SPECIALS:
        p = SPECIALS[c]
    else:
        rng = r.range_of(c)
        if rng:
            p = range_primary(r, rng, c)
        elif 0x1100 <= c <= 0x11FF:
            p = jamo_primary(c)
        else:
            p = implicit_primary(c)
    return ((p,) + COMMON,)


# -- number elements
def number_elements(n, digits):
    """Number elements: those of a maximal run of digits; n is the numeric lead."""
    out = []
    i = 0
    while i < len(digits):
        while i < len(digits) - 1 and digits[i] == 0:     # leading zeros go, one stays
            i += 1
        part = digits[i:i + 254]
        i += 254
        out += _number_part(n, part)
    return out


def _number_part(n, digits):
    if len(digits) <= 7:
        v = int(''.join(map(str, digits)))
        if v < 74:
            return [_primary((n, 2 + v))]
        w = v - 74
        if w < 10160:
            return [_primary((n, 76 + w // 254, 2 + w % 254))]
        w = v - 10234
        if w < 1032256:
            return [_primary((n, 116 + w // 64516, 2 + w // 254 % 254, 2 + w % 254))]
    pairs = (len(digits) + 1) // 2
    digits = [0] * (len(digits) % 2) + list(digits)
    values = [digits[k] * 10 + digits[k + 1] for k in range(0, len(digits), 2)]
    while values[-1] == 0:
        values.pop()
    body = [128 + pairs] + [11 + 2 * v for v in values]
    body[-1] -= 1
    return [_primary((n,) + tuple(body[k:k + 3])) for k in range(0, len(body), 3)]


def _primary(b):
    return (int.from_bytes(bytes(b) + bytes(4 - len(b)), 'big'),) + COMMON


# -- match, elements of a text
def elements_of_list(r, d, numeric):
    """Elements of a decomposed list d (list of characters)."""
    out = []
    n = len(d)
    joined = [False] * n
    cls = r.cls
    i = 0
    while i < n:
        if joined[i]:
            i += 1
            continue
        c = d[i]
        # case 1
        if c in SPECIALS:
            out.append((SPECIALS[c],) + COMMON)
            i += 1
            continue
        # case 2
        if numeric and c in r.digits:
            run = []
            while i < n and (joined[i] or d[i] in r.digits):
                if not joined[i]:
                    run.append(r.digits[d[i]])
                i += 1
            out += number_elements(r.numeric, run)
            continue
        # case 3
        if c == 0x307 and r.dotabove == 'on':
            j = i + 1
            while j < n and joined[j]:
                j += 1
            if j < n and d[j] in (0x300, 0x301, 0x303):
                i += 1
                continue
        # case 4
        if c in r.prefixed:
            best = None
            for prefix in r.prefixed[c]:
                k = len(prefix)
                if k <= i and tuple(d[i - k:i]) == prefix and (best is None or k > len(best)):
                    best = prefix
            if best is not None:
                out += r.prefixed[c][best]
                i += 1
                continue
        # case 5
        texts = r.texts.get(c)
        if texts is None:
            out += own_elements(r, c)
            i += 1
            continue
        window, places = [], []
        j = i
        while j < n and len(window) < r.longest[c]:
            if not joined[j]:
                window.append(d[j])
                places.append(j)
            j += 1
        size = 1
        for k in range(len(window), 1, -1):
            if tuple(window[:k]) in texts:
                size = k
                break
        match = tuple(window[:size])
        j = places[size - 1] + 1
        i = j
        highest = 0                  # class of the highest mark left between
        while j < n and cls(d[j]):
            if not joined[j]:
                k = cls(d[j])
                if highest < k and match + (d[j],) in texts:
                    match += (d[j],)
                    joined[j] = True
                else:
                    highest = max(highest, k)
            j += 1
        # case 6 where there is no record
        els = texts.get(match)
        out += own_elements(r, c) if els is None else els
    return out


# -- shifted elements
def variable_top(r, res):
    return r.groups[VARIABLES.index(res.maxvariable)] << 16


def shift(r, res, els):
    """Shifted elements: a variable element keeps its primary; elements without primary behind it nothing."""
    if res.alternate != 'shifted':
        return [e + (False,) for e in els]
    top = variable_top(r, res)
    out, behind = [], False
    for e in els:
        p = e[0]
        if 0x02000000 < p < top:
            out.append((p, 0, 0, 0, 0, True))
            behind = True
        elif p:
            out.append(e + (False,))
            behind = False
        elif not behind:
            out.append(e + (False,))
    return out


def elements(r, options, chars):
    """Elements of a text, shifted where the options say so."""
    res = resolve(r, options)
    return shift(r, res, elements_of_list(r, decomposed(r, chars), res.numeric))


# -- levels
def reordered(r, p):
    lead = p >> 24
    return p & 0xFFFFFF | r.reorder_map.get(lead, lead) << 24


def level_primary(r, res, els):
    return [reordered(r, e[0]) for e in els if e[0] and not e[5]]


def level_secondary(r, res, els):
    if r.backward != 'on':
        return [e[1] for e in els if e[1]]
    out, segment = [], []
    for e in els:
        if e[0] == 0x02000000:
            out += segment[::-1]
            out.append(0)            # one weight below all others
            segment = []
        elif e[1]:
            segment.append(e[1])
    return out + segment[::-1]


def level_case(r, res, els):
    """C; with upper first -C, so that a greater C counts as lower."""
    sign = -1 if res.casefirst == 'upper' else 1
    return [sign * e[2] for e in els if e[1] and (res.strength != 0 or e[0])]


def level_tertiary(r, res, els):
    out = []
    bits = res.casefirst != 'off' and not res.caselevel
    for _, s, c, t, _, _ in els:
        if t:
            if not bits:
                w = t
            else:
                w = (c << 14) + t
                if res.casefirst == 'upper':
                    w = w ^ 0xC000 if s else w + 0x4000
            out.append(w)
    return out


def level_quaternary(r, res, els):
    out = []
    for e in els:
        if e[5]:
            out.append(reordered(r, e[0]))
        elif e[3]:
            out.append((1 << 32) + e[4])
    return out


def level_characters(d):
    return [-1 if c == 0xFFFE else c for c in d]


LEVELS = ('primary', 'secondary', 'case', 'tertiary', 'quaternary', 'characters')


def levels(r, options, chars):
    """The levels that are compared in turn, as [(name, list)]."""
    res = resolve(r, options)
    d = decomposed(r, chars)
    els = shift(r, res, elements_of_list(r, d, res.numeric))
    out = [('primary', level_primary(r, res, els))]
    if res.strength >= 1:
        out.append(('secondary', level_secondary(r, res, els)))
    if res.caselevel:
        out.append(('case', level_case(r, res, els)))
    if res.strength >= 2:
        out.append(('tertiary', level_tertiary(r, res, els)))
    if res.strength >= 3:
        out.append(('quaternary', level_quaternary(r, res, els)))
    if res.strength >= 7:
        out.append(('characters', level_characters(d)))
    return out


def sort_value(r, options, chars):
    """A value whose order in Python is the collation order."""
    return tuple(v for _, v in levels(r, options, chars))


def compare_values(a, b):
    return (a > b) - (a < b)


def compare(r, options, a, b):
    """Collation order: -1 Less, 0 Equal, 1 Greater of two lists of characters."""
    return compare_values(sort_value(r, options, a), sort_value(r, options, b))


# -- key bytes
def key_primary(r, weights):
    out = bytearray()
    run = 0                          # the primary before, in a compressible run; else 0
    for p in weights:
        lead = p >> 24
        # the lead and its new lead are alike compressible (rule set)
        comp = lead in r.compressible
        if not (comp and run and run >> 24 == lead):
            if run:
                if p < run:
                    if lead != 2:
                        out.append(3)
                else:
                    out.append(0xFF)
            out.append(lead)
        run = p if comp else 0
        out += p.to_bytes(4, 'big').rstrip(b'\0')[1:]
    return out


def key_runs(weights, common, low, middle, high, most, write):
    """A level with runs of common weights; the level's or segment's end is lower."""
    out = bytearray()
    n = 0

    def flush(higher):
        q, rest = divmod(n - 1, most)
        out.extend([middle] * q)
        out.append(high - rest if higher else low + rest)
    for w in weights:
        if w == common:
            n += 1
            continue
        if n:
            flush(w > common)
            n = 0
        out.extend(write(w))
    if n:
        flush(False)
    return out


def weight16(w):
    return w.to_bytes(2, 'big').rstrip(b'\0')


def key_secondary(r, weights):
    # with backward on, 0 (a U+FFFE) is lower than the common weight and is written as 02
    return key_runs(weights, 0x500, 0x05, 0x25, 0x45, 33,
                    lambda w: weight16(w) if w else b'\2') + b'\1'


def key_case(res, weights):
    nibbles = []
    n = 0
    if res.casefirst == 'upper':
        def flush(higher):
            q, rest = divmod(n - 1, 13)
            nibbles.extend([15] * q + [3 + rest])
        names = {-1: 2, -2: 1}
    else:
        def flush(higher):
            q, rest = divmod(n - 1, 7)
            nibbles.extend([7] * q + [13 - rest if higher else 1 + rest])
        names = {1: 14, 2: 15}
    for w in weights:
        if w == 0:
            n += 1
            continue
        if n:
            flush(True)
            n = 0
        nibbles.append(names[w])
    if n and (nibbles or res.casefirst == 'upper'):
        flush(False)
    if len(nibbles) % 2:
        nibbles.append(0)
    return bytes(a << 4 | b for a, b in zip(nibbles[::2], nibbles[1::2]))


def key_tertiary(res, weights):
    bits = res.casefirst != 'off' and not res.caselevel
    if not bits:
        return key_runs(weights, 0x500, 0x05, 0x65, 0xC5, 97,
                        lambda w: weight16(w + 0xC000 if w > 0x500 else w)) + b'\1'
    if res.casefirst == 'lower':
        return key_runs(weights, 0x500, 0x05, 0x25, 0x45, 33,
                        lambda w: weight16(w + 0x4000 if w > 0x500 else w)) + b'\1'
    # upper first: the numbers of the level have C000 exchanged and tertiary elements moved already
    return key_runs(weights, 0xC500, 0x85, 0xA5, 0xC5, 33,
                    lambda w: weight16(w - 0x4000 if w < 0xC500 else w)) + b'\1'


def key_quaternary(res, weights):
    common = 1 << 32
    if res.alternate == 'nonignorable' and all(w == common for w in weights):
        return b'\1'

    def write(w):
        if w > common:
            return bytes([0xFC + w - common])
        b = w.to_bytes(4, 'big').rstrip(b'\0')
        return b'\x1b' + b if b[0] >= 0x1B else b
    return key_runs(weights, common, 0x1C, 0x8C, 0xFC, 113, write) + b'\1'


def key_characters(d):
    out = bytearray()
    last = 0
    for c in d:
        p = 0x9FFF - 10667 if 0x4E00 <= last <= 0x9FFF else (last & ~0x7F) + 80
        if c == 0xFFFE:
            out.append(2)
            last = 0
            continue
        x = c - p
        if -80 <= x <= 80:
            out.append(129 + x)
        elif 80 < x <= 10667:
            out += bytes((210 + x // 253, 3 + x % 253))
        elif 80 < x <= 192785:
            out += bytes((252 + x // 64009, 3 + x // 253 % 253, 3 + x % 253))
        elif x > 192785:
            out += bytes((255, 3 + x // 64009 % 253, 3 + x // 253 % 253, 3 + x % 253))
        elif x >= -10668:
            out += bytes((49 + x // 253, 3 + x % 253))
        elif x >= -192786:
            out += bytes((7 + x // 64009, 3 + x // 253 % 253, 3 + x % 253))
        else:
            out += bytes((3, 3 + x // 64009 % 253, 3 + x // 253 % 253, 3 + x % 253))
        last = c
    return out


def key(r, options, chars):
    """Key bytes."""
    return key_of_levels(r, options, levels(r, options, chars))


def key_of_levels(r, options, levs):
    """Key bytes, which are a function of the levels."""
    res = resolve(r, options)
    out = bytearray()
    for name, weights in levs:
        if name == 'primary':
            out += key_primary(r, weights)
            continue
        out.append(1)
        if name == 'secondary':
            out += key_secondary(r, weights)
        elif name == 'case':
            out += key_case(res, weights)
        elif name == 'tertiary':
            out += key_tertiary(res, weights)
        elif name == 'quaternary':
            out += key_quaternary(res, weights)
        else:
            out += key_characters([0xFFFE if c < 0 else c for c in weights])
    return bytes(out)
