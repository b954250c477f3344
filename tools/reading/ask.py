#!/usr/bin/env python3
"""What the independent reading answers: the program `collate`, and a few more words for use from a shell.

  ask.py FILE [OPTION=VALUE]..                      the program: stdin to stdout
  ask.py :key FILE [OPTION=VALUE].. -- TEXT..       the key of each text, in hex
  ask.py :compare FILE [OPTION=VALUE].. -- A B      Less, Equal or Greater, and the levels
  ask.py :list FILE -- TEXT..                       the decomposed list
  ask.py :nfc|:nfkc|:nfkd FILE -- TEXT..            the other forms
  ask.py :elements FILE [OPTION=VALUE].. -- TEXT..  elements, shifted where the options say so
  ask.py :levels FILE [OPTION=VALUE].. -- TEXT..    the levels that are compared
  ask.py :read FILE                                 accepted, or LINE RULE
  ask.py :reaches FILE -- TEXT..                    the characters that a text reaches

Prefixes have up to three characters.
A TEXT may hold escapes: \\u{1EA1}, \\xFF (a byte of UTF-8), \\\\.
"""
import os
import re
import sys
import model as m


def text_bytes(word):
    """A TEXT word's bytes."""
    raw = os.fsencode(word)

    def one(g):
        if g[1]:
            return chr(int(g[1], 16)).encode('utf-8', 'surrogatepass')
        return bytes([int(g[2], 16)]) if g[2] else b'\\'
    return re.sub(rb'\\(?:u\{([0-9A-Fa-f]+)\}|x([0-9A-Fa-f]{2})|\\)', one, raw)


def show(chars):
    return ' '.join('%04X' % c for c in chars)


def show_element(e):
    return '[%08X.%04X.%d.%04X.%d]%s' % (e[:5] + ('*' if e[5] else '',))


def show_level(weights):
    return ' '.join('%X' % w if w >= 0 else '-%X' % -w for w in weights)


def main(argv):
    if not argv or not argv[0].startswith(':'):
        limit = 3
        chosen = m.choice([w for w in argv if w != 'prefix=3'])
        data = None
        if chosen:
            try:
                with open(chosen[0], 'rb') as f:
                    data = f.read(1048577)
            except OSError:
                pass
        ready = chosen is not None and data is not None
        out, err, status = m.serve(chosen, data, sys.stdin.buffer.read() if ready else b'', limit)
        sys.stdout.buffer.write(out)
        sys.stdout.buffer.flush()
        if err:
            sys.stderr.write(err + '\n')
        return status
    what = argv[0][1:]
    cut = argv.index('--') if '--' in argv else len(argv)
    words = argv[1:cut]
    limit = 3
    words = [w for w in words if w != 'prefix=3']
    texts = [m.decode_utf8(text_bytes(w)) for w in argv[cut + 1:]]
    chosen = m.choice(words)
    if chosen is None:
        sys.stderr.write(__doc__)
        return 2
    with open(chosen[0], 'rb') as f:
        r = m.read(f.read(1048577), limit)
    o = chosen[1]
    if isinstance(r, m.Fault):
        print('refused %d %s' % r)
        return 1
    if what == 'read':
        print('accepted')
    elif what == 'compare':
        a, b = texts
        print({-1: 'Less', 0: 'Equal', 1: 'Greater'}[m.compare(r, o, a, b)])
        for (name, x), (_, y) in zip(m.levels(r, o, a), m.levels(r, o, b)):
            print(' ', name, '=' if x == y else '<' if x < y else '>', '|', show_level(x), '|', show_level(y))
    else:
        for t in texts:
            if what == 'key':
                print(m.key(r, o, t).hex())
            elif what == 'list':
                print(show(m.decomposed(r, t)))
            elif what in ('nfc', 'nfkc', 'nfkd', 'nfd'):
                print(show(m.form(r, t, what.upper())))
            elif what == 'elements':
                print(' '.join(show_element(e) for e in m.elements(r, o, t)))
            elif what == 'levels':
                for name, weights in m.levels(r, o, t):
                    print(name + ':', show_level(weights))
            elif what == 'reaches':
                print(show(sorted(r.reached(t))))
            else:
                sys.stderr.write(__doc__)
                return 2
    return 0


if __name__ == '__main__':
    sys.exit(main(sys.argv[1:]))
